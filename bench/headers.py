#!/usr/bin/env python3
"""Files that NumPy writes, and each byte of their heads spoiled in turn, read by the program format_table.

    /usr/bin/python3 bench/headers.py PROGRAM [COUNT [SEED]]

PROGRAM is crates/format_table/out/format_table, which the gate leaves; COUNT is how many lines there are at least, 100,000 without it.
The files are those of `numpy.lib.format`, of each version, type and order, with up to eight axes and without elements too. Of each file
all elements are read, which have to be NumPy's; then each byte of its head is another one by chance, and what the program answers has
to be what the reader of tools/header_cases.py says, which shares nothing with it. It prints each line that differs, and how many lines
of a kind are equal. It needs NumPy.
"""
import collections
import os
import random
import subprocess
import sys

import numpy as np

sys.path.insert(0, os.path.join(os.path.dirname(os.path.abspath(__file__)), '..', 'tools'))
import header_cases  # noqa: E402
import npy_cases  # noqa: E402


def drawn_array(draw):
    """An array of any of the types, with the ends of its type's range among the elements."""
    dtype = draw.choice(header_cases.TYPES).decode()
    shape = tuple(draw.choice((0, 1, 1, 2, 2, 3)) for _ in range(draw.randint(0, 8)))
    limits = np.iinfo(dtype)
    count = int(np.prod(shape, dtype=np.int64))
    values = [draw.choice((limits.min, limits.max, -1, draw.randint(limits.min, limits.max))) for _ in range(count)]
    order = draw.choice('CF')
    return np.array(np.array(values, dtype=dtype).reshape(shape), dtype=dtype, order=order)


def spoiled(draw, data, size):
    """The file with each byte of its head in turn another one; of the characters of headers more often than of all bytes."""
    for at in range(size):
        byte = draw.choice(b" '\"(){}:,0123456789<>|bfilu\n\xc3\xa9\x00\xff" + bytes([draw.randrange(256)]))
        if byte != data[at]:
            yield data[:at] + bytes([byte]) + data[at + 1:]


def cases(count, draw):
    """Lines, what is wanted for each, and its kind."""
    made = 0
    while made < count:
        array, version = drawn_array(draw), draw.randint(1, 3)
        data = npy_cases.file_of(array, version)
        for line, wanted in npy_cases.region_cases(array, [0] * array.ndim, array.shape, version)[1:]:
            yield line, wanted, 'read whole'
        for file in (data, data[:-1], *spoiled(draw, data, len(data) - array.nbytes)):
            line, wanted = header_cases.head_case(file, 100000)
            made += 1
            yield line, wanted, ' '.join(word for word in wanted.split(':')[0].split() if word.isalpha()) if '-major' not in wanted else 'accepted'


def main():
    program, count, seed = (sys.argv[1:] + ['100000', '1'][len(sys.argv) - 2:])[:3]
    lines, wanted, kinds = zip(*cases(int(count), random.Random(int(seed))))
    ran = subprocess.run([program], input=''.join(line + '\n' for line in lines), capture_output=True, text=True, check=True)
    answers = ran.stdout.splitlines()
    assert len(answers) == len(lines), (len(answers), len(lines))
    equal, different = collections.Counter(), 0
    for line, want, kind, answer in zip(lines, wanted, kinds, answers):
        if answer == want:
            equal[kind] += 1
        else:
            different += 1
            print(f'{line}\n  wanted {want}\n  has {answer}')
    print(f'{len(lines)} lines, {different} differ; equal: ' + ', '.join(f'{kind} {number}' for kind, number in sorted(equal.items())))
    sys.exit(different > 0)


main()
