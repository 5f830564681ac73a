#!/usr/bin/env python3
"""What the launcher says on a terminal, and nowhere else: tools/hint_cases.py LAUNCHER. It prints differences, and how many cases agree."""
import os
import pty
import struct
import subprocess
import sys
import tempfile

INPUT = 'input a "a.npy" shape (4, 6) chunks (2, 3)\n'
WORDS = [  # words, and the line below `dask: words`
    ('walk job.txt', 'there is no command walk; the commands are run, plain, sim and gen'),
    ('run', 'run has JOB beside options, and here stands none'),
    ('sim job.txt', 'sim has JOB NUMBER beside options, and here stands job.txt'),
    ('gen -1', 'gen has no option -1; it has --workers, --threads'),
    ('gen seven', 'seven is no NUMBER from 0 to 2^64 - 1'),
    ('run job.txt --memory 1G', '--memory is bytes: 1G is --memory 1000000000'),
    ('run job.txt --memory=2MiB', '--memory is bytes: 2MiB is --memory 2097152'),
    ('run job.txt --memory much', '--memory is bytes, a number from 1 to 2^40, and much is not'),
    ('run job.txt --memory', '--memory wants a value behind it; one that begins with a hyphen is written --memory=VALUE'),
    ('run job.txt --workers 64', '64 workers of 2 threads are more than 64 threads together'),
    ('run job.txt --workers 65', '--workers is a number from 1 to 64, and 65 is not'),
    ('run job.txt --threads 2 --threads 2', '--threads is written twice'),
    ('run job.txt --allowed-failures 1001', '--allowed-failures is a number from 0 to 1000, and 1001 is not'),
    ('gen 7 --allowed-failures 1', 'gen has no option --allowed-failures; it has --workers, --threads'),
    ('run job.txt --report=yes', '--report takes no value'),
    ('run job.txt --transport tcp', 'the one --transport that there is so far is inproc'),
    ('plain job.txt --workers 2', 'plain has no option --workers; it has none'),
    ('run job.txt --script die:1@1', "'die:1@1' is no item of a script: write lose:WORKER@COUNT, suspect:WORKER@COUNT or join@COUNT"),
    ('run job.txt --workers 1 --script lose:1@1', 'after lose:1@1 there are 0 workers; at least one has to be there, and together at most 64 threads'),
    ('run job.txt --script lose:9@1', 'lose:9@1: there is no worker 9 by then; they are numbered from 1 as they join'),
    ('run job.txt --script join@2,join@1', 'in a script no COUNT is less than the one before, as in join@1'),
]
TEXTS = [  # a second line of a job, and what is said of it
    ('let b = a / 3', '`//` divides, rounded down; there are no fractions'),
    ('let b = a > 3', 'there are no comparisons: `a > 3` is written `where(maximum(a, 3) - 3, 1, 0)`; docs/FROM_NUMPY.md has them all'),
    ('let b = a & 3', 'there are no bits: of conditions of 0 and 1 `p * q` is and, `maximum(p, q)` is or, `1 - p` is not'),
    ('let b = a @ a', '`a @ b` is written `tensordot(a, b, (1), (0))`'),
    ('let b = a * 1.5', 'there are no fractions: scale, as `a * 3 // 2`'),
    ('let b = a[...]', 'there is no `...`: write a `:` for each axis'),
    ('let b = a.sum()', 'the one method is `.T`: `a.sum()` is written `sum(a)`'),
    ("save a 'b.npy'", 'names of files stand between double quotes'),
    ('save a "b.npy', 'the name of a file has 1 to 255 characters of ASCII between double quotes, without a backslash'),
    ('let b = a ? 3', 'no token of the language begins so; docs/FORMATS.md has them all'),
    ('let b = sum(a, axis=0)', '`axis=0` is written `axis=(0)`'),
    ('let b = sum(a, axis=(-1))', 'axes count from 0: of two axes `axis=(-1)` is `axis=(1)`'),
    ('let b = sum(a, 0)', 'axes are written with their name: `sum(a, axis=(0))`'),
    ('let b = sum(a, keepdims=1)', 'a sum takes `axis=(..)` and `split_every=` alone; docs/FROM_NUMPY.md has what to write for keepdims'),
    ('let b = sum a', 'a function has its array in parentheses: `sum(a)`'),
    ('let b = a ** 2', 'there is no `**`: write `a * a`'),
    ('let b = a == 2', 'there are no comparisons: `a == b` is written `where(a - b, 0, 1)`'),
    ('input b "b.npy" shape 6 chunks (3)', 'lengths stand in parentheses: `shape (6)`'),
    ('input b "b.npy" shape (6) chunks 3', 'chunks stand in parentheses: `chunks (3)`'),
    ('let sum = a', 'sum is a word of the language: take another name'),
    ('let a[0] = 1', 'nothing is changed in place: write a new array by `let`'),
    ('b = a + 1', 'a statement begins with `input`, `let` or `save`: `let b = a + 1`'),
    ('let b = a a', 'an operator or the end of the statement is wanted before this'),
    ('let b = )', 'a statement does not go on so; docs/FORMATS.md has the grammar'),
    ('let b = (a + 1', 'a parenthesis or a bracket is not closed'),
    ('let b = a', 'a job saves at least one array: `save b "b.npy"`'),
    ('let b = abs(a)', 'there is no function abs; docs/FROM_NUMPY.md says what to write'),
    ('let b = A', 'there is no A before this; there is a'),
    ('let b = elsewhere', 'there is no elsewhere before this, by an `input` or a `let`'),
    ('let a = a + 1', 'a name is given once: take another one'),
    ('save a "a.npy"', 'a file is saved once, and no saved file is an input: save under another name'),
    ('let b = a + a.T', 'two lengths have to be equal, or one of them 1; shapes of other lengths are aligned at their last axis'),
    ('let b = sum(a, axis=(2))', 'the axis is not there, is listed twice, or a list has too many or too few'),
    ('let b = a[0, 0, 0]', 'there are more parts than axes'),
    ('let b = a[4]', 'indexes go from minus the length to the length less 1; ranges may go beyond'),
    ('let b = a[::0]', 'a step is not 0'),
    ('let b = min(a[4:], axis=(0))', 'of no elements there is no least and no largest one'),
    ('let b = sum(a, split_every=1)', 'at least 2 partial results are joined'),
    ('let b = rechunk(a, (2))', 'chunks have one entry an axis, in one pair of parentheses: `(2, 3)`'),
    ('let b = rechunk(a, (0, 3))', 'a chunk has at least one element'),
    ('let b = rechunk(a, (2, (2, 3)))', 'sizes that are listed have to add up to the length; a single number need not divide it'),
]
FILES = [  # the files of a job, the status, and the line below the program's own
    ({'job.txt': INPUT.replace('4, 6', '6, 4') + 'save a "b.npy"'}, 3, 'the file has another shape: in the job write `shape (4, 6)`'),
    ({'job.txt': 'input a "f.npy" shape (2) chunks (2)\nsave a "b.npy"'}, 3, 'elements are to be signed integers of 1, 2, 4 or 8 bytes: '
     "np.save('f.npy', np.load('f.npy').astype('<i8')), once you know that they have no fractions and none is above 2^63 - 1"),
    ({'job.txt': 'input a "u.npy" shape (2) chunks (2)\nsave a "b.npy"'}, 3, 'elements are to be signed integers of 1, 2, 4 or 8 bytes: '
     "np.save('u.npy', np.load('u.npy').astype('<i8')), once you know that they have no fractions and none is above 2^63 - 1"),
    ({'job.txt': 'input a "half.npy" shape (2) chunks (2)\nsave a "b.npy"'}, 3, 'half.npy ends too early: it was cut off, so copy or save it again'),
    ({'job.txt': 'input a "small.npy" shape (2) chunks (2)\nsave a "b.npy"'}, 3, 'the file has another shape: in the job write `shape (3)`'),
    ({'job.txt': 'input a "job.txt" shape (2) chunks (2)\nsave a "b.npy"'}, 3,
     'it is no .npy file as np.save writes it: load it with what wrote it, and np.save it'),
    ({'job.txt': 'input a "cut.npy" shape (4, 6) chunks (2, 3)\nsave a "b.npy"'}, 3,
     'cut.npy ends too early: it was cut off, so copy or save it again'),
    ({'job.txt': 'input a "nine.npy" shape (1) chunks (1)\nsave a "b.npy"'}, 3, 'an array has at most 8 axes and 2^31 elements: save parts of it'),
    ({}, 5, 'there is no job.txt in {folder}'),
    ({'job.txt': INPUT.replace('a.npy', 'none.npy') + 'save a "b.npy"'}, 5, 'there is no none.npy in {folder}'),
    ({'job.txt': INPUT.replace('a.npy', '/none/a.npy') + 'save a "b.npy"'}, 5, 'there is no /none/a.npy'),
    ({'job.txt': INPUT.replace('a.npy', 'there') + 'save a "b.npy"'}, 5, 'there is no regular file'),
    ({'job.txt': INPUT + 'save a "none/b.npy"'}, 6, 'none/b.npy can not be made: there is no folder none'),
    ({'job.txt': INPUT + 'save a "there"'}, 6, 'there is a folder'),
    ({'job.txt': INPUT + 'save a "/proc/b.npy"'}, 6, '/proc/b.npy can not be made: nothing may be written in /proc'),
]

KILLED = [  # words that end with 11, and the line below the program's own
    ('sim job.txt 7 --workers 2 --threads 1 --allowed-failures 0 --script suspect:1@1',
     'with --allowed-failures 1, as often as the script takes a worker away, or without it, no task is killed'),
]


def head(descr, shape):
    text = f"{{'descr': '{descr}', 'fortran_order': False, 'shape': {shape}, }}"
    text += ' ' * (-(len(text) + 11) % 64) + '\n'
    return b'\x93NUMPY\x01\x00' + struct.pack('<H', len(text)) + text.encode()


def on_terminal(launcher, words, folder):
    """What a terminal's standard error gets, and the status."""
    own, other = pty.openpty()
    process = subprocess.Popen([launcher, *words], cwd=folder, stdin=subprocess.DEVNULL, stdout=subprocess.DEVNULL, stderr=other)
    os.close(other)
    held = b''
    try:
        while piece := os.read(own, 4096):
            held += piece
    except OSError:
        pass  # a terminal whose other end is closed
    os.close(own)
    return process.wait(), held.decode().replace('\r', '')


class Cases:
    def __init__(self, launcher, folder):
        self.launcher, self.folder, self.equal, self.different = launcher, folder, 0, 0

    def check(self, what, words, status, hint):
        got, text = on_terminal(self.launcher, words, self.folder)
        lines = [line for line in text.splitlines() if not line.startswith('note: ')]
        if got == status and len(lines) == 2 and lines[0].startswith('dask: ') and lines[1] == f'hint: {hint}':
            self.equal += 1
        else:
            self.different += 1
            print(f'{what!r}: got {got}\n{text}wanted {status}\nhint: {hint}')

    def write(self, name, content):
        with open(os.path.join(self.folder, name), 'wb') as file:
            file.write(content)


def main(launcher):
    with tempfile.TemporaryDirectory() as folder:
        folder = os.path.realpath(folder)
        cases = Cases(os.path.abspath(launcher), folder)
        os.mkdir(os.path.join(folder, 'there'))
        data = bytes(8 * 24)
        for name, content in (('a.npy', head('<i8', (4, 6)) + data), ('f.npy', head('<f8', (2,)) + data), ('u.npy', head('|u1', (2,)) + data),
                              ('half.npy', head('>i4', (2,)) + data[:7]), ('small.npy', head('<i2', (3,)) + data[:6]),
                              ('cut.npy', head('<i8', (4, 6)) + data[8:]),
                              ('nine.npy', head('<i8', (1,) * 9) + data), ('job.txt', INPUT.encode() + b'save a "b.npy"\n')):
            cases.write(name, content)
        for words, hint in WORDS:
            cases.check(words, words.split(), 1, hint)
        for line, hint in TEXTS:
            cases.write('job.txt', (INPUT + line + '\n').encode())
            cases.check(line, ['plain', 'job.txt'], 2, hint)
        for files, status, hint in FILES:
            os.remove(os.path.join(folder, 'job.txt')) if os.path.exists(os.path.join(folder, 'job.txt')) else None
            for name, text in files.items():
                cases.write(name, text.encode())
            cases.check(files, ['run', 'job.txt'], status, hint.format(folder=folder))
        cases.write('job.txt', b'let a = ramp((1), 0, 1, (1))\nlet b = a + 1\nsave b "b.npy"\n')
        for words, hint in KILLED:
            cases.check(words, words.split(), 11, hint)
    print(f'equal {cases.equal} different {cases.different}')
    return cases.different > 0


if __name__ == '__main__':
    sys.exit(main(sys.argv[1]))
