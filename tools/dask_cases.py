#!/usr/bin/env python3
"""Runs jobs by the program and by the front in Python on a cluster of Dask in this process, and compares status, lines and bytes.

    /usr/bin/python3 tools/dask_cases.py PROGRAM [COUNT [SEED]]

The jobs are those of examples/, COUNT random ones (100) and some texts and files that are refused. It prints a line for each
difference, and the numbers of jobs that are equal and that differ.
"""
import collections
import contextlib
import io
import os
import random
import shutil
import subprocess
import sys
import tempfile

import numpy as np

from random_jobs import write_random

TOP = os.path.dirname(os.path.dirname(os.path.abspath(__file__)))
sys.path.insert(0, os.path.join(TOP, 'python'))


# ---- texts and files that are refused

COUNTS = 'input a "a.npy" shape (6) chunks (2)\n'
REFUSED = [
    'save', 'save b "b.npy"', 'let a = 1 +', 'let a = 1', 'let a = 1 2\nsave a "a"', 'let let = 1', 'let a = .', 'let a = "',
    'let a = 9223372036854775808\nsave a "a"', 'let a = -9223372036854775809\nsave a "a"', 'let a = (1\n\n', 'let a = 1\nlet a = 2',
    COUNTS + 'save a "a.npy"', COUNTS + 'save a "b"\nsave a "b"', COUNTS + 'let b = a + a[1:3] ?', COUNTS + 'let b = a[6]',
    COUNTS + 'let b = a[::0]', COUNTS + 'let b = a[1, 2]', COUNTS + 'let b = rechunk(a, (0))', COUNTS + 'let b = rechunk(a, ((2, 3)))',
    COUNTS + 'let b = rechunk(a, (1, 2))', COUNTS + 'let b = transpose(a, ())', COUNTS + 'let b = sum(a, axis=(1))',
    COUNTS + 'let b = sum(a, axis=(-1))', COUNTS + 'let b = min(a[2:2])', COUNTS + 'let b = sum(a, split_every=1)',
    COUNTS + 'let b = concatenate([a, 7], axis=0)', COUNTS + 'let b = concatenate([a], axis=1)',
    COUNTS + 'let b = tensordot(a, a[1:], (0), (0))', COUNTS + 'let b = tensordot(a, a, (0), ())', COUNTS + 'let b = a > 3',
    COUNTS + 'let b = a / 3', COUNTS + 'let b = abs(a)', COUNTS + 'let b = a if a', COUNTS + 'let b = 1.5',
    'let a = ' + '(' * 128 + '1' + ')' * 128, 'let a = ramp((2147483649), 0, 1, (1))', 'let a = full((1,1,1,1,1,1,1,1,1), 0, (1))',
    'let a = 1\n' * 1, 'let a = ' + '- ' * 30 + '1\nsave a "a.saved.npy"', '\n'.join(f'let a{k} = {k}' for k in range(1025)),
    '#' * (2**20 + 1), 'let a = 1 // 0\nsave a "a.saved.npy"', 'let a = ramp((4), 0, 1, (2))\nlet b = 9 // a\nsave b[0:1] "b"',
    'let a = ramp((4), 0, 1, (2))\nlet b = (9 // a)[2:4]\nsave b "b.saved.npy"',
    'let a = ramp((4), 0, 1, (2))\nlet b = (9 // a)[4:2]\nsave b "b.saved.npy"',
    'let a = ramp((4), 0, 1, (2))\nlet b = (9 // a)[0:1]\nsave b "b.saved.npy"',
    'let a = ramp((4, 4), -9, 1, (2, 1))\nlet b = (7 % a).T + 9 // (a - 2)\nsave b "b.saved.npy"',
]
HEAD = b"{'descr': '<i8', 'fortran_order': False, 'shape': (6,), }"


def array_file(header, data=bytes(48), version=b'\x01\x00', short=0):
    header += b' ' * (117 - len(header)) + b'\n'
    return b'\x93NUMPY' + version + (len(header) + short).to_bytes(2 if version[0] == 1 else 4, 'little') + header + data


def typed(dtype, version, cut=0):
    """A file of six elements of this type in this version, without so many of its last bytes."""
    width = int(dtype[2:])
    data = b''.join(bytes([200 + k] * width) if k % 2 else bytes(range(width)) for k in range(6))
    return array_file(HEAD.replace(b'<i8', dtype), data[:len(data) - cut], version=bytes([version, 0]))


FILES = [
    b'', b'\x93NUM', b'short text', array_file(HEAD)[:9], array_file(HEAD, version=b'\x02\x00'), array_file(HEAD, b'', short=5),
    array_file(HEAD, bytes(47)), array_file(HEAD, bytes(50)), array_file(HEAD.replace(b'<i8', b'<f8')),
    array_file(HEAD.replace(b'6,', b'5,')), array_file(HEAD.replace(b'6,', b'6')), array_file(HEAD.replace(b'6,', b'06,')),
    array_file(HEAD.replace(b'6,', b'2,3')), array_file(HEAD.replace(b'6,', b'1,' * 9)), array_file(HEAD.replace(b'6,', b'9' * 20 + b',')),
    array_file(HEAD.replace(b'False', b'Falze')), array_file(HEAD.replace(b'shape', b'descr')), array_file(HEAD.replace(b'shape', b'sharp')),
    array_file(HEAD.replace(b' }', b'x}')), array_file(HEAD + b'\n'), array_file(HEAD + b' x'), array_file(HEAD.replace(b', }', b'}')),
    array_file(b"{ 'shape' :( 6 , ) ,\"fortran_order\":True,'descr':\"<i8\"}"), array_file(HEAD.replace(b'<i8', b'<i8\\')),
    array_file(HEAD.replace(b'(6,)', b'(6,,)')), array_file(HEAD.replace(b'(6,)', b'(,)')), array_file(HEAD.replace(b"'descr'", b"'descr\"")),
    *(typed(dtype, version) for dtype in (b'<i8', b'>i8', b'<i4', b'>i4', b'<i2', b'>i2', b'|i1') for version in (1, 2, 3)),
    *(typed(dtype, 2, 1) for dtype in (b'>i8', b'<i4', b'<i2', b'|i1')), typed(b'<u4', 2), typed(b'|b1', 3), typed(b'=i8', 1),
    b'\x93NUMPY', b'\x93NUMPY\x01', b'\x93NUMPY\x04\x00', b'\x93NUMPY\x02\x00t\x00\x00', b'\x93NUMPY\x03\x00\x01\x00\x10\x00',
    array_file(HEAD.replace(b'<i8', 'é'.encode()), version=b'\x03\x00'), array_file(HEAD.replace(b'<i8', 'é'.encode()), version=b'\x02\x00'),
    array_file(HEAD.replace(b'<i8', b'\xe0\x9f\xbf'), version=b'\x03\x00'), array_file(HEAD.replace(b'<i8', b'\xf4\x90\x80\x80'), version=b'\x03\x00'),
]


# ---- the comparison

def by_program(program, folder):
    done = subprocess.run([program, 'plain', 'job.txt'], cwd=folder, capture_output=True, text=True, check=False)
    return done.returncode, done.stdout, done.stderr, saved(folder)


def by_cluster(client, folder):
    from yitrovana.cluster import dask_job
    from yitrovana.cluster.job_text import Refused
    with contextlib.chdir(folder):
        try:
            lines = dask_job.run(dask_job.read_text('job.txt'), contextlib.nullcontext(client))
            return 0, lines.replace('dask.distributed', 'plain'), '', saved(folder)
        except Refused as why:
            return why.status, '', f'dask: {why.line}\n', saved(folder)


def saved(folder):
    """The files that were saved, which go."""
    files = {}
    for name in sorted(os.listdir(folder)):
        if name.endswith('saved.npy') or name.endswith('.part') or name == 'raised.npy':
            with open(os.path.join(folder, name), 'rb') as file:
                files[name] = file.read()
            os.remove(os.path.join(folder, name))
    return files


class Cases:
    def __init__(self, program, client):
        self.program, self.client, self.equal, self.different = program, client, 0, 0
        self.ends = collections.Counter()

    def compare(self, name, text, folder):
        with open(os.path.join(folder, 'job.txt'), 'w', encoding='ascii') as job:
            job.write(text)
        ours, theirs = by_program(self.program, folder), by_cluster(self.client, folder)
        self.ends[ours[0]] += 1
        if ours[0]:
            # what is left of a run that ends otherwise is no promise
            ours, theirs = ours[:3], theirs[:3]
        if ours == theirs:
            self.equal += 1
        else:
            self.different += 1
            print(f'dask: {name}:\n{text}the program: {shown(ours)}\nthe cluster: {shown(theirs)}')

    def examples(self, folder):
        for name in sorted(os.listdir(os.path.join(TOP, 'examples'))):
            example = os.path.join(TOP, 'examples', name)
            if os.path.isdir(example):
                here = os.path.join(folder, name)
                shutil.copytree(example, here)
                # the input of one is made by its script alone
                subprocess.run([sys.executable, os.path.join(here, 'make.py')], check=True)
                for text in sorted(it for it in os.listdir(example) if it.endswith('.txt')):
                    with open(os.path.join(example, text), encoding='ascii') as job:
                        self.compare(name, job.read().replace(f'examples/{name}/', ''), here)

    def random(self, folder, count, seed):
        for number in range(count):
            here = os.path.join(folder, f'random{number}')
            os.mkdir(here)
            self.compare(f'random job {number} of {seed}', write_random(here, random.Random(seed * 100000 + number)), here)

    def refused(self, folder):
        here = os.path.join(folder, 'refused')
        os.mkdir(here)
        np.save(os.path.join(here, 'a.npy'), np.arange(6, dtype='<i8'))
        for text in REFUSED:
            self.compare('a text', text, here)
        for number, content in enumerate(FILES):
            with open(os.path.join(here, 'a.npy'), 'wb') as file:
                file.write(content)
            self.compare(f'file {number}', COUNTS + 'save a "saved.npy"\n', here)
        os.remove(os.path.join(here, 'a.npy'))
        self.compare('no file', COUNTS + 'save a "saved.npy"\n', here)


def shown(answer):
    return (*answer[:3], {name: np.load(io.BytesIO(data)).tolist() for name, data in answer[3].items()}) if len(answer) > 3 else answer


def main(program, count='100', seed='1'):
    os.environ.setdefault('DASK_LOGGING__DISTRIBUTED', 'critical')  # before Dask is imported
    from dask.distributed import Client
    from yitrovana.cluster.dask_job import send
    sys.setrecursionlimit(10000)
    cluster = {'processes': False, 'dashboard_address': '127.0.0.1:0', 'silence_logs': 50}
    with tempfile.TemporaryDirectory() as folder, Client(n_workers=2, threads_per_worker=2, **cluster) as client:
        send(client)
        cases = Cases(program, client)
        cases.examples(folder)
        cases.refused(folder)
        cases.random(folder, int(count), int(seed))
    print('by status ' + ', '.join(f'{status}: {number}' for status, number in sorted(cases.ends.items())))
    print(f'equal {cases.equal} different {cases.different}')


if __name__ == '__main__':
    main(*sys.argv[1:])
