#!/usr/bin/env python3
"""Simulates random jobs with random words, and compares each with a model of the simulation that was written apart.

    tools/random_simulations.py PROGRAM [COUNT [SEED]]

The model is that of run_model.py, and blocks are NumPy's. Each job is simulated with a random number, workers, threads, saturation, a
script of losses, suspicions and joins, and mostly with a bound on how often a task's worker may leave. Status, every line and the saved
bytes have to be equal. It prints a line for each difference, and the numbers of simulations that are equal, that differ, that divide
by 0, and that ended since a task lost its worker too often.
"""
import concurrent.futures
import os
import random
import re
import subprocess
import sys
import tempfile

import numpy as np

from job_reader import Refused
from random_jobs import write_random
from random_runs import script
from run_model import Run, lower

SECONDS = 60


def setting(draw):
    """The words of a simulation, by the model's names."""
    workers, threads = draw.randint(1, 5), draw.randint(1, 3)
    chosen = {'workers': workers, 'threads': threads, 'saturation': draw.choice((10, 11, 15, 100)), 'script': script(draw, workers, threads)}
    return {**chosen, 'allowed': draw.randint(0, 3)} if draw.random() < 0.8 else chosen


def options(chosen):
    words = []
    for name, value in chosen.items():
        if value != '':
            words += ['--allowed-failures' if name == 'allowed' else f'--{name}', str(value)]
    return words


def items(text):
    """The items of a script, as the model reads them."""
    split = (item.replace('@', ':').split(':') for item in text.split(',') if item)
    return [(name, *map(int, numbers)) for name, *numbers in split]


def wanted(text, inputs, names, number, chosen):
    """Status, lines on both outputs, and the saved arrays, by the model. Of a refused text it has the reason, and not the place."""
    try:
        run = Run(lower(text), inputs)
    except Refused as refused:
        return 2, [], refused.args[1] + '\n', {}
    answer = run.simulate(number, **{**chosen, 'script': items(chosen['script'])})
    if isinstance(answer, str):
        arrays = [run.array(k) for k in range(len(names))]
        lines = [f'saved {name} {shape_text(array.shape)}' for name, array in zip(names, arrays)]
        return 0, lines + answer.strip('|').split('|'), '', {name: array for name, array in zip(names, arrays)}
    if isinstance(answer, tuple):
        return 11, [], 'dask: killed worker: key {} losses {}\n'.format(*answer), {}
    return 4, [], f'dask: zero division: {run.block_text(answer)}\n', {}


def shape_text(shape):
    return f'({shape[0]},)' if len(shape) == 1 else f'({", ".join(map(str, shape))})'


def given(program, folder, words):
    """The same, by the program."""
    done = subprocess.run([program, *words], cwd=folder, capture_output=True, text=True, check=False, timeout=SECONDS)
    files = {name: np.load(os.path.join(folder, name)) for name in sorted(os.listdir(folder)) if name.endswith('.saved.npy')}
    note = re.sub('^dask: job [0-9]+:[0-9]+: ', '', done.stderr) if done.returncode == 2 else done.stderr
    return done.returncode, done.stdout.splitlines(), note, files


def is_equal(one, other):
    files, more = one[3], other[3]
    return (one[:3] == other[:3] and files.keys() == more.keys()
            and all(array.dtype == more[name].dtype and np.array_equal(array, more[name]) for name, array in files.items()))


def one(program, seed):
    """What differs, if something does, and the status."""
    draw = random.Random(seed)
    with tempfile.TemporaryDirectory() as folder:
        text = write_random(folder, draw)
        with open(os.path.join(folder, 'job.txt'), 'w') as it:
            it.write(text)
        lines = text.splitlines()
        inputs = [np.load(os.path.join(folder, line.split('"')[1])).astype(np.int64) for line in lines if line.startswith('input ')]
        names = [line.split('"')[1] for line in lines if line.startswith('save ')]
        number, chosen = draw.choice((draw.randint(0, 99), draw.getrandbits(64))), setting(draw)
        want = wanted(text.strip().replace('\n', ' ; '), inputs, names, number, chosen)
        words = ['sim', 'job.txt', str(number), *options(chosen)]
        got = given(program, folder, words)
    return None if is_equal(want, got) else f'seed {seed}: {" ".join(words)}: {got[:3]}, wanted {want[:3]}\n{text}', want[0]


def main(program, count='1000', seed='1'):
    program = os.path.abspath(program)
    first = int(seed) * 1_000_000
    with concurrent.futures.ProcessPoolExecutor(os.cpu_count()) as pool:
        ends = list(pool.map(one, [program] * int(count), range(first, first + int(count)), chunksize=8))
    differ = [text for text, _ in ends if text]
    for text in differ:
        print(text)
    zero, killed = (sum(end[1] == status for end in ends) for status in (4, 11))
    print(f'{len(ends) - len(differ)} equal, {len(differ)} differ ({zero} with a divisor of 0, {killed} for lost workers)')
    return 1 if differ else 0


if __name__ == '__main__':
    sys.exit(main(*sys.argv[1:]))
