#!/usr/bin/env python3
"""Runs random jobs by a cluster of threads with random words, and compares each with the evaluation in the calling thread.

    tools/random_runs.py PROGRAM [COUNT [SEED]]

Each job is evaluated by `plain`, and run by `run` with random workers, threads, saturation and a script of losses, suspicions
and joins, about half of them with so little memory that workers put blocks on disk. Status, lines but the last, and saved bytes
have to be equal, and the audit of each run agrees. Where a divisor is 0, another block may be named, and of the saved files, each of
which is there once it is whole, others may be there. A run whose script takes workers away more often than it allows may end since a
worker was lost once more than that. A run that takes a minute counts as one that hangs. It prints a line for each difference, and the
numbers of runs that are equal, that differ, that divide by 0, that had little memory, and that ended for lost workers.
"""
import concurrent.futures
import os
import random
import re
import subprocess
import sys
import tempfile

from random_jobs import write_random

SECONDS = 60


def script(draw, workers, threads):
    """Items that can be followed: at least one worker stays, and no more than 64 threads are there."""
    there, last, at, items = list(range(1, workers + 1)), workers, 0, []
    for _ in range(draw.randint(0, 5)):
        at += draw.choice((0, 0, 1, 2, 5, 20))
        kind = draw.choice(('lose', 'suspect', 'join'))
        if kind == 'join' and (len(there) + 1) * threads <= 64:
            last += 1
            there.append(last)
            items.append(f'join@{at}')
        elif kind != 'join' and len(there) > 1:
            worker = draw.choice(there)
            there.remove(worker)
            items.append(f'{kind}:{worker}@{at}')
    return ','.join(items)


def words(draw):
    workers, threads = draw.randint(1, 8), draw.randint(1, 8)
    options = ['--workers', str(workers), '--threads', str(threads)]
    if draw.random() < 0.3:
        options += ['--saturation', str(draw.choice((1, 5, 20, 1000)))]
    if draw.random() < 0.5:
        options += ['--memory', str(draw.choice((1, 8, 64, 100, 500, 4000)))]
    items = script(draw, workers, threads)
    if draw.random() < 0.3:
        options += ['--allowed-failures', str(draw.randint(0, 3))]
    return options + (['--script', items] if items else [])


def answer(program, folder, command):
    """Status, lines on both outputs, and what was saved, which is taken away."""
    try:
        done = subprocess.run([program, *command], cwd=folder, capture_output=True, text=True, check=False, timeout=SECONDS)
    except subprocess.TimeoutExpired:
        return None
    files = {}
    for name in sorted(os.listdir(folder)):
        if name.endswith('.saved.npy'):
            with open(os.path.join(folder, name), 'rb') as it:
                files[name] = it.read()
            os.remove(os.path.join(folder, name))
    lines = done.stdout.splitlines()
    # the last line tells by whom the job was finished, and after a run how its audit ended
    if command[0] == 'run' and lines and lines.pop() != 'audit: agrees':
        lines += ['the audit does not agree', '']
    return done.returncode, lines[:-1], done.stderr, files


def may_kill(options, line):
    """Whether a run by these words may end with this line, for lost workers."""
    said = dict(zip(options[::2], options[1::2]))
    allowed = int(said.get('--allowed-failures', 1000))
    return (len(re.findall('lose|suspect', said.get('--script', ''))) > allowed
            and re.fullmatch(f'dask: killed worker: key [0-9]+ losses {allowed + 1}\n', line) is not None)


def is_equal(plain, run, options):
    if run is None:
        return False
    if run[0] in (4, 11):
        return ((run[0] == plain[0] and run[2].startswith('dask: zero division: node ') if run[0] == 4 else may_kill(options, run[2]))
                and all(plain[3].get(name, held) == held for name, held in run[3].items()))
    return plain == run


def one(program, seed):
    """What differs, if something does, the status, whether the run had little memory, and whether it ended for lost workers."""
    draw = random.Random(seed)
    with tempfile.TemporaryDirectory() as folder:
        text = write_random(folder, draw)
        with open(os.path.join(folder, 'job.txt'), 'w') as it:
            it.write(text)
        options = words(draw)
        plain = answer(program, folder, ['plain', 'job.txt'])
        run = answer(program, folder, ['run', 'job.txt', *options])
    differs = None
    if not is_equal(plain, run, options):
        differs = f'seed {seed}: run {" ".join(options)}: {"hangs" if run is None else run[:3]}, plain {plain[:3]}\n{text}'
    return differs, plain[0], '--memory' in options, run is not None and run[0] == 11


def main(program, count='1000', seed='1'):
    program = os.path.abspath(program)
    first = int(seed) * 1_000_000
    with concurrent.futures.ThreadPoolExecutor(os.cpu_count()) as pool:
        ends = list(pool.map(lambda at: one(program, at), range(first, first + int(count))))
    differ = [text for text, _, _, _ in ends if text]
    for text in differ:
        print(text)
    zero, little, killed = sum(end[1] == 4 for end in ends), sum(end[2] for end in ends), sum(end[3] for end in ends)
    print(f'{len(ends) - len(differ)} equal, {len(differ)} differ ({zero} with a divisor of 0, {little} with little memory, {killed} for lost workers)')
    return 1 if differ else 0


if __name__ == '__main__':
    sys.exit(main(*sys.argv[1:]))
