#!/usr/bin/env python3
"""Two programs beside each other, in turns: how `run` grows with saved blocks and with workers, how it writes, spills and ends.

    bench/before_after.py BEFORE AFTER [SECTION ..] [--small]

BEFORE is started with stacks of 8 MiB, which shells give, and AFTER with those of the launcher (tools/start.sh); both with the
launcher's settings of the C library. It prints one table. Times are the least of five runs (three of those that take long), taken in
turns; counts are of all runs. SECTION is one or more of blocks, workers, inputs, writes, rechunk, endless, ladder, killed; all
without it. With --small each is so small that the script itself can be tried. Run it on a quiet machine; it needs strace and 2 GiB
of disk.
"""
import collections
import os
import random
import re
import resource
import shutil
import subprocess
import sys
import tempfile
import time

ROOT = os.path.dirname(os.path.dirname(os.path.realpath(__file__)))
sys.path.insert(0, f'{ROOT}/tools')
from random_jobs import array_bytes  # noqa: E402

with open(f'{ROOT}/tools/start.sh', encoding='ascii') as start:
    TEXT = start.read()
STACK = int(re.search(r'ulimit -S -s (\d+)$', TEXT, re.MULTILINE)[1]) * 1024
TUNABLES = re.search(r'GLIBC_TUNABLES-([^}]*)}', TEXT)[1]
ENVIRONMENT = {'GLIBC_TUNABLES': TUNABLES, **os.environ}
SMALL = '--small' in sys.argv
SQUARE = 'let a = ramp((1024, 1024), 0, 1, (128, 128))\nlet b = a + a.T\nsave b "b.npy"\n'
SECONDS = 20


class Program:
    def __init__(self, name, stack):
        self.name, self.stack = os.path.realpath(name), stack

    def start(self, words, before=(), **limits):
        """Starts a command with these words, with other words before them, under limits of the system: RLIMIT_AS, RLIMIT_NOFILE."""
        def limit():
            hard = resource.getrlimit(resource.RLIMIT_STACK)[1]
            resource.setrlimit(resource.RLIMIT_STACK, (self.stack, hard))
            for what, most in limits.items():
                resource.setrlimit(getattr(resource, what), (most, most))
        return subprocess.Popen([*before, self.name, *words], stdout=subprocess.DEVNULL, stderr=subprocess.DEVNULL, env=ENVIRONMENT,
                                preexec_fn=limit)

    def timed(self, words):
        """The status, user seconds, processor seconds and seconds by the clock of a command."""
        began = time.perf_counter()
        child = self.start(words)
        _, status, used = os.wait4(child.pid, 0)
        child.returncode = os.waitstatus_to_exitcode(status)
        return child.returncode, used.ru_utime, used.ru_utime + used.ru_stime, time.perf_counter() - began

    def ended(self, words, **limits):
        """The status of a command, nothing where it goes on until it is ended."""
        child = self.start(words, **limits)
        try:
            return child.wait(SECONDS)
        except subprocess.TimeoutExpired:
            child.kill()
            child.wait()
            return None


def write(name, text):
    with open(name, 'w', encoding='ascii') as out:
        out.write(text)


def row(what, cells, wanted):
    print(f'| {what} | {" | ".join(cells)} | {wanted} |', flush=True)


def least(programs, words, runs=5):
    """Of each program the least of its times, taken in turns, as a list of user, processor and clock; a status where it isn't 0."""
    seen = [[] for _ in programs]
    for _ in range(1 if SMALL else runs):
        for program, its in zip(programs, seen):
            its.append(program.timed(words))
    return [next((f'status {it[0]}' for it in its if it[0]), [min(it[k] for it in its) for k in (1, 2, 3)]) for its in seen]


def seconds(it, kind=0):
    return it if isinstance(it, str) else f'{it[kind]:.2f} s'


def blocks(programs):
    for command, wanted in (('run', '0.8 s of 32,000, and twice for twice'), ('sim', 'as before'), ('plain', 'as before')):
        for count in (500, 1000) if SMALL else (4000, 8000, 16000, 32000):
            write('job.txt', f'let a = ramp(({count}), 0, 1, (1))\nsave a "a.npy"\n')
            words = [command, 'job.txt', *(['7'] if command == 'sim' else [])]
            row(f'`{command}`, {count:,} saved blocks of one element, user seconds', map(seconds, least(programs, words, 3)), wanted)


def workers(programs):
    # 32,668 keys
    write('job.txt', f'let s = sum(ramp(({500 if SMALL else 14000}), 0, 1, (1)))\nsave s "s.npy"\n')
    for count in (4, 8, 16, 32, 64):
        words = ['run', 'job.txt', '--workers', str(count), '--threads', '1']
        row(f'{"1,167" if SMALL else "32,668"} keys, {count} workers of one thread, user seconds', map(seconds, least(programs, words, 3)),
            '3 times that of 8' if count == 64 else '')


def inputs(programs):
    count, most = (40, 140) if SMALL else (1000, 1100)
    for at in range(count):
        with open(f'x{at}.npy', 'wb') as out:
            out.write(array_bytes([at, at + 1], (2,), False))
    names = [f'x{at}' for at in range(count)]
    write('job.txt', ''.join(f'input {name} "{name}.npy" shape (2) chunks (1)\n' for name in names)
          + f'let s = {" + ".join(names)}\nsave s "s.npy"\n')
    words = ['run', 'job.txt', '--workers', '16', '--threads', '4']
    ends = [f'status {program.ended(words, RLIMIT_NOFILE=most)}' for program in programs]
    row(f'{count:,} inputs, 16 workers of 4 threads, {most:,} open files', ends, 'status 0')


def writes(programs):
    edge = 2048 if SMALL else 8192
    write('job.txt', f'let a = ramp(({edge}, {edge}), 0, 1, (1024, 1024))\nsave a "a.npy"\n')
    for command in ('run', 'plain'):
        counts = []
        for program in programs:
            program.start([command, 'job.txt'], before=['strace', '-f', '-qq', '-c', '-o', 'calls', '-e', 'trace=pwrite64']).wait()
            with open('calls', encoding='ascii') as calls:
                counts += [next((f'{int(line.split()[3]):,}' for line in calls if line.rstrip().endswith(' pwrite64')), '0')]
        row(f'calls of `pwrite` by `{command}`, {edge:,} by {edge:,} saved in blocks of 1,024 by 1,024', counts, 'those of `plain`')


def rechunk(programs):
    edge = 2048 if SMALL else 8192
    write('job.txt', f'let a = ramp(({edge}, {edge}), 0, 1, (1024, 1024))\nlet s = sum(rechunk(a, ({edge}, 128)), axis=(0))\nsave s "s.npy"\n')
    for options in ('', '--workers 1 --threads 4 --memory 4000000000'):
        its = least(programs, ['run', 'job.txt', *options.split()])
        what = f'rechunk of {edge * edge >> 17} MiB {"by default words" if not options else f"with `{options}`"}'
        row(f'{what}, processor time', [seconds(it, 1) for it in its], '' if options else '1.5 times the next but one')
        row(f'{what}, by the clock', [seconds(it, 2) for it in its], '')


def right_square():
    return array_bytes([1025 * (i + j) for i in range(1024) for j in range(1024)], (1024, 1024), False)


def ends(program, kilobytes, tries, wanted):
    """How so many runs of the square end under a limit of address space."""
    counts = collections.Counter()
    for _ in range(tries):
        status = program.ended(['run', 'job.txt', '--workers', '4', '--threads', '4', '--memory', '100000'], RLIMIT_AS=kilobytes * 1024)
        name = {None: 'endless', 0: 'well', 8: 'starved'}.get(status, f'status {status}')
        if status == 0:
            with open('b.npy', 'rb') as it:
                name = 'well' if it.read() == wanted else 'other bytes'
        if os.path.exists('b.npy'):
            os.remove('b.npy')
        counts[name] += 1
    return counts


def endless(programs):
    write('job.txt', SQUARE)
    tries, wanted = 8 if SMALL else 480, right_square()
    cells = [', '.join(f'{count} {name}' for name, count in sorted(ends(program, 6250, tries, wanted).items())) for program in programs]
    row(f'{tries} runs with 100,000 bytes a worker in 6,250 KB of address space', cells, 'none endless')


def ladder(programs):
    write('job.txt', SQUARE)
    tries, wanted = 2 if SMALL else 40, right_square()
    for kilobytes in (8000, 11000, 14000, 17000, 20000, 30000):
        counts = [ends(program, kilobytes, tries, wanted) for program in programs]
        cells = [f'{it["well"]}' + (f', and {it["endless"]} endless' if it['endless'] else '') for it in counts]
        row(f'of {tries} such runs in {kilobytes:,} KB those that end well', cells, 'at least as many as above')


def killed(programs):
    write('job.txt', SQUARE)
    words = ['run', 'job.txt', '--memory', '100000']
    cells, kills = [], 5 if SMALL else 100
    for program in programs:
        os.mkdir('killed')
        shutil.copy('job.txt', 'killed')
        os.chdir('killed')
        draw, took = random.Random(1), program.timed(words)[3]
        for _ in range(kills):
            child = program.start(words)
            time.sleep(draw.uniform(0, took))
            child.kill()
            child.wait()
        status = program.ended(words)
        cells.append(f'{len(set(os.listdir()) - {"job.txt", "b.npy"})}, status {status}')
        os.chdir('..')
        shutil.rmtree('killed')
    row(f'names left by {kills} killed runs and one that ended', cells, '0, status 0')


SECTIONS = {it.__name__: it for it in (blocks, workers, inputs, writes, rechunk, endless, ladder, killed)}


def main(before, after, *names):
    programs = [Program(before, 8 << 20), Program(after, STACK)]
    print('| What | Before | Now | Wanted, at most |\n|---|---|---|---|')
    for name in names or SECTIONS:
        with tempfile.TemporaryDirectory() as folder:
            os.chdir(folder)
            SECTIONS[name](programs)
            os.chdir('/')


main(*(word for word in sys.argv[1:] if word != '--small'))
