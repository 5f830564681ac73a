#!/usr/bin/env python3
"""Jobs of many nodes of one element: the processor time and the peak memory of the whole command `plain`, the least of five runs.

    bench/chains.py

The program is `./dask`, or the one that the variable DASK names. The longest jobs are refused, since their graphs pass the limit
of keys; how long that takes is shown too.
"""
import os
import subprocess
import tempfile

ROOT = os.path.dirname(os.path.dirname(os.path.realpath(__file__)))
PROGRAM = os.path.realpath(os.environ.get('DASK') or f'{ROOT}/dask')
FORMS = {
    'a sum of so many names': lambda n: ' + '.join(['a'] * n),
    'so many slices, one of another': lambda n: 'a' + '[::-1]' * n,
    'a concatenation of so many names': lambda n: f'concatenate([{", ".join(["a"] * n)}], axis=0)',
    'so many minus signs': lambda n: '-' * n + 'a',
}


def run(folder):
    """The status, processor seconds and peak MiB of one run."""
    child = subprocess.Popen([PROGRAM, 'plain', 'job.txt'], cwd=folder, stdout=subprocess.DEVNULL, stderr=subprocess.PIPE, text=True)
    said = child.stderr.read().strip()
    _, status, used = os.wait4(child.pid, 0)
    return said or 'done', used.ru_utime + used.ru_stime, used.ru_maxrss / 1024


def main():
    with tempfile.TemporaryDirectory() as folder:
        for name, form in FORMS.items():
            for count in (16_000, 32_000, 65_000):
                with open(f'{folder}/job.txt', 'w', encoding='ascii') as out:
                    out.write(f'let a = full((1), 1, (1))\nlet b = {form(count)}\nsave b "o.npy"\n')
                runs = [run(folder) for _ in range(5)]
                said = {it[0] for it in runs}
                print(f'{name}, {count}: {", ".join(said)}, {min(it[1] for it in runs):.3f} s, {min(it[2] for it in runs):.0f} MiB')


main()
