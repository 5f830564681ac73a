#!/usr/bin/env python3
"""Times the operations on blocks against loops in C, both by processor time.

    python3 bench/kernels.py [NAME ..]

It needs gcc. For each operation there are two jobs over one array in blocks: one with two of the operation, the other with ten. What
eight more take, by `./dask plain` (or the program that DASK names), the least of RUNS runs each, or of three, is compared with a loop in C
(gcc -O3 -march=x86-64-v2) over as many blocks as large, in the same order, each into a new block, with the C library's settings of ./dask.
"""
import os
import re
import subprocess
import sys
import tempfile

TOP = os.path.dirname(os.path.dirname(os.path.abspath(__file__)))
PROGRAM = os.path.abspath(os.environ.get('DASK') or os.path.join(TOP, 'dask'))
FEW, MANY = 2, 10
RUNS = int(os.environ.get('RUNS', '3'))

# name: the array's shape and its blocks' shape, one more operation over the array a and {x}, the last one made, whether
# each goes on from the last one, and the loop in C over rows and columns of a block
JOBS = {
    'add': ((8192, 2048), (256, 2048), '{x} + a', True, 'out[i] = x[i] + a[i]'),
    'multiply by a number': ((8192, 2048), (256, 2048), '{x} * 3', True, 'out[i] = x[i] * 3'),
    'where': ((8192, 2048), (256, 2048), 'where(a, {x}, a)', True, 'out[i] = a[i] ? x[i] : a[i]'),
    'minimum': ((8192, 2048), (256, 2048), 'minimum({x}, a)', True, 'out[i] = x[i] < a[i] ? x[i] : a[i]'),
    'floor division': ((8192, 2048), (256, 2048), '{x} // 7', True, 'out[i] = x[i] / 7 - (x[i] % 7 < 0)'),
    'sum of all': ((8192, 2048), (256, 2048), 'sum(a)', False, 'out[0] += a[i]'),
    'sum along axis 0': ((8192, 2048), (256, 2048), 'sum(a, axis=(0))', False, 'out[i % cols] += a[i]'),
    'sum along axis 1': ((8192, 2048), (256, 2048), 'sum(a, axis=(1))', False, 'out[i / cols] += a[i]'),
    'least along axis 0': ((8192, 2048), (256, 2048), 'min(a, axis=(0))', False, 'out[i % cols] = out[i % cols] < a[i] ? out[i % cols] : a[i]'),
    'least of all': ((8192, 2048), (256, 2048), 'min(a)', False, 'out[0] = out[0] < a[i] ? out[0] : a[i]'),
    'transpose': ((4096, 4096), (512, 512), '{x}.T', True, 'out[i % cols * rows + i / cols] = x[i]'),
    'product': ((512, 512), (512, 512), 'tensordot(a, a, (1), (0))', False, None),
}

C = '''
#include <stdio.h>
#include <stdlib.h>
#include <stdint.h>
#include <time.h>
typedef int64_t cell;
enum { rows = %d, cols = %d, blocks = %d, times = %d, goes_on = %d };
static double now(void) { struct timespec t; clock_gettime(CLOCK_PROCESS_CPUTIME_ID, &t); return t.tv_sec + t.tv_nsec * 1e-9; }
static cell *fresh(void) { cell *b = malloc(sizeof(cell) * rows * cols); if (!b) exit(2); return b; }
__attribute__((noinline)) static void run(cell *restrict out, const cell *restrict x, const cell *restrict a) { %s }
int main(void) {
  cell *of[blocks], seen = 0;
  for (int b = 0; b < blocks; b++) {
    of[b] = fresh();
    for (long i = 0; i < (long)rows * cols; i++) of[b][i] = ((long)b * rows * cols + i) * 7 + 1;
  }
  double began = now();
  if (goes_on) for (int b = 0; b < blocks; b++) {
    cell *x = of[b];
    for (int k = 0; k < times; k++) {
      cell *out = fresh();
      run(out, x, of[b]);
      seen += out[k];
      if (x != of[b]) free(x);
      x = out;
    }
    if (x != of[b]) free(x);
  } else for (int k = 0; k < times; k++) for (int b = 0; b < blocks; b++) {
    cell *out = fresh();
    run(out, of[b], of[b]);
    seen += out[k];
    free(out);
  }
  printf("%%f %%d\\n", now() - began, (int)(seen & 1));
}
'''
LOOPS = {
    'sum along axis 0': 'for (long c = 0; c < cols; c++) out[c] = 0; for (long r = 0; r < rows; r++) for (long c = 0; c < cols; c++) out[c] += a[r * cols + c];',
    'sum along axis 1': 'for (long r = 0; r < rows; r++) { cell s = 0; for (long c = 0; c < cols; c++) s += a[r * cols + c]; out[r] = s; }',
    'sum of all': 'cell s = 0; for (long i = 0; i < (long)rows * cols; i++) s += a[i]; for (long r = 0; r < rows; r++) out[r] = s;',
    'least along axis 0': 'for (long c = 0; c < cols; c++) out[c] = a[c]; for (long r = 1; r < rows; r++) for (long c = 0; c < cols; c++) out[c] = out[c] < a[r * cols + c] ? out[c] : a[r * cols + c];',
    'least of all': 'cell s = a[0]; for (long i = 0; i < (long)rows * cols; i++) s = s < a[i] ? s : a[i]; for (long r = 0; r < rows; r++) out[r] = s;',
    'transpose': 'for (long r = 0; r < rows; r += 16) for (long c = 0; c < cols; c += 16) for (long i = r; i < r + 16; i++) for (long j = c; j < c + 16; j++) out[j * rows + i] = x[i * cols + j];',
    'product': 'for (long i = 0; i < (long)rows * cols; i++) out[i] = 0; for (long i = 0; i < rows; i++) for (long k = 0; k < cols; k++) { cell f = x[i * cols + k]; for (long j = 0; j < cols; j++) out[i * cols + j] += f * a[k * cols + j]; }',
}


def seconds(words, folder):
    child = subprocess.Popen(words, cwd=folder, stdout=subprocess.DEVNULL)
    _, status, used = os.wait4(child.pid, 0)
    if status:
        sys.exit(f'{words[0]} ended with {status}')
    return used.ru_utime + used.ru_stime


def job(name, count):
    shape, block, more, goes_on, _ = JOBS[name]
    lines = [f'let a = ramp({shape}, 1, 7, {block})', 'let x0 = a + 1']
    for k in range(1, count + 1):
        last = f'x{k - 1}' if goes_on else 'a'
        lines.append(f'let x{k} = ' + more.format(x=last))
        if not goes_on:
            lines.append(f'save x{k} "x{k}.npy"')
    if goes_on:
        lines += [f'let s = sum(x{count})', 'save s "s.npy"']
    return '\n'.join(lines) + '\n'


def ours(name, folder):
    times = []
    for count in (FEW, MANY):
        with open(os.path.join(folder, 'job.txt'), 'w', encoding='ascii') as out:
            out.write(job(name, count))
        times.append(min(seconds([PROGRAM, 'plain', 'job.txt'], folder) for _ in range(RUNS)))
    return times[1] - times[0]


def in_c(name, folder):
    shape, block, _, goes_on, loop = JOBS[name]
    body = LOOPS.get(name) or f'for (long i = 0; i < (long)rows * cols; i++) {loop};'
    blocks = shape[0] * shape[1] // (block[0] * block[1])
    source, program = os.path.join(folder, 'k.c'), os.path.join(folder, 'k')
    with open(source, 'w', encoding='ascii') as out:
        out.write(C % (block[0], block[1], blocks, MANY - FEW, goes_on, body))
    subprocess.run(['gcc', '-O3', '-march=x86-64-v2', '-o', program, source], check=True)
    with open(os.path.join(TOP, 'dask'), encoding='utf-8') as launcher:
        settings = {'GLIBC_TUNABLES': re.search('GLIBC_TUNABLES-([^}]*)}', launcher.read())[1], **os.environ}
    return min(float(subprocess.run([program], capture_output=True, check=True, text=True, env=settings).stdout.split()[0]) for _ in range(RUNS))


def main():
    for name in sys.argv[1:] or JOBS:
        with tempfile.TemporaryDirectory() as folder:
            mine, theirs = ours(name, folder), in_c(name, folder)
            print(f'{name}: {mine:.3f} s, C {theirs:.3f} s, ratio {mine / theirs:.2f}', flush=True)


if __name__ == '__main__':
    main()
