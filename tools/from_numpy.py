#!/usr/bin/env python3
"""Tries the rows of docs/FROM_NUMPY.md: each expression by the program and by NumPy, and each refusal by the program.

    /usr/bin/python3 tools/from_numpy.py PROGRAM

Of a row of expressions the first column has NumPy's and the second the job's, as many of them; a row with `–` has none. Of a row
of refusals the first column has the line and the second the text that is refused. It prints a line for each difference, and at
last how many rows agree and how many differ.
"""
import os
import re
import subprocess
import sys
import tempfile

import numpy as np

DOCUMENT = os.path.join(os.path.dirname(os.path.dirname(os.path.abspath(__file__))), 'docs', 'FROM_NUMPY.md')
LEAST, LARGEST = -2**63, 2**63 - 1
EXTREMES = np.array([LEAST, LEAST + 1, -999, -3, -1, 0, 1, 3, 4, 5, 9, 10, LARGEST - 1, LARGEST], '<i8')


def codes(cell):
    return [code.replace('\\|', '|') for code in re.findall(r'`([^`]+)`', cell)]


def rows():
    """The cells of each row of a table, with the first cell of the table's head."""
    head = ''
    with open(DOCUMENT, encoding='utf-8') as document:
        for line in document:
            cells = [cell.strip() for cell in re.split(r'(?<!\\)\|', line.strip())[1:-1]]
            if not cells:
                head = ''
            elif not head:
                head = cells[0]
            elif not cells[0].startswith('---'):
                yield head, cells


def arrays(extreme):
    draw = np.random.RandomState(3)
    shapes = {'a': (4, 6), 'b': (4, 6), 'm': (4, 6), 'c': (6,), 'd': (6,), 'k': (6, 3), 't': (2, 3, 4), 'p': (4, 6), 'q': (4, 6)}
    made = {name: draw.randint(-12, 30, shape).astype('<i8') for name, shape in shapes.items()}
    if extreme:
        made.update((name, draw.choice(EXTREMES, shapes[name])) for name in 'abmdkt')
    made['b'] = np.where(made['b'] <= 0, 4, made['b'])
    made['m'][draw.randint(0, 3, (4, 6)) == 0] = -999
    made.update(c=draw.randint(0, 10, 6), p=draw.randint(0, 2, (4, 6)), q=draw.randint(0, 2, (4, 6)))
    made['a'][1, 2:4] = 3, 9
    return {name: np.asarray(array, '<i8') for name, array in made.items()}


def by_numpy(expression, made):
    """NumPy's array; an expression of Dask's is tried by NumPy, of which `rechunk` changes nothing."""
    expression = re.sub(r'\.rechunk\(.*\)$', '', expression.replace(', split_every=2', ''))
    with np.errstate(all='ignore'):
        return np.asarray(eval(expression, {'np': np, **made})).astype('<i8')  # the text is this repository's own


def run(program, folder, text):
    with open(os.path.join(folder, 'job.txt'), 'w', encoding='ascii') as job:
        job.write(text)
    return subprocess.run([program, 'run', 'job.txt'], cwd=folder, capture_output=True, text=True, check=False)


def inputs(made):
    lines = []
    for name, array in made.items():
        chunks = {(4, 6): '(2, 3)' if name != 'b' else '(4, (2, 4))', (6,): '(4)', (6, 3): '(2, 3)', (2, 3, 4): '(1, 2, 4)'}[array.shape]
        shape = '(' + ', '.join(map(str, array.shape)) + ')'
        lines.append(f'input {name} "{name}.npy" shape {shape} chunks {chunks}\n')
    return ''.join(lines)


class Tried:
    def __init__(self, program):
        self.program, self.equal, self.different = program, 0, 0

    def count(self, same, what):
        if same:
            self.equal += 1
        else:
            self.different += 1
            print(f'from numpy: {what}')

    def expression(self, theirs, ours, extreme):
        made = arrays(extreme)
        with tempfile.TemporaryDirectory() as folder:
            for name, array in made.items():
                np.save(os.path.join(folder, name + '.npy'), array)
            done = run(self.program, folder, inputs(made) + f'let saved = {ours}\nsave saved "saved.npy"\n')
            if done.returncode:
                return self.count(False, f'`{ours}` gives {done.stderr}')
            wanted, got = by_numpy(theirs, made), np.load(os.path.join(folder, 'saved.npy'))
            same = wanted.shape == got.shape and (wanted == got).all()
            return self.count(same, f'`{theirs}` is {wanted.tolist()}, and `{ours}` is {got.tolist()}')

    def refusal(self, line, text):
        with tempfile.TemporaryDirectory() as folder:
            np.save(os.path.join(folder, 'a.npy'), np.arange(24, dtype='<i8').reshape(4, 6))
            last = '' if text.startswith('save') else 'save b "b.npy"\n'
            done = run(self.program, folder, f'input a "a.npy" shape (4, 6) chunks (2, 3)\n{text}\n{last}')
            self.count(done.stderr == line + '\n' and done.returncode, f'`{text}` gives {done.returncode} {done.stderr}')

    def row(self, head, cells):
        first, second = codes(cells[0]), codes(cells[1])
        if head in ('NumPy', '`dask.array`') and cells[1] != '–':
            self.count(len(first) == len(second), f'{cells[0]} and {cells[1]} are not as many')
            for theirs, ours in zip(first, second):
                self.expression(theirs, ours, False)
                # a quotient or a mean of NumPy's is rounded to the fractions that there are
                if ' / ' not in theirs and 'mean' not in theirs:
                    self.expression(theirs, ours, True)
        elif head == 'Line' and second:
            self.refusal(first[0], second[0])


def main(program):
    tried = Tried(os.path.abspath(program))
    for head, cells in rows():
        tried.row(head, cells)
    print(f'equal {tried.equal} different {tried.different}')


if __name__ == '__main__':
    main(sys.argv[1])
