#!/usr/bin/env python3
"""The package against NumPy: random trees byte for byte, chunks and counts of tasks, places of zero divisors, refusals, and uses.

    python3 tests/random_trees.py [TREES] [SEED]

It prints a line for each difference, how often each operation was saved from, and at last how many cases agree and how many differ.
"""
import collections
import io
import os
import random
import sys
import tempfile

import numpy as np

HERE = os.path.dirname(os.path.abspath(__file__))
sys.path[:0] = [os.path.dirname(HERE), os.path.join(HERE, '..', '..', 'tools')]
import graph_model  # noqa: E402
import refusals  # noqa: E402
import uses  # noqa: E402
import yitrovana as y  # noqa: E402
from trees import Tree  # noqa: E402
from yitrovana import commands, text  # noqa: E402


def bytes_of(array):
    file = io.BytesIO()
    np.save(file, np.ascontiguousarray(array, '<i8').reshape(np.shape(array)))
    return file.getvalue()


class Cases:
    def __init__(self):
        self.equal, self.different = 0, 0
        self.kinds, self.operations = collections.Counter(), collections.Counter()

    def check(self, what, got, wanted):
        self.kinds[what.split()[0]] += 1
        if got == wanted:
            self.equal += 1
        else:
            self.different += 1
            print(f'{what}: got\n{got}\nwanted\n{wanted}')

    def tree(self, seed):
        draw = random.Random(seed)
        with np.errstate(all='ignore'):
            grown = Tree(draw)
        pairs = draw.sample(grown.pool, min(len(grown.pool), 3)) + [grown.pool[-1]]
        arrays = {f'saved {k}.npy': a for k, (a, _) in enumerate(pairs)}
        job = text.Job(arrays)
        self.operations.update(one.operation for one in job.arrays)
        command = draw.choice(('run', 'run', 'plain', 'sim'))
        options = {} if command == 'plain' else {'workers': draw.randint(1, 4), 'threads': 1}
        try:
            y.save(arrays, command=command, number=seed, **options)
        except Exception as error:  # a difference, whatever it is
            self.check(f'tree {seed}: {job.text}', repr(error), None)
            return
        for name, (a, m) in zip(arrays, pairs):
            with open(name, 'rb') as file:
                self.check(f'tree {seed} {name}: {job.text}', (a.shape, file.read()), (m.shape, bytes_of(m)))
        self.count(seed, job, pairs)
        cuts = [pair for pair in grown.pool if pair[0].operation in ('slice', 'concatenate', '+', '-', '*', 'where')]
        for a, m in pairs[-1:] + draw.sample(cuts, min(len(cuts), 1)):
            self.place(seed, draw, a, m)

    def count(self, seed, job, pairs):
        """How many tasks, by a model of the graph; of a product of an array with itself the dependencies are counted too low."""
        graph = graph_model.Lowered(job.text.strip().replace('\n', ' ; '))
        counted = y.graph(*(a for a, _ in pairs))
        itself = any(one.operation == 'tensordot' and len({job.keys[id(of)] for of in one.operands}) == 1 for one in job.arrays)
        got = counted.tasks, min(counted.edges, graph.made[1]) if itself else counted.edges
        self.check(f'count {seed}: {job.text}', got, (graph.made[0], counted.edges if itself else graph.made[1]))

    def place(self, seed, draw, a, m):
        """A zero divisor at one place: the block in which it is, by `chunks`, and the array that divides."""
        if not m.size or not m.ndim:
            return
        at = tuple(draw.randrange(length) for length in m.shape)
        flat = int(np.ravel_multi_index(at, m.shape))
        quotient = a // y.where(a * 0 + y.ramp(m.shape, 0, 1, m.shape) - flat, 1, 0)
        block = tuple(next(k for k, end in enumerate(np.cumsum(sizes)) if one < end) for one, sizes in zip(at, a.chunks))
        try:
            quotient.compute(command='plain')
        except ZeroDivisionError as error:
            place = f'({", ".join(map(str, block))})'
            self.check(f'place {seed}: {error.job}', (error.line.split(' block ')[1], error.array is quotient), (place, True))
        else:
            self.check(f'place {seed}', 'no zero division', block)

    def slices(self, seed):
        """Slices of one axis alone, in uneven chunks, and where their chunks are."""
        draw = random.Random(seed)
        for k in range(20):
            length, sizes = draw.randint(4, 12), []
            while sum(sizes) < length:
                sizes.append(draw.randint(1, min(4, length - sum(sizes))))
            bound = [draw.choice((None, draw.randint(-length, length))) for _ in range(2)]
            key = slice(*bound, draw.choice((1, 2, 3, -1, -1, -2, -3)))
            a, m = y.ramp((length,), 5, 3, (tuple(sizes),))[key], (np.arange(length) * 3 + 5)[key]
            self.check(f'slice {sizes} {key}', a.compute(command='plain').tolist(), m.tolist())
            self.place(k, draw, a, m)

    def refusals(self):
        for what, kind, part, call in refusals.cases():
            try:
                got = call()
            except Exception as error:  # its kind is what is looked at
                got = isinstance(error, kind) and part in str(error) or repr(error)
            self.check(f'refusal {what}', got, True)

    def uses(self):
        for what, got, wanted in uses.cases():
            self.check(f'use {what}', got, wanted)


def main(trees=60, seed=1):
    cases = Cases()
    with tempfile.TemporaryDirectory() as folder:
        os.environ['YITROVANA'] = commands.program()[0]
        os.chdir(folder)
        for k in range(trees):
            cases.tree(seed + k)
        cases.slices(seed)
        cases.refusals()
        cases.uses()
        os.chdir('/')
    print(', '.join(f'{name} {many}' for name, many in sorted(cases.operations.items())))
    print(', '.join(f'{kind} {many}' for kind, many in cases.kinds.items()))
    print(f'equal {cases.equal} different {cases.different}')
    return cases.different > 0


if __name__ == '__main__':
    sys.exit(main(*map(int, sys.argv[1:])))
