"""What `from_dask` takes over, and what it leaves to Dask: what, an array of `dask.array`, and whether it is taken over.

    python3 tests/expression_cases.py [COUNT [SEED]]

Each is compared with what Dask computes of it, and so are COUNT random expressions (100).
"""
import operator
import os
import random
import sys
import tempfile
import warnings

import numpy as np

sys.path.insert(0, os.path.dirname(os.path.dirname(os.path.abspath(__file__))))
import dask  # noqa: E402
import dask.array as da  # noqa: E402
import yitrovana as y  # noqa: E402

ENDS = np.array([[-2**63, -2**63 + 1, -7, -1, 0, 1], [2, 3, 5, 2**62, 2**63 - 2, 2**63 - 1], [-2, 0, 4, -9, 0, -2**63]])
COMPARED = (operator.lt, operator.le, operator.gt, operator.ge, operator.eq, operator.ne)
COPIES = int(dask.__version__[:4]) >= 2024  # of maps Dask keeps copies, which are arrays of NumPy
ARITHMETIC = (operator.add, operator.sub, operator.mul, operator.floordiv, operator.mod, da.add, da.subtract, da.multiply, da.floor_divide,
              da.remainder, da.minimum, da.maximum)


def sources():
    grid = np.arange(24).reshape(4, 6)
    np.save('grid.npy', grid)
    np.save('turned.npy', np.asfortranarray(grid))
    np.save('ends.npy', ENDS)
    file = np.load('grid.npy', mmap_mode='r')
    yield 'blocks of NumPy', da.from_array(grid, chunks=(3, 4)), True
    yield 'one block', da.from_array(grid), True
    yield 'asarray', da.asarray(grid), True
    yield 'no axes', da.from_array(np.array(7), chunks=()), True
    yield 'no elements', da.from_array(grid[:0], chunks=3), True
    yield 'truth values', da.from_array(grid > 5, chunks=3), True
    yield 'a map', da.from_array(file, chunks=(2, 5)), True
    yield 'a map by columns', da.from_array(np.load('turned.npy', mmap_mode='r'), chunks=(2, 5)), True
    for shape in ((5, 4), (3,), (), (0, 2)):
        yield f'ones {shape}', da.ones(shape, dtype=int, chunks=2), True
        yield f'zeros {shape}', da.zeros(shape, dtype='i8', chunks=2), True
        yield f'full {shape}', da.full(shape, -7, chunks=2), True
    for words in ((7,), (2, 9), (2, 19, 3), (9, -8, -2), (3, 3), (5, 6, 100)):
        yield f'arange {words}', da.arange(*words, chunks=2), True
    a = y.open('grid.npy', chunks=(3, 4))
    yield 'an opened file', a.to_dask(), True
    yield 'operations of this package', (a // (a + 1)).T.to_dask() - 3, True
    yield 'a persisted array', (da.from_array(grid, chunks=3) + 1).persist(scheduler='sync'), True


def parts(x):
    slices = (slice(None), slice(1, 3), slice(None, None, -1), slice(1, 6, 2), slice(5, 0, -2), slice(0, 6, 5), slice(2, 2), slice(4, 5), 0, -1)
    for one in slices:
        for other in (slice(None), slice(None, None, -3), 2):
            yield f'[{other}, {one}]', x[other, one], True
    yield 'a part of a part', x[::2][:, 1:][::-1], True
    for axes in ((0, 1), (1, 0)):
        yield f'transpose {axes}', x.transpose(axes), True
    yield 'T of three axes', da.from_array(np.arange(24).reshape(2, 3, 4), chunks=2).transpose(1, 2, 0), True
    for chunks in (1, (3, 2), {1: -1}, ((1, 2), (4, 2)), (2, 4)):
        yield f'rechunk {chunks}', x.rechunk(chunks), True
    yield 'rechunk in steps', da.from_array(np.arange(4096).reshape(64, 64), chunks=(64, 1)).rechunk((1, 64), threshold=1, block_size_limit=1024), True
    yield 'concatenate', da.concatenate([x, x[:1], x, da.zeros((2, 6), dtype=int)]), True
    yield 'concatenate on axis 1', da.concatenate([x, x[:, :0], x[:, 2:], x], axis=1), True


def elements(x):
    row, column = x[0, :], da.from_array(np.arange(-1, 2).reshape(3, 1), chunks=1)
    for function in ARITHMETIC + COMPARED:
        name = getattr(function, '__name__', function)
        for what, a, b in (('arrays', x, x[::-1]), ('a row', x, row), ('a column', column, x), ('a number', x, 3), ('-1', x, -1), ('a number before', -5, x),
                           ("NumPy's number", x, np.int64(3)), ('no axes', x.sum(), x[0, 0]), ("NumPy's array", x, np.arange(6))):
            yield f'{name} of {what}', function(a, b), True
    yield 'negative', -x, True
    yield 'negative by its name', da.negative(x), True
    yield 'where', da.where(x, x + 1, 0), True
    yield 'where of a condition', da.where((x > 3) & (x != 5) | ~(x < 9), x, row), True
    yield 'astype', (x > 2).astype('i8') * 3, True
    yield 'a sum of truth values', (x > 2).sum(axis=0), True
    yield 'a mixed sum', (x > 2) + x, True


def folds(x):
    three = da.from_array(np.arange(60).reshape(3, 4, 5) * 7919 % 101, chunks=(1, 2, 2))
    for name in ('sum', 'prod', 'min', 'max'):
        for axis in (None, 0, 1, -1, (0, 1), (0, 2), ()):
            of = three if axis == (0, 2) else x
            yield f'{name} over {axis}', getattr(of, name)(axis=axis), axis != ()
        yield f'{name} by da', getattr(da, name)(x, axis=0), True
        yield f'{name} keeps axes', x - getattr(x, name)(axis=1, keepdims=True), True
        yield f'{name} keeps all axes', getattr(three, name)(keepdims=True), True
        yield f'{name} keeps outer axes', getattr(three, name)(axis=(0, 2), keepdims=True), True
    for every in (2, 3, 5, 16):
        yield f'split_every {every}', da.arange(50, chunks=2).sum(split_every=every), every != 5


def left(x):
    """What Dask computes."""
    file = np.load('grid.npy', mmap_mode='r')
    twice = np.load('grid.npy', mmap_mode='r')[::-1]
    yield 'integers of 32 bits', da.arange(5, dtype='i4', chunks=2), False
    yield 'a sum of 32 bits', x.astype('i4') + 1, False
    np.save('small.npy', np.arange(5, dtype='i4'))
    yield 'a map of 32 bits', da.from_array(np.load('small.npy', mmap_mode='r'), chunks=2), False
    yield 'bytes in another order', da.from_array(np.arange(4).astype('>i8'), chunks=2), False
    yield 'a function', x.map_blocks(lambda block: block + 1, dtype=x.dtype), False
    yield 'a function named as an operation', x.map_blocks(lambda block: block + 1, dtype=x.dtype, token='neg'), False
    yield 'a name that was given', x.map_blocks(lambda block: block + 1, dtype=x.dtype, name='neg-1'), False
    yield 'the name of an operation', x.map_blocks(lambda block: block + 1, dtype=x.dtype, name=(-x).name), False
    yield 'fractions between', (x[1:2] / 2).astype('i8'), False
    yield 'absolute values', abs(da.where(x < -9, 0, x)), False
    yield 'a list', x[:, [2, 0]], False
    yield 'a new axis', x[:, None], False
    yield 'a condition on values', da.where(x > 1.5, x, 0), False
    yield 'where of an argument', da.add(x, x, where=x > 3, out=da.zeros_like(x)), False
    yield 'a truth value as a number', da.minimum(x, True), False
    yield 'a division by 0', x // 0, False
    yield 'a cumulative sum', x.cumsum(axis=0), False
    yield 'another array of NumPy', da.from_array(np.ma.masked_array(np.arange(4), [0, 1, 0, 1]), chunks=2).sum(), False
    yield 'another order of a map', da.from_array(twice, chunks=2), COPIES
    yield 'a part of a map', da.from_array(file[1:], chunks=2), COPIES
    yield 'a reshaped map', da.from_array(file.reshape(6, 4), chunks=2), COPIES
    yield 'a map of a file that was replaced', replaced(), COPIES
    yield 'a map with a lock', da.from_array(file, chunks=2, lock=True), False
    yield 'a map in the tasks', da.from_array(file, chunks=2, inline_array=True), False
    yield 'an optimized graph', dask.optimize(-(-x) - x[0])[0], False
    yield 'delayed', da.from_delayed(dask.delayed(np.arange)(6), (6,), 'i8'), False
    yield 'too many tasks', da.ones((40000,), dtype=int, chunks=1)[:3], False


def replaced():
    np.save('other.npy', np.arange(6))
    made = da.from_array(np.load('other.npy', mmap_mode='r'), chunks=2)
    np.save('new.npy', np.zeros(6, int))
    os.utime('new.npy', (0, 0))
    os.replace('new.npy', 'other.npy')
    return made


class Tree:
    """A random expression over what is taken over."""

    def __init__(self, draw):
        self.draw = draw
        self.pool = [da.from_array(ENDS, chunks=self.chunks((3, 6))), da.from_array(np.load('ends.npy', mmap_mode='r'), chunks=self.chunks((3, 6)))]
        kinds = (self.binary, self.binary, self.choice, self.part, self.fold, self.turn, self.join, self.rechunk)
        for _ in range(draw.randint(2, 9)):
            with warnings.catch_warnings():
                warnings.simplefilter('ignore')
                made = draw.choice(kinds)(draw.choice(self.pool[-3:]))
            if made.dtype == 'i8' and made.size < 5000:
                self.pool.append(made)

    def chunks(self, shape):
        return tuple(self.draw.randint(1, length) if length else 1 for length in shape)

    def like(self, x):
        fit = [one for one in self.pool if fits(one.shape, x.shape)] + [self.draw.randint(-9, 9), np.int64(2**63 - 1)]
        return self.draw.choice(fit)

    def binary(self, x):
        operands = [x, self.like(x)]
        self.draw.shuffle(operands)
        if type(operands[1]) is int and operands[1] == 0:
            operands[1] = 5
        return self.draw.choice(ARITHMETIC)(*operands)

    def choice(self, x):
        return da.where(self.draw.choice(COMPARED)(x, self.like(x)), x, self.draw.randint(-3, 3))

    def part(self, x):
        return x[tuple(slice(*(self.draw.choice((None, self.draw.randint(-length, length))) for _ in range(2)), self.draw.choice((None, 2, -1, -2)))
                       if self.draw.random() < .8 or not length else self.draw.randrange(length) for length in x.shape)]

    def fold(self, x):
        if not x.ndim or 0 in x.shape:
            return -x
        axes = tuple(sorted(self.draw.sample(range(x.ndim), self.draw.randint(1, x.ndim))))
        return getattr(x, self.draw.choice(('sum', 'prod', 'min', 'max')))(axis=axes, keepdims=self.draw.random() < .3)

    def turn(self, x):
        return x.transpose(self.draw.sample(range(x.ndim), x.ndim)) if x.ndim else x

    def join(self, x):
        return da.concatenate([x, self.draw.choice([one for one in self.pool if one.shape == x.shape])], axis=self.draw.randrange(x.ndim)) if x.ndim else x + x

    def rechunk(self, x):
        return x.rechunk(self.chunks(x.shape))


def fits(one, other):
    try:
        return np.broadcast_shapes(one, other) is not None
    except ValueError:
        return False


def cases(count, seed):
    yield from sources()
    x = da.from_array(ENDS, chunks=(2, 4))
    for part in (parts, elements, folds, left):
        yield from part(x)
    for k in range(count):
        made = Tree(random.Random(seed + k)).pool[-1]
        # Dask makes `empty` of what has no elements and gets other chunks, and fails at some of it
        if not any(name.startswith('empty') for name in made.dask.layers):
            yield f'random {seed + k}', made, True


def main(count=100, seed=1):
    equal = different = 0
    with tempfile.TemporaryDirectory() as folder, np.errstate(all='ignore'):
        os.chdir(folder)
        for what, x, taken in cases(count, seed):
            with warnings.catch_warnings():
                warnings.simplefilter('ignore', RuntimeWarning)
                wanted = x.compute(scheduler='sync')
                made = y.from_dask(x, 'made.npy')
            sizes = tuple(tuple(size for size in axis if size) or (0,) for axis in x.chunks)
            got = made.compute(command='plain').tolist(), made.chunks, not os.path.exists('made.npy')
            if not got[2]:
                os.remove('made.npy')
            if got == (wanted.astype('i8').tolist(), sizes, taken):
                equal += 1
            else:
                different += 1
                print(f'{what}: got\n{got}\nwanted\n{wanted.tolist(), sizes, taken}')
        os.chdir('/')
    print(f'equal {equal} different {different}')
    return different > 0


if __name__ == '__main__':
    sys.exit(main(*map(int, sys.argv[1:])))
