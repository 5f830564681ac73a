"""Random trees: pairs of a lazy array and of NumPy's, which grow by random operations on both."""
import numpy as np

import yitrovana as y

LEAST, LARGEST = -2**63, 2**63 - 1
TYPES, VERSIONS = ('<i8', '>i8', '<i4', '>i4', '<i2', '>i2', '|i1'), (1, 2, 3)
EXTREMES = [LEAST, LEAST + 1, -3, -1, 0, 1, 2, 7, LARGEST - 1, LARGEST]
LENGTHS, AXES = (0, 1, 2, 3, 4, 4, 4, 5, 6), (0, 1, 1, 2, 2, 2, 3, 4)
OLD = tuple(map(int, np.__version__.split('.')[:2])) < (1, 22)
MOST, MOST_AXES, MOST_PRODUCTS = 4000, 6, 10**6  # elements and axes of an array of a tree, and multiplications of one operation


class Tree:
    """A pool of pairs, a lazy array and NumPy's."""

    def __init__(self, draw):
        self.draw, self.pool = draw, []
        self.kinds = (4 * [self.binary] + 2 * [self.nested, self.where, self.divide, self.fold, self.slice]
                      + [self.negate, self.least, self.turn, self.transpose, self.rechunk, self.concatenate, self.tensordot, self.matmul,
                         self.numpy, self.arange, lambda a, m: self.make(self.shape())])
        for k in range(draw.randint(1, 3)):
            self.leaf(k)
        for _ in range(draw.randint(3, 12)):
            pair = draw.choice(self.kinds)(*self.pick())
            if pair and pair[1].size <= MOST and pair[1].ndim <= MOST_AXES:
                self.pool.append(pair)

    # ---- what is drawn

    def chunks(self, shape):
        return tuple(self.sizes(length) for length in shape)

    def sizes(self, length):
        if length == 0 or self.draw.random() < 0.6:
            return self.draw.randint(1, length + 1)
        sizes = []
        while sum(sizes) < length:
            sizes.append(self.draw.randint(1, length - sum(sizes)))
        return tuple(sizes)

    def shape(self):
        return tuple(self.draw.choice(LENGTHS) for _ in range(self.draw.choice(AXES)))

    def number(self):
        return self.draw.choice(EXTREMES) if self.draw.random() < 0.3 else self.draw.randint(-9, 9)

    def axis(self, count):
        kind = self.draw.randint(0, 3)
        if kind == 0 or not count:
            return self.draw.choice((None, ()))
        if kind == 1:
            return self.draw.randint(-count, count - 1)
        return tuple(axis - self.draw.choice((0, count)) for axis in self.draw.sample(range(count), self.draw.randint(1, count)))

    def part(self, length):
        if length and self.draw.random() < 0.25:
            return self.draw.randint(-length, length - 1)
        bounds = [None, self.draw.randint(-length - 2, length + 2)]
        ends = [None, None] if self.draw.random() < 0.4 else [self.draw.choice(bounds) for _ in range(2)]
        return slice(*ends, self.draw.choice((None, None, 1, 2, 3, -1, -1, -2, 2**70, -2**70)))

    def pick(self):
        """One of the pool, the last ones sooner."""
        return self.draw.choice(self.pool[-2:] if self.draw.random() < 0.6 else self.pool)

    def like(self, made):
        """One that may be broadcast with this one: of the pool, a number, or made for it."""
        fit = [pair for pair in self.pool if fits(pair[1], made)]
        kind = self.draw.random()
        if kind < 0.5:
            return self.draw.choice(fit)
        if kind < 0.75:
            value = self.number()
            return value, np.array(value, '<i8')
        return self.make(tuple(self.draw.choice((1, length)) for length in made.shape[self.draw.randint(0, made.ndim):]))

    # ---- arrays that are made of nothing

    def leaf(self, k):
        """An array of a file of one of the types, most often int64, in one of the versions."""
        shape, dtype = self.shape(), self.draw.choice(TYPES[:1] + TYPES)
        made = np.array([self.number() for _ in range(int(np.prod(shape)))], '<i8').astype(dtype).reshape(shape)
        name = f'input {k}.npy'
        with open(name, 'wb') as file:
            whole = np.asfortranarray(made) if made.ndim and self.draw.random() < 0.3 else made
            np.lib.format.write_array(file, whole, version=(self.draw.choice(VERSIONS), 0))
        self.pool.append((y.open(name, chunks=self.draw.choice((None, self.chunks(shape)))), made.astype('<i8')))

    def make(self, shape):
        start, step = self.number(), self.number()
        chunks = self.draw.choice((None, self.chunks(shape)))
        kind = self.draw.random()
        if kind < 0.1:
            return y.zeros(shape, chunks), np.zeros(shape, '<i8')
        if kind < 0.2:
            return y.ones(shape, chunks), np.ones(shape, '<i8')
        if kind < 0.5:
            return y.full(shape, start, chunks), np.full(shape, start, '<i8')
        count = np.arange(int(np.prod(shape)), dtype='<i8')
        return y.ramp(shape, start, step, chunks), (count * np.int64(step) + np.int64(start)).reshape(shape)

    def arange(self, a, m):
        ends = sorted(self.draw.randint(-20, 20) for _ in range(self.draw.randint(1, 2)))
        step = self.draw.choice((1, 2, 3))
        if len(ends) == 1:
            return y.arange(*ends), np.arange(*ends)
        if self.draw.random() < 0.5:
            ends, step = ends[::-1], -step
        return y.arange(*ends, step, self.draw.randint(1, 9)), np.arange(*ends, step)

    # ---- operations

    def binary(self, a, m):
        b, n = self.like(m)
        if self.draw.random() < 0.5:
            (a, m), (b, n) = (b, n), (a, m)
        sign = self.draw.choice('+-*')
        return signed(sign, a, b), signed(sign, m, n)

    def nested(self, a, m, deep=4):
        """Signs in signs, of which none is used twice."""
        if deep == 0 or self.draw.random() < 0.2:
            return a, m
        sign, first = self.draw.choice('+-*-/%n'), self.nested(a, m, deep - 1)
        if sign == 'n':
            return -first[0], -first[1]
        value = self.number() or 3
        second = (value, np.array(value, '<i8')) if sign in '/%' else self.nested(a, m, deep - 1)
        (a, m), (b, n) = (first, second) if sign in '/%' or self.draw.random() < 0.5 else (second, first)
        return signed(sign, a, b), signed(sign, m, n)

    def where(self, a, m):
        b, n = self.like(m)
        c, o = self.like(np.broadcast_to(m, np.broadcast(m, n).shape))
        order = [(a, m), (b, n), (c, o)]
        self.draw.shuffle(order)
        return y.where(*(one for one, _ in order)), np.where(*(one for _, one in order))

    def divide(self, a, m):
        b, n = self.like(m)
        if isinstance(b, int):
            b = n = b or 5
        else:
            b, n = y.where(b, b, 3), np.where(n, n, 3)
        sign = self.draw.choice('/%')
        return signed(sign, a, b), signed(sign, m, n)

    def fold(self, a, m):
        name, axis = self.draw.choice(('sum', 'prod', 'min', 'max')), self.axis(m.ndim)
        folded = range(m.ndim) if axis is None else [axis] if isinstance(axis, int) else axis
        if name in ('min', 'max') and any(m.shape[one] == 0 for one in folded):
            return None
        made = np.asarray(getattr(m, name)(axis=axis))
        if self.draw.random() < 0.3:
            return getattr(np, name)(a, axis=axis), made
        return getattr(y, name)(a, axis=axis, split_every=self.draw.choice((None, 2, 3))), made

    def slice(self, a, m):
        key = tuple(self.part(length) for length in m.shape[:self.draw.randint(0, m.ndim)])
        if self.draw.random() < 0.2:
            key = (Ellipsis,) + tuple(self.part(length) for length in m.shape[m.ndim - len(key):])
        return a[key], np.asarray(m[key])

    def negate(self, a, m):
        return -a, -m

    def least(self, a, m):
        b, n = self.like(m)
        name = self.draw.choice(('minimum', 'maximum'))
        return getattr(y, name)(a, b), getattr(np, name)(m, n)

    def turn(self, a, m):
        return a.T, m.T

    def transpose(self, a, m):
        axes = [axis - self.draw.choice((0, m.ndim)) for axis in self.draw.sample(range(m.ndim), m.ndim)]
        if axes and self.draw.random() < 0.5:
            return a.transpose(*axes), m.transpose(*axes)
        return y.transpose(a, axes), np.transpose(m, axes)

    def rechunk(self, a, m):
        if m.ndim and self.draw.random() < 0.2:
            axis = self.draw.randrange(m.ndim)
            return a.rechunk({axis - self.draw.choice((0, m.ndim)): self.sizes(m.shape[axis])}), m
        return a.rechunk(self.chunks(m.shape)), m

    def concatenate(self, a, m):
        if not m.ndim:
            return None
        axis = self.draw.randint(-m.ndim, m.ndim - 1)
        fit = [pair for pair in self.pool if pair[1].ndim == m.ndim and beside(pair[1], axis) == beside(m, axis)]
        pairs = [(a, m)] + [self.draw.choice(fit) for _ in range(self.draw.randint(0, 2))]
        if self.draw.random() < 0.2:
            none = (slice(None),) * (axis % m.ndim) + (slice(1, 1),)
            pairs.insert(self.draw.randint(0, len(pairs)), (a[none], m[none]))
        return y.concatenate([one for one, _ in pairs], axis=axis), np.concatenate([one for _, one in pairs], axis=axis)

    def tensordot(self, a, m):
        b, n = self.pick()
        pairs = [(k, j) for k in range(m.ndim) for j in range(n.ndim) if m.shape[k] == n.shape[j]]
        self.draw.shuffle(pairs)
        first, second = [], []
        for k, j in pairs[:self.draw.randint(0, 3)]:
            if k not in first and j not in second:
                first.append(k)
                second.append(j)
        if m.ndim + n.ndim - 2 * len(first) > MOST_AXES or m.size * n.size > MOST_PRODUCTS:
            return None
        axes = (first, [j - self.draw.choice((0, n.ndim)) for j in second]) if first else 0
        return y.tensordot(a, b, axes), np.asarray(np.tensordot(m, n, axes))

    def matmul(self, a, m):
        fit = [pair for pair in self.pool if m.ndim and pair[1].ndim in (1, 2) and pair[1].shape[0] == m.shape[-1]]
        if not fit:
            return None
        b, n = self.draw.choice(fit)
        return a @ b, np.asarray(m @ n)

    def numpy(self, a, m):
        """By NumPy's own functions."""
        b, n = self.like(m)
        name = self.draw.choice(('add', 'minimum', 'subtract', 'multiply'))
        return getattr(np, name)(a, b), getattr(np, name)(m, n)


def signed(sign, a, b):
    if sign in '/%':
        if OLD and not isinstance(a, y.Array) and not isinstance(b, y.Array):
            return divided(sign, a, b)
        return a // b if sign == '/' else a % b
    return a + b if sign == '+' else a - b if sign == '-' else a * b


def divided(sign, m, n):
    """A quotient and a rest, also of -2^63 by -1, at which NumPy 1.19 fails."""
    other = np.where(n == -1, 1, n)
    return np.where(n == -1, -m, m // other) if sign == '/' else m % other


def beside(made, axis):
    return np.delete(made.shape, axis).tolist()


def fits(m, n):
    try:
        return np.broadcast(m, n) is not None
    except ValueError:
        return False
