"""Random jobs with their inputs, for checks that compare two ways to run them. It needs nothing but Python."""
import itertools
import math
import os
import struct

TYPES, VERSIONS = ('<i8', '>i8', '<i4', '>i4', '<i2', '>i2', '|i1'), (1, 2, 3)
CODES = {'8': 'q', '4': 'i', '2': 'h', '1': 'b'}


class Writer:
    """Writes one job: names that are defined, each with its shape."""

    def __init__(self, draw):
        self.draw, self.lines, self.shapes, self.inputs = draw, [], {}, {}

    def chunks(self, shape):
        return '(' + ', '.join(map(self.axis, shape)) + ')'

    def axis(self, length):
        if length and self.draw.random() < 0.3:
            cuts = sorted(self.draw.sample(range(1, length), self.draw.randint(0, min(3, length - 1))))
            return '(' + ', '.join(str(b - a) for a, b in zip([0, *cuts], [*cuts, length])) + ')'
        return str(self.draw.randint(1, max(1, length)))

    def shape(self):
        lengths = self.draw.choices(range(1, 9), k=self.draw.choice((1, 1, 2, 2, 2, 3)))
        if self.draw.random() < 0.05:
            lengths[0] = 0
        return tuple(lengths)

    def define(self, expression, shape):
        name = f'x{len(self.shapes)}'
        self.lines.append(f'let {name} = {expression}')
        self.shapes[name] = shape

    def input(self):
        shape, name = self.shape(), f'x{len(self.shapes)}'
        dims = '(' + ', '.join(map(str, shape)) + ')'
        self.lines.append(f'input {name} "{name}.npy" shape {dims} chunks {self.chunks(shape)}')
        self.shapes[name] = self.inputs[name] = shape

    def made(self):
        shape = self.shape()
        dims, chunks = '(' + ', '.join(map(str, shape)) + ')', self.chunks(shape)
        number = self.draw.choice((3, -4, 2**63 - 1, -2**63))
        if self.draw.random() < 0.3:
            return self.define(f'full({dims}, {number}, {chunks})', shape)
        return self.define(f'ramp({dims}, {number}, {self.draw.choice((1, -3, 2**62))}, {chunks})', shape)

    def one(self):
        name = self.draw.choice(list(self.shapes))
        return name, self.shapes[name]

    def fitting(self, shape):
        """A name or a number that is broadcast with this shape."""
        names = [name for name in self.shapes if fits(self.shapes[name], shape)]
        if names and self.draw.random() < 0.7:
            name = self.draw.choice(names)
            return name, self.shapes[name]
        return str(self.draw.choice((1, 2, -3, 7, -2**63))), ()

    def elementwise(self):
        name, shape = self.one()
        other, second = self.fitting(shape)
        shape = both(shape, second)
        op = self.draw.choice('+ - * // % minimum maximum'.split())
        if op in ('//', '%') and self.draw.random() < 0.8:
            other = f'({other} * 2 + 1)'
        self.define(f'{op}({name}, {other})' if op[0] == 'm' else f'{name} {op} {other}', shape)

    def division(self):
        """By what is there, which often has a 0, and a part of the result, which may rest on other blocks."""
        name, shape = self.one()
        other = self.draw.choice([it for it in self.shapes if fits(self.shapes[it], shape)])
        shape = both(shape, self.shapes[other])
        quotient = f'{name} {self.draw.choice(("//", "%"))} {other}'
        if not shape or self.draw.random() < 0.3:
            return self.define(quotient, shape)
        self.define(f'({quotient})[{shape[0] // 2}:]', (shape[0] - shape[0] // 2, *shape[1:]))

    def where(self):
        name, shape = self.one()
        left, second = self.fitting(shape)
        shape = both(shape, second)
        right, third = self.fitting(shape)
        self.define(f'where({name}, {left}, {right})', both(shape, third))

    def slice(self):
        name, shape = self.one()
        parts, kept = [], []
        for length in shape[:self.draw.randint(1, max(1, len(shape)))]:
            if length and self.draw.random() < 0.2:
                parts.append(str(self.draw.randrange(-length, length)))
                continue
            bounds = [self.draw.choice((None, self.draw.randint(-10, 10))) for _ in range(2)] + [self.draw.choice((None, 1, 2, 3, -1, -2))]
            parts.append(':'.join('' if bound is None else str(bound) for bound in bounds))
            kept.append(len(range(length)[slice(*bounds)]))
        if parts:
            self.define(f'{name}[{", ".join(parts)}]', (*kept, *shape[len(parts):]))

    def transpose(self):
        name, shape = self.one()
        axes = self.draw.sample(range(len(shape)), len(shape))
        self.define(f'transpose({name}, ({", ".join(map(str, axes))}))', tuple(shape[axis] for axis in axes))

    def rechunk(self):
        name, shape = self.one()
        self.define(f'rechunk({name}, {self.chunks(shape)})', shape)

    def fold(self):
        name, shape = self.one()
        axes = self.draw.sample(range(len(shape)), self.draw.randint(0, len(shape)))
        words = [self.draw.choice(('sum', 'prod', 'min', 'max')), ', '.join(map(str, axes)), self.draw.randint(2, 4)]
        self.define('{}({}, axis=({}), split_every={})'.format(words[0], name, *words[1:]),
                    tuple(length for axis, length in enumerate(shape) if axis not in axes))

    def concatenate(self):
        name, shape = self.one()
        if shape:
            axis = self.draw.randrange(len(shape))
            names = [name, *(it for it in self.shapes if other_axes(self.shapes[it], axis) == other_axes(shape, axis))][:3]
            length = sum(self.shapes[it][axis] for it in names)
            self.define(f'concatenate([{", ".join(names)}], axis={axis})', (*shape[:axis], length, *shape[axis + 1:]))

    def tensordot(self):
        name, shape = self.one()
        other, second = self.one()
        pairs = [(i, j) for i in range(len(shape)) for j in range(len(second)) if shape[i] == second[j]]
        pairs = self.draw.sample(pairs, 1) if pairs and self.draw.random() < 0.8 else []
        left, right = [i for i, _ in pairs], [j for _, j in pairs]
        lengths = [n for k, n in enumerate(shape) if k not in left] + [n for k, n in enumerate(second) if k not in right]
        if len(lengths) <= 4 and math.prod(lengths) <= 2000:
            self.define(f'tensordot({name}, {other}, ({", ".join(map(str, left))}), ({", ".join(map(str, right))}))', tuple(lengths))

    def job(self):
        for _ in range(self.draw.randint(1, 2)):
            self.input()
        for _ in range(self.draw.randint(0, 2)):
            self.made()
        steps = [self.elementwise, self.elementwise, self.where, self.slice, self.transpose, self.rechunk, self.fold, self.concatenate,
                 self.tensordot]
        for _ in range(self.draw.randint(2, 8)):
            self.draw.choice(steps)()
        if self.draw.random() < 0.4:
            self.division()
        names = list(self.shapes)
        saves = {names[-1], self.draw.choice(names)}
        self.lines += [f'save {name} "{name}.saved.npy"' for name in sorted(saves)]
        return '\n'.join(self.lines) + '\n'


def fits(one, other):
    return all(a == b or 1 in (a, b) for a, b in zip(one[::-1], other[::-1])) and max(len(one), len(other)) <= 4


def other_axes(shape, axis):
    return len(shape), *(n for k, n in enumerate(shape) if k != axis)


def both(one, other):
    """The shape of two that are broadcast."""
    length = max(len(one), len(other))
    pairs = zip((1,) * (length - len(one)) + tuple(one), (1,) * (length - len(other)) + tuple(other))
    return tuple(b if a == 1 else a for a, b in pairs)


def by_column(numbers, shape):
    """Numbers of row-major order, in column-major order."""
    strides = [math.prod(shape[axis + 1:]) for axis in range(len(shape))]
    places = itertools.product(*(range(length) for length in reversed(shape)))
    return [numbers[sum(i * stride for i, stride in zip(reversed(place), strides))] for place in places]


def array_bytes(numbers, shape, fortran, dtype='<i8', version=1):
    """The file of an array in NumPy's format."""
    head = f"{{'descr': '{dtype}', 'fortran_order': {fortran}, 'shape': ({''.join(f'{n}, ' for n in shape).rstrip(' ' if len(shape) == 1 else ', ')}), }}"
    counted = 2 if version == 1 else 4
    head = head.encode() + b' ' * (-(9 + counted + len(head)) % 64) + b'\n'
    data = by_column(numbers, shape) if fortran else numbers
    order = '>' if dtype[0] == '>' else '<'
    return b'\x93NUMPY' + bytes([version, 0]) + len(head).to_bytes(counted, 'little') + head + struct.pack(f'{order}{len(data)}{CODES[dtype[2]]}', *data)


def write_random(folder, draw):
    """A random job with its inputs, of which half are int64 in version 1.0; some of its divisors are 0."""
    writer = Writer(draw)
    text = writer.job()
    for name, shape in writer.inputs.items():
        numbers = [draw.randint(-9, 9) for _ in range(math.prod(shape))]
        with open(os.path.join(folder, name + '.npy'), 'wb') as it:
            kind = (draw.choice(TYPES), draw.choice(VERSIONS)) if draw.random() < 0.5 else ()
            it.write(array_bytes(numbers, shape, len(shape) > 1 and draw.random() < 0.3, *kind))
    return text
