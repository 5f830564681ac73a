"""Reads a job text: its nodes, inputs and saves, or why it is refused. Written from docs/FORMATS.md and docs/OPERATIONS.md."""
import re
from dataclasses import dataclass, field

WORDS = set('input shape chunks let save sum prod min max axis split_every minimum maximum where transpose rechunk concatenate '
            'tensordot full ramp'.split())
FOLDS = ('sum', 'prod', 'min', 'max')
TOKENS = re.compile(rb'(?P<WORD>[A-Za-z_][A-Za-z0-9_]*)|(?P<NUMBER>[0-9]+)|(?P<FILE>"[ !#-\[\]-~]{1,255}")|(?P<NEWLINE>\n)'
                    rb'|(?P<SIGN>//|\.T|[=+\-*%(),\[\]:])')
BLANKS = {False: re.compile(rb'(?:[ \t\r]|#[^\n]*)*'), True: re.compile(rb'(?:[ \t\r\n]|#[^\n]*)*')}
BYTES, STATEMENTS, NODES, DEPTH, AXES, ELEMENTS, NUMBER = 2**20, 1024, 65536, 127, 8, 2**31, 2**63 - 1


class Refused(Exception):
    """A job, or one of its files, is refused: the program's status, and its line without `dask: `."""

    def __init__(self, status, line):
        super().__init__(status, line)
        self.status, self.line = status, line


class Misfit(Exception):
    """Why an operation is refused, before its place is known."""


@dataclass
class Node:
    op: str
    operands: list
    shape: tuple
    fields: dict = field(default_factory=dict)


@dataclass
class Job:
    nodes: list = field(default_factory=list)
    inputs: dict = field(default_factory=dict)  # the file of each node that is an input
    saves: dict = field(default_factory=dict)   # the node that each file gets


# ---- shapes

def misfit(axis, left, right):
    return Misfit(f'shape: axis {axis}: {left} and {right}')


def bad_axis(axis):
    return Misfit(f'shape: bad axis {axis}')


def limit(quantity):
    return Misfit(f'limit {quantity}')


def checked(shape):
    """A shape within the limits."""
    if len(shape) > AXES:
        raise limit('axes')
    elements = 1
    for length in shape:
        elements *= length
    if elements > ELEMENTS or any(length > ELEMENTS for length in shape):
        raise limit('elements')
    return tuple(shape)


def check_chunks(shape, chunks):
    if len(chunks) != len(shape):
        raise Misfit(f'chunks: {len(chunks)} given for {len(shape)} axes')
    for axis, (length, sizes) in enumerate(zip(shape, chunks)):
        if length == 0 and (isinstance(sizes, int) or sizes == (0,)):
            continue
        if sizes == 0 or not isinstance(sizes, int) and 0 in sizes:
            raise Misfit(f'chunks: axis {axis}: zero chunk')
        if not isinstance(sizes, int) and sum(sizes) != length:
            raise Misfit(f'chunks: axis {axis}: sum {sum(sizes)}, length {length}')


def created(shape, chunks):
    check_chunks(checked(shape), chunks)
    return tuple(shape)


def broadcast(shapes):
    axes = max(map(len, shapes))
    rows = [(1,) * (axes - len(shape)) + shape for shape in shapes]
    result = []
    for axis, lengths in enumerate(zip(*rows)):
        for k, left in enumerate(lengths):
            for right in lengths[k + 1:]:
                if left != right and 1 not in (left, right):
                    raise misfit(axis, left, right)
        result.append(next((length for length in lengths if length != 1), 1))
    return checked(result)


def sliced(shape, parts):
    if len(parts) > len(shape):
        raise Misfit(f'shape: {len(parts)} parts for {len(shape)} axes')
    result = []
    for length, part in zip(shape, parts):
        if isinstance(part, int):
            if not -length <= part < length:
                raise Misfit(f'shape: index {part} of length {length}')
        elif part.step == 0:
            raise Misfit('shape: step 0')
        else:
            result.append(len(range(length)[part]))
    return tuple(result) + shape[len(parts):]


def check_axes(axes, count):
    for k, axis in enumerate(axes):
        if axis >= count or axis in axes[:k]:
            raise bad_axis(axis)


def transposed(shape, axes):
    check_axes(axes, len(shape))
    if len(axes) != len(shape):
        raise bad_axis(len(axes))
    return tuple(shape[axis] for axis in axes)


def concatenated(shapes, axis):
    first = shapes[0]
    for shape in shapes:
        if len(shape) != len(first):
            raise misfit(0, len(first), len(shape))
    if axis >= len(first):
        raise bad_axis(axis)
    for k in range(len(first)):
        for shape in shapes:
            if k != axis and shape[k] != first[k]:
                raise misfit(k, first[k], shape[k])
    return checked(first[:axis] + (sum(shape[axis] for shape in shapes),) + first[axis + 1:])


def folded(word, shape, axes, split_every):
    check_axes(axes, len(shape))
    empty = [axis for axis in sorted(axes) if shape[axis] == 0]
    if word in ('min', 'max') and empty:
        raise Misfit(f'shape: empty axis {empty[0]}')
    if split_every < 2:
        raise Misfit(f'shape: split_every {split_every}')
    return checked([length for axis, length in enumerate(shape) if axis not in axes])


def contracted(left, right, left_axes, right_axes):
    check_axes(left_axes, len(left))
    check_axes(right_axes, len(right))
    if len(left_axes) != len(right_axes):
        raise bad_axis(min(len(left_axes), len(right_axes)))
    for k, (one, other) in enumerate(zip(left_axes, right_axes)):
        if left[one] != right[other]:
            raise misfit(k, left[one], right[other])
    return checked([length for axis, length in enumerate(left) if axis not in left_axes]
                   + [length for axis, length in enumerate(right) if axis not in right_axes])


# ---- tokens

class Tokens:
    """The tokens of a text, of which one is looked at: its kind (a sign or a reserved word is its own kind) and its place."""

    def __init__(self, text):
        self.text, self.end, self.brackets = text, 0, 0
        self.look()

    def look(self):
        self.start = BLANKS[self.brackets > 0].match(self.text, self.end).end()
        found = TOKENS.match(self.text, self.start)
        if not found:
            self.kind, self.word = ('BAD' if self.start < len(self.text) else 'END'), ''
            return
        self.kind, self.word, self.end = found.lastgroup, found[0].decode(), found.end()
        if self.kind == 'SIGN' or self.kind == 'WORD' and self.word in WORDS:
            self.kind = self.word
        elif self.kind == 'WORD':
            self.kind = 'NAME'

    def refuse(self, kind, at):
        before = self.text[:at]
        place = f'{before.count(10) + 1}:{at - before.rfind(10)}'
        raise Refused(9, kind) if kind.startswith('limit') else Refused(2, f'job {place}: {kind}')

    def refuse_here(self):
        if self.kind == 'NUMBER' and too_large(self.word, NUMBER):
            self.refuse('limit number', self.start)
        self.refuse('token' if self.kind == 'BAD' else 'grammar', self.start)

    def take(self, kind):
        """The word of the token that is looked at, which has to be of this kind."""
        if self.kind != kind:
            self.refuse_here()
        self.brackets = max(0, self.brackets + (kind in '([') - (kind in ')]'))
        word = self.word
        self.look()
        return word

    def found(self, kind):
        """Whether the token is of this kind; it is taken then."""
        if self.kind != kind:
            return False
        self.take(kind)
        return True

    def number(self, largest=NUMBER):
        if self.kind == 'NUMBER' and too_large(self.word, largest):
            self.refuse('limit number', self.start)
        return int(self.take('NUMBER').lstrip('0') or '0')

    def integer(self):
        return -self.number(NUMBER + 1) if self.found('-') else self.number()


def too_large(digits, largest):
    digits = digits.lstrip('0')
    return len(digits) > 19 or int(digits or '0') > largest


# ---- the grammar

class Reader:
    """Goes down the grammar of docs/FORMATS.md; each operation is checked as soon as it is complete."""

    def __init__(self, text):
        self.tokens, self.job = Tokens(text), Job()
        self.names, self.statements, self.open = {}, 0, 0

    def read(self):
        tokens = self.tokens
        while True:
            if tokens.kind in ('input', 'let', 'save'):
                self.statement()
            if not tokens.found('NEWLINE'):
                break
        if tokens.kind != 'END' or not self.job.saves:
            tokens.refuse_here()
        return self.job

    def node(self, at, op, operands, shape, **fields):
        """One more node, whose shape the function `shape` gives."""
        if len(self.job.nodes) == NODES:
            self.tokens.refuse('limit nodes', at)
        try:
            self.job.nodes.append(Node(op, operands, shape(), fields))
        except Misfit as why:
            self.tokens.refuse(str(why), at)
        return len(self.job.nodes) - 1

    def shape(self, node):
        return self.job.nodes[node].shape

    def statement(self):
        at, word = self.tokens.start, self.tokens.take(self.tokens.kind)
        if self.statements == STATEMENTS:
            self.tokens.refuse('limit statements', at)
        self.statements += 1
        {'input': self.input, 'let': self.let, 'save': self.save}[word](at)

    def new_name(self):
        at, name = self.tokens.start, self.tokens.word
        if self.tokens.kind == 'NAME' and name in self.names:
            self.tokens.refuse('repeated name', at)
        return self.tokens.take('NAME')

    def known_name(self):
        if self.tokens.kind == 'NAME' and self.tokens.word not in self.names:
            self.tokens.refuse('unknown name', self.tokens.start)
        return self.names[self.tokens.take('NAME')]

    def file(self, *taken):
        """A file that isn't among those that are taken."""
        name = self.tokens.word[1:-1]
        if self.tokens.kind == 'FILE' and any(name in files for files in taken):
            self.tokens.refuse('repeated name', self.tokens.start)
        return self.tokens.take('FILE')[1:-1]

    def input(self, at):
        name = self.new_name()
        file = self.file(self.job.saves)
        self.tokens.take('shape')
        shape = self.dims()
        self.tokens.take('chunks')
        chunks = self.chunks()
        self.names[name] = self.node(at, 'input', [], lambda: created(shape, chunks), chunks=chunks)
        self.job.inputs[self.names[name]] = file

    def let(self, _):
        name = self.new_name()
        self.tokens.take('=')
        self.names[name] = self.expr()

    def save(self, _):
        node = self.known_name()
        self.job.saves[self.file(self.job.saves, self.job.inputs.values())] = node

    def listed(self, item, firsts, least=0):
        self.tokens.take('(')
        items = []
        while self.tokens.kind in firsts:
            items.append(item())
            if not self.tokens.found(','):
                break
        else:
            if len(items) < least:
                self.tokens.refuse_here()
        self.tokens.take(')')
        return tuple(items)

    def dims(self, least=0):
        return self.listed(self.tokens.number, ('NUMBER',), least)

    def chunks(self):
        return self.listed(lambda: self.dims(1) if self.tokens.kind == '(' else self.tokens.number(), ('NUMBER', '('))

    def elementwise(self, at, op, *operands):
        return self.node(at, op, list(operands), lambda: broadcast([self.shape(operand) for operand in operands]))

    def chain(self, part, signs):
        left = part()
        while self.tokens.kind in signs:
            at, sign = self.tokens.start, self.tokens.take(self.tokens.kind)
            left = self.elementwise(at, sign, left, part())
        return left

    def expr(self):
        return self.chain(self.product, ('+', '-'))

    def product(self):
        return self.chain(self.unary, ('*', '//', '%'))

    def unary(self):
        signs = []
        while self.tokens.kind == '-':
            signs.append(self.tokens.start)
            self.tokens.take('-')
        if signs and self.tokens.kind == 'NUMBER':
            value = self.literal(signs.pop(), -self.tokens.number(NUMBER + 1))
        else:
            value = self.primary()
        value = self.suffixes(value)
        for at in reversed(signs):
            value = self.elementwise(at, 'negate', value)
        return value

    def literal(self, at, value):
        return self.node(at, 'full', [], lambda: (), value=value, chunks=())

    def suffixes(self, value):
        while self.tokens.kind in ('[', '.T'):
            at = self.tokens.start
            if self.tokens.found('.T'):
                axes = tuple(reversed(range(len(self.shape(value)))))
                value = self.node(at, 'transpose', [value], lambda: transposed(self.shape(value), axes), axes=axes)
            else:
                parts = self.parts()
                value = self.node(at, 'slice', [value], lambda: sliced(self.shape(value), parts), parts=parts)
        return value

    def parts(self):
        self.tokens.take('[')
        parts = [self.piece()]
        while self.tokens.found(','):
            parts.append(self.piece())
        self.tokens.take(']')
        return parts

    def bound(self):
        return self.tokens.integer() if self.tokens.kind in ('NUMBER', '-') else None

    def piece(self):
        start = self.bound()
        if start is not None and self.tokens.kind != ':':
            return start
        self.tokens.take(':')
        stop = self.bound()
        return slice(start, stop, self.bound() if self.tokens.found(':') else None)

    def primary(self):
        at, kind = self.tokens.start, self.tokens.kind
        if kind == 'NUMBER':
            value = self.tokens.number()
            return self.literal(at, value)
        if kind == 'NAME':
            return self.known_name()
        if kind == '(':
            self.enter('(')
            value = self.expr()
            self.leave(')')
            return value
        return self.call()

    def enter(self, bracket):
        at = self.tokens.start
        if self.tokens.kind == bracket and self.open == DEPTH:
            self.tokens.refuse('limit depth', at)
        self.tokens.take(bracket)
        self.open += 1

    def leave(self, bracket):
        self.tokens.take(bracket)
        self.open -= 1

    def call(self):
        at, word = self.tokens.start, self.tokens.kind
        read = {'minimum': self.choice, 'maximum': self.choice, 'where': self.choice, 'transpose': self.transpose,
                'rechunk': self.rechunk, 'concatenate': self.concatenate, 'tensordot': self.tensordot, 'full': self.full,
                'ramp': self.ramp, **dict.fromkeys(FOLDS, self.fold)}.get(word)
        if not read:
            self.tokens.refuse_here()
        self.tokens.take(word)
        self.enter('(')
        op, operands, shape, fields = read(word)
        self.leave(')')
        return self.node(at, op, operands, shape, **fields)

    def following(self, read):
        """What stands behind a comma."""
        self.tokens.take(',')
        return read()

    def named(self, word, read):
        self.tokens.take(word)
        self.tokens.take('=')
        return read()

    def choice(self, word):
        operands = [self.expr()]
        for _ in range(2 if word == 'where' else 1):
            operands.append(self.following(self.expr))
        return word, operands, lambda: broadcast([self.shape(operand) for operand in operands]), {}

    def fold(self, word):
        value = self.expr()
        axes, split_every = tuple(range(len(self.shape(value)))), 4
        if self.tokens.found(','):
            if self.tokens.kind == 'axis':
                axes = self.named('axis', self.dims)
                if self.tokens.found(','):
                    split_every = self.named('split_every', self.tokens.number)
            else:
                split_every = self.named('split_every', self.tokens.number)
        return (word, [value], lambda: folded(word, self.shape(value), axes, split_every),
                {'axes': axes, 'split_every': split_every})

    def transpose(self, word):
        value, axes = self.expr(), self.following(self.dims)
        return word, [value], lambda: transposed(self.shape(value), axes), {'axes': axes}

    def rechunk(self, word):
        value, chunks = self.expr(), self.following(self.chunks)

        def shape():
            check_chunks(self.shape(value), chunks)
            return self.shape(value)
        return word, [value], shape, {'chunks': chunks}

    def concatenate(self, word):
        self.enter('[')
        values = [self.expr()]
        while self.tokens.found(','):
            values.append(self.expr())
        self.leave(']')
        axis = self.following(lambda: self.named('axis', self.tokens.number))
        return word, values, lambda: concatenated([self.shape(value) for value in values], axis), {'axis': axis}

    def tensordot(self, word):
        left, right = self.expr(), self.following(self.expr)
        axes = self.following(self.dims), self.following(self.dims)
        return word, [left, right], lambda: contracted(self.shape(left), self.shape(right), *axes), {'axes': axes}

    def full(self, word):
        shape, value, chunks = self.dims(), self.following(self.tokens.integer), self.following(self.chunks)
        return word, [], lambda: created(shape, chunks), {'value': value, 'chunks': chunks}

    def ramp(self, word):
        shape = self.dims()
        start, step = self.following(self.tokens.integer), self.following(self.tokens.integer)
        chunks = self.following(self.chunks)
        return word, [], lambda: created(shape, chunks), {'start': start, 'step': step, 'chunks': chunks}


def read(text):
    """The job of a text, which is bytes."""
    if len(text) > BYTES:
        raise Refused(9, 'limit job bytes')
    return Reader(text).read()
