"""The text of a job: what is used twice is one `let`, and so is what would nest too deep."""
import os
from collections import Counter

from . import limits
from .sources import file_name

DEEP = 60  # operations in one line, one in the other; the language has 127 brackets, and a concatenation opens two
SIGNS = {'+': 1, '-': 1, '*': 2, '//': 2, '%': 2}
SIGN, WHOLE = 3, 4  # how tightly a sign before an operand binds, and what needs no brackets


class Written:
    """An operation's text, how tightly it binds, its nodes that no line has yet, and how deep they are."""

    def __init__(self, text, binds=WHOLE, nodes=(), deep=0):
        self.text, self.binds, self.nodes, self.deep = text, binds, list(nodes), deep

    def within(self, least):
        """The text, in brackets where it binds less."""
        return self.text if self.binds >= least else f'({self.text})'


class Job:
    """`text`, and `nodes`, the arrays by the numbers that the program gives their operations."""

    def __init__(self, saves):
        self.lines, self.nodes = [], []
        self.saves = {file_name(path): array for path, array in saves.items()}
        if not self.saves:
            raise ValueError('a job saves at least one array')
        order, self.keys = unique(self.saves.values())
        self.arrays, keys = list(order.values()), self.keys
        check_files(self.saves, self.inputs())
        ends = {keys[id(array)] for array in self.saves.values()}
        written = self.write_all(order, keys, ends)
        self.lines += [f'save {written[keys[id(array)]].text} "{path}"' for path, array in self.saves.items()]
        self.text = '\n'.join(self.lines) + '\n'
        self.check()

    def inputs(self):
        return [array for array in self.arrays if array.operation == 'input']

    def write_all(self, order, keys, ends):
        uses = Counter(keys[id(one)] for array in order.values() for one in array.operands)
        written = {}
        for key, array in order.items():
            made = write(array, [written[keys[id(one)]] for one in array.operands])
            if array.operation == 'input':
                made = self.line('input', made)
            elif array.operation != 'number' and (uses[key] > 1 or key in ends or made.deep >= DEEP):
                made = self.line('let', made)
            written[key] = made
        return written

    def line(self, word, made):
        """A line of its own for an operation, and the name that stands for it."""
        name = f'{"a" if word == "input" else "b"}{len(self.lines) + 1}'
        self.lines.append(f'{word} {name} {"= " if word == "let" else ""}{made.text}')
        self.nodes += made.nodes
        return Written(name)

    def check_graph(self):
        """The limits of the graph that the program makes of it."""
        limits.check(self.arrays, lambda array: self.keys[id(array)])

    def check(self):
        """The limits of a text, which the program would answer in its own words."""
        for what, many, most in (('statements', len(self.lines), limits.STATEMENTS), ('nodes', len(self.nodes), limits.NODES),
                                 ('job bytes', len(self.text), limits.BYTES)):
            if many > most:
                raise ValueError(f'limit {what}: the job has {many}, where at most {most} can be: save a part of it first, and open that')


def check_files(saves, inputs):
    """The files, by what they are and not by name alone."""
    read = {os.path.realpath(array.parameters[1]) for array in inputs}
    files = [os.path.realpath(path) for path in saves]
    for path, file in zip(saves, files):
        if file in read:
            raise ValueError(f'{path} is an input of the job: save under another name')
        if files.count(file) > 1:
            raise ValueError(f'{path} is saved twice')


def write(array, operands):
    """An operation, of the texts of its operands."""
    operation = array.operation
    if operation in SIGNS:
        binds = SIGNS[operation]
        text = f'{operands[0].within(binds)} {operation} {operands[1].within(binds + 1)}'
    elif operation == 'neg':
        text, binds = f'-{operands[0].within(WHOLE)}', SIGN
    elif operation == 'number':
        text, binds = str(array.parameters[0]), SIGN
    else:
        text, binds = TEXTS.get(operation, call)(array, operands), WHOLE
    nodes = [node for one in operands for node in one.nodes] + [array]
    return Written(text, binds, nodes, max((one.deep for one in operands), default=0) + 1)


def call(array, operands, *more):
    return f'{array.operation}({", ".join([one.text for one in operands] + list(more))})'


def text_of_input(array, _):
    """The file by the name that it was given, or by its full name where the folder has changed since."""
    name, full_name, shape, chunks = array.parameters
    name = name if os.path.abspath(name) == full_name else file_name(full_name)
    return f'"{name}" shape {numbers(shape)} chunks {sizes(chunks)}'


def text_of_slice(array, operands):
    return f'{operands[0].within(WHOLE)}[{", ".join(array.parameters)}]'


def text_of_transpose(array, operands):
    if array.parameters == tuple(range(array.ndim))[::-1]:
        return f'{operands[0].within(WHOLE)}.T'
    return call(array, operands, numbers(array.parameters))


def text_of_fold(array, operands):
    axes, every = array.parameters
    more = [] if axes and axes == tuple(range(array.operands[0].ndim)) else [f'axis={numbers(axes)}']
    return call(array, operands, *more, *([f'split_every={every}'] if every else []))


def text_of_concatenate(array, operands):
    return f'concatenate([{", ".join(one.text for one in operands)}], axis={array.parameters[0]})'


def numbers(of):
    return f'({", ".join(map(str, of))})'


def sizes(chunks):
    """A number for an axis where one says it, else its list."""
    return numbers(one[0] if one[0] and set(one[:-1]) <= {one[0]} and one[-1] <= one[0] else numbers(one) for one in chunks)


TEXTS = {
    'input': text_of_input,
    'slice': text_of_slice,
    'transpose': text_of_transpose,
    'concatenate': text_of_concatenate,
    'rechunk': lambda array, operands: call(array, operands, sizes(array.parameters)),
    'tensordot': lambda array, operands: call(array, operands, *map(numbers, array.parameters)),
    'full': lambda array, _: call(array, (), numbers(array.parameters[0]), str(array.parameters[1]), sizes(array.parameters[2])),
    'ramp': lambda array, _: call(array, (), numbers(array.parameters[0]), *map(str, array.parameters[1:3]), sizes(array.parameters[3])),
    **dict.fromkeys(limits.FOLDS, text_of_fold),
}


def unique(roots):
    """The arrays that these stand on, operands first, each expression once, by its key; and the key of each array."""
    order, keys, known, waiting = {}, {}, {}, [(root, False) for root in reversed(list(roots))]
    while waiting:
        array, ready = waiting.pop()
        if id(array) in keys:
            continue
        if not ready:
            waiting.append((array, True))
            waiting += [(one, False) for one in reversed(array.operands)]
            continue
        whole = array.operation, tuple(keys[id(one)] for one in array.operands), array.parameters
        key = keys[id(array)] = known.setdefault(whole, len(known))
        order.setdefault(key, array)
    return order, keys
