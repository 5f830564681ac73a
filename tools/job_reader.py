"""Reads texts of jobs: their tokens, their actions by the grammar, and what they ask for, or where and why they are refused.

It is another one's reading of the rules of docs/FORMATS.md and docs/OPERATIONS.md, which goes down the grammar and shares nothing with the program, nor with
the front in Python, whose reader is python/yitrovana/cluster/job_text.py. An action stands where the grammar has it, at the last token before it; the
numbers of kinds and actions are their places in the lists below.
"""
import re

WORDS = (
    "input shape chunks let save sum prod min max axis split_every minimum maximum where transpose rechunk concatenate tensordot "
    "full ramp"
).split()
FOLDS = ("sum", "prod", "min", "max")
CALLS = WORDS[5:9] + WORDS[11:]
KINDS = ["NEWLINE", "NAME", "FILE", "NUMBER", "=", "+", "-", "*", "//", "%", "(", ")", ",", "[", "]", ":", ".T"] + WORDS
ACTIONS = (
    "Begin Declare InputFile AddInput Define SavedName SaveFile OpenDims Dim OpenChunks Even OpenSizes Size Sizes Mark Combine "
    "Negate Literal NegativeLiteral Refer Enter Leave OpenParts AddSlice ReverseAxes OpenPart Positive Negative Index Bound Range "
    "PlainFold FoldAxes FoldSplit Reduce Choose AddTranspose AddRechunk OpenList ListAxis AddConcatenate LeftAxes AddTensordot "
    "Value Step AddFull AddRamp"
).split()
TOKEN = re.compile(rb'(?P<WORD>[A-Za-z_][A-Za-z0-9_]*)|(?P<NUMBER>[0-9]+)|(?P<FILE>"[ !#-\[\]-~]{1,255}")|(?P<NEWLINE>\n)'
                   rb"|(?P<SIGN>//|\.T|[=+\-*%(),\[\]:])")
BLANKS, BLANKS_IN_BRACKETS = re.compile(rb"(?:[ \t\r]+|#[^\n]*)*"), re.compile(rb"(?:[ \t\r\n]+|#[^\n]*)*")
LARGEST, ELEMENTS, AXES, DEPTH, STATEMENTS, NODES = 2**63 - 1, 2**31, 8, 127, 1024, 65536


class Refused(Exception):
    """The place of a refusal and its kind."""


class Misfit(Exception):
    """Why shapes don't fit, before the place is known."""


# Shapes


def within_limits(dims):
    if len(dims) > AXES:
        raise Misfit("limit axes")
    product = 1
    for n in dims:
        product *= n
    if product > ELEMENTS or any(n > ELEMENTS for n in dims):
        raise Misfit("limit elements")
    return tuple(dims)


def cut(dims, chunks):
    """The lengths of an array in these chunks."""
    if len(chunks) != len(dims):
        raise Misfit(f"chunks: {len(chunks)} given for {len(dims)} axes")
    for axis, (n, sizes) in enumerate(zip(dims, chunks)):
        listed = (sizes,) if isinstance(sizes, int) else sizes
        if n == 0 and (isinstance(sizes, int) or sizes == (0,)):
            continue
        if 0 in listed:
            raise Misfit(f"chunks: axis {axis}: zero chunk")
        if listed is sizes and sum(sizes) != n:
            raise Misfit(f"chunks: axis {axis}: sum {sum(sizes)}, length {n}")
    return dims


def misfit(axis, left, right):
    return Misfit(f"shape: axis {axis}: {left} and {right}")


def broadcast(shapes):
    axes = max(map(len, shapes))
    wide = [(1,) * (axes - len(shape)) + shape for shape in shapes]
    for axis in range(axes):
        for i, j in ((i, j) for i in range(len(shapes)) for j in range(i + 1, len(shapes))):
            left, right = wide[i][axis], wide[j][axis]
            if left != right and 1 not in (left, right):
                raise misfit(axis, left, right)
    return within_limits([next((n for n in column if n != 1), 1) for column in zip(*wide)])


def sliced(dims, parts):
    if len(parts) > len(dims):
        raise Misfit(f"shape: {len(parts)} parts for {len(dims)} axes")
    lengths = []
    for n, part in zip(dims, parts):
        if isinstance(part, int):
            if not -n <= part < n:
                raise Misfit(f"shape: index {part} of length {n}")
            continue
        if part.step == 0:
            raise Misfit("shape: step 0")
        lengths.append(len(range(n)[part]))
    return (*lengths, *dims[len(parts):])


def check_axes(axes, count):
    for k, axis in enumerate(axes):
        if axis >= count or axis in axes[:k]:
            raise Misfit(f"shape: bad axis {axis}")


def transposed(dims, axes):
    check_axes(axes, len(dims))
    if len(axes) != len(dims):
        raise Misfit(f"shape: bad axis {min(len(axes), len(dims))}")
    return tuple(dims[axis] for axis in axes)


def joined(shapes, axis):
    first = shapes[0]
    for other in shapes:
        if len(other) != len(first):
            raise misfit(0, len(first), len(other))
    if axis >= len(first):
        raise Misfit(f"shape: bad axis {axis}")
    for k in range(len(first)):
        for other in shapes:
            if k != axis and other[k] != first[k]:
                raise misfit(k, first[k], other[k])
    return within_limits([sum(shape[k] for shape in shapes) if k == axis else n for k, n in enumerate(first)])


def reduced(fold, dims, axes, split):
    axes = range(len(dims)) if axes is None else axes
    check_axes(axes, len(dims))
    empty = [axis for axis in sorted(axes) if dims[axis] == 0]
    if fold in ("min", "max") and empty:
        raise Misfit(f"shape: empty axis {empty[0]}")
    if split < 2:
        raise Misfit(f"shape: split_every {split}")
    return within_limits([n for k, n in enumerate(dims) if k not in axes])


def contracted(left, right, left_axes, right_axes):
    check_axes(left_axes, len(left))
    check_axes(right_axes, len(right))
    if len(left_axes) != len(right_axes):
        raise Misfit(f"shape: bad axis {min(len(left_axes), len(right_axes))}")
    for k, (i, j) in enumerate(zip(left_axes, right_axes)):
        if left[i] != right[j]:
            raise misfit(k, left[i], right[j])
    return within_limits([n for k, n in enumerate(left) if k not in left_axes] + [n for k, n in enumerate(right) if k not in right_axes])


# Tokens


class Tokens:
    """The tokens of a text, of which one is looked at. A sign or a reserved word is its own kind; at the end it is `END`, and `BAD` where no token begins."""

    def __init__(self, text):
        self.text, self.at, self.depth = text, 0, 0
        self.last, self.taken, self.steps = 0, [], []
        self.look()

    def look(self):
        self.start = (BLANKS_IN_BRACKETS if self.depth else BLANKS).match(self.text, self.at).end()
        found = TOKEN.match(self.text, self.start)
        if not found:
            self.kind, self.end = "BAD" if self.start < len(self.text) else "END", self.start
            return
        self.kind, self.end = found.lastgroup, found.end()
        if self.kind == "SIGN" or self.kind == "WORD" and self.word() in WORDS:
            self.kind = self.word()
        elif self.kind == "WORD":
            self.kind = "NAME"

    def word(self):
        return self.text[self.start:self.end].decode()

    def refuse(self):
        raise Refused(self.start, "token" if self.kind == "BAD" else "grammar")

    def take(self, kind, *actions):
        """Takes a token of this kind, and does actions."""
        if self.kind != kind:
            self.refuse()
        word = self.word()
        self.depth = max(0, self.depth + (kind in ("(", "[")) - (kind in (")", "]")))
        self.taken.append((kind, self.start, self.end))
        self.last, self.at = self.start, self.end
        self.look()
        self.act(*actions)
        return word

    def found(self, kind, *actions):
        """Whether the token is of this kind, which is taken then."""
        if self.kind != kind:
            return False
        self.take(kind, *actions)
        return True

    def act(self, *names):
        """Actions that are complete before the token that is looked at: their numbers, their places, and how many tokens were taken."""
        for name in names:
            self.steps.append((ACTIONS.index(name), self.last, len(self.taken)))


# Jobs


class Node:
    """An operation over nodes by their numbers, at a place of the text. A literal is a `full` without axes."""

    def __init__(self, op, of, at, shape, fields):
        self.op, self.of, self.at, self.shape, self.fields = op, of, at, shape, fields


class Reader(Tokens):
    """A text with what it has said so far. With `meaning` names, files, numbers and limits are looked at too, and with `shapes` what rests on shapes."""

    def __init__(self, text, meaning=True, shapes=True):
        super().__init__(text)
        self.meaning, self.shapes = meaning, meaning and shapes
        # the node of each name, of each file that is read, and of each that is saved
        self.names, self.inputs, self.saves = {}, {}, {}
        self.statements, self.nodes, self.open = 0, [], 0

    def refuse(self):
        if self.meaning and self.kind == "NUMBER" and int(self.word()) > LARGEST:
            raise Refused(self.start, "limit number")
        super().refuse()

    def hold(self, holds, at, kind):
        if self.meaning and not holds:
            raise Refused(at, kind)

    def node(self, op, at, of, shape, **fields):
        """One more node, whose shape a function gives: its number."""
        if not self.meaning:
            return None
        self.hold(len(self.nodes) < NODES, at, "limit nodes")
        try:
            self.nodes.append(Node(op, of, at, shape() if self.shapes else None, fields))
        except Misfit as why:
            raise Refused(at, str(why)) from None
        return len(self.nodes) - 1

    def shape(self, node):
        return self.nodes[node].shape

    def all_shapes(self, nodes):
        return [self.shape(node) for node in nodes]

    # Statements

    def job(self, saves=True):
        """The whole text, which saves something."""
        while True:
            if self.kind in ("input", "let", "save"):
                self.statement()
            if not self.found("NEWLINE"):
                break
        if self.kind != "END" or saves and not self.saves:
            self.refuse()
        return self

    def statement(self):
        at, word = self.start, self.kind
        self.take(word, "Begin")
        self.hold(self.statements < STATEMENTS, at, "limit statements")
        self.statements += 1
        {"input": self.input, "let": self.let, "save": self.save}[word](at)

    def new_name(self):
        at, name = self.start, self.take("NAME", "Declare")
        self.hold(name not in self.names, at, "repeated name")
        return name

    def known_name(self, action):
        at, name = self.start, self.take("NAME", action)
        self.hold(name in self.names, at, "unknown name")
        return self.names.get(name)

    def file(self, action, *others):
        at, file = self.start, self.take("FILE", action)[1:-1]
        self.hold(not any(file in files for files in others), at, "repeated name")
        return file

    def input(self, at):
        name, file = self.new_name(), self.file("InputFile", self.saves)
        self.take("shape")
        dims = self.dims()
        self.take("chunks")
        chunks = self.chunks()
        self.act("AddInput")
        self.inputs[file] = self.names[name] = self.source("input", at, dims, chunks)

    def let(self, _):
        name = self.new_name()
        self.take("=")
        self.names[name] = self.expr()
        self.act("Define")

    def save(self, _):
        node = self.known_name("SavedName")
        self.saves[self.file("SaveFile", self.saves, self.inputs)] = node

    def source(self, op, at, dims, chunks, **fields):
        return self.node(op, at, [], lambda: cut(within_limits(dims), chunks), chunks=chunks, **fields)

    # Lists

    def listed(self, opened, one, firsts, least=0):
        self.take("(", opened)
        items = []
        while self.kind in firsts:
            items.append(one())
            if not self.found(","):
                break
        else:
            if len(items) < least:
                self.refuse()
        self.take(")")
        return tuple(items)

    def number(self, action, most=LARGEST):
        at, number = self.start, int(self.take("NUMBER", action))
        self.hold(number <= most, at, "limit number")
        return number

    def integer(self):
        return -self.number("Negative", LARGEST + 1) if self.found("-") else self.number("Positive")

    def dims(self):
        return self.listed("OpenDims", lambda: self.number("Dim"), ["NUMBER"])

    def sizes(self):
        """At least one size, and no comma alone."""
        sizes = self.listed("OpenSizes", lambda: self.number("Size"), ["NUMBER"], 1)
        self.act("Sizes")
        return sizes

    def chunks(self):
        return self.listed("OpenChunks", lambda: self.number("Even") if self.kind == "NUMBER" else self.sizes(), ["NUMBER", "("])

    # Expressions

    def elementwise(self, op, at, *of):
        return self.node(op, at, list(of), lambda: broadcast(self.all_shapes(of)))

    def chain(self, one, *signs):
        left = one()
        while self.kind in signs:
            at, sign = self.start, self.take(self.kind, "Mark")
            right = one()
            self.act("Combine")
            left = self.elementwise(sign, at, left, right)
        return left

    def expr(self):
        return self.chain(self.product, "+", "-")

    def product(self):
        return self.chain(self.unary, "*", "//", "%")

    def unary(self):
        signs = []
        while self.kind == "-":
            signs.append(self.start)
            self.take("-", "Mark")
        value = self.suffixes(self.literal(signs) if self.kind == "NUMBER" else self.operand())
        for at in reversed(signs):
            self.act("Negate")
            value = self.elementwise("negate", at, value)
        return value

    def literal(self, signs):
        """A number, with the last of the signs before it."""
        at = signs.pop() if signs else None
        if at is None:
            at, value = self.start, self.number("Literal")
        else:
            value = -self.number("NegativeLiteral", LARGEST + 1)
        return self.source("full", at, (), (), start=value, step=0)

    def suffixes(self, value):
        while self.kind in ("[", ".T"):
            at = self.start
            if self.found(".T", "ReverseAxes"):
                value = self.node("reverse", at, [value], lambda of=value: self.shape(of)[::-1])
                continue
            self.take("[", "OpenParts")
            parts = [self.part()]
            while self.found(","):
                parts.append(self.part())
            self.take("]", "AddSlice")
            value = self.node("slice", at, [value], lambda of=value: sliced(self.shape(of), parts), parts=parts)
        return value

    def bound(self):
        return self.integer() if self.kind in ("NUMBER", "-") else None

    def part(self):
        self.act("OpenPart")
        start = self.bound()
        if start is not None and self.kind != ":":
            self.act("Index")
            return start
        self.take(":", "Bound")
        stop = self.bound()
        step = self.bound() if self.found(":", "Bound") else None
        self.act("Range")
        return slice(start, stop, step)

    def operand(self):
        if self.kind == "NAME":
            return self.known_name("Refer")
        if self.kind == "(":
            self.enter("(")
            value = self.expr()
            self.leave(")")
            return value
        return self.call()

    def enter(self, bracket):
        at = self.start
        self.take(bracket, "Enter")
        self.hold(self.open < DEPTH, at, "limit depth")
        self.open += 1

    def leave(self, bracket):
        self.take(bracket, "Leave")
        self.open -= 1

    # Calls: each reads what stands between the parentheses, and gives the action, the operation, its operands, its shape and its fields

    def call(self):
        at, word = self.start, self.kind
        if word not in CALLS:
            self.refuse()
        self.take(word, "Mark")
        self.enter("(")
        read = self.fold if word in FOLDS else self.choice if word in ("minimum", "maximum", "where") else getattr(self, word)
        action, op, of, shape, fields = read(word)
        self.leave(")")
        self.act(action)
        return self.node(op, at, of, shape, **fields)

    def following(self, read, *actions):
        """What stands behind a comma."""
        self.take(",")
        value = read()
        self.act(*actions)
        return value

    def named(self, word, read):
        self.take(word)
        self.take("=")
        return read()

    def choice(self, word):
        of = [self.expr()]
        while len(of) < (3 if word == "where" else 2):
            of.append(self.following(self.expr))
        return "Choose" if word == "where" else "Combine", word, of, lambda: broadcast(self.all_shapes(of)), {}

    def fold(self, word):
        value, axes, split = self.expr(), None, 4
        self.act("PlainFold")
        if self.found(","):
            more = self.kind != "axis"
            if not more:
                axes = self.named("axis", self.dims)
                self.act("FoldAxes")
                more = self.found(",")
            if more:
                split = self.named("split_every", lambda: self.number("FoldSplit"))
        return ("Reduce", "reduce", [value], lambda: reduced(word, self.shape(value), axes, split),
                {"fold": word, "axes": axes, "split": split})

    def transpose(self, _):
        value, axes = self.expr(), self.following(self.dims)
        return "AddTranspose", "transpose", [value], lambda: transposed(self.shape(value), axes), {"axes": axes}

    def rechunk(self, _):
        value, chunks = self.expr(), self.following(self.chunks)
        return "AddRechunk", "rechunk", [value], lambda: cut(self.shape(value), chunks), {"chunks": chunks}

    def concatenate(self, _):
        self.enter("[")
        self.act("OpenList")
        of = [self.expr()]
        while self.found(","):
            of.append(self.expr())
        self.leave("]")
        axis = self.following(lambda: self.named("axis", lambda: self.number("ListAxis")))
        return "AddConcatenate", "concatenate", of, lambda: joined(self.all_shapes(of), axis), {"axis": axis}

    def tensordot(self, _):
        of = [self.expr(), self.following(self.expr)]
        left, right = self.following(self.dims, "LeftAxes"), self.following(self.dims)
        return "AddTensordot", "tensordot", of, lambda: contracted(*self.all_shapes(of), left, right), {"axes": [list(left), list(right)]}

    def full(self, _):
        dims, start = self.dims(), self.following(self.integer, "Value")
        return self.made("AddFull", "full", dims, start, 0)

    def ramp(self, _):
        dims, start, step = self.dims(), self.following(self.integer, "Value"), self.following(self.integer, "Step")
        return self.made("AddRamp", "ramp", dims, start, step)

    def made(self, action, op, dims, start, step):
        chunks = self.following(self.chunks)
        return action, op, [], lambda: cut(within_limits(dims), chunks), {"start": start, "step": step, "chunks": chunks}


def actions(text):
    """The reader at the text's end or at the first place at which the grammar refuses it, and the kind of the refusal, or nothing."""
    reader = Reader(text, meaning=False)
    try:
        return reader.job(saves=False), None
    except Refused as refused:
        return reader, refused.args[1]
