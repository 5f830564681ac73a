"""The heads of array files: what one says, why one is refused, and what is written. Written from docs/FORMATS.md."""
from math import prod

from .job_text import AXES, ELEMENTS, Refused

MAGIC = b'\x93NUMPY'
VERSIONS = {b'\x01\x00': 10, b'\x02\x00': 12, b'\x03\x00': 12}  # and how many bytes stand before the header
LONGEST = 2**20  # of the headers that are read
TYPES = (b'<i8', b'>i8', b'<i4', b'>i4', b'<i2', b'>i2', b'|i1')
KEYS = (b'descr', b'fortran_order', b'shape')
BEHIND = (0x80, 0xBF)
PAST_ASCII = (  # the first byte of a character in UTF-8, from and to, and the bytes behind it
    (0xC2, 0xDF, (BEHIND,)), (0xE0, 0xE0, ((0xA0, 0xBF), BEHIND)), (0xE1, 0xEC, (BEHIND, BEHIND)), (0xED, 0xED, ((0x80, 0x9F), BEHIND)),
    (0xEE, 0xEF, (BEHIND, BEHIND)), (0xF0, 0xF0, ((0x90, 0xBF), BEHIND, BEHIND)), (0xF1, 0xF3, (BEHIND, BEHIND, BEHIND)),
    (0xF4, 0xF4, ((0x80, 0x8F), BEHIND, BEHIND)))


class BadHeader(Exception):
    """No header goes on so: the first byte in the header with which none does."""


class Header:
    """The bytes of a header, taken from the left. In version 3.0, where it is wide, a string may hold characters past ASCII."""

    def __init__(self, data, wide):
        self.data, self.wide, self.at = data, wide, 0

    def peek(self):
        return self.data[self.at:self.at + 1]

    def take(self, *choices):
        """The one of these texts, no two of which begin alike, that stands here."""
        going = [text for text in choices if text[:1] == self.peek()]
        if not going:
            raise BadHeader(self.at)
        for byte in going[0]:
            if self.peek() != bytes([byte]):
                raise BadHeader(self.at)
            self.at += 1
        return going[0]

    def spaces(self):
        while self.peek() == b' ':
            self.at += 1

    def token(self, *choices):
        self.spaces()
        return self.take(*choices)

    def number(self):
        """Decimal digits without a leading zero."""
        start = self.at
        if self.take(*(b'%d' % digit for digit in range(10))) != b'0':
            while self.peek().isdigit():
                self.at += 1
        digits = self.data[start:self.at]
        return int(digits) if len(digits) <= 10 else ELEMENTS + 1

    def string(self):
        quote = self.take(b"'", b'"')
        start = self.at
        while self.character(quote):
            pass
        text = self.data[start:self.at]
        self.take(quote)
        return text

    def character(self, quote):
        """Whether one more stands in this string."""
        if self.peek() and 32 <= self.peek()[0] <= 126 and self.peek() not in (quote, b'\\'):
            self.at += 1
            return True
        behind = [rest for least, most, rest in PAST_ASCII if self.is_within(least, most)]
        if not self.wide or not behind:
            return False
        self.at += 1
        for bounds in behind[0]:
            if not self.is_within(*bounds):
                raise BadHeader(self.at)
            self.at += 1
        return True

    def is_within(self, least, most):
        return self.peek() != b'' and least <= self.peek()[0] <= most

    def shape(self):
        """One number wants a comma behind it."""
        self.take(b'(')
        self.spaces()
        lengths = []
        while self.peek() != b')' or len(lengths) == 1 and not comma:
            lengths.append(self.number())
            self.spaces()
            comma = self.peek() == b','
            if comma:
                self.take(b',')
                self.spaces()
            elif len(lengths) == 1:
                raise BadHeader(self.at)
            else:
                break
        self.take(b')')
        return tuple(lengths)

    def value(self, key):
        self.spaces()
        if key == b'descr':
            return self.string()
        if key == b'fortran_order':
            return self.take(b'True', b'False') == b'True'
        return self.shape()

    def read(self):
        """What stands under the keys."""
        self.take(b'{')
        found = {}
        while len(found) < len(KEYS):
            quote = self.token(b"'", b'"')
            key = self.take(*(key for key in KEYS if key not in found))
            self.take(quote)
            self.token(b':')
            found[key] = self.value(key)
            if len(found) < len(KEYS):
                self.token(b',')
        if self.token(b',', b'}') == b',':
            self.token(b'}')
        self.spaces()
        self.take(b'\n')
        if self.peek():
            raise BadHeader(self.at)
        return [found[key] for key in KEYS]


def read_head(file, length):
    """The shape, the type, the order and where the data begin, of an open file of so many bytes; ValueError with a reason."""
    start = file.read(12)
    for at, byte in enumerate(MAGIC):
        if start[at:at + 1] != bytes([byte]):
            raise ValueError(f'not npy at {at}')
    if len(start) < 8:
        raise ValueError(f'truncated: has {length}, needs 8')
    fixed = VERSIONS.get(start[6:8])
    if fixed is None:
        raise ValueError(f'version {start[6]}.{start[7]}')
    if len(start) < fixed:
        raise ValueError(f'truncated: has {length}, needs {fixed}')
    size = int.from_bytes(start[8:fixed], 'little')
    if size > LONGEST:
        raise ValueError(f'header limit {size}')
    file.seek(fixed)
    text = file.read(size)
    if len(text) < size:
        raise ValueError(f'truncated: has {len(text)}, needs {size}')
    try:
        descr, column_major, shape = Header(text, start[6] == 3).read()
    except BadHeader as why:
        raise ValueError(f'header at {fixed + why.args[0]}') from why
    if descr not in TYPES:
        raise ValueError('descr')
    if len(shape) > AXES or max(shape, default=0) > ELEMENTS or prod(shape) > ELEMENTS:
        raise ValueError('shape limit')
    has, needs = length - fixed - size, int(descr[2:]) * prod(shape)
    if has < needs:
        raise ValueError(f'truncated: has {has}, needs {needs}')
    return shape, descr.decode(), 'F' if column_major else 'C', fixed + size


def shape_text(shape):
    return '(' + ', '.join(map(str, shape)) + (',)' if len(shape) == 1 else ')')


def accepted(name, file, length, declared):
    """The type, the order and the first byte of data of an input whose shape is the declared one."""
    try:
        shape, dtype, order, data = read_head(file, length)
        if shape != declared:
            raise ValueError(f'shape {shape_text(shape)} declared {shape_text(declared)}')
    except ValueError as why:
        raise Refused(3, f'file {name}: {why}') from why
    return dtype, order, data


def head(shape):
    """What is written before the data."""
    text = "{'descr': '<i8', 'fortran_order': False, 'shape': %s, }" % shape_text(shape)
    text += ' ' * (-(len(text) + 11) % 64) + '\n'
    return MAGIC + b'\x01\x00' + len(text).to_bytes(2, 'little') + text.encode()
