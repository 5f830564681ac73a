"""Headers of NumPy's files and fronts of files, with what they say or where they are refused: cases of format_table.

What is wanted is worked out here from NEP 1 and docs/FORMATS.md, by a reader of headers that is written here anew and shares
nothing with the program; which bytes are characters in UTF-8 is said by Python's own decoder. Most rows also have a mark `^` before
the byte at which no header goes on, set by hand; the reader stops there. The written headers are counted by hand from NEP 1, and
the first of them are also what numpy.save writes.
"""

import case_lines
from case_lines import escaped, numbers, order

MAGIC = b"\x93NUMPY"
TYPES = (b"<i8", b">i8", b"<i4", b">i4", b"<i2", b">i2", b"|i1")

# Each row has its mark before the first byte at which no header goes on, or at the end. In a row `/` stands for a newline.
NO_HEADERS = r"""
^
^/
^ {'descr': '<i8', 'fortran_order': False, 'shape': (3,)}/
^ {'descr': '<i8', 'fortran_order': False, 'shape': (3,), }/
{^}/
{^/
{^	'descr': '<i8', 'fortran_order': False, 'shape': (3,), }/
{^descr: '<i8'
{'^x': 1}/
{'^name': '<i8'
{'^Descr': '<i8'
{'desc^': '<i8'
{'descr^": '<i8'
{'descr'^, '<i8'
{'descr': ^<i8, 
{'descr': ^None, 
{'descr': '<i8' ^'shape'
{'descr': '<i^\8'
{'descr': '<i8^/'
{'descr': '<i8"^
{'descr': '<i^
{'descr': '<i8'^}/
{'descr': '<i8', ^}/
{'descr': '<i8', '^descr': '<i8', 'fortran_order': False, 'shape': (3,)}/
{'descr': '<i8', '^descr': '<i8', 'fortran_order': False, 'shape': (3,), }/
{'descr': '<i8', 'fortran_order': False, 'shape': (3,), ^'shape': (3,), }/
{'shape': (3,), 'fortran_order': False, '^fortran_order': True, 'descr': '<i8'}/
{'shape^s': (3,), 'fortran_order': False, 'descr': '<i8'}/
{'descr^": '<i8', 'fortran_order': False, 'shape': (3,)}/
{'descr' ^'<i8', 'fortran_order': False, 'shape': (3,)}/
{'descr': '<i8' ^'fortran_order': False, 'shape': (3,)}/
{'descr': '<i8', 'fortran_order': False^}/
{'descr': '<i8', 'fortran_order': False, ^}/
{'descr': '<i8', 'fortran_order': False, 'shape': (3,),^, }/
{'descr': '<i8', 'fortran_order': False, 'shape': (3,), ^'x': 1}/
{'descr': ^<i8, 'fortran_order': False, 'shape': (3,)}/
{'descr': '^\x3ci8', 'fortran_order': False, 'shape': (3,)}/
{'descr': '<^	i8', 'fortran_order': False, 'shape': (3,)}/
{'descr': ^[('a', '<i8')], 'fortran_order': False, 'shape': (3,)}/
{'descr': '<i8', 'fortran_order': ^false, 
{'descr': '<i8', 'fortran_order': ^0, 
{'descr': '<i8', 'fortran_order': F^ALSE, 
{'fortran_order': ^0, 'descr': '<i8', 'shape': (3,)}/
{'fortran_order': ^false, 'descr': '<i8', 'shape': (3,)}/
{'fortran_order': T^RUE, 'descr': '<i8', 'shape': (3,)}/
{'fortran_order': False^y, 'descr': '<i8', 'shape': (3,)}/
{'fortran_order': ^None, 'descr': '<i8', 'shape': (3,)}/
{'shape': ^3, 
{'shape': ^[3], 
{'shape': (^,), 
{'shape': (^-1,), 
{'shape': (^a,), 
{'shape': (3^), 
{'shape': (3^L,), 
{'shape': (3^.0,), 
{'shape': (3,^,), 
{'shape': (0^3,), 
{'shape': (3, 0^0), 
{'shape': (3 ^4), 
{'shape': (3, 4,^,), 
{'shape': (3, 4^L), 
{'shape': ^3, 'descr': '<i8', 'fortran_order': False}/
{'shape': ^[3], 'descr': '<i8', 'fortran_order': False}/
{'shape': (3^), 'descr': '<i8', 'fortran_order': False}/
{'shape': (^,), 'descr': '<i8', 'fortran_order': False}/
{'shape': (0^3,), 'descr': '<i8', 'fortran_order': False}/
{'shape': (3 ^4), 'descr': '<i8', 'fortran_order': False}/
{'shape': (3,^,), 'descr': '<i8', 'fortran_order': False}/
{'shape': (3^L,), 'descr': '<i8', 'fortran_order': False}/
{'shape': (^-3,), 'descr': '<i8', 'fortran_order': False}/
{'shape': (2, 3^.0), 'descr': '<i8', 'fortran_order': False}/
{'shape': (2, 3,^/), 'descr': '<i8', 'fortran_order': False}/
{'descr': '<i8', 'fortran_order': False, 'shape': (3,)}^
{'descr': '<i8', 'fortran_order': False, 'shape': (3,), }^
{'descr': '<i8', 'fortran_order': False, 'shape': (3,)}   ^
{'descr': '<i8', 'fortran_order': False, 'shape': (3,), }   ^
{'descr': '<i8', 'fortran_order': False, 'shape': (3,)^
{'descr': '<i8', 'fortran_order': False, 'shape': (3,)}^	/
{'descr': '<i8', 'fortran_order': False, 'shape': (3,), }^	/
{'descr': '<i8', 'fortran_order': False, 'shape': (3,), }^x/
{'descr': '<i8', 'fortran_order': False, 'shape': (3,)}^}/
{'descr': '<i8', 'fortran_order': False, 'shape': (3,)}/^/
{'descr': '<i8', 'fortran_order': False, 'shape': (3,), }  /^ 
{'descr': '<i8', 'fortran_order': False, 'shape': (3,)}/^ 
{'descr': '<i8', 'fortran_order': False, 'shape': (3,)^/
"""[1:-1].split("\n")

# A byte that is no text.
NO_TEXT = [b"{'descr': '<i^\x7f'", b"{'descr': '^\xff'", b"{'descr': '<i8^\x7f', 'fortran_order': False, 'shape': (3,)}\n"]
# One that is none in versions 1.0 and 2.0.
PAST_ASCII = [b"{'descr': \"<i8^\xc3\xa9\", 'fortran_order': False, 'shape': (3,)}\n", b"{'descr': '^\xf0\x9f\x98\x80'",
              b"{'shape': (3,), 'descr': '^\xe2\x82\xac', 'fortran_order': False}\n"]

# In version 3.0, bytes of a string that are no characters: those behind the mark.
NO_CHARACTERS = [b"^\x80", b"^\xbf", b"^\xc0\x80", b"^\xc1\xbf", b"\xc2^'", b"\xc2^\xc2", b"\xdf^\x7f", b"\xe0^\x80\x80", b"\xe0^\x9f\xbf",
                 b"\xe0\xa0^", b"\xe1\x80^'", b"\xec\xbf^\xc0", b"\xed^\xa0\x80", b"\xed^\xbf\xbf", b"\xee\x80^\x20", b"\xf0^\x80\x80\x80",
                 b"\xf0^\x8f\xbf\xbf", b"\xf0\x90\x80^\x7f", b"\xf1\x80\x80^'", b"\xf3\xbf^\xff", b"\xf4^\x90\x80\x80", b"^\xf5\x80", b"^\xff",
                 b"\xc3\xa9^\xa9", b"a\xc3^a", b"\xf4\x8f\xbf\xbf^\\"]
# The ends of each range of characters, and some between.
CHARACTERS = ["\x80\u07ff", "\u0800\u0fff\u1000\ucfff", "\ud000\ud7ff\ue000\uffff", "\U00010000\U0003ffff\U00040000\U000fffff\U00100000\U0010ffff",
              "<i8\u00e9", "\u20ac", "a\u00e9\U0001f600b"]

# Headers of an array of three elements in column-major order, in every form, and of one of three rows and four columns.
FORMS = """
{'descr': '<i8', 'fortran_order': True, 'shape': (1, 3), }/
{'descr': '<i8', 'fortran_order': True, 'shape': (1, 3)}/
{"shape":(1,3,),"descr":"<i8","fortran_order":True}/
{  'shape' : ( 1 , 3 , ) , 'fortran_order' : True , "descr" : '<i8'  ,  }     /
{'fortran_order':True,'descr':"<i8",'shape':(1,3)}/
{'fortran_order': True, 'shape': (1, 3), 'descr': '<i8', }                      /
{'shape': (1, 3), 'fortran_order': True, 'descr': '<i8'}/
{'descr': "<i8", 'shape': (1, 3), 'fortran_order': True}/
{'descr': '<i8', 'shape': (3, 4), 'fortran_order': True}   /
{'fortran_order': True, 'descr': '<i8', 'shape': (3, 4)}   /
{'fortran_order': True, 'shape': (3, 4), 'descr': '<i8', }   /
{'shape': (3, 4,), 'descr': "<i8", "fortran_order": True}   /
{"shape":(3,4),"fortran_order":True,"descr":"<i8"}   /
{   'descr'  :  '<i8'  ,  'fortran_order'   : True ,'shape' :(  3  ,  4  , )  ,  }   /
"""[1:-1].split("\n")

# Strings and numbers are read as they stand; a number above 2^64 - 1 is 2^64 - 1.
VALUES = """
{'descr': ' "~a!', 'fortran_order': False, 'shape': (0, 10, 2147483649)}/
{'descr': '', 'fortran_order': False, 'shape': (18446744073709551614,)}/
{'descr': '', 'fortran_order': False, 'shape': (18446744073709551616, 1000000000000000000000000000000000000000)}/
"""[1:-1].split("\n")

# Headers of other elements. The descr is looked at before the shape.
OTHER_DESCR = """
{'descr': '<u4', 'fortran_order': False, 'shape': (3,)}/
{'descr': '>u8', 'fortran_order': False, 'shape': (3,)}/
{'descr': '|u1', 'fortran_order': False, 'shape': (3,)}/
{'descr': '|b1', 'fortran_order': False, 'shape': (3,)}/
{'descr': '<f8', 'fortran_order': False, 'shape': (3,)}/
{'descr': '<i1', 'fortran_order': False, 'shape': (3,)}/
{'descr': '>i1', 'fortran_order': False, 'shape': (3,)}/
{'descr': '|i8', 'fortran_order': False, 'shape': (3,)}/
{'descr': '=i8', 'fortran_order': False, 'shape': (3,)}/
{'descr': 'i8', 'fortran_order': False, 'shape': (3,)}/
{'descr': '<i3', 'fortran_order': False, 'shape': (3,)}/
{'descr': '<i16', 'fortran_order': False, 'shape': (3,)}/
{'descr': '', 'fortran_order': False, 'shape': (3,)}/
{'descr': '<i8 ', 'fortran_order': False, 'shape': (3,)}/
{'descr': 'int64', 'fortran_order': False, 'shape': (3,)}/
{'descr': '<u4', 'fortran_order': False, 'shape': (2147483649,)}/
"""[1:-1].split("\n")

# Headers of shapes past a limit. The shape is looked at before the length of the data.
OTHER_SHAPE = """
{'shape': (1, 1, 1, 1, 1, 1, 1, 1, 1), 'fortran_order': True, 'descr': '<i8'}/
{'shape': (2147483649,), 'fortran_order': True, 'descr': '<i8'}/
{'shape': (0, 2147483649), 'fortran_order': True, 'descr': '<i8'}/
{'shape': (65536, 32769), 'fortran_order': True, 'descr': '|i1'}/
{'shape': (2, 1073741825), 'fortran_order': True, 'descr': '<i8'}/
{'shape': (100000000000000000000000000000000000001,), 'fortran_order': True, 'descr': '<i8'}/
"""[1:-1].split("\n")

THREE = b"{'descr': '<i8', 'fortran_order': False, 'shape': (3,), }" + b" " * 60 + b"\n"
SHORT = b"{'descr': '<i8', 'fortran_order': False, 'shape': (3,)}\n"
LONG = b"{'shape': (2147483648,), 'fortran_order': True, 'descr': '<i8'}\n"


class Stop(Exception):
    """No header goes on at this byte."""


def is_character(data):
    try:
        return len(data.decode("utf-8")) == 1
    except UnicodeDecodeError:
        return False


def begins_character(data):
    """Whether bytes may follow with which these are one character."""
    rests = [b""] + [first + b"\x80" * more for first in (b"\x80", b"\x90", b"\xa0") for more in range(3)]
    return any(is_character(data + rest) for rest in rests)


def read(text, wide):
    """The descr, whether the order is column-major, and the lengths. A wide header is one of version 3.0."""
    def peek(at):
        return text[at] if at < len(text) else None

    def need(at, word):
        for byte in word:
            if peek(at) != byte:
                raise Stop(at)
            at += 1
        return at

    def spaces(at):
        while peek(at) == 32:
            at += 1
        return at

    def is_digit(byte):
        return byte is not None and 48 <= byte <= 57

    def number(at, into):
        first = at
        if not is_digit(peek(at)):
            raise Stop(at)
        at += 1
        while text[first] != 48 and is_digit(peek(at)):
            at += 1
        into.append(min(int(text[first:at]), 2**64 - 1))
        return at

    def string(at):
        quote = peek(at)
        if quote not in (39, 34):
            raise Stop(at)
        at += 1
        first = at
        while peek(at) != quote:
            if wide and peek(at) is not None and peek(at) > 127:
                at = character(at)
                continue
            if peek(at) is None or not 32 <= peek(at) <= 126 or peek(at) == 92:
                raise Stop(at)
            at += 1
        return at + 1, text[first:at]

    def character(first):
        at = first
        while not is_character(text[first:at]):
            if peek(at) is None or not begins_character(text[first : at + 1]):
                raise Stop(at)
            at += 1
        return at

    def truth(at):
        word = b"True" if peek(at) == ord("T") else b"False"
        return need(at, word), word == b"True"

    def shape(at):
        lengths = []
        at = spaces(need(at, b"("))
        if peek(at) == 41:
            return at + 1, lengths
        at = spaces(need(spaces(number(at, lengths)), b","))
        while peek(at) != 41:
            at = spaces(number(at, lengths))
            if peek(at) != 41:
                at = spaces(need(at, b","))
        return at + 1, lengths

    left = {"descr": string, "fortran_order": truth, "shape": shape}
    said = {}
    at = spaces(need(0, b"{"))
    while left:
        quote = peek(at)
        if quote not in (39, 34):
            raise Stop(at)
        at += 1
        keys = [key for key in left if ord(key[0]) == peek(at)]
        if not keys:
            raise Stop(at)
        at = spaces(need(spaces(need(at, keys[0].encode() + bytes([quote]))), b":"))
        at, said[keys[0]] = left.pop(keys[0])(at)
        at = spaces(at)
        if left:
            at = spaces(need(at, b","))
    if peek(at) == 44:
        at = spaces(at + 1)
    at = need(spaces(need(at, b"}")), b"\n")
    if at != len(text):
        raise Stop(at)
    return said["descr"], said["fortran_order"], said["shape"]


def header_answer(text, wide=False):
    try:
        descr, fortran, shape = read(text, wide)
    except Stop as stop:
        return "malformed header at byte %d" % stop.args[0]
    return "%s (%s) of '%s'" % (order(fortran), numbers(shape), case_lines.shown(descr))


def head_of(data):
    """The order, the lengths, the place of the data and the type of a file, or why it is refused: the first cause in the table of
    docs/FORMATS.md."""
    for at, byte in enumerate(MAGIC):
        if data[at : at + 1] != bytes([byte]):
            return "not npy at %d" % at
    if len(data) < 8:
        return "truncated: has %d, needs 8" % len(data)
    major, minor = data[6], data[7]
    if major not in (1, 2, 3) or minor:
        return "version %d.%d" % (major, minor)
    fixed = 10 if major == 1 else 12
    if len(data) < fixed:
        return "truncated: has %d, needs %d" % (len(data), fixed)
    size = sum(byte * 256**k for k, byte in enumerate(data[8:fixed]))
    if size > 2**20:
        return "header limit %d" % size
    text = data[fixed : fixed + size]
    if len(text) < size:
        return "truncated: has %d, needs %d" % (len(text), size)
    try:
        descr, fortran, shape = read(text, major == 3)
    except Stop as stop:
        return "header at %d" % (fixed + stop.args[0])
    if descr not in TYPES:
        return "descr"
    count = 1
    for length in shape:
        count *= length
    if len(shape) > 8 or count > 2**31 or any(length > 2**31 for length in shape):
        return "shape limit"
    has, width = len(data) - fixed - size, int(descr[2:])
    if has < width * count:
        return "truncated: has %d, needs %d" % (has, width * count)
    return "%s (%s) at %d of %s" % (order(fortran), numbers(shape), fixed + size, type_text(descr.decode()))


def type_text(descr):
    """An element's bytes, and their order where it is big-endian."""
    return descr[2] + (" big" if descr[0] == ">" else "")


def file_of(text, data, version=1):
    counted = len(text).to_bytes(2 if version == 1 else 4, "little")
    return MAGIC + bytes([version, 0]) + counted + text + b"0" * data


def head_case(data, most=3, fault="-"):
    return "head %d %s %s" % (most, fault, escaped(data)), head_of(data)


def unmarked(row):
    front, _, back = row.partition(b"^")
    return front + back, len(front)


def lines_of(rows):
    return [row.replace("/", "\n").encode() for row in rows]


def header_case(text, wide=False):
    return ("wide " if wide else "header ") + escaped(text), header_answer(text, wide)


def refused_headers():
    cases = []
    strings = [b"{'descr': '" + row for row in NO_CHARACTERS]
    for row, ways in ([(row, (False, True)) for row in lines_of(NO_HEADERS) + NO_TEXT] + [(row, (False,)) for row in PAST_ASCII]
                      + [(row, (True,)) for row in strings]):
        text, mark = unmarked(row)
        for wide in ways:
            assert header_answer(text, wide) == "malformed header at byte %d" % mark, (row, header_answer(text, wide))
            cases.append(header_case(text, wide))
        cases += [head_case(file_of(text, 24, version)) for version in (1, 2, 3)]
    return cases


def read_headers():
    texts = lines_of(FORMS)
    assert all("column-major (1,3)" in header_answer(t) or "column-major (3,4)" in header_answer(t) for t in texts)
    cases = [header_case(text, wide) for text in texts + lines_of(VALUES) for wide in (False, True)]
    strings = [b"{'descr': '%s', 'fortran_order': False, 'shape': (3,)}\n" % characters.encode() for characters in CHARACTERS]
    cases += [header_case(text, True) for text in strings]
    cases += [head_case(file_of(text, 24, version)) for text in strings for version in (2, 3)]
    return cases + [head_case(file_of(text, 96, version), 5) for text in texts for version in (1, 2, 3)]


def typed_heads():
    """Each type in each version and order, with all of its data, and without the last byte."""
    cases = []
    for version in (1, 2, 3):
        for descr in TYPES:
            for fortran in (b"False", b"True"):
                text = b"{'descr': '%s', 'fortran_order': %s, 'shape': (2, 3), }\n" % (descr, fortran)
                cases += [head_case(file_of(text, 6 * int(descr[2:]) - cut, version)) for cut in (0, 1)]
    return cases


def other_heads():
    whole = file_of(THREE, 24)
    files = [file_of(text, 24) for text in lines_of(OTHER_DESCR) + lines_of(OTHER_SHAPE)]
    files += [MAGIC[:size] for size in range(6)]
    files += [b"xNUMPY\x02\x00v\x00", b"\x93xUMPY\x01\x00v\x00", b"\x93NxMPY", b"\x93NUxPY\x01", b"\x93NUMxx", b"\x93NUMPy\x01\x00"]
    files += [whole[:size] for size in (6, 7, 8, 9, 10, 11, 127, 128, 136, 151, 152)]
    files += [file_of(THREE, 24, version)[:size] for version in (2, 3) for size in (6, 7, 8, 9, 10, 11, 12, 13, 129, 130, 138, 153, 154)]
    files += [MAGIC + version + b"v\x00"[:size] for version in (b"\x04\x00", b"\x01\x01", b"\x02\x01", b"\x00\x01", b"\x00\x00", b"\xff\xff")
              for size in (0, 1, 2)]
    # HEADER_LEN may be 1,048,576 and no more, also where nothing follows
    files += [MAGIC + version + size.to_bytes(4, "little") for version in (b"\x02\x00", b"\x03\x00") for size in (2**20, 2**20 + 1, 2**32 - 1)]
    files += [file_of(SHORT, 8), file_of(SHORT, 23), file_of(SHORT, 24), file_of(LONG, 24)]
    long = [file_of(SHORT[:-1] + b" " * (size - len(SHORT)) + b"\n", 24, version) for version in (2, 3) for size in (65536, 2**20)]
    return [head_case(data) for data in files] + [head_case(data, 100000) for data in long]


def failed_heads():
    """A head is read by one call for the length, one for the first twelve bytes and one for the header, where a call moves all."""
    line, _ = head_case(file_of(THREE, 24), 100000, "FAULT")
    return [(line.replace("FAULT", fault), "read fault") for fault in ("length:0", "read:0", "read:1")]


def written(shape):
    """The front of a file by docs/FORMATS.md."""
    lengths = "(%d,)" % shape[0] if len(shape) == 1 else "(%s)" % ", ".join(map(str, shape))
    text = "{'descr': '<i8', 'fortran_order': False, 'shape': %s, }" % lengths
    text += " " * (-(10 + len(text) + 1) % 64) + "\n"
    return MAGIC + bytes([1, 0, len(text) % 256, len(text) // 256]) + text.encode()


# Lengths, and how many bytes the front has, counted by hand.
WRITTEN = [((), 128), ((3,), 128), ((2, 3), 128), ((2**31,) * 7 + (0,), 192), ((0,), 128), ((1,) * 8, 128)]


def written_headers():
    assert all(len(written(shape)) == size for shape, size in WRITTEN)
    assert written((3,)) == MAGIC + b"\x01\x00v\x00" + THREE
    cases = [("written " + (numbers(shape) or "-"), case_lines.shown(written(shape))) for shape, _ in WRITTEN]
    return cases + [("written 1,1,1,1,1,1,1,1,1", "axes"), ("written 2147483649", "elements"), ("written 65536,32769", "elements")]


def cases():
    return [("# headers", "headers")] + refused_headers() + read_headers() + typed_heads() + other_heads() + failed_heads() + written_headers()
