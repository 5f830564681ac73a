"""MessagePack values with their encodings by another implementation, and streams of frame groups: cases of format_table.

The values are encoded and decoded by Debian's python3-msgpack (1.0.3). What is refused, and which forms there are, is written
by hand from the MessagePack specification and docs/FORMATS.md, as the streams are.
"""

import msgpack

import case_lines

INTS = [
    0, 1, 5, 31, 32, 100, 126, 127, 128, 129, 200, 254, 255, 256, 257, 1000, 32767, 32768, 65534, 65535, 65536, 65537,
    1000000, 2**31 - 1, 2**31, 2**32 - 1, 2**32, 2**32 + 1, 2**53, 2**63 - 1, 2**63, 2**64 - 2, 2**64 - 1,
    -1, -2, -31, -32, -33, -34, -100, -127, -128, -129, -130, -1000, -32767, -32768, -32769, -65536, -100000,
    -(2**31) + 1, -(2**31), -(2**31) - 1, -(2**32), -(2**53), -(2**63) + 1, -(2**63),
]
TEXTS = ["", "a", "op", "free-keys", "0123456789", "x" * 31, "x" * 32, "z" * 255, "w" * 256, "\u00e9\u20ac"]
BYTES = [b"", b"\x00", b"\xff", bytes(range(8)), b"\xc1" * 32, bytes(range(256))]
LISTS = [[], [1], [[]], [[[]]], list(range(14)), list(range(15)), list(range(16)), list(range(17)), [None] * 3,
         [True, False, None], ["a", b"a", 97], [-1, [-33, [300, [70000]]]], [{}, {"k": []}], [2**64 - 1, -(2**63)]]
MAPS = [{}, {"a": 1}, {1: 2, 3: 4}, {"op": "free-keys", "keys": [3]}, {"op": "want", "keys": [1, 2, 300]},
        {"k%02d" % i: i for i in range(15)}, {"k%02d" % i: i for i in range(16)}, {None: None}, {True: False, "b": b"\x01\x02"},
        {"op": "compute-task", "key": 7, "attempt": 2**40, "who_has": [[1, [[1, 2], [3, 4]]], [2, []]]},
        {"op": "hello", "role": "worker", "id": 1}, {"nested": {"nested": {"nested": {}}}}]

SHORT = "the bytes end before the value does"
FREE_KEYS = bytes.fromhex("82a26f70a9667265652d6b657973a46b6579739103")


class Pairs(list):
    """A map as its pairs: a key may come twice."""


def leaf(value):
    """A value that holds no others, or how many it holds."""
    if value is None:
        return "nil"
    if isinstance(value, bool):
        return "true" if value else "false"
    if isinstance(value, int):
        return "%d" % value
    if isinstance(value, str):
        return "'%s'" % case_lines.shown(value.encode())
    if isinstance(value, bytes):
        return "<%s>" % value.hex()
    return "%s of %d" % ("map" if isinstance(value, Pairs) else "array", len(value))


def shown(value):
    """A value with those that it holds. What lies deeper shows in its bytes."""
    if isinstance(value, Pairs):
        return "{%s }" % "".join(" %s %s" % (leaf(k), leaf(v)) for k, v in value)
    if isinstance(value, list):
        return "[%s ]" % "".join(" " + leaf(v) for v in value)
    return leaf(value)


def decoded(data):
    """The value at the front, and how many bytes it takes."""
    unpacker = msgpack.Unpacker(raw=False, strict_map_key=False, object_pairs_hook=Pairs)
    unpacker.feed(data)
    return unpacker.unpack(), unpacker.tell()


def packed(value):
    """The shortest encoding."""
    if isinstance(value, Pairs):
        packer = msgpack.Packer(autoreset=False)
        packer.pack_map_header(len(value))
        return packer.bytes() + b"".join(packed(k) + packed(v) for k, v in value)
    if isinstance(value, list):
        packer = msgpack.Packer(autoreset=False)
        packer.pack_array_header(len(value))
        return packer.bytes() + b"".join(map(packed, value))
    return msgpack.packb(value, use_bin_type=True)


def value_case(data):
    value, size = decoded(data)
    return "value " + data.hex(), "%d %s = %s" % (size, shown(value), packed(value).hex())


def refusal_of(first):
    """What the specification says of a first byte that carries no value here."""
    if first in (0xCA, 0xCB):
        return "a float at byte 0"
    if first in (0xC7, 0xC8, 0xC9, 0xD4, 0xD5, 0xD6, 0xD7, 0xD8):
        return "an extension at byte 0"
    return "the reserved byte C1 at byte 0" if first == 0xC1 else None


def first_byte_cases(first):
    """A first byte alone, and with forty zeros behind it."""
    refusal = refusal_of(first)
    if refusal:
        return [("value " + data.hex(), refusal) for data in (bytes([first]), bytes([first]) + bytes(40))]
    try:
        alone = value_case(bytes([first]))
    except msgpack.exceptions.OutOfData:
        alone = ("value %02x" % first, SHORT)
    return [alone, value_case(bytes([first]) + bytes(40))]


BY_HAND = [
    ("value cd0005", "3 5 = 05"), ("value d9026f70", "4 'op' = a26f70"), ("value dd00000001c0", "6 [ nil ] = 91c0"),
    ("value df000000010102", "7 { 1 2 } = 810102"), ("value d3ffffffffffffffff", "9 -1 = ff"),
    ("value c1", "the reserved byte C1 at byte 0"), ("value ca00000000", "a float at byte 0"), ("value d90541", SHORT),
    ("value 9201d4", "an extension at byte 2"), ("value 93a1ffc1", "a string that is not UTF-8 at byte 1"),
    ("value a2c328", "a string that is not UTF-8 at byte 0"), ("value 8101cb", "a float at byte 2"),
    ("value 9192c0c1", "the reserved byte C1 at byte 3"), ("value c608000001", "a length above 2^27"),
    ("value db08000001", "a length above 2^27"), ("value dd08000001", "a length above 2^27"),
    ("value df08000001", "a length above 2^27"), ("value c608000000", SHORT), ("value dd08000000", SHORT),
    ("value " + "91" * 17, "more than 16 nested arrays and maps"), ("value " + "91" * 16, SHORT),
    ("value " + "91" * 16 + "80", "more than 16 nested arrays and maps"),
    ("value " + "91" * 16 + "c0", "17 [ array of 1 ] = %sc0" % ("91" * 16)), ("value", SHORT),
    ("nested 1", "90"), ("nested 15", "91" * 14 + "90"), ("nested 16", "91" * 15 + "90"),
    ("nested 17", "more than 16 nested arrays and maps"),
]


def number(n):
    return n.to_bytes(8, "little")


def group(*frames):
    return number(len(frames)) + b"".join(number(len(f)) for f in frames) + b"".join(frames)


ONE = group(FREE_KEYS)
MANY = number(2**63)
STREAMS = [
    (1, ONE, " at 37: " + FREE_KEYS.hex()),
    (36, ONE, " at 37: " + FREE_KEYS.hex()),
    (1000, ONE + ONE, (" at 74: " + FREE_KEYS.hex()) * 2),
    (7, ONE + ONE, " at 42: %s at 74: %s" % (FREE_KEYS.hex(), FREE_KEYS.hex())),
    # a refusal is answered again, and the groups before it are ready
    (82, ONE + ONE + MANY + bytes(4),
     " at 82: a group of 9223372036854775808 frames" + (" at 82: " + FREE_KEYS.hex()) * 2
     + " at 86: a group of 9223372036854775808 frames"),
    (1000, number(2) + number(2**24) + number(2**27 + 1), " at 24: a frame of 134217729 bytes"),
    (1000, number(1) + number(2**24 + 1), " at 16: a frame of 16777217 bytes"),
    (1000, number(2) + number(2**24) + number(2**27), ""),
    (1, number(0), " at 8: a group of 0 frames"),
    (1000, number(18), " at 8: a group of 18 frames"),
    (1000, number(17), ""),
    (1000, group(*[b"a"] * 17), " at 161:" + " 61" * 17),
    (1000, group(b"cells", b"", b"\x00\xff"), " at 39: 63656c6c73  00ff"),
    (5, b"", ""),
]


def cases():
    found = [("# values of MessagePack", "values of MessagePack")]
    found += [value_case(packed(value)) for value in [None, True, False] + INTS + TEXTS + BYTES + LISTS]
    found += [value_case(packed(pairs_of(value))) for value in MAPS]
    for first in range(256):
        found += first_byte_cases(first)
    return found + BY_HAND + [("stream %d %s" % (size, data.hex()), "groups" + answer) for size, data, answer in STREAMS]


def pairs_of(value):
    if isinstance(value, dict):
        return Pairs((k, pairs_of(v)) for k, v in value.items())
    return [pairs_of(v) for v in value] if isinstance(value, list) else value
