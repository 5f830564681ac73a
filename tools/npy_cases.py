"""Files that NumPy writes, by numpy.save and in each version and type by numpy.lib.format, and what NumPy has in them: cases of
format_table.

The runs of bytes and the regions past a file's end are worked out by hand from docs/FORMATS.md, on the file SIX.
"""

import io

import numpy as np

from case_lines import escaped, numbers, order
from header_cases import TYPES, type_text

SHAPES = [(), (3,), (0,), (2, 3), (3, 0), (2, 3, 2), (1, 2, 1, 3), (2, 1, 2, 1, 2), (1, 1, 2, 1, 1, 2),
          (1, 2, 1, 1, 2, 1, 1), (1, 1, 2, 1, 1, 2, 1, 2)]
AXES = (2, 3, 1, 4, 1, 2, 1, 5)
CUBE = (3, 4, 2)
PARTS = [((0, 0, 0), (3, 4, 2)), ((1, 0, 0), (2, 4, 2)), ((0, 1, 1), (3, 2, 1)), ((1, 1, 0), (1, 2, 2)),
         ((2, 3, 1), (1, 1, 1)), ((0, 4, 0), (3, 0, 2))]


def array_of(shape, order):
    count = int(np.prod(shape, dtype=np.int64))
    values = [(i * 1234567890123456789 + 987654321 + 2**63) % 2**64 - 2**63 for i in range(count)]
    return np.array(np.array(values, dtype="<i8").reshape(shape), order=order)


def file_of(array, version=None):
    out = io.BytesIO()
    np.lib.format.write_array(out, array, version=(version, 0)) if version else np.save(out, array)
    return out.getvalue()


def is_fortran(array):
    return array.flags.f_contiguous and not array.flags.c_contiguous


def axes(starts, lengths):
    return ",".join("%d+%d" % pair for pair in zip(starts, lengths)) or "-"


def region_line(data, starts, lengths, most, size=None, fault="-"):
    return "region %d %s %d %s %s" % (most, fault, len(data) if size is None else size, axes(starts, lengths), escaped(data))


def cells_of(array, starts, lengths):
    part = array[tuple(slice(s, s + n) for s, n in zip(starts, lengths))]
    return "".join(" %d" % v for v in part.ravel(order="C").tolist())


def region_cases(array, starts, lengths, version=None):
    """The region of the array's file, however short the reads are."""
    data = file_of(array, version)
    at = len(data) - array.nbytes
    answer = "%s (%s) at %d of %s; (%s)" % (order(is_fortran(array)), numbers(array.shape), at, type_text(array.dtype.str), numbers(lengths))
    answer += cells_of(array, starts, lengths)
    return [(region_line(data, starts, lengths, most), answer) for most in (7, 100000)]


def header_case(shape, letter):
    """The header of an array: NumPy writes False for fewer than two axes in either order."""
    data = file_of(np.zeros(shape, dtype="<i8", order=letter))
    text = data[10 : 10 + data[8] + 256 * data[9]]
    fortran = letter == "F" and len(shape) > 1
    return "header " + escaped(text), "%s (%s) of '<i8'" % (order(fortran), numbers(shape))


def typed_cases():
    """Regions of files of each type, in each version and order, with the ends of the type's range among the elements."""
    found = []
    for version in (1, 2, 3):
        for descr in TYPES:
            dtype = descr.decode()
            limits = np.iinfo(dtype)
            for letter in "CF":
                array = array_of(CUBE, letter).astype(dtype, order=letter)
                array[0, 0, 0], array[2, 3, 1], array[1, 1, 1] = limits.min, limits.max, -1
                for starts, lengths in PARTS[:4]:
                    found += region_cases(array, starts, lengths, version)
    return found


# A column-major file of shape (2, 3) with the data 1 to 6, and a header of 70 bytes.
SIX = b"\x93NUMPY\x01\x00\x46\x00{'descr': '<i8', 'fortran_order': True, 'shape': (2, 3), }           \n"
SIX += b"".join(n.to_bytes(8, "little") for n in range(1, 7))
SIX_HEAD = "column-major (2,3) at 80 of 8; "


def six(starts, lengths, most, size, answer, fault="-"):
    return region_line(SIX, starts, lengths, most, size, fault), SIX_HEAD + answer


# Of 48 bytes of data 39 are there where the file has 119: the element at (0, 2) ends at 40, and the last one at 48.
SIX_CASES = [
    six((0, 0), (2, 3), 7, 128, "(2,3) 1 3 5 2 4 6"),
    six((1, 1), (1, 2), 7, 128, "(1,2) 4 6"),
    six((0, 3), (2, 0), 7, 128, "(2,0)"),
    six((0, 0), (2, 3), 100000, 128, "(2,3) 1 3 5 2 4 6"),
    six((1, 1), (1, 2), 100000, 128, "(1,2) 4 6"),
    six((0, 3), (2, 0), 100000, 128, "(2,0)"),
    six((0, 2), (1, 1), 9, 119, "truncated: has 39, needs 40"),
    six((0, 0), (2, 3), 9, 119, "truncated: has 39, needs 48"),
    six((0, 0), (1, 1), 9, 0, "truncated: has 0, needs 8"),
    six((0, 0), (2, 2), 100000, 119, "(2,2) 1 3 2 4"),
    six((0, 3), (2, 0), 100000, 119, "(2,0)"),
    # the head takes one call for the length and two reads where a call moves all
    six((0, 0), (2, 2), 100000, 128, "read fault", "length:1"),
    six((0, 0), (2, 2), 100000, 128, "read fault", "read:2"),
    six((0, 0), (2, 2), 7, 128, "read fault", "read:14"),
]

# The same with elements of two bytes, in big-endian order, of which the fourth is -1 and the last -32768. Of 12 bytes of data 9 are
# there where the file has 89.
PAIRS = SIX[:80].replace(b"<i8", b">i2") + b"\x00\x01\x00\x02\x01\x03\xff\xff\x7f\xff\x80\x00"
PAIRS_HEAD = "column-major (2,3) at 80 of 2 big; "
PAIRS_CASES = [(region_line(PAIRS, starts, lengths, most, size), PAIRS_HEAD + answer) for starts, lengths, most, size, answer in [
    ((0, 0), (2, 3), 7, 92, "(2,3) 1 259 32767 2 -1 -32768"),
    ((0, 0), (2, 3), 1, 92, "(2,3) 1 259 32767 2 -1 -32768"),
    ((1, 1), (1, 2), 3, 92, "(1,2) -1 -32768"),
    ((0, 2), (1, 1), 9, 89, "truncated: has 9, needs 10"),
    ((0, 0), (2, 3), 9, 89, "truncated: has 9, needs 12"),
    ((0, 0), (2, 2), 9, 89, "(2,2) 1 259 2 -1"),
    ((0, 0), (1, 1), 9, 0, "truncated: has 0, needs 2"),
    ((0, 3), (2, 0), 9, 0, "(2,0)"),
]]

# The same header as `written 2,2` of format_table has, with -1, 0, the largest and the smallest number.
WRITTEN = b"\x93NUMPY\x01\x00v\x00{'descr': '<i8', 'fortran_order': False, 'shape': (2, 2), }" + b" " * 58 + b"\n"
WRITTEN += b"".join(n.to_bytes(8, "little", signed=True) for n in (-1, 0, 2**63 - 1, -(2**63)))
WRITTEN_CELLS = "row-major (2,2) at 128 of 8; (2,2) -1 0 9223372036854775807 -9223372036854775808"
WRITTEN_CASES = [(region_line(WRITTEN, (0, 0), (2, 2), most), WRITTEN_CELLS) for most in (7, 100000)]

def by_hand(descr, count, version, size, data):
    text = b"{'descr': '%s', 'fortran_order': False, 'shape': (%d,), }" % (descr, count)
    return b"\x93NUMPY" + bytes([version, 0]) + size.to_bytes(2 if version == 1 else 4, "little") + text.ljust(size - 1) + b"\n" + data


THREE = by_hand(b"<i4", 3, 2, 116, b"\xff\xff\xff\xff\x01\x00\x00\x00\x00\x00\x00\x80")
assert len(THREE) == 140
HAND_CASES = [
    (region_line(THREE, (0,), (3,), 7), "row-major (3) at 128 of 4; (3) -1 1 -2147483648"),
    (region_line(by_hand(b">i8", 1, 1, 118, bytes(7) + b"\x02"), (0,), (1,), 7), "row-major (1) at 128 of 8 big; (1) 2"),
    (region_line(by_hand(b"|i1", 1, 1, 118, b"\x80"), (0,), (1,), 7), "row-major (1) at 128 of 1; (1) -128"),
    (region_line(by_hand(b"<i2", 3, 1, 118, bytes(5)), (0,), (3,), 7), "truncated: has 5, needs 6"),
]

# The runs of a region of a file with elements of so many bytes whose data begins at byte 80: the first byte, how many, and the place
# in the block.
RUNS = [
    ("runs row-major 8 2,3 0+2,0+3", "runs 80+48@0"),
    ("runs row-major 8 2,3 0+2,1+2", "runs 88+16@0 112+16@2"),
    ("runs column-major 8 2,3 0+2,1+2", "runs 96+8@0 104+8@2 112+8@1 120+8@3"),
    ("runs column-major 8 2,3 0+2,1+1", "runs 96+16@0"),
    ("runs column-major 8 - -", "runs 80+8@0"),
    ("runs column-major 8 2,3 0+0,1+1", "runs"),
    ("runs row-major 8 2,3 0+2,2+2", "no part"),
    ("runs row-major 4 2,3 0+2,0+3", "runs 80+24@0"),
    ("runs row-major 4 2,3 0+2,1+2", "runs 84+8@0 96+8@2"),
    ("runs column-major 4 2,3 0+2,1+2", "runs 88+4@0 92+4@2 96+4@1 100+4@3"),
    ("runs row-major 2 2,3 0+2,1+2", "runs 82+4@0 88+4@2"),
    ("runs column-major 2 2,3 0+2,1+2", "runs 84+2@0 86+2@2 88+2@1 90+2@3"),
    ("runs column-major 2 2,3 0+2,1+1", "runs 84+4@0"),
    ("runs row-major 1 2,3 0+2,1+2", "runs 81+2@0 84+2@2"),
    ("runs column-major 1 2,3 0+2,1+2", "runs 82+1@0 83+1@2 84+1@1 85+1@3"),
    ("runs row-major 1 - -", "runs 80+1@0"),
]


def cases():
    found = [("# files of NumPy", "files of NumPy")]
    found += [header_case(AXES[:count], letter) for count in range(9) for letter in "CF"]
    for letter in "CF":
        for shape in SHAPES:
            found += region_cases(array_of(shape, letter), (0,) * len(shape), shape)
        for starts, lengths in PARTS:
            found += region_cases(array_of(CUBE, letter), starts, lengths)
    return found + typed_cases() + SIX_CASES + PAIRS_CASES + WRITTEN_CASES + HAND_CASES + RUNS
