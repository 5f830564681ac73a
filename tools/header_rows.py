"""Writes the table of the grammar of .npy headers: crates/npy_header/src/rows.rt and rules.rt.

Run it at the top of the repository: python3 tools/header_rows.py
The rows are proved equal to specs/Typed.antt, and that to derive exactly the headers of specs/Headers.antt, so nothing here
is trusted.
"""

import itertools

from grammar_tables import Tables, as_rust

KINDS = 48
SINGLE = "".join(dict.fromkeys(" \n{}():,'\"descrfotan_hpTuFl0"))
DIGIT, TEXT = len(SINGLE), len(SINGLE) + 1
# Past ASCII, by UTF-8: the ranges of bytes of a kind each, and what follows those that begin a character, as first and last kind.
PAST = [[(0x80, 0x8F)], [(0x90, 0x9F)], [(0xA0, 0xBF)], [(0xC2, 0xDF)], [(0xE0, 0xE0)], [(0xE1, 0xEC), (0xEE, 0xEF)]]
PAST += [[(0xED, 0xED)], [(0xF0, 0xF0)], [(0xF1, 0xF3)], [(0xF4, 0xF4)]]
LOW, HALF, HIGH = (TEXT + 1 + i for i in range(3))
ANY = (LOW, HIGH)
BEHIND = {3: [ANY], 4: [(HIGH, HIGH), ANY], 5: [ANY, ANY], 6: [(LOW, HALF), ANY], 7: [(HALF, HIGH), ANY, ANY], 8: [ANY, ANY, ANY], 9: [(LOW, LOW), ANY, ANY]}
OTHER = TEXT + 1 + len(PAST)
PRINTABLE = [k for k in range(TEXT + 1) if k != 1]
FIRST, START, COPY, TRUE, FALSE, OPEN, NUMBER = range(7)
KEYS = ("descr", "fortran_order", "shape")
QUOTES = ("'", '"')


def kind(char):
    return SINGLE.index(char)


def kind_of_byte(byte):
    char = chr(byte)
    if char in SINGLE:
        return kind(char)
    if char in "123456789":
        return DIGIT
    if 32 <= byte <= 126 and char != "\\":
        return TEXT
    for i, ranges in enumerate(PAST):
        if any(low <= byte <= high for low, high in ranges):
            return TEXT + 1 + i
    return OTHER


SETS = [tuple(k for k, b in zip(range(3), bits) if b) for bits in itertools.product((1, 0), repeat=3)]

parts = ["header", "tail", "spaces", "value0", "value1", "value2", "string'", 'string"', "tuple", "axes", "axis", "digits"]
parts += [("items", s) for s in SETS if s]
parts += [("key", s, q) for s in SETS if s for q in QUOTES]
parts += [("more", s) for s in SETS if len(s) < 3]
LATER = [(LOW, HIGH), (LOW, HALF), (HALF, HIGH), (HIGH, HIGH), (LOW, LOW)]
parts += [("later", r) for r in LATER]


def tok(text):
    return [("Token", kind(c)) for c in text]


def part(name):
    return [("Part", parts.index(name))]


def act(number):
    return [("Action", number)]


on, other = {}, {}


def rule(name, kinds, symbols):
    for k in kinds:
        on[parts.index(name), k] = symbols


sp = part("spaces")
rule("header", [kind("{")], sp + part(("items", (0, 1, 2))) + tok("}") + part("tail"))
rule("tail", [kind(" ")], part("tail"))
rule("tail", [kind("\n")], [])
rule("spaces", [kind(" ")], sp)
other[parts.index("spaces")] = []
for s in SETS:
    for q in QUOTES:
        if s:
            rule(("items", s), [kind(q)], part(("key", s, q)))
        for k in s:
            rest = tuple(x for x in s if x != k)
            value = part("value%d" % k) + sp + part(("more", rest))
            rule(("key", s, q), [kind(KEYS[k][0])], tok(KEYS[k][1:] + q) + sp + tok(":") + sp + value)
    if 0 < len(s) < 3:
        rule(("more", s), [kind(",")], sp + part(("items", s)))
rule(("more", ()), [kind(",")], sp)
other[parts.index(("more", ()))] = []
for q in QUOTES:
    rule("value0", [kind(q)], act(START) + part("string" + q) + act(COPY) + tok(q))
    rule("string" + q, [k for k in PRINTABLE if k != kind(q)], part("string" + q))
    other[parts.index("string" + q)] = []
rule("value1", [kind("T")], tok("rue") + act(TRUE))
rule("value1", [kind("F")], tok("alse") + act(FALSE))
rule("value2", [kind("(")], act(OPEN) + sp + part("tuple"))
first = sp + tok(",") + sp + part("axes")
rule("tuple", [kind(")")], [])
rule("tuple", [kind("0")], act(FIRST) + act(NUMBER) + first)
rule("tuple", [DIGIT], act(FIRST) + part("digits") + act(NUMBER) + first)
later = sp + part("axis")
rule("axes", [kind(")")], [])
rule("axes", [kind("0")], act(FIRST) + act(NUMBER) + later)
rule("axes", [DIGIT], act(FIRST) + part("digits") + act(NUMBER) + later)
rule("axis", [kind(",")], sp + part("axes"))
rule("axis", [kind(")")], [])
rule("digits", [kind("0"), DIGIT], part("digits"))
other[parts.index("digits")] = []

for low, high in LATER:
    rule(("later", (low, high)), range(low, high + 1), [])
narrow = dict(on)  # versions 1.0 and 2.0
for q in QUOTES:
    for i, later in BEHIND.items():
        rule("string" + q, [TEXT + 1 + i], sum((part(("later", r)) for r in later), []) + part("string" + q))

# ---- the tables of the test

tables, narrow_tables = Tables(len(parts), on, other), Tables(len(parts), narrow, other)
moves = [1] * len(parts)  # no other rule has a part or an action before a token

# ---- what is written


def title(name):
    """A part's name, and for items the keys that are still to come."""
    if isinstance(name, str):
        return {"value0": "value of descr", "value1": "value of fortran_order", "value2": "value of shape"}.get(name, name)
    if name[0] == "later":
        return "later byte of kind %d to %d" % name[1]
    keys = ", ".join(KEYS[k] for k in name[1])
    return " ".join([name[0], "of (%s)" % keys] + (["in " + name[2]] if name[2:] else []))


out = ["//! The table of the grammar of headers, by parts and kinds; tools/header_rows.py writes it.", "use grammar::{Row, rules_on};", ""]
out += ["// The kinds: %s, then the digits 1 to 9, what else may stand in a string," % ascii(SINGLE)[1:-1]]
out += ["// ten kinds of bytes past ASCII, and any other byte.", ""]
out += ["/// The kind of each byte.", "pub(crate) static KIND_OF_BYTE: [u16; 256] = ["]
out += ["    " + " ".join("%d," % kind_of_byte(b) for b in range(i, i + 16)) for i in range(0, 256, 16)] + ["];", ""]
lines = as_rust([title(name) for name in parts], KINDS, narrow, other, tables.rows, moves)
wide_lines = as_rust([title(name) for name in parts], KINDS, on, other, tables.rows, moves)
end = wide_lines.index("];") + 2
rules = next(k for k, line in enumerate(lines) if "static RULES" in line)
out += lines[:end] + [wide_lines[0].replace("ON:", "ON_WIDE:")] + wide_lines[1:end] + lines[end:rules - 1]
open("crates/npy_header/src/rows.rt", "w").write("\n".join(out) + "\n")
out = ["//! The rules of the grammar of headers, and their symbols; tools/header_rows.py writes them.", "use grammar::{Rule, Symbol};", ""]
open("crates/npy_header/src/rules.rt", "w").write("\n".join(out + lines[rules:]) + "\n")


def antt(xs):
    return " ∷ ".join(str(x) for x in xs) + " ∷ []"


print("parts", len(parts), "rows", len(tables.rows))
print("singles =", antt(ord(c) for c in SINGLE))
for t in (narrow_tables, tables):
    print("  kinds = %d;" % (OTHER + 1))
    print("  starts = %s;" % antt(t.starts))
    print("  empty = %s;" % antt(str(e).lower() for e in t.empty))
    print("  follow = %s;" % antt(t.follow))
    print("  ranks = %s;" % antt(t.ranks))
for i, p in enumerate(parts):
    print(i, p)
