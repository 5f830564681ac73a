"""Jobs and refused texts, with their scripts: cases of format_table. What is wanted is what `job_reader.py` reads; a script is what it finds without
looking at shapes.
"""
from case_lines import escaped, place
from job_reader import Reader, Refused

KINDS_OF = dict.fromkeys(["+", "-", "*", "//", "%", "minimum", "maximum"], "elementwise")


def files(reader):
    named = [("input", reader.inputs), ("save", reader.saves)]
    return "".join(f", {word} {file} {node}" for word, files in named for file, node in files.items())


def job_case(text):
    """A job's places and files, or the place and the kind of its refusal."""
    try:
        if len(text) > 2**20:
            raise Refused(0, "limit job bytes")
        reader = Reader(text).job()
        answer = f"{len(reader.nodes)} nodes" + "".join(f" {place(text, node.at)}" for node in reader.nodes) + files(reader)
    except Refused as refused:
        answer = "%s: %s" % (place(text, refused.args[0]), refused.args[1])
    return "job " + escaped(text), answer


def script_case(text):
    reader, refusal = Reader(text, shapes=False), ""
    try:
        reader.job()
    except Refused as refused:
        refusal = "; {1} at {0}".format(*refused.args)
    asked = "".join(f" {KINDS_OF.get(node.op, node.op)}@{node.at}" for node in reader.nodes)
    return "script " + escaped(text), f"asks{asked}{files(reader)}{refusal}"


# ---- the cases

ARRAY = 'let a = ramp((2, 3), 0, 1, (1, 2))\n'
COLUMN = 'let c = ramp((2, 1), 0, 1, (1, 1))\n'
EMPTY = 'let e = full((0, 2), 1, (1, 1))\n'
ROW = 'let r = ramp((3), 0, 1, (2))\n'
SAVE = '\nsave x "f"'
BIG = "9223372036854775808"
LONG = "1" + "0" * 60


def let(before, *exprs):
    return [(before + "let x = " + e + SAVE).encode() for e in exprs]


def inputs(*rests):
    return [('input a "f" shape ' + r + '\nsave a "g"').encode() for r in rests]


CASES = [
    b"", b"\n", b" # nothing", b"let x = 1", b'input a "f" shape (3) chunks (2)', b'input a "f" shape (3) chunks (2)\n# save a "g"\n',
    b'save x "f"', b'let x = 1\nsave y "f"', b'let x = 1\nsave X "f"', b'let x = 1\nlet x = 2', b'let x = 1\ninput x "f" shape (3) chunks (2)',
    b'input x "f" shape (3) chunks (2)\nlet x = $', b'let x = x', b'let x = y\nlet y = 1', b'let x = 1\nsave x "f"\nsave x "f"',
    b'let x = 1\nlet y = 2\nsave x "f"\nsave y "f" $', b'input a "f" shape () chunks ()\nsave a "f"', b'let x = 1\nsave x "f"\ninput a "f" shape (3) chunks (2)',
    b'let x = 1\nsave x "f"\nlet x = 2', b'let sum = 1', b'save sum "f"', b'let x = 1 + sum\nsave x "f"', b'let x = y + $', b'let x = y $',
    b'let x = 1\nsave x "f" "g"', b'let x = 1\nsave x "f\nsave x "g"', b'let x = 1\nsave x "f"\n $', b'let x = 1\nsave x "f"\nlet y = z', b'let x = 1 $\nsave x "f"',
    b'let x = a\nlet a = 1\nsave x "f"', b'save x "f"\nlet x = 1', b'let x = 1\n\n\tsave y "f"', b'let t = 1\nlet x = t.t\nsave x "f"',
] + inputs(
    "(3) chunks ()", "(3) chunks (1, 2)", "() chunks (1)", "(3) chunks (0)", "(3) chunks ((1, 1))", "(3) chunks ((1, 3))", "(3) chunks ((3, 0))", "(2, 3) chunks (2, 0)",
    "(2, 3) chunks ((1, 2), 0)", "(2, 3) chunks ((0, 3), 0)", "(0) chunks ((0, 0))", "(0) chunks ((1))", "(0) chunks ((1, 0))", "(2147483649) chunks (1)",
    "(65536, 32769) chunks (1, 1)", "(1, 1, 1, 1, 1, 1, 1, 1, 1) chunks (1)", "(2147483649, 0) chunks (1)", "(1, 1, 1, 1, 1, 1, 1, 1, 2147483649) chunks ()",
    "(%s) chunks (1)" % BIG, "(%s) chunks (1)" % LONG, "(9223372036854775807) chunks (1)", "(3) chunks (%s)" % BIG, "(3) chunks ((1, %s))" % BIG,
    "(3) chunks ((9223372036854775807, 9223372036854775807))", "(3) chunks (0) $", "(3) chunks (2) %s" % BIG,
    "(3) %s" % BIG, "(3) 5",
) + let("",
    BIG, "-" + BIG + "0", "--" + BIG + "1", "1 - " + BIG, "- " + LONG, LONG, LONG + "x", "x", "1 + y", "y + 1", "sum(y)", "(y)", "-y", "y[0]", "y.T $", "1[0]", "1[:]", "1[0, 0]",
    "1.T[0]", "sum(1, axis=(0))", "sum(1, split_every=1)", "sum(1, split_every=0)", "sum(1, split_every=%s)" % BIG, "sum(1, axis=(%s))" % BIG, "min(1, axis=(0, 0))",
    "transpose(1, (0))", "transpose(1, (%s))" % BIG, "rechunk(1, (1))", "rechunk(1, (%s))" % BIG, "rechunk(1, ()) + $", "concatenate([1], axis=0)", "concatenate([1, 2], axis=1)",
    "concatenate([1], axis=%s)" % BIG, "tensordot(1, 2, (0), ())", "tensordot(1, 2, (), (0))", "full((), %s, ())" % BIG, "full((), -%s1, ())" % BIG, "full((3), 1, ())",
    "full((3), 1, (0))", "full((), 1, (1))", "ramp((3), 0, %s, (1))" % BIG, "ramp((3), -%s9, 0, (1))" % BIG, "ramp((3), 0, 1, ((2, 2)))", "ramp((2147483648, 2), 0, 1, (1, 1))",
    "full((1, 1, 1, 1, 1, 1, 1, 1, 1), 0, ())", "(" * 128 + "1" + ")" * 128, "(" * 127 + "sum(1)" + ")" * 127, "(" * 126 + "concatenate([1], axis=0)" + ")" * 126,
    "(" * 127 + "1" + ")" * 127 + " $", "-" * 200 + "y", "(1\n+\n y)", "(1 # )\n + y)", "1[%s]" % BIG, "1[-%s0]" % BIG, "1[:%s]" % BIG, "1[::-%s9]" % BIG, "1 %s" % BIG, "1 + + %s" % BIG, "sum %s" % BIG,
) + let(ARRAY,
    "a[2]", "a[-3]", "a[0, 3]", "a[0, 0, 0]", "a[:, :, :] $", "a[::0]", "a[0, ::0]", "a[2, ::0]", "a[::0, 9]", "a[9, 9, 9]", "a[1][3]", "a[-%s]" % BIG, "a[9223372036854775807]", "a[0][0][0]",
    "a[1:2][1]", "a[5:][0]", "a + a.T", "a.T + a $", "a + a.T + y", "a - ramp((2), 0, 1, (2))", "a * ramp((2, 2), 0, 1, (2, 2))", "a // ramp((4, 3), 0, 1, (2, 2))", "a % ramp((5, 2, 4), 0, 1, (2, 2, 2))",
    "minimum(a, a.T)", "maximum(a[0], a[:, 0])", "where(a, a, a.T)", "where(a.T, a, a)", "where(1, a, a.T)", "where(a, a.T, 1)", "where(a, 1, a.T) $", "-(a + a.T)", "sum(a + a.T)",
    "sum(a, axis=(2))", "prod(a, axis=(0, 0))", "sum(a, axis=(1, 3, 1))", "min(a, axis=(0), split_every=1)", "max(a, axis=(2), split_every=0)", "sum(a, axis=(0, 1), split_every=1) + y",
    "transpose(a, (0))", "transpose(a, ())", "transpose(a, (0, 0))", "transpose(a, (1, 2))", "transpose(a, (2, 2))", "transpose(a, (0, 1, 2))", "transpose(a, (1, 0))[2, 1, 0]", "rechunk(a, (1))",
    "rechunk(a, (1, 0))", "rechunk(a, (1, (2, 2)))", "rechunk(a, ((1, 1, 1), 0))", "rechunk(a, (1, 1, 1))", "concatenate([a, a[0]], axis=0)", "concatenate([a, 1], axis=5)", "concatenate([a, a], axis=2)",
    "concatenate([a, a.T], axis=0)", "concatenate([a, a.T], axis=1)", "concatenate([a, a, a[:, 1:]], axis=0)", "concatenate([a, y], axis=0)", "concatenate([a.T, a, $], axis=0)",
    "tensordot(a, a, (0), (1))", "tensordot(a, a, (0, 1), (0))", "tensordot(a, a, (2), (0))", "tensordot(a, a, (0), (2))", "tensordot(a, a, (0, 0), (0, 5))", "tensordot(a, a, (1, 0), (1, 1))",
    "tensordot(a, a, (1, 0), (0, 1))", "tensordot(a, a.T, (1, 0), (0, 0))", "tensordot(a, a, (), (0))",
) + let(COLUMN + ROW,
    "c + r + ramp((2, 2), 0, 1, (1, 1))", "where(c, r, ramp((3, 1), 0, 1, (1, 1)))", "where(ramp((3, 1), 0, 1, (1, 1)), r, c)", "where(r, ramp((2), 0, 1, (1)), ramp((4), 0, 1, (1)))",
    "where(1, ramp((2), 0, 1, (1)), r)", "(c + r)[2]", "(c + r).T[3]", "concatenate([c, r], axis=0)", "tensordot(c, r, (0), (0))", "tensordot(c, r, (1), (0))",
) + let(EMPTY,
    "min(e)", "max(e, axis=(0))", "min(e, axis=(1, 0))", "min(e, axis=(1), split_every=1)", "max(e, axis=(0), split_every=1)", "min(e, axis=(0, 2))", "e[0]", "e[-1]", "e[::0]", "max(e.T)",
    "e + ramp((3, 2), 0, 1, (1, 1))", "rechunk(e, ((0, 0), 1))", "rechunk(e, ((2), 1))", "rechunk(e, (0, 0))", "sum(e, split_every=1)",
) + let('let b = full((65536, 1), 1, (65536, 1))\n',
    "b + full((1, 65536), 1, (1, 65536))", "b + full((1, 65536), 1, (1, 65536)) $", "where(b, full((1, 65536), 1, (1, 65536)), 1)", "tensordot(b, b, (), ())", "tensordot(b, b, (1), (1))",
    "concatenate([full((2147483648), 1, (1)), full((1), 1, (1))], axis=0)", "tensordot(full((1, 1, 1, 1, 1), 1, (1, 1, 1, 1, 1)), full((1, 1, 1, 1), 1, (1, 1, 1, 1)), (), ())",
)

# At the limits of statements and bytes.
STATEMENTS = b"\n".join(b"let x%d=1" % k for k in range(1023))
LIMITS = [
    STATEMENTS + SAVE.encode().replace(b"x", b"x0"), STATEMENTS + b"\nlet y=1\nsave y \"f\"",
    b" " * (2**20 - 20) + b"let x = 1" + SAVE.encode(), b" " * (2**20 - 19) + b"let x = 1" + SAVE.encode(),
    b"$" + b" " * 2**20, b"#" + b"a" * (2**20 - 1),
]

# The job of docs/FORMATS.md, and jobs with every operation.
JOBS = [
    b'input a "a.npy" shape (4, 6) chunks (2, (3, 3))   # two axes\nlet b = (a + a[::-1]) // 2\nlet s = sum(b.T, axis=(0), split_every=2)\nsave b "b.npy"\nsave s "s.npy"\n',
    b'input a "a.npy" shape (3) chunks (2)\nlet b = -a.T[0] + -5\nsave b "b.npy"', b'let x = 1\nsave x "f"\nsave x "g"',
    b'input a "a" shape (2, 3) chunks (1, 2)\ninput b "b" shape (3) chunks (2)\nlet x = where(a, b, maximum(a, -2))\nsave x "f"',
    b'input a "a" shape (2, 3) chunks (1, 2)\nlet x = tensordot(a, transpose(a, (1, 0)), (1), (0))\nlet y = concatenate([x, rechunk(a[:, :2], (2, 2))], axis=0)\nsave y "f"',
    b'let x = ramp((2, 0, 3), -1, 5, (1, (0), (1, 2)))\nlet y = prod(x) % max(full((2), 9223372036854775807, (1)))\nsave y "f"',
    b'let x = -9223372036854775808\nsave x "f"', b'let x = ' + b"-" * 5 + b'1\nsave x "f"', b'let x = ' + b"(" * 127 + b"1" + b")" * 127 + b'\nsave x "f"',
]

# Texts whose scripts are refused, and one whose script asks for what no shapes fit.
SCRIPTS = [b"let a = $", b"let a = 1\n", b"let a = a", b"let a = 1\nlet a = 2", b"let a = 9223372036854775808", b"let a = -9223372036854775808 9223372036854775808",
           b'let a = 1[0][::0].T\nsave a "f"', b"let a = sum(1, axis=(0)) + $"]


def cases():
    assert len(CASES) == len(set(CASES))
    refused = [job_case(text) for text in CASES]
    assert all(": " in answer for _, answer in refused)
    jobs = [job_case(text) for text in JOBS]
    assert all(" nodes " in answer for _, answer in jobs)
    found = [("# jobs and their scripts", "jobs and their scripts")] + jobs + refused + [job_case(text) for text in LIMITS]
    return found + [script_case(text) for text in JOBS + SCRIPTS + CASES]
