"""Texts of jobs, whole and refused, with their tokens and steps: cases of format_table. What is wanted is what `job_reader.py` reads."""
from case_lines import escaped, place
from job_reader import KINDS, WORDS, Tokens, actions


def let(*exprs):
    return [b"let x = " + e.encode() for e in exprs]


CASES = [
    b"$", b" \t$", b"# all\n$", b"\n\n  ?", b"let", b"let ", b"let\n", b"let 5", b"let let", b"let x", b"let x\n= 1", b"let x 1", b"let x =",
    b"let x = ", b"let x =\n1", b"let x = # 1", b"let x == 1", b"let x = 1 let y = 2", b"let x = 1;", b"let x = 1 # y\nlet",
    b"input", b"input a", b"input 'a' \"f\"", b"input a b", b"input a \"f\"", b"input a \"f\" chunks", b"input a \"f\" shape", b"input a \"f\" shape 3",
    b"input a \"f\" shape (", b"input a \"f\" shape (3", b"input a \"f\" shape (3,", b"input a \"f\" shape (3,,)", b"input a \"f\" shape (,)",
    b"input a \"f\" shape (3) 4", b"input a \"f\" shape (3)\nchunks (2)", b"input a \"f\" shape (3) chunks", b"input a \"f\" shape (3) chunks (()",
    b"input a \"f\" shape (3) chunks (())", b"input a \"f\" shape (3) chunks ((1, 2)", b"input a \"f\" shape (3) chunks ((1,,2))",
    b"input a \"f\" shape (3) chunks ((1 2))", b"input a \"f\" shape (3) chunks (2) 3", b"input a \"f\" shape (-3) chunks (2)",
    b"input a \"f\" shape ((3)) chunks (2)", b"input a \"\" shape (3) chunks (2)", b"input a \"f shape (3) chunks (2)",
    b"input a \"f\ng\" shape (3) chunks (2)", b"input a \"f\\\" shape (3) chunks (2)", b"input a \"\x7f\" shape (3) chunks (2)",
    b"input a \"\xc3\xa9\" shape (3) chunks (2)", b"input a \"" + b"f" * 256 + b"\" shape (3) chunks (2)", b"input shape \"f\" shape (3) chunks (2)",
    b"input a \"f\" shape (3) chunks (2) save a \"g\"", b"input a \"f\"\n shape (3) chunks (2)", b"inputs a \"f\"", b"Input a \"f\"",
    b"save", b"save x", b"save \"f\"", b"save x \"f\" 1", b"save x y", b"save 5 \"f\"", b"save sum \"f\"", b"save x \"f\" \"g\"", b"save x \"\"",
    b"save x \"f", b"save\nx \"f\"", b"x = 1", b"5", b"(", b")", b"]", b".T", b"-1", b"\"f\"", b"axis", b"let x = 1\n)", b"let x = 1\n\n  y",
    b"let x = (1\n\n", b"let x = (1\n+\n2\n", b"let x = (1 # )\n", b"let x = [1]", b"let x = (1]", b"let x = (1))", b"let x = ()",
] + let(
    "+", "+1", "1 +", "1 + + 2", "1 + - ", "1 - - $", "- -", "* 2", "1 * ", "1 ** 2", "1 // ", "1 / 2", "1 /", "1 % % 2", "1 2", "1 y", "5a", "5.", "5.0",
    "5.T.", "a.Tx", "a.t", "a. T", "a..T", ".T", "a.T T", "a[", "a[]", "a[,]", "a[1", "a[1,", "a[1,]", "a[1 2]", "a[:::]", "a[1:2:3:4]", "a[::", "a[-]",
    "a[--1]", "a[-:]", "a[b]", "a[1:b]", "a[(1)]", "a[1.T]", "a[:-]", "a[1;2]", "a[1)", "a[1:2", "a(1)", "sum", "sum a", "sum()", "sum(a", "sum(a,", "sum(a,)",
    "sum(a, 1)", "sum(a, axis)", "sum(a, axis=0)", "sum(a, axis=(0)", "sum(a, axis=(0),)", "sum(a, axis=(0), axis=(1))", "sum(a, axis=(-1))",
    "sum(a, split_every=2, axis=(0))", "sum(a, split_every=-2)", "sum(a, split_every=)", "sum(a, axis (0))", "sum(a axis=(0))", "sum(a)(b)", "sum[a]", "min(a, b)",
    "prod(a;)", "max(,a)", "minimum(a)", "minimum(a,)", "minimum(a, b, c)", "minimum(a b)", "maximum(a, )", "maximum", "where(a, b)", "where(a, b, c, d)",
    "where(a, b,)", "where(a b c)", "where", "transpose(a)", "transpose(a, 0)", "transpose(a, (0) 1)", "transpose((0), a)", "transpose(a, (b))", "rechunk(a)",
    "rechunk(a, 2)", "rechunk(a, (b))", "rechunk(a, (2), )", "rechunk(a, ((2), ())", "concatenate(a)", "concatenate([])", "concatenate([a]", "concatenate([a])",
    "concatenate([a,], axis=0)", "concatenate([a], 0)", "concatenate([a], axis=(0))", "concatenate([a] axis=0)", "concatenate((a), axis=0)",
    "concatenate([a], axis=-1)", "concatenate([a b], axis=0)", "tensordot(a, b)", "tensordot(a, b, (0))", "tensordot(a, b, (0), 0)", "tensordot(a, b, (0), (0), (0))",
    "tensordot(a, (0), (0))", "full", "full()", "full((3))", "full((3), a, (1))", "full((3), 1)", "full((3), 1, 1)", "full((3), (1), (1))", "full((3), --1, (1))",
    "full(3, 1, (1))", "full((3), 1, (1)", "full((3), 1 + 1, (1))", "ramp((3), 0, (1))", "ramp((3), 0, 1)", "ramp((3), 0, 1, 2)", "ramp((3), 0, 1, (1), 2)", "ramp(a, 0, 1, (1))",
    "shape", "axis", "a = 1", "a b", "input", "a\n+ b", "a +\nb", "(a +\nb) c", "a $", "a + b $", "(a + b $)", "a # $\n$", "a \x00", "a @ b", "a & b", "a < b", "a ^ b", "~a", "!a", "a, b",
    "a:", "'a'", "a\\", "a`", "{a}", "a;b", "a?", "1_000", "0x10", "1e5", "\"f\"", "a \"f\"", "a \"f",
)


# Texts that are read to their end.
JOBS = [
    b"", b"\n# nothing\n", b"\n\n", b"save a \"f\"", b"input a \"a.npy\" shape (3) chunks (2)\nlet b = a + 1\nsave b \"out.npy\"\n",
    b"input a \"a.npy\" shape (4, 6,) chunks (2, (3, 3,),)\r\n\r\nsave a \"b\"",
    b"let a = ramp((\n4096,\n4096), 0, 1, (512, 512)) # rows\nlet s = sum(a + a.T, axis=(0))",
    b"let x = -2.T + --3 * -(y)[::-1, 1:, :-2, -1, 1:2:3] // 9223372036854775808 % 0",
    b"let x = where(min(a), max(b, axis=()), prod(c, axis=(0, 1), split_every=2))",
    b"let x = concatenate([a, full((), -5, ())], axis=0)[0].T.T",
    b"let x = tensordot(transpose(a, (1, 0)), rechunk(b, ((1, 2), 3)), (0), (1))",
    b"let x = minimum(maximum(a, b), ramp((2, 3), -1, - 2, (1, (2, 1))))", b"save x \"#\" # \"", b"let b = a + -2 * c.T",
    b"let b = a - (b - c) - d", b"let b = sum(a, split_every=3)", b"let b = -a[0][1].T",
]

# Texts with every kind of token and blank, and bytes at which none begins.
TOKENS = [
    b"input a \"a.npy\" shape (3,\n4) # rows\nlet _b2 = -a.T//2", b" ".join(w.encode() for w in WORDS),
    b"inputs le Let sum_ _sum rampe split every", b"  $", b".", b".t", b"/ /", b"\"\"", b" \"a", b"\"a\nb\"", b"\"a\\b\"", b"\x00", b"\xff",
    b"5a", b".Tx", b"\"# b\" #", b"00012]", b"(a \t\r# x\xff\n b", b"a \t\r# x\xff\n b", b"a # the end", b"(\n", b"\n", b"",
    b"\"" + b"f" * 255 + b"\"", b"\"" + b"f" * 256 + b"\"", b")\n[(\n])\n)\n", b"= + - * // % ( ) , [ ] : .T", b"=+-*//%,[]:.T", b"a\x0bb",
]

NUMBERS = ["0", "7", "9223372036854775807", "9223372036854775808", "18446744073709551615", "18446744073709551616", "9" * 44,
           "0" * 42 + "7", "18446744073709551620", "184467440737095516150"]

PLACES = [(b"let a = 1\n\nsave", at) for at in (0, 8, 9, 10, 11, 12, 15)] + [(b"", 0), (b"\n", 1), (b"a\xff\t\nb", 3), (b"ab", 3)]


def token_case(text):
    """All tokens up to the end or the first byte at which none begins."""
    t = Tokens(text)
    while t.kind not in ("END", "BAD"):
        t.take(t.kind)
    answer = "tokens"
    for kind, start, end in t.taken:
        answer += " %d%s@%d-%d" % (KINDS.index(kind), kind if kind in WORDS else "", start, end)
    return "tokens " + escaped(text), "%s %s@%d" % (answer, "end" if t.kind == "END" else "refused", t.start)


def step_case(text):
    t, refused = actions(text)
    ending = "whole"
    if refused:
        cause = "no token" if refused == "token" else "unfinished" if t.kind == "END" else "unexpected"
        ending = "%s: %s" % (place(text, t.start), cause)
    return "steps " + escaped(text), ending + "".join(" %d@%d" % step[:2] for step in t.steps)


def kind_case(text):
    """What is done at each token. Only where nothing but the last token of all is refused."""
    t, refused = actions(text)
    last = Tokens(text[t.at :]) if refused else t
    answer = "kinds"
    done = ["".join(" %d" % action for action, _, count in t.steps if count == k) for k in range(len(t.taken) + 1)]
    for k in range(len(t.taken)):
        answer += done[k] + " taken"
    if refused and t.kind == "BAD":
        answer += done[-1] + " finished"
    elif refused and t.kind != "END":
        answer += done[-1] + " refused"
    whole = actions(text[: t.at])[1] is None
    return "kinds " + escaped(text), answer + done[-1] + (" taken" if whole else " refused")


def ends_there(text):
    """Whether the text has no token behind the one that is refused."""
    t, _ = actions(text)
    if t.kind in ("END", "BAD"):
        return True
    t.take(t.kind)
    return t.kind == "END"


# A token is refused and the next ones are tried again; then no token begins. Worked out by hand.
TRIED_AGAIN = ("kinds let b = a + c \"f\" * $", "kinds taken 0 taken 1 taken taken 19 taken 14 taken 19 15 4 refused 19 taken 14 finished 14 refused")


def place_case(text, at):
    return "place %d %s" % (at, escaped(text)), place(text, at) if at <= len(text) else "no place"


def cases():
    assert len(CASES) == len(set(CASES))
    assert all(actions(text)[1] for text in CASES) and not any(actions(text)[1] for text in JOBS)
    found = [("# tokens and steps of jobs", "tokens and steps of jobs")]
    found += [("number " + digits, "%d" % min(int(digits), 2**64 - 1)) for digits in NUMBERS]
    found += [place_case(text, at) for text, at in PLACES]
    found += [token_case(text) for text in TOKENS + JOBS]
    found += [step_case(text) for text in JOBS + CASES + [b"let b = a + c $"]]
    found += [kind_case(text) for text in JOBS + CASES if ends_there(text)]
    return found + [TRIED_AGAIN]
