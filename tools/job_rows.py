"""Writes the table of the grammar of jobs: crates/job_grammar/src/rows.rt, and specs/JobGrammar.antt and specs/JobRows.antt.

Run it at the top of the repository: python3 tools/job_rows.py
The grammar stands below as docs/FORMATS.md shows it, with the actions (`@Name`) that go with it. Below it stand, for each part
of the table, what the part stands for and its rules, in which the next token decides. The rows are proved to derive exactly what
the grammar derives, so nothing here is trusted.
"""

import re

from grammar_tables import Tables, as_rust

KIND_COUNT = 48
KINDS = (
    "Newline Name File Number Equals Plus Minus Times FloorDivide Remainder OpenParenthesis CloseParenthesis Comma OpenBracket "
    "CloseBracket Colon Transposed Input Shape Chunks Let Save Sum Prod Min Max Axis SplitEvery Minimum Maximum Where Transpose "
    "Rechunk Concatenate Tensordot Full Ramp"
).split()
SIGNS = dict(zip("= + - * // % ( ) , [ ] : .T".split(), KINDS[4:17]))
SIGNS.update({k.lower(): k for k in KINDS[17:]}, split_every="SplitEvery", NEWLINE="Newline", NAME="Name", FILE="File", NUMBER="Number")
ACTIONS = (
    "Begin Declare InputFile AddInput Define SavedName SaveFile OpenDims Dim OpenChunks Even OpenSizes Size Sizes Mark Combine "
    "Negate Literal NegativeLiteral Refer Enter Leave OpenParts AddSlice ReverseAxes OpenPart Positive Negative Index Bound Range "
    "PlainFold FoldAxes FoldSplit Reduce Choose AddTranspose AddRechunk OpenList ListAxis AddConcatenate LeftAxes AddTensordot "
    "Value Step AddFull AddRamp"
).split()

GRAMMAR = """
job = [statement] {NEWLINE [statement]}
statement = 'input' @Begin NAME @Declare FILE @InputFile 'shape' dims 'chunks' chunks @AddInput | 'let' @Begin NAME @Declare '=' expr @Define | 'save' @Begin NAME @SavedName FILE @SaveFile
dims = '(' @OpenDims [NUMBER @Dim {',' NUMBER @Dim} [',']] ')'
chunks = '(' @OpenChunks [item {',' item} [',']] ')'
item = NUMBER @Even | '(' @OpenSizes NUMBER @Size {',' NUMBER @Size} [','] ')' @Sizes
expr = product {('+' | '-') @Mark product @Combine}
product = unary {('*' | '//' | '%') @Mark unary @Combine}
unary = '-' @Mark opposite | postfix
opposite = NUMBER @NegativeLiteral {suffix} | '-' @Mark opposite @Negate | operand {suffix} @Negate
postfix = primary {suffix}
suffix = '[' @OpenParts piece {',' piece} ']' @AddSlice | '.T' @ReverseAxes
piece = @OpenPart (int @Index | [int] ':' @Bound [int] [':' @Bound [int]] @Range)
int = NUMBER @Positive | '-' NUMBER @Negative
primary = NUMBER @Literal | operand
operand = NAME @Refer | '(' @Enter expr ')' @Leave | call
call = ('sum' | 'prod' | 'min' | 'max') @Mark '(' @Enter expr @PlainFold [',' 'axis' '=' dims @FoldAxes] [',' 'split_every' '=' NUMBER @FoldSplit] ')' @Leave @Reduce | ('minimum' | 'maximum') @Mark '(' @Enter expr ',' expr ')' @Leave @Combine | 'where' @Mark '(' @Enter expr ',' expr ',' expr ')' @Leave @Choose | 'transpose' @Mark '(' @Enter expr ',' dims ')' @Leave @AddTranspose | 'rechunk' @Mark '(' @Enter expr ',' chunks ')' @Leave @AddRechunk | 'concatenate' @Mark '(' @Enter '[' @Enter @OpenList expr {',' expr} ']' @Leave ',' 'axis' '=' NUMBER @ListAxis ')' @Leave @AddConcatenate | 'tensordot' @Mark '(' @Enter expr ',' expr ',' dims @LeftAxes ',' dims ')' @Leave @AddTensordot | 'full' @Mark '(' @Enter dims ',' int @Value ',' chunks ')' @Leave @AddFull | 'ramp' @Mark '(' @Enter dims ',' int @Value ',' int @Step ',' chunks ')' @Leave @AddRamp
"""

# part: what it stands for: the rules by the next token, and behind `else` the other rule. In a rule, a name is a part of this table.
ROWS = """
job: job: else opt_statement statements
opt_statement: [statement]: 'input' @Begin NAME @Declare FILE @InputFile 'shape' dims 'chunks' chunks @AddInput; 'let' @Begin NAME @Declare '=' expr @Define; 'save' @Begin NAME @SavedName FILE @SaveFile; else
statements: {NEWLINE [statement]}: NEWLINE opt_statement statements; else
dims: dims: '(' @OpenDims open_dims
open_dims: [NUMBER @Dim {',' NUMBER @Dim} [',']] ')': NUMBER @Dim more_dims; ')'
more_dims: {',' NUMBER @Dim} [','] ')': ',' open_dims; ')'
chunks: chunks: '(' @OpenChunks open_chunks
open_chunks: [item {',' item} [',']] ')': NUMBER @Even more_chunks; '(' @OpenSizes NUMBER @Size more_sizes @Sizes more_chunks; ')'
more_chunks: {',' item} [','] ')': ',' open_chunks; ')'
open_sizes: [NUMBER @Size {',' NUMBER @Size} [',']] ')': NUMBER @Size more_sizes; ')'
more_sizes: {',' NUMBER @Size} [','] ')': ',' open_sizes; ')'
expr: expr: else product sums
sums: {('+' | '-') @Mark product @Combine}: '+' @Mark product @Combine sums; '-' @Mark product @Combine sums; else
product: product: else unary products
products: {('*' | '//' | '%') @Mark unary @Combine}: '*' @Mark unary @Combine products; '//' @Mark unary @Combine products; '%' @Mark unary @Combine products; else
unary: unary: '-' @Mark opposite; else postfix
opposite: opposite: NUMBER @NegativeLiteral suffixes; '-' @Mark opposite @Negate; else operand suffixes @Negate
postfix: postfix: else primary suffixes
suffixes: {suffix}: '[' @OpenParts piece pieces ']' @AddSlice suffixes; '.T' @ReverseAxes suffixes; else
piece: piece: else @OpenPart first_of_piece
pieces: {',' piece}: ',' piece pieces; else
first_of_piece: (int @Index | [int] ':' @Bound [int] [':' @Bound [int]] @Range): NUMBER @Positive behind_first_int; '-' negative_first; ':' @Bound behind_colon
negative_first: (NUMBER @Negative @Index | NUMBER @Negative ':' @Bound [int] [':' @Bound [int]] @Range): NUMBER @Negative behind_first_int
behind_first_int: (@Index | ':' @Bound [int] [':' @Bound [int]] @Range): ':' @Bound behind_colon; else @Index
behind_colon: [int] [':' @Bound [int]] @Range: NUMBER @Positive behind_second_int; '-' NUMBER @Negative behind_second_int; ':' @Bound last_int; else @Range
behind_second_int: [':' @Bound [int]] @Range: ':' @Bound last_int; else @Range
last_int: [int] @Range: NUMBER @Positive @Range; '-' NUMBER @Negative @Range; else @Range
int: int: NUMBER @Positive; '-' NUMBER @Negative
primary: primary: NUMBER @Literal; else operand
operand: operand: NAME @Refer; '(' @Enter expr ')' @Leave; 'sum' fold; 'prod' fold; 'min' fold; 'max' fold; 'minimum' pair; 'maximum' pair; 'where' @Mark '(' @Enter expr ',' expr ',' expr ')' @Leave @Choose; 'transpose' @Mark '(' @Enter expr ',' dims ')' @Leave @AddTranspose; 'rechunk' @Mark '(' @Enter expr ',' chunks ')' @Leave @AddRechunk; 'concatenate' @Mark '(' @Enter '[' @Enter @OpenList expr exprs ']' @Leave ',' 'axis' '=' NUMBER @ListAxis ')' @Leave @AddConcatenate; 'tensordot' @Mark '(' @Enter expr ',' expr ',' dims @LeftAxes ',' dims ')' @Leave @AddTensordot; 'full' @Mark '(' @Enter dims ',' int @Value ',' chunks ')' @Leave @AddFull; 'ramp' @Mark '(' @Enter dims ',' int @Value ',' int @Step ',' chunks ')' @Leave @AddRamp
fold: @Mark '(' @Enter expr @PlainFold [',' 'axis' '=' dims @FoldAxes] [',' 'split_every' '=' NUMBER @FoldSplit] ')' @Leave @Reduce: else @Mark '(' @Enter expr @PlainFold fold_options @Leave @Reduce
pair: @Mark '(' @Enter expr ',' expr ')' @Leave @Combine: else @Mark '(' @Enter expr ',' expr ')' @Leave @Combine
fold_options: [',' 'axis' '=' dims @FoldAxes] [',' 'split_every' '=' NUMBER @FoldSplit] ')': ',' fold_option; ')'
fold_option: ('axis' '=' dims @FoldAxes [',' 'split_every' '=' NUMBER @FoldSplit] | 'split_every' '=' NUMBER @FoldSplit) ')': 'axis' '=' dims @FoldAxes last_option; 'split_every' '=' NUMBER @FoldSplit ')'
last_option: [',' 'split_every' '=' NUMBER @FoldSplit] ')': ',' 'split_every' '=' NUMBER @FoldSplit ')'; ')'
exprs: {',' expr}: ',' expr exprs; else
"""

WORD = re.compile(r"'[^']*'|@?\w+|[][{}()|]")


# ---- phrases: ("token", kind), ("action", name), ("part", name), ("seq", [..]), ("either", [..]), ("many", x)


def parse(text):
    words = WORD.findall(text)
    at = 0

    def choice():
        nonlocal at
        items = [sequence()]
        while at < len(words) and words[at] == "|":
            at += 1
            items.append(sequence())
        return items[0] if len(items) == 1 else ("either", items)

    def sequence():
        nonlocal at
        items = []
        while at < len(words) and words[at] not in "|)]}":
            items.append(item())
        return items[0] if len(items) == 1 else ("seq", items)

    def item():
        nonlocal at
        word = words[at]
        at += 1
        if word in "([{":
            inner = choice()
            at += 1
            return {"(": inner, "[": ("optional", inner), "{": ("many", inner)}[word]
        return leaf(word)

    whole = choice()
    assert at == len(words), text
    return whole


def leaf(word):
    if word[0] == "@":
        assert word[1:] in ACTIONS, word
        return ("action", word[1:])
    if word[0] == "'":
        return ("token", SIGNS[word[1:-1]])
    return ("token", SIGNS[word]) if word.isupper() else ("part", word)


rules = {}
for line in GRAMMAR.strip().split("\n"):
    name, text = line.split(" = ", 1)
    rules[name] = parse(text)
JOB_PARTS = list(rules)

row_names = [line.split(": ", 1)[0] for line in ROWS.strip().split("\n")]
stands_for, on, other = {}, {}, {}
for line in ROWS.strip().split("\n"):
    name, means, text = re.match(r"(\w+): (.*?): (?=else|'|[A-Z])((?:(?!: else).)*|else.*)$", line).groups()
    # the last ': ' that begins rules
    stands_for[name] = parse(means)
    for rule in text.split("; "):
        words = WORD.findall(rule)
        symbols = []
        for w in words[1:]:
            what, x = leaf(w)
            symbols.append((what, x))
            assert what != "part" or x in row_names, (name, x)
        if words[0] == "else":
            other[name] = symbols
        else:
            key = leaf(words[0])
            assert key[0] == "token" and (name, key[1]) not in on
            on[name, key[1]] = symbols


def listed(phrase):
    return phrase[1] if phrase[0] == "seq" else [phrase]


# ---- the test that the rows are the grammar, as the proof makes it


def heads(s):
    if not s:
        return [[]]
    x, rest = s[0], s[1:]
    if x[0] == "token":
        return [[x] + flat(rest)]
    if x[0] == "action":
        return [[x] + h for h in heads(rest)]
    if x[0] == "part":
        return heads([rules[x[1]]] + rest)
    if x[0] == "seq":
        return heads(x[1] + rest)
    if x[0] == "either":
        return [h for y in x[1] for h in heads([y] + rest)]
    if x[0] == "optional":
        return heads([x[1]] + rest) + heads(rest)
    return heads(rest) + heads([x[1], x] + rest)


def flat(s):
    return [y for x in s for y in (flat(x[1]) if x[0] == "seq" else [x])]


def phrases(symbols):
    return [y for what, x in symbols for y in (listed(stands_for[x]) if what == "part" else [(what, x)])]


def same(a, b):
    return all(x in b for x in a) and all(x in a for x in b)


for p in row_names:
    alternatives = heads(listed(stands_for[p]))
    taken = [k for (q, k) in on if q == p]
    for k in taken:
        tails = [a[1:] for a in alternatives if a and a[0] == ("token", k)]
        assert same([h for t in tails for h in heads(t)], heads(phrases(on[p, k]))), (p, k)
    rest = [a for a in alternatives if not a or a[0][0] != "token" or a[0][1] not in taken]
    assert same(rest, heads(phrases(other[p])) if p in other else []), (p, rest)

# ---- the tables of the tests of the crate grammar

n = len(row_names)
number_of = {name: i for i, name in enumerate(row_names)}


def coded(symbols):
    code = {"token": lambda x: ("Token", KINDS.index(x)), "part": lambda x: ("Part", number_of[x]), "action": lambda x: ("Action", ACTIONS.index(x))}
    return [code[what](x) for what, x in symbols]


on = {(number_of[p], KINDS.index(k)): coded(s) for (p, k), s in on.items()}
other = {number_of[p]: coded(s) for p, s in other.items()}
tables = Tables(n, on, other)

for p, k, s in tables.rows:
    if k is None:
        taken = sum(1 << j for (q, j) in on if q == p)
        assert taken & tables.begin(s) == 0, row_names[p]
        assert not tables.may_be_empty(s) or taken & tables.follow[p] == 0, row_names[p]


def cost(symbols):
    total = 0
    for what, x in symbols:
        if what == "Token":
            return total
        total += moves[x] if what == "Part" else 1
    return total


moves = [1] * n
changed = True
while changed:
    changed = False
    for p, s in other.items():
        if cost(s) >= moves[p]:
            moves[p], changed = cost(s) + 1, True

# ---- what is written

out = ["// The table of the grammar of jobs, written by tools/job_rows.py.", "use grammar::{Row, Rule, Symbol, rules_on};", ""]
out += as_rust([name.replace("_", " ") for name in row_names], KIND_COUNT, on, other, tables.rows, moves)
open("crates/job_grammar/src/rows.rt", "w").write("\n".join(out) + "\n")


def antt(xs):
    return " ∷ ".join([str(x) for x in xs] + ["[]"])


def written(phrase, indent):
    """A phrase as antt, over several lines where it is long."""
    what, x = phrase
    if what == "token":
        return "sign %s" % x
    if what == "action":
        return "act %s" % x
    if what == "part":
        return "sub %s" % x
    word = {"seq": "seq", "either": "either", "optional": "optional", "many": "many"}[what]
    if what in ("optional", "many"):
        return "%s (%s)" % (word, written(x, indent))
    inner = [written(y, indent + 4) for y in x]
    if what == "either" and any(y[0] == "seq" for y in x):
        return "either (\n" + " " * (indent + 4) + ("\n" + " " * (indent + 4) + "∷ ").join(inner) + " ∷ [])"
    return "%s (%s)" % (word, antt(inner))


used = lambda names, text: [x for x in names if re.search(r"(sign|act) %s\b" % x, text)]
body = []
for name in JOB_PARTS:
    body += ["abbrev pub %s_rule : Phrase" % name, "%s_rule = %s" % (name, written(rules[name], 0)), ""]
text = "\n".join(body)
head = ["-- The grammar of jobs, with the actions that go with it, written by tools/job_rows.py in the form in which docs/FORMATS.md shows it."]
head += ["use Rattle.std.specs.Prelude.{ℕ, List, [], ◌∷◌, slice_index_or}"]
head += ["use Rattle.job_tokens.specs.declared.kind.Kind.TheVariants.{%s}" % ", ".join(k for k in KINDS if "sign %s" % k in text and re.search(r"sign %s\b" % k, text))]
head += ["use Rattle.job_grammar.specs.declared.action.Action.TheVariants.{%s}" % ", ".join(used(ACTIONS, text))]
head += ["use Rattle.job_grammar.specs.Phrases.{Phrase, named, nothing, many, seq, either, optional, sign, act}", ""]
head += ["-- ---- the parts, by number", ""]
for i, name in enumerate(JOB_PARTS):
    head += ["abbrev pub %s : ℕ" % name, "%s = %d" % (name, i), ""]
head += ["abbrev pub sub : ℕ → Phrase", "sub p = named p", "", "-- ---- what each part is", ""]
tail = ["unfoldable pub job_rules : List Phrase", "job_rules =", "    " + "\n    ∷ ".join("%s_rule" % x for x in JOB_PARTS) + " ∷ []", ""]
tail += ["abbrev pub rule_of : ℕ → Phrase", "rule_of p = slice_index_or job_rules p nothing"]
open("crates/job_grammar/specs/JobGrammar.antt", "w").write("\n".join(head + body + tail) + "\n")

body = ["-- What each part of the table stands for, in the order of their numbers.", "unfoldable pub meanings : List (List Phrase)", "meanings ="]
for i, name in enumerate(row_names):
    entry = "(%s)" % antt(written(y, 8) for y in listed(stands_for[name]))
    body.append("    %s-- %s\n    %s%s" % ("", name.replace("_", " "), "∷ " if i else "", entry))
body += ["    ∷ []", "", "abbrev pub meaning_of : ℕ → List Phrase", "meaning_of p = slice_index_or meanings p []"]
text = "\n".join(body)
head = ["-- The rows of the code, what their parts stand for, and the tables by which they pass the tests of the crate grammar, written by"]
head += ["-- tools/job_rows.py."]
head += ["use Rattle.std.specs.Prelude.{ℕ, true, false, List, [], ◌∷◌, slice_index_or}"]
head += ["use Rattle.grammar.specs.Tables.{Rows}", "use Rattle.grammar.specs.Tests.{Certificate}"]
head += ["use Rattle.job_tokens.specs.declared.kind.Kind.TheVariants.{%s}" % ", ".join(used(KINDS, text))]
head += ["use Rattle.job_grammar.specs.declared.rows.TheConstants.{ON, OTHER, MOVES, RULES, SYMBOLS}"]
head += ["use Rattle.job_grammar.specs.declared.action.Action.TheVariants.{%s}" % ", ".join(used(ACTIONS, text))]
head += ["use Rattle.job_grammar.specs.Phrases.{Phrase, many, seq, either, optional, sign, act}"]
head += ["use Rattle.job_grammar.specs.JobGrammar.{sub, %s}" % ", ".join(x for x in JOB_PARTS if re.search(r"sub %s\b" % x, text)), ""]
head += ["unfoldable pub job_rows : Rows", "job_rows = record { on = ON; other = OTHER; moves = MOVES; rules = RULES; symbols = SYMBOLS }", ""]
head += ["-- each kind is that of a token, and kind %d of no token" % len(KINDS)]
head += ["unfoldable pub certificate : Certificate", "certificate = record {", "  kinds = %d;" % (len(KINDS) + 1), "  starts = %s;" % antt(tables.starts)]
head += ["  empty = %s;" % antt(str(e).lower() for e in tables.empty), "  follow = %s;" % antt(tables.follow), "  ranks = %s;" % antt(tables.ranks), "}", ""]
open("crates/job_grammar/specs/JobRows.antt", "w").write("\n".join(head + body) + "\n")
print("parts", n, "rows", len(tables.rows), "moves", moves)
