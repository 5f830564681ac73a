"""What most likely lies behind the refusal of a job's text, by the place and the kind that the program names."""
import difflib
import re

TOKENS = (  # what the text goes on with where no token begins
    ('/', '`//` divides, rounded down; there are no fractions'),
    ('>|<|!', 'there are no comparisons: `a > 3` is written `where(maximum(a, 3) - 3, 1, 0)`; docs/FROM_NUMPY.md has them all'),
    ('[&|^~]', 'there are no bits: of conditions of 0 and 1 `p * q` is and, `maximum(p, q)` is or, `1 - p` is not'),
    ('@', '`a @ b` is written `tensordot(a, b, (1), (0))`'),
    (r'\.[0-9]', 'there are no fractions: scale, as `a * 3 // 2`'),
    (r'\.\.\.', 'there is no `...`: write a `:` for each axis'),
    (r'\.', 'the one method is `.T`: `a.sum()` is written `sum(a)`'),
    ("'", 'names of files stand between double quotes'),
    ('"', 'the name of a file has 1 to 255 characters of ASCII between double quotes, without a backslash'),
    ('', 'no token of the language begins so; docs/FORMATS.md has them all'),
)
GRAMMAR = (  # what stands before the place, and from there on
    (r'axis\s*=\s*', r'-?[0-9]', '`axis=0` is written `axis=(0)`'),
    (r'axis\s*=\s*\([^()]*', '-', 'axes count from 0: of two axes `axis=(-1)` is `axis=(1)`'),
    (r'\*', r'\*', 'there is no `**`: write `a * a`'),
    ('', '==', 'there are no comparisons: `a == b` is written `where(a - b, 0, 1)`'),
    (r'\bshape\s*', '[0-9]', 'lengths stand in parentheses: `shape (6)`'),
    (r'\bchunks\s*', '[0-9]', 'chunks stand in parentheses: `chunks (3)`'),
    (r'\b(input|let|save)\s+', r'[A-Za-z_]', '{word} is a word of the language: take another name'),
    (r'^\s*', r'[A-Za-z_]\w*\s*=(?!=)', 'a statement begins with `input`, `let` or `save`: `let b = a + 1`'),
    (r'\b(sum|prod|min|max)\s+', '', 'a function has its array in parentheses: `sum(a)`'),
    (r',\s*', r'(keepdims|dtype|out)\b', 'a sum takes `axis=(..)` and `split_every=` alone; docs/FROM_NUMPY.md has what to write for keepdims'),
    (r',\s*', r'[0-9(]', 'axes are written with their name: `sum(a, axis=(0))`'),
    (r'', r'[0-9A-Za-z_("\[]', 'an operator or the end of the statement is wanted before this'),
    ('', '', 'a statement does not go on so; docs/FORMATS.md has the grammar'),
)
SHAPES = (
    (r'axis \d+: \d+ and \d+', 'two lengths have to be equal, or one of them 1; shapes of other lengths are aligned at their last axis'),
    (r'bad axis', 'the axis is not there, is listed twice, or a list has too many or too few'),
    (r'\d+ parts', 'there are more parts than axes'),
    (r'index', 'indexes go from minus the length to the length less 1; ranges may go beyond'),
    (r'step 0', 'a step is not 0'),
    (r'empty axis', 'of no elements there is no least and no largest one'),
    (r'split_every', 'at least 2 partial results are joined'),
    (r'\d+ given', 'chunks have one entry an axis, in one pair of parentheses: `(2, 3)`'),
    (r'axis \d+: zero', 'a chunk has at least one element'),
    (r'axis \d+: sum', 'sizes that are listed have to add up to the length; a single number need not divide it'),
)


def of_refusal(line, text):
    """Of the line that the program printed."""
    found = re.fullmatch(r'dask: job (\d+):(\d+): (.*)', line)
    if not found:
        return None
    row, column, kind = int(found[1]), int(found[2]), found[3]
    lines = text.split('\n') + ['']
    before, here = lines[row - 1][:column - 1], lines[row - 1][column - 1:]
    if kind == 'token':
        return next(what for begins, what in TOKENS if re.match(begins, here))
    if kind == 'grammar':
        return at_end(text) if not here.strip() and row >= len(lines) - 2 else of_grammar(before, here)
    if kind in ('unknown name', 'repeated name'):
        return of_name(kind, here, '\n'.join(lines[:row - 1] + [before]))
    return next((what for begins, what in SHAPES if re.match(begins, kind.partition(': ')[2])), None)


def at_end(text):
    """At the end of the text."""
    plain = re.sub(r'#.*|"[^"]*"', '', text)
    if sum(map(plain.count, '([')) > sum(map(plain.count, ')]')):
        return 'a parenthesis or a bracket is not closed'
    if not re.search(r'^\s*save\b', plain, re.M):
        return 'a job saves at least one array: `save b "b.npy"`'
    return 'the last statement is not complete'


def of_grammar(before, here):
    word = re.match(r'\w*', here)[0]
    for ends, begins, what in GRAMMAR:
        if re.search(f'(?:{ends})$', before) and re.match(begins, here):
            return what.format(word=word)
    return None


def of_name(kind, here, before):
    """A name, or a file, that is not known or not new."""
    if kind == 'repeated name' and re.match(r'\w+\s*\[', here):
        return 'nothing is changed in place: write a new array by `let`'
    if kind == 'repeated name':
        return ('a file is saved once, and no saved file is an input: save under another name' if here.startswith('"')
                else 'a name is given once: take another one')
    word = re.match(r'\w*', here)[0]
    if re.match(r'\w+\s*\(', here):
        return f'there is no function {word}; docs/FROM_NUMPY.md says what to write'
    names = re.findall(r'^\s*(?:input|let)\s+([A-Za-z_]\w*)', before, re.M)
    near = difflib.get_close_matches(word, names, 1, 0.5) or [name for name in names if name.lower() == word.lower()]
    return f'there is no {word} before this' + (f'; there is {near[0]}' if near else ', by an `input` or a `let`')
