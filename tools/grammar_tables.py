"""What the two writers of grammar rows share: the tables that the tests of the crate grammar want, and the rows as Rust."""


class Tables:
    """The tables of `count` parts. `on` has the symbols by part and kind of token, `other` those by part alone.

    A symbol is ("Token", kind), ("Part", part) or ("Action", action).
    """

    def __init__(self, count, on, other):
        self.rows = [(p, k, s) for (p, k), s in on.items()] + [(p, None, s) for p, s in other.items()]
        self.starts, self.empty, self.follow = [0] * count, [False] * count, [0] * count
        changed = True
        while changed:
            before = list(self.starts), list(self.empty), list(self.follow)
            self.grow()
            changed = before != (self.starts, self.empty, self.follow)
        self.ranks = [None] * count
        while None in self.ranks:
            self.rank()

    def begin(self, symbols):
        """The kinds of token that the symbols can begin with, a bit each."""
        mask = 0
        for what, x in symbols:
            if what == "Token":
                return mask | 1 << x
            if what == "Part":
                mask |= self.starts[x]
                if not self.empty[x]:
                    return mask
        return mask

    def may_be_empty(self, symbols):
        return all(what == "Action" or (what == "Part" and self.empty[x]) for what, x in symbols)

    def grow(self):
        for p, k, s in self.rows:
            self.starts[p] |= self.begin(s) if k is None else 1 << k
            self.empty[p] |= k is None and self.may_be_empty(s)
            for i, (what, x) in enumerate(s):
                if what == "Part":
                    rest = s[i + 1 :]
                    self.follow[x] |= self.begin(rest) | (self.follow[p] if self.may_be_empty(rest) else 0)

    def rank(self):
        for p, _, s in self.rows:
            below = [self.ranks[x] for what, x in s if what == "Part"]
            if None not in below:
                rank = max(below, default=-1) + 1
                if self.ranks[p] is None or rank < self.ranks[p]:
                    self.ranks[p] = rank


def numbered(rows):
    """The symbols one rule behind the other, each from its last to its first, the bounds of each rule, and its number by its text."""
    symbols, rules, number = [], [], {}
    for _, _, s in rows:
        if str(s) not in number:
            number[str(s)] = len(rules)
            rules.append((len(symbols), len(symbols) + len(s)))
            symbols += reversed(s)
    return symbols, rules, number


def as_rust(names, kinds, on, other, rows, moves):
    """The lines of the statics ON, OTHER, MOVES, RULES and SYMBOLS, for parts of these names and as many kinds of token."""
    count = len(names)
    symbols, rules, number = numbered(rows)
    out = ["pub(crate) static ON: [Row; %d] = [" % count]
    for p in range(count):
        out.append("    // %d: %s" % (p, names[p]))
        entries = ["%d" % number[str(on[p, k])] if (p, k) in on else "-" for k in range(kinds)]
        out.append("    rules_on!(%s)," % " ".join(entries))
    out += ["];", "", "pub(crate) static OTHER: [Option<u16>; %d] = [" % count]
    out += ["    %s," % ("Some(%d)" % number[str(other[p])] if p in other else "None") for p in range(count)]
    out += ["];", "", "pub(crate) static MOVES: [u16; %d] = [" % count, "    " + " ".join("%d," % m for m in moves), "];", ""]
    out += ["pub(crate) static RULES: [Rule; %d] = [" % len(rules)]
    out += ["    Rule { start: %d, end: %d }," % r for r in rules] + ["];", ""]
    out += ["/// Each rule from its last symbol to its first.", "pub(crate) static SYMBOLS: [Symbol; %d] = [" % len(symbols)]
    out += ["    Symbol::%s(%d)," % s for s in symbols] + ["];"]
    return out
