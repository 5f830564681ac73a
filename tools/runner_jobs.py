"""The jobs that `runner_table` plays: their graphs, and what their keys are worth, by plain arithmetic."""

MODULUS = 1_000_003


def tops(keys, first):
    """A key over each four of these, over each four of those, and so on, down to one. The first of them has this number."""
    rows = []
    while len(keys) > 1:
        row = [list(keys[at : at + 4]) for at in range(0, len(keys), 4)]
        keys = range(first, first + len(row))
        first += len(row)
        rows += row
    return rows


class Job:
    """Leaves, a key over each, in a job with shared keys one over each four neighbours of these, and a tree of fours. The key `zero` meets a zero
    divisor. A key's work is so often the bytes that it reads and makes."""

    def __init__(self, kind, leaves, zero=None, times=1):
        one_each = [[leaf] for leaf in range(leaves)]
        end = 2 * leaves
        windows = [list(range(key, min(key + 4, end))) for key in range(leaves, end)] if kind == "shared" else []
        last = range(end, end + leaves) if kind == "shared" else range(leaves, end)
        trees = tops(last, end + len(windows))
        self.deps = [[] for _ in range(leaves)] + one_each + windows + trees
        works = [8] * leaves + [16] * (leaves + len(windows)) + [40] * len(trees)
        self.work = [times * work for work in works]
        self.nbytes = [8] * len(self.deps)
        self.keys = range(len(self.deps))
        self.last = len(self.deps) - 1
        self.zero = zero
        self.values = []
        for key in self.keys:
            self.values.append(self.made(key))

    def made(self, key):
        """What a key makes of the values of its dependencies: nothing where it meets a zero divisor, or where one has none."""
        inputs = [self.values[dep] for dep in self.deps[key]]
        if key == self.zero or None in inputs:
            return None
        if not inputs:
            return key
        total = 0
        for value in inputs:
            total = (total * 31 + value) % MODULUS
        return total
