#!/usr/bin/env python3
"""Writes the lines of the program block_table, and the answer to each.

    python3 tools/block_table.py          writes crates/block_table/stdin and crates/block_table/stdout

An array is here the list of its indexes, and nothing of the program's way is used: the chunks of an axis follow Dask's
page on chunks; the blocks, the block of an index, the pieces of a plan and the chunks of a slice are read off from which
indexes lie together; a union of boundaries is the sorted set of both; a slice is Python's `range`. What is refused has the
program's words for it. The lines on graphs are those of `task_graphs.py`, and those on jobs of `job_graphs.py`.
"""

import itertools
import os

import job_graphs
import task_graphs

HERE = os.path.dirname(os.path.dirname(os.path.abspath(__file__)))
LINES = []


def line(words, answer):
    LINES.append((words, answer))


def listed(items):
    items = list(items)
    return ",".join(map(str, items)) if items else "()"


def cut(length, spec):
    """The sizes of the chunks of an axis: a number, or a list."""
    if length == 0:
        return [0]
    if isinstance(spec, list):
        return list(spec)
    sizes = [spec] * (length // spec)
    return sizes + ([length % spec] if length % spec else [])


def written(specs):
    return " ".join([str(len(specs))] + [f"list {listed(s)}" if isinstance(s, list) else f"even {s}" for s in specs])


def layout_of(shape, specs):
    return [cut(n, s) for n, s in zip(shape, specs)]


def blocks_of(layout):
    """Each block as the list of index ranges of its axes, in row-major order."""
    axes = []
    for sizes in layout:
        ends = list(itertools.accumulate(sizes))
        axes.append([range(end - size, end) for end, size in zip(ends, sizes)])
    return list(itertools.product(*axes))


def owners(layout):
    """The block of each index."""
    return {index: number for number, block in enumerate(blocks_of(layout)) for index in itertools.product(*block)}


def put_layout(layout):
    return "".join(" " + listed(sizes) for sizes in layout)


def normal(shape, specs):
    words = f"{listed(shape)} {written(specs)}"
    layout = layout_of(shape, specs)
    line(f"layout of {words}", put_layout(layout))
    count = 1
    for sizes in layout:
        count *= len(sizes)
    line(f"layout count {words}", f" {count}")
    line(f"layout blocks {words}", f" {count}")


def refused(shape, specs, why):
    words = f"{listed(shape)} {written(specs)}"
    for word in ("of", "count"):
        line(f"layout {word} {words}", f" refused, chunks: {why}")


def regions(shape, specs):
    layout = layout_of(shape, specs)
    for number, block in enumerate(blocks_of(layout)):
        answer = f" from {listed(r.start for r in block)} so many {listed(len(r) for r in block)}"
        line(f"layout region {number} {listed(shape)} {written(specs)}", answer)
    line(f"layout region {len(blocks_of(layout))} {listed(shape)} {written(specs)}", " ill row")
    for index, number in sorted(owners(layout).items()):
        line(f"layout block {listed(index)} {listed(shape)} {written(specs)}", f" {number}")
    line(f"layout block {listed(shape)} {listed(shape)} {written(specs)}", " ill row" if shape else " 0")


def unified(shape, a, b):
    layout = []
    for n, s, t in zip(shape, a, b):
        ends = sorted(set(itertools.accumulate(cut(n, s))) | set(itertools.accumulate(cut(n, t))))
        layout.append([end - start for start, end in zip([0] + ends, ends)])
    line(f"layout unify {listed(shape)} {written(a)} {written(b)}", put_layout(layout))


def planned(shape, a, b):
    """The pieces of each block: its elements grouped by the block that they lie in before."""
    old, new = layout_of(shape, a), layout_of(shape, b)
    owner = owners(old)
    before, after = blocks_of(old), blocks_of(new)
    for number, block in enumerate(after):
        pieces = {}
        for index in itertools.product(*block):
            pieces.setdefault(owner[index], []).append(index)
        answer = ""
        for source in sorted(pieces):
            low = [min(axis) for axis in zip(*pieces[source])]
            high = [max(axis) for axis in zip(*pieces[source])]
            inside = [at - r.start for at, r in zip(low, before[source])]
            to = [at - r.start for at, r in zip(low, block)]
            answer += f" | {source} at {listed(inside)} to {listed(to)} so many {listed(h - l + 1 for l, h in zip(low, high))}"
        line(f"layout plan {number} {listed(shape)} {written(a)} {written(b)}", answer)


def folded(partials, split):
    left, answer = partials, ""
    while left > 1:
        sizes = cut(left, split)
        answer += " " + listed(sizes)
        left = len(sizes)
    line(f"layout tree {partials} {split}", answer)


def sliced(shape, specs, parts):
    """The chunks of a slice: how many of its indexes stand together that lie in one chunk."""
    layout = []
    for n, spec, part in zip(shape, specs, parts):
        sizes = cut(n, spec)
        chunk = [number for number, size in enumerate(sizes) for _ in range(size)]
        taken = [chunk[i] for i in range(*slice(*part).indices(n))]
        layout.append([len(list(run)) for _, run in itertools.groupby(taken)] or [0])
    words = " ".join(" ".join("-" if x is None else str(x) for x in part) for part in parts)
    line(f"layout slice {listed(shape)} {written(specs)} {words}".rstrip(), put_layout(layout))


def runs_back(length, half, step):
    """How many of length - 1, length - 1 - step, .. are in the upper half, and how many in the lower one."""
    upper = len(range(length - 1, half - 1, -step))
    return [upper, len(range(length - 1, -1, -step)) - upper]


def lines():
    big = 2**31
    for shape, specs in [
        ((10,), [[4, 4, 2]]), ((10,), [4]), ((10,), [10]), ((10,), [11]), ((10,), [2**63]), ((), []), ((0,), [3]), ((0,), [0]),
        ((0,), [[0]]), ((5, 6), [2, [1, 5]]), ((2, 0, 3), [1, 7, 2]), ((4, 4), [2, 2]), ((1,) * 8, [1] * 8), ((big,), [big]),
    ]:
        normal(shape, specs)
    line(f"layout count {big} 1 even 1", f" {big}")
    line(f"layout count {big},{big},0 3 even 1 even 1 even 1", f" {big * big}")
    line(f"layout count {big},{big},{big},0 4 even 1 even 1 even 1 even 1", f" {2**64 - 1}")
    for shape, specs, why in [
        ((10,), [[4, 4]], "axis 0: sum 8, length 10"), ((10,), [], "0 given for 1 axes"), ((10,), [1, 1], "2 given for 1 axes"),
        ((10,), [0], "axis 0: zero chunk"), ((10,), [[5, 0, 4]], "axis 0: zero chunk"), ((0,), [[]], "axis 0: zero chunk"),
        ((0,), [[1]], "axis 0: sum 1, length 0"), ((3, 4), [2, [5]], "axis 1: sum 5, length 4"), ((3, 4), [0, [5]], "axis 0: zero chunk"),
        ((big // 2, 2), [1, 0], "axis 1: zero chunk"), ((big,), [[big, big]], f"axis 0: sum {2 * big}, length {big}"),
        ((2, 2), [1], "1 given for 2 axes"), ((), [1], "1 given for 0 axes"),
    ]:
        refused(shape, specs, why)
    for shape, specs in [((10,), [[4, 4, 2]]), ((3, 4), [2, [1, 3]]), ((), []), ((2, 3, 2), [1, 2, 2]), ((1, 5), [1, 1])]:
        regions(shape, specs)
    line("layout region 0 0 1 even 1", " from 0 so many 0")
    for shape, a, b in [
        ((10,), [[4, 4, 2]], [5]), ((10,), [5], [[4, 4, 2]]), ((10,), [3], [3]), ((10,), [1], [10]), ((0,), [1], [2]), ((), [], []),
        ((7, 6), [[3, 4], 4], [2, [1, 1, 4]]), ((12,), [[1, 5, 6]], [[6, 6]]), ((9, 0), [4, 1], [2, 3]), ((1,), [1], [4]),
    ]:
        unified(shape, a, b)
        planned(shape, a, b)
    planned((4, 4), [2, 2], [4, 1])
    planned((2, 3, 2), [1, 2, 2], [2, 1, 1])
    planned((3,), [1], [[1, 2]])
    line("layout plan 1 3 1 even 1 1 even 3", " ill row")
    for partials, split in [(10, 4), (0, 4), (1, 4), (2, 4), (4, 4), (5, 4), (10, 2), (17, 4), (64, 4), (100, 3), (7, 100), (3, 2**32 - 1)]:
        folded(partials, split)
    line("layout tree 10 1", " ill row")
    line(f"layout tree {2**32} 4", " ill row")
    for shape, specs, parts in SLICES:
        sliced(shape, specs, parts)
    line("layout slice 5 1 even 2 - - 0", " refused, shape: step 0")
    line("layout slice 5 1 even 2 - -", " ill row")
    line(f"layout slice {big} 1 even {big // 2} - - -3", f" {listed(runs_back(big, big // 2, 3))}")
    line("layout", " ill row")
    line("layout of", " ill row")
    line("layout of 3 1 even", " ill row")
    line("nothing", " ill row")


N = None
SLICES = [
    ((5,), [2], [(N, N, -2)]), ((5,), [2], [(N, N, N)]), ((5,), [2], [(1, 4, N)]), ((5,), [2], [(5, 2, N)]), ((5,), [2], [(N, N, 3)]),
    ((5,), [2], [(-1, N, -1)]), ((10,), [[4, 4, 2]], [(3, 9, 2)]), ((10,), [[4, 4, 2]], [(N, N, 5)]), ((10,), [[4, 4, 2]], [(8, N, -3)]),
    ((10,), [1], [(N, N, 4)]), ((10,), [10], [(2, 7, 2)]), ((0,), [4], [(N, N, N)]), ((0,), [4], [(N, N, -1)]), ((), [], []),
    ((6, 7), [2, 3], [(N, N, -1), (1, N, 2)]), ((6, 7), [2, 3], [(4, 4, N), (N, N, N)]), ((6, 0), [4, 1], [(1, 5, 3), (N, N, N)]),
    ((12,), [[5, 1, 6]], [(N, N, 2)]), ((12,), [[5, 1, 6]], [(11, N, -6)]), ((3,), [1], [(1, 2, 2**63 - 1)]), ((3,), [1], [(2, N, -(2**63))]),
    ((3,), [1], [(N, N, -(2**63) + 1)]),
]


def main():
    lines()
    for words, answer in itertools.chain(task_graphs.lines(), job_graphs.lines()):
        line(words, answer)
    crate = os.path.join(HERE, "crates", "block_table")
    with open(os.path.join(crate, "stdin"), "w") as f:
        f.writelines(words + "\n" for words, _ in LINES)
    with open(os.path.join(crate, "stdout"), "w") as f:
        f.writelines(f"{words}:{answer}\n" for words, answer in LINES)


if __name__ == "__main__":
    main()
