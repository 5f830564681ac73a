#!/usr/bin/env python3
"""Checks the model of graphs by NumPy and Dask: /usr/bin/python3 tools/check_job_graphs.py, where Debian's python3-dask is.

Graphs are evaluated block by block, against NumPy's results on whole arrays, which is why these are evaluated here once more; layouts,
pieces and trees are compared with Dask's own.
"""

import itertools
import math

from graph_model import (
    Graph,
    Job,
    Limit,
    Lowered,
    axis_crossings,
    block_shape,
    blocks,
    by_elements,
    by_fold,
    cut,
    reached,
    region,
    union,
)
from job_graphs import Chance, cases, is_so
from job_reader import ELEMENTS

# Checks by NumPy and Dask


def whole_arrays(np, job, seed):
    """Each node's array, by NumPy's operations on whole arrays, and Python's own slices."""
    rng, whole = np.random.default_rng(seed), []
    for node in job.nodes:
        f, of = node.fields, [whole[o] for o in node.of]
        if node.op == "input":
            array = rng.integers(-(2**62), 2**62, node.shape)
        elif node.op in ("full", "ramp"):
            array = np.arange(math.prod(node.shape), dtype=np.int64).reshape(node.shape) * f["step"] + f["start"]
        elif node.op == "slice":
            array = of[0][tuple(f["parts"])]
        elif node.op == "transpose":
            array = np.transpose(of[0], f["axes"])
        elif node.op == "rechunk":
            array = of[0]
        elif node.op == "concatenate":
            array = np.concatenate(of, f["axis"])
        elif node.op == "reduce":
            array = by_fold(np, f["fold"], of[0], f["axes"])
        elif node.op == "tensordot":
            array = np.tensordot(*of, f["axes"])
        else:
            array = by_elements(np, node.op, of)
        whole.append(np.asarray(array, np.int64))
        is_so(whole[-1].shape, node.shape)
    return whole


def check_values(np, text, seed):
    """Every block of every node, by the tasks that it depends on, is that region of the node's array."""
    graph = Lowered(text)
    job, tasks, values = graph.job, graph.made_tasks, []
    whole = whole_arrays(np, job, seed)
    for key, task in enumerate(tasks):
        used = set()

        def value(dep):
            used.add(dep)
            return values[dep]

        values.append(np.asarray(task.formula(np, value, whole), np.int64))
        is_so(sorted(used), task.deps)
        is_so(values[key].nbytes, task.bytes)
        is_so(task.work, task.bytes + sum(values[dep].nbytes for dep in task.deps))
    named = 0
    for number, node in enumerate(job.nodes):
        for block, (key, index) in enumerate(zip(graph.own[number], blocks(node.layout))):
            is_so(tasks[key].name, (number, block))
            is_so(values[key].shape, block_shape(node.layout, index))
            is_so(bool((values[key] == whole[number][region(node.layout, index)]).all()), True)
        is_so(len(graph.own[number]), math.prod(map(len, node.layout)))
        is_so(tuple(map(sum, node.layout)), node.shape)
        named += len(graph.own[number])
    is_so(sum(task.name is not None for task in tasks), named)
    check_numbers(graph)


def check_numbers(graph):
    """What is kept, and its numbers, by recursion."""
    tasks, order = graph.made_tasks, []
    wanted = [key for node in graph.job.saves for key in graph.own[node]]

    def visit(key):
        if key not in order:
            for dep in tasks[key].deps:
                visit(dep)
            order.append(key)

    for key in wanted:
        visit(key)
    is_so(order, graph.old)
    is_so(set(order), reached(tasks, wanted))
    is_so(all(dep < key for key, deps in enumerate(graph.deps) for dep in deps), True)


def dask_result(np, da, node, of):
    """A node's operation by Dask over arrays in the operands' layouts, or None where the rules differ or say nothing."""
    f = node.fields
    if node.op in ("full", "ramp", "input"):
        return None
    if node.op == "slice":
        return of[0][tuple(f["parts"])]
    if node.op == "transpose":
        return da.transpose(of[0], f["axes"])
    if node.op == "rechunk":
        return of[0].rechunk(node.layout)
    if node.op == "concatenate":
        # Dask drops empty operands before it looks at chunks.
        return da.concatenate(of, f["axis"], allow_unknown_chunksizes=False) if all(a.size for a in of) else None
    if node.op == "reduce":
        split = min(f["split"], 1000)
        return getattr(da, f["fold"])(of[0], axis=tuple(f["axes"]), split_every=split) if of[0].size else None
    if node.op == "tensordot":
        return da.tensordot(*of, f["axes"]) if all(a.size for a in of) and f["axes"][0] else None
    return by_elements(da, node.op, of) if node.op != "negate" else -of[0]


def check_dask(np, da, text, seed, seen):
    import dask

    job = Job(text)
    whole = whole_arrays(np, job, seed)
    for node, array in zip(job.nodes, whole):
        of = [da.from_array(whole[o], chunks=job.nodes[o].layout) for o in node.of]
        result = dask_result(np, da, node, of)
        if result is None:
            continue
        if result.shape != array.shape:
            # Dask takes the first element of ones(1)[-2::-1], where NumPy takes none.
            is_so((node.op, "-" in text), ("slice", True))
            seen["other shape"] = seen.get("other shape", 0) + 1
            continue
        chunks = result.chunks
        if node.op == "slice":
            # Dask keeps some chunks that a step passes over, as chunks of 0.
            chunks = tuple(tuple(n for n in sizes if n) or (0,) for sizes in chunks)
            seen["passed over"] = seen.get("passed over", 0) + (chunks != result.chunks)
        is_so((node.op, text, chunks), (node.op, text, node.layout))
        if seen.get(node.op, 0) < 200:
            is_so(bool((result.compute(scheduler="sync") == array).all()), True)
        seen[node.op] = seen.get(node.op, 0) + 1
        if node.op == "reduce" and len(node.fields["axes"]) == 1 and len(of[0].chunks[node.fields["axes"][0]]) > 1:
            # Along one axis with more than one block Dask's tree has the same tasks; with one block it has one more.
            count = len(dict(result.dask)) - len(dict(of[0].dask))
            graph = Graph(job)
            number = job.nodes.index(node)
            is_so(sum(task.kind == "reduce" for task in of_node(graph, number)), count)
            seen["tree"] = seen.get("tree", 0) + 1
    graph = Lowered(text)
    made = {key: (max, *task.deps) for key, task in enumerate(graph.made_tasks)}
    kept, deps = dask.optimization.cull(made, [key for node in job.saves for key in graph.own[node]])
    is_so(set(kept), set(graph.old))
    is_so({key: sorted(deps[key]) for key in kept}, {key: graph.made_tasks[key].deps for key in kept})
    seen["cull"] = seen.get("cull", 0) + 1


def of_node(graph, number):
    """The tasks that were made for a node: those from the last key of the node before to its own last one."""
    first = max((max(keys) for keys in graph.own[:number]), default=-1) + 1
    return graph.tasks[first:max(graph.own[number]) + 1]


def check_axes(da, seed):
    """Chunks by numbers, unions and the pieces of other chunks, against Dask's own functions."""
    from dask.array.core import common_blockdim, normalize_chunks
    from dask.array.rechunk import intersect_chunks

    chance = Chance(seed)

    def sizes(length):
        text = chance.spec(length).strip("()")
        return cut(length, [int(n) for n in text.split(",")] if "," in text else int(text))

    for _ in range(3000):
        length = chance.random.randint(1, 12)
        lists = [sizes(length) for _ in range(chance.random.randint(1, 3))]
        is_so(union(lists), common_blockdim(lists))
        number = chance.random.randint(1, 13)
        is_so((cut(length, number),), normalize_chunks((number,), (length,)))
        other = chance.random.randint(1, 6)
        old, new = (sizes(length), sizes(other)), (sizes(length), sizes(other))
        crossings = [axis_crossings(*pair) for pair in zip(old, new)]
        pieces = intersect_chunks(old, new)
        for index, block in zip(blocks(new), pieces):
            ours = [tuple((c, f) for c, f, _ in piece) for piece in itertools.product(*(crossings[a][i] for a, i in enumerate(index)))]
            is_so(ours, [tuple(piece) for piece in block])
    is_so(normalize_chunks((2,), (0,)), ((0,),))


def check():
    import numpy as np

    np.seterr(all="ignore")
    texts = [text for kind, text in cases()]
    texts = [text for text in texts if cells(text) <= 20000]
    some = Chance(5, longest=7)
    texts += [some.job((2, 8), 400) for _ in range(4000)]
    for seed, text in enumerate(texts):
        check_values(np, text, seed)
    print(f"NumPy: {len(texts)} jobs, every block")
    import dask.array as da

    seen = {}
    check_axes(da, 3)
    for seed, text in enumerate(texts[:1500]):
        check_dask(np, da, text, seed, seen)
    print("Dask: 3000 axes;", ", ".join(f"{name} {count}" for name, count in sorted(seen.items())))


def cells(text):
    """How many elements the tasks of a job have, or too many where it passes a limit."""
    try:
        made = Lowered(text).made_tasks
    except Limit:
        return ELEMENTS
    return sum(task.bytes for task in made) // 8 + len(made)


if __name__ == "__main__":
    check()
