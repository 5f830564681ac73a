"""A model of the graphs that jobs are lowered to, made of the rules alone.

It has layouts of what `job_reader.py` reads, as tuples of chunk sizes for each axis, tasks in the order of making, limits,
culling, and depth-first numbers. Each task has its formula for NumPy besides. `job_graphs.py` writes a driver's lines by
it, and `check_job_graphs.py` holds it against NumPy and Dask.
"""

import bisect
import functools
import itertools
import math

from job_reader import Reader

KEYS, EDGES, BLOCK_BYTES = 32768, 262144, 2**27


class Limit(Exception):
    """A graph passes this limit."""


# Layouts


def cut(length, spec):
    """The chunks of one axis, given a number or a list that fits."""
    if not isinstance(spec, int):
        return tuple(spec)
    return (spec,) * (length // spec) + ((length % spec,) if length % spec else ()) if length else (0,)


def starts(sizes):
    return [0, *itertools.accumulate(sizes)][:-1]


def union(lists):
    """The chunks that are cut wherever one of these is."""
    ends = sorted(set(itertools.chain.from_iterable(itertools.accumulate(sizes) for sizes in lists)))
    return tuple(end - start for start, end in zip([0, *ends], ends)) if ends[-1] else (0,)


def blocks(layout):
    """The blocks of a layout by their index, in row-major order."""
    return itertools.product(*(range(len(sizes)) for sizes in layout))


def block_number(layout, index):
    number = 0
    for sizes, i in zip(layout, index):
        number = number * len(sizes) + i
    return number


def block_shape(layout, index):
    return tuple(sizes[i] for sizes, i in zip(layout, index))


def region(layout, index):
    """The slice of each axis that a block stands for."""
    firsts = (sum(sizes[:i]) for sizes, i in zip(layout, index))
    return tuple(slice(first, first + n) for first, n in zip(firsts, block_shape(layout, index)))


def common_layout(shape, operands):
    """The layout of a result by elements: on each axis the union over the operands that have its length there."""
    layout = []
    for axis, length in enumerate(shape):
        back = axis - len(shape)
        fitting = [o.layout[back] for o in operands if len(o.shape) >= -back and o.shape[back] == length]
        layout.append(union(fitting) if length != 1 else (1,))
    return tuple(layout)


def under(operand, shape, layout):
    """The layout that an operand is brought to, where the result has this shape and layout."""
    if not operand.shape:
        return ()
    pairs = zip(operand.shape, operand.layout, shape[-len(operand.shape):], layout[-len(operand.shape):])
    return tuple(result if n == length else own for n, own, length, result in pairs)


def slice_pieces(sizes, indexes):
    """The pieces of chunks that these indexes take in turn: the chunk, the indexes within it."""
    first = starts(sizes)
    chunk_of = [chunk for chunk, n in enumerate(sizes) for _ in range(n)]
    groups = itertools.groupby(indexes, key=chunk_of.__getitem__)
    return [(chunk, [i - first[chunk] for i in taken]) for chunk, taken in groups] or [(0, [])]


def axis_crossings(old, new):
    """For each new chunk of an axis the old chunks that share an index with it: the old chunk, where from, where to."""
    firsts, result = starts(old), []
    for begin, size in zip(starts(new), new):
        met, chunk = [], max(bisect.bisect_right(firsts, begin) - 1, 0)
        while chunk < len(old) and firsts[chunk] < begin + size:
            first = firsts[chunk]
            low, high = max(begin, first), min(begin + size, first + old[chunk])
            if low < high:
                met.append((chunk, slice(low - first, high - first), slice(low - begin, high - begin)))
            chunk += 1
        result.append(met)
    return result


# Jobs


class Job:
    """A job's nodes with their layouts, in the order in which their operations are complete, its names, and the node of each save.

    A semicolon between blanks may stand for the end of a line.
    """

    def __init__(self, text, saves=True):
        read = Reader(text.removesuffix(" ;").replace(" ; ", "\n").encode()).job(saves)
        self.text, self.nodes, self.names, self.saves = text, read.nodes, read.names, list(read.saves.values())
        for node in self.nodes:
            node.literal = node.op == "full" and not node.shape
            node.layout = tuple(self.layout(node, [self.nodes[of] for of in node.of]))

    def layout(self, node, operands):
        """The layout of a node's shape. What its tasks need besides goes to its fields."""
        if node.op in ("input", "full", "ramp", "rechunk"):
            return [cut(n, spec) for n, spec in zip(node.shape, node.fields["chunks"])]
        if node.op == "reverse":
            node.op, node.fields["axes"] = "transpose", range(len(node.shape))[::-1]
        layouts = {"slice": slice_layout, "transpose": transpose_layout, "concatenate": concatenate_layout, "reduce": reduce_layout,
                   "tensordot": tensordot_layout}
        return layouts[node.op](node.fields, *operands) if node.op in layouts else common_layout(node.shape, operands)


def slice_layout(fields, of):
    parts = itertools.zip_longest(of.shape, fields["parts"], fillvalue=slice(None))
    indexes = [range(n)[part] if isinstance(part, slice) else [range(n)[part]] for n, part in parts]
    fields["kept"] = [axis for axis, taken in enumerate(indexes) if isinstance(taken, range)]
    fields["pieces"] = [slice_pieces(sizes, taken) for sizes, taken in zip(of.layout, indexes)]
    return [tuple(len(taken) for _, taken in fields["pieces"][axis]) for axis in fields["kept"]]


def transpose_layout(fields, of):
    fields["axes"] = list(fields["axes"])
    return [of.layout[axis] for axis in fields["axes"]]


def concatenate_layout(fields, *operands):
    axis = fields["axis"]
    layout = [union([of.layout[a] for of in operands]) for a in range(len(operands[0].shape)) if a != axis]
    layout.insert(axis, tuple(n for of in operands for n in of.layout[axis] if n) or (0,))
    return layout


def reduce_layout(fields, of):
    every = range(len(of.shape))
    fields["axes"] = sorted(every if fields["axes"] is None else fields["axes"])
    return [of.layout[axis] for axis in every if axis not in fields["axes"]]


def tensordot_layout(fields, *pair):
    fields["paired"] = [union([pair[0].layout[i], pair[1].layout[j]]) for i, j in zip(*fields["axes"])]
    return [of.layout[axis] for of, axes in zip(pair, fields["axes"]) for axis in range(len(of.shape)) if axis not in axes]


# Graphs


class Task:
    def __init__(self, deps, kind, size, work, name, formula):
        self.deps, self.kind, self.bytes, self.work, self.name, self.formula = deps, kind, size, work, name, formula


class Graph:
    """The tasks of a job in the order of making. `own` has the keys of each node's blocks."""

    def __init__(self, job):
        self.job, self.tasks, self.edges, self.own = job, [], 0, []
        for number in range(len(job.nodes)):
            self.own.append(list(self.lowered(number)))

    def push(self, deps, kind, shape, name, formula):
        """One more task. `deps` may name a key more than once and in any order."""
        deps = sorted(set(deps))
        size = 8 * math.prod(shape)
        if len(self.tasks) + 1 > KEYS:
            raise Limit("keys")
        if self.edges + len(deps) > EDGES:
            raise Limit("edges")
        if size > BLOCK_BYTES:
            raise Limit("block bytes")
        work = size + sum(self.tasks[key].bytes for key in deps)
        self.tasks.append(Task(deps, kind, size, work, name, formula))
        self.edges += len(deps)
        return len(self.tasks) - 1

    def lowered(self, number):
        node = self.job.nodes[number]
        if node.op in ("input", "full", "ramp"):
            return self.sources(number, node)
        if node.op in ("slice", "transpose", "rechunk", "concatenate", "reduce", "tensordot"):
            return getattr(self, node.op)(number, node)
        return self.elementwise(number, node)

    def sources(self, number, node):
        for block, index in enumerate(blocks(node.layout)):
            kind, formula = "load" if node.op == "input" else "fill", source_formula(number, node.layout, index)
            yield self.push([], kind, block_shape(node.layout, index), (number, block), formula)

    def pieces(self, keys, old, new, name):
        """The blocks of another layout, each made of the old ones that it shares an element with."""
        crossings = [axis_crossings(*sizes) for sizes in zip(old, new)]
        for block, index in enumerate(blocks(new)):
            met = [crossings[axis][i] for axis, i in enumerate(index)]
            chunks = itertools.product(*([chunk for chunk, _, _ in pieces] for pieces in met))
            deps, shape = [keys[block_number(old, chunk)] for chunk in chunks], block_shape(new, index)
            yield self.push(deps, "assemble", shape, name and (name[0], block), pieces_formula(shape, deps, met))

    def brought(self, of, layout):
        """The keys of an operand in this layout: its own, or new ones."""
        node, layout = self.job.nodes[of], tuple(layout)
        return self.own[of] if layout == node.layout else list(self.pieces(self.own[of], node.layout, layout, None))

    def elementwise(self, number, node):
        operands = [self.job.nodes[of] for of in node.of]
        layouts = [under(operand, node.shape, node.layout) for operand in operands]
        keys = [None if n.literal else self.brought(of, to) for of, n, to in zip(node.of, operands, layouts)]
        for block, index in enumerate(blocks(node.layout)):
            inputs = []
            for operand, layout, own in zip(operands, layouts, keys):
                if operand.literal:
                    inputs.append((None, operand.fields["start"]))
                    continue
                there = index[len(index) - len(layout):]
                place = [i if n == length else 0 for i, n, length in zip(there, operand.shape, node.shape[-len(layout):])]
                inputs.append((own[block_number(layout, place)], None))
            kind = "where" if node.op == "where" else "elementwise"
            deps = [key for key, _ in inputs if key is not None]
            formula = elementwise_formula(node.op, inputs)
            yield self.push(deps, kind, block_shape(node.layout, index), (number, block), formula)

    def slice(self, number, node):
        of, pieces, kept = node.of[0], node.fields["pieces"], node.fields["kept"]
        for block, index in enumerate(blocks(node.layout)):
            taken = [found[0] for found in pieces]
            for axis, i in zip(kept, index):
                taken[axis] = pieces[axis][i]
            source = self.own[of][block_number(self.job.nodes[of].layout, [chunk for chunk, _ in taken])]
            formula = slice_formula(source, [places for _, places in taken], kept)
            yield self.push([source], "slice", block_shape(node.layout, index), (number, block), formula)

    def transpose(self, number, node):
        of, axes = node.of[0], node.fields["axes"]
        for block, index in enumerate(blocks(node.layout)):
            place = [index[axes.index(axis)] for axis in range(len(axes))]
            source = self.own[of][block_number(self.job.nodes[of].layout, place)]
            formula = transpose_formula(source, axes)
            yield self.push([source], "transpose", block_shape(node.layout, index), (number, block), formula)

    def rechunk(self, number, node):
        of = node.of[0]
        return self.pieces(self.own[of], self.job.nodes[of].layout, node.layout, (number,))

    def concatenate(self, number, node):
        axis, nodes = node.fields["axis"], [self.job.nodes[of] for of in node.of]
        layouts = [node.layout[:axis] + (n.layout[axis],) + node.layout[axis + 1:] for n in nodes]
        keys = [self.brought(of, layout) for of, layout in zip(node.of, layouts)]
        chunks = [(o, c) for o, layout in enumerate(layouts) for c, n in enumerate(layout[axis]) if n] or [(0, 0)]
        for block, index in enumerate(blocks(node.layout)):
            operand, chunk = chunks[index[axis]]
            place = index[:axis] + (chunk,) + index[axis + 1:]
            source = keys[operand][block_number(layouts[operand], place)]
            shape = block_shape(node.layout, index)
            whole = [[(0, slice(0, n), slice(0, n))] for n in shape]
            yield self.push([source], "assemble", shape, (number, block), pieces_formula(shape, [source], whole))

    def reduce(self, number, node):
        of, fold, axes = self.job.nodes[node.of[0]], node.fields["fold"], node.fields["axes"]
        own, folded = self.own[node.of[0]], [of.layout[axis] for axis in axes]
        for block, index in enumerate(blocks(node.layout)):
            places = []
            for chunk in blocks(folded):
                kept = iter(index)
                places.append([chunk[axes.index(a)] if a in axes else next(kept) for a in range(len(of.shape))])
            shape, name, partials = block_shape(node.layout, index), (number, block), []
            for place in places:
                source = own[block_number(of.layout, place)]
                formula = fold_formula(fold, axes, [source])
                partials.append(self.push([source], "reduce", shape, name if len(places) == 1 else None, formula))
            yield self.tree(partials, fold, node.fields["split"], shape, name)

    def tree(self, partials, fold, split, shape, name):
        """Groups of partial results, level by level, until one is left."""
        while len(partials) > 1:
            groups = [partials[at:at + split] for at in range(0, len(partials), split)]
            named = name if len(groups) == 1 else None
            partials = [self.push(group, "reduce", shape, named, fold_formula(fold, [], group)) for group in groups]
        return partials[0]

    def tensordot(self, number, node):
        layouts = []
        for of, axes in zip(node.of, node.fields["axes"]):
            layout = list(self.job.nodes[of].layout)
            for axis, sizes in zip(axes, node.fields["paired"]):
                layout[axis] = sizes
            layouts.append(layout)
        keys = [self.brought(of, layout) for of, layout in zip(node.of, layouts)]
        for block, index in enumerate(blocks(node.layout)):
            shape, name, partials = block_shape(node.layout, index), (number, block), []
            pairs = list(blocks(node.fields["paired"]))
            for chunk in pairs:
                free, sources = iter(index), []
                for layout, axes, own in zip(layouts, node.fields["axes"], keys):
                    place = [chunk[axes.index(a)] if a in axes else next(free) for a in range(len(layout))]
                    sources.append(own[block_number(layout, place)])
                formula = contract_formula(sources, node.fields["axes"])
                partials.append(self.push(sources, "contract", shape, name if len(pairs) == 1 else None, formula))
            yield self.tree(partials, "sum", 4, shape, name)


def reached(tasks, wanted):
    """What the wanted keys depend on, and these."""
    kept, left = set(), list(wanted)
    while left:
        key = left.pop()
        if key not in kept:
            kept.add(key)
            left.extend(tasks[key].deps)
    return kept


def depth_first(tasks, wanted):
    """New numbers: a visit visits the dependencies in ascending order, then numbers its own task."""
    numbers = {}
    for root in wanted:
        stack = [(root, iter(tasks[root].deps))] if root not in numbers else []
        while stack:
            key, left = stack[-1]
            for dep in left:
                if dep not in numbers:
                    stack.append((dep, iter(tasks[dep].deps)))
                    break
            else:
                numbers[key] = len(numbers)
                stack.pop()
    return numbers


class Lowered:
    """The graph that a job is run by: culled and numbered."""

    def __init__(self, text):
        self.job = Job(text)
        made = Graph(self.job)
        self.made = len(made.tasks), made.edges
        self.numbers = depth_first(made.tasks, [key for node in self.job.saves for key in made.own[node]])
        old = sorted(self.numbers, key=self.numbers.get)
        self.old, self.made_tasks, self.own = old, made.tasks, made.own
        self.tasks = [made.tasks[key] for key in old]
        self.deps = [sorted(self.numbers[dep] for dep in task.deps) for task in self.tasks]
        self.saved = [[self.numbers[key] for key in made.own[node]] for node in self.job.saves]
        self.counts = len(self.tasks), sum(map(len, self.deps))

    def names(self):
        return ["-" if task.name is None else "{}.{}".format(*task.name) for task in self.tasks]


def keys_text(keys):
    return ",".join(map(str, keys)) or "()"


@functools.cache
def answer(kind, text):
    """What the driver prints behind the colon."""
    try:
        graph = Lowered(text)
    except Limit as limit:
        return str(limit)
    head = "keys {} edges {}".format(*graph.counts)
    if kind == "count":
        return head
    rows = zip(graph.names(), graph.deps, graph.tasks)
    tasks = [f"{name} {keys_text(deps)} {task.kind} {task.work} {task.bytes}" for name, deps, task in rows]
    return "; ".join([head, *tasks, "saved " + " ".join(map(keys_text, graph.saved))])


# Formulas of tasks, for NumPy: functions of the values of keys and of the arrays of nodes.


def source_formula(number, layout, index):
    return lambda np, value, whole: whole[number][region(layout, index)]


def pieces_formula(shape, sources, met):
    def formula(np, value, whole):
        result = np.full(shape, 77, np.int64)
        for source, piece in zip(sources, itertools.product(*met)):
            result[tuple(where for _, _, where in piece)] = value(source)[tuple(where for _, where, _ in piece)]
        return result
    return formula


def elementwise_formula(op, inputs):
    def formula(np, value, whole):
        return by_elements(np, op, [np.int64(n) if key is None else value(key) for key, n in inputs])
    return formula


def by_elements(np, op, operands):
    if op == "negate":
        return np.subtract(np.int64(0), operands[0])
    if op == "where":
        return np.where(operands[0] != 0, operands[1], operands[2])
    calls = {"+": np.add, "-": np.subtract, "*": np.multiply, "//": np.floor_divide, "%": np.remainder}
    return calls.get(op, getattr(np, op, None))(*operands)


def slice_formula(source, places, kept):
    def formula(np, value, whole):
        block = value(source)
        for axis, at in enumerate(places):
            block = np.take(block, np.array(at, np.int64), axis)
        return block.reshape([block.shape[axis] for axis in kept])
    return formula


def transpose_formula(source, axes):
    return lambda np, value, whole: np.transpose(value(source), axes)


def fold_formula(fold, axes, sources):
    def formula(np, value, whole):
        parts = [by_fold(np, fold, value(source), axes) for source in sources]
        stacked = np.stack(parts)
        return by_fold(np, fold, stacked, [0])
    return formula


def by_fold(np, fold, array, axes):
    return np.asarray(getattr(np, fold)(array, axis=tuple(axes)), np.int64)


def contract_formula(sources, axes):
    return lambda np, value, whole: np.asarray(np.tensordot(value(sources[0]), value(sources[1]), axes), np.int64)
