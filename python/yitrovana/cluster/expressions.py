"""Arrays of `dask.array` whose operations the language has, as lazy arrays of this package.

A name in Dask's graph is a hash of the function and of all that it is given. So an operation is taken over only where Dask itself,
asked for it again on arrays of the same names, gives the name that stands in the graph, and calls the same functions: what is read of a
layer is a guess, and these confirm it. Parts, `arange` and blocks of NumPy are read task by task instead, since their tasks say all.
"""
import operator
import warnings
import weakref
from functools import partial
from itertools import accumulate, combinations, product

import dask
import dask.array as da
import numpy as np
from dask.array import chunk
from dask.blockwise import Blockwise
from dask.highlevelgraph import HighLevelGraph, MaterializedLayer

from .. import folds, shapes, sources
from ..arrays import Array
from ..elements import elementwise, maximum, minimum, negative, number, where
from ..limits import LimitWarning
from ..text import Job

NUMBER, TRUTH = np.dtype('int64'), np.dtype(bool)
MADE = {}  # the arrays of this package that layers came from, by `id`, as long as the layers are there
EVERY = (None, 2, 3, *(2**power for power in range(2, 11)))  # what `split_every` may have been


class Unfit(Exception):
    """Something that isn't taken over."""


class Known:
    """An array of the graph: how Dask has it, the same as a lazy array, and the array that it is in other chunks, or NumPy's own."""

    def __init__(self, name, chunks, dtype, array, before=None, own=None):
        self.name, self.chunks, self.dtype, self.array, self.before, self.own = name, chunks, dtype, array, before, own

    def again(self):
        """An array of this name on which Dask can be asked for an operation."""
        return da.Array({}, self.name, self.chunks, dtype=self.dtype)

    def operands(self):
        """What Dask may have been given where this array stands as an operand: it, what it was in other chunks, and NumPy's array."""
        own = [] if self.own is None else [(self, self.own)]
        return [(self, self.again())] + own + (self.before.operands() if self.before else [])


def remember(made, array):
    """Keeps which array `to_dask` has made an array of Dask of."""
    layer = made.dask.layers[made.name]
    MADE[id(layer)] = array
    weakref.finalize(layer, MADE.pop, id(layer), None)


def taken_over(array):
    """The lazy array with the elements and the chunks of an array of Dask, or None where that isn't one of operations of the language."""
    try:
        with warnings.catch_warnings(), dask.config.set({'array.rechunk.method': 'tasks'}):
            for category in (LimitWarning, da.PerformanceWarning):
                warnings.simplefilter('ignore', category)
            return read(array)
    except Exception:  # in any doubt Dask computes it
        return None


def read(array):
    graph, known = array.__dask_graph__(), {}
    if not isinstance(graph, HighLevelGraph) or type(array._meta) is not np.ndarray:
        return None
    for name in in_order(graph, array.name):
        known[name] = confirmed(name, graph, known)
    found = known[array.name]
    if (found.chunks, found.dtype, found.array.shape) != (array.chunks, array.dtype, array.shape):
        return None
    result = shapes.rechunk(found.array, without_empty(found.chunks))
    Job({'.yitrovana.npy': result}).check_graph()
    return result


def in_order(graph, top):
    """The names of the arrays that the top one is made of, operands first. Those are missed out of which Dask makes one operation."""
    seen, waiting = set(), [(top, None)]
    while waiting:
        name, operands = waiting.pop()
        if operands is not None:
            yield name
        elif name not in seen:
            seen.add(name)
            operands = operands_of(name, graph)
            waiting += [(name, operands)] + [(one, None) for one in operands]


def prefix(name):
    return name.rpartition('-')[0]


def only(names):
    """The one of these."""
    one, = names
    return one


def operands_of(name, graph):
    layer = graph.layers[name]
    if id(layer) in MADE or is_blocks(layer):
        return []
    if prefix(name) not in READERS:
        raise Unfit(name)
    if READERS[prefix(name)] is mapped:
        return []
    below = graph.dependencies[name]
    if READERS[prefix(name)] is folded:
        while prefix(only(below)).endswith('-partial'):
            below = graph.dependencies[only(below)]
        below = graph.dependencies[only(below)]
    return list(below)


def confirmed(name, graph, known):
    """The array of this name, whose operands are known."""
    layer = graph.layers[name]
    if id(layer) in MADE:
        array = MADE[id(layer)]
        return Known(name, array.chunks, NUMBER, array)
    if is_blocks(layer):
        return blocks(name, layer)
    reader = READERS[prefix(name)]
    if reader in (sliced, counted):
        return reader(name, layer, known)
    operands = [known[one] for one in operands_of(name, graph)]
    for again, make, *before in reader(name, layer, graph if reader is mapped else known, operands):
        if again.name == name and again.dtype in (NUMBER, TRUTH) and all(same(one, graph) for one in again.dask.layers.items()):
            return Known(name, again.chunks, again.dtype, make(), *before)
    raise Unfit(name)


def same(item, graph):
    """Whether a layer that Dask has made again, with its name, is the one of the graph. Of an operand it makes none."""
    (name, layer), there = item, graph.layers[item[0]]
    if isinstance(layer, Blockwise):
        return isinstance(there, Blockwise) and (call_of(layer), inputs_of(layer)) == (call_of(there), inputs_of(there))
    return not layer or isinstance(there, MaterializedLayer) and set(layer) == set(there)


def call_of(layer):
    """The function that a layer calls for each block, with its words."""
    if hasattr(layer, 'task'):
        return taken_apart(layer.task.func), layer.task.kwargs
    return tuple(map(taken_apart, only(layer.dsk.values())))


def inputs_of(layer):
    """What it is called with. Chunks, as which part of a file a block is, have a random name."""
    made = layer.io_deps
    return [((type(made[one]), made[one].chunks) if index is not None and one in made else one, index) for one, index in layer.indices]


def taken_apart(function):
    return (function.func, function.args, function.keywords) if isinstance(function, partial) else function


# ---- what is read task by task

def task_of(value):
    """The function and the arguments of a task, which Dask has as a tuple or, later, as an object; keys are tuples."""
    if isinstance(value, tuple) and value and callable(value[0]):
        return value[0], value[1:]
    if not callable(getattr(value, 'func', None)) or value.kwargs:
        raise Unfit(value)
    return value.func, tuple(getattr(one, 'target', one) for one in value.args)


def plain(value):
    """What stands in the graph itself, which Dask wraps later."""
    return getattr(value, 'value', value)


def is_blocks(layer):
    """Whether the tasks are blocks of NumPy; the first one says it, and `blocks` looks at all."""
    return isinstance(layer, MaterializedLayer) and type(plain(next(iter(layer.values()), None))) is np.ndarray


def blocks(name, layer):
    """NumPy's blocks, put into a file."""
    found = {key[1:]: plain(value) for key, value in layer.items() if key[0] == name}
    dtype = found[min(found)].dtype
    if len(found) != len(layer) or dtype not in (NUMBER, TRUTH) or any(type(one) is not np.ndarray or one.dtype != dtype for one in found.values()):
        raise Unfit(name)
    counts = [max(axis) + 1 for axis in zip(*found)]
    sizes = tuple(tuple(found[(0,) * axis + (k,) + (0,) * (len(counts) - axis - 1)].shape[axis] for k in range(count))
                  for axis, count in enumerate(counts))
    whole = np.empty(tuple(map(sum, sizes)), '<i8')
    begins = [list(accumulate(axis, initial=0)) for axis in sizes]
    for at in product(*map(range, counts)):
        block = found.pop(at)
        if block.shape != tuple(axis[k] for axis, k in zip(sizes, at)):
            raise Unfit(name)
        whole[tuple(slice(begin[k], begin[k + 1]) for begin, k in zip(begins, at))] = block
    if found:
        raise Unfit(name)
    return Known(name, sizes, dtype, in_file(whole, sizes), own=whole.astype(dtype, copy=False))


def in_file(whole, chunks):
    with sources.TemporaryFile() as file:
        np.save(file.path, np.asarray(whole, '<i8'))
        return file.opened(without_empty(chunks))


def without_empty(chunks):
    """Chunks as this package has them, of which none is empty beside another."""
    return tuple(tuple(size for size in axis if size) or (0,) for axis in chunks)


def counted(name, layer, _):
    """`arange`: each block says where it begins."""
    tasks = [task_of(layer[name, k]) for k in range(len(layer))]
    for function, _ in tasks:
        if not (isinstance(function, partial) and function.func is chunk.arange and not function.args and set(function.keywords.values()) <= {None}):
            raise Unfit(name)
    (begin, _, step, _, dtype), sizes, at = tasks[0][1], [], tasks[0][1][0]
    for _, (start, stop, own_step, size, own_dtype) in tasks:
        if (start, stop, own_step) != (at, at + size * step, step) or not all(type(one) is int for one in (start, stop, own_step, size)):
            raise Unfit(name)
        if np.dtype(own_dtype) != NUMBER:
            raise Unfit(dtype)
        sizes, at = sizes + [size], stop
    array = sources.ramp((sum(sizes),), begin, step, without_empty((sizes,)))
    return Known(name, (tuple(sizes),), NUMBER, array)


def sliced(name, layer, known):
    """Integers and slices: each block is a part of one block, and the parts follow one another on each axis."""
    source = known[part_of(next(iter(layer.values())))[0][0]]
    axes = [{} for _ in source.chunks]  # the block and the part by the place of the new block, which is None for an integer
    for key, value in layer.items():
        (of, parts), place = part_of(value), iter(key[1:])
        if key[0] != name or of[0] != source.name or len(parts) != len(of) - 1:
            raise Unfit(name)
        for axis, block, part in zip(axes, of[1:], parts):
            at = next(place) if type(part) is slice else None
            if axis.setdefault(at, (block, part)) != (block, part):
                raise Unfit(name)
        if next(place, None) is not None:
            raise Unfit(name)
    taken = [joined(axis, sizes) for axis, sizes in zip(axes, source.chunks)]
    chunks = tuple(sizes for part, sizes in taken if type(part) is slice)
    if set(layer) != set(product([name], *(range(len(sizes)) for sizes in chunks))):
        raise Unfit(name)
    return Known(name, chunks, source.dtype, source.array[tuple(part for part, _ in taken)])


def part_of(value):
    """The block of which a task takes a part, and the part; later versions of Dask have the key alone of a whole block."""
    if hasattr(value, 'target'):
        return value.target, (slice(None),) * (len(value.target) - 1)
    function, operands = task_of(value)
    if function not in (operator.getitem, chunk.getitem):
        raise Unfit(value)
    return operands


def joined(parts, sizes):
    """The part of an axis, and its chunks, of the parts of its blocks."""
    begins = list(accumulate(sizes, initial=0))
    if set(parts) == {None}:
        block, place = parts[None]
        return begins[block] + range(sizes[block])[operator.index(place)], ()
    ranges = [range(begins[block], begins[block + 1])[part] for block, part in (parts[k] for k in range(len(parts)))]
    if len(ranges) > 1 and not all(ranges):
        raise Unfit(parts)
    ends, total = [end for one in ranges if one for end in (one[0], one[-1])], sum(map(len, ranges))
    steps = [one.step for one in ranges if len(one) > 1] or ([ends[2] - ends[1]] if total > 1 else [1])
    whole = range(ends[0], ends[0] + total * steps[0], steps[0]) if total else range(0)
    at = 0
    for one in ranges:
        if whole[at:at + len(one)] != one:
            raise Unfit(parts)
        at += len(one)
    return slice(whole.start, whole.stop if whole.stop >= 0 else None, whole.step), tuple(map(len, ranges))


# ---- what is confirmed: each gives arrays that Dask makes again, and how the same is made here

def said_chunks(layer):
    return layer.collection_annotations['chunks']


def mapped(name, _, graph, __):
    """`from_array` of a map of a whole file, of which later versions of Dask take a copy in memory."""
    whole, chunks = plain(only(graph.layers[f'original-{name}'].values())), said_chunks(graph.layers[name])
    if type(whole) is not np.memmap or whole.dtype != NUMBER:
        raise Unfit(name)
    yield da.from_array(whole, chunks=chunks), lambda: opened(whole, chunks)


def opened(whole, chunks):
    if whole.filename is None:
        return in_file(whole, chunks)
    there = np.load(whole.filename, mmap_mode='r')
    same = all(getattr(there, fact) == getattr(whole, fact) for fact in ('dtype', 'shape', 'strides', 'offset'))
    if not same or whole.mode not in ('r', 'r+') or isinstance(whole.base, np.ndarray):
        raise Unfit(whole.filename)
    return sources.open(whole.filename, chunks=without_empty(chunks))


def constant(name, layer, _, __):
    """`ones`, `zeros` and `full`."""
    chunks, task = said_chunks(layer), layer.task if hasattr(layer, 'task') else task_of(layer.dsk[name])
    words = getattr(getattr(task, 'func', None) or task[0], 'keywords', {})
    shape, kind = tuple(map(sum, chunks)), prefix(name).partition('_')[0]
    value = words['fill_value'] if kind == 'full' else int(kind == 'ones')
    if not is_number(value):
        raise Unfit(name)
    again = getattr(da, kind)(shape, *([value] if kind == 'full' else []), dtype=NUMBER, chunks=chunks)
    yield again, lambda: sources.full(shape, number(value), without_empty(chunks))


def is_number(value):
    return isinstance(value, (int, np.signedinteger)) and not isinstance(value, bool) and -2**63 <= int(value) < 2**63


def elements(name, layer, known, _):
    """Operations element by element. The name is that of the operands before they were cut alike."""
    functions, wanted, make = ELEMENTWISE[prefix(name)]
    choices = [known[one].operands() if index is not None else [(plain(one), plain(one))] for one, index in layer.indices]
    for pairs in product(*choices):
        here, there = zip(*pairs)
        if not all(isinstance(one, Known) or is_number(one) for one in here):
            raise Unfit(name)
        dtypes = {one.dtype for one in here if isinstance(one, Known)}
        for function in functions if any(isinstance(one, da.Array) for one in there) else ():
            again = function(*there)
            if again.dtype == wanted and (make not in CONDITIONS or dtypes == {TRUTH}):
                yield again, lambda: make(*(one.array if isinstance(one, Known) else number(one) for one in here))


def converted(_, __, ___, operands):
    """`astype` of truth values."""
    one, = operands
    yield one.again().astype(NUMBER), lambda: one.array


def transposed(_, layer, __, operands):
    one, = operands
    (_, index), = layer.indices
    axes = tuple(index.index(axis) for axis in layer.output_indices)
    yield da.transpose(one.again(), axes), lambda: shapes.transpose(one.array, axes)


def rechunked(_, layer, __, operands):
    """One step of a rechunking."""
    one, = operands
    chunks = said_chunks(layer)
    yield da.rechunk(one.again(), chunks, threshold=2**62, block_size_limit=2**62), lambda: shapes.rechunk(one.array, without_empty(chunks)), one


def concatenated(name, layer, known, _):
    """Which array a block comes from says which ones were put one behind the other."""
    for axis in range(len(next(iter(layer))) - 1):
        along = sorted((key[axis + 1], getattr(of, 'target', of)) for key, of in layer.items() if not any(key[1:axis + 1] + key[axis + 2:]))
        arrays = [known[of[0]] for _, of in along if of[axis + 1] == 0]
        yield da.concatenate([one.again() for one in arrays], axis=axis), lambda: shapes.concatenate([one.array for one in arrays], axis=axis)


def folded(name, layer, _, operands):
    """Sums and the like over the axes that the chunks leave possible."""
    one, = operands
    kind = prefix(name).partition('-')[0].replace('amin', 'min').replace('amax', 'max')
    keep = len(said_chunks(layer)) == len(one.chunks)
    over = [axes for many in range(len(one.chunks) + 1) for axes in combinations(range(len(one.chunks)), many)
            if left(one.chunks, axes, keep) == said_chunks(layer)]
    for every, axes in product(EVERY, over):
        again = getattr(da, kind)(one.again(), axis=axes, keepdims=keep, split_every=every)
        yield again, lambda: with_axes(getattr(folds, kind)(one.array, axis=axes), axes if keep else ())


def left(chunks, axes, keep):
    """The chunks behind a sum over axes."""
    return tuple((1,) if axis in axes else sizes for axis, sizes in enumerate(chunks) if keep or axis not in axes)


def with_axes(array, axes):
    """The array with axes of one element, which stand at these places then."""
    if not axes:
        return array
    own = iter(range(array.ndim))
    order = [array.ndim + axes.index(axis) if axis in axes else next(own) for axis in range(array.ndim + len(axes))]
    return shapes.transpose(shapes.tensordot(array, sources.full((1,) * len(axes), 1), 0), order)


# ---- the operations element by element

def quotient(sign):
    """NumPy makes 0 of a division by 0, where this package has an error."""
    def divided(a, b):
        if not isinstance(b, Array):
            if b == 0:
                raise Unfit('division by 0')
            return elementwise(sign, a, b)
        return where(b, elementwise(sign, a, where(b, b, 1)), 0)
    return divided


def signed(sign):
    return lambda a, b: elementwise(sign, a, b)


def both(p, q):
    return elementwise('*', p, q)


def inverted(p):
    return elementwise('-', 1, p)


def either(p, q):
    return maximum(p, q)


def larger(a, b):
    return where(elementwise('-', maximum(a, b), b), 1, 0)


def lesser(a, b):
    return where(elementwise('-', minimum(a, b), b), 1, 0)


def unequal(a, b):
    return where(elementwise('-', a, b), 1, 0)


def no(compare):
    return lambda a, b: elementwise('-', 1, compare(a, b))


CONDITIONS = (both, either, inverted)  # of truth values alone
MADE_BY = [  # Dask's functions, the type of what they make, and the same here
    ((operator.add, da.add), NUMBER, signed('+')), ((operator.sub, da.subtract), NUMBER, signed('-')),
    ((operator.mul, da.multiply), NUMBER, signed('*')), ((operator.neg, da.negative), NUMBER, negative),
    ((operator.floordiv, da.floor_divide), NUMBER, quotient('//')), ((operator.mod, da.remainder), NUMBER, quotient('%')),
    ((da.minimum,), NUMBER, minimum), ((da.maximum,), NUMBER, maximum), ((da.where,), NUMBER, where),
    ((operator.gt, da.greater), TRUTH, larger), ((operator.le, da.less_equal), TRUTH, no(larger)),
    ((operator.lt, da.less), TRUTH, lesser), ((operator.ge, da.greater_equal), TRUTH, no(lesser)),
    ((operator.ne, da.not_equal), TRUTH, unequal), ((operator.eq, da.equal), TRUTH, no(unequal)),
    ((operator.and_,), TRUTH, both), ((operator.or_,), TRUTH, either), ((operator.invert,), TRUTH, inverted)]
ELEMENTWISE = {function.__name__: entry for entry in MADE_BY for function in entry[0]}
READERS = {**dict.fromkeys(ELEMENTWISE, elements), 'getitem': sliced, 'arange': counted, 'array': mapped, 'astype': converted,
           'transpose': transposed, 'rechunk-merge': rechunked, 'concatenate': concatenated,
           **dict.fromkeys(('ones_like', 'zeros_like', 'full_like'), constant),
           **dict.fromkeys((f'{kind}-aggregate' for kind in ('sum', 'prod', 'min', 'max', 'amin', 'amax')), folded)}
