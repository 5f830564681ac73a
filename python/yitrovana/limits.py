"""The limits of docs/PROGRAM.md, and how many tasks an array is made of: counted, so that they are told before a run."""
import warnings
from math import prod

from .layouts import under, unify
from .places import told

AXES, ELEMENTS = 8, 2**31
STATEMENTS, NODES, BYTES = 1024, 65536, 2**20
KEYS, EDGES, BLOCK_BYTES = 32768, 262144, 2**27
FOLDS = ('sum', 'prod', 'min', 'max')


class LimitWarning(UserWarning):
    """An array that `run`, `plain` and `sim` refuse, since its tasks pass a limit. A cluster of Dask takes it."""


def check_shape(shape):
    if len(shape) > AXES:
        raise ValueError(f'limit axes: {len(shape)} axes, where at most {AXES} can be')
    if prod(shape) > ELEMENTS or any(length > ELEMENTS for length in shape):
        raise ValueError(f'limit elements: {shape} passes 2^31: take a part of it, or several jobs over parts')


def warn(array):
    """Says at the call that makes an array that its tasks alone pass a limit."""
    reason = passed(*cost(array))
    if reason:
        message = f'{reason}. The program refuses it; a cluster of Dask takes it.'
        warnings.warn_explicit(message, LimitWarning, *(array.place or ('unknown', 1)))


def passed(keys, edges, largest):
    """Which limit such numbers pass, and what to do; nothing where they pass none."""
    if keys > KEYS:
        return f'limit keys: {keys} tasks, where a job has at most {KEYS}: take larger chunks'
    if edges > EDGES:
        return f'limit edges: {edges} dependencies of tasks, where a job has at most {EDGES}: take larger chunks, or change them in two steps'
    if largest > BLOCK_BYTES:
        return f'limit block bytes: a block of {largest} bytes, where one has at most {BLOCK_BYTES}: take smaller chunks'
    return None


def check(arrays, name=id):
    """Refuses arrays whose tasks together pass a limit, and names the array with which they do. `name` tells arrays apart."""
    keys = edges = 0
    for array in arrays:
        own_keys, own_edges, largest = cost(array, name)
        keys, edges = keys + own_keys, edges + own_edges
        reason = passed(keys, edges, largest)
        if reason:
            raise ValueError(f'{reason}. It is passed with the array {array.shape} of {told(array.place)}')


def count(arrays, name=id):
    """The tasks of arrays, and their dependencies: all, also those on which no saved block rests."""
    costs = [cost(array, name) for array in arrays]
    return sum(keys for keys, _, _ in costs), sum(edges for _, edges, _ in costs)


def cost(array, name=id):
    """The tasks of an array itself, how many dependencies they have, and the bytes of its largest block."""
    blocks, largest = prod(array.numblocks), 8 * prod(map(max, array.chunks))
    if not array.operands:
        keys, edges = blocks if array.operation != 'number' else 0, 0
    elif array.operation == 'rechunk':
        keys, edges = blocks, crossings(array.operands[0].chunks, array.chunks)
    elif array.operation in FOLDS:
        keys, edges = fold(array, blocks)
    elif array.operation == 'tensordot':
        keys, edges = product(array, blocks, name)
    elif array.operation == 'concatenate':
        keys, edges = concatenation(array, blocks)
    elif array.operation in ('slice', 'transpose'):
        keys, edges = blocks, blocks
    else:
        keys, edges = elementwise(array, blocks, name)
    return keys, edges, largest


def crossings(old, new):
    """How many pairs of an old and of a new block have an element in common."""
    return prod(len(unify([before, after])) if sum(before) else 0 for before, after in zip(old, new))


def brought(array, chunks):
    """The tasks that bring an array into other chunks, and their dependencies."""
    return (0, 0) if array.chunks == chunks else (prod(map(len, chunks)), crossings(array.chunks, chunks))


def elementwise(array, blocks, name):
    """A number is a task of its own wherever it stands, on which nothing depends. An operand that stands there twice is one
    dependency, where it isn't cut anew."""
    keys, edges, whole = blocks + sum(operand.operation == 'number' for operand in array.operands), 0, set()
    for operand in array.operands:
        if operand.operation in ('number', 'full') and not operand.shape:
            continue
        own_keys, own_edges = brought(operand, under(array.chunks, operand.shape))
        keys, edges = keys + own_keys, edges + own_edges
        if own_keys or name(operand) not in whole:
            edges += blocks
        if not own_keys:
            whole.add(name(operand))
    return keys, edges


def concatenation(array, blocks):
    axis, = array.parameters
    keys = edges = blocks
    for operand in array.operands:
        own_keys, own_edges = brought(operand, array.chunks[:axis] + operand.chunks[axis:axis + 1] + array.chunks[axis + 1:])
        keys, edges = keys + own_keys, edges + own_edges
    return keys, edges


def joined(partials, every):
    """The tasks that join partial results by so many at once, and their dependencies."""
    keys = edges = 0
    while partials > 1:
        edges += partials
        partials = -(-partials // every)
        keys += partials
    return keys, edges


def fold(array, blocks):
    (axes, every), operand = array.parameters, array.operands[0]
    partials = prod(len(operand.chunks[axis]) for axis in axes)
    keys, edges = joined(partials, every or 4)
    return blocks * (partials + keys), blocks * (partials + edges)


def product(array, blocks, name):
    """Of a product of an array with itself some dependencies are one, so that these are the fewest that there can be."""
    left, right = (list(operand.chunks) for operand in array.operands)
    for one, other in zip(*array.parameters):
        left[one] = right[other] = unify([left[one], right[other]])
    partials = prod(len(left[axis]) for axis in array.parameters[0])
    keys, edges = joined(partials, 4)
    keys, edges = blocks * (partials + keys), blocks * edges
    for operand, chunks in zip(array.operands, (left, right)):
        own_keys, own_edges = brought(operand, tuple(chunks))
        keys, edges = keys + own_keys, edges + own_edges
    first, second = map(name, array.operands)
    each = 1 if first == second and left == right else 2
    return keys, edges + blocks * partials * each
