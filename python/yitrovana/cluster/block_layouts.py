"""How the array of each node is cut into blocks, and which blocks a block is made of. Written from docs/OPERATIONS.md.

A layout has for each axis the sizes of its chunks. A block is named by its node and its place on each axis, from 0.
"""
from bisect import bisect_right
from itertools import accumulate, product
from math import prod

from .job_text import FOLDS, Refused

BLOCKS = 2**20  # more blocks than the program takes; fewer than fill a client's memory


def starts(sizes):
    """Where each chunk begins, and where the last one ends."""
    return list(accumulate(sizes, initial=0))


def axis_of(length, sizes):
    """An axis of a length that is cut by a number or by a list of sizes."""
    if length == 0:
        return (0,)
    if not isinstance(sizes, int):
        return sizes
    if length > sizes * BLOCKS:
        raise Refused(9, 'limit keys')
    return (sizes,) * (length // sizes) + ((length % sizes,) if length % sizes else ())


def united(axes):
    """One axis cut wherever one of these is, which have the same length."""
    cuts = sorted(set().union(*(starts(sizes) for sizes in axes)))
    return tuple(end - start for start, end in zip(cuts, cuts[1:])) or (0,)


def common(shape, layouts):
    """The layout of an array of this shape under which these layouts stand, broadcast."""
    result = []
    for axis, length in enumerate(reversed(shape)):
        axes = [layout[-1 - axis] for layout in layouts if axis < len(layout)]
        result.append(united([sizes for sizes in axes if sum(sizes) == length]))
    return tuple(reversed(result))


def under(layout, shape):
    """What an operand of this shape is cut like, of an operation element by element with this layout."""
    if not shape:
        return ()
    return tuple(sizes if sum(sizes) == length else (1,) for sizes, length in zip(layout[-len(shape):], shape))


def pieces(sizes, part):
    """The chunks that have an element in a range of their axis, in its order, each with how many it has there."""
    taken = range(sum(sizes))[part]
    if not taken:
        return [(0, 0)]
    begins, result, at = starts(sizes), [], 0
    while at < len(taken):
        chunk = bisect_right(begins, taken[at]) - 1
        last = begins[chunk + 1] - 1 if taken.step > 0 else begins[chunk]
        count = min(len(taken) - at, (last - taken[at]) // taken.step + 1)
        result.append((chunk, count))
        at += count
    return result


def joined_operands(node, nodes):
    """The operands of a concatenation that have elements along its axis, or the first one where none has."""
    axis = node.fields['axis']
    return [operand for operand in node.operands if nodes[operand].shape[axis]] or node.operands[:1]


def joined_layouts(node, nodes, layouts):
    """The layouts of these operands, once they agree on the other axes."""
    axis, first = node.fields['axis'], layouts[node.operands[0]]
    agreed = [united([layouts[operand][k] for operand in node.operands]) for k in range(len(first))]
    return [tuple(layouts[operand][k] if k == axis else agreed[k] for k in range(len(first)))
            for operand in joined_operands(node, nodes)]


def product_layouts(node, layouts):
    """The layouts of a product's operands, once the paired axes are cut alike."""
    left, right = (list(layouts[operand]) for operand in node.operands)
    for one, other in zip(*node.fields['axes']):
        left[one] = right[other] = united([left[one], right[other]])
    return tuple(left), tuple(right)


def layout_of(node, nodes, layouts):
    op, operands = node.op, [layouts[operand] for operand in node.operands]
    if op in ('input', 'full', 'ramp', 'rechunk'):
        return tuple(map(axis_of, node.shape, node.fields['chunks']))
    if op == 'slice':
        parts = node.fields['parts']
        whole = operands[0][len(parts):]
        return tuple(tuple(count for _, count in pieces(sizes, part)) for sizes, part in zip(operands[0], parts)
                     if isinstance(part, slice)) + whole
    if op == 'transpose':
        return tuple(operands[0][axis] for axis in node.fields['axes'])
    if op == 'concatenate':
        axis, parts = node.fields['axis'], joined_layouts(node, nodes, layouts)
        return parts[0][:axis] + (tuple(size for part in parts for size in part[axis]),) + parts[0][axis + 1:]
    if op in FOLDS:
        return tuple(sizes for axis, sizes in enumerate(operands[0]) if axis not in node.fields['axes'])
    if op == 'tensordot':
        sides = zip(product_layouts(node, layouts), node.fields['axes'])
        return tuple(sizes for layout, axes in sides for axis, sizes in enumerate(layout) if axis not in axes)
    return common(node.shape, operands)


def all_layouts(job):
    layouts = []
    for node in job.nodes:
        layouts.append(layout_of(node, job.nodes, layouts))
        if prod(map(len, layouts[-1])) > BLOCKS:
            raise Refused(9, 'limit keys')
    return layouts


# ---- what a block is made of

def meeting(layout, region):
    """The blocks of a layout that meet a region, by its first and its end on each axis, in an element, in row-major order."""
    if any(first >= end for first, end in region):
        return []
    axes = []
    for sizes, (first, end) in zip(layout, region):
        begins = starts(sizes)
        axes.append(range(bisect_right(begins, first) - 1, bisect_right(begins, end - 1)))
    return list(product(*axes))


class Blocks:
    """The blocks of a job."""

    def __init__(self, job):
        self.job, self.layouts = job, all_layouts(job)

    def indices(self, node):
        return product(*(range(len(sizes)) for sizes in self.layouts[node]))

    def through(self, operand, layout, index):
        """The operand's blocks that its block in another layout is made of."""
        if layout == self.layouts[operand]:
            return [(operand, index)]
        begins = [starts(sizes) for sizes in layout]
        region = [(begin[at], begin[at + 1]) for begin, at in zip(begins, index)]
        return [(operand, block) for block in meeting(self.layouts[operand], region)]

    def made_of(self, number, index):
        """The blocks that a block is made of, in the order in which the program numbers them."""
        node = self.job.nodes[number]
        if not node.operands:
            return []
        of = {'slice': self.of_slice, 'transpose': self.of_transpose, 'rechunk': self.of_rechunk, 'tensordot': self.of_product,
              'concatenate': self.of_concatenation, **dict.fromkeys(FOLDS, self.of_fold)}
        return of.get(node.op, self.of_elements)(number, node, index)

    def of_elements(self, number, node, index):
        result = []
        for operand in node.operands:
            layout = under(self.layouts[number], self.job.nodes[operand].shape)
            at = index[len(index) - len(layout):]
            result += self.through(operand, layout, tuple(min(k, len(sizes) - 1) for k, sizes in zip(at, layout)))
        return result

    def of_slice(self, _, node, index):
        layout, parts = self.layouts[node.operands[0]], node.fields['parts']
        kept, block = iter(index), []
        for axis, sizes in enumerate(layout):
            if axis >= len(parts):
                block.append(next(kept))
            elif isinstance(parts[axis], slice):
                block.append(pieces(sizes, parts[axis])[next(kept)][0])
            else:
                block.append(bisect_right(starts(sizes), parts[axis] % sum(sizes)) - 1)
        return [(node.operands[0], tuple(block))]

    def of_transpose(self, _, node, index):
        block = [0] * len(index)
        for place, axis in zip(index, node.fields['axes']):
            block[axis] = place
        return [(node.operands[0], tuple(block))]

    def of_rechunk(self, number, node, index):
        return self.through(node.operands[0], self.layouts[number], index)

    def of_concatenation(self, _, node, index):
        axis, place = node.fields['axis'], index[node.fields['axis']]
        for operand, layout in zip(joined_operands(node, self.job.nodes), joined_layouts(node, self.job.nodes, self.layouts)):
            if place < len(layout[axis]):
                return self.through(operand, layout, index[:axis] + (place,) + index[axis + 1:])
            place -= len(layout[axis])
        return []

    def of_fold(self, _, node, index):
        kept, axes = iter(index), []
        for axis, sizes in enumerate(self.layouts[node.operands[0]]):
            axes.append(range(len(sizes)) if axis in node.fields['axes'] else (next(kept),))
        return [(node.operands[0], block) for block in product(*axes)]

    def of_product(self, _, node, index):
        layouts, paired = product_layouts(node, self.layouts), node.fields['axes']
        kept = iter(index)
        places = [[None if axis in axes else next(kept) for axis in range(len(layout))] for layout, axes in zip(layouts, paired)]
        result = []
        for along in product(*(range(len(layouts[0][axis])) for axis in paired[0])):
            for operand, layout, place, axes in zip(node.operands, layouts, places, paired):
                block = tuple(along[axes.index(axis)] if axis in axes else place[axis] for axis in range(len(layout)))
                result += self.through(operand, layout, block)
        return result

    def needed(self):
        """The blocks that the saved arrays rest on, depth first: save by save, block by block, each behind those it is made of."""
        seen = set()
        for node in self.job.saves.values():
            for index in self.indices(node):
                yield from self.behind((node, index), seen)

    def behind(self, block, seen):
        if block in seen:
            return
        seen.add(block)
        open_blocks = [(block, iter(self.made_of(*block)))]
        while open_blocks:
            above, rest = open_blocks[-1]
            for below in rest:
                if below not in seen:
                    seen.add(below)
                    open_blocks.append((below, iter(self.made_of(*below))))
                    break
            else:
                open_blocks.pop()
                yield above
