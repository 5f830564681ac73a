"""The nodes of a job as arrays of dask.array, in exactly the blocks of their layouts."""
import warnings
from functools import partial

import dask.array as da
import numpy as np

import yitrovana_work as block_work

from .block_layouts import joined_layouts, joined_operands, product_layouts, under
from .job_text import FOLDS

# A rechunking goes in one step and not over other chunks, so that a block rests on no more blocks than it is made of.
AT_ONCE = {'threshold': 2**62, 'block_size_limit': 2**62}


def meta(shape):
    return np.empty((0,) * len(shape), np.int64)


def rechunked(array, layout):
    return array if array.chunks == layout else da.rechunk(array, layout, **AT_ONCE)


def slice_of(part, length):
    """A part that Dask takes in the same way, with no bounds beyond the axis and no step beyond what it takes."""
    if not isinstance(part, slice):
        return part % length
    taken = range(length)[part]
    if len(taken) < 2:
        return slice(taken[0], taken[0] + 1) if taken else slice(0, 0)
    end = taken[-1] + (1 if taken.step > 0 else -1)
    return slice(taken[0], end if end >= 0 else None, taken.step)


class Arrays:
    """The arrays of a job's nodes, each made when it is asked for. `files` has each input's path, type, order and first byte of data."""

    def __init__(self, blocks, files):
        self.job, self.blocks, self.layouts, self.files, self.made = blocks.job, blocks, blocks.layouts, files, {}

    def array(self, number):
        """The array of a node; those that it is made of come first, without recursion, since there may be many."""
        open_nodes = [number]
        while open_nodes:
            above = open_nodes[-1]
            below = [operand for operand in self.job.nodes[above].operands if operand not in self.made]
            if below:
                open_nodes += below
            else:
                open_nodes.pop()
                if above not in self.made:
                    self.made[above] = self.make(above)
        return self.made[number]

    def make(self, number):
        node = self.job.nodes[number]
        of = {'input': self.input, 'full': self.full, 'ramp': self.ramp, 'slice': self.slice, 'transpose': self.transpose,
              'rechunk': self.rechunk, 'concatenate': self.concatenate, 'tensordot': self.tensordot, '//': self.division,
              '%': self.division, **dict.fromkeys(FOLDS, self.fold)}
        with warnings.catch_warnings():
            # the layout is given, so no advice on it is wanted
            warnings.simplefilter('ignore', da.PerformanceWarning)
            array = of.get(node.op, self.elementwise)(number, node)
        assert array.chunks == self.layouts[number] and array.shape == node.shape, (node, array.chunks, self.layouts[number])
        return array

    def operands(self, node):
        return [self.made[operand] for operand in node.operands]

    def blockwise(self, function, number, *arrays, **words):
        shape = self.job.nodes[number].shape
        return da.map_blocks(function, *arrays, chunks=self.layouts[number], dtype=np.int64, meta=meta(shape), **words)

    def input(self, number, node):
        path, descr, order, data = self.files[number]
        return self.blockwise(block_work.read_block, number, path=path, shape=node.shape, descr=descr, order=order, data=data)

    def full(self, number, node):
        return da.full(node.shape, node.fields['value'], dtype=np.int64, chunks=self.layouts[number])

    def ramp(self, number, node):
        return self.blockwise(block_work.ramp_block, number, shape=node.shape, start=node.fields['start'], step=node.fields['step'])

    def aligned(self, number, node):
        """The operands of an operation element by element, cut as the result is."""
        return [rechunked(array, under(self.layouts[number], array.shape)) for array in self.operands(node)]

    def elementwise(self, number, node):
        return self.blockwise(block_work.combine, number, *self.aligned(number, node), op=node.op)

    def division(self, number, node):
        function = block_work.divide if node.shape else block_work.divide_one
        return self.blockwise(function, number, *self.aligned(number, node), op=node.op, node=number)

    def slice(self, _, node):
        return self.operands(node)[0][tuple(map(slice_of, node.fields['parts'], self.job.nodes[node.operands[0]].shape))]

    def transpose(self, _, node):
        return da.transpose(self.operands(node)[0], node.fields['axes'])

    def rechunk(self, number, node):
        return rechunked(self.operands(node)[0], self.layouts[number])

    def concatenate(self, _, node):
        operands, layouts = joined_operands(node, self.job.nodes), joined_layouts(node, self.job.nodes, self.layouts)
        return da.concatenate([rechunked(self.made[it], layout) for it, layout in zip(operands, layouts)], node.fields['axis'])

    def fold(self, _, node):
        array, axes = self.operands(node)[0], node.fields['axes']
        if not axes:
            return array
        function = partial(block_work.fold, op=node.op)
        return da.reduction(array, function, function, axis=axes, dtype=np.int64, meta=meta(node.shape),
                            split_every=min(node.fields['split_every'], 2**20))

    def tensordot(self, _, node):
        left, right = map(rechunked, self.operands(node), product_layouts(node, self.layouts))
        return da.tensordot(left, right, node.fields['axes'])
