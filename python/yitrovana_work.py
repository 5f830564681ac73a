"""What the workers of the cluster run, block by block. It stands on NumPy alone, and `yitrovana.cluster` sends it to every worker."""
import os

import numpy as np


class ZeroDivision(ZeroDivisionError):
    """A node divides by 0 in a block: the node's number and the block's place."""


class ReadFault(Exception):
    """A read failed."""


class WriteFault(Exception):
    """A write failed."""


ELEMENTWISE = {'+': np.add, '-': np.subtract, '*': np.multiply, 'minimum': np.minimum, 'maximum': np.maximum,
               'negate': np.negative, 'where': lambda c, a, b: np.where(c != 0, a, b), '//': np.floor_divide, '%': np.remainder}
FOLD = {'sum': np.sum, 'prod': np.prod, 'min': np.min, 'max': np.max}


def location(block_info):
    return tuple(slice(*ends) for ends in block_info[None]['array-location'])


def read_block(path, shape, descr, order, data, block_info=None):
    """A block of an array file, whose elements begin at the byte `data`, as int64."""
    part = location(block_info)
    try:
        if 0 in shape:
            return np.empty(shape, np.int64)[part]
        whole = np.memmap(path, descr, 'r', data, shape or (1,), order)
        return np.array(whole.reshape(shape, order=order)[part], np.int64, order='C')
    except (OSError, ValueError) as why:
        raise ReadFault(path) from why


def ramp_block(shape, start, step, block_info=None):
    """start + step * p at each row-major place p of a block, modulo 2^64."""
    place = np.zeros((), np.uint64)
    with np.errstate(over='ignore'):
        for length, part in zip(shape, location(block_info)):
            place = place[..., None] * np.uint64(length) + np.arange(part.start, part.stop, dtype=np.uint64)
        return np.asarray(np.uint64(start % 2**64) + np.uint64(step % 2**64) * place).astype(np.int64)


def combine(*operands, op):
    """An operation element by element, which wraps."""
    with np.errstate(over='ignore'):
        return np.asarray(ELEMENTWISE[op](*operands), np.int64)


def divide(left, right, op, node, block_id=None):
    """The same of a division, which a 0 under an element of the block refuses."""
    if np.broadcast(left, right).size and not np.all(right):
        raise ZeroDivision(node, tuple(block_id))
    with np.errstate(all='ignore'):
        return np.asarray(ELEMENTWISE[op](left, right), np.int64)


def divide_one(left, right, op, node):
    """The same for an array without axes, of whose one block Dask can't tell the place: in some graphs it takes () for a task."""
    return divide(left, right, op, node, ())


def fold(block, axis, keepdims, op):
    with np.errstate(over='ignore'):
        return np.asarray(FOLD[op](block, axis=axis, keepdims=keepdims), np.int64)


def is_made(_):
    return True


class SavedFile:
    """The data of an array file that is being written: `da.store` puts each block at its place, from any worker."""

    def __init__(self, path, shape, data):
        self.path, self.shape, self.data = path, shape, data

    def __setitem__(self, part, block):
        """Row by row: elements that stand one behind the other in the file are one write."""
        block = np.ascontiguousarray(block, '<i8').reshape(np.shape(block))
        part = part if isinstance(part, tuple) else (part,)
        try:
            with open(self.path, 'r+b', buffering=0) as file:
                for first, row in self.rows(part, block):
                    self.write(file.fileno(), memoryview(row).cast('B'), self.data + 8 * first)
        except OSError as why:
            raise WriteFault(self.path) from why

    def rows(self, part, block):
        """Where each run of elements begins in the array, and the run."""
        strides = [int(np.prod(self.shape[axis + 1:], dtype=np.int64)) for axis in range(len(self.shape))]
        axes = len(self.shape)
        while axes and block.shape[axes - 1] == self.shape[axes - 1]:
            axes -= 1
        outer = max(0, axes - 1)
        begin = sum(stride * p.start for stride, p in zip(strides, part))
        if block.size:
            for index in np.ndindex(block.shape[:outer]):
                yield begin + sum(stride * k for stride, k in zip(strides, index)), block[index].reshape(-1)

    @staticmethod
    def write(descriptor, data, at):
        while data:
            done = os.pwrite(descriptor, data, at)
            data, at = data[done:], at + done
