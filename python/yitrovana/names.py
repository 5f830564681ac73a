"""NumPy's operators, methods and functions for lazy arrays."""
import numpy as np

from . import folds
from .arrays import Array
from .elements import elementwise, maximum, minimum, negative, where
from .parts import part
from .refusals import refused
from .shapes import concatenate, matmul, rechunk, tensordot, transpose

OPERATORS = {'+': 'add', '-': 'sub', '*': 'mul', '//': 'floordiv', '%': 'mod'}
LACKING = {'/': 'truediv', '**': 'pow', '&': 'and', '|': 'or', '^': 'xor', '<<': 'lshift', '>>': 'rshift', 'divmod': 'divmod'}
LACKING_ALONE = {'==': 'eq', '!=': 'ne', '>': 'gt', '>=': 'ge', '<': 'lt', '<=': 'le', '~': 'invert', 'absolute': 'abs'}
UFUNCS = {np.add: '+', np.subtract: '-', np.multiply: '*', np.floor_divide: '//', np.remainder: '%', np.minimum: 'minimum',
          np.maximum: 'maximum'}
FUNCTIONS = {np.where: where, np.concatenate: concatenate, np.tensordot: tensordot, np.transpose: transpose, np.sum: folds.sum,
             np.prod: folds.prod, np.min: folds.min, np.amin: folds.min, np.max: folds.max, np.amax: folds.max}


def operator(sign):
    def here(a, b):
        return elementwise(sign, a, b)

    def turned(b, a):
        return elementwise(sign, a, b)
    return here, turned


def lacking(name):
    def refuse(*_):
        raise refused(name)
    return refuse


def by_ufunc(self, ufunc, method, *operands, **options):
    """What NumPy's functions element by element make of lazy arrays."""
    if method != '__call__' or options:
        raise refused('out', f'`{ufunc.__name__}.{method}` with such options')
    if ufunc is np.matmul:
        return matmul(*operands)
    if ufunc is np.negative:
        return negative(*operands)
    if ufunc is np.positive:
        return self
    if ufunc not in UFUNCS:
        raise refused(ufunc.__name__)
    return elementwise(UFUNCS[ufunc], *operands)


def by_function(self, function, types, operands, options):
    """What NumPy's other functions make of lazy arrays."""
    if function not in FUNCTIONS:
        raise refused(function.__name__)
    return FUNCTIONS[function](*operands, **options)


def transposed(self, *axes):
    """`transpose`, with the axes in one tuple or one by one."""
    return transpose(self, axes[0] if len(axes) == 1 and not hasattr(axes[0], '__index__') else axes or None)


def put_on(array):
    """Puts all this on the class of lazy arrays."""
    for sign, name in OPERATORS.items():
        here, turned = operator(sign)
        setattr(array, f'__{name}__', here)
        setattr(array, f'__r{name}__', turned)
    for sign, name in LACKING.items():
        setattr(array, f'__{name}__', lacking(sign))
        setattr(array, f'__r{name}__', lacking(sign))
    for sign, name in LACKING_ALONE.items():
        setattr(array, f'__{name}__', lacking(sign))
    array.__neg__, array.__pos__, array.__getitem__ = negative, lambda a: a, part
    array.__matmul__, array.__rmatmul__ = matmul, lambda b, a: matmul(a, b)
    array.sum, array.prod, array.min, array.max = folds.sum, folds.prod, folds.min, folds.max
    array.transpose, array.rechunk, array.T = transposed, rechunk, property(transpose)
    array.__array_ufunc__, array.__array_function__ = by_ufunc, by_function


put_on(Array)
