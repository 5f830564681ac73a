"""Each refusal: what, the exception, a part of its text, and a call."""
import contextlib
import operator
import os
import warnings

import numpy as np

import yitrovana as y
from yitrovana import text
from yitrovana.refusals import INSTEAD


@contextlib.contextmanager
def another_program(text):
    """A script in the program's place."""
    kept = os.environ['YITROVANA']
    with open('answers', 'w', encoding='ascii') as file:
        file.write('#!/bin/sh\n' + text)
    os.chmod('answers', 0o755)
    os.environ['YITROVANA'] = 'answers'
    try:
        yield
    finally:
        os.environ['YITROVANA'] = kept


def answered(status, line):
    """What comes of a program that ends so."""
    with another_program(f"echo '{line}' >&2\nexit {status}\n"):
        y.full((), 1).compute()


def killed():
    with another_program('kill -KILL $$\n'):
        y.full((), 1).compute()


def without_memory():
    """The program itself, in little address space."""
    grid = y.ramp((1024, 1024), 0, 1, (1024, 1024))
    with another_program(f'ulimit -v 12000\nexec {os.environ["YITROVANA"]} "$@"\n'):
        (grid + grid.T).compute(command='plain')


def ill_text(a):
    """A text that this package doesn't write."""
    try:
        text.Job.check = lambda self: setattr(self, 'text', self.text + 'let b9 = a1 > 3\n')
        return a.compute()
    finally:
        text.Job.check = job_check


def without_warning(call):
    """A call that warns of a limit."""
    with warnings.catch_warnings(record=True) as caught:
        warnings.simplefilter('always')
        made = call()
    assert [one.category for one in caught] == [y.LimitWarning] and caught[0].filename == __file__, caught
    return made


def many_statements(a):
    shared = [a + k for k in range(1100)]
    return y.job({'b.npy': y.concatenate([sum(one * one for one in shared)])})


job_check = text.Job.check


def cases():
    np.save('a.npy', np.arange(24).reshape(4, 6))
    np.save('float.npy', np.zeros(3))
    np.save('unsigned.npy', np.zeros(3, '<u4'))
    with open('other.npy', 'wb') as file:
        file.write(b'\x93NUMPY\x04\x00')
    np.save('gone.npy', np.arange(3))
    np.save('changed.npy', np.arange(3))
    a, t, gone, changed = y.open('a.npy', chunks=(2, 3)), y.full((2, 3, 4), 1), y.open('gone.npy'), y.open('changed.npy')
    np.save('changed.npy', np.arange(4))
    os.remove('gone.npy')
    signs = {'/': operator.truediv, '**': operator.pow, '==': operator.eq, '!=': operator.ne, '>': operator.gt, '>=': operator.ge,
             '<': operator.lt, '<=': operator.le, '&': operator.and_, '|': operator.or_, '^': operator.xor, '<<': operator.lshift,
             '>>': operator.rshift}
    for sign, call in signs.items():
        yield f'a {sign} 2', TypeError, 'write', lambda call=call: call(a, 2)
        yield f'2 {sign} a', TypeError, 'write', lambda call=call: call(2, a)
    yield '~a', TypeError, '-a - 1', lambda: ~a
    yield 'abs(a)', TypeError, 'y.maximum(a, -a)', lambda: abs(a)
    for name in filter(str.isidentifier, INSTEAD):
        if not hasattr(y.Array, name):
            yield f'a.{name}', AttributeError, 'write', lambda name=name: getattr(a, name)
        if name not in y.__all__:
            yield f'y.{name}', AttributeError, 'write', lambda name=name: getattr(y, name)
    for name in ('abs', 'sign', 'mean', 'cumsum', 'stack', 'roll', 'sort', 'diff'):
        yield f'np.{name}(a)', TypeError, 'write', lambda name=name: getattr(np, name)([a, a] if name == 'stack' else a, *([1] if name == 'roll' else []))
    yield 'np.power(a, 2)', TypeError, 'a * a * a', lambda: np.power(a, 2)
    yield 'np.add.reduce(a)', TypeError, 'write', lambda: np.add.reduce(a)
    yield 'a nothing', AttributeError, 'nothing', lambda: a.nothing
    yield 'y nothing', AttributeError, 'nothing', lambda: y.nothing
    yield 'float', TypeError, 'scale', lambda: a * 1.5
    yield "NumPy's operand", TypeError, 'np.save', lambda: a + np.arange(6)
    yield "NumPy's operand left", TypeError, 'np.save', lambda: np.arange(6) + a
    yield "NumPy's matrix", TypeError, 'np.save', lambda: a @ np.ones((6, 2), int)
    yield 'text', TypeError, '', lambda: a + 'x'
    yield 'number', OverflowError, 'limit number', lambda: a + 2**63
    yield 'truth', TypeError, 'compute', lambda: bool(a)
    yield 'assignment', TypeError, 'nothing is changed', lambda: operator.setitem(a, 0, 1)
    yield 'len', TypeError, 'without axes', lambda: len(a.sum())
    yield 'broadcast', ValueError, 'broadcast', lambda: a + a.T
    yield 'axis', np.AxisError if hasattr(np, 'AxisError') else np.exceptions.AxisError, 'out of bounds', lambda: a.sum(axis=2)
    yield 'axis twice', ValueError, 'twice', lambda: a.sum(axis=(0, -2))
    yield 'keepdims', TypeError, 'y.tensordot', lambda: a.sum(axis=1, keepdims=True)
    yield 'split_every', ValueError, 'at least 2', lambda: a.sum(split_every=1)
    yield 'empty', ValueError, 'no identity', lambda: a[4:].min(axis=0)
    yield 'None', TypeError, 'y.tensordot', lambda: a[:, None]
    yield 'mask', TypeError, 'y.where', lambda: a[np.ones((4, 6), bool)]
    yield 'lazy mask', TypeError, 'y.where', lambda: a[a]
    yield 'list', TypeError, 'y.concatenate', lambda: a[[2, 0]]
    yield 'parts', IndexError, '3 parts', lambda: a[0, 0, 0]
    yield 'dots', IndexError, 'at most one', lambda: a[..., ...]
    yield 'a copy that is none', ValueError, 'copy', lambda: a.__array__(copy=False)
    yield 'a dtype', TypeError, 'int64', lambda: a.astype(float)
    yield 'a dtype of a sum', TypeError, 'int64', lambda: a.sum(dtype='i4')
    yield 'a fraction without axes', TypeError, 'scale', lambda: a + np.array(1.5)
    yield 'numbers', TypeError, 'compute', lambda: int(a.sum())
    yield 'divmod', TypeError, 'a // b, a % b', lambda: divmod(a, 3)
    yield 'index', IndexError, 'index 4', lambda: a[4]
    yield 'step', ValueError, 'zero', lambda: a[::0]
    yield 'tensordot of too many', ValueError, '3 axes', lambda: y.tensordot(a, a, 3)
    yield 'transpose', ValueError, 'axes given', lambda: a.transpose(0)
    yield 'where alone', TypeError, 'write', lambda: y.where(a)
    yield 'flat', TypeError, 'flattened', lambda: y.concatenate([a, a], axis=None)
    yield 'concatenate', ValueError, 'differ', lambda: y.concatenate([a, a.T])
    yield 'concatenate nothing', ValueError, 'at least one', lambda: y.concatenate([])
    yield 'concatenate numbers', TypeError, 'takes arrays', lambda: y.concatenate([a, 1])
    yield 'tensordot', ValueError, 'differ', lambda: y.tensordot(a, a, 1)
    yield 'matmul', TypeError, 'y.tensordot', lambda: a[:, :3] @ t
    yield 'matmul of other lengths', ValueError, 'differ', lambda: a @ a
    yield 'matmul number', ValueError, 'with axes', lambda: a @ a.sum()
    yield 'axes', ValueError, 'limit axes', lambda: y.full((1,) * 9, 1)
    yield 'elements', ValueError, 'limit elements', lambda: y.full((65536, 65536), 1)
    yield 'length', ValueError, 'negative', lambda: y.full((-1,), 1)
    yield 'chunks count', ValueError, 'chunks: 1', lambda: a.rechunk((2,))
    yield 'chunks zero', ValueError, 'chunks: axis 0', lambda: a.rechunk((0, 3))
    yield 'chunks sum', ValueError, 'sum 5', lambda: a.rechunk((2, (2, 3)))
    yield 'no array file', ValueError, 'magic', lambda: y.open(__file__)
    yield 'chunks word', TypeError, 'auto', lambda: a.rechunk(('auto', 3))
    yield 'dtype', TypeError, 'astype', lambda: y.open('float.npy')
    yield 'dtype without a sign', TypeError, 'where the program reads <i8, >i8, <i4,', lambda: y.open('unsigned.npy')
    yield 'version', ValueError, 'version 4.0', lambda: y.open('other.npy')
    yield 'no file', FileNotFoundError, 'none.npy', lambda: y.open('none.npy')
    yield 'name', ValueError, 'ASCII', lambda: a.save('ü.npy')
    yield 'quote', ValueError, 'ASCII', lambda: a.save('a".npy')
    yield 'input saved', ValueError, 'input', lambda: (a + 1).save('./a.npy')
    yield 'saved twice', ValueError, 'twice', lambda: y.save({'b.npy': a, './b.npy': a})
    yield 'nothing saved', ValueError, 'at least one', lambda: y.save({})
    yield 'workers', ValueError, 'from 1 to 64', lambda: a.compute(workers=65)
    yield 'allowed failures', ValueError, 'from 0 to 1000', lambda: a.compute(allowed_failures=-1)
    yield 'allowed failures of another command', TypeError, 'takes no `allowed_failures`', lambda: a.compute(command='plain', allowed_failures=1)
    yield 'threads together', ValueError, 'more than 64 threads', lambda: a.compute(workers=64)
    yield 'an option of another command', TypeError, 'takes no `memory`', lambda: a.compute(command='plain', memory=1)
    yield 'a command', ValueError, "'run', 'plain', 'sim'", lambda: a.compute(command='walk')
    yield 'a script', ValueError, 'dask: words', lambda: a.compute(script='lose:9@1')
    yield 'status 2', ValueError, 'dask: job 3:13: token, in the line: let b9 = a1 > 3', lambda: ill_text(a)
    yield 'status 3', ValueError, f'shape (4,) declared (3,). It was opened in {__file__}, line', changed.compute
    yield 'status 4', ZeroDivisionError, f'in the part [2:4, 3:6] of the array (4, 6) of {__file__}, line', (a // (a - 23)).compute
    yield 'status 5', FileNotFoundError, 'dask: read fault: it is not there any more', gone.compute
    yield 'status 6', FileNotFoundError, 'dask: write fault: its folder is not there', lambda: a.save('no/folder.npy')
    yield 'status 6 of a folder', OSError, 'dask: write fault', lambda: a.save('.')
    yield 'status 11', RuntimeError, 'dask: killed worker: key 1 losses 1: take a larger `allowed_failures`', \
        lambda: (y.ramp((1,), 0, 1, (1,)) + 1).compute(command='sim', workers=2, threads=1, script='suspect:1@1', allowed_failures=0)
    yield 'a program that is killed', RuntimeError, 'ended by SIGKILL, which the system sends', killed
    yield 'status 8', MemoryError, 'dask: out of memory: take smaller chunks', without_memory
    small = y.ramp((20000,), 0, 1, 1)
    for what, make in (('keys', lambda: y.ramp((40000,), 0, 1, 1)), ('edges', lambda: y.ramp((1024, 1024), 0, 1, (1, 1024)).rechunk((1024, 2))),
                       ('block bytes', lambda: y.full((32768, 1024), 0, (32768, 1024)))):
        yield f'limit {what}', ValueError, f'limit {what}', without_warning(make).compute
    yield 'limit keys of several', ValueError, f'It is passed with the array (20000,) of {__file__}, line', (small + small[::-1]).compute
    yield 'limit statements', ValueError, 'limit statements', lambda: many_statements(a)
    yield 'too many chunks', ValueError, 'more than 1048576 chunks', lambda: y.full((2**31,), 0, 1)
    yield 'memory', ValueError, '1GiB', lambda: a.compute(memory='1 lot')
    for status, kind, line in ((2, ValueError, 'dask: job 2:5: grammar'), (5, OSError, 'dask: read fault'), (8, MemoryError, 'dask: out of memory'),
                               (10, RuntimeError, 'dask: turns'), (70, RuntimeError, 'no build')):
        yield f'an answered status {status}', kind, line, lambda status=status, line=line: answered(status, line)
