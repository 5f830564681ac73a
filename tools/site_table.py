#!/usr/bin/env python3
"""Writes the lines of the program site_table, and what is wanted for each.

Run it with a Python that has NumPy, at the top of the repository:

    /usr/bin/python3 tools/site_table.py

The files are those that NumPy writes, and the saved arrays are NumPy's. Statuses, lines, counts and places are worked out by
hand from the tables of docs/PROGRAM.md and docs/FORMATS.md. Digests are those of hashlib. What jobs by chance answer, which block meets a zero divisor, and how
many turns a simulation takes, is said by run_model.py, a model that was written apart from the program. The script never runs
the program.
"""
import hashlib
import io
import os
import re

import numpy as np

import block_folds
import run_cases
from job_graphs import Chance
from run_model import Run, lower
from site_lines import (ARRAYS, DIFFERENCE, ENDS, INPUT, LINES, ONE_CELL, PAIR, PAIR_SAVES, STOPPED, SUM, UNPRINTED, UNWRITTEN, WANTED,
                        X_AND_D, fail, job, lines_of, npy, often, once, partly, refusal, saved, saved_lines, say, shape_text, shelve,
                        text, title, told)


def shown(out, err, faults, file, held):
    """The answer of `show`."""
    return f'show: out "{out}" err "{err}" faults {faults} {file} {held}'


def both(file, answer):
    """Each of its commands runs `job.txt`, twice."""
    for command in ENDS:
        often(file, f'{command} job.txt', answer(command))


def both_save(file, *saves):
    """The same of a job that saves these arrays."""
    held = text(saved(dict(saves)[file]))
    both(file, lambda command: told(0, lines_of(command, *saves), '', '0 0 0 0', file, held))


COLUMNS = np.asfortranarray(np.array([[1, 3, 5], [2, 4, 6]], dtype=np.int64))
A, ONE, MOST, LEAST, X, D, R, P, Q, M = (ARRAYS[k + '.npy'] for k in ('a', 'one', 'most', 'least', 'x', 'd', 'r', 'p', 'q', 'm'))


TYPES = ('<i8', '>i8', '<i4', '>i4', '<i2', '>i2', '|i1')


def type_file(dtype, version):
    """The name of the file of this type in this version, as `2i4b.npy`."""
    return f'{version}{dtype[1:]}{"b" if dtype[0] == ">" else "l"}.npy'


def full(shape, value):
    return np.full(shape, value, dtype=np.int64)


def ramp(shape, start, step):
    count = int(np.prod(shape, dtype=np.int64))
    return (start + step * np.arange(count, dtype=np.int64)).reshape(shape)


def doubled():
    """Sixty sums, each of the one before it and itself: it ends only where each node is evaluated once."""
    sums = ''.join(f'let a{k + 1} = a{k} + a{k}|' for k in range(60))
    return f'let a0 = full((), 1, ())|{sums}save a60 "o.npy"|', full((), 2**60)


def saving(inputs, expression, array):
    lines = ''.join(INPUT[name] for name in inputs)
    return lines + f'let b = {expression}|save b "o.npy"|', array


def saved_jobs():
    with np.errstate(over='ignore'):
        return [
            saving(['a'], 'a + 1', A + 1),
            saving(['a'], 'sum(a)', np.sum(A)),
            saving(['e'], 'sum(e)', np.sum(ARRAYS['e.npy'])),
            saving(['most'], 'm + 1', MOST + 1),
            saving(['least'], 'm // -1', -LEAST),
            saving(['least'], 'm % -1', LEAST % -1),
            saving([], 'full((1), -7, (1)) // 2', full((1,), -7) // 2),
            saving([], 'full((1), -7, (1)) % 2', full((1,), -7) % 2),
            saving([], 'full((1), 7, (1)) % -2', full((1,), 7) % -2),
            saving(['r'], 'r[::-2]', R[::-2]),
            saving(['r'], 'r[5:2]', R[5:2]),
            ('input f "columns.npy" shape (2, 3) chunks (1, 3)|save f "o.npy"|', np.ascontiguousarray(COLUMNS)),
            saving(['p', 'q'], 'p + q', P + Q),
            doubled(),
            saving([], 'ramp((2, 3), 5, -2, (1, 2))', ramp((2, 3), 5, -2)),
            saving([], '7 - full((2), 10, (1)) * -3', 7 - full((2,), 10) * -3),
            saving([], 'full((1), -9223372036854775808, (1))', full((1,), -2**63)),
            saving([], '-7 % 2', full((), -7) % 2),
            saving([], '-(7 % 2)', -(full((), 7) % 2)),
            saving([], '10 - 4 - 3', full((), 10) - 4 - 3),
            saving([], 'ramp((8), 0, 1, (3))[6:1:-2]', ramp((8,), 0, 1)[6:1:-2]),
            saving([], 'transpose(ramp((2, 3, 1), 1, 1, (1, 2, 1)), (1, 2, 0))', ramp((2, 3, 1), 1, 1).transpose((1, 2, 0))),
            saving(['m'], 'concatenate([m[1], minimum(m[0], 2), maximum(m[0], 2)], axis=0)',
                   np.concatenate([M[1], np.minimum(M[0], 2), np.maximum(M[0], 2)])),
            saving(['m'], 'where(m % 2, m, -m)', np.where(M % 2, M, -M)),
            saving(['m'], 'rechunk(m, ((1, 1), 3))[:, 1:]', M[:, 1:]),
            saving(['m'], 'prod(m, axis=(1))', np.prod(M, axis=1)),
            saving(['m'], 'max(m, axis=(1), split_every=2) * 10 - min(m)', np.max(M, axis=1) * 10 - np.min(M)),
            saving(['m'], 'tensordot(m, m.T, (1), (0))', np.tensordot(M, M.T, ([1], [0]))),
            # the block with the zero divisor isn't needed
            (X_AND_D + 'let q = (x // d)[2:4]|save q "o.npy"|', X[2:4]),
            # every second element of what was read, and a quotient
            ('input a "second.npy" shape (3) chunks (2)|input b "x.npy" shape (4) chunks (3)|let c = a // b[1:]|save c "o.npy"|',
             ARRAYS['second.npy'] // X[1:]),
        ]


# jobs that save nothing: the status and the line on standard error
REFUSED = [
    ('', 2, 'job 1:1: grammar'),
    ('let b = c + 1|', 2, 'job 1:9: unknown name'),
    (INPUT['a'] + 'input b "x.npy" shape (4) chunks (2)|let c = a + b|save c "o.npy"|', 2, 'job 3:11: shape: axis 0: 3 and 4'),
    (INPUT['e'] + 'let b = min(e)|save b "o.npy"|', 2, 'job 2:9: shape: empty axis 0'),
    ('let b = 9223372036854775808|save b "o.npy"|', 9, 'limit number'),
    ('input a "short.npy" shape (3) chunks (2)|save a "o.npy"|', 3, 'file short.npy: truncated: has 23, needs 24'),
    ('input a "front.npy" shape (3) chunks (2)|save a "o.npy"|', 3, 'file front.npy: not npy at 4'),
    ('input a "a.npy" shape (2) chunks (2)|save a "o.npy"|', 3, 'file a.npy: shape (3,) declared (2,)'),
    ('input a "none.npy" shape (2) chunks (2)|save a "o.npy"|', 5, 'read fault'),
    # its shape is another one too
    ('input a "short.npy" shape (2) chunks (2)|save a "o.npy"|', 3, 'file short.npy: truncated: has 23, needs 24'),
    # all inputs are opened before the first is read
    ('input a "front.npy" shape (3) chunks (2)|input b "none.npy" shape (3) chunks (2)|let c = a + b|save c "o.npy"|',
     5, 'read fault'),
    # the second input is the first that isn't as declared
    (INPUT['a'] + 'input b "text.npy" shape (3) chunks (2)|let c = a // b|save c "o.npy"|', 3, 'file text.npy: not npy at 0'),
]
# more keys, more dependencies in all, and a larger block than there may be; no file is looked for
LARGE = [
    ('input a "none.npy" shape (32769) chunks (1)|save a "o.npy"|', 'keys'),
    ('input a "none.npy" shape (3) chunks (3)|let r = ramp((600, 600), 0, 1, (1, 600))|let b = rechunk(r, (600, 1))|save b "o.npy"|', 'edges'),
    ('let b = full((16777217), 1, (16777217))|save b "o.npy"|', 'block bytes'),
]
# jobs that meet a zero divisor in one needed block, the block, and the array of all other blocks. In one thread none of these is
# written, since the block is the first
DIVIDED = [
    # the element that is asked for has no zero divisor, its block has
    (X_AND_D + 'let q = (x // d)[0:1]|save q "o.npy"|', 'node 2 block (0)', [0]),
    # nothing is asked for, but an empty slice takes the first block
    (X_AND_D + 'let q = (x // d)[5:2]|save q "o.npy"|', 'node 2 block (0)', np.zeros(0)),
    # the block that depends on it divides by 0 too, but has no dividend
    (X_AND_D + 'let q = x // d|let c = q // d|save c "o.npy"|', 'node 2 block (0)', [0, 0, 3, 4]),
    # the quotient of the other block is 0
    (INPUT['a'] + 'input b "first.npy" shape (3) chunks (2)|let c = a // b|save c "o.npy"|', 'node 2 block (0)', [0, 0, 0]),
]
# two needed blocks meet one each
DIVIDED_TWICE = X_AND_D + 'let q = x // (d - 1)|save q "o.npy"|'


# ---- the outside's own calls


def pieces():
    title('a file is read at once and in pieces')
    for most in (1, 4, 64):
        say(f'site 64 {most}')
        say('open t length 0 read 0 1 4 whole 0 1 4 whole 0 4 4 read 0 6 4 read 0 18446744073709551615 4',
            f'open: 6 {"bcde"[:most]} {min(most, 4)} bcde 4 ef 2  0  0 faults 0')
        say('faults', 'faults: 0 0 0 0')


def creations():
    title('a created file is held once it is given back')
    say('site 64 2')
    say('create t 5 write 1 xyz whole 1 abc', 'create: 2 done faults 0')
    say('show t', shown('', '', '0 0 0 0', 't', '\\00abc\\00'))
    say('open t length 0', 'open: 5 faults 0')
    say('faults', 'faults: 0 0 0 0')
    say('lose t 4', 'lose: faults 0')
    say('show t', shown('', '', '0 0 0 0', 't', 'none'))
    say('open t', 'open: the call failed')
    say('create t 6 whole 0 uvwxyz write 6 ', 'create: done 0 faults 0')
    say('open t whole 0 0 8', 'open: uvwxyz 6 faults 0')
    say('faults', 'faults: 1 0 0 0')


def room():
    title('a stream takes what it has room for')
    say('site 6 0')
    say('out ', 'out: done')
    say('out abcd', 'out: done')
    say('err note', 'err: done')
    say('out efgh', 'out: the call failed')
    say('show t', shown('abcdef', 'note', '0 0 1 0', 't', 'abcdef'))
    say('err again', 'err: the call failed')
    say('show t', shown('abcdef', 'noteag', '0 0 1 1', 't', 'abcdef'))


KINDS = ['open', 'length', 'read', 'create', 'write', 'out', 'err']
COUNTED = {'open': '1 0 0 0', 'length': '1 0 0 0', 'read': '1 0 0 0', 'create': '0 1 0 0', 'write': '0 1 0 0', 'out': '0 0 1 0',
           'err': '0 0 0 1', None: '0 0 0 0'}


def use_all(failing, counts):
    say('open t length 0 read 0 0 2', {
        'open': 'open: the call failed',
        'length': 'open: the call failed ab 2 faults 1',
        'read': 'open: 6 the call failed faults 1',
    }.get(failing, 'open: 6 ab 2 faults 0'))
    say('create b 2 whole 0 xy', {
        'create': 'create: the call failed',
        'write': 'create: the call failed faults 1',
    }.get(failing, 'create: done faults 0'))
    say('out out', 'out: the call failed' if failing == 'out' else 'out: done')
    say('err err', 'err: the call failed' if failing == 'err' else 'err: done')
    say('faults', f'faults: {counts}')


def alone():
    title('the first call of each kind fails, and no other')
    for kind in KINDS:
        for place in ('', '@0'):
            say(f'site 64 0 {kind}:0{place}')
            use_all(kind, COUNTED[kind])
            use_all(None, COUNTED[kind])


def objects():
    title('calls are counted over all objects or at one')
    for refused, reads in (('read:2', [1, 1, 0, 1]), ('read:1@0', [1, 0, 1, 1]), ('read:1@1', [1, 1, 1, 0]), ('read:2@1', [1, 1, 1, 1])):
        say(f'site 64 0 {refused}')
        for two in (reads[:2], reads[2:]):
            answers = ''.join(' a 1' if good else ' the call failed' for good in two)
            say('open t read 0 0 1 read 0 0 1', f'open:{answers} faults {2 - sum(two)}')
    say('site 64 0 open:1@0 create:0@1 write:1@0')
    say('open t,t', 'open: the call failed')
    say('open t,t length 1', 'open: 6 faults 0')
    say('create b 3 write 0 x write 1 y write 2 z', 'create: 1 the call failed 1 faults 1')
    say('show b', shown('', '', '1 1 0 0', 'b', 'x\\00z'))
    say('create b 3', 'create: the call failed')
    say('show b', shown('', '', '1 2 0 0', 'b', 'x\\00z'))
    say('create b 3', 'create: faults 0')
    say('faults', 'faults: 1 2 0 0')


def lengths():
    title('a name keeps its length')
    say('site 64 0')
    say('open b', 'open: the call failed')
    say('open t', 'open: faults 0')
    say('put t abcdefg')
    say('open t', 'open: the call failed')
    say('put t ghijkl')
    say('open t whole 0 0 6', 'open: ghijkl 6 faults 0')
    say('lose t 6', 'lose: faults 0')
    say('open t', 'open: the call failed')
    say('faults', 'faults: 3 0 0 0')
    say('open ', 'open: faults 0')


def spills():
    title("a worker's disk holds what was put under a key, until it is put anew or deleted")
    say('site 64 0')
    say('counts 1', 'counts: asked 0 puts 0')
    say('spill 1 put 0 7 abcdef get 0 7 8 get 0 7 4 get 0 7 0 put 0 7 xy get 0 7 8 delete 0 7 delete 0 7 put 0 4294967295  get 0 4294967295 8',
        'spill: done abcdef 6 abcd 6  6 done xy 2 done done done  0 faults 0')
    say('counts 1', 'counts: asked 1 puts 3')
    say('spill 1,4294967295,1 put 0 7 a put 1 7 bc put 2 7 def get 0 7 8 get 1 7 8 get 2 7 8 delete 1 7 get 0 7 8 get 2 7 8',
        'spill: done done done a 1 bc 2 def 3 done a 1 def 3 faults 0 faults 0 faults 0')
    say('counts 1', 'counts: asked 3 puts 5')
    say('counts 4294967295', 'counts: asked 1 puts 1')
    say('counts 2', 'counts: asked 0 puts 0')
    title("the first call for a disk and of a disk fails, and no other; a disk's faults count for nobody, and no put that failed counts")
    calls = 'spill 1 put 0 7 ab put 0 7 cd get 0 7 8 get 0 7 8 put 0 8 e delete 0 8 delete 0 8'
    for place in ('', '@0'):
        for kind, answer in (('put', 'the call failed done cd 2 cd 2 done done done'), ('get', 'done done the call failed cd 2 done done done'),
                             ('delete', 'done done cd 2 cd 2 done the call failed done')):
            say(f'site 64 0 {kind}:0{place}')
            say(calls, f'spill: {answer} faults 1')
            say('faults', 'faults: 0 0 0 0')
            say('spilled', 'spilled: faults 0')
            say('counts 1', f'counts: asked 1 puts {2 if kind == "put" else 3}')
            say(calls, 'spill: done done cd 2 cd 2 done done done faults 0')
            say('counts 1', f'counts: asked 2 puts {5 if kind == "put" else 6}')
        say(f'site 64 0 spill:0{place}')
        say('spill 1,1,2 put 0 7 ab put 1 7 cd', 'spill: the call failed done done faults 0 faults 0')
        say('spilled', 'spilled: faults 1')
        say('faults', 'faults: 0 0 0 0')
        say('counts 1', 'counts: asked 2 puts 1')
        say('counts 2', 'counts: asked 1 puts 1')
    title('calls of disks are counted over all of them or at one')
    for refused, puts in (('put:2', [1, 1, 0, 1]), ('put:1@0', [1, 0, 1, 1]), ('put:1@1', [1, 1, 1, 0]), ('put:2@1', [1, 1, 1, 1])):
        say(f'site 64 0 {refused}')
        answers = ''.join(' done' if good else ' the call failed' for good in puts)
        say('spill 1,2 put 0 7 a put 0 8 b put 1 7 c put 1 8 d', f'spill:{answers} faults {2 - sum(puts[:2])} faults {2 - sum(puts[2:])}')
        say('counts 1', f'counts: asked 1 puts {sum(puts[:2])}')
        say('counts 2', f'counts: asked 1 puts {sum(puts[2:])}')
    say('site 64 0 spill:0@1')
    say('spill 1,2,3 ', 'spill: the call failed faults 0 faults 0')
    say('spilled', 'spilled: faults 1')
    say('counts 2', 'counts: asked 1 puts 0')


def real_spills():
    title('real disks, each of which is one file without a name')
    last = '4294967295'
    say(f'real spill 1,{last} get 0 7 8 delete 0 7 put 0 7 abcdef look .dask-spill-1-0 get 0 7 8 get 0 7 4 '
        f'put 1 {last}  get 1 {last} 8 put 0 7 xy get 0 7 8 delete 0 7 get 0 7 8 delete 0 7',
        'real: spill the call failed done done none abcdef 6 abcd 6 done  0 done xy 2 done the call failed done faults 2 faults 0')
    # blocks of other lengths come and go, and the ones beside them stay
    say('real spill 1 put 0 1 aaaa put 0 2 bbbb put 0 3 cccc delete 0 2 put 0 4 dd put 0 5 eee get 0 1 9 get 0 3 9 get 0 4 9 get 0 5 9 delete 0 1 '
        'delete 0 4 put 0 6 ffffffff get 0 3 9 get 0 5 9 get 0 6 9 delete 0 5 delete 0 3 put 0 7 gg get 0 6 9 get 0 7 9',
        'real: spill done done done done done done aaaa 4 cccc 4 dd 2 eee 3 done done done cccc 4 eee 3 ffffffff 8 done done done ffffffff 8 gg 2 faults 0')
    # a name that is there already is passed over, but for an empty file, which goes
    say('disk write .dask-spill-1-0 x')
    say('disk write .dask-spill-1-1 ')
    say('real spill 1 put 0 7 a get 0 7 8', 'real: spill done a 1 faults 0')
    say('real look .dask-spill-1-0', 'real: look 1')
    say('real look .dask-spill-1-1', 'real: look none')
    say('disk remove .dask-spill-1-0')
    say('real spilled', 'real: spilled faults 0')


def real():
    title('the real site, over a real file')
    name = 'site_table.bin'
    say(f'real open {name}', 'real: open the call failed')
    say(f'real create {name} 5 write 1 abc whole 1 abc', 'real: create 3 done faults 0')
    say(f'real open {name} length 0 read 0 1 3 whole 0 0 8 read 0 5 3 read 0 18446744073709551615 4',
        'real: open 5 abc 3 \\00abc\\00 5  0  0 faults 0')
    say('real faults', 'real: faults 1 0 0 0')
    # a file that ends earlier than it did fails, and so does an opening that finds another length
    say(f'real open {name} disk write {name} ab read 0 2 8 read 0 0 8 length 0', 'real: open the call failed ab 2 5 faults 1')
    say(f'real open {name}', 'real: open the call failed')
    say(f'disk remove {name}')
    say(f'real open {name}', 'real: open the call failed')
    say(f'real create none/{name} 3', 'real: create the call failed')
    say('real out ', 'real: out done')
    say('real out shown', 'real: outshown done')
    say('real err ', 'real: err done')
    say('real faults', 'real: faults 4 1 0 0')
    title('the texts of faults, and the gate that does nothing')
    say('texts', 'texts: the call failed, the call failed, out of memory')


# ---- files of arrays


def heads():
    title('the head of a file')
    say('site 4096 0')
    say('open a.npy head 0', 'open: (3,) at 128 8 little faults 0')
    for refused in ('length:0', 'read:0', 'read:1'):
        say(f'site 4096 0 {refused}')
        say('open a.npy head 0', 'open: read fault faults 1')
        say('open a.npy head 0', 'open: (3,) at 128 8 little faults 0')
        say('faults', 'faults: 1 0 0 0')
    title('a region of a file: by nine bytes a call the first twelve bytes are two reads, the 118 of the header 14, and 32 bytes of data 4')
    region = ' '.join(str(cell) for cell in COLUMNS[:2, :2].ravel())
    for refused in ('length:0', 'length:1', 'read:0', 'read:15', 'read:16', 'read:17', 'read:19'):
        say(f'site 4096 9 {refused}')
        say('open columns.npy region 0 0+2,0+2', 'open: read fault faults 1')
        say('faults', 'faults: 1 0 0 0')
    for sound in ('length:2', 'read:20'):
        say(f'site 4096 9 {sound}')
        say('open columns.npy region 0 0+2,0+2', f'open: {region} faults 0')


def of_type(dtype, version):
    """A file as NumPy writes it in this version, whose elements have the least and the largest of the type among them, and its array."""
    limits = np.iinfo(dtype)
    array = np.array([[limits.min, -1, 0], [1, 2, limits.max]], dtype=dtype)
    out = io.BytesIO()
    np.lib.format.write_array(out, np.asfortranarray(array) if version == 2 else array, version=(version, 0))
    return out.getvalue(), array.astype(np.int64)


def types():
    title('files of each version and type')
    files = {(version, dtype): of_type(dtype, version) for version in (1, 2, 3) for dtype in TYPES}
    for (version, dtype), (data, _) in files.items():
        shelve(type_file(dtype, version), data)
    say('site 4096 0')
    for (version, dtype), (data, array) in files.items():
        name, width = type_file(dtype, version), int(dtype[2])
        order = 'big' if dtype[0] == '>' else 'little'
        say(f'open {name} head 0', f'open: (2, 3) at {len(data) - 6 * width} {width} {order} faults 0')
        say(f'open {name} region 0 0+2,1+2', f'open: {" ".join(str(cell) for cell in array[:, 1:].ravel())} faults 0')
        job(f'input a "{name}" shape (2, 3) chunks (1, 2)|let b = a + 1|save b "o.npy"|')
        for command in ('plain job.txt', 'run job.txt'):
            say(f'saved o.npy {command}', f'saved: 0 o.npy {text(saved(array + 1))}')
        say('saved o.npy sim job.txt 7', f'saved: 0 o.npy {text(saved(array + 1))}')
    title('inputs of three types')
    for version, kinds in ((1, ('<i4', '>i8', '|i1')), (2, ('>i2', '<i8', '>i4')), (3, ('|i1', '<i2', '>i8'))):
        inputs = ''.join(f'input {name} "{type_file(dtype, version)}" shape (2, 3) chunks (2, {k + 1})|' for k, (name, dtype) in enumerate(zip('abc', kinds)))
        a, b, c = (files[version, dtype][1] for dtype in kinds)
        job(inputs + 'let d = a + b * 2 - c|let e = sum(where(a % 2, b, c), axis=(0))|save d "o.npy"|save e "s.npy"|')
        both_save('o.npy', ('o.npy', a + b * 2 - c), ('s.npy', np.where(a % 2, b, c).sum(axis=0)))
        both_save('s.npy', ('o.npy', a + b * 2 - c), ('s.npy', np.where(a % 2, b, c).sum(axis=0)))
    title('files of other versions and types, and shorter ones')
    short = of_type('<i2', 1)[0][:-1]
    for data, why in (
            (b'\x93NUMPY\x04\x00', 'version 4.0'),
            (b'\x93NUMPY\x01', 'truncated: has 7, needs 8'),
            (b'\x93NUMPY\x01\x00\x76', 'truncated: has 9, needs 10'),
            (b'\x93NUMPY\x02\x00\x74\x00\x00', 'truncated: has 11, needs 12'),
            (b'\x93NUMPY\x03\x00\x01\x00\x10\x00', 'header limit 1048577'),
            (b'\x93NUMPY\x02\x00\x00\x00\x10\x00', 'truncated: has 0, needs 1048576'),
            (npy(np.zeros((2, 3), dtype='<u4')), 'descr'),
            (npy(np.zeros((2, 3), dtype='|b1')), 'descr'),
            (npy(np.zeros((2, 3), dtype='<f8')), 'descr'),
            (short, 'truncated: has 11, needs 12')):
        shelve('other.npy', data)
        job('input a "other.npy" shape (2, 3) chunks (2, 2)|save a "o.npy"|')
        for command in ('plain job.txt', 'run job.txt', 'sim job.txt 7'):
            once('o.npy', command, told(3, '', f'dask: file other.npy: {why}|', '0 0 0 0', 'o.npy', 'none'))


def blocks():
    title('a region of a node over two files')
    files = 'first.npy,second.npy'
    both = 'input a "first.npy" shape (3) chunks (1)|input b "second.npy" shape (3) chunks (1)|'
    joined = 'concatenate([a, b], axis=0)'
    quotient = both + f'let q = 24 // {joined}[-2::-1]|save q "o.npy"|'
    second = both + f'let q = {joined}[::2]|save q "o.npy"|'
    turned = 'input a "rows.npy" shape (2, 3) chunks (1, 1)|let q = a.T|save q "o.npy"|'
    cut = saved(ARRAYS['second.npy'])[:-9]
    # all but the zero: 24 by 8, 7 and 6
    whole = [(0, 3, ' 3 3 4'),
             # the zero is the third of 7, 6, 0 and 4
             (1, 4, ' zero divisor at 2')]
    say('site 4096 0')
    for start, length, answer in whole:
        say(f'block {files} 5 {start}+{length} {quotient}', f'block:{answer}')
    # each second element, 4, 6 and 8, of which the last two
    say(f'block {files} 3 1+2 {second}', 'block: 6 8')
    # the second file's first two elements are 16 bytes, of which it has 15; its first element is there; 24 by 4 needs the first file alone
    say('site 4096 0')
    say(f'put second.npy {text(cut)}')
    for start, length, answer in ((0, 2, ' truncated: has 15, needs 16'), (1, 1, ' 3'), (4, 1, ' 6')):
        say(f'block {files} 5 {start}+{length} {quotient}', f'block:{answer}')
    say('faults', 'faults: 0 0 0 0')
    # it is one read, so that no second one can fail
    say('site 4096 0 read:1')
    say(f'block {files} 5 4+1 {quotient}', 'block: 6')
    say('faults', 'faults: 0 0 0 0')
    say('site 4096 0 read:1')
    say(f'block {files} 5 1+2 {quotient}', 'block: read fault')
    say('faults', 'faults: 1 0 0 0')
    say('site 4096 0 open:1')
    say(f'block {files} 5 1+2 {quotient}', 'block: the call failed')
    # columns become rows; the last element, which is missing, isn't asked for
    say('site 4096 0')
    say(f'put rows.npy {text(saved(ARRAYS["rows.npy"])[:-8])}')
    say(f'block rows.npy 1 0+2,0+2 {turned}', 'block: 10 40 20 50')
    say(f'block rows.npy 1 2+1,1+1 {turned}', 'block: truncated: has 40, needs 48')


# ---- the program


def saves():
    title('jobs that save, by each command twice')
    say('site 4096 0')
    for lines, array in saved_jobs():
        job(lines)
        both_save('o.npy', ('o.npy', array))
        say('saved o.npy sim job.txt 7', f'saved: 0 o.npy {text(saved(array))}')


def divided():
    title('jobs that meet a zero divisor in a needed block')
    say('site 4096 0')
    for lines, block, others in DIVIDED:
        job(lines)
        line = f'dask: zero division: {block}|'
        begun = text(saved(np.zeros_like(others)))
        often('o.npy', 'plain job.txt', told(4, '', line, '0 0 0 0', 'o.npy', begun))
        # the file is created before the first block is made, and whether the other block is there by then isn't determined
        often('none.npy', 'run job.txt', told(4, '', line, '0 0 0 0', 'none.npy', 'none'))
        fail('create', 'none.npy', 'run job.txt', (*UNWRITTEN, 'none'), (4, '', line, '0 0 0 0', 'none'), count=1)
        partly(4, 'o.npy', others, 'run job.txt')
        # no file is created before the client has all blocks
        often('o.npy', 'sim job.txt 7', told(4, '', line, '0 0 0 0', 'o.npy', 'none'))
        fail('create', 'o.npy', 'sim job.txt 7', (4, '', line, '0 0 0 0', 'none'), count=0)
    # what was there before is replaced
    say('site 4096 0')
    say('put o.npy old')
    say('top o.npy run job.txt', 'top:' + told(4, '', line, '0 0 0 0', 'o.npy', begun))
    # which block is named is not determined, and there is no other
    job(DIVIDED_TWICE)
    for command in ('run job.txt', 'run job.txt --workers 1 --threads 1'):
        say(f'saved o.npy {command}', f'saved: 4 o.npy {text(saved(np.zeros(4)))}')
    say('saved o.npy sim job.txt 7', 'saved: 4 o.npy none')


def refusals():
    title('jobs that save nothing')
    for lines, status, line in REFUSED:
        job(lines)
        both('o.npy', lambda command, answer=refusal(status, line): answer)
        say('saved o.npy sim job.txt 7', f'saved: {status} o.npy none')


def large():
    title('jobs whose graphs pass a limit')
    for lines, quantity in LARGE:
        job(lines)
        for command in ('plain job.txt', 'run job.txt', 'sim job.txt 7'):
            once('o.npy', command, refusal(9, f'limit {quantity}'))


def words():
    title('words that ask for nothing')
    job(saved_jobs()[0][0])
    for list_of_words in ('', 'run', 'plain', 'runs job.txt', 'run job.txt x', 'Run job.txt', 'sim', 'sim job.txt', 'sim job.txt x',
                          'sim job.txt 7 --workers', 'sim job.txt 7 --workers 1 --script lose:1@1', 'sim job.txt 7 --workers 65', 'gen', 'gen x', 'gen job.txt 7',
                          'gen 7 --workers 65', 'gen 7 --saturation 11', 'gen 7 --allowed-failures 1', 'sim job.txt 7 --allowed-failures 1001',
                          'gen 7 --script join@1', 'gen 18446744073709551616', 'gen --help'):
        say('site 4096 0')
        say(f'top o.npy {list_of_words}', 'top:' + refusal(1, 'words'))
    say('serial o.npy plain', 'serial:' + told(1, '', 'dask: words|dask: words|', '0 0 0 0', 'o.npy', 'none'))


def read_fails(file, command, done, opened, created=True):
    """Saved files are created once all heads were read, and before any block is."""
    fail('open', file, command, STOPPED, done, count=opened)
    for kind in ('length', 'read'):
        fail(kind, file, command, STOPPED, *([(*STOPPED[:4], 'in part')] if created else []), done)


def faults():
    title('each call fails in turn, over two inputs and two saved files')
    job(PAIR)
    say('site 4096 0')
    both_save('s.npy', *PAIR_SAVES)
    command, lines = 'plain job.txt', lines_of('plain', *PAIR_SAVES)
    done = (0, lines, '', '0 0 0 0', 'whole')
    # the job and each input are opened once, each saved file is created once
    read_fails('o.npy', command, done, 3)
    fail('create', 'o.npy', command, (*UNWRITTEN, 'none'), (*UNWRITTEN, 'in part'), done, count=2)
    fail('write', 's.npy', command, (*UNWRITTEN, 'none'), (*UNWRITTEN, 'in part'), done)
    fail('out', 's.npy', command, (*UNPRINTED, 'whole'), done)
    fail('create', 's.npy', command, (*UNWRITTEN, 'none'), done, count=2)
    fail('write', 'o.npy', command, (*UNWRITTEN, 'in part'), (*UNWRITTEN, 'whole'), done)
    fail('err', 'o.npy', command, done)
    title('the same by sixteen bytes a call')
    say('site 4096 16')
    read_fails('s.npy', command, done, 3)
    fail('write', 's.npy', command, (*UNWRITTEN, 'none'), (*UNWRITTEN, 'in part'), done)
    fronts = [(6, lines[:k], 'dask: write fault|', '0 0 1 0', 'whole') for k in range(0, len(lines), 16)]
    fail('out', 'o.npy', command, *fronts, done)
    title('a stream without room for all lines')
    say('site 20 0')
    say(f'top o.npy {command}', 'top:' + told(6, lines[:20], 'dask: write fault|', '0 0 1 0', 'o.npy', text(saved(SUM))))
    title('calls at one object')
    for refused in ('open:0@1', 'open:1@1', 'length:0@1', 'read:0@1'):
        say(f'site 4096 0 {refused}')
        say(f'top o.npy {command}', 'top:' + refusal(5, 'read fault'))
    # a file's header is written as it is created
    begun = text(saved(np.zeros(3)))
    for refused, held in (('create:0@0', 'none'), ('create:0@1', begun), ('write:0@1', begun), ('write:1@1', text(saved(SUM)))):
        say(f'site 4096 0 {refused}')
        say(f'top o.npy {command}', 'top:' + told(*UNWRITTEN, 'o.npy', held))
    title('standard error fails')
    job(REFUSED[0][0])
    line = 'dask: job 1:1: grammar|'
    say('site 4096 0')
    fail('err', 'o.npy', command, (2, '', '', '0 0 0 1', 'none'), (2, '', line, '0 0 0 0', 'none'))
    say('site 4096 10')
    fronts = [(2, '', line[:k], '0 0 0 1', 'none') for k in range(0, len(line), 10)]
    fail('err', 'o.npy', command, *fronts, (2, '', line, '0 0 0 0', 'none'))


def places():
    title('files of a site over several runs')
    job(PAIR)
    say('site 4096 0 create:0')
    say('put o.npy old')
    say('top o.npy plain job.txt', 'top:' + told(6, '', 'dask: write fault|', '0 1 0 0', 'o.npy', 'old'))
    lines = lines_of('run', *PAIR_SAVES)
    say('top o.npy run job.txt', 'top:' + told(0, lines, 'dask: write fault|', '0 1 0 0', 'o.npy', text(saved(SUM))))
    # what was saved is an input
    say('put next.txt input o "o.npy" shape (3) chunks (1)|let n = o * o|save n "n.npy"|')
    lines += lines_of('plain', ('n.npy', SUM * SUM))
    say('serial n.npy plain next.txt', 'serial:' + told(0, lines, 'dask: write fault|', '0 1 0 0', 'n.npy', text(saved(SUM * SUM))))
    # a job of another length can't be opened
    say('put job.txt save a "o.npy"|')
    say('serial n.npy plain job.txt', 'serial:' + told(5, lines, 'dask: write fault|dask: read fault|', '1 1 0 0', 'n.npy', text(saved(SUM * SUM))))
    say('site 4096 0')
    say('top o.npy plain none.txt', 'top:' + refusal(5, 'read fault'))
    title('one file is two inputs')
    job(INPUT['a'] + 'input b "a.npy" shape (3) chunks (3)|let c = a + b|save c "o.npy"|')
    save = ('o.npy', A + A)
    done = (0, lines_of('plain', save), '', '0 0 0 0', 'whole')
    read_fails('o.npy', 'plain job.txt', done, 3)
    fail('create', 'o.npy', 'plain job.txt', (*UNWRITTEN, 'none'), done, count=1)
    both_save('o.npy', save)
    title('one array is two files')
    job(INPUT['a'] + 'save a "o.npy"|save a "n.npy"|')
    saves = ('o.npy', A), ('n.npy', A)
    done = (0, lines_of('plain', *saves), '', '0 0 0 0', 'whole')
    read_fails('n.npy', 'plain job.txt', done, 2)
    fail('create', 'n.npy', 'plain job.txt', (*UNWRITTEN, 'none'), done, count=2)
    both_save('n.npy', *saves)


# ---- simulations

NO_CELL = INPUT['e'] + 'let b = e + 1|save b "o.npy"|'
ALONE = '--workers 1 --threads 1'
SUM_OF_TEN = 'let s = sum(ramp((10), 0, 1, (1)))|save s "o.npy"|'
FIVE = 'let b = full((1), 5, (1))|save b "o.npy"|'
PRODUCT = ('let a = rechunk(ramp((2, 3), 1, 1, (2, 3)), (1, 2))|let b = rechunk(ramp((3, 2), 1, 1, (3, 2)), (2, 1))|'
           'let c = tensordot(a, b, (1), (0))|save c "o.npy"|')


def model(lines, *inputs):
    return Run(lower(lines.strip('|').replace('|', ' ; ')), [np.array(array, np.int64) for array in inputs])


def sim_lines(run, names, number, **setting):
    """The lines of a simulation that saves all."""
    return saved_lines(*[(name, run.array(k)) for k, name in enumerate(names)]) + run.simulate(number, **setting)


def reports():
    title('simulations with every line')
    say('site 4096 0')
    four = {'workers': 4, 'threads': 2}
    alone = {'workers': 1, 'threads': 1}
    for lines, inputs, number, options, setting in (
            (ONE_CELL, [ONE], 1, ALONE, alone), (ONE_CELL, [ONE], 7, ALONE, alone), (NO_CELL, [np.zeros(0)], 7, '', four),
            (FIVE, [], 3, ALONE, alone), (SUM_OF_TEN, [], 7, '', four), (PRODUCT, [], 11, '--workers 3', {'workers': 3, 'threads': 2}),
            (INPUT['a'] + 'let b = a + 1|save b "o.npy"|', [A], 8, '--workers 3 --threads 1 --saturation 10',
             {'workers': 3, 'threads': 1, 'saturation': 10}),
            (ONE_RAMP, [], 5, '--workers 2 --threads 1 --script lose:1@1', {'workers': 2, 'threads': 1, 'script': [('lose', 1, 1)]}),
            (SUM_OF_TEN, [], 9, '--script lose:1@3,join@4,suspect:2@9',
             {**four, 'script': [('lose', 1, 3), ('join', 4), ('suspect', 2, 9)]})):
        job(lines)
        run = model(lines, *inputs)
        command = f'sim job.txt {number} {options}'.strip()
        often('o.npy', command, told(0, sim_lines(run, ['o.npy'], number, **setting), '', '0 0 0 0', 'o.npy', text(saved(run.array(0)))))


ONE_RAMP = 'let a = ramp((1), 0, 1, (1))|let b = a + 1|save b "o.npy"|'


def simulations():
    title('simulations that save what a run saves')
    say('site 4096 0')
    job(INPUT['a'] + 'let b = a + 1|save b "o.npy"|')
    for options in ('7', '8 --workers 3 --threads 1 --saturation 10', '9 --script lose:1@1,join@2'):
        say(f'saved o.npy sim job.txt {options}', f'saved: 0 o.npy {text(saved(A + 1))}')
    # sums wrap, and chunks are joined
    job('input a "wide.npy" shape (3) chunks (2)|let b = a + 9223372036854775807|save b "o.npy"|')
    wide = np.array([4, 0, -1], dtype=np.int64)
    with np.errstate(over='ignore'):
        say(f'saved o.npy sim job.txt 1 {ALONE}', f'saved: 0 o.npy {text(saved(wide + np.int64(2**63 - 1)))}')
    title('no input is opened of a job whose graph passes a limit')
    job('input a "none.npy" shape (32769) chunks (1)|save a "o.npy"|')
    missing = (9, '', 'dask: limit keys|', '0 0 0 0', 'none')
    for command in ('plain job.txt', 'run job.txt', 'sim job.txt 7'):
        fail('open', 'o.npy', command, STOPPED, missing, count=1)
        fail('create', 'o.npy', command, missing, count=0)
    title('each call of a simulation fails in turn')
    job(ONE_CELL)
    command = f'sim job.txt 7 {ALONE}'
    lines = sim_lines(model(ONE_CELL, ONE), ['o.npy'], 7, workers=1, threads=1)
    done = (0, lines, '', '0 0 0 0', 'whole')
    for most in (0, 16):
        say(f'site 4096 {most}')
        read_fails('o.npy', command, done, 2, created=False)
        fail('create', 'o.npy', command, (*UNWRITTEN, 'none'), done, count=1)
        fail('write', 'o.npy', command, (*UNWRITTEN, 'in part'), done)
        fail('err', 'o.npy', command, done)
    say('site 4096 0')
    fail('out', 'o.npy', command, (*UNPRINTED, 'whole'), done)
    say('site 4096 40')
    fronts = [(6, lines[:k], 'dask: write fault|', '0 0 1 0', 'whole') for k in range(0, len(lines), 40)]
    fail('out', 'o.npy', command, *fronts, done)


def killed_line(key, losses):
    return f'killed worker: key {key} losses {losses}'


def killed():
    title('simulations in which a worker leaves more often than is allowed')
    job(ONE_RAMP)
    say('site 4096 0')
    run = model(ONE_RAMP)
    done = text(saved(run.array(0)))
    thrice = [('suspect', worker, 1) for worker in (1, 2, 3)]
    for number in (0, 7, 2**64 - 1):
        for script, options, workers, allowed, answer in (
                ([('suspect', 1, 1)], 'suspect:1@1', 2, 0, (1, 1)), ([('suspect', 1, 1)], 'suspect:1@1', 2, 1, None),
                ([('lose', 1, 1)], 'lose:1@1', 2, 0, (1, 1)), (thrice, 'suspect:1@1,suspect:2@1,suspect:3@1', 4, 1, (0, 2)),
                (thrice, 'suspect:1@1,suspect:2@1,suspect:3@1', 4, 2, None)):
            command = f'sim job.txt {number} --workers {workers} --threads 1 --script {options} --allowed-failures {allowed}'
            setting = {'workers': workers, 'threads': 1, 'script': script, 'allowed': allowed}
            if answer:
                assert run.simulate(number, **setting) == answer
                often('o.npy', command, refusal(11, killed_line(*answer)))
            else:
                often('o.npy', command, told(0, sim_lines(run, ['o.npy'], number, **setting), '', '0 0 0 0', 'o.npy', done))
    title('no file is created where a key is killed, which only the words bound')
    for kind, count in (('open', 1), ('create', 0)):
        first = [STOPPED] if kind == 'open' else []
        fail(kind, 'o.npy', 'sim job.txt 7 --workers 2 --threads 1 --script suspect:1@1 --allowed-failures 0', *first,
             (11, '', f'dask: {killed_line(1, 1)}|', '0 0 0 0', 'none'), count=count)


# ---- the jobs that numbers make


def gen_sizes(number):
    """How many rows and columns, by which number the array begins, and how long its chunks are."""
    return 64 + number % 64, 64 + number // 64 % 64, number % 1000, 8 + number % 9


def gen_job(number):
    rows, columns, first, chunk = gen_sizes(number)
    return (f'let a = ramp(({rows}, {columns}), {first}, 3, ({chunk}, {chunk}))|let t = tensordot(a, a.T, (1), (0))|let s = sum(t + 7, axis=(0))|'
            'save s "s.npy"|')


def gen_lines(number, **setting):
    """The lines of the number: the array is NumPy's, and the digest that of the file which NumPy writes."""
    rows, columns, first, _ = gen_sizes(number)
    array = ramp((rows, columns), first, 3)
    file = saved(np.sum(np.tensordot(array, array.T, ([1], [0])) + 7, axis=0))
    report = model(gen_job(number)).simulate(number, **setting)
    return f's ({rows},) sha256 {hashlib.sha256(file).hexdigest()}|' + report[:report.index('finished')]


# 5 by 5 chunks, by the greatest number of which the job has so few
GREAT = 18446744073709547585


def numbers():
    title('the jobs that numbers make: the same lines twice, and no file')
    say('site 4096 0')
    for number, options, setting in ((7, '', {'workers': 4, 'threads': 2}), (32768, ALONE, {'workers': 1, 'threads': 1}),
                                     (8, '--threads 1 --workers=3', {'workers': 3, 'threads': 1}), (GREAT, '--workers 2', {'workers': 2, 'threads': 2})):
        often('s.npy', f'gen {number} {options}'.strip(), told(0, gen_lines(number, **setting), '', '0 0 0 0', 's.npy', 'none'))
    command, lines = 'gen 32768', gen_lines(32768)
    done = (0, lines, '', '0 0 0 0', 'none')
    for kind in ('open', 'create'):
        fail(kind, 's.npy', command, done, count=0)
    for kind in ('length', 'read', 'write', 'err'):
        fail(kind, 's.npy', command, done)
    fail('out', 's.npy', command, (*UNPRINTED, 'none'), done)
    say('put s.npy old')
    say(f'top s.npy {command}', 'top:' + told(0, lines, '', '0 0 0 0', 's.npy', 'old'))
    say('site 4096 40')
    fronts = [(6, lines[:k], 'dask: write fault|', '0 0 1 0', 'none') for k in range(0, len(lines), 40)]
    fail('out', 's.npy', command, *fronts, done)
    say('site 20 0')
    say(f'top s.npy {command}', 'top:' + told(6, lines[:20], 'dask: write fault|', '0 0 1 0', 's.npy', 'none'))


# ---- folds and products


def listed(numbers):
    return '(' + ', '.join(map(str, numbers)) + ')'


def input_line(name, array, chunks):
    return f'input {name} "{name}.npy" shape {listed(array.shape)} chunks {listed(chunks)}|'


def fold_lines(given, parts):
    """Statements that fold the parts: as they are where there are several, and else whole and in pieces of 2."""
    axes = given['axes']
    call = f'let s = {given["fold"]}(k, axis={listed(axes)})|save s "o.npy"|'
    whole = np.concatenate(parts, axis=axes[0]) if len(parts) > 1 else parts[0]
    shelve('k.npy', saved(whole))
    if len(parts) > 1:
        chunks = [listed([part.shape[axis] for part in parts]) if axis == axes[0] else n for axis, n in enumerate(whole.shape)]
        return [input_line('k', whole, chunks) + call]
    return [input_line('k', whole, [max(n, 1) for n in whole.shape]) + call, input_line('k', whole, [2] * whole.ndim) + call]


def product_lines(given, parts):
    """Statements that multiply two parts, whole and in pieces of 2."""
    for name, side in (('k', 'left'), ('l', 'right')):
        shelve(f'{name}.npy', saved(parts[given[side]]))
    call = f'let s = tensordot(k, l, {listed(given["left_axes"])}, {listed(given["right_axes"])})|save s "o.npy"|'
    sides = [('k', parts[given['left']]), ('l', parts[given['right']])]
    return [''.join(input_line(name, part, cut(part)) for name, part in sides) + call
            for cut in (lambda part: [max(n, 1) for n in part.shape], lambda part: [2] * part.ndim)]


def folds():
    title('folds and products of blocks, with what NumPy makes of them')
    say('site 65536 0')
    for number, (kind, given, parts, result) in enumerate([*block_folds.reductions(), *block_folds.contractions()]):
        if any(part.size == 0 for part in parts) and len(parts) > 1 and kind == 'reduce':
            # no chunk is empty but that of an empty axis
            continue
        for lines in (fold_lines if kind == 'reduce' else product_lines)(given, parts):
            job(lines)
            for command in ('plain job.txt', f'sim job.txt {number}'):
                say(f'saved o.npy {command}', f'saved: 0 o.npy {text(saved(result))}')


# ---- jobs by chance


def chance_inputs(chance, node):
    """An array of a few small numbers, so that some divisors are 0, or of large ones, so that sums wrap."""
    count = int(np.prod(node.shape, dtype=np.int64))
    most = chance.random.choice((2, 9, 9, 2**63 - 1))
    return np.array([chance.random.randint(-most, most) for _ in range(count)], np.int64).reshape(node.shape)


def ill_file(chance, array):
    """A file that isn't as declared, and how it is refused."""
    data = saved(array)
    needs = 8 * array.size
    return chance.random.choice([
        (b'nothing', 'not npy at 0'),
        (data[:4], 'not npy at 4'),
        (saved(np.zeros(array.shape + (2,), np.int64)), f'shape {shape_text(np.zeros(array.shape + (2,)))} declared {shape_text(array)}'),
        *([(data[:-1], f'truncated: has {needs - 1}, needs {needs}')] if array.size else []),
    ])


def with_quotient(chance, lines):
    """A job that saves a quotient too, whose divisor is 0 at some elements of most arrays."""
    statements = lines.split(' ; ')
    saves = [line for line in statements if line.startswith('save ')]
    made = [line for line in statements if line not in saves]
    name = chance.random.choice(made).split()[1]
    divided = f'let q = {name} {chance.random.choice(("//", "%"))} ({name} % {chance.random.choice((2, 3, 5, 7))})'
    return ' ; '.join([*made, divided, *saves, 'save q "q.npy"'])


def answer_job(run, names, number):
    """What the three commands answer, for the last file that is saved."""
    last, faults = names[-1], run.faults()
    if not faults:
        saves = [(name, run.array(k)) for k, name in enumerate(names)]
        held = text(saved(saves[-1][1]))
        once(last, 'plain job.txt', told(0, lines_of('plain', *saves), '', '0 0 0 0', last, held))
        once(last, f'run job.txt {run_cases.options_at(number)}', told(0, lines_of('run', *saves), '', '0 0 0 0', last, held))
        once(last, f'sim job.txt {number}', told(0, sim_lines(run, names, number), '', '0 0 0 0', last, held))
        for name, array in saves[:-1]:
            say(f'saved {name} plain job.txt', f'saved: 0 {name} {text(saved(array))}')
            say(f'saved {name} run job.txt', f'saved: 0 {name} {text(saved(array))}')
        return
    # the blocks before the first that is at fault are written
    held = text(saved(run.array_before(len(names) - 1, faults[0])))
    once(last, 'plain job.txt', told(4, '', f'dask: zero division: {run.block_text(faults[0])}|', '0 0 0 0', last, held))
    # where there are several, it is not determined which one threads meet, nor which blocks are written by then
    partly(4, last, run.array(len(names) - 1), 'run job.txt')
    if len(faults) == 1:
        once('none.npy', 'run job.txt', told(4, '', f'dask: zero division: {run.block_text(faults[0])}|', '0 0 0 0', 'none.npy', 'none'))
    blamed = run.simulate(number)
    once(last, f'sim job.txt {number}', told(4, '', f'dask: zero division: {run.block_text(blamed)}|', '0 0 0 0', last, 'none'))


def by_chance():
    title('jobs by chance, over files by chance')
    chance = Chance(4242, longest=4)
    for place in range(200):
        lines = chance.job((2, 6), 40)
        if place % 3 == 0:
            lines = with_quotient(chance, lines)
        lines = re.sub(r'save (\w) "(\w).npy"', r'save \1 "out\2.npy"', lines)
        run_of = lower(lines)
        inputs = [node for node in run_of.job.nodes if node.op == 'input']
        arrays = [chance_inputs(chance, node) for node in inputs]
        names = [line.split('"')[1] for line in lines.split(' ; ') if line.startswith('save ')]
        files = [line.split('"')[1] for line in lines.split(' ; ') if line.startswith('input ')]
        ill = chance.random.randrange(len(files)) if files and place % 8 == 0 else None
        why = None
        for k, (name, array) in enumerate(zip(files, arrays)):
            data = saved(array)
            if k == ill:
                data, why = ill_file(chance, array)
            shelve(name, data)
        job(lines.replace(' ; ', '|') + '|')
        if why is not None:
            line = f'dask: file {files[ill]}: {why}|'
            for command in ('plain job.txt', 'run job.txt', f'sim job.txt {place}'):
                once(names[-1], command, told(3, '', line, '0 0 0 0', names[-1], 'none'))
            continue
        answer_job(Run(run_of, arrays), names, place)


def main():
    shelve('t', b'abcdef')
    for name, array in ARRAYS.items():
        shelve(name, saved(array))
    shelve('columns.npy', npy(COLUMNS))
    shelve('wide.npy', saved([4, 0, -1]))
    # a file that lacks its last byte, one that ends in its magic, and one that is none
    shelve('short.npy', saved(A)[:-1])
    shelve('front.npy', saved(A)[:4])
    shelve('text.npy', b'nothing')
    for part in (pieces, creations, room, alone, objects, lengths, spills, real, real_spills, heads, types, blocks, saves, divided, refusals, large, words, run_cases.words, run_cases.reports, faults, run_cases.faults, places, reports, simulations, killed, run_cases.killed, run_cases.noted, numbers, folds, by_chance):
        part()
    here = os.path.join(os.path.dirname(os.path.abspath(__file__)), '..', 'crates', 'site_table')
    for name, lines in (('stdin', LINES), ('stdout', WANTED)):
        with open(os.path.join(here, name), 'w', encoding='ascii') as out:
            out.write(''.join(line + '\n' for line in lines))


main()
