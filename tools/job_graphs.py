"""The lines of a driver that prints the graphs of jobs, and the answer to each.

A line is `job TEXT` or `count TEXT`, where the word `;` ends a line of the job's text and single blanks stand between
the words. Its answer is one of these:

    keys K edges E; NAME DEPS KIND WORK BYTES; ..; saved KEYS KEYS ..      of `job`
    keys K edges E                                                         of `count`
    keys, edges, block bytes                                               the limit that the job passes

with one NAME (`node.block`, or `-` for what is no node's own block) for each key, in the order of the keys, and the keys
of each save. A list of keys has commas, and is `()` without members. Counts that are known from elsewhere, or counted by
hand, stand beside their jobs, and are found again before a line is given. `block_table.py` writes the lines.
"""

import random

from graph_model import Job, Limit, Lowered, answer, union
from job_reader import FOLDS, Refused

# Cases: jobs with their number of keys and of edges where these are known, and None where only the model tells.

A = 'input a "a.npy" shape (3) chunks (2)'
FIVE = 'input a "a.npy" shape (5) chunks (2)'
QUOTIENT = 'input x "x.npy" shape (4) chunks (2) ; input d "d.npy" shape (4) chunks (2)'
SQUARE = "let a = ramp(({0}, {0}), 0, 1, (512, 512)) ; let s = sum(a + a.T, axis=(0)) ; save s \"s.npy\""
LARGE = "let a = ramp((71, 64), 7, 3, (15, 15)) ; let t = tensordot(a, a.T, (1), (0)) ; let s = sum(t + 7, axis=(0)) ; save s \"s.npy\""

# Jobs whose counts the product's own rules state.
STATED = [
    ("job", f'{A} ; let b = a + 1 ; save b "out.npy"', (4, 2)),
    ("job", f'{QUOTIENT} ; let q = (x // d)[2:4] ; save q "q.npy"', (4, 3)),
    ("job", 'input p "p.npy" shape (2, 3) chunks (1, 2) ; input q "q.npy" shape (3, 2) chunks (2, 1)'
            ' ; let t = tensordot(p, q, (1), (0)) ; save t "t.npy"', (4 + 4 + 4 * 3, 4 * (2 * 2 + 2))),
    ("job", 'let s = sum(ramp((10), 0, 1, (1))) ; save s "s.npy"', (24, 23)),
    ("count", SQUARE.format(4096), (280, 64 + 2 * 64 + 8 * (8 + 8 + 2))),
    ("job", SQUARE.format(1024), (18, None)),
    ("job", 'let b = full((1), 5, (1)) ; save b "o.npy"', (1, 0)),
    ("job", 'input a "a.npy" shape (1) chunks (1) ; let b = a + 1 ; save b "o.npy"', (2, 1)),
    ("job", 'let a = ramp((1), 0, 1, (1)) ; let b = a + 1 ; save b "o.npy"', (2, 1)),
    ("job", 'let a = ramp((2), 0, 1, (1)) ; save a "o.npy"', (2, 0)),
    ("count", 'let s = sum(ramp((8192), 0, 1, (1))) ; save s "s.npy"', (19115, 19114)),
    ("count", LARGE, (315, 535)),
    ("job", f'{A} ; let b = (a + 1) * 2 - 1 ; save b "b.npy"', (8, 6)),
    # Three elements in two blocks: c stays and the product is absorbed in 6 keys, so 8 without that.
    ("job", f'{A} ; let c = a + 1 ; let d = c * c + c ; save d "d.npy"', (8, None)),
    ("job", 'let x = ramp((6), 0, 1, (2)) ; let w = where(ramp((6), 0, 1, (3)), x, x) ; save w "w.npy"', (21, 24)),
    ("job", 'let a = concatenate([full((0, 3), 1, (1, 1)), ramp((2, 3), 0, 1, (1, (2, 1)))], axis=0) ; save a "a.npy"',
     (16, 12)),
    ("job", 'let b = rechunk(ramp((3), 0, 1, (1)), ((1, 2))) ; save b "b.npy"', (5, 3)),
    # The most chunks with which a load and an addition fit: the literal has a key too, before culling.
    ("count", 'input a "a.npy" shape (16383) chunks (1) ; let b = a + 1 ; save b "o.npy"', (32766, 16383)),
]

# Jobs of the product's examples whose counts are counted by hand.
BY_HAND = [
    ("job", f'{A} ; let s = sum(a) ; save s "s.npy"', (2 + 2 + 1, 2 + 2)),
    ("job", 'input e "e.npy" shape (0) chunks (1) ; let s = sum(e) ; save s "s.npy"', (2, 1)),
    ("job", f'{QUOTIENT} ; let q = (x // d)[0:1] ; save q "q.npy"', (4, 3)),
    ("job", f'{QUOTIENT} ; let q = (x // d)[5:2] ; save q "q.npy"', (4, 3)),
    ("job", f'{QUOTIENT} ; let q = x // d ; let g = x + d ; save q "q.npy" ; save g "g.npy"', (8, 8)),
    ("job", 'let a = full((1), -7, (1)) // 2 ; save a "a.npy"', (2, 1)),
    ("job", 'let a = -7 % 2 ; let b = 7 % -2 ; save a "a.npy" ; save b "b.npy"', (2, 0)),
    ("job", f'{FIVE} ; let b = a[::-2] ; save b "b.npy"', (6, 3)),
    ("job", f'{FIVE} ; let b = a[5:2] ; save b "b.npy"', (2, 1)),
    ("job", 'let b = ramp((10), 0, 1, ((4, 4, 2))) + ramp((10), 0, 1, (5)) ; save b "b.npy"',
     (3 + 2 + 4 + 4 + 4, 4 + 4 + 8)),
    ("job", 'let c = ramp((3, 1), 0, 1, (2, 1)) + ramp((1, 4), 0, 1, (1, 3)) ; save c "c.npy"', (8, 8)),
    ("job", 'let s = sum(ramp((5), 0, 1, (1))) ; save s "s.npy"', (5 + 5 + 2 + 1, 5 + 5 + 2)),
    # A product of one row of ten blocks: ten contractions, then 3 and 1 additions.
    ("job", 'let r = ramp((10), 0, 1, (1)) ; let t = tensordot(r, r, (0), (0)) ; save t "t.npy"',
     (10 + 10 + 3 + 1, 10 + 10 + 3)),
    ("count", 'let a = ramp((64, 64), 0, 1, (16, 16)) ; let t = tensordot(a, a.T, (1), (0)) ; save t "t.npy"',
     (16 + 16 + 16 * 5, 16 + 16 * 8 + 16 * 4)),
    ("count", 'let a = ramp((1), 0, 1, (1))' + " + 1" * 250 + ' ; save a "a.npy"', None),
    ("count", 'let a = ramp((3), 0, 1, (2)) ; let b = ' + "a + " * 80 + 'a ; save b "b.npy"', (2 + 2 * 80, 2 * (1 + 2 * 79))),
]

# Each operation by itself, over chunks that differ in size.
ALONE = [
    'input a "a.npy" shape (5, 4) chunks ((2, 3), (1, 3)) ; save a "o.npy"',
    'input a "a.npy" shape () chunks () ; save a "o.npy"',
    'input a "a.npy" shape (0, 3) chunks (2, (1, 2)) ; save a "o.npy"',
    'input a "a.npy" shape (2, 0) chunks (1, (0)) ; save a "o.npy"',
    'let a = 7 ; save a "o.npy"',
    'let a = full((), -4, ()) ; save a "o.npy"',
    'let a = ramp((), -4, 9, ()) ; save a "o.npy"',
    'let a = full((5), -3, ((1, 4))) ; save a "o.npy"',
    'let a = ramp((4, 3), -2, 5, ((1, 3), 2)) ; save a "o.npy"',
    'let a = ramp((2, 3, 2), 0, 1, (1, (1, 2), 2)) ; save a "o.npy"',
    'let a = -ramp((5), 0, 1, ((2, 3))) ; save a "o.npy"',
    'let a = - -ramp((3), 0, 1, (2)) ; save a "o.npy"',
    'let a = -7 ; let b = -a ; save b "o.npy"',
    'let a = ramp((5), 0, 1, ((2, 3))) - ramp((5), 1, 1, ((3, 2))) ; save a "o.npy"',
    'let a = ramp((5), 0, 1, (5)) * ramp((5), 1, 1, ((3, 2))) ; save a "o.npy"',
    'let a = ramp((5), 0, 1, ((3, 2))) // ramp((5), 1, 1, (4)) ; save a "o.npy"',
    'let a = ramp((5), 0, 1, ((1, 2, 2))) % ramp((5), 1, 1, ((1, 2, 2))) ; save a "o.npy"',
    'let a = minimum(ramp((4, 3), 0, 1, ((1, 3), 2)), ramp((4, 3), 11, -1, (2, (1, 2)))) ; save a "o.npy"',
    'let a = maximum(ramp((4, 3), 0, 1, (4, 3)), ramp((3), 5, 0, ((1, 2)))) ; save a "o.npy"',
    'let a = where(ramp((7), -3, 1, (3)), ramp((7), 0, 1, (2)), ramp((7), 0, -1, ((1, 6)))) ; save a "o.npy"',
    'let a = ramp((7), 0, 1, (3)) ; let b = a[1:6] ; save b "o.npy"',
    'let a = ramp((7), 0, 1, (3)) ; let b = a[-2::-3] ; save b "o.npy"',
    'let a = ramp((7), 0, 1, ((1, 1, 3, 2))) ; let b = a[::4] ; save b "o.npy"',
    'let a = ramp((7), 0, 1, ((1, 4, 2))) ; let b = a[6] ; save b "o.npy"',
    'let a = ramp((4, 5), 0, 1, ((1, 3), (2, 2, 1))) ; let b = a[-1] ; save b "o.npy"',
    'let a = ramp((4, 5), 0, 1, ((1, 3), (2, 2, 1))) ; let b = a[:, 2] ; save b "o.npy"',
    'let a = ramp((4, 5), 0, 1, ((1, 3), (2, 2, 1))) ; let b = a[::-1, ::-1] ; save b "o.npy"',
    'let a = ramp((4, 5), 0, 1, ((1, 3), (2, 2, 1))) ; let b = a[3:1, 1:] ; save b "o.npy"',
    'let a = ramp((4, 5), 0, 1, ((1, 3), (2, 2, 1))) ; let b = a[3, 4] ; save b "o.npy"',
    'let a = ramp((4, 5), 0, 1, ((1, 3), (2, 2, 1))) ; let b = a[3, 4:4] ; save b "o.npy"',
    'let a = ramp((0, 3), 0, 1, (1, 2)) ; let b = a[:, 1] ; save b "o.npy"',
    'let a = ramp((3), 0, 1, (2)) ; let b = a[:] ; save b "o.npy"',
    'let a = ramp((6), 0, 1, (4)) ; let b = a[9223372036854775807:-9223372036854775808:-9223372036854775808] ; save b "o.npy"',
    'let a = ramp((4, 5), 0, 1, ((1, 3), (2, 3))).T ; save a "o.npy"',
    'let a = transpose(ramp((2, 3, 4), 0, 1, (2, (1, 2), (3, 1))), (1, 2, 0)) ; save a "o.npy"',
    'let a = transpose(ramp((2, 3, 4), 0, 1, (2, (1, 2), (3, 1))), (0, 1, 2)) ; save a "o.npy"',
    'let a = 5.T ; save a "o.npy"',
    'let a = concatenate([ramp((3), 0, 1, (2)), ramp((4), 9, 1, ((1, 3)))], axis=0) ; save a "o.npy"',
    'let a = concatenate([ramp((2, 3), 0, 1, (1, 3)), ramp((2, 4), 9, 1, (2, 2))], axis=1) ; save a "o.npy"',
    'let a = concatenate([ramp((2, 5), 0, 1, (2, (4, 1))), ramp((3, 5), 9, 1, (3, (2, 3)))], axis=0) ; save a "o.npy"',
    'let a = concatenate([ramp((3), 0, 1, (2))], axis=0) ; save a "o.npy"',
    'let a = rechunk(ramp((7), 0, 1, (3)), ((2, 5))) ; save a "o.npy"',
    'let a = rechunk(ramp((7), 0, 1, (7)), (2)) ; save a "o.npy"',
    'let a = rechunk(ramp((7), 0, 1, (1)), (7)) ; save a "o.npy"',
    'let a = rechunk(ramp((7), 0, 1, (3)), (3)) ; save a "o.npy"',
    'let a = rechunk(ramp((3, 4), 0, 1, ((1, 2), 4)), (3, (1, 3))) ; save a "o.npy"',
    'let a = rechunk(ramp((0, 4), 0, 1, (1, 4)), (2, 3)) ; save a "o.npy"',
    'let a = rechunk(5, ()) ; save a "o.npy"',
    'let a = sum(ramp((7), 0, 1, ((1, 4, 2)))) ; save a "o.npy"',
    'let a = prod(ramp((7), 1, 1, (1)), split_every=2) ; save a "o.npy"',
    'let a = min(ramp((7), 1, 1, (1)), split_every=3) ; save a "o.npy"',
    'let a = max(ramp((7), 1, 1, (1)), split_every=6) ; save a "o.npy"',
    'let a = sum(ramp((7), 1, 1, (1)), split_every=9223372036854775807) ; save a "o.npy"',
    'let a = sum(ramp((4), 1, 1, (1))) ; save a "o.npy"',
    'let a = sum(ramp((17), 1, 1, (1))) ; save a "o.npy"',
    'let a = sum(ramp((4, 5), 0, 1, ((1, 3), (2, 2, 1)))) ; save a "o.npy"',
    'let a = sum(ramp((4, 5), 0, 1, ((1, 3), (2, 2, 1))), axis=(0)) ; save a "o.npy"',
    'let a = max(ramp((4, 5), 0, 1, ((1, 3), (2, 2, 1))), axis=(1), split_every=2) ; save a "o.npy"',
    'let a = sum(ramp((3, 2, 4), 0, 1, ((1, 2), 1, (2, 2))), axis=(2, 0), split_every=3) ; save a "o.npy"',
    'let a = sum(ramp((3, 2, 4), 0, 1, ((1, 2), 1, (2, 2))), axis=(0, 2), split_every=3) ; save a "o.npy"',
    'let a = prod(ramp((3, 2), 0, 1, (2, 1)), axis=()) ; save a "o.npy"',
    'let a = sum(5) ; save a "o.npy"',
    'let a = sum(ramp((3, 0), 0, 1, (2, 1)), axis=(0)) ; save a "o.npy"',
    'let a = sum(ramp((3, 0), 0, 1, (2, 1)), axis=(1)) ; save a "o.npy"',
    'let a = tensordot(ramp((3, 4), 0, 1, ((1, 2), (1, 3))), ramp((4, 2), 0, 1, ((3, 1), 1)), (1), (0)) ; save a "o.npy"',
    'let a = tensordot(ramp((3, 4), 0, 1, ((1, 2), 4)), ramp((2, 3), 0, 1, (2, (1, 2))), (0), (1)) ; save a "o.npy"',
    'let a = tensordot(ramp((2, 3, 4), 0, 1, (1, 2, 3)), ramp((4, 2, 3), 0, 1, ((3, 1), 1, (2, 1))), (2, 0), (0, 1)) ; save a "o.npy"',
    'let a = tensordot(ramp((2, 3, 2), 0, 1, (1, 2, 1)), ramp((2, 2, 3), 0, 1, (1, 1, 2)), (2, 0), (1, 0)) ; save a "o.npy"',
    'let a = tensordot(ramp((2, 3), 0, 1, (1, 2)), ramp((2, 3), 0, 1, (1, 2)), (0, 1), (0, 1)) ; save a "o.npy"',
    'let a = tensordot(ramp((3), 0, 1, (2)), ramp((2), 0, 1, (1)), (), ()) ; save a "o.npy"',
    'let a = tensordot(3, ramp((3), 0, 1, (2)), (), ()) ; save a "o.npy"',
    'let a = tensordot(ramp((2, 0), 0, 1, (1, 1)), ramp((0, 3), 0, 1, (1, 2)), (1), (0)) ; save a "o.npy"',
    'let a = tensordot(ramp((5), 0, 1, (1)), ramp((5, 2), 0, 1, ((3, 2), 1)), (0), (0)) ; save a "o.npy"',
]

# Operands that are shared, broadcast, or empty; parts that no save reaches; saves in all orders.
SHARED = [
    'let x = ramp((5), 0, 1, (2)) ; let y = x + x ; save y "y.npy"',
    'let x = ramp((5), 0, 1, (2)) ; let y = x * x - x ; save y "y.npy" ; save x "x.npy"',
    'let x = ramp((5), 0, 1, (2)) ; let w = where(x, x, x) ; save w "w.npy"',
    'let x = ramp((4), 0, 1, (2)) ; let y = ramp((4), 5, 1, ((1, 3))) ; let z = x + y ; let w = y * x ; save z "z.npy" ; save w "w.npy"',
    'let x = ramp((4), 0, 1, (4)) ; let y = ramp((4), 5, 1, (1)) + x ; let z = y + x ; save z "z.npy"',
    # Depth-first numbers swap the dependencies: the operand at the left is made again after that at the right.
    'let x = ramp((4), 0, 1, (4)) ; let y = ramp((4), 5, 1, (2)) ; let z = x - y ; save z "z.npy"',
    'let x = ramp((4), 0, 1, (2)) ; let y = ramp((4), 5, 1, (2)) ; let z = x - y ; save y "y.npy" ; save z "z.npy"',
    'let x = ramp((4), 0, 1, (2)) ; let y = -x ; let z = x // y ; save y "y.npy" ; save z "z.npy" ; save x "x.npy"',
    'let a = ramp((2, 2), 0, 1, (1, 1)) ; let t = tensordot(a, a, (1), (1)) ; save t "t.npy"',
    'let a = ramp((2, 2), 0, 1, (1, 1)) ; let t = tensordot(a, a, (1), (0)) ; save t "t.npy"',
    'let a = ramp((4, 2), 0, 1, ((1, 3), 1)) ; let t = tensordot(a, a[::-1], (0), (0)) ; save t "t.npy"',
    'let a = ramp((3), 0, 1, (2)) ; let c = concatenate([a, a, a[::-1]], axis=0) ; save c "c.npy"',
    'let a = ramp((2, 3), 0, 1, (1, 2)) ; let c = concatenate([a, a.T[:2]], axis=1)[:, :3] + a ; save c "c.npy"',
]
CULLED = [
    'let x = ramp((6), 0, 1, (2)) ; let y = x + 1 ; let z = x * 2 ; save z "z.npy"',
    'let x = ramp((6), 0, 1, (2)) ; let y = (x + 1)[4:] ; save y "y.npy"',
    'let x = ramp((6, 6), 0, 1, (2, 3)) ; let y = sum(x, axis=(0))[1] ; save y "y.npy"',
    'let x = ramp((6), 0, 1, (2)) ; let y = concatenate([x, x + 1, 2 * x], axis=0)[5:8] ; save y "y.npy"',
    'let x = ramp((6), 0, 1, (4)) ; let y = rechunk(x, ((1, 2, 3)))[3:] ; save y "y.npy"',
    'let a = 5 ; let b = 6 ; let x = ramp((2), 0, 1, (1)) + b ; save x "x.npy"',
    'let a = 5 ; let x = ramp((2), 0, 1, (1)) + a ; save x "x.npy" ; save a "a.npy"',
    'let a = 5 ; let x = ramp((2), 0, 1, (1)) + sum(a) ; save x "x.npy"',
    'input a "a.npy" shape (4) chunks (2) ; input b "b.npy" shape (4) chunks (2) ; let s = max(b[::-1]) ; save s "s.npy"',
    'let t = tensordot(ramp((2, 4), 0, 1, (1, 1)), ramp((4, 2), 0, 1, (2, 1)), (1), (0)) ; let u = t[1, 0] ; save u "u.npy"',
    # Some groups of a fold reach no dependency of the other saved one.
    'let x = ramp((9), 0, 1, (1)) ; let s = sum(x[::2]) ; let t = sum(x[1::2]) ; save t "t.npy" ; save s "s.npy"',
]
SAVED = [
    'let x = ramp((5), 0, 1, (2)) ; save x "x.npy" ; save x "y.npy"',
    'let x = ramp((5), 0, 1, (2)) ; let y = x ; let z = x.T ; save y "y.npy" ; save z "z.npy" ; save x "x.npy"',
    'let x = ramp((3), 0, 1, (2)) ; let y = x + 1 ; let z = y + 1 ; save z "z.npy" ; save y "y.npy" ; save x "x.npy"',
    'let x = ramp((3), 0, 1, (2)) ; let y = x + 1 ; let z = y + 1 ; save x "x.npy" ; save y "y.npy" ; save z "z.npy"',
    'let x = ramp((3), 0, 1, (2)) ; save x "x.npy" ; let y = ramp((2), 0, 1, (1)) ; save y "y.npy" ; let z = 4 ; save z "z.npy"',
    'let z = ramp((2, 2), 0, 1, (1, 1)) ; let y = z[::-1] ; save y "y.npy" ; save z "z.npy" ; save y "w.npy"',
]
EMPTY = [
    'let e = ramp((0, 5), 0, 1, (1, (2, 3))) ; let c = concatenate([e, ramp((2, 5), 0, 1, (1, (4, 1)))], axis=0) ; save c "c.npy"',
    'let e = ramp((0, 5), 0, 1, (1, (2, 3))) ; let c = concatenate([ramp((2, 5), 0, 1, (1, 5)), e], axis=0) ; save c "c.npy"',
    'let e = ramp((0, 5), 0, 1, (1, (2, 3))) ; let c = concatenate([e, ramp((0, 5), 0, 1, (1, (4, 1)))], axis=0) ; save c "c.npy"',
    'let e = ramp((0, 5), 0, 1, (1, 5)) ; let c = concatenate([e, ramp((0, 2), 0, 1, (1, 1))], axis=1) ; save c "c.npy"',
    'let e = ramp((4), 0, 1, (2)) ; let c = concatenate([e[4:], e, e[:0]], axis=0) ; save c "c.npy"',
    'let e = ramp((4), 0, 1, (2)) ; let c = concatenate([e[4:], e[:0]], axis=0) ; save c "c.npy"',
    'let e = ramp((0, 4), 0, 1, (1, 3)) + ramp((0, 4), 0, 1, (1, 2)) ; save e "e.npy"',
    'let e = ramp((0, 4), 0, 1, (1, 3)) + ramp((4), 0, 1, (2)) ; save e "e.npy"',
    'let e = ramp((3, 0), 0, 1, (2, 1)) + ramp((3, 1), 0, 1, (1, 1)) ; save e "e.npy"',
    'let e = sum(ramp((4, 0), 0, 1, (1, 1))) + 1 ; save e "e.npy"',
    'let e = ramp((6), 0, 1, (2)) ; let f = e[7:] + e[:1] ; save f "f.npy"',
    'let e = ramp((0), 0, 1, (1)) ; let f = e + 1 ; let g = e[::-1] ; save f "f.npy" ; save g "g.npy"',
]
BROADCAST = [
    'let x = ramp((5), 0, 1, (2)) + full((), 3, ()) ; save x "x.npy"',
    'let n = full((), 3, ()) ; let x = n - ramp((5), 0, 1, (2)) ; save x "x.npy"',
    'let n = ramp((), 3, 1, ()) ; let x = n - ramp((5), 0, 1, (2)) ; save x "x.npy"',
    'let n = sum(ramp((2), 3, 1, (1))) ; let x = ramp((3), 0, 1, (2)) % n ; save x "x.npy"',
    'let n = 3.T ; let x = ramp((3), 0, 1, (2)) % n ; save x "x.npy"',
    'let n = rechunk(3, ()) ; let x = n + n ; save x "x.npy"',
    'let n = -(3) ; let x = n + 4 ; save x "x.npy"',
    'let x = 1 + 2 * 3 ; save x "x.npy"',
    'let x = where(1, ramp((3), 0, 1, (2)), 7) ; save x "x.npy"',
    'let x = where(1, 2, 3) ; save x "x.npy"',
    'let x = ramp((4, 3), 0, 1, ((1, 3), 2)) + ramp((4, 1), 0, 1, (2, 1)) ; save x "x.npy"',
    'let x = ramp((1, 3), 0, 1, (1, 2)) + ramp((4, 1), 0, 1, (3, 1)) ; save x "x.npy"',
    'let x = ramp((3), 0, 1, ((1, 2))) + ramp((2, 1, 1), 0, 1, (1, 1, 1)) ; save x "x.npy"',
    'let x = ramp((1), 0, 1, (1)) + ramp((1, 1), 0, 1, (1, 1)) ; save x "x.npy"',
    'let x = ramp((1), 0, 1, (9)) + ramp((3), 0, 1, (9)) ; save x "x.npy"',
    'let x = where(ramp((2, 1), 0, 1, (1, 1)), ramp((3), 0, 1, (2)), ramp((2, 3), 0, 1, (2, (1, 2)))) ; save x "x.npy"',
    'let x = where(ramp((65536, 1, 1), 0, 1, (65536, 1, 1)), ramp((1, 65536, 1), 0, 1, (1, 65536, 1)), ramp((1, 1, 0), 0, 1, (1, 1, 1))) ; save x "x.npy"',
]

# Jobs around the limits, which count before culling and in the order of making.
FULL_EDGES = 'let r = rechunk(ramp((512, 512), 0, 1, (1, 512)), (512, 1))'
LIMITS = [
    ("count", 'let a = ramp((32768), 0, 1, (1)) ; save a "a.npy"', "keys 32768 edges 0"),
    ("job", 'let a = ramp((32769), 0, 1, (1)) ; save a "a.npy"', "keys"),
    ("job", 'let a = ramp((1000000), 0, 1, (1)) ; save a "a.npy"', "keys"),
    ("job", 'let a = ramp((200, 200), 0, 1, (1, 1)) ; save a "a.npy"', "keys"),
    ("job", 'input a "a.npy" shape (16384) chunks (1) ; let b = a + 1 ; save b "o.npy"', "keys"),
    ("count", 'let a = ramp((32766), 0, 1, (1)) ; let n = 5 ; let m = n + 1 ; save m "m.npy"', "keys"),
    ("count", 'let a = ramp((32765), 0, 1, (1)) ; let n = 5 ; let m = n + 1 ; save m "m.npy"', "keys 1 edges 0"),
    # 10,923 blocks are made again once, and once more with the addition: 32,769 keys.
    ("job", 'let a = rechunk(ramp((10923), 0, 1, (10923)) + 1, (1)) ; let b = a + a + a ; save b "b.npy"', "keys"),
    ("count", 'let a = ramp((16384), 0, 1, (1)) ; let b = rechunk(a, (1)) ; save b "b.npy"', "keys 32768 edges 16384"),
    ("job", 'let a = ramp((16384), 0, 1, (1)) ; let b = rechunk(a, (1)) ; let c = b[:1] ; save a "a.npy"', "keys"),
    # Two operands of 128 blocks, and 16,384 of the sum; then one of 181 and 182.
    ("count", 'let c = ramp((128, 1), 0, 1, (1, 1)) + ramp((1, 128), 0, 1, (1, 1)) ; save c "c.npy"', "keys 16640 edges 32768"),
    ("job", 'let c = ramp((181, 1), 0, 1, (1, 1)) + ramp((1, 182), 0, 1, (1, 1)) ; save c "c.npy"', "keys"),
    ("job", 'let c = ramp((16384, 1), 0, 1, (1, 1)) + ramp((1, 16384), 0, 1, (1, 1)) ; save c "c.npy"', "keys"),
    ("count", f'{FULL_EDGES} ; save r "r.npy"', "keys 1024 edges 262144"),
    ("job", f'{FULL_EDGES} ; let s = r[:, 0] ; save r "r.npy"', "edges"),
    ("job", f'{FULL_EDGES} ; let s = r[:, 0] ; let a = ramp((4), 0, 1, (1)) ; save a "a.npy"', "edges"),
    ("job", 'let r = rechunk(ramp((513, 512), 0, 1, (1, 512)), (513, 1)) ; save r "r.npy"', "edges"),
    ("count", f'{FULL_EDGES} ; let a = ramp((31744), 0, 1, (1)) ; save a "a.npy"', "keys 31744 edges 0"),
    ("count", 'let a = ramp((16777216), 0, 1, (16777216)) ; save a "a.npy"', "keys 1 edges 0"),
    ("job", 'let a = ramp((16777216), 0, 1, (16777216)) ; let b = a[:2] + 1 ; save b "b.npy"', None),
    ("job", 'let a = ramp((16777217), 0, 1, (16777217)) ; save a "a.npy"', "block bytes"),
    ("job", 'input a "a.npy" shape (65536, 32768) chunks (65536, 32768) ; save a "o.npy"', "block bytes"),
    ("job", 'let a = rechunk(ramp((16777217), 0, 1, (8388609)), (16777217)) ; save a "a.npy"', "block bytes"),
    ("job", 'let a = tensordot(ramp((4097), 0, 1, (4097)), ramp((4096), 0, 1, (4096)), (), ()) ; save a "a.npy"', "block bytes"),
    ("job", 'let a = ramp((4097, 1), 0, 1, (4097, 1)) + ramp((4096), 0, 1, (4096)) ; save a "a.npy"', "block bytes"),
    ("job", 'let a = ramp((4097, 1), 0, 1, (4096, 1)) + ramp((4096), 0, 1, (4096)) ; save a "a.npy"', None),
    ("job", 'let a = ramp((16777217), 0, 1, (16777217)) ; let b = 1 ; save b "b.npy"', "block bytes"),
    # Which limit is passed first.
    ("job", 'let a = ramp((16777217), 0, 1, (16777217)) ; let b = ramp((32768), 0, 1, (1)) ; save b "b.npy"', "block bytes"),
    ("job", 'let b = ramp((32769), 0, 1, (1)) ; let a = ramp((16777217), 0, 1, (16777217)) ; save b "b.npy"', "keys"),
    ("job", f'{FULL_EDGES} ; let s = r[0] ; let b = ramp((32768), 0, 1, (1)) ; save b "b.npy"', "edges"),
    # Several limits at one key: first keys, then edges, then bytes.
    ("job", 'let b = ramp((32768), 0, 1, (1)) ; let a = ramp((16777217), 0, 1, (16777217)) ; save b "b.npy"', "keys"),
    ("job", f'{FULL_EDGES} ; let a = ramp((31744), 0, 1, (1)) ; let s = r[0] ; save a "a.npy"', "keys"),
    ("job", f'{FULL_EDGES} ; let a = ramp((4097, 1), 0, 1, (4097, 1)) + ramp((4096), 0, 1, (4096)) ; save a "a.npy"', "edges"),
]


# Jobs by chance


class Chance:
    """Job texts of a few nodes over small arrays. What is no job is thrown away."""

    def __init__(self, seed, longest=6):
        self.random, self.longest = random.Random(seed), longest

    def dims(self, axes=None):
        axes = self.random.choice((0, 1, 1, 1, 2, 2, 2, 3)) if axes is None else axes
        return [self.random.choice((0, 1, 1, *range(2, self.longest + 1), *range(2, self.longest + 1))) for _ in range(axes)]

    def spec(self, length):
        if length == 0:
            return self.random.choice(("(0)", "1", "0"))
        if self.random.random() < 0.4:
            return str(self.random.randint(1, length + 1))
        sizes = []
        while sum(sizes) < length:
            sizes.append(self.random.randint(1, length - sum(sizes)))
        return self.listed(sizes)

    @staticmethod
    def listed(items):
        return "(" + ", ".join(map(str, items)) + ")"

    def source(self, dims):
        lengths, chunks = self.listed(dims), self.listed(map(self.spec, dims))
        if self.random.random() < 0.2:
            return f"full({lengths}, {self.random.randint(-3, 3)}, {chunks})"
        return f"ramp({lengths}, {self.random.randint(-5, 5)}, {self.random.randint(-2, 3)}, {chunks})"

    def part(self, length):
        if self.random.random() < 0.3 and length:
            return str(self.random.randrange(-length, length))
        ends = [self.random.choice(("", "", str(self.random.randint(-length - 1, length + 1)))) for _ in range(2)]
        step = self.random.choice(("", "", ":", ":2", ":-1", ":-1", ":-2", ":3", ":-3"))
        return f"{ends[0]}:{ends[1]}{step}"

    def fitting(self, shape):
        """Lengths that broadcast with these."""
        dims = [1 if self.random.random() < 0.25 else n for n in shape]
        return dims[self.random.choice((0, 0, 0, len(dims) // 2)):]

    def operand(self, shape, names):
        """A name whose shape fits, a number, or an array of its own."""
        fit = [name for name, other in names if other == tuple(shape)]
        if fit and self.random.random() < 0.5:
            return self.random.choice(fit)
        return str(self.random.randint(-4, 4)) if self.random.random() < 0.2 else self.source(self.fitting(shape))

    def step(self, names):
        """An expression over one of the names, or an array."""
        name, shape = self.random.choice(names[-3:])
        axes = list(range(len(shape)))
        pick = self.random.randrange(12)
        if pick == 0:
            return f"-{name}"
        if pick in (1, 2):
            pair = [name, self.operand(shape, names)]
            self.random.shuffle(pair)
            op = self.random.choice(("+", "-", "*", "//", "%", "minimum", "maximum"))
            return f"{op}({pair[0]}, {pair[1]})" if op[0] == "m" else f"{pair[0]} {op} {pair[1]}"
        if pick == 3:
            three = [name, self.operand(shape, names), self.operand(shape, names)]
            self.random.shuffle(three)
            return f"where{self.listed(three)}"
        if pick in (4, 5) and shape:
            parts = [self.part(n) for n in shape[:self.random.randint(1, len(shape))]]
            return f"{name}[{', '.join(parts)}]"
        if pick == 6:
            self.random.shuffle(axes)
            return self.random.choice((f"{name}.T", f"transpose({name}, {self.listed(axes)})"))
        if pick == 7:
            return f"rechunk({name}, {self.listed(map(self.spec, shape))})"
        if pick == 8 and shape:
            axis = self.random.choice(axes)
            operands = [name]
            for _ in range(self.random.randint(1, 2)):
                dims = list(shape)
                dims[axis] = self.random.choice((0, 1, 2, 3))
                operands.insert(self.random.randint(0, 1), self.random.choice((name, self.source(dims))))
            return f"concatenate([{', '.join(operands)}], axis={axis})"
        if pick in (9, 10):
            listed = self.random.sample(axes, self.random.randint(0, len(axes)))
            text = self.random.choice(("", f", axis={self.listed(listed)}"))
            split = self.random.choice(("", "", ", split_every=2", ", split_every=3", ", split_every=7"))
            return f"{self.random.choice(FOLDS)}({name}{text}{split})"
        paired = self.random.sample(axes, min(len(axes), self.random.choice((0, 1, 1, 1, 2))))
        dims = [shape[axis] for axis in paired] + self.dims(self.random.choice((0, 1)))
        places = list(range(len(dims)))
        self.random.shuffle(places)
        others = [places.index(at) for at in range(len(paired))]
        other = self.source([dims[at] for at in places])
        return f"tensordot({name}, {other}, {self.listed(paired)}, {self.listed(others)})"

    def job(self, nodes, keys):
        """A job with a number of nodes in this range and at most so many keys, which saves its last name."""
        while True:
            lines, names = [], []
            count = self.random.randint(*nodes)
            try:
                self.grow(lines, names, count)
                saves = [names[-1][0]] + [name for name, _ in names[:-1] if self.random.random() < 0.25]
                if self.random.random() < 0.3:
                    self.random.shuffle(saves)
                text = " ; ".join(lines + [f'save {name} "{name}.npy"' for name in saves])
                graph = Lowered(text)
            except (Refused, Limit):
                continue
            if nodes[0] <= len(graph.job.nodes) <= nodes[1] and graph.made[0] <= keys:
                return text

    def grow(self, lines, names, count):
        while True:
            letter = "abcdefghijkl"[len(names)]
            if not names or self.random.random() < 0.15:
                dims = self.dims()
                if self.random.random() < 0.5:
                    chunks = self.listed(map(self.spec, dims))
                    lines.append(f'input {letter} "in{letter}.npy" shape {self.listed(dims)} chunks {chunks}')
                else:
                    lines.append(f"let {letter} = {self.source(dims)}")
            else:
                lines.append(f"let {letter} = {self.step(names)}")
            job = Job(" ; ".join(lines), saves=False)
            names.append((letter, job.nodes[job.names[letter]].shape))
            if len(job.nodes) >= count:
                return


def by_chance():
    small, larger = Chance(2024), Chance(77, longest=9)
    jobs = [small.job((2, 5), 60) for _ in range(60)] + [larger.job((5, 9), 150) for _ in range(20)]
    return jobs + [larger.job((4, 6), 600) for _ in range(10)]


# What the product's rules say of single jobs, beside the counts


def is_so(found, expected):
    if found != expected:
        raise SystemExit(f"job_graphs: {found!r} in place of {expected!r}")


def examples():
    first = answer(*STATED[0][:2])
    is_so(first, "keys 4 edges 2; 0.0 () load 16 16; 2.0 0 elementwise 32 16; 0.1 () load 8 8; 2.1 2 elementwise 16 8; saved 1,3")
    is_so(union([(4, 4, 2), (5, 5)]), (4, 1, 3, 2))
    is_so([n.layout for n in Job(BY_HAND[9][1]).nodes][2], ((4, 1, 3, 2),))
    is_so(Job(f"{FIVE} ; let b = a[::-2]", saves=False).nodes[1].layout, ((1, 1, 1),))
    is_so(Job(f"{FIVE} ; let b = a[5:2]", saves=False).nodes[1].layout, ((0,),))
    # Block 0 of the quotient is culled; an empty slice depends on it, and a slice of one element too.
    named = [{name for name in Lowered(text).names() if name[0] == "2"} for text in (STATED[1][1], BY_HAND[2][1], BY_HAND[3][1])]
    is_so(named, [{"2.1"}, {"2.0"}, {"2.0"}])
    # Each of the four blocks of the product: two contractions and an addition, which is the node's own.
    product = Lowered(STATED[2][1])
    for block in range(4):
        last = product.names().index(f"2.{block}")
        is_so([product.tasks[key].kind for key in product.deps[last] + [last]], ["contract", "contract", "reduce"])
    # Ten partial results: levels of 10, 3 and 1 tasks with 10, 10 and 3 edges.
    ten = Lowered(STATED[3][1])
    made = [task for task in ten.made_tasks if task.kind == "reduce"]
    is_so([len(task.deps) for task in made], [1] * 10 + [4, 4, 2] + [3])
    is_so(Lowered(STATED[15][1]).made, (19, 12))
    is_so([LARGE.count("(71, 64)"), 64 + 7 % 64, 64 + 7 // 64 % 64, 8 + 7 % 9, 7 % 1000], [1, 71, 64, 15, 7])
    # Depth-first numbers turn the two dependencies of the difference round.
    turned = Lowered(SHARED[5])
    difference = turned.tasks[turned.names().index("2.0")]
    is_so([turned.numbers[key] for key in difference.deps], [0, 2])
    is_so([turned.names()[0], turned.names()[2]], ["1.0", "-"])


def cases():
    """The lines' kinds and texts, after their known counts were found again."""
    examples()
    for kind, text, counts in STATED + BY_HAND:
        found = Lowered(text).counts
        for known, number in zip(counts or (), found):
            is_so(number, number if known is None else known)
        yield kind, text
    for text in ALONE + SHARED + CULLED + SAVED + EMPTY + BROADCAST:
        yield "job", text
    for kind, text, known in LIMITS:
        if known:
            is_so(answer(kind, text), known)
        yield kind, text
    for text in by_chance():
        yield "job", text


def lines():
    """Each line, and its answer."""
    for kind, text in cases():
        yield f"{kind} {text}", f" {answer(kind, text)}"
