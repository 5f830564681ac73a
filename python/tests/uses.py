"""What else the package does: what, what came, and what is wanted."""
import os
import warnings
import xml.etree.ElementTree as tree

import numpy as np

import yitrovana as y
from trees import TYPES, VERSIONS
from yitrovana.refusals import INSTEAD
from yitrovana.reports import read, told


def cases():
    made = np.arange(24).reshape(4, 6)
    np.save('a.npy', made)
    a = y.open('a.npy', chunks=(2, (1, 5)))
    twice = (a + 1) * (a + 1)
    yield 'one let', twice.job('b.npy'), ('input a1 "a.npy" shape (4, 6) chunks (2, (1, 5))\nlet b2 = a1 + 1\nlet b3 = b2 * b2\n'
                                          'save b3 "b.npy"\n')
    yield 'brackets', (-(a - (3 - a)) // -2).job().splitlines()[1], 'let b2 = -(a1 - (3 - a1)) // -2'
    yield 'slices', (a[::-1, 1:-1:2] * 2).job().splitlines()[1], 'let b2 = a1[::-1, 1:4:2] * 2'
    yield 'an input saved', y.job({'c.npy': a}).splitlines()[1], 'save a1 "c.npy"'
    yield 'asarray', np.asarray(a).tolist(), made.tolist()
    yield 'a number', type(a.sum().compute()), np.int64
    yield "NumPy's functions", np.sum(np.where(a, a, np.int64(3)), axis=0).compute().tolist(), np.where(made, made, 3).sum(axis=0).tolist()
    yield 'rows', [row.compute().tolist() for row in a], made.tolist()
    ends = np.array([-2**63, -2**63 + 1, -1, 0, 1, 2**63 - 1])
    np.save('ends.npy', ends)
    one, other = y.open('ends.npy'), y.tensordot(y.open('ends.npy'), y.full((1,), 1), 0)
    signs = {'==': np.equal, '!=': np.not_equal, '>': np.greater, '>=': np.greater_equal, '<': np.less, '<=': np.less_equal}
    for sign, wanted in signs.items():
        made_so = eval(INSTEAD[sign].strip('`'), {'y': y, 'a': one, 'b': other})  # the text is this package's own
        yield f'instead of {sign}', made_so.compute().tolist(), wanted(ends, ends[:, None]).astype(int).tolist()
    long, deep, wide = a, a, a
    for k in range(4000):
        long = long + k
    for k in range(300):
        deep, wide = y.concatenate([-deep[:1], -deep[1:]]), y.maximum(-wide, k)
    wanted = made
    for k in range(300):
        wanted = np.maximum(-wanted, k)
    yield 'a long sum', long.compute(command='plain').tolist(), (made + sum(range(4000))).tolist()
    yield 'deep', deep.compute(command='plain').tolist(), made.tolist()
    yield 'deep calls', wide.compute(command='plain').tolist(), wanted.tolist()
    yield from files()
    yield from runs(a, made)
    yield from pictures(a)
    yield from reports()
    folder = os.getcwd()
    os.mkdir('other')
    os.chdir('other')
    yield 'another folder', a.compute().tolist(), made.tolist()
    os.chdir(folder)


def files():
    """Files of each type in each version, with the least and the largest number of the type, and three of them together."""
    opened = {}
    for version in VERSIONS:
        for k, dtype in enumerate(TYPES):
            limits = np.iinfo(dtype)
            made = np.array([[limits.min, -1, 0], [1, 2, limits.max]], dtype)
            with open(f'type {k} {version}.npy', 'wb') as file:
                np.lib.format.write_array(file, made.T if k % 2 else made, version=(version, 0))
            a = y.open(file.name, chunks=(1, 2))
            opened[version, dtype] = a.T if k % 2 else a, made.astype('<i8')
    for (version, dtype), (a, made) in opened.items():
        yield f'elements of {dtype} in version {version}.0', (a.dtype, (a + 1).compute().tolist()), (np.dtype('<i8'), (made + 1).tolist())
    for version, kinds in ((1, ('<i4', '>i8', '|i1')), (2, ('>i2', '<i8', '>i4')), (3, ('|i1', '<i2', '>i8'))):
        (a, m), (b, n), (c, o) = (opened[version, dtype] for dtype in kinds)
        yield f'elements of {", ".join(kinds)}', y.where(c, a + b, a * b).compute().tolist(), np.where(o, m + n, m * n).tolist()


def runs(a, made):
    told, grid = [], y.ramp((4096, 2048), 0, 1, (512, 512))
    y.save({'r.npy': grid}, progress=told.append, memory='32MiB', workers=2, threads=1, spill_folder='.')
    yield 'progress', all(counts.to_write == grid.nbytes and counts.read >= 0 and counts.to_read == 0 for counts in told), True
    report = y.report()
    yield 'report of run', [report[word] for word in ('saved', 'keys', 'edges', 'losses', 'finished by', 'command')], \
        [{'r.npy': (4096, 2048)}, 32, 0, 0, 'cluster', 'run']
    yield 'workers of the report', (sorted(report['workers']), sum(report['workers'].values())), ([1, 2], report['started'])
    os.remove('r.npy')
    y.save({'r.npy': a}, command='sim', number=7, script='lose:1@1,join@1')
    yield 'report of sim', (y.report()['losses'], y.report()['finished by']), (1, 'simulation')
    y.save({'r.npy': a}, workers=2, script='suspect:1@1', allowed_failures=1)
    yield 'losses that are allowed', y.report()['losses'], 1
    y.save({'r.npy': a}, command='plain')
    yield 'report of plain', (y.report()['saved'], y.report()['finished by']), ({'r.npy': (4, 6)}, 'plain')
    computed = a.compute()
    computed[0] = 7
    yield 'a result that is changed', (computed[0].tolist(), computed[1:].tolist()), ([7] * 6, made[1:].tolist())
    yield 'an order of axes', np.array(a.T).tolist(), made.T.tolist()


def reports():
    """The lines of programs that are to come."""
    lines = 'saved a (b) c.npy ()\nkeys 3\nworker 1 started 2\nsteals confirmed 0\nfinished by: cluster\naudit: agrees\n'
    wanted = {'saved': {'a (b) c.npy': ()}, 'keys': 3, 'workers': {1: 2}, 'steals confirmed': 0, 'finished by': 'cluster', 'audit': 'agrees'}
    yield 'the lines of a report', read(lines), wanted
    with warnings.catch_warnings(record=True) as caught:
        warnings.simplefilter('always')
        told(read(lines.replace('agrees', 'differs at 7')))
        told(read(lines))
    yield 'an audit that differs', [str(one.message) for one in caught], ['the audit of this run: differs at 7']


def pictures(a):
    for array in (a, a.sum(), a[0], y.full((0, 3), 1), y.full((2, 3, 4), 1), y.full((5000, 2), 1, (1, 1))):
        picture = tree.fromstring(array._repr_html_())
        lines = len(picture.findall('.//{http://www.w3.org/2000/svg}line'))
        down, across = ((1,) * 2 + array.numblocks)[-2:]
        yield f'picture {array.shape}', lines == down + across - 2 or lines <= 100 < down + across, True
    graph = y.graph(a.sum(axis=0) + 3, -a)
    names = [text.text for text in tree.fromstring(graph.svg()).findall('.//{http://www.w3.org/2000/svg}text')]
    yield 'a picture of the graph', sorted(names), sorted(['a.npy', '(4, 6)', 'sum over 0', '(6,)', '+ 3', '(6,)', '-', '(4, 6)'])
    yield 'the graph in words', str(graph).splitlines()[-1], f'{graph.tasks} tasks, {graph.edges} dependencies'
