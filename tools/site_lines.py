"""What the lines of the program site_table are written with: the texts of files and answers, and the files that each site has.

site_table.py and run_cases.py write the lines. Import it where NumPy is.
"""
import io

import numpy as np

LINES = []
WANTED = []


def text(data):
    """Bytes as the table writes them."""
    out = ''
    for byte in data:
        if byte == 10:
            out += '|'
        elif 32 <= byte <= 126 and byte not in (92, 124):
            out += chr(byte)
        else:
            out += '\\%02x' % byte
    return out


def npy(array):
    """The file that NumPy writes of an array."""
    out = io.BytesIO()
    np.save(out, array)
    return out.getvalue()


def saved(array):
    """The file of an array in row-major order."""
    return npy(np.array(array, dtype='<i8', order='C'))


def say(line, *answers):
    LINES.append(line)
    WANTED.extend(answers)


def title(words):
    say('# ' + words, '# ' + words)


def shelve(name, data):
    say(f'file {name} ' + text(data))


def job(lines):
    say(f'file job.txt {lines}')


def shape_text(array):
    return str(tuple(np.asarray(array).shape))


def told(status, out, err, faults, file, held):
    """The answer of a run."""
    return f' {status} out "{out}" err "{err}" faults {faults} {file} {held}'


def refusal(status, line):
    faults = '1 0 0 0' if status == 5 else '0 0 0 0'
    return told(status, '', f'dask: {line}|', faults, 'o.npy', 'none')


def saved_lines(*saves):
    return ''.join(f'saved {name} {shape_text(array)}|' for name, array in saves)


# by what each command finishes a job, and what else it says then
ENDS = {'plain': 'plain', 'run': 'cluster|audit: agrees'}


def lines_of(command, *saves):
    """The lines of a command that saves these arrays."""
    return saved_lines(*saves) + f'finished by: {ENDS[command]}|'


def once(file, command, answer):
    """A run over a new site."""
    say('site 65536 0')
    say(f'top {file} {command}', 'top:' + answer)


def often(file, command, answer):
    """A command twice, where that may be in one thread the second time."""
    say(f'often {file} {command}', 'often:' + answer, 'again: the same')


def fail(kind, file, command, *answers, count=None, name='fail'):
    """Each call of a kind fails in turn. How many there are is promised of openings and creations alone."""
    first, *others = [told(*answer[:4], file, answer[4]) for answer in answers]
    say(f'{name} {kind} {file} {command}', f'{name}:{first}', *others, *([] if count is None else [f'count: {count}']))


def fail_any(kind, file, command, *answers):
    """The same where blocks are written in any order: after another status than 0 a file is `in part` also where all of it is there."""
    fail(kind, file, command, *answers, name='failany')


def partly(status, file, array, command):
    """A run after which each byte of the file is this array's file's for its place, or 0."""
    shelve('right.npy', saved(array))
    say(f'partly {file} right.npy {command}', f'partly: {status} {file} in part')


# what comes of a call that fails before a file is touched, and of a creation or a write that fails
STOPPED = (5, '', 'dask: read fault|', '1 0 0 0', 'none')
UNWRITTEN = (6, '', 'dask: write fault|', '0 1 0 0')
UNPRINTED = (6, '', 'dask: write fault|', '0 0 1 0')

ARRAYS = {
    'a.npy': [1, 2, 3],
    'one.npy': [4],
    'e.npy': np.zeros((0,)),
    'most.npy': [2**63 - 1],
    'least.npy': [-2**63],
    'x.npy': [1, 2, 3, 4],
    'd.npy': [1, 0, 1, 1],
    'r.npy': [0, 1, 2, 3, 4],
    'p.npy': [[10], [20], [30]],
    'q.npy': [[1, 2, 3, 4]],
    'm.npy': [[1, 2, 3], [4, 5, 6]],
    'first.npy': [4, 0, 6],
    'second.npy': [7, 8, 9],
    'rows.npy': [[10, 20, 30], [40, 50, 60]],
}
ARRAYS = {name: np.array(value, dtype=np.int64) for name, value in ARRAYS.items()}

INPUT = {
    'a': 'input a "a.npy" shape (3) chunks (2)|',
    'e': 'input e "e.npy" shape (0) chunks (2)|',
    'most': 'input m "most.npy" shape (1) chunks (1)|',
    'least': 'input m "least.npy" shape (1) chunks (1)|',
    'r': 'input r "r.npy" shape (5) chunks (2)|',
    'p': 'input p "p.npy" shape (3, 1) chunks (1, 1)|',
    'q': 'input q "q.npy" shape (1, 4) chunks (1, 2)|',
    'm': 'input m "m.npy" shape (2, 3) chunks (1, 2)|',
}
X_AND_D = 'input x "x.npy" shape (4) chunks (2)|input d "d.npy" shape (4) chunks (2)|'

# two inputs and two saved files, of which the first has two blocks of the first input and one of the second
PAIR = INPUT['a'] + 'input b "first.npy" shape (3) chunks (3)|let c = a + b|let d = a - b|save c "o.npy"|save d "s.npy"|'
SUM = ARRAYS['a.npy'] + ARRAYS['first.npy']
DIFFERENCE = ARRAYS['a.npy'] - ARRAYS['first.npy']
PAIR_SAVES = ('o.npy', SUM), ('s.npy', DIFFERENCE)
ONE_CELL = 'input a "one.npy" shape (1) chunks (1)|let b = a + 1|save b "o.npy"|'
