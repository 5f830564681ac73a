"""The exceptions of the program's statuses, each with the program's line."""
import errno
import os
import signal

from .places import told

STATUSES = {1: ValueError, 2: ValueError, 3: ValueError, 4: ZeroDivisionError, 5: OSError, 6: OSError, 7: ConnectionError,
            8: MemoryError, 9: ValueError, 11: RuntimeError}


def failure(status, line, job):
    """The exception of a status, with `status`, `line`, `job` (the text) and `array`, the one that it is about, or None."""
    error, array = EXPLAINED.get(status, plainly)(line or ended(status), job)
    error = error or STATUSES.get(status, RuntimeError)(line or ended(status))
    error.status, error.line, error.job, error.array = status, line, job.text, array
    return error


def ended(status):
    """How a program ended that said nothing."""
    if status >= 0:
        return f'the program ended with {status}'
    wanting = ', which the system sends where memory is wanted' if status == -signal.SIGKILL else ''
    return f'the program was ended by {signal.Signals(-status).name}{wanting}'


def plainly(line, job):
    return None, None


def refused_text(line, job):
    """A text that is refused is this package's own fault, and shows the line."""
    place = line.split()[2].split(':')[0] if line.startswith('dask: job ') else ''
    text = job.text.splitlines()[int(place) - 1:int(place)] if place.isdigit() else []
    return ValueError(f'{line}, in the line: {text[0]}') if text else None, None


def refused_file(line, job):
    """The input of which the line speaks, and where it was opened."""
    for array in job.inputs():
        if any(line.startswith(f'dask: file {name}: ') for name in array.parameters[:2]):
            return ValueError(f'{line}. It was opened in {told(array.place)}'), array
    return None, None


def divided(line, job):
    """The array that divides by zero, its part, and where it was made."""
    node = int(line.split(' node ')[1].split()[0])
    if node >= len(job.nodes):
        return None, None
    array = job.nodes[node]
    text = f'{line}: a divisor is 0 in the part {part(array, line)} of the array {array.shape} of {told(array.place)}'
    return ZeroDivisionError(f'{text}. Take a divisor that is not, as y.where(d, d, 1)'), array


def part(array, line):
    """Where a block lies, which the line names at its end."""
    block = [int(place) for place in line[line.rindex('(') + 1:-1].split(',') if place.strip()]
    ranges = [f'{sum(sizes[:place])}:{sum(sizes[:place + 1])}' for sizes, place in zip(array.chunks, block)]
    return f'[{", ".join(ranges)}]'


def unread(line, job):
    """The first input that can't be opened."""
    for array in job.inputs():
        name, path = array.parameters[:2]
        if not os.path.exists(path):
            return FileNotFoundError(errno.ENOENT, f'{line}: it is not there any more. It was opened in {told(array.place)}', name), array
        if not os.access(path, os.R_OK):
            return PermissionError(errno.EACCES, f'{line}: it may not be read. It was opened in {told(array.place)}', name), array
    return None, None


def unwritten(line, job):
    """The first saved file whose folder isn't there, or in which nothing may be made."""
    for name, array in job.saves.items():
        folder = os.path.dirname(os.path.abspath(name))
        if not os.path.isdir(folder):
            return FileNotFoundError(errno.ENOENT, f'{line}: its folder is not there', name), array
        if not os.access(folder, os.W_OK | os.X_OK):
            return PermissionError(errno.EACCES, f'{line}: no file may be made in its folder', name), array
    return None, None


def without_memory(line, job):
    return MemoryError(f'{line}: take smaller chunks, or `run` with a smaller `memory`'), None


def killed(line, job):
    return RuntimeError(f'{line}: take a larger `allowed_failures`, or none'), None


EXPLAINED = {2: refused_text, 3: refused_file, 4: divided, 5: unread, 6: unwritten, 8: without_memory, 11: killed}
