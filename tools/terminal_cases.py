#!/usr/bin/env python3
"""The launcher on a terminal of its own: tools/terminal_cases.py LAUNCHER. A line on how far a run is, and the end by Ctrl-C."""
import os
import pty
import signal
import sys
import tempfile
import time

# far longer than a look at a folder takes, so that it is ended in its course
LONG = 'let a = ramp((4096, 4096), 0, 1, (256, 256))\nlet b = tensordot(a, a, (1), (0))\nsave b "b.npy"\n'
SHORT = 'let b = ramp((3), 0, 1, (3))\nsave b "b.npy"\n'


def started(launcher, words, folder, standard_error=None):
    """The launcher with a terminal of its own, but for one of its streams, and that terminal."""
    child, own = pty.fork()
    if child == 0:
        os.chdir(folder)
        name, stream = ('/dev/null', 1) if standard_error is None else (standard_error, 2)
        os.dup2(os.open(name, os.O_WRONLY | os.O_CREAT), stream)
        os.execv(launcher, [launcher, *words])
    return child, own


def read_until(own, wanted):
    """What a terminal gets, up to a text, or to the end of the other side."""
    held = b''
    while wanted not in held:
        try:
            piece = os.read(own, 4096)
        except OSError:
            break
        if not piece:
            break
        held += piece
    return held


def status_of(child, own):
    """The status once the launcher is gone, while what it writes is read."""
    rest = read_until(own, b'\0')
    status = os.waitpid(child, 0)[1]
    os.close(own)
    return (-os.WTERMSIG(status) if os.WIFSIGNALED(status) else os.WEXITSTATUS(status)), rest


def has_part(folder):
    return any(name.endswith('.part') for name in os.listdir(folder))


def after_part(launcher, folder, words, end):
    """The status of a long run that is ended once it has a part of its file, and what is in the folder then."""
    child, own = started(launcher, words, folder)
    while not has_part(folder) and os.waitid(os.P_PID, child, os.WEXITED | os.WNOHANG | os.WNOWAIT) is None:
        time.sleep(0.02)
    end(child, own)
    status, _ = status_of(child, own)
    return status, sorted(os.listdir(folder))


def ends(launcher, folder):
    """Runs that are ended from outside: what, what came, and what is wanted."""
    def interrupt(_, own):
        os.write(own, b'\x03')

    def terminate(child, _):
        os.kill(child, signal.SIGTERM)

    # as of a worker's disk whose program was ended in the moment before it took the name
    with open(os.path.join(folder, '.dask-spill-4-0'), 'w', encoding='ascii'):
        pass

    for words in (['run', 'job.txt'], ['--progress', 'run', 'job.txt', '--memory=1000000'], ['plain', 'job.txt']):
        yield f'Ctrl-C, {words}', after_part(launcher, folder, words, interrupt), (-signal.SIGINT, ['job.txt'])
    yield 'an end by SIGTERM', after_part(launcher, folder, ['run', 'job.txt'], terminate), (-signal.SIGTERM, ['job.txt'])


def lines(launcher, folder):
    """The line on how far a run is."""
    child, own = started(launcher, ['--progress', 'run', 'job.txt'], folder)
    seen = read_until(own, b' of 128.0 MiB')
    os.write(own, b'\x03')
    status, _ = status_of(child, own)
    yield 'how far a run is', (b's: read ' in seen, b' of 0 B, wrote ' in seen, b' of 128.0 MiB' in seen, status), (True, True, True, -signal.SIGINT)


def elsewhere(launcher, folder):
    """Where standard error is no terminal."""
    child, own = started(launcher, ['--progress', 'plain', 'job.txt'], folder, 'errors')
    status, seen = status_of(child, own)
    with open(os.path.join(folder, 'errors'), encoding='ascii') as file:
        yield 'no terminal', (status, seen, file.read()), (0, b'saved b.npy (3,)\r\nfinished by: plain\r\n', '')


def main(launcher):
    # a shell that starts this in the background has it ignored, and what is started here would ignore it too
    signal.signal(signal.SIGINT, signal.default_int_handler)
    launcher, different, equal = os.path.abspath(launcher), 0, 0
    for cases, text in ((ends, LONG), (lines, LONG), (elsewhere, SHORT)):
        with tempfile.TemporaryDirectory() as folder:
            with open(os.path.join(folder, 'job.txt'), 'w', encoding='ascii') as file:
                file.write(text)
            for what, got, wanted in cases(launcher, folder):
                equal, different = equal + (got == wanted), different + (got != wanted)
                if got != wanted:
                    print(f'{what}: got\n{got}\nwanted\n{wanted}')
    print(f'equal {equal} different {different}')
    return different > 0


if __name__ == '__main__':
    sys.exit(main(sys.argv[1]))
