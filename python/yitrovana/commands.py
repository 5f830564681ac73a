"""The program, and the words of its commands."""
import os
import re
from operator import index

HERE = os.path.dirname(os.path.abspath(__file__))
INSTALLED, CLONE = os.path.join(HERE, 'program'), os.path.normpath(os.path.join(HERE, '..', '..', 'dask'))
OPTIONS = {'run': ('workers', 'threads', 'memory', 'saturation', 'allowed_failures', 'script'), 'plain': (),
           'sim': ('workers', 'threads', 'saturation', 'allowed_failures', 'script'), 'dask': ('workers', 'threads', 'scheduler', 'timeout')}
RANGES = {'workers': (1, 64), 'threads': (1, 16), 'memory': (1, 2**40), 'saturation': (1, 1000), 'allowed_failures': (0, 1000)}
WORKERS, THREADS, TOGETHER = 4, 2, 64  # without the options, and workers times threads
UNITS = {'': 1, 'B': 1, **{f'{letter}{end}': 1000**power for power, letter in enumerate('KMGT', 1) for end in ('', 'B')},
         **{f'{letter}I{end}': 1024**power for power, letter in enumerate('KMGT', 1) for end in ('', 'B')}}


def program():
    """The words that start the program: of what the variable YITROVANA names, of what came with this package, or of this clone."""
    named = os.environ.get('YITROVANA')
    if named:
        return [existing(os.path.abspath(named))]
    if os.path.isdir(INSTALLED):
        return ['/bin/sh', '-c', 'root=$0 program=dask; . "$root/start.sh"', INSTALLED]
    return [existing(CLONE)]


def existing(path):
    if not os.path.isfile(path):
        raise FileNotFoundError(f'the program is not at {path}: let the variable YITROVANA name it')
    return path


def amount(memory):
    """Bytes, of a number or of a text as '1GiB'."""
    if not isinstance(memory, str):
        return index(memory)
    found = re.fullmatch(r'\s*([0-9]+\.?[0-9]*)\s*([A-Za-z]*)\s*', memory)
    if not found or found[2].upper() not in UNITS:
        raise ValueError(f"memory {memory!r}: write bytes, or a text as '500MB' or '1GiB'")
    return int(float(found[1]) * UNITS[found[2].upper()])


def checked(command, options):
    """The options that were given, as the program takes them."""
    if command not in OPTIONS:
        raise ValueError(f'there is no command {command!r}: write one of {", ".join(map(repr, OPTIONS))}')
    given = {name: value for name, value in options.items() if value is not None}
    for name in given:
        if name not in OPTIONS[command]:
            raise TypeError(f'the command {command!r} takes no `{name}`')
    if 'memory' in given:
        given['memory'] = amount(given['memory'])
    for name, (least, most) in RANGES.items():
        if name in given and not least <= index(given[name]) <= most:
            raise ValueError(f'{name} {given[name]}: from {least} to {most} can be')
    workers, threads = given.get('workers', WORKERS), given.get('threads', THREADS)
    if command in ('run', 'sim') and workers * threads > TOGETHER:
        raise ValueError(f'{workers} workers of {threads} threads are more than {TOGETHER} threads together')
    return given


def words(command, job, options, number):
    """The words of a command over the job in a file. A run tells its report."""
    said = [command, job] + ([str(index(number))] if command == 'sim' else []) + (['--report'] if command == 'run' else [])
    return said + [f'--{name.replace("_", "-")}={value}' for name, value in checked(command, options).items()]
