#!/usr/bin/env python3
"""One line on what most likely lies behind a refusal: tools/hints.py STATUS LINE WORDS .., where LINE is what the program said.

With `ended` as STATUS it removes what a program that was ended from outside left beside its saved files.
"""
import os
import re
import sys
import tempfile

import hints_of_text

sys.path.append(os.path.join(os.path.dirname(os.path.dirname(os.path.abspath(__file__))), 'python', 'yitrovana', 'cluster'))
import job_text  # noqa: E402

COMMANDS = {'run': 1, 'plain': 1, 'sim': 2, 'gen': 1}  # and how many words behind them are no options
NUMBERED = ('sim', 'gen')
BOTH = ('--workers', '--threads')
OPTIONS = {'run': (*BOTH, '--memory', '--saturation', '--allowed-failures', '--script', '--transport', '--report'), 'plain': (),
           'sim': (*BOTH, '--saturation', '--allowed-failures', '--script'), 'gen': BOTH}
RANGES = {'--workers': (1, 64), '--threads': (1, 16), '--memory': (1, 2**40), '--saturation': (1, 1000), '--allowed-failures': (0, 1000)}
UNITS = {unit: 1000**power for power, unit in enumerate(('', 'k', 'm', 'g', 't'))}


class Words:
    """A command's words, taken apart as the program does: `wrong` is what is most likely wrong with them, or None."""

    def __init__(self, words):
        self.command, self.others, self.options, self.wrong = (words[0] if words else ''), [], {}, None
        rest, known = list(words[1:]), OPTIONS.get(self.command, ())
        while rest and not self.wrong:
            word = rest.pop(0)
            if word == '--':
                self.others += rest
                break
            if not word.startswith('-') or word == '-':
                self.others.append(word)
            else:
                self.option(word, rest, known)
        self.job = self.others[0] if self.others and self.command != 'gen' else None

    def option(self, word, rest, known):
        name, equals, value = word.partition('=')
        if name not in known:
            has = f'it has {", ".join(known)}' if known else 'it has none'
            self.wrong = f'{self.command} has no option {name}; {has}'
        elif name in self.options:
            self.wrong = f'{name} is written twice'
        elif name == '--report':
            self.wrong = '--report takes no value' if equals else None
            self.options[name] = ''
        elif not equals and (not rest or rest[0].startswith('-')):
            self.wrong = f'{name} wants a value behind it; one that begins with a hyphen is written {name}=VALUE'
        else:
            self.options[name] = value if equals else rest.pop(0)


def of_words(words):
    """Status 1."""
    if words[0] not in COMMANDS:
        return f'there is no command {words[0]}; the commands are run, plain, sim and gen'
    said = Words(words)
    return said.wrong or of_places(said) or of_values(said.options) or of_script(said)


def of_places(said):
    """The words that are no options."""
    wanted = {'run': 'JOB', 'plain': 'JOB', 'sim': 'JOB NUMBER', 'gen': 'NUMBER'}[said.command]
    if len(said.others) != COMMANDS[said.command]:
        here = ' '.join(said.others) or 'none'
        return f'{said.command} has {wanted} beside options, and here stands {here}'
    if said.command in NUMBERED and not is_number(said.others[-1], 2**64 - 1):
        return f'{said.others[-1]} is no NUMBER from 0 to 2^64 - 1'
    return None


def is_number(word, most):
    return word.isascii() and word.isdigit() and int(word) <= most


def of_values(options):
    for name, (least, most) in RANGES.items():
        value = options.get(name, str(least))
        if not is_number(value, most) or int(value) < least:
            return of_memory(value) if name == '--memory' else f'{name} is a number from {least} to {most}, and {value} is not'
    if options.get('--transport', 'inproc') != 'inproc':
        return 'the one --transport that there is so far is inproc'
    workers, threads = int(options.get('--workers', 4)), int(options.get('--threads', 2))
    if workers * threads > 64:
        return f'{workers} workers of {threads} threads are more than 64 threads together'
    return None


def of_memory(value):
    found = re.fullmatch(r'([0-9]+)([kmgt]?)(i?)b?', value.lower())
    if not found or not found[2] and not found[3]:
        return f'--memory is bytes, a number from 1 to 2^40, and {value} is not'
    return f'--memory is bytes: {value} is --memory {int(found[1]) * (UNITS[found[2]] if not found[3] else 1024 ** list(UNITS).index(found[2]))}'


def of_script(said):
    """A script item by item."""
    there, joined, finished = set(range(1, int(said.options.get('--workers', 4)) + 1)), 0, 0
    last, most = len(there), min(64, 64 // int(said.options.get('--threads', 2)))
    for item in said.options['--script'].split(',') if '--script' in said.options else ():
        found = re.fullmatch(r'(?:(lose|suspect):([0-9]+)|join)@([0-9]+)', item)
        if not found:
            return f'{item!r} is no item of a script: write lose:WORKER@COUNT, suspect:WORKER@COUNT or join@COUNT'
        if int(found[3]) < finished:
            return f'in a script no COUNT is less than the one before, as in {item}'
        finished = int(found[3])
        if found[1] and int(found[2]) not in there:
            return f'{item}: there is no worker {found[2]} by then; they are numbered from 1 as they join'
        if found[1]:
            there.discard(int(found[2]))
        else:
            last, joined = last + 1, joined + 1
            there.add(last)
        if not 1 <= len(there) <= most or joined > 64:
            return f'after {item} there are {len(there)} workers; at least one has to be there, and together at most 64 threads'
    return None


def of_job(line, words):
    """Status 2: of the job's text."""
    with open(Words(words).job, encoding='latin-1') as file:
        return hints_of_text.of_refusal(line, file.read())


def of_file(line, _):
    """Status 3: of an array file."""
    name, _, reason = line[len('dask: file '):].rpartition(': ')
    if line.endswith(']') or 'truncated: ' in line:
        name, _, reason = line[len('dask: file '):].partition(': truncated: ')
        return f'{name} ends too early: it was cut off, so copy or save it again'
    if reason.startswith('shape ('):
        own = re.sub(r',\)', ')', reason[len('shape '):].partition(' declared ')[0])
        return f'the file has another shape: in the job write `shape {own}`'
    return {'descr': 'elements are to be signed integers of 1, 2, 4 or 8 bytes: '
                     f"np.save('{name}', np.load('{name}').astype('<i8')), once you know that they have no fractions and none is above 2^63 - 1",
            'shape limit': 'an array has at most 8 axes and 2^31 elements: save parts of it'}.get(
                reason, 'it is no .npy file as np.save writes it: load it with what wrote it, and np.save it')


def read(words):
    """What the job asks for."""
    with open(Words(words).job, 'rb') as file:
        return job_text.read(file.read())


def of_reading(_, words):
    """Status 5: the first named file that can't be opened."""
    job = Words(words).job
    for name in [job, *(read(words).inputs.values() if os.path.isfile(job) and os.access(job, os.R_OK) else ())]:
        if not os.path.exists(name):
            return f'there is no {name} in {os.getcwd()}' if not os.path.isabs(name) else f'there is no {name}'
        if not os.path.isfile(name):
            return f'{name} is no regular file'
        if not os.access(name, os.R_OK):
            return f'{name} may not be read'
    return 'all named files can be opened now: a read failed, or too many files were open (`ulimit -n` says how many may be)'


def of_writing(_, words):
    """Status 6: the first saved file that can't be made."""
    for name in read(words).saves if Words(words).job else ():
        folder = os.path.dirname(os.path.realpath(name)) or '.'
        if not os.path.isdir(folder):
            return f'{name} can not be made: there is no folder {os.path.dirname(name)}'
        if os.path.isdir(name):
            return f'{name} is a folder'
        if not may_be_made(name, folder):
            return f'{name} can not be made: nothing may be written in {os.path.dirname(name) or "this folder"}'
    return 'a disk is full, a limit on the size of files is reached (`ulimit -f`), or standard output can not be written'


def of_killed(_, words):
    """Status 11: what would have been allowed."""
    said = Words(words).options
    removed = len(re.findall('(?:lose|suspect):', said.get('--script', '')))
    if removed <= int(said['--allowed-failures']):
        return 'workers ended by themselves, since an opening or a read failed'
    return f'with --allowed-failures {removed}, as often as the script takes a worker away, or without it, no task is killed'


def may_be_made(name, folder):
    """Whether a file can be made beside one, or what stands there, which is no file, can be written."""
    if os.path.exists(name) and not os.path.isfile(name):
        return os.access(name, os.W_OK)
    try:
        with tempfile.TemporaryFile(dir=folder):
            return True
    except OSError:
        return False


def of(status, line, words):
    """The line, or None."""
    try:
        if status == '1':
            return of_words(words)
        return {'2': of_job, '3': of_file, '5': of_reading, '6': of_writing, '11': of_killed}[status](line, words)
    except (OSError, KeyError, TypeError, ValueError, RecursionError, job_text.Refused):
        return None


def clean(words):
    sys.path.insert(0, os.path.join(os.path.dirname(os.path.abspath(__file__)), '..', 'python', 'yitrovana'))
    try:
        import leftovers
        leftovers.remove(read(words).saves, os.environ.get('DASK_SPILL'))
    except (ImportError, OSError, TypeError, RecursionError, job_text.Refused):
        pass


if __name__ == '__main__':
    sys.setrecursionlimit(10000)
    if sys.argv[1] == 'ended':
        clean(sys.argv[3:])
    else:
        found = of(sys.argv[1], sys.argv[2], sys.argv[3:])
        if found:
            print(f'hint: {found}')
