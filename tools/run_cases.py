"""The lines of the program site_table on runs by a cluster of threads: their words, and calls that fail.

What a line wants is the same whatever the threads do. site_table.py writes the lines. Import it where NumPy is.
"""
import numpy as np

from site_lines import (ARRAYS, INPUT, ONE_CELL, PAIR, PAIR_SAVES, STOPPED, SUM, UNPRINTED, UNWRITTEN, X_AND_D, fail, fail_any, job, lines_of, often,
                        partly, refusal, saved, say, text, title, told)

RAISED = INPUT['a'] + 'let b = a + 1|save b "o.npy"|'
RAISED_SAVE = 'o.npy', ARRAYS['a.npy'] + 1
NO_INPUT = 'let b = full((1), 5, (1))|save b "o.npy"|'
ALONE = '--workers 1 --threads 1'


def in_turn(joins):
    """A script for one worker: so many join, and after each the one that was there before is lost."""
    return ','.join(f'join@0,lose:{k + 1}@0' for k in range(joins))


# options behind `run JOB`
ACCEPTED = [
    '--workers 1',
    '--workers 3',
    '--workers 64 --threads 1',
    '--threads 1',
    '--threads 16',
    ALONE,
    '--threads 3 --workers 2',
    '--workers 007 --threads 0002',
    '--saturation 1',
    '--saturation 1000 --workers 2',
    '--memory 1',
    '--memory 268435456',
    f'--memory {2**40}',
    '--memory=0024 --threads 1',
    '--transport inproc',
    '--script lose:1@1',
    '--script suspect:2@0',
    '--script join@0',
    '--script join@4',
    '--workers 3 --script lose:1@1,join@2,suspect:3@3',
    '--script lose:1@0,suspect:2@0,lose:3@0',
    '--workers 1 --script join@1,lose:1@1',
    '--workers 1 --script join@0,join@0,suspect:1@1,lose:3@2',
    '--transport inproc --script join@2 --saturation 11 --threads 3 --workers 2',
    '--script suspect:1@2,join@2 --workers 2 --transport inproc --saturation 5',
    '--saturation 20 --threads 1 --script join@1,lose:2@3',
    # as many threads as there may be, after joins and after a loss
    '--workers 1 --threads 16 --script join@1,join@1,join@1',
    '--threads 1 --workers 64 --script lose:64@0,join@1',
    # as many joins as there may be
    f'{ALONE} --script {in_turn(64)}',
    # as many finishes as an item can wait for
    f'--script lose:1@{2**128 - 2}',
    '--script lose:004@0000000000000000000000000000000000000000000000000000000000000001',
    # losses that are allowed: at least as many as the script takes workers away
    '--allowed-failures 0',
    '--allowed-failures 0 --script join@2',
    '--allowed-failures 1000 --script lose:1@1',
    '--workers 3 --allowed-failures=002 --script lose:1@1,join@2,suspect:3@3',
    '--script lose:1@0,suspect:2@0,lose:3@0 --allowed-failures 3',
    # a value behind a sign of equality, and the end of the options
    '--workers=3',
    '--workers=007 --threads 2',
    '--threads=1 --workers=1 --saturation=1000 --transport=inproc',
    '--script=join@3,lose:1@3',
    '--',
    '--workers 2 --',
]

# `run` with options before the job
BEFORE = ['run --workers 2 job.txt', 'run --workers=2 job.txt --threads 2', 'run -- job.txt', 'run --script join@1 -- job.txt']

REFUSED = [
    # no option, or no value
    '7',
    'x',
    '--workers',
    '--threads 2 --workers',
    '--transport',
    '--script',
    '2 --workers',
    '--workers 2 x',
    '--report yes',
    '--report=yes',
    '--report=',
    '--Report',
    '--memory',
    '--memory=',
    '--memory 0',
    f'--memory {2**40 + 1}',
    f'--memory {2**64 + 1}',
    f'--memory {2**128 + 1}',
    '--memory -1',
    '--memory 1k',
    '--memory 5 --memory 5',
    '-workers 2',
    '-w2',
    '--Workers 2',
    '--worker 2',
    '--=2',
    '-- 2',
    '-- --workers 2',
    # there are no flags of help
    '--help',
    '-h',
    '--version',
    '-V',
    # numbers
    '--workers 0',
    '--workers 65',
    '--workers 65 --threads 1',
    '--workers -1',
    '--workers +1',
    '--workers 1.0',
    '--workers one',
    '--workers ',
    '--workers=',
    '--workers=-1',
    f'--workers {2**32 + 1}',
    f'--workers {2**128 + 1}',
    '--threads 0',
    '--threads 17 --workers 1',
    '--saturation 0',
    '--saturation 1001',
    '--allowed-failures',
    '--allowed-failures=',
    '--allowed-failures 1001',
    '--allowed-failures -1',
    '--allowed-failures 1.0',
    '--allowed-failures none',
    f'--allowed-failures {2**128 + 1}',
    '--allowed-failures 1 --allowed-failures 1',
    '--allowed-failure 1',
    # more than 64 threads
    '--workers 33',
    '--threads 16 --workers 5',
    '--workers 9 --threads 8',
    '--workers 64',
    # an option twice
    '--workers 2 --workers 2',
    '--workers 2 --workers=2',
    '--report --report',
    '--report --workers 2 --report',
    '--script join@1 --threads 2 --script join@1',
    '--transport inproc --transport inproc',
    # other transports
    '--transport tcp',
    '--transport INPROC',
    '--transport ',
    '--transport=',
    # texts that are no scripts
    *('--script ' + script for script in (
        '', ',', 'lose', 'join', 'lose:1', 'lose@1', 'lose:@1', 'lose:1@', 'lose:one@1', 'lose:-1@1', 'lose:1@1.5', 'join:1@1', 'join@', '@1', 'joins@1',
        'Lose:1@1', 'lose:1@1,', ',lose:1@1', 'lose:1@1,,join@2', 'lose:1@1;join@2', f'lose:{2**32}@1', f'lose:{2**32 + 1}@1', f'join@{2**128 - 1}',
        f'join@{2**128}')),
    # scripts that can't be followed
    *('--script ' + script for script in (
        'lose:5@1', 'lose:0@1', 'suspect:5@1,join@1', 'lose:1@1,lose:1@2', 'lose:1@1,suspect:1@1', 'lose:1@2,lose:2@1', 'join@1,join@0',
        'lose:1@0,lose:2@0,lose:3@0,lose:4@0')),
    '--script -1',
    '--script=-1',
    '--script=',
    '--workers 1 --script lose:1@1',
    '--workers 1 --script suspect:1@0,join@0',
    '--workers 2 --script join@0,lose:1@1,lose:2@1,suspect:3@1',
    '--workers 64 --threads 1 --script join@1',
    '--workers 32 --script join@1',
    '--workers 1 --threads 16 --script join@1,join@1,join@1,join@1',
    f'{ALONE} --script {in_turn(65)}',
]

# for jobs by chance
OPTIONS = ['--transport inproc', ALONE, '--workers 2', '--script lose:1@1', '--threads 1 --script suspect:2@3', '--workers 1 --script join@0', '--saturation 1',
           '--workers 3 --threads 1 --script lose:1@2,join@4,suspect:3@6', '--workers 1 --threads 4', '--workers 8 --threads 1 --saturation 100',
           '--workers 2 --script join@1,lose:1@2,lose:2@5', '--memory 1', '--memory 40 --workers 2 --script lose:1@2']


def options_at(place):
    return OPTIONS[place % len(OPTIONS)]


def run_of(options):
    return f'run job.txt {options}' if options else 'run job.txt'


def words():
    title('words of a run, twice by threads')
    job(RAISED)
    done = told(0, lines_of('run', RAISED_SAVE), '', '0 0 0 0', 'o.npy', text(saved(RAISED_SAVE[1])))
    say('site 4096 0')
    for command in [*map(run_of, ACCEPTED), *BEFORE]:
        often('o.npy', command, done)
    # a job of any name
    say('put --workers ' + RAISED)
    say('top o.npy run -- --workers', 'top:' + done)
    for other in ('run help', 'run -', 'run '):
        say('site 4096 0')
        say(f'top o.npy {other}', 'top:' + refusal(5, 'read fault'))
    title('words that begin as those of a run and ask for nothing')
    for options in REFUSED:
        say('site 4096 0')
        say(f'top o.npy {run_of(options)}', 'top:' + refusal(1, 'words'))
    for other in ('run --workers 2', 'run --workers', 'run --workers --threads 1', 'run --help', 'run --job.txt', 'run -job.txt', 'run help job.txt',
                  'plain job.txt --workers 2', 'plain job.txt --report', 'plain --help', 'plain -job.txt', 'sim job.txt 7 --transport inproc',
                  'sim job.txt 7 --report', 'sim job.txt --workers 2', 'sim --help', 'plain job.txt --memory 5', 'sim job.txt 7 --memory 5',
                  'plain job.txt --allowed-failures 1'):
        say('site 4096 0')
        say(f'top o.npy {other}', 'top:' + refusal(1, 'words'))
    # nothing is opened or created then
    for kind in ('open', 'create'):
        fail(kind, 'o.npy', run_of('--workers 0'), (1, '', 'dask: words|', '0 0 0 0', 'none'), count=0)


def report_of(keys, edges):
    """The report of a run by one worker, who starts each key once."""
    return f'keys {keys}|edges {edges}|started {keys}|worker 1 started {keys}|gathers 0|steals confirmed 0|steals refused 0|losses 0|'


def reports():
    title('the report of a run by one worker')
    # one addition: two blocks are loaded and raised. One cell: one block is made
    for text_of, save, report in ((RAISED, RAISED_SAVE, report_of(4, 2)), (NO_INPUT, ('o.npy', np.array([5])), report_of(1, 0))):
        job(text_of)
        say('site 4096 0')
        first, last = lines_of('run', save).split('finished')
        lines = f'{first}{report}finished{last}'
        done = told(0, lines, '', '0 0 0 0', 'o.npy', text(saved(save[1])))
        for command in ('run job.txt --workers=1 --threads 1 --report', 'run job.txt --report --workers 1', 'run --report --workers 1 job.txt',
                        'run --workers 1 --report -- job.txt', 'run job.txt --threads=3 --report --workers=1 --saturation 1000'):
            often('o.npy', command, done)
        fail('out', 'o.npy', 'run job.txt --workers 1 --report', (*UNPRINTED, 'whole'), (0, lines, '', '0 0 0 0', 'whole'))
    # nothing is printed of a run that fails
    job(INPUT['a'] + 'let b = a // (a - 2)|save b "o.npy"|')
    say('site 4096 0')
    say('top none.npy run job.txt --report', 'top:' + told(4, '', 'dask: zero division: node 3 block (0)|', '0 0 0 0', 'none.npy', 'none'))


def openings(inputs, numbers, threads):
    """The job, each input for its head, and each once more for each thread of each worker number."""
    return 1 + inputs + inputs * numbers * threads


def at_feeds(kind, feeds):
    """Such a call fails at the first use of each of these feeds; before them the job and the heads of the inputs have a store each."""
    return ' '.join(f'{kind}:0@{2 + feed}' for feed in feeds)


def reads_fail(file, command, lines, opened, others=True):
    """A call that fails before the heads are read ends the run before a file is created. One that fails for a feed ends a worker: the
    others do its tasks."""
    done = (0, lines, '', '0 0 0 0', 'whole')
    answers = [STOPPED, (0, lines, '', '1 0 0 0', 'whole') if others else (*STOPPED[:4], 'in part'), done]
    fail('open', file, command, *answers, count=opened)
    for kind in ('length', 'read'):
        fail(kind, file, command, *answers)


def writes_fail(command, lines):
    """Both files are created before the first block is written, and their blocks are written as they come."""
    done = (0, lines, '', '0 0 0 0', 'whole')
    for file, created in (('o.npy', ('none', 'in part')), ('s.npy', ('none',))):
        fail('create', file, command, *[(*UNWRITTEN, held) for held in created], done, count=2)
    for file, written in (('o.npy', ('in part',)), ('s.npy', ('none', 'in part'))):
        fail_any('write', file, command, *[(*UNWRITTEN, held) for held in written], done)


def faults():
    title('each call of a run by threads fails in turn')
    job(PAIR)
    say('site 4096 0')
    lines = lines_of('run', *PAIR_SAVES)
    done = (0, lines, '', '0 0 0 0', 'whole')
    for options, numbers, threads in (('', 4, 2), ('--workers 2 --threads 3', 2, 3), ('--workers 1 --script join@0', 2, 2), (ALONE, 1, 1)):
        reads_fail('o.npy', run_of(options), lines, openings(2, numbers, threads), others=numbers > 1)
    writes_fail('run job.txt', lines)
    fail('out', 's.npy', 'run job.txt', (*UNPRINTED, 'whole'), done)
    fail('err', 'o.npy', 'run job.txt', done)
    for most, command in ((16, run_of(ALONE)), (64, 'run job.txt')):
        title(f'the same by {most} bytes a call')
        say(f'site 4096 {most}')
        reads_fail('s.npy', command, lines, openings(2, *((1, 1) if most == 16 else (4, 2))), others=most == 64)
        writes_fail(command, lines)
        fronts = [(6, lines[:k], 'dask: write fault|', '0 0 1 0', 'whole') for k in range(0, len(lines), most)]
        fail('out', 'o.npy', command, *fronts, done)
    objects(lines)
    counts()
    losses()
    disks()
    each_in_turn()


def objects(lines):
    title('a run by threads at single objects')
    held = text(saved(SUM))
    say('site 20 0')
    say('top o.npy run job.txt', 'top:' + told(6, lines[:20], 'dask: write fault|', '0 0 1 0', 'o.npy', held))
    for refused in ('open:0@1', 'open:1@1', 'length:0@1', 'length:1@1', 'read:0@0', 'read:0@1', 'read:3@1',
                    # every read from the third on, which is the first of a head
                    ' '.join(f'read:{k}' for k in range(2, 64))):
        say(f'site 4096 0 {refused}')
        say('top o.npy run job.txt', 'top:' + refusal(5, 'read fault'))
    # a file's header is written as it is created, then its blocks, each at once and in any order
    begun = text(saved(np.zeros(3)))
    for refused, left in (('create:0@0', 'none'), ('create:0@1', begun), ('write:0@0', '\\00' * (128 + 24)), ('write:0@1', begun), ('write:1@0', begun)):
        say(f'site 4096 0 {refused}')
        say('top o.npy run job.txt', 'top:' + told(*UNWRITTEN, 'o.npy', left))
    for refused in ('write:2@0', 'write:1@1'):
        say(f'site 4096 0 {refused}')
        say('top none.npy run job.txt', 'top:' + told(*UNWRITTEN, 'none.npy', 'none'))
        partly(6, 'o.npy', SUM, 'run job.txt')
    title('feeds that are not opened')
    # feed 0 and 1 are those of worker 1
    for options, feeds, spoilt in (('', [0], 1), ('', [7], 1), (ALONE, [0], None), ('--threads 1', [0, 1, 2], 3), ('--threads 1', [0, 1, 2, 3], None),
                                   ('--workers 1 --script join@1', [0], None), ('--workers 1 --script join@1', [2], 1),
                                   ('--workers 1 --script join@0', [0], 1), ('--workers 1 --script join@0', [3], 1)):
        say('site 4096 0 ' + at_feeds('open', feeds))
        say(f'top o.npy {run_of(options)}',
            'top:' + (told(0, lines, '', f'{spoilt} 0 0 0', 'o.npy', held) if spoilt else
                      told(5, '', 'dask: read fault|', f'{len(feeds)} 0 0 0', 'o.npy', begun)))


def counts():
    title('how often a run by threads opens and creates')
    done = (0, lines_of('run', RAISED_SAVE), '', '0 0 0 0', 'whole')
    lost = (*done[:3], '1 0 0 0', 'whole')
    job(RAISED)
    say('site 4096 0')
    for options, numbers, threads in (('', 4, 2), ('--workers 3 --threads 1', 3, 1), ('--workers 2 --threads 1 --script join@1,lose:1@2,join@3', 4, 1),
                                      ('--threads 1 --script join@400', 5, 1)):
        fail('open', 'o.npy', run_of(options), STOPPED, lost, done, count=openings(1, numbers, threads))
    # there is no other worker
    fail('open', 'o.npy', run_of(ALONE), STOPPED, (*STOPPED[:4], 'in part'), done, count=openings(1, 1, 1))
    fail('create', 'o.npy', 'run job.txt', (*UNWRITTEN, 'none'), done, count=1)
    job(NO_INPUT)
    done = (0, lines_of('run', ('o.npy', np.array([5]))), '', '0 0 0 0', 'whole')
    fail('open', 'o.npy', 'run job.txt', STOPPED, done, count=openings(0, 4, 2))
    for kind in ('length', 'read'):
        # the job is read to its end, and nothing else
        fail(kind, 'o.npy', 'run job.txt', *([STOPPED] if kind == 'read' else []), done)


def losses():
    title('feeds that fail')
    job(ONE_CELL)
    held = text(saved(ARRAYS['one.npy'] + 1))
    # one task reads, so that each worker meets one fault, and the next one does the task, until none is left
    for options, workers, threads in (('', 4, 2), ('--workers 3 --threads 1', 3, 1), ('--workers 1 --threads 4', 1, 4),
                                      ('--workers 1 --script join@0', 2, 2), (ALONE, 1, 1)):
        for kind in ('length', 'read'):
            say('site 4096 0 ' + at_feeds(kind, range(workers * threads)))
            say(f'top o.npy {run_of(options)}', 'top:' + told(5, '', 'dask: read fault|', f'{workers} 0 0 0', 'o.npy', text(saved([0]))))
        # where one worker's feeds are sound it does the task, after none, some or all of the others
        for sound in range(workers if workers > 1 else 0):
            own = range(sound * threads, (sound + 1) * threads)
            say('site 4096 0 ' + at_feeds('read', [feed for feed in range(workers * threads) if feed not in own]))
            say(f'saved o.npy {run_of(options)}', f'saved: 0 o.npy {held}')


def killed():
    title('runs in which a worker leaves more often than is allowed')
    lines = 'let a = ramp((1), 0, 1, (1))|let b = a + 1|save b "o.npy"|'
    job(lines)
    begun, done = text(saved([0])), told(0, lines_of('run', ('o.npy', np.array([1]))), '', '0 0 0 0', 'o.npy', text(saved([1])))
    thrice = 'suspect:1@1,suspect:2@1,suspect:3@1'
    # once the first key's finish counted, the next thing that the scheduler does is to suspect its worker, or to see its loss
    for workers, script, allowed, answer in ((2, 'suspect:1@1', 0, (1, 1)), (2, 'suspect:1@1', 1, None), (2, 'lose:1@1', 0, (1, 1)), (2, 'lose:1@1', 1, None),
                                             (4, thrice, 1, (0, 2)), (4, thrice, 2, None)):
        say('site 4096 0')
        often('o.npy', f'run job.txt --workers {workers} --threads 1 --script {script} --allowed-failures {allowed}',
              told(11, '', 'dask: killed worker: key {} losses {}|'.format(*answer), '0 0 0 0', 'o.npy', begun) if answer else done)
    # standard error fails
    say('site 4096 0')
    fail('err', 'none.npy', 'run job.txt --workers 2 --threads 1 --script suspect:1@1 --allowed-failures 0', (11, '', '', '0 0 0 1', 'none'),
         (11, '', 'dask: killed worker: key 1 losses 1|', '0 0 0 0', 'none'))
    title('a worker leaves since a read failed: once more than is allowed, as often, and until none is left')
    job(ONE_CELL)
    for workers, feeds, allowed, answer in ((2, 1, 0, (11, 'killed worker: key 0 losses 1')), (3, 2, 1, (11, 'killed worker: key 0 losses 2')),
                                            (2, 2, 2, (5, 'read fault'))):
        status, line = answer
        say('site 4096 0 ' + at_feeds('read', range(feeds)))
        say(f'top o.npy run job.txt --workers {workers} --threads 1 --allowed-failures {allowed}',
            'top:' + told(status, '', f'dask: {line}|', f'{feeds} 0 0 0', 'o.npy', begun))
    say('site 4096 0 ' + at_feeds('read', [0]))
    say('saved o.npy run job.txt --workers 2 --threads 1 --allowed-failures 1', 'saved: 0 o.npy ' + text(saved(ARRAYS['one.npy'] + 1)))
    title('a zero divisor is told where losses are bounded, too')
    job(INPUT['a'] + 'let b = a // (a - 2)|save b "o.npy"|')
    for command in ('run job.txt --allowed-failures 0', 'sim job.txt 7 --allowed-failures 0'):
        say('site 4096 0')
        say(f'top none.npy {command}', 'top:' + told(4, '', 'dask: zero division: node 3 block (0)|', '0 0 0 0', 'none.npy', 'none'))


def disks():
    title('runs by threads that put blocks on disks')
    job(PAIR)
    lines, held = lines_of('run', *PAIR_SAVES), text(saved(SUM))
    done = told(0, lines, '', '0 0 0 0', 'o.npy', held)
    # one worker holds two blocks at least once, and one byte is for one block alone
    say('site 4096 0')
    say(f'top o.npy {run_of(ALONE)} --memory 1', 'top:' + done)
    say('putany 1', 'putany: asked 1 put true')
    say('putany 2', 'putany: asked 0 put false')
    say('spilled', 'spilled: faults 0')
    # each number that a run may have gets a disk, and none takes a block without need
    say('site 4096 0')
    say('top o.npy run job.txt --workers 2 --script join@0', 'top:' + done)
    for worker in range(1, 5):
        say(f'putany {worker}', f'putany: asked {int(worker < 4)} put false')
    title('calls of disks that fail change nothing that is told')
    for options in ('', ALONE, '--workers 3 --threads 1 --script lose:1@2'):
        for kind in ('spill', 'put', 'get', 'delete'):
            # one of them, or all
            for calls in ([0], [1], [3], range(64)):
                say('site 4096 0 ' + ' '.join(f'{kind}:{call}' for call in calls))
                say(f'top o.npy {run_of(options)} --memory 1'.replace('  ', ' '), 'top:' + done)
    # a worker without a disk keeps its blocks
    say('site 4096 0 spill:0')
    say(f'top o.npy {run_of(ALONE)} --memory 1', 'top:' + done)
    say('putany 1', 'putany: asked 1 put false')
    say('spilled', 'spilled: faults 1')


def every(kind, place='', first=0):
    """Every such call from this one on, over all objects or at one."""
    return ' '.join(f'{kind}:{call}{place}' for call in range(first, 64))


def each_in_turn():
    """One addition, of which each outside call fails by itself, or all of a kind do: what ends the run, and what ends a worker or its disk alone."""
    job(RAISED)
    held = text(saved(RAISED_SAVE[1]))
    lines = lines_of('run', RAISED_SAVE)
    first, last = lines.split('finished')
    reported = f'{first}{report_of(4, 2)}finished{last}'
    title('each outside call of one addition: every read from the third on, which is the first of the head, and every read of the stores of worker 1')
    for command in (f'run job.txt {ALONE} --report', 'run job.txt'):
        say(f'site 4096 0 {every("read", first=2)}')
        say(f'top o.npy {command}', 'top:' + refusal(5, 'read fault'))
    # the job and the input's head have a store each, then each thread of worker 1; whether it comes to a read is up to the threads
    for threads in (1, 3):
        say('site 4096 0 ' + ' '.join(every('read', f'@{2 + thread}') for thread in range(threads)))
        say(f'saved o.npy run job.txt --workers 2 --threads {threads}', f'saved: 0 o.npy {held}')
    title('any one creation, write and print of one addition')
    done, told_all = (0, lines, '', '0 0 0 0', 'whole'), (0, reported, '', '0 0 0 0', 'whole')
    for most in (0, 16):
        say(f'site 4096 {most}')
        for command, end in ((run_of(ALONE), done), (f'run job.txt {ALONE} --report', told_all)):
            fail('create', 'o.npy', command, (*UNWRITTEN, 'none'), end, count=1)
            fail_any('write', 'o.npy', command, (*UNWRITTEN, 'in part'), end)
            fronts = [(6, end[1][:k], 'dask: write fault|', '0 0 1 0', 'whole') for k in range(0, len(end[1]) if most else 1, most or 1)]
            fail('out', 'o.npy', command, *fronts, end)
    title("a worker's disk of one addition: it isn't opened, no put, no get")
    for calls in ('spill:0', every('put')):
        say(f'site 4096 0 {calls}')
        say(f'top o.npy run job.txt {ALONE} --report --memory 1', 'top:' + told(0, reported, '', '0 0 0 0', 'o.npy', held))
    # what isn't had back is made again, so how often a key is started isn't told
    say(f'site 4096 0 {every("get")}')
    say(f'top o.npy run job.txt {ALONE} --memory 1', 'top:' + told(0, lines, '', '0 0 0 0', 'o.npy', held))
    title('standard error, where the block of the only element that is asked for meets a zero divisor at another one')
    job(X_AND_D + 'let q = (x // d)[0:1]|save q "o.npy"|')
    line = 'dask: zero division: node 2 block (0)|'
    for command in ('run job.txt', run_of(ALONE)):
        say('site 4096 0')
        fail('err', 'none.npy', command, (4, '', '', '0 0 0 1', 'none'), (4, '', line, '0 0 0 0', 'none'))
        say('site 4096 10')
        fronts = [(4, '', line[:k], '0 0 0 1', 'none') for k in range(0, len(line), 10)]
        fail('err', 'none.npy', command, *fronts, (4, '', line, '0 0 0 0', 'none'))
        say('site 4096 0 err:0')
        partly(4, 'o.npy', np.zeros(1), command)


# the sum of an array of 4 blocks and its transpose, by columns: 4 tasks each for the array, its transpose, the sum of both and the
# partial sums, and 2 that join these, with 4, 8, 4 and 4 dependencies
JOINED = 'let a = ramp((1024, 1024), 0, 1, (512, 512))|let s = sum(a + a.T, axis=(0))|save s "s.npy"|'


def noted():
    title('runs whose started and ended tasks are counted, against their report')
    say('site 4096 0')
    job(JOINED)
    for workers, losses, options in ((2, 0, '--workers 2 --threads 2 --report'), (2, 0, '--workers=2 --threads=2 --report'),
                                     (1, 0, '--report --threads 1 --workers 1'), (3, 1, '--workers 2 --script lose:1@3,join@4 --report'),
                                     (4, 0, '--report'), (8, 0, '--workers 8 --threads 8 --report --saturation 1000'),
                                     (5, 2, '--workers 3 --threads 1 --report --script suspect:2@0,join@0,join@1,lose:4@6'), (2, None, '--workers 2')):
        counted = [] if losses is None else ['each key was started: true', 'each start has its end: true', 'workers started what their lines say: true']
        report = [] if losses is None else ['keys 18', 'edges 20', f'losses {losses}']
        say(f'noted {workers} s.npy run job.txt {options}', 'noted: 0', 'saved s.npy (1024,)', *report, 'finished by: cluster', 'audit: agrees', *counted,
            'the file is that of plain: true')
    say('noted 0 s.npy run job.txt --report --report', 'noted: 1', 'the file is that of plain: false')
