#!/usr/bin/env python3
"""The stories of the scheduler and of what it stands on; the scheduler's are played by the model of the rules in `cluster_model.py`.

    tools/scheduler_stories.py < crates/cluster_table/stdin

writes what each of these stories leads to, with an empty line behind it. Stories of other parts are left out.
"""
import sys

from cluster_model import Refused, Scheduler, keys_text, message_text, read_bounded, read_graph, read_keys, read_row
from world_model import read_event, report, report_text


def scheduler_event(words):
    """`worker NUMBER NAME SEEN ..`, `client NUMBER NAME ..`, or another event by its name."""
    name, fields = (words[0], words[1:]) if words[0] not in ('worker', 'client') else (words[2], [words[1], *words[3:]])
    if name in ('add-keys', 'want', 'release'):
        return name, *map(int, fields[:-1]), read_keys(fields[-1])
    return name, *(field if field in ('true', 'false') else int(field) for field in fields)


def taken(scheduler, event):
    try:
        down, news = scheduler.step(event)
    except Refused:
        return ["takes false: the event isn't possible"]
    joined = [f'joined {scheduler.last}'] if event[0] == 'join' else []
    return ['takes true: taken', *joined, *(f'to worker {worker}: {message_text(message)}' for worker, message in down),
            *(f'to client {client}: {message_text(message)}' for client, message in news)]


def phases(scheduler):
    """Those of all keys, and of a number that is no key. What hangs on a bad key is blamed on it, wanted or not."""
    keys = scheduler.graph.keys
    names = ((key, scheduler.phase(key)) for key in range(len(keys) + 1))
    shown = ' '.join(name + (f' by {scheduler.blame(key)}' if key in keys and scheduler.erred(key) else '') for key, name in names)
    return f'finishes {scheduler.finishes}: {shown}'


def facts(scheduler):
    """What is derived of the facts, and what the policies would do."""
    it, keys = scheduler, scheduler.graph.keys
    yield 'known' + ''.join(f' {key}' for key in keys if it.known(key))
    for key in keys:
        yield (f'key {key} needed {int(it.need(key))} held {int(it.held(key))} erred {int(it.erred(key))} on {it.on.get(key, (0, 0))[0]} '
               f'holders {len(it.holders(key))} waiters {len(it.waiters(key))} asked {int(key in it.steal)}')
    for worker in it.workers():
        yield (f'worker {worker} threads {it.threads[worker]} tasks {len(it.tasks(worker))} occupancy {it.occupancy(worker)} '
               f'bytes {it.bytes_held(worker)} full {int(it.full(worker))} holds' + ''.join(f' {key}' for key in keys if (worker, key) in it.has))
    yield 'places ' + ' '.join(str(it.place(key) or 0) for key in keys)
    steal, drop = it.next_steal(), it.next_drop()
    yield 'steal of {2} from {1} to {3}'.format(*steal) if steal else 'no steal'
    yield 'drop of {} at {}'.format(*drop) if drop else 'no drop'


def losses(scheduler):
    """Those of all keys, and of a number that is no key."""
    return ' '.join(['lost', *(str(scheduler.lost(key)) for key in range(len(scheduler.graph.keys) + 1))])


def play_scheduler(words, events):
    scheduler = Scheduler(read_graph(words[2:]), int(words[0]), *read_bounded(words[1]))
    for event in events:
        if event == 'losses':
            yield event, [losses(scheduler)]
        else:
            yield event, list(facts(scheduler)) if event == 'facts' else [*taken(scheduler, scheduler_event(event.split())), phases(scheduler)]


def is_row(key, work, nbytes, deps):
    return deps == sorted({dep for dep in deps if dep < key}) and work <= 2**46 and nbytes <= 2**27


def play_graph(words, _):
    rows = [(key, *row) for key, row in enumerate(map(read_row, words))]
    bad = next((row[0] for row in rows if not is_row(*row)), None)
    if bad is not None:
        yield f'no graph has row {bad}', []
        return
    shown = (f'key {key} {work} {nbytes} on {keys_text(deps)}' for key, work, nbytes, deps in rows)
    yield None, [f'{len(rows)} keys, {sum(len(row[3]) for row in rows)} edges', *shown]


def play_copies(_, events):
    """A copy says what its source says."""
    for event in events:
        if event == 'texts':
            yield event, ['all events were taken, the feed failed']
        elif event.startswith('script '):
            _, worker, count = event.split()
            yield event, [f'lose {worker} at {count}', f'suspect {worker} at {count}', f'join at {count}']
        else:
            yield event, [event]


def play_grid(words, events):
    wide, grid = int(words[0]), []
    for event in events:
        name, *fields = event.split()
        if name == 'push':
            grid.append([None] * wide)
        elif name == 'clear':
            grid[int(fields[0])] = [None] * wide
        elif name == 'keep':
            grid = [[n if k == int(fields[0]) else None for k, n in enumerate(row)] for row in grid]
        elif int(fields[0]) < len(grid) and int(fields[1]) < wide:
            grid[int(fields[0])][int(fields[1])] = int(fields[2])
        else:
            yield event, None
            continue
        rows = [[grid[r][k] if r < len(grid) and k < wide else None for k in range(4)] for r in range(4)]
        shown = ''.join(' ' + ' '.join('-' if n is None else str(n) for n in row) + ';' for row in rows)
        yield event, [f'{len(grid)} rows:{shown}']


def play_report(words, events):
    read = [event.partition(' | ') for event in events]
    print(report_text(report(read_graph(words), [(read_event(front.split()), message.split()[1:]) for front, _, message in read])))
    return []


def play_packet(words, _):
    yield None, ['1 blocks']


PARTS = {
    'scheduler': play_scheduler, 'graph': play_graph, 'copies': play_copies, 'grid': play_grid,
    'report': play_report, 'packet': play_packet,
}


def main():
    for story in sys.stdin.read().split('\n\n'):
        lines = story.strip('\n').split('\n')
        note = lines[:1] if lines[0].startswith('#') else []
        head, *events = lines[len(note):]
        part, *words = head.split()
        if part in PARTS:
            print('\n'.join(note + [head]))
            for event, answer in PARTS[part](words, events):
                told = ['ill'] if answer is None else [f'  {line}' for line in answer]
                print('\n'.join(([event] if event else []) + told))
            print()


if __name__ == '__main__':
    main()
