#!/usr/bin/env python3
"""The stories of workers, clients, worlds and simulations, played by the model of the rules (`cluster_model.py`, `world_model.py`).

    tools/world_stories.py < crates/cluster_table/stdin

writes what each of these stories leads to, with an empty line behind it. Stories of other parts are left out.
"""
import sys

from cluster_model import FIELDS, Client, Refused, Worker, keys_text, message_of, message_text, read_bounded, read_graph, read_keys
from world_model import KINDS, Feed, Simulation, Stopped, Words, World, bound, event_text, read_event, report_text

PEERS = [1, 2, 3, 4, 127, 128, 200, 201]
SHOWN = 40


def core_event(words):
    name, *fields = words
    if name in FIELDS:
        return message_of(words)
    if name in ('want', 'release'):
        return name, read_keys(fields[0])
    if name == 'gathered':
        return name, int(fields[0]), int(fields[1]), read_keys(fields[2])
    return (name, *map(int, fields))


def instruction_text(instruction):
    name, *fields = instruction
    if name == 'gather':
        return f'gather {fields[0]} {fields[1]} {keys_text(fields[2])}'
    if name in ('execute', 'keep', 'drop'):
        return f'{name} {fields[0]}'
    return 'send ' + message_text(instruction)


def ended(core, event):
    try:
        return ''.join([': taken', *(f', {instruction_text(i)}' for i in core.step(event))])
    except Refused:
        return ': refused'


def asks_text(core):
    asks = ''.join(f' {peer}' for peer in PEERS if core.would_ask(peer))
    still = ''.join(f' {peer}@{core.ask_number(peer)}' for peer in PEERS if core.ask_number(peer))
    return f'; ask{asks}; open{still}; pairs {core.pairs()}'


def play_worker(setting, events):
    core = Worker(read_graph(setting[2:]), int(setting[0]), int(setting[1]))
    for line in events:
        print(line + ended(core, core_event(line.split())))
        start = core.would_start()
        states = ''.join(f' {core.state(key)}' for key in core.graph.keys)
        starts = '' if start is None else f' {start}'
        runs = ''.join(f' {key}' for key in sorted(core.running))
        print(f' {states}; start{starts}; runs{runs}{asks_text(core)}')


def play_client(setting, events):
    core = Client(read_graph(setting))
    for line in events:
        print(line + ended(core, core_event(line.split())))
        ends = ''.join(f' {core.done(key)}' for key in core.graph.keys)
        print(f' {ends}{asks_text(core)}')


def values_of(graph, content):
    """A key without dependencies is worth the content, another 100 divided by its first dependency, and nothing where that is 0."""
    values = []
    for deps in graph.deps:
        inputs = [values[dep] for dep in deps]
        divided = 100 // inputs[0] if inputs and None not in inputs and inputs[0] else None
        values.append(divided if deps else content)
    return values


def world_of(setting):
    clients, bounded, content, fails = setting[:4]
    assert fails in ('true', 'false')
    graph = read_graph(setting[4:])
    saturation, allowed = read_bounded(bounded)
    return World(graph, int(clients), saturation, values_of(graph, int(content)), fails == 'true', allowed)


def taken(world, event):
    message = world.message(event) if world.enabled(event) else None
    takes = f' takes {KINDS[event[0]]} {message_text(message)}' if message else ''
    try:
        world.step(event)
        return takes + ': taken'
    except Refused:
        return takes + ': not enabled'
    except Stopped:
        return takes + ': stopped'
    except Feed:
        return takes + ': the feed failed'


def print_world(world):
    nexts = world.progress()
    shown = ''.join(f'; {event_text(event)}' for event in nexts[:SHOWN])
    print(f'  under way {world.under_way()}; workers {world.worker_count()}; finishes {world.sched.finishes}; '
          f'bound {world.rest()}')
    print(f'  progress {len(nexts)}{shown}')
    for client in world.clients:
        print(f'  client {client}:' + ''.join(f' {world.key_text(client, key)}' for key in world.graph.keys))


def play_world(setting, events):
    world = world_of(setting)
    for line in events:
        name, *fields = line.split()
        if name == 'go':
            print(line)
            for _ in range(int(fields[0])):
                if not world.progress():
                    break
                event = world.progress()[0]
                ended = taken(world, event)
                print(event_text(event) + ended)
                if not ended.endswith('taken'):
                    break
        elif name == 'losses':
            print(line)
            print('  lost ' + ' '.join(str(world.sched.lost(key)) for key in world.graph.keys))
        else:
            print(line + taken(world, read_event(line.split())))
        print_world(world)
    print(f'faults {world.faults}')


def read_item(word):
    what, at = word.split('@')
    return tuple([*(int(w) if w.isdigit() else w for w in what.split(':')), int(at)])


def fault_text(simulation):
    if simulation.end() == 'all':
        return ''
    killed = simulation.killed()
    return f' blame {simulation.end()}' if killed is None else f' killed {simulation.end()} {killed}'


def play_simulation(setting, events):
    assert not events
    workers, bounded, number, script, wanted = setting[:5]
    threads, slash, allowed = bounded.partition('/')
    world = world_of(['1', '11' + slash + allowed, *setting[5:]])
    items = [] if script == '-' else [read_item(word) for word in script.split(',')]
    wanted = read_keys(wanted)
    if not (wanted and max(wanted) < len(world.graph.keys) and int(workers) <= 64 and 1 <= int(threads) <= 16):
        print('ill')
        return
    try:
        simulation = Simulation(world, int(workers), int(threads), int(number), wanted, items)
        if simulation.play():
            print(f'turns {simulation.turns}' + fault_text(simulation))
            print(report_text(simulation.report()))
        else:
            print('nothing moves')
    except Feed:
        print('the feed failed')
    print(' '.join(['wanted:', *(world.key_text(1, key) for key in wanted)]))
    print(f'faults {world.faults}')


def play_bound(setting, events):
    for line in events:
        print(f'{line}: {bound(*map(int, line.split()))}')


def play_generator(setting, events):
    for line in events:
        words = Words(int(line))
        print(f'{line}: ' + ' '.join(str(words.word()) for _ in range(3)))


PARTS = {'worker': play_worker, 'client': play_client, 'world': play_world, 'simulation': play_simulation,
         'bound': play_bound, 'generator': play_generator}


def main():
    for story in sys.stdin.read().split('\n\n'):
        lines = story.rstrip('\n').split('\n')
        notes = [lines.pop(0)] if lines[0].startswith('#') else []
        part, *setting = lines[0].split() or ['']
        if part in PARTS:
            print(*notes, lines[0], sep='\n')
            PARTS[part](setting, lines[1:])
            print()


if __name__ == "__main__":
    main()
