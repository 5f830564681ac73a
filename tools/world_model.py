"""A model of a world of the parts of `cluster_model.py`, with its links, and of simulations of it.

It is written from the tables that docs/CLUSTER.md explains, apart from the program, and never runs it. `world_stories.py` plays stories by it,
`journal_model.py` replays what runs kept, and `run_model.py` says what jobs answer.
"""
from cluster_model import Client, Refused, Scheduler, Worker, keys_text, read_keys

MOST_BOUND = (1 << 128) - 1


class Feed(Exception):
    pass


class Stopped(Exception):
    pass


def bound(clients, under_way, workers, keys, edges):
    if under_way == (1 << 64) - 1:
        return MOST_BOUND
    events = 32 * max(clients, 1) * (under_way + 1) ** 2 * (workers + 1) ** 2 * (keys + edges + 1) ** 3
    return min(events, MOST_BOUND)


class World:
    # workers come before clients where both ask
    ORDER = {'worker': 0, 'client': 1}

    def __init__(self, graph, clients, saturation, values, fails=False, allowed=None):
        """A key's value is none where it meets a zero divisor. With `fails` the first key without dependencies that ends stops the world."""
        self.graph, self.count, self.values, self.fails = graph, clients, values, fails
        self.sched = Scheduler(graph, clients, saturation, allowed)
        self.clients = {c: Client(graph) for c in range(1, clients + 1)}
        self.workers, self.alive, self.spilled = {}, set(), set()
        self.down, self.up = {}, {}
        self.to_client = {c: [] for c in self.clients}
        self.from_client = {c: [] for c in self.clients}
        self.requests, self.answers = {}, {}
        self.stopped, self.faults = False, 0

    # What may happen.

    def connected(self, worker):
        return worker in self.sched.threads

    def asker(self, asker):
        """The asker's core, where it may act."""
        kind, number = asker
        if kind == 'client':
            return self.clients.get(number)
        return self.workers[number] if number in self.alive else None

    def enabled(self, event):
        name, *fields = event
        if name in ('want', 'release'):
            client, keys = fields
            return client in self.clients and bool(keys) and all(key in self.graph.keys for key in keys)
        if name in ('join', 'balance', 'evict', 'replicate'):
            return self.sched.takes(event)
        if name in ('send-gather', 'fail-gather'):
            asker, peer = fields
            core = self.asker(asker)
            return core is not None and (core.would_ask(peer) if name == 'send-gather' else peer in core.asks)
        if name == 'serve-gather':
            peer, asker, ask = fields
            return peer in self.alive and (asker, peer, ask) in self.requests
        if name == 'arrive-gather':
            return self.asker(fields[0]) is not None and tuple(fields) in self.answers
        return self.enabled_at(name, *fields)

    def enabled_at(self, name, node, key=None):
        if name == 'see-loss':
            return node in self.workers and node not in self.alive and self.connected(node)
        if name == 'suspect':
            return self.connected(node)
        if name == 'deliver-up':
            return bool(self.up.get(node))
        if name == 'deliver-to-client':
            return bool(self.to_client.get(node))
        if name == 'deliver-from-client':
            return bool(self.from_client.get(node))
        if node not in self.alive:
            return False
        core = self.workers[node]
        if name == 'deliver-down':
            return bool(self.down[node])
        if name == 'start':
            return core.would_start() is not None
        if name == 'finish':
            return key in core.running
        if name == 'spill':
            return key in core.mem and (node, key) not in self.spilled
        if name == 'lose-spilled':
            return (node, key) in self.spilled
        assert name == 'lose', name
        return True

    # One event.

    def message(self, event):
        """The message that an enabled event takes."""
        name, *fields = event
        links = {'deliver-down': self.down, 'deliver-up': self.up, 'deliver-to-client': self.to_client,
                 'deliver-from-client': self.from_client}
        if name in links:
            return links[name][fields[0]][0]
        if name == 'serve-gather':
            peer, asker, ask = fields
            return ('get-data', ask, self.requests[asker, peer, ask])
        if name == 'arrive-gather':
            return ('data', fields[2], self.answers[tuple(fields)])
        return None

    def step(self, event):
        if self.stopped:
            raise Stopped
        if not self.enabled(event):
            raise Refused
        name, *fields = event
        getattr(self, 'on_' + name.replace('-', '_'))(*fields)
        self.spilled = {(w, key) for w, key in self.spilled if w in self.alive and key in self.workers[w].mem}

    def schedule(self, event):
        down, news = self.sched.step(event)
        for worker, message in down:
            self.down[worker].append(message)
        for client, message in news:
            self.to_client[client].append(message)

    def work(self, worker, event):
        for instruction in self.workers[worker].step(event):
            name = instruction[0]
            if name == 'gather':
                self.request(('worker', worker), *instruction[1:])
            elif name not in ('execute', 'keep', 'drop'):
                self.up[worker].append(instruction)

    def tell(self, client, event):
        for instruction in self.clients[client].step(event):
            if instruction[0] == 'gather':
                self.request(('client', client), *instruction[1:])
            else:
                self.from_client[client].append(instruction)

    def act(self, asker, event):
        (self.tell if asker[0] == 'client' else self.work)(asker[1], event)

    def request(self, asker, peer, ask, keys):
        self.requests[asker, peer, ask] = keys

    def on_want(self, client, keys):
        self.tell(client, ('want', keys))

    def on_release(self, client, keys):
        self.tell(client, ('release', keys))

    def on_join(self, threads):
        self.down[self.sched.last + 1] = []
        self.schedule(('join', threads))
        number = self.sched.last
        self.workers[number] = Worker(self.graph, number, threads)
        self.alive.add(number)
        self.up[number] = []

    def on_lose(self, worker):
        self.alive.discard(worker)

    def on_see_loss(self, worker):
        self.schedule(('leave', worker))
        self.down[worker], self.up[worker] = [], []

    def on_suspect(self, worker):
        self.schedule(('leave', worker))

    def on_deliver_down(self, worker):
        self.work(worker, self.down[worker].pop(0))

    def on_deliver_up(self, worker):
        name, *fields = self.up[worker].pop(0)
        if self.connected(worker):
            self.schedule((name, worker, *fields))

    def on_deliver_to_client(self, client):
        self.tell(client, self.to_client[client].pop(0))

    def on_deliver_from_client(self, client):
        name, *fields = self.from_client[client].pop(0)
        self.schedule((name, client, *fields))

    def on_start(self, worker):
        self.work(worker, ('start',))

    def on_finish(self, worker, key):
        if not self.graph.deps[key] and self.fails:
            self.faults += 1
            self.stopped = True
            raise Feed
        self.work(worker, ('done' if self.values[key] is not None else 'zero', key))

    def on_send_gather(self, asker, peer):
        self.act(asker, ('ask', peer))

    def on_serve_gather(self, peer, asker, ask):
        keys = self.requests.pop((asker, peer, ask))
        self.answers[asker, peer, ask] = [key for key in keys if key in self.workers[peer].mem]

    def on_arrive_gather(self, asker, peer, ask):
        self.act(asker, ('gathered', peer, ask, self.answers.pop((asker, peer, ask))))

    def on_fail_gather(self, asker, peer):
        self.act(asker, ('gather-failed', peer, self.asker(asker).ask_number(peer)))

    def on_balance(self):
        self.schedule(('balance',))

    def on_evict(self):
        self.schedule(('evict',))

    def on_replicate(self, key, worker):
        self.schedule(('replicate', key, worker))

    def on_spill(self, worker, key):
        self.spilled.add((worker, key))

    def on_lose_spilled(self, worker, key):
        self.work(worker, ('data-lost', key))

    # What a world tells.

    def progress(self):
        everybody = sorted(self.workers)
        connected = [w for w in everybody if self.connected(w)]
        askers = [('worker', w) for w in connected] + [('client', c) for c in self.clients]
        events = [('see-loss', w) for w in everybody]
        events += [('deliver-down', w) for w in connected] + [('deliver-up', w) for w in connected]
        events += [('deliver-to-client', c) for c in self.clients] + [('deliver-from-client', c) for c in self.clients]
        events += [('start', w) for w in connected]
        events += [('finish', w, key) for w in connected for key in self.graph.keys]
        events += [('send-gather', asker, peer) for asker in askers for peer in everybody]
        events += [('serve-gather', peer, asker, ask) for asker, peer, ask in self.in_order(self.requests)]
        events += [('arrive-gather', *name) for name in self.in_order(self.answers) if name[0] in askers]
        events += [('fail-gather', asker, peer) for asker in askers for peer in everybody if peer not in self.alive]
        return [event for event in events if self.enabled(event)]

    def in_order(self, names):
        return sorted(names, key=lambda name: (self.ORDER[name[0][0]], name[0][1], name[1], name[2]))

    def under_way(self):
        links = [*self.down.values(), *self.up.values(), *self.to_client.values(), *self.from_client.values()]
        knowing = [self.workers[w] for w in self.alive] + list(self.clients.values())
        return sum(map(len, links)) + len(self.requests) + len(self.answers) + sum(core.pairs() for core in knowing)

    def worker_count(self):
        return sum(w in self.alive or self.connected(w) for w in self.workers)

    def rest(self):
        return bound(self.count, self.under_way(), self.worker_count(), len(self.graph.keys), self.graph.edges)

    def key_text(self, client, key):
        core = self.clients[client]
        return core.done(key) + (f':{self.values[key]}' if key in core.got else '')


# A simulation.


class Words:
    """PCG's 32-bit generator of 64 bits of state, XSH RR, on stream 1."""

    def __init__(self, number):
        self.increment = 3
        self.state = 0
        self.advance()
        self.state = self.cut(self.state + number, 64)
        self.advance()

    @staticmethod
    def cut(number, bits):
        return number & ((1 << bits) - 1)

    def advance(self):
        self.state = self.cut(self.state * 6364136223846793005 + self.increment, 64)

    def word(self):
        old = self.state
        self.advance()
        shifted, turn = self.cut((old >> 18 ^ old) >> 27, 32), old >> 59
        return self.cut(shifted >> turn | shifted << (32 - turn), 32)


class Simulation:
    def __init__(self, world, workers, threads, number, wanted, script):
        self.world, self.threads, self.script, self.words = world, threads, script, Words(number)
        self.events, self.turns = [], 0
        self.made = {'evict': [], 'balance': []}
        for _ in range(workers):
            self.act(('join', threads))
        self.act(('want', 1, wanted))
        self.wanted, self.budget = wanted, world.rest()

    def act(self, event):
        message = self.world.message(event)
        self.world.step(event)
        self.events.append((event, message))

    def act_anew(self, event):
        self.act(event)
        self.budget = self.world.rest()

    def end(self):
        """A blame, 'all', or none while the client waits."""
        client = self.world.clients[1]
        failed = sorted(client.failed)
        if failed:
            return client.failed[failed[0]]
        return 'all' if all(key in client.got for key in self.wanted) else None

    def killed(self):
        """How often the key that is to blame lost its worker, where that is more often than is allowed."""
        sched, blame = self.world.sched, self.end()
        return sched.lost(blame) if blame != 'all' and sched.is_killed(blame) else None

    def scripted(self):
        """The next item's event, where it is reached, and the items before it that do nothing go."""
        while self.script and self.script[0][-1] <= self.world.sched.finishes:
            name, *worker, _ = self.script[0]
            if name == 'join':
                if len(self.world.sched.threads) >= 64:
                    return None
                self.script.pop(0)
                return ('join', self.threads)
            self.script.pop(0)
            if worker[0] in self.world.alive and self.world.connected(worker[0]):
                return (name, worker[0])
        return None

    def timely(self, name, every):
        made = self.made[name]
        if self.turns == 0 or self.turns % every or self.turns in made or len(made) >= len(self.world.graph.keys):
            return False
        if not self.world.enabled((name,)):
            return False
        made.append(self.turns)
        return True

    def play(self):
        """Whether the client was served, or failed, before nothing moved."""
        while self.end() is None:
            item = self.scripted()
            if item:
                self.act_anew(item)
            elif self.timely('evict', 32):
                self.act_anew(('evict',))
            elif self.timely('balance', 8):
                self.act_anew(('balance',))
            elif not self.draw():
                return False
        return True

    def draw(self):
        events = self.world.progress()
        if not events:
            return False
        assert self.budget, 'a quiet list is longer than its bound'
        self.act(events[self.words.word() % len(events)])
        self.turns += 1
        self.budget -= 1
        return True

    def report(self):
        return report(self.world.graph, self.events)


def report(graph, events):
    """The rows that a report of these events has, each of which stands with its message."""
    names = [event[0] for event, _ in events]
    starts = [event[1] for event, _ in events if event[0] == 'start']
    answers = [message[4] for event, message in events if event[0] == 'deliver-up' and message[0] == 'steal-response']
    gathers = sum(event[0] == 'send-gather' and event[1][0] == 'worker' for event, _ in events)
    return [
        f'keys {len(graph.keys)}', f'edges {graph.edges}', f'started {len(starts)}',
        *(f'worker {w} started {starts.count(w)}' for w in range(1, names.count('join') + 1)), f'gathers {gathers}',
        f'steals confirmed {answers.count("true")}', f'steals refused {answers.count("false")}',
        f'losses {names.count("see-loss") + names.count("suspect")}']


# Events, as stories and journals write them.


def read_asker(word):
    return {'w': 'worker', 'c': 'client'}[word[0]], int(word[1:])


def asker_text(asker):
    return f'{asker[0][0]}{asker[1]}'


EVENT_FIELDS = {
    'want': (int, read_keys), 'release': (int, read_keys), 'send-gather': (read_asker, int),
    'serve-gather': (int, read_asker, int), 'arrive-gather': (read_asker, int, int), 'fail-gather': (read_asker, int),
}


def read_event(words):
    name, *fields = words
    return (name, *(read(word) for read, word in zip(EVENT_FIELDS.get(name, [int] * len(fields)), fields, strict=True)))


KINDS = {'deliver-down': 'down', 'deliver-up': 'up', 'deliver-to-client': 'to-client',
         'deliver-from-client': 'from-client', 'serve-gather': 'peer', 'arrive-gather': 'peer'}


def event_text(event):
    texts = {tuple: asker_text, list: keys_text}
    return ' '.join(texts.get(type(field), str)(field) for field in event)


def report_text(rows):
    """A report as stories have it, in fewer lines."""
    return '\n'.join(rows).replace('\nedges', ' edges').replace('\nsteals refused', ' refused')
