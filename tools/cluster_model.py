"""A model of the cluster's rules: the scheduler, a worker and a client. `world_model.py` puts them together.

It is written from the tables of events that docs/CLUSTER.md explains, apart from the program, and never runs it. A rule is written as if all
that it goes by were derived from the facts anew; what `KEPT` names is kept until one of its facts changes, since an event of a job of some
hundred keys would take a second and more without that.
"""


# Lists, as the stories write them.


def read_keys(word):
    return [] if word == '-' else [int(key) for key in word.split(',')]


def read_holders(word):
    return [] if word == '-' else [tuple(int(n) for n in pair.split('@')) for pair in word.split('+')]


def read_who_has(word):
    if word == '-':
        return []
    rows = (row.split('=') for row in word.split(','))
    return [(int(key), read_holders(holders)) for key, holders in rows]


def keys_text(keys):
    return ','.join(str(key) for key in keys) or '-'


def holders_text(holders):
    return '+'.join(f'{worker}@{copy}' for worker, copy in holders) or '-'


def who_has_text(rows):
    return ','.join(f'{key}={holders_text(holders)}' for key, holders in rows) or '-'


def read_bounded(word):
    """A number, and what losses are allowed, which stand behind a slash where they are bounded."""
    number, slash, most = word.partition('/')
    return int(number), int(most) if slash else None


# How each kind of message writes its fields, and reads them.
FIELDS = {
    'compute-task': (int, int, read_who_has),
    'free-keys': (read_keys,),
    'steal-request': (int, int),
    'remove-replicas': (read_keys,),
    'acquire-replicas': (read_who_has,),
    'refresh-who-has': (read_who_has,),
    'key-in-memory': (int, read_holders),
    'lost-data': (int,),
    'client-task-erred': (int, int),
}
TEXTS = {
    'compute-task': (str, str, who_has_text),
    'free-keys': (keys_text,),
    'remove-replicas': (keys_text,),
    'acquire-replicas': (who_has_text,),
    'refresh-who-has': (who_has_text,),
    'add-keys': (str, keys_text),
    'key-in-memory': (str, holders_text),
    'want': (keys_text,),
    'release': (keys_text,),
    'get-data': (str, keys_text),
    'data': (str, keys_text),
}


def message_of(words):
    return (words[0], *(read(word) for read, word in zip(FIELDS[words[0]], words[1:], strict=True)))


def message_text(message):
    name, *fields = message
    texts = TEXTS.get(name, [str] * len(fields))
    return ' '.join([name, *(text(field) for text, field in zip(texts, fields, strict=True))])


class Graph:
    """The dependencies of each key, its work and its bytes."""

    def __init__(self, deps, work, nbytes):
        self.deps, self.work, self.nbytes, self.keys = deps, work, nbytes, range(len(deps))
        self.edges = sum(map(len, deps))
        self.above = [[] for _ in deps]
        for key in self.keys:
            for dep in deps[key]:
                self.above[dep].append(key)

    def dependents(self, key):
        return self.above[key]

    def has(self, keys):
        return all(key in self.keys for key in keys)


def read_row(word):
    work, nbytes, deps = (word.split(':') + ['-'])[:3]
    return int(work), int(nbytes), read_keys(deps)


def read_graph(words):
    rows = [read_row(word) for word in words]
    return Graph([deps for _, _, deps in rows], [work for work, _, _ in rows], [nbytes for _, nbytes, _ in rows])


def fitting(graph, items):
    """The first, and further ones while they are at most 16 and their bytes together at most 2^26."""
    taken, total = [], 0
    for key, copy in items:
        total += graph.nbytes[key]
        if taken and (len(taken) == 16 or total > 1 << 26):
            break
        taken.append((key, copy))
    return taken


class Refused(Exception):
    pass


# What is derived, and kept until a fact changes.


def watched(kind, names):
    """A set or a dict that tells each change."""

    def telling(method):
        def change(self, *values):
            self.changed()
            return method(self, *values)
        return change
    return type(f'Watched{kind.__name__}', (kind,), {name: telling(getattr(kind, name)) for name in names})


WATCHED = {
    dict: watched(dict, ['__setitem__', '__delitem__', 'pop', 'setdefault', 'clear', 'update']),
    set: watched(set, ['add', 'discard', 'remove', 'update', '__ior__', '__isub__', 'clear']),
}


class Keeping:
    """Keeps what some of its methods derive. A row of `KEPT` has the names of facts, and those of the methods that go by these facts alone."""

    KEPT, rows = (), {}

    def __init_subclass__(cls):
        if 'KEPT' not in cls.__dict__:
            return
        cls.rows = {}
        for number, (facts, methods) in enumerate(cls.KEPT):
            for fact in facts.split():
                cls.rows.setdefault(fact, []).append(number)
            for name in methods.split():
                setattr(cls, name, kept_method(number, name, getattr(cls, name)))

    def __setattr__(self, name, value):
        rows = self.rows.get(name)
        if rows:
            value = WATCHED[type(value)](value) if type(value) in WATCHED else value
            value.changed = lambda: self.forget(rows)
            self.forget(rows)
        super().__setattr__(name, value)

    def forget(self, rows):
        for number in rows:
            self.__dict__.setdefault('kept', {})[number] = {}


def kept_method(number, name, method):
    def call(self, *values):
        kept, at = self.kept[number], (name, values)
        if at not in kept:
            kept[at] = method(self, *values)
        return kept[at]
    return call


# The scheduler.


class Scheduler(Keeping):
    KEPT = [
        ('want has bad threads', 'workers holders held wanted erred known waits need ready missing_bytes bytes_held'),
        ('on threads', 'tasks occupancy full'),
    ]

    def __init__(self, graph, clients, saturation, allowed=None):
        """`allowed` is how often a key's worker may leave while the key is assigned to it, or none where that is not bounded."""
        self.graph, self.clients, self.saturation, self.allowed = graph, clients, saturation, allowed
        self.want, self.has, self.on, self.steal, self.bad, self.losses = set(), {}, {}, {}, set(), {}
        self.threads, self.sent, self.fence = {}, {}, {}
        self.last, self.counter, self.finishes = 0, 1, 0

    def draw(self):
        self.counter += 1
        return self.counter - 1

    def workers(self):
        return sorted(self.threads)

    def holders(self, key):
        return [(w, self.has[w, key]) for w in self.workers() if (w, key) in self.has]

    def held(self, key):
        return bool(self.holders(key))

    def wanted(self, key):
        return any((c, key) in self.want for c in range(1, self.clients + 1))

    def erred(self, key):
        return not self.held(key) and (key in self.bad or any(self.erred(d) for d in self.graph.deps[key]))

    def blame(self, key):
        if key in self.bad:
            return key
        return self.blame(next(d for d in self.graph.deps[key] if self.erred(d)))

    def known(self, key):
        return self.wanted(key) or any(self.known(d) for d in self.graph.dependents(key))

    def waits(self, key):
        return self.need(key) and not self.held(key) and not self.erred(key)

    def need(self, key):
        return self.wanted(key) or any(self.waits(d) for d in self.graph.dependents(key))

    def ready(self, key):
        return self.waits(key) and all(self.held(d) for d in self.graph.deps[key])

    def phase(self, key):
        if key not in self.graph.keys or not self.known(key):
            return 'forgotten'
        tests = [
            ('erred', self.erred(key)),
            ('released', not self.need(key)),
            ('memory', self.held(key)),
            ('waiting', not self.ready(key)),
            ('processing', key in self.on),
            ('no-worker', not self.threads),
        ]
        return next((name for name, fits in tests if fits), 'queued')

    def tasks(self, worker):
        return [key for key, (w, _) in self.on.items() if w == worker]

    def occupancy(self, worker):
        return sum(self.graph.work[key] for key in self.tasks(worker))

    def full(self, worker):
        return 10 * len(self.tasks(worker)) >= self.threads[worker] * self.saturation

    def missing_bytes(self, worker, key):
        return sum(self.graph.nbytes[d] for d in self.graph.deps[key] if (worker, d) not in self.has)

    def bytes_held(self, worker):
        return sum(self.graph.nbytes[key] for w, key in self.has if w == worker)

    def place(self, key):
        deps = self.graph.deps[key]
        if not deps:
            candidates = [w for w in self.workers() if not self.full(w)]
        else:
            candidates = [w for w in self.workers() if any((w, d) in self.has for d in deps)] or self.workers()
        rank = lambda w: (self.occupancy(w) // self.threads[w] + self.missing_bytes(w, key), self.bytes_held(w), w)
        return min(candidates, key=rank, default=None)

    def next_steal(self):
        choices = []
        for key, (victim, _) in self.on.items():
            for thief in self.workers():
                if key in self.steal or len(self.tasks(victim)) <= self.threads[victim]:
                    continue
                if len(self.tasks(thief)) >= self.threads[thief]:
                    continue
                more, work = self.missing_bytes(thief, key), self.graph.work[key]
                if 2 * (self.occupancy(thief) + more + work) > 2 * self.occupancy(victim) - work:
                    continue
                level = next(n for n in range(99) if more < 2**n * (work + 1))
                choices.append((level, victim, key, thief))
        return min(choices, default=None)

    def waiters(self, key):
        return [other for other in self.graph.dependents(key) if self.waits(other)]

    def next_drop(self):
        for key in self.graph.keys:
            holders = [w for w, _ in self.holders(key)]
            if len(holders) > len(self.waiters(key)) + 1:
                return key, max(holders, key=lambda w: (self.bytes_held(w), -w))
        return None

    def takes(self, event):
        name, *fields = event
        if name == 'join':
            return 1 <= fields[0] <= 16 and len(self.threads) < 64 and self.last < 1024
        if name == 'balance':
            return self.next_steal() is not None
        if name == 'evict':
            return self.next_drop() is not None
        if name == 'leave':
            return fields[0] in self.threads
        if name == 'replicate':
            key, worker = fields
            return key in self.graph.keys and self.held(key) and worker in self.threads and (worker, key) not in self.has
        of_client = name in ('want', 'release', 'missing')
        known = fields[0] in (range(1, self.clients + 1) if of_client else self.threads)
        named = fields[1 if of_client else 2]
        return known and self.graph.has(named if isinstance(named, list) else [named])

    def step(self, event):
        """The messages to workers, and those to clients."""
        if not self.takes(event):
            raise Refused
        self.freed, self.given, self.answers, self.client_answers = {}, set(), [], []
        held = {key for key in self.graph.keys if self.held(key)}
        erred = {key for key in self.graph.keys if self.erred(key)}
        fresh = self.change(*event)
        self.settle()
        return self.down_messages(), self.client_messages(held - fresh, erred - fresh)

    def free(self, worker, key):
        self.freed.setdefault(worker, set()).add(key)

    def change(self, name, *fields):
        """Changes the facts, and gives the keys that count as neither held nor erred before."""
        if name == 'want':
            client, keys = fields
            self.want |= {(client, key) for key in keys}
            return set(keys)
        getattr(self, 'on_' + name.replace('-', '_'))(*fields)
        return set()

    def on_release(self, client, keys):
        self.want -= {(client, key) for key in keys}

    def on_missing(self, client, key, holder, copy):
        self.lose_copy(key, holder, copy)
        self.client_answers.append((client, key))

    def on_join(self, threads):
        self.last += 1
        self.threads[self.last] = threads
        self.sent[self.last] = 0

    def on_leave(self, worker):
        del self.threads[worker]
        self.has = {pair: copy for pair, copy in self.has.items() if pair[0] != worker}
        for key in self.tasks(worker):
            del self.on[key]
            self.steal.pop(key, None)
            self.losses[key] = self.lost(key) + 1
            if self.is_killed(key):
                self.bad.add(key)

    def lost(self, key):
        return self.losses.get(key, 0)

    def is_killed(self, key):
        return self.allowed is not None and self.allowed < self.lost(key)

    def ends(self, worker, key, attempt):
        if self.on.get(key) != (worker, attempt):
            return False
        del self.on[key]
        self.steal.pop(key, None)
        return True

    def on_task_finished(self, worker, seen, key, attempt):
        if self.ends(worker, key, attempt):
            self.has[worker, key] = self.draw()
            self.finishes += 1

    def on_task_erred(self, worker, seen, key, attempt):
        if self.ends(worker, key, attempt):
            self.bad.add(key)

    def on_add_keys(self, worker, seen, keys):
        for key in keys:
            if seen < self.fence.get((worker, key), 0) or (worker, key) in self.has:
                continue
            if self.held(key):
                self.has[worker, key] = self.draw()
            elif self.on.get(key, (0, 0))[0] != worker:
                self.free(worker, key)

    def on_release_worker_data(self, worker, seen, key):
        if seen >= self.fence.get((worker, key), 0):
            self.has.pop((worker, key), None)

    def lose_copy(self, key, holder, copy):
        if self.has.get((holder, key)) == copy:
            del self.has[holder, key]
            self.free(holder, key)

    def on_missing_data(self, worker, seen, key, holder, copy):
        self.lose_copy(key, holder, copy)
        self.answers.append((worker, key))

    def on_request_refresh_who_has(self, worker, seen, key):
        self.answers.append((worker, key))

    def on_steal_response(self, worker, seen, key, attempt, answer):
        thief, refused = self.steal.get(key, (0, True))
        if self.on.get(key) != (worker, attempt) or refused:
            return
        if answer == 'false':
            self.steal[key] = (thief, True)
            return
        del self.on[key], self.steal[key]
        if thief in self.threads:
            self.give(key, thief)

    def on_balance(self):
        _, victim, key, thief = self.next_steal()
        self.steal[key] = (thief, False)
        self.answers.append((victim, ('steal-request', key, self.on[key][1])))

    def on_evict(self):
        key, holder = self.next_drop()
        del self.has[holder, key]
        self.answers.append((holder, ('remove-replicas', [key])))

    def on_replicate(self, key, worker):
        self.answers.append((worker, ('acquire-replicas', key)))

    def give(self, key, worker):
        self.on[key] = (worker, self.draw())
        self.given.add(key)

    def settle(self):
        self.bad = {key for key in self.bad if self.known(key)}
        self.losses = {key: count for key, count in self.losses.items() if self.known(key)}
        unneeded = {key for key in self.graph.keys if not self.need(key)}
        for worker, key in [pair for pair in self.has if pair[1] in unneeded]:
            del self.has[worker, key]
            self.free(worker, key)
        for key in [key for key in self.on if not self.ready(key)]:
            self.free(self.on.pop(key)[0], key)
            self.steal.pop(key, None)
        for key in self.graph.keys:
            if self.ready(key) and key not in self.on:
                worker = self.place(key)
                if worker is not None:
                    self.give(key, worker)

    def who_has(self, keys):
        return [(key, self.holders(key)) for key in keys]

    def down_messages(self):
        messages = []
        for worker in self.workers():
            own = []
            if self.freed.get(worker):
                own.append(('free-keys', sorted(self.freed[worker])))
            for key in sorted(self.given):
                if self.on.get(key, (0, 0))[0] == worker:
                    own.append(('compute-task', key, self.on[key][1], self.who_has(self.graph.deps[key])))
            own += [self.answer_message(answer) for answered, answer in self.answers if answered == worker]
            for message in own:
                self.sent[worker] += 1
                if message[0] in ('free-keys', 'remove-replicas'):
                    for key in message[1]:
                        self.fence[worker, key] = self.sent[worker]
                messages.append((worker, message))
        return messages

    def answer_message(self, answer):
        """A key is answered with its holders."""
        if not isinstance(answer, tuple):
            return 'refresh-who-has', self.who_has([answer])
        return ('acquire-replicas', self.who_has([answer[1]])) if answer[0] == 'acquire-replicas' else answer

    def client_messages(self, held, erred):
        messages = []
        for client in range(1, self.clients + 1):
            for key in self.graph.keys:
                if (client, key) not in self.want:
                    continue
                if self.erred(key) and key not in erred:
                    messages.append((client, ('client-task-erred', key, self.blame(key))))
                elif self.held(key) and key not in held:
                    messages.append((client, ('key-in-memory', key, self.holders(key))))
                elif key in held and not self.held(key):
                    messages.append((client, ('lost-data', key)))
        for client, key in self.client_answers:
            news = (client, ('key-in-memory', key, self.holders(key)))
            if self.held(key) and news not in messages:
                messages.append(news)
        return messages


# Who asks peers for blocks: a worker or a client.


class Asker(Keeping):
    """Its `asks` have the number and the items of the ask that is open at a peer; `fetchable` says which items it would ask a peer for."""

    def __init__(self, graph):
        self.graph, self.next_ask, self.asks = graph, 1, {}

    def flying(self, key):
        return any(key == k for _, items in self.asks.values() for k, _ in items)

    def would_ask(self, peer):
        return peer not in self.asks and bool(self.fetchable(peer))

    def ask_number(self, peer):
        return self.asks[peer][0] if peer in self.asks else None

    def peer_items(self, keys, holders, peer):
        """Those of these keys that the peer is known to hold, each with its copy."""
        rows = ((key, dict(holders.get(key, [])).get(peer)) for key in keys)
        return [(key, copy) for key, copy in rows if copy is not None]

    def on_ask(self, peer):
        items = fitting(self.graph, self.fetchable(peer))
        self.asks[peer] = (self.next_ask, items)
        self.out.append(('gather', peer, self.next_ask, [key for key, _ in items]))
        self.next_ask += 1

    def on_gather_failed(self, peer, ask):
        self.on_gathered(peer, ask, [])


# A worker.


class Worker(Asker):
    KEPT = [('mine asks holders mem running sought failed', 'flying pending wanted touched state')]

    def __init__(self, graph, number, threads):
        super().__init__(graph)
        self.number, self.threads, self.seen = number, threads, 0
        self.mine, self.holders = {}, {}
        self.mem, self.running, self.asked, self.sought, self.failed = set(), set(), set(), set(), set()

    def pending(self):
        return [key for key in self.mine if key not in self.running]

    def wanted(self, key):
        return key not in self.mem and (key in self.sought or any(key in self.graph.deps[j] for j in self.pending()))

    def touched(self):
        """The keys that a fact names, and those that a key of the worker depends on."""
        flying = {key for _, items in self.asks.values() for key, _ in items}
        below = {dep for key in self.mine for dep in self.graph.deps[key]}
        return below.union(self.mem, self.mine, self.running, flying, self.holders, self.sought, self.failed)

    def state(self, key):
        if key not in self.touched():
            return 'forgotten'
        mine, wanted = key in self.mine, self.wanted(key)
        tests = [
            ('memory', key in self.mem),
            ('executing', key in self.running and mine),
            ('resumed-executing', key in self.running and wanted),
            ('cancelled-executing', key in self.running),
            ('resumed-flight', self.flying(key) and mine),
            ('flight', self.flying(key) and wanted),
            ('cancelled-flight', self.flying(key)),
            ('ready', mine and all(d in self.mem for d in self.graph.deps[key])),
            ('waiting', mine),
            ('fetch', wanted and self.holders.get(key)),
            ('missing', wanted),
            ('error', key in self.failed),
            ('released', any(key in self.graph.deps[j] for j in self.mine)),
        ]
        return next((name for name, fits in tests if fits), 'forgotten')

    def would_start(self):
        ready = [key for key in self.graph.keys if self.state(key) == 'ready']
        return ready[0] if ready and len(self.running) < self.threads else None

    def fetchable(self, peer):
        return self.peer_items([key for key in self.graph.keys if self.state(key) == 'fetch'], self.holders, peer)

    def pairs(self):
        return sum(len(holders) for holders in self.holders.values())

    def takes(self, event):
        name, *fields = event
        if name == 'start':
            return self.would_start() is not None
        if name in ('done', 'zero'):
            return fields[0] in self.running
        if name == 'ask':
            return self.would_ask(fields[0])
        if name == 'gathered':
            return self.graph.has(fields[2])
        if name == 'data-lost':
            return fields[0] in self.mem
        if name in ('compute-task', 'steal-request'):
            named = fields[:1] + ([key for key, _ in fields[2]] if name == 'compute-task' else [])
            return self.graph.has(named)
        if name in ('acquire-replicas', 'refresh-who-has'):
            return self.graph.has([key for key, _ in fields[0]])
        if name in ('free-keys', 'remove-replicas'):
            return self.graph.has(fields[0])
        return True

    def step(self, event):
        if not self.takes(event):
            raise Refused
        self.out = []
        name, *fields = event
        if name in FIELDS:
            self.seen += 1
        getattr(self, 'on_' + name.replace('-', '_'))(*fields)
        for key in self.graph.keys:
            if self.state(key) == 'missing' and key not in self.asked:
                self.asked.add(key)
                self.send('request-refresh-who-has', key)
        return self.out

    def send(self, name, *fields):
        self.out.append((name, self.seen, *fields))

    def set_holders(self, key, holders):
        self.holders[key] = [pair for pair in holders if pair[0] != self.number]

    def arrives(self, key):
        self.mem.add(key)
        self.asked.discard(key)
        self.sought.discard(key)
        self.holders.pop(key, None)
        self.out.append(('keep', key))

    def drop(self, key):
        self.mem.discard(key)
        self.out.append(('drop', key))

    def on_compute_task(self, key, attempt, who_has):
        self.failed.discard(key)
        if key in self.mem:
            self.send('task-finished', key, attempt)
            return
        self.mine[key] = attempt
        for dep, holders in who_has:
            self.set_holders(dep, holders)

    def on_free_keys(self, keys):
        for key in keys:
            if key in self.mem:
                self.drop(key)
            self.mine.pop(key, None)
            self.holders.pop(key, None)
            for facts in (self.asked, self.sought, self.failed):
                facts.discard(key)

    def on_steal_request(self, key, attempt):
        gives = self.mine.get(key) == attempt and self.state(key) in ('waiting', 'ready')
        if gives:
            del self.mine[key]
        self.send('steal-response', key, attempt, 'true' if gives else 'false')

    def on_remove_replicas(self, keys):
        refused = set()
        for key in keys:
            if key not in self.mem:
                continue
            if any(key in self.graph.deps[j] for j in self.pending()):
                refused.add(key)
            else:
                self.drop(key)
        if refused:
            self.send('add-keys', sorted(refused))

    def on_acquire_replicas(self, who_has):
        for key, holders in who_has:
            if key not in self.mem:
                self.sought.add(key)
                self.set_holders(key, holders)

    def on_refresh_who_has(self, who_has):
        for key, holders in who_has:
            self.set_holders(key, holders)
            self.asked.discard(key)
            if not holders:
                self.sought.discard(key)

    def on_start(self):
        key = self.would_start()
        self.running.add(key)
        self.out.append(('execute', key))

    def on_done(self, key):
        self.running.discard(key)
        if not self.finishes(key) and self.wanted(key):
            self.arrives(key)
            self.send('add-keys', [key])

    def finishes(self, key):
        if key not in self.mine:
            return False
        attempt = self.mine.pop(key)
        self.arrives(key)
        self.send('task-finished', key, attempt)
        return True

    def on_zero(self, key):
        self.running.discard(key)
        if key in self.mine:
            self.failed.add(key)
            self.send('task-erred', key, self.mine.pop(key))

    def on_gathered(self, peer, ask, found):
        if self.ask_number(peer) != ask:
            return
        items = sorted(self.asks.pop(peer)[1])
        added = []
        for key, _ in items:
            if key in found and not self.finishes(key) and self.wanted(key):
                self.arrives(key)
                added.append(key)
        if added:
            self.send('add-keys', added)
        for key, copy in items:
            if key not in found:
                self.holders.pop(key, None)
                if self.state(key) == 'missing':
                    self.asked.add(key)
                    self.send('missing-data', key, peer, copy)

    def on_data_lost(self, key):
        self.mem.discard(key)
        self.send('release-worker-data', key)


# A client.


class Client(Asker):
    def __init__(self, graph):
        super().__init__(graph)
        self.wants, self.got, self.located, self.failed = set(), set(), {}, {}

    def fetchable(self, peer):
        return self.peer_items([key for key in sorted(self.wants) if key not in self.got and not self.flying(key)], self.located, peer)

    def pairs(self):
        return sum(len(holders) for holders in self.located.values())

    def takes(self, event):
        name, *fields = event
        if name in ('want', 'release'):
            return self.graph.has(fields[0])
        if name in ('key-in-memory', 'lost-data'):
            return self.graph.has(fields[:1])
        if name == 'client-task-erred':
            return self.graph.has(fields)
        if name == 'ask':
            return self.would_ask(fields[0])
        if name == 'gathered':
            return self.graph.has(fields[2])
        return True

    def step(self, event):
        if not self.takes(event):
            raise Refused
        self.out = []
        name, *fields = event
        getattr(self, 'on_' + name.replace('-', '_'))(*fields)
        return self.out

    def on_want(self, keys):
        self.wants |= set(keys)
        self.out.append(('want', keys))

    def on_release(self, keys):
        for key in keys:
            self.wants.discard(key)
            self.got.discard(key)
            self.located.pop(key, None)
            self.failed.pop(key, None)
        self.out.append(('release', keys))

    def on_key_in_memory(self, key, holders):
        if key in self.wants and key not in self.got:
            self.located[key] = holders

    def on_lost_data(self, key):
        self.located.pop(key, None)

    def on_client_task_erred(self, key, blame):
        if key in self.wants and key not in self.got:
            self.failed[key] = blame
            self.located.pop(key, None)

    def on_gathered(self, peer, ask, found):
        if self.ask_number(peer) != ask:
            return
        items = sorted(self.asks.pop(peer)[1])
        for key, _ in items:
            if key in found and key in self.wants:
                self.got.add(key)
                self.located.pop(key, None)
        for key, copy in items:
            if key not in found:
                self.located.pop(key, None)
                if key in self.wants:
                    self.out.append(('missing', key, peer, copy))

    def done(self, key):
        if key in self.got:
            return 'got'
        return f'erred:{self.failed[key]}' if key in self.failed else 'waits'
