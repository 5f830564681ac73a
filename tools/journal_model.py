#!/usr/bin/env python3
"""Holds the journals of real runs against a model of the rules: the program `runner_table` plays jobs by a cluster of threads and prints what each
node kept, and `world_model.py`, which was written from the rules, apart from the program, replays it.

Build the program first, by `rt run < /dev/null` in crates/runner_table. Then

    tools/journal_model.py                    replays the lines of standard input
    tools/journal_model.py --runs N           replays N lines by chance

with `--seed N`, `--leaves N` (at most so many), `--jobs N`, `--program FILE`, `--keep FOLDER` for what differed, `--spoiled` for lines by chance of
which the program spoils the journal, and `--spoil N`, which spoils here each journal that agrees so often, each time at one entry by chance, and counts
how many of these differ then.

Of each line it says `agrees`, or at which stamp it differs and why. An entry agrees where its stamp is above the last, its event is enabled in the
world that the entries before it lead to, from the opening world on, its message is the one that is first under way there, and no other event of the
scheduler was due: joins of the plan, Evict after each 64 entries, Balance after each 16, items of the script. In the end the counts of the report, the
blocks or the key to blame, and the workers that left are held against that world too, and the audit that the program prints has to agree.

Of a line with `leave:N`, `mute:N` or `late:N` the program spoils the journal before it prints it. The printed audit is then held against the first stamp
at which an event isn't enabled here or its message isn't the one under way, if there is one, and nothing else is asked.
"""
import argparse
import collections
import multiprocessing
import os
import random
import re
import subprocess
import sys
import time
import traceback

from cluster_model import Graph, Refused, message_text
from runner_jobs import Job
from world_model import KINDS, World, event_text, read_event, report

ROOT = os.path.dirname(os.path.dirname(os.path.abspath(__file__)))
PROGRAM = os.path.join(ROOT, "crates/runner_table/out/runner_table")
SECONDS = 100


class Differs(Exception):
    pass


# A line, and what is printed of it.


class Line:
    def __init__(self, text):
        self.text = text
        kind, *numbers = text.split()[:5]
        self.workers, self.threads, self.capacity = map(int, numbers[1:])
        self.saturation, self.allowed, self.wanted, self.script, zero, times = 11, None, [], [], None, 1
        self.spoiled = False
        # a worker without feeds, one whose feeds fail, and one whose feeds find no memory; 0 is none
        self.faulty = {"short": 0, "fail": 0, "hungry": 0}
        for word in text.split()[5:]:
            name, _, rest = word.partition(":")
            if name == "zero":
                zero = int(rest)
            elif name == "want":
                self.wanted.append(int(rest))
            elif name == "saturation":
                self.saturation = int(rest)
            elif name == "allowed":
                self.allowed = int(rest)
            elif name == "work":
                times = int(rest)
            elif name in self.faulty:
                self.faulty[name] = int(rest)
            elif name in ("leave", "mute", "late"):
                self.spoiled = True
            elif name not in ("journal", "meet", "slow"):
                self.script.append(self.item(word))
        self.job = Job(kind, int(numbers[0]), zero, times)
        self.graph = Graph(self.job.deps, self.job.work, self.job.nbytes)
        self.wanted.append(self.job.last)
        # how many workers there may be
        self.numbers = self.workers + sum(what == "join" for what, *_ in self.script)

    @staticmethod
    def item(word):
        what, _, at = word.partition("@")
        name, _, worker = what.partition(":")
        return name, int(worker or 0), int(at)


class Printed:
    """What the program printed of a line."""

    def __init__(self, line, text):
        rows = text.split("\n")
        if rows.pop(0) != line or rows.pop() != "":
            raise Differs("the text isn't whole")
        self.ends, self.left, self.entries, self.report, self.audit = [], {}, [], [], None
        for row in rows:
            words = row.split()
            if words[0].isdigit():
                self.entries.append(row)
            elif words[0] == "audit:":
                self.audit = row
            elif self.entries:
                self.report.append(row)
            elif row.endswith(" tasks at once: true"):
                pass
            elif words[0] == "worker":
                self.left[int(words[1])] = words[3]
            elif words[0] == "cut":
                raise Differs(f"a history has no room: {row}")
            else:
                self.ends.append(row)


# The replay.

# The events that the scheduler's node keeps, and those of them that come where nothing is due.
SCHEDULED = ("join", "see-loss", "suspect", "deliver-up", "deliver-from-client", "balance", "evict")
FREE = ("see-loss", "deliver-up", "deliver-from-client")


class Replay:
    def __init__(self, line, printed):
        self.line, self.printed = line, printed
        self.world = World(line.graph, 1, line.saturation, line.job.values, allowed=line.allowed)
        self.taken, self.last, self.made = [], 0, 0
        self.let_go = set()

    def play(self):
        if self.line.spoiled:
            self.hold("the audit", self.printed.audit, self.first_wrong())
            return
        for entry in self.printed.entries:
            stamp, _, rest = entry.partition(" ")
            try:
                self.take(int(stamp), rest)
            except Differs as why:
                raise Differs(f"stamp {stamp}: {why}: `{rest}`") from None
        self.hold("the report", self.printed.report, report(self.world.graph, self.taken))
        self.hold("the audit", self.printed.audit, "audit: agrees")
        self.ends()
        self.lefts()

    def first_wrong(self):
        """What the audit is to say: whether each event is enabled and takes the message that was kept, whatever the stamps and the order of turns."""
        for entry in self.printed.entries:
            stamp, _, rest = entry.partition(" ")
            try:
                self.step(*self.read(rest))
            # there is no worker of a number that never joined
            except (Differs, KeyError, IndexError):
                return f"audit: differs at {stamp}"
        return "audit: agrees"

    def take(self, stamp, text):
        if stamp <= self.last:
            raise Differs(f"the stamp isn't above {self.last}")
        self.last = stamp
        event, message = self.read(text)
        if not self.world.enabled(event):
            raise Differs("the event isn't enabled")
        self.in_time(event)
        if event[0] == "release":
            self.release(*event[1:])
        self.step(event, message)

    def read(self, text):
        """The event of an entry, and the text of its message, if it has one."""
        front, bar, message = text.partition(" | ")
        event = read_event(front.split())
        self.hold("the event as it is read", front, event_text(event))
        return event, message if bar else None

    def step(self, event, message):
        if not self.world.enabled(event):
            raise Differs("the event isn't enabled")
        first = self.world.message(event)
        self.hold("the message", message, first and f"{KINDS[event[0]]} {message_text(first)}")
        try:
            self.world.step(event)
        except Refused:
            raise Differs("a core refuses the event") from None
        self.taken.append((event, first))

    def release(self, client, keys):
        """A client lets only those keys go that it has got."""
        if not all(key in self.world.clients[client].got for key in keys):
            raise Differs("a key is let go that wasn't got")
        self.let_go.update(keys)

    def hold(self, what, got, wanted):
        if got != wanted:
            raise Differs(f"{what} is {got} and not {wanted}")

    def in_time(self, event):
        """The scheduler's events come in time, and a worker is lost by the script once an item's finishes counted."""
        name, *fields = event
        if name == "lose":
            reached = [worker for what, worker, at in self.line.script if what == "lose" and at <= self.world.sched.finishes]
            if fields[0] not in reached and not self.faults(fields[0]):
                raise Differs("the loss comes early")
        if name not in SCHEDULED:
            return
        due = self.due()
        if due is None and name not in FREE or due not in (None, event):
            raise Differs(f"{due or 'no such event'} is due")
        self.made += 1

    def due(self):
        """The scheduler's event that is due before it takes losses and messages, or nothing."""
        sched = self.world.sched
        if sched.last < self.line.workers:
            return "join", self.line.threads
        for name, every in (("evict", 64), ("balance", 16)):
            if self.made % every == 0 and sched.takes((name,)):
                return (name,)
        joined = self.line.workers
        for what, worker, at in self.line.script:
            if sched.finishes < at:
                return None
            if what == "join" and sched.last == joined:
                join = "join", self.line.threads
                return join if sched.takes(join) else None
            if what != "join" and self.world.connected(worker):
                return "see-loss" if what == "lose" else "suspect", worker
            joined += what == "join"
        return None

    def gone(self):
        return {w for w in self.world.workers if w not in self.world.alive or not self.world.connected(w)}

    def faults(self, worker):
        """For which causes a worker may end by itself: it has no feeds, or a leaf of it was started whose feed fails or finds no memory."""
        faulty, causes = self.line.faulty, set()
        if worker == faulty["short"]:
            causes.add("feed")
        elif any(not self.line.job.deps[key] for key in self.world.workers[worker].running):
            if worker == faulty["fail"]:
                causes.add("feed")
            elif worker == faulty["hungry"]:
                causes.add("memory")
        return causes

    def reads_failed(self):
        """Whether a feed failed, or a worker had none."""
        failed = any("feed" in self.faults(worker) for worker in self.world.workers)
        return failed or 1 <= self.line.faulty["short"] <= self.line.numbers

    def given_up(self):
        """What is told where no worker is left: a read fault where none left for want of memory, and a feed failed or a worker had none."""
        return "read fault" if self.reads_failed() and "memory" not in self.printed.left.values() else "no memory"

    def failed_by(self, blame):
        """What is told of the key to blame: that it met a zero divisor, or was killed, where none left for want of memory, and the script takes
        workers away as often, or a feed failed or a worker had none."""
        sched = self.world.sched
        if not sched.is_killed(blame):
            return f"zero divisor at {blame}"
        losses, taken = sched.lost(blame), sum(what != "join" for what, *_ in self.line.script)
        there = (losses <= taken or self.reads_failed()) and "memory" not in self.printed.left.values()
        return f"killed: {blame} {losses}" if there else "no memory"

    def ends(self):
        """The blocks of the wanted keys, each of which is got or was let go since, the key to blame, or that no worker is left."""
        client = self.world.clients[1]
        failed = [client.failed[key] for key in self.line.wanted if key in client.failed]
        if all(key in client.got or key in self.let_go for key in self.line.wanted):
            ends = [f"key {key} is {self.line.job.values[key]}" for key in self.line.wanted]
        elif failed:
            ends = [self.failed_by(failed[0])]
        elif self.world.workers.keys() == self.gone():
            ends = [self.given_up()]
        else:
            raise Differs(f"the end is {self.printed.ends}, but the client waits, and workers are left")
        self.hold("the end", self.printed.ends, ends)

    def lefts(self):
        self.hold("who left", sorted(self.printed.left), sorted(self.gone()))
        for worker, cause in self.printed.left.items():
            causes = {"script"} if any(item[1] == worker for item in self.line.script) else set()
            if cause not in causes | self.faults(worker):
                raise Differs(f"worker {worker} left for the cause {cause}")

    def counts(self):
        """How many entries of each kind there were, for a table of what was met."""
        names = collections.Counter(event[0] for event, _ in self.taken)
        names.update("message " + message[0] for _, message in self.taken if message)
        return names


def said_of(program, text):
    """What the program prints of a line, and the seconds that it took."""
    start = time.monotonic()
    try:
        done = subprocess.run([program], input=text + "\n", capture_output=True, text=True, timeout=SECONDS, check=False)
    except subprocess.TimeoutExpired:
        raise Differs(f"the run doesn't end in {SECONDS} seconds") from None
    if done.returncode:
        raise Differs(f"the status is {done.returncode}: {done.stderr}")
    return done.stdout, time.monotonic() - start


# What a replay refuses.


def raised(pick, entry):
    """The entry with one of its numbers raised, but for the stamp."""
    parts = re.split(r"(\d+)", entry)
    places = range(3, len(parts), 2)
    if not places:
        return None
    at = pick.choice(places)
    return "".join([*parts[:at], str(int(parts[at]) + 1), *parts[at + 1:]])


def later(entry):
    stamp, _, rest = entry.partition(" ")
    return f"{int(stamp) + 1} {rest}"


def spoiled(pick, entries):
    """How they are spoiled, and the spoiled entries."""
    at, way = pick.randrange(len(entries)), pick.choice(["left out", "raised", "swapped", "twice"])
    entry, before, after = entries[at], entries[:at], entries[at + 1:]
    if way == "left out":
        return way, before + after
    if way == "raised":
        changed = raised(pick, entry)
        return way, changed and [*before, changed, *after]
    if way == "twice":
        return way, [*before, entry, *map(later, [entry, *after])]
    if not after:
        return way, None
    (first, _, rest), (second, _, more) = entry.partition(" "), after[0].partition(" ")
    return way, [*before, f"{first} {more}", f"{second} {rest}", *after[1:]]


def refused(task, printed, times):
    """How many spoiled journals differ, and how many don't, by the way in which they are spoiled."""
    pick, counts = random.Random(task), collections.Counter()
    for _ in range(times):
        other = Printed(task, printed)
        way, entries = spoiled(pick, other.entries)
        if entries is None:
            continue
        other.entries = entries
        try:
            Replay(Line(task), other).play()
            counts[f"{way}, and agrees"] += 1
        except Differs:
            counts[f"{way}, and differs"] += 1
        # a number that is out of range stops the model
        except (KeyError, IndexError):
            counts[f"{way}, and stops the model"] += 1
    return counts


Task = collections.namedtuple("Task", "program text spoil")
Answer = collections.namedtuple("Answer", "text says printed counts spoiled ran took")


def answer_of(task):
    """Whether the run of a line agrees."""
    program, text = task.program, task.text
    printed, ran, start = "", 0, time.monotonic()
    counts, others = collections.Counter(), collections.Counter()
    try:
        printed, ran = said_of(program, text)
        replay = Replay(Line(text), Printed(text, printed))
        replay.play()
        says, counts = "agrees", replay.counts()
        others = refused(text, printed, task.spoil)
    except Differs as why:
        says = f"differs: {why}"
    # whatever else goes wrong in the model is told, and the next line is replayed
    except Exception:  # pylint: disable=broad-except
        says = "the model stops: " + traceback.format_exc().replace("\n", " | ")
    return Answer(text, says, printed, counts, others, ran, time.monotonic() - start)


# Lines by chance.


def script_by_chance(pick, workers, keys):
    words, numbers = [], workers
    at = 0
    for _ in range(pick.choice([0, 0, 1, 1, 2, 3, 5])):
        at = pick.choice([at, pick.randrange(at, keys + 3) if at < keys + 3 else at, pick.randrange(keys + 3)])
        name = pick.choice(["lose", "suspect", "join"])
        if name == "join":
            numbers += 1
            words.append(f"join@{at}")
        else:
            words.append(f"{name}:{pick.randrange(1, numbers + 2)}@{at}")
    return words


def line_by_chance(pick, most):
    kind = pick.choice(["sum", "sum", "shared"])
    leaves = max(1, min(most, int(most ** pick.random()) if pick.random() < 0.7 else pick.randint(1, most)))
    workers, threads = pick.randint(1, 6), pick.randint(1, 4)
    capacity = pick.choice([1, 1, 2, 3, 8, 64, pick.randint(1, 64)])
    keys = len(Job(kind, leaves).keys)
    words = script_by_chance(pick, workers, keys)
    if pick.random() < 0.2:
        words.append(f"zero:{pick.randrange(keys)}")
    if pick.random() < 0.3:
        words += [f"want:{pick.randrange(keys)}" for _ in range(pick.randint(1, 4))]
    if pick.random() < 0.3:
        words.append(f"saturation:{pick.choice([1, 5, 10, 20, 30, 100, 1000])}")
    if pick.random() < 0.3:
        words.append(f"allowed:{pick.choice([0, 0, 1, 2, 5])}")
    if pick.random() < 0.7:
        words.append(f"work:{pick.choice([1, 2, 100, 4096, 4096, 4096, 100000])}")
    if pick.random() < 0.5:
        words.append(f"slow:{pick.choice([1, 10, 100, 1000])}")
    for name in ("short", "fail", "hungry"):
        if pick.random() < 0.08:
            words.append(f"{name}:{pick.randint(1, workers + 1)}")
    pick.shuffle(words)
    return " ".join([kind, str(leaves), str(workers), str(threads), str(capacity), *words, "journal"])


def spoil_by_chance(pick):
    return f" {pick.choice(['leave', 'mute', 'late'])}:{pick.randrange(1000)}"


# The command.


def arguments():
    parser = argparse.ArgumentParser(usage=__doc__)
    parser.add_argument("--runs", type=int, default=0)
    parser.add_argument("--seed", type=int, default=1)
    parser.add_argument("--leaves", type=int, default=200)
    parser.add_argument("--jobs", type=int, default=1)
    parser.add_argument("--program", default=PROGRAM)
    parser.add_argument("--keep")
    parser.add_argument("--spoil", type=int, default=0)
    parser.add_argument("--spoiled", action="store_true")
    return parser.parse_args()


def lines_of(asked):
    if asked.runs:
        pick = random.Random(asked.seed)
        return [line_by_chance(pick, asked.leaves) + (spoil_by_chance(pick) if asked.spoiled else "") for _ in range(asked.runs)]
    lines = [line for line in sys.stdin.read().split("\n") if line]
    return [line if "journal" in line.split() else line + " journal" for line in lines]


def keep(folder, number, answer):
    os.makedirs(folder, exist_ok=True)
    with open(f"{folder}/{number}", "w", encoding="utf-8") as it:
        it.write(f"{answer.says}\n{answer.printed}")


def main():
    asked = arguments()
    lines = lines_of(asked)
    counts, others, differ, entries = collections.Counter(), collections.Counter(), 0, 0
    ran = took = 0
    tasks = [Task(asked.program, line, asked.spoil) for line in lines]
    with multiprocessing.Pool(asked.jobs) as pool:
        for number, answer in enumerate(pool.imap(answer_of, tasks)):
            if answer.says != "agrees":
                differ += 1
                if asked.keep:
                    keep(asked.keep, number, answer)
            print(f"{answer.text}: {answer.says}", flush=True)
            counts += answer.counts
            others += answer.spoiled
            entries += sum(count for name, count in answer.counts.items() if not name.startswith("message"))
            ran, took = ran + answer.ran, took + answer.took
    print(f"{len(lines)} runs, {len(lines) - differ} agree, {differ} differ; {entries} entries in those that agree; "
          f"{ran:.0f} seconds in the program, {took:.0f} in all")
    for name, count in [*sorted(counts.items()), *sorted(others.items())]:
        print(f"  {name}: {count}")
    sys.exit(differ > 0)


if __name__ == "__main__":
    main()
