#!/usr/bin/env python3
"""Draws a journal of `runner_table`: which worker ran which key when, and what was lost, suspected, stolen and put on a disk, as one SVG.

    echo 'sum 12 3 2 4 lose:2@5 journal' | crates/runner_table/out/runner_table | tools/timeline.py > run.svg

Time is by stamps, and not by a clock: each column stands for one event that is drawn, in the order of the stamps, some of which stand below. A start
doesn't say its key: it is that of the worker of `cluster_model.py`, which takes the entries of its worker.
"""
import sys

from cluster_model import Worker, message_of
from journal_model import Line, Printed
from world_model import read_event

# Sizes, in pixels.
LEFT, RIGHT, TOP, LANE, STRIP, BETWEEN = 84, 20, 58, 18, 15, 10
LETTER, SMALL = 5.9, 6.0
# A picture is so wide at most while a column isn't narrower than the least, and a column so wide at most.
MOST, LEAST, WIDE = 1100, 8, 20

STYLE = """text{font:11px sans-serif;fill:#222}.h{font-size:13px;font-weight:bold}.n{fill:#555}.e{text-anchor:end}.m{text-anchor:middle}
.live{fill:#eef1f4}.left{fill:#f7eef8}.run{fill:#3b78b5}.anew{fill:#c9771a}.thief{stroke:#00796b;stroke-width:2}.cut{fill:#fff;stroke:#b3261e;stroke-dasharray:3 2}
.key{fill:#fff;font-size:10px}.cutkey{fill:#b3261e;font-size:10px}.loss{stroke:#b3261e;stroke-width:2;fill:none}.sus{stroke:#8e24aa;stroke-width:2;fill:#fff}
.join{fill:#2e7d32}.steal{stroke:#00796b;stroke-width:1.5;fill:none}.tip{fill:#00796b}.no{fill:#00796b;font-weight:bold}.tick{stroke:#ccc}.disk{fill:#5d4037}.gone{fill:#fff;stroke:#5d4037}"""


# What there is to draw.


class Bar:
    """A key that a worker runs in one of its lanes."""

    def __init__(self, worker, key, lane, start, anew):
        self.worker, self.key, self.lane, self.start, self.anew = worker, key, lane, start, anew
        self.end, self.whole = None, False


class Core(Worker):
    """A worker of the model, with the bars of what it runs."""

    def __init__(self, graph, number, threads, joined):
        super().__init__(graph, number, threads)
        self.joined, self.bars, self.ended, self.dropped = joined, {}, None, None

    def lane(self):
        taken = {bar.lane for bar in self.bars.values()}
        return next(lane for lane in range(self.threads) if lane not in taken)

    def end(self, stamp):
        """Ends what it runs."""
        for bar in self.bars.values():
            bar.end = stamp
        self.bars, self.ended = {}, stamp


class Steal:
    """A key that a worker gives away, or doesn't; where it is given to another, when and to whom."""

    def __init__(self, worker, stamp, key, attempt, given):
        self.worker, self.stamp, self.key, self.attempt, self.given = worker, stamp, key, attempt, given
        self.thief = self.taken = None


class Picture:
    """What a journal tells, event by event. Stamps that are drawn are kept, each of which gets a column."""

    def __init__(self, text):
        first = text.partition("\n")[0]
        self.line, self.printed = Line(first), Printed(first, text)
        self.workers, self.bars, self.steals, self.seen, self.disks, self.ran = {}, [], [], [], [], set()
        self.stamps, self.tasks = set(), []
        for entry in self.printed.entries:
            stamp, _, rest = entry.partition(" ")
            front, _, message = rest.partition(" | ")
            self.take(int(stamp), read_event(front.split()), message.split()[1:])
        self.last = int(self.printed.entries[-1].partition(" ")[0])
        for core in self.workers.values():
            core.end(core.ended or self.last + 1)
        self.match()
        self.columns = {stamp: at for at, stamp in enumerate(sorted(self.stamps))}

    def take(self, stamp, event, words):
        method = getattr(self, "on_" + event[0].replace("-", "_"), None)
        if method:
            method(stamp, words, *event[1:])

    def draw(self, stamp):
        self.stamps.add(stamp)

    def on_join(self, stamp, _, threads):
        number = len(self.workers) + 1
        self.workers[number] = Core(self.line.graph, number, threads, stamp)
        self.draw(stamp)

    def on_deliver_down(self, stamp, words, worker):
        message = message_of(words)
        self.workers[worker].step(message)
        if message[0] == "compute-task":
            self.tasks.append((message[2], message[1], worker, stamp))

    def on_start(self, stamp, _, worker):
        core = self.workers[worker]
        key = core.would_start()
        bar = Bar(worker, key, core.lane(), stamp, key in self.ran)
        core.step(("start",))
        core.bars[key] = bar
        self.bars.append(bar)
        self.draw(stamp)

    def on_finish(self, stamp, _, worker, key):
        core = self.workers[worker]
        core.step(("zero" if self.line.job.values[key] is None else "done", key))
        bar = core.bars.pop(key)
        bar.end, bar.whole = stamp, True
        self.ran.add(key)
        self.draw(stamp)

    def on_send_gather(self, _, __, asker, peer):
        self.gather(asker, "ask", peer)

    def on_arrive_gather(self, _, words, asker, peer, ask):
        found = [] if words[2] == "-" else [int(key) for key in words[2].split(",")]
        self.gather(asker, "gathered", peer, ask, found)

    def on_fail_gather(self, _, __, asker, peer):
        if asker[0] == "worker":
            self.gather(asker, "gather-failed", peer, self.workers[asker[1]].ask_number(peer))

    def gather(self, asker, *event):
        if asker[0] == "worker":
            self.workers[asker[1]].step(event)

    def on_spill(self, stamp, _, worker, __):
        self.disks.append((worker, stamp, False))
        self.draw(stamp)

    def on_lose_spilled(self, stamp, _, worker, key):
        self.workers[worker].step(("data-lost", key))
        self.disks.append((worker, stamp, True))
        self.draw(stamp)

    def on_lose(self, stamp, _, worker):
        self.workers[worker].end(stamp)
        self.draw(stamp)

    def on_see_loss(self, stamp, _, worker):
        self.leave(stamp, worker, False)

    def on_suspect(self, stamp, _, worker):
        self.leave(stamp, worker, True)

    def leave(self, stamp, worker, suspected):
        self.workers[worker].dropped = stamp
        self.seen.append((worker, stamp, suspected))
        self.draw(stamp)

    def on_deliver_up(self, stamp, words, worker):
        if words[0] == "steal-response":
            self.steals.append(Steal(worker, stamp, int(words[2]), int(words[3]), words[4] == "true"))
            self.draw(stamp)

    def match(self):
        """Finds to whom a key went that was given away: it is told the next attempt."""
        for steal in self.steals:
            later = [task for task in self.tasks if task[1] == steal.key and task[0] > steal.attempt and task[3] > steal.stamp]
            if steal.given and later:
                _, _, steal.thief, steal.taken = min(later)
                self.draw(steal.taken)


    def is_stolen(self, bar):
        return any((steal.thief, steal.key) == (bar.worker, bar.key) and steal.taken < bar.start for steal in self.steals)


# The drawing.


def escaped(text):
    return text.replace("&", "&amp;").replace("<", "&lt;")


def short(number):
    return f"{number:.1f}".rstrip("0").rstrip(".")


class Drawing:
    def __init__(self, picture):
        self.picture, self.parts = picture, []
        self.step = max(LEAST, min(WIDE, (MOST - LEFT - RIGHT) / max(len(picture.columns), 1)))
        self.tops, top = {}, TOP
        for number, core in picture.workers.items():
            self.tops[number] = top
            top += self.height(core) + BETWEEN
        self.bottom = top - BETWEEN + 4
        self.right = LEFT + self.step * len(picture.columns)

    @staticmethod
    def height(core):
        """A strip for what happens to a worker, and its lanes."""
        return STRIP + core.threads * LANE + 2

    def put(self, name, inner=None, **attributes):
        words = "".join(f' {key.replace("_", "-")}="{short(it) if isinstance(it, float) else it}"' for key, it in attributes.items())
        self.parts.append(f"<{name}{words}/>" if inner is None else f"<{name}{words}>{escaped(inner)}</{name}>")

    def text(self, x, y, text, kind):
        self.put("text", text, x=float(x), y=float(y), **{"class": kind})

    def path(self, kind, path):
        self.put("path", d=path, **{"class": kind})

    def box(self, kind, x, y, width, height):
        self.put("rect", x=float(x), y=float(y), width=float(width), height=float(height), **{"class": kind})

    def x(self, stamp):
        """The middle of a stamp's column, or the right end."""
        at = self.picture.columns.get(stamp)
        return self.right if at is None else LEFT + self.step * (at + 0.5)

    def strip(self, worker):
        """Where the signs of a worker stand."""
        return self.tops[worker] + STRIP / 2 + 0.5

    # A row for each worker.

    def row(self, number, core):
        top, height = self.tops[number], self.height(core)
        self.text(LEFT - 8, top + height / 2 + 4, f"worker {number}", "e")
        start, end = self.x(core.joined), self.x(core.ended)
        dropped = end if core.dropped is None else min(end, self.x(core.dropped))
        self.box("live", start, top, dropped - start, height)
        if dropped < end:
            self.box("left", dropped, top, end - dropped, height)

    def bar(self, bar):
        x, y = self.x(bar.start), self.tops[bar.worker] + STRIP + bar.lane * LANE + 2
        width = max(self.x(bar.end) - x, 3)
        kind = "cut" if not bar.whole else "anew" if bar.anew else "run"
        self.box(kind + " thief" * self.picture.is_stolen(bar), x, y, width, LANE - 4)
        if len(str(bar.key)) * SMALL + 2 <= width:
            self.text(x + width / 2, y + 10.5, str(bar.key), "cutkey m" if kind == "cut" else "key m")

    # What happens to workers.

    def cross(self, x, y):
        self.path("loss", f"M{short(x - 4)} {short(y - 4)}l8 8m0-8l-8 8")

    def eye(self, x, y):
        """The scheduler sees a loss."""
        self.path("loss", f"M{short(x)} {short(y - 6)}v12")

    def diamond(self, x, y):
        self.path("sus", f"M{short(x)} {short(y - 6)}l6 6l-6 6l-6-6z")

    def triangle(self, x, y):
        self.path("join", f"M{short(x - 4)} {short(y - 5)}l8 5l-8 5z")

    def disk(self, x, y, lost):
        """A block goes to the worker's disk, or is lost there."""
        self.path("gone" if lost else "disk", f"M{short(x - 4)} {short(y - 4)}h8l-4 8z")

    def marks(self, number, core):
        y = self.strip(number)
        self.triangle(self.x(core.joined), y)
        if core.ended in self.picture.columns:
            self.cross(self.x(core.ended), y)
        for worker, stamp, suspected in self.picture.seen:
            if worker == number:
                (self.diamond if suspected else self.eye)(self.x(stamp), y)
        for worker, stamp, lost in self.picture.disks:
            if worker == number:
                self.disk(self.x(stamp), y, lost)

    def arrow(self, x, y, end, below):
        middle = (y + below) / 2
        self.path("steal", f"M{short(x)} {short(y)}C{short(x)} {short(middle)} {short(end)} {short(middle)} {short(end)} {short(below)}")
        turn = 6 if below > y else -6
        self.path("tip", f"M{short(end)} {short(below)}l-3.5 {-turn}h7z")

    def steal(self, steal):
        x, y = self.x(steal.stamp), self.strip(steal.worker)
        if not steal.given:
            self.text(x, y + 4, "no", "no m")
        elif steal.thief is None:
            self.text(x, y + 4, "yes", "no m")
        else:
            down = self.tops[steal.thief] > self.tops[steal.worker]
            self.arrow(x, y, self.x(steal.taken), self.strip(steal.thief) + (4 if down else -4))

    # What stands around.

    def axis(self):
        columns = sorted(self.picture.columns)
        every = max(1, int(len(str(columns[-1])) * SMALL + 14) // int(self.step) + 1) if columns else 1
        for stamp in columns[::every]:
            x = self.x(stamp)
            self.path("tick", f"M{short(x)} {TOP - 6}V{short(self.bottom)}")
            self.text(x, self.bottom + 12, str(stamp), "n m")
        self.text(LEFT - 8, self.bottom + 12, "stamp", "n e")

    def legend(self):
        """The signs with what they stand for, and the height of all."""
        rows = [
            (lambda x, y: self.box("run", x, y - 7, 22, 14), "runs a key"),
            (lambda x, y: self.box("anew", x, y - 7, 22, 14), "runs it anew"),
            (lambda x, y: self.box("cut", x, y - 7, 22, 14), "doesn't finish it"),
            (lambda x, y: self.triangle(x + 11, y), "a worker joins"),
            (lambda x, y: self.cross(x + 11, y), "it ends"),
            (lambda x, y: self.eye(x + 11, y), "its loss is seen"),
            (lambda x, y: self.diamond(x + 11, y), "it is suspected"),
            (lambda x, y: self.box("left", x, y - 7, 22, 14), "and heard no more"),
            (lambda x, y: self.arrow(x + 2, y - 7, x + 18, y + 7), "a key is stolen"),
            (lambda x, y: self.box("run thief", x, y - 7, 22, 14), "the thief runs it"),
            (lambda x, y: self.text(x + 11, y + 4, "no", "no m"), "a steal is refused"),
            (lambda x, y: self.disk(x + 11, y, False), "a block goes to disk"),
            (lambda x, y: self.disk(x + 11, y, True), "and is lost there"),
        ]
        x, y = LEFT, self.bottom + 36
        for sign, words in rows:
            width = 28 + len(words) * LETTER + 18
            if x + width > max(self.right, 640):
                x, y = LEFT, y + 22
            sign(x, y)
            self.text(x + 28, y + 4, words, "n")
            x += width
        return y + 20

    def svg(self):
        picture = self.picture
        text = picture.line.text.replace(" journal", "")
        self.text(LEFT, 20, text, "h")
        ends = "; ".join(picture.printed.ends)
        self.text(LEFT, 38, f"{ends} · {len(picture.line.graph.keys)} keys, {len(picture.printed.entries)} events, of which {len(picture.columns)} are drawn", "n")
        for number, core in picture.workers.items():
            self.row(number, core)
        self.axis()
        for steal in picture.steals:
            self.steal(steal)
        for bar in picture.bars:
            self.bar(bar)
        for number, core in picture.workers.items():
            self.marks(number, core)
        height, width = self.legend(), max(self.right, 640) + RIGHT
        head = f'<svg xmlns="http://www.w3.org/2000/svg" width="{width:.0f}" height="{height:.0f}" viewBox="0 0 {width:.0f} {height:.0f}">'
        return "\n".join([head, f"<style>{STYLE}</style>", f'<rect width="{width:.0f}" height="{height:.0f}" fill="#fff"/>', *self.parts, "</svg>", ""])


def main():
    sys.stdout.write(Drawing(Picture(sys.stdin.read())).svg())


if __name__ == "__main__":
    main()
