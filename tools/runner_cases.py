#!/usr/bin/env python3
"""Writes the lines that `runner_table` plays, and what it must print: the values by plain arithmetic, the rest by hand.

    tools/runner_cases.py FOLDER    writes FOLDER/stdin and FOLDER/stdout
"""
import sys

from runner_jobs import Job


def value_line(job, key):
    return f"key {key} is {job.values[key]}"


def served(kind, leaves, *left, wanted=()):
    job = Job(kind, leaves)
    return [*(value_line(job, key) for key in wanted), value_line(job, job.last), *left]


def left(*rows):
    """The workers that leave, each with its cause."""
    return [f"worker {row[1:]} left: {dict(s='script', f='feed', m='memory')[row[0]]}" for row in rows]


CASES = [
    # One worker and several, in links of every size.
    ("sum 1 1 1 64", served("sum", 1)),
    ("sum 4 1 1 1", served("sum", 4)),
    ("sum 10 2 1 1", served("sum", 10)),
    ("sum 64 3 2 1", served("sum", 64)),
    ("sum 100 4 2 2", served("sum", 100)),
    ("sum 60 8 1 1", served("sum", 60)),
    ("sum 300 4 2 64", served("sum", 300)),
    # Keys that several others need.
    ("shared 5 2 1 1", served("shared", 5)),
    ("shared 40 4 2 1", served("shared", 40)),
    ("shared 70 3 3 3", served("shared", 70)),
    # Several keys are wanted, one of them twice, a leaf, the last as well.
    ("shared 40 3 2 1 want:70 want:3 want:70 want:119", served("shared", 40, wanted=(70, 3, 70, 119))),
    # Workers that are full at once, and such as are hardly ever.
    ("sum 50 3 2 1 saturation:1", served("sum", 50)),
    ("sum 50 3 2 64 saturation:1000", served("sum", 50)),
    # As many drivers as there may be: each has rights enough.
    ("sum 200 8 8 64", served("sum", 200)),
    ("shared 30 8 8 1", served("shared", 30)),
    # Tasks that drivers take as long ones, and that take their time.
    ("sum 100 4 2 2 work:4096", served("sum", 100)),
    ("shared 40 4 2 3 work:4096 slow:10", served("shared", 40)),
    ("sum 40 2 2 1 work:4096 slow:10 lose:1@9 join@9", served("sum", 40, *left("s1"))),
    # Workers that the script loses, suspects and joins.
    ("sum 100 3 2 1 lose:2@5", served("sum", 100, *left("s2"))),
    ("sum 100 3 1 64 lose:1@0 lose:3@40", served("sum", 100, *left("s1", "s3"))),
    ("shared 30 4 2 1 lose:1@0 lose:2@0 lose:3@0", served("shared", 30, *left("s1", "s2", "s3"))),
    ("sum 100 2 2 1 suspect:1@10", served("sum", 100, *left("s1"))),
    ("sum 100 2 1 1 join@3 lose:1@5 lose:2@20", served("sum", 100, *left("s1", "s2"))),
    ("sum 100 1 1 1 join@0 join@0 suspect:1@50 lose:2@60", served("sum", 100, *left("s1", "s2"))),
    # An item for a worker that isn't there, or not yet, and one that never comes.
    ("sum 40 2 1 1 lose:7@0 suspect:0@0 lose:1@5000", served("sum", 40)),
    ("sum 40 2 1 1 lose:3@0 join@4 lose:1@4", served("sum", 40, *left("s1", "s3"))),
    # A worker that joins once all others were lost or suspected.
    ("sum 40 1 2 1 lose:1@7 join@7", served("sum", 40, *left("s1"))),
    ("sum 40 2 1 1 suspect:1@5 lose:2@5 join@5", served("sum", 40, *left("s1", "s2"))),
    ("sum 20 1 1 1 lose:1@0 join@0 lose:2@1 join@1 lose:3@2 join@2", served("sum", 20, *left("s1", "s2", "s3"))),
    # None joins then, which isn't told apart from want of memory.
    ("sum 40 1 2 1 lose:1@7", ["no memory", *left("s1")]),
    ("sum 40 2 2 64 lose:1@3 suspect:2@3", ["no memory", *left("s1", "s2")]),
    ("sum 40 1 1 1 lose:1@7 join@8", ["no memory", *left("s1")]),
    # A key meets a zero divisor: a leaf, one above it, the last, one that several others need, one that isn't needed.
    ("sum 16 2 2 1 zero:3", ["zero divisor at 3"]),
    ("sum 16 2 2 1 zero:20", ["zero divisor at 20"]),
    ("sum 16 2 1 64 zero:36", ["zero divisor at 36"]),
    ("shared 16 3 2 1 zero:20", ["zero divisor at 20"]),
    ("shared 16 3 2 1 zero:20 want:0", ["zero divisor at 20"]),
    ("sum 16 2 2 1 zero:37", served("sum", 16)),
    # The worker with the wanted key leaves once more than is allowed, and as often as is allowed; no key is lost before one is assigned.
    ("sum 1 2 1 1 suspect:1@1 allowed:0", ["killed: 1 1", *left("s1")]),
    ("sum 1 2 1 1 lose:1@1 allowed:0", ["killed: 1 1", *left("s1")]),
    ("sum 1 2 1 1 suspect:1@1 allowed:0 want:0", ["killed: 1 1", *left("s1")]),
    ("sum 1 2 1 1 suspect:1@1 allowed:1", served("sum", 1, *left("s1"))),
    ("sum 100 3 2 1 lose:2@5 allowed:1", served("sum", 100, *left("s2"))),
    ("sum 100 3 1 64 lose:1@0 allowed:0", served("sum", 100, *left("s1"))),
    ("sum 40 2 1 1 lose:7@0 suspect:0@0 lose:1@5000 allowed:0", served("sum", 40)),
    # A leaf that is made anew loses two workers, of which one is allowed, and two.
    ("sum 1 4 1 1 suspect:1@1 suspect:2@1 suspect:3@1 allowed:1", ["killed: 0 2", *left("s1", "s2", "s3")]),
    ("sum 1 4 1 1 suspect:1@1 suspect:2@1 suspect:3@1 allowed:2", served("sum", 1, *left("s1", "s2", "s3"))),
    # A worker leaves by itself: since its feed failed, and since it found no memory, which is told then.
    ("sum 1 2 1 1 fail:1 allowed:0", ["killed: 0 1", *left("f1")]),
    ("sum 1 2 1 1 hungry:1 allowed:0", ["no memory", *left("m1")]),
    ("sum 1 2 1 1 fail:1 allowed:1", served("sum", 1, *left("f1"))),
    # A zero divisor is told where losses are bounded, too.
    ("sum 16 2 2 1 zero:20 allowed:0", ["zero divisor at 20"]),
    # A worker without feeds, where another goes on.
    ("sum 64 2 2 1 short:1", served("sum", 64, *left("f1"))),
    # No worker is left.
    ("sum 64 1 1 64 short:1", ["read fault", *left("f1")]),
    ("sum 64 1 2 1 fail:1", ["read fault", *left("f1")]),
    ("sum 64 2 2 1 short:1 fail:2", ["read fault", *left("f1", "f2")]),
    ("sum 64 2 2 1 lose:1@0 fail:2", ["read fault", *left("s1", "f2")]),
    # A worker that finds no memory, where another goes on, and where none is left.
    ("sum 64 3 2 1 hungry:2", served("sum", 64, *left("m2"))),
    ("shared 30 2 1 64 hungry:1 lose:2@9 join@9", served("shared", 30, *left("m1", "s2"))),
    ("sum 64 1 2 1 hungry:1", ["no memory", *left("m1")]),
    ("sum 64 2 2 1 short:1 hungry:2", ["no memory", *left("f1", "m2")]),
    # Tasks at once: by one worker with two threads, by two workers, and by as many threads as there may be.
    ("sum 2 1 2 64 meet:2", ["2 tasks at once: true", *served("sum", 2)]),
    ("sum 2 2 1 1 meet:2", ["2 tasks at once: true", *served("sum", 2)]),
    ("sum 30 2 4 1 meet:8", ["8 tasks at once: true", *served("sum", 30)]),
    ("shared 20 5 1 1 meet:5", ["5 tasks at once: true", *served("shared", 20)]),
    ("sum 64 8 8 64 meet:64", ["64 tasks at once: true", *served("sum", 64)]),
    ("sum 30 2 4 1 meet:8 work:4096", ["8 tasks at once: true", *served("sum", 30)]),
    # Lines that aren't whole, or ask for what can't be.
    ("sum", served("sum", 1)),
    ("sum 3 1 1 1 saturation:0", ["no such line"]),
    ("sum 3 1 1 1 saturation:1001", ["no such line"]),
    ("sum 3 1 1 1 other", ["no such line"]),
    ("plus 4", ["no such line"]),
]


def main():
    folder = sys.argv[1]
    with open(f"{folder}/stdin", "w") as it:
        it.write("".join(line + "\n" for line, _ in CASES))
    with open(f"{folder}/stdout", "w") as it:
        it.write("".join("\n".join([line, *wanted]) + "\n" for line, wanted in CASES))


if __name__ == "__main__":
    main()
