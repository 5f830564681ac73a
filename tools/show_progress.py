#!/usr/bin/env python3
"""Shows on a terminal how far a process of the program is: tools/show_progress.py PID WORDS .., until it is ended or the process is gone."""
import os
import sys
import time

TOP = os.path.dirname(os.path.dirname(os.path.abspath(__file__)))
sys.path.append(os.path.join(TOP, 'python', 'yitrovana'))
from hints import job_text, read  # noqa: E402
from progress import EVERY, Line, counts  # noqa: E402


def sizes(words):
    """The bytes of a job's inputs, and of the files that it saves; nothing of a job that can't be read."""
    try:
        job = read(words)
        return sum(map(os.path.getsize, set(job.inputs.values()))), sum(saved_bytes(job.nodes[node].shape) for node in job.saves.values())
    except (OSError, TypeError, job_text.Refused):
        return 0, 0


def saved_bytes(shape):
    """The data, without the short head."""
    result = 8
    for length in shape:
        result *= length
    return result


def main(pid, words):
    began, show = time.monotonic(), Line(sys.stderr)
    to_read, to_write = sizes(words)
    while True:
        time.sleep(EVERY)
        found = counts(pid, began, to_read, to_write)
        if not found:
            return
        show(found)


if __name__ == '__main__':
    sys.setrecursionlimit(10000)
    main(int(sys.argv[1]), sys.argv[2:])
