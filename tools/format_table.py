#!/usr/bin/env python3
"""Writes crates/format_table/stdin and stdout: cases of the formats, and the answers that are wanted.

Run it with a Python that has NumPy and msgpack (Debian's python3-numpy 1.24.2 and python3-msgpack 1.0.3), at the top of the
repository: /usr/bin/python3 tools/format_table.py

Each module that is imported here says where its answers are from. None runs the program.
"""

import gen_cases
import header_cases
import job_step_cases
import job_text_cases
import message_cases
import msgpack_cases
import npy_cases
import sim_cases

# Sums of the small grammar in the crate's sums.rt, with the actions by hand: those of a rule come as its operator is complete.
SUMS = [
    ("# sums", "sums"),
    ("sum 1+(1+-1)", "sum push push push negate add add; whole at 8"),
    ("sum 1+1+1", "sum push push add push add; whole at 5"),
    ("sum --(1)", "sum push negate negate; whole at 5"),
    ("sum 1+1$", "sum push push add; refused at 3"),
    ("sum 1++1", "sum push; refused at 2"),
    ("sum )", "sum; refused at 0"),
    ("sum 1?", "sum push; refused at 1"),
    ("sum 1)", "sum push; refused at 1"),
    ("sum", "sum; refused at 0"),
    ("sum (1", "sum push; refused at 2"),
    ("sum (1+", "sum push; refused at 3"),
    ("sum \\*1000000:-\\.1", "sum push" + " negate" * 7 + " and 999993 more; whole at 1000001"),
]

MODULES = [header_cases, npy_cases, msgpack_cases, message_cases, job_step_cases, job_text_cases, sim_cases, gen_cases]


def main():
    cases = SUMS + [case for module in MODULES for case in module.cases()]
    lines = [line[:-1] if line.endswith(" ") and line.count(" ") == 1 else line for line, _ in cases]
    assert all("\n" not in text and "\r" not in text for case in cases for text in case)
    for name, texts in (("stdin", lines), ("stdout", [answer for _, answer in cases])):
        with open("crates/format_table/" + name, "w") as out:
            out.writelines(text + "\n" for text in texts)
    print(len(cases), "cases")


if __name__ == "__main__":
    main()
