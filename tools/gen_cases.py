"""The words of the command `gen`, and what they ask for by the rules of the command: cases of format_table, worked out by hand."""

# Words that give a number: it, the workers and their threads.
ACCEPTED = [
    ("gen 7", (7, 4, 2)),
    ("gen 0 --workers 1 --threads 1", (0, 1, 1)),
    ("gen 18446744073709551615", (18446744073709551615, 4, 2)),
    ("gen 007 --threads 1 --workers 08", (7, 8, 1)),
    ("gen 7 --workers 64 --threads 1", (7, 64, 1)),
    ("gen 7 --workers 32", (7, 32, 2)),
    ("gen 7 --threads 16", (7, 4, 16)),
    ("gen --workers=3 7 --threads=5", (7, 3, 5)),
    ("gen --workers 3 -- 7", (7, 3, 2)),
    ("gen 7 --", (7, 4, 2)),
]

# Words that give none.
REFUSED = [
    "gen", "gen x", "gen -1", "gen +1", "gen ", "gen 7.0", "gen 18446744073709551616", "gen 7 8", "gen j 7", "sim 7", "Gen 7", "gen7", "gen 7 --workers",
    "gen --workers 7", "gen 7 --workers=", "gen 7 --workers 0", "gen 7 --workers 65 --threads 1", "gen 7 --workers 33", "gen 7 --workers 64",
    "gen 7 --threads 0", "gen 7 --threads 17 --workers 1", "gen 7 --threads 16 --workers 5", "gen 7 --workers 2 --workers 2", "gen 7 --threads 2 --threads=2",
    "gen 7 --worker 2", "gen 7 --saturation 11", "gen 7 --script join@1", "gen 7 --report", "gen 7 --transport inproc", "gen --help", "gen 7 -h", "gen -- --workers",
    "gen 7 -- 8", "gen 7 --allowed-failures 1",
]


def cases():
    found = [("# words of gen", "words of gen")]
    found += [("gen " + words, "number %d, workers %d, threads %d" % said) for words, said in ACCEPTED]
    return found + [("gen " + words, "words") for words in REFUSED]
