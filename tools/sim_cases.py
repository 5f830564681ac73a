"""The words of the command `sim`, and what they ask for by the rules of the command: cases of format_table, worked out by hand."""

# Words that ask for a simulation: its number, workers, threads and saturation, what losses are allowed where that is bounded, and the items of its script.
ACCEPTED = [
    ("sim j 7", (7, 4, 2, 11)),
    ("sim j 0 --workers 1 --threads 1", (0, 1, 1, 11)),
    ("sim j 18446744073709551615", (18446744073709551615, 4, 2, 11)),
    ("sim j 007 --saturation 20 --threads 1 --workers 08", (7, 8, 1, 20)),
    ("sim j 7 --workers 64 --threads 1", (7, 64, 1, 11)),
    ("sim j 7 --workers 32", (7, 32, 2, 11)),
    ("sim j 7 --threads 16", (7, 4, 16, 11)),
    ("sim j 7 --saturation 1000", (7, 4, 2, 1000)),
    ("sim j 7 --allowed-failures 0", (7, 4, 2, 11, "allowed 0")),
    ("sim j 7 --allowed-failures 1000", (7, 4, 2, 11, "allowed 1000")),
    ("sim --allowed-failures=03 j 7 --script lose:1@3 --saturation 5", (7, 4, 2, 5, "allowed 3", "lose 1 at 3")),
    ("sim j 7 --script suspect:2@1,suspect:1@1 --allowed-failures 1", (7, 4, 2, 11, "allowed 1", "suspect 2 at 1", "suspect 1 at 1")),
    ("sim -- --workers 7", (7, 4, 2, 11)),
    ("sim --workers=3 j --threads 1 7 --saturation=5", (7, 3, 1, 5)),
    ("sim j 7 --script=lose:1@3", (7, 4, 2, 11, "lose 1 at 3")),
    ("sim j -- 7", (7, 4, 2, 11)),
    ("sim j 7 --script lose:1@3", (7, 4, 2, 11, "lose 1 at 3")),
    ("sim j 7 --script lose:1@3,join@4", (7, 4, 2, 11, "lose 1 at 3", "join at 4")),
    ("sim j 7 --script suspect:4@0", (7, 4, 2, 11, "suspect 4 at 0")),
    ("sim j 7 --script join@5,lose:5@5", (7, 4, 2, 11, "join at 5", "lose 5 at 5")),
    ("sim j 7 --script join@0 --workers 31", (7, 31, 2, 11, "join at 0")),
    ("sim j 7 --script lose:1@1,lose:2@1,lose:3@1", (7, 4, 2, 11, "lose 1 at 1", "lose 2 at 1", "lose 3 at 1")),
    ("sim j 7 --workers 1 --script join@1,lose:1@2,join@2", (7, 1, 2, 11, "join at 1", "lose 1 at 2", "join at 2")),
]

# Words that ask for none.
REFUSED = [
    "sim", "sim j", "run j 7", "sim j x", "sim j -1", "sim j +1", "sim j ", "sim j 18446744073709551616", "sim j 7 --workers",
    "sim j 7 --workers 0", "sim j 7 --workers 65 --threads 1", "sim j 7 --workers 33", "sim j 7 --threads 0",
    "sim j 7 --threads 17 --workers 1", "sim j 7 --saturation 0", "sim j 7 --saturation 1001", "sim j 7 --workers 2 --workers 2",
    "sim j 7 --worker 2", "sim j 7 8 --workers", "sim --workers 7", "sim j 7 8", "sim j 7 --workers=", "sim j 7 --workers 2 --workers=2", "sim --help",
    "sim j 7 -h", "sim j 7 --report", "sim j 7 --transport inproc", "sim j 7 --script -1", "sim j 7 --script ", "sim j 7 --script lose:1@1,", "sim j 7 --script ,lose:1@1",
    "sim j 7 --script kill:1@1", "sim j 7 --script lose:@1", "sim j 7 --script lose:1@", "sim j 7 --script join:1@1",
    "sim j 7 --script suspect:5@0", "sim j 7 --script join@5,lose:5@4", "sim j 7 --script lose:1@1,lose:1@1",
    "sim j 7 --workers 32 --script join@0", "sim j 7 --workers 1 --script lose:1@1",
    "sim j 7 --allowed-failures 1001", "sim j 7 --allowed-failures -1", "sim j 7 --allowed-failures ", "sim j 7 --allowed-failures x",
    "sim j 7 --allowed-failures", "sim j 7 --allowed-failures=", "sim j 7 --allowed-failures 1 --allowed-failures 1", "sim j 7 --allowed-failure 1",
    "sim j 7 --allowed-failures none", "sim j 7 --allowed-failures 18446744073709551616",
]


def accepted(words, said):
    answer = "number %d, workers %d, threads %d, saturation %d" % said[:4]
    return "sim " + words, ", ".join((answer,) + said[4:])


def cases():
    found = [("# words of sim", "words of sim")] + [accepted(*row) for row in ACCEPTED]
    return found + [("sim " + words, "words") for words in REFUSED]
