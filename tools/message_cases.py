"""Maps as another MessagePack implementation encodes them, and the messages that they are: cases of format_table.

The bytes are those of Debian's python3-msgpack (1.0.3). The answers are written by hand here, from the table of fields in
docs/FORMATS.md: a message with its kind and its fields, and the bytes that it is written as, which are those of its map with
the fields in the order of the table; or the text of a refusal.
"""

import re

import msgpack

BIG = 2**64 - 1
KEY = 2**32 - 1
HOLDERS = [[1, 2], [KEY, BIG]]
HOLDERS_TEXT = " 1:2 4294967295:18446744073709551615"
WHO_HAS = [[7, HOLDERS], [KEY, []]]
WHO_HAS_TEXT = " key 7%s key 4294967295" % HOLDERS_TEXT
KEYS = [0, 300, KEY]
KEYS_TEXT = " 0 300 4294967295"

# each kind of message, with its fields in the order in which they are written
MESSAGES = [
    ("ComputeTask: key 7, attempt 1099511627776, who_has%s" % WHO_HAS_TEXT,
     [("op", "compute-task"), ("key", 7), ("attempt", 2**40), ("who_has", WHO_HAS)]),
    ("FreeKeys: keys 3", [("op", "free-keys"), ("keys", [3])]),
    ("FreeKeys: keys", [("op", "free-keys"), ("keys", [])]),
    ("StealRequest: key 4294967295, attempt 18446744073709551615",
     [("op", "steal-request"), ("key", KEY), ("attempt", BIG)]),
    ("RemoveReplicas: keys%s" % KEYS_TEXT, [("op", "remove-replicas"), ("keys", KEYS)]),
    ("AcquireReplicas: who_has%s" % WHO_HAS_TEXT, [("op", "acquire-replicas"), ("who_has", WHO_HAS)]),
    ("RefreshWhoHas: who_has", [("op", "refresh-who-has"), ("who_has", [])]),
    ("TaskFinished: seen 1, key 2, attempt 3",
     [("op", "task-finished"), ("seen", 1), ("key", 2), ("attempt", 3)]),
    ("TaskErred: seen 18446744073709551615, key 2, attempt 3",
     [("op", "task-erred"), ("seen", BIG), ("key", 2), ("attempt", 3)]),
    ("AddKeys: seen 1, keys%s" % KEYS_TEXT, [("op", "add-keys"), ("seen", 1), ("keys", KEYS)]),
    ("ReleaseWorkerData: seen 1, key 2", [("op", "release-worker-data"), ("seen", 1), ("key", 2)]),
    ("MissingData: seen 1, key 2, holder 3, copy 4",
     [("op", "missing-data"), ("seen", 1), ("key", 2), ("holder", 3), ("copy", 4)]),
    ("RequestRefreshWhoHas: seen 1, key 2", [("op", "request-refresh-who-has"), ("seen", 1), ("key", 2)]),
    ("StealResponse: seen 1, key 2, attempt 3, yes true",
     [("op", "steal-response"), ("seen", 1), ("key", 2), ("attempt", 3), ("yes", True)]),
    ("StealResponse: seen 1, key 2, attempt 3, yes false",
     [("op", "steal-response"), ("seen", 1), ("key", 2), ("attempt", 3), ("yes", False)]),
    ("KeyInMemory: key 5, holders%s" % HOLDERS_TEXT,
     [("op", "key-in-memory"), ("key", 5), ("holders", HOLDERS)]),
    ("LostData: key 5", [("op", "lost-data"), ("key", 5)]),
    ("ClientTaskErred: key 5, blame 4", [("op", "client-task-erred"), ("key", 5), ("blame", 4)]),
    ("Want: keys%s" % KEYS_TEXT, [("op", "want"), ("keys", KEYS)]),
    ("Release: keys%s" % KEYS_TEXT, [("op", "release"), ("keys", KEYS)]),
    ("Missing: key 1, holder 2, copy 3",
     [("op", "missing"), ("key", 1), ("holder", 2), ("copy", 3)]),
    ("GetData: ask 9, keys%s" % KEYS_TEXT, [("op", "get-data"), ("ask", 9), ("keys", KEYS)]),
    ("Data: ask 9, found%s" % KEYS_TEXT, [("op", "data"), ("ask", 9), ("found", KEYS)]),
    ("Hello: role Scheduler, id 1", [("op", "hello"), ("role", "scheduler"), ("id", 1)]),
    ("Hello: role Worker, id 2", [("op", "hello"), ("role", "worker"), ("id", 2)]),
    ("Hello: role Client, id 3", [("op", "hello"), ("role", "client"), ("id", 3)]),
]

# other maps
ANSWERS = [
    # what is no map, and maps without an operation
    ("the value is not a map", None),
    ("the value is not a map", ["op", "want"]),
    ("the field op is missing", []),
    ("the field op is missing", [("keys", [3])]),
    ("the field op is missing", [(b"op", "want"), ("keys", [3])]),
    ("the field op has another type", [("op", 5), (1, 2)]),
    ("the field op has another type", [("op", b"want"), ("keys", [3])]),
    ("an unknown operation", [("op", "free")]),
    ("an unknown operation", [("op", "free-keys "), (1, 2)]),
    ("an unknown operation", [("op", ""), ("keys", [3])]),
    # keys that are no fields
    ("pair 1 is no field of the operation", [("op", "free-keys"), ("key", 3)]),
    ("pair 2 is no field of the operation", [("op", "free-keys"), ("keys", [3]), (1, 2)]),
    ("pair 0 is no field of the operation", [(None, 2), ("op", "free-keys")]),
    ("pair 1 is no field of the operation", [("op", "want"), (b"keys", [3])]),
    ("pair 1 is no field of the operation", [("op", "want"), ("Keys", [3])]),
    # repeated fields
    ("the field keys is repeated", [("op", "free-keys"), ("keys", [3]), ("keys", [3])]),
    ("the field op is repeated", [("op", "free-keys"), ("op", "want"), ("keys", [3])]),
    ("the field op is repeated", [("keys", [3]), ("op", "free-keys"), ("op", 1)]),
    ("the field id is repeated", [("id", 1), ("op", "hello"), ("id", -1), ("role", 5)]),
    # missing fields, the first of the table
    ("the field keys is missing", [("op", "free-keys")]),
    ("the field key is missing", [("op", "missing")]),
    ("the field holder is missing", [("op", "missing"), ("copy", 1), ("key", 1)]),
    ("the field copy is missing", [("op", "missing"), ("holder", 1), ("key", 1)]),
    ("the field role is missing", [("op", "hello")]),
    # other types
    ("the field keys has another type", [("op", "want"), ("keys", 3)]),
    ("the field keys has another type", [("op", "want"), ("keys", [3, "a"])]),
    ("the field keys has another type", [("op", "want"), ("keys", ["a", 2**32])]),
    ("the field keys has another type", [("op", "want"), ("keys", None)]),
    ("the field yes has another type",
     [("op", "steal-response"), ("seen", 1), ("key", 2), ("attempt", 3), ("yes", 1)]),
    ("the field role has another type", [("op", "hello"), ("role", 1), ("id", 1)]),
    ("the field role has another type", [("op", "hello"), ("role", b"worker"), ("id", 1)]),
    ("the field holders has another type", [("op", "key-in-memory"), ("key", 1), ("holders", [[1]])]),
    ("the field holders has another type", [("op", "key-in-memory"), ("key", 1), ("holders", [[1, 2, 3]])]),
    ("the field holders has another type", [("op", "key-in-memory"), ("key", 1), ("holders", [[]])]),
    ("the field holders has another type", [("op", "key-in-memory"), ("key", 1), ("holders", [1, 2])]),
    ("the field who_has has another type", [("op", "refresh-who-has"), ("who_has", [[1, [[1, 2]]], [2]])]),
    ("the field blame has another type", [("op", "client-task-erred"), ("key", 1), ("blame", True)]),
    # numbers out of range, and texts that name no role
    ("the field keys is out of range", [("op", "want"), ("keys", [2**32])]),
    ("the field keys is out of range", [("op", "want"), ("keys", [-1])]),
    ("the field keys is out of range", [("op", "want"), ("keys", [2**32, "a"])]),
    ("the field key is out of range", [("op", "task-finished"), ("seen", BIG), ("key", 2**32), ("attempt", 1)]),
    ("the field seen is out of range", [("op", "task-finished"), ("seen", -1), ("key", 2**32), ("attempt", 1)]),
    ("the field attempt is out of range", [("op", "task-finished"), ("seen", 1), ("key", 1), ("attempt", -(2**63))]),
    ("the field role is out of range", [("op", "hello"), ("role", "master"), ("id", 1)]),
    ("the field role is out of range", [("op", "hello"), ("role", ""), ("id", 1)]),
    ("the field holders is out of range", [("op", "key-in-memory"), ("key", 1), ("holders", [[1, -2]])]),
    ("the field holders is out of range", [("op", "key-in-memory"), ("key", 1), ("holders", [[2**32, "a"]])]),
    ("the field who_has is out of range", [("op", "refresh-who-has"), ("who_has", [[1, [[1, 2**63], [2**32, 1]]]])]),
    # the first pair from the left counts, wherever the operation stands
    ("the field id is out of range", [("op", "hello"), ("id", -1), ("role", 5)]),
    ("the field id is out of range", [("id", -1), ("role", 5), ("op", "hello")]),
    ("the field role has another type", [("role", 5), ("op", "hello"), ("id", -1), (1, 2)]),
    ("the field keys has another type", [("keys", ["a"]), ("op", "free-keys"), ("op", 1)]),
    # fields in other orders
    ("Missing: key 1, holder 2, copy 3", [("copy", 3), ("holder", 2), ("key", 1), ("op", "missing")]),
    ("Missing: key 1, holder 2, copy 3", [("holder", 2), ("op", "missing"), ("copy", 3), ("key", 1)]),
    ("Hello: role Client, id 3", [("id", 3), ("op", "hello"), ("role", "client")]),
    ("StealResponse: seen 1, key 2, attempt 3, yes true",
     [("yes", True), ("attempt", 3), ("key", 2), ("seen", 1), ("op", "steal-response")]),
]


def packed(value):
    packer = msgpack.Packer(use_bin_type=True)
    if value is not None and all(isinstance(pair, tuple) for pair in value):
        return packer.pack_map_pairs(value)
    return packer.pack(value)


# the fields of each operation, in the order in which they are written
ORDER = {dict(pairs)["op"]: [key for key, _ in pairs] for _, pairs in MESSAGES}


def message_case(shown, pairs):
    """A message of these pairs, and what it is written as."""
    order = ORDER[dict(pairs)["op"]]
    written = packed(sorted(pairs, key=lambda pair: order.index(pair[0])))
    return "message " + packed(pairs).hex(), "%s = %s" % (shown, written.hex())


def answer_case(shown, value):
    is_message = re.match("[A-Z][A-Za-z]*: ", shown)
    return message_case(shown, value) if is_message else ("message " + packed(value).hex(), shown)


def cases():
    return [("# messages", "messages")] + [message_case(*row) for row in MESSAGES] + [answer_case(*row) for row in ANSWERS]
