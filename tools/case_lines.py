"""What the writers of the lines of format_table share: the bytes of a case as its line has them, and the bytes of an answer."""

import re

NAMED = {10: "\\n", 9: "\\t", 13: "\\r"}


REPEATED = re.compile(rb"([ -\[\]-~]{1,2}?)\1{19,}")


def plain(data):
    return "".join(NAMED.get(b) or (chr(b) if 32 <= b <= 126 and b != 92 else "\\x%02x" % b) for b in data)


def escaped(data):
    """Bytes as a case has them."""
    text, at = "", 0
    for found in REPEATED.finditer(data):
        text += plain(data[at : found.start()]) + "\\*%d:%s\\." % (len(found[0]) // len(found[1]), found[1].decode())
        at = found.end()
    text += plain(data[at:])
    return text[:-1] + "\\x20" if text.endswith(" ") else text


def shown(data):
    """Bytes as an answer has them."""
    return "".join(chr(b) if 32 <= b <= 126 and b != 92 else "\\x%02x" % b for b in data)


def numbers(values):
    return ",".join(str(v) for v in values)


def order(fortran):
    return "column-major" if fortran else "row-major"


def place(text, at):
    """The line and the column of a byte."""
    before = text[:at]
    return "%d:%d" % (before.count(b"\n") + 1, at - (before.rfind(b"\n") + 1) + 1)
