"""Edit files as docs/FORMATS.md has them, spelled by the words of docs/LOG.md: nothing of Wergozil's own code is used here."""

import re
import struct

TITLE = ((1, 0), 0)
NONE = None


class NotAnEdit(Exception):
    pass


def stamp_of(word):
    time, _, replica = word.partition(".")
    if not (time.isdigit() and replica.isdigit()):
        raise NotAnEdit(f"{word!r} is no stamp")
    return int(time), int(replica)


def name_of(word):
    """A name: a stamp, and which of the things of that edit it is."""
    stamp, _, index = word.partition(":")
    if not index.isdigit():
        raise NotAnEdit(f"{word!r} is no name")
    return stamp_of(stamp), int(index)


def stamp_bytes(stamp):
    return stamp[0].to_bytes(6, "little") + stamp[1].to_bytes(2, "little")


def name_bytes(name):
    return stamp_bytes(name[0]) + name[1].to_bytes(4, "little")


def head(world, version=2):
    return b"ZED" + bytes([version]) + world.to_bytes(8, "little")


def record(stamp, body):
    body = stamp_bytes(stamp) + body
    return len(body).to_bytes(4, "little") + body


def file_of(world, records):
    return head(world) + b"".join(records)


def records_of(data):
    """The records of an edit file, each with its stamp."""
    at, out = 12, []
    while at < len(data):
        length = int.from_bytes(data[at : at + 4], "little")
        record = data[at : at + 4 + length]
        out.append(((int.from_bytes(record[4:10], "little"), int.from_bytes(record[10:12], "little")), record))
        at += 4 + length
    return out


def unquoted(text):
    """The bytes between quotes, and what stands behind them."""
    found = re.match(r'"((?:[^"\\]|\\x[0-9a-f][0-9a-f]|\\[r"\\])*)"', text)
    if not found:
        raise NotAnEdit(f"{text[:40]!r} begins with no string")
    out = bytearray()
    for piece in re.findall(r"\\x..|\\.|.", found[1], re.DOTALL):
        if piece.startswith("\\x"):
            out.append(int(piece[2:], 16))
        elif piece.startswith("\\"):
            out.append(13 if piece == "\\r" else ord(piece[1]))
        else:
            out += piece.encode("latin-1")
    return bytes(out), text[found.end() :]


def quoted(data):
    """Bytes as docs/LOG.md spells them."""
    plain = {13: "\\r", 34: '\\"', 92: "\\\\"}
    return '"' + "".join(plain.get(it) or (chr(it) if 32 <= it <= 126 else f"\\x{it:02x}") for it in data) + '"'


# ---- the fields of edits: what each letter of a pattern stands for

def _number(low, high, size, signed=False):
    def field(text):
        found = re.match(r"-?(?:0|[1-9][0-9]*)", text)
        if not found or not low <= int(found[0]) <= high:
            raise NotAnEdit(f"{text[:40]!r} begins with no number from {low} to {high}")
        return int(found[0]).to_bytes(size, "little", signed=signed), text[found.end() :]

    return field


def _word(text):
    found = re.match(r"[0-9.:]+", text)
    return (found[0], text[found.end() :]) if found else ("", text)


def _name(text):
    word, text = _word(text)
    return name_bytes(name_of(word)), text


def _option(text):
    if text.startswith("none"):
        return b"\0", text[4:]
    name, text = _name(text)
    return b"\1" + name, text


def _target(text):
    if text.startswith("board "):
        name, text = _name(text[6:])
        return b"\1" + name, text
    byte, text = _number(0, 255, 1)(text)
    return b"\0" + byte, text


def _range(text):
    found = re.match(r"(\d+)\.(\d+):(\d+)-(\d+)", text)
    if not found:
        raise NotAnEdit(f"{text[:40]!r} begins with no bytes of an insertion")
    time, replica, first, last = (int(it) for it in found.groups())
    return stamp_bytes((time, replica)) + first.to_bytes(4, "little") + last.to_bytes(4, "little"), text[found.end() :]


def _flag(text):
    for word, byte in (("yes", b"\1"), ("no", b"\0")):
        if text.startswith(word):
            return byte, text[len(word) :]
    raise NotAnEdit(f"{text[:40]!r} begins with neither yes nor no")


def _element(text):
    found = re.match(r"([a-z]*)\((\d+)\)", text)
    if not found or found[1] != ELEMENTS.get(int(found[2]), ""):
        raise NotAnEdit(f"{text[:40]!r} begins with no element")
    return bytes([int(found[2])]), text[found.end() :]


def _colour(text):
    found = re.match(r"0x([0-9a-f]{2})", text)
    if not found:
        raise NotAnEdit(f"{text[:40]!r} begins with no colour")
    return bytes.fromhex(found[1]), text[found.end() :]


def _string(text):
    data, text = unquoted(text)
    return bytes([len(data)]) + data, text


FIELDS = {
    "N": _name, "O": _option, "P": _target, "Q": _range, "B": _number(0, 255, 1), "I": _number(-32768, 32767, 2, True), "R": _number(0, 65535, 2),
    "F": _flag, "E": _element, "C": _colour, "S": _string, "T": unquoted,
}  # fmt: skip
ELEMENTS = dict(enumerate(
    "empty . . monitor player ammo torch gem key door scroll passage duplicator bomb energizer star clockwise counter bullet water forest solid normal"
    " breakable boulder sliderns sliderew fake invisible blinkwall transporter line ricochet . bear ruffian object slime shark spinninggun pusher lion"
    " tiger . head segment".split(" ")
))  # fmt: skip
ELEMENTS = {number: "" if word == "." else word for number, word in ELEMENTS.items()}

# The number of an op, its words, the number of a register or a tag that comes behind the fields so far, and the words behind that.
PATTERNS = [
    (3, "add board S", None, ""), (4, "remove board N", None, ""), (6, "cells board N (B,B)-(B,B) E C", None, ""), (8, "remove stat N", None, ""),
    (7, "add stat board N (B,B) p1 B p2 B under E C step I,I cycle I p3 P text O", None, ""), (10, "add text", None, ""),
    (11, "insert text N ", 0, "first T"), (11, "insert text N ", 1, "after N T"), (12, "delete text N bytes Q", None, ""),
]  # fmt: skip
HEADER = ["ammo I", "gems I", "health I", "torches I", "torch ticks I", "energizer ticks I", "score I", "time passed I", "hundredths I"]
HEADER += [f"key {it} F" for it in "blue green cyan red purple yellow white".split()] + ["saved F", "current board N", "world name S"]
HEADER += [f"flag {it} S" for it in range(1, 11)]
BOARD = ["max shots B", "dark F", "re-enter F", "start x B", "start y B", "time limit I"]
BOARD += [f"exit {it} O" for it in "north south west east".split()] + ["name S", "message S", "rank R"]
STAT = ["x B", "y B", "step x I", "step y I", "cycle I", "position I", "p1 B", "p2 B", "p3 P", "follower O", "leader O", "under element E"]
STAT += ["under colour C", "text O"]
for _op, _front, _registers in ((2, "header ", HEADER), (5, "board N ", BOARD), (9, "stat N ", STAT)):
    PATTERNS += [(_op, _front, _tag, _words) for _tag, _words in enumerate(_registers)]


def _fields(pattern, text):
    """What the fields of a pattern are spelled, and what is left of the words."""
    fields = []
    for letter in pattern:
        if letter in FIELDS:
            field, text = FIELDS[letter](text)
            fields.append(field)
        elif text.startswith(letter):
            text = text[1:]
        else:
            raise NotAnEdit(f"{text[:40]!r} isn't {letter!r}")
    return fields, text


def _spelled(op, front, tag, behind, words):
    fields, text = _fields(front, words)
    more, text = _fields(behind, text)
    if text:
        raise NotAnEdit(f"{text[:40]!r} is left")
    if op == 7:
        # x, y, the step, the cycle, the parameters and what is underneath stand in another order in a file
        board, x, y, p1, p2, element, colour, step_x, step_y, cycle, p3, program = fields
        fields = [board, x, y, step_x, step_y, cycle, p1, p2, p3, element, colour, program]
    return b"".join([bytes([op]), *fields, b"" if tag is None else bytes([tag]), *more])


def op_of(words):
    """The op of these words, as a record spells it."""
    for pattern in PATTERNS:
        try:
            return _spelled(*pattern, words)
        except NotAnEdit:
            continue
    raise NotAnEdit(f"{words[:80]!r} is no edit")


def genesis(world):
    return b"\1" + world


def letters(count, text):
    """The op that puts so many letters at the head of a text."""
    return b"\x0b" + name_bytes(text) + b"\0" + b"a" * count


def signed(number):
    return struct.unpack("<h", struct.pack("<H", number))[0]
