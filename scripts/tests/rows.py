"""What the tests of rows share: books of rows, bytes as rows spell them, and running the programs under test.

A book is a text file. Empty lines, `#` alone and lines that begin with `# ` are skipped; any other line is a row, and lines behind it that
begin with `> ` are exactly what is to be seen of it."""

import os
import subprocess

HERE = os.path.dirname(os.path.abspath(__file__))


class NotARow(Exception):
    """A row isn't one that may stand there."""


class Row:
    def __init__(self, number, text):
        self.number, self.text, self.wanted = number, text, []


def rows_of(path):
    """The rows of a book. A book without rows, and a `> ` in front of any row, is at fault."""
    rows = []
    with open(path, encoding="utf-8") as it:
        for number, line in enumerate(it.read().split("\n"), 1):
            if line.startswith("> "):
                if not rows:
                    raise NotARow(f"line {number}: nothing is seen before the first row")
                rows[-1].wanted.append(line[2:])
            elif line and line != "#" and not line.startswith("# "):
                rows.append(Row(number, line))
    if not rows:
        raise NotARow("there are no rows")
    return rows


class Counts:
    """What held and what didn't."""

    def __init__(self, suite):
        self.suite, self.passed, self.failed, self.untried = suite, 0, 0, set()

    def passes(self):
        self.passed += 1

    def fails(self, what):
        self.failed += 1
        print(f"{self.suite}: FAILED: {what[:1500]}")

    def is_so(self, what, seen, wanted):
        if seen == wanted:
            self.passed += 1
        else:
            self.fails(f"{what}: {str(seen)[:600]}, and not {str(wanted)[:600]}")
        return seen == wanted

    def not_tried(self, what):
        if what not in self.untried:
            self.untried.add(what)
            print(f"{self.suite}: not tried: {what}")

    def tell(self):
        print(f"{self.suite}: {self.passed} passed, {self.failed} failed")
        return 0 if self.failed == 0 and self.passed else 1


def number_of(word):
    if not word.isascii() or not word.isdigit():
        raise NotARow(f"{word!r} is no number")
    return int(word)


def bytes_of(names, pieces):
    """Bytes as rows spell them: pairs of hexadecimal digits; `'` and letters; `=` and a number of two bytes; `@` and the name of other bytes.
    `*` and a number behind a piece repeat it."""
    out = bytearray()
    for word in pieces.split(" ") if pieces else []:
        spelled, _, times = word.partition("*")
        if spelled.startswith("@"):
            if spelled[1:] not in names:
                raise NotARow(f"nothing is named {spelled[1:]}")
            piece = names[spelled[1:]]
        elif spelled.startswith("'"):
            piece = spelled[1:].encode("ascii")
        elif spelled.startswith("="):
            piece = number_of(spelled[1:]).to_bytes(2, "little")
        else:
            piece = bytes.fromhex(spelled)
        out += piece * (number_of(times) if times else 1)
    return bytes(out)


def changed(data, words):
    """The same bytes but for these: places and their bytes, in turn."""
    out = bytearray(data)
    numbers = [number_of(it) for it in words.split(" ")]
    if len(numbers) % 2 or not all(place < len(out) for place in numbers[::2]):
        raise NotARow("a place outside the bytes")
    for place, byte in zip(numbers[::2], numbers[1::2]):
        out[place] = byte
    return bytes(out)


class Programs:
    """The programs under test, run in a folder of this test's own."""

    def __init__(self, room):
        self.room, self.zzted, self.zztool = room, os.environ["ZZTED"], os.environ["ZZTOOL"]

    def at(self, name):
        return os.path.join(self.room, name)

    def put(self, name, data):
        with open(self.at(name), "wb") as it:
            it.write(data)

    def bytes_of(self, name):
        with open(self.at(name), "rb") as it:
            return it.read()

    def run(self, program, *words):
        """The status, what was printed, and the first line of what was complained."""
        ran = subprocess.run([program, *map(str, words)], stdin=subprocess.DEVNULL, capture_output=True, cwd=self.room, timeout=300)
        return ran.returncode, ran.stdout, ran.stderr.decode("latin-1").split("\n")[0]

    def refusal(self, program, *words):
        """The name by which a command is refused, or None."""
        status, _, complained = self.run(program, *words)
        if status == 0:
            return None
        return complained.partition(": ")[2] if status == 1 else f"status {status}: {complained}"


# ---- what the programs print by `{:?}`


def parsed(text):
    """The values of a line, each followed by a space: numbers, True and False, strings for bare names, (name, values..) for `Name(..)`,
    (name, {field: value}) for `Name { .. }`, and lists."""
    at, values = 0, []
    while at < len(text):
        value, at = _value(text, at)
        values.append(value)
        at += 1
    return values


def _list(text, at, end):
    values = []
    while text[at] != end:
        value, at = _value(text, at)
        values.append(value)
        if text.startswith(", ", at):
            at += 2
    return values, at + 1


def _value(text, at):
    if text[at] == "[":
        end = text.index("]", at)
        plain = text[at + 1 : end]
        if not plain or plain[0].isdigit():
            return ([int(it) for it in plain.split(", ")] if plain else []), end + 1
        return _list(text, at + 1, "]")
    if text[at] == "(":
        values, at = _list(text, at + 1, ")")
        return tuple(values), at
    begin = at
    while at < len(text) and (text[at].isalnum() or text[at] in "-_"):
        at += 1
    word = text[begin:at]
    if not word:
        raise ValueError(f"not understood: {text[begin:begin + 40]!r}")
    if text.startswith("(", at):
        values, at = _list(text, at + 1, ")")
        return (word, *values), at
    if text.startswith(" { ", at):
        at, fields = at + 3, {}
        while text[at] != "}":
            colon = text.index(": ", at)
            fields[text[at:colon]], at = _value(text, colon + 2)
            at += 2 if text.startswith(", ", at) else 1
        return (word, fields), at + 1
    if word.lstrip("-").isdigit():
        return int(word), at
    return {"true": True, "false": False}.get(word, word), at
