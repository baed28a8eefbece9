"""What zztool lint should tell of a world file, by docs/LINT.md: nothing of Wergozil's own code is used here.

Usage: lint.py tell WORLD        prints the lines
       lint.py make SEED WORLD   writes a world with faults by chance
"""

import random
import re
import sys
from pathlib import Path

import oop
import zzt

ELEMENTS = (
    "empty . . monitor player ammo torch gem key door scroll passage duplicator bomb energizer star clockwise counter bullet water forest"
    " solid normal breakable boulder sliderns sliderew fake invisible blinkwall transporter line ricochet . bear ruffian object slime shark"
    " spinninggun pusher lion tiger . head segment"
).replace(".", "_").split()
WANTING = {4, *range(10, 14), *range(15, 19), 29, 30, *range(34, 43), 44, 45}
MONITOR, OBJECT = 3, 36
NAMING = re.compile(rb"#(?: *)(send|zap|restore)(?![0-9A-Za-z:_]) *([0-9A-Za-z:_]*)", re.IGNORECASE)


def element(number):
    word = ELEMENTS[number] if number < len(ELEMENTS) else "_"
    return f"{word.strip('_')}({number})"


def quoted(text):
    def shown(byte):
        if chr(byte) in '"\\':
            return "\\" + chr(byte)
        if byte == 13:
            return "\\r"
        return chr(byte) if 32 <= byte < 127 else f"\\x{byte:02x}"

    return '"' + "".join(shown(byte) for byte in text) + '"'


def has_label(program, label):
    return re.search(rb"\r[:']" + re.escape(label) + rb"(?![A-Za-z_])", program, re.IGNORECASE)


def lost_labels(programs, program):
    """The places of the commands that name a label which no program has, and these labels."""
    for line in re.finditer(rb"[^\r]*\r?", program):
        if line.group()[:1] not in (b"#", b"/", b"?"):
            continue
        for named in NAMING.finditer(line.group()):
            message = named.group(2)
            label = message.split(b":", 1)[1] if b":" in message else message
            if label and label.lower() != b"restart" and not any(has_label(other, label) for other in programs):
                yield line.start() + named.start(), label


def is_utf8(text):
    """Whether bytes are UTF-8, and not only those of shades and boxes in code page 437."""
    try:
        text.decode()
    except UnicodeDecodeError:
        return False
    return any(byte > 127 and not 0xB0 <= byte <= 0xDF for byte in text)


def is_known(programs, label):
    return label.lower() == b"restart" or any(has_label(program, label) for program in programs)


def has_name(program, name):
    read = re.match(rb"@ *((?![0-9])[0-9A-Za-z:_]*)", program)
    return read and read.group(1).upper() == name


def of_command(programs, flags, said):
    """What is found of a line of commands."""
    for at, what, word in said.found:
        if what in ("direction", "kind", "counter"):
            yield f"names no {what.replace('kind', 'kind of tile')} at {at}"
        if what == "flag" and word not in flags:
            yield f"asks at {at} for a flag that nothing sets  {quoted(word)}"
        if what == "name" and not any(has_name(program, word) for program in programs):
            yield f"binds at {at} to a name that no program of its board has  {quoted(word)}"
        if what == "unknown" and not is_known(programs, word.split(b":", 1)[1] if b":" in word else word):
            yield f"names at {at} neither a command nor a label of its board  {quoted(word)}"


def shown(line):
    if line[:1] == b"$":
        return line[1:]
    return line.split(b";", 1)[1] if line[:1] == b"!" and b";" in line else line


def of_lines(programs, flags, program):
    """What is found of the lines of a program, one after the other."""
    lines = list(oop.lines(program))
    said = dict(oop.commands(program))
    # the lines between which no others stand that are read
    rest = [(at, line) for at, line in lines if line and line[:1] not in (b":", b"'", b"@")]
    texts = {at for at, line in rest if line[0] and line[:1] not in (b"#", b"/", b"?")}
    for at, line in lines:
        label = line[1:].split(b";", 1)[0] if line[:1] == b"!" and line[:2] != b"!-" else b""
        label = label.split(b":", 1)[1] if b":" in label else label
        if label and not is_known(programs, label):
            yield f"offers at {at} a label that no program of its board has  {quoted(label)}"
        if line[:1] == b"@" and program[:1] != b"@":
            yield f"program has a name below its first line at {at}"
        if at in texts and len(shown(line)) > 42:
            i = [place for place, _ in rest].index(at)
            if any(0 <= j < len(rest) and rest[j][0] in texts for j in (i - 1, i + 1)):
                yield f"program has at {at} a line of {len(shown(line))} columns, over 42"
        if at in said:
            yield from of_command(programs, flags, said[at])


def of_program(programs, flags, program):
    if program and not program.endswith(b"\r"):
        yield "program has no end of line"
    first = program.find(10)
    if first >= 0:
        yield f"program has a line feed at {first}"
    if is_utf8(program):
        yield "program is UTF-8, not code page 437"
    for at, label in lost_labels(programs, program):
        yield f"names at {at} a label that no program of its board has  {quoted(label)}"
    yield from of_lines(programs, flags, program)


def of_stat(number, board, stat, programs, flags):
    tile = board.at(stat.x, stat.y)
    if tile is None:
        yield "is outside the table"
    elif tile[0] != MONITOR and tile[0] not in WANTING:
        yield "has no use for a stat"
    if tile is not None and tile[0] == zzt.PASSAGE and stat.p3 == number:
        yield "leads to its own board"
    if isinstance(stat.program, bytes):
        yield from of_program(programs, flags, stat.program)


def of_tiles(number, board):
    elements = [tile[0] for tile in board.tiles]
    for i, tile in enumerate(elements):
        spot = f"board {number} ({i % zzt.COLUMNS + 1},{i // zzt.COLUMNS + 1})  {element(tile)}"
        if tile > 53 and tile not in elements[:i]:
            yield f"{spot}  element that ZZT doesn't know, tiles {elements.count(tile)}"
        if tile in WANTING and not any((stat.x, stat.y) == (i % zzt.COLUMNS + 1, i // zzt.COLUMNS + 1) for stat in board.stats):
            yield f"{spot}  has no stat"


def of_board(number, board, length, flags):
    if length > 20000:
        yield f"board {number}  body of {length} bytes, over 20000"
    if len(board.name) > 34:
        yield f"board {number}  name of {len(board.name)} bytes, over 34"
    if is_utf8(board.name):
        yield f"board {number}  name is UTF-8, not code page 437"
    players = sum(tile[0] == zzt.PLAYER for tile in board.tiles)
    if players != 1:
        yield f"board {number}  {players} players" if players else f"board {number}  no player"
    for side, exit in zip(("north", "south", "west", "east"), board.exits):
        if exit and exit == number:
            yield f"board {number}  exit {side} leads to its own board"
    yield from of_tiles(number, board)
    programs = [stat.program for stat in board.stats if isinstance(stat.program, bytes)]
    for i, stat in enumerate(board.stats):
        tile = board.at(stat.x, stat.y)
        spot = f"board {number} stat {i} ({stat.x},{stat.y})  {element(tile[0]) if tile else '-'}"
        for what in of_stat(number, board, stat, programs, flags):
            yield f"{spot}  {what}"


def of_file(data):
    """The lines of a world file, by board, and that of the whole file."""
    at = 512
    world = zzt.read(data)
    own = [stat.program for board in world.boards for stat in board.stats if isinstance(stat.program, bytes)]
    flags = set(world.flags) | {word[:20] for program in own for word in oop.sets(program)}
    for number, board in enumerate(world.boards):
        length = data[at] + 256 * data[at + 1]
        yield from of_board(number, board, length, flags)
        at += 2 + length
    if at > 350000:
        yield f"world  file of {at} bytes, over 350000"
    if len(world.name) > 8:
        yield f"world  name of {len(world.name)} bytes, over 8"
    if is_utf8(world.name):
        yield "world  name is UTF-8, not code page 437"


LINES = [
    *(b"#send ", b"#SEND  ", b"#zap ", b"#Restore ", b"# send ", b"#sendx ", b"#if x send ", b"say #send ", b" #send ", b"#send\r"),
    *(b"#end", b":", b"'", b"@", b"/n#send ", b"hello ", b"#zap x ", b"::", b"?#zap ", b"#go n#zap b:a#send ", b"#if x # Restore ", b":x #zap "),
    *(b"#", b"!", b"!-", b"$", b"@ ", b"#bind ", b"#bind", b"#set ", b"#if ", b"#if not ", b"#if any ", b"#if blocked ", b"#IF contact then "),
    *(b"#take ammo 5 ", b"#give ", b"#take ", b"#try ", b"#try n ", b"#go ", b"/", b"?", b"/n", b"?rndp ", b"#walk cw ", b"#put n ", b"#put "),
    *(b"#become ", b"#change red ", b"#change gem ", b"#shoot ", b"#then if ", b"#char ", b"#play c#d ", b"#clear ", b"##", b"/n/"),
    *(b"#if not not ", b"\r\r", b"!foo;", b"!x:", b"!;"),
]
WORDS = [
    *(b"foo", b"Foo", b"foo1", b"foo_", b"restart", b"all:foo", b"all:Bar", b"bar", b"others:", b":", b"a:b:foo", b"b:foo", b"", b"fo\xfe", b"9foo"),
    *(b"red key", b"bleu key", b"nroth", b"opp n", b"seek 3", b"gold 5", b"ammo 5", b"player", b"thing", b"abcdefghijklmnopqrstuvwxyz"),
    *(b"fo\xc3\xa9", b"\xc4\xb3", b"n#on"),
]
LONG = [b";Take this, and that is all that there is to be said of it", b" and more than fits in a line, as all may see who look at it"]
TAILS = [b""] * 9 + [b" gem", b" n"] + LONG
ENDS = [b"\r"] * 12 + [b" x\r", b"\n\r", b"\n", b" "]


def made_program(chance):
    return b"".join(b"".join(chance.choice(parts) for parts in (LINES, WORDS, TAILS, ENDS)) for _ in range(chance.randrange(6)))


def made_board(chance, number, boards):
    name = chance.choice([b"B" * 5] * 5 + [b"B" * 34, b"B" * 35, b"B" * 50, b"\xc9\xcd\xbb", b"Caf\xc3\xa9", b"\xc4\xb3"])
    board = zzt.Board(name=name, exits=[chance.choice([0, 0, number, chance.randrange(boards)]) for _ in range(4)])
    usual = [0, 0, 0, 21, 22, 22, 4, 5, OBJECT, 11, 41, chance.randrange(256), chance.randrange(40, 70)]
    for _ in range(chance.randrange(12)):
        x, y = chance.randint(1, zzt.COLUMNS), chance.randint(1, zzt.ROWS)
        board.fill(x, y, min(x + chance.randrange(3), zzt.COLUMNS), min(y + chance.randrange(2), zzt.ROWS), (chance.choice(usual), chance.randrange(256)))
    here = [(i % zzt.COLUMNS + 1, i // zzt.COLUMNS + 1) for i, tile in enumerate(board.tiles) if tile[0]]
    for i in range(chance.randint(1, 9)):
        x, y = chance.choice(here + [(0, 0), (61, 1), (1, 26), (30, 12)])
        board.stats.append(zzt.Stat(x, y, p3=chance.randrange(boards), program=made_program(chance)))
        if i > 1 and board.stats[1].program and chance.random() < 0.2:
            board.stats[i].program = 1
    if chance.random() < 0.1:
        board.stats[-1].program = b"x" * chance.randrange(19000, 22000) + b"\r"
    return board


def made_world(chance):
    boards = chance.randint(1, 4)
    flags = [chance.choice([b""] * 9 + [b"FOO"]) for _ in range(10)]
    name = chance.choice([b"", b"W" * 6, b"W" * 8, b"W" * 9, b"W" * 20, b"\xc2\xa2"])
    return zzt.World(name=name, flags=flags, boards=[made_board(chance, number, boards) for number in range(boards)])


def main(words):
    if words[0] == "tell":
        for line in of_file(Path(words[1]).read_bytes()):
            print(line)
    else:
        Path(words[2]).write_bytes(zzt.write(made_world(random.Random(int(words[1])))))


if __name__ == "__main__":
    main(sys.argv[1:])
