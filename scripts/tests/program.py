"""Prints programs of stats as texts and sets them to texts by zztool, and looks whether the texts and the worlds are those that they should
be.

Usage: program.py ZZTED ZZTOOL FOLDER COUNT     COUNT is how many programs are made at random
The characters are those that Python knows as code page 437, and the worlds are read and written by zzt.py, which shares no code with the
programs under test."""

import os
import random
import re
import shutil
import subprocess
import sys

import zzt
from naming import refusal_in
from zzt import Board, Stat, World

ZZTED, ZZTOOL, ROOM, COUNT = sys.argv[1], sys.argv[2], sys.argv[3], int(sys.argv[4])
SOME = r"[1-9][0-9]* taken, [0-9]+ edits: [0-9.]+( to [0-9.]+)?"
NONE = r"0 taken, [0-9]+ edits"
passed = failed = 0


def is_so(what, told, wanted):
    global passed, failed
    if told == wanted:
        passed += 1
    else:
        failed += 1
        print(f"program: FAILED: {what}: {str(told)[:300]!r}, and not {str(wanted)[:300]!r}")


def at(name):
    return os.path.join(ROOM, name)


def bytes_of(name):
    with open(at(name), "rb") as it:
        return it.read()


def put(name, data):
    with open(at(name), "wb") as it:
        it.write(data)


def zzted(*words):
    ran = subprocess.run([ZZTED, *map(str, words)], stdin=subprocess.DEVNULL, capture_output=True, text=True, cwd=ROOM)
    return f"{ran.returncode} {ran.stdout}{refusal_in(ran.stderr, words)}".strip()


def zztool(*words):
    """The status of `zztool program`, its output and the line of its refusal, as bytes."""
    ran = subprocess.run([ZZTOOL, "program", *map(str, words)], stdin=subprocess.DEVNULL, capture_output=True, cwd=ROOM)
    return ran.returncode, ran.stdout, refusal_in(ran.stderr.decode(), words).encode()


def copy(name, other):
    shutil.copy(at(name), at(other))


# ---- what is wanted


def prints(what, text, *words):
    is_so(f"print {what}", zztool(*words), (0, text.encode(), b""))


def sets(what, wanted, *words):
    status, said, complained = zztool("--set", *words)
    fits = re.fullmatch(wanted + "\n", said.decode()) is not None
    is_so(f"set {what}", (status, fits or said, complained), (0, True, b""))


def refuses(what, wanted, *words):
    is_so(f"refuse {what}", zztool(*words), (1, b"", f"zztool: {wanted}\n".encode()))


def holds(what, name, world):
    """Wants an edit file to show a world."""
    is_so(f"save {what}", zzted("save", "--big", "seen.zzt", name)[:1], "0")
    is_so(what, zzt.read(bytes_of("seen.zzt")), zzt.normal(world))


# ---- characters

PICTURES = "␀☺☻♥♦♣♠•◘○◙♂♀\n♫☼►◄↕‼¶§▬↨↑↓→←∟↔▲▼"
CHARACTERS = [*PICTURES, *bytes(range(32, 127)).decode("cp437"), "⌂", *bytes(range(128, 256)).decode("cp437")]


def text_of(program):
    return "".join(CHARACTERS[byte] for byte in program)


# ---- a world with programs


def program_at_random(chance, most=300):
    """Lines as authors write them, or any bytes."""
    if chance.random() < 0.5:
        return bytes(chance.randrange(256) for _ in range(chance.randrange(1, most)))
    lines = [b"@thing", b"#end", b":touch", b"/n?e", b"$Hello", b"", b"#give gems 5", b"!yes;Take it", b"'note", b"\x01\x02\xe1"]
    return b"\r".join(chance.choice(lines) for _ in range(chance.randrange(1, 20)))


def world_of(programs):
    """A world whose second board has a stat for each program: its bytes, or the number of a lower stat, whose program it shares."""
    title = Board(name=b"Title", stats=[Stat(30, 12, cycle=1)], start=(30, 12))
    title.put(30, 12, (4, 0x1F))
    hall = Board(name=b"Hall", stats=[Stat(5, 5, cycle=1)], start=(5, 5))
    hall.put(5, 5, (4, 0x1F))
    for number, program in enumerate(programs, 1):
        hall.put(10 + number, 10, (36, 0x0F))
        hall.stats.append(Stat(10 + number, 10, cycle=3, program=program))
    return World(name=b"PROGRAMS", boards=[title, hall])


def begins(name, world):
    put("made.zzt", zzt.write(world))
    if os.path.exists(at(name)):
        os.remove(at(name))
    is_so("new", zzted("new", name, 7, "--from", "made.zzt"), "0 1 edits")


def changed(world, number, program):
    """The world with another program for a stat of its second board."""
    world = world.copy()
    stats = world.boards[1].stats
    owner = stats[number].program if isinstance(stats[number].program, int) else number
    stats[owner].program = program
    if not program:
        for stat in stats:
            if stat.program == owner:
                stat.program = b""
    return world


# ---- the tests


def at_random(seed):
    """A program is printed, set again, and set to another one; all else stays."""
    chance = random.Random(seed)
    first, other, new = (program_at_random(chance) for _ in range(3))
    world = world_of([first, other, 1, 2])
    name = f"w{seed}.zed"
    begins(name, world)
    number = chance.randrange(1, 5)
    shown = [first, other, first, other]
    for it in range(1, 5):
        prints(f"{seed}: stat {it}", text_of(shown[it - 1]), 1, it, name)
    put(f"same{seed}.txt", text_of(shown[number - 1]).encode())
    put(f"new{seed}.txt", text_of(new).encode())
    held = bytes_of(name)
    sets(f"{seed}: the same", NONE, name, 3, 1, number, f"same{seed}.txt")
    is_so(f"{seed}: the same writes nothing", bytes_of(name), held)
    sets(f"{seed}: another", SOME if new != shown[number - 1] else NONE, name, 3, 1, number, f"new{seed}.txt")
    # what the file had stands in front of the new edits
    is_so(f"{seed}: what was there", bytes_of(name)[: len(held)], held)
    prints(f"{seed}: another", text_of(new), 1, number, name)
    sets(f"{seed}: another again", NONE, name, 4, 1, number, f"new{seed}.txt")
    holds(f"{seed}: the world", name, changed(world, number, new))


def none():
    """A stat without a program gets one, and one that has a program loses it."""
    world = world_of([b"", b"#end\r", 2])
    begins("none.zed", world)
    put("empty.txt", b"")
    put("some.txt", b"#end\n")
    prints("no program", "", 1, 1, "none.zed")
    sets("no program", NONE, "none.zed", 3, 1, 1, "empty.txt")
    copy("none.zed", "one.zed")
    sets("a first program", SOME, "one.zed", 3, 1, 1, "some.txt")
    holds("a first program", "one.zed", changed(world, 1, b"#end\r"))
    copy("none.zed", "lost.zed")
    sets("no program any more", SOME, "lost.zed", 3, 1, 3, "empty.txt")
    holds("no program any more", "lost.zed", changed(world, 3, b""))


def ends_of_lines():
    """A line of a text ends in each of three ways; a mark of the order of bytes is left out."""
    begins("ends.zed", world_of([b"@a\r\r#end\r\r\rb"]))
    for number, text in enumerate((b"@a\n\n#end\n\n\nb", b"@a\r\n\r\n#end\r\n\r\n\r\nb", b"@a\r\r#end\r\r\rb", b"\xef\xbb\xbf@a\r\n\n#end\r\n\r\rb")):
        put(f"ends{number}.txt", text)
        sets(f"ends of lines {number}", NONE, "ends.zed", 3, 1, 1, f"ends{number}.txt")


def two_authors(seed):
    """Two authors change different lines of a program, and take lines away and write new ones: all of it stays, in any order of files."""
    chance = random.Random(seed)
    lines = [f"line {it} of {chance.randrange(1000)}" for it in range(chance.randrange(8, 30))]
    base, both = f"b{seed}.zed", list(lines)
    begins(base, world_of(["\r".join(lines).encode()]))
    ones, others = list(lines), list(lines)
    # every third line is the one's, and the line behind it the other's
    for it in range(0, len(lines) - 2, 3):
        for mine, where in ((ones, it), (others, it + 1)):
            kind = chance.randrange(4)
            new = [None, lines[where] + "!", "", f"{lines[where]}\rnew {where}"][kind]
            if new is not None:
                mine[where] = both[where] = new
    for name, mine, replica in ((f"one{seed}", ones, 3), (f"two{seed}", others, 4)):
        copy(base, name + ".zed")
        put(name + ".txt", text_of("\r".join(mine).encode()).encode())
        sets(f"{seed}: {name}", SOME if mine != lines else NONE, name + ".zed", replica, 1, 1, name + ".txt")
    wanted = text_of("\r".join(both).encode())
    prints(f"{seed}: both", wanted, 1, 1, f"one{seed}.zed", f"two{seed}.zed")
    prints(f"{seed}: both, the other way round", wanted, 1, 1, f"two{seed}.zed", f"one{seed}.zed")


def bad_texts(seed):
    """What no program has is told with its line and column, and nothing is written."""
    chance = random.Random(seed)
    text = text_of(program_at_random(chance, 120))
    where = chance.randrange(len(text) + 1)
    bad = chance.choice((b"\t", b"\x01", "♪".encode(), "€".encode(), "Ā".encode(), b"\xff", b"\xc3", b"\x80", b"\xe2\x82", "�".encode(), b"\x7f", b"\0"))
    front = text[:where]
    put(f"bad{seed}.txt", front.encode() + bad + text[where:].encode())
    line, column = front.count("\n") + 1, len(front) - (front.rfind("\n") + 1) + 1
    refuses(f"{seed}: {bad!r}", f"bad{seed}.txt:{line}:{column}: BadText", "--set", "none.zed", 3, 1, 1, f"bad{seed}.txt")


def limits():
    """The longest program that a board has room for, and one byte more."""
    world = world_of([b"x"])
    begins("long.zed", world)
    room = 32767 - len(zzt.write_board(world.boards[1], 0, 255)) + 1
    put("long.txt", b"y" * room)
    put("longer.txt", b"y" * (room + 1))
    refuses("a program too long", "BoardOver 1 32768", "--set", "long.zed", 3, 1, 1, "longer.txt")
    sets("the longest program", SOME, "long.zed", 3, 1, 1, "long.txt")
    holds("the longest program", "long.zed", changed(world, 1, b"y" * room))


def main():
    for seed in range(COUNT):
        at_random(seed)
    none()
    ends_of_lines()
    for seed in range(COUNT):
        two_authors(seed)
        bad_texts(seed)
    limits()
    print(f"program: {passed} passed, {failed} failed")


if __name__ == "__main__":
    main()
