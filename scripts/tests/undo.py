"""Undoes edits by zztool, and looks whether the worlds are those of the other edits: each choice, each refusal, what a friend built on, one
pull, removals, a limit, an undoing that is undone; and sets of edits at random.

Usage: undo.py ZZTED ZZTOOL FOLDER COUNT     COUNT is how many sets are made at random
The edit files without some edits are made of records by editfile.py, and edits at random by edits.py, which share no code with the programs
under test."""

import os
import random
import re
import shutil
import subprocess
import sys

import editfile
import edits
import zed
import zzt
from naming import names_file
from zzt import Board, Stat, World

ZZTED, ZZTOOL, ROOM, COUNT = sys.argv[1], sys.argv[2], sys.argv[3], int(sys.argv[4])
passed = failed = 0


def is_so(what, told, wanted):
    global passed, failed
    if told == wanted:
        passed += 1
    else:
        failed += 1
        print(f"undo: FAILED: {what}: {str(told)[:400]!r}, and not {str(wanted)[:400]!r}")


def run(program, *words):
    """The status, what was printed, and what was complained without the line that names a file."""
    ran = subprocess.run([program, *map(str, words)], stdin=subprocess.DEVNULL, capture_output=True, text=True, cwd=ROOM)
    lines = ran.stderr.splitlines(keepends=True)
    if lines and names_file(lines[-1].removesuffix("\n"), [str(word) for word in words]):
        lines.pop()
    return f"{ran.returncode} {ran.stdout}{''.join(lines)}".strip()


def zzted(*words):
    return run(ZZTED, *words)


def undo(*words):
    return run(ZZTOOL, "undo", *words)


def at(name):
    return os.path.join(ROOM, name)


def bytes_of(name):
    if not os.path.exists(at(name)):
        return None
    with open(at(name), "rb") as it:
        return it.read()


def put(name, data):
    with open(at(name), "wb") as it:
        it.write(data)


def written(name):
    """A file's bytes, and which file it is: one that is written anew is another one, though its bytes be the same."""
    return os.stat(at(name)).st_ino, bytes_of(name)


def saved(name):
    """The world file of an edit file, saved by zzted, or why there is none."""
    said = zzted("save", "--big", "seen.zzt", name)
    return bytes_of("seen.zzt") if said.startswith("0 ") else said


def without(name, other, gone):
    """Writes an edit file without the edits of these stamps."""
    data = bytes_of(name)
    put(other, data[:12] + b"".join(record for stamp, record in editfile.records_of(data) if stamp not in gone))


def stamps_of(name):
    return [stamp for stamp, _ in editfile.records_of(bytes_of(name))]


def word(stamp):
    return f"{stamp[0]}.{stamp[1]}"


def edit(name, wanted, replica, *words):
    is_so(f"edit {name}", zzted("edit", name, replica, *words), f"0 {wanted} edits")


# ---- a world of two authors


def start():
    world = World(name=b"UNDO", flags=[b""] * 10)
    title = Board(name=b"Title", stats=[Stat(30, 12, cycle=1)], start=(30, 12))
    title.put(30, 12, (4, 0x1F))
    hall = Board(name=b"Hall", stats=[Stat(5, 5, cycle=1)], start=(5, 5))
    hall.put(5, 5, (4, 0x1F))
    for x in range(20, 25):
        hall.put(x, 10, (36, 0x0F))
        hall.stats.append(Stat(x, 10, cycle=3, program=b"@object %d\r#end\r:touch\rHalt!\r" % x))
    world.boards = [title, hall]
    return world


def prepare():
    """1.0 the world; 2.1 and 3.1 cells; 4.1 a board; 5.1 its name; 6.2 cells on it; 7.2 a stat there; 8.1 cells again."""
    put("start.zzt", zzt.write(start()))
    is_so("new", zzted("new", "start.zed", 7, "--from", "start.zzt"), "0 1 edits")
    shutil.copy(at("start.zed"), at("base.zed"))
    edit("base.zed", 2, 1, "cells", 1, 40, 20, 42, 22, 25, 3)
    edit("base.zed", 3, 1, "cells", 1, 41, 21, 44, 23, 21, 4)
    edit("base.zed", 4, 1, "board-add", "Loft")
    edit("base.zed", 5, 1, "board-name", 2, "Attic")
    edit("base.zed", 6, 2, "cells", 2, 3, 3, 5, 5, 22, 14)
    edit("base.zed", 7, 2, "stat-add", 2, 7, 7, 3)
    edit("base.zed", 8, 1, "cells", 1, 1, 1, 2, 2, 22, 9)


def undone(what, gone, *words, file="base.zed", replica=1, said=None):
    """Edits are undone: the world is that of the others, no edit is lost, and the new ones follow all others."""
    shutil.copy(at(file), at("mine.zed"))
    without(file, "others.zed", gone)
    told = undo("mine.zed", replica, *words)
    is_so(f"{what}: told", re.fullmatch(said or r"0 \d+ undone.*\n\d+ taken, \d+ edits(: \d+\.\d+( to \d+\.\d+)?)?", told) is not None or told, True)
    is_so(f"{what}: the world", saved("mine.zed"), saved("others.zed"))
    before, now = stamps_of(file), stamps_of("mine.zed")
    is_so(f"{what}: no edit is lost", now[: len(before)], before)
    last = max(time for time, _ in before)
    is_so(f"{what}: the new edits", now[len(before) :], [(last + 1 + n, replica) for n in range(len(now) - len(before))])
    return told


def choices():
    """What is chosen by stamps and filters."""
    undone("one stamp", {(8, 1)}, "8.1", said=r"0 1 undone\n1 taken, 9 edits: 9\.1")
    undone("two stamps", {(2, 1), (8, 1)}, "2.1", "8.1")
    undone("what was written over", {(2, 1)}, "2.1")
    undone("what wrote over", {(3, 1)}, "3.1")
    undone("by an author", {(6, 2), (7, 2)}, "--by", 2, said=r"0 2 undone\n\d+ taken, \d+ edits: 9\.1( to \d+\.1)?")
    undone("by an author, as another one", {(6, 2), (7, 2)}, "--by", 2, replica=3)
    undone("since", {(7, 2), (8, 1)}, "--since", 7)
    undone("until", {(2, 1), (3, 1)}, "--until", 3)
    undone("since and until", {(3, 1)}, "--since", 3, "--until", 3)
    undone("of a cell", {(2, 1), (3, 1)}, "--cell", 1, 41, 21)
    undone("of a board and an author", {(2, 1), (3, 1), (8, 1)}, "--board", 1, "--by", 1)
    undone("the last one", {(8, 1)}, "--last", 1)
    undone("the last two of an author", {(6, 2), (7, 2)}, "--by", 2, "--last", 2)
    undone("the last one of an author", {(7, 2)}, "--by", 2, "--last", 1)
    undone("the last two of those of a board", {(3, 1), (8, 1)}, "--board", 1, "--last", 2)
    undone("more than there are", {(2, 1), (3, 1), (8, 1)}, "--board", 1, "--last", 60000)
    undone("a stamp that passes no filter", set(), "8.1", "--by", 2, said=r"0 0 undone\n0 taken, 8 edits")
    undone("all but the world", set(stamps_of("base.zed")[1:]), "--since", 1, said=r"0 7 undone\n\d+ taken, \d+ edits: .*")


def others():
    """What a friend built on, what one built on oneself, and the trial."""
    held = written("base.zed")
    is_so("a board that a friend works on", undo("base.zed", 1, "4.1"), "1 zztool: NeededBy 6 2\nbuilt on it: 6 2  cells board 4.1:0 (3,3)-(5,5) normal(22) 0x0e")
    is_so("a trial too", undo("--dry-run", "base.zed", 1, "4.1").partition("\n")[0], "1 zztool: NeededBy 6 2")
    is_so("as the friend", undo("base.zed", 2, "4.1").partition("\n")[0], "1 zztool: NeededBy 5 1")
    is_so("nothing was written", written("base.zed"), held)
    undone("with others", {(4, 1)}, "--with-others", "4.1", said=r"0 1 undone, 1 of yours with them, 2 of others with them\n\d+ taken, \d+ edits: .*")
    told = undo("--dry-run", "--with-others", "base.zed", 1, "4.1")
    is_so("a trial", re.fullmatch(r'0 4 1  add board "Loft"\nwith it 5 1  .*\nwith it 6 2  .*\nwith it 7 2  .*\n1 undone, 1 of yours with them, 2 of others with them\n1 taken, 9 edits: 9\.1', told) is not None or told, True)
    is_so("a trial writes nothing", written("base.zed"), held)
    without("base.zed", "alone.zed", {(6, 2), (7, 2)})
    undone("one's own go with it", {(4, 1)}, "4.1", file="alone.zed", said=r"0 1 undone, 1 of yours with them\n1 taken, 7 edits: 9\.1")


def again():
    """An undoing is undone; what is undone twice is undone once."""
    undone("first", {(8, 1)}, "8.1")
    shutil.copy(at("mine.zed"), at("once.zed"))
    undone("the undoing", {(9, 1)}, "9.1", file="once.zed")
    is_so("all as before", saved("mine.zed"), saved("base.zed"))
    held = written("once.zed")
    is_so("undone already", undo("once.zed", 1, "8.1"), "0 1 undone\n0 taken, 9 edits")
    is_so("FILE isn't written", written("once.zed"), held)


def pulls():
    """What one pull brought."""
    shutil.copy(at("base.zed"), at("friend.zed"))
    edit("friend.zed", 9, 2, "cells", 1, 10, 10, 12, 12, 25, 3)
    edit("friend.zed", 10, 2, "cells", 2, 10, 10, 12, 12, 25, 3)
    shutil.copy(at("base.zed"), at("own.zed"))
    edit("own.zed", 9, 1, "cells", 1, 12, 12, 14, 14, 21, 3)
    shutil.copy(at("own.zed"), at("before.zed"))
    is_so("pull", zzted("merge", "own.zed", 7, "before.zed", "friend.zed")[:2], "0 ")
    undone("a pull", {(9, 2), (10, 2)}, "--edits-of", "own.zed", "--but", "before.zed", file="own.zed", said=r"0 2 undone\n\d+ taken, .*")
    is_so("the same world as before it", saved("mine.zed"), saved("before.zed"))
    undone("what FILE lacks counts for nothing", set(), "--edits-of", "own.zed", "--but", "before.zed", file="base.zed", said=r"0 0 undone\n0 taken, 8 edits")
    undone("a world that the other lacks", {stamp for stamp in stamps_of("base.zed")[1:]}, "--edits-of", "base.zed", "--but", "start.zed", file="base.zed")


def removals():
    """A removed stat or board comes back with its text, so that lines that a friend still adds are in it."""
    shutil.copy(at("start.zed"), at("removed.zed"))
    edit("removed.zed", 2, 2, "stat-remove", 1, 2)
    told = undone("a stat", {(2, 2)}, "2.2", file="removed.zed", said=r"0 1 undone, 3 stats made anew\n\d+ taken, \d+ edits: 3\.1 to \d+\.1")
    shutil.copy(at("start.zed"), at("late.zed"))
    edit("late.zed", 2, 3, "insert", 1, 2, 11, "#lock|")
    edit("late.zed", 3, 3, "insert", 1, 4, 11, "#zap touch|")
    is_so("merge", zzted("merge", "both.zed", 7, "mine.zed", "late.zed")[:2], "0 ")
    back = zzt.read(saved("both.zed"))
    is_so("a friend's line in it", back.boards[1].stats[2].program, b"@object 21\r#lock\r#end\r:touch\rHalt!\r")
    is_so("and in one that was made anew", back.boards[1].stats[4].program, b"@object 23\r#zap touch\r#end\r:touch\rHalt!\r")
    shutil.copy(at("start.zed"), at("removed.zed"))
    edit("removed.zed", 2, 2, "board-remove", 1)
    undone("a board", {(2, 2)}, "2.2", file="removed.zed")
    is_so("merge", zzted("merge", "both.zed", 7, "mine.zed", "late.zed")[:2], "0 ")
    back = zzt.read(saved("both.zed"))
    is_so("a friend's line on it", back.boards[1].stats[2].program, b"@object 21\r#lock\r#end\r:touch\rHalt!\r")
    shutil.copy(at("base.zed"), at("removed.zed"))
    edit("removed.zed", 9, 3, "board-remove", 2)
    undone("a board that others worked on", {(9, 3)}, "9.3", file="removed.zed")
    undone("a removal and an edit of it", {(9, 3), (6, 2)}, "9.3", "6.2", file="removed.zed")


def texts():
    """Bytes that were put in go, and those that were deleted come back where they were."""
    shutil.copy(at("start.zed"), at("typed.zed"))
    edit("typed.zed", 2, 1, "insert", 1, 1, 11, "#one|")
    edit("typed.zed", 3, 2, "insert", 1, 1, 13, "two")
    is_so("delete", zzted("edit", "typed.zed", 1, "delete", 1, 1, 0, 20)[:2], "0 ")
    is_so("insert", zzted("edit", "typed.zed", 2, "insert", 1, 1, 3, "three")[:2], "0 ")
    deleted, last = stamps_of("typed.zed")[3:-1], stamps_of("typed.zed")[-1]
    one, two = [(2, 1)], [(3, 2)]
    for gone in (one, two, deleted, deleted[:2], [last], deleted + two, one + deleted, [*one, last], [*two, last], [*deleted[1:], last]):
        undone(f"typed {gone}", set(gone), "--with-others", *map(word, gone), file="typed.zed", replica=3)


def limits():
    """Two authors at the limit of stats merge: the world can't be saved, and undoing mends that."""
    world = start()
    world.boards[1].stats = world.boards[1].stats[:1] + [Stat(1 + n % 60, 1 + n // 60, cycle=1) for n in range(149)]
    put("many.zzt", zzt.write(world))
    is_so("new", zzted("new", "many.zed", 7, "--from", "many.zzt"), "0 1 edits")
    for name, replica in (("one.zed", 1), ("two.zed", 2)):
        shutil.copy(at("many.zed"), at(name))
        edit(name, 2, replica, "stat-add", 1, 50, 20 + replica, 3)
    is_so("merge", zzted("merge", "over.zed", 7, "one.zed", "two.zed")[:2], "0 ")
    is_so("over", zzted("save", "over.zzt", "over.zed").partition("\n")[0], "1 zzted: StatsOver 1 151")
    undone("over a limit", {(2, 2)}, "2.2", file="over.zed", said=r"0 1 undone\n1 taken, 4 edits: 3\.1")
    held = written("over.zed")
    is_so("nothing that mends it", undo("over.zed", 1, "--last", 0), "1 zztool: StatsOver 1 151")
    is_so("FILE isn't written", written("over.zed"), held)


def refused():
    """Refusals in their order; nothing is written."""
    held = {name: written(name) for name in ("base.zed", "own.zed", "over.zed", "once.zed")}
    put("bad.zed", b"nothing")
    put("foreign.zed", editfile.head(8))
    rows = [
        ("replica 0", "BadEdit Stamp", ("none.zed", 0, "2.1")),
        ("no FILE", "File", ("none.zed", 1, "2.1")),
        ("FILE is none", "Magic", ("bad.zed", 1, "2.1")),
        ("no board", "NoBoard", ("base.zed", 1, "--board", 9)),
        ("no board, before a cell", "NoBoard", ("base.zed", 1, "--board", 9, "--cell", 0, 1, 1)),
        ("a cell of no board", "NoBoard", ("base.zed", 1, "--cell", 9, 1, 1)),
        ("no board, before a stamp", "NoBoard", ("base.zed", 1, "9.9", "--board", 9)),
        ("no NEW", "File", ("--edits-of", "none.zed", "--but", "base.zed", "base.zed", 1)),
        ("no OLD", "File", ("--edits-of", "base.zed", "--but", "none.zed", "base.zed", 1)),
        ("NEW of another world", "OtherWorld", ("--edits-of", "foreign.zed", "--but", "none.zed", "base.zed", 1)),
        ("OLD of another world", "OtherWorld", ("--edits-of", "base.zed", "--but", "foreign.zed", "base.zed", 1)),
    ]
    for what, wanted, words in rows:
        is_so(what, undo(*words), f"1 zztool: {wanted}")
    for stamp in ("9.1", "2.2", "1.0", "0.0"):
        is_so(f"no edit {stamp}", undo("base.zed", 1, "2.1", stamp), f"1 zztool: NoSuch\n{stamp} is no edit that can be undone: 'log' has the stamps")
    without("base.zed", "held.zed", {(4, 1)})
    is_so("a held edit", undo("held.zed", 1, "6.2").partition("\n")[0], "1 zztool: NoSuch")
    undone("held edits by a filter", {(5, 1), (6, 2), (7, 2)}, "--board", 1, "--by", 2, file="held.zed", said=r"0 0 undone\n0 taken, 7 edits")
    data = bytes_of("base.zed")
    put("late.zed", data + editfile.record((2**48 - 1, 9), editfile.records_of(data)[1][1][12:]))
    is_so("no time is left", undo("late.zed", 1, "8.1"), "1 zztool: ClockSpent")
    is_so("nothing was written", {name: written(name) for name in held}, held)


# ---- at random


def at_random(seed, made):
    """Some of the first edits of all kinds by three authors, and a set of them that is undone."""
    dice = random.Random(seed)
    rows = made[:1] + [edit for edit in made[1 : 10 + dice.randrange(len(made) - 10)] if dice.random() < 0.8]
    # edits of things that aren't there then are held
    put("random.zed", zed.spelled(7, rows))
    if not isinstance(saved("random.zed"), bytes):
        return
    stamps = stamps_of("random.zed")[1:]
    listed = subprocess.run([ZZTOOL, "log", "random.zed"], capture_output=True, text=True, cwd=ROOM).stdout.splitlines()
    there = [stamp for stamp, line in zip(stamps, listed[1:]) if not line.startswith("held ")]
    if dice.random() < 0.5:
        gone = set(dice.sample(there, min(len(there), 1 + dice.randrange(6))))
        words = map(word, sorted(gone))
    else:
        replica, since = 1 + dice.randrange(3), dice.randrange(2, 2 + len(stamps) // 3)
        gone = {stamp for stamp in stamps if stamp[1] == replica and stamp[0] >= since}
        words = ("--by", replica, "--since", since)
    without("random.zed", "others.zed", gone)
    if isinstance(saved("others.zed"), bytes):
        undone(f"at random {seed}", gone, "--with-others", *words, file="random.zed", replica=1 + dice.randrange(4))


def main():
    prepare()
    choices()
    others()
    again()
    pulls()
    removals()
    texts()
    limits()
    refused()
    made = edits.AllKinds(400).edits
    for seed in range(COUNT):
        at_random(seed, made)
    print(f"undo: {passed} passed, {failed} failed")
    return 1 if failed else 0


sys.exit(main())
