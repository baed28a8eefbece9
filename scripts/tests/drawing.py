"""Draws in world files as an editor would, has zztool take them, and looks whether the world comes out that was drawn.

Usage: drawing.py ZZTED ZZTOOL FOLDER COUNT     COUNT is how many worlds are drawn at random
The world files are read and written by zzt.py, which shares no code with the programs under test."""

import os
import random
import shutil
import subprocess
import sys
from concurrent.futures import ThreadPoolExecutor

import moves
import zzt
from moves import add_stat, change_stat, remove_stat
from naming import refusal_in
from zzt import Board, Stat, World

ZZTED, ZZTOOL, ROOM, COUNT = sys.argv[1], sys.argv[2], sys.argv[3], int(sys.argv[4])
passed = failed = 0


def is_so(what, told, wanted):
    global passed, failed
    if told == wanted:
        passed += 1
    else:
        failed += 1
        print(f"drawing: FAILED: {what}: {str(told)[:300]}, and not {str(wanted)[:300]}")


# the note of the last command that was carried out
note = ""


def run(program, *words):
    """The status and what was printed; of a refusal also its lines."""
    global note
    ran = subprocess.run([program, *map(str, words)], stdin=subprocess.DEVNULL, capture_output=True, text=True, cwd=ROOM)
    if ran.returncode == 0:
        note = ran.stderr
        return f"0 {ran.stdout}".strip()
    return f"{ran.returncode} {ran.stdout}{refusal_in(ran.stderr, words)}".strip()


def zzted(*words):
    return run(ZZTED, *words)


def zztool(*words):
    return run(ZZTOOL, *words)


def at(name):
    return os.path.join(ROOM, name)


def bytes_of(name):
    if not os.path.exists(at(name)):
        return None
    with open(at(name), "rb") as it:
        return it.read()


def put(name, data):
    with open(at(name), "wb") as it:
        it.write(data)


def written(name):
    """A file's bytes, and which file it is: one that is written anew is another one, though its bytes be the same."""
    return os.stat(at(name)).st_ino, bytes_of(name)


def world_of(name):
    """The world of an edit file, saved by zzted."""
    said = zzted("save", "--big", "seen.zzt", name)
    if not said.startswith("0 "):
        return said
    return zzt.read(bytes_of("seen.zzt"))


# ---- a world with something of everything


def start():
    world = World(ammo=3, name=b"START", flags=[b"OPEN", *[b""] * 9], current=1)
    title = Board(name=b"Title", stats=[Stat(30, 12, cycle=1)], start=(30, 12))
    title.fill(1, 1, 60, 25, (22, 0x0E))
    title.put(30, 12, (4, 0x1F))
    hall = Board(name=b"Hall", exits=[0, 2, 0, 3], message=b"Hello", start=(5, 5), time_limit=90, stats=[Stat(5, 5, cycle=1)])
    hall.fill(1, 1, 60, 25, (0, 0))
    hall.put(5, 5, (4, 0x1F))
    hall.put(20, 10, (36, 0x0F))
    hall.put(22, 10, (36, 0x0D))
    hall.put(24, 10, (36, 0x0C))
    hall.put(40, 12, (11, 0x1F))
    hall.put(10, 20, (41, 0x0C))
    hall.stats += [
        Stat(20, 10, cycle=3, p1=2, program=b"@guard\r#end\r:touch\rHalt!\r#end\r"),
        Stat(22, 10, cycle=3, p1=2, program=b"@twin\r/e/w\r#restart\r"),
        Stat(24, 10, cycle=3, p1=2, program=2),
        Stat(40, 12, p3=2),
        Stat(10, 20, cycle=2, p1=5),
        Stat(11, 20, cycle=2, follower=5),
    ]
    cave = Board(name=b"Cave", dark=1, exits=[1, 0, 0, 0], stats=[Stat(2, 2, cycle=1)], start=(2, 2))
    cave.fill(1, 1, 60, 25, (21, 0x08))
    cave.put(2, 2, (4, 0x1F))
    tower = Board(name=b"Tower", exits=[0, 0, 1, 0], stats=[Stat(9, 9, cycle=1), Stat(8, 8, program=b"")], start=(9, 9))
    tower.put(9, 9, (4, 0x1F))
    world.boards = [title, hall, cave, tower]
    return world


def prepare():
    put("start.zzt", zzt.write(start()))
    is_so("new", zzted("new", "start.zed", 7, "--from", "start.zzt"), "0 1 edits")
    is_so("edit", zzted("edit", "start.zed", 5, "cells", 1, 50, 20, 52, 22, 25, 3), "0 2 edits")
    is_so("edit", zzted("edit", "start.zed", 5, "insert", 1, 1, 7, "#char 33|"), "0 3 edits")
    # what others did meanwhile, who know of nothing that is drawn
    shutil.copy(at("start.zed"), at("others.zed"))
    is_so("others", zzted("edit", "others.zed", 9, "cells", 1, 34, 16, 35, 17, 19, 9), "0 4 edits")
    is_so("others", zzted("edit", "others.zed", 9, "insert", 1, 2, 0, "#lock|"), "0 5 edits")


# ---- one change each


def change(world, path, value):
    """Sets a register, told as `board.1.stat.2.p1`."""
    thing, words = world, path.split(".")
    while len(words) > 1:
        word = words.pop(0)
        if word == "board":
            thing = thing.boards[int(words.pop(0))]
        elif word == "stat":
            thing = thing.stats[int(words.pop(0))]
        elif word in ("exits", "keys", "flags"):
            getattr(thing, word)[int(words[0])] = value
            return
    setattr(thing, words[0], value)


REGISTERS = [
    ("ammo", 77), ("gems", 5), ("keys.0", 1), ("keys.6", 1), ("health", -3), ("current", 3), ("torches", 2), ("torch_ticks", 4), ("energizer", 9),
    ("score", 30000), ("name", b"OTHER NAME, TWENTY B"), ("flags.0", b""), ("flags.9", b"LAST"), ("passed", 12), ("hundredths", 99), ("saved", 1),
    # renamed, a board is still the same one: a planner that knows boards by their names alone would make more than one edit
    ("board.1.name", b"Great hall"), ("board.1.shots", 3), ("board.1.dark", 1), ("board.1.exits.0", 3), ("board.1.exits.1", 0), ("board.1.exits.2", 1),
    ("board.1.exits.3", 2), ("board.1.re_enter", 1), ("board.1.message", b"x" * 58), ("board.1.start", (6, 5)), ("board.1.start", (5, 6)),
    ("board.1.time_limit", -1), ("board.0.name", b"The title"),
    ("board.1.stat.1.x", 21), ("board.1.stat.1.y", 11), ("board.1.stat.1.step", (1, 0)), ("board.1.stat.1.step", (0, -1)), ("board.1.stat.1.cycle", 1),
    ("board.1.stat.1.p1", 200), ("board.1.stat.1.p2", 1), ("board.1.stat.1.p3", 9), ("board.1.stat.4.p3", 3), ("board.1.stat.6.follower", 1),
    ("board.1.stat.6.follower", -1), ("board.1.stat.6.leader", 5), ("board.1.stat.1.under", (5, 0)), ("board.1.stat.1.under", (0, 7)),
    ("board.1.stat.1.position", 4), ("board.1.stat.0.cycle", 2), ("board.3.stat.1.cycle", 5),
]  # fmt: skip


def programs():
    """Programs of stat 1 of the hall, which begins as this one, with how many edits lead to each."""
    old = b"@guard\r#char 33\r#end\r:touch\rHalt!\r#end\r"
    return [
        ("a line in front", b"#cycle 1\r" + old, 1),
        ("a line in the middle", old.replace(b":touch", b"#lock\r:touch"), 1),
        ("a line at the end", old + b":shot\r", 1),
        # the line stands between two that begin with the same byte, and was inserted by one edit
        ("a line less", old.replace(b"#char 33\r", b""), 1),
        ("a byte in a line", old.replace(b"Halt", b"Hault"), 1),
        ("a byte less in a line", old.replace(b"Halt", b"Hat"), 1),
        ("a word for another", old.replace(b"Halt", b"Stop"), 2),
        ("two lines", old.replace(b"33", b"34").replace(b"Halt", b"Stop"), 4),
        ("lines changed places", b"@guard\r#end\r#char 33\r:touch\rHalt!\r#end\r", 2),
        # what stands there is a part of the first world, a line of another edit, and the rest of the first world
        ("emptied", b"", 3),
        ("quite another", b"hello\rworld", 4),
        ("every byte there is", bytes(range(1, 256)), 4),
        ("the same twice", old + old, 1),
        ("without its last end", old[:-1], 1),
        ("of ends alone", b"\r" * 40, 4),
    ]


def move_boards(world, order):
    """Puts boards into another order, where -1 is a new one; exits, passages and the current board go with them."""
    to = {old: new for new, old in enumerate(order)}
    new = []
    for number in order:
        if number < 0:
            board = Board(name=b"New", stats=[Stat(30, 12, cycle=1)], start=(30, 12))
            board.put(30, 12, (4, 0x1F))
            new.append(board)
            continue
        board = world.boards[number]
        board.exits = [to.get(it, 0) if it else 0 for it in board.exits]
        for stat in board.stats:
            tile = board.at(stat.x, stat.y)
            if tile and tile[0] == zzt.PASSAGE:
                stat.p3 = to.get(stat.p3, 0)
        new.append(board)
    world.current = to.get(world.current, 0)
    world.boards = new


def hundred(world):
    move_boards(world, [0, 1, 2, 3] + [-1] * 97)
    for number, board in enumerate(world.boards[4:]):
        board.name = b"Room %d" % number


def shapes():
    """Larger changes: a name, what is done to a world, and how many edits lead there, where that is plain."""
    hall = 1

    def one(what):
        return lambda world: what(world.boards[hall])

    def all_other(world):
        world.boards = start().boards[:1] + [Board(name=b"B%d" % n, stats=[Stat(3, 3, cycle=1), Stat(4, 4, program=b"x\r")]) for n in range(7)]

    def many_stats(board):
        for number in range(140):
            board.stats.append(Stat(number % 60 + 1, number // 60 + 15, cycle=number, program=b"@n%d\r" % number))

    def move_guard(board):
        board.put(20, 10, (0, 0))
        board.put(21, 11, (36, 0x0F))
        change_stat(board, 1, x=21, y=11)

    def rename(world, *names):
        for board, name in zip(world.boards[1:], names):
            board.name = name

    def swap(board):
        board.stats[1], board.stats[2] = board.stats[2], board.stats[1]
        board.stats[3].program = 1

    return [
        ("nothing", lambda world: None, 0),
        ("a cell", one(lambda b: b.put(33, 3, (21, 14))), 1),
        ("a colour", one(lambda b: b.put(20, 10, (36, 0x0A))), 1),
        ("a rectangle", one(lambda b: b.fill(30, 14, 45, 18, (22, 2))), 1),
        ("a frame", one(lambda b: (b.fill(30, 14, 45, 18, (22, 2)), b.fill(31, 15, 44, 17, (0, 0)))), 4),
        ("every cell", one(lambda b: b.fill(1, 1, 60, 25, (27, 3))), 1),
        ("a pattern", one(lambda b: [b.put(x, y, (21, x * y % 256)) for x in range(1, 61) for y in range(13, 20)]), 420),
        ("a stat at the end", one(lambda b: add_stat(b, 7, 44, 4, (36, 9), cycle=3, program=b"@new\r")), 4),
        ("a stat without a program", one(lambda b: add_stat(b, 7, 44, 4, (13, 9), cycle=6, p1=9)), 2),
        ("a stat in the middle", one(lambda b: add_stat(b, 3, 44, 4, (36, 9), cycle=3, program=b"@mid\r")), 13),
        ("a stat in front", one(lambda b: add_stat(b, 1, 44, 4, (34, 9), cycle=3)), None),
        ("a stat less", one(lambda b: remove_stat(b, 5)), 2),
        ("a stat less in the middle", one(lambda b: remove_stat(b, 2)), 2),
        ("the first stat less", one(lambda b: remove_stat(b, 1)), 2),
        ("no stats", one(lambda b: b.stats.__delitem__(slice(1, None))), 6),
        ("stats that changed places", one(swap), None),
        ("a stat that moved", one(move_guard), 4),
        ("a hundred and forty stats more", one(many_stats), 420),
        ("a share split", one(lambda b: change_stat(b, 3, program=b"@twin\r/e/w\r#restart\r")), 3),
        ("a share changed", one(lambda b: change_stat(b, 2, program=b"@twin\r/w/e\r#restart\r")), 2),
        ("a share more", one(lambda b: change_stat(b, 5, program=2)), 1),
        ("a share with another", one(lambda b: change_stat(b, 3, program=1)), 1),
        ("a player who moved", one(move_player), 4),
        ("a player with a program", one(lambda b: change_stat(b, 0, program=b"@me\r")), 3),
        ("a player outside", one(lambda b: change_stat(b, 0, x=0, y=0)), 2),
        ("a passage elsewhere", one(lambda b: change_stat(b, 4, p3=0)), 1),
        ("a passage more", one(lambda b: add_stat(b, 7, 3, 3, (11, 0x2F), p3=3)), 2),
        ("no passage any more", one(lambda b: b.put(40, 12, (22, 1))), 1),
        ("a tile that becomes a passage", one(lambda b: b.put(20, 10, (11, 1))), 1),
        # a planner that drops the last board would have take answer NotTaken
        ("a board at the end", lambda world: move_boards(world, [0, 1, 2, 3, -1]), 5),
        ("a board in the middle", lambda world: move_boards(world, [0, 1, -1, 2, 3]), 7),
        ("a board in front", lambda world: move_boards(world, [0, -1, 1, 2, 3]), 8),
        ("a board less", lambda world: move_boards(world, [0, 1, 3]), 1),
        ("the first board less", lambda world: move_boards(world, [0, 2, 3]), 1),
        ("boards that changed places", lambda world: move_boards(world, [0, 3, 1, 2]), 2),
        ("boards turned round", lambda world: move_boards(world, [0, 3, 2, 1]), 2),
        ("one board", lambda world: move_boards(world, [0]), 3),
        ("a board that moved and changed", lambda world: (move_boards(world, [0, 2, 3, 1]), world.boards[3].put(1, 1, (9, 9))), 2),
        ("a hundred boards beside the title", hundred, 485),
        ("quite another world", all_other, None),
        ("two boards of one name", lambda world: change(world, "board.2.name", b"Hall"), 1),
        ("boards renamed", lambda world: rename(world, b"Great hall", b"Cellar", b"Keep"), 3),
        ("boards that exchanged names", lambda world: rename(world, b"Cave", b"Hall"), None),
        ("a board renamed, and another less", lambda world: (rename(world, b"Great hall"), move_boards(world, [0, 1, 3])), 2),
        ("a board less, and one at the end", lambda world: move_boards(world, [0, 1, 3, -1]), None),
    ]


# what is noted of some of them, by the base's numbers and names
NOTES = {
    "nothing": "",
    "a cell": "",
    "a pattern": "",
    "a stat at the end": 'board 1 "Hall": 1 cell, 1 stat\n',
    "a stat less": 'board 1 "Hall": 1 cell, 1 stat\n',
    "no stats": 'board 1 "Hall": 0 cells, 6 stats\n',
    "a stat that moved": 'board 1 "Hall": 2 cells, 1 stat\n',
    "a hundred and forty stats more": 'board 1 "Hall": 0 cells, 140 stats\n',
    "a share changed": 'board 1 "Hall": 0 cells, 2 programs\n',
    "a share more": 'board 1 "Hall": 0 cells, 1 program\n',
    "a board at the end": 'board "New" added\n',
    "a board in the middle": 'board 2 "Cave": 0 cells, 1 property\nboard 3 "Tower": 0 cells, 1 property\nboard "New" added\n',
    "a board less": 'board 2 "Cave" removed\n',
    "the first board less": 'board 1 "Hall" removed\n',
    "boards turned round": 'board 1 "Hall": 0 cells, 1 property\nboard 2 "Cave": 0 cells, 1 property\n',
    "one board": 'board 1 "Hall" removed\nboard 2 "Cave" removed\nboard 3 "Tower" removed\n',
    "a hundred boards beside the title": "".join(f'board "Room {n}" added\n' for n in range(97)),
    "boards renamed": "".join(f'board {n} "{name}": 0 cells, 1 property\n' for n, name in enumerate(["Hall", "Cave", "Tower"], 1)),
    "a board renamed, and another less": 'board 1 "Hall": 0 cells, 1 property\nboard 2 "Cave" removed\n',
}


def note_of_register(path):
    """What is noted of one of REGISTERS."""
    words = path.split(".")
    if words[0] != "board":
        return "world: 1 register\n"
    number = int(words[1])
    return f'board {number} "{["Title", "Hall", "Cave", "Tower"][number]}": 0 cells, 1 {"stat" if "stat" in words else "property"}\n'


def move_player(board):
    board.put(5, 5, (0, 0))
    board.put(7, 6, (4, 0x1F))
    change_stat(board, 0, x=7, y=6)


# ---- a drawing that is taken


def counts(said):
    """The counts of `<n> taken, <m> edits: FIRST to LAST`."""
    words = said.split()
    return (int(words[1]), int(words[3])) if len(words) > 4 and words[0] == "0" and words[2] == "taken," else said


def made_by(replica, first, made, edits):
    """What is printed of so many edits of an author, of which there are so many then, one time after the other from a first one on."""
    stamps = {0: "", 1: f": {first}.{replica}"}.get(made, f": {first}.{replica} to {first + made - 1}.{replica}")
    return f"0 {made} taken, {edits} edits{stamps}"


# boards are found by their names, so the cells of these are drawn anew
NOT_FOUND = ("boards that exchanged names",)


# the cells of the hall that others drew in, with another tile than was there; a frame is drawn around them
OTHERS = [(x, y) for x in (34, 35) for y in (16, 17)]


def others_stay(what, world, hall, twin):
    """What others did meanwhile is there: their cells, unless they were drawn over, and the line in front of the twin's program."""
    for number, board in enumerate(world.boards):
        if board is not hall:
            continue
        seen = world_of("mine.zed").boards[number]
        wanted = [(19, 9) if hall.at(x, y) == (0, 0) else hall.at(x, y) for x, y in OTHERS]
        if what not in NOT_FOUND:
            is_so(f"{what}: the others' cells", [seen.at(x, y) for x, y in OTHERS], wanted)
        for stat, then in zip(hall.stats, seen.stats):
            if stat is twin:
                is_so(f"{what}: the others' line", then.program, b"#lock\r" + twin.program)


# so many boards go in these that taking them has to be forced
FORCED = {"one board": 3}


def draws(what, change_it, wanted=None, rubbish=0, longest=255, spell=lambda data: data, beside=others_stay, noted=None, options=()):
    """Opens a world, changes it, has it taken beside what others did, and looks at all that comes of it. `spell` spells the world otherwise."""
    for name in ("mine.zed", "mine.zzt", "mine.zzt.base", "mine.zzt.base~", "mine.zed~"):
        if os.path.exists(at(name)):
            os.remove(at(name))
    shutil.copy(at("start.zed"), at("mine.zed"))
    told = zztool("open", "mine.zed", "mine.zzt")
    is_so(f"{what}: open", told, f"0 {len(bytes_of('mine.zzt') or b'')} bytes")
    is_so(f"{what}: the base", bytes_of("mine.zzt.base"), bytes_of("start.zed"))
    world = zzt.read(bytes_of("mine.zzt"))
    hall, twin = world.boards[1], world.boards[1].stats[2]
    change_it(world)
    put("mine.zzt", spell(zzt.write(world, rubbish, longest)))
    shutil.copy(at("others.zed"), at("mine.zed"))
    before = written("mine.zed"), written("mine.zzt.base")
    if what in FORCED:
        refuses(f"{what}: without force", SLIP.format(FORCED[what]), "take", "mine.zed", 1, "mine.zzt")
        options = ("--force",)
    said = zztool("take", *options, "mine.zed", 1, "mine.zzt")
    told = counts(said)
    is_so(f"{what}: take", isinstance(told, tuple), True)
    if not isinstance(told, tuple):
        print(f"    {told}")
        return
    made, there = told
    is_so(f"{what}: edits of FILE", there, made + 5)
    # their times are behind those of the five edits of FILE
    is_so(f"{what}: the stamps", said, made_by(1, 6, made, there))
    if noted is not None:
        is_so(f"{what}: the note", note, noted)
    if wanted is not None:
        is_so(f"{what}: edits made", made, wanted)
    is_so(f"{what}: the base's world", zzt.differences(world_of("mine.zzt.base"), zzt.normal(world)), "nothing")
    if made == 0:
        is_so(f"{what}: nothing is written", (written("mine.zed"), written("mine.zzt.base")), before)
    before = written("mine.zed"), written("mine.zzt.base")
    is_so(f"{what}: taken again", zztool("take", "mine.zed", 1, "mine.zzt"), f"0 0 taken, {there} edits")
    is_so(f"{what}: nothing is written again", (written("mine.zed"), written("mine.zzt.base")), before)
    if beside:
        beside(what, world, hall, twin)


# ---- worlds that are spelled as no writer of Wergozil spells them


def filled(world):
    """Each string is as long as it may be."""
    world.name, world.boards[1].name, world.boards[1].message = b"n" * 20, b"b" * 50, b"m" * 58
    world.flags = [b"F" * 20] * 10


def lenient():
    """What the reader reads leniently: the world counts, and not how it is spelled."""
    plain = [
        ("rubbish in what is unused", {"rubbish": 170}),
        ("runs of one", {"longest": 1}),
        ("runs of 256", {"longest": 256}),
        ("bytes behind the last board", {"spell": lambda data: data + b"more"}),
        ("bytes behind the last stat", {"spell": lambda data: zzt.with_body(data, 1, lambda body: body + bytes(40))}),
        ("a run past the board", {"spell": lambda data: zzt.with_body(data, 0, zzt.long_last_run)}),
    ]
    for what, how in plain:
        draws(f"a cell, with {what}", lambda world: world.boards[1].put(33, 3, (21, 14)), 1, **how)
        draws(f"nothing but {what}", lambda world: None, 0, **how)
    draws("lengths past their strings", filled, 13, spell=zzt.long_strings)
    # what is read as another value makes an edit where that one is new
    for path, value, wanted in [
        ("keys.3", 200, 1), ("saved", 255, 1), ("board.1.dark", 2, 1), ("board.1.re_enter", 255, 1), ("board.2.dark", 9, 0),
        ("current", 99, 1), ("current", -1, 1), ("board.1.exits.0", 4, 0), ("board.1.exits.1", 255, 1), ("board.1.stat.4.p3", 4, 1),
        ("board.1.stat.1.follower", 7, 0), ("board.1.stat.1.leader", -7, 0), ("board.1.stat.6.follower", 7, 1),
        ("board.1.stat.5.program", 3, 1), ("board.1.stat.6.program", 4, 0),
    ]:  # fmt: skip
        draws(f"{path} read leniently", lambda world, p=path, v=value: change(world, p, v), wanted)


# ---- a world drawn at random


def at_random(seed):
    dice = random.Random(seed)

    def draw(world):
        for _ in range(dice.randint(1, 12)):
            board = dice.choice(world.boards)
            pick = dice.randrange(12)
            if pick == 0:
                x, y = dice.randint(1, 60), dice.randint(1, 25)
                board.fill(x, y, dice.randint(x, 60), dice.randint(y, 25), (dice.randrange(60), dice.randrange(256)))
            elif pick == 1:
                for _ in range(30):
                    board.put(dice.randint(1, 60), dice.randint(1, 25), (dice.randrange(60), dice.randrange(256)))
            elif pick == 2 and len(board.stats) < 140:
                number = dice.randint(1, len(board.stats))
                add_stat(board, number, dice.randint(1, 60), dice.randint(1, 25), (36, 15), cycle=dice.randint(0, 9), program=b"@r\r" * dice.randint(0, 4))
            elif pick == 3 and len(board.stats) > 1:
                remove_stat(board, dice.randint(1, len(board.stats) - 1))
            elif pick == 4:
                stat = dice.choice(board.stats)
                stat.p1, stat.p2, stat.p3 = dice.randrange(256), dice.randrange(256), dice.randrange(256)
                stat.x, stat.y = dice.randrange(256), dice.randrange(256)
            elif pick == 5:
                stat = dice.choice(board.stats)
                stat.follower, stat.leader = dice.randint(-2, 8), dice.randint(-2, 8)
                stat.step, stat.position = (dice.randint(-32768, 32767), dice.randint(-9, 9)), dice.randint(-1, 900)
            elif pick in (6, 7):
                stat = dice.choice(board.stats)
                if isinstance(stat.program, bytes):
                    where = dice.randint(0, len(stat.program))
                    upto = dice.randint(where, len(stat.program))
                    stat.program = stat.program[:where] + bytes(dice.randrange(1, 256) for _ in range(dice.randint(0, 40))) + stat.program[upto:]
                    owner = board.stats.index(stat)
                    if not stat.program:
                        for other in board.stats:
                            if other.program == owner and isinstance(other.program, int):
                                other.program = b""
            elif pick == 8:
                order = list(range(1, len(world.boards)))
                dice.shuffle(order)
                if dice.random() < 0.4 and order:
                    order.pop()
                for _ in range(dice.randint(0, 3)):
                    order.insert(dice.randint(0, len(order)), -1)
                move_boards(world, [0, *order])
            elif pick == 9:
                board.exits = [dice.randrange(6) for _ in range(4)]
                board.message, board.dark, board.time_limit = b"m" * dice.randrange(59), dice.randrange(3), dice.randint(-9, 9)
            elif pick == 10:
                board.name = dice.choice([b"Hall", b"Cave", b"", b"n" * 50])
            else:
                world.name, world.health, world.current = b"w" * dice.randrange(21), dice.randint(-9, 200), dice.randrange(6)
                world.flags[dice.randrange(10)] = b"F" * dice.randrange(21)

    return draw, dice


# ---- two authors, and what is refused


def draws_on(name, replica, change_it, wanted):
    """An author goes on in a world file, as it is, and takes it again."""
    world = zzt.read(bytes_of(f"{name}.zzt"))
    change_it(world)
    put(f"{name}.zzt", zzt.write(world))
    told = counts(zztool("take", f"{name}.zed", replica, f"{name}.zzt"))
    is_so(f"{name} draws on", told[0] if isinstance(told, tuple) else told, wanted)


def goes_on():
    """An author draws in one world file and takes it again and again, while others' edits come into FILE."""
    shutil.copy(at("start.zed"), at("mine.zed"))
    is_so("open", zztool("open", "--force", "mine.zed", "mine.zzt")[:2], "0 ")
    for turn in range(1, 4):
        draws_on("mine", 1, lambda world: world.boards[1].put(30 + turn, 1, (21, turn)), 1)
        is_so("others", zzted("edit", "mine.zed", 9, "cells", 1, 50, turn, 50, turn, 19, 9), f"0 {3 + 2 * turn} edits")
    drawn = zzt.read(bytes_of("mine.zzt"))
    is_so("the base's world", zzt.differences(world_of("mine.zzt.base"), zzt.normal(drawn)), "nothing")
    drawn.boards[1].fill(50, 1, 50, 3, (19, 9))
    is_so("all of it", zzt.differences(world_of("mine.zed"), zzt.normal(drawn)), "nothing")
    # each edit is behind all that FILE had
    stamps = [line.split()[:2] for line in zztool("log", "--since", 4, "mine.zed")[2:].splitlines()]
    is_so("stamps", stamps, [["4", "1"], ["5", "9"], ["6", "1"], ["7", "9"], ["8", "1"], ["9", "9"]])
    # without a base FILE stands for it, so that what others did is undone; and none is made
    os.remove(at("mine.zzt.base"))
    draws_on("mine", 1, lambda world: world.boards[1].put(40, 1, (21, 9)), 2)
    is_so("no base is made", bytes_of("mine.zzt.base"), None)
    is_so("FILE shows what was drawn", zzt.differences(world_of("mine.zed"), zzt.normal(zzt.read(bytes_of("mine.zzt")))), "nothing")


def others_renumber():
    """Others put a board behind the rest and remove a stat meanwhile: what was drawn is of the same boards and stats, whatever their numbers."""
    shutil.copy(at("start.zed"), at("mine.zed"))
    is_so("open", zztool("open", "--force", "mine.zed", "mine.zzt")[:2], "0 ")
    is_so("a stat less", zzted("edit", "mine.zed", 9, "stat-remove", 1, 1), "0 4 edits")
    is_so("the hall last", zzted("edit", "mine.zed", 9, "rank", 1, 5), "0 5 edits")

    def redraw(world):
        world.boards[1].exits[0] = 3
        change_stat(world.boards[1], 2, p1=77)
        world.boards[3].put(1, 1, (21, 9))

    draws_on("mine", 1, redraw, 3)
    _, cave, tower, hall = world_of("mine.zed").boards
    is_so("the hall's stat and exit", (hall.name, hall.stats[1].p1, hall.exits[0]), (b"Hall", 77, 2))
    is_so("the tower's cell", (cave.at(1, 1), tower.at(1, 1)), ((21, 8), (21, 9)))


def over_dead_bytes():
    """Bytes that are deleted already don't part what is deleted around them."""
    shutil.copy(at("start.zed"), at("mine.zed"))
    is_so("bytes of a line less", zzted("edit", "mine.zed", 5, "delete", 1, 1, 9, 12), "0 4 edits")
    is_so("open", zztool("open", "--force", "mine.zed", "mine.zzt")[:2], "0 ")
    draws_on("mine", 1, lambda world: change_stat(world.boards[1], 1, program=b""), 3)


def many_boards():
    """A world of as many boards as there may be."""
    world = start()
    hundred(world)
    put("many.zzt", zzt.write(world))
    if os.path.exists(at("mine.zed")):
        os.remove(at("mine.zed"))
    is_so("new of many boards", zzted("new", "mine.zed", 7, "--from", "many.zzt"), "0 1 edits")
    is_so("open", zztool("open", "--force", "mine.zed", "mine.zzt")[:2], "0 ")

    def redraw(world):
        move_boards(world, [*range(50), *range(51, 101)])
        world.boards[70].name = b"Renamed"
        world.boards[99].put(1, 1, (21, 9))

    draws_on("mine", 1, redraw, 3)
    draws_on("mine", 1, lambda world: move_boards(world, [*range(100), -1]), 5)
    is_so("all of it", zzt.differences(world_of("mine.zed"), zzt.normal(zzt.read(bytes_of("mine.zzt")))), "nothing")


def author(name, replica, change_it, begun="start"):
    """An author takes a drawing into a file of their own: it shows the world that was drawn."""
    shutil.copy(at(f"{begun}.zed"), at(f"{name}.zed"))
    zztool("open", "--force", f"{name}.zed", f"{name}.zzt")
    world = zzt.read(bytes_of(f"{name}.zzt"))
    change_it(world)
    put(f"{name}.zzt", zzt.write(world, 7))
    told = counts(zztool("take", f"{name}.zed", replica, f"{name}.zzt"))
    is_so(f"{name}: the world", zzt.differences(world_of(f"{name}.zed"), zzt.normal(world)), "nothing")
    return told


def merged(one, other, begun="start"):
    """The world of two authors' files, merged in either order."""
    is_so("first author", isinstance(author("one", 1, one, begun), tuple), True)
    is_so("second author", isinstance(author("two", 2, other, begun), tuple), True)
    is_so("merged", zzted("merge", "both.zed", 7, "one.zed", "two.zed")[:2], "0 ")
    is_so("merged", zzted("merge", "back.zed", 7, "two.zed", "one.zed")[:2], "0 ")
    is_so("merged in either order", bytes_of("both.zed"), bytes_of("back.zed"))
    return world_of("both.zed")


def moved_objects():
    """One author moves objects, and another changes their programs meanwhile: the lines of both are in the objects that were moved."""
    put("yard.zzt", zzt.write(moves.yard()))
    is_so("new", zzted("new", "yard.zed", 7, "--from", "yard.zzt"), "0 1 edits")
    for what, change_it, then in moves.ROWS:
        seen = moves.programs_in(merged(change_it, moves.changes_programs, "yard"))
        for place, program in {**dict.fromkeys(seen), **moves.THEN, **then}.items():
            is_so(f"{what}: the program at {place}", seen.get(place), program)


def two_authors():
    def hall(change_it):
        return lambda world: change_it(world.boards[1])

    seen = merged(hall(lambda b: b.fill(30, 1, 33, 4, (21, 1))), hall(lambda b: b.fill(40, 1, 43, 4, (20, 2))))
    is_so("two places", (seen.boards[1].at(31, 2), seen.boards[1].at(41, 2)), ((21, 1), (20, 2)))
    seen = merged(hall(lambda b: b.put(30, 1, (21, 1))), hall(lambda b: b.put(30, 1, (20, 2))))
    is_so("one cell, one time: the higher replica", seen.boards[1].at(30, 1), (20, 2))
    # the first author draws on, so that the time of the last edit is the later one
    draws_on("one", 1, hall(lambda b: b.put(30, 1, (21, 3))), 1)
    is_so("merged", zzted("merge", "both.zed", 7, "one.zed", "two.zed")[:2], "0 ")
    is_so("one cell: the later stamp", world_of("both.zed").boards[1].at(30, 1), (21, 3))
    seen = merged(
        hall(lambda b: change_stat(b, 1, program=b.stats[1].program.replace(b"@guard\r", b"@guard\r#lock\r"))),
        hall(lambda b: change_stat(b, 1, program=b.stats[1].program.replace(b"Halt!", b"Halt, you!"))),
    )
    is_so("two lines", seen.boards[1].stats[1].program, b"@guard\r#lock\r#char 33\r#end\r:touch\rHalt, you!\r#end\r")
    # a line more, and the one behind it less: whole lines are inserted and deleted, though both begin with the same byte
    seen = merged(
        hall(lambda b: change_stat(b, 1, program=b.stats[1].program.replace(b"#end\r:touch", b"#lock\r#end\r:touch"))),
        hall(lambda b: change_stat(b, 1, program=b.stats[1].program.replace(b"#end\r:touch", b":touch"))),
    )
    is_so("a line beside one that goes", seen.boards[1].stats[1].program, b"@guard\r#char 33\r#lock\r:touch\rHalt!\r#end\r")
    seen = merged(lambda world: move_boards(world, [0, 1, 2, 3, -1]), lambda world: move_boards(world, [0, 3, 1, 2]))
    is_so("a new board and another order", sorted(b.name for b in seen.boards), [b"Cave", b"Hall", b"New", b"Title", b"Tower"])
    # the number of the second author, who began from the first one's number: my world over theirs, with what both began with as base
    shutil.copy(at("one.zed"), at("mine.zed"))
    author("mine", 1, hall(lambda b: b.put(3, 3, (21, 1))))
    author("their", 1, hall(lambda b: b.put(4, 4, (20, 2))))
    is_so("one number twice", zzted("merge", "both.zed", 7, "mine.zed", "their.zed"), "1 zzted: Clash 4 1")
    is_so("my world", zzted("save", "--big", "my.zzt", "mine.zed")[:2], "0 ")
    # the base is written too
    shutil.copy(at("start.zed"), at("before.zed"))
    is_so("over theirs", zztool("take", "--base", "before.zed", "their.zed", 3, "my.zzt"), "0 1 taken, 5 edits: 5.3")
    seen = world_of("their.zed")
    is_so("both are there", (seen.boards[1].at(3, 3), seen.boards[1].at(4, 4)), ((21, 1), (20, 2)))


def undoes():
    """An author goes back to an earlier time, and what others do meanwhile stays."""
    shutil.copy(at("others.zed"), at("mine.zed"))
    is_so("back", zztool("open", "--until", 2, "--force", "mine.zed", "mine.zzt")[:2], "0 ")
    is_so("the base is all of FILE", bytes_of("mine.zzt.base"), bytes_of("others.zed"))
    drawn = zzt.read(bytes_of("mine.zzt"))
    is_so("others merge meanwhile", zzted("edit", "mine.zed", 8, "cells", 1, 1, 25, 1, 25, 19, 9)[:2], "0 ")
    is_so("taken", isinstance(counts(zztool("take", "mine.zed", 1, "mine.zzt")), tuple), True)
    seen = world_of("mine.zed")
    is_so("as it was, with what came meanwhile", (seen.boards[1].at(*OTHERS[0]), seen.boards[1].at(1, 25)), ((0, 0), (19, 9)))
    drawn.boards[1].put(1, 25, (19, 9))
    is_so("all of it", zzt.differences(seen, zzt.normal(drawn)), "nothing")


def all_files():
    """What the folder holds but for the world file that is drawn in."""
    return {name: bytes_of(name) for name in os.listdir(ROOM) if name != "mine.zzt"}


def refuses(what, wanted, *words, data=None):
    """A command is refused, and nothing changes."""
    if data is not None:
        put("mine.zzt", data)
    held = all_files(), bytes_of("mine.zzt")
    is_so(what, zztool(*words), f"1 zztool: {wanted}")
    is_so(f"{what}: nothing changes", (all_files(), bytes_of("mine.zzt")) == held, True)


def refused():
    """Worlds and files that are no good: nothing changes, and the first of them is told."""
    shutil.copy(at("start.zed"), at("mine.zed"))
    is_so("open", zztool("open", "--force", "mine.zed", "mine.zzt")[:2], "0 ")
    good = bytes_of("mine.zzt")
    taken = ("take", "mine.zed", 1, "mine.zzt")
    # still being written, or cut short: any front of a world file
    for length in {*range(0, len(good), 41), 1, 2, 511, 512, 513, 514, len(good) - 1}:
        refuses(f"the first {length} bytes", "Truncated", *taken, data=good[:length])
    refuses("of Super ZZT", "NotZzt", *taken, data=b"\xfe\xff" + good[2:])
    refuses("too many boards", "TooManyBoards", *taken, data=good[:2] + b"\x65\0" + good[4:])
    refuses("boards below 0", "TooManyBoards", *taken, data=good[:2] + b"\xff\xff" + good[4:])
    refuses("a board too large", "BadBoardSize", *taken, data=good[:512] + b"\xff\xff" + good[514:])
    refuses("too many stats", "TooManyStats", *taken, data=zzt.with_body(good, 0, lambda body: body[:-35] + b"\x97\0" + body[-33:]))
    refuses("a program that is the player's", "BadShare", *taken, data=zzt.with_body(good, 0, lambda body: body[:-10] + b"\xff\xff" + body[-8:]))
    put("mine.zzt", good)
    refuses("replica 0, before all else", "BadEdit Stamp", "take", "--base", "none.zed", "none.zed", 0, "none.zzt")
    refuses("replica 0, without a base", "BadEdit Stamp", "take", "none.zed", 0, "none.zzt")
    refuses("replica 0, of files that are there", "BadEdit Stamp", "take", "mine.zed", 0, "mine.zzt")
    refuses("replica 0, with a base that is there", "BadEdit Stamp", "take", "--base", "start.zed", "mine.zed", 0, "mine.zzt")
    refuses("replica 0, of files that are damaged", "BadEdit Stamp", "take", "--base", "mine.zzt", "mine.zzt", 0, "mine.zed")
    refuses("no FILE", "File", "take", "none.zed", 1, "mine.zzt")
    refuses("no WORLD", "File", "take", "mine.zed", 1, "none.zzt")
    refuses("no base", "File", "take", "--base", "none.zed", "mine.zed", 1, "mine.zzt")
    refuses("no edit file", "Magic", "take", "mine.zzt", 1, "mine.zzt")
    zzted("new", "other.zed", 8)
    refuses("another world", "OtherWorld", "take", "--base", "other.zed", "mine.zed", 1, "mine.zzt")
    put("cut.zed", bytes_of("start.zed")[:-1])
    refuses("FILE before its base", "CutShort", "take", "--base", "other.zed", "cut.zed", 1, "none.zzt")
    refuses("the base before WORLD", "CutShort", "take", "--base", "cut.zed", "mine.zed", 1, "none.zzt")
    shutil.copy(at("start.zed"), at("clash.zed"))
    zzted("edit", "clash.zed", 1, "cells", 1, 1, 1, 1, 1, 9, 9)
    zzted("edit", "mine.zed", 1, "cells", 1, 1, 1, 1, 1, 8, 8)
    refuses("a clash of base and FILE", "Clash 4 1", "take", "--base", "clash.zed", "mine.zed", 1, "mine.zzt")
    refuses("WORLD before a clash", "Truncated", "take", "--base", "clash.zed", "mine.zed", 1, "mine.zzt", data=good[:99])
    # a drawing isn't lost by opening again
    world = zzt.read(good)
    world.boards[1].put(1, 1, (21, 1))
    refuses("drawn in", "NotTaken", "open", "mine.zed", "mine.zzt", data=zzt.write(world))
    refuses("drawn in, and an earlier time", "NotTaken", "open", "--until", 2, "mine.zed", "mine.zzt")
    shutil.copy(at("cut.zed"), at("mine.zzt.base"))
    refuses("drawn in, with a damaged base", "CutShort", "open", "mine.zed", "mine.zzt")
    os.remove(at("mine.zzt.base"))
    refuses("drawn in, without a base", "NotTaken", "open", "mine.zed", "mine.zzt")
    is_so("opened all the same", zztool("open", "--force", "mine.zed", "mine.zzt")[:2], "0 ")
    is_so("opened again", zztool("open", "mine.zed", "mine.zzt")[:2], "0 ")
    put("mine.zzt", zzt.write(zzt.read(bytes_of("mine.zzt")), 9, 1))
    is_so("opened again, as another editor spelled it", zztool("open", "mine.zed", "mine.zzt")[:2], "0 ")


SLIP = "TakesAway {}\nzztool: take --force takes it all the same"


def takes_away():
    """Where more than half of the boards beside the title are gone, that is refused, behind all else, unless it is forced."""
    def opens(boards, name=b"B%d"):
        world = World(boards=[Board(name=b"T", stats=[Stat(1, 1)])] + [Board(name=name % n, stats=[Stat(1, 1)]) for n in range(1, boards + 1)])
        put("new.zzt", zzt.write(world))
        is_so("a new world", zzted("new", "mine.zed", 7, "--from", "new.zzt")[:2], "0 ")
        is_so("open", zztool("open", "--force", "mine.zed", "mine.zzt")[:2], "0 ")
        return zzt.read(bytes_of("mine.zzt"))

    for boards, gone in [(1, 1), (2, 1), (2, 2), (3, 1), (3, 2), (4, 2), (4, 3), (5, 2), (5, 3), (100, 50), (100, 51), (100, 100)]:
        world = opens(boards)
        world.boards = world.boards[: boards + 1 - gone]
        drawn = zzt.write(world)
        lines = "".join(f'board {n} "B{n}" removed\n' for n in range(boards + 1 - gone, boards + 1))
        if gone > boards // 2:
            refuses(f"{gone} boards of {boards}", SLIP.format(gone), "take", "mine.zed", 1, "mine.zzt", data=drawn)
            is_so(f"{gone} boards of {boards}, forced", zztool("take", "--force", "mine.zed", 1, "mine.zzt"), made_by(1, 2, gone, gone + 1))
        else:
            put("mine.zzt", drawn)
            is_so(f"{gone} boards of {boards}", zztool("take", "mine.zed", 1, "mine.zzt"), made_by(1, 2, gone, gone + 1))
        is_so(f"{gone} boards of {boards}: the note", note, lines)
        is_so(f"{gone} boards of {boards}: once more", (zztool("take", "mine.zed", 1, "mine.zzt"), note), (made_by(1, 2, 0, gone + 1), ""))
    # names that don't print, by the numbers that the boards had
    world = opens(4, b'"\r\x07%d')
    del world.boards[2]
    world.boards[3].message = b"new"
    put("mine.zzt", zzt.write(world))
    is_so("names that don't print", zztool("take", "mine.zed", 1, "mine.zzt"), made_by(1, 2, 2, 3))
    is_so("their note", note, 'board 2 "\\"\\r\\x072" removed\nboard 4 "\\"\\r\\x074": 0 cells, 1 property\n')
    # all other refusals come first; FILE is its own base, and one with another is looked at by that
    world = opens(3)
    shutil.copy(at("mine.zed"), at("spent.zed"))
    with_late_edit("spent.zed", LAST_TIME)
    world.boards = world.boards[:2]
    put("mine.zzt", zzt.write(world))
    refuses("times before boards", "ClockSpent", "take", "spent.zed", 1, "mine.zzt")
    is_so("a base with one board", zzted("edit", "mine.zzt.base", 1, "board-remove", 3)[:2], "0 ")
    is_so("one board of two that the base has", zztool("take", "mine.zed", 1, "mine.zzt")[:9], "0 1 taken")
    is_so("its note", note, 'board 2 "B2" removed\n')
    world.boards = world.boards[:1]
    put("mine.zzt", zzt.write(world))
    refuses("the last board", SLIP.format(1), "take", "mine.zed", 1, "mine.zzt")
    is_so("set aside", zztool("take", "--force", "mine.zed", 1, "mine.zzt")[:9], "0 1 taken")


LAST_TIME = 2**48 - 1


def with_late_edit(name, time):
    """Adds an edit of a time to an edit file: it makes a text that nothing names."""
    body = time.to_bytes(6, "little") + (60000).to_bytes(2, "little") + bytes([10])
    put(name, bytes_of(name) + len(body).to_bytes(4, "little") + body)


def limits():
    """Limits of times and of world files: each is told exactly where it is gone over, in their order, and nothing changes."""
    for name in ("mine.zed", "spent.zed", "last.zed"):
        shutil.copy(at("start.zed"), at(name))
    is_so("open", zztool("open", "--force", "mine.zed", "mine.zzt")[:2], "0 ")
    good = bytes_of("mine.zzt")
    with_late_edit("spent.zed", LAST_TIME)
    with_late_edit("last.zed", LAST_TIME - 1)
    drawn = zzt.read(good)
    drawn.boards[1].put(33, 3, (21, 14))
    refuses("no time is left", "ClockSpent", "take", "spent.zed", 1, "mine.zzt", data=zzt.write(drawn))
    refuses("no time is left, though nothing differs", "ClockSpent", "take", "spent.zed", 1, "mine.zzt", data=good)
    refuses("no time is left behind the base", "ClockSpent", "take", "--base", "spent.zed", "mine.zed", 1, "mine.zzt")
    drawn.boards[1].put(35, 3, (21, 15))
    refuses("too few times are left", "ClockSpent", "take", "last.zed", 1, "mine.zzt", data=zzt.write(drawn))
    drawn.boards[1].put(35, 3, (0, 0))
    put("mine.zzt", zzt.write(drawn))
    is_so("as many times as are needed", zztool("take", "last.zed", 1, "mine.zzt"), f"0 1 taken, 5 edits: {LAST_TIME}.1")
    # a world that is read, but is longer written again: a run of 256 is two
    is_so("open", zztool("open", "--force", "mine.zed", "mine.zzt")[:2], "0 ")
    over = zzt.read(good)
    over.boards[1].tiles = [(n // 256 % 2, 7) for n in range(1500)]
    over.boards[1].stats[1].program = b"x" * 31000
    over.boards[1].stats[1].program += b"y" * (32767 - len(zzt.write_board(over.boards[1], 0, 256)))
    long = zzt.write(over, longest=256)
    refuses("a board that would be over the limit", "BoardOver 1 32782", "take", "mine.zed", 1, "mine.zzt", data=long)
    refuses("times before that", "ClockSpent", "take", "spent.zed", 1, "mine.zzt")
    # bases that are no world file; FILE is its own base
    os.remove(at("mine.zzt.base"))
    put("none.zed", b"ZED\x02" + (7).to_bytes(8, "little"))
    refuses("WORLD before its base", "BoardOver 1 32782", "take", "none.zed", 1, "mine.zzt")
    many, crowd, long = start(), start(), start()
    hundred(many)
    crowd.boards[1].stats += [Stat(1, 1)] * 144
    long.boards[1].stats[1].program = b"x" * 30000
    for name, world, *words in [
        ("boards.zed", many, "board-add", "One"),
        ("stats.zed", crowd, "stat-add", 1, 9, 9, 1),
        ("long.zed", long, "insert", 1, 1, 0, "y" * 2700),
    ]:
        put("new.zzt", zzt.write(world))
        is_so(name, (zzted("new", name, 7, "--from", "new.zzt"), zzted("edit", name, 5, *words)), ("0 1 edits", "0 2 edits"))
    long.boards[1].stats[1].program += b"y" * 2700
    bytes_over = len(zzt.write_board(long.boards[1], 0, 255))
    for name, wanted in [
        ("none.zed", "NoWorld"), ("boards.zed", "BoardsOver 101"), ("stats.zed", "StatsOver 1 151"), ("long.zed", f"BoardOver 1 {bytes_over}"),
    ]:  # fmt: skip
        refuses(f"take from {name}", wanted, "take", name, 1, "mine.zzt", data=good)
        refuses(f"open {name}", wanted, "open", name, "new.zzt.none")
        refuses(f"open {name} all the same", wanted, "open", "--force", name, "mine.zzt")
    refuses("before there was a world", "NoWorld", "open", "--until", 0, "mine.zed", "mine.zzt")


def at_once():
    """Twenty authors' takes of one file at the same time: none is lost."""
    shutil.copy(at("start.zed"), at("mine.zed"))
    for number in range(20):
        zztool("open", "--force", "mine.zed", f"w{number}.zzt")
        world = zzt.read(bytes_of(f"w{number}.zzt"))
        world.boards[1].put(1 + number, 23, (21, number))
        put(f"w{number}.zzt", zzt.write(world))
    with ThreadPoolExecutor(20) as pool:
        said = list(pool.map(lambda n: zztool("take", "mine.zed", 10 + n, f"w{n}.zzt")[:9], range(20)))
    is_so("twenty at once", said, ["0 1 taken"] * 20)
    seen = world_of("mine.zed")
    is_so("all of them", [seen.boards[1].at(1 + n, 23) for n in range(20)], [(21, n) for n in range(20)])


def broken_off():
    """A take that ended between its two files: the next one ends well."""
    draws("before it breaks off", lambda world: world.boards[1].put(33, 3, (21, 14)), 1)
    before, after = bytes_of("others.zed"), bytes_of("mine.zed")
    put("mine.zed", before)
    is_so("taken again", zztool("take", "mine.zed", 1, "mine.zzt"), "0 0 taken, 6 edits")
    is_so("as if it had not", bytes_of("mine.zed"), after)


def main():
    prepare()
    for path, value in REGISTERS:
        # an editor leaves rubbish in unused bytes, and writes runs of its own length
        draws(path, lambda world, p=path, v=value: change(world, p, v), 1, rubbish=99, longest=60, noted=note_of_register(path))
    for what, program, wanted in programs():
        draws(f"program: {what}", lambda world, p=program: change_stat(world.boards[1], 1, program=p), wanted, noted='board 1 "Hall": 0 cells, 1 program\n')
    for what, change_it, wanted in shapes():
        draws(what, change_it, wanted, longest=256, noted=NOTES.get(what))
    takes_away()
    lenient()
    two_authors()
    moved_objects()
    goes_on()
    others_renumber()
    over_dead_bytes()
    many_boards()
    undoes()
    refused()
    limits()
    at_once()
    broken_off()
    for seed in range(COUNT):
        draw, dice = at_random(seed)
        # boards at random may be taken for one another
        draws(f"at random {seed}", draw, rubbish=dice.randrange(256), longest=dice.choice([1, 60, 255, 256]), beside=None, options=("--force",))
    print(f"drawing: {passed} passed, {failed} failed")
    return 1 if failed else 0


sys.exit(main())
