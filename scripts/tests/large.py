"""Makes an edit file of 100,000 edits of all kinds, and compares what the programs make of it with what one author has who made them.

Usage: large.py ZZTED ZZTOOL FOLDER
zed.py spells edit files and says what edits make, and zzt.py reads and writes world files; they share no code with the programs under test."""

import os
import random
import re
import subprocess
import sys

import zed
import zzt
from edits import AllKinds
from zed import Document, Edit

ZZTED, ZZTOOL, ROOM = sys.argv[1:4]
COUNT, WORLD = 100_000, 7
passed = failed = 0


def is_so(what, told, wanted):
    global passed, failed
    if told == wanted:
        passed += 1
    else:
        failed += 1
        print(f"large: FAILED: {what}: {str(told)[:300]}, and not {str(wanted)[:300]}")


def run(program, *words):
    ran = subprocess.run([program, *map(str, words)], stdin=subprocess.DEVNULL, capture_output=True, cwd=ROOM)
    return f"{ran.returncode} {(ran.stdout + ran.stderr).decode()}".strip()


def put(name, data):
    with open(os.path.join(ROOM, name), "wb") as it:
        it.write(data)


def bytes_of(name):
    with open(os.path.join(ROOM, name), "rb") as it:
        return it.read()


# ---- what the list of edits says


def dotted(it):
    return f"{it[0]}.{it[1]}:{it[2]}"


def begins(edit):
    """How the line of an edit begins: its stamp, its kind, and what it names."""
    it, op, of, field, value = edit
    if op == 1:
        told = f"genesis {len(value)} bytes .."
    elif op == zed.SET_CELLS:
        told = f"cells board {dotted(of)} ({value[0]},{value[1]})-({value[2]},{value[3]}) "
    elif op == zed.STAT_ADD:
        told = f"add stat board {dotted(of)} ({value[zed.X]},{value[zed.Y]}) p1 {value[zed.P1]} p2 {value[zed.P2]} under "
    elif op == zed.TEXT_INSERT:
        told = f"insert text {dotted(of)} " + (f'after {dotted(field)} "' if field else 'first "')
    elif op == zed.TEXT_DELETE:
        told = f"delete text {dotted(of)} bytes {field[0]}.{field[1]}:{value[0]}-{value[1]}"
    else:
        kind = {
            zed.SET_HEADER: "header", zed.BOARD_ADD: 'add board "', zed.BOARD_REMOVE: "remove board", zed.SET_BOARD: "board",
            zed.STAT_REMOVE: "remove stat", zed.SET_STAT: "stat", zed.TEXT_ADD: "add text",
        }[op]
        told = f"{kind} {dotted(of)}" if of else kind
    return f"{it[0]} {it[1]}  {told}".encode()


def other_line(edits):
    """The first line of a list of edits that isn't theirs."""
    ran = subprocess.run([ZZTOOL, "log", "all.zed"], stdin=subprocess.DEVNULL, capture_output=True, cwd=ROOM)
    lines = ran.stdout.splitlines()
    if ran.returncode or ran.stderr or len(lines) != len(edits):
        return f"{ran.returncode} {ran.stderr} {len(lines)} lines"
    return next((f"{line} for {edit}" for line, edit in zip(lines, edits) if not line.startswith(begins(edit))), "none")


# ---- the commands


def saves(name, world, *words):
    """Wants an edit file to be saved as this world."""
    wanted = zzt.write(world)
    is_so(f"save {name}", run(ZZTED, "save", *words, "out.zzt", name), f"0 {len(wanted)} bytes")
    saved = bytes_of("out.zzt")
    is_so(f"the world of {name}", zzt.differences(zzt.read(saved), world), "nothing")
    is_so(f"the bytes of the world of {name}", saved == wanted, True)


def all_kinds(edits):
    """Each op and each field was drawn."""
    fields = {(it.op, it.field) for it in edits if it.op in (zed.SET_HEADER, zed.SET_BOARD, zed.SET_STAT)}
    is_so("kinds of edits", len({it.op for it in edits}), 12)
    is_so("fields", len(fields), len(zed.HEADER) + len(zed.BOARD) + len(zed.STAT))


def merges(edits, data):
    halves = [], []
    chance = random.Random(2)
    for edit in edits[1:]:
        chance.choice(halves).append(edit)
    for name, half in zip(("one.zed", "two.zed"), halves):
        put(name, zed.spelled(WORLD, [edits[0], *half]))
    for names in ("one.zed", "two.zed"), ("two.zed", "one.zed"):
        out = f"from-{names[0]}"
        is_so(f"merge {names}", run(ZZTED, "merge", out, WORLD, *names), f"0 {COUNT} edits, 0 held")
        is_so(f"the edits of {names}", bytes_of(out) == data, True)


def edit_adds_one(document, edits, data):
    put("edited.zed", data)
    is_so("edit", run(ZZTED, "edit", "edited.zed", 9, "cells", 3, 5, 6, 7, 8, 21, 14), f"0 {COUNT + 1} edits")
    added = Edit((edits[-1].stamp[0] + 1, 9), zed.SET_CELLS, document.numbered()[3], value=(5, 6, 7, 8, 21, 14))
    is_so("the edit that it adds", bytes_of("edited.zed") == data + zed.record_of(added), True)


def has_own_program(board, stat):
    """It has one that stands with it, and not with the player, whose program isn't shared in a world file, too."""
    return isinstance(stat.program, bytes) and stat.program not in (b"", board.stats[0].program)


def takes(world, data):
    """A header field, a property, cells, a field of a stat and a line of a program are drawn: an edit each, behind the others."""
    put("taken.zed", data)
    wanted, world = zzt.write(world), world.copy()
    is_so("open", run(ZZTOOL, "open", "taken.zed", "drawn.zzt"), f"0 {len(wanted)} bytes")
    is_so("the world that is opened", bytes_of("drawn.zzt") == wanted, True)
    board, stat = next((board, stat) for board in world.boards for stat in board.stats[1:] if has_own_program(board, stat))
    world.score ^= 1
    board.shots ^= 1
    stat.p1 ^= 1
    stat.program += b"\rWhat a large world!\r"
    board.fill(10, 10, 20, 12, (250, 14))
    put("drawn.zzt", zzt.write(world))
    told = run(ZZTOOL, "take", "taken.zed", 9, "drawn.zzt").splitlines()[0]
    is_so("take", re.sub(r": [0-9.]+ to [0-9.]+$", "", told), f"0 5 taken, {COUNT + 5} edits")
    is_so("the edits before what is taken", bytes_of("taken.zed").startswith(data), True)
    saves("taken.zed", world)


def lost_are_seen(edits, world):
    """The comparison itself: where one edit in a thousand is left out, the world is another one."""
    put("fewer.zed", zed.spelled(WORLD, [it for number, it in enumerate(edits) if number % 1000 != 500]))
    run(ZZTED, "save", "fewer.zzt", "fewer.zed")
    is_so("a world of fewer edits", zzt.differences(zzt.read(bytes_of("fewer.zzt")), world) == "nothing", False)


def main():
    edits = AllKinds(COUNT).edits
    document = Document(edits)
    data, world = zed.spelled(WORLD, edits), document.world()
    put("all.zed", data)
    all_kinds(edits)
    saves("all.zed", world)
    merges(edits, data)
    edit_adds_one(document, edits, data)
    is_so("a line of log", other_line(edits), "none")
    takes(world, data)
    lost_are_seen(edits, world)
    print(f"large: {passed} passed, {failed} failed")


main()
