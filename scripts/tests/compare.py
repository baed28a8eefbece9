"""What `zztool compare` should tell of two edit files, by docs/COMPARE.md: nothing of Wergozil's own code is used here.

Usage: compare.py make SEED MINE THEIRS    writes two files of one world with edits at random
       compare.py tell MINE THEIRS         prints the lines
"""

import random
import re
import sys
from pathlib import Path

import edits
import lint
import zed
import zzt
from zed import GENESIS, TITLE, Document

WORLD = 7
MOST = 12
NUMBERS = ["ammo", "gems", "health", "torches", "torch ticks", "energizer ticks", "score", "time passed", "hundredths"]
KEYS = ["blue", "green", "cyan", "red", "purple", "yellow", "white"]
HEADER = [*NUMBERS, *(f"key {it}" for it in KEYS), "saved", "start board", "name", *(f"flag {it}" for it in range(1, 11))]
PROPERTIES = [
    ("name", (zed.NAME,)), ("message", (zed.MESSAGE,)), ("rank", (zed.RANK,)), ("max shots", (zed.SHOTS,)), ("dark", (zed.DARK,)),
    ("re-enter", (zed.RE_ENTER,)), ("time limit", (zed.TIME_LIMIT,)), ("start", (zed.START_X, zed.START_Y)),
]
EXITS = [(f"exit {it}", (zed.NORTH + i,)) for i, it in enumerate(("north", "south", "west", "east"))]
FIELDS = [
    ("place", (zed.X, zed.Y)), ("step", (zed.STEP_X, zed.STEP_Y)), ("under", (zed.UNDER, zed.UNDER_COLOUR)), ("cycle", (zed.CYCLE,)),
    ("position", (zed.POSITION,)), ("p1", (zed.P1,)), ("p2", (zed.P2,)), ("follower", (zed.FOLLOWER,)), ("leader", (zed.LEADER,)), ("p3", (zed.P3,)),
]
SIDES = ("theirs", "mine")


def counted(count, one="edit"):
    return f"{count} {one}" if count == 1 else f"{count} {one}s"


def stamp_told(it):
    return f"{it[0]}.{it[1]}"


def is_name(value):
    return isinstance(value, tuple) and len(value) == 3 and all(isinstance(it, int) for it in value)


# ---- one set of edits


def names_in(edit):
    """The boards, stats and texts that an edit names."""
    values = edit.value if edit.op == zed.STAT_ADD else [edit.value] if edit.op in (zed.SET_HEADER, zed.SET_BOARD, zed.SET_STAT) else []
    return [it for it in (edit.of, *values) if is_name(it)]


class Side:
    """What a set of edits shows, which of them are held, and which edit wrote each register last."""

    def __init__(self, stamped):
        self.edits = [stamped[it] for it in sorted(stamped)]
        self.document, self.held, self.writer, self.remover = Document(), set(), {}, {}
        self.made, self.inserted = set(), set()
        for edit in self.edits:
            if self.is_done(edit):
                self.document.do(edit)
                self.note(edit)
            else:
                self.held.add(edit.stamp)
        self.numbers = {it: number for number, it in enumerate(self.document.numbered())}

    def is_done(self, edit):
        if edit.op == 1:
            return True
        named = [] if edit.field is None else [edit.field] if edit.op == zed.TEXT_INSERT else []
        if edit.op == zed.TEXT_DELETE:
            named = [(*edit.field, it) for it in edit.value]
        return all(it in self.made for it in names_in(edit)) and all((edit.of, it) in self.inserted for it in named)

    def note(self, edit):
        here, document = (*edit.stamp, 0), self.document
        if edit.op == 1:
            self.made |= {*document.boards, *document.stats, *document.texts}
            self.inserted |= {(text, it) for text, made in document.texts.items() for it in made.byte}
            self.writer |= {(zed.SET_HEADER, None, it): edit.stamp for it in range(len(HEADER))}
        elif edit.op in (zed.BOARD_ADD, zed.STAT_ADD, zed.TEXT_ADD):
            self.made.add(here)
        elif edit.op == zed.TEXT_INSERT:
            self.inserted |= {(edit.of, (*edit.stamp, it)) for it in range(len(edit.value))}
        elif edit.op == zed.SET_HEADER:
            self.writer[edit.op, None, edit.field] = edit.stamp
        elif edit.op in (zed.SET_BOARD, zed.SET_STAT):
            self.writer[edit.op, edit.of, edit.field] = edit.stamp
        elif edit.op == zed.SET_CELLS:
            left, top, right, bottom, *_ = edit.value
            for y in range(top, bottom + 1):
                for x in range(left, right + 1):
                    self.writer[edit.of, "cell", 60 * (y - 1) + x - 1] = edit.stamp
        elif edit.op in (zed.BOARD_REMOVE, zed.STAT_REMOVE):
            self.remover.setdefault((edit.op, edit.of), edit.stamp)

    def written(self, op, of, fields):
        """The last edit by an op that wrote one of some registers: their maker, if no other did."""
        return max(self.writer.get((op, of, it), of[:2] if of else GENESIS) for it in fields)

    def removed_by(self, op, of):
        return self.remover.get((op, of))

    # ---- what it shows

    def target(self, board):
        return (board, board in self.document.boards and not self.document.boards[board].removed)

    def header(self, field):
        value = self.document.header[field]
        return self.target(value) if field == zed.CURRENT else value

    def property(self, board, fields):
        if board not in self.document.boards:
            return None
        values = tuple(self.document.boards[board].fields[it] for it in fields)
        return self.target(values[0]) if zed.NORTH <= fields[0] < zed.NAME else values

    def field(self, stat, fields):
        if stat not in self.document.stats:
            return None
        values = tuple(self.document.stats[stat].fields[it] for it in fields)
        return self.target(values[0]) if fields == (zed.P3,) and is_name(values[0]) else values

    def shows_board(self, board):
        return board in self.document.boards and not self.document.boards[board].removed

    def shows_stat(self, board, stat):
        return self.shows_board(board) and stat in self.document.stats and not self.document.stats[stat].removed

    def text(self, stat):
        return self.document.stats[stat].fields[zed.TEXT] if stat in self.document.stats else None

    def stats(self, board):
        return sorted(self.document.boards[board].stats) if board in self.document.boards else []

    def shown_texts(self):
        """The first stat that shows each text."""
        shown = {}
        for board in sorted(self.document.boards):
            for stat in self.stats(board):
                if self.shows_stat(board, stat) and self.text(stat):
                    shown.setdefault(self.text(stat), stat)
        return shown

    # ---- what things are called

    def called(self, board):
        kind = f"board {self.numbers[board]}" if board in self.numbers else "removed board"
        return f"{kind} {lint.quoted(self.document.boards[board].fields[zed.NAME])}"

    def home(self, stat):
        return next(it for it, board in self.document.boards.items() if stat in board.stats)

    def called_stat(self, stat):
        board, it = self.home(stat), self.document.stats[stat]
        alive = self.document.stats_of(board)
        kind = "removed stat" if it.removed else f"stat {alive.index(stat)}"
        label = self.document.texts[self.text(stat)].bytes().split(b"\r")[0] if self.text(stat) else b""
        if label:
            label = lint.quoted(label)
        else:
            x, y = it.fields[zed.X], it.fields[zed.Y]
            inside = 1 <= x <= 60 and 1 <= y <= 25
            label = lint.element(self.document.boards[board].tiles[60 * (y - 1) + x - 1][0]) if inside else "-"
        return f"{kind} {label} of {self.called(board)}"


# ---- what a side did since both parted


class Work:
    def __init__(self, side, other):
        self.own = [it for it in side.edits if it.stamp not in {edit.stamp for edit in other.edits}]
        self.held = [it for it in self.own if it.stamp in side.held]
        self.of = {}
        homes, owners = {}, {}
        for board in sorted(side.document.boards):
            for stat in side.stats(board):
                homes[stat] = board
                if side.text(stat) and (side.text(stat) not in owners or not side.document.stats[stat].removed):
                    owners[side.text(stat)] = stat
        for edit in self.own:
            if edit.stamp not in side.held:
                for thing in self.things(edit, homes, owners):
                    self.of[thing] = self.of.get(thing, 0) + 1

    @staticmethod
    def things(edit, homes, owners):
        if edit.op in (zed.BOARD_REMOVE, zed.SET_BOARD, zed.SET_CELLS, zed.STAT_ADD):
            return [("board", edit.of)]
        if edit.op in (zed.STAT_REMOVE, zed.SET_STAT):
            return [("stat", edit.of), ("board", homes[edit.of])]
        if edit.op in (zed.TEXT_INSERT, zed.TEXT_DELETE):
            board = [("board", homes[owners[edit.of]])] if edit.of in owners else []
            return [("text", edit.of), *board]
        return []

    def count(self, kind, thing):
        return self.of.get((kind, thing), 0)

    def told(self):
        replicas = sorted({it.stamp[1] for it in self.own})
        of = f" of {', '.join(map(str, replicas))}" if replicas else ""
        held = f" ({len(self.held)} held)" if self.held else ""
        return f"{counted(len(self.own))}{of}{held}"


# ---- both


class Comparison:
    def __init__(self, mine, theirs):
        common = {it: mine[it] for it in mine if it in theirs}
        self.base, self.mine, self.theirs, self.union = (Side(it) for it in (common, mine, theirs, {**theirs, **mine}))
        self.work = {"mine": Work(self.mine, self.theirs), "theirs": Work(self.theirs, self.mine)}
        self.shown = self.union.shown_texts()
        self.lines = []

    def side(self, word):
        return self.mine if word == "mine" else self.theirs

    def lost(self, read):
        """The sides whose value doesn't show, and which shows what the union does."""
        base, union = read(self.base), read(self.union)
        lost = tuple(it for it in ("mine", "theirs") if read(self.side(it)) != base and read(self.side(it)) != union)
        return lost, next((it for it in SIDES if read(self.side(it)) == union), None)

    def target(self, value):
        board, there = value
        if board is None:
            return "none"
        if not there:
            return "nowhere"
        if self.union.shows_board(board):
            return self.union.called(board)
        by = f" by {stamp_told(self.union.removed_by(zed.BOARD_REMOVE, board))}"
        return f"{lint.quoted(self.union.document.boards[board].fields[zed.NAME])}, which is removed{by}"

    def tell(self, where, what, read, spell, writer):
        lost, shown = self.lost(read)
        if lost:
            whose = f" ({shown} by {stamp_told(writer)})" if shown else ""
            values = "".join(f"; {it} {spell(read(self.side(it)))}" for it in lost)
            self.lines.append(f"{where}  {what}: {spell(read(self.union))}{whose}{values}")

    # ---- the world, boards, cells, stats

    def tell_header(self):
        for field, what in enumerate(HEADER):
            kind = zed.HEADER[field]
            spell = self.target if kind == "name" else lint.quoted if kind == "string" else str if kind == "integer" else switch
            self.tell("world", what, lambda it: it.header(field), spell, self.union.written(zed.SET_HEADER, None, [field]))

    def spell_property(self, fields):
        if fields[0] in (zed.NAME, zed.MESSAGE):
            return lambda it: lint.quoted(it[0])
        if fields[0] in (zed.DARK, zed.RE_ENTER):
            return lambda it: switch(it[0])
        if zed.NORTH <= fields[0] < zed.NAME:
            return lambda it: "none" if it is None else self.target(it)
        return lambda it: str(it[0]) if len(it) == 1 else f"({it[0]},{it[1]})"

    def tell_properties(self, board, properties):
        for what, fields in properties:
            read = lambda it: it.property(board, fields)
            self.tell(self.union.called(board), what, read, self.spell_property(fields), self.union.written(zed.SET_BOARD, board, fields))

    def tell_cells(self, board):
        if any(board not in it.document.boards for it in (self.base, self.mine, self.theirs)):
            return
        cells = {}
        for i in range(1500):
            read = lambda it: it.document.boards[board].tiles[i]
            lost, shown = self.lost(read)
            if lost:
                cells[i] = (read(self.union), shown, tuple((it, read(self.side(it))) for it in lost))
        blocks = []
        while cells:
            blocks.append(self.block(board, cells))
        where = self.union.called(board)
        if len(blocks) > MOST:
            self.lines.append(f"{where}  {cells_counted(blocks)}")
        else:
            self.lines += [f"{where}  {block_told(it)}" for it in blocks]

    def block(self, board, cells):
        """The first rectangle of equal cells, wide before high; its cells are taken out."""
        first = next(iter(cells))
        left, top, alike = first % 60, first // 60, cells[first]
        right = left
        while right < 59 and cells.get(60 * top + right + 1) == alike:
            right += 1
        bottom = top
        while bottom < 24 and all(cells.get(60 * (bottom + 1) + x) == alike for x in range(left, right + 1)):
            bottom += 1
        inside = [60 * y + x for y in range(top, bottom + 1) for x in range(left, right + 1)]
        writers = {self.union.writer.get((board, "cell", it), (0, 0)) for it in inside}
        for it in inside:
            del cells[it]
        return (left + 1, top + 1, right + 1, bottom + 1), alike, max(writers), len(writers) > 1

    def spell_field(self, what):
        if what in ("place", "step"):
            return lambda it: f"({it[0]},{it[1]})" if what == "place" else f"{it[0]},{it[1]}"
        if what == "under":
            return tile_told
        if what in ("follower", "leader"):
            return lambda it: self.union.called_stat(it[0]) if it[0] else "none"
        return lambda it: str(it[0]) if len(it) == 1 else self.target(it)

    def tell_stat(self, board, stat):
        if not self.union.shows_stat(board, stat):
            for it in SIDES:
                self.tell_gone_stat(it, board, stat)
            return
        where = self.union.called_stat(stat)
        for what, fields in FIELDS:
            read = lambda it: it.field(stat, fields)
            self.tell(where, what, read, self.spell_field(what), self.union.written(zed.SET_STAT, stat, fields))
        self.tell_program(where, stat)

    def tell_program(self, where, stat):
        text = self.union.text(stat)
        mine, theirs = (self.work[it].count("text", text) for it in ("mine", "theirs"))
        if mine and theirs and self.shown.get(text) == stat:
            self.lines.append(f"{where}  program: both changed it, mine by {counted(mine)}, theirs by {theirs}; both are kept")
        for it in ("mine", "theirs"):
            text = self.side(it).text(stat)
            count = self.work[it].count("text", text)
            if text and count and text not in self.shown:
                by = stamp_told(self.union.written(zed.SET_STAT, stat, [zed.TEXT]))
                self.lines.append(f"{where}  program: {other(it)} gave it another by {by}; {it} made {counted(count)} in the old one")

    def tell_gone_stat(self, word, board, stat):
        side = self.side(word)
        if side.shows_stat(board, stat):
            text = side.text(stat)
            count = self.work[word].count("stat", stat) + (self.work[word].count("text", text) if text and text not in self.shown else 0)
            self.tell_gone(side.called_stat(stat), word, self.union.removed_by(zed.STAT_REMOVE, stat), count)

    def tell_gone(self, where, word, remover, count):
        if count:
            by = f" by {stamp_told(remover)}" if remover else ""
            self.lines.append(f"{where} of {word}  {other(word)} removed it{by}; {word} made {counted(count)} on it")

    def tell_board(self, board):
        if not self.union.shows_board(board):
            for it in SIDES:
                if self.side(it).shows_board(board):
                    self.tell_gone(self.side(it).called(board), it, self.union.removed_by(zed.BOARD_REMOVE, board), self.work[it].count("board", board))
            return
        self.tell_properties(board, PROPERTIES)
        self.tell_cells(board)
        self.tell_properties(board, EXITS)
        for stat in self.union.stats(board):
            self.tell_stat(board, stat)

    # ---- lint

    def found(self, side):
        """The lines of lint, each by the board that it is of and its words behind the numbers."""
        names = side.document.numbered()
        for line in lint.of_file(zzt.write(side.document.world())):
            number, words = re.fullmatch(r"(?:board (\d+) (?:stat \d+ )?)?(.*)", line, re.DOTALL).groups()
            yield (names[int(number)] if number else None, words), line

    def tell_new(self):
        old = {key for it in ("mine", "theirs") for key, _ in self.found(self.side(it))}
        self.lines += [f"{line}  (new)" for key, line in self.found(self.union) if key not in old]

    def told(self):
        self.tell_header()
        for board in sorted(self.union.document.boards):
            self.tell_board(board)
        self.tell_new()
        count = f"{len(self.lines)} to look at" if self.lines else "nothing is overridden"
        return [f"mine: {self.work['mine'].told()}; theirs: {self.work['theirs'].told()}; {count}", *self.lines]


def other(word):
    return "theirs" if word == "mine" else "mine"


def switch(value):
    return "yes" if value else "no"


def tile_told(tile):
    return f"{lint.element(tile[0])} 0x{tile[1]:02x}"


def block_told(block):
    (left, top, right, bottom), (union, shown, lost), writer, has_others = block
    place = f"({left},{top})" + (f"-({right},{bottom})" if (left, top) != (right, bottom) else "")
    by = f" by {stamp_told(writer)}" if writer != (0, 0) else ""
    whose = f" ({shown}{by}{', and others' if has_others else ''})" if shown else ""
    return f"{place}: {tile_told(union)}{whose}" + "".join(f"; {it} {tile_told(tile)}" for it, tile in lost)


def cells_counted(blocks):
    def of(word):
        return sum((r - l + 1) * (b - t + 1) for (l, t, r, b), (_, _, lost), _, _ in blocks if word in dict(lost))

    left, top = min(it[0][0] for it in blocks), min(it[0][1] for it in blocks)
    right, bottom = max(it[0][2] for it in blocks), max(it[0][3] for it in blocks)
    corners = f"({left},{top})-({right},{bottom})"
    return f"{counted(of('mine') + of('theirs'), 'cell')} in {corners}: {of('mine')} of mine and {of('theirs')} of theirs don't show"


# ---- reading edit files


def parts_of(data):
    """The fields of a body, read one by one."""
    at = 0

    def take(count):
        nonlocal at
        at += count
        return data[at - count : at]

    def number(count, signed=False):
        return int.from_bytes(take(count), "little", signed=signed)

    def stamp():
        return (number(6), number(2))

    def name():
        return (*stamp(), number(4))

    read = {
        "byte": lambda: number(1), "integer": lambda: number(2, True), "word": lambda: number(2), "name": name,
        "optional": lambda: name() if number(1) else None, "third": lambda: name() if number(1) else number(1), "string": lambda: take(number(1)),
    }
    return stamp, number, name, read, lambda: data[at:]


def edit_of(body):
    stamp, number, name, read, rest = parts_of(body)
    it, op = stamp(), number(1)
    if op == 1:
        return zed.Edit(it, op, value=rest())
    of = name() if op not in (zed.SET_HEADER, zed.BOARD_ADD, zed.TEXT_ADD) else None
    if op in (zed.SET_HEADER, zed.SET_BOARD, zed.SET_STAT):
        field = number(1)
        kind = {zed.SET_HEADER: zed.HEADER, zed.SET_BOARD: zed.BOARD, zed.SET_STAT: zed.STAT}[op][field]
        return zed.Edit(it, op, of, field, read[kind]())
    if op == zed.BOARD_ADD:
        return zed.Edit(it, op, value=read["string"]())
    if op == zed.SET_CELLS:
        return zed.Edit(it, op, of, value=tuple(rest()))
    if op == zed.STAT_ADD:
        value = [0] * len(zed.STAT)
        value[zed.FOLLOWER] = value[zed.LEADER] = None
        for field in (zed.X, zed.Y, zed.STEP_X, zed.STEP_Y, zed.CYCLE, zed.P1, zed.P2, zed.P3, zed.UNDER, zed.UNDER_COLOUR, zed.TEXT):
            value[field] = read[zed.STAT[field]]()
        return zed.Edit(it, op, of, value=value)
    if op == zed.TEXT_INSERT:
        after = read["optional"]()
        return zed.Edit(it, op, of, after, rest())
    if op == zed.TEXT_DELETE:
        return zed.Edit(it, op, of, stamp(), (number(4), number(4)))
    return zed.Edit(it, op, of)


def edits_in(file):
    data, at, found = Path(file).read_bytes(), 12, {}
    while at < len(data):
        length = int.from_bytes(data[at : at + 4], "little")
        edit = edit_of(data[at + 4 : at + 4 + length])
        found[edit.stamp] = edit
        at += 4 + length
    return found


# ---- edits at random


def make(seed, *files):
    """Two authors go on from the same edits. What names something that its side doesn't have is held there, or left out."""
    chance = random.Random(seed)
    made = edits.AllKinds(chance.choice([60, 150, 400, 1000])).edits
    parted = chance.randrange(1, len(made) // chance.choice([1, 2, 8]))
    sides = [dict(), dict()]
    for number, edit in enumerate(made):
        wanted = [0, 1] if number < parted else [edit.stamp[1] % 2] if chance.randrange(30) else [0, 1]
        for side in wanted:
            sides[side][edit.stamp] = edit
    for file, side in zip(files, sides):
        seen = Side(side)
        kept = [it for it in seen.edits if it.stamp not in seen.held or not chance.randrange(4)]
        Path(file).write_bytes(zed.spelled(WORLD, kept))


def main():
    match sys.argv[1:]:
        case ["make", seed, mine, theirs]:
            make(int(seed), mine, theirs)
        case ["tell", mine, theirs]:
            sys.stdout.write("\n".join(Comparison(edits_in(mine), edits_in(theirs)).told()) + "\n")
        case _:
            sys.exit(__doc__)


if __name__ == "__main__":
    main()
