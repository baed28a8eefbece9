"""Edit files as docs/FORMATS.md spells them, and what one author makes by edits: nothing of Wergozil's own code is used here."""

import struct
from dataclasses import dataclass, field
from typing import Any, NamedTuple

import zzt

HEAD = b"ZED\2"
GENESIS = (1, 0)
TITLE = (*GENESIS, 0)

# what kind of value each field has, by its number
HEADER = ["integer"] * 9 + ["byte"] * 8 + ["name"] + ["string"] * 11
BOARD = ["byte"] * 5 + ["integer"] + ["optional"] * 4 + ["string"] * 2 + ["word"]
STAT = ["byte"] * 2 + ["integer"] * 4 + ["byte"] * 2 + ["third"] + ["optional"] * 2 + ["byte"] * 2 + ["optional"]

# fields that are told apart below
CURRENT = 17
SHOTS, DARK, RE_ENTER, START_X, START_Y, TIME_LIMIT, NORTH, NAME, MESSAGE, RANK = 0, 1, 2, 3, 4, 5, 6, 10, 11, 12
X, Y, STEP_X, STEP_Y, CYCLE, POSITION, P1, P2, P3, FOLLOWER, LEADER, UNDER, UNDER_COLOUR, TEXT = range(14)


class Edit(NamedTuple):
    """A stamp is (time, replica), and a name (time, replica, index). `of` is the board, stat or text, and `field` a number; of an insertion
    it is the byte before the new ones, or None, and of a deletion the stamp of the insertion."""

    stamp: tuple
    op: int
    of: Any = None
    field: Any = None
    value: Any = None


SET_HEADER, BOARD_ADD, BOARD_REMOVE, SET_BOARD, SET_CELLS, STAT_ADD, STAT_REMOVE, SET_STAT, TEXT_ADD, TEXT_INSERT, TEXT_DELETE = range(2, 13)


# ---- spelling


def stamp(it):
    return it[0].to_bytes(6, "little") + it[1].to_bytes(2, "little")


def name(it):
    return stamp(it) + it[2].to_bytes(4, "little")


def optional(it):
    return b"\0" if it is None else b"\1" + name(it)


def third(it):
    return b"\1" + name(it) if isinstance(it, tuple) else bytes([0, it])


def string(it):
    return bytes([len(it)]) + it


SPELLED = {
    "byte": lambda it: bytes([it]),
    "integer": struct.Struct("<h").pack,
    "word": struct.Struct("<H").pack,
    "name": name,
    "optional": optional,
    "third": third,
    "string": string,
}


def body_of(edit):
    _, op, of, number, value = edit
    out = stamp(edit.stamp) + bytes([op])
    if op == 1:
        return out + value
    if of is not None:
        out += name(of)
    if op in (SET_HEADER, SET_BOARD, SET_STAT):
        kind = {SET_HEADER: HEADER, SET_BOARD: BOARD, SET_STAT: STAT}[op][number]
        return out + bytes([number]) + SPELLED[kind](value)
    if op == BOARD_ADD:
        return out + string(value)
    if op == SET_CELLS:
        return out + bytes(value)
    if op == STAT_ADD:
        fields = (X, Y, STEP_X, STEP_Y, CYCLE, P1, P2, P3, UNDER, UNDER_COLOUR, TEXT)
        return out + b"".join(SPELLED[STAT[it]](value[it]) for it in fields)
    if op == TEXT_INSERT:
        return out + optional(number) + value
    if op == TEXT_DELETE:
        return out + stamp(number) + struct.pack("<II", *value)
    return out


def record_of(edit):
    body = body_of(edit)
    return len(body).to_bytes(4, "little") + body


def spelled(world, edits):
    return HEAD + world.to_bytes(8, "little") + b"".join(map(record_of, edits))


# ---- what edits make


@dataclass
class Board:
    tiles: list
    fields: list
    stats: list
    removed: bool = False


@dataclass
class Stat:
    fields: list
    is_player: bool = False
    removed: bool = False


@dataclass
class Text:
    """Each byte by its name, which one stands behind each (behind None the first), and which are deleted."""

    byte: dict = field(default_factory=dict)
    behind: dict = field(default_factory=lambda: {None: None})
    dead: set = field(default_factory=set)

    def insert(self, it, after, data):
        for index, byte in enumerate(data):
            here = (*it, index)
            self.byte[here], self.behind[here], self.behind[after] = byte, self.behind[after], here
            after = here

    def bytes(self):
        out, here = bytearray(), self.behind[None]
        while here is not None:
            if here not in self.dead:
                out.append(self.byte[here])
            here = self.behind[here]
        return bytes(out)


class Document:
    """What one author has who makes edits in the order of their stamps: a later one overwrites, and nothing that was made goes."""

    def __init__(self, edits=()):
        self.boards, self.stats, self.texts = {}, {}, {}
        for edit in edits:
            self.do(edit)

    def do(self, edit):
        it, op, of, number, value = edit
        here = (*it, 0)
        if op == 1:
            self.open(zzt.read(value))
        elif op == SET_HEADER:
            self.header[number] = value
        elif op == BOARD_ADD:
            self.boards[here] = new_board(value, here)
            self.stats[here] = Stat([30, 12, 0, 0, 1, 0, 0, 0, 0, None, None, 0, 0, None], True)
        elif op == BOARD_REMOVE:
            self.boards[of].removed = True
        elif op == SET_BOARD:
            self.boards[of].fields[number] = value
        elif op == SET_CELLS:
            left, top, right, bottom, *tile = value
            for y in range(top - 1, bottom):
                self.boards[of].tiles[60 * y + left - 1 : 60 * y + right] = [tuple(tile)] * (right - left + 1)
        elif op == STAT_ADD:
            self.boards[of].stats.append(here)
            self.stats[here] = Stat(list(value))
        elif op == STAT_REMOVE:
            self.stats[of].removed = not self.stats[of].is_player
        elif op == SET_STAT:
            self.stats[of].fields[number] = value
        elif op == TEXT_ADD:
            self.texts[here] = Text()
        elif op == TEXT_INSERT:
            self.texts[of].insert(it, number, value)
        elif op == TEXT_DELETE:
            self.texts[of].dead.update((*number, index) for index in range(value[0], value[1] + 1))

    def open(self, world):
        """The world of a Genesis: its boards, stats and programs are numbered from 0, each through the whole file."""
        w = world
        self.header = [w.ammo, w.gems, w.health, w.torches, w.torch_ticks, w.energizer, w.score, w.passed, w.hundredths]
        self.header += [*w.keys, w.saved, (*GENESIS, w.current), w.name, *w.flags]
        for number, board in enumerate(w.boards):
            exits = [(*GENESIS, it) if it else None for it in board.exits]
            fields = [board.shots, board.dark, board.re_enter, *board.start, board.time_limit, *exits, board.name, board.message, 0]
            first = len(self.stats)
            self.boards[(*GENESIS, number)] = Board(list(board.tiles), fields, [(*GENESIS, first + it) for it in range(len(board.stats))])
            for place, stat in enumerate(board.stats):
                self.stats[(*GENESIS, first + place)] = self.opened(board, first, stat, place == 0)

    def opened(self, board, first, stat, is_player):
        tile = board.at(stat.x, stat.y)
        p3 = (*GENESIS, stat.p3) if tile and tile[0] == zzt.PASSAGE else stat.p3
        others = [(*GENESIS, first + it) if it >= 0 else None for it in (stat.follower, stat.leader)]
        text = None
        if isinstance(stat.program, int):
            text = self.stats[(*GENESIS, first + stat.program)].fields[TEXT]
        elif stat.program:
            text = (*GENESIS, len(self.texts))
            self.texts[text] = Text()
            self.texts[text].insert(GENESIS, None, stat.program)
        numbers = [*stat.step, stat.cycle, stat.position]
        return Stat([stat.x, stat.y, *numbers, stat.p1, stat.p2, p3, *others, *stat.under, text], is_player)

    # ---- the world file that shows it

    def numbered(self):
        """The names of the boards by their numbers: the title, and the others by rank and name. Removed ones have none."""
        alive = [it for it, board in self.boards.items() if not board.removed]
        return sorted(alive, key=lambda it: (it != TITLE, self.boards[it].fields[RANK], it))

    def stats_of(self, board):
        return sorted(it for it in self.boards[board].stats if not self.stats[it].removed)

    def world(self):
        numbers = {it: number for number, it in enumerate(self.numbered())}
        h = self.header
        world = zzt.World(*h[0:2], list(h[9:16]), h[2], numbers.get(h[CURRENT], 0), *h[3:7], h[18], list(h[19:29]), h[7], h[8], h[16])
        world.boards = [self.board(it, numbers) for it in numbers]
        return world

    def board(self, it, numbers):
        board = self.boards[it]
        fields = board.fields
        out = zzt.Board(fields[NAME], list(board.tiles), fields[SHOTS], fields[DARK])
        out.exits = [numbers.get(to, 0) for to in fields[NORTH : NORTH + 4]]
        out.re_enter, out.message, out.time_limit = fields[RE_ENTER], fields[MESSAGE], fields[TIME_LIMIT]
        out.start = (fields[START_X], fields[START_Y])
        names = self.stats_of(it)
        places = {stat: place for place, stat in enumerate(names)}
        owners = {}
        for place, stat in enumerate(names):
            fields = self.stats[stat].fields
            shown = zzt.Stat(fields[X], fields[Y], (fields[STEP_X], fields[STEP_Y]), fields[CYCLE], fields[P1], fields[P2])
            shown.p3 = self.third(fields[P3], out.at(shown.x, shown.y), numbers)
            shown.follower, shown.leader = (places.get(fields[it], -1) for it in (FOLLOWER, LEADER))
            shown.under, shown.position = (fields[UNDER], fields[UNDER_COLOUR]), fields[POSITION]
            shown.program = self.program(fields[TEXT], place, owners)
            out.stats.append(shown)
        return out

    def third(self, it, tile, numbers):
        """The number of a board. Of a byte, it is one on a passage only if there is such a board."""
        if isinstance(it, tuple):
            return numbers.get(it, 0)
        return 0 if tile and tile[0] == zzt.PASSAGE and it >= len(numbers) else it

    def program(self, text, place, owners):
        """The bytes of a text, or the number of the lowest stat past the player that has the same one."""
        data = self.texts[text].bytes() if text else b""
        if data and text in owners:
            return owners[text]
        if place:
            owners[text] = place
        return data


def new_board(called, player):
    """A border of yellow walls, empty inside, with the player in the middle."""
    drawn = zzt.Board()
    drawn.fill(1, 1, 60, 25, (22, 0x0E))
    drawn.fill(2, 2, 59, 24, (0, 0))
    drawn.put(30, 12, (zzt.PLAYER, 0x1F))
    return Board(drawn.tiles, [255, 0, 0, 30, 12, 0, None, None, None, None, called, b"", 0], [player])
