"""World files of ZZT 3.2 as an editor would read and write them: nothing of Wergozil's own code is used here."""

import copy
import struct
from dataclasses import dataclass, field

COLUMNS, ROWS = 60, 25
PASSAGE, PLAYER = 11, 4


class Damaged(Exception):
    pass


def text_at(data, at, size):
    """A string: a length, and a field of so many bytes."""
    return data[at + 1 : at + 1 + min(data[at], size)]


def text_of(text, size, rubbish=b""):
    """The same as bytes. Editors leave what lies behind the string's end as it was."""
    return bytes([len(text)]) + (text + rubbish * size)[:size].ljust(size, b"\0") if rubbish else bytes([len(text)]) + text.ljust(size, b"\0")


@dataclass
class Stat:
    x: int = 1
    y: int = 1
    step: tuple = (0, 0)
    cycle: int = 0
    p1: int = 0
    p2: int = 0
    p3: int = 0
    follower: int = -1
    leader: int = -1
    under: tuple = (0, 0)
    position: int = 0
    # its own bytes, or the number of the stat whose program it has
    program: object = b""


@dataclass
class Board:
    name: bytes = b""
    tiles: list = field(default_factory=lambda: [(0, 0)] * (COLUMNS * ROWS))
    shots: int = 255
    dark: int = 0
    # north, south, west, east
    exits: list = field(default_factory=lambda: [0, 0, 0, 0])
    re_enter: int = 0
    message: bytes = b""
    start: tuple = (1, 1)
    time_limit: int = 0
    stats: list = field(default_factory=list)

    def at(self, x, y):
        return self.tiles[(y - 1) * COLUMNS + x - 1] if 1 <= x <= COLUMNS and 1 <= y <= ROWS else None

    def put(self, x, y, tile):
        self.tiles[(y - 1) * COLUMNS + x - 1] = tile

    def fill(self, x0, y0, x1, y1, tile):
        for y in range(y0, y1 + 1):
            for x in range(x0, x1 + 1):
                self.put(x, y, tile)


@dataclass
class World:
    ammo: int = 0
    gems: int = 0
    keys: list = field(default_factory=lambda: [0] * 7)
    health: int = 100
    current: int = 0
    torches: int = 0
    torch_ticks: int = 0
    energizer: int = 0
    score: int = 0
    name: bytes = b""
    flags: list = field(default_factory=lambda: [b""] * 10)
    passed: int = 0
    hundredths: int = 0
    saved: int = 0
    boards: list = field(default_factory=list)

    def copy(self):
        return copy.deepcopy(self)


def read_stat(body, at):
    if at + 33 > len(body):
        raise Damaged("stat")
    x, y, sx, sy, cycle, p1, p2, p3, follower, leader, ue, uc = struct.unpack_from("<BBhhhBBBhhBB", body, at)
    position, length = struct.unpack_from("<hh", body, at + 21)
    stat = Stat(x, y, (sx, sy), cycle, p1, p2, p3, follower, leader, (ue, uc), position)
    at += 33
    if length > 0:
        stat.program = body[at : at + length]
        at += length
    elif length < 0:
        stat.program = -length
    return stat, at


def read_board(body):
    board = Board(name=text_at(body, 0, 50), tiles=[])
    at = 51
    while len(board.tiles) < COLUMNS * ROWS:
        count, element, colour = body[at : at + 3]
        board.tiles += [(element, colour)] * (count or 256)
        at += 3
    del board.tiles[COLUMNS * ROWS :]
    board.shots, board.dark = body[at], body[at + 1]
    board.exits = list(body[at + 2 : at + 6])
    board.re_enter = body[at + 6]
    board.message = text_at(body, at + 7, 58)
    board.start = (body[at + 66], body[at + 67])
    (board.time_limit,) = struct.unpack_from("<h", body, at + 68)
    (count,) = struct.unpack_from("<h", body, at + 86)
    at += 88
    for _ in range(count + 1):
        stat, at = read_stat(body, at)
        board.stats.append(stat)
    return board


def read(data):
    world = World()
    kind, count, world.ammo, world.gems = struct.unpack_from("<hhhh", data, 0)
    if kind != -1:
        raise Damaged("type")
    world.keys = list(data[8:15])
    world.health, world.current, world.torches, world.torch_ticks, world.energizer = struct.unpack_from("<hhhhh", data, 15)
    (world.score,) = struct.unpack_from("<h", data, 27)
    world.name = text_at(data, 29, 20)
    world.flags = [text_at(data, 50 + 21 * i, 20) for i in range(10)]
    world.passed, world.hundredths, world.saved = struct.unpack_from("<hhB", data, 260)
    at = 512
    for _ in range(count + 1):
        (size,) = struct.unpack_from("<H", data, at)
        world.boards.append(read_board(data[at + 2 : at + 2 + size]))
        at += 2 + size
    return world


def runs_of(tiles, longest):
    """Runs of tiles, none longer than so many."""
    out, at = bytearray(), 0
    while at < len(tiles):
        count = 1
        while count < longest and at + count < len(tiles) and tiles[at + count] == tiles[at]:
            count += 1
        out += bytes([count % 256, *tiles[at]])
        at += count
    return bytes(out)


def write_board(board, rubbish, longest):
    fill = bytes([rubbish]) if rubbish else b""
    out = bytearray(text_of(board.name, 50, fill))
    out += runs_of(board.tiles, longest)
    out += bytes([board.shots, board.dark, *board.exits, board.re_enter])
    out += text_of(board.message, 58, fill) + bytes(board.start) + struct.pack("<h", board.time_limit) + bytes([rubbish]) * 16
    out += struct.pack("<h", len(board.stats) - 1)
    for stat in board.stats:
        length = -stat.program if isinstance(stat.program, int) else len(stat.program)
        out += struct.pack("<BBhhhBBBhhBB", stat.x, stat.y, *stat.step, stat.cycle, stat.p1, stat.p2, stat.p3, stat.follower, stat.leader, *stat.under)
        out += bytes([rubbish]) * 4 + struct.pack("<hh", stat.position, length) + bytes([rubbish]) * 8
        if length > 0:
            out += stat.program
    return bytes(out)


def write(world, rubbish=0, longest=255):
    """The bytes of a world. `rubbish` is what an editor leaves in unused bytes, and `longest` its longest run (256 is written as 0)."""
    fill = bytes([rubbish]) if rubbish else b""
    head = struct.pack("<hhhh", -1, len(world.boards) - 1, world.ammo, world.gems) + bytes(world.keys)
    head += struct.pack("<hhhhh", world.health, world.current, world.torches, world.torch_ticks, world.energizer) + bytes([rubbish]) * 2
    head += struct.pack("<h", world.score) + text_of(world.name, 20, fill) + b"".join(text_of(it, 20, fill) for it in world.flags)
    head += struct.pack("<hhB", world.passed, world.hundredths, world.saved)
    out = bytearray(head + bytes([rubbish]) * (512 - len(head)))
    for board in world.boards:
        body = write_board(board, rubbish, longest)
        out += struct.pack("<H", len(body)) + body
    return bytes(out)


def normal(world):
    """The same world as every reader of Wergozil sees it: flags are 0 or 1, and what names nothing is none."""
    world = world.copy()
    boards = len(world.boards)
    world.keys = [min(it, 1) for it in world.keys]
    world.saved = min(world.saved, 1)
    world.current = world.current if 0 <= world.current < boards else 0
    for board in world.boards:
        board.dark, board.re_enter = min(board.dark, 1), min(board.re_enter, 1)
        board.exits = [it if it < boards else 0 for it in board.exits]
        stats = len(board.stats)
        for number, stat in enumerate(board.stats):
            tile = board.at(stat.x, stat.y)
            if tile and tile[0] == PASSAGE and stat.p3 >= boards:
                stat.p3 = 0
            stat.follower = stat.follower if 0 <= stat.follower < stats else -1
            stat.leader = stat.leader if 0 <= stat.leader < stats else -1
            while isinstance(stat.program, int):
                other = board.stats[stat.program].program
                if isinstance(other, int):
                    stat.program = other
                elif not other:
                    stat.program = b""
                else:
                    break
    return world


def differences(one, other):
    """Where two worlds differ, in short."""
    if isinstance(one, str) or isinstance(other, str):
        return f"{one} {other}"[:200]
    for name in vars(one):
        if name != "boards" and getattr(one, name) != getattr(other, name):
            return f"{name}: {getattr(one, name)} {getattr(other, name)}"
    if len(one.boards) != len(other.boards):
        return f"boards: {len(one.boards)} {len(other.boards)}"
    for number, (b, c) in enumerate(zip(one.boards, other.boards)):
        for name in vars(b):
            if getattr(b, name) != getattr(c, name):
                return f"board {number} {name}: {str(getattr(b, name))[:90]} {str(getattr(c, name))[:90]}"
    return "nothing"


# ---- worlds that are spelled as no editor spells them


def body_of(data, number):
    """Where the body of a board begins, and where it ends."""
    at = 512
    for _ in range(number):
        at += 2 + int.from_bytes(data[at : at + 2], "little")
    return at + 2, at + 2 + int.from_bytes(data[at : at + 2], "little")


def with_body(data, number, change_it):
    """The same bytes with another body of a board."""
    begin, end = body_of(data, number)
    body = change_it(data[begin:end])
    return data[: begin - 2] + len(body).to_bytes(2, "little") + body + data[end:]


def poked(data, at, byte):
    return data[:at] + bytes([byte]) + data[at + 1 :]


def long_last_run(body):
    """Makes the last run of a board's tiles longer than the board."""
    tiles, at = 0, 51
    while tiles + (body[at] or 256) < 1500:
        tiles, at = tiles + (body[at] or 256), at + 3
    return poked(body, at, 0)


def long_strings(data):
    """The lengths of the world's name, a flag, a board's name and its message are greater than their fields."""
    data = poked(poked(data, 29, 21), 50, 255)
    return with_body(data, 1, lambda body: poked(poked(body, 0, 255), body.index(b":" + b"m" * 58), 59))
