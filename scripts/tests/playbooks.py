"""Reads playbooks: docs/PLAYBOOKS.md has their lines. Cases become worlds by zzt.py."""

import re

import zzt
from zzt import Board, Stat, World

KEYS = ["wait", "north", "south", "west", "east", "shoot_north", "shoot_south", "shoot_west", "shoot_east"]
EMPTY, PLAYER, START = (0, 0), (4, 0x1F), (30, 12)


class Fault(Exception):
    """A line that isn't understood, or a world that can't be."""


# ---- lines and their words


def number(word, least, most):
    if not re.fullmatch(r"-?(0|[1-9][0-9]*)", word) or not least <= int(word) <= most:
        raise Fault(f"{word} isn't a number from {least} to {most}")
    return int(word)


def numbers(words, least, most, count):
    if len(words) != count:
        raise Fault(f"{count} numbers are wanted")
    return [number(word, least, most) for word in words]


def chances(words):
    return [number(word, 0, 65535) for word in words]


def spelled(text):
    """The bytes that a text spells: `|` is the byte 13, `\\` and two digits any byte."""
    if not re.fullmatch(r"([^\\]|\\[0-9A-Fa-f]{2})*", text):
        raise Fault("a backslash wants two digits")
    parts = re.findall(r"\\..|[^\\]", text)
    return b"".join(bytes.fromhex(it[1:]) if it[0] == "\\" else b"\r" if it == "|" else it.encode() for it in parts)


# ---- the world of a case


class Case:
    def __init__(self, name):
        self.name, self.boards, self.told, self.acts = name, 1, 0, []
        self.world = World()
        self.board = Board(start=START, stats=[Stat(*START, cycle=1)])
        self.put(*START, PLAYER)

    def put(self, x, y, tile):
        if not (1 <= x <= 60 and 1 <= y <= 25):
            raise Fault("no place of a board")
        self.board.put(x, y, tile)

    def stat(self, i):
        if i >= len(self.board.stats):
            raise Fault("no such stat")
        return self.board.stats[i]

    def set_fields(self, stat, words):
        words = words[:]
        while words:
            name = words.pop(0)

            def take(count, least, most):
                taken = numbers(words[:count], least, most, count)
                del words[:count]
                return taken

            match name:
                case "place":
                    stat.x, stat.y = take(2, 0, 255)
                case "step":
                    stat.step = tuple(take(2, -32768, 32767))
                case "cycle":
                    (stat.cycle,) = take(1, -32768, 32767)
                case "p1" | "p2" | "p3":
                    setattr(stat, name, *take(1, 0, 255))
                case "follower" | "leader":
                    setattr(stat, name, *take(1, -1, 255))
                case "under":
                    stat.under = tuple(take(2, 0, 255))
                case "at":
                    (stat.position,) = take(1, -32768, 32767)
                case _:
                    raise Fault(f"no field {name}")

    def set_program(self, program):
        self.stat(self.told).program = program

    def describe(self, name, text):
        """Takes in a line that describes the world, if it is one."""
        words = text.split(" ") if text else []
        match name:
            case "tile":
                x, y, *tile = numbers(words, 0, 255, 4)
                self.put(x, y, tuple(tile))
            case "fill":
                x0, y0, x1, y1, *tile = numbers(words, 0, 255, 6)
                if x1 < x0 or y1 < y0:
                    raise Fault("no rectangle")
                self.put(x0, y0, tuple(tile))
                self.put(x1, y1, tuple(tile))
                self.board.fill(x0, y0, x1, y1, tuple(tile))
            case "player":
                player, (x, y) = self.stat(0), numbers(words, 0, 255, 2)
                tile = self.board.at(player.x, player.y) or PLAYER
                if self.board.at(player.x, player.y):
                    self.put(player.x, player.y, EMPTY)
                player.x, player.y = x, y
                self.put(x, y, tile)
            case "stat":
                stat = Stat(*numbers(words[:2], 0, 255, 2))
                self.set_fields(stat, words[2:])
                self.told = len(self.board.stats)
                self.board.stats.append(stat)
            case "change":
                (self.told,) = numbers(words[:1], 0, 255, 1)
                self.set_fields(self.stat(self.told), words[1:])
            case "program":
                self.set_program(spelled(text))
            case "longer":
                times, _, more = text.partition(" ")
                own = self.stat(self.told).program
                self.set_program((own if isinstance(own, bytes) else b"") + spelled(more) * number(times, 0, 65535))
            case "shares":
                (owner,) = numbers(words, 1, 255, 1)
                if owner >= self.told or not isinstance(self.stat(owner).program, bytes):
                    raise Fault("no such program")
                self.set_program(owner)
            case "health" | "ammo" | "gems" | "torches" | "score" | "time":
                setattr(self.world, "passed" if name == "time" else name, *numbers(words, -32768, 32767, 1))
            case "flag":
                i, _, flag = text.partition(" ")
                if len(spelled(flag)) > 20:
                    raise Fault("a flag has at most 20 bytes")
                self.world.flags[number(i, 0, 9)] = spelled(flag)
            case "keys":
                held = [number(word, 1, 7) for word in words]
                self.world.keys = [int(colour in held) for colour in range(1, 8)]
            case "boards":
                (self.boards,) = numbers(words, 1, 101, 1)
            case "shots":
                (self.board.shots,) = numbers(words, 0, 255, 1)
            case "exits":
                self.board.exits = numbers(words, 0, 255, 4)
            case _:
                return False
        return True

    def file(self):
        """The bytes of the world."""
        if any(it and it >= self.boards for it in self.board.exits):
            raise Fault("an exit names no board")
        for stat in self.board.stats:
            if (self.board.at(stat.x, stat.y) or EMPTY)[0] == zzt.PASSAGE and stat.p3 >= self.boards:
                raise Fault("a passage names no board")
        other = Board(start=START, stats=[Stat(*START, cycle=1)])
        other.put(*START, PLAYER)
        self.world.boards = [self.board] + [other] * (self.boards - 1)
        return zzt.write(self.world)


# ---- books


class Act:
    """What is done in a line, its words read, and what is to be seen."""

    def __init__(self, at, line):
        self.at, self.line, self.wanted = at, line, []
        self.name, *words = line.split(" ")
        match self.name:
            case "turn":
                self.stat, self.words = number(words[0], 0, 65535), chances(words[1:])
            case "opened":
                (self.tick,) = numbers(words, 1, 420, 1)
            case "begun" | "drawn":
                (self.board,) = numbers(words, 0, 65535, 1)
            case "key" | "goes":
                self.board = number(words.pop(0), 0, 65535) if self.name == "goes" else None
                if words[0] not in KEYS:
                    raise Fault(f"no key {words[0]}")
                self.key, self.words = KEYS.index(words[0]), chances(words[1:])
            case "choose":
                self.scroll, self.row = numbers(words, 0, 65535, 2)
            case "messages" | "scrolls" | "picture":
                numbers(words, 0, 0, 0)
            case "cell":
                self.column, self.row = number(words[0], 0, 79), number(words[1], 0, 24)
                numbers(words[2:], 0, 0, 0)
            case _:
                raise Fault("no such act")


def read_line(cases, at, line):
    if not line or line == "#" or line.startswith("# "):
        return
    if line.startswith("case "):
        cases.append(Case(line[5:]))
        return
    if not cases:
        raise Fault("a case is wanted first")
    case = cases[-1]
    if line == ">" or line.startswith("> "):
        if not case.acts:
            raise Fault("nothing was done yet")
        case.acts[-1].wanted.append(line[2:])
        return
    name, _, text = line.partition(" ")
    if case.acts or not case.describe(name, text):
        case.acts.append(Act(at, line))


def read_book(name):
    """The cases of a book."""
    cases = []
    with open(name, encoding="ascii") as book:
        for at, line in enumerate(book.read().splitlines(), 1):
            try:
                read_line(cases, at, line)
            except (Fault, IndexError) as fault:
                raise Fault(f"line {at}: {line}: {fault}") from None
    if not cases or not all(case.acts for case in cases):
        raise Fault("a case without acts, or no case")
    return cases
