"""A replica of a book of exchanges as an edit file, and what zzted and zztool show of it."""

import os

import editfile
import zzt
from rows import Programs

PROGRAMS = Programs(os.getcwd())
LAST = (2**48 - 1, 65535)
EMPTY = zzt.World(boards=[zzt.Board(stats=[zzt.Stat(30, 12, cycle=1)])])
EMPTY.boards[0].put(30, 12, (4, 0x1F))


def stamp_told(stamp):
    return f"{stamp[0]}.{stamp[1]}"


class Replica:
    """A replica as an edit file: the records in the order in which they came."""

    def __init__(self, world):
        self.world, self.records, self.looks = world, {}, 0

    def take(self, stamp, record):
        self.records.setdefault(stamp, record)

    def put(self, *more):
        PROGRAMS.put("replica.zed", editfile.file_of(self.world, [*self.records.values(), *more]))

    def lines(self, *options):
        """The list of its edits, or the refusal."""
        self.put()
        status, printed, complained = PROGRAMS.run(PROGRAMS.zztool, "log", *options, "replica.zed")
        return printed.decode("latin-1").splitlines() if status == 0 else complained.partition(": ")[2]

    def edits(self):
        lines = self.lines()
        return f"{len(lines)}, {sum(it.startswith('held ') for it in lines)} held"

    def waits(self, stamp):
        return "yes" if any(it.startswith(f"held {stamp[0]} {stamp[1]}  ") for it in self.lines()) else "no"

    def log(self):
        return [f"{' '.join(it.split(' ')[:2]).replace(' ', '.')} genesis" if it.split("  ")[1].startswith("genesis") else it for it in self.lines()] + ["end"]

    def saved(self, *more):
        """The world file, or why there is none."""
        self.put(*more)
        return PROGRAMS.refusal(PROGRAMS.zzted, "save", "replica.zzt", "replica.zed") or PROGRAMS.bytes_of("replica.zzt")

    def saves(self):
        saved = self.saved()
        return saved if isinstance(saved, str) else f"{len(zzt.read(saved).boards)} boards, {len(saved)} bytes"

    def text(self, name):
        """The bytes of a text: those of the program of a last stat of the title that has it. None if no stat can have it; a refusal of the world."""
        world = [] if (1, 0) in self.records else [editfile.record((1, 0), editfile.genesis(zzt.write(EMPTY)))]
        words = f"add stat board 1.0:0 (1,1) p1 0 p2 0 under empty(0) 0x00 step 0,0 cycle 1 p3 0 text {stamp_told(name[0])}:{name[1]}"
        stats = 0 if not isinstance(self.saved(*world), bytes) else len(zzt.read(self.saved(*world)).boards[0].stats)
        saved = self.saved(*world, editfile.record(LAST, editfile.op_of(words)))
        if not isinstance(saved, bytes):
            return saved
        title = zzt.read(saved).boards[0]
        if len(title.stats) != stats + 1:
            return None
        program = title.stats[-1].program
        return title.stats[program].program if isinstance(program, int) else program

    def board(self, n):
        """The stamp of the edit that made the board of a number."""
        lines = self.lines("--board", str(n))
        if lines == "NoBoard":
            return "none"
        made = [it for it in lines if it.split("  ")[1].startswith(("add board", "genesis"))]
        return ".".join(made[0].split(" ")[:2])
