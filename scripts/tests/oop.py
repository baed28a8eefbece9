"""What is read in the lines of a program in play, by the section on programs in docs/FORMATS.md: nothing of Wergozil's own code is used here.

Words are read behind spaces, of letters, digits, `:` and `_`, and none begins with a digit. Letters are read in capitals.
"""

from dataclasses import dataclass, field

TURNS = {b"CW", b"CCW", b"OPP", b"RNDP"}
WAYS = {
    *(b"N", b"NORTH", b"S", b"SOUTH", b"E", b"EAST", b"W", b"WEST", b"I", b"IDLE"),
    *(b"SEEK", b"FLOW", b"RND", b"RNDNS", b"RNDNE"),
}
COLOURS = {b"BLUE", b"GREEN", b"CYAN", b"RED", b"PURPLE", b"YELLOW", b"WHITE"}
KINDS = set(
    b"EMPTY MONITOR PLAYER AMMO TORCH GEM KEY DOOR SCROLL PASSAGE DUPLICATOR BOMB ENERGIZER STAR CLOCKWISE COUNTER BULLET WATER FOREST SOLID"
    b" NORMAL BREAKABLE BOULDER SLIDERNS SLIDEREW FAKE INVISIBLE BLINKWALL TRANSPORTER LINE RICOCHET BEAR RUFFIAN OBJECT SLIME SHARK SPINNINGGUN"
    b" PUSHER LION TIGER HEAD SEGMENT".split()
)
COUNTERS = {b"HEALTH", b"AMMO", b"GEMS", b"TORCHES", b"SCORE", b"TIME"}
WAY_COMMANDS = {b"GO", b"TRY", b"WALK", b"SHOOT"}
NAME_COMMANDS = {b"SET", b"CLEAR", b"SEND", b"ZAP", b"RESTORE", b"BIND"}
NUMBER_COMMANDS = {b"CYCLE", b"CHAR"}
BARE_COMMANDS = {b"END", b"ENDGAME", b"IDLE", b"RESTART", b"LOCK", b"UNLOCK", b"DIE", b"PLAY", b"THROWSTAR"}


@dataclass
class Said:
    """What a line of commands says."""

    # in the order in which they are read: the place of the mark that begins the instruction; what is none (direction, kind, counter), or
    # what is named (flag, name, unknown); the word
    found: list = field(default_factory=list)
    sets: list = field(default_factory=list)


class Line:
    def __init__(self, program, start):
        self.program, self.at, self.mark, self.said, self.ended = program, start, start, Said(), False

    def byte(self):
        return self.program[self.at : self.at + 1]

    def word(self):
        """The next word in capitals, empty where there is none."""
        while self.byte() == b" ":
            self.at += 1
        start = self.at
        if not self.byte().isdigit():
            while self.byte() and (self.byte().isalnum() or self.byte() in (b":", b"_")):
                self.at += 1
        return self.program[start : self.at].upper()

    def number(self):
        while self.byte() == b" ":
            self.at += 1
        while self.byte() and self.byte() in b"0123456789":
            self.at += 1

    def way(self):
        """Reads a direction: whether it is one."""
        word = self.word()
        while word in TURNS:
            word = self.word()
        return word in WAYS

    def kind(self, player=False):
        word = self.word()
        if word in COLOURS:
            word = self.word()
        return word in KINDS and (player or word != b"PLAYER")

    def tell(self, what, word=None):
        self.said.found.append((self.mark, what, word))
        # what is none is an error, which ends the program
        self.ended = self.ended or word is None

    def condition(self):
        word = self.word()
        while word == b"NOT":
            word = self.word()
        if word == b"BLOCKED":
            if not self.way():
                self.tell("direction")
        elif word == b"ANY":
            if not self.kind(player=True):
                self.tell("kind")
        elif word not in (b"ALLIGNED", b"CONTACT", b"ENERGIZED"):
            self.tell("flag", word)

    def command(self):
        """Reads a command: what is read behind it, "command", "instruction" or None."""
        word = self.word()
        while word == b"THEN":
            word = self.word()
        if not word:
            return "instruction"
        if word in WAY_COMMANDS:
            if not self.way():
                self.tell("direction")
        elif word == b"PUT":
            way, kind = self.way(), self.kind()
            if not (way and kind):
                self.tell("kind" if way else "direction")
        elif word == b"IF":
            self.condition()
        elif word in (b"GIVE", b"TAKE"):
            if self.word() not in COUNTERS:
                self.tell("counter")
            self.number()
        elif word == b"BECOME":
            if not self.kind():
                self.tell("kind")
        elif word == b"CHANGE":
            first, second = self.kind(), self.kind()
            if not (first and second):
                self.tell("kind")
        elif word in NAME_COMMANDS:
            name = self.word()
            if word == b"SET":
                self.said.sets.append(name)
            elif word == b"BIND":
                self.tell("name", name)
        elif word not in NUMBER_COMMANDS | BARE_COMMANDS:
            self.tell("unknown", word)
        return "command" if word in (b"TRY", b"IF", b"TAKE") else None

    def instruction(self):
        self.mark = self.at
        mark = self.byte()
        if mark == b"#":
            self.at += 1
            return "command"
        if mark in (b"/", b"?"):
            self.at += 1
            if not self.way():
                self.tell("direction")
            return "instruction"
        return None

    def read(self):
        next_one = "instruction"
        while next_one and not self.ended:
            next_one = self.command() if next_one == "command" else self.instruction()
        return self.said


def lines(program):
    """The lines of a program with their places, without their ends."""
    at = 0
    while at < len(program):
        end = program.find(b"\r", at)
        end = len(program) if end < 0 else end
        yield at, program[at:end]
        at = end + 1


def commands(program):
    """What the lines that begin with a command or a step say, one after the other: place and Said."""
    for at, line in lines(program):
        if line[:1] in (b"#", b"/", b"?"):
            yield at, Line(program, at).read()


def sets(program):
    return [word for _, said in commands(program) for word in said.sets]
