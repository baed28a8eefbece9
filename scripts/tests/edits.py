"""Edits at random, for the tests and scripts/dev/bench: those of all kinds fit into a world file."""

import random

import zed
import zzt
from zed import GENESIS, TITLE, Document, Edit

# what fits into a world file
MOST_BOARDS, MOST_STATS, MOST_TEXTS = 100, 100, 5


def first_world():
    """Two boards, with a passage, and stats that follow each other and share a program."""
    title, cave = zzt.Board(b"Title", exits=[1, 0, 0, 0]), zzt.Board(b"Cave", dark=1)
    for board in title, cave:
        board.put(30, 12, (zzt.PLAYER, 0x1F))
        board.stats = [zzt.Stat(30, 12, cycle=1)]
    title.put(40, 12, (zzt.PASSAGE, 0x1F))
    title.stats += [zzt.Stat(20, 10, cycle=3, program=b"@guard\r"), zzt.Stat(22, 10, follower=1, program=1), zzt.Stat(40, 12, p3=1)]
    cave.stats += [zzt.Stat(5, 5, p3=9, program=b"#end\r")]
    return zzt.World(ammo=3, name=b"LARGE", flags=[b"OPEN", *[b""] * 9], current=1, boards=[title, cave])


class Maker:
    """So many authors, who make edits in turn, the first of all the Genesis. The same numbers make the same edits."""

    def __init__(self, count, authors):
        self.random = random.Random(1)
        self.count, self.authors = count, authors
        self.edits = [Edit(GENESIS, 1, value=zzt.write(first_world()))]

    def is_wanted(self):
        return len(self.edits) < self.count

    def add(self, op, of=None, field=None, value=None):
        made = len(self.edits) - 1
        it = (2 + made // self.authors, 1 + made % self.authors)
        self.edits.append(Edit(it, op, of, field, value))
        return it

    def below(self, count):
        return self.random.randrange(count)

    def any(self, things):
        return self.random.choice(things)

    def letters(self, least, most):
        return self.random.randbytes(self.random.randint(least, most))

    def number(self):
        return self.below(65536) - 32768

    def cells(self, board):
        left, top = 1 + self.below(60), 1 + self.below(25)
        right, bottom = min(60, left + self.below(4)), min(25, top + self.below(4))
        element = self.any([0, 4, zzt.PASSAGE, 21, 22, 36, 200])
        self.add(zed.SET_CELLS, board, value=(left, top, right, bottom, element, self.below(256)))


class AllKinds(Maker):
    """Edits of all kinds, by three authors. Each may name whatever an earlier one made."""

    def __init__(self, count):
        super().__init__(count, 3)
        opened = Document(self.edits)
        self.boards = list(opened.boards)
        self.stats = {it: list(board.stats) for it, board in opened.boards.items()}
        self.texts = {TITLE: [(*GENESIS, 0)], (*GENESIS, 1): [(*GENESIS, 1)]}
        # the insertions of each text, with how many bytes each has
        self.inserted = {text: [(GENESIS, len(it.byte))] for text, it in opened.texts.items()}
        kinds = {
            self.header: 4, self.add_board: 0.15, self.remove_board: 0.02, self.property: 10, self.draw: 20, self.add_stat: 6, self.remove_stat: 1,
            self.stat: 25, self.add_text: 0.4, self.insert: 26, self.delete: 7,
        }
        while self.is_wanted():
            self.random.choices(list(kinds), list(kinds.values()))[0]()

    def value(self, kind, things, most):
        """A value of a kind: a name is of one of these things, and a string has so many bytes at most."""
        if kind == "byte":
            return self.below(256)
        if kind == "string":
            return self.letters(0, most)
        if kind == "name" or self.below(4):
            return self.any(things)
        return self.below(256) if kind == "third" else None

    def header(self):
        field = self.below(len(zed.HEADER))
        kind = zed.HEADER[field]
        value = self.number() if kind == "integer" else self.below(2) if kind == "byte" else self.value(kind, self.boards, 20)
        self.add(zed.SET_HEADER, None, field, value)

    def add_board(self):
        if len(self.boards) <= MOST_BOARDS:
            here = (*self.add(zed.BOARD_ADD, value=self.letters(0, 50)), 0)
            self.boards.append(here)
            self.stats[here], self.texts[here] = [here], []

    def remove_board(self):
        self.add(zed.BOARD_REMOVE, self.any(self.boards[1:]))

    def property(self):
        field = self.below(len(zed.BOARD))
        kind = zed.BOARD[field]
        if field in (zed.DARK, zed.RE_ENTER):
            value = self.below(2)
        elif field == zed.RANK:
            value = self.below(20)
        else:
            value = self.number() if kind == "integer" else self.value(kind, self.boards, 50 if field == zed.NAME else 58)
        self.add(zed.SET_BOARD, self.any(self.boards), field, value)

    def draw(self):
        self.cells(self.any(self.boards))

    def text_on(self, board):
        return self.any([None, *self.texts[board]])

    def add_stat(self):
        board = self.any(self.boards)
        if len(self.stats[board]) < MOST_STATS:
            fields = [self.stat_value(board, it) for it in range(len(zed.STAT))]
            fields[zed.POSITION], fields[zed.FOLLOWER], fields[zed.LEADER] = 0, None, None
            self.stats[board].append((*self.add(zed.STAT_ADD, board, value=fields), 0))

    def remove_stat(self):
        self.add(zed.STAT_REMOVE, self.any(self.stats[self.any(self.boards)]))

    def stat(self):
        board, field = self.any(self.boards), self.below(len(zed.STAT))
        self.add(zed.SET_STAT, self.any(self.stats[board]), field, self.stat_value(board, field))

    def stat_value(self, board, field):
        if field in (zed.X, zed.Y):
            return 1 + self.below(60 if field == zed.X else 25)
        if field == zed.TEXT:
            return self.text_on(board)
        if zed.STAT[field] == "integer":
            return self.number()
        return self.value(zed.STAT[field], self.boards if field == zed.P3 else self.stats[board], 0)

    def add_text(self):
        board = self.any(self.boards)
        if len(self.texts[board]) < MOST_TEXTS:
            here = (*self.add(zed.TEXT_ADD), 0)
            self.texts[board].append(here)
            self.inserted[here] = []

    def insert(self):
        text = self.any(list(self.inserted))
        after = None
        if self.inserted[text] and self.below(20):
            before, count = self.any(self.inserted[text])
            after = (*before, self.below(count))
        data = self.letters(1, 4)
        self.inserted[text].append((self.add(zed.TEXT_INSERT, text, after, data), len(data)))

    def delete(self):
        text = self.any(list(self.inserted))
        if self.inserted[text]:
            it, count = self.any(self.inserted[text])
            first = self.below(count)
            self.add(zed.TEXT_DELETE, text, it, (first, first + self.below(count - first)))
