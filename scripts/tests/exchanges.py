"""Goes through books of exchanges (docs/EXCHANGES.md). Usage: exchanges.py [--refused] [BOOK..]; without books all of rows/exchanges. With
--refused each growth of the calls of their cases is refused in turn, by the allocator growths.so that lies in the folder.

Two things answer a row. test_desk makes the calls on two documents, and tells what no program shows: what becomes of a delivery, names, visits,
staleness. And zzted and zztool run over the edit files that the replicas are, spelled by this script in the order in which the edits came: their
counts and held edits, their lists, their worlds, texts and refusals. What both show has to be the same."""

import os
import sys

import desk
import editfile
from replica import Replica
from rows import HERE, NotARow, number_of, rows_of
from table import COUNTS, STATES, Table

FOLDER = os.path.join(HERE, "rows", "exchanges")
MOST = 4096


class Case:
    def __init__(self, name):
        self.name, self.rows, self.kept, self.call, self.most = name, [], None, None, MOST

    def take(self, row):
        if row.text == "kept":
            self.kept = len(self.rows)
        elif row.text.startswith("most "):
            self.most = number_of(row.text[5:])
        else:
            if row.text.startswith(("call ", "call_once ")):
                self.call = len(self.rows)
            self.rows.append(row)


class Book:
    def __init__(self, path):
        self.shared, self.stale, self.cases = Case(""), [], []
        for row in rows_of(path):
            if row.text.startswith("case "):
                self.cases.append(Case(row.text[5:]))
            elif row.text.startswith("stale "):
                row.text, row.wanted = row.text[6:], ["Stale"]
                self.stale.append(row)
            else:
                (self.cases[-1] if self.cases else self.shared).take(row)
        if not self.cases:
            raise NotARow("there are no cases")


class Played:
    """Rows of a script, and what is seen of each once their calls are answered."""

    def __init__(self, name, script, book, has_programs):
        self.name, self.book, self.todo = name, book, []
        self.shared, self.table = (Table(name, script, has_programs) for _ in range(2))
        self.shared.begin_case(None)
        self.add(book.shared.rows, self.shared)

    def begin_case(self):
        self.table.begin_case(self.shared)
        self.todo.append((None, lambda table=self.table: table.replicas.update(one=Replica(7), other=Replica(7))))

    def add(self, rows, table=None):
        """Does rows, or tells of those that can't be."""
        for row in rows:
            try:
                self.todo.append((row, (table or self.table).take(row) or (lambda: [])))
            except (NotARow, editfile.NotAnEdit, ValueError, TypeError, IndexError, KeyError) as error:
                self.todo.append((row, lambda error=error: [f"not a line that may stand here: {error!r}"]))

    def seen(self):
        """Each row and what is seen of it."""
        for row, seen in self.todo:
            try:
                told = seen()
            except (NotARow, ValueError, TypeError, IndexError, KeyError) as error:
                told = [f"not a line that may stand here: {error!r}"]
            if row:
                yield row, told

    def hold(self):
        """How many rows hold."""
        return sum(COUNTS.is_so(f"{self.name}:{row.number}: {row.text[:80]}", told, row.wanted) for row, told in self.seen())


def compare(name, book):
    """Goes through a book."""
    script = desk.Script()
    played = Played(name, script, book, True)
    for case in book.cases:
        played.begin_case()
        played.add(case.rows)
        relist(name, played.table)
    if desk.is_there():
        script.answer()
        print(f"exchanges: {name}: {len(book.cases)} cases, {played.hold()} rows hold of {len([row for row, _ in played.todo if row])}")


# ---- each growth of memory refused in turn

ALLOCATOR = {**os.environ, "LD_PRELOAD": os.path.abspath("growths.so"), "GROWTHS": os.path.abspath("met")}


class Turn:
    """A case up to its call, with a growth of that refused."""

    def __init__(self, name, script, book, case, nth, spoils):
        self.case, self.nth = case, nth
        self.played = Played(name, script, book, False)
        self.played.begin_case()
        before = case.rows[: case.call if case.kept is None else case.kept]
        for row in before:
            if row.text.startswith("spoil "):
                # the deliveries by which it gets stale, each with a later growth refused
                edit = self.table.edit(row.text[6:])
                self.spoiled = [(self.table.deliver("one", edit, it), self.is_stale()) for it in range(1, spoils + 1)]
            else:
                self.played.add([row])
        self.edits = self.table.call("one", desk.HELD, 0, 0)
        self.words = case.rows[case.call].text.partition(" ")[2]
        verb, _, rest = self.words.partition(" ")
        self.ended = self.table.ended("one", verb, rest, nth)
        self.stale = self.is_stale()
        self.left = self.table.call("one", desk.HELD, 0, 0)

    @property
    def table(self):
        return self.played.table

    def is_stale(self):
        found = self.table.call("one", desk.FIND, 0, 0, 0, 0)
        return lambda: found()[3] == "Stale"

    def goes_on(self, is_stale, is_refused):
        """What follows the call: of a refused one, all that has to be as before, a repair, and the same call again."""
        if is_refused:
            self.played.add(self.case.rows[self.case.kept : self.case.call] if self.case.kept is not None else [])
            self.played.add(self.played.book.stale if is_stale else [])
            self.repaired = self.table.ended("one", "repairs", "")
            once = self.case.rows[self.case.call].text.startswith("call_once ")
            verb, _, rest = ("merges " if once else f"{self.words} ").partition(" ")
            self.made_up = self.table.ended("one", verb, rest.rstrip(" "))
        self.played.add(self.case.rows[self.case.call + 1 :])

    def comes_out(self, is_refused):
        """Whether it came out as it should: the call, what stayed, and what follows."""
        rows = list(self.played.seen())
        was_refused, end = self.ended()
        wrong = [f"{row.text}: {told}" for row, told in rows if told != row.wanted]
        if is_refused:
            is_well = was_refused and end == "Memory" and (self.stale() or self.words != "repairs")
            is_well = is_well and self.repaired()[1] == "done" and is_done(self.made_up()[1])
        else:
            is_well = not was_refused and is_done(end)
        return [] if is_well and not wrong else [f"{end}, {wrong[:3]}"]

    def is_halfway(self):
        return self.edits()[3] < self.left()[3]


def is_done(end):
    return end == "done" or end.startswith("made ") or end.endswith(" edits") or end.split(",")[0] in STATES


def growths_of(name, book, case, spoils):
    """How many growths the call has, by an allocator that refuses none of so few."""
    script = desk.Script()
    Turn(name, script, book, case, MOST, spoils)
    if os.path.exists("met"):
        os.remove("met")
    script.answer(ALLOCATOR)
    with open("met", encoding="ascii") as it:
        return int(it.read().split()[-1])


def spoils_of(name, book, case):
    """How many deliveries, each with a later growth refused, leave the one stale, where the case asks for that."""
    if not any(row.text.startswith("spoil ") for row in case.rows):
        return 0
    script = desk.Script()
    turn = Turn(name, script, book, case, 0, 64)
    script.answer(ALLOCATOR)
    return [is_stale() for _, is_stale in turn.spoiled].index(True) + 1


def sweep(name, book, case):
    """Refuses each growth of a case's call in turn. Answers how many there were."""
    spoils = spoils_of(name, book, case)
    count = growths_of(name, book, case, spoils)
    if not 1 <= count <= case.most:
        COUNTS.fails(f"{name}: {case.name}: {count} growths")
        return 0
    # which of them leave the one stale
    script = desk.Script()
    turns = [Turn(name, script, book, case, nth, spoils) for nth in range(1, count + 1)]
    script.answer(ALLOCATOR)
    stale = [turn.stale() for turn in turns]
    script = desk.Script()
    turns = []
    for nth in range(1, count + 2):
        turn = Turn(name, script, book, case, nth, spoils)
        turn.goes_on(nth <= count and stale[nth - 1], nth <= count)
        turns.append(turn)
    script.answer(ALLOCATOR)
    for turn in turns:
        wrong = turn.comes_out(turn.nth <= count)
        COUNTS.is_so(f"{name}: {case.name}: growth {turn.nth} of {count} refused", wrong, [])
    if case.rows[case.call].text.startswith("call_once "):
        is_halfway = any(turn.is_halfway() for turn in turns[:-1])
        COUNTS.is_so(f"{name}: {case.name}: some growth behind the first edit is refused", is_halfway, True)
    return count


def refuse(name, book):
    """Makes the call of each case with each of its growths refused in turn, and goes through the cases without a call."""
    calls = growths = 0
    script = desk.Script()
    played = Played(name, script, book, False)
    for case in book.cases:
        if case.call is None:
            played.begin_case()
            played.add(case.rows)
        else:
            calls += 1
            growths += sweep(name, book, case)
    script.answer(ALLOCATOR)
    played.hold()
    print(f"exchanges: {name}: {calls} calls, {growths} growths refused")


def relist(name, table):
    """Wants zztool to list each edit of a case by the words that spelled it. Edits of one stamp go into several files."""
    left = [it for it in table.edits[table.shared :] if it.record and not it.words.startswith(("genesis ", "letters ", "remove board 1.0:0"))]
    while left:
        files = {}
        for edit in left:
            files.setdefault(edit.stamp, edit)
        left = [it for it in left if files[it.stamp] is not it]
        replica = Replica(7)
        for stamp, edit in sorted(files.items()):
            replica.take(stamp, edit.record)
        wanted = [f"{it.stamp[0]} {it.stamp[1]}  {it.words}" for _, it in sorted(files.items())]
        lines = replica.lines("--full")
        lines = [it.removeprefix("held ") for it in lines] if isinstance(lines, list) else lines
        if lines != wanted:
            COUNTS.fails(f"{name}: edits are listed otherwise: {[it for it in zip(lines, wanted) if it[0] != it[1]][:3]}")
        else:
            COUNTS.passed += len(wanted)


def is_refusing(book):
    """Whether a book has calls whose growths can be refused."""
    return any(row.text.startswith(("call", "lean")) for case in book.cases for row in case.rows)


def main():
    words = sys.argv[1:]
    refusing = "--refused" in words
    if refusing and not desk.is_there():
        # said already
        print("exchanges: 0 passed, 0 failed")
        return 0
    for name in [it for it in words if it != "--refused"] or sorted(os.listdir(FOLDER)):
        try:
            book = Book(os.path.join(FOLDER, name))
        except (OSError, NotARow) as error:
            COUNTS.fails(f"{name}: {error}")
            continue
        if not refusing:
            compare(name, book)
        elif is_refusing(book):
            refuse(name, book)
    return COUNTS.tell()


sys.exit(main())
