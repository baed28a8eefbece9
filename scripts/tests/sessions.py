"""Goes through books of commands, sessions and links (docs/COMMANDS-IN-ROWS.md): a section that files show is run by zzted, and any other is
done by test_commands. What is seen of each row is compared with what the book says.

Usage: sessions.py ZZTED FOLDER BOOK..                         the sections that files show; the folder has their files
       sessions.py --program PROGRAM BOOK..                    all others
       sessions.py --program PROGRAM --refused LIBRARY BOOK..  those with a row that is refused growths, each in turn, as the library does
       sessions.py --tape BOOK SECTION                         prints the rows that the program gets of a section
The last line counts the rows that hold and those that don't."""

import os
import re
import subprocess
import sys

from naming import refusal_in

KEYS = "wait north south west east shoot_north shoot_south shoot_west shoot_east".split()
WHOLE, REFUSED, DEVICE, TRIED = 1, 2, 4, 8
# How it came out, by the first byte of a line that says what is seen then.
MARKS = {">": (WHOLE,), "-": (REFUSED,), "!": (DEVICE,), "=": (WHOLE, REFUSED, DEVICE)}
ACTS = {"show": "S", "play": "P", "push": "W", "pull": "R", "detach": "D", "press": "K", "attach": "A", "repair": "M"}


class Counters:
    """What `$` and `%` stand for."""

    def __init__(self, count=0, piece=0):
        self.count, self.piece = count, piece

    def plain(self, word):
        return {"$": self.count, "%": self.piece}[word] if word in ("$", "%") else int(word)

    def product(self, word):
        if "*" in word:
            one, other = word.split("*")
            return self.plain(one) * self.plain(other)
        whole, *part = word.split("/")
        return self.plain(whole) // self.plain(part[0]) if part else self.plain(whole)

    def number(self, word):
        front, *behind = word.split("+")
        return self.product(front) + sum(map(self.plain, behind))

    def option(self, word):
        """A number or `never`, as the program reads it."""
        return 0 if word == "never" else self.number(word) + 1


class Row:
    def __init__(self, number, line):
        self.number = number
        self.is_tried = line.startswith("refused ")
        self.line = line.removeprefix("refused ")
        self.word, *self.words = self.line.split(" ")
        self.wanted = {WHOLE: [], REFUSED: [], DEVICE: []}

    def is_left_out(self, outcome):
        return not self.wanted[outcome] and any(self.wanted.values())

    def marks(self):
        """How it may have come out before, so that the row is done, and whether its growths are refused."""
        return sum(outcome for outcome in self.wanted if not self.is_left_out(outcome)) + TRIED * self.is_tried


class Section:
    def __init__(self, name):
        self.name, self.rows = name, []

    def has(self, *words):
        return any(row.word in words for row in self.rows)

    def rows_of(self, *words):
        return [row for row in self.rows if row.word in words]

    def is_tried(self):
        return any(row.is_tried for row in self.rows)

    def is_shown_by_files(self):
        """Whether it only runs a command on files, or judges edits, and asks for nothing that a program doesn't show."""
        files = {row.words[0] for row in self.rows_of("file", "holds")}
        asks = [line for row in self.rows for line in row.wanted[WHOLE]]
        if any(row.word not in ("file", "run", "holds", "judge") or row.is_tried for row in self.rows):
            return False
        is_merge = any(row.words[:1] in (["merge"], []) for row in self.rows_of("run"))
        return not is_merge and not files & {"stdin", "stdout"} and not any(line.startswith("calls failed") for line in asks)

    def turns(self):
        """The numbers of its turns."""
        if not self.has("each"):
            return [Counters()]
        first, last, *pieces = self.rows[0].words
        if not pieces:
            return [Counters(count) for count in range(int(first), int(last) + 1)]
        turns = []
        for piece in range(int(pieces[1]), int(pieces[2]) + 1):
            of_piece = Counters(0, piece)
            turns += [Counters(count, piece) for count in range(of_piece.number(first), of_piece.number(last) + 1)]
        return turns


def stamp_of(time, replica):
    return time.to_bytes(6, "little") + replica.to_bytes(2, "little")


def record_of(time, replica, op):
    return (len(op) + 8).to_bytes(4, "little") + stamp_of(time, replica) + op


class Book:
    """The bytes that a book names, and its sections."""

    def __init__(self, path):
        self.file = os.path.basename(path)
        self.named, self.sections = {}, []
        with open(path, encoding="ascii") as it:
            for number, line in enumerate(it, 1):
                line = line.rstrip("\n")
                if line and line != "#" and not line.startswith("# "):
                    self.take(number, line)

    def take(self, number, line):
        word, _, rest = line.partition(" ")
        if word == "section":
            self.sections.append(Section(rest))
        elif word in ("bytes", "record", "records", "chain"):
            name, *words = rest.split(" ")
            # what was named last comes last
            self.named.pop(name, None)
            self.named[name] = getattr(self, f"{word}_of")(words)
        elif word in MARKS:
            for outcome in MARKS[word]:
                self.sections[-1].rows[-1].wanted[outcome].append(rest)
        else:
            self.sections[-1].rows.append(Row(number, line))

    def bytes_of(self, words):
        made = b""
        for word in words:
            spelled, _, times = word.partition("*")
            if spelled.startswith("@"):
                piece = self.named[spelled[1:]]
            elif spelled.startswith("'"):
                piece = spelled[1:].encode("ascii")
            elif spelled.startswith("="):
                piece = int(spelled[1:]).to_bytes(2, "little")
            else:
                piece = bytes.fromhex(spelled)
            made += piece * int(times or 1)
        return made

    def record_of(self, words):
        return record_of(int(words[0]), int(words[1]), self.bytes_of(words[2:]))

    def records_of(self, words):
        times, time, step, replica = map(int, words[:4])
        op = self.bytes_of(words[4:])
        return b"".join(record_of(time + step * nth, replica, op) for nth in range(times))

    def chain_of(self, words):
        count, first, replica = map(int, words[:3])
        op, records = self.bytes_of(words[3:]), []
        for nth in range(count):
            behind = b"\1" + stamp_of(first + nth - 1, replica) + bytes(4) if nth else b"\0"
            records.append(record_of(first + nth, replica, op + behind + b"abc"[nth % 3 : nth % 3 + 1]))
        return b"".join(reversed(records))

    def told(self, made):
        """The name that was given last to bytes, or how many there are."""
        for name in reversed(self.named):
            if self.named[name] == made:
                return f"@{name}"
        return f"{len(made)} bytes"


def lines_said(word, said):
    """What a command said, each line behind a word."""
    lines = []
    for line in said.split(b"\n"):
        shown = "".join(chr(byte) if 32 <= byte <= 126 and byte != 92 else f"\\{byte:02x}" for byte in line)
        lines.append(f"{word} {shown}")
    if not said.endswith(b"\n") and said:
        lines[-1] += ", without an end"
        return lines
    return lines[:-1]


def lines_ran(status, printed, complained):
    lines = [f"status {status}"] + lines_said("prints", printed)
    if status == 2:
        return lines + [f"complains {'something' if complained else 'nothing'}"]
    return lines + lines_said("complains", complained)


class Report:
    """Which rows hold."""

    def __init__(self, book):
        self.book, self.held, self.broken, self.growths = book, 0, 0, 0

    def take(self, section, row, wanted, seen, where=""):
        if seen == wanted:
            self.held += bool(seen)
            return
        self.fail(f"{row.number}: {section.name}{where}: {row.line}: {seen}, and not {wanted}")

    def fail(self, what):
        self.broken += 1
        print(f"sessions: FAILED: {self.book.file}: {what}")


class Tape:
    """The rows of a section that the program gets in a turn, and what it tells of them."""

    def __init__(self, book, section, counters, is_swept=False):
        self.book, self.section, self.counters = book, section, counters
        self.lines, self.outcome = [str(int(is_swept))], WHOLE
        # the rows of which the program tells something, in the order in which it does them
        self.asked = []
        self.put_parts()
        if section.has("session"):
            self.put_session()
        elif section.has("run"):
            self.put_run()
        else:
            self.put(None, "-")
            self.put_looks([row for row in section.rows if row.word not in PARTS])

    def put(self, row, *words):
        marks = row.marks() if row else WHOLE + REFUSED + DEVICE
        self.lines.append(" ".join([str(marks), *map(str, words)]))

    def hex_of(self, words):
        return self.book.bytes_of(words).hex() or "-"

    def put_parts(self):
        number, option = self.counters.number, self.counters.option
        for row in self.section.rows_of("link", "sink", "keys", "screen", "source"):
            if row.word == "link":
                self.put(row, "l", number(row.words[0]), option(row.words[1]), self.hex_of(row.words[2:]))
            elif row.word == "sink":
                self.put(row, "s", self.hex_of(row.words))
            elif row.word == "keys":
                self.put(row, "k", *map(KEYS.index, row.words))
            else:
                fails = {"always": 0, "never": 1}.get(row.words[0]) if row.words[0] in ("always", "never") else option(row.words[0])
                self.put(row, "c" if row.word == "screen" else "q", fails)
        self.put(None, ".")

    def put_run(self):
        rows = [row for row in self.section.rows if row.word not in PARTS]
        run, looks = rows[0], rows[1:]
        files = self.section.rows_of("file")
        hosts = self.section.rows_of("host")
        passing = self.counters.option(hosts[0].words[0]) if hosts else 0
        words = [passing and passing + len(files), len(files)]
        for file in files:
            words += [file.words[0], self.hex_of(file.words[1:])]
        self.put(run, "x", *words, *run.words)
        self.asked.append(run)
        self.put_looks(looks)

    def put_session(self):
        at = next(k for k, row in enumerate(self.section.rows) if row.word == "session")
        rows = self.section.rows[at + 1 :]
        closed = next((k for k, row in enumerate(rows) if row.word == "close"), len(rows))
        self.put(None, "s", self.hex_of(self.section.rows[at].words))
        self.put_looks(rows[:closed])
        self.put_looks(rows[closed + 1 :])

    def put_looks(self, rows):
        for row in rows:
            self.put(row, *self.words_of(row))
            self.asked.append(row)
        self.put(None, ".")

    def words_of(self, row):
        """The row as the program reads it."""
        number, option, words = self.counters.number, self.counters.option, row.words
        if row.word in ("well", "stale"):
            front = ["?"] if row.word == "stale" else []
            return front + [ACTS[words[0]], *map(number, words[1:])]
        if row.word in ACTS:
            return [ACTS[row.word], *map(number, words)]
        if row.word == "receive":
            return ["r", number(words[0]), number(words[1]), option(words[2]), self.hex_of(words[4:])]
        if row.word == "cut":
            return ["r", 7, 100, 0, self.book.bytes_of(words[2:])[: number(words[0])].hex() or "-"]
        if row.word == "judge":
            return ["r", 7, 4096, 0, self.hex_of(words)]
        if row.word == "send":
            return ["s", number(words[0]), option(words[1]), self.hex_of(words[3:])]
        if row.word == "holds":
            return ["h", words[0]]
        return [LOOKS[row.word]]

    def seen(self, told):
        """Each row that is done, how the section had come out before it, and what is seen of it. `told` are lines of the program."""
        for row in self.asked:
            if not row.is_left_out(self.outcome):
                before, seen = self.outcome, self.seen_of(row, told)
                # what a refused row itself tells is told by how it came out
                yield row, self.outcome if row.is_tried else before, seen
        end = next(told)
        if end != f"end {OUTCOMES[self.outcome]}":
            yield self.section.rows[0], WHOLE, [f"the program ends by: {end}"]

    def answer(self, told):
        flag, _, answer = next(told).partition(" ")
        if flag == "1":
            self.outcome = REFUSED
        return answer

    def seen_of(self, row, told):
        if row.word in ACTS or row.word in ("well", "stale"):
            return [self.seen_of_act(row, told)]
        if row.word in ("receive", "cut", "judge"):
            return self.seen_of_pull(row, told)
        if row.word == "readers":
            return [self.answer(told)]
        if row.word == "send":
            answer = self.answer(told)
            failures, taken = next(told).split(" ")[:2]
            return [f"{answer}, {failures} failed", front_of(taken, self.book.bytes_of(row.words[3:]), self.counters.number(row.words[2]))]
        line = next(told)
        if row.word == "run":
            return self.seen_of_run(line)
        return getattr(self, f"seen_of_{row.word}", lambda _row, line: [line])(row, line.rstrip(" "))

    def seen_of_act(self, row, told):
        if row.word != "stale":
            answer = self.answer(told)
        else:
            # where the document isn't stale, the call isn't made
            first, _, behind = next(told).partition(" ")
            if (first, behind) == ("not", "stale"):
                return "yes"
            self.met_stale, answer = True, behind
        if row.word == "stale":
            return "yes" if answer == "Err(Stale)" else "no"
        if row.word in ("well", "repair"):
            return "yes" if answer.startswith("Ok(") else "no"
        return pulled_of(answer)

    def seen_of_pull(self, row, told):
        edits, _, answer = next(told).partition(" ")
        answer = answer.partition(" ")[2]
        reads, failures = next(told).split(" ")[:2]
        if row.word == "judge":
            return ["fits" if answer.startswith("Ok(") else answer[len("Err(") : -1]]
        wanted = self.counters.number(row.words[3 if row.word == "receive" else 1])
        return [pulled_of(answer), f"{edits} edits, {failures} failed"] + [f"{reads} reads"] * (int(reads) != wanted)

    def seen_of_run(self, line):
        refused, status, failures, printed, complained = line.split(" ")[:5]
        if refused == "1":
            self.outcome = DEVICE if failures != "0" else REFUSED
        lines = lines_ran(int(status), bytes.fromhex(printed), bytes.fromhex(complained))
        return lines + [f"calls failed: {failures}"] * (failures != "0")

    def seen_of_holds(self, _row, line):
        return [self.book.told(bytes.fromhex(line)) if re.fullmatch("[0-9a-f]*", line) else line]

    def seen_of_counts(self, _row, line):
        shows, keys = line.split(" ")[:2]
        return [f"{shows} frames, {keys} keys"]

    def seen_of_ended(self, _row, line):
        devices, links, unread = line.split(" ")[2:5]
        return [f"{devices} devices, {links} links, {unread} unread"]

    def seen_of_taken(self, _row, line):
        reads, taken = line.split(" ")[5:7]
        return [f"{reads} reads, {taken} bytes"]

    def seen_of_left(self, _row, line):
        return ["none" if line == "none" else self.book.told(bytes.fromhex(line))]

    def seen_of_front(self, row, line):
        return [front_of(line, self.book.named[row.words[1]], self.counters.number(row.words[0]))]

    def seen_of_at(self, row, line):
        if line == "none":
            return ["no frame"]
        column, number = map(int, row.words)
        byte = bytes.fromhex(line)[number * 80 + column]
        return ["space" if byte == 32 else chr(byte)]

    def seen_of_row(self, row, line):
        if line == "none":
            return ["no frame"]
        at = int(row.words[0]) * 80
        return [bytes.fromhex(line)[at : at + 80].decode("latin-1").rstrip(" ")]

    def seen_of_links(self, _row, line):
        links, edits = line.split(" ")
        return [f"{links} links, {edits} edits"]

    def seen_of_edits(self, row, line):
        edits = int(line.split(" ")[1])
        least, most = map(self.counters.number, row.words)
        return ["yes" if least <= edits <= most else f"{edits} edits"]

    def seen_of_playtest(self, _row, line):
        if line == "none":
            return ["no playtest"]
        gems, tick, ending = line.split(" ", 2)
        return [f"gems {gems}, tick {tick}, {ending}"]

    met_stale = False


def pulled_of(answer):
    """What a pull answers, with the names of its counts."""
    counts = re.fullmatch(r"Ok\(\((\d+), (\d+), (\d+)\)\)", answer)
    return "Ok(Pulled {{ taken: {}, held: {}, known: {} }})".format(*counts.groups()) if counts else answer


def front_of(spelled, whole, length):
    """Whether bytes are the first so many of others."""
    if spelled == "none":
        return "nothing is left"
    made = bytes.fromhex(spelled)
    return "the front" if made == whole[:length] and len(made) == length else f"{len(made)} other bytes"


PARTS = ("file", "host", "link", "sink", "keys", "screen", "source", "each")
LOOKS = dict(counts="c", ended="c", taken="c", left="l", front="l", at="f", row="f", links="e", edits="e", playtest="p", readers="t")
OUTCOMES = {WHOLE: "Whole", REFUSED: "Refused", DEVICE: "Device"}


def lines_of(program, tapes, library=None):
    """What the program tells of tapes, line by line."""
    rows = "".join(f"{line}\n" for tape in tapes for line in tape.lines)
    places = dict(os.environ, LD_PRELOAD=library) if library else None
    ran = subprocess.run([program], input=rows, capture_output=True, text=True, timeout=600, env=places)
    if ran.returncode:
        print(f"sessions: {program} ends with status {ran.returncode}: {ran.stderr}")
    return iter(ran.stdout.split("\n"))


def compare_turns(report, section, tapes, told):
    """A section whose rows are done once in each of some turns, held against its first row."""
    lines, last = [], None
    for tape in tapes:
        seen = "; ".join(line for _row, _outcome, lines_seen in tape.seen(told) for line in lines_seen)
        counters = tape.counters
        if seen != last:
            lines.append(f"{f'{counters.piece} ' if counters.piece else ''}{counters.count}: {seen}")
        last = seen
    report.take(section, section.rows[0], section.rows[0].wanted[WHOLE], lines)


def compare(report, program):
    """The sections that files don't show, as they come out with ample memory."""
    book = report.book
    sections = [section for section in book.sections if not section.is_shown_by_files()]
    tapes = [[Tape(book, section, counters) for counters in section.turns()] for section in sections]
    told = lines_of(program, [tape for of_section in tapes for tape in of_section])
    for section, of_section in zip(sections, tapes):
        if section.has("each"):
            compare_turns(report, section, of_section, told)
            continue
        for row, outcome, seen in of_section[0].seen(told):
            report.take(section, row, row.wanted[outcome], seen)


def sweep(report, program, library):
    """The sections with a row whose growths are refused, each growth in turn."""
    for section in report.book.sections:
        if not section.is_tried():
            continue
        told = lines_of(program, [Tape(report.book, section, Counters(), is_swept=True)], library)
        met, is_stale, nth = set(), False, 0
        while WHOLE not in met:
            tape, nth = Tape(report.book, section, Counters(), is_swept=True), nth + 1
            for row, outcome, seen in tape.seen(told):
                report.take(section, row, row.wanted[outcome], seen, f", where growth {nth} is refused")
            met.add(tape.outcome)
            is_stale = is_stale or tape.met_stale
        report.growths += nth - 1
        for outcome in (REFUSED, DEVICE):
            if outcome not in met and any(row.is_tried and row.wanted[outcome] for row in section.rows):
                report.fail(f"{section.name}: no growth was refused so that it came out as {OUTCOMES[outcome]}")
        if section.has("stale") and not is_stale:
            report.fail(f"{section.name}: no document was stale")


def run_files(report, zzted, room):
    """The sections that files show, each in a folder of its own."""
    book = report.book
    for number, section in enumerate(book.sections):
        if not section.is_shown_by_files():
            continue
        folder = os.path.join(room, f"{book.file}.{number}")
        os.mkdir(folder)

        def put(name, made):
            with open(os.path.join(folder, name), "wb") as it:
                it.write(made)

        def runs(*words):
            ran = subprocess.run([zzted, *words], stdin=subprocess.DEVNULL, capture_output=True, timeout=600, cwd=folder)
            told = refusal_in(ran.stderr.decode("latin-1"), words).encode("latin-1")
            return lines_ran(ran.returncode, ran.stdout, told)

        for row in section.rows:
            if row.word == "file":
                put(row.words[0], book.bytes_of(row.words[1:]))
                continue
            if row.word == "run":
                seen = runs(*row.words)
            elif row.word == "judge":
                put("judged", book.bytes_of(row.words))
                seen = [judgement_of(runs("merge", "taken", "7", "judged"))]
            else:
                path = os.path.join(folder, row.words[0])
                seen = ["no file"]
                if os.path.exists(path):
                    with open(path, "rb") as it:
                        seen = [book.told(it.read())]
            report.take(section, row, row.wanted[WHOLE], seen)


def judgement_of(lines):
    """Whether a command took a file of one edit, or what it told of that, as a link tells it."""
    if lines[0] == "status 0":
        return "fits"
    told = next(line for line in lines if line.startswith("complains zzted: "))
    name, *cause = told.removeprefix("complains zzted: ").split(" ")
    return f"{name}({cause[0]})" if cause else name


def main(words):
    if words[0] == "--tape":
        book = Book(words[1])
        section = next(section for section in book.sections if section.name == words[2])
        print("\n".join(line for counters in section.turns() for line in Tape(book, section, counters, section.is_tried()).lines))
        return
    program = library = None
    books = words[2:]
    if words[0] == "--program":
        program = words[1]
        if books[0] == "--refused":
            library, books = books[1], books[2:]
    held = broken = 0
    for path in books:
        report = Report(Book(path))
        if library:
            sweep(report, program, library)
            print(f"sessions: {report.book.file}: {report.growths} growths refused")
        elif program:
            compare(report, program)
        else:
            run_files(report, words[0], words[1])
        held, broken = held + report.held, broken + report.broken
    print(f"sessions: {held} passed, {broken} failed")


if __name__ == "__main__":
    main(sys.argv[1:])
