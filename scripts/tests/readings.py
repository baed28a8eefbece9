"""Goes through the rows of rows/readings, and compares what is read of world files, edit files, records and programs of objects with what was
worked out by hand. A row names bytes or asks something of them. What zzted and zztool show of the answer is seen in what they print, refuse and
write; all of it in what test_desk answers, where that is there.

    bytes NAME PIECE..  change NAME FROM PLACE BYTE..   bytes of a name, and the same but for some
    length NAME                                         how many they are
    world read NAME [COUNT]   world cuts NAME           whether these or the first ones are a world file; each front of it, told where that changes
    world canonical NAME   world again NAME LIMIT NAME  whether it is canonical; what is written of it with bodies of at most so many bytes
    random BOARDS STATS                                 a world made by chance just as it should be written, with at most so many
    edits read NAME   edits pieces NAME SIZE            an edit file as a whole and in pieces, and byte by byte, and whether it is written so again
    edits written NAME NAME   edits shown NAME          what is written of it; its world and its edits
    edits cuts NAME   edits replaced NAME               each front of it, told where that changes; each byte replaced by each
    edits asked NAME WORLD SIZE..                       what a reader for a world answers to pieces of these sizes
    record cuts VERSION NAME                            a record cut behind each byte, and with a byte too many
    record tags VERSION NAME PLACE=BYTE..               a record with another byte: where it ends behind that, and where it goes on
    program ACT PLACE [MARK LABEL] TEXT                 what stands at a place of a program"""

import os
import re
import sys

import desk
import editfile
from rows import HERE, Counts, NotARow, Programs, bytes_of, changed, number_of, parsed, rows_of

FOLDER = os.path.join(HERE, "rows", "readings")
COUNTS = Counts("readings")
PROGRAMS = Programs(os.getcwd())
USUAL, LARGEST = 20000, 32767


def spelled_error(value):
    """A refusal as rows spell it: as `{:?}` prints it."""
    if isinstance(value, str):
        return value
    if len(value) > 1 and isinstance(value[1], dict):
        return value[0] + " { " + ", ".join(f"{name}: {it}" for name, it in value[1].items()) + " }"
    return f"{value[0]}({', '.join(spelled_error(it) if not isinstance(it, int) else str(it) for it in value[1:])})"


def spelled_refusal(wanted):
    """The same as the programs print it: `BadEdit(Tag)` as `BadEdit Tag`, and `BoardOver { board: 0, bytes: 20001 }` as `BoardOver 0 20001`."""
    return " ".join(it for it in re.findall(r"[A-Za-z0-9]+:?", wanted) if not it.endswith(":"))


def spelled_end(value):
    return "Ok(())" if value[0] == "Ok" else f"Err({spelled_error(value[1])})"


class Dice:
    """Random numbers by linear congruential steps."""

    def __init__(self):
        self.state = 20_261_122

    def byte(self):
        self.state = (self.state * 1_664_525 + 1_013_904_223) % 2**32
        return self.state >> 24

    def below(self, bound):
        return self.byte() % bound

    def bytes(self, count):
        return bytes(self.byte() for _ in range(count))

    def string(self, field):
        """A field of this size with a random string in it."""
        size = self.below(field + 1)
        return (bytes([size]) + self.bytes(size)).ljust(field + 1, b"\0")

    def runs(self, longest):
        """Runs for 1,500 tiles, of which no two neighbours have the same colour."""
        out, left, run = bytearray(), 1500, 0
        while left:
            count = min(left, self.below(longest) + 1)
            left -= count
            out += bytes([count, self.below(54), run % 2])
            run += 1
        return bytes(out)

    def stat_number(self, stats):
        return b"\xff\xff" if self.byte() % 2 == 0 else bytes([self.below(stats), 0])

    def stat(self, boards, stats, owner):
        """A stat, and whether it has a program of its own. Where an owner is given some of them share its program."""
        out = self.bytes(10) + bytes([self.below(boards)]) + self.stat_number(stats) + self.stat_number(stats) + self.bytes(2) + bytes(4) + self.bytes(2)
        kind = self.byte() % 3
        size = self.below(40) if kind == 0 else 0
        out += bytes([256 - owner, 255] if owner and kind == 1 else [size, 0]) + bytes(8)
        return out + self.bytes(size), size > 0

    def stats(self, boards, others):
        out, owner = bytes([others, 0]), None
        for number in range(others + 1):
            stat, is_owner = self.stat(boards, others + 1, owner)
            out += stat
            if is_owner and number:
                owner = number
        return out

    def board(self, boards, others):
        name = self.string(50)
        out = name + self.runs(1 + self.below(255)) + bytes([self.byte(), self.byte() % 2])
        out += bytes(self.below(boards) for _ in range(4)) + bytes([self.byte() % 2]) + self.string(58) + self.bytes(4) + bytes(16)
        out += self.stats(boards, others)
        return len(out).to_bytes(2, "little") + out

    def world(self, others, most):
        """A world of so many boards beside the title, with at most so many stats beside each player."""
        out = b"\xff\xff" + bytes([others, 0]) + self.bytes(4) + bytes(self.byte() % 2 for _ in range(7)) + self.bytes(2)
        out += bytes([self.below(others + 1), 0]) + self.bytes(6) + bytes(2) + self.bytes(2) + b"".join(self.string(20) for _ in range(11))
        out += self.bytes(4) + bytes([self.byte() % 2]) + bytes(247)
        return out + b"".join(self.board(others + 1, self.below(most + 1)) for _ in range(others + 1))


# ---- what test_desk answers


class Asked:
    """Calls of test_desk for one row, made together with those of all others."""

    script = desk.Script()

    @classmethod
    def world(cls, data, limit):
        return cls.script.call(desk.WORLD, limit, data)

    @classmethod
    def edits(cls, data, size, world=None):
        """A file read in pieces of this size: the calls that feed it and end it."""
        cls.script.call(desk.READ, *((0,) if world is None else (1, world)))
        return cls.script.call(desk.FEED, size, data), cls.script.call(desk.FINISH)

    @classmethod
    def asked(cls, data, world, sizes):
        cls.script.call(desk.READ, 1, world)
        calls, at = [], 0
        for size in sizes:
            calls.append(cls.script.call(desk.FEED, size, data[at : at + size]))
            at += size
        return calls, cls.script.call(desk.FINISH)


def read_of(number):
    """What a world file comes to: the refusal, or `read`."""
    _, answer = Asked.script[number]
    return "read" if answer[0] == "Ok" else spelled_error(answer[1])


def found_of(calls):
    """What was read of an edit file: the world, the end, how many edits, and their records."""
    fed, ended = calls
    end, count, records = Asked.script[ended]
    return Asked.script[fed][1], "" if end[0] == "Ok" else spelled_error(end[1]), count, bytes(records)


def told_of(data, calls, by_bytes):
    """What is told of an edit file that was read in two ways."""
    found = found_of(calls)
    world, end, count, records = found
    unlike = "" if found == found_of(by_bytes) else "otherwise byte by byte, "
    if end:
        return f"{count} edits, {unlike}{end}"
    again = editfile.file_of(world[1], [records]) if world != "None" else b""
    return f"{count} edits, {unlike}written {'so' if again == data else 'otherwise'}"


def fronts(count, told):
    """What is told of each of so many fronts that isn't told of the one before."""
    lines, before = [], None
    for number in range(count):
        now = told(number)
        if now != before:
            lines.append((number, now))
        before = now
    return lines


# ---- what the programs show


def read_by_zzted(data):
    """Whether zzted reads a world file, and the world file that its Genesis has."""
    PROGRAMS.put("row.zzt", data)
    refusal = PROGRAMS.refusal(PROGRAMS.zzted, "new", "row.zed", 7, "--from", "row.zzt")
    if refusal:
        return refusal, None
    ((stamp, record),) = editfile.records_of(PROGRAMS.bytes_of("row.zed"))
    return "read", record[13:] if stamp == (1, 0) and record[12] == 1 else None


def saved_by_zzted(limit):
    """What zzted saves of the world that it read last."""
    options = ["--big"] if limit == LARGEST else []
    refusal = PROGRAMS.refusal(PROGRAMS.zzted, "save", *options, "out.zzt", "row.zed")
    return refusal or PROGRAMS.bytes_of("out.zzt")


def end_by_zztool(data):
    """The refusal of an edit file, or how many lines its list has."""
    PROGRAMS.put("row.zed", data)
    status, printed, complained = PROGRAMS.run(PROGRAMS.zztool, "log", "row.zed")
    return f"{len(printed.splitlines())} edits" if status == 0 else complained.partition(": ")[2]


def merged_by_zzted(data, world):
    """What zzted writes of an edit file, or the refusal."""
    PROGRAMS.put("row.zed", data)
    return PROGRAMS.refusal(PROGRAMS.zzted, "merge", "merged.zed", world, "row.zed") or PROGRAMS.bytes_of("merged.zed")


def lines_of(data):
    """The lines of an edit file, without stamps and marks."""
    PROGRAMS.put("row.zed", data)
    status, printed, complained = PROGRAMS.run(PROGRAMS.zztool, "log", "--full", "row.zed")
    return [it.removeprefix("held ") for it in printed.decode("latin-1").splitlines()] if status == 0 else [complained]


# ---- edits as `{:?}` prints them, in the words of docs/LOG.md


def _name(value):
    stamp = value[1]["name"][1]["stamp"][1]
    return f"{stamp['time']}.{stamp['replica']}:{value[1]['name'][1]['index']}"


def _option(value):
    return "none" if value == "None" else _name(value[1])


def _text(value):
    return editfile.quoted(bytes(value[1]["bytes"]))


def _element(number):
    return f"{editfile.ELEMENTS.get(number, '')}({number})"


def _target(value):
    return str(value[1]) if value[0] == "Byte" else f"board {_name(value[1])}"


def _flag(value):
    return "yes" if value else "no"


# of one register of each kind, the words for its name and its value
REGISTERS = {
    ("Number", "Ammo"): "ammo", ("Number", "Hundredths"): "hundredths", ("Key", "Blue"): "key blue", ("Key", "White"): "key white",
    ("Byte", "MaxShots"): "max shots", ("Byte", "StartY"): "start y", ("Flag", "ReEnter"): "re-enter", ("Exit", "North"): "exit north",
    ("Exit", "East"): "exit east", ("Text", "Message"): "message", ("Byte", "UnderColour"): "under colour", ("Number", "Position"): "position",
    ("Flag", "Tenth"): "flag 10",
}  # fmt: skip


def _setting(value):
    kind = value[0]
    if kind in ("Saved", "TimeLimit", "Rank"):
        return {"Saved": "saved", "TimeLimit": "time limit", "Rank": "rank"}[kind] + " " + (_flag(value[1]) if kind == "Saved" else str(value[1]))
    if kind in ("CurrentBoard", "WorldName"):
        return f"current board {_name(value[1])}" if kind == "CurrentBoard" else f"world name {_text(value[1])}"
    if kind in ("Follower", "Leader", "P3") or (kind == "Text" and len(value) == 2):
        return f"{kind.lower()} {_target(value[1]) if kind == 'P3' else _option(value[1])}"
    front = REGISTERS[kind, value[1]]
    if isinstance(value[2], bool):
        return f"{front} {_flag(value[2])}"
    if front == "under colour":
        return f"{front} 0x{value[2]:02x}"
    if kind == "Exit":
        return f"{front} {_option(value[2])}"
    return f"{front} {value[2] if isinstance(value[2], int) else _text(value[2])}"


def _op(value):
    kind, *parts = value if isinstance(value, tuple) else (value,)
    if kind == "SetHeader":
        return f"header {_setting(parts[0])}"
    if kind == "SetBoard":
        return f"board {_name(parts[0])} {_setting(parts[1])}"
    if kind == "SetStat":
        return f"stat {_name(parts[0])} {_setting(parts[1])}"
    if kind == "SetCells":
        r, tile = parts[1][1], parts[2][1]
        place = f"({r['left']},{r['top']})-({r['right']},{r['bottom']})"
        return f"cells board {_name(parts[0])} {place} {_element(tile['element'])} 0x{tile['colour']:02x}"
    if kind == "StatAdd":
        fields = parts[1][1]
        x, y, p1, p2, element, colour = fields["bytes"]
        step_x, step_y, cycle = fields["numbers"]
        return (
            f"add stat board {_name(parts[0])} ({x},{y}) p1 {p1} p2 {p2} under {_element(element)} 0x{colour:02x} step {step_x},{step_y}"
            f" cycle {cycle} p3 {_target(fields['p3'])} text {_option(fields['text'])}"
        )
    if kind == "TextInsert":
        place = "first" if parts[1] == "None" else f"after {_name(parts[1][1])}"
        return f"insert text {_name(parts[0])} {place} {_text(parts[2])}"
    if kind == "TextDelete":
        stamp = parts[1][1]["stamp"][1]
        return f"delete text {_name(parts[0])} bytes {stamp['time']}.{stamp['replica']}:{parts[1][1]['first']}-{parts[1][1]['last']}"
    if kind == "BoardAdd":
        return f"add board {_text(parts[0])}"
    return {"BoardRemove": "remove board", "StatRemove": "remove stat", "TextAdd": "add text"}[kind] + "".join(f" {_name(it)}" for it in parts)


def line_of(shown):
    """The line of an edit that is wanted as `{:?}` prints it."""
    ((kind, fields),) = parsed(shown)
    if kind != "Edit":
        raise NotARow(shown)
    stamp = fields["stamp"][1]
    return f"{stamp['time']} {stamp['replica']}  {_op(fields['op'])}"


# ---- the rows: each names bytes, or answers what is compared once test_desk has answered


class Book:
    def __init__(self):
        self.names, self.dice = {}, Dice()

    def named(self, name):
        if name not in self.names:
            raise NotARow(f"nothing is named {name}")
        return self.names[name]

    def take(self, row):
        """Does a row: what is to be compared of it, or None of a row that only names bytes."""
        act, _, rest = row.text.partition(" ")
        words = rest.split(" ")
        if act == "bytes":
            name, _, pieces = rest.partition(" ")
            self.names[name] = bytes_of(self.names, pieces)
            return None
        if act == "change":
            name, source, numbers = rest.split(" ", 2)
            self.names[name] = changed(self.named(source), numbers)
            return None
        if act == "length":
            length = str(len(self.named(words[0])))
            return lambda: [length]
        if act == "random":
            return self.random(row, *(number_of(it) for it in words))
        if act == "program":
            return self.program(rest)
        doing = getattr(self, f"{act}_{words[0]}", None) if act in ("world", "edits", "record") else None
        if doing is None:
            raise NotARow(row.text)
        return doing(row, *words[1:])

    # what is seen by the programs is compared at once; what test_desk answers, later

    def world_read(self, row, name, count=None):
        data = self.named(name)
        front = data if count is None else data[: number_of(count)]
        COUNTS.is_so(f"{row.text}, by zzted", read_by_zzted(front)[0], row.wanted[0])
        call = Asked.world(front, LARGEST)
        return lambda: [read_of(call)]

    def world_cuts(self, row, name):
        data = self.named(name)
        told = fronts(len(data) + 1, lambda count: read_by_zzted(data[:count])[0])
        COUNTS.is_so(f"{row.text}, by zzted", [f"{count} {it}" for count, it in told], row.wanted)
        calls = [Asked.world(data[:count], LARGEST) for count in range(len(data) + 1)]
        return lambda: [f"{count} {it}" for count, it in fronts(len(calls), lambda count: read_of(calls[count]))]

    def world_canonical(self, row, name):
        data = self.named(name)
        record = editfile.record((1, 0), editfile.genesis(data))
        told = {"1 edits": "canonical", "BadEdit Genesis": "not canonical"}.get(end_by_zztool(editfile.file_of(7, [record])))
        COUNTS.is_so(f"{row.text}, by zztool", [told], row.wanted)
        call = Asked.world(data, LARGEST)
        return lambda: [{True: "canonical", False: "not canonical"}.get(Asked.script[call][0][1])]

    def world_again(self, row, name, limit, wanted):
        data, limit, wanted = self.named(name), number_of(limit), self.named(wanted)
        if not limit <= LARGEST:
            raise NotARow(row.text)
        read, canonical = read_by_zzted(data)
        is_written = row.wanted == ["written so"]
        COUNTS.is_so(f"{row.text}, by zzted", (read, canonical == wanted), ("read", is_written or limit == USUAL and data == wanted or limit < USUAL))
        if limit in (USUAL, LARGEST):
            COUNTS.is_so(f"{row.text}, saved by zzted", saved_by_zzted(limit), wanted if is_written else spelled_refusal(row.wanted[0]))
        call = Asked.world(data, limit)

        def told():
            _, answer = Asked.script[call]
            if answer[0] == "Err":
                return [spelled_error(answer[1])]
            return ["written so" if bytes(answer[1]) == wanted else "written otherwise"]

        return told

    def random(self, row, others, most):
        data = self.dice.world(others, most)
        COUNTS.is_so(f"{row.text}, by zzted", read_by_zzted(data) == ("read", data), row.wanted == ["written so, canonical"])
        COUNTS.is_so(f"{row.text}, saved by zzted", saved_by_zzted(LARGEST) == data, row.wanted == ["written so, canonical"])
        call = Asked.world(data, LARGEST)
        written = ("Ok", True), ("Ok", data)

        def told():
            canonical, answer = Asked.script[call]
            return ["written so, canonical" if (canonical, (answer[0], bytes(answer[1]))) == written else "written otherwise"]

        return told

    def edits_read(self, row, name):
        data = self.named(name)
        self.seen_edits(row, data)
        calls = Asked.edits(data, len(data)), Asked.edits(data, 1)
        return lambda: [told_of(data, *calls)]

    def seen_edits(self, row, data):
        """What zzted and zztool show of an edit file: its refusal, or its edits and what is written of it."""
        count, _, end = row.wanted[0].partition(" edits, ")
        records = [it for _, it in editfile.records_of(data)] if end.startswith("written") else []
        merged = merged_by_zzted(data, int.from_bytes(data[4:12], "little"))
        if not end.startswith("written"):
            COUNTS.is_so(f"{row.text}, by zzted", merged, spelled_refusal(end))
            COUNTS.is_so(f"{row.text}, by zztool", end_by_zztool(data), spelled_refusal(end))
            return
        # the same edit more than once is one
        once = list(dict.fromkeys(records))
        COUNTS.is_so(f"{row.text}, edits", len(records), number_of(count))
        COUNTS.is_so(f"{row.text}, by zzted", merged == editfile.head(int.from_bytes(data[4:12], "little"), data[3]) + b"".join(once), end == "written so")
        COUNTS.is_so(f"{row.text}, by zztool", end_by_zztool(data), f"{len(once)} edits")

    def edits_pieces(self, row, name, size):
        data = self.named(name)
        self.seen_edits(row, data)
        calls = Asked.edits(data, number_of(size)), Asked.edits(data, 1)
        return lambda: [told_of(data, *calls)]

    def edits_written(self, row, name, wanted):
        data, wanted = self.named(name), self.named(wanted)
        COUNTS.is_so(f"{row.text}, by zzted", merged_by_zzted(data, 7) == wanted, row.wanted == ["written so"])
        calls = Asked.edits(data, len(data))

        def told():
            world, _, _, records = found_of(calls)
            return ["written so" if editfile.file_of(world[1], [records]) == wanted else "written otherwise"]

        return told

    def edits_shown(self, row, name):
        """The edits are seen in the lines of zztool, and the world in that zzted takes them for that one alone."""
        data, (world, *shown) = self.named(name), row.wanted
        number = number_of(world.removeprefix("world "))
        COUNTS.is_so(f"{row.text}, by zztool", lines_of(data), [line_of(it) for it in shown])
        COUNTS.is_so(f"{row.text}, its world", (merged_by_zzted(data, number) != "OtherWorld", merged_by_zzted(data, number - 1)), (True, "OtherWorld"))
        calls = Asked.edits(data, len(data))

        def told():
            world, _, count, records = found_of(calls)
            is_so = (count, records) == (len(shown), b"".join(it for _, it in editfile.records_of(data)))
            return [f"world {world[1]}", *shown] if is_so else ["other edits"]

        return told

    def edits_cuts(self, row, name):
        data = self.named(name)
        ends = [end_by_zztool(data[:count]) for count in range(len(data) + 1)]
        seen = fronts(len(ends), lambda count: ends[count])
        wanted = []
        for line in row.wanted:
            count, edits, end = re.fullmatch(r"(\d+) (\d+ edits), (.*)", line).groups()
            wanted.append((number_of(count), edits if end.startswith("written") else spelled_refusal(end)))
        COUNTS.is_so(f"{row.text}, by zztool", seen, wanted)
        calls = [(Asked.edits(data[:count], max(count, 1)), Asked.edits(data[:count], 1)) for count in range(len(data) + 1)]

        def told():
            lines = fronts(len(calls), lambda count: found_of(calls[count][0])[1:3])
            unlike = [f"{count} otherwise byte by byte" for count, it in enumerate(calls) if found_of(it[0]) != found_of(it[1])]
            return [f"{count} {told_of(data[:count], *calls[count])}" for count, _ in lines] + unlike

        return told

    def edits_replaced(self, row, name):
        data = self.named(name)
        files = [data[:place] + bytes([value]) + data[place + 1 :] for place in range(len(data)) for value in range(256)]
        calls = [(Asked.edits(it, len(it)), Asked.edits(it, 1)) for it in files]
        return lambda: [f"{sum(found_of(whole) == found_of(cut) for whole, cut in calls)} files are read alike"]

    def edits_asked(self, row, name, world, *sizes):
        data, sizes = self.named(name), [number_of(it) for it in sizes]
        if sum(sizes) > len(data):
            raise NotARow(row.text)
        calls, ended = Asked.asked(data, number_of(world), sizes)

        def told():
            answers = [Asked.script[it] for it in calls]
            end, count, _ = Asked.script[ended]
            return [*(f"{spelled_end(answer)} {spelled_some(world)}" for answer, world in answers), f"{spelled_end(end)}, {count} edits"]

        return told

    # records are seen in the lines of zztool and its refusals

    def file_with(self, version, body):
        return editfile.head(7, version) + len(body).to_bytes(4, "little") + body

    def record_cuts(self, row, version, name):
        version, body = number_of(version), self.named(name)
        longer = body + b"\0"
        ends = [end_by_zztool(self.file_with(version, longer[:count])) for count in range(9, len(longer) + 1)]
        lines = "; ".join(f"{count + 9} {it}" for count, it in fronts(len(ends), lambda count: ends[count]))
        return lambda: [re.sub(r"BadEdit (\w+)", r"BadEdit(\1)", lines)]

    def record_tags(self, row, version, name, *tags):
        version, body, told = number_of(version), self.named(name), []
        for tag in tags:
            place, byte = (number_of(it) for it in tag.split("="))
            if place >= len(body):
                raise NotARow(row.text)
            other = body[:place] + bytes([byte]) + body[place + 1 :]
            told.append(", ".join(end_by_zztool(self.file_with(version, it)) for it in (other[: place + 1], other)))
        return lambda: [re.sub(r"BadEdit (\w+)", r"BadEdit(\1)", "; ".join(told))]

    # programs of objects, which no program shows so exactly

    def program(self, rest):
        act, place, text = (*rest.split(" ", 2), "")[:3]
        if act == "label":
            mark, label, text = (*text.split(" ", 2), "")[:3]
            call = Asked.script.call(desk.PROGRAM, 8, number_of(place), spelled_program(text), number_of(mark), label.encode())
            return lambda: label_at(call)
        if act == "bytes":
            calls = [[Asked.script.call(desk.PROGRAM, it, 0, bytes([byte])) for it in (5, 7)] for byte in range(256)]
            return lambda: [f"{byte} {standing_at(stands)[0]} {kinds_of(lines)}" for byte, (stands, lines) in enumerate(calls)]
        if act not in ACTS:
            raise NotARow(rest)
        number, shown, *given = ACTS[act]
        call = Asked.script.call(desk.PROGRAM, number, number_of(place), spelled_program(text), *given)
        return lambda: shown(call)


def spelled_program(text):
    """The bytes of a program: `|` is the byte 13, `\\` and two digits any byte, and any other itself."""
    out = bytearray()
    for piece in re.findall(r"\\[0-9a-f]{2}|[^\\]", text):
        out += bytes.fromhex(piece[1:]) if piece.startswith("\\") else b"\r" if piece == "|" else piece.encode("ascii")
    if len(re.sub(r"\\[0-9a-f]{2}", "x", text)) != len(out):
        raise NotARow(text)
    return bytes(out)


# ---- what is found in programs: numbers of test_desk, spelled as `{:?}` prints them

TURNS = ["Clockwise", "CounterClockwise", "Opposite", "Sideways"]
COURSES = ["North", "South", "East", "West", "Idle", "Seek", "Flow", "Random", "RandomNorthOrSouth", "RandomNorthOrEast"]
COUNTERS = ["Health", "Ammo", "Gems", "Torches", "Score", "Time"]
KINDS = ["End", "Skipped", "Blank", "Step", "Attempt", "Command", "Message"]
TESTS = ["Aligned", "Contact", "Blocked heading", "Any kind", "Energized", "Flag word"]
COMMANDS = [
    "Go heading", "Try heading", "Walk heading", "Shoot heading", "Set word", "Clear word", "If query", "Give count", "Take count", "End", "EndGame",
    "Idle", "Restart", "Send word", "Zap word", "Restore word", "Lock", "Unlock", "Become kind", "Die", "Put heading kind", "Change kind kind",
    "Cycle number", "Char number", "Bind word", "Nothing", "Other word",
]  # fmt: skip
INSTRUCTIONS = ["End", "Skipped", "Blank", "Step heading", "Attempt heading", "Command", "Message word"]


class Found:
    """The values that a call answered, taken one by one."""

    def __init__(self, call):
        *self.left, (_, self.end) = Asked.script[call]

    def next(self):
        return self.left.pop(0)

    def some(self, words):
        """None, or the word of a number."""
        number = self.next()
        return "None" if number is False else f"Some({words[number[1] if isinstance(number, tuple) else number]})"

    def heading(self):
        turns = []
        while type(self.left[0]) is int:
            turns.append(TURNS[self.next()])
        return f"Heading {{ turns: Seq {{ items: [{', '.join(turns)}] }}, course: {self.some(COURSES)} }}"

    def kind(self):
        found = self.next()
        if found is False:
            return "None"
        colour = found[0] if isinstance(found[0], str) else f"Some({found[0][1]})"
        return f"Some(TileKind {{ colour: {colour}, element: {found[1]} }})"

    def word(self):
        return f"Bytes {{ bytes: {self.next()} }}"

    def count(self):
        return f"{self.some(COUNTERS)}, {self.next()}"

    def number(self):
        return str(self.next())

    def query(self):
        negated = str(self.next()).lower()
        return f"Query {{ negated: {negated}, test: {self.one_of(TESTS)} }}"

    def one_of(self, words):
        """One of these, with the parts that stand behind its word."""
        number = self.next()
        if isinstance(number, tuple):
            number, part = number
            self.left.insert(0, part)
        name, *parts = words[number].split(" ")
        return f"{name}({', '.join(getattr(self, part)() for part in parts)})" if parts else name


def word_at(call):
    found = Found(call)
    return [f"'{bytes(found.left[1]).decode('latin-1')}' {found.end}"]


def heading_at(call):
    found = Found(call)
    found.next()
    return [f"{found.heading()} {found.end}"]


def kind_at(call):
    found = Found(call)
    return [f"{found.kind()} {found.end}"]


def condition_at(call):
    found = Found(call)
    return [f"{found.query()} {found.end}"]


def command_at(call):
    found = Found(call)
    return [f"{f'Some({found.one_of(COMMANDS)})' if found.left else 'None'} {found.end}"]


def standing_at(call):
    found = Found(call)
    return [f"{found.one_of(INSTRUCTIONS)} {found.end}"]


def line_at(call):
    found = Found(call)
    return [f"{found.next()} {found.end}"]


def lines_at(call):
    values = Asked.script[call][:-1]
    return [f"{KINDS[line[0]]} {line[1]} {line[2]} '{bytes(text).decode('latin-1')}'" for line, text in zip(values[::2], values[1::2])]


def kinds_of(call):
    return " ".join(KINDS[line[0]] for line in Asked.script[call][:-1][::2])


def label_at(call):
    place, first, stands = Found(call).left
    return [f"{spelled_some(place)} {spelled_some(first)} {str(stands).lower()}"]


def spelled_some(value):
    return value if isinstance(value, str) else f"Some({value[1]})"


ACTS = {
    "word": (0, word_at), "direction": (1, heading_at), "kind": (2, kind_at, 0), "kind_or_player": (2, kind_at, 1), "condition": (3, condition_at),
    "command": (4, command_at), "stands": (5, standing_at), "line": (6, line_at), "lines": (7, lines_at),
}  # fmt: skip


def main():
    books = []
    for name in sorted(os.listdir(FOLDER)):
        book, rows = Book(), []
        for row in rows_of(os.path.join(FOLDER, name)):
            try:
                told = book.take(row)
            except (NotARow, ValueError, TypeError, IndexError, AttributeError, KeyError) as error:
                COUNTS.fails(f"{name}:{row.number}: {row.text[:80]}: not a row that may stand here: {error!r}")
                continue
            if told is not None or row.wanted:
                rows.append((row, told))
        books.append((name, rows))
    if desk.is_there():
        Asked.script.answer()
    for name, rows in books:
        held = 0
        for row, told in rows:
            if desk.is_there() or row.text.startswith(("length", "record")):
                held += COUNTS.is_so(f"{name}:{row.number}: {row.text[:80]}", told() if told else [], row.wanted)
        print(f"readings: {name}: {held} rows hold of {len(rows)}")
    return COUNTS.tell()


sys.exit(main())
