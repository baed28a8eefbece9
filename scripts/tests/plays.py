"""Plays by playbooks (docs/PLAYBOOKS.md), and compares what is seen with what they say.

Usage: plays.py ZZTED ZZTOOL TEST_PLAY ROOM BOOK..       compares
       plays.py --refused LIBRARY TEST_PLAY ROOM BOOK..  makes the calls of each case's first acts with each growth of memory refused
                                                         in turn: the library is growths.c

A case becomes a world file. All that there is to be seen of an act is printed by test_play, and compared with the book. What the programs
show of it is compared too: each picture of `zzted play` and `zzted show` is drawn here, by docs/FORMATS.md, and `zztool play` tells the
messages and the end. The pictures of zztool are those of pictures.py."""

import os
import subprocess
import sys

import pictures
from naming import refusal_in
from playbooks import Fault, read_book
from zzt import Board, Stat

# by the numbers of playbooks.KEYS
LETTERS = ".nsweNSWE"
# the characters of zzted
ELEMENTS = "    @atgkDs=dbe*/\\.~%#+:O|-, B<lrhUR m^GPLTvHo?"
# look by the tick, or otherwise in play
RESTLESS = {15, 16, 17, 28, 30, 39}
# how a call came out, and what a playtest that failed has besides
CHOSEN = ("Sent", "NoLabel", "Gone", "NoFile", "NoChoice")
OUTCOMES = ("did", "used", "Over", "Memory", "NoWords", "NoBoard", "failed", *CHOSEN)
passed = failed = 0


def is_so(what, seen, wanted):
    """Counts a comparison, and tells of one that doesn't hold."""
    global passed, failed
    if seen == wanted:
        passed += 1
        return
    failed += 1
    print(f"plays: FAILED: {what}")
    for mark, it in (("wanted", wanted), ("seen", seen)):
        for line in it if isinstance(it, list) else [it]:
            print(f"  {mark}: {str(line)[:300]}")


def is_printed(what, seen, wanted):
    """The same of a program's status, lines and complaint: of the lines the first is told that differs."""
    if seen != wanted:
        at = next((i for i, pair in enumerate(zip(seen[1], wanted[1])) if pair[0] != pair[1]), 0)
        seen, wanted = ([it[0], f"{len(it[1])} lines", *it[1][at : at + 1], it[2]] for it in (seen, wanted))
    is_so(what, seen, wanted)


# ---- what is to be seen


class State:
    """What test_play prints of an act: lines of a word and numbers."""

    def __init__(self, lines):
        self.lines, self.kinds, self.texts = lines, {}, []
        for line in lines:
            word, *rest = line.split(" ")
            self.kinds.setdefault(word, []).append(rest)

    def has(self, word):
        return word in self.kinds

    def all(self, word):
        return [tuple(map(int, rest)) for rest in self.kinds.get(word, [])]

    def one(self, word):
        (only,) = self.all(word)
        return only

    def bytes(self, word):
        return [bytes(it) for it in self.all(word)]

    def pairs(self, word):
        flat = self.one(word)
        return list(zip(flat[::2], flat[1::2]))

    def standing(self):
        """How the playtest stands, whatever the call came to."""
        return [line for line in self.lines if line.split(" ")[0] not in OUTCOMES]

    def board(self):
        """The board alone."""
        return [line for line in self.standing() if line.split(" ")[0] in ("tiles", "stat", "program", "counters", "flag")]


def told(data):
    """How bytes are spelled, with a space before them."""
    out = "".join("|" if it == 13 else chr(it) if 32 <= it <= 126 and it not in b"|\\" else f"\\{it:02X}" for it in data)
    return f" {out}" if out else ""


def numbered(word, before, after, is_told=lambda i: True):
    return [f"{word} {i}{told(it)}" for i, it in enumerate(after) if before[i : i + 1] != [it] and is_told(i)]


def changes(before, after):
    """What differs on a board."""
    seen = []
    if before.kinds["tiles"] != after.kinds["tiles"]:
        for i, (old, new) in enumerate(zip(before.pairs("tiles"), after.pairs("tiles"))):
            if old != new:
                seen.append(f"tile {i % 60 + 1} {i // 60 + 1} {new[0]} {new[1]}")
    old, new = before.all("stat"), after.all("stat")
    if len(old) != len(new):
        seen.append(f"stats {len(new)}")
    for i, stat in enumerate(new):
        if old[i : i + 1] != [stat]:
            fields = ["none" if it == -1 and k in (8, 9, 12, 13) else it for k, it in enumerate(stat)]
            seen.append("stat {} {} {} step {} {} cycle {} p1 {} p2 {} p3 {} follower {} leader {} under {} {} at {} program {}".format(i, *fields))
    had = [stat[13] for stat in new]
    seen += numbered("program", before.bytes("program"), after.bytes("program"), lambda i: i in had)
    if before.one("counters") != after.one("counters"):
        seen.append("counters {} {} {} {} {} {}".format(*after.one("counters")))
    return seen + numbered("flag", before.bytes("flag"), after.bytes("flag"))


def lines_of(messages):
    return ["line" + told(it) for it in messages]


def scrolls_of(state):
    """The scrolls of the last step: who spoke, the title, and the lines."""
    seen = []
    for line in state.lines:
        word, *rest = line.split(" ")
        match word:
            case "scroll":
                speaker = "none" if rest == ["-1"] else rest[0]
            case "title":
                seen.append(f"scroll {speaker}{told(bytes(map(int, rest)))}")
            case "said":
                seen += lines_of([bytes(map(int, rest))])
    return seen


def seen_of_choice(before, after):
    seen = [it.lower() for it in CHOSEN if after.has(it)] + changes(before, after)
    return seen if scrolls_of(before) == scrolls_of(after) else seen + ["scrolls differ"]


def new_messages(old, new):
    """Those after the longest run of old ones."""
    for gone in range(len(old)):
        if new[: len(old) - gone] == old[gone:]:
            return new[len(old) - gone :]
    return new


def ending(state):
    return [f"left {it}" for (it,) in state.all("left")] + [it for it in ("died", "failed") if state.has(it)]


def seen_of_step(before, step, after):
    """What is seen of a step, after which the player may have come to another board."""
    seen = ["noboard"] * after.has("NoBoard")
    seen += [it.lower() for it in ("NoWords", "Over") if step.has(it)] or [f"used {step.one('used')[0]}"]
    seen += lines_of(new_messages(before.bytes("line"), after.bytes("line"))) + changes(before, after)
    if before.one("keys") != after.one("keys"):
        seen.append(" ".join(["keys"] + [str(i + 1) for i, held in enumerate(after.one("keys")) if held]))
    return seen + ([f"tick {after.one('tick')[0]}", *ending(after)] if step.has("used") else [])


def seen_of_turn(opened, copy, turn, copied, again):
    if turn.has("NoWords"):
        seen = ["nowords"]
    else:
        number = turn.one("number")[0]
        seen = [f"used {turn.one('used')[0]} number {'none' if number == -1 else number}", *lines_of(turn.bytes("line")), *changes(copy, turn)]
    is_same = opened.board() == copy.board() == copied.board() and turn.lines == again.lines
    return seen if is_same else seen + ["copies differ"]


def cells_of(state):
    """The picture of `zzted play`: characters and attributes, with six numbers beside the board."""
    health, ammo, gems, torches, score, _ = state.one("counters")
    values = zip(("Health", "Ammo", "Torches", "Gems", "Score", "Tick"), (health, ammo, torches, gems, score, *state.one("tick")))
    panel = [f"  {name:8}{value:6}".ljust(20) for name, value in values] + [" " * 20] * 19
    objects = {}
    for x, y, _, _, _, p1, *_ in reversed(state.all("stat")):
        objects[x, y] = p1
    cells = []
    for i, (element, colour) in enumerate(state.pairs("tiles")):
        if element == 36:
            character = objects.get((i % 60 + 1, i // 60 + 1), ord("?"))
        elif element in pictures.TEXTS:
            character = colour
        else:
            character = ord(ELEMENTS[element]) if element < len(ELEMENTS) else ord("?")
        cells.append((character, pictures.TEXTS.get(element, 0x0F if element == 0 else colour)))
        if i % 60 == 59:
            cells += [(ord(it), 0x1F) for it in panel[i // 60]]
    return cells


def rows_of(cells):
    """The lines of a picture as zzted prints it."""
    text = "".join(chr(it) if 32 <= it <= 126 else "?" for it, _ in cells)
    return [text[i : i + 80] for i in range(0, 2000, 80)]


def printed(lines):
    """The same lines as a program prints them, cut again: a message may hold the byte that ends a line."""
    return "".join(f"{line}\n" for line in lines).split("\n")


def trimmed(rows):
    return [row.rstrip(" ") for row in rows]


def texts_of(state):
    """What zztool shows of a board at tick 0, in colour, plainly and as SVG."""
    stats = [Stat(x, y, (step_x, step_y), cycle, p1) for x, y, step_x, step_y, cycle, p1, *_ in state.all("stat")]
    rows = pictures.rows_of(Board(tiles=state.pairs("tiles"), stats=stats))
    return [list(draw(rows).encode()) for draw in (pictures.coloured, pictures.plain, pictures.svg)]


# ---- test_play


class Script:
    """What test_play is asked to do in a world file, and what it answers."""

    def __init__(self, program, world, library=None):
        self.program, self.world, self.lines = program, world, []
        self.env = {**os.environ, "LD_PRELOAD": library} if library else None

    def ask(self, *words):
        self.lines.append(" ".join(map(str, words)))
        return len(self.lines) - 1

    def run(self):
        asked = "".join(f"{line}\n" for line in self.lines)
        ran = subprocess.run([self.program, self.world], input=asked, capture_output=True, text=True, timeout=600, env=self.env)
        blocks = []
        for line in ran.stdout.splitlines()[1:]:
            if line.startswith("did ") or line == "unknown":
                blocks.append([])
            blocks[-1].append(line)
        answers = []
        for block in map(State, blocks):
            # behind a picture come its texts
            if answers and answers[-1].has("cells") and len(answers[-1].texts) < 3:
                answers[-1].texts.append(block)
            else:
                answers.append(block)
        if ran.returncode or ran.stderr or len(answers) != len(self.lines) or any(it.has("unknown") for it in answers):
            raise Fault(f"test_play: status {ran.returncode}, {len(answers)} answers to {len(self.lines)} lines: {ran.stderr}")
        return answers


def asked_of(case, script):
    """Asks for all acts, and answers what came, act by act. First come those on copies and on playtests of their own."""
    asked, last = {}, None
    for act in case.acts:
        match act.name:
            case "turn":
                asked[act] = []
                for copies in (1, 2):
                    opened = script.ask("open", 0, 0, 1)
                    copied = [script.ask("copy", 0) for _ in range(copies)]
                    asked[act] += [opened, copied[-1], script.ask("turn", 0, act.stat, *act.words)]
            case "begun":
                asked[act] = [script.ask("open", 0, act.board, 1)]
            case "drawn":
                asked[act] = [script.ask("open", 0, act.board, 1), script.ask("drawn", 0, act.board)]
    for act in case.acts:
        match act.name:
            case "opened":
                last = script.ask("open", 0, 0, act.tick)
                asked[act] = [last]
            case "key" | "goes" | "messages" | "scrolls" | "choose" | "picture" | "cell" if last is None:
                raise Fault(f"{act.at}: no playtest was opened")
            case "key" | "goes":
                asked[act] = [last, script.ask("key", 0, act.key, *act.words)]
                if act.name == "goes" and script.run()[-1].has("left"):
                    asked[act].append(script.ask("enter", 0, act.board))
                last = asked[act][-1]
            case "messages" | "scrolls":
                asked[act] = [last]
            case "choose":
                asked[act] = [last, script.ask("choose", 0, act.scroll, act.row)]
                last = asked[act][-1]
            case "picture" | "cell":
                asked[act] = [last, script.ask("look", 0)]
    answers = script.run()
    if any(it.one("did") != (0,) for it in answers):
        raise Fault("a growth was refused")
    return [(act, [answers[i] for i in asked[act]]) for act in case.acts]


# ---- the programs


class Playtest:
    """A playtest as the programs make it: keys, the words that they use, and what is to be seen."""

    def __init__(self, opened):
        # the programs begin at tick 1, and zzted stays on one board
        self.begins, self.goes, self.lacks = opened.one("tick") == (1,), False, False
        self.letters, self.words, self.rows, self.now = "", [], [], opened

    def take(self, act, step, after):
        self.lacks = step.has("NoWords")
        if self.lacks:
            self.lacking = LETTERS[act.key], act.words
        elif step.has("used"):
            self.letters += LETTERS[act.key]
            self.words += act.words[: step.one("used")[0]]
            self.rows += rows_of(cells_of(after))
            self.now = after
        if act.name == "goes":
            # where zztool goes on too: on the board that the player left for
            self.goes = True
            self.begins = self.begins and step.one("left") == (act.board,) if step.has("left") else self.begins


class Stage:
    """A case, its world and edit file, and what the programs make of them."""

    def __init__(self, zzted, zztool, room, data):
        self.zzted, self.zztool, self.room, self.edits = zzted, zztool, room, None
        self.world = self.put("world.zzt", data)

    def put(self, name, data):
        at = os.path.join(self.room, name)
        with open(at, "wb") as out:
            out.write(data)
        return at

    def run(self, program, *words, typed=""):
        if self.edits is None:
            self.edits = self.put("world.zed", b"")
            os.remove(self.edits)
            made = subprocess.run([self.zzted, "new", self.edits, "1", "--from", self.world], stdin=subprocess.DEVNULL, capture_output=True)
            if made.returncode:
                raise Fault(f"zzted new: {made.stderr.decode()}")
        ran = subprocess.run([program, *map(str, words), self.edits], input=typed.encode(), capture_output=True, timeout=120)
        return ran.returncode, ran.stdout.decode("latin-1").split("\n"), refusal_in(ran.stderr.decode(), [*words, self.edits])

    def plays(self, what, playtest):
        """Compares a playtest with one of `zzted play`, and its end with one of `zztool play`."""
        now, words = playtest.now, b"".join(it.to_bytes(2, "little") for it in playtest.words)
        if not playtest.begins:
            return
        ends = ending(now) or [f"tick {now.one('tick')[0]}"]
        if not playtest.goes:
            messages = ["> " + it.decode("latin-1") for it in now.bytes("line")]
            letters, more, end = playtest.letters, b"", (0, printed(playtest.rows + messages + ends), "")
            if playtest.lacks:
                letter, lacking = playtest.lacking
                letters, more = letters + letter, b"".join(it.to_bytes(2, "little") for it in lacking)
                end = 1, printed(playtest.rows), "zzted: NoWords\n"
            chance = self.put("words", words + more)
            is_printed(f"{what}: zzted play", self.run(self.zzted, "play", "--big", 0, chance, typed=letters), end)
        chance, keys = self.put("words", words), self.put("keys", playtest.letters.encode())
        status, shown, said = self.run(self.zztool, "play", *["--boards"] * playtest.goes, "--words", chance, "--keys", keys, 0)
        report = "\n".join(shown).rpartition("\x1b[?1049l")[2].encode("latin-1").decode().split("\n")
        wanted = ["> " + "".join(map(pictures.character, it)) for it in now.bytes("line")] + ends
        is_printed(f"{what}: zztool play", (status, report, said), (0, printed(wanted), ""))
        with open(chance, "rb") as used:
            is_so(f"{what}: the words that zztool used", used.read(), words)

    def shows(self, what, board, drawn):
        """Compares the pictures of a board with those of `zzted show` and `zztool show`, and those with others."""
        if drawn.has("NoBoard"):
            is_printed(f"{what}: zzted show", self.run(self.zzted, "show", "--big", board), (1, [""], "zzted: NoBoard\n"))
            return
        is_printed(f"{what}: zzted show", self.run(self.zzted, "show", "--big", board), (0, printed(rows_of(drawn.pairs("cells"))), ""))
        for form, text in zip(([], ["--plain"], ["--svg"]), drawn.texts):
            shown = self.run(self.zztool, "show", *form, board)
            is_printed(f"{what}: zztool show {form}", shown, (0, text.bytes("text")[0].decode("latin-1").split("\n"), ""))

    def begins(self, what, board, opened):
        chance = self.put("words", b"")
        status, _, said = self.run(self.zzted, "play", "--big", board, chance)
        is_so(f"{what}: zzted play", (status, said), (1, "zzted: NoBoard\n") if opened.has("NoBoard") else (0, ""))


def look(stage, what, act, answers, playtests):
    """What is seen of an act; what the programs show of it is compared here."""
    match act.name:
        case "turn":
            return seen_of_turn(*answers[:3], *answers[4:])
        case "begun":
            stage.begins(what, act.board, answers[0])
            return ["noboard" if answers[0].has("NoBoard") else "begun"]
        case "drawn":
            opened, drawn = answers
            stage.shows(what, act.board, drawn)
            if drawn.has("NoBoard"):
                return ["noboard"]
            is_so(f"{what}: the texts", [list(it.one("text")) for it in drawn.texts], texts_of(opened))
            return trimmed(rows_of(drawn.pairs("cells")))
        case "opened":
            playtests.append(Playtest(answers[0]))
            return []
        case "key" | "goes":
            playtests[-1].take(act, answers[1], answers[-1])
            return seen_of_step(answers[0], answers[1], answers[-1])
        case "messages":
            return lines_of(answers[0].bytes("line"))
        case "scrolls":
            return scrolls_of(answers[0])
        case "choose":
            # zzted has no choices
            playtests[-1].begins = False
            return seen_of_choice(*answers)
    state, picture = answers
    is_so(f"{what}: the picture", picture.pairs("cells"), cells_of(state))
    if RESTLESS.isdisjoint(element for element, _ in state.pairs("tiles")):
        is_so(f"{what}: the texts", [list(it.one("text")) for it in picture.texts], texts_of(state))
    if act.name == "picture":
        return trimmed(rows_of(picture.pairs("cells")))
    return ["cell {} {}".format(*picture.pairs("cells")[act.row * 80 + act.column])]


def compare(book, zzted, zztool, test_play, room):
    acts = 0
    before, cases = failed, read_book(book)
    for case in cases:
        stage, playtests = Stage(zzted, zztool, room, case.file()), []
        for act, answers in asked_of(case, Script(test_play, stage.world)):
            what = f"{os.path.basename(book)}:{act.at}"
            seen = look(stage, what, act, answers, playtests)
            is_so(f"{what}: {act.line}", seen, act.wanted)
            acts += seen == act.wanted
        for number, playtest in enumerate(playtests, 1):
            stage.plays(f"{os.path.basename(book)}: {case.name}: playtest {number}", playtest)
    print(f"plays: {os.path.basename(book)}: {len(cases)} cases, {acts} acts hold{', and others not' if failed > before else ''}")


# ---- growths of memory refused


class Call:
    """A call of a case, and the lines before and after it that belong to it."""

    def __init__(self, name, call, before=(), after=()):
        self.name, self.call, self.before, self.after = name, call, before, after

    def ask(self, script, nth):
        """Asks for it with this growth refused, 0 for none."""
        word, *numbers = self.call
        lines = [*self.before, (word, nth, *numbers), *self.after]
        return [script.ask(*line) for line in lines], len(self.before)

    def is_refused_well(self, answers, plain, at):
        """Whether a call of which a growth was refused says so, and leaves what it should."""
        answer, memory = answers[at], answers[at].lines[:2] == ["did 1", "Memory"]
        match self.name:
            case "copy":
                return answer.lines == ["did 1"]
            case "turn":
                return memory
            case "opened":
                # the playtest that was opened before stays
                return memory and answer.lines[2:] == plain[at].lines[2:]
            case "key":
                # it has failed, and is otherwise as it was; so a further step is refused
                opened, again = answers[at - 1], answers[at + 1]
                is_over = again.lines[:2] == ["did 0", "Over"] and again.has("failed") and answer.has("failed")
                return memory and is_over and answer.standing() == again.standing() == opened.standing()
            case "choose":
                return memory and answer.standing() == answers[at - 1].standing()
        # drawing takes no memory, only the texts do
        texts = zip(answer.texts, plain[at].texts)
        return answer.lines == plain[at].lines and all(it.lines == ["did 1", "Memory"] or it.lines == old.lines for it, old in texts)


def was_refused(answer):
    return any(it.one("did") == (1,) for it in (answer, *answer.texts))


def is_whole(answers, plain):
    return all(it.lines == old.lines and [t.lines for t in it.texts] == [t.lines for t in old.texts] for it, old in zip(answers, plain))


def growths_of(call, script):
    """How many growths a call has. Each is refused in turn, and what comes of it is compared."""
    first, many = 0, 16
    while first < 4096:
        asked = [call.ask(script, nth) for nth in (0, *range(first + 1, first + many + 1))]
        answers = script.run()
        script.lines.clear()
        (plain, at), *turns = [([answers[i] for i in they], at) for they, at in asked]
        for turn, _ in turns:
            if not was_refused(turn[at]):
                return first if is_whole(turn, plain) else None
            if not call.is_refused_well(turn, plain, at):
                return None
            first += 1
        many *= 4
    return None


def calls_of(case):
    """The calls of the first acts of a case."""
    first, opened = case.acts[0], ("open", 0, 0, 1)
    match first.name:
        case "turn":
            return [
                Call("copy", ("copy",), [opened]),
                Call("turn", ("turn", first.stat, *first.words), [opened, ("copy", 0)]),
            ]
        case "drawn":
            return [Call("drawn", ("drawn", first.board))]
        case "opened":
            opened = ("open", 0, 0, first.tick)
            calls = [Call("opened", ("open", 0, first.tick))]
            for step in [act for act in case.acts if act.name == "key"][:1]:
                calls.append(Call("key", ("key", step.key, *step.words), [opened], [("key", 0, step.key, *step.words)]))
            names = [act.name for act in case.acts]
            if "choose" in names:
                chosen, keys = case.acts[names.index("choose")], [act for act in case.acts[: names.index("choose")] if act.name == "key"]
                steps = [("key", 0, step.key, *step.words) for step in keys]
                calls.append(Call("choose", ("choose", chosen.scroll, chosen.row), [opened, *steps]))
            if any(act.name in ("picture", "cell") for act in case.acts):
                calls.append(Call("look", ("look",), [opened]))
            return calls
    return []


def refuse(book, library, test_play, room):
    global failed
    calls = growths = 0
    for case in read_book(book):
        world = os.path.join(room, "world.zzt")
        with open(world, "wb") as out:
            out.write(case.file())
        for call in calls_of(case):
            met = growths_of(call, Script(test_play, world, library))
            calls, growths = calls + 1, growths + (met or 0)
            if met is None:
                failed += 1
                print(f"plays: FAILED: {book}: {case.name}: {' '.join(map(str, call.call))}: wrong where a growth is refused")
    is_so(f"{book}: growths were refused", growths > 0, True)
    print(f"plays: {os.path.basename(book)}: {calls} calls, {growths} growths refused")


def main(words):
    global failed
    if words[0] == "--refused":
        do, given, books = refuse, words[1:4], words[4:]
    else:
        do, given, books = compare, words[:4], words[4:]
    for book in books:
        try:
            do(book, *given)
        except (Fault, OSError, UnicodeDecodeError, ValueError, subprocess.TimeoutExpired) as fault:
            failed += 1
            print(f"plays: FAILED: {book}: {fault}")
    print(f"plays: {passed} passed, {failed} failed")
    return 1 if failed else 0


if __name__ == "__main__":
    sys.exit(main(sys.argv[1:]))
