"""The rows of books of exchanges (docs/EXCHANGES.md): two replicas, and what a row does with them. A row is calls of test_desk, and what is seen
of their answers; where zzted and zztool show the same of the replica's edit file, they have to."""

import desk
import editfile
from replica import PROGRAMS, Replica
from rows import Counts, NotARow, bytes_of, number_of

COUNTS = Counts("exchanges")
USUAL = 20000
REPEATED = 4
STATES = ["taken", "held", "known"]
OVER = ["BoardsOver", "StatsOver", "BoardOver"]


# ---- how answers are spelled


def name_told(name):
    """A name that test_desk answered, or `none`."""
    return "none" if name is False else f"{name[0]}.{name[1]}:{name[2]}"


def error_of(value):
    """A refusal as books spell it, if a value is one."""
    if isinstance(value, str):
        return value
    if isinstance(value, tuple) and isinstance(value[0], str) and value[0] not in ("Ok", "Err"):
        if value[0] == "Clash":
            stamp = value[1][1]
            return f"Clash {stamp['time']}.{stamp['replica']}"
        if value[0] == "BadEdit":
            return f"BadEdit({value[1]})"
        return " ".join(str(it) for it in (value[0], *(value[1].values() if isinstance(value[1], dict) else value[1:])))
    return None


def result_of(value):
    """Of a value that is Ok or Err: what was answered, and the refusal."""
    return (value[1], None) if value[0] == "Ok" else (None, error_of(value[1]))


# ---- the orders of a row `orders`


class Dice:
    def __init__(self, seed):
        self.state = seed

    def below(self, bound):
        self.state = (self.state * 6_364_136_223_846_793_005 + 1_442_695_040_888_963_407) % 2**64
        return (self.state >> 33) % bound


def order_of(kind, count, nth):
    """The places of so many edits in the order of a number: 0 rises, 1 falls, each other is shuffled, some edits twice; or each order once."""
    if kind == "each":
        order = list(range(count))
        for i in range(1, count):
            order[i], order[nth % (i + 1)] = order[nth % (i + 1)], order[i]
            nth //= i + 1
        return order
    order = [k for k in range(count) for _ in range(2 if k % REPEATED == 0 else 1)]
    if nth == 1:
        order.reverse()
    elif nth:
        dice = Dice(nth)
        for i in range(1, len(order)):
            j = dice.below(i + 1)
            order[i], order[j] = order[j], order[i]
    return order


# ---- rows


class Edit:
    def __init__(self, name, stamp, record, words, number):
        self.name, self.stamp, self.record, self.words, self.number = name, stamp, record, words, number


def words_and(rest, count):
    words = rest.split(" ")
    if len(words) != count:
        raise NotARow(rest)
    return words


class Table:
    """Two replicas, the edits and bytes that have names, and a script for test_desk. A row adds calls, and answers a function: what is seen of it,
    once they are answered."""

    def __init__(self, name, script, has_programs):
        """Where there are programs, they show a replica too."""
        self.name, self.script, self.has_programs = name, script, has_programs
        self.bytes, self.edits, self.shared, self.replicas, self.fresh = {}, [], 0, {}, True

    def begin_case(self, shared):
        """Begins anew: the edits of all cases are read, and then those that the rows name."""
        self.bytes, self.edits = dict(shared.bytes) if shared else {}, []
        self.script.call(desk.READ, 0)
        self.script.call(desk.FEED, 12, editfile.head(7))
        for edit in shared.edits if shared else []:
            self.add(edit.name, edit.stamp, edit.words, edit.record)
        self.shared = len(self.edits)
        for who in ("one", "other"):
            self.replicas[who] = Replica(7)
            self.call(who, desk.BEGIN, 7)
        self.fresh = True

    # edits

    def add(self, name, stamp, words, record=None):
        if words == "remove board 1.0:0":
            # the one edit that no reader takes
            self.script.call(desk.MISFIT, *stamp)
        else:
            self.script.call(desk.FEED, len(record), record)
        edit = Edit(name, stamp, record, words, len(self.edits))
        self.edits.append(edit)
        return edit

    def edit(self, name):
        for edit in reversed(self.edits):
            if edit.name == name:
                return edit
        raise NotARow(f"there is no edit {name}")

    def name_edit(self, rest):
        name, _, words = rest.partition(" ")
        try:
            stamp = editfile.stamp_of(name)
        except editfile.NotAnEdit:
            word, _, words = words.partition(" ")
            stamp = editfile.stamp_of(word)
        if words.startswith("genesis "):
            op = editfile.genesis(self.bytes[words[8:]])
        elif words.startswith("letters "):
            count, text = words[8:].split(" ")
            op = editfile.letters(number_of(count), editfile.name_of(text))
        else:
            op = editfile.op_of(words)
        self.add(name, stamp, words, editfile.record(stamp, op))

    # calls

    def call(self, who, *given, nth=0):
        if who == "other":
            self.script.call(desk.SWAP)
        number = self.script.call(*given, nth=nth)
        if who == "other":
            self.script.call(desk.SWAP)
        return lambda: self.script[number]

    def deliver(self, who, edit, nth=0):
        answer = self.call(who, desk.DELIVER, edit.number, nth=nth)

        def told():
            was_refused, value = answer()
            error = error_of(value)
            if error:
                return was_refused, error, 0, 0
            state, woken, visits = value
            if STATES[state] != "known" and edit.record:
                self.replicas[who].take(edit.stamp, edit.record)
            return was_refused, STATES[state] + (f", wakes {woken}" if woken else ""), visits, woken

        return told

    def authored(self, who, call, spell):
        """A call by which an author makes edits: they are found in the log then."""
        log = self.call(who, desk.LOG)

        def told():
            was_refused, value = call()
            for stamp, record in editfile.records_of(bytes(log()[0])):
                self.replicas[who].take(stamp, record)
            return was_refused, spell(value)

        return told

    # the calls of rows: each answers whether a growth was refused, and how it ended

    def ended(self, who, verb, rest, nth=0):
        if verb == "gives":
            told = self.deliver(who, self.edit(rest), nth)
            return lambda: told()[:2]
        if verb == "authors":
            replica, name = words_and(rest, 2)
            call = self.call(who, desk.AUTHOR, number_of(replica), self.edit(name).number, nth=nth)
            return self.authored(who, call, made_told)
        if verb == "types":
            replica, text, position, string = rest.split(" ", 3)
            data, left = editfile.unquoted(string)
            if left:
                raise NotARow(rest)
            call = self.call(who, desk.INSERT, number_of(replica), *numbers_of(text), number_of(position), data, nth=nth)
            return self.authored(who, call, made_told)
        if verb == "deletes":
            replica, text, begin, end = words_and(rest, 4)
            call = self.call(who, desk.DELETE, number_of(replica), *numbers_of(text), number_of(begin), number_of(end), nth=nth)
            return self.authored(who, call, lambda value: error_of(value) or f"{value} edits")
        if verb == "merges":
            call = self.call(who, desk.MERGE, nth=nth)
            return self.authored(who, call, done_told)
        if verb in ("gives_nothing", "repairs"):
            call = self.call(who, {"gives_nothing": desk.NOTHING, "repairs": desk.REPAIR}[verb], nth=nth)
            return lambda: ended_told(call(), done_told)
        if verb == "takes_text":
            call = self.call(who, desk.TEXT, *numbers_of(rest), nth=nth)
            return lambda: ended_told(call(), done_told)
        if verb == "replays":
            call = self.call(who, desk.REPLAY, 0, nth=nth)
            return lambda: ended_told(call(), lambda value: error_of(value) or "done")
        if verb in ("exports", "makes_file", "warns"):
            given = {"exports": (desk.EXPORT,), "makes_file": (desk.SAVE, USUAL), "warns": (desk.WARNINGS,)}[verb]
            call = self.call(who, *given, nth=nth)
            spell = done_told if verb != "warns" else lambda value: error_of(value) or "done"
            return lambda: ended_told(call(), spell)
        if verb in ("copies", "checks"):
            call = self.call(who, desk.COPY if verb == "copies" else desk.CHECK, self.edit(rest).number, nth=nth)
            return lambda: ended_told(call(), copied_told)
        raise NotARow(f"{verb} {rest}")

    # what is done

    def take_takes(self, who, rest):
        edits = [self.edit(it) for it in rest.split(" ")]
        told = [self.deliver(who, it) for it in edits]
        return lambda: [f"{edit.name} {it[1]}" for edit, it in zip(edits, self.looked(who, told)) if it[1] != "taken"]

    def take_takes_all(self, who, rest):
        told = [self.deliver(who, it) for it in self.edits[self.shared :]]
        return lambda: [it[1] for it in self.looked(who, told) if it[1].split(",")[0] not in STATES]

    def take_repeats(self, who, rest):
        count, name = words_and(rest, 2)
        first, told = self.edit(name), []
        for more in range(number_of(count)):
            stamp = first.stamp[0] + more, first.stamp[1]
            edit = first if more == 0 else self.add(None, stamp, first.words, editfile.record(stamp, first.record[12:]))
            told.append(self.deliver(who, edit))
        return lambda: [it[1] for it in self.looked(who, told) if it[1] != "taken"]

    def looked(self, who, told):
        """What deliveries answered; the looks that they told are counted."""
        answers = [it() for it in told]
        self.replicas[who].looks += sum(it[2] for it in answers)
        return answers

    def take_looks(self, who, rest):
        text, name, least, most = words_and(rest, 4)
        told, found = self.deliver(who, self.edit(name)), self.call(who, desk.FIND, *numbers_of(text), 0)

        def seen():
            ((_, state, visits, _),) = self.looked(who, [told])
            few = f", {visits} looks" if not number_of(least) <= visits <= number_of(most) else ""
            count, error = result_of(found()[2])
            looks = self.replicas[who].looks
            other = "" if count == looks or error == "NoSuch" and looks == 0 else ", other visits"
            return [f"{state}{few}{other}"]

        return seen

    def take_begins(self, who, rest):
        call = self.call(who, desk.BEGIN, number_of(rest))

        def seen():
            call()
            self.replicas[who] = Replica(number_of(rest))
            return []

        return seen

    # what is shown: by test_desk, and where `shown` says so by the programs

    def shown(self, row, seen, by_programs):
        """Wants the programs to show the same of a replica as is wanted."""
        if self.has_programs and seen == row.wanted:
            COUNTS.is_so(f"{self.name}:{row.number}: {row.text}, by the programs", by_programs(), row.wanted)

    def take_edits(self, who, rest, row):
        held, replay = self.call(who, desk.HELD, 0, 0), self.call(who, desk.REPLAY, 0)

        def seen():
            _, _, _, edits, count = held()
            told = [f"{edits}, {count} held" + unlike(len(replay()[2]) == count)]
            self.shown(row, told, lambda: [self.replicas[who].edits()])
            return told

        return seen

    def take_waits(self, who, rest, row):
        stamp = editfile.stamp_of(rest)
        held = self.call(who, desk.HELD, *stamp)

        def seen():
            told = ["yes" if held()[1] else "no"]
            self.shown(row, told, lambda: [self.replicas[who].waits(stamp)])
            return told

        return seen

    def take_world(self, who, rest, row):
        held = self.call(who, desk.HELD, 0, 0)
        return lambda: [str(held()[2])]

    def take_log(self, who, rest, row):
        log = self.call(who, desk.LOG)

        def seen():
            data, *held = log()
            lines, records = [], editfile.records_of(bytes(data))
            copy = Replica(self.replicas[who].world)
            for stamp, record in records:
                copy.take(stamp, record)
            for line, is_held in zip(copy.log(), held):
                lines.append(f"held {line.removeprefix('held ')}" if is_held else line.removeprefix("held "))
            told = [*lines, "end"]
            self.shown(row, told, self.replicas[who].log)
            return told

        return seen

    def take_text(self, who, rest, row):
        name = editfile.name_of(rest)
        text, found = self.call(who, desk.TEXT, *numbers_of(rest)), self.call(who, desk.FIND, *numbers_of(rest), 0)
        view, replay = self.call(who, desk.VIEW, 0, *numbers_of(rest), 0), self.call(who, desk.REPLAY, 1, *numbers_of(rest), 0)

        def seen():
            data, error = result_of(text()[1])
            _, length, visits = found()[:3]
            if error:
                told = [error + unlike(result_of(length)[1] == error and result_of(visits)[1] == error)]
                if error == "NoSuch":
                    self.shown(row, told, lambda: ["NoSuch" if self.replicas[who].text(name) is None else "there"])
                return told
            _, is_there, _, appended = view()
            _, _, replayed_length, replayed = replay()
            told = [
                editfile.quoted(bytes(data)) + unlike(result_of(length)[0] == len(data) and visits[0] == "Ok")
                + unlike(is_there and appended == data) + unlike(replayed_length == len(data) and result_of(replayed)[0] == data)
            ]  # fmt: skip
            # a world over a limit of world files shows no text
            by_programs = self.replicas[who].text(name)
            if not isinstance(by_programs, str) or by_programs.split(" ")[0] not in OVER:
                self.shown(row, told, lambda: [editfile.quoted(by_programs or b"")])
            return told

        return seen

    def take_visits(self, who, rest, row):
        found = self.call(who, desk.FIND, *numbers_of(rest), 0)

        def seen():
            visits, error = result_of(found()[2])
            return [error or str(visits)]

        return seen

    def take_board(self, who, rest, row):
        n = number_of(rest)
        found, replay = self.call(who, desk.FIND, 0, 0, 0, n), self.call(who, desk.REPLAY, 2, 0, 0, 0, n)

        def seen():
            board = found()[3]
            if error_of(board):
                return [error_of(board)]
            told = [name_told(board) + unlike(replay()[2] == board)]
            # zztool tells the edit that made it, and not which of its boards it is
            index = told[0].partition(":")[1:]
            self.shown(row, told, lambda: [self.replicas[who].board(n) + "".join(index)])
            return told

        return seen

    def take_stat(self, who, rest, row):
        board, n = words_and(rest, 2)
        given = (*numbers_of(board), number_of(n))
        found, replay = self.call(who, desk.FIND, *given), self.call(who, desk.REPLAY, 3, *given)

        def seen():
            stat = found()[4]
            return [error_of(stat) or name_told(stat) + unlike(replay()[2] == stat)]

        return seen

    def take_text_of(self, who, rest, row):
        found = self.call(who, desk.FIND, *numbers_of(rest), 0)
        return lambda: [error_of(found()[5]) or name_told(found()[5])]

    def take_names(self, who, rest, row):
        text, count = words_and(rest, 2)
        views = [self.call(who, desk.VIEW, 0, *numbers_of(text), k) for k in range(number_of(count))]
        return lambda: [" ".join(name_told(view()[2]) for view in views)]

    def view(self, who, *given):
        """What a view shows of a board or a stat by its place; a refusal of the view."""
        view = self.call(who, desk.VIEW, *given)

        def values():
            answer = view()
            if not answer:
                raise NotARow("there is no such board or stat")
            error = error_of(answer[1]) if len(answer) == 2 else None
            return answer[1:], error

        return values

    def take_exit(self, who, rest, row):
        i, side = words_and(rest, 2)
        place = ["north", "south", "west", "east"].index(side)
        view = self.view(who, 1, number_of(i), 0)
        return lambda: [view()[1] or name_told(view()[0][2 + place])]

    def take_rank(self, who, rest, row):
        view = self.view(who, 1, number_of(rest), 0)
        return lambda: [view()[1] or str(view()[0][1])]

    def take_cell(self, who, rest, row):
        i, place = words_and(rest, 2)
        view = self.view(who, 1, number_of(i), number_of(place))

        def seen():
            values, error = view()
            tile = error or values[0][1][1]
            return [error or f"{tile['element']} 0x{tile['colour']:02x}"]

        return seen

    def take_registers(self, who, rest, row):
        i, j = words_and(rest, 2)
        view = self.view(who, 2, number_of(i), number_of(j))

        def seen():
            values, error = view()
            if error:
                return [error]
            removed, name, x, y, cycle, position, p3, follower, leader = values
            target = f"board {name_told(p3)}" if isinstance(p3, tuple) else p3
            return [
                f"{name_told(name)} ({x},{y}) cycle {cycle} position {position} p3 {target} follower {name_told(follower)} leader {name_told(leader)}"
                + (" removed" if removed else "")
            ]

        return seen

    def take_saves(self, who, rest, row):
        boards, saved = self.call(who, desk.EXPORT), self.call(who, desk.SAVE, USUAL)

        def seen():
            count, no_world = result_of(boards()[1])
            data, error = result_of(saved()[1])
            if error:
                told = [error if error == no_world else "otherwise exported"]
            else:
                told = [f"{count} boards, {len(data)} bytes"]
            if error != "Stale":
                self.shown(row, told, lambda: [self.replicas[who].saves()])
            return told

        return seen

    def take_saves_within(self, who, rest, row):
        saved = self.call(who, desk.SAVE, min(number_of(rest), USUAL))

        def seen():
            data, error = result_of(saved()[1])
            return [error or f"{len(data)} bytes"]

        return seen

    def take_file(self, who, rest, row):
        place, count = (number_of(it) for it in words_and(rest, 2))
        saved = self.call(who, desk.SAVE, USUAL)

        def seen():
            data, error = result_of(saved()[1])
            if error or len(data) < place + count:
                raise NotARow("there are no such bytes")
            told = [editfile.quoted(bytes(data[place : place + count]))]
            self.shown(row, told, lambda: [editfile.quoted(self.replicas[who].saved()[place : place + count])])
            return told

        return seen

    # both

    def take_same(self, row):
        one, other = self.call("one", desk.SAME), self.call("other", desk.SAME)

        def seen():
            (is_same, error), (is_so, _) = result_of(one()[1]), result_of(other()[1])
            return [error or ("one way alone" if is_so != is_same else "yes" if is_same else "no")]

        return seen

    def take_alike(self, row):
        boards = self.call("one", desk.EXPORT)
        one, other = self.call("one", desk.SAVE, USUAL), self.call("other", desk.SAVE, USUAL)

        def seen():
            if result_of(boards()[1])[1]:
                return ["no file"]
            told = ["yes" if one()[1] == other()[1] else "no"]
            self.shown(row, told, lambda: ["yes" if self.replicas["one"].saved() == self.replicas["other"].saved() else "no"])
            return told

        return seen

    def take_front(self, row, rest):
        own = [self.edit(it) for it in rest.split(" ")]
        one, other = self.call("one", desk.LOG), self.call("other", desk.LOG)

        def seen():
            mine = {edit.record for edit in own}
            has = {it for _, it in editfile.records_of(bytes(one()[0]))}
            others = [it for _, it in editfile.records_of(bytes(other()[0])) if it not in mine]
            front = has - mine
            return ["yes" if mine <= has and front == set(others[: len(front)]) else "no"]

        return seen

    def take_named(self, row, rest):
        call = self.call("one", desk.NAMES, self.edit(rest).number, nth=1)

        def seen():
            was_refused, count, *values = call()
            things = []
            while values:
                kind = values.pop(0)
                if isinstance(kind, tuple):
                    _, byte = values.pop(0), values.pop(0)
                    things.append(f"byte {name_told(byte)} of {name_told(kind)}; ")
                else:
                    things.append(f"{['board', 'stat', 'text'][kind]} {name_told(values.pop(0))}; ")
            told = "".join(things) if len(things) == count else "another count, "
            return [("takes memory, " if was_refused else "") + told + "no more"]

        return seen

    def take_orders(self, row, rest):
        """Delivers the edits of this case in orders: each delivery against the replay of what came, and the end with the one's."""
        kind, begin, end = words_and(rest, 3)
        edits, begin, end = self.edits[self.shared :], number_of(begin), number_of(end)
        if kind not in ("shuffled", "each") or [it.stamp for it in edits] != sorted({it.stamp for it in edits}):
            raise NotARow(row.text)
        saved = self.call("one", desk.SAVE, USUAL)
        call, told = self.script.call, []
        # the other replica takes them anew each time
        call(desk.SWAP)
        for nth in range(begin, end):
            call(desk.BEGIN, 7)
            order = order_of(kind, len(edits), nth)
            calls = [(call(desk.DELIVER, edits[k].number), call(desk.LOG), call(desk.REPLAY, 0)) for k in order]
            same = call(desk.SAME)
            call(desk.SWAP)
            back = call(desk.SAME)
            call(desk.SWAP)
            told.append((nth, order, calls, (same, back, call(desk.SAVE, USUAL))))
        call(desk.SWAP)

        def seen():
            lines, wanted = [], saved()[1]
            file = bytes(wanted[1]) if wanted[0] == "Ok" else error_of(wanted[1])
            for nth, order, calls, ends in told:
                at = self.fails_at(edits, order, calls)
                if at is None:
                    same, back, again = (self.script[it][1] for it in ends)
                    at = None if (same, back, again) == (("Ok", True), ("Ok", True), wanted) else 0
                if at is None and self.has_programs:
                    PROGRAMS.put("replica.zed", editfile.file_of(7, [edits[k].record for k in order]))
                    saves = PROGRAMS.refusal(PROGRAMS.zzted, "save", "replica.zzt", "replica.zed") or PROGRAMS.bytes_of("replica.zzt")
                    COUNTS.is_so(f"{self.name}:{row.number}: order {nth} of {row.text}, by zzted", saves == file, True)
                if at is not None:
                    lines.append(f"order {nth} comes out otherwise at delivery {at}")
            return [*lines, f"{end - begin} orders of {len(edits)} edits end alike"]

        return seen

    def fails_at(self, edits, order, calls):
        """The first delivery that comes out otherwise, from 1."""
        came, waits = set(), set()
        for number, (k, (delivered, log, replay)) in enumerate(zip(order, calls), 1):
            value = self.script[delivered][1]
            data, *held = self.script[log]
            there = [edits[it] for it in sorted(came | {k})]
            stamps, records = [it.stamp for it in there], [it.record for it in there]
            now = {stamp for stamp, is_held in zip(stamps, held) if is_held}
            is_so = not error_of(value) and bytes(data) == editfile.file_of(7, records) and len(held) == len(stamps)
            if is_so and k in came:
                is_so = value == (2, 0, 0) and now == waits
            elif is_so:
                state, woken, _ = value
                replayed = {(it[1]["time"], it[1]["replica"]) for it in self.script[replay][2]}
                is_so = now == replayed and state == (1 if edits[k].stamp in now else 0) and woken == len(waits - now) and not (state and woken)
            if not is_so:
                return number
            came.add(k)
            waits = now
        return None

    # calls that take no memory

    def take_lean(self, row, rest):
        verb, _, rest = rest.partition(" ")
        call = self.ended("one", verb, rest, nth=1)

        def seen():
            was_refused, end = call()
            return [("takes memory, " if was_refused else "") + end]

        return seen

    def lean(self, calls, is_so):
        """Calls made with their first growth refused, and whether what they answer is so."""

        def seen():
            answers = [it() for it in calls]
            return [("takes memory, " if any(it[0] for it in answers) else "") + ("yes" if is_so([it[1:] for it in answers]) else "no")]

        return seen

    def take_lean_new(self, row, rest):
        if not self.fresh:
            raise NotARow("the one has edits")
        return self.lean([self.call("one", desk.BEGIN, 7, nth=1)], lambda answers: answers == [[0]])

    def take_lean_things(self, row, rest):
        stat, text = (numbers_of(it) for it in words_and(rest, 2))
        calls = [self.call("one", desk.FIND, *it, nth=1) for it in ((1, 0, 0, 0), (1, 0, 0, 1), (*stat, 0), (*text, 0))]
        # of the title board 0 and its stat 1, the text of the stat, and of the text its length and visits
        return self.lean(
            calls,
            lambda it: (it[0][2], it[1][3], it[2][4], it[3][0][0], it[3][1][0]) == ((1, 0, 0), stat, text, "Ok", "Ok"),
        )  # fmt: skip

    def take_lean_edits(self, row, rest):
        edits, held = (number_of(it) for it in words_and(rest, 2))
        calls = [self.call("one", desk.HELD, 0, 0, nth=1), self.call("one", desk.SAME, nth=1)]
        return self.lean(calls, lambda it: it == [[False, 7, edits, held], [("Ok", False)]])

    def take_lean_waits(self, row, rest):
        return self.lean([self.call("one", desk.HELD, *editfile.stamp_of(rest), nth=1)], lambda it: it[0][0])

    def take_lean_view(self, row, rest):
        calls = [self.call("one", desk.VIEW, *it, nth=1) for it in ((1, 0, 0), (2, 0, 0), (0, *numbers_of(rest), 0))]

        def is_so(answers):
            board, player, text = answers
            return board[0] == ("Some", ("Tile", {"element": 0, "colour": 0})) and player[7] is False and text[0] and text[1] is not False

        return self.lean(calls, is_so)

    # rows

    def take(self, row):
        """Does a row: what is seen of it, once the calls are answered, or None of a row that only names something."""
        verb, _, rest = row.text.partition(" ")
        if verb == "bytes":
            name, _, pieces = rest.partition(" ")
            self.bytes[name] = bytes_of(self.bytes, pieces)
            return None
        if verb == "edit":
            self.name_edit(rest)
            return None
        if verb in ("one", "other"):
            who, (verb, _, rest) = verb, rest.partition(" ")
            done = getattr(self, f"take_{verb}", None)
            self.fresh = False
            if verb in ("takes", "takes_all", "repeats", "looks", "begins"):
                return done(who, rest)
            if verb in SHOWN:
                return done(who, rest, row)
            call = self.ended(who, verb, rest)
            return lambda: [call()[1]]
        if verb in ("call", "call_once"):
            verb, _, rest = rest.partition(" ")
            call = self.ended("one", verb, rest)
            return lambda: [call()[1]]
        if verb in ("same", "alike"):
            return getattr(self, f"take_{verb}")(row)
        if verb in ("front", "named", "orders", "lean", "lean_new", "lean_things", "lean_edits", "lean_waits", "lean_view"):
            return getattr(self, f"take_{verb}")(row, rest)
        if verb == "spoil":
            return self.spoil(rest)
        raise NotARow(row.text)

    def spoil(self, name):
        """Without growths that are refused there is nothing to spoil."""
        self.edit(name)
        return lambda: []


SHOWN = "edits waits world log text visits board stat text_of names exit rank cell registers saves saves_within file".split(" ")


def numbers_of(word):
    (time, replica), index = editfile.name_of(word)
    return time, replica, index


def unlike(is_alike):
    return "" if is_alike else ", otherwise elsewhere"


def ended_told(answer, spell):
    return answer[0], spell(answer[1])


def made_told(value):
    stamp, error = result_of(value)
    return error or f"made {stamp[1]['time']}.{stamp[1]['replica']}"


def done_told(value):
    return result_of(value)[1] or "done"


def copied_told(value):
    is_so, error = result_of(value)
    return error or ("otherwise" if is_so is False else "done")
