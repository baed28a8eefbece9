"""Goes through the rows of rows/telling/rows.txt: what `zztool list`, `log` and `lint` print of files, or are refused for. What is wanted of each
stands in wanted.txt, behind `# ` and the row; it was worked out by hand. A row is `file NAME`, which puts a file into the room, `cut NAME COUNT`,
which leaves so many bytes of it there, or a command: `list [B [S]] : FILES..`, `log [board B] [cell B X Y] [replica R] [since TIME] : FILES..`, in
full, `short : FILES..` or `lint : FILES..`. Then each growth of memory of each command is refused in turn: Memory is told and nothing printed, or
the command does without. Where there is no GATE, only each eighth growth is."""

import os
import subprocess
import sys

from rows import HERE, Counts, NotARow, Programs, number_of, rows_of

FOLDER = os.path.join(HERE, "rows", "telling")
OPTIONS = {"board": 1, "cell": 3, "replica": 1, "since": 1}
COUNTS = Counts("telling")
PROGRAMS = Programs(os.getcwd())


def options_of(words):
    """The options of `zztool log` for the filters of a row."""
    options = []
    while words:
        word = words.pop(0)
        if word not in OPTIONS or len(words) < OPTIONS[word]:
            raise NotARow(f"no filter: {word}")
        options += [f"--{word}", *(str(number_of(words.pop(0))) for _ in range(OPTIONS[word]))]
    return options


def words_of(row):
    """The words of zztool for a row."""
    front, colon, files = row.partition(" : ")
    command, *words = front.split(" ")
    files = files.split(" ")
    if colon and command == "list" and len(words) <= 2:
        return ["list", *(str(number_of(it)) for it in words), *files]
    if colon and command == "log":
        return ["log", "--full", *options_of(words), *files]
    if colon and front == "short":
        return ["log", *files]
    if colon and front == "lint":
        return ["lint", *files]
    raise NotARow(row)


def is_outside(words):
    """Whether a cell is asked for that no board has. Such words are refused before any file is read."""
    if "--cell" not in words:
        return False
    column, line = (int(it) for it in words[words.index("--cell") + 2 : words.index("--cell") + 4])
    return not (1 <= column <= 60 and 1 <= line <= 25)


def wanted_of():
    """What is to be printed of each row, in order: the row and the lines."""
    wanted = []
    with open(os.path.join(FOLDER, "wanted.txt"), encoding="ascii") as it:
        for line in it.read().splitlines():
            if line.startswith("# "):
                wanted.append((line[2:], []))
            else:
                wanted[-1][1].append(line)
    return wanted


def put_file(words):
    """Does a row that has files stand in the room, if it is one."""
    if words[0] not in ("file", "cut"):
        return False
    if len(words) != {"file": 2, "cut": 3}[words[0]]:
        raise NotARow(" ".join(words))
    with open(os.path.join(FOLDER, words[1]), "rb") as it:
        data = it.read()
    PROGRAMS.put(words[1], data[: number_of(words[2])] if words[0] == "cut" else data)
    return True


def compare(row, words, wanted):
    """Runs the command of a row, and compares."""
    status, printed, complained = PROGRAMS.run(PROGRAMS.zztool, *words)
    printed = printed.decode("latin-1")
    name = wanted[-1].partition("refused: ")[2] if wanted else ""
    if name and is_outside(words):
        COUNTS.is_so(row, (status, printed, "X is 1 to 60 and Y is 1 to 25" in complained), (2, "", True))
    elif name:
        COUNTS.is_so(row, (status, printed, complained), (1, "", f"zztool: {name}"))
    elif words[0] == "lint":
        lines = number_of(wanted[-1].partition("lines: ")[2])
        COUNTS.is_so(row, (status, printed.splitlines()), (0, wanted[:-1]))
        strict = PROGRAMS.run(PROGRAMS.zztool, "lint", "--strict", *words[1:])
        COUNTS.is_so(f"{row}, strict", (strict[0], len(strict[1].splitlines())), (1 if lines else 0, lines))
    else:
        COUNTS.is_so(row, (status, printed), (0, "".join(f"{it}\n" for it in wanted)))
    return status, printed, complained


def refuse(row, words, whole):
    """Refuses each growth of a command in turn, until none is left."""
    tried, nth, step = 0, 1, 1 if os.environ.get("GATE") else 8
    while True:
        if os.path.exists("met"):
            os.remove("met")
        environment = {**os.environ, "FAULT": f"growth {nth} fail", "FAULT_MET": "met", "LD_PRELOAD": os.path.abspath("faults.so")}
        ran = subprocess.run([PROGRAMS.zztool, *words], stdin=subprocess.DEVNULL, capture_output=True, env=environment)
        complained = ran.stderr.decode("latin-1").split("\n")[0]
        told = ran.returncode, ran.stdout.decode("latin-1"), complained
        if not os.path.exists("met"):
            break
        if told == whole or told == (1, "", "zztool: Memory"):
            COUNTS.passes()
        else:
            COUNTS.fails(f"growth {nth} refused: {row}: {told}")
        tried, nth = tried + 1, nth + step
    COUNTS.is_so(f"with no growth refused: {row}", told, whole)
    if tried == 0:
        COUNTS.fails(f"no growth was met: {row}")
    return tried


def main():
    wanted, rows, growths = wanted_of(), 0, 0
    for row in rows_of(os.path.join(FOLDER, "rows.txt")):
        if put_file(row.text.split(" ")):
            continue
        if not COUNTS.is_so("the rows of wanted.txt", wanted[rows][0] if rows < len(wanted) else "none", row.text):
            break
        words = words_of(row.text)
        whole = compare(row.text, words, wanted[rows][1])
        if os.path.exists("faults.so") and whole[0] != 2:
            growths += refuse(row.text, words, whole)
        rows += 1
    COUNTS.is_so("the rows of wanted.txt", rows, len(wanted))
    print(f"telling: {rows} rows, {growths} growths refused")
    return COUNTS.tell()


sys.exit(main())
