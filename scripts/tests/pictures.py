"""Draws boards of world files as ZZT 3.2 shows them, in the four forms of `zztool show`. It stands apart from the crates: on zzt.py, which
reads world files, on Python's codec of code page 437, and on knowledge of ZZT's table of elements.

Usage: pictures.py FOLDER                         makes the data of rows/looks in FOLDER: worlds, and pictures of their boards
       pictures.py ZZTED ZZTOOL ROOM WORLD ..     compares each board of world files, and the world of looks, with what zztool shows"""

import subprocess
import sys

import zzt
from zzt import Board, Stat, World

EDGE, LINE_WALL, WHITE_TEXT = 1, 31, 53
# what screens show of the characters below 32, the first of which is blank
LOW = " ☺☻♥♦♣♠•◘○◙♂♀♪♫☼►◄↕‼¶§▬↨↑↓→←∟↔▲▼"
STILL = {0: " ", 1: " ", 2: " ", 3: " ", 4: "☻", 5: "ä", 6: "¥", 7: "♦", 8: "♀", 9: "◙", 10: "Φ", 11: "≡", 14: "⌂", 18: "°", 19: "░", 20: "░", 21: "█",
         22: "▓", 23: "▒", 24: "■", 25: "↕", 26: "↔", 27: "▓", 28: "░", 29: "╬", 32: "*", 33: "═", 34: "Ö", 35: "♣", 37: "*", 38: "^", 41: "Ω", 42: "π",
         43: "║", 44: "Θ", 45: "O", 46: " "}
# by the neighbours that are joined: 1 for north, 2 for south, 4 for west, 8 for east
LINES = "∙╨╥║╡╝╗╣╞╚╔╠═╩╦╬"
UPRIGHT, LEVEL = "^~^-v_v_", "(<(│)>)│"
TEXTS = {47: 0x1F, 48: 0x2F, 49: 0x3F, 50: 0x4F, 51: 0x5F, 52: 0x6F, 53: 0x0F}


def character(number):
    if number < 32:
        return LOW[number]
    return "⌂" if number == 127 else bytes([number]).decode("cp437")


def by_stat(element, stat):
    """The character of an element that looks by its stat, in tick 0."""
    step_x, step_y = stat.step
    if element == 12:
        return {1: "·", 2: "∙", 3: "°", 4: "o", 5: "O"}.get(stat.p1, "·")
    if element == 13:
        return "♂" if stat.p1 <= 1 else character((48 + stat.p1) % 256)
    if element == 36:
        return character(stat.p1)
    if element == 40:
        return "►" if step_x == 1 else "◄" if step_x == -1 else "▲" if step_y == -1 else "▼"
    eight, step = (UPRIGHT, step_y) if step_x == 0 else (LEVEL, step_x)
    return eight[step * 2 + 2] if 0 <= step * 2 + 2 < 8 else "┼"


def spot(board, x, y):
    """The character and the attribute of a place."""
    element, colour = board.at(x, y)
    # where there is no stat ZZT reads tiles of the edge
    stat = next((it for it in board.stats if (it.x, it.y) == (x, y)), Stat(x, y, (256, 256), 256))
    if element == 0:
        return " ", 15
    if element in (12, 13, 30, 36, 40):
        return by_stat(element, stat), colour
    if element == 15:
        after = (colour + 1) % 256
        return "│", after if after <= 15 else 9
    if element == LINE_WALL:
        near = [board.at(x, y - 1), board.at(x, y + 1), board.at(x - 1, y), board.at(x + 1, y)]
        return LINES[sum(1 << i for i, tile in enumerate(near) if tile is None or tile[0] in (EDGE, LINE_WALL))], colour
    if element in (16, 17, 39):
        return {16: "│", 17: "\\", 39: "↑"}[element], colour
    if element > WHITE_TEXT:
        # texts too, where nothing behind ZZT's table says otherwise
        return character(colour), ((element - 46) * 16 + 15) % 256
    return (character(colour), TEXTS[element]) if element in TEXTS else (STILL[element], colour)


def rows_of(board):
    return [[spot(board, x, y) for x in range(1, 61)] for y in range(1, 26)]


def plain(rows):
    return "".join("".join(it for it, _ in row) + "\n" for row in rows)


def ruled(rows):
    """The plain lines behind their numbers, below the tens and the last digits of the columns."""
    tens = "".join(str(x // 10) if x % 10 == 0 else " " for x in range(1, 61))
    digits = "".join(str(x % 10) for x in range(1, 61))
    lines = [f"{number:2} {line}" for number, line in enumerate(plain(rows).splitlines(), 1)]
    return "\n".join([f"   {tens}", f"   {digits}", *lines, ""])


HUES = [0, 4, 2, 6, 1, 5, 3, 7]


def sgr(attribute):
    ink, paper = attribute & 15, attribute >> 4 & 7
    return f"\x1b[0;{'5;' if attribute & 128 else ''}{(90 if ink > 7 else 30) + HUES[ink & 7]};{40 + HUES[paper]}m"


def coloured(rows):
    out = ""
    for row in rows:
        before = None
        for it, attribute in row:
            out += (sgr(attribute) if attribute != before else "") + it
            before = attribute
        out += "\x1b[0m\n"
    return out


EGA = "000000 0000aa 00aa00 00aaaa aa0000 aa00aa aa5500 aaaaaa 555555 5555ff 55ff55 55ffff ff5555 ff55ff ffff55 ffffff".split()


def svg(rows):
    out = ("<svg xmlns='http://www.w3.org/2000/svg' viewBox='0 0 480 350' font-family='monospace' font-size='12' shape-rendering='crispEdges'>\n"
           "<rect width='480' height='350'/>\n")
    for y, row in enumerate(rows):
        x = 0
        while x < 60:
            n = 1
            while x + n < 60 and row[x + n] == row[x]:
                n += 1
            it, attribute = row[x]
            ink, paper = attribute & 15, attribute >> 4 & 7
            ground = ink if it == "█" else paper
            if ground:
                out += f"<rect height='14' x='{8 * x}' y='{14 * y}' width='{8 * n}' fill='#{EGA[ground]}'/>\n"
            if it not in "█ \xa0":
                word = {"&": "&amp;", "<": "&lt;", ">": "&gt;"}.get(it, it) * n
                out += f"<text lengthAdjust='spacingAndGlyphs' x='{8 * x}' y='{14 * y + 11}' textLength='{8 * n}' fill='#{EGA[ink]}'>{word}</text>\n"
            x += n
    return out + "</svg>\n"


FORMS = (("txt", ["--plain"], plain), ("sgr", [], coloured), ("svg", ["--svg"], svg))
# its data needs no file of its own
RULED = ("ruled", ["--ruler"], ruled)


def looks():
    """A board with every element, every line wall, every animation at tick 0, and all characters as text."""
    board = Board(name=b"Looks", shots=255)

    def put(x, y, element, colour, **fields):
        board.put(x, y, (element, colour))
        if fields:
            board.stats.append(Stat(x, y, **{"cycle": 1, **fields}))

    put(1, 1, 4, 0x1F, cycle=1)
    # all elements, without stats; and with another colour
    for element in range(57):
        if element != 4:
            put(2 + element, 2, element, 0x0E)
            put(2 + element, 3, element, 0xF9)
    put(59, 2, 255, 0x4E)
    put(59, 3, 62, 0x41)
    # duplicators and bombs by P1, objects by P1
    for p1 in range(8):
        put(2 + p1, 5, 12, 0x0F, p1=p1)
    for p1 in range(12):
        put(12 + p1, 5, 13, 0x0D, p1=p1)
    put(25, 5, 13, 0x0D, p1=208)
    for i, p1 in enumerate((0, 1, 2, 13, 32, 38, 60, 62, 65, 127, 128, 219, 255)):
        put(27 + i, 5, 36, 0x9B, p1=p1)
    # two stats at one place: the first counts
    put(42, 5, 36, 0x0E, p1=65)
    put(42, 5, 36, 0x0E, p1=66)
    # pushers and transporters by their step; cycles of 0 and below 0
    for i, step in enumerate(((1, 0), (-1, 0), (0, -1), (0, 1), (0, 0), (2, 0), (0, 2))):
        put(2 + i, 7, 40, 0x0B, step=step)
    steps = ((1, 0, 2), (-1, 0, 2), (0, -1, 2), (0, 1, 2), (0, 0, 2), (2, 0, 2), (0, 2, 2), (0, -2, 2), (1, 1, 0), (-1, 1, -3))
    for i, (step_x, step_y, cycle) in enumerate(steps):
        put(12 + i, 7, 30, 0x0E, step=(step_x, step_y), cycle=cycle)
    # stars by their colour, with and without a stat
    for i, colour in enumerate((0, 8, 9, 14, 15, 16, 254, 255)):
        put(24 + i, 7, 15, colour)
    put(33, 7, 15, 0x0F, p1=3)
    # each line wall
    for n in range(16):
        x, y = 3 + 3 * n, 10
        put(x, y, LINE_WALL, 0x0C)
        for bit, dx, dy in ((1, 0, -1), (2, 0, 1), (4, -1, 0), (8, 1, 0)):
            if n & bit:
                put(x + dx, y + dy, LINE_WALL, 0x0C)
    # line walls at the edge and in the corners
    for x, y in ((60, 1), (1, 25), (60, 25), (60, 12), (30, 25)):
        put(x, y, LINE_WALL, 0x0A)
    # all characters as white text, in five rows; text of each colour
    for number in range(256):
        put(2 + number % 56, 13 + number // 56, WHITE_TEXT, number)
    for i, element in enumerate(range(47, 54)):
        for j, number in enumerate(b"<&> 'x"):
            put(2 + 7 * i + j, 19, element, number)
    # all attributes of a breakable wall
    for attribute in range(256):
        put(2 + attribute % 52, 20 + attribute // 52, 23, attribute)
    # runs of places that look alike, solid and blank ones among them
    for x in range(50, 56):
        put(x, 7, 21, 0x1E)
    for x in range(56, 60):
        put(x, 7, 1, 0x40)
    board.start = (1, 1)
    return board


def world_of_looks():
    title = Board(name=b"Title", shots=255, start=(30, 12), stats=[Stat(30, 12, cycle=1)])
    title.put(30, 12, (4, 0x1F))
    return World(name=b"LOOKS", boards=[title, looks()])


def make(folder):
    """The data of rows/looks: each picture, with the world file and the board that it is of."""
    world = world_of_looks()
    with open(f"{folder}/looks.zzt", "wb") as out:
        out.write(zzt.write(world))
    garden = zzt.read(open(f"{folder}/garden.zzt", "rb").read())
    for name, board in (("title", world.boards[0]), ("looks", world.boards[1]), ("garden", garden.boards[1])):
        for end, _, draw in FORMS:
            with open(f"{folder}/{name}.{end}", "w", encoding="utf-8") as out:
                out.write(draw(rows_of(board)))


def compare(zzted, zztool, room, worlds):
    passed = failed = 0
    looks_at = f"{room}/looks.zzt"
    with open(looks_at, "wb") as out:
        out.write(zzt.write(world_of_looks()))
    for number, at in enumerate([looks_at, *worlds]):
        edits = f"{room}/{number}.zed"
        subprocess.run([zzted, "new", edits, str(number + 1), "--from", at], stdin=subprocess.DEVNULL, stdout=subprocess.DEVNULL, check=True)
        for n, board in enumerate(zzt.normal(zzt.read(open(at, "rb").read())).boards):
            for end, words, draw in (*FORMS, RULED):
                shown = subprocess.run([zztool, "show", *words, str(n), edits], stdin=subprocess.DEVNULL, capture_output=True)
                if shown.returncode == 0 and shown.stdout == draw(rows_of(board)).encode():
                    passed += 1
                else:
                    failed += 1
                    print(f"pictures: FAILED: board {n} of {at} is shown otherwise as {end}: {shown.stderr.decode()}")
    print(f"pictures: {passed} passed, {failed} failed")


if __name__ == "__main__":
    if len(sys.argv) == 2:
        make(sys.argv[1])
    else:
        compare(*sys.argv[1:4], sys.argv[4:])
