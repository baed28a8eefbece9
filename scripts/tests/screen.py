"""What a terminal shows of playtests. It stands apart from the crates: on knowledge of a terminal's escape sequences.

Usage: screen.py FILE [N]      prints the screen behind the last picture that was written to a terminal, or the N-th one, without colours
       screen.py --count FILE  prints how many pictures were written
       screen.py --colours FILE ROW COLUMN COUNT
                               prints the colours of so many places of the last one, from there on: as ZZT's attributes, in hexadecimal digits"""

import re
import sys

# the numbers of colours to ZZT by their numbers to a terminal
HUES = [0, 4, 2, 6, 1, 5, 3, 7]


def pictures(name):
    text = open(name, "rb").read().decode("utf-8", "replace").replace("\r", "")
    return [part.split("\x1b[?7h")[0] for part in text.split("\x1b[H")[1:]]


def coloured(attribute, codes):
    for code in map(int, codes.split(";")):
        if code == 0:
            attribute = 7
        elif code == 5:
            attribute |= 128
        elif 30 <= code <= 37:
            attribute = attribute & 0xF0 | HUES[code - 30]
        elif 90 <= code <= 97:
            attribute = attribute & 0xF0 | 8 | HUES[code - 90]
        elif 40 <= code <= 47:
            attribute = attribute & 0x8F | HUES[code - 40] << 4
    return attribute


def screen(picture):
    """The places of a picture, each with its character and attribute."""
    places, row, column, attribute = {}, 0, 0, 7
    for codes, kind, text in re.findall(r"\x1b\[([0-9;]*)([A-Za-z])|(.)", picture, re.DOTALL):
        if kind == "H":
            row, column = (int(n) - 1 for n in codes.split(";"))
        elif kind == "m":
            attribute = coloured(attribute, codes)
        elif text == "\n":
            row, column = row + 1, 0
        elif text:
            places[row, column] = text, attribute
            column += 1
    return places


def lines(places):
    rows, columns = (max(numbers) + 1 for numbers in zip(*places))
    return ["".join(places.get((row, column), " ")[0] for column in range(columns)).rstrip() for row in range(rows)]


def main(words):
    if words[0] == "--count":
        print(len(pictures(words[1])))
    elif words[0] == "--colours":
        places = screen(pictures(words[1])[-1])
        row, column, count = map(int, words[2:])
        print(" ".join("%02x" % places[row, column + k][1] for k in range(count)))
    else:
        which = int(words[1]) - 1 if len(words) > 1 else -1
        print("\n".join(lines(screen(pictures(words[0])[which]))))


main(sys.argv[1:])
