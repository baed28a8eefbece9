"""Reads pages of `zztool page` as a browser does, by Python's reader of HTML: each element is closed, none but a few kinds are there, links
lead to boards that are there, and names, pictures and programs are those of the world, whatever bytes they have.

Usage: page.py ZZTED ZZTOOL ROOM FILE ..     of these edit files, and of a world whose names and programs have every byte"""

import html.parser
import subprocess
import sys

import zzt
from pictures import character
from zzt import Board, Stat, World

ZZTED, ZZTOOL, ROOM, *FILES = sys.argv[1:]
KINDS = {
    "html": {"lang"}, "meta": {"charset"}, "title": set(), "style": set(), "h1": set(), "h2": set(), "p": set(), "ul": set(), "li": set(), "a": {"href"},
    "section": {"id"}, "div": set(), "details": set(), "summary": set(), "pre": set(),
    "svg": {"xmlns", "viewbox", "font-family", "font-size", "shape-rendering"}, "rect": {"x", "y", "width", "height", "fill"},
    "text": {"x", "y", "fill", "textlength", "lengthadjust"},
}
passed = failed = 0


def is_so(what, told, wanted):
    global passed, failed
    if told == wanted:
        passed += 1
    else:
        failed += 1
        print(f"page: FAILED: {what}: {str(told)[:300]!r}, and not {str(wanted)[:300]!r}")


def run(*words):
    return subprocess.run([*map(str, words)], stdin=subprocess.DEVNULL, capture_output=True, cwd=ROOM, check=True).stdout


class Page(html.parser.HTMLParser):
    """What a page has: faults of its form, and texts by the elements that they are in."""

    def __init__(self, text):
        super().__init__(convert_charrefs=True)
        self.open, self.faults, self.texts, self.links, self.ids = [], [], [], [], []
        self.feed(text)
        self.close()
        if self.open:
            self.faults.append(f"open at the end: {self.open}")

    def handle_starttag(self, tag, attrs):
        if tag not in KINDS or {name for name, _ in attrs} - KINDS[tag]:
            self.faults.append(f"{tag} {attrs}")
        self.links += [value for name, value in attrs if name == "href"]
        self.ids += [value for name, value in attrs if name == "id"]
        if tag not in ("meta",):
            self.open.append(tag)
            self.texts.append((tuple(self.open), ""))

    def handle_startendtag(self, tag, attrs):
        self.handle_starttag(tag, attrs)
        self.handle_endtag(tag)

    def handle_endtag(self, tag):
        if not self.open or self.open.pop() != tag:
            self.faults.append(f"</{tag}> in {self.open}")

    def handle_data(self, data):
        for number in range(len(self.texts) - 1, -1, -1):
            if self.texts[number][0] == tuple(self.open):
                self.texts[number] = (tuple(self.open), self.texts[number][1] + data)
                return

    def all_of(self, *ends):
        return [text for path, text in self.texts if path[-len(ends) :] == ends]


def shown(data):
    return "".join(map(character, data))


def program_shown(data):
    """A program's text: a line for each of its lines. A reader of HTML takes the first line feed of it as none."""
    return "\n" + "".join("\n" if byte == 13 else character(byte) for byte in data)


def own_programs(board):
    return [it.program for it in board.stats if isinstance(it.program, bytes) and it.program]


def looks(what, name, world):
    """Wants the page of an edit file to show this world."""
    text = run(ZZTOOL, "page", name).decode()
    page = Page(text)
    boards = world.boards
    is_so(f"{what}: its form", page.faults, [])
    is_so(f"{what}: the name", page.all_of("html", "title") + page.all_of("h1"), [shown(world.name)] * 2)
    is_so(f"{what}: the boards", page.all_of("h2"), [f"{number} {shown(board.name)}" for number, board in enumerate(boards)])
    is_so(f"{what}: the list of boards", page.all_of("li", "a"), page.all_of("h2"))
    is_so(f"{what}: where parts begin", page.ids, [f"board-{number}" for number in range(len(boards))])
    exits = sum(sum(it != 0 for it in board.exits) for board in boards)
    passages = [it.p3 for board in boards for it in board.stats if (board.at(it.x, it.y) or (0, 0))[0] == zzt.PASSAGE]
    is_so(f"{what}: where links lead", set(page.links) <= {f"#{it}" for it in page.ids}, True)
    is_so(f"{what}: how many links", len(page.links), len(boards) + exits + len(passages))
    is_so(f"{what}: a name for each stat", len(page.all_of("rect", "title")), sum(len(board.stats) for board in boards))
    is_so(f"{what}: the programs", page.all_of("pre"), [program_shown(it) for board in boards for it in own_programs(board)])
    for number in range(len(boards)):
        picture = run(ZZTOOL, "show", "--svg", number, name).decode()
        is_so(f"{what}: the picture of board {number}", f"<div>\n{picture}" in text, True)


def every_byte():
    """A world whose names and programs have every byte, and what would end an element of a page."""
    data = bytes(range(256))
    bad = b"</pre></details><script>alert('1')</script>]]>&amp;&lt; \"x\" <!-- \xdb"
    boards = []
    for number, name in enumerate((b"</title><script>x</script>", data[:48], data[34:84], data[127:177], data[177:227], data[206:], b"'\"><a href='#'>")):
        board = Board(name=name, exits=[(number + 1) % 7, 0, 6 - number, 0], stats=[Stat(30, 12, cycle=1)], start=(30, 12))
        board.put(30, 12, (zzt.PLAYER, 0x1F))
        board.put(5, 5, (zzt.PASSAGE, 0x1F))
        board.stats.append(Stat(5, 5, p3=number))
        for place, program in enumerate((data, bad, b"@" + bad + b"\r#end\r", b"\r\r", data[::-1])):
            board.put(10 + place, 7, (36, 0x0F))
            board.stats.append(Stat(10 + place, 7, cycle=3, program=program))
        board.stats.append(Stat(10, 7, cycle=3, program=2))
        boards.append(board)
    return World(name=b"<&'\"> \x01\xdb", flags=[b""] * 10, boards=boards)


def main():
    for name in FILES:
        run(ZZTED, "save", "--big", "seen.zzt", name)
        with open(f"{ROOM}/seen.zzt", "rb") as it:
            looks(name, name, zzt.read(it.read()))
    world = every_byte()
    with open(f"{ROOM}/bytes.zzt", "wb") as it:
        it.write(zzt.write(world))
    run(ZZTED, "new", "bytes.zed", 7, "--from", "bytes.zzt")
    looks("every byte", "bytes.zed", world)
    print(f"page: {passed} passed, {failed} failed")
    return 1 if failed else 0


sys.exit(main())
