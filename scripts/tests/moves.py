"""Stats that are put into a board, taken out and moved about, as an editor would, and rows of objects that one author moves while another
changes their programs: drawing.py has them taken and merged."""

from dataclasses import replace

from zzt import Board, Stat, World

# all objects of the rows stand in this line of their boards
Y = 10
OBJECT, LION = (36, 0x0F), (41, 0x0C)


def change_stat(board, number, **fields):
    for name, value in fields.items():
        setattr(board.stats[number], name, value)


def add_stat(board, index, x, y, tile, **fields):
    """Puts a stat in at a number: what names the stats behind it names them still."""

    def moved(number):
        return number + 1 if isinstance(number, int) and number >= index else number

    for stat in board.stats:
        stat.follower, stat.leader, stat.program = moved(stat.follower), moved(stat.leader), moved(stat.program)
    board.put(x, y, tile)
    board.stats.insert(index, Stat(x, y, **fields))


def remove_stat(board, index):
    def moved(number):
        return -1 if number == index else number - 1 if number > index else number

    gone = board.stats[index]
    heir = None
    for number, stat in enumerate(board.stats):
        if stat.program == index and isinstance(stat.program, int):
            if heir is None:
                heir, stat.program = number, gone.program
            else:
                stat.program = heir
    for stat in board.stats:
        stat.follower, stat.leader = moved(stat.follower), moved(stat.leader)
        if isinstance(stat.program, int) and stat.program > index:
            stat.program -= 1
    board.put(gone.x, gone.y, gone.under)
    del board.stats[index]


# ---- one author moves objects


def at_column(board, x):
    """The number of the stat that stands in a column."""
    return next(number for number, stat in enumerate(board.stats) if (stat.x, stat.y) == (x, Y))


def program_of(board, stat):
    return board.stats[stat.program].program if isinstance(stat.program, int) else stat.program


def copied(board, x, program=None):
    """An object to be pasted: most editors know nothing of shared programs, so its program is its own then."""
    stat = board.stats[at_column(board, x)]
    return replace(stat, program=program_of(board, stat) if program is None else program)


def cut(board, x, program=None):
    stat = copied(board, x, program)
    remove_stat(board, at_column(board, x))
    return stat


def paste(board, stat, x, tile=OBJECT):
    """A stat comes behind all others."""
    board.put(x, Y, tile)
    board.stats.append(replace(stat, x=x, y=Y))


def moves(x, to, program=None, to_board=1):
    """Cuts an object of the yard and pastes it elsewhere, and writes it another program if one is given."""
    return lambda world: paste(world.boards[to_board], cut(world.boards[1], x, program), to)


def swaps(x, other, program=None, other_program=None):
    def swap(world):
        yard = world.boards[1]
        one, two = cut(yard, x, program), cut(yard, other, other_program)
        paste(yard, two, x)
        paste(yard, one, other)

    return swap


def all_of(*changes):
    return lambda world: [change_it(world) for change_it in changes]


# ---- what they begin with, and what the other author makes of it

CHOIR = b"@choir\rLa la\r#end\r"
GUARD = b"@guard\r#end\r:touch\rHalt!\r#end\r"
CLERK = b"#end\r:touch\rGood day\r#end\r"
TWIN = b"@twin\r/e/w\r#restart\r"
PORTER = b"@porter\r#end\r:touch\rCome in\r#end\r"

# a line more, and a line less
CHOIR_THEN = b"@choir\r#cycle 1\rLa la\r"
GUARD_THEN = b"@guard\r#cycle 2\r#end\r:touch\r#end\r"
CLERK_THEN = b"#cycle 3\r#end\r:touch\r#end\r"
TWIN_THEN = b"@twin\r#lock\r#restart\r"
OTHER_TWIN_THEN = b"@twin\r/e/w\r#walk n\r"
PORTER_THEN = b"@porter\r#cycle 4\r#end\r:touch\r#end\r"

# what is to be read where, by board and column, if nothing is moved
THEN = {
    (1, 10): CHOIR_THEN, (1, 14): CHOIR_THEN, (1, 18): GUARD_THEN, (1, 26): CLERK_THEN,
    (1, 30): TWIN_THEN, (1, 34): OTHER_TWIN_THEN, (1, 38): PORTER_THEN,
}  # fmt: skip


def yard():
    """A board of objects, of which the first two share a program, and an empty one."""
    world = World(name=b"YARD", current=1)
    world.boards = [Board(name=name, stats=[Stat(5, 5, cycle=1)], start=(5, 5)) for name in (b"Title", b"Yard", b"Field")]
    for board in world.boards:
        board.put(5, 5, (4, 0x1F))
    for x, program in ((10, CHOIR), (14, 1), (18, GUARD), (22, b""), (26, CLERK), (30, TWIN), (34, TWIN), (38, PORTER)):
        paste(world.boards[1], Stat(cycle=3, p1=5, program=program), x, OBJECT if program else LION)
    return world


def changes_programs(world):
    """What the other author does: a line more and a line less in each program."""
    board = world.boards[1]
    for (_, x), program in THEN.items():
        stat = board.stats[at_column(board, x)]
        if isinstance(stat.program, bytes):
            stat.program = program


def programs_in(world):
    return {(number, stat.x): program_of(board, stat) for number, board in enumerate(world.boards) for stat in board.stats if stat.program}


# ---- what the first author does


def copies(world):
    paste(world.boards[1], copied(world.boards[1], 18), 50)


def puts_another(world):
    """Another object stands where the guard was."""
    moves(18, 50)(world)
    paste(world.boards[1], Stat(cycle=3, p1=5, program=b"@wall\r#end\r"), 18)


def leaves(world):
    """The guard goes to the field, and the yard is gone."""
    moves(18, 50, to_board=2)(world)
    del world.boards[1]


def exchanges_names(world):
    """Boards are found by their names, so all objects of the yard are on another board then."""
    world.boards[1].name, world.boards[2].name = b"Field", b"Yard"


def lists_otherwise(world):
    """An editor lists stats in another order."""
    stats = world.boards[1].stats
    stats[6], stats[7] = stats[7], stats[6]


SENTRY, SENTRY_THEN = GUARD.replace(b"guard", b"sentry"), GUARD_THEN.replace(b"guard", b"sentry")
SHOT = b":shot\rOuch!\r"
# what it is, what is done, and what is to be read where beside `THEN`, after both authors' files are merged: None where nothing is
ROWS = [
    ("moved", moves(18, 50), {(1, 18): None, (1, 50): GUARD_THEN}),
    ("moved, without a name", moves(26, 50), {(1, 26): None, (1, 50): CLERK_THEN}),
    ("moved and changed", moves(18, 50, GUARD + SHOT), {(1, 18): None, (1, 50): GUARD_THEN + SHOT}),
    ("moved and renamed", moves(18, 50, SENTRY), {(1, 18): None, (1, 50): SENTRY_THEN}),
    ("moved to another board", moves(18, 50, to_board=2), {(1, 18): None, (2, 50): GUARD_THEN}),
    ("moved to another board and changed", moves(18, 50, GUARD + SHOT, 2), {(1, 18): None, (2, 50): GUARD_THEN + SHOT}),
    ("moved to another board and renamed", moves(18, 50, SENTRY, 2), {(1, 18): None, (2, 50): SENTRY_THEN}),
    ("moved to another board, and its own gone", leaves, {**dict.fromkeys(THEN), (1, 50): GUARD_THEN}),
    ("boards that exchanged names", exchanges_names, {}),
    ("a copy beside its original", copies, {(1, 50): GUARD}),
    ("another in its place", puts_another, {(1, 18): b"@wall\r#end\r", (1, 50): GUARD_THEN}),
    ("the first of two alike", moves(30, 50), {(1, 30): None, (1, 50): TWIN_THEN}),
    ("the second of two alike", moves(34, 50), {(1, 34): None, (1, 50): OTHER_TWIN_THEN}),
    ("both of two alike", all_of(moves(30, 50), moves(34, 54)), {(1, 30): None, (1, 34): None, (1, 50): TWIN_THEN, (1, 54): OTHER_TWIN_THEN}),
    ("two alike, listed otherwise", lists_otherwise, {}),
    ("a swap", swaps(18, 26), {(1, 18): CLERK_THEN, (1, 26): GUARD_THEN}),
    # nothing stands behind these two, so each is found where the other one was
    ("a swap of the last two", swaps(34, 38), {(1, 34): PORTER_THEN, (1, 38): OTHER_TWIN_THEN}),
    ("a swap of the last two, changed", swaps(34, 38, TWIN + SHOT, PORTER + SHOT), {(1, 34): PORTER_THEN + SHOT, (1, 38): OTHER_TWIN_THEN + SHOT}),
    # two programs of one board are never one text: the copy is as it was pasted
    ("one that shares its program", moves(14, 50), {(1, 14): None, (1, 50): CHOIR}),
    ("one that shares its program, to another board", moves(14, 50, to_board=2), {(1, 14): None, (2, 50): CHOIR_THEN}),
]
