"""Random scripts for two boards: on the wide board alone, or on both by turns, with files handed from one to the other. The flavours are those of the narrow board."""

import random

import flavours
from files import NARROW, WIDE
from page import MOST_BYTES

ROOM = 120_000  # more bytes than most files of such a script have


def lines_of(rng, board):
    """A flavour's name and its lines on a board. A last line without its line feed is left out."""
    maker = flavours.any_maker(rng)
    return maker.__name__, maker(rng, board).split(b"\n")[:-1]


def handed_over(rng, board):
    """The other board's file, given to this board; now and then this board writes its own first."""
    other = WIDE if board is NARROW else NARROW
    lines = [f"board {other.word}", f"write {ROOM}", f"board {board.word}"]
    if rng.random() < 0.3:
        lines.append(f"write {ROOM}")
    return [line.encode() for line in [*lines, "again", "sum"]]


def by_turns(rng, lines):
    """Both boards' lines, some of one and then some of the other. Each board's first line lends."""
    left, lent = {board: list(reversed(lines[board])) for board in lines}, set()
    while any(left.values()):
        board = rng.choice([board for board in left if left[board]])
        yield f"board {board.word}".encode()
        for _ in range(min(rng.choice([1, 1, 2, 5, 20]), len(left[board]))):
            yield left[board].pop()
        lent.add(board)
        if len(lent) == 2 and rng.random() < 0.1:
            yield from handed_over(rng, board)


def script(seed, number):
    """The name and the bytes of one script."""
    rng = random.Random(f"boards {seed} {number}")
    while True:
        name, lines = lines_of(rng, WIDE)
        lines = [b"board wide", *lines]
        if rng.random() < 0.6:
            other, narrow = lines_of(rng, NARROW)
            name, lines = f"{name} and {other} by turns", list(by_turns(rng, {WIDE: lines[1:], NARROW: narrow}))
        text = b"".join(line + b"\n" for line in lines)
        if len(text) <= MOST_BYTES:
            return f"{name} {number}", text
