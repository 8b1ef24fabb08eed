"""Fixed scripts for the wide board (document 02, L10) and for both boards: both sides of each edge that a width makes, and the page's lines for boards.

Cases are written as in edges.py. The Rust has no width, so the answers here are the documents' words alone."""

from itertools import product

from edges import FRESH, LEND, all_targets, decayed, joined, laid, memory, script
from files import NARROW, RATES, TARGETS, WIDE, adler, file, pending_record, recent_record, rows, u32

ON = "board wide"
OFF = "board narrow"
MAGIC = b"BRSEFEES"
EMPTY = "- 0 0" + " 00000001" * 4  # the sum where nothing is lent


def wait_cases():
    """A wait of w blocks confirms for the columns c with w <= 6 c, and all columns are resolved."""
    for wait, first in (0, 1), (1, 1), (6, 1), (7, 2), (12, 2), (13, 3), (144, 24), (145, 25), (150, 25), (151, 26):
        height = 100 + wait
        counts = {"confirmed": all_targets(33, 0.9995, first), "resolved": all_targets(33, 0.9995)}
        yield f"a wait of {wait}", f"""
            {FRESH}
            enter aa 5000 100 -> 0
            block {height} aa -> 0
            sum -> any
            {laid(height, recent=[recent_record("aa", height)], **counts)}"""

    yield "a block below the entry: a wait of 1", f"""
        {FRESH}
        enter aa 5000 100 -> 0
        block 99 aa -> 0
        sum -> any
        {laid(99, recent=[recent_record("aa", 99)], confirmed=all_targets(33, 0.9995), resolved=all_targets(33, 0.9995))}"""

    first, later = [(33, 1, decayed(WIDE, 2))], all_targets(33, decayed(WIDE, 1), first=2)
    yield "106 is gone through on the way to 107: column 1 is resolved there", f"""
        {FRESH}
        block 100 -> 0
        enter aa 5000 100 -> 0
        block 107 aa -> 0
        sum -> any
        {laid(107, recent=[recent_record("aa", 107)], confirmed=later, resolved=first + later)}"""


def life_cases():
    """Columns are outwaited at entry + 6 c; a record lasts until entry + 150."""
    for height, through in (105, 0), (106, 1), (111, 1), (112, 2), (249, 24), (250, 25):
        pending = [pending_record("aa", 0, 100, through)] if through < TARGETS else []
        yield f"outwaited at {height}", f"""
            {FRESH}
            enter aa 1000 100 -> 0
            block {height} -> 0
            sum -> any
            {laid(height, pending=pending, resolved=all_targets(0, 0.9995)[:through])}"""

    yield "the same by single blocks and in one gap", f"""
        {memory(100, pending=[pending_record("aa", 0, 100, 0)])}
        {joined(f"block {height} -> 0" for height in range(101, 131))}
        sum -> any
        {memory(100, pending=[pending_record("aa", 0, 100, 0)])}
        block 130 -> 0
        sum -> same"""

    both = {"pending": [pending_record("aa", 0, 100, 4)], "recent": [recent_record("bb", 100)]}
    yield "a confirmed record goes after 25 blocks, a pending one stays", f"""
        {memory(124, **both)}
        block 125 -> 0
        sum -> any
        {laid(125, **both)}
        block 126 -> 0
        sum -> any
        {laid(126, pending=both["pending"])}"""

    yield "no height after the highest", f"""
        {memory(2**32 - 2, pending=[pending_record("aa", 0, 2**32 - 150, 24), pending_record("bb", 0, 2**32 - 151, 24)])}
        block {2**32 - 1} -> 0
        sum -> any
        {laid(2**32 - 1, pending=[pending_record("aa", 0, 2**32 - 150, 24)], resolved=[(0, 25, 0.9995)])}"""


def target_cases():
    """Memory in which each column has a rate of its own: 50 + column is the last bucket that passes."""
    confirmed = [(50 + column, column, 1.0) for column in range(1, TARGETS + 1)]
    failing = [(49 + column, column, 9.0) for column in range(1, TARGETS + 1)]
    asked = [(target, -(-target // 6)) for target in range(1, 151)] + [(target, 25) for target in (151, 156, 1_000, 2**32 - 1)]
    yield "each target and its column", f"""
        {memory(9, confirmed=confirmed, resolved=confirmed + failing)}
        estimate 0 -> none
        {joined(f"estimate {target} -> rate {RATES[50 + column]}" for target, column in asked)}
        estimates -> {" ".join(str(RATES[50 + column]) for column in range(1, TARGETS + 1))}"""


def head_cases():
    """The file's first bytes: version 3, its width of four bytes, then the flag. Short ones in one script; whole ones, as the first bytes alone do not tell."""
    start = MAGIC + u32(3)
    short = [(MAGIC + u32(version), f"9 {version}") for version in (1, 2, 4, 256 + 3, 3 * 2**24)]
    short += [(start + u32(6)[:size], "10") for size in range(5)] + [(start + u32(6) + b"\0", "10"), (start + u32(7), "10")]
    yield "the version number and the width", joined([LEND, *(f"read {contents.hex()} -> {answer}" for contents, answer in short), "sum -> any"])

    whole = file(board=WIDE)
    tables = u32(142) + rows() + u32(0) + u32(0)
    assert whole == start + u32(6) + b"\0" + tables and len(whole) == 57_965
    for title, contents, answer in [
        *((f"width {width}", start + u32(width) + whole[16:], "10") for width in (0, 1, 5, 7, 25, 150, 6 * 256, 6 + 2**24)),
        ("no width", start + b"\0" + tables, "10"),
        ("the width after the flag", start + b"\0" + u32(6) + tables, "10"),
        ("the width after the height", start + b"\1" + u32(9) + u32(6) + tables, "10"),
        ("the width before the version", MAGIC + u32(6) + u32(3) + whole[16:], "9 6"),
        ("a width of two bytes", start + b"\6\0" + whole[16:], "10"),
        ("a width of eight bytes", start + u32(6) + u32(0) + whole[16:], "10"),
        ("version 1", file(), "9 1"),
        ("version 1 with a width", MAGIC + u32(1) + whole[12:], "9 1"),
    ]:
        yield f"file: {title}", f"{LEND}\nread {contents.hex()} -> {answer}\nsum -> any"

    for title, contents, answer in [("version 3", whole, "9 3"), ("version 1 with a width", MAGIC + u32(1) + whole[12:], "10"), ("version 1", file(), "0")]:
        yield f"on the narrow board, file: {title}", f"{LEND}\n{OFF}\n{LEND}\nread {contents.hex()} -> {answer}\nsum -> any"


def damage_cases():
    """Each way in which memory is damaged, and every call upon it; beside it what is still sound."""
    two = [pending_record("aa", 141, 100, 25), pending_record("bb", 0, 100, 0)]
    pending = {
        "more used than there is room for": "state 100 11 0",
        "ids that do not rise": "byte pending 0 bb",
        "bucket 142": "byte pending 32 8e",
        "resolved-through 26": "byte pending 40 1a",
        "an unused place that is not zero": "byte pending 439 01",
    }
    for title, line in pending.items():
        yield f"pending: {title}", f"""
            {memory(100, pending=two)}
            leave cc -> 4
            enter bb 1000 1 -> 2
            {line}
            enter cc 1000 100 -> 1
            enter aa 1000 100 -> 1
            leave aa -> 1
            leave cc -> 1
            block 101 -> 1
            blockraw 101 00 -> 1
            write 0 -> 1
            estimate 1 -> none
            sum -> any
            read - -> 10
            start -> 0
            leave cc -> 4"""

    recent = {
        "more used than there is room for": "state 100 0 11",
        "ids that do not rise": "byte confirmed 0 bb",
        "an unused place that is not zero": "byte confirmed 359 01",
    }
    for title, line in recent.items():
        yield f"confirmed: {title}", f"""
            {memory(100, recent=[recent_record("aa", 90), recent_record("bb", 90)])}
            {line}
            enter cc 1000 100 -> 0
            leave cc -> 0
            block 101 -> 1
            write 58100 -> 1
            estimate 1 -> none
            sum -> any"""


def turn_cases():
    """Both boards in one script: each has its memory and its state, and the bytes that were written last are common to both."""
    feed = ["enter aa 5000 100 -> 0", "enter bb 5000 100 -> 0", "enter cc 1000 100 -> 0", "block 101 aa bb -> 0", "sum -> any"]
    feed += ["enter aa 5000 101 -> 0", "block 107 aa -> 0", "estimates -> any", "sum -> any", "block 140 -> 0", "sum -> any", "block 300 -> 0", "sum -> any"]
    yield "one feed for both boards, line by line", joined(
        [OFF, LEND, ON, LEND, *(f"{OFF}\n{line}\n{ON}\n{line}" for line in feed), "leave cc -> 4", OFF, "leave cc -> 4"]
    )

    yield "what is done on one board is not seen on the other", f"""
        {OFF}
        {LEND}
        enter aa 5000 100 -> 0
        block 107 -> 0
        sum -> any
        {ON}
        {LEND}
        sum -> any
        leave aa -> 4
        start -> 0
        enter aa 1000 7 -> 0
        block 4000 aa -> 0
        state 9 10 10
        count confirmed 0 nan
        byte pending 0 ff
        estimate 1 -> 1
        {OFF}
        estimate 1 -> none
        leave aa -> 0
        enter aa 5000 100 -> 0
        lend 0 0 0 0
        sum -> {EMPTY}
        {ON}
        estimate 1 -> 1
        start -> 0
        estimate 1 -> none
        {OFF}
        estimate 1 -> 1"""

    full = ["enter aa 5000 100 -> 0", "block 101 aa -> 0", "enter bb 5000 101 -> 0"]
    yield "what expires in the gap on one board needs a place on the other", f"""
        {OFF}
        lend 44 36 3550 3550
        {joined(full)}
        block 126 bb -> 7
        block 127 bb -> 0
        sum -> any
        {ON}
        lend 44 36 3550 3550
        {joined(full)}
        block 127 bb -> 7
        block 128 bb -> 0
        sum -> any"""

    first, last = file(last=101, board=NARROW), file(last=101, board=WIDE)
    yield "a file is the board's that wrote it", f"""
        {OFF}
        {LEND}
        block 101 -> 0
        write 60000 -> 0 57965 {adler(first.ljust(60_000, bytes([0xAA])))}
        {ON}
        {LEND}
        again -> 9 1
        block 101 -> 0
        write 57968 -> 12 57969
        again -> 9 1
        write 57969 -> 0 57969 {adler(last)}
        again -> 0
        {OFF}
        again -> 9 3
        sum -> any
        write 57964 -> 12 57965
        again -> 9 3
        {LEND}
        again -> 9 3
        lend 440 360 3549 3550
        again -> 1
        {ON}
        again -> 0
        sum -> any
        lend 0 0 3550 3550
        again -> 0
        sum -> any"""

    yield "the page's example", f"""
        {OFF}
        lend 450 360 3550 3550
        {ON}
        {LEND}
        start -> 0
        enter a1 5000 100 -> 0
        block 249 -> 0
        write 58013 -> 0 58013 5e56f863
        {OFF}
        again -> 9 3"""


def only_just():
    """Lines that fit only just on the wide board."""
    yield "lines that fit only just", f"""
        lend 44100 72100 3600 3600
        byte pending 44099 ff
        byte confirmed 72099 ff
        count confirmed 3599 nan
        count resolved 3599 fff0000000000001
        sum -> any
        enter aa 18446744073709551615 4294967295 -> 0
        estimate 4294967295 -> none
        write 1400000 -> any
        again -> 0
        sum -> any
        {OFF}
        lend 440100 720100 3600 3600
        lend 44101 72101 3600 3600
        sum -> any
        {ON}
        leave aa -> 0
        lend 0 0 0 0
        sum -> {EMPTY}"""


# None of these fits on the wide board, with 440 and 360 bytes and 3,550 counts lent.
UNFIT = """
lend 44101 0 0 0|lend 0 72101 0 0|lend 440100 720100 3600 3600|lend 0 0 3601 0|lend 0 0 0 3601|byte pending 440 00|byte confirmed 360 00
count resolved 3550 nan|enter aa 1000 1 1|estimate|estimate 4294967296|write 58000 3|export 200000|import|salvage
""".strip("\n").replace("\n", "|").split("|")

# None of these fits anywhere.
UNFIT_BOARDS = """
board|board |board wide | board wide|board  wide|board Wide|board wid|board widee|board narro|board narrow wide|board wide wide|board 6|board base
board -|boards wide|Board wide
""".strip("\n").replace("\n", "|").split("|")
UNFIT_BOARDS += ["board\twide", "board wide\r", "board\0wide"]


def unfit():
    """Lines that do not fit: on the wide board; and board lines, on either board and before any line."""
    lent = f"{LEND}\n{ON}\n{LEND}\nenter aa 1000 1 -> 0"
    for line in UNFIT + UNFIT_BOARDS:
        yield f"unfit: {line!r}", lent, line, 5
    for line in UNFIT_BOARDS:
        yield f"unfit on the narrow board: {line!r}", f"{lent}\n{OFF}", line, 6
        yield f"unfit at once: {line!r}", "", line, 1


def places():
    """Board lines and lends in every order of up to three, and then a line that needs a lent board."""
    for count in range(4):
        for lines in product((OFF, ON, "lend 0 0 0 0"), repeat=count):
            board, lent = OFF, set()
            for line in lines:
                if line.startswith("board"):
                    board = line
                else:
                    lent.add(board)
            answer = EMPTY if board in lent else f"bad line {count + 1}"
            yield f"places: {', '.join(lines) or 'none'}", joined([*lines, f"sum -> {answer}"])


def scripts():
    """Each title, the bytes, and the answers, as in edges.py."""
    for maker in wait_cases, life_cases, target_cases, head_cases, damage_cases, turn_cases, only_just:
        for title, text in maker():
            yield title, *script(f"{ON}\n{text.strip()}")
    for title, text in places():
        yield title, *script(text)
    for title, before, line, number in unfit():
        lines, answers = script(before) if before else (b"", [])
        yield title, lines + f"{line}\nsum\n".encode(), [*answers, f"bad line {number}"]
