"""Fixed scripts: every case of document 01's 'Two sides of each edge', its misreadings, and both sides of every refusal; over a board, so that the wide
board has the same ones, with its width, its decay and its file.

A case is a title and a text in which `LINE -> ANSWER` gives the answer that the document gives, `-> any` stands where it gives none, and `-> same` where
memory laid by hand must give the same sum as the `sum` before it. A line without an arrow prints nothing."""

from files import COUNTS, NARROW, RATES, TARGETS, WIDE, adler, bits, file, head, name, pending_record, place, recent_record, rows, u32

LEND = "lend 440 360 3550 3550"
FRESH = f"{LEND}\nstart -> 0"
FRESH_FILE = "42 52 53 45 46 45 45 53 01 00 00 00 00 8E 00 00 00 E8 03"
FRESH_FILES = {NARROW: FRESH_FILE, WIDE: "42 52 53 45 46 45 45 53 03 00 00 00 06 00 00 00 00 8E 00 00 00 E8 03"}
TOP = 2**32 - 1
MOST = {NARROW: ((10_000, 440_044), (20_002, 720_100)), WIDE: ((1_002, 44_100), (2_002, 72_100))}  # records that a script can lend for, and their bytes
ONE_PLACE = "lend 87 71 3550 3550"  # for a record of each kind, and some bytes more
LATE, LATE_CC = pending_record("aa", 33, TOP, 0), pending_record("cc", 33, TOP, 0)  # these do not expire
KEPT = [recent_record("bb", TOP)]  # this is not pruned


def joined(lines):
    return "\n".join(lines)


def decayed(board, times, count=1.0):
    for _ in range(times):
        count *= board.decay
    return count


def count(kind, bucket, target, value):
    return f"count {kind} {place(bucket, target)} {bits(value):016x}"


def all_targets(bucket, value, first=1):
    return [(bucket, target, value) for target in range(first, TARGETS + 1)]


def memory(last, pending=(), recent=(), confirmed=(), resolved=(), lend=LEND):
    """Memory laid by hand: records, and counts as bucket, target and value."""
    lines = [lend, f"state {last} {len(pending)} {len(recent)}"]
    lines += [f"byte {table} 0 {b''.join(used).hex()}" for table, used in (("pending", pending), ("confirmed", recent)) if used]
    lines += [count("confirmed", *where) for where in confirmed] + [count("resolved", *where) for where in resolved]
    return joined(lines)


def laid(*parts, **more):
    return memory(*parts, **more) + "\nsum -> same"


def rate_cases(_board):
    edges = {0: "none", 999: "none", 1_000: 0, 1_049: 0, 1_050: 1, 1_101: 1, 1_102: 2, 962_804: 140, 962_805: 141, 2**64 - 1: 141}
    yield "rates", joined([LEND] + [f"bucket {rate} -> {bucket}" for rate, bucket in edges.items()])
    around = {}
    for bucket, rate in enumerate(RATES):
        around.update({rate - 1: bucket - 1 if bucket else "none", rate: bucket, rate + 1: bucket})
    yield "every rate and its neighbours", joined([LEND] + [f"bucket {rate} -> {bucket}" for rate, bucket in around.items()])


def floor_cases(board):
    """Rates below 1,000 (request L9): no bucket, and 16 after 1 and before 2 and 3."""
    yield "below the floor", f"""
        lend 88 72 3550 3550
        enter aa 999 1 -> 16
        enter aa 0 1 -> 16
        leave aa -> 4
        enter aa 1000 1 -> 0
        enter aa 999 1 -> 16
        enter aa 1000 1 -> 2
        enter bb 1049 1 -> 0
        enter cc 999 1 -> 16
        enter aa 0 1 -> 16
        enter cc 1000 1 -> 3
        sum -> any
        lend 88 72 3550 3550
        state - 2 0
        byte pending 0 {(pending_record("aa", 0, 1, 0) + pending_record("bb", 0, 1, 0)).hex()}
        sum -> same
        byte pending 32 8e
        enter cc 999 1 -> 1
        enter aa 0 1 -> 1
        lend 0 0 0 0
        enter aa 999 1 -> 16
        enter aa 1000 1 -> 3"""

    two = [recent_record("aa", 101), recent_record("bb", 101)]
    yield "a flood below the floor counts nowhere", f"""
        {FRESH}
        enter aa 1000 100 -> 0
        enter bb 1000 100 -> 0
        {joined(f"enter {at:02x} {at * 33} 100 -> 16" for at in range(31))}
        block 101 aa bb -> 0
        estimate 1 -> rate 1000
        sum -> any
        {laid(101, recent=two, confirmed=all_targets(0, 2 * board.decay), resolved=all_targets(0, 2 * board.decay))}"""

    low = [pending_record("aa", 0, 100, 0)]
    yield "a record of bucket 0 is read, whatever rate it came from", f"""
        {LEND}
        read {file(last=100, pending=low, board=board).hex()} -> 0
        enter aa 999 100 -> 16
        block 101 aa -> 0
        sum -> any
        {laid(101, recent=two[:1], confirmed=all_targets(0, board.decay), resolved=all_targets(0, board.decay))}"""


def worked_cases(board):
    life, once = board.life, board.decay
    yield "fresh", joined([FRESH] + [f"estimate {target} -> none" for target in (0, 1, life, life + 1)])

    yield "one id", f"""
        {FRESH}
        enter aa 5000 100 -> 0
        block 101 aa -> 0
        estimates -> {" ".join("-" * 25)}
        sum -> any
        {laid(101, recent=[recent_record("aa", 101)], confirmed=all_targets(33, once), resolved=all_targets(33, once))}"""

    two = [recent_record("aa", 101), recent_record("bb", 101)]
    yield "two ids", f"""
        {FRESH}
        enter aa 5000 100 -> 0
        enter bb 5000 100 -> 0
        block 101 aa bb -> 0
        {joined(f"estimate {target} -> rate 1000" for target in range(1, life + 2))}
        sum -> any
        {laid(101, recent=two, confirmed=all_targets(33, 2 * once), resolved=all_targets(33, 2 * once))}"""

    rates = " ".join(["1050"] + ["1000"] * 24)
    yield "Quad", f"""
        {FRESH}
        enter aa 5000 100 -> 0
        enter bb 5000 100 -> 0
        enter cc 1000 100 -> 0
        enter dd 1000 100 -> 0
        block {100 + board.width} aa bb -> 0
        estimate {board.width} -> rate 1050
        estimate {board.width + 1} -> rate 1000
        estimates -> {rates}
        write {board.fresh_length + 164} -> any
        sum -> any
        {LEND}
        again -> 0
        sum -> same
        estimates -> {rates}"""


def expiry_cases(board):
    width, gone = board.width, 100 + board.life
    outwaited = [(0, column, decayed(board, board.life - width * column)) for column in range(1, 25)]
    yield f"{board.life - 1} blocks, pending; the {board.life}th, gone", f"""
        {FRESH}
        enter aa 1000 100 -> 0
        {joined(f"block {height} -> 0" for height in range(101, gone))}
        sum -> any
        {laid(gone - 1, pending=[pending_record("aa", 0, 100, 24)], resolved=outwaited)}
        block {gone} -> 0
        sum -> any
        {laid(gone, resolved=[(0, column, decayed(board, board.life + 1 - width * column)) for column in range(1, 26)])}"""

    yield "first block 500, unlisted", f"""
        {FRESH}
        enter aa 1000 100 -> 0
        block 500 -> 0
        sum -> any
        {laid(500, resolved=all_targets(0, board.decay))}"""

    counted = {"confirmed": all_targets(33, 1.0, first=3), "resolved": all_targets(33, 1.0, first=6)}
    low, last = 100 + 3 * width, 100 + 5 * width
    yield f"block {low} below the last height {last}", f"""
        {memory(last, pending=[pending_record("aa", 33, 100, 5)])}
        block {low} aa -> 0
        sum -> any
        {laid(last, recent=[recent_record("aa", low)], **counted)}"""

    yield "confirmed at exactly this height: goes uncounted", f"""
        {memory(100, pending=[pending_record("aa", 0, 90, 9)], recent=[recent_record("aa", 100)])}
        block 100 aa -> 0
        sum -> any
        {laid(100, recent=[recent_record("aa", 100)])}"""

    yield "confirmed records go after 25 heights", f"""
        {memory(125, recent=[recent_record("aa", 101)])}
        block 126 -> 0
        sum -> any
        {laid(126, recent=[recent_record("aa", 101)])}
        block 127 -> 0
        sum -> any
        {laid(127)}"""


def gap_cases(board):
    yield "gap 4,096 and 4,097", f"""
        {FRESH}
        block 100 -> 0
        block 4197 -> 6
        block 4196 -> 0
        sum -> any
        block 8293 -> 6"""

    yield "a gap is single multiplications", f"""
        {memory(100, resolved=[(0, 1, 1.0)])}
        block 110 -> 0
        sum -> any
        {laid(110, resolved=[(0, 1, decayed(board, 10))])}"""

    yield "no last height: any first block", f"""
        {FRESH}
        block {TOP} -> 0
        block {TOP} -> 0
        block 0 -> 0
        sum -> any"""


def estimate_cases(board):
    third = 3 * board.width
    yield "a lower bucket may pass again", f"""
        {memory(9, confirmed=[(100, 3, 1.0)], resolved=[(100, 3, 1.0), (50, 3, 9.0)])}
        estimate {third} -> rate {RATES[51]}
        {count("confirmed", 10, 3, 100.0)}
        {count("resolved", 10, 3, 100.0)}
        estimate {third} -> rate 1000"""

    edges = [(0.85, 1.0, "rate 1000"), (0.8499999999999999, 1.0, "none"), (17.0, 20.0, "rate 1000"), (1.0, 0.9999999999999999, "none")]
    for confirmed, resolved, answer in edges:
        yield f"{confirmed} of {resolved}", f"""
            {memory(9, confirmed=[(0, 25, confirmed)], resolved=[(0, 25, resolved)])}
            estimate {board.life} -> {answer}"""

    huge = 1.7976931348623157e308
    yield "infinity over infinity fails", f"""
        {memory(9, confirmed=[(9, 1, huge), (8, 1, huge)], resolved=[(9, 1, 1.0)])}
        estimate 1 -> rate 1000
        {count("resolved", 7, 1, huge)}
        {count("resolved", 6, 1, huge)}
        estimate 1 -> rate {RATES[7]}"""


def file_cases(board):
    fresh, magic, needed, flag = file(board=board), b"BRSEFEES", board.fresh_length, 8 + len(board.version)
    assert fresh.startswith(bytes.fromhex(FRESH_FILES[board]))
    yield "fresh file", f"""
        {FRESH}
        write {needed - 1} -> 12 {needed}
        write {needed} -> 0 {needed} {adler(fresh)}
        write {needed + 100} -> 0 {needed} {adler(fresh + bytes([0xAA] * 100))}
        write 0 -> 12 {needed}"""

    for title, contents, answer in [
        ("no byte", b"", "10"),
        ("7 bytes", magic[:7], "10"),
        ("7 other bytes", bytes(7), "10"),
        ("eight zero bytes", bytes(8), "8"),
        ("magic alone", magic, "10"),
        ("magic and 3 bytes", magic + bytes(3), "10"),
        ("magic and version 2", magic + u32(2), "9 2"),
        ("magic and version 0", magic + u32(0), "9 0"),
        ("magic and the highest version", magic + u32(TOP), f"9 {TOP}"),
        ("flag 2", fresh[:flag] + b"\2" + fresh[flag + 1 :], "10"),
        ("flag 1 without a height", fresh[:flag] + b"\1" + fresh[flag + 1 :], "10"),
        ("one byte extra", fresh + b"\0", "10"),
        ("one byte less", fresh[:-1], "10"),
        ("fresh", fresh, "0"),
        ("height 0", file(last=0, board=board), "0"),
        ("the highest height", file(last=TOP, board=board), "0"),
    ]:
        yield f"file: {title}", f"{LEND}\nread {contents.hex() or '-'} -> {answer}\nsum -> any"

    outlived = [pending_record("aa", 141, TOP, 25)]
    yield "resolved-through 25 is read, and goes at the next advance", f"""
        {LEND}
        read {file(last=7, pending=outlived, board=board).hex()} -> 0
        sum -> any
        {laid(7, pending=outlived)}
        block 7 -> 0
        sum -> same
        block 8 -> 0
        sum -> any
        {laid(8)}"""


def record_cases(board):
    twice = [pending_record("bb", 1, 2, 3), pending_record("aa", 4, 5, 6), pending_record("bb", 7, 8, 9)]
    heights = [recent_record("02", 5), recent_record("01", 4), recent_record("02", 3)]
    yield "ids in any order, the last of a repeated one holds", f"""
        {LEND}
        read {file(pending=twice, recent=heights, board=board).hex()} -> 0
        sum -> any
        {laid("-", pending=twice[1:], recent=heights[1:])}"""

    for title, contents, answer in [
        ("bucket 142", file(pending=[pending_record("aa", 142, 1, 0)], board=board), 10),
        ("resolved-through 26", file(pending=[pending_record("aa", 0, 1, 26)], board=board), 10),
        ("three records for two pending places", file(pending=twice, board=board), 11),
        ("three records for two confirmed places", file(recent=heights, board=board), 11),
        ("two and two", file(pending=twice[1:], recent=heights[1:], board=board), 0),
        ("10,001 pending", head(board=board) + u32(142) + rows() + u32(10_001) + bytes(4), 10),
        ("1,000,001 confirmed", head(board=board) + u32(142) + rows() + u32(0) + u32(1_000_001), 10),
    ]:
        yield f"records: {title}", f"lend 88 72 3550 3550\nread {contents.hex()} -> {answer}\nsum -> any"


def count_cases(board):
    for title, pattern, is_sound in [
        ("-0.0", "8000000000000000", True),
        ("the least below 0", "8000000000000001", False),
        ("infinity", "7ff0000000000000", False),
        ("not a number", "7ff8000000000001", False),
        ("the highest", "7fefffffffffffff", True),
    ]:
        for at, kind in ((0, "confirmed"), (COUNTS - 1, "resolved")):
            yield f"count {title} in a file, {kind}", f"""
                {LEND}
                read {file(**{kind: {at: int(pattern, 16)}}, board=board).hex()} -> {0 if is_sound else 10}
                sum -> any
                block 1 -> 0
                sum -> any
                estimates -> any"""
            judged = "any" if is_sound else "1"
            yield f"count {title} in memory, {kind}", f"""
                {LEND}
                count {kind} {at} {pattern}
                sum -> any
                estimate 1 -> {judged}
                estimate 0 -> {judged}
                block 1 -> {judged}
                write 58000 -> {judged}
                enter aa 1000 1 -> 0
                leave aa -> 0
                sum -> any"""


def capacity_cases(_board):
    yield "pending full", """
        lend 88 0 3550 3550
        enter aa 1000 1 -> 0
        enter bb 1000 1 -> 0
        enter cc 1000 1 -> 3
        enter aa 1000 1 -> 2
        leave cc -> 4
        leave aa -> 0
        enter cc 1000 1 -> 0
        sum -> any"""

    yield "confirmed full, a repeated listing counted once", """
        lend 88 36 3550 3550
        enter aa 1000 1 -> 0
        block 2 aa aa bb -> 0
        enter aa 1000 2 -> 0
        block 2 aa -> 0
        enter aa 1000 2 -> 0
        block 3 aa aa -> 0
        enter bb 1000 20 -> 0
        sum -> any
        block 4 bb -> 7
        block 29 bb -> 7
        sum -> same
        block 30 bb bb -> 0
        sum -> any
        lend 88 0 3550 3550
        enter aa 1000 1 -> 0
        block 2 aa -> 7
        block 2 aa aa -> 7
        block 2 bb -> 0
        block 2 aa -> 7
        leave aa -> 0
        block 2 aa -> 0"""

    yield "order of refusals", """
        lend 88 0 3550 3550
        state 1 1 0
        blockraw 9999 00 -> 5
        block 9999 00 -> 6
        block 9 00 -> 7
        count confirmed 0 nan
        blockraw 9999 00 -> 1
        write 0 -> 1
        estimate 1 -> 1"""

    for lent in ("440 360 3549 3550", "440 360 3550 3549", "440 360 0 0"):
        calls = ["start", "read -", "again", "block 1", "estimate 0", "estimates", "write 1400000"]
        yield f"counts too short: {lent}", f"""
            lend {lent}
            {joined(f"{call} -> 1" for call in calls)}
            enter aa 1000 1 -> 0
            leave aa -> 0
            leave aa -> 4
            bucket 5000 -> 33
            sum -> any"""


def small(last, pending, recent, places):
    """Memory laid by hand, with no free place for pending records and so many places for confirmed ones, and some bytes past either table."""
    return memory(last, pending, recent, lend=f"lend {44 * len(pending) + 43} {36 * places + 35} 3550 3550")


def no_room(*blocks):
    """Blocks that are refused, and leave memory as it is."""
    return joined(["sum -> any", *(f"block {block} -> 7" for block in blocks), "sum -> same"])


def resolved_by(board, height, columns):
    """The resolved counts that an id at 5,000, entered at 100, has left at that height for these columns: one each, decayed since its time was up."""
    return [(33, column, decayed(board, height + 1 - 100 - board.width * column)) for column in columns]


def listing_room_cases(board):
    """Answer 7 (request L5), exactly where the confirmed table, after the skipped heights have pruned it and once the list is in, would hold more than its capacity.
    Here what the list needs: repeats, ids that are not pending, ids that have a record."""
    aa, bb, once = pending_record("aa", 33, 100, 0), pending_record("bb", 33, 100, 0), board.decay
    yield "room: an id listed twice counts once, and one that is not pending needs none", f"""
        {small("-", [aa], [], 0)}
        {no_room("101 aa", "101 aa aa aa")}
        block 101 bb bb -> 0
        {small("-", [aa], [], 1)}
        block 101 aa aa aa -> 0
        sum -> any
        {laid(101, [], [recent_record("aa", 101)], all_targets(33, once), all_targets(33, once), lend=ONE_PLACE)}
        {small("-", [aa, bb], [], 1)}
        {no_room("101 aa bb", "101 aa bb aa", "101 bb bb aa aa")}
        block 101 bb cc bb -> 0
        sum -> any
        {small("-", [aa, bb], [], 2)}
        block 101 aa bb aa bb bb -> 0
        sum -> any
        {small("-", [aa], [recent_record("bb", 100)], 1)}
        {no_room("101 cc aa", "101 aa bb")}
        block 101 cc bb dd cc -> 0
        sum -> any"""

    outwaited = [column for column in range(1, 26) if board.width * column <= 2]
    yield "room: an id that still has a record needs no further room", f"""
        {small(100, [aa], [recent_record("aa", 99)], 1)}
        block 103 aa aa -> 0
        sum -> any
        {small(100, [aa], [recent_record("aa", 103)], 1)}
        block 103 aa aa -> 0
        sum -> any
        {laid(103, [], [recent_record("aa", 103)], resolved=resolved_by(board, 103, outwaited), lend=ONE_PLACE)}
        {small(100, [aa], [recent_record("bb", 99)], 1)}
        {no_room("101 aa", "103 aa", "103 bb aa", "100 aa", "99 aa")}
        {small(100, [aa], [recent_record("aa", 74)], 1)}
        block 101 aa -> 0
        {small(100, [aa], [recent_record("aa", 90)], 1)}
        block 100 aa -> 0
        {small(100, [aa], [recent_record("aa", 90)], 1)}
        block 95 aa -> 0
        sum -> any
        {small("-", [aa], [recent_record("aa", 5)], 1)}
        block 101 aa -> 0
        sum -> any"""

    yield "room: an id whose record is pruned in the skipped heights needs a place again", f"""
        {small(101, [LATE, LATE_CC], [recent_record("aa", 100), recent_record("bb", 101)], 2)}
        {no_room("126 aa cc", "127 aa cc", "127 cc aa aa")}
        block 127 aa -> 0
        sum -> any
        {small(101, [LATE, LATE_CC], [recent_record("aa", 100), recent_record("bb", 101)], 3)}
        block 127 aa cc -> 0
        sum -> any
        {small(101, [LATE], [recent_record("aa", 100)], 1)}
        block 127 aa aa -> 0
        sum -> any"""


def skipping_room_cases(board):
    """Answer 7: what the skipped heights leave. Records are pruned and ids expire in them, and not without them."""
    once, width, gone = board.decay, board.width, 100 + board.life
    counted = {"confirmed": all_targets(33, once), "resolved": all_targets(33, once), "lend": ONE_PLACE}
    for last in 101, 125:
        yield f"room: the skipped heights after {last} make it after 25 blocks, and the block's own height makes none", f"""
            {small(last, [LATE], [recent_record("bb", 100)], 1)}
            {no_room("126 aa", f"{last + 1} aa")}
            block 127 aa -> 0
            sum -> any
            {laid(127, [], [recent_record("aa", 127)], **counted)}"""

    yield "room: without skipped heights nothing is pruned", f"""
        {small(200, [LATE], [recent_record("bb", 100)], 1)}
        {no_room("201 aa", "200 aa", "199 aa", "150 aa", "127 aa", "0 aa")}
        block 202 aa -> 0
        sum -> any
        {laid(202, [], [recent_record("aa", 202)], **counted)}
        {small("-", [LATE], [recent_record("bb", 100)], 1)}
        {no_room("202 aa", "127 aa", "0 aa", f"{TOP} aa")}
        block 202 -> 0
        block 202 aa -> 0
        sum -> any"""

    before = [height for height in (102, 125, 126, 127, gone - 1, gone) if height <= gone]
    yield "room: an id that expires in the skipped heights needs none", f"""
        {small(101, [pending_record("aa", 33, 100, 1 // width)], KEPT, 1)}
        {no_room(*(f"{height} aa" for height in before))}
        block {gone + 1} aa aa -> 0
        sum -> any
        {laid(gone + 1, [], KEPT, resolved=resolved_by(board, gone + 1, range(1 // width + 1, 26)), lend=ONE_PLACE)}
        {small(gone - 1, [pending_record("aa", 33, 100, 24)], KEPT, 1)}
        {no_room(f"{gone} aa")}
        block {gone + 1} aa -> 0
        sum -> any"""

    outlived = [pending_record("aa", 33, 100, 25)]
    yield "room: resolved-through 25 goes at the next height, if that is skipped", f"""
        {small(100, outlived, KEPT, 1)}
        {no_room("101 aa", "100 aa", "99 aa")}
        block 102 aa -> 0
        sum -> any
        {laid(102, [], KEPT, lend=ONE_PLACE)}
        {small("-", outlived, KEPT, 1)}
        {no_room("102 aa")}
        {small(100, outlived, KEPT, 2)}
        block 101 aa -> 0
        sum -> any
        {laid(101, [], [recent_record("aa", 101), *KEPT], all_targets(33, once), lend="lend 87 107 3550 3550")}"""


def whole_room_cases(board):
    """Answer 7: its place in the order, all of it in one block, and request L5's small node."""
    once, width = board.decay, board.width
    yield "room: 7 after 5 and 6", f"""
        {small(100, [LATE], KEPT, 1)}
        sum -> any
        blockraw 101 {name("aa").hex()}00 -> 5
        blockraw 101 00{name("aa").hex()} -> 5
        blockraw 4197 {name("aa").hex()}00 -> 5
        block 4197 aa -> 6
        block 4196 aa -> 7
        sum -> same
        count confirmed 0 nan
        block 101 aa -> 1
        blockraw 4197 {name("aa").hex()}00 -> 1
        {small(100, [LATE], KEPT, 2)}
        block 4197 aa -> 6
        block 4196 aa -> 0
        sum -> any"""

    mixed = [pending_record("0a", 0, 100, 0), *(pending_record(f"0{digit}", 0, TOP, 0) for digit in "bcdef"), pending_record("10", 0, 100, 25)]
    heights = [recent_record(*record) for record in (("0b", 100), ("0c", 110), ("11", 100), ("12", 101), ("13", TOP), ("14", 126))]
    held = 7 if board.life == 25 else 8  # 0c, 12, 13 and 14 stay; 0b, 0d and 0e, and 0a where it lasts, need a place each; 0f is not listed, 10 expires
    listed = "0a 0b 0c 0d 0e 0d 10 11 0b 77"
    yield "room: all of it in one block", f"""
        {small(101, mixed, heights, held - 1)}
        {no_room(f"127 {listed}")}
        {small(101, mixed, heights, held)}
        {no_room(f"126 {listed} 0f")}
        block 127 {listed} -> 0
        sum -> any"""

    outwaited = [column for column in range(1, 26) if width * column < 8]
    waited = [(33, column, decayed(board, 9 - width * column)) for column in outwaited]
    first = all_targets(0, decayed(board, 28, 3.0))
    within = all_targets(33, once, first=len(outwaited) + 1)
    yield "a small node whose full table the gap clears", f"""
        lend 176 108 3550 3550
        start -> 0
        enter aa 1000 100 -> 0
        enter bb 1000 100 -> 0
        enter cc 1000 100 -> 0
        block 101 aa bb cc -> 0
        enter dd 5000 120 -> 0
        {no_room("102 dd", "121 dd", "127 dd", "127 aa dd dd")}
        block 128 dd dd aa -> 0
        sum -> any
        {laid(128, [], [recent_record("dd", 128)], first + within, first + waited + within, lend="lend 176 108 3550 3550")}
        enter aa 1000 128 -> 0
        enter bb 1000 128 -> 0
        enter cc 1000 128 -> 0
        block 129 aa bb cc -> 7
        block 129 bb aa -> 0
        leave cc -> 0
        enter cc 1000 150 -> 0
        block 154 cc -> 7
        block 155 cc -> 0
        sum -> any"""


def large_cases(board):
    (pending, pending_bytes), (recent, recent_bytes) = MOST[board]
    full = file(pending=[pending_record(f"{at:04x}", at % 142, at, at % 25) for at in range(pending)], board=board)
    yield f"{pending:,} pending", f"""
        lend {pending_bytes} 36 3550 3550
        read {full.hex()} -> 0
        sum -> any
        enter ffff 1000 1 -> 3
        enter 0000 1000 1 -> 2
        leave 0007 -> 0
        enter ffff 1000 1 -> 0
        enter fffe 1000 1 -> 3
        block 5000 0008 -> 0
        sum -> any
        write 600000 -> any
        again -> 0
        sum -> same"""

    many = file(last=9, recent=[recent_record(f"{at:04x}", at) for at in range(recent)], board=board)
    yield f"{recent:,} confirmed", f"""
        lend 132 {recent_bytes} 3550 3550
        read {many.hex()} -> 0
        enter 0011 1000 9 -> 0
        enter fffe 1000 9 -> 0
        enter ffff 1000 9 -> 0
        sum -> any
        block 10 ffff -> 7
        block 26 ffff 0011 -> 7
        block 27 fffe ffff -> 7
        sum -> same
        block 10 0011 0011 -> 0
        block 27 ffff ffff eeee -> 0
        block 28 fffe -> 0
        sum -> any"""

    ids = b"".join(name(f"{at:04x}") for at in range(5_000)).hex()
    yield "5,000 ids in one list", f"""
        {FRESH}
        enter 0102 1000 1 -> 0
        blockraw 2 {ids} -> 0
        sum -> any
        blockraw 3 {ids}00 -> 5"""


def zero_row_cases(board):
    """Rows of zeros, of either sign, which a height does not store (request L2), beside rows that hold one count: the last, the first, or one between."""
    least = 5e-324  # times either board's decay it rounds to itself

    def counts(one):
        zeros = all_targets(3, -0.0) + all_targets(4, -0.0, first=13)
        among_zeros = [(5, 25, least), (6, 1, least), (7, 12, one)]
        among_minus_zeros = all_targets(8, -0.0)[:-1] + [(8, 25, one), (9, 1, one)] + all_targets(9, -0.0, first=2)
        return zeros + among_zeros + among_minus_zeros + all_targets(141, one)

    for title, kinds in ("confirmed", ["confirmed"]), ("resolved", ["resolved"]), ("both kinds", ["confirmed", "resolved"]):
        yield f"rows of zeros, {title}", f"""
            {memory("-", **{kind: counts(1.0) for kind in kinds})}
            block 100 -> 0
            sum -> any
            {laid(100, **{kind: counts(decayed(board, 1)) for kind in kinds})}
            block 140 -> 0
            sum -> any
            {laid(140, **{kind: counts(decayed(board, 41)) for kind in kinds})}
            write 58000 -> any
            again -> 0
            sum -> same"""


def scripts(board=NARROW):
    """Each case's title, the bytes of its script, and for each printed line the answer, `any`, or the number of the line that it repeats."""
    makers = rate_cases, floor_cases, worked_cases, expiry_cases, gap_cases, estimate_cases, file_cases, record_cases, count_cases, capacity_cases
    room = listing_room_cases, skipping_room_cases, whole_room_cases
    first = "" if board is NARROW else f"board {board.word}\n"
    for maker in (*makers, *room, large_cases, zero_row_cases):
        for title, text in maker(board):
            yield title, *script(first + text.strip())


def script(text):
    """The bytes of a script written with arrows, and its answers."""
    lines, answers, last_sum = [], [], None
    for line in text.strip().split("\n"):
        line, _, answer = line.strip().partition(" -> ")
        lines.append(f"{line}\n")
        if line == "sum" and answer != "same":
            last_sum = len(answers)
        if answer:
            answers.append(last_sum if answer == "same" else answer)
    return "".join(lines).encode(), answers
