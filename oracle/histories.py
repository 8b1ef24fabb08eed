"""Random history files: sound ones of every kind, and one way of damage at a time."""

import struct

from files import BUCKETS, COUNTS, NARROW, PENDING, ROW, TARGETS, bits, file, head, name, place, u32
from walk import TOP, any_height, ids

MINUS_ZERO, LEAST, HIGHEST, INFINITE = 1 << 63, 1, 0x7FEFFFFFFFFFFFFF, 0x7FF0000000000000


def any_pattern(rng):
    """A sound count, as a pattern."""
    usual = bits(rng.choice([1.0, 0.998, 1.996, 0.85, 20.0, 17.0, rng.random(), rng.random() * 100]))
    return rng.choice([usual] * 6 + [MINUS_ZERO, LEAST, HIGHEST, bits(2.0**-1022), rng.randrange(INFINITE)])


def any_counts(rng):
    """Counts of both kinds, sparse, in a few columns, or dense around the threshold."""
    sparse = rng.choice([0, 3, 40])
    some = [{rng.randrange(COUNTS): any_pattern(rng) for _ in range(sparse)} for _ in range(2)]
    return some if rng.random() < 0.6 else near_threshold(rng)


def near_threshold(rng):
    """Counts whose running ratio stays by 0.85, and whose resolved sum passes 1.0 on the way."""
    confirmed, resolved = {}, {}
    slack = rng.choice([0.0, 1e-16, 1e-15, 1e-9, 1e-3, 0.1])
    size = rng.choice([0.01, 0.1, 0.3, 5.0])
    for target in rng.sample(range(1, TARGETS + 1), rng.choice([1, 5, 25])):
        for bucket in rng.sample(range(BUCKETS), rng.choice([3, 20, BUCKETS])):
            weight = rng.choice([size, size * rng.random()])
            resolved[place(bucket, target)] = bits(weight)
            confirmed[place(bucket, target)] = bits(weight * 0.85 * (1 + rng.choice([-1, 0, 1]) * slack))
    return confirmed, resolved


def any_records(rng, board, last, pending, recent):
    """Records in any order, some ids repeated, with heights about the last one or anywhere."""
    around, life, far = 100 if last is None else last, board.life, 60 * board.width
    ages = [life + 2, life + 1, life, life - 1, 1, 0, -1]

    def height():
        near = min(TOP, max(0, around + rng.choice([*(-age for age in ages), rng.randrange(-far, far), *(-age for age in board.inner)])))
        return near if rng.random() < 0.9 else any_height(rng)

    def fields():
        bucket = rng.choice([0, 33, 141, rng.randrange(BUCKETS)])
        return u32(bucket) + u32(height()) + u32(rng.choice([0, 0, 24, 25, rng.randint(0, 25)]))

    names = [name(text) for text in ids(rng, max(1, rng.choice([pending, pending // 2])))]
    waiting = [rng.choice(names) + fields() for _ in range(pending)]
    done = [rng.choice(names + [rng.randbytes(32)]) + u32(height()) for _ in range(recent)]
    if rng.random() < 0.5:
        waiting, done = sorted(waiting), sorted(done)
    return waiting, done


def any_file(rng, board, pending=None, recent=None):
    """The parts of a file that is accepted."""
    last = None if rng.random() < 0.2 else any_height(rng)
    pending = rng.choice([0, 1, 5, 12]) if pending is None else pending
    recent = rng.choice([0, 1, 5, 20]) if recent is None else recent
    confirmed, resolved = any_counts(rng)
    waiting, done = any_records(rng, board, last, pending, recent)
    return {"last": last, "confirmed": confirmed, "resolved": resolved, "pending": waiting, "recent": done, "board": board}


def with_count(parts, pattern, rng):
    kind = rng.choice(["confirmed", "resolved"])
    at = rng.choice([0, COUNTS - 1, rng.randrange(COUNTS)])
    return file(**{**parts, kind: {**parts[kind], at: pattern}})


def with_fields(parts, bucket, through, rng):
    record = rng.randbytes(32) + u32(bucket) + u32(rng.randrange(2**32)) + u32(through)
    at = rng.randint(0, len(parts["pending"]))
    return file(**{**parts, "pending": [*parts["pending"][:at], record, *parts["pending"][at:]]})


def with_rate(whole, start, rng):
    at = start + ROW * rng.choice([0, BUCKETS - 1, rng.randrange(BUCKETS)])
    rate = struct.unpack("<Q", whole[at : at + 8])[0] + rng.choice([-1, 1, 2**32, 2**56])
    return whole[:at] + struct.pack("<Q", rate) + whole[at + 8 :]


def damaged_file(rng, parts):
    """One way of damaging a file, each way as likely as the others; some leave it sound."""
    board = parts["board"]
    whole, prefix = file(**parts), head(parts["last"], board)
    pending, recent = parts["pending"], parts["recent"]
    start, flag = len(prefix) + 4, 8 + len(board.version)
    tables = start + ROW * BUCKETS
    after_pending = tables + 4 + PENDING * len(pending)
    marks = [0, 7, 8, 11, flag, flag + 1, start - 4, start, start + 8, start + 208, start + ROW]
    marks += [tables, tables + 4, after_pending, after_pending + 4, len(whole)]

    def cut():
        at = rng.choice([rng.choice(marks) + rng.choice([-1, 0, 1]), len(whole) - rng.randint(1, 50), rng.randrange(len(whole))])
        return whole[: max(0, at)]

    def flipped():
        changed = bytearray(whole)
        for _ in range(rng.randint(1, 3)):
            at = rng.choice([rng.randrange(len(whole)), rng.randrange(start), rng.randrange(tables, len(whole))])
            changed[at] ^= 1 << rng.randrange(8)
        return bytes(changed)

    def pending_counted(number):
        return whole[:tables] + u32(number % 2**32) + whole[tables + 4 :]

    def recent_counted(number):
        return whole[:after_pending] + u32(number % 2**32) + whole[after_pending + 4 :]

    ways = [
        cut,
        lambda: whole[: rng.randint(1, flag + 5)],
        lambda: whole + rng.randbytes(rng.choice([1, 4, 36, 44])),
        lambda: bytes([whole[0] ^ 1]) + whole[1:],
        lambda: whole[:7] + b"s" + whole[8:],
        lambda: whole[:8] + u32(rng.choice([0, 2, 3, 256, 2**24 + 1, TOP])) + whole[12:],
        lambda: whole[:flag] + bytes([rng.choice([2, 3, 128, 255])]) + whole[flag + 1 :],
        lambda: whole[:flag] + bytes([whole[flag] ^ 1]) + whole[flag + 1 :],
        lambda: prefix + u32(rng.choice([0, 1, 141, 143, 142 + 2**16, TOP])) + whole[start:],
        lambda: prefix + u32(143) + whole[start:tables] + whole[tables - ROW :],
        lambda: prefix + u32(141) + whole[start : tables - ROW] + whole[tables:],
        lambda: prefix + u32(0) + whole[tables:],
        lambda: with_rate(whole, start, rng),
        lambda: with_count(parts, rng.choice([INFINITE, INFINITE + 1, 0x7FF8 << 48, 1 << 63 | INFINITE, bits(-1.0), 1 << 63 | LEAST]), rng),
        lambda: with_count(parts, rng.choice([MINUS_ZERO, HIGHEST, LEAST]), rng),
        lambda: with_fields(parts, rng.choice([142, 143, 255, 2**31, TOP]), rng.randint(0, 25), rng),
        lambda: with_fields(parts, rng.randrange(BUCKETS), rng.choice([26, 27, 255, 2**31, TOP]), rng),
        lambda: with_fields(parts, 141, 25, rng),
        lambda: pending_counted(len(pending) + rng.choice([-1, 1, 2])),
        lambda: pending_counted(rng.choice([10_000, 10_001, TOP])),
        lambda: recent_counted(len(recent) + rng.choice([-1, 1, 2])),
        lambda: recent_counted(rng.choice([1_000_000, 1_000_001, TOP])),
        flipped,
        lambda: rng.randbytes(rng.randint(1, 40)),
        lambda: whole,
    ]
    if board is not NARROW:
        ways += [
            lambda: whole[:12] + u32(rng.choice([0, 1, 5, 7, 25, 6 * 256, 6 + 2**24, TOP])) + whole[16:],
            lambda: whole[:12] + whole[16:],
            lambda: file(**{**parts, "board": NARROW}),
        ]
    return rng.choice(ways)()
