"""Seeded random scripts, one maker for each flavour. A maker takes a source of randomness and a board, and gives the bytes of a script for that board."""

import random
import struct

from files import BUCKETS, COUNTS, NARROW, PENDING, RATES, RECENT, TARGETS, WIDE, bits, file, place, u32
from files import name as id_bytes
from histories import HIGHEST, LEAST, MINUS_ZERO, any_file, any_pattern, damaged_file, near_threshold
from walk import TOP, Walk, any_height, any_rate

DAMAGED = (PENDING * 10 + 20, RECENT * 10 + 20, COUNTS + 10, COUNTS + 10)  # what is lent where damage is done
LARGE = {  # records in both tables; the most bytes that can be lent, and the least that hold as many records
    NARROW: ([(10_000, 200), (9_999, 5), (2_000, 12_000), (10, 20_002)], (440_100, 720_100), (440_000, 720_072)),
    WIDE: ([(1_002, 200), (1_001, 5), (200, 1_200), (10, 2_002)], (44_100, 72_100), (44_088, 72_072)),
}
UNSOUND = ["nan", "7ff0000000000000", "fff0000000000000", "bff0000000000000", "8000000000000001", "ffefffffffffffff", "7ff0000000000001"]


def roomy(walk):
    walk.lend(PENDING * walk.rng.randint(12, 60), RECENT * walk.rng.randint(40, 200))


def rising(rng, board):
    """From fresh, heights strictly rising."""
    walk = Walk(rng, board, pool=rng.choice([4, 12, 40]))
    walk.rising = True
    roomy(walk)
    walk.start()
    if rng.random() < 0.5:
        walk.block(any_height(rng))
    walk.steps(70)
    return walk.text()


def wandering(rng, board):
    """From fresh, with equal and lower heights, gaps, duplicates and re-entries."""
    walk = Walk(rng, board, pool=rng.choice([2, 4, 12]))
    walk.steadiness = rng.choice([0.1, 0.4, 0.7])
    roomy(walk)
    walk.start()
    if rng.random() < 0.3:
        walk.block(any_height(rng), [])
    walk.steps(70)
    return walk.text()


def busy(rng, board):
    """Many entries and confirmations at a few rates, so that estimates move."""
    walk = Walk(rng, board, pool=40)
    roomy(walk)
    walk.start()
    walk.add("block", 99)
    walk.last = 99
    for _ in range(25):
        for _ in range(rng.randint(1, 5)):
            walk.enter()
        waiting = list(walk.pending)
        walk.block(walk.now() + 1, rng.sample(waiting, rng.randint(0, len(waiting))))
        walk.add("estimates")
        walk.add("sum")
    return walk.text()


def expiry(rng, board):
    """Records at the very edges of expiry and pruning, reached by single steps or in one gap."""
    walk = Walk(rng, board, pool=6)
    roomy(walk)
    walk.start()
    base, life = rng.choice([1, 30, 100, 800_000, TOP - 100]), board.life
    walk.block(base, [])
    for _ in range(12):
        name = rng.choice(walk.pool)
        entry = walk.bounded(walk.now() + rng.choice([-life - 1, -life, 1 - life, -1, 0, 0, 0, 1, 2]))
        walk.enter_as(name, rng.choice(walk.rates), entry)
        goal = walk.bounded(max(walk.now(), entry) + rng.choice([1, 2, *range(life - 1, life + 3), *board.inner]))
        if rng.random() < 0.5:
            stop = rng.randint(walk.now(), goal)
            for height in range(max(walk.now() + 1, stop - 4), stop):
                walk.block(height, [])
                walk.add("sum")
        walk.block(goal, [name] * rng.choice([0, 1, 1, 2]))
        walk.add("sum")
        walk.add("estimate", rng.randint(1, life))
        if rng.random() < 0.4:
            walk.block(walk.bounded(goal - rng.choice([0, 1, life - 1, life, life + 1, *board.inner])), [name])
            walk.add("sum")
    return walk.text()


def restore(walk, parts):
    """Reads a file and lets the walk believe what it holds."""
    walk.add("read", file(**parts).hex())
    walk.last = parts["last"]
    walk.pending = {record[:32].hex(): struct.unpack("<I", record[36:40])[0] for record in parts["pending"]}
    walk.recent = {record[:32].hex(): struct.unpack("<I", record[32:])[0] for record in parts["recent"]}
    walk.pool += list(walk.pending)[:6] + list(walk.recent)[:6]
    walk.add("sum")
    walk.add("estimates")


def restored(rng, board):
    """A restored history of any height, walked on from."""
    walk = Walk(rng, board)
    walk.steadiness = rng.choice([0.2, 0.6, 0.9])
    roomy(walk)
    for _ in range(rng.choice([1, 1, 2])):
        restore(walk, any_file(rng, board))
        walk.steps(45)
    return walk.text()


def thresholds(rng, board):
    """Sums by 0.85 and 1.0 under decay and counting."""
    walk = Walk(rng, board, pool=6)
    roomy(walk)
    confirmed, resolved = near_threshold(rng)
    restore(walk, {"last": 100, "confirmed": confirmed, "resolved": resolved, "pending": [], "recent": [], "board": board})
    for _ in range(30):
        walk.enter()
        walk.block()
        walk.add("estimates")
    walk.add("sum")
    return walk.text()


def extremes(rng, board):
    """-0.0, the least and the highest counts, and sums that reach infinity, set in memory."""
    walk = Walk(rng, board, pool=6)
    roomy(walk)
    column = rng.randint(1, TARGETS)
    patterns = rng.choice([[HIGHEST], [MINUS_ZERO], [LEAST, LEAST + 1], [MINUS_ZERO, HIGHEST, LEAST, bits(1.0), bits(1e308)]])
    for _ in range(6):
        for _ in range(rng.randint(1, 8)):
            target = column if rng.random() < 0.8 else rng.randint(1, TARGETS)
            walk.add("count", rng.choice(["confirmed", "resolved"]), place(rng.randrange(BUCKETS), target), f"{rng.choice(patterns):016x}")
        walk.add("sum")
        walk.add("estimates")
        walk.add("estimate", column)
        walk.steps(6)
    return walk.text()


def damaged_files(rng, board):
    """Files damaged in each way, on memory that holds something."""
    walk = Walk(rng, board, pool=4)
    pending, recent = rng.choice([(0, 0), (3, 3), (20, 30)])
    walk.lend(PENDING * pending + rng.randrange(PENDING), RECENT * recent + rng.randrange(RECENT))
    walk.steps(4)
    for _ in range(12):
        parts = any_file(rng, board, rng.choice([0, 1, 3, 4]), rng.choice([0, 1, 3, 4]))
        walk.add("read", damaged_file(rng, parts).hex() or "-")
        walk.add("sum")
        if rng.random() < 0.3:
            walk.steps(2)
    return walk.text()


def round_trips(rng, board):
    """Memory written, and read into other memory, with too little output and too little room at times."""
    walk, fresh = Walk(rng, board, pool=8), board.fresh_length
    roomy(walk)
    if rng.random() < 0.3:
        restore(walk, any_file(rng, board))
    for _ in range(6):
        walk.steps(6)
        walk.add("write", rng.choice([0, fresh - 1, fresh, fresh + 4, fresh + rng.randrange(2_000), 1_400_000]))
        walk.add("sum")
        if rng.random() < 0.6:
            pending, recent = (size * rng.choice([0, 1, 2, 3, 5, 60]) + rng.randrange(size) for size in (PENDING, RECENT))
            walk.lend(pending, recent, *counts_lent(rng))
            junk(walk)
        walk.add("again")
        walk.add("sum")
        walk.add("estimate", rng.randint(0, board.life + 1))
    return walk.text()


def exact_lengths(rng, board):
    """Outputs of just the needed length, one less and one more, on fresh memory with known records."""
    walk = Walk(rng, board)
    walk.pool = [f"{at:02x}" for at in rng.sample(range(256), 12)]
    roomy(walk)
    pending = recent = 0
    last = None
    for at, name in enumerate(walk.pool):
        needed = board.fresh_length + (0 if last is None else 4) + PENDING * pending + RECENT * recent
        for length in rng.sample([needed - 1, needed, needed + 1, needed + 40], 3):
            walk.add("write", length)
        walk.add("again")
        walk.add("sum")
        walk.add("enter", name, max(RATES[0], any_rate(rng)), 100)
        pending += 1
        if rng.random() < 0.5:
            last = 100 + at
            walk.add("block", last, name)
            pending, recent = pending - 1, recent + 1
    return walk.text()


def counts_lent(rng):
    return [rng.choice([3_550, 3_550, 3_550, 3_551, 3_600, 3_549]) for _ in range(2)]


def junk(walk):
    """Bytes and counts past what is read, where the lent slices reach that far; nothing may change for it."""
    pending, recent, confirmed, resolved = map(int, walk.lines[-1].split()[1:])
    for table, lent, size in (("pending", pending, PENDING), ("confirmed", recent, RECENT)):
        beyond = lent - lent % size
        if beyond < lent and walk.chance(0.7):
            walk.add("byte", table, beyond, walk.rng.randbytes(lent - beyond).hex())
    for kind, lent in (("confirmed", confirmed), ("resolved", resolved)):
        if lent > COUNTS and walk.chance(0.7):
            walk.add("count", kind, walk.rng.randrange(COUNTS, lent), walk.rng.choice(UNSOUND))


def odd_lengths(rng, board):
    """Slices of odd lengths, junk past the capacities, counts too short."""
    walk = Walk(rng, board, pool=5)
    for _ in range(6):
        edges = ([0, 1, size - 1, size, size + 1, 2 * size - 1, 2 * size, rng.randrange(8 * size)] for size in (PENDING, RECENT))
        lengths = [rng.choice(lengths) for lengths in edges]
        counts = rng.choice([counts_lent(rng), counts_lent(rng), [rng.choice([0, 1, 3_549, 3_550, 3_600]) for _ in range(2)]])
        walk.lend(*lengths, *counts)
        junk(walk)
        walk.add("sum")
        if rng.random() < 0.5:
            walk.start()
        walk.steps(9)
        walk.add("blockraw", walk.now() + 1, rng.randbytes(rng.choice([1, 31, 32, 33, 63, 64])).hex() if rng.random() < 0.8 else "-")
        walk.add("sum")
    return walk.text()


def crowded(rng, board):
    """Tables of a few places, that are full, and that gaps clear."""
    walk = Walk(rng, board, pool=rng.choice([3, 5, 8]))
    walk.steadiness = rng.choice([0.2, 0.6])
    walk.lend(PENDING * rng.randint(0, 5), RECENT * rng.randint(0, 6))
    walk.start()
    walk.steps(80)
    return walk.text()


def about_room(rng, board):
    """Blocks on both sides of the confirmed table's capacity (request L5): records about 25 blocks old in them, ids that have a record or expire, repeats; each on
    memory laid for it, and then on what it leaves."""
    walk = Walk(rng, board, pool=9)
    for _ in range(9):
        height, listed = lay_about_room(walk)
        walk.block(height, listed)
        walk.add("sum")
        for _ in range(rng.choice([0, 0, 1, 2, 4])):
            walk.step()
    return walk.text()


def lay_about_room(walk):
    """Lays memory whose confirmed table is just long enough for a block, or has a place too few or too many; answers the block's height and its list."""
    rng, life = walk.rng, walk.board.life
    last = rng.choice([None, 0, 100, 100, 100, 800_000, TOP - 200])
    now = 100 if last is None else last
    far = [rng.randint(2, life + 30), 2, 3, *range(TARGETS, TARGETS + 4), *range(life, life + 3)]
    height = walk.bounded(now + rng.choice([rng.choice(far), rng.choice(far), rng.choice([1, 1, 0, -1, -rng.randrange(60)])]))
    skipped = None if last is None or height <= last + 1 else height - 1  # the last of the skipped heights, if there are any

    def near(age):
        """A height that is about so old at the last of the skipped heights, or another that tells."""
        edge = height - 1 - age + rng.choice([-1, 0, 0, 1])
        return walk.bounded(rng.choice([edge, edge, edge, height, now, TOP]))

    pending, recent, (waiting, done) = {}, {}, rng.choice([(0.6, 0.5), (0.9, 0.3)])
    for one in sorted(set(map(id_bytes, walk.pool))):
        if walk.chance(waiting):
            pending[one] = near(life - 1), rng.choice([0, 0, 1, 24, 25])
        if walk.chance(done):
            recent[one] = near(TARGETS)
    listed = [one for one in walk.pool if walk.chance(0.7)]
    listed += rng.choices(walk.pool, k=rng.choice([0, 0, 1, 3]))
    rng.shuffle(listed)

    stay = {one for one, at in recent.items() if skipped is None or skipped - at <= TARGETS}
    last_on = {one for one, (entry, through) in pending.items() if skipped is None or through < TARGETS and skipped - entry < life}
    held = len(stay | last_on & set(map(id_bytes, listed)))
    places = max(len(recent), held + rng.choice([-1, -1, 0, 0, 1]))
    walk.lend(PENDING * rng.choice([len(pending), 12]), RECENT * places + rng.choice([0, 35]))
    walk.add("state", "-" if last is None else last, len(pending), len(recent))
    for table, records in (
        ("pending", [one + u32(rng.randrange(BUCKETS)) + u32(entry) + u32(through) for one, (entry, through) in pending.items()]),
        ("confirmed", [one + u32(at) for one, at in recent.items()]),
    ):
        if records:
            walk.add("byte", table, 0, b"".join(records).hex())
    walk.last, walk.pending = last, {one.hex(): entry for one, (entry, _) in pending.items()}
    walk.recent = {one.hex(): at for one, at in recent.items()}
    return height, listed


def wide_gaps(rng, board):
    """Gaps by 4,096 and blocks anywhere."""
    walk = Walk(rng, board, pool=4)
    roomy(walk)
    walk.block(rng.choice([0, 100, rng.randrange(2**32), TOP - 4_096, TOP - 4_097]))
    walk.steps(20)
    for gap in (4_098, 4_097, 2**31, TOP):
        walk.add("block", walk.bounded(walk.now() + gap), walk.pool[0])
        walk.add("sum")
        walk.steps(4)
    walk.block(walk.bounded(walk.now() + rng.choice([4_096, 4_095, 300, 1_000])))
    walk.steps(4)
    for _ in range(6):
        walk.add("block", any_height(rng), *walk.listed())
        walk.add("sum")
    return walk.text()


def damage(walk):
    """One change behind the estimator's back, of memory lent as DAMAGED says; some leave it sound."""
    rng = walk.rng
    used = [max(0, len(walk.pending) + rng.choice([-1, 0, 0, 1])), max(0, len(walk.recent) + rng.choice([-1, 0, 0, 1]))]
    record, height = rng.randrange(max(1, used[0])), rng.randrange(max(1, used[1]))
    last = rng.choice(["-", walk.now(), walk.now() + 1, any_height(rng)])
    number = rng.choice([0, 1, 2, 3, 5, 9, 10, 11, TOP])
    changes = [
        ("byte", "pending", PENDING * record + rng.randrange(32), rng.randbytes(1).hex()),
        ("byte", "pending", PENDING * record + 32, u32(rng.choice([0, 141, 142, 255, 2**31])).hex()),
        ("byte", "pending", PENDING * record + 36, u32(any_height(rng)).hex()),
        ("byte", "pending", PENDING * record + 40, u32(rng.choice([0, 24, 25, 26, 2**31])).hex()),
        ("byte", "pending", rng.randrange(440), rng.randbytes(1).hex()),
        ("byte", "pending", 440 + rng.randrange(20), rng.randbytes(1).hex()),
        ("byte", "confirmed", RECENT * height + rng.randrange(32), rng.randbytes(1).hex()),
        ("byte", "confirmed", RECENT * height + 32, u32(any_height(rng)).hex()),
        ("byte", "confirmed", rng.randrange(360), rng.randbytes(1).hex()),
        ("byte", "confirmed", 360 + rng.randrange(20), rng.randbytes(1).hex()),
        ("count", rng.choice(["confirmed", "resolved"]), rng.choice([0, 3_549, rng.randrange(COUNTS)]), rng.choice(UNSOUND)),
        ("count", rng.choice(["confirmed", "resolved"]), rng.randrange(COUNTS), f"{any_pattern(rng):016x}"),
        ("count", rng.choice(["confirmed", "resolved"]), rng.randrange(3_550, 3_560), rng.choice(UNSOUND)),
        ("state", last, *used),
        ("state", last, number, used[1]),
        ("state", last, used[0], number),
    ]
    walk.add(*rng.choice(changes))


def damaged_memory(rng, board):
    """Each kind of damage, and every call upon it; a start or a reading mends it."""
    walk = Walk(rng, board, pool=5)
    walk.lend(*DAMAGED)
    for _ in range(8):
        walk.steps(rng.randint(0, 8))
        walk.add("write", 60_000)
        for _ in range(rng.choice([1, 1, 1, 2, 3])):
            damage(walk)
        calls = [walk.enter, walk.leave, walk.block, lambda: walk.add("estimate", rng.randint(0, board.life + 1)), lambda: walk.add("write", 60_000)]
        for call in rng.sample(calls, 4):
            call()
            walk.add("sum")
        if rng.random() < 0.6:
            walk.add(rng.choice(["again", "start", "read -"]))
            walk.add("sum")
    return walk.text()


def rates(rng, board):
    """Rates and their buckets, in lookups and in entries."""
    walk = Walk(rng, board)
    walk.lend(PENDING * 60, 0)
    for _ in range(100):
        rate = any_rate(rng)
        walk.add("bucket", rate)
        if rng.random() < 0.4:
            walk.add("enter", rng.randbytes(4).hex(), rate, any_height(rng))
            walk.add("sum")
    return walk.text()


def about_the_floor(rng, board):
    """Entries at and about the floor (request L9): of ids that are pending, into tables that are full, into damaged memory."""
    walk = Walk(rng, board, pool=6)
    walk.rates = [0, 1, 998, 999, 999, 1_000, 1_000, 1_001, 1_049, 1_050, 2**63]
    walk.lend(PENDING * rng.randint(0, 6), RECENT * 20)
    for _ in range(8):
        walk.steps(rng.randint(1, 9))
        if rng.random() < 0.2:
            walk.add("state", walk.now(), rng.choice([0, 1, len(walk.pending), 7]), 0)
        for _ in range(3):
            walk.enter_as(rng.choice(walk.pool), rng.choice(walk.rates), walk.now())
            walk.add("sum")
        walk.add("bucket", rng.choice(walk.rates))
    return walk.text()


def scribbled(rng, board):
    """A sound script with one line changed at a letter, so that it may not fit."""
    walk = Walk(rng, board, pool=5)
    walk.lend(*DAMAGED)
    walk.steps(20)
    for _ in range(4):
        damage(walk)
    walk.add("blockraw", walk.now(), rng.choice(["-", "00" * 32, "00"]))
    walk.add("read", rng.choice(["-", "4252534546454553", "425253454645455302000000"]))
    walk.steps(5)
    text = bytearray(walk.text())
    at = rng.randrange(len(text))
    change = rng.choice([b" ", b"", b"0", b"a", b"A", b"-", b"\t", b"\r", b"\n", b"#", b"g", b"9" * 12, rng.randbytes(1)])
    text[at : at + rng.choice([0, 1])] = change
    return bytes(text)


def large(rng, board):
    """Tables of thousands of records."""
    walk = Walk(rng, board)
    crowds, most, least = LARGE[board]
    pending, recent = rng.choice(crowds)
    walk.lend(*rng.choice([most, (PENDING * pending, RECENT * recent), least]))
    restore(walk, {**any_file(rng, board, 0, 0), "pending": numbered(rng, pending, True), "recent": numbered(rng, recent, False)})
    walk.steps(8)
    walk.add("blockraw", walk.now() + 1, "".join(list(walk.pending)[:3_000]) or "-")
    walk.add("sum")
    walk.steps(4)
    walk.add("write", 1_400_000)
    walk.add("again")
    walk.add("sum")
    return walk.text()


def numbered(rng, count, pending):
    """Records with ids that differ, in no order, and with fields near 100."""
    names = [u32(at) + bytes(28) for at in rng.sample(range(2**32), count)]
    if pending:
        return [name + u32(rng.randrange(BUCKETS)) + u32(rng.randint(60, 140)) + u32(rng.randint(0, 25)) for name in names]
    return [name + u32(rng.randint(60, 140)) for name in names]


# How often each flavour comes, in a thousand.
SHARES = {
    rising: 130,
    wandering: 130,
    busy: 90,
    expiry: 90,
    restored: 120,
    thresholds: 40,
    extremes: 60,
    damaged_files: 60,
    round_trips: 50,
    exact_lengths: 30,
    odd_lengths: 50,
    crowded: 60,
    about_room: 100,
    wide_gaps: 4,
    damaged_memory: 60,
    rates: 14,
    about_the_floor: 20,
    scribbled: 10,
    large: 2,
}


def any_maker(rng):
    return rng.choices(list(SHARES), list(SHARES.values()))[0]


def script(seed, number):
    """The name and the bytes of one random script for the narrow board."""
    rng = random.Random(f"{seed} {number}")
    maker = any_maker(rng)
    return f"{maker.__name__} {number}", maker(rng, NARROW)
