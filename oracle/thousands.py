"""Random scripts with thousands of records: restored from files in any order, confirmed by blocks that list thousands of ids, many of them twice and more, and written, shuffled
and read back.

Each call is run over rules.py as its line is written, so that lists can be drawn from what is pending and confirmed; what the calls answer is for the two programs to say."""

import random

from files import BUCKETS, NARROW, PENDING, RECENT, TARGETS, WIDE, file, pending_record, recent_record
from histories import any_counts
from page import MOST_BYTES
from rules import NARROW as NARROW_RULES
from rules import WIDE as WIDE_RULES
from rules import Block, File, Memory, Refused, Run
from walk import TOP

RULES = {NARROW: NARROW_RULES, WIDE: WIDE_RULES}
MOST_LENT = {NARROW: (440_100, 720_100), WIDE: (44_100, 72_100)}
# pending and confirmed records to begin with; a script has room for as many, and for the file that has them once more
SIZES = {NARROW: [(3_000, 4_000), (5_000, 1_000), (1_000, 7_000), (10_000, 200)], WIDE: [(1_000, 1_000), (1_002, 300), (300, 1_900)]}
LISTED = 300, 1_000, 3_000, 3_000, 4_096
ROOM = 1_400_000  # bytes for a file
TURN = 12  # lines of one board at most before the other's


class Full(Exception):
    """A line that the script has no room for."""


class Crowd:
    """A script in the making for one board, and the run of its lines so far."""

    def __init__(self, rng, board, room):
        self.rng, self.board, self.room = rng, board, room
        self.lines, self.run, self.listed = [], Run(), []
        words = [rng.randbytes(4) for _ in range(3)]
        self.any_id = rng.choice(
            [
                lambda: rng.randbytes(4).ljust(32, b"\0"),
                lambda: rng.randbytes(4).ljust(32, b"\0"),
                lambda: (rng.choice(words) + rng.randbytes(2)).ljust(32, b"\0"),  # a few first words
                lambda: words[0] + rng.randbytes(28),  # one first word
                lambda: rng.randrange(2**16).to_bytes(32, "big"),  # counters
                lambda: rng.randbytes(32),
            ]
        )

    def add(self, *words):
        line = " ".join(map(str, words)).encode()
        self.room -= len(line) + 1
        if self.room < 0:
            raise Full
        self.lines.append(line)

    def call(self, call, given, *words):
        """A line of the script, and the call that it is."""
        self.add(*words)
        try:
            call(*given)
        except Refused:
            pass

    def lend(self, pending, recent):
        self.add("lend", pending, recent, 3_550, 3_550)
        self.run.memory = Memory(pending, recent, 3_550, 3_550, RULES[self.board])

    def read(self, contents):
        self.call(self.run.read, [contents], "read", contents.hex())
        self.add("sum")

    def last(self):
        return self.run.memory.last

    def restore(self):
        """Reads a file of so many records: some ids in both tables, some repeated, in an order of its own."""
        rng, (pending, recent) = self.rng, self.rng.choice(SIZES[self.board])
        last, width = rng.choice([100, 200, 800_000, TOP - 40]), self.board.width
        spare = rng.choice([0, 40, 10_000])
        most = MOST_LENT[self.board]
        self.lend(min(most[0], PENDING * (pending + spare)), min(most[1], RECENT * (recent + rng.choice([pending, pending // 4]) + spare)))
        known = [self.any_id() for _ in range(pending + recent)]
        apart = rng.choice([0, pending // 2, pending])  # so many of the first ids have no confirmed record
        waiting, done = (repeated(rng, ids, number) for ids, number in ((known[:pending], pending), (known[apart:], recent)))

        def fields():
            entry = max(0, last - rng.randrange(self.board.life))
            outwaited = (last - entry) // width
            return rng.randrange(BUCKETS), entry, rng.choice([outwaited, outwaited, outwaited, rng.randint(0, TARGETS)])

        waiting = [pending_record(one.hex(), *fields()) for one in waiting]
        done = [recent_record(one.hex(), last - rng.randint(0, TARGETS)) for one in done]
        confirmed, resolved = any_counts(rng)
        self.read(file(last, confirmed, resolved, in_order(rng, waiting), in_order(rng, done), self.board))

    def block_ids(self):
        """A list of hundreds or thousands: of ids that are pending, that have a record, that the block before has listed, and of strangers; each once, or drawn from them."""
        rng, memory, many = self.rng, self.run.memory, self.rng.choice(LISTED)
        pending, recent = list(memory.pending_records()), list(memory.recent_records())
        few, others = rng.choice([1, many // 10, many // 3, many, many, many]), many // rng.choice([3, 20, 200])
        pool = some(rng, pending, few) + some(rng, recent, others) + some(rng, self.listed, others) + [self.any_id() for _ in range(others)]
        return in_order(rng, rng.choices(pool, k=many) if rng.random() < 0.6 else pool[:many])

    def height(self):
        """Often the next one or the same again; else a lower one, or a gap."""
        rng, last, life = self.rng, self.last(), self.board.life
        near = [last + 1] * 5 + [last] * 4 + [last - 1, last - rng.randrange(60), last + 2, last + rng.randint(2, life + 3)]
        return min(TOP, max(0, rng.choice(near)))

    def block(self):
        height, ids = self.height(), self.block_ids()
        if self.rng.random() < 0.3:
            self.refit(height, ids)
        words = ["block", height, *map(short, ids)] if self.rng.random() < 0.8 else ["blockraw", height, b"".join(ids).hex() or "-"]
        self.call(self.run.block, [height, b"".join(ids)], *words)
        self.listed = ids
        self.add("sum")

    def refit(self, height, ids):
        """The same estimator in tables that just hold it, the confirmed one with what the block needs, a place less or a place more."""
        memory = self.run.memory
        block = Block(memory, memory.pending_records(), memory.recent_records())
        block.skip(height)
        block.confirm(ids, height)
        recent = max(memory.used_recent, len(block.recent) + self.rng.choice([-1, 0, 1]))
        pending = memory.used_pending + self.rng.choice([0, 1, 100])
        self.call(self.run.write, [ROOM], "write", ROOM)
        self.lend(min(MOST_LENT[self.board][0], PENDING * pending), min(MOST_LENT[self.board][1], RECENT * recent))
        self.call(self.run.again, [], "again")

    def few_calls(self):
        """Ids that have a record enter again, others enter, some leave."""
        rng, memory = self.rng, self.run.memory
        for one in some(rng, list(memory.recent_records()), 12) + [self.any_id() for _ in range(6)]:
            rate, height = rng.choice([1_000, 5_000, 20_000, 2**40]), self.last() + rng.choice([0, 0, 1])
            self.call(self.run.enter, [one, rate, min(TOP, height)], "enter", short(one), rate, min(TOP, height))
        for one in some(rng, list(memory.pending_records()), 8):
            self.call(self.run.leave, [one], "leave", short(one))

    def written(self):
        """The memory as a file, which is read again as it is, and then with its records in another order."""
        self.call(self.run.write, [ROOM], "write", ROOM)
        self.call(self.run.again, [], "again")
        self.add("sum")
        last, confirmed, resolved, pending, recent = File(self.run.written, RULES[self.board]).whole()
        head = len(self.run.written) - PENDING * len(pending) - RECENT * len(recent) - 8
        waiting = [pending_record(one.hex(), *fields) for one, *fields in pending]
        done = [recent_record(one.hex(), at) for one, at in recent]
        parts = [len(part).to_bytes(4, "little") + b"".join(in_order(self.rng, part)) for part in (waiting, done)]
        self.read(self.run.written[:head] + b"".join(parts))

    def make(self):
        """All lines; where the script is full it ends."""
        try:
            self.restore()
            for _ in range(self.rng.randint(2, 5)):
                self.block()
                self.few_calls()
            self.add("estimates")
            self.written()
            self.block()
            self.add("estimates")
        except Full:
            pass
        return self.lines


def some(rng, ids, most):
    return rng.sample(ids, min(len(ids), most))


def repeated(rng, known, number):
    """So many of the ids, each once, or some of them more than once."""
    return rng.choices(known, k=number) if rng.random() < 0.5 else rng.sample(known, number)


def in_order(rng, ones):
    """In no order, rising, falling, or rising but for a few."""
    ones = list(ones)
    way = rng.choice(["none", "none", "none", "rising", "falling", "almost"])
    if way == "none":
        rng.shuffle(ones)
        return ones
    ones.sort(reverse=way == "falling")
    if way == "almost" and ones:
        for _ in range(5):
            one, other = rng.randrange(len(ones)), rng.randrange(len(ones))
            ones[one], ones[other] = ones[other], ones[one]
    return ones


def short(one):
    """An id as a script writes it, without the zeros at its right."""
    return one.rstrip(b"\0").hex() or "00"


def by_turns(rng, lines):
    """Both boards' lines, some of one and then some of the other."""
    left = {board: list(reversed(lines[board])) for board in lines}
    while any(left.values()):
        board = rng.choice([board for board in left if left[board]])
        yield f"board {board.word}".encode()
        for _ in range(min(rng.randint(1, TURN), len(left[board]))):
            yield left[board].pop()


def script(seed, number):
    """The name and the bytes of one script: two of four are for the narrow board, one for the wide one, and one for both."""
    rng = random.Random(f"crowds {seed} {number}")
    boards = [[NARROW], [WIDE], [NARROW], [WIDE, NARROW]][number % 4]
    room = MOST_BYTES // len(boards) - 20_000  # the rest is for the lines that turn from board to board
    lines = {board: Crowd(rng, board, room).make() for board in boards}
    turned = lines[NARROW] if boards == [NARROW] else by_turns(rng, lines)
    return f"crowds {number}", b"".join(line + b"\n" for line in turned)
