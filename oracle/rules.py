"""Document 01 in Python, and document 02's slower horizon (L10), floor (L9) and full confirmed table (L5), written from their words and not from the Rust. Python's
floats are binary64, so counts agree with the Rust's bit for bit or not at all. The Rust is the narrow board alone."""

import math
import struct
import zlib
from typing import NamedTuple

COLUMNS, BUCKETS = 25, 142
COUNTS = BUCKETS * COLUMNS
PRUNED_AFTER = 25  # blocks, on either board
MOST_PENDING, MOST_RECENT = 10_000, 1_000_000
PENDING, RECENT = struct.Struct("<32sIII"), struct.Struct("<32sI")
MAGIC = b"BRSEFEES"

# Answer numbers.
DONE, DAMAGED, ALREADY_PENDING, PENDING_FULL, ABSENT, BAD_LIST, GAP_TOO_WIDE, CONFIRMED_FULL = range(8)
BAD_MAGIC, UNKNOWN_VERSION, CORRUPT, NO_ROOM, SHORT_OUTPUT = range(8, 13)
BELOW_FLOOR = 16


class Board(NamedTuple):
    """What the two boards differ in. Column c is for waits up to width times c."""

    width: int  # blocks to a column
    decay: float  # by which each height multiplies every count
    version: int  # of the history file
    after_version: bytes  # directly after the version number

    def outwaited(self, wait):
        """The columns whose time is up for a record that has waited so long."""
        return min(COLUMNS, max(0, wait) // self.width)

    def covering(self, target):
        """The column that covers a target, which is above 0."""
        return math.ceil(min(target, COLUMNS * self.width) / self.width)


NARROW = Board(1, 0.998, 1, b"")
WIDE = Board(6, 0.9995, 3, bytes([6, 0, 0, 0]))


def ladder():
    rates = [1_000]
    while rates[-1] * 105 // 100 <= 1_000_000:
        rates.append(rates[-1] * 105 // 100)
    return rates


RATES = ladder()


def bucket_of(rate):
    """The last bucket whose rate is not above this one; below the floor there is none."""
    return max((bucket for bucket, lowest in enumerate(RATES) if lowest <= rate), default=None)


class Damaged(Exception):
    """Memory that a call may not work on."""


class Refused(Exception):
    """Carries the words of a refusal."""


class Memory:
    """What the caller lends for a board, and the state beside it."""

    def __init__(self, pending, recent, confirmed, resolved, board=NARROW):
        self.board = board
        self.pending, self.recent = bytearray(pending), bytearray(recent)
        self.confirmed, self.resolved = [0.0] * confirmed, [0.0] * resolved
        self.last, self.used_pending, self.used_recent = None, 0, 0

    def pending_capacity(self):
        return min(len(self.pending) // PENDING.size, MOST_PENDING)

    def recent_capacity(self):
        return min(len(self.recent) // RECENT.size, MOST_RECENT)

    def judge_lengths(self):
        if min(len(self.confirmed), len(self.resolved)) < COUNTS:
            raise Damaged

    def judge_counts(self):
        self.judge_lengths()
        if not (sound(self.confirmed[:COUNTS]) and sound(self.resolved[:COUNTS])):
            raise Damaged

    def pending_records(self):
        """The pending records by id: bucket, entry height, resolved-through. Judges the table."""
        records = judged(self.pending, PENDING, self.used_pending, self.pending_capacity())
        if any(bucket >= BUCKETS or through > COLUMNS for _, bucket, _, through in records):
            raise Damaged
        return {name: fields for name, *fields in records}

    def recent_records(self):
        """The heights of the confirmed records by id. Judges the table."""
        return dict(judged(self.recent, RECENT, self.used_recent, self.recent_capacity()))

    def lay_pending(self, records):
        lay(self.pending, PENDING, self.pending_capacity(), [(name, *fields) for name, fields in records.items()])
        self.used_pending = len(records)

    def lay_recent(self, records):
        lay(self.recent, RECENT, self.recent_capacity(), list(records.items()))
        self.used_recent = len(records)

    def lay_counts(self, confirmed, resolved):
        self.confirmed[:COUNTS], self.resolved[:COUNTS] = confirmed, resolved


def sound(counts):
    """Whether all are finite and none is below 0."""
    return all(map(math.isfinite, counts)) and min(counts) >= 0.0


def judged(table, record, used, capacity):
    """The used records of a table that stands as it should."""
    end = used * record.size
    if used > capacity or any(table[end : capacity * record.size]):
        raise Damaged
    records = list(record.iter_unpack(table[:end]))
    if any(after[0] <= before[0] for before, after in zip(records, records[1:])):
        raise Damaged
    return records


def lay(table, record, capacity, records):
    """Puts records first, ids rising, and zeros up to the capacity."""
    whole = b"".join(record.pack(*fields) for fields in sorted(records))
    table[: capacity * record.size] = whole.ljust(capacity * record.size, b"\0")


class Block:
    """One block: the steps of document 01 over the estimator taken out of the memory, which is as it was until the last step lays the estimator back."""

    def __init__(self, memory, pending, recent):
        self.memory, self.pending, self.recent = memory, pending, recent
        self.confirmed, self.resolved = memory.confirmed[:COUNTS], memory.resolved[:COUNTS]
        self.board, self.last = memory.board, memory.last

    def connect(self, ids, height):
        self.skip(height)
        self.confirm(ids, height)
        self.finish(height)

    def advances(self, height):
        return self.last is None or height > self.last

    def skip(self, height):
        """Step 1: if the block advances and there is a last height, the heights strictly between."""
        if self.last is not None and self.advances(height):
            for between in range(self.last + 1, height):
                self.advance(between)

    def confirm(self, ids, height):
        """Step 2: the listed ids."""
        for name in ids:
            if self.recent.get(name) == height:
                self.pending.pop(name, None)
            elif name in self.pending:
                self.count(*self.pending.pop(name), height)
                self.recent[name] = height

    def finish(self, height):
        """Step 3: the block's own height, if it advances."""
        if self.advances(height):
            self.advance(height)
        self.memory.last = self.last
        self.memory.lay_counts(self.confirmed, self.resolved)
        self.memory.lay_pending(self.pending)
        self.memory.lay_recent(self.recent)

    def count(self, bucket, entry, through, height):
        wait = max(1, height - entry)
        for column in range(1, COLUMNS + 1):
            if wait <= self.board.width * column:
                self.confirmed[place(bucket, column)] += 1.0
            if through < column:
                self.resolved[place(bucket, column)] += 1.0

    def advance(self, height):
        for name, (bucket, entry, through) in list(self.pending.items()):
            reached = max(through, self.board.outwaited(height - entry))
            for column in range(through + 1, reached + 1):
                self.resolved[place(bucket, column)] += 1.0
            self.pending[name] = [bucket, entry, reached]
            if reached == COLUMNS:
                del self.pending[name]
        self.last = height
        decay = self.board.decay
        self.confirmed, self.resolved = ([count * decay for count in counts] for counts in (self.confirmed, self.resolved))
        self.recent = {name: at for name, at in self.recent.items() if height - at <= PRUNED_AFTER}


def place(bucket, column):
    return bucket * COLUMNS + column - 1


class File:
    """A reader of the bytes of a board's history file."""

    def __init__(self, contents, board):
        self.left, self.board = contents, board

    def take(self, count):
        if len(self.left) < count:
            raise Refused(CORRUPT)
        head, self.left = self.left[:count], self.left[count:]
        return head

    def number(self, size=4):
        return int.from_bytes(self.take(size), "little")

    def row(self):
        counts = struct.unpack("<25d", self.take(COLUMNS * 8))
        if not sound(counts):
            raise Refused(CORRUPT)
        return counts

    def records(self, record, most):
        count = self.number()
        if count > most:
            raise Refused(CORRUPT)
        return list(record.iter_unpack(self.take(count * record.size)))

    def whole(self):
        """Last height, both kinds of counts, both lists of records as they stand."""
        if self.take(8) != MAGIC:
            raise Refused(BAD_MAGIC)
        version = self.number()
        if version != self.board.version:
            raise Refused(UNKNOWN_VERSION, version)
        if self.take(len(self.board.after_version)) != self.board.after_version:
            raise Refused(CORRUPT)
        flag = self.number(1)
        if flag > 1:
            raise Refused(CORRUPT)
        last = self.number() if flag == 1 else None
        if self.number() != BUCKETS:
            raise Refused(CORRUPT)
        confirmed, resolved = [], []
        for rate in RATES:
            if self.number(8) != rate:
                raise Refused(CORRUPT)
            confirmed.extend(self.row())
            resolved.extend(self.row())
        pending = self.records(PENDING, MOST_PENDING)
        if any(bucket >= BUCKETS or through > COLUMNS for _, bucket, _, through in pending):
            raise Refused(CORRUPT)
        recent = self.records(RECENT, MOST_RECENT)
        if self.left:
            raise Refused(CORRUPT)
        return last, confirmed, resolved, pending, recent


class Run:
    """The calls, over one memory at a time. Each answers the line that it prints."""

    def __init__(self):
        self.memory, self.written = None, b""

    def start(self):
        self.memory.judge_lengths()
        self.memory.last = None
        self.memory.lay_counts([0.0] * COUNTS, [0.0] * COUNTS)
        self.memory.lay_pending({})
        self.memory.lay_recent({})
        return DONE

    def enter(self, name, rate, height):
        pending = self.memory.pending_records()
        bucket = bucket_of(rate)
        if bucket is None:
            raise Refused(BELOW_FLOOR)
        if name in pending:
            raise Refused(ALREADY_PENDING)
        if len(pending) == self.memory.pending_capacity():
            raise Refused(PENDING_FULL)
        pending[name] = [bucket, height, 0]
        self.memory.lay_pending(pending)
        return DONE

    def leave(self, name):
        pending = self.memory.pending_records()
        if name not in pending:
            raise Refused(ABSENT)
        del pending[name]
        self.memory.lay_pending(pending)
        return DONE

    def block(self, height, ids):
        self.memory.judge_counts()
        pending, recent = self.memory.pending_records(), self.memory.recent_records()
        if len(ids) % 32 != 0:
            raise Refused(BAD_LIST)
        if self.memory.last is not None and height - self.memory.last > 4_096:
            raise Refused(GAP_TOO_WIDE)
        block = Block(self.memory, pending, recent)
        block.skip(height)
        block.confirm([ids[at : at + 32] for at in range(0, len(ids), 32)], height)
        if len(block.recent) > self.memory.recent_capacity():
            raise Refused(CONFIRMED_FULL)
        block.finish(height)
        return DONE

    def rate(self, target):
        """The estimate over sound counts, or none."""
        if target == 0:
            return None
        column = self.memory.board.covering(target)
        confirmed = resolved = 0.0
        answer = None
        for bucket in reversed(range(BUCKETS)):
            confirmed += self.memory.confirmed[place(bucket, column)]
            resolved += self.memory.resolved[place(bucket, column)]
            if resolved >= 1.0 and confirmed / resolved >= 0.85:
                answer = RATES[bucket]
        return answer

    def estimate(self, target):
        self.memory.judge_counts()
        rate = self.rate(target)
        return "none" if rate is None else f"rate {rate}"

    def estimates(self):
        self.memory.judge_counts()
        width = self.memory.board.width
        rates = [self.rate(width * column) for column in range(1, COLUMNS + 1)]
        return " ".join("-" if rate is None else str(rate) for rate in rates)

    def bucket(self, rate):
        bucket = bucket_of(rate)
        return "none" if bucket is None else bucket

    def write(self, length):
        memory = self.memory
        memory.judge_counts()
        pending, recent = memory.pending_records(), memory.recent_records()
        parts = [MAGIC, number(memory.board.version), memory.board.after_version]
        parts += [b"\0"] if memory.last is None else [b"\1", number(memory.last)]
        parts.append(number(BUCKETS))
        for bucket, rate in enumerate(RATES):
            row = slice(bucket * COLUMNS, (bucket + 1) * COLUMNS)
            parts.append(struct.pack("<Q50d", rate, *memory.confirmed[row], *memory.resolved[row]))
        parts += [number(len(pending)), memory.pending[: len(pending) * PENDING.size]]
        parts += [number(len(recent)), memory.recent[: len(recent) * RECENT.size]]
        file = b"".join(parts)
        if length < len(file):
            raise Refused(SHORT_OUTPUT, len(file))
        self.written = file
        return f"{DONE} {len(file)} {adler(file.ljust(length, bytes([0xAA])))}"

    def read(self, contents):
        self.memory.judge_lengths()
        last, confirmed, resolved, pending, recent = File(contents, self.memory.board).whole()
        if len(pending) > self.memory.pending_capacity() or len(recent) > self.memory.recent_capacity():
            raise Refused(NO_ROOM)
        self.memory.last = last
        self.memory.lay_counts(confirmed, resolved)
        self.memory.lay_pending({name: fields for name, *fields in pending})
        self.memory.lay_recent(dict(recent))
        return DONE

    def again(self):
        return self.read(self.written)

    def sum(self):
        memory = self.memory
        last = "-" if memory.last is None else memory.last
        slices = memory.pending, memory.recent, doubles(memory.confirmed), doubles(memory.resolved)
        sums = [adler(contents) for contents in slices]
        return " ".join(map(str, [last, memory.used_pending, memory.used_recent, *sums]))


def number(value):
    return value.to_bytes(4, "little")


def doubles(counts):
    """Counts as bytes, every NaN alike."""
    return struct.pack(f"<{len(counts)}d", *(math.nan if count != count else count for count in counts))


def adler(contents):
    return f"{zlib.adler32(contents):08x}"
