"""The boards, and history files and memory contents as bytes, for the makers of scripts."""

import struct
import zlib
from typing import NamedTuple

TARGETS = 25
PENDING, RECENT = 44, 36  # bytes of a record
ROW = 408  # bytes of a bucket


def ladder():
    rates, rate = [], 1_000
    while rate <= 1_000_000:
        rates.append(rate)
        rate = rate * 105 // 100
    return rates


RATES = ladder()
BUCKETS = len(RATES)
COUNTS = BUCKETS * TARGETS


def u32(value):
    return struct.pack("<I", value)


class Board(NamedTuple):
    """A board by its word, and what its scripts and its files turn about."""

    word: str
    width: int  # blocks to a column
    decay: float
    version: bytes  # what a file has after the magic: the version number, and the width if there is one
    fresh_length: int
    inner: tuple = ()  # ages and targets that tell, beside those at the ends

    @property
    def life(self):
        return TARGETS * self.width

    @property
    def ages(self):
        """Ages of records that tell."""
        return 1, 2, 3, *range(self.life - 2, self.life + 3), *self.inner

    @property
    def targets(self):
        return 0, 1, 2, 3, self.life - 1, self.life, self.life + 1, *self.inner


NARROW = Board("narrow", 1, 0.998, u32(1), 57_961)
WIDE = Board("wide", 6, 0.9995, u32(3) + u32(6), 57_965, (6, 7, 12, 13, 25, 26, 27, 144, 145))


def name(text):
    """The 32 bytes of an id written as in a script."""
    return bytes.fromhex(text).ljust(32, b"\0")


def pending_record(text, bucket, entry, through):
    return name(text) + u32(bucket) + u32(entry) + u32(through)


def recent_record(text, height):
    return name(text) + u32(height)


def bits(value):
    """The binary64 pattern of a number, as a number."""
    return struct.unpack("<Q", struct.pack("<d", value))[0]


def place(bucket, target):
    return bucket * TARGETS + target - 1


def head(last=None, board=NARROW):
    flag = b"\0" if last is None else b"\1" + u32(last)
    return b"BRSEFEES" + board.version + flag


def rows(confirmed=(), resolved=()):
    """The 142 rows: counts are patterns by place, zero where there is none."""
    kinds = [dict(confirmed), dict(resolved)]
    out = []
    for bucket, rate in enumerate(RATES):
        out.append(struct.pack("<Q", rate))
        for counts in kinds:
            out.append(struct.pack("<25Q", *(counts.get(bucket * TARGETS + column, 0) for column in range(TARGETS))))
    return b"".join(out)


def records(list_of_records):
    return u32(len(list_of_records)) + b"".join(list_of_records)


def file(last=None, confirmed=(), resolved=(), pending=(), recent=(), board=NARROW):
    return head(last, board) + u32(BUCKETS) + rows(confirmed, resolved) + records(pending) + records(recent)


def adler(contents):
    return f"{zlib.adler32(contents):08x}"
