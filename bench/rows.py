"""The rows of docs/PERFORMANCE.md, table by table. What a row's name says: bench/run --help."""

DOUBLED = {"pending": (1_250, 2_500, 5_000, 10_000), "confirmed": (9_375, 18_750, 37_500, 75_000, 150_000), "listed": (375, 750, 1_500, 3_000, 6_000, 12_000)}
FILES = [f"{pending}-{7.5 * pending:.0f}" for pending in DOUBLED["pending"]]
BLOCKS = [f"block-{listed}-{pending}-{confirmed}" for listed in (0, 300, 3_000) for pending in (1_000, 10_000) for confirmed in (0, 7_500, 75_000)]

COSTS = [
    "enter-1000-7500", "leave-1000-7500", "enter-10000-7500", "leave-10000-7500",
    "enter-1000-7500-lent-10000", "leave-1000-7500-lent-10000",
    *BLOCKS,
    "block-3000-10000-75000-of-1000", "block-3000-10000-75000-of-300",
    "block-0-1000-1000-lent-200000", "block-300-1000-1000-lent-200000",
    "block-0-1000-7500-sparse", "gap-4096-1000-7500", "gap-4096-1000-7500-sparse",
    "estimate-1-1000-7500", "estimate-25-1000-7500",
    *(f"{call}-{size}" for size in ("1000-7500", "10000-75000") for call in ("write", "read-rising", "read-reversed", "read-shuffled")),
    "read-repeats-10000-75000", "read-counters-10000-75000",
]  # fmt: skip

# What is asked of the landing on speed: the row, what it is, and its goal, as a ratio to the Rust where it is a number.
GOALS = [
    ("block-3000-10000-75000", "a block of 3,000, 10,000 pending, 75,000 confirmed", "2.6; 1.2 beside judging"),
    ("block-0-10000-75000", "an empty block there", "1.3"),
    ("gap-4096-1000-7500", "a gap of 4,096 heights", "1.0"),
    ("estimate-1-1000-7500", "an estimate, one target", "14"),
    ("enter-10000-7500", "an enter, 10,000 pending", "judging below; the rest 5 times the Rust, or one move"),
    ("leave-10000-7500", "a leave, 10,000 pending", "the same"),
    ("enter-1000-7500-lent-10000", "an enter, 1,000 pending in 10,000 places", "the same"),
    ("leave-1000-7500-lent-10000", "a leave there", "the same"),
    ("block-0-1000-1000-lent-200000", "an empty block, 1,000 confirmed in 200,000 places", "the same"),
    ("read-reversed-10000-75000", "a file read, ids falling", "2.7"),
    ("read-shuffled-10000-75000", "a file read, ids in no order", "2.7"),
    ("write-10000-75000", "a file written", "not worse"),
    ("read-rising-10000-75000", "a file read, ids rising", "not worse"),
]

# One size doubles from row to row, and all else stays.
GROWTH = {
    "An enter, with the pending records": [f"enter-{pending}-7500" for pending in DOUBLED["pending"]],
    "A leave, with the pending records": [f"leave-{pending}-7500" for pending in DOUBLED["pending"]],
    "An enter, 1,000 pending, with the places lent": [f"enter-1000-7500-lent-{places}" for places in DOUBLED["pending"]],
    "An empty block, with the pending records": [f"block-0-{pending}-75000" for pending in DOUBLED["pending"]],
    "An empty block, with the confirmed records": [f"block-0-10000-{confirmed}" for confirmed in DOUBLED["confirmed"]],
    "An empty block, 1,000 confirmed, with the places lent": [f"block-0-1000-1000-lent-{places}" for places in (25_000, 50_000, 100_000, 200_000)],
    "A block, with the listed ids": [f"block-{listed}-10000-75000" for listed in DOUBLED["listed"]],
    "A block of 1,000, with the pending records": [f"block-1000-{pending}-75000" for pending in DOUBLED["pending"]],
    "A block of 3,000, with the confirmed records": [f"block-3000-10000-{confirmed}" for confirmed in DOUBLED["confirmed"]],
    "A block of 3,000 listings, with the ids that they are drawn from": [f"block-3000-10000-75000-of-{ids}" for ids in DOUBLED["listed"][:4]],
    "A gap, with the heights": [f"gap-{heights}-1000-7500" for heights in (512, 1_024, 2_048, 4_096)],
    "A file written": [f"write-{size}" for size in FILES],
    "A file read, ids rising": [f"read-rising-{size}" for size in FILES],
    "A file read, ids falling": [f"read-reversed-{size}" for size in FILES],
    "A file read, ids in no order": [f"read-shuffled-{size}" for size in FILES],
    "A file read, ids in no order, each twice": [f"read-repeats-{size}" for size in FILES],
    "A file read, ids that are counters, in no order": [f"read-counters-{size}" for size in FILES],
}

BOARDS = [
    "enter-10000-7500", "leave-10000-7500",
    "block-0-1000-7500", "block-0-10000-7500", "block-0-10000-75000", "block-300-1000-7500", "block-3000-10000-75000", "block-3000-10000-75000-of-300",
    "gap-4096-1000-7500", "estimate-1-1000-7500",
    "write-10000-75000", "read-rising-10000-75000", "read-shuffled-10000-75000",
]  # fmt: skip

# What is judged, two rows whose judging differs by that alone (the second may be none), by how many of it, and the goal.
JUDGED = [
    ("a count", "estimate-1-1000-7500", None, 7_100, ""),
    ("a pending record", "enter-10000-7500", "enter-5000-7500", 5_000, "13"),
    ("a confirmed record", "block-0-10000-75000", "block-0-10000-37500", 37_500, "13"),
    ("a byte of an unused pending place", "enter-1000-7500-lent-10000", "enter-1000-7500-lent-5000", 44 * 5_000, "0.3"),
    ("a byte of an unused confirmed place", "block-0-1000-1000-lent-200000", "block-0-1000-1000-lent-100000", 36 * 100_000, "0.3"),
]


def every():
    """Each row that stands in some table, once."""
    return list(dict.fromkeys([*COSTS, *(row for row, _, _ in GOALS), *(row for rows in GROWTH.values() for row in rows), *BOARDS]))
