"""All short scripts over small alphabets. Each sequence starts on memory lent anew and ends with the same probes; many share a script."""

from itertools import islice, product

# The steps: two ids, one of them also at another rate and height; heights below, at, just above and far above one another.
STEPS = (
    "lend 88 108 3550 3550",
    [
        "enter aa 5000 100",
        "enter bb 5000 100",
        "enter aa 1000 101",
        "leave aa",
        "block 101 aa bb",
        "block 101 aa aa",
        "block 100 aa",
        "block 102",
        "block 125",
        "block 126 bb aa",
    ],
    ["sum", "estimates"],
    4,
)

# Damage: each way in which memory goes wrong or stays sound, and calls between.
DAMAGE = (
    "lend 89 73 3551 3550",
    [
        "byte pending 0 01",
        "byte pending 32 8e",
        "byte pending 32 8d",
        "byte pending 40 1a",
        "byte pending 40 19",
        "byte pending 44 02",
        "byte pending 88 07",
        "byte confirmed 31 01",
        "byte confirmed 36 ff",
        "byte confirmed 68 09",
        "count confirmed 3549 8000000000000001",
        "count resolved 0 8000000000000000",
        "count confirmed 3550 nan",
        "state - 1 0",
        "state 7 2 1",
        "state 7 3 2",
        "enter 01 5000 7",
        "block 8 01 02",
    ],
    ["sum", "enter 03 1000 1", "leave 03", "estimate 3", "write 58100", "block 9 01", "sum"],
    3,
)

# Files: what was written comes back into other memory.
FILES = (
    "lend 88 72 3550 3550",
    [
        "enter aa 5000 100",
        "enter bb 1000 99",
        "block 101 aa",
        "write 57961",
        "write 60000",
        "again",
        "start",
        "lend 44 36 3560 3550",
        "lend 44 0 3550 3600",
        "lend 88 72 3549 3550",
    ],
    ["sum", "estimate 1", "again", "sum"],
    4,
)

# A confirmed table of one place, that gaps clear or do not: aa and bb again and again, bb expiring at 145.
ROOM = (
    "lend 88 36 3550 3550",
    [
        "enter aa 5000 100",
        "enter bb 5000 120",
        "block 101 aa",
        "block 101 bb aa bb",
        "block 102 aa",
        "block 126 bb",
        "block 127 bb",
        "block 128 bb aa",
        "block 145",
    ],
    ["sum", "block 146 bb aa", "sum"],
    4,
)

TOGETHER = 64


def sequences(first, alphabet, probes, longest):
    for length in range(1, longest + 1):
        for steps in product(alphabet, repeat=length):
            yield [first, *steps, *probes]


def scripts():
    """Each script's name and bytes."""
    for title, kind in (("steps", STEPS), ("damage", DAMAGE), ("files", FILES), ("room", ROOM)):
        all_sequences = sequences(*kind)
        number = 0
        while batch := list(islice(all_sequences, TOGETHER)):
            number += 1
            yield f"all {title} {number}", "".join(f"{line}\n" for lines in batch for line in lines).encode()
