"""Document 01's cases 'Two sides of each edge', each by the calls alone and in the document's order: every target, every count, every file that it names.

They are written as in edges.py. No line prints a count: memory laid by hand, in which the document's counts stand, must give the same sum."""

import crowd
import incident
from edges import FRESH, FRESH_FILE, LEND, all_targets, joined, laid, rate_cases, script
from files import NARROW, adler, file, pending_record, recent_record, u32

NONE = " ".join("-" * 25)
THOUSAND = " ".join(["1000"] * 25)
QUAD = " ".join(["1050"] + ["1000"] * 24)


def targets(first, middle, last):
    """The estimates for targets 0, 1 to 25, and 26."""
    return f"estimate 0 -> {first}\nestimates -> {middle}\nestimate 26 -> {last}"


def estimates():
    """A fresh estimator; one id, two ids, and Quad: two ids at 5,000 that block 101 lists, and two at 1,000 that it does not."""
    yield "fresh, targets 0 to 26", f"{FRESH}\n{targets('none', NONE, 'none')}"

    counts = all_targets(33, 0.998)
    yield "one id, targets 0 to 26", f"""
        {FRESH}
        enter 01 5000 100 -> 0
        block 101 01 -> 0
        {targets('none', NONE, 'none')}
        sum -> any
        {laid(101, recent=[recent_record("01", 101)], confirmed=counts, resolved=counts)}"""

    two, counts = [recent_record("01", 101), recent_record("02", 101)], all_targets(33, 1.996)
    yield "two ids, targets 0 to 26", f"""
        {FRESH}
        enter 01 5000 100 -> 0
        enter 02 5000 100 -> 0
        block 101 01 02 -> 0
        {targets('none', THOUSAND, 'rate 1000')}
        sum -> any
        {laid(101, recent=two, confirmed=counts, resolved=counts)}"""

    yield "Quad, targets 0 to 26", f"""
        {FRESH}
        enter 01 5000 100 -> 0
        enter 02 5000 100 -> 0
        enter 03 1000 100 -> 0
        enter 04 1000 100 -> 0
        block 101 01 02 -> 0
        {targets('none', QUAD, 'rate 1000')}"""


def waits():
    """One id at 5,000 that waits; a block below the last height; gaps."""
    yield "blocks 101 to 124, and then 125", f"""
        {FRESH}
        enter 01 5000 100 -> 0
        {joined(f"block {height} -> 0" for height in range(101, 125))}
        sum -> any
        byte pending 40 18
        sum -> same
        block 125 -> 0
        sum -> any"""

    yield "first block 500", f"""
        {FRESH}
        enter 01 5000 100 -> 0
        block 500 -> 0
        sum -> any
        {laid(500, resolved=all_targets(33, 0.998))}"""

    resolved = [(33, target, 0.998) for target in range(1, 6)] + all_targets(33, 1.0, first=6)
    yield "block 105, and then 103", f"""
        {FRESH}
        enter 01 5000 100 -> 0
        block 105 -> 0
        sum -> any
        byte pending 40 05
        sum -> same
        block 103 01 -> 0
        sum -> any
        {laid(105, recent=[recent_record("01", 103)], confirmed=all_targets(33, 1.0, first=3), resolved=resolved)}"""

    yield "gaps of 4,097 and 4,096", f"""
        {FRESH}
        enter 01 5000 100 -> 0
        block 100 -> 0
        block 4197 -> 6
        block 4196 -> 0"""


def files():
    """Files that are read or refused."""
    fresh, through = file(), file(pending=[pending_record("01", 33, 100, 25)])
    assert len(fresh) == NARROW.fresh_length and fresh.startswith(bytes.fromhex(FRESH_FILE))
    read = [
        (fresh[:7], "10"),
        (bytes(8), "8"),
        (fresh[:11], "10"),
        (fresh + b"\0", "10"),
        (fresh[:12] + b"\2" + fresh[13:], "10"),
        (fresh[:8] + u32(2), "9 2"),
    ]
    yield "a fresh file, cut, with a byte more, and damaged", f"""
        {FRESH}
        write {len(fresh)} -> 0 {len(fresh)} {adler(fresh)}
        {joined(f"read {contents.hex()} -> {answer}" for contents, answer in read)}"""

    yield "resolved-through 25 is read, and gone with the next block", f"""
        {FRESH}
        enter 01 5000 100 -> 0
        byte pending 40 19
        write {len(through)} -> 0 {len(through)} {adler(through)}
        {LEND}
        again -> 0
        sum -> any
        block 101 -> 0
        sum -> any"""


def cases():
    """Each case's title and its text with arrows."""
    yield next(rate_cases(NARROW))
    yield from estimates()
    yield from waits()
    yield from files()


def in_gate():
    """What the gate runs too: the document's cases, and both halves of the incident, which docs/incident/picture finds at the end."""
    yield from cases()
    yield "incident", incident.script()
    yield "incident, crowded", crowd.script()


def for_gate():
    """Titles and bytes of what the gate runs."""
    for title, text in in_gate():
        yield title, script(text)[0]


def scripts():
    """Each title, the bytes, and the answers: the same, and the weeks that the incident begins with."""
    for title, text in [*in_gate(), *incident.weeks()]:
        yield title, *script(text)
