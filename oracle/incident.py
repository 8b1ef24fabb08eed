"""The incident (docs/MEANING.md) as scripts: a busy week leaves a history, and two nodes restore it and go on with clear blocks.

The week is 1,008 busy blocks; in each, ten transactions at 50,000 are confirmed at once and ten at 10,000 never are. A clear block confirms fifteen at 2,000.
The node `continued` goes on from its history's last height; the chain of the node `ahead` stands 150,000 blocks below its history's last height. `Node` runs
the blocks over document 01 (rules.py) as it writes their lines, so that memory can be laid by hand and each line is known."""

from files import bits
from rules import BUCKETS, PENDING, RECENT, Block, Memory, Run, bucket_of, place

LENT = 13_200, 10_800, 3_550, 3_550
WEEK, CLEAR = 1_008, 1_500
CHAIN = 850_000
NODES = {"continued": CHAIN, "ahead": CHAIN + 150_000}  # the last height of each node's history
BUSY_RATE, FAILED_RATE, CLEAR_RATE = 50_000, 10_000, 2_000
ROOM = 100_000  # more bytes than the history has
SWITCHES = 655, 1_346  # the clear block after which each node's rate is 1,000


def name(number):
    """An id of one byte, or of two: the number, its lowest byte first. (Ids are used again when their transaction is gone.)"""
    return number.to_bytes(1 if number < 256 else 2, "little")


def confirmed_ids(count):
    return [name(number) for number in range(count)]


def failed_ids(block):
    """The ids of a busy block's transactions that nobody confirms: a transaction stays for 25 blocks."""
    return [name(15 + block % 25 * 10 + number) for number in range(10)]


def is_due(block):
    """Whether a node's rate and memory are told after so many clear blocks."""
    return block % 10 == 0 or block in (1, 346) or block in SWITCHES or block + 1 in SWITCHES


class Node:
    """A node: its memory as document 01 has it, and the lines that bring it there."""

    def __init__(self):
        self.run = Run()
        self.run.memory = Memory(*LENT)
        self.pending, self.recent = {}, {}

    def enter(self, ids, rate, height):
        for one in ids:
            self.pending[one.ljust(32, b"\0")] = [bucket_of(rate), height, 0]
            yield f"enter {one.hex()} {rate} {height} -> 0"

    def connect(self, ids, height):
        block = Block(self.run.memory, self.pending, self.recent)
        block.connect([one.ljust(32, b"\0") for one in ids], height)
        self.pending, self.recent = block.pending, block.recent
        yield f"block {height} {' '.join(one.hex() for one in ids)} -> 0"

    def week(self, last):
        """The busy week whose last block is at this height."""
        for block in range(WEEK):
            height = last - WEEK + 1 + block
            yield from self.enter(confirmed_ids(10), BUSY_RATE, height - 1)
            yield from self.enter(failed_ids(block), FAILED_RATE, height - 1)
            yield from self.connect(confirmed_ids(10), height)

    def clear(self, height):
        """One clear block."""
        yield from self.enter(confirmed_ids(15), CLEAR_RATE, height - 1)
        yield from self.connect(confirmed_ids(15), height)

    def laid(self):
        """Lays the memory by hand."""
        memory = self.run.memory
        yield f"lend {' '.join(map(str, LENT))}"
        yield f"state {memory.last} {memory.used_pending} {memory.used_recent}"
        yield f"byte pending 0 {memory.pending[: memory.used_pending * PENDING.size].hex()}"
        yield f"byte confirmed 0 {memory.recent[: memory.used_recent * RECENT.size].hex()}"
        for kind, counts in (("confirmed", memory.confirmed), ("resolved", memory.resolved)):
            yield from (f"count {kind} {at} {bits(count):016x}" for at, count in enumerate(counts) if count != 0.0)

    def told(self):
        """The rate for target 2, and the sums of the memory, which hold every count."""
        return [f"estimate 2 -> {self.run.estimate(2)}", f"sum -> {self.run.sum()}"]

    def counts(self):
        """For target 2: resolved of the week's failed, confirmed of the week's others, confirmed of the clear blocks."""
        memory = self.run.memory
        return [counts[place(bucket_of(rate), 2)] for counts, rate in ((memory.resolved, FAILED_RATE), (memory.confirmed, BUSY_RATE), (memory.confirmed, CLEAR_RATE))]

    def success(self):
        """For target 2: the ratio that the estimate forms where it has added up all that was seen at the clear blocks' rate or above."""
        buckets = reversed(range(bucket_of(CLEAR_RATE), BUCKETS))
        confirmed = resolved = 0.0
        for at in (place(bucket, 2) for bucket in buckets):
            confirmed += self.run.memory.confirmed[at]
            resolved += self.run.memory.resolved[at]
        return confirmed / resolved


def after_week(last):
    """A node after the busy week, and the week's lines."""
    node = Node()
    return node, list(node.week(last))


def weeks():
    """That the week, by its calls, leaves the memory that `script` lays by hand (its calls and those of both nodes are over 2 MiB)."""
    for title, last in NODES.items():
        node, lines = after_week(last)
        lend = f"lend {' '.join(map(str, LENT))}"
        yield f"busy week, {title}", "\n".join([lend, "start -> 0", *lines, "sum -> any", *node.laid(), "sum -> same"])


def node_lines(last):
    """A node's week laid by hand, its history written and read, and its clear blocks. Yields how many clear blocks the node has seen, the node and the lines."""
    node, _ = after_week(last)
    yield 0, node, [*node.laid(), f"sum -> {node.run.sum()}", f"write {ROOM} -> {node.run.write(ROOM)}", "again -> 0", *node.told()]
    for block in range(1, CLEAR + 1):
        lines = list(node.clear(CHAIN + block))
        yield block, node, lines + node.told() if is_due(block) else lines


def script():
    """The whole incident."""
    return "\n".join(line for last in NODES.values() for _, _, lines in node_lines(last) for line in lines)
