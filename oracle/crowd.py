"""The other half of the incident (docs/MEANING.md) as a script: a crowded network, seen by a node whose history is ahead of its chain and by one whose history is not.

Twenty transactions at 5,000 enter before each block, and the block confirms five of them. Both nodes restore a history without a count or a record. `Crowd` runs the calls
over document 01 (rules.py) as it writes their lines, so that each answer is known."""

from incident import CHAIN, NODES, ROOM
from rules import PENDING, RECENT, Memory, Refused, Run, bucket_of, place

PLACES = 500, 200  # pending and confirmed records: a healthy node holds at most 380 and 130
RATE, ENTER, CONFIRM = 5_000, 20, 5
BLOCKS = 60


class Crowd:
    """A node in the crowd: its memory, and the lines that bring it there."""

    def __init__(self, last):
        self.run = Run()
        self.lent = PLACES[0] * PENDING.size, PLACES[1] * RECENT.size, 3_550, 3_550
        self.run.memory = Memory(*self.lent)
        self.run.memory.last = last

    def asked(self, call, *given):
        """What the call answers."""
        try:
            return call(*given)
        except Refused as refused:
            return " ".join(map(str, refused.args))

    def restored(self):
        """A history without a count or a record is written and read."""
        yield f"lend {' '.join(map(str, self.lent))}"
        yield f"state {self.run.memory.last} 0 0"
        yield f"write {ROOM} -> {self.run.write(ROOM)}"
        yield f"again -> {self.run.again()}"

    def block(self, number):
        """The entries before a block, and the block. The five that it confirms enter first."""
        ids = [(number * ENTER + one).to_bytes(2, "big") for one in range(ENTER)]
        height = CHAIN + number
        for one in ids:
            yield f"enter {one.hex()} {RATE} {height - 1} -> {self.asked(self.run.enter, one.ljust(32, bytes(1)), RATE, height - 1)}"
        listed = b"".join(one.ljust(32, b"\0") for one in ids[:CONFIRM])
        yield f"block {height} {' '.join(one.hex() for one in ids[:CONFIRM])} -> {self.asked(self.run.block, height, listed)}"
        yield f"estimate 2 -> {self.run.estimate(2)}"
        yield f"sum -> {self.run.sum()}"

    def success(self):
        """Confirmed and resolved for target 2, of the bucket that all of them are in."""
        memory, at = self.run.memory, place(bucket_of(RATE), 2)
        return memory.confirmed[at], memory.resolved[at]


def node_lines(last):
    """Yields how many blocks the node has seen, the node, and the lines."""
    node = Crowd(last)
    yield 0, node, list(node.restored())
    for number in range(1, BLOCKS + 1):
        yield number, node, list(node.block(number))


def script():
    """Both nodes, one after the other."""
    return "\n".join(line for last in NODES.values() for _, _, lines in node_lines(last) for line in lines)
