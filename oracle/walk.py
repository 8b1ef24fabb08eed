"""A random walk over the calls. It keeps a rough idea of what is pending and confirmed, only so as to choose telling ids and heights;
what the calls answer is for the two programs to say."""

from files import RATES, TARGETS

TOP = 2**32 - 1


def ids(rng, count):
    """Ids as a script writes them: near one another in the first or the last byte, with high bits, long and short."""
    common = rng.randbytes(31).hex()
    kinds = [
        lambda: rng.randbytes(rng.randint(1, 32)).hex(),
        lambda: rng.randbytes(32).hex(),
        lambda: common + rng.randbytes(1).hex(),
        lambda: rng.randbytes(1).hex() + common,
        lambda: rng.choice(["00", "ff" * 32, "7f", "80", "8000", "7fff", "00" * 31 + "01"]),
    ]
    return [rng.choice(kinds)() for _ in range(count)]


def any_rate(rng):
    edge = rng.choice(RATES) + rng.choice([-1, 0, 1])
    return rng.choice([edge, edge, edge, rng.randrange(1_100_000), rng.randrange(2**64), 0, 2**64 - 1])


def any_height(rng):
    return rng.choice([0, 1, 24, 25, 26, 100, 800_000, TOP - 4_096, TOP - 26, TOP - 1, TOP, rng.randrange(2**32)])


class Walk:
    """The lines of one script, and what the walk believes of the estimator."""

    def __init__(self, rng, board, pool=12):
        self.rng, self.board, self.lines = rng, board, []
        self.pool, self.rates = ids(rng, pool), [any_rate(rng) for _ in range(rng.randint(1, 4))]
        self.last, self.pending, self.recent = None, {}, {}
        self.rising, self.steadiness = False, 0.6

    def add(self, *words):
        self.lines.append(" ".join(map(str, words)))

    def chance(self, share):
        return self.rng.random() < share

    def text(self):
        return "".join(f"{line}\n" for line in self.lines).encode()

    def lend(self, pending, recent, confirmed=3_550, resolved=3_550):
        self.add("lend", pending, recent, confirmed, resolved)
        self.last, self.pending, self.recent = None, {}, {}

    def start(self):
        self.add("start")
        self.last, self.pending, self.recent = None, {}, {}

    def now(self):
        """About the last height."""
        return 100 if self.last is None else self.last

    def bounded(self, height):
        return min(TOP, max(0, height))

    def enter(self):
        rng = self.rng
        name = rng.choice(self.pool)
        far = 30 * self.board.width
        height = self.now() + rng.choice([0, 0, 0, 0, 1, -1, -rng.randrange(far), rng.randrange(far)])
        height = self.bounded(height) if self.chance(0.97) else any_height(rng)
        self.enter_as(name, rng.choice(self.rates) if self.chance(0.9) else any_rate(rng), height)

    def enter_as(self, name, rate, height):
        """An entry; below the floor it is refused."""
        self.add("enter", name, rate, height)
        if rate >= RATES[0]:
            self.pending.setdefault(name, height)

    def leave(self):
        known = self.pending and self.chance(0.7)
        name = self.rng.choice(list(self.pending) if known else self.pool)
        self.add("leave", name)
        self.pending.pop(name, None)

    def height(self):
        """The next block's height: mostly the next one; else an edge of some record, a gap, the same, a lower one."""
        rng, now = self.rng, self.now()
        if self.chance(self.steadiness):
            return self.bounded(now + 1)
        marks = list(self.pending.values()) + list(self.recent.values())
        edges = [self.bounded(mark + rng.choice(self.board.ages)) for mark in marks]
        edges = [edge for edge in edges if now - 60 <= edge <= now + 200]
        choices = edges[:8] + [now + rng.randint(2, 30)] * 3
        if not self.rising:
            choices += [now, now, now - 1, now - rng.randrange(40 * self.board.width)]
        height = self.bounded(rng.choice(choices))
        if self.rising:
            height = max(height, self.bounded(now + 1))
        return height

    def listed(self):
        """A block's ids: some of the pending ones, others, and repeats."""
        rng = self.rng
        share = rng.choice([0, 0.3, 0.7, 1])
        names = [name for name in self.pending if self.chance(share)][:60]
        if self.chance(0.3):
            names += rng.choices(self.pool, k=rng.randint(1, 3))
        if names and self.chance(0.25):
            names += rng.choices(names, k=rng.randint(1, 3))
        rng.shuffle(names)
        return names

    def block(self, height=None, names=None):
        height = self.height() if height is None else height
        names = self.listed() if names is None else names
        self.add("block", height, *names)
        for name in names:
            if self.pending.pop(name, None) is not None:
                self.recent[name] = height
        if self.last is None or height > self.last:
            self.last = height
            self.pending = {name: entry for name, entry in self.pending.items() if height - entry < self.board.life}
            self.recent = {name: at for name, at in self.recent.items() if height - at <= TARGETS}

    def look(self):
        """A line that changes nothing."""
        rng = self.rng
        target = rng.choice([*self.board.targets, TOP, rng.randint(1, self.board.life)])
        self.add(*rng.choice([["estimate", target]] * 4 + [["estimates"], ["sum"], ["write", 0]]))

    def round_trip(self):
        """The memory through its own file, and its sum before and after."""
        self.add("sum")
        self.add("write", self.rng.choice([60_000, 70_000, 120_000]))
        if self.chance(0.5):
            self.enter()
            self.block(self.now())
        self.add("again")
        self.add("sum")

    def step(self):
        """One call, and often its sum."""
        call, looks = self.rng.choices(
            [(self.enter, 0.2), (self.leave, 0.3), (self.block, 0.8), (self.look, 0), (self.round_trip, 0)],
            [45, 6, 35, 12, 2],
        )[0]
        call()
        if self.chance(looks):
            self.add("sum")
        if call == self.block and self.chance(0.3):
            self.look()

    def steps(self, count):
        for _ in range(count):
            self.step()
