"""Random scripts with gaps above 4,096 heights, which the library refuses to cross at once (answer 6) and the Rust crosses in one call.

The library crosses such a gap by empty blocks at most 4,096 heights apart, each behind the line `# step`. The oracle runs the script without these blocks, and
with --any-gap; all other lines must be the same."""

import random
import re

from files import NARROW
from flavours import restore, roomy
from histories import any_file
from walk import TOP, Walk

STEPS = re.compile(rb"^# step\nblock [0-9]+$", re.MULTILINE)
WIDEST = 4_096
SILENT = (b"lend", b"byte", b"count", b"state", b"board")


def leap(walk, height):
    """A block far above the last one, and the steps that lead there: as few as there can be, or more."""
    rng, at = walk.rng, walk.last
    uneven = rng.random() < 0.5
    while height - at > WIDEST or uneven and height - at > 1 and rng.random() < 0.5:
        far = min(WIDEST, height - at - 1)
        at += rng.randint(max(1, far - 40), far) if uneven else far
        walk.lines += ["# step", f"block {at}"]
    walk.block(height)


def script(seed, number):
    """The name and the bytes of one script: from fresh or from a history, with records of every age before each leap and after it."""
    rng = random.Random(f"leap {seed} {number}")
    walk = Walk(rng, NARROW, pool=6)
    roomy(walk)
    walk.start()
    if rng.random() < 0.4:
        restore(walk, any_file(rng, NARROW, rng.randint(0, 6), rng.randint(0, 12)))
    walk.steps(15)
    for _ in range(3):
        walk.block()
        height = walk.last + WIDEST + rng.choice([1, 1, 2, WIDEST, WIDEST + 1, rng.randrange(1, 9_000)])
        if height <= TOP:
            leap(walk, height)
        walk.lines += ["sum", "estimates"]
        walk.steps(8)
    return f"leaps {number}", walk.text()


def without_steps(text):
    """The script as the oracle runs it, every line at its number."""
    return STEPS.sub(b"# step\n#", text)


def without_answers(text, lines):
    """What the port printed, but for the answers of the steps that it took; a step that it did not take is marked."""
    marked = STEPS.sub(b"# step\nstep", text)
    words = [line.split(b" ")[0] for line in marked.split(b"\n") if line and not line.startswith(b"#")]
    steps = [word == b"step" for word in words if word not in SILENT]
    steps += [False] * (len(lines) - len(steps))
    return [f"step: {line}" if step else line for line, step in zip(lines, steps) if not (step and line == "0")]
