"""Every script that is compared, kind by kind."""

import re

import edges
import exhaustive
import flavours
import leaps
import page
import thousands
import turns
import wide
import worked
from files import WIDE

KINDS = ["fixed", "worked", "exhaustive", "random", "leaps", "boards", "crowds"]
# how many random scripts there are for each random one of these kinds
RANDOM_FOR = {"leaps": 40, "boards": 5, "crowds": 130}


def scripts(kind, seed, count):
    """Names and bytes of one kind, each with the answers that the documents give, or None. Seed and count are for random ones."""
    if kind == "fixed":
        yield from edges.scripts()
        yield from page.scripts()
    elif kind == "worked":
        yield from worked.scripts()
    elif kind == "exhaustive":
        yield from ((name, text, None) for name, text in exhaustive.scripts())
    else:
        if kind == "boards":
            yield from ((f"wide, {title}", text, answers) for title, text, answers in edges.scripts(WIDE))
            yield from wide.scripts()
        maker = {"random": flavours, "leaps": leaps, "boards": turns, "crowds": thousands}[kind]
        many = -(-count // RANDOM_FOR.get(kind, 1))
        yield from ((*maker.script(seed, number), None) for number in range(1, many + 1))


def titled(kind, seed, count):
    """The same scripts under titles that are fit for a file's name."""
    for number, (name, text, answers) in enumerate(scripts(kind, seed, count), start=1):
        yield re.sub(r"[^A-Za-z0-9]+", "-", f"{kind} {number} {name}").strip("-")[:60], text, answers
