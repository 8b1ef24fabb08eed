"""The page docs/PERFORMANCE.md: its tables as text, what stands in them, and new ones put in their place."""

import pathlib
import re

PAGE = pathlib.Path(__file__).resolve().parent.parent / "docs" / "PERFORMANCE.md"


WORDS = "row", "what it is", "what is judged", "asked: at most"  # the heads of columns that are not numbers


def table(heads, lines):
    marks = "".join("|---" if head in WORDS else "|---:" for head in heads) + "|"
    return "\n".join(["| " + " | ".join(heads) + " |", marks, *("| " + " | ".join(line) + " |" for line in lines)])


def cells(line):
    return [cell.strip() for cell in line.strip("|").split("|")]


def column(text, name, head):
    """The numbers under a head, by the first word of their line, in the part of the page of that name."""
    found, heads = {}, []
    for line in part(text, name).splitlines():
        if not line.startswith("|"):
            heads = []
        elif not heads:
            heads = cells(line)
        elif head in heads and not line.startswith("|---"):
            row = dict(zip(heads, cells(line)))
            if re.fullmatch(r"[0-9,.]+", row[head]):
                found[row[heads[0]]] = float(row[head].replace(",", ""))
    return found


def ends(name):
    """The lines between which a part of the page stands."""
    return f"<!-- bench/run {name} -->\n", f"<!-- end of {name} -->\n"


def part(text, name):
    """What stands between the lines of that name."""
    begin, end = ends(name)
    return text.partition(begin)[2].partition(end)[0]


def with_part(text, name, new):
    """The page with something else there."""
    begin, end = ends(name)
    if text.count(begin) != 1 or end not in text.partition(begin)[2]:
        raise ValueError(f"no lines for '{name}' in {PAGE.name}")
    before, _, rest = text.partition(begin)
    return f"{before}{begin}\n{new}\n\n{end}{rest.partition(end)[2]}"
