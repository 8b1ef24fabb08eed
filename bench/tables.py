"""The tables of docs/PERFORMANCE.md, each from what is measured and, by row, from what the page has as `before`."""

from counts import LIBRARY, NATIVE, RUST, WIDE
from page import table
from rows import BOARDS, COSTS, GOALS, GROWTH, JUDGED


def number(n):
    return "" if n is None else f"{n:,.0f}"


def ratio(ours, theirs):
    if ours is None or theirs is None:
        return ""
    times = ours / theirs
    return f"{times:,.2f}" if times < 10 else f"{times:,.0f}"


def time(s):
    for unit, size in (("s", 1), ("ms", 1e-3), ("µs", 1e-6)):
        if s >= size:
            return f"{s / size:.3g} {unit}"
    return f"{s * 1e9:.3g} ns"


def sides(measured, row):
    """The Rust's instructions, the library's, and those of them that judge the lent memory, or None."""
    return measured.count(RUST, row), measured.count(LIBRARY, row), measured.judging(row)


def goals(measured, before):
    """What the landing on speed was asked for."""

    def line(row, words, goal):
        theirs, ours, judged = sides(measured, row)
        beside = None if judged is None else ours - judged
        ratios = (ratio(cost, theirs) for cost in (before.get(row), ours, beside))
        return [row, words, number(theirs), number(before.get(row)), number(ours), *ratios, goal]

    heads = ["row", "what it is", "Rust", "before", "library", "ratio before", "ratio", "ratio beside judging", "asked: at most"]
    return table(heads, [line(*goal) for goal in GOALS])


def judging(measured, before):
    """What judging costs, by what is judged: by how much the judging of two rows differs that differ in that alone."""

    def line(what, first, second, many, goal):
        each = (measured.judging(first) - (measured.judging(second) if second else 0)) / many
        return [what, f"{before[what]:.2f}" if what in before else "", f"{each:.2f}", goal]

    return table(["what is judged", "before", "library", "asked: at most"], [line(*judged) for judged in JUDGED])


def costs(measured, _, rows=COSTS):
    def line(row):
        theirs, ours, judged = sides(measured, row)
        parts = ["", "", ""] if judged is None else [number(judged), f"{100 * judged / ours:.0f} %", ratio(ours - judged, theirs)]
        return [row, number(theirs), number(ours), ratio(ours, theirs), *parts]

    return table(["row", "Rust", "library", "ratio", "judging", "of it", "ratio beside judging"], [line(row) for row in rows])


def growth(measured, before):
    """One size doubles from line to line: what a line costs, and how many times the line above."""

    def lines(rows):
        above = [None] * 3
        for row in rows:
            cost = [measured.count(RUST, row), before.get(row), measured.count(LIBRARY, row)]
            yield [row, *map(number, cost), ratio(cost[2], cost[0]), *map(ratio, cost, above)]
            above = cost

    heads = ["row", "Rust", "before", "library", "ratio", "Rust grows", "before grows", "library grows"]
    return "\n\n".join(f"**{title}**\n\n{table(heads, lines(rows))}" for title, rows in GROWTH.items())


def boards(measured, _, rows=BOARDS):
    """The library's two boards. Tables are lent by hand on the base board alone."""

    def line(row):
        base, wide = measured.count(LIBRARY, row), measured.count(WIDE, row)
        return [row, number(base), number(wide), ratio(wide, base)]

    return table(["row", "base", "wide", "ratio"], [line(row) for row in rows if "-lent-" not in row])


def memory(measured, _, rows=COSTS):
    """Bytes that the estimator holds, and the most that the call holds beside it."""

    def line(row):
        (theirs, beside_theirs), (ours, beside_ours) = measured.memory(RUST, row), measured.memory(LIBRARY, row)
        return [row, *map(number, (theirs, ours, beside_theirs, beside_ours))]

    return table(["row", "Rust holds", "library holds", "Rust beside", "library beside"], [line(row) for row in rows])


def times(measured, _, rows=COSTS):
    """Under an emulator a time means nothing, and none is told."""

    def line(row):
        theirs, ours = measured.time(RUST, row), measured.time(LIBRARY, row)
        return [row, time(theirs), time(ours), ratio(ours, theirs)]

    return table(["row", "Rust", "library", "ratio"], [line(row) for row in rows if NATIVE])


TABLES = {maker.__name__: maker for maker in (goals, judging, costs, growth, boards, memory, times)}
OF_ROWS = {maker.__name__: maker for maker in (costs, boards, memory, times)}
