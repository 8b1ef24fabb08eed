#!/usr/bin/env python3
"""A second port: runs a script from standard input over rules.py, and prints the lines that `replay` must print. On the narrow board it is held against the
oracle; on the wide one, which the Rust does not have, `replay` is held against it."""

import math
import re
import struct
import sys

from rules import DAMAGED, NARROW, WIDE, Damaged, Memory, Refused, Run

BOARDS = {b"narrow": NARROW, b"wide": WIDE}
MOST_LENT = {NARROW: (440_100, 720_100, 3_600, 3_600), WIDE: (44_100, 72_100, 3_600, 3_600)}


class Unfit(Exception):
    """A line that does not fit the scripts' page."""


def decimal(word, most):
    if not re.fullmatch(rb"[0-9]+", word):
        raise Unfit
    digits = word.lstrip(b"0") or b"0"
    if len(digits) > 20 or int(digits) > most:
        raise Unfit
    return int(digits)


def narrow(word):
    return decimal(word, 2**32 - 1)


def contents(word):
    if not re.fullmatch(rb"([0-9a-f]{2})+", word):
        raise Unfit
    return bytes.fromhex(word.decode())


def contents_or_none(word):
    return b"" if word == b"-" else contents(word)


def name(word):
    if len(word) > 64:
        raise Unfit
    return contents(word).ljust(32, b"\0")


class Script:
    """The lines of a script, over a run that has the memory of one board at a time. What the run has written is common to both."""

    def __init__(self):
        self.run, self.board, self.memories = Run(), NARROW, {}

    def line(self, words):
        """Runs one line, and answers what it prints or None."""
        operation, words = words[0], words[1:]
        if operation == b"board":
            if len(words) != 1 or words[0] not in BOARDS:
                raise Unfit
            self.turn_to(BOARDS[words[0]])
            return None
        if operation == b"lend":
            if len(words) != 4:
                raise Unfit
            lent = [decimal(word, bound) for word, bound in zip(words, MOST_LENT[self.board])]
            self.run.memory = Memory(*lent, self.board)
            return None
        if operation in self.DAMAGES:
            if len(words) != 3 or self.run.memory is None:
                raise Unfit
            self.DAMAGES[operation](self, *words)
            return None
        return self.call(operation, words)

    def turn_to(self, board):
        """The lines that follow are for this board, with its memory if there is one."""
        self.memories[self.board] = self.run.memory
        self.board, self.run.memory = board, self.memories.get(board)

    def byte(self, table, at, word):
        tables = {b"pending": self.run.memory.pending, b"confirmed": self.run.memory.recent}
        if table not in tables:
            raise Unfit
        change = contents(word)
        first = decimal(at, len(tables[table]))
        if first + len(change) > len(tables[table]):
            raise Unfit
        tables[table][first : first + len(change)] = change

    def count(self, counts, at, word):
        kinds = {b"confirmed": self.run.memory.confirmed, b"resolved": self.run.memory.resolved}
        if counts not in kinds:
            raise Unfit
        place = decimal(at, len(kinds[counts]) - 1)
        if word == b"nan":
            kinds[counts][place] = math.nan
        elif len(word) == 16:
            kinds[counts][place] = struct.unpack(">d", contents(word))[0]
        else:
            raise Unfit

    def state(self, last, pending, recent):
        memory = self.run.memory
        memory.last = None if last == b"-" else narrow(last)
        memory.used_pending, memory.used_recent = narrow(pending), narrow(recent)

    def call(self, operation, words):
        run = self.run
        if operation == b"block":
            if not 1 <= len(words) <= 4_097:
                raise Unfit
            call, arguments = run.block, [narrow(words[0]), b"".join(map(name, words[1:]))]
        elif operation in self.CALLS:
            call, kinds = self.CALLS[operation]
            if len(words) != len(kinds):
                raise Unfit
            call, arguments = call.__get__(run), [kind(word) for kind, word in zip(kinds, words)]
        else:
            raise Unfit
        if run.memory is None:
            raise Unfit
        try:
            return call(*arguments)
        except Damaged:
            return DAMAGED
        except Refused as refusal:
            return " ".join(map(str, refusal.args))

    DAMAGES = {b"byte": byte, b"count": count, b"state": state}
    CALLS = {
        b"start": (Run.start, []),
        b"enter": (Run.enter, [name, lambda word: decimal(word, 2**64 - 1), narrow]),
        b"leave": (Run.leave, [name]),
        b"blockraw": (Run.block, [narrow, contents_or_none]),
        b"estimate": (Run.estimate, [narrow]),
        b"estimates": (Run.estimates, []),
        b"bucket": (Run.bucket, [lambda word: decimal(word, 2**64 - 1)]),
        b"write": (Run.write, [lambda word: decimal(word, 1_400_000)]),
        b"read": (Run.read, [contents_or_none]),
        b"again": (Run.again, []),
        b"sum": (Run.sum, []),
    }


def answers(text):
    """The lines that the script prints."""
    if len(text) > 2 * 1024 * 1024:
        yield "bad line 0"
        return
    script = Script()
    *lines, unended = text.split(b"\n")
    for at, line in enumerate(lines, start=1):
        if line == b"" or line.startswith(b"#"):
            continue
        try:
            printed = script.line(line.split(b" "))
        except Unfit:
            yield f"bad line {at}"
            return
        if printed is not None:
            yield printed
    if unended:
        yield f"bad line {len(lines) + 1}"


if __name__ == "__main__":
    sys.stdout.writelines(f"{line}\n" for line in answers(sys.stdin.buffer.read()))
