"""What the port must print for a script. Each line is marked with whose word it is: `R ` the Rust's, `- ` the oracle's own, `M ` the model's.

A script for the narrow board is the oracle's. Where a script turns to the wide board, which the Rust does not have, the wide board's lines are those of model.py; the
narrow board's are the oracle's for these lines alone, so that the boards are seen not to touch each other."""

import re
import subprocess
import sys
from pathlib import Path

import leaps
from page import MOST_BYTES

HERE = Path(__file__).resolve().parent
ORACLE = HERE / "target" / "release" / "oracle"
SECONDS = 600
LINES = re.compile(rb"[^\n]*\n|[^\n]+")
BOARD = re.compile(rb"^board (narrow|wide)\n", re.MULTILINE)
WIDE_FILE = b"read " + (b"BRSEFEES" + bytes([3, 0, 0, 0])).hex().encode() + b"\n"  # the first bytes of one


def oracle_lines(text):
    """The oracle's lines, marked. That it ends uncleanly is a fault of its own and stops the comparison. What the port crosses in steps it leaps over."""
    options = ["--mark", "--any-gap"] if leaps.STEPS.search(text) else ["--mark"]
    return printed([ORACLE, *options], leaps.without_steps(text))


def model_lines(text):
    return printed([sys.executable, HERE / "model.py"], text)


def printed(program, text):
    done = subprocess.run(program, input=text, stdout=subprocess.PIPE, timeout=SECONDS, check=True)
    return done.stdout.decode().split("\n")[:-1]


def with_boards(text, lines):
    """Each line of the script that the run came to, the board that it is for, and what it printed or None."""
    if len(text) > MOST_BYTES:
        return
    ended = re.fullmatch("bad line ([0-9]+)", lines[-1]) if lines else None
    last, answers, board = int(ended[1]) if ended else None, iter(lines), b"narrow"
    for number, line in enumerate(LINES.findall(text), start=1):
        if turned := BOARD.fullmatch(line):
            board = turned[1]
        silent = line.startswith((b"#", b"\n")) or line.split(b" ")[0] in leaps.SILENT
        yield line, board, next(answers, None) if number == last or not silent else None
        if number == last:
            return


def narrow_alone(text, lines):
    """The script with the wide board's lines made comments, and for each printed line whether it is the narrow board's. The oracle has not written the wide board's
    files: where the narrow board is given one again, the oracle reads its first bytes."""
    alone, is_narrow, kept = [], [], b"narrow"
    for line, board, answer in with_boards(text, lines):
        stays = board == b"narrow" and not BOARD.fullmatch(line)
        if line.startswith(b"write ") and answer.startswith("0 "):
            kept = board
        given = WIDE_FILE if line == b"again\n" and kept == b"wide" else line
        alone.append(given if stays else b"#\n")
        if answer is not None:
            is_narrow.append(stays)
    return b"".join(alone), is_narrow


def due_lines(text):
    """What the port must print, marked."""
    if not BOARD.search(text) or len(text) > MOST_BYTES:
        return oracle_lines(text)
    lines = model_lines(text)
    alone, is_narrow = narrow_alone(text, lines)
    narrow = iter(oracle_lines(alone))
    due = [next(narrow, "- nothing") if own else f"M {line}" for line, own in zip(lines, is_narrow)]
    return [*due, *narrow]


def unmarked(lines):
    return [line[2:] for line in lines]
