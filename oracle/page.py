"""Fixed scripts on the scripts' page itself: lines that fit only just, lines that do not fit, and texts that are not whole lines."""

MOST_BYTES = 2 * 1024 * 1024
LEND = b"lend 0 0 0 0\n"

# None of these fits, with 440 and 360 bytes and 3,550 counts lent.
UNFIT = """
lend 440101 0 0 0|lend 0 720101 0 0|lend 0 0 3601 0|lend 0 0 0 3601|lend 0 0 0|lend 0 0 0 0 0|lend  0 0 0 0|lend 0 0 0 -1
byte pending 440 00|byte pending 439 0000|byte confirmed 360 00|byte recent 0 00|byte pending 0|byte pending 0 |byte pending 0 0
byte pending 0 -|byte pending 0 00 00|byte pending 99999999999999999999 00|byte pending 4294967296 00
count confirmed 3550 nan|count resolved 3550 nan|count pending 0 nan|count confirmed 0 NaN|count confirmed 0 nan |count confirmed 0
count confirmed 0 000000000000000|count confirmed 0 00000000000000000|count confirmed 0 8000000000000G00|count confirmed 0 800000000000000A
state 4294967296 0 0|state 0 4294967296 0|state 0 0 4294967296|state 0 0|state  0 0|state 0 - 0|state -- 0 0
start | start|Start|start 0|enter aa 1|enter aa 1 1 1|enter a 1 1|enter AA 1 1|enter - 1 1|enter aa 18446744073709551616 1
enter aa 1 4294967296|enter aa -1 1|enter aa +1 1|enter aa 1,000 1|enter aa 0x1 1|enter aa 1  1|enter aa 99999999999999999999999 1
leave|leave  aa|leave aa |leave aa bb|leave aag|leave -|block|block |block 1 |block 1  aa|block -|block 4294967296|block 1 aa bb |block 1 -
blockraw 1|blockraw 1 0|blockraw 1 AA|blockraw 4294967296 -|blockraw 1 - -|blockraw 1 |estimate|estimate 4294967296|estimate -1|estimate 1 |estimates 1
bucket|bucket 18446744073709551616|bucket 1 1|write|write 1400001|write -|read|read |read 0|read 4G|read --|read 00 00|again -|sum 1|sums|s|su
""".strip("\n").replace("\n", "|").split("|")
UNFIT += ["sum\t", "sum\r", "\t", " ", "enter\taa 1 1", "\0", "é", "enter " + "00" * 33 + " 1 1", "block 1" + " aa" * 4_097]

# Each of these fits only just; those with an answer print it.
FIT = [
    ("lend 440100 720100 3600 3600", None),
    ("byte pending 440099 ff", None),
    ("byte confirmed 720099 ff", None),
    ("count confirmed 3599 nan", None),
    ("count resolved 3599 fff0000000000001", None),
    ("sum", "any"),
    ("enter 00 018446744073709551615 4294967295", "0"),
    ("enter " + "ff" * 32 + " " + "0" * 70 + "1000 00001", "0"),
    ("enter aa 0 0", "16"),
    ("leave 0000", "0"),
    ("block 4294967295" + " aa" * 4_096, "0"),
    ("estimate 4294967295", "any"),
    ("bucket 00018446744073709551615", "141"),
    ("bucket 000", "none"),
    ("write 1400000", "any"),
    ("again", "0"),
    ("blockraw 1 -", "0"),
    ("read -", "10"),
    ("#", None),
    ("state 4294967295 4294967295 4294967295", None),
    ("enter aa 1 1", "1"),
    ("sum", "any"),
    ("lend 0 0 0 0", None),
    ("sum", "- 0 0" + " 00000001" * 4),
]


def scripts():
    """Each title, the bytes, and the answers."""
    for line in UNFIT:
        text = f"lend 440 360 3550 3550\nenter aa 1000 1\n# passed over \t\n\n{line}\nsum\n"
        yield f"unfit: {line[:40]!r}", text.encode(), ["0", "bad line 5"]
    yield "lines that fit only just", "".join(f"{line}\n" for line, _ in FIT).encode(), [answer for _, answer in FIT if answer]
    yield "an empty script", b"", []
    yield "before the first lend", b"# nothing lent\nbucket 1\n" + LEND, ["bad line 2"]
    yield "no last line feed", LEND + b"sum\nsum", ["any", "bad line 3"]
    yield "no last line feed behind a comment", LEND + b"# end", ["bad line 2"]
    padded = LEND + b"sum\n#"
    yield "2 MiB", padded + b"x" * (MOST_BYTES - len(padded) - 1) + b"\n", ["any"]
    yield "over 2 MiB", padded + b"x" * (MOST_BYTES - len(padded)) + b"\n", ["bad line 0"]
    yield "a NUL byte", LEND + b"sum\0\n", ["bad line 2"]
    yield "bytes over 127 in a comment", LEND + b"#\xff\xfe\n\n", []
