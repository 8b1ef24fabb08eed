"""What a row costs on one side, by the program that bench/run builds: instructions, time and memory."""

import concurrent.futures
import hashlib
import json
import os
import pathlib
import platform
import re
import subprocess
import sys
import tempfile
import threading

HERE = pathlib.Path(__file__).resolve().parent
NATIVE = platform.machine() == "x86_64"
TARGET = "x86_64-unknown-linux-gnu"
PROGRAM = HERE / "target" / ("" if NATIVE else TARGET) / "release" / "bench"
MARKS = HERE / "target" / "marks.so"
KEPT = HERE / "target" / "counted"
EMULATED = [] if NATIVE else ["qemu-x86_64"]
RUST, LIBRARY, WIDE = "original", "library", "wide"
# Both sides leave long moves and comparisons of memory to the C library. While it is counted, that takes its way for any x86-64, loops over 16 bytes, and not what the processor
# at hand is best at: else a move may be one instruction, `rep movsb`, of which the tools count each byte, and a count would depend on the machine.
PLAIN = {"GLIBC_TUNABLES": "glibc.cpu.hwcaps=-ERMS,-AVX_Fast_Unaligned_Load,-SSSE3"}


def printed(*words):
    return subprocess.run(words, check=True, capture_output=True, text=True).stdout


def counted(side, row):
    """The instructions that are executed in a call."""
    environment = {**os.environ, **PLAIN}
    if not NATIVE:
        done = subprocess.run(["qemu-x86_64", "-plugin", MARKS, PROGRAM, side, row, "count"], check=True, capture_output=True, text=True, env=environment)
        before, after = map(int, re.findall(r"^executed (\d+)$", done.stderr, re.M)[-2:])
        return (after - before) / int(done.stdout)
    with tempfile.TemporaryDirectory() as folder:
        out = pathlib.Path(folder) / "callgrind.out"
        words = ["valgrind", "--quiet", "--tool=callgrind", "--collect-atstart=no", "--toggle-collect=measured", f"--callgrind-out-file={out}"]
        done = subprocess.run([*words, PROGRAM, side, row, "count"], check=True, stdout=subprocess.PIPE, text=True, env=environment)
        return int(re.search(r"^(?:summary|totals): (\d+)", out.read_text(), re.M)[1]) / int(done.stdout)


class Planned:
    """Stands where something is measured, and notes what would be counted."""

    def __init__(self):
        self.jobs = []

    def count(self, side, row):
        self.jobs.append((side, row))
        return 1

    def judging(self, row):
        """What the library spends on judging, or None: reading judges the file, which is its work."""
        return None if row.startswith("read") else self.count(LIBRARY, f"judging-{row}")

    def time(self, side, row):
        return 1

    def memory(self, side, row):
        return 0, 0


class Measured(Planned):
    """What is measured. Counts are kept in a file, as long as the program is the same."""

    def __init__(self):
        self.program, self.lock = hashlib.sha256(PROGRAM.read_bytes() + str(PLAIN).encode()).hexdigest(), threading.Lock()
        kept = json.loads(KEPT.read_text()) if KEPT.exists() else {}
        self.counts = kept.get(self.program, {})

    def count(self, side, row):
        """The instructions of a call."""
        name = f"{side} {row}"
        if name not in self.counts:
            number = counted(side, row)
            with self.lock:
                self.counts[name] = number
                KEPT.write_text(json.dumps({self.program: self.counts}, indent=1))
        return self.counts[name]

    def ahead(self, jobs):
        """Counts what will be asked for, as many rows at a time as there are processors."""
        left = list(dict.fromkeys(job for job in jobs if " ".join(job) not in self.counts))
        with concurrent.futures.ThreadPoolExecutor(os.cpu_count()) as pool:
            for number, done in enumerate([pool.submit(self.count, *job) for job in left], start=1):
                done.result()
                print(f"\rcounted {number} of {len(left)}", end="\n" if number == len(left) else "", file=sys.stderr, flush=True)

    def time(self, side, row):
        """The least seconds of a call."""
        return float(printed(PROGRAM, side, row, "time")) / 1e9

    def memory(self, side, row):
        """The bytes of the estimator, and the most that a call holds beside them."""
        return [int(word) for word in printed(*EMULATED, PROGRAM, side, row, "memory").split()]
