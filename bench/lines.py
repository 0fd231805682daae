"""The line program on a big file, beside the ported Rust under the same kind of loop and `wc -l`."""

import filecmp
import os
import subprocess
import tempfile
import time

LINES = 1_000_000
ROUNDS = 5


def seconds(command, given, answer):
    with open(given, "rb") as before, open(answer, "wb") as after:
        begun = time.monotonic()
        subprocess.run(command, check=True, stdin=before, stdout=after)
        return time.monotonic() - begun


def best(commands, given):
    """The best time of each command, a round of all after another; what they write goes nowhere."""
    rounds = [[seconds(command, given, os.devnull) for command in commands] for _ in range(ROUNDS)]
    return list(map(min, zip(*rounds)))


def measured(bench, program):
    """The size of the file, and the times of the line program, the ported Rust and `wc -l`; the first two must give the same answers."""
    ours, ported = [program, "parts"], [bench, "lines"]
    with tempfile.TemporaryDirectory() as folder:
        given = f"{folder}/lines"
        seconds([bench, "file", str(LINES)], os.devnull, given)
        seconds(ours, given, f"{folder}/ours")
        seconds(ported, given, f"{folder}/ported")
        if not filecmp.cmp(f"{folder}/ours", f"{folder}/ported", shallow=False):
            raise SystemExit("bench: the line program differs from the ported Rust")
        return os.path.getsize(given), best([ours, ported, ["wc", "-l"]], given)


def show(bench, program):
    """Prints a table; the lines a second of the line program."""
    size, times = measured(bench, program)
    ours, ported, counted = times
    print(f"{LINES:,} lines of the short inputs in turn, {size:,} bytes\n")
    print("| | lines a second | to the ported Rust | to `wc -l` |\n|---|---:|---:|---:|")
    for name, taken in zip(("line program", "ported Rust", "`wc -l`"), times):
        print(f"| {name} | {LINES / taken:,.0f} | {ported / taken:.2f} | {counted / taken:.3f} |")
    print()
    return LINES / ours
