#!/usr/bin/env python3
"""Runs what is measured and prints tables. Started by bench/run, which builds the programs."""

import datetime
import hashlib
import os
import re
import subprocess
import sys

sys.dont_write_bytecode = True

import lines
import server
import tables
from targets import targets

BENCH = "bench/target/release/bench"
CALLS = 640
ROUNDS = 7


def output(*command):
    return subprocess.run(command, check=True, stdout=subprocess.PIPE, text=True).stdout


def first(pattern, text):
    found = re.search(pattern, text, re.MULTILINE)
    return found[1] if found else "?"


def checksum(path):
    with open(path, "rb") as file:
        return hashlib.sha256(file.read()).hexdigest()[:16]


def machine(archive):
    """The day, the machine and its load before the run, the archive and the versions of what is measured."""
    with open("/proc/cpuinfo") as cpu, open("bench/Cargo.lock") as lock:
        model, packages = first(r"^model name\s*: (.*)$", cpu.read()), lock.read()
    version = lambda name: first(rf'name = "{name}"\nversion = "(.*)"', packages)
    print(f"{datetime.date.today()}, {model}, {os.cpu_count()} cores; {output('rustc', '--version').split(' (')[0]},")
    print(f"chrono {version('chrono')}, time {version('time')}, {os.confstr('CS_GNU_LIBC_VERSION')}, ", end="")
    print(f"PostgreSQL {server.version() or 'not there'}.")
    print(f"libsorbilgan.a with SHA-256 {checksum(archive)}..; other programs' load before the run {os.getloadavg()[0]:.1f}.\n")


def times():
    """Each row in a process of its own, since what others leave in the heap would slow it; round after round, the best counts."""
    names = output(BENCH, "names").splitlines()
    rounds = [[float(output(BENCH, "time", *name.split("\t"))) for name in names] for _ in range(ROUNDS)]
    measured = [f"{name}\t{min(numbers)}" for name, numbers in zip(names, zip(*rounds))]
    kinds = [name.split("\t") for name in names]
    texts = {given: output(BENCH, "texts", given).splitlines() for kind, _, given in kinds if kind == "instant"}
    return tables.show("Nanoseconds a call", measured + server.times(texts))


def collected(*call):
    """The instructions of a run with so many calls."""
    command = ["valgrind", "--tool=callgrind", "--callgrind-out-file=/dev/null", BENCH, "calls", *map(str, call)]
    said = subprocess.run(command, check=True, stderr=subprocess.PIPE, text=True).stderr
    return int(first(r"Collected : (\d+)", said))


def instructions():
    """By two runs, of which one has twice the calls: what comes before the first call does not count."""
    counted = []
    for name in output(BENCH, "names").splitlines():
        kind, peer, given = name.split("\t")
        more, less = (collected(kind, peer, given, calls) for calls in (2 * CALLS, CALLS))
        counted.append(f"{name}\t{(more - less) / CALLS}")
    return tables.show("Instructions a call, counted by valgrind's callgrind", counted)


def document(program, archive):
    """docs/SPEED.md as a whole."""
    print("# Speed\n\nMade by `bench/run document`; bench/README.md says what is measured and how.\n")
    machine(archive)
    print("## A call\n")
    measured = times()
    print("## Instructions\n")
    counted = instructions()
    print(f"## The line program\n\nThe program with SHA-256 {checksum(program)}.., ", end="")
    lines_a_second = lines.show(BENCH, program)
    print("## Targets\n\nHow many times as fast, on the input where it is least so.\n")
    print("\n".join(targets(measured, counted, lines_a_second)), end="\n\n")
    with open("bench/reasons.md") as reasons:
        print(reasons.read(), end="")


def main():
    what, program, archive = sys.argv[1:]
    if what == "document":
        document(program, archive)
        return
    machine(archive)
    {"times": times, "instructions": instructions, "lines": lambda: lines.show(BENCH, program)}[what]()


main()
