#!/usr/bin/env python3
"""Measures a desk by the built crate `desk_trial`: calls a second of one caller through a clerk, as a ratio to a book
that is nobody else's, and of 2, 4, 8 and 64 callers as ratios to one; reads and creations, with the journal in memory,
over files in memory and over files on the disk; and the processor time of a call.

    (cd crates/desk_trial && rt run) builds the program
    bench/desk.py [FOLDER] puts the files on the disk of this folder
"""

import os
import pathlib
import sys
import tempfile
import time

TOP = pathlib.Path(__file__).resolve().parent.parent
PROGRAM = TOP / "crates/desk_trial/out/desk_trial"
CALLERS = (1, 2, 4, 8, 64)
REPEATS = 3  # of each, the fastest counts
READS = 200_000  # by all callers of a run
# How many invocations all callers of a run create. A journal in memory keeps each of its moments, and so makes a run
# slower with each; over files there are two syncs for each.
CREATIONS = {"memory": 512, "files in memory": 32_000, "files on the disk": 6_400}


def run(words):
    """The seconds that a run takes, the processor's seconds, and the calls that it counted."""
    start = time.monotonic()
    ends, told = os.pipe()
    pid = os.posix_spawn(
        str(PROGRAM),
        [str(PROGRAM), *map(str, words)],
        os.environ,
        file_actions=[(os.POSIX_SPAWN_DUP2, told, 1)],
    )
    os.close(told)
    with os.fdopen(ends) as output:
        line = output.read()
    _, status, usage = os.wait4(pid, 0)
    seconds = time.monotonic() - start
    counts = dict(part.rsplit(" ", 1) for part in line.strip().split(", "))
    if status != 0 or counts["turns"] != counts["calls"]:
        sys.exit(f"desk_trial ended with {status}: {line}")
    return seconds, usage.ru_utime + usage.ru_stime, int(counts["calls"])


def fastest(who, callers, creations, reads, folder):
    """Calls a second, and microseconds of processor a call, of the fastest of some runs."""
    best = None
    for _ in range(REPEATS):
        words = [who, callers, creations, reads]
        if folder is None:
            told = run(words)
        else:
            with tempfile.TemporaryDirectory(dir=folder) as own:
                told = run([*words, f"{own}/journal"])
        best = told if best is None or told[0] < best[0] else best
    seconds, busy, calls = best
    return calls / seconds, busy / calls * 1e6


def row(kind, where, folder):
    """A line for the book alone, and one for each number of callers."""
    def shares(callers):
        return (1, READS // callers) if kind == "reads" else (CREATIONS[where] // callers, 0)

    alone, busy = fastest("book", 1, *shares(1), folder)
    print(f"{kind}, {where}: the book alone: {alone:9,.0f} calls a second; {busy:6.2f} us of processor a call", flush=True)
    one = None
    for callers in CALLERS:
        rate, busy = fastest("desk", callers, *shares(callers), folder)
        one = one or rate
        beside = f"{rate / alone:.2f} of the book" if callers == 1 else f"{rate / one:.2f} of one"
        print(f"{kind}, {where}: {callers:3} callers: {rate:11,.0f} calls a second, {beside}; {busy:6.2f} us of processor a call",
              flush=True)


def main():
    if not PROGRAM.is_file():
        sys.exit("build it first: (cd crates/desk_trial && rt run)")
    disk = sys.argv[1] if len(sys.argv) > 1 else None
    with tempfile.TemporaryDirectory(dir=disk) as folder, tempfile.TemporaryDirectory(dir="/dev/shm") as memory:
        row("reads", "memory", None)
        for where, own in (("memory", None), ("files in memory", memory), ("files on the disk", folder)):
            row("creations", where, own)


main()
