#!/usr/bin/env python3
"""Kills a program that appends numbered records to a journal, and reopens the journal each time.

What was acknowledged on the program's output has to be found, in order, and nothing else but at most one record more.
And it is started with closed standard streams, of which none may become the journal.
"""

import pathlib
import random
import subprocess
import sys
import time

import harness
from harness import Wrong

CRATE = "journal_trial"
KILLS = 20
SECONDS = 60


def build():
    """The program's path. It runs with no words, and is refused."""
    return harness.built(CRATE)


def acknowledged(program, path, seconds):
    """Appends until it is killed, and gives the numbers that were acknowledged, in order."""
    words = [program, "append", path, "1000000", "100"]
    with subprocess.Popen(words, stdout=subprocess.PIPE) as running:
        time.sleep(seconds)
        running.kill()
        output = running.stdout.read()
    lines = output.split(b"\n")
    # The last line counts only where it was printed whole.
    return [int(line) for line in lines[:-1]]


def found(program, path):
    """How many records a reopening finds, each with the number of its place."""
    run = subprocess.run([program, "read", path], capture_output=True, timeout=SECONDS)
    if run.returncode != 0:
        raise Wrong(f"the journal isn't read: status {run.returncode}")
    return int(run.stdout)


def kills(folder):
    """Raises `Wrong` where a kill lost what was acknowledged, or left more than one record beside it."""
    program, path = build(), pathlib.Path(folder) / "journal"
    before = 0
    for kill in range(KILLS):
        numbers = acknowledged(program, path, random.uniform(0.005, 0.1))
        after = found(program, path)
        if numbers != list(range(before, before + len(numbers))):
            raise Wrong(f"kill {kill}: from {before} on {numbers[:3]}.. were acknowledged")
        if after - before not in (len(numbers), len(numbers) + 1):
            raise Wrong(f"kill {kill}: {before} records, {len(numbers)} acknowledged, {after} found")
        before = after
    if not before:
        raise Wrong("no record was ever found")
    return f"{KILLS} kills, {before} records"


def closed_streams(folder):
    """Raises `Wrong` where anything but records comes into a journal whose program has standard streams closed."""
    program, folder = build(), pathlib.Path(folder)
    for number, closed in enumerate(("0<&-", "1>&-", "2>&-", "0<&- 1>&- 2>&-")):
        path = folder / f"journal{number}"
        for appended in (10, 20):
            run = ["sh", "-c", f'"$0" append "$1" 10 10 {closed}', program, path]
            status = subprocess.run(run, stdout=subprocess.DEVNULL, timeout=SECONDS).returncode
            if status or found(program, path) != appended:
                raise Wrong(f"{closed}: status {status} after {appended} records")


CHECKS = {"what a kill leaves": kills, "standard streams that are closed": closed_streams}


def main():
    return harness.end(*harness.tell("journal crashes", CHECKS))


if __name__ == "__main__":
    sys.exit(main())
