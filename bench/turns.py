#!/usr/bin/env python3
"""Measures a turnstile by the built crate `turnstile_trial`: turns a second of 1, 8 and 64 threads, all of which wait
before the first turn ends, and the processor time of 63 callers that wait for two seconds.

    (cd crates/turnstile_trial && rt run) builds the program
"""

import os
import pathlib
import sys
import time

TOP = pathlib.Path(__file__).resolve().parent.parent
PROGRAM = TOP / "crates/turnstile_trial/out/turnstile_trial"
STAY = 300  # milliseconds of the first turn, in which the others come
TURNS = {1: 1_000_000, 8: 40_000, 64: 5_000}  # of each thread
REPEATS = 3  # of each, the fastest counts


def run(threads, turns, millis):
    """The seconds that a run takes, and the processor's seconds."""
    start = time.monotonic()
    pid = os.posix_spawn(
        str(PROGRAM),
        [str(PROGRAM), str(threads), str(turns), str(millis)],
        os.environ,
        file_actions=[(os.POSIX_SPAWN_OPEN, 1, os.devnull, os.O_WRONLY, 0)],
    )
    _, status, usage = os.wait4(pid, 0)
    if status != 0:
        sys.exit(f"turnstile_trial ended with {status}")
    return time.monotonic() - start, usage.ru_utime + usage.ru_stime


def main():
    if not PROGRAM.is_file():
        sys.exit("build it first: (cd crates/turnstile_trial && rt run)")
    alone = None
    for threads, turns in TURNS.items():
        seconds, busy = min(run(threads, turns, STAY) for _ in range(REPEATS))
        rate = threads * turns / (seconds - STAY / 1000)
        alone = alone or rate
        each = busy / (threads * turns) * 1e6
        print(f"{threads:3} threads: {rate:12,.0f} turns a second, {rate / alone:.3f} of one; {each:.2f} us of processor a turn")
    seconds, busy = run(64, 1, 2000)
    print(f"63 callers that wait for {seconds:.2f} s: {busy:.2f} s of processor")


main()
