#!/usr/bin/env python3
"""Measures the readers of reports: megabytes a second for reports of 1, 8 and 64 MiB of several kinds, and what small
reports with many long names take.

    bench/reports.py [KIND..]

Prints for each kind the megabytes a second at each size, and the time at 64 MiB as a ratio to the time at 8 MiB, which
is 8 where the time is linear; for a small report the processor time and the peak of its memory. The program is the built crate `reports_table`, which prints the number of cases, or the
report's fault.
"""

import os
import pathlib
import subprocess
import sys
import tempfile
import time

sys.path.insert(0, str(pathlib.Path(__file__).resolve().parent.parent / "tests"))
import harness  # noqa: E402

MIB = 1024 * 1024
SIZES = (1, 8, 64)


def filled(front, piece, back, size):
    """A text of the size: a front, one piece after the other, and a back. A piece may be made of its number."""
    pieces, length, number = [front], len(front) + len(back), 0
    while True:
        text = piece(number) if callable(piece) else piece
        if length + len(text) > size:
            break
        pieces.append(text)
        length += len(text)
        number += 1
    return "".join(pieces + [back]).encode()


def nested(size):
    """Subtests of 16 levels, one behind the other."""
    down = "".join("    " * level + "ok - deep\n" for level in range(16, 0, -1))
    return filled("TAP version 14\n", down, "ok 1 - all\n1..1\n", size)


KINDS = {
    "tap many points": ("tap", lambda size: filled("TAP version 14\n", lambda n: f"    ok - case {n}\n", "ok 1 - all\n1..1\n", size)),
    "tap one long diagnostic": ("tap", lambda size: filled("TAP version 14\nnot ok 1 - bad\n  ---\n", "  a line of it\n", "  ...\n1..1\n", size)),
    "tap many failures": ("tap", lambda size: filled("TAP version 14\n", "    not ok - bad\n      ---\n      message: boom\n      ...\n", "ok 1 - all\n1..1\n", size)),
    "tap deep nesting": ("tap", nested),
    "junit many cases": ("junit", lambda size: filled("<testsuite>", lambda n: f'<testcase classname="c" name="n{n}" time="0.001"/>', "</testsuite>", size)),
    "junit one huge attribute": ("junit", lambda size: filled('<testsuite><testcase name="', "a name that goes on ", '"/></testsuite>', size)),
    "junit many attributes": ("junit", lambda size: filled('<testsuite><testcase name="n"', lambda n: f' a{n}="v"', "/></testsuite>", size)),
    "junit many references": ("junit", lambda size: filled('<testsuite><testcase name="n"><failure>', "&lt;&#x41;", "</failure></testcase></testsuite>", size)),
    "junit many levels": ("junit", lambda size: filled("<testsuites>", "<testsuite>" * 30 + "</testsuite>" * 30, "</testsuites>", size)),
}

# Each name has that of the point below which a plan of 999,999 stands.
SMALL = {
    "tap names: 52 bytes": ("tap", b"TAP version 14\n    1..999999\nok 1 - abcdefghij\n1..1\n"),
    "tap names: 512 MiB": ("tap", b"TAP version 14\n    1..999999\nok 1 - " + b"n" * 520 + b"\n1..1\n"),
    "tap names: 3 KB": ("tap", b"TAP version 14\n    1..999999\nok 1 - " + b"n" * 3000 + b"\n1..1\n"),
}


def spent(words, report):
    """The processor seconds and the peak megabytes of a run over a report, and what it told."""
    with tempfile.TemporaryFile() as given, tempfile.TemporaryFile() as told:
        given.write(report)
        given.seek(0)
        child = subprocess.Popen(words, stdin=given, stdout=told, stderr=subprocess.DEVNULL)
        _, status, usage = os.wait4(child.pid, 0)
        child.returncode = os.waitstatus_to_exitcode(status)
        told.seek(0)
        text = told.read().decode().strip() or f"status {child.returncode}"
        return usage.ru_utime + usage.ru_stime, usage.ru_maxrss / 1000, text


def main(words):
    # rt looks for itself whether the program is current.
    program = harness.built("reports_table", "none", "none", is_current=lambda _: False)
    for name, (form, report) in SMALL.items():
        if not words or name in words:
            seconds, megabytes, told = spent([program, form, "count"], report)
            print(f"{name}: {seconds:.2f} s, {megabytes:.0f} MB ({told})", flush=True)
    for name, (form, make) in KINDS.items():
        if words and name not in words:
            continue
        took = {}
        for size in SIZES:
            report = make(size * MIB)
            start = time.monotonic()
            done = subprocess.run([program, form, "count"], input=report, capture_output=True, check=True)
            took[size] = time.monotonic() - start
        told = done.stdout.decode().strip()
        rates = ", ".join(f"{size} MiB {size / took[size]:.0f} MiB/s" for size in SIZES)
        print(f"{name}: {rates}, ratio {took[64] / took[8]:.1f} ({told})", flush=True)
    return 0


if __name__ == "__main__":
    sys.exit(main(sys.argv[1:]))
