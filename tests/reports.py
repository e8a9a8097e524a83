#!/usr/bin/env python3
"""The reports of examples/reports/, read by the built program reports_table, against the cases that stand beside them;
and reports of 64 MiB and of more.
"""

import subprocess
import sys

import harness

CRATE = "reports_table"
REPORTS = harness.EXAMPLES / "reports"
FORMS = {".tap": "tap", ".xml": "junit"}
SECONDS = 60


def read(report):
    def check(folder):
        words = [harness.built(CRATE, "none", "none"), FORMS[report.suffix], "list"]
        done = subprocess.run(words, input=report.read_bytes(), capture_output=True, timeout=SECONDS)
        wanted = report.with_suffix(report.suffix + ".cases").read_bytes()
        harness.same((done.stdout, done.returncode), (wanted, 0))

    return check


def sized(front, back, size):
    """A report of so many bytes: a front, letters, and a back."""
    return front + b"x" * (size - len(front) - len(back)) + back


def long(form, make, told=None):
    """A long report, made when it is read; without a word of its own it is told to be too long."""

    def check(folder):
        words = [harness.built(CRATE, "none", "none"), form, "count"]
        done = subprocess.run(words, input=make(), capture_output=True, timeout=SECONDS)
        harness.same((done.stdout, done.returncode), (told or TOO_LONG[form], 0))

    return check


LIMIT = 64 * 1024 * 1024
TOO_LONG = {"junit": b"fault 1 NotText 67108864\n", "tap": b"fault 7 NotText 67108864\n"}
CDATA = b"<testsuite><testcase name='a'><error><![CDATA["
CLOSED = b"]]></error></testcase></testsuite>"
COMMENT = b"TAP version 14\nok\n1..1\n# "
FACE = "\U0001f600".encode()  # four bytes
# A point of this name stands above eight that have none, and a point of the other name behind it: 512 MiB of names.
ABOVE, BEHIND = 59_652_000, 536_870_912 - 9 * 59_652_000 - 80
MANY = b"TAP version 14\n    1..%d\nok\n1..%d\n"


def named(more):
    """A report whose cases' names have 512 MiB together, and so many bytes more."""
    names = b"n" * ABOVE, b"n" * (BEHIND + more)
    return b"TAP version 14\n    1..8\nok - %b\nok - %b\n1..2\n" % names


def without_memory(folder):
    words = [harness.built(CRATE, "none", "none"), "tap", "count"]
    done = subprocess.run(words, input=named(1), capture_output=True, timeout=SECONDS)
    harness.same((done.stdout, done.returncode), (b"", 1))


LONG = {
    "a million planned points are read": long("tap", lambda: MANY % (400_000, 600_000), b"1000000 cases\n"),
    "names of 512 MiB are read": long("tap", lambda: named(0), b"10 cases\n"),
    "names of a byte more are want of memory": without_memory,
    "a JUnit report of 64 MiB is read": long("junit", lambda: sized(CDATA, CLOSED, LIMIT), b"1 cases\n"),
    "a TAP report of 64 MiB is read": long("tap", lambda: sized(COMMENT, b"\n", LIMIT), b"1 cases\n"),
    "a JUnit report of a byte more is too long": long("junit", lambda: sized(CDATA, CLOSED, LIMIT + 1)),
    "a TAP report of a byte more is too long": long("tap", lambda: sized(COMMENT, b"\n", LIMIT + 1)),
    "a sound report of 70 MiB with one CDATA section is too long": long("junit", lambda: sized(CDATA, CLOSED, 70 << 20)),
    "a flaw doesn't go before its length": long("junit", lambda: sized(b"<!DOCTYPE x>", b"", LIMIT + 1)),
    "a missing version doesn't go before it": long("tap", lambda: sized(b"", b"", LIMIT + 1)),
    "a character goes over the limit": long("junit", lambda: sized(CDATA, FACE + b"x" * 999, LIMIT + 1002)),
    "a character goes over the limit of TAP": long("tap", lambda: sized(COMMENT, FACE + b"x" * 999, LIMIT + 1002)),
    "a report ends in such a character": long("junit", lambda: sized(CDATA, FACE, LIMIT + 3)),
    "broken text before the limit is told at its place": long(
        "junit", lambda: sized(b"<a>\xff", b"", LIMIT + 9), b"fault 1 NotText 3\n"
    ),
}


def main():
    checks = {report.name: read(report) for report in sorted(REPORTS.iterdir()) if report.suffix in FORMS}
    return harness.end(*harness.tell("reports", checks | LONG))


if __name__ == "__main__":
    sys.exit(main())
