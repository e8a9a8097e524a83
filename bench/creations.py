#!/usr/bin/env python3
"""Measures creations over one connection: 2,000 of them, and 20,000, by the built program.

Prints the seconds of each and their ratio, which is 10 where the time is linear, and creations a second; and the time of
2,000 as a ratio to a plain loop that writes as many bytes for each to a file of its own, syncs, writes one byte, and
syncs, which is what a record takes. The plain loop and the program take turns, and of each the fastest counts.
"""

import os
import pathlib
import subprocess
import sys
import tempfile
import time

sys.path.insert(0, str(pathlib.Path(__file__).resolve().parent.parent / "tests"))
import harness  # noqa: E402

COUNTS = (2_000, 20_000)
TURNS = 3  # of each, the fastest counts
TAGS = [{"key": "builder", "value": "linux-rel"}]


def requests(count):
    for number in range(count):
        body = harness.new(f"u-{number}")
        body["invocation"]["tags"] = TAGS
        yield harness.request("CreateInvocation", body)


def seconds(path, folder, journal=None):
    words = harness.words(folder, journal=journal)
    with open(path, "rb") as feed, open(f"{folder}/replies", "wb") as replies:
        start = time.monotonic()
        subprocess.run(words, stdin=feed, stdout=replies, check=True)
        return time.monotonic() - start


def plain(path, count, size):
    """The seconds of as many records of this size, written as a journal writes them."""
    record, start = bytes(size), time.monotonic()
    file = os.open(path, os.O_RDWR | os.O_CREAT | os.O_TRUNC)
    for number in range(count):
        os.pwrite(file, record, number * size + 9)
        os.fsync(file)
        os.pwrite(file, b"\1", number * size + 8)
        os.fsync(file)
    os.close(file)
    return time.monotonic() - start


def beside_plain(feed, folder, count):
    """The time of these creations over that of the plain loop."""
    journal = pathlib.Path(folder) / "plain.journal"
    own, bare = [], []
    for turn in range(TURNS):
        journal.unlink(missing_ok=True)
        own.append(seconds(feed, folder, journal))
        size = (journal.stat().st_size - 9) // count
        bare.append(plain(f"{folder}/plain", count, size))
    print(f"{count} records of {size} bytes in a plain loop: {min(bare):.2f} s, ratio {min(bare) / min(own):.2f}")


def main():
    found = {}
    with tempfile.TemporaryDirectory(dir=sys.argv[1] if len(sys.argv) > 1 else None) as folder:
        for count in COUNTS:
            path = pathlib.Path(folder) / f"{count}.http"
            path.write_bytes(b"".join(requests(count)))
            found[count] = min(seconds(path, folder) for _ in range(TURNS))
            made = (pathlib.Path(folder) / "replies").read_bytes().count(b"HTTP/1.1 200 OK\r\n")
            if made != count:
                raise SystemExit(f"{made} of {count} creations were accepted")
            print(f"{count} creations: {found[count]:.2f} s, {count / found[count]:.0f}/s")
        few, many = COUNTS
        beside_plain(pathlib.Path(folder) / f"{few}.http", folder, few)
    print(f"ratio of {many} to {few}: {found[many] / found[few]:.1f} (linear: {many / few:.0f})")
    return 0


if __name__ == "__main__":
    sys.exit(main())
