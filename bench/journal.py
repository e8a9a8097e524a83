#!/usr/bin/env python3
"""Measures the journal over files, beside a plain loop of the same writes and syncs on the same file system.

Prints, for bodies of 100 and of 200,000 bytes, appends a second of both and their ratio, and the megabytes a second at
which a journal of 100 MB is opened.
"""

import os
import pathlib
import struct
import subprocess
import sys
import tempfile
import time

TOP = pathlib.Path(__file__).resolve().parent.parent
sys.path.insert(0, str(TOP / "tests"))
from journal_crashes import build  # noqa: E402

COUNTS = {100: 500, 200_000: 100}
OPENED = 100_000_000
BODY = 1_000


def run(program, *words):
    """The seconds that a run of the program takes."""
    start = time.monotonic()
    subprocess.run([program, *words], check=True, stdout=subprocess.DEVNULL)
    return time.monotonic() - start


def plain(path, count, size):
    """The seconds that as many writes and syncs take: a record behind its gate, a sync, the gate, a sync."""
    file = os.open(path, os.O_RDWR | os.O_CREAT, 0o600)
    os.pwrite(file, b"RDBJRNL1\0", 0)
    os.fsync(file)
    record = struct.pack("<I", size) + b"." * size + b"\0"
    end = 8
    start = time.monotonic()
    for _ in range(count):
        os.pwrite(file, record, end + 1)
        os.fsync(file)
        os.pwrite(file, b"\1", end)
        os.fsync(file)
        end += len(record)
    seconds = time.monotonic() - start
    os.close(file)
    return seconds


def fill(path):
    """A journal of about 100 MB, whose records are numbered as the program numbers them."""
    with open(path, "wb") as file:
        file.write(b"RDBJRNL1")
        for number in range(OPENED // (BODY + 5)):
            body = f"{number}.".encode().ljust(BODY, b".")
            file.write(b"\1" + struct.pack("<I", len(body)) + body)
        file.write(b"\0")
    return os.path.getsize(path)


def main():
    program = build()
    with tempfile.TemporaryDirectory(dir=sys.argv[1] if len(sys.argv) > 1 else None) as folder:
        for size, count in COUNTS.items():
            ours = run(program, "append", f"{folder}/journal{size}", str(count), str(size))
            theirs = plain(f"{folder}/plain{size}", count, size)
            print(f"bodies of {size} bytes: {count / ours:.0f} appends/s, plain loop {count / theirs:.0f}/s, "
                  f"ratio {theirs / ours:.2f}")
        size = fill(f"{folder}/large")
        seconds = run(program, "read", f"{folder}/large")
        print(f"opening {size / 1e6:.0f} MB: {size / 1e6 / seconds:.0f} MB/s")
    return 0


if __name__ == "__main__":
    sys.exit(main())
