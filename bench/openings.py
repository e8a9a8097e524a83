#!/usr/bin/env python3
"""Measures how a journal is opened: of 10,000 and of 100,000 recorded calls, a creation and nine batches of one result in
turn, counted by `./rdb check`.

Prints for each the seconds of processor time, the megabytes a second, and the peak memory, and the ratio of the times,
which is 10 where they are linear.
"""

import json
import os
import pathlib
import struct
import sys
import tempfile

sys.path.insert(0, str(pathlib.Path(__file__).resolve().parent.parent / "tests"))
import harness  # noqa: E402

COUNTS = (10_000, 100_000)
TURNS = 3  # of each, the fastest counts
CREATE, BATCH = 1, 5  # kinds of commands


def record(kind, moment, body):
    text = json.dumps(body, separators=(",", ":")).encode()
    command = struct.pack("<BQH", kind, moment, 5) + b"alice" + struct.pack("<I", len(text)) + text
    return struct.pack("<BI", 1, len(command)) + command


def journal(path, count):
    row = {"status": "PASS", "expected": True, "variant": {"def": {"os": "linux", "mode": "release"}}}
    with open(path, "wb") as file:
        file.write(b"RDBJRNL1")
        for number in range(count):
            name = f"u-{number // 10}"
            if number % 10 == 0:
                file.write(record(CREATE, number, harness.new(name)))
            else:
                shown = {"testId": f"net/dns/case-{number}", "resultId": "r", **row}
                file.write(record(BATCH, number, harness.rows(name, "testResult", [shown])))
        file.write(b"\0")


def opened(path):
    """The seconds and the peak memory of one count."""
    words = [str(harness.RDB), "check", "--journal", str(path)]
    child = os.posix_spawn(words[0], words, os.environ, file_actions=[(os.POSIX_SPAWN_CLOSE, 0)])
    _, status, used = os.wait4(child, 0)
    if status:
        raise SystemExit(f"the count ended with {status}")
    return used.ru_utime + used.ru_stime, used.ru_maxrss * 1024 / 1e6


def main():
    found = {}
    with tempfile.TemporaryDirectory(dir=sys.argv[1] if len(sys.argv) > 1 else None) as folder:
        for count in COUNTS:
            path = pathlib.Path(folder) / "one.journal"
            journal(path, count)
            size = path.stat().st_size / 1e6
            runs = [opened(path) for _ in range(TURNS)]
            found[count] = min(spent for spent, _ in runs)
            peak = max(memory for _, memory in runs)
            print(f"{count} calls, {size:.1f} MB: {found[count]:.2f} s, {size / found[count]:.0f} MB/s, peak {peak:.0f} MB")
    few, many = COUNTS
    print(f"ratio of {many} to {few}: {found[many] / found[few]:.1f} (linear: {many / few:.0f})")
    return 0


if __name__ == "__main__":
    sys.exit(main())
