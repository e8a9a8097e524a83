#!/usr/bin/env python3
"""How fast bodies come in, and what a long list takes that is refused.

    bench/bodies.py [PROGRAM]

Bodies of 500 results, and of as many as 4 MB hold, go through a pipe to the built program: under a method that there
isn't, so that a body is taken from the stream and no more, and under BatchCreateTestResults into an invocation that is
final, so that it is read into rows and refused. Prints megabytes a second of processor time, the fastest run of each.

A body of two million zeros is sent as the list of a batch, whose first element is at fault, and as that of a member
that no method has. Prints the peak memory of both runs, and the ratio, which is to be 2 at most.
"""

import json
import os
import pathlib
import subprocess
import sys
import tempfile

sys.path.insert(0, str(pathlib.Path(__file__).resolve().parent.parent / "tests"))
import batches  # noqa: E402
import harness  # noqa: E402

MOST_BYTES = 4 * 1024 * 1024
TURNS = 5  # of each, the fastest counts
TOTAL = 64_000_000  # bytes of one run, about
ZEROS = 2_000_000
GOAL = 2.0  # the most that a list of zeros is to take of what a member takes that is passed over
UNKNOWN = "CreateNothing"


def call(method, text):
    """A changing call whose body is a text."""
    head = [f"POST {harness.route(method)} HTTP/1.1", "Authorization: Bearer tok-a",
            f"Update-Token: {harness.token('u-a')}", f"Content-Length: {len(text)}"]
    return "\r\n".join(head).encode() + b"\r\n\r\n" + text


def batch(size):
    """A body of results of at most so many bytes, and how many there are: 500 where size is None."""
    rows = []
    length = 100
    while len(rows) < batches.BATCH if size is None else True:
        row = json.dumps(batches.result(len(rows)), separators=(",", ":"))
        length += len(row) + 1
        if size is not None and length > size:
            break
        rows.append(row)
    return ('{"invocation":"invocations/u-a","requests":[' + ",".join(rows) + "]}").encode(), len(rows)


def run(program, folder, pieces):
    """Seconds of processor time and megabytes at the peak of one run, and its replies. The peak of a process counts
    what this script had when it began it, so that the pieces of its input are written one by one."""
    path = pathlib.Path(folder) / "stream.http"
    with open(path, "wb") as file:
        file.writelines(pieces)
    words = [str(program), *harness.words(folder)[1:]]
    with open(path, "rb") as feed, open(f"{folder}/replies", "wb") as replies:
        running = subprocess.Popen(words, stdin=feed, stdout=replies, env=batches.SETTINGS | os.environ)
        _, status, used = os.wait4(running.pid, 0)
        running.returncode = os.waitstatus_to_exitcode(status)
    for left in pathlib.Path(folder).glob("*.journal*"):
        left.unlink()
    if running.returncode:
        sys.exit(f"the program ended with status {running.returncode}")
    return used.ru_utime + used.ru_stime, used.ru_maxrss / 1024, pathlib.Path(f"{folder}/replies").read_bytes()


def final():
    """The requests that make an invocation and end it."""
    return harness.request("CreateInvocation", harness.new("u-a")) + harness.changing(
        "u-a", "FinalizeInvocation", harness.named("u-a"))


def speed(program, folder, method, body):
    count = max(1, TOTAL // len(body))
    one = call(method, body)
    spent = []
    for _ in range(TURNS):
        seconds, peak, replies = run(program, folder, [final(), *[one] * count])
        if replies.count(b"HTTP/1.1 200 OK\r\n") != 2 or replies.count(b"HTTP/1.1 ") != 2 + count:
            sys.exit(f"not every body was refused: {replies[-400:]!r}")
        spent.append(seconds)
    return count * len(body) / 1e6 / min(spent), peak


def zeros(program, folder, member):
    text = f'{{"invocation":"invocations/u-a","{member}":['.encode() + b"0," * (ZEROS - 1) + b"0]}"
    _, peak, replies = run(program, folder, [final(), call("BatchCreateTestResults", text)])
    if replies.count(b"HTTP/1.1 ") != 3:
        sys.exit(f"the list of zeros wasn't answered: {replies[-400:]!r}")
    return peak


def main(words):
    program = pathlib.Path(words[0]).resolve() if words else harness.TOP / "crates/rdb_program/out/rdb_program"
    if not words:
        harness.build_program()
    with tempfile.TemporaryDirectory() as folder:
        for size in (None, MOST_BYTES):
            body, rows = batch(size)
            for method in (UNKNOWN, "BatchCreateTestResults"):
                fast, peak = speed(program, folder, method, body)
                print(f"{len(body) / 1000:>8,.0f} KB, {rows:>6,} results, {method:<24} {fast:>7,.0f} MB/s {peak:>6.0f} MB")
        named, passed = (zeros(program, folder, member) for member in ("requests", "others"))
        print(f"{ZEROS:,} zeros: {named:.0f} MB as the list, {passed:.0f} MB as a member that is passed over, "
              f"{named / passed:.2f} (goal {GOAL})")


if __name__ == "__main__":
    main(sys.argv[1:])
