#!/usr/bin/env python3
"""Measures batches of 500 results into one invocation over one connection: 10,000 results, and 100,000, by the built
program, plain and under request ids; and the same batches into an invocation that is final, which are read and refused.
The bodies of the 100,000 go to the built crate `batch_floor`, too, which does with each the least that a batch costs:
it reads it as JSON, takes its digest, and writes its value as the text of a reply.

Prints the seconds of processor time, results a second, the ratio of 100,000 to 10,000, which is 10 where the time is
linear, what part of the time the reading of refused batches takes, and the ratios to the floor.
"""

import json
import os
import pathlib
import re
import resource
import subprocess
import sys
import tempfile

sys.path.insert(0, str(pathlib.Path(__file__).resolve().parent.parent / "tests"))
import harness  # noqa: E402

COUNTS = (10_000, 100_000)
BATCH = 500
TURNS = 3  # of each, the fastest counts
GOAL = 1.6  # the most that the service is to take of the floor's time
SETTINGS = {"MALLOC_TRIM_THRESHOLD_": "268435456", "MALLOC_TOP_PAD_": "62914560"}  # those of ./rdb
SUMMARY = "<p>It didn't answer within ten seconds, and was asked three times.</p>"


def result(number):
    return {
        "testResult": {
            "testId": f"ninja://net:unit_tests/Dns{number % 997}.Answers",
            "resultId": f"run-{number}",
            "variant": {"def": {"builder": "linux-rel", "os": "Debian-12"}},
            "status": ["PASS", "FAIL", "SKIP"][number % 3],
            "expected": number % 2 == 0,
            "summaryHtml": SUMMARY,
            "duration": "0.125s",
            "tags": [{"key": "step", "value": "unit tests"}],
        }
    }


def bodies(count, numbered):
    for first in range(0, count, BATCH):
        body = {"invocation": "invocations/u-a", "requests": [result(n) for n in range(first, first + BATCH)]}
        if numbered:
            body["requestId"] = f"batch-{first}"
        yield body


def batches(count, numbered):
    for body in bodies(count, numbered):
        yield harness.changing("u-a", "BatchCreateTestResults", body)


def stream(count, numbered, final):
    yield harness.request("CreateInvocation", harness.new("u-a"))
    if final:
        yield harness.changing("u-a", "FinalizeInvocation", harness.named("u-a"))
    yield from batches(count, numbered)


def seconds(path, folder, program=None):
    """Of processor time, of the run that took least: of the service, over a new journal, or of another program."""
    spent = []
    for _ in range(TURNS):
        words = [program] if program else harness.words(folder)
        before = resource.getrusage(resource.RUSAGE_CHILDREN)
        with open(path, "rb") as feed, open(f"{folder}/replies", "wb") as replies:
            subprocess.run(words, stdin=feed, stdout=replies, check=True, env=SETTINGS | os.environ)
        after = resource.getrusage(resource.RUSAGE_CHILDREN)
        spent.append(after.ru_utime + after.ru_stime - before.ru_utime - before.ru_stime)
    return min(spent)


def measured(folder, count, numbered=False, final=False):
    path = pathlib.Path(folder) / "stream.http"
    path.write_bytes(b"".join(stream(count, numbered, final)))
    found = seconds(path, folder)
    told = (pathlib.Path(folder) / "replies").read_bytes()
    wanted = 2 if final else 1 + count // BATCH
    if told.count(b"HTTP/1.1 200 OK\r\n") != wanted:
        raise SystemExit(f"{told.count(b'HTTP/1.1 200 OK')} of {wanted} requests were accepted")
    kind = "refused" if final else "numbered" if numbered else "plain"
    print(f"{count} results, {kind}: {found:.2f} s, {count / found:.0f}/s, {path.stat().st_size} bytes of input")
    return found


def against_floor(folder, floor, spent, count, numbered=False):
    """Prints the ratio of what the service took for these batches to what the floor takes for their bodies."""
    path = pathlib.Path(folder) / "bodies"
    path.write_text("".join(json.dumps(body) + "\n" for body in bodies(count, numbered)))
    least = seconds(path, folder, floor)
    told = (pathlib.Path(folder) / "replies").read_text()
    if not re.fullmatch(rf"bodies {count // BATCH}, bytes \d+, bad 0, digests \d+\n", told):
        raise SystemExit(f"the floor told {told!r}")
    kind = "numbered" if numbered else "plain"
    print(f"the floor, {kind}: {least:.2f} s; ratio of the service to it: {spent / least:.2f} (goal: {GOAL} or less)")


def main():
    floor = harness.built("batch_floor", is_current=lambda _: False)
    with tempfile.TemporaryDirectory(dir=sys.argv[1] if len(sys.argv) > 1 else None) as folder:
        few, many = (measured(folder, count) for count in COUNTS)
        print(f"ratio of {COUNTS[1]} to {COUNTS[0]}: {many / few:.1f} (linear: {COUNTS[1] // COUNTS[0]})")
        against_floor(folder, floor, many, COUNTS[1])
        numbered = measured(folder, COUNTS[1], numbered=True)
        print(f"ratio of numbered to plain: {numbered / many:.2f}")
        against_floor(folder, floor, numbered, COUNTS[1], numbered=True)
        refused = measured(folder, COUNTS[1], final=True)
        print(f"the refused ones take {refused / many:.2f} of the time")
    return 0


if __name__ == "__main__":
    sys.exit(main())
