#!/usr/bin/env python3
"""Measures pages of 100 verdicts over 1,000, 10,000 and 100,000 results of one invocation, beside 100,000 results of other
invocations that aren't asked: the first page, one in the middle and the last one, by the built program.

Prints the milliseconds of processor time of a page, which is what a run with so many of them takes more than one without,
and ratios of growth: 10 from one size to the next where the time is linear.
"""

import base64
import hashlib
import pathlib
import sys
import tempfile

sys.path.insert(0, str(pathlib.Path(__file__).resolve().parent.parent / "tests"))
import harness  # noqa: E402

COUNTS = (1_000, 10_000, 100_000)
OTHERS = 100_000  # results that aren't asked, of ten invocations
BATCH = 500
PAGES = {1_000: 400, 10_000: 60, 100_000: 20}  # of each kind, in one run
TURNS = 2  # of each, the fastest counts
LABEL = hashlib.sha256().hexdigest()[:16].encode()


def test_of(number):
    return f"suite/case-{number:06}"


def recorded(name, count):
    yield harness.request("CreateInvocation", harness.new(name))
    for first in range(0, count, BATCH):
        rows = [{"testId": test_of(n), "resultId": "r", "status": "PASS", "expected": True} for n in range(first, min(first + BATCH, count))]
        yield harness.changing(name, "BatchCreateTestResults", harness.rows(name, "testResult", rows))


def token_behind(number):
    """The token of the verdict of this test: all are expected."""
    query = hashlib.sha256(b"QueryTestVariants\ninvocations/u-asked\n").digest()
    test = test_of(number).encode()
    key = bytes([50]) + len(test).to_bytes(2, "little") + test + LABEL + (0).to_bytes(4, "little")
    return base64.b64encode(b"\1" + query + b"\1" + key).decode()


def page(token):
    text = '{"invocations":["invocations/u-asked"],"pageToken":"%s"}' % token
    head = ["POST /prpc/luci.resultdb.v1.ResultDB/QueryTestVariants HTTP/1.1", "Authorization: Bearer tok-a", f"Content-Length: {len(text)}"]
    return ("\r\n".join(head) + "\r\n\r\n" + text).encode()


def seconds(stream, folder, wanted):
    return harness.processor_seconds(stream, folder, wanted, TURNS)


def main():
    found = {}
    with tempfile.TemporaryDirectory(dir=sys.argv[1] if len(sys.argv) > 1 else None) as folder:
        beside = b"".join(each for n in range(10) for each in recorded(f"u-other{n}", OTHERS // 10))
        for count in COUNTS:
            front = beside + b"".join(recorded("u-asked", count))
            asked = front.count(b"POST /prpc/")
            plain = seconds(front, folder, asked)
            for kind, token in (("first", ""), ("middle", token_behind(count // 2)), ("last", token_behind(count - 101))):
                spent = seconds(front + page(token) * PAGES[count], folder, asked + PAGES[count]) - plain
                found[kind, count] = spent / PAGES[count]
                growth = found[kind, count] / found[kind, count // 10] if (kind, count // 10) in found else None
                print(f"{count} results, {kind} page: {1000 * found[kind, count]:.2f} ms{f', {growth:.1f} times as much' if growth else ''}")
    return 0


if __name__ == "__main__":
    sys.exit(main())
