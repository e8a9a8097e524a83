#!/usr/bin/env python3
"""Measures artifacts of 1 MiB up and down over one connection, by the built program: batches of one each, and then each
whole by GetArtifact; and the same batches into an invocation that is final, which are read and refused.

Prints megabytes of contents a second of processor time, each as a ratio to what base64, SHA-256 and JSON text alone take
for the same contents by Python's own, which are C, in the same run; what these take one by one; and what part of the way
up is reading.
"""

import base64
import hashlib
import json
import pathlib
import random
import sys
import tempfile
import time

sys.path.insert(0, str(pathlib.Path(__file__).resolve().parent.parent / "tests"))
import harness  # noqa: E402

COUNT = 64
SIZE = 1 << 20
TURNS = 3  # of each, the fastest counts
PARENT = "invocations/u-a"


def body(number, contents):
    row = {"artifactId": f"log-{number}", "contentType": "text/plain", "contents": base64.b64encode(contents).decode()}
    row.update(sizeBytes=str(len(contents)), hash=f"sha256:{hashlib.sha256(contents).hexdigest()}")
    return {"requests": [{"parent": PARENT, "artifact": row}]}


def get(number):
    return harness.request("GetArtifact", {"name": f"{PARENT}/artifacts/log-{number}"})


def seconds(stream, folder, wanted):
    return harness.processor_seconds(stream, folder, wanted, TURNS)


def alone(work, things):
    """The seconds of processor time that this work on each of the things takes."""
    spent = []
    for _ in range(TURNS):
        before = time.process_time()
        for each in things:
            work(each)
        spent.append(time.process_time() - before)
    return min(spent)


def floors(contents, bodies):
    """What the parts take alone, by name: of the way up, and of the way down."""
    texts = [base64.b64encode(each) for each in contents]
    shown = [{"contents": each.decode()} for each in texts]
    hashes = alone(lambda each: hashlib.sha256(each).digest(), contents)
    decoded = alone(lambda each: base64.b64decode(each, validate=True), texts)
    up = {"JSON": alone(json.loads, bodies), "base64": decoded, "SHA-256": hashes}
    return up, {"JSON": alone(json.dumps, shown), "base64": alone(base64.b64encode, contents)}


def tell(way, spent, parts, megabytes):
    floor = sum(parts.values())
    each = ", ".join(f"{name} {1000 * part / COUNT:.2f}" for name, part in parts.items())
    print(f"{way}: {megabytes / spent:.0f} MB/s, {spent / floor:.2f} times the parts alone")
    print(f"  milliseconds of each: {1000 * spent / COUNT:.2f}; alone {each}")


def main():
    draw = random.Random(1)
    contents = [draw.randbytes(SIZE) for _ in range(COUNT)]
    bodies = [body(number, each) for number, each in enumerate(contents)]
    created = harness.request("CreateInvocation", harness.new("u-a"))
    final = harness.changing("u-a", "FinalizeInvocation", harness.named("u-a"))
    ups = b"".join(harness.changing("u-a", "BatchCreateArtifacts", each) for each in bodies)
    downs = b"".join(get(number) for number in range(COUNT))
    up_parts, down_parts = floors(contents, [json.dumps(each) for each in bodies])
    with tempfile.TemporaryDirectory(dir=sys.argv[1] if len(sys.argv) > 1 else None) as folder:
        start = seconds(created, folder, 1)
        recorded = seconds(created + ups, folder, 1 + COUNT)
        read = seconds(created + ups + downs, folder, 1 + 2 * COUNT)
        refused = seconds(created + final + ups, folder, 2)
    megabytes = COUNT * SIZE / 1e6
    tell("up", recorded - start, up_parts, megabytes)
    tell("down", read - recorded, down_parts, megabytes)
    print(f"what is read and refused takes {(refused - start) / (recorded - start):.2f} of the time of the way up")
    return 0


if __name__ == "__main__":
    sys.exit(main())
