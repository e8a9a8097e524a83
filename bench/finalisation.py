#!/usr/bin/env python3
"""Measures how invocations end, over one connection by the built program: 3,000 and 30,000 are created, each included
by an earlier one, and then finalised, once from the last to the first (each is final at once) and once from the first
to the last (each that includes others waits for the last one that it reaches, the first for all).

Prints the seconds of each and their ratio, which is 10 where the time is linear.
"""

import pathlib
import subprocess
import sys
import tempfile
import time

sys.path.insert(0, str(pathlib.Path(__file__).resolve().parent.parent / "tests"))
import harness  # noqa: E402
from harness import adding, changing, named, new, request  # noqa: E402

COUNTS = (3_000, 30_000)
TURNS = 3  # of each, the fastest counts
FINAL = b'"state":"FINALIZED"'


def earlier(number):
    """An earlier one, drawn by a linear congruence, so that each run has the same tree."""
    return (number * 6364136223846793005 + 1442695040888963407) % 2**64 // 2**33 % number


def requests(count, order):
    for number in range(count):
        yield request("CreateInvocation", new(f"u-{number}"))
        if number:
            name = f"u-{earlier(number)}"
            yield changing(name, "UpdateIncludedInvocations", adding(name, f"u-{number}"))
    for number in order(count):
        yield changing(f"u-{number}", "FinalizeInvocation", named(f"u-{number}"))
    yield request("GetInvocation", named("u-0"))


def final_at_once(count):
    """How many include no other one."""
    return count - len({earlier(number) for number in range(1, count)})


# the order in which they are finalised, and of how many of them the reply says that they are final
ORDERS = {
    "leaf by leaf": (lambda count: range(count - 1, -1, -1), lambda count: count),
    "root first": (range, final_at_once),
}


def seconds(path, folder, count, ended):
    words = harness.words(folder)
    with open(path, "rb") as feed, open(f"{folder}/replies", "wb") as replies:
        start = time.monotonic()
        subprocess.run(words, stdin=feed, stdout=replies, check=True)
        taken = time.monotonic() - start
    made = (pathlib.Path(folder) / "replies").read_bytes()
    if made.count(b"HTTP/1.1 200 OK\r\n") != 3 * count:
        raise SystemExit("not every request was accepted")
    if made.count(FINAL) != ended + 1 or FINAL not in made[made.rindex(b"HTTP/1.1") :]:
        raise SystemExit("not those became final that had to")
    return taken


def main():
    few, many = COUNTS
    with tempfile.TemporaryDirectory(dir=sys.argv[1] if len(sys.argv) > 1 else None) as folder:
        for name, (order, ended) in ORDERS.items():
            found = {}
            for count in COUNTS:
                path = pathlib.Path(folder) / f"{count}.http"
                path.write_bytes(b"".join(requests(count, order)))
                found[count] = min(seconds(path, folder, count, ended(count)) for _ in range(TURNS))
                print(f"{count} invocations, {name}: {found[count]:.2f} s, {3 * count / found[count]:.0f} requests/s")
            print(f"ratio of {many} to {few}, {name}: {found[many] / found[few]:.1f} (linear: {many / few:.0f})")
    return 0


if __name__ == "__main__":
    sys.exit(main())
