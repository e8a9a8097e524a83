"""The command `workload`: its line against a model that is computed here, over new journals and over one with rows, and
over a disk without room.
"""

import pathlib
import re
import resource
import signal
import subprocess

from harness import RDB, SECONDS, expect, same, unread
from journals import count, creation, journal_in, shown

STATUSES = ("PASS", "FAIL", "CRASH", "ABORT", "SKIP")
LINE = (
    b"workload %d %d: requests %d, finalized %d, verdicts %d, unexpected %d, skipped %d, flaky %d, exonerated %d, "
    b"expected %d, bytes %d\n"
)
BYTES = re.compile(rb", bytes (\d+)\n")


def workload(path, number, size):
    """What `workload` does: its output, its line on errors and its status."""
    return unread([RDB, "workload", "--journal", path, "--number", str(number), "--count", str(size)])


# The model


def draws(number):
    """The draws of a number."""
    while True:
        number = (number * 6364136223846793005 + 1442695040888963407) % 2**64
        yield number // 2**33


def verdict(results):
    """The status of a test's verdict by its results, each a status and whether that was expected."""
    if all(expected for _, expected in results):
        return "expected"
    if any(expected for _, expected in results):
        return "flaky"
    return "skipped" if all(status == "SKIP" for status, _ in results) else "unexpected"


def modelled(number, size):
    """How many requests are asked, how many results and kept replies there are, and the verdicts of each status."""
    drawn = draws(number)
    included, tests, requests = {}, {}, 0
    for at in range(size):
        requests += 2  # the creation and the batch
        if at:
            included[at] = next(drawn) % at
            requests += 1
        tests[at] = []
        for _ in range(10):
            test, status, expected = next(drawn) % 50, STATUSES[next(drawn) % 5], next(drawn) % 2 == 0
            tests[at].append((test, (status, expected)))
        requests += next(drawn) % 4 == 0
    requests += size
    reached, at = {}, size - 1
    while at is not None:  # each includes at most one
        for test, result in tests[at]:
            reached.setdefault(test, []).append(result)
        at = included.get(at)
    verdicts = [verdict(results) for results in reached.values()]
    requests += max(1, -(-len(verdicts) // 100))  # the pages
    return requests, [verdicts.count(name) for name in ("unexpected", "skipped", "flaky", "exonerated", "expected")]


def line(number, size, finalized, length):
    requests, verdicts = modelled(number, size)
    return LINE % (number, size, requests, finalized, sum(verdicts), *verdicts, length)


# The checks


def the_first_draw(folder):
    """The number 0 draws 167951807 first, so that the first result is of the test t7."""
    same(next(draws(0)), 167951807)
    path = journal_in(folder)
    expect(workload(path, 0, 1), line(0, 1, 1, path.stat().st_size - 9), b"", 0)
    content = path.read_bytes()
    same((b'"resultId":"r0"' in content, content.find(b'"testId":"t') == content.find(b'"testId":"t7"')), (True, True))


def the_same_line(folder):
    """The same number and count over new journals: the same line, which is the model's, and the same bytes."""
    told = []
    for name in ("one", "two"):
        path = pathlib.Path(folder) / name
        out, *end = workload(path, 7, 100)
        same(end, [b"", 0])
        told.append((out, path.read_bytes()))
        same(out, line(7, 100, 100, path.stat().st_size - 9))
        counted = b"invocations 100, finalized 100, results 1000, exonerations 0, artifacts 0, kept 200, bytes %d\n"
        expect(count(path), counted % (path.stat().st_size - 9), b"", 0)
    same(told[0], told[1])


def many_numbers(folder):
    """Numbers and counts at their bounds and between."""
    for number, size in ((0, 1), (1, 2), (2**64 - 1, 3), (2**63, 17), (12345, 40)):
        path = pathlib.Path(folder) / f"{number}-{size}"
        out, *end = workload(path, number, size)
        same((out, end), (line(number, size, size, path.stat().st_size - 9), [b"", 0]))


def over_rows(folder):
    """Over a journal that has rows of others and its own, what is refused is passed over, and nothing is added twice."""
    path = journal_in(folder)
    same([status for status, _ in shown(creation("u-x"), folder, path)], [200])
    requests, verdicts = modelled(3, 5)
    first, *end = workload(path, 3, 5)
    size = path.stat().st_size
    same((first, end), (line(3, 5, 5, size - 9), [b"", 0]))
    again, *end = workload(path, 3, 5)
    same((again, end, path.stat().st_size), (first, [b"", 0], size))
    same([status for status, _ in shown(creation("u-w5"), folder, path)], [200])
    counted = b"invocations 7, finalized 5, results 50, exonerations 0, artifacts 0, kept 10, bytes %d\n"
    expect(count(path), counted % (path.stat().st_size - 9), b"", 0)


def a_full_disk(folder):
    """Where the journal can't grow the run ends without its line, and a later one goes on."""

    def limited():
        signal.signal(signal.SIGXFSZ, signal.SIG_IGN)
        resource.setrlimit(resource.RLIMIT_FSIZE, (4000, 4000))

    path = journal_in(folder)
    words = [RDB, "workload", "--journal", path, "--number", "7", "--count", "9"]
    done = subprocess.run(words, stdin=subprocess.DEVNULL, capture_output=True, timeout=SECONDS, preexec_fn=limited)
    expect((done.stdout, done.stderr, done.returncode), b"", b"rdb: fault of disk\n", 4)
    out, *end = workload(path, 7, 9)
    same((BYTES.sub(b"", out), end), (BYTES.sub(b"", line(7, 9, 9, 0)), [b"", 0]))


def other_ends(folder):
    """A journal that is refused, an output that takes nothing, and a folder in the journal's place."""
    path = journal_in(folder, b"hello world")
    expect(workload(path, 7, 1), b"", b"rdb: journal refused: 1 NotAJournal 0\n", 3)
    expect(workload(folder, 7, 1), b"", b"rdb: fault of disk\n", 4)
    words = [RDB, "workload", "--journal", pathlib.Path(folder) / "new", "--number", "7", "--count", "1"]
    with open("/dev/full", "wb") as full:
        done = subprocess.run(words, stdin=subprocess.DEVNULL, stdout=full, stderr=subprocess.PIPE, timeout=SECONDS)
    expect((done.stdout, done.stderr, done.returncode), None, b"rdb: fault of output\n", 4)


CHECKS = {
    "the first draw": the_first_draw,
    "the same line twice": the_same_line,
    "many numbers": many_numbers,
    "a journal with rows": over_rows,
    "a full disk": a_full_disk,
    "other ends": other_ends,
}
