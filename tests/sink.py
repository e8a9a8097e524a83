"""Reports that are uploaded by the command `sink` to the program behind a listener: over links that are whole, and over
links that are cut at random bytes in both directions.
"""

import contextlib
import hashlib
import os
import pathlib
import random
import re
import shutil
import socket
import subprocess
import threading

import harness
import reports
from harness import EXAMPLES, FARM, RDB, SECONDS, Wrong, expect, named, same, told_by, token
from verdicts import asking, made

REPORTS = EXAMPLES / "reports"
FORMS = {".tap": "tap", ".xml": "junit"}
TAKEN = b"HTTP/1.1 200 OK\r\nContent-Length: 2\r\n\r\n{}"  # the reply to a batch
CUTS = 200  # links that are cut at least
MOST = 4  # links that are cut one after the other: one more and an upload gives up
COUNTS = re.compile(rb"invocations \d+, finalized \d+, results (\d+), exonerations 0, artifacts 0, kept (\d+), bytes \d+\n")


# The listener


def passed(read, write, most):
    """Hands bytes on, at most so many where a number is given: whether the end was reached before."""
    left = most
    while left is None or left > 0:
        piece = read(65536 if left is None else min(65536, left))
        if not piece:
            return True
        with contextlib.suppress(OSError):  # the other side may be gone
            write(piece)
        left = None if left is None else left - len(piece)
    return False


def hand_over(link, program, cut):
    """Hands a link to a program. A cut names how many bytes pass each way before the link breaks, or is None. Says
    whether it broke."""
    up, down = cut or (None, None)
    broken = []

    def feed():
        with contextlib.suppress(OSError):
            if not passed(link.recv, program.stdin.write, up):
                broken.append(up)
                link.shutdown(socket.SHUT_RDWR)
        with contextlib.suppress(OSError):
            program.stdin.close()

    feeder = threading.Thread(target=feed)
    feeder.start()
    if not passed(program.stdout.read, link.sendall, down):
        broken.append(down)
        with contextlib.suppress(OSError):
            link.shutdown(socket.SHUT_RDWR)
        program.stdout.read()  # so that what it recorded is whole
    with contextlib.suppress(OSError):
        link.shutdown(socket.SHUT_RDWR)
    feeder.join(SECONDS)
    program.wait(SECONDS)
    return bool(broken)


class Farm:
    """A server on this machine: each link is handed to the program, one after the other, over one journal."""

    def __init__(self, folder):
        self.folder = folder
        self.journal = pathlib.Path(folder) / "farm.journal"
        self.cuts = []  # of the links that are to come; those behind them are whole
        self.links = 0
        self.broken = 0
        self.turn = threading.Lock()  # of the one process that may have the journal

    def __enter__(self):
        self.server = socket.create_server(("127.0.0.1", 0))
        self.thread = threading.Thread(target=self.serve)
        self.thread.start()
        return self

    def __exit__(self, *_):
        # wakes the listener where no system call would
        with contextlib.suppress(OSError):
            self.server.shutdown(socket.SHUT_RDWR)
        self.server.close()
        self.thread.join(SECONDS)

    def serve(self):
        while True:
            try:
                link, _ = self.server.accept()
            except OSError:
                return
            self.links += 1
            with self.turn, link:
                link.setsockopt(socket.IPPROTO_TCP, socket.TCP_NODELAY, 1)
                words = harness.words(self.folder, journal=self.journal)
                program = subprocess.Popen(
                    words, stdin=subprocess.PIPE, stdout=subprocess.PIPE, stderr=subprocess.DEVNULL, bufsize=0
                )
                self.broken += hand_over(link, program, self.cuts.pop(0) if self.cuts else None)

    def address(self):
        return f"127.0.0.1:{self.server.getsockname()[1]}"

    def told(self, stream):
        """What the program tells of a stream of requests over the journal."""
        with self.turn:
            out, errors, status = harness.run(stream, self.folder, journal=self.journal)
        same((errors, status), (b"", 0))
        return [told_by(int(head.split(b" ")[1]), body) for head, body in harness.replies(out)]

    def counts(self):
        """How many results the journal has, and how many numbered requests."""
        with self.turn:
            done = subprocess.run([RDB, "check", "--journal", self.journal], capture_output=True, timeout=SECONDS)
        found = COUNTS.fullmatch(done.stdout)
        if not found or done.returncode:
            raise Wrong(f"counted {done!r}")
        return int(found[1]), int(found[2])


@contextlib.contextmanager
def giving(*texts):
    """A listener on this machine, each of whose links gives the next of these texts and ends. It yields its address, and
    the texts that were given so far."""
    given = []

    def serve():
        with contextlib.suppress(OSError):  # nobody calls any more
            for text in texts:
                link, _ = server.accept()
                given.append(text)
                with link, contextlib.suppress(OSError):  # who called may be gone
                    link.sendall(text)
                    link.shutdown(socket.SHUT_WR)
                    while link.recv(65536):
                        pass

    with socket.create_server(("127.0.0.1", 0)) as server:
        thread = threading.Thread(target=serve)
        thread.start()
        try:
            yield f"127.0.0.1:{server.getsockname()[1]}", given
        finally:
            with contextlib.suppress(OSError):
                server.shutdown(socket.SHUT_RDWR)
            thread.join(SECONDS)


# The sink


def configured(folder, name, bearer="tok-a", update=None):
    """A configuration for uploads to an invocation."""
    path = pathlib.Path(folder) / f"{name}.toml"
    path.write_text(f'token = "{bearer}"\nupdate_token = "{update or token(name)}"\n')
    return path


def sink(report, config, address, name, form, *more, stdout=subprocess.PIPE):
    """Uploads a report, which is bytes, or a file whose reads fail."""
    words = [RDB, "sink", "--config", config, "--server", address, "--invocation", name, "--format", form, *more]
    feed = {"input": report} if isinstance(report, bytes) else {"stdin": report}
    done = subprocess.run(words, **feed, stdout=stdout, stderr=subprocess.PIPE, timeout=SECONDS)
    return done.stdout, done.stderr, done.returncode


def sent(cases):
    return b"sent %d cases in %d batches\n" % (cases, -(-cases // 200)), b"", 0


# What is recorded


def tap(count):
    """A report of so many cases, every third of which fails."""
    points = [f"{'not ok' if n % 3 == 0 else 'ok'} {n} - case {n}" for n in range(1, count + 1)]
    return ("\n".join(["TAP version 14", *points, f"1..{count}"]) + "\n").encode()


def tap_rows(count):
    return [(f"case {n}", "FAIL" if n % 3 == 0 else "PASS", n % 3 != 0, None, "") for n in range(1, count + 1)]


def listed_rows(path):
    """The cases that stand beside a report: name, status, whether that was expected, duration and message."""
    rows = []
    for line in path.read_text().splitlines():
        if line.startswith("  ") and rows:
            name, status, expected, duration, message = rows.pop()
            rows.append((name, status, expected, duration, f"{message}\n{line[2:]}" if message else line[2:]))
        else:
            status, expected, duration, name = line.split(" ", 3)
            rows.append((name, status, expected == "expected", None if duration == "-" else duration, ""))
    return rows


def recorded(farm, name):
    """The results of an invocation, each as its id, its case's name, status, expectation, duration and message."""
    rows, mark = [], ""
    while mark is not None:
        query = asking("alice", "QueryTestResults", invocations=[f"invocations/{name}"], pageSize=1000, pageToken=mark)
        status, page = farm.told(query)[0]
        same(status, 200)
        for row in page.get("testResults", []):
            message = row.get("failureReason", {}).get("primaryErrorMessage", "")
            shown = row["testId"], row["status"], row.get("expected", False), row.get("duration"), message
            rows.append((row["resultId"], shown))
        mark = page.get("nextPageToken")
    return sorted(rows)


def expected(name, report, rows, prefix=""):
    digest = hashlib.sha256(name.encode() + b"\n" + report).hexdigest()[:8]
    return sorted((f"{digest}-{n}", (prefix + row[0], *row[1:])) for n, row in enumerate(rows, 1))


def verdict_tests(farm, name):
    """The tests of the verdicts of an invocation, with how many results each shows."""
    query = asking("alice", "QueryTestVariants", invocations=[f"invocations/{name}"], pageSize=10000, resultLimit=100)
    status, page = farm.told(query)[0]
    same(status, 200)
    return sorted((each["testId"], len(each["results"])) for each in page.get("testVariants", []))


# The checks


def reports_of_the_examples(folder):
    """Each report of examples/reports is uploaded under a prefix, and read back as results and as verdicts; one that
    its reader refuses is refused, and dials nothing."""
    with Farm(folder) as farm:
        for place, report in enumerate(sorted(path for path in REPORTS.iterdir() if path.suffix in FORMS)):
            name, text = f"u-{place}", report.read_bytes()
            same(farm.told(made(name))[0][0], 200)
            cases = report.with_suffix(report.suffix + ".cases")
            before = farm.links
            got = sink(text, configured(folder, name), farm.address(), name, FORMS[report.suffix], "--prefix", "suite/")
            refused = re.fullmatch(r"fault (\d+ \w+).*\n", cases.read_text())
            if refused:
                expect(got, b"", b"rdb: report refused: %s\n" % refused[1].encode(), 5)
                same(farm.links, before)
                continue
            rows = listed_rows(cases)
            same(got, sent(len(rows)))
            same(recorded(farm, name), expected(name, text, rows, "suite/"))
            tests = sorted({f"suite/{row[0]}" for row in rows})
            same(verdict_tests(farm, name), [(test, sum(test == f"suite/{r[0]}" for r in rows)) for test in tests])


def batches_of_200(folder):
    """201 cases make two batches, and none makes none, for which nothing is dialled."""
    with Farm(folder) as farm:
        same(farm.told(made("u-a") + made("u-b"))[1][0], 200)
        same(sink(tap(0), configured(folder, "u-b"), farm.address(), "u-b", "tap"), sent(0))
        same((farm.links, recorded(farm, "u-b")), (0, []))
        same(sink(tap(201), configured(folder, "u-a"), farm.address(), "u-a", "tap"), sent(201))
        same(recorded(farm, "u-a"), expected("u-a", tap(201), tap_rows(201)))
        same((farm.links, farm.counts()), (1, (201, 2)))


def cut_links(folder):
    """Links are cut at random bytes, in one direction or in both. Each report is recorded whole, each case once; and an
    upload that is run again tells the same and changes nothing."""
    drawn = random.Random(32)
    results, batches = 0, 0
    with Farm(folder) as farm:
        while farm.broken < CUTS:
            name, count = f"u-{farm.links}", drawn.choice([1, 7, 200, 201, 401])
            report, config = tap(count), configured(folder, name)
            same(farm.told(made(name))[0][0], 200)
            size = 400 * -(-count // 200) + 120 * count
            for _ in range(drawn.randint(1, MOST)):
                up = drawn.choice([None, drawn.randrange(size)])
                down = drawn.randrange(200) if up is None else drawn.choice([None, drawn.randrange(200)])
                farm.cuts.append((up, down))
            same(sink(report, config, farm.address(), name, "tap"), sent(count))
            farm.cuts.clear()
            results, batches = results + count, batches + -(-count // 200)
            same(recorded(farm, name), expected(name, report, tap_rows(count)))
            same(sink(report, config, farm.address(), name, "tap"), sent(count))
            same(farm.counts(), (results, batches))
        return f"{farm.broken} links of {farm.links}"


def refused_and_alone(folder):
    """A wrong token is refused by the server, a wrong configuration by the program; without a listener it gives up."""
    report = tap(1)
    with Farm(folder) as farm:
        same(farm.told(made("u-a"))[0][0], 200)
        address = farm.address()
        for wrong in (configured(folder, "u-a", bearer="tok-x"), configured(folder, "u-a", update="0" * 64)):
            out, errors, status = sink(report, wrong, address, "u-a", "tap")
            if not re.fullmatch(rb"rdb: batch 1 refused: 40[13]\n", errors):
                raise Wrong(f"told {errors!r}")
            same((out, status), (b"", 6))
        same(recorded(farm, "u-a"), [])
        config = configured(folder, "u-a")
        links = farm.links
        config.write_text('token = "secret words"\n')
        expect(sink(report, config, address, "u-a", "tap"), b"", b"rdb: configuration refused: 8 BadShape\n", 2)
        config.unlink()
        expect(sink(report, config, address, "u-a", "tap"), b"", b"rdb: fault of config\n", 4)
        expect(sink(report, configured(folder, "u-a"), address, "U-A", "tap"), b"", b"rdb: words refused\n", 1)
        expect(sink(report, configured(folder, "u-a"), address, "u-a", "xml"), b"", b"rdb: words refused\n", 1)
        same(farm.links, links)
    for nobody in (address, "nobody"):
        got = sink(report, configured(folder, "u-a"), nobody, "u-a", "tap")
        expect(got, b"", b"rdb: gave up on batch 1\n", 4)


def replies_of_a_listener(folder):
    """Links that end before a whole reply is there are dialled again; a refusal, and what is no reply, are told."""
    report, config = tap(2), configured(folder, "u-a")

    def refused(what):
        return b"", b"rdb: batch 1 refused: %s\n" % what, 6

    for texts, wanted in (
        ((TAKEN,), sent(2)),
        ((b"", b"HTTP/1.1 2", TAKEN), sent(2)),
        ((b"HTTP/1.1 409 Conflict\r\nContent-Length: 0\r\n\r\n",), refused(b"409")),
        ((b"HTTP/1.1 403 Forbidden\r\nContent-Length: 0\r\n\r\n",), refused(b"403")),
        ((b"SMTP\r\n\r\n",), refused(b"bad reply")),
        ((b"SSH-2.0-OpenSSH\r\n\r\n",), refused(b"bad reply")),
    ):
        with giving(*texts) as (address, given):
            got = sink(report, config, address, "u-a", "tap")
        same((got, given), (wanted, list(texts)))


def nothing_is_dialled(folder):
    """A report that can't be read, has a fault or takes more memory than there may be; a configuration that can't be
    read or has a fault, and one of the service; and what was sent can't be told where nobody takes it."""
    config, suite = configured(folder, "u-a"), b'<testsuite><testcase name="a"/></testsuite>'
    number = pathlib.Path(folder) / "number.toml"
    number.write_text("token = 1\n")
    unread = os.open(folder, os.O_RDONLY)  # reads of a folder fail
    wanting = b"", b"rdb: want of memory\n", 7
    try:
        with giving(TAKEN) as (address, given):
            for report, setting, form, wanted in (
                (unread, config, "tap", (b"", b"rdb: fault of input\n", 4)),
                (suite, config, "tap", (b"", b"rdb: report refused: 1 NoVersion\n", 5)),
                (b"1..1\n", config, "tap", (b"", b"rdb: report refused: 1 NoVersion\n", 5)),
                (tap(2), config, "junit", (b"", b"rdb: report refused: 2 NotWellFormed\n", 5)),
                (reports.named(1), config, "tap", wanting),
                (tap(2), folder, "tap", (b"", b"rdb: fault of config\n", 4)),
                (tap(2), number, "tap", (b"", b"rdb: configuration refused: 8 BadShape\n", 2)),
                (tap(2), FARM, "tap", (b"", b"rdb: configuration refused: 8 BadShape\n", 2)),
            ):
                same((sink(report, setting, address, "u-a", form), given), (wanted, []))
            with open("/dev/full", "wb") as full:
                got = sink(suite, config, address, "u-a", "junit", stdout=full)
            same((got, given), ((None, b"rdb: fault of output\n", 4), [TAKEN]))
    finally:
        os.close(unread)


def by_the_script(folder):
    """The script of the examples creates an invocation, runs tests, uploads their report and finalises."""
    if not shutil.which("curl"):
        return "no curl"
    report, cases = REPORTS / "pytest.xml", REPORTS / "pytest.xml.cases"
    with Farm(folder) as farm:
        words = [EXAMPLES / "upload.sh", farm.address(), "tok-a", "proj:ci", "u-a", "cp", report, "report.xml"]
        done = subprocess.run(words, cwd=folder, capture_output=True, timeout=SECONDS)
        same((done.stdout.splitlines()[0] + b"\n", done.stderr, done.returncode), sent(len(listed_rows(cases))))
        same(recorded(farm, "u-a"), expected("u-a", report.read_bytes(), listed_rows(cases)))
        status, shown = farm.told(asking("alice", "GetInvocation", **named("u-a")))[0]
        same((status, shown["state"]), (200, "FINALIZED"))


CHECKS = {
    "reports of the examples": reports_of_the_examples,
    "batches of 200": batches_of_200,
    "cut links": cut_links,
    "refused, and alone": refused_and_alone,
    "replies of a listener": replies_of_a_listener,
    "nothing is dialled": nothing_is_dialled,
    "by the script": by_the_script,
}
