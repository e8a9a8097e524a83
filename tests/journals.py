"""The journal that the words name: what one run records the next one finds, and a count tells; which journals are
refused; and what kills and a full disk leave of it.
"""

import json
import os
import pathlib
import random
import resource
import signal
import struct
import subprocess
import threading
import time

from harness import BEARER, EXAMPLES, LENGTH, RDB, SECONDS, Wrong, changing, expect, named, new, replies, request, route, run
from harness import results, same, told_by, unread, words

KILLS = 200
EMPTY = b"RDBJRNL1\0"
TAKEN = b"19 Taken: invocations/u-a/tests/t/results/r0\n"
MOST = (1 << 30) - (1 << 22)  # bytes of the records, where a request adds one
COUNTS = b"invocations %d, finalized %d, results %d, exonerations %d, artifacts 0, kept %d, bytes %d\n"


def journal_in(folder, content=None):
    path = pathlib.Path(folder) / "one.journal"
    if content is not None:
        path.write_bytes(content)
    return path


def count(path):
    """What `check` does: its output, its line on errors and its status."""
    return unread([RDB, "check", "--journal", path])


def shown(stream, folder, path):
    """The replies of a run over this journal, each as its status and what it shows."""
    out, *end = run(stream, folder, journal=path)
    same(end, [b"", 0])
    return [told_by(int(head.split(b" ")[1]), body) for head, body in replies(out)]


def creation(name, **more):
    """A creation whose body has no blanks."""
    text = json.dumps({**more, **new(name)}, separators=(",", ":"))
    head = [f"POST {route('CreateInvocation')} HTTP/1.1", *(": ".join(it) for it in BEARER.items())]
    return ("\r\n".join([*head, f"Content-Length: {len(text)}"]) + "\r\n\r\n" + text).encode()


def a_second_run(folder):
    """An invocation that one run created the next one reads, and a count tells of it and of its 89 bytes."""
    path = journal_in(folder)
    [created] = shown(creation("u-a"), folder, path)
    same((created[0], created[1]["name"], path.stat().st_size), (200, "invocations/u-a", 89))
    same(shown(request("GetInvocation", named("u-a")), folder, path), [created])
    expect(count(path), COUNTS % (1, 0, 0, 0, 0, 80), b"", 0)
    same(path.stat().st_size, 89)


def nothing_was_asked(folder):
    """A run without a request leaves an empty journal, and so does a count of a missing one, or of nine bytes."""
    path = journal_in(folder)
    expect(run(b"", folder, journal=path), b"", b"", 0)
    same(path.read_bytes(), EMPTY)
    for content in (None, b"", b"RDBJ", b"nine byte"):
        path.unlink()
        journal_in(folder, content)
        expect(count(path), COUNTS % (0, 0, 0, 0, 0, 0), b"", 0)
        same(path.read_bytes(), EMPTY)


def what_is_recorded(folder):
    """What changes nothing adds no byte: reads, refusals, and a creation that is sent again, in another run, which gets
    its first reply byte for byte."""
    path = journal_in(folder)
    first, *end = run(creation("u-a", requestId="q"), folder, journal=path)
    same(end, [b"", 0])
    finalized = shown(changing("u-a", "FinalizeInvocation", named("u-a")), folder, path)
    size = path.stat().st_size
    same(finalized[0][1]["state"], "FINALIZED")
    expect(run(creation("u-a", requestId="q"), folder, journal=path), first, b"", 0)
    same(shown(request("GetInvocation", named("u-a")), folder, path), finalized)
    same(shown(creation("u-a"), folder, path), [(409, "19 Taken: invocations/u-a\n")])
    same(path.stat().st_size, size)
    expect(count(path), COUNTS % (1, 1, 0, 0, 1, size - 9), b"", 0)


def refused_journals(folder):
    """Other bytes than a journal's are refused by number, name and place, by both commands, and stay as they are."""
    path = journal_in(folder)
    whole = run(creation("u-a"), folder, journal=path)
    same(whole[1:], (b"", 0))
    record = path.read_bytes()
    cases = [
        (b"RDBJRNL1\1\xff\xff\xff\xff\0", b"2 Damaged 9"),
        (b"RDBJRNL9\0\0", b"3 NewerVersion 57"),
        (b"hello world", b"1 NotAJournal 0"),
        (b"RDBJRNLx\0\0", b"1 NotAJournal 7"),
        (record[:13] + b"\x09" + record[14:], b"2 Damaged 13"),
    ]
    cases += [(record[:end], b"2 Damaged 9") for end in range(10, len(record))]
    for content, line in cases:
        path = journal_in(folder, content)
        wanted = b"", b"rdb: journal refused: %s\n" % line, 3
        for got in (unread(words(folder, journal=path)), count(path)):
            same((got, path.read_bytes()), (wanted, content))


def no_disk(folder):
    """A folder in the journal's place, and a folder that isn't there."""
    for path in (pathlib.Path(folder), pathlib.Path(folder) / "none" / "one.journal"):
        for got in (unread(words(folder, journal=path)), count(path)):
            expect(got, b"", b"rdb: fault of disk\n", 4)


def whole_replies(stream):
    """The heads of the replies that came whole, of a stream that may end inside one."""
    at, heads = 0, []
    while True:
        start = stream.find(b"\r\n\r\n", at) + 4
        length = LENGTH.search(stream, at, start) if start >= 4 else None
        if not length or len(stream) - start < int(length[1]):
            return heads
        heads.append(stream[at:start])
        at = start + int(length[1])


def killed(folder, path, names, seconds):
    """Creates these in turn until the program is killed, and gives the heads of the replies that came whole."""
    program = subprocess.Popen(words(folder, journal=path), stdin=subprocess.PIPE, stdout=subprocess.PIPE)
    plain, numbered = {}, [{"requestId": name} for name in names]
    feed = b"".join(creation(name, **(numbered[at] if at % 2 else plain)) for at, name in enumerate(names))

    def write():
        try:
            program.stdin.write(feed)
            program.stdin.flush()
        except BrokenPipeError:
            pass

    writer = threading.Thread(target=write)
    writer.start()
    time.sleep(seconds)
    program.kill()
    output = program.stdout.read()
    writer.join()
    program.wait()
    return whole_replies(output)


def kills(folder):
    """A program that is killed at any moment loses nothing that it answered, and at most one creation more is there."""
    path, before = journal_in(folder), 0
    for kill in range(KILLS):
        names = [f"u-{before + number}" for number in range(400)]
        heads = killed(folder, path, names, random.uniform(0.005, 0.08))
        if any(not head.startswith(b"HTTP/1.1 200 ") for head in heads):
            raise Wrong(f"kill {kill}: {heads!r}")
        out, *end = count(path)
        same(end, [b"", 0])
        after = int(out.split(b",")[0].split(b" ")[1])
        if after - before not in (len(heads), len(heads) + 1):
            raise Wrong(f"kill {kill}: {before} rows, {len(heads)} acknowledged, {after} found")
        before = after
    if not before:
        raise Wrong("nothing was ever acknowledged")
    stream = b"".join(request("GetInvocation", named(f"u-{number}")) for number in range(before))
    same({status for status, _ in shown(stream, folder, path)}, {200})
    return f"{KILLS} kills, {before} rows"


class Calling:
    """A program that is asked one request after another over pipes."""

    def __init__(self, folder, path, limit=resource.RLIM_INFINITY):
        def limited():
            signal.signal(signal.SIGXFSZ, signal.SIG_IGN)
            resource.setrlimit(resource.RLIMIT_FSIZE, (limit, resource.RLIM_INFINITY))

        self.program = subprocess.Popen(
            words(folder, journal=path), stdin=subprocess.PIPE, stdout=subprocess.PIPE, preexec_fn=limited
        )

    def ask(self, stream):
        self.program.stdin.write(stream)
        self.program.stdin.flush()
        head = b""
        while not head.endswith(b"\r\n\r\n"):
            head += self.program.stdout.read(1)
        body = self.program.stdout.read(int(LENGTH.search(head)[1]))
        return told_by(int(head.split(b" ")[1]), body)

    def make_room(self):
        resource.prlimit(self.program.pid, resource.RLIMIT_FSIZE, (resource.RLIM_INFINITY, resource.RLIM_INFINITY))

    def end(self):
        self.program.stdin.close()
        same(self.program.wait(SECONDS), 0)
        self.program.stdout.close()


def a_full_disk(folder):
    """Where the journal can't grow, changes are told Unavailable and reads go on; once there is room, so do changes."""
    path, unavailable = journal_in(folder), (503, "unavailable\n")
    calling = Calling(folder, path, 300)
    told = [calling.ask(creation(f"u-{number}")) for number in range(6)]
    made = [status for status, _ in told].count(200)
    same(told[made:], [unavailable] * (6 - made))
    if not 0 < made < 6:
        raise Wrong(f"{made} of 6 were made")
    same(calling.ask(request("GetInvocation", named("u-0"))), told[0])
    same(calling.ask(creation("u-0")), (409, "19 Taken: invocations/u-0\n"))
    same(calling.ask(creation("u-x")), unavailable)
    calling.make_room()
    same(calling.ask(creation("u-x"))[0], 200)
    calling.end()
    stream = b"".join(request("GetInvocation", named(name)) for name in ["u-x", *(f"u-{n}" for n in range(6))])
    same([status for status, _ in shown(stream, folder, path)], [200] * (1 + made) + [404] * (6 - made))


def recorded(name, moment, length):
    """The record of a creation by alice, with blanks behind its body, so that it has so many bytes."""
    body = json.dumps(new(name)).encode().ljust(length - 25)
    return struct.pack("<BIBQH", 1, length - 5, 1, moment, 5) + b"alice" + struct.pack("<I", len(body)) + body


def after(seconds):
    """The moment so many seconds from now."""
    return time.strftime("%Y-%m-%dT%H:%M:%SZ", time.gmtime(time.time() + seconds))


def padded(length, name, **more):
    """A creation whose record would have so many bytes."""
    text = json.dumps({**new(name), **more}).encode().ljust(length - 25)
    head = [f"POST {route('CreateInvocation')} HTTP/1.1", *(": ".join(it) for it in BEARER.items())]
    return "\r\n".join([*head, f"Content-Length: {len(text)}", "", ""]).encode() + text


def a_full_journal(folder):
    """A change whose record fills the journal to its last byte is made, and one with a byte more is refused by how many
    bytes there are and would come. Reads and a repeat go on, and so do deadlines, past that bound, and after a run."""
    path, size = journal_in(folder), 1 << 22
    lengths = [size] * 254 + [size - 1014]  # the deadlines of all are due: that is a record of 14 bytes
    with open(path, "wb") as journal:
        journal.write(EMPTY[:8])
        journal.writelines(recorded(f"u-{at}", at, length) for at, length in enumerate(lengths))
        journal.write(b"\0")
    calling = Calling(folder, path)
    same(calling.ask(padded(1001, "u-x")), (429, f"21 StoreFull: {MOST - 1000} 1001\n"))
    last = padded(1000, "u-x", requestId="q", invocation={"realm": "proj:ci", "deadline": after(11)})
    made = calling.ask(last)
    same((made[0], path.stat().st_size), (200, 9 + MOST))
    same(calling.ask(creation("u-y")), (429, f"21 StoreFull: {MOST} {len(creation('u-y').partition(b'{')[2]) + 26}\n"))
    same((calling.ask(last), calling.ask(request("GetInvocation", named("u-x")))), (made, made))
    same(calling.ask(request("GetInvocation", named("u-0")))[1]["state"], "FINALIZED")
    time.sleep(11.5)
    same(calling.ask(request("GetInvocation", named("u-x")))[1]["state"], "FINALIZED")
    calling.end()
    same(shown(padded(1000, "u-y"), folder, path), [(429, f"21 StoreFull: {MOST + 14} 1000\n")])
    expect(count(path), COUNTS % (256, 256, 0, 0, 1, MOST + 14), b"", 0)


def lost(stream, folder, path):
    """Runs the program over this input where nobody reads its output, and gives how it ended."""
    reading, writing = os.pipe()
    os.close(reading)
    with open(writing, "wb") as output:
        return run(stream, folder, stdout=output, journal=path)[1:]


def a_batch_cut_off(folder):
    """A batch under a number whose reply was lost is sent again in another run: it gets the reply byte for byte that an
    uncut one gets, adds no byte to the journal, and its rows stand once. Without a number its rows are taken."""
    begun = creation("u-a")
    ids = [f"r{number}" for number in range(200)]
    for number in ("upload-1", None):
        batch, whole, cut = results("u-a", *ids, number=number), *(pathlib.Path(folder) / name for name in "xy")
        for path in (whole, cut):
            path.unlink(missing_ok=True)
            same([status for status, _ in shown(begun, folder, path)], [200])
        reply, *end = run(batch, folder, journal=whole)
        same(end, [b"", 0])
        same(lost(batch, folder, cut), (b"rdb: fault of output\n", 4))
        size = cut.stat().st_size
        again, *end = run(batch, folder, journal=cut)
        same((again == reply, end, cut.stat().st_size, size), (number is not None, [b"", 0], size, whole.stat().st_size))
        if number is None:
            same([(head[:13], body) for head, body in replies(again)], [(b"HTTP/1.1 409 ", TAKEN)])
        query = {"invocations": ["invocations/u-a"], "pageSize": 1000}
        rows = shown(request("QueryTestResults", query), folder, cut)[0][1]["testResults"]
        same(sorted(row["resultId"] for row in rows), sorted(ids))


def the_example(folder):
    """The example loses the reply to a batch, sends it again, and counts one result."""
    done = subprocess.run([EXAMPLES / "send-again.sh", folder], capture_output=True, timeout=SECONDS)
    same((done.stderr, done.returncode), (b"rdb: fault of output\n", 0))
    body, counted = done.stdout.partition(b"\r\n\r\n")[2].splitlines()[1:]
    same([row["name"] for row in json.loads(body)["testResults"]], ["invocations/u-a/tests/net%2Fdns/results/run-1"])
    same(counted + b"\n", COUNTS % (1, 0, 1, 0, 1, (pathlib.Path(folder) / "farm.journal").stat().st_size - 9))


def one_at_a_time(folder):
    """A second run over a journal that a first one has open, and a count of it, find a fault of the disk and leave its
    bytes alone. Once the first has ended, the journal is read."""
    path, reading = journal_in(folder), request("GetInvocation", named("u-a"))
    first = Calling(folder, path)
    created = first.ask(creation("u-a"))
    content = path.read_bytes()
    for got in (run(creation("u-b"), folder, journal=path), count(path)):
        expect(got, b"", b"rdb: fault of disk\n", 4)
    same(path.read_bytes(), content)
    same(first.ask(reading), created)
    first.end()
    same(shown(reading, folder, path), [created])
    expect(count(path), COUNTS % (1, 0, 0, 0, 0, len(content) - 9), b"", 0)


CHECKS = {
    "what one run records another reads": a_second_run,
    "journals of nothing": nothing_was_asked,
    "what is recorded": what_is_recorded,
    "journals that are refused": refused_journals,
    "no file can be made there": no_disk,
    "a batch that is cut off": a_batch_cut_off,
    "the example that sends a batch again": the_example,
    "kills under load": kills,
    "a full disk": a_full_disk,
    "a full journal": a_full_journal,
    "one process at a time": one_at_a_time,
}
