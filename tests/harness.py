"""What the checks of the built programs share: building them, secrets, requests and their replies, runs, listeners, and
how a check is told. It holds no check of its own.
"""

import contextlib
import hashlib
import hmac
import itertools
import json
import pathlib
import re
import resource
import socket
import subprocess
import tempfile
import threading

TOP = pathlib.Path(__file__).resolve().parent.parent
EXAMPLES = TOP / "examples"
FARM = EXAMPLES / "farm.toml"
RDB = TOP / "rdb"
SECONDS = 240  # after which a run that hasn't ended is given up
SECRET = bytes([0x0B] * 20)  # that of examples/farm.toml
BEARER = {"Authorization": "Bearer tok-a"}

NUMBERS = itertools.count()  # of journals that no check names

LENGTH = re.compile(rb"Content-Length: (\d+)\r\n")
CODE = re.compile(rb"\r\nX-Prpc-Grpc-Code: (\d+)\r\n")
# the gRPC code of each rule, from 1 on
CODES = dict(enumerate([12, 16, 3, 3, 3, 3, 9, 5, 16, 7, 7, 9, 3, 3, 3, 3, 3, 3, 6, 8, 8], 1))


class Wrong(Exception):
    """What a check found."""


def same(got, wanted):
    if got != wanted:
        raise Wrong(f"got {got!r}\n  wanted {wanted!r}")


# Building


def build_program():
    """Builds the program where it isn't current. Without words it is refused, but built."""
    subprocess.run([RDB], stdin=subprocess.DEVNULL, stdout=subprocess.DEVNULL)


def built(crate, *arguments, is_current=pathlib.Path.is_file):
    """The program of another crate, built where it isn't current. `rt run` leaves it in out/, and runs it."""
    folder = TOP / "crates" / crate
    program = folder / "out" / crate
    if not is_current(program):
        run = ["rt", "run", "--", *arguments]
        subprocess.run(run, cwd=folder, stdin=subprocess.DEVNULL, stdout=subprocess.DEVNULL, stderr=subprocess.DEVNULL)
    if not program.is_file():
        raise Wrong(f"{crate} was not built")
    return program


# Secrets and requests


def token(name):
    """The update token of an invocation."""
    return hmac.new(SECRET, b"rdb-update/" + name.encode(), hashlib.sha256).hexdigest()


def route(method):
    service = "Recorder" if method.startswith(("Create", "Update", "Finalize", "Batch")) else "ResultDB"
    return f"/prpc/luci.resultdb.v1.{service}/{method}"


def request(method, body, *headers):
    text = json.dumps(body)
    head = [f"POST {route(method)} HTTP/1.1", "Authorization: Bearer tok-a", *headers, f"Content-Length: {len(text)}"]
    return ("\r\n".join(head) + "\r\n\r\n" + text).encode()


def changing(name, method, body):
    """A request that shows the update token of this invocation."""
    return request(method, body, f"Update-Token: {token(name)}")


def named(name):
    return {"name": f"invocations/{name}"}


def new(name):
    return {"invocationId": name, "invocation": {"realm": "proj:ci"}}


def adding(name, *others):
    return {"includingInvocation": f"invocations/{name}", "addInvocations": [f"invocations/{n}" for n in others]}


def updating(name, mask, **members):
    return {"invocation": {**named(name), **members}, "updateMask": mask}


def rows(name, field, rows, number=None):
    """A batch of these rows of an invocation, under a number where one is given."""
    numbered = {"requestId": number} if number else {}
    return {"invocation": f"invocations/{name}", **numbered, "requests": [{field: row} for row in rows]}


def results(name, *ids, number=None):
    shown = [{"testId": "t", "resultId": each, "status": "PASS"} for each in ids]
    return changing(name, "BatchCreateTestResults", rows(name, "testResult", shown, number))


def exonerations(name, count, number=None):
    shown = [{"testId": "t"}] * count
    return changing(name, "BatchCreateTestExonerations", rows(name, "testExoneration", shown, number))


# Runs and replies


def words(folder, config=FARM, journal=None):
    """The words of a connection, over a new journal where none is named."""
    path = journal or pathlib.Path(folder) / f"{next(NUMBERS)}.journal"
    return [RDB, "answer", "--config", config, "--journal", path]


def run(feed, folder, stdout=subprocess.PIPE, config=FARM, journal=None):
    """Runs the program. `feed` is its whole input, or a function that writes it to a pipe."""
    program = subprocess.Popen(
        words(folder, config, journal), stdin=subprocess.PIPE, stderr=subprocess.PIPE, stdout=stdout
    )
    if callable(feed):
        feed(program.stdin)
        feed = None
    try:
        out, errors = program.communicate(feed, timeout=SECONDS)
    except subprocess.TimeoutExpired:
        program.kill()
        raise Wrong(f"not ended after {SECONDS} seconds")
    return out, errors, program.returncode


@contextlib.contextmanager
def folder_in_memory(folder):
    """A folder where a sync costs nothing, for a check that makes many: one in memory where the system has that."""
    memory = pathlib.Path("/dev/shm")
    with tempfile.TemporaryDirectory(dir=memory if memory.is_dir() else folder) as own:
        yield own


def unread(command):
    """Runs a command over a file as input, of which it reads nothing: the place in it, which is shared, stays."""
    with tempfile.TemporaryFile(buffering=0) as file:
        file.write(b"POST / HTTP/1.1\r\nContent-Length: 0\r\n\r\n")
        file.seek(0)
        done = subprocess.run(command, stdin=file, capture_output=True, timeout=SECONDS)
        same(file.tell(), 0)
    return done.stdout, done.stderr, done.returncode


def processor_seconds(stream, folder, wanted, turns):
    """The seconds of processor time that the program takes over a stream, of so many runs the least, each over a journal
    of its own. So many requests have to be accepted in each."""
    spent = []
    for _ in range(turns):
        with tempfile.TemporaryDirectory(dir=folder) as own:
            feed = pathlib.Path(own) / "feed"
            feed.write_bytes(stream)
            before = resource.getrusage(resource.RUSAGE_CHILDREN)
            with open(feed, "rb") as source, open(f"{own}/replies", "wb") as replies:
                subprocess.run(words(own), stdin=source, stdout=replies, check=True)
            after = resource.getrusage(resource.RUSAGE_CHILDREN)
            accepted = (pathlib.Path(own) / "replies").read_bytes().count(b"HTTP/1.1 200 OK\r\n")
            if accepted != wanted:
                raise SystemExit(f"{accepted} of {wanted} requests were accepted")
            spent.append(after.ru_utime + after.ru_stime - before.ru_utime - before.ru_stime)
    return min(spent)


def expect(got, output, errors, status):
    same(got, (output, errors, status))


def replies(stream):
    """The replies of a stream, each as its head and its body of Content-Length bytes."""
    at = 0
    while at < len(stream):
        start = stream.find(b"\r\n\r\n", at) + 4
        length = LENGTH.search(stream, at, start)
        if start < 4 or not length or len(stream) - start < int(length[1]):
            raise Wrong(f"no whole reply: {stream[at:]!r}")
        head, at = stream[at : start - 4], start + int(length[1])
        yield head, stream[start:at]


def told(stream, folder):
    """Runs the program over the stream: of each reply its status, and its text, or of 200 what the text shows. Its code
    is that of the rule that the text names, or 0."""
    out, *end = run(stream, folder)
    if end != [b"", 0]:
        raise Wrong(f"ended by {end!r}")
    got = [told_by(int(head.split(b" ")[1]), body) for head, body in replies(out)]
    codes = [int(CODE.search(head)[1]) for head, _ in replies(out)]
    same(codes, [0 if status == 200 else CODES[int(text.split(" ")[0])] for status, text in got])
    return got


def told_by(status, body):
    if status != 200:
        return status, body.decode()
    if not body.startswith(b")]}'\n"):
        raise Wrong(f"no prefix: {body!r}")
    return status, json.loads(body[5:])


def not_implemented(target):
    """The closing reply to a message whose method isn't POST."""
    body = b"1 NoMethod: %s\n" % target
    return (
        b"HTTP/1.1 501 Not Implemented\r\nContent-Type: text/plain; charset=utf-8\r\nX-Prpc-Grpc-Code: 12\r\n"
        b"Connection: close\r\nContent-Length: %d\r\n\r\n%s" % (len(body), body)
    )


@contextlib.contextmanager
def listening(folder):
    """A listener on this machine that starts the program for one connection; it yields its port."""
    with socket.create_server(("127.0.0.1", 0)) as server:
        server.settimeout(SECONDS)
        ended = []

        def serve():
            link, _ = server.accept()
            with link:
                program = subprocess.Popen(words(folder), stdin=link, stdout=link, stderr=subprocess.PIPE)
            ended.append((program.communicate(timeout=SECONDS)[1], program.returncode))

        thread = threading.Thread(target=serve)
        thread.start()
        try:
            yield server.getsockname()[1]
        finally:
            thread.join(SECONDS)
    if ended != [(b"", 0)]:
        raise Wrong(f"the program ended by {ended!r}")


# Printing


def tell(area, checks):
    """Runs checks by their names, each in a folder of its own, and prints a line for each: how many passed and failed. A
    check may give back a note, where it could try nothing."""
    failed = 0
    for name, check in checks.items():
        with tempfile.TemporaryDirectory() as folder:
            try:
                note = check(folder)
                print(f"{area}: {name}: passed{f' ({note})' if note else ''}", flush=True)
            except Exception as wrong:  # also one that a check stumbles over
                failed += 1
                print(f"{area}: {name}: FAILED: {wrong if isinstance(wrong, Wrong) else repr(wrong)}", flush=True)
    return len(checks) - failed, failed


def end(passed, failed):
    """The last line, and the status: no check at all is a failure, too."""
    print(f"{passed} passed, {failed} failed")
    return 0 if passed and not failed else 1
