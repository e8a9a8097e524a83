"""The command `serve`: many connections at once over the loopback, in workers of their own, over one journal."""

import contextlib
import http.client
import json
import pathlib
import random
import re
import shutil
import signal
import socket
import subprocess
import threading
import time

import harness
from harness import BEARER, FARM, RDB, SECONDS, Wrong
from harness import changing, expect, named, new, replies, request, results, route, same, told_by

TESTS = pathlib.Path(__file__).resolve().parent
STOPS = 200  # of a service under load
LISTENS = "0A"  # the state of a listening socket in /proc/net/tcp
COUNTS = re.compile(rb"invocations (\d+), .*\n")


# The service


def free_port():
    with socket.create_server(("127.0.0.1", 0)) as server:
        return server.getsockname()[1]


def listens(port):
    rows = [line.split() for line in pathlib.Path("/proc/net/tcp").read_text().splitlines()[1:]]
    return any(row[1] == f"0100007F:{port:04X}" and row[3] == LISTENS for row in rows)


def serving(journal, port, workers, connections=None, config=FARM):
    more = [] if connections is None else ["--connections", str(connections)]
    words = ["--config", config, "--journal", journal, "--listen", f"127.0.0.1:{port}", "--workers", str(workers)]
    return [RDB, "serve", *words, *more]


class Service:
    """A service on this machine that listens. What it says is told once it has ended."""

    def __init__(self, journal, workers, connections=None):
        self.port = free_port()
        self.words = serving(journal, self.port, workers, connections)

    def __enter__(self):
        self.program = subprocess.Popen(self.words, stdout=subprocess.PIPE, stderr=subprocess.PIPE)
        end = time.monotonic() + SECONDS
        while not listens(self.port):
            if self.program.poll() is not None or time.monotonic() > end:
                raise Wrong(f"does not listen: {self.program.communicate(timeout=SECONDS)!r}")
            time.sleep(0.005)
        return self

    def __exit__(self, *_):
        self.program.kill()
        self.program.communicate()

    def connect(self):
        link = socket.create_connection(("127.0.0.1", self.port), timeout=SECONDS)
        link.setsockopt(socket.IPPROTO_TCP, socket.TCP_NODELAY, 1)
        return link

    def ended(self):
        out, errors = self.program.communicate(timeout=SECONDS)
        return out, errors, self.program.returncode


def read_bytes(stream):
    """One reply of a stream: its head and its body."""
    head = b""
    while not head.endswith(b"\r\n\r\n"):
        line = stream.readline()
        if not line:
            raise Wrong(f"no whole reply: {head!r}")
        head += line
    return head, stream.read(int(harness.LENGTH.search(head)[1]))


def read_reply(stream):
    """One reply of a stream: its status, and what its text shows."""
    head, body = read_bytes(stream)
    return told_by(int(head.split(b" ")[1]), body)


def asked(link, *messages):
    """What is told of messages that are sent at once."""
    link.sendall(b"".join(messages))
    with link.makefile("rb") as stream:
        return [read_reply(stream) for _ in messages]


def line(connections, calls):
    return b"connections %d, calls %d\n" % (connections, calls)


def counted(journal):
    """How many invocations a journal has."""
    done = subprocess.run([RDB, "check", "--journal", journal], capture_output=True, timeout=SECONDS)
    found = COUNTS.fullmatch(done.stdout)
    if not found or done.returncode:
        raise Wrong(f"counted {done!r}")
    return int(found[1])


def answered(folder, journal, *messages):
    """What `answer` tells of messages over a journal."""
    out, errors, status = harness.run(b"".join(messages), folder, journal=journal)
    same((errors, status), (b"", 0))
    return [told_by(int(head.split(b" ")[1]), body) for head, body in replies(out)]


def journal_in(folder):
    return pathlib.Path(folder) / "farm.journal"


# The checks


def side_by_side(folder):
    """The request of one connection is held until another connection got its reply. No worker waits for another one."""
    with Service(journal_in(folder), 2, 1) as service:
        message = request("CreateInvocation", new("u-a"))
        with service.connect() as first, service.connect() as second:
            first.sendall(message[:-1])
            time.sleep(0.1)  # so that a worker is inside the first one's message
            same(asked(second, request("CreateInvocation", new("u-b")))[0][0], 200)
            same(asked(first, message[-1:])[0][0], 200)
        same(service.ended(), (line(2, 2), b"", 0))
    same(counted(journal_in(folder)), 2)


def one_history(folder):
    """What one connection was told is there for the next one, and for `answer` and `check` once the service ended."""
    journal = journal_in(folder)
    with Service(journal, 3, 1) as service:
        with service.connect() as first, service.connect() as second, service.connect() as third:
            created = asked(first, request("CreateInvocation", new("u-a")))[0]
            same(asked(second, request("GetInvocation", named("u-a"))), [created])
            final = asked(third, changing("u-a", "FinalizeInvocation", named("u-a")))[0]
            same((final[0], final[1]["state"]), (200, "FINALIZED"))
            same(asked(first, request("GetInvocation", named("u-a"))), [final])
        same(service.ended(), (line(3, 4), b"", 0))
    same(answered(folder, journal, request("GetInvocation", named("u-a"))), [final])
    same(counted(journal), 1)


def kinds_of_clients(folder):
    """Connections that are kept, requests that are sent before the last reply, clients that leave early or send half a
    message, HTTP/1.0, and what is no message."""
    get = request("GetInvocation", named("u-a"))
    with Service(journal_in(folder), 1, 6) as service:
        with service.connect() as link:
            same(asked(link, request("CreateInvocation", new("u-a")))[0][0], 200)
            same([status for status, _ in asked(link, get, get, get)], [200] * 3)
        with service.connect() as link:
            link.sendall(get)
        with service.connect() as link:
            link.sendall(get[:40])
        with service.connect() as link:
            link.sendall(get.replace(b"HTTP/1.1", b"HTTP/1.0"))
            with link.makefile("rb") as stream:
                same((read_reply(stream)[0], stream.read()), (200, b""))
        with service.connect() as link:
            link.sendall(b"no message\r\n\r\n")
            with link.makefile("rb") as stream:
                same(stream.read().split(b" ")[1], b"400")
        kept = http.client.HTTPConnection("127.0.0.1", service.port, timeout=SECONDS)
        for _ in range(3):
            kept.request("POST", route("GetInvocation"), json.dumps(named("u-a")), BEARER)
            reply = kept.getresponse()
            same(told_by(reply.status, reply.read())[0], 200)
        kept.close()
        same(service.ended(), (line(6, 9), b"", 0))


def by_program(name, *words):
    """A client that is another program: what its calls are told, over connections as it likes them."""

    def check(folder):
        with Service(journal_in(folder), 4) as service:
            done = subprocess.run([name, *words, str(service.port)], capture_output=True, timeout=SECONDS)
        wanted = [b"200 ACTIVE", b"409 19 Taken: invocations/u-a", *[b"200 ACTIVE"] * 8, b"404 8 NotFound: invocations/u-b"]
        same((done.returncode, done.stdout.splitlines()), (0, wanted))

    return check if shutil.which(name) else lambda _: f"nothing was tried, since {name} isn't installed"


def many_connections(folder):
    """64 workers and as many clients at once: each invocation is created by one of the clients that ask for it."""
    journal = journal_in(folder)
    got = []
    with Service(journal, 64, 2) as service:

        def client():
            with service.connect() as link:
                got.extend(asked(link, *(request("CreateInvocation", new(f"u-{n}")) for n in range(20))))

        threads = [threading.Thread(target=client) for _ in range(128)]
        for thread in threads:
            thread.start()
        for thread in threads:
            thread.join(SECONDS)
        same(service.ended(), (line(128, 2560), b"", 0))
    same((len(got), sum(status == 200 for status, _ in got), {status for status, _ in got}), (2560, 20, {200, 409}))
    same(counted(journal), 20)


def received(link, message):
    """The bytes of the reply to a message."""
    link.sendall(message)
    with link.makefile("rb") as stream:
        return b"".join(read_bytes(stream))


def one_thread_again(folder):
    """Eight clients at once create invocations, some of which only one of them can, fill them, end half of them and read
    them. One thread that replays the journal afterwards tells each of them the same for each request but the ends, byte
    for byte: what was accepted is kept by its number, and what was refused is refused by the same history."""
    journal, clients = journal_in(folder), 8
    got = [[] for _ in range(clients)]

    def numbered(name, number):
        return request("CreateInvocation", new(name) | {"requestId": number})

    def ask(client, service):
        with service.connect() as link:
            for n in range(10):
                own = f"u-{client}-{n}"
                asks = [numbered(own, f"c-{client}-{n}"), results(own, "r0", "r1", number=f"b-{client}-{n}")]
                asks += [changing(own, "FinalizeInvocation", named(own))] * (n % 2)
                asks += [request("GetInvocation", named(own)), numbered(f"u-shared-{n}", f"s-{client}-{n}")]
                got[client] += [(message, received(link, message)) for message in asks]

    with Service(journal, clients, 1) as service:
        threads = [threading.Thread(target=ask, args=(client, service)) for client in range(clients)]
        for thread in threads:
            thread.start()
        for thread in threads:
            thread.join(SECONDS)
        same(service.ended(), (line(clients, clients * 45), b"", 0))
    repeated = [pair for pairs in got for pair in pairs if b"FinalizeInvocation" not in pair[0]]
    out, *end = harness.run(b"".join(message for message, _ in repeated), folder, journal=journal)
    same(end, [b"", 0])
    told = [head + b"\r\n\r\n" + body for head, body in replies(out)]
    same(told, [reply for _, reply in repeated])
    same([sum(reply.startswith(b"HTTP/1.1 %d" % status) for reply in told) for status in (200, 409)], [250, 70])


class Load:
    """Clients that create invocations one after the other, until their links break; and what they were told."""

    def __init__(self, service, front, clients):
        self.service, self.front = service, front
        self.acknowledged = []
        self.threads = [threading.Thread(target=self.create, args=(n,)) for n in range(clients)]
        for thread in self.threads:
            thread.start()

    def create(self, client):
        with contextlib.suppress(OSError, Wrong), self.service.connect() as link:
            for n in range(100_000):
                name = f"{self.front}-{client}-{n}"
                if asked(link, request("CreateInvocation", new(name)))[0][0] != 200:
                    raise ValueError(name)
                self.acknowledged.append(name)

    def join(self):
        for thread in self.threads:
            thread.join(SECONDS)


def stops_under_load(folder):
    """A service is stopped while clients create invocations, by SIGTERM or SIGKILL. Each that was told is there, for
    `check`, for `answer`, and for the next service over the journal."""
    drawn, journal, names = random.Random(34), journal_in(folder), []
    for stop in range(STOPS):
        with Service(journal, 4) as service:
            load = Load(service, f"u-{stop}", 4)
            time.sleep(drawn.random() * 0.05)
            service.program.send_signal(drawn.choice([signal.SIGTERM, signal.SIGKILL]))
            service.program.wait(SECONDS)
            load.join()
        names += load.acknowledged
        if counted(journal) < len(names):
            raise Wrong(f"{counted(journal)} of {len(names)} invocations after {stop + 1} stops")
    told = answered(folder, journal, *(request("GetInvocation", named(name)) for name in names))
    same({status for status, _ in told}, {200})
    same([shown["name"] for _, shown in told], [f"invocations/{name}" for name in names])
    return f"{len(names)} invocations"


def refused(folder):
    """A service that can't begin says why, and one without an address to listen at is a fault of a door."""
    journal, port = journal_in(folder), free_port()

    def ended(*words):
        done = subprocess.run(words, capture_output=True, timeout=SECONDS)
        return done.stdout, done.stderr, done.returncode

    for workers, connections in ((0, None), (65, None), ("02", None), (1, 0), (1, 1_000_001)):
        expect(ended(*serving(journal, port, workers, connections)), b"", b"rdb: words refused\n", 1)
    same(journal.exists(), False)
    expect(ended(*serving(journal, port, 1, config=journal)), b"", b"rdb: fault of config\n", 4)
    with socket.create_server(("127.0.0.1", 0)) as server:
        got = ended(*serving(journal, server.getsockname()[1], 2))
    expect(got, line(0, 0), b"rdb: fault of door\n", 4)
    journal.write_bytes(b"hello, this is no journal\n")
    expect(ended(*serving(journal, port, 1)), b"", b"rdb: journal refused: 1 NotAJournal 0\n", 3)
    same(journal.read_bytes(), b"hello, this is no journal\n")


CHECKS = {
    "side by side": side_by_side,
    "one history": one_history,
    "kinds of clients": kinds_of_clients,
    "a client of Node": by_program("node", TESTS / "client.mjs"),
    "a client of Java": by_program("java", "-Dfile.encoding=UTF-8", TESTS / "Client.java"),
    "many connections": many_connections,
    "one thread again": one_thread_again,
    "stops under load": stops_under_load,
    "refused": refused,
}
