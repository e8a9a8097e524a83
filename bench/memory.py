#!/usr/bin/env python3
"""The memory that `serve` takes for the worst bodies, over 1 and over 64 connections and as many workers, with the C
library's settings of ./rdb and with others.

    bench/memory.py [PROGRAM]

Each connection sends a body of 4 MiB, all at once. It is refused, once it was read as JSON. What is told is the
process's peak resident memory, what it still has when all is answered, the seconds that it took, and how many replies
had which status: 400 where the body was read, 500 where memory was wanting, of which there are 6 GiB.
"""

import collections
import os
import pathlib
import resource
import socket
import subprocess
import sys
import tempfile
import threading
import time

sys.path.insert(0, str(pathlib.Path(__file__).resolve().parent.parent / "tests"))
import harness  # noqa: E402
from serve import free_port, listens  # noqa: E402

MOST_BYTES = 4 * 1024 * 1024
MOST_MEMORY = 6 * 1024**3  # of the service, so that this machine isn't lost
DEEP = 120  # levels of an item; 127 may be open
TRIM = {"MALLOC_TRIM_THRESHOLD_": "268435456"}
HEAP = {"MALLOC_TOP_PAD_": "67108864"}  # a whole heap of an arena, which then never goes back
LESS = {"MALLOC_TOP_PAD_": "62914560"}
ARENAS = {"MALLOC_ARENA_MAX": "8"}
CACHES = {"GLIBC_TUNABLES": "glibc.malloc.tcache_count=0"}
RDB = TRIM | LESS | ARENAS | CACHES
SETTINGS = {
    "none": {},
    "64 MiB": TRIM | HEAP,
    "64 MiB, 8 arenas": TRIM | HEAP | ARENAS,
    "60 MiB, 8 arenas": TRIM | LESS | ARENAS,
    "those of ./rdb": RDB,
}


def filled(item):
    """A body of these items up to 4 MiB."""
    return ('{"a":[' + ",".join([item] * ((MOST_BYTES - 20) // (len(item) + 1))) + "]}").encode()


BODIES = {
    "objects in objects": filled('{"":' * DEEP + "0" + "}" * DEEP),
    "objects of one member": filled('{"":0}'),
    "arrays in arrays": filled("[" * DEEP + "]" * DEEP),
    "zeros": filled("0"),
}


def sent(body):
    head = [f"POST {harness.route('CreateInvocation')} HTTP/1.1", "Host: farm", "Authorization: Bearer tok-a", f"Content-Length: {len(body)}"]
    return "\r\n".join(head).encode() + b"\r\n\r\n" + body


def limited():
    resource.setrlimit(resource.RLIMIT_DATA, (MOST_MEMORY, MOST_MEMORY))


class Service:
    """A service of a program on this machine that listens."""

    def __init__(self, program, folder, workers, settings):
        self.port = free_port()
        words = ["serve", "--config", harness.FARM, "--journal", f"{folder}/journal{self.port}"]
        words += ["--listen", f"127.0.0.1:{self.port}", "--workers", str(workers)]
        others = {name: value for name, value in os.environ.items() if not name.startswith(("MALLOC_", "GLIBC_"))}
        self.program = subprocess.Popen([program, *words], env=others | settings, stdout=subprocess.DEVNULL, preexec_fn=limited)
        while not listens(self.port):
            if self.program.poll() is not None:
                raise SystemExit("the program doesn't listen")
            time.sleep(0.01)

    def megabytes(self, name):
        status = pathlib.Path(f"/proc/{self.program.pid}/status").read_text()
        return int(status.split(f"{name}:")[1].split()[0]) / 1024

    def end(self):
        self.program.kill()
        self.program.wait()


def ask(port, message, codes):
    """Sends a message, and notes the status of its reply."""
    with socket.create_connection(("127.0.0.1", port), timeout=harness.SECONDS) as link, link.makefile("rb") as stream:
        link.sendall(message)
        head = b""
        while not head.endswith(b"\r\n\r\n"):
            line = stream.readline()
            if not line:
                return
            head += line
        stream.read(int(harness.LENGTH.search(head)[1]))
        codes.append(int(head.split(b" ")[1]))


def measured(program, folder, connections, message, settings):
    """Peak and left megabytes, and seconds."""
    service = Service(program, folder, connections, settings)
    codes = []
    asking = [threading.Thread(target=ask, args=(service.port, message, codes)) for _ in range(connections)]
    began = time.monotonic()
    for thread in asking:
        thread.start()
    for thread in asking:
        thread.join()
    seconds = time.monotonic() - began
    told = service.megabytes("VmHWM"), service.megabytes("VmRSS"), seconds
    service.end()
    return f"peak {told[0]:.0f} MB, left {told[1]:.0f} MB, {told[2]:.1f} s, replies {dict(collections.Counter(codes))}"


def main(words):
    program = pathlib.Path(words[0]) if words else harness.TOP / "crates/rdb_program/out/rdb_program"
    if not words:
        harness.build_program()
    with tempfile.TemporaryDirectory() as folder:
        for name, body in BODIES.items():
            print(f"1 connection, {name}: {measured(program.resolve(), folder, 1, sent(body), RDB)}", flush=True)
        worst = sent(BODIES["objects in objects"])
        for way, settings in SETTINGS.items():
            for connections in (1, 64):
                told = measured(program.resolve(), folder, connections, worst, settings)
                print(f"{connections} connections, settings: {way}: {told}", flush=True)
    return 0


if __name__ == "__main__":
    sys.exit(main(sys.argv[1:]))
