#!/usr/bin/env python3
"""Measures `./rdb serve` over the loopback, with 1, 8 and 64 connections and as many workers: GetInvocation, batches of one
and of 500 results, pages of 100 verdicts, and a mix of them. `bench/load.c` asks, each connection once its last reply is
whole.

Prints for each, in one run: calls a second, the microseconds within which half and 99 of 100 replies came, and the
processor time that the service took of a call; as ratios the calls a second of reads and pages beside a plain server's that
sends as many bytes, those of batches beside appends to a file with two syncs each, and the results a second of batches.
"""

import contextlib
import os
import pathlib
import struct
import subprocess
import sys
import tempfile
import time

TOP = pathlib.Path(__file__).resolve().parent.parent
sys.path.insert(0, str(TOP / "tests"))
import harness  # noqa: E402
from serve import Service, free_port, listens  # noqa: E402

CONNECTIONS = (1, 8, 64)
HELD = 1_000  # results of the invocation whose verdicts are read
CALLS = {"reads": 40_000, "batches of 1": 4_000, "batches of 500": 160, "pages": 2_000, "mixed": 4_000}
APPENDS = 2_000
TURNS = 3  # of each run and of what stands beside it, one after the other; the fastest of each counts
READ, PAGE = 305, 25_000  # about how many bytes the reply to a read and to a page has


def batch(name, first, count):
    shown = [{"testId": f"suite/case-{n:06}", "resultId": "r", "status": "PASS", "expected": True} for n in range(first, first + count)]
    return harness.changing(name, "BatchCreateTestResults", harness.rows(name, "testResult", shown))


def calls(kind, name, count):
    """The requests of one connection, whose own invocation has this name."""
    read = harness.request("GetInvocation", harness.named("u-read"))
    page = harness.request("QueryTestVariants", {"invocations": ["invocations/u-read"]})
    mix = [read] * 8 + [page]
    for n in range(count):
        if kind == "reads":
            yield read
        elif kind == "pages":
            yield page
        elif kind == "mixed" and n % 10 < len(mix):
            yield mix[n % 10]
        else:
            size = 500 if kind == "batches of 500" else 1
            yield batch(name, n * size, size)


@contextlib.contextmanager
def echoing(load, size):
    port = free_port()
    program = subprocess.Popen([load, "echo", str(port), str(size)])
    while not listens(port):
        time.sleep(0.005)
    try:
        yield port
    finally:
        program.kill()
        program.wait()


def asked(load, port, streams, folder):
    """What `load` tells of these streams of requests, one for each connection."""
    paths = []
    for number, stream in enumerate(streams):
        paths.append(pathlib.Path(folder) / f"stream{number}")
        paths[-1].write_bytes(stream)
    told = subprocess.run([load, "ask", str(port), *paths], stdout=subprocess.PIPE, check=True).stdout.split()
    requests, accepted = int(told[0]), int(told[1])
    if requests != accepted:
        raise SystemExit(f"{accepted} of {requests} requests were accepted")
    return requests, *map(float, told[2:])


def spent(program):
    """The seconds of processor time that a program has taken."""
    fields = pathlib.Path(f"/proc/{program.pid}/stat").read_text().rpartition(")")[2].split()
    return (int(fields[11]) + int(fields[12])) / os.sysconf("SC_CLK_TCK")


def appends(folder, size):
    """How many records of this size are appended in a second, each with a sync, and its gate with another one."""
    file = os.open(f"{folder}/appends", os.O_RDWR | os.O_CREAT, 0o600)
    record = struct.pack("<I", size) + b"." * size + b"\0"
    start = time.monotonic()
    for number in range(APPENDS):
        end = number * len(record)
        os.pwrite(file, record, end + 1)
        os.fsync(file)
        os.pwrite(file, b"\1", end)
        os.fsync(file)
    os.close(file)
    return APPENDS / (time.monotonic() - start)


def measured(load, kind, connections, folder):
    """Calls a second, microseconds of half and of 99 of 100, and processor microseconds of a call."""
    names = [f"u-own{n}" for n in range(connections)]
    with Service(f"{folder}/journal", connections) as service:
        front = [harness.request("CreateInvocation", harness.new(name)) for name in ["u-read", *names]]
        front += [batch("u-read", first, 500) for first in range(0, HELD, 500)]
        asked(load, service.port, [b"".join(front)], folder)
        streams = [b"".join(calls(kind, name, CALLS[kind] // connections)) for name in names]
        before = spent(service.program)
        requests, seconds, half, most = asked(load, service.port, streams, folder)
        used = spent(service.program) - before
    return requests / seconds, half, most, used / requests * 1e6


def beside(load, kind, connections, folder):
    """The calls a second of what a run is a part of, where there is such a thing."""
    if kind in ("reads", "pages"):
        with echoing(load, READ if kind == "reads" else PAGE) as port:
            streams = [b"".join(calls(kind, "", CALLS[kind] // connections)) for _ in range(connections)]
            requests, seconds, *_ = asked(load, port, streams, folder)
        return requests / seconds
    return appends(folder, 250) if kind == "batches of 1" else None


def part(kind, rate, others):
    """What a rate is a part of, as a text."""
    if kind == "batches of 500":
        return f", {rate * 500:.0f} results a second"
    if None in others:
        return ""
    plain = "appends with two syncs" if kind == "batches of 1" else "a plain server"
    return f", {rate / max(others):.2f} of {plain} ({max(others):.0f})"


def main():
    harness.build_program()
    with tempfile.TemporaryDirectory(dir=sys.argv[1] if len(sys.argv) > 1 else None) as folder:
        load = f"{folder}/load"
        words = ["gcc", "-O2", "-D_GNU_SOURCE", "-pthread", str(TOP / "bench" / "load.c"), "-o", load]
        subprocess.run(words, check=True)
        for kind in CALLS:
            for connections in CONNECTIONS:
                runs, others = [], []
                for _ in range(TURNS):
                    with tempfile.TemporaryDirectory(dir=folder) as own:
                        runs.append(measured(load, kind, connections, own))
                        others.append(beside(load, kind, connections, own))
                rate, half, most, used = max(runs)
                print(f"{kind}, {connections} connections: {rate:.0f} calls a second, half within {half:.0f} µs, 99 of 100 "
                      f"within {most:.0f} µs, {used:.1f} µs of processor a call{part(kind, rate, others)}", flush=True)
    return 0


if __name__ == "__main__":
    sys.exit(main())
