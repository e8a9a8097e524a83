#!/usr/bin/env python3
"""Measures uploads: cases a second through `sink` into a listener that answers each batch at once, of TAP and of JUnit,
and the time of 100,000 cases as a ratio to that of 10,000, which is 10 where it is linear.

    bench/sink.py [tap|junit]..
"""

import pathlib
import re
import resource
import socket
import subprocess
import sys
import tempfile
import threading
import time

sys.path.insert(0, str(pathlib.Path(__file__).resolve().parent.parent / "tests"))
import harness  # noqa: E402

COUNTS = (10_000, 100_000)
LENGTH = re.compile(rb"Content-Length: (\d+)\r\n\r\n")
REPLY = b"HTTP/1.1 200 OK\r\nContent-Length: 2\r\n\r\n{}"


def tap(count):
    points = "".join(f"{'not ok' if n % 10 == 0 else 'ok'} {n} - module {n % 100} case {n}\n" for n in range(1, count + 1))
    return f"TAP version 14\n{points}1..{count}\n".encode()


def junit(count):
    cases = "".join(f'<testcase classname="module{n % 100}" name="case{n}" time="0.001"/>' for n in range(count))
    return f"<testsuite>{cases}</testsuite>".encode()


FORMS = {"tap": tap, "junit": junit}


def answer(server):
    """Answers each batch of one link as soon as it is whole."""
    link, _ = server.accept()
    with link:
        link.setsockopt(socket.IPPROTO_TCP, socket.TCP_NODELAY, 1)
        have = b""
        while True:
            head = LENGTH.search(have)
            end = head.end() + int(head[1]) if head else None
            if head and len(have) >= end:
                link.sendall(REPLY)
                have = have[end:]
                continue
            piece = link.recv(1 << 20)
            if not piece:
                return
            have += piece


def upload(folder, form, count):
    """The seconds of processor time that an upload takes, and those that pass."""
    config = pathlib.Path(folder) / "sink.toml"
    config.write_text(f'token = "tok-a"\nupdate_token = "{"0" * 64}"\n')
    report = FORMS[form](count)
    with socket.create_server(("127.0.0.1", 0)) as server:
        thread = threading.Thread(target=answer, args=[server])
        thread.start()
        address = f"127.0.0.1:{server.getsockname()[1]}"
        words = [harness.RDB, "sink", "--config", config, "--server", address, "--invocation", "u-a", "--format", form]
        before, start = resource.getrusage(resource.RUSAGE_CHILDREN), time.monotonic()
        done = subprocess.run(words, input=report, capture_output=True, timeout=harness.SECONDS)
        after, end = resource.getrusage(resource.RUSAGE_CHILDREN), time.monotonic()
        thread.join(harness.SECONDS)
    harness.expect((done.stdout, done.stderr, done.returncode), b"sent %d cases in %d batches\n" % (count, count // 200), b"", 0)
    return after.ru_utime + after.ru_stime - before.ru_utime - before.ru_stime, end - start


def main(words):
    if not set(words) <= set(FORMS):
        sys.exit(__doc__)
    harness.build_program()
    with tempfile.TemporaryDirectory() as folder:
        for form in words or FORMS:
            upload(folder, form, 1_000)  # so that the program is warm
            taken = {count: min(upload(folder, form, count) for _ in range(3)) for count in COUNTS}
            few, many = (taken[count] for count in COUNTS)
            rate, ratio = COUNTS[1] / many[1], many[0] / few[0]
            print(f"{form}: {rate:,.0f} cases a second, {COUNTS[1]:,} cases take {ratio:.1f} times as long as {COUNTS[0]:,}")


if __name__ == "__main__":
    main(sys.argv[1:])
