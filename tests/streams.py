"""Streams that are no messages, or barely, and outputs that take nothing."""

import concurrent.futures
import contextlib
import os
import subprocess

from harness import SECONDS, TOP, expect, not_implemented, run, same, words
from journals import EMPTY, creation, journal_in
from stored_replies import example


def empty_input(folder):
    expect(run(b"", folder), b"", b"", 0)


def failing_input(folder):
    """The input is a folder, whose reads fail: nothing is recorded."""
    path = journal_in(folder)
    unread = os.open(folder, os.O_RDONLY)
    try:
        done = subprocess.run(words(folder, journal=path), stdin=unread, capture_output=True, timeout=SECONDS)
    finally:
        os.close(unread)
    expect((done.stdout, done.stderr, done.returncode), b"", b"rdb: fault of input\n", 4)
    same(path.read_bytes(), EMPTY)


def closed_output(folder):
    """Nobody reads the output."""
    reader, writer = os.pipe()
    os.close(reader)
    try:
        expect(run(example("create-invocation", "http"), folder, stdout=writer), None, b"rdb: fault of output\n", 4)
    finally:
        os.close(writer)


def full_output(folder):
    """The output has no room: Linux's /dev/full refuses each write. What was answered is recorded all the same."""
    path = journal_in(folder)
    with open("/dev/full", "wb") as full:
        expect(run(creation("u-b"), folder, stdout=full, journal=path), None, b"rdb: fault of output\n", 4)
    same(path.stat().st_size, 89)


def closed_streams(folder):
    """One that is closed is /dev/null, and no file that is opened takes its place. ./rdb would, so it isn't asked."""
    program, request = TOP / "crates/rdb_program/out/rdb_program", example("no-caller", "http")
    for closed, output in (("0<&-", b""), ("1>&-", b""), ("2>&-", example("no-caller", "reply"))):
        command = ["sh", "-c", f'exec "$0" "$@" {closed}', program, *words(folder)[1:]]
        done = subprocess.run(command, input=request, capture_output=True, timeout=SECONDS)
        expect((done.stdout, done.stderr, done.returncode), output, b"", 0)


def farewell(number, name):
    body = b"wire %d %s\n" % (number, name)
    return (
        b"HTTP/1.1 400 Bad Request\r\nContent-Type: text/plain; charset=utf-8\r\nX-Prpc-Grpc-Code: 3\r\n"
        b"Connection: close\r\nContent-Length: %d\r\n\r\n%s" % (len(body), body)
    )


def hostile_streams(folder):
    """Each with its exact bytes and status, and nothing of them is recorded."""
    path = journal_in(folder)
    post, length = b"POST /x HTTP/1.1\r\n", b"Content-Length: 0\r\n"
    filled = b"GET / HTTP/1.1\r\nX: "
    bad = (3, b"BadHead")
    for stream, fault in (
        (filled + b"a" * (16383 - len(filled)), (8, b"CutShort")),
        (filled + b"a" * (16384 - len(filled)), (1, b"HeadTooLong")),
        (filled + b"a" * (16384 - 4 - len(filled)) + b"\r\n\r\n", None),
        (filled + b"a" * (16385 - 4 - len(filled)) + b"\r\n\r\n", (1, b"HeadTooLong")),
        (b"GET / HTTP/1.1\r\n" + b"X: y\r\n" * 64 + b"\r\n", None),
        (b"GET / HTTP/1.1\r\n" + b"X: y\r\n" * 65 + b"\r\n", (2, b"TooManyHeaders")),
        (post + b"X: a\r\n b\r\n" + length + b"\r\n", bad),
        (post + b"X: a\rb\r\n" + length + b"\r\n", bad),
        (post + b"X: a\0b\r\n" + length + b"\r\n", bad),
        (post + b"Content-Length: 00000000000\r\n\r\n", bad),
        (post + b"Content-Length: +5\r\n\r\nhello", bad),
        (b"POST /x HTTP/1.2\r\n" + length + b"\r\n", bad),
        (b"PRI * HTTP/2.0\r\n\r\nSM\r\n\r\n", bad),
        (post + b"\r\n", (4, b"NoLength")),
        (post + b"\r\n" + b"GET / HTTP/1.1\r\n\r\n", (4, b"NoLength")),
        (post + length + length + b"\r\n", (5, b"TwoLengths")),
        (post + length + b"Content-Length: 1\r\n\r\n", (5, b"TwoLengths")),
        (post + length + b"Transfer-Encoding: chunked\r\n\r\n", (6, b"TransferCoded")),
        (post + b"Content-Length: 4194305\r\n\r\n", (7, b"BodyTooLong")),
        (post + b"Content-Length: 4194304\r\n\r\n", (8, b"CutShort")),
        (post + b'Content-Length: 55\r\n\r\n{"invocati', (8, b"CutShort")),
        (b"get / HTTP/1.1\r\n\r\n" + post, None),
        (b"GET / HTTP/1.1\r\n\r\n" + post + b"\r\n", None),
        (b"GET / HTTP/1.0\r\n\r\n" + post, None),
        (b"GET / HTTP/1.1\r\nContent-Length: 4\r\n\r\nPOST", None),
        (b"\r\n\n\r\nGET / HTTP/1.1\r\n\r\n", None),
        (b"\r\n", (8, b"CutShort")),
        (b"GET", (8, b"CutShort")),
    ):
        if fault is None:
            expect(run(stream, folder, journal=path), not_implemented(b"/"), b"", 0)
        else:
            reply = b"" if fault[0] == 8 else farewell(*fault)
            expect(run(stream, folder, journal=path), reply, b"rdb: wire %d %s\n" % fault, 8)
        same(path.read_bytes(), EMPTY)


def longest_connection(folder):
    """The 1,048,576th reply closes the connection and none before it does, and the next message isn't answered."""
    last, message, many = not_implemented(b"/"), b"POST / HTTP/1.1\r\nContent-Length: 0\r\n\r\n", 4096
    reply = last.replace(b"Connection: close\r\n", b"")
    block = reply * many
    reader, writer = os.pipe()

    def feed(pipe):
        with contextlib.suppress(BrokenPipeError):  # it may have ended before the last message is written
            for _ in range(256):
                pipe.write(message * many)
            pipe.write(message)
            pipe.flush()

    def read():
        """How many blocks of replies come, whether the last one is right, and how many bytes follow it."""
        blocks = 0
        with open(reader, "rb") as replies:
            while (piece := replies.read(len(block))) == block:
                blocks += 1
            rest = piece + replies.read(len(last))
            return blocks, rest == reply * (many - 1) + last, sum(map(len, iter(lambda: replies.read(1 << 20), b"")))

    with concurrent.futures.ThreadPoolExecutor(1) as pool:
        got = pool.submit(read)
        try:
            expect(run(feed, folder, stdout=writer), None, b"", 0)
        finally:
            os.close(writer)
        same(got.result(), (255, True, 0))


CHECKS = {
    "an empty input": empty_input,
    "hostile streams": hostile_streams,
    "the longest connection": longest_connection,
    "an input that fails": failing_input,
    "a closed output": closed_output,
    "a full output": full_output,
    "closed standard streams": closed_streams,
}
