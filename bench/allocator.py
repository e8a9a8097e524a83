#!/usr/bin/env python3
"""What the C library's settings of ./rdb gain: a stream of large bodies, served with and without them.

    bench/allocator.py [PROGRAM]

400 requests of 144 KB, each read as JSON and refused, go through a pipe to the built program. Each way is run in turn,
several times, and the shortest run counts. The ratio is what is to be told: the seconds are those of this machine.
"""

import os
import pathlib
import subprocess
import sys
import tempfile
import time

sys.path.insert(0, str(pathlib.Path(__file__).resolve().parent.parent / "tests"))
import harness  # noqa: E402

SETTINGS = {
    "MALLOC_TRIM_THRESHOLD_": "268435456",
    "MALLOC_TOP_PAD_": "62914560",
    "MALLOC_ARENA_MAX": "8",
    "GLIBC_TUNABLES": "glibc.malloc.tcache_count=0",
}
REQUESTS, BODY, ROUNDS = 400, 144_000, 5


def request(number):
    tags = ",".join(f'{{"key":"k{place}","value":"v{place}"}}' for place in range(10_000))
    front = f'{{"requestId":"q 1","invocationId":"u-{number}","invocation":{{"realm":"proj:ci","tags":['
    body = front + tags[: BODY - len(front) - 3].rpartition(",{")[0] + "]}}"
    body = body.ljust(BODY).encode()
    head = "POST /prpc/luci.resultdb.v1.Recorder/CreateInvocation HTTP/1.1\r\nHost: farm\r\n"
    head += "Authorization: Bearer tok-a\r\n"
    return head.encode() + b"Content-Length: %d\r\n\r\n" % len(body) + body


def run(program, stream, folder, settings):
    """Seconds and page faults of one run, whose input is a file, and the replies."""
    words = [program, *harness.words(folder)[1:]]
    environment = {name: value for name, value in os.environ.items() if name not in SETTINGS} | settings
    with open(stream, "rb") as feed, open(f"{folder}/replies", "wb") as replies:
        began = time.perf_counter()
        running = subprocess.Popen(words, stdin=feed, stdout=replies, env=environment)
        _, status, used = os.wait4(running.pid, 0)
        seconds = time.perf_counter() - began
        running.returncode = os.waitstatus_to_exitcode(status)
    if running.returncode:
        sys.exit(f"the program ended with status {running.returncode}")
    return seconds, used.ru_minflt, pathlib.Path(f"{folder}/replies").read_bytes()


def main(words):
    program = pathlib.Path(words[0]) if words else harness.TOP / "crates/rdb_program/out/rdb_program"
    if not words:
        harness.build_program()
    with tempfile.TemporaryDirectory() as folder:
        stream = f"{folder}/requests"
        with open(stream, "wb") as file:
            for number in range(REQUESTS):
                file.write(request(number))
        ways = {"without": {}, "with": SETTINGS}
        runs = {way: [] for way in ways}
        for _ in range(ROUNDS):
            for way, settings in ways.items():
                runs[way].append(run(program.resolve(), stream, folder, settings))
    if len({replies for found in runs.values() for _, _, replies in found}) != 1:
        sys.exit("the replies differ")
    least = {way: min(found)[:2] for way, found in runs.items()}
    for way, (seconds, faults) in least.items():
        print(f"{way} the settings: {seconds:.3f} s, {faults} page faults")
    print(f"ratio of time: {least['with'][0] / least['without'][0]:.2f}")
    return 0


if __name__ == "__main__":
    sys.exit(main(sys.argv[1:]))
