#!/usr/bin/env python3
"""The processor time that single requests take at the limits, and the peak memory: the worst bodies of 4 MiB for each
method, inclusion calls in the largest configurations beside one of three realms, calls that find the largest
tables due, and inclusions in large tables.

    bench/requests.py [WORD]

Only the parts whose names have WORD in them are measured. Each part is one run of the built program over pipes; what a
call takes is the difference of the processor time that the kernel counts before it is sent and after it is answered.
The last line tells the calls that took more than a second.
"""

import json
import pathlib
import subprocess
import sys
import tempfile
import threading
import time

sys.path.insert(0, str(pathlib.Path(__file__).resolve().parent.parent / "tests"))
import harness  # noqa: E402
from harness import adding, changing, named, new, request  # noqa: E402
from moments import moment_in  # noqa: E402

MOST_BYTES = 4 * 1024 * 1024
NAMES = 500  # the most that one call may include
REALMS = 60_000
BINDING_REALMS = 32_000  # each counts twice towards the entries that a configuration may have
FINAL = b'"state":"FINALIZED"'
ALL_RIGHTS = ["create", "createWithReservedID", "get", "include"]
slow = []


class Program:
    """One run of the program, which is asked piece by piece."""

    def __init__(self, folder, config=harness.FARM):
        self.child = subprocess.Popen(
            harness.words(folder, config), stdin=subprocess.PIPE, stdout=subprocess.PIPE, stderr=subprocess.DEVNULL
        )
        self.asked = 0
        self.ask(b"")

    def ask(self, stream):
        """Sends a stream and reads its replies: the seconds of processor time, and the replies' bytes."""
        self.asked += 1
        last = request("GetInvocation", named(f"u-last-{self.asked}"))
        before = self.spent()
        feed = threading.Thread(target=self.send, args=(stream + last,))
        feed.start()
        told = bytearray()
        while f"u-last-{self.asked}\n".encode() not in told[-300:]:
            piece = self.child.stdout.read1(1 << 20)
            if not piece:
                raise SystemExit(f"the program ended behind {bytes(told[-300:])!r}")
            told += piece
        feed.join()
        return self.spent() - before, bytes(told)

    def send(self, stream):
        self.child.stdin.write(stream)
        self.child.stdin.flush()

    def spent(self):
        return int(pathlib.Path(f"/proc/{self.child.pid}/schedstat").read_text().split()[0]) / 1e9

    def megabytes(self):
        status = pathlib.Path(f"/proc/{self.child.pid}/status").read_text()
        return int(status.split("VmHWM:")[1].split()[0]) / 1024

    def end(self):
        self.child.stdin.close()
        self.child.stdout.read()
        self.child.wait()


def accepted(told, count):
    if told.count(b"HTTP/1.1 200 OK\r\n") != count:
        raise SystemExit(f"not every request was accepted: {told[-600:]!r}")


def tell(name, seconds, calls, program, most=1.0):
    each = seconds / calls
    print(f"{name:<66} {each * 1000:>10.3f} ms {program.megabytes():>6.0f} MB", flush=True)
    if each > most:
        slow.append(name)
    return each


# Requests


def made(names, **members):
    for name in names:
        body = new(name)
        body["invocation"].update(members)
        yield request("CreateInvocation", body)


def included(name, others):
    for at in range(0, len(others), NAMES):
        yield changing(name, "UpdateIncludedInvocations", adding(name, *others[at : at + NAMES]))


# Bodies


def filled(front, item, end):
    """A body of items up to 4 MiB."""
    count = (MOST_BYTES - len(front) - len(end)) // (len(item(10**6)) + 1) - 1
    return front + ",".join(item(number) for number in range(count)) + end


BODIES = {
    "nested values": filled('{"a":[', lambda _: '{"":{"":{"":{"":0}}}}', "]}"),
    "unknown fields": filled("{", lambda number: f'"k{number}":0', "}"),
    "one text of escapes": '{"name":"' + "\\u0061" * ((MOST_BYTES - 20) // 6) + '"}',
    "tags": filled('{"invocationId":"u-b","invocation":{"realm":"proj:ci","name":"invocations/u-0","tags":[',
                   lambda number: f'{{"key":"k","value":"{number}"}}', ']},"updateMask":"tags"}'),
    "names": filled('{"includingInvocation":"invocations/u-0","addInvocations":[',
                    lambda number: f'"invocations/u-{100 + number % 400}"', "]}"),
}
METHODS = ["CreateInvocation", "UpdateInvocation", "FinalizeInvocation", "UpdateIncludedInvocations", "GetInvocation"]


def sent(method, text):
    """A request with this body, behind the head of one whose body is a JSON text."""
    body = text.encode()
    head = [f"POST {harness.route(method)} HTTP/1.1", "Authorization: Bearer tok-a",
            f"Update-Token: {harness.token('u-0')}", f"Content-Length: {len(body)}"]
    return "\r\n".join(head).encode() + b"\r\n\r\n" + body


def large_bodies(folder):
    for name, text in BODIES.items():
        for method in METHODS:
            program = Program(folder)
            program.ask(b"".join(made(f"u-{n}" for n in range(NAMES + 1))))
            seconds, _ = program.ask(sent(method, text))
            tell(f"{method}, a body of {len(text) / 1e6:.1f} MB of {name}", seconds, 1, program)
            program.end()


# Rights


def realm(number, extends, principal):
    lines = f'[realm."p:{number}"]\n' + (f'extends = ["p:{extends}"]\n' if extends is not None else "")
    return lines + (f'bindings = [{{role="r",principals=["{principal}"]}}]\n' if principal else "")


def configured(folder, realms, extending, principal):
    """A configuration of a user who may do all, by a binding of the first realm. Each other realm extends the one
    before it, or none, and binds a principal, or none. The user isn't in the group."""
    rights = json.dumps([f"resultdb.invocations.{right}" for right in ALL_RIGHTS])
    rows = (realm(n, n - 1 if n and extending else None, principal if n else "user:u0") for n in range(realms))
    path = pathlib.Path(folder) / "realms.toml"
    path.write_text(f'secret = "{harness.SECRET.hex()}"\n[user.u0]\ntoken = "tok-a"\n[user.u1]\ntoken = "tok-b"\n'
                    f'[group.g]\nmembers = ["u1"]\n[role.r]\npermissions = {rights}\n' + "".join(rows))
    return path


def rights(folder):
    for what, count, extending, principal in (
        ("three realms", 3, True, None),
        (f"a chain of {REALMS:,} realms", REALMS, True, None),
        (f"a chain of {BINDING_REALMS:,} realms with bindings", BINDING_REALMS, True, "group:g"),
        (f"{REALMS // 2:,} realms apart", REALMS // 2, False, "user:u0"),
    ):
        program = Program(folder, configured(folder, count, extending, principal))
        rows = [{"invocationId": f"u-{n}", "invocation": {"realm": f"p:{n * 7919 % count}"}} for n in range(NAMES + 1)]
        accepted(program.ask(b"".join(request("CreateInvocation", row) for row in rows))[1], NAMES + 1)
        names = [f"u-{n}" for n in range(1, NAMES + 1)]
        for times in (1, 40, 400):
            call = changing("u-0", "UpdateIncludedInvocations", adding("u-0", *names * times))
            program.ask(call)
            calls = max(40 // times, 1)
            seconds, told = program.ask(call * calls)
            accepted(told, calls if times == 1 else 0)
            tell(f"{NAMES * times:,} names included, {what}", seconds, calls, program)
        program.end()


# Deadlines


def due(folder, ancestors, leaves, apart):
    """A call that finds all leaves due, at one moment or each at its own, under finalizing ancestors in a chain, of
    which the last includes them; without ancestors nothing is included."""
    program = Program(folder)
    above, below = [f"u-a{n}" for n in range(ancestors)], [f"u-{n}" for n in range(leaves)]
    first = moment_in(seconds=25)
    moments = (f"{first[:-1]}.{n if apart else 0:06d}Z" for n in range(leaves))
    program.ask(b"".join(call for name, at in zip(below, moments) for call in made([name], deadline=at)))
    program.ask(b"".join(made(above)))
    program.ask(b"".join(call for name, other in zip(above, above[1:]) for call in included(name, [other])))
    if above:
        program.ask(b"".join(included(above[-1], below)))
    program.ask(b"".join(changing(name, "FinalizeInvocation", named(name)) for name in above))
    ends = [request("GetInvocation", named(name)) for name in (below[0], below[-1], *above[:1])]
    if FINAL in program.ask(b"".join(ends))[1]:
        raise SystemExit("what was not due yet is final")
    while moment_in(seconds=-1) <= first:
        time.sleep(0.2)
    seconds, _ = program.ask(b"")
    if program.ask(b"".join(ends))[1].count(FINAL) != len(ends):
        raise SystemExit("what was due is not final")
    when = "each at its own moment" if apart else "at one moment"
    each = tell(f"{leaves:,} due {when}, below {ancestors:,} finalizing", seconds, 1, program)
    program.end()
    return each


def deadlines(folder):
    for apart in (False, True):
        alone = due(folder, 0, 60_000, apart)
        for ancestors, leaves in ((1, 60_000), (5_000, 55_000)):
            print(f"  {due(folder, ancestors, leaves, apart) / alone:.1f} times the call without inclusions")


# Inclusions


def star(folder):
    """Leaves of a finalizing root, finalised one by one."""
    found = {}
    for leaves in (2_000, 16_000, 60_000):
        program = Program(folder)
        names = [f"u-{n}" for n in range(leaves)]
        program.ask(b"".join(made(["u-root", *names])) + b"".join(included("u-root", names)))
        program.ask(changing("u-root", "FinalizeInvocation", named("u-root")))
        calls = b"".join(changing(name, "FinalizeInvocation", named(name)) for name in names)
        seconds, told = program.ask(calls)
        accepted(told, leaves)
        found[leaves] = tell(f"a leaf finalised of {leaves:,} below a finalizing root", seconds, leaves, program)
        program.end()
    print(f"  {found[60_000] / found[2_000]:.1f} times among 60,000 what it takes among 2,000")


def inclusions(folder):
    program = Program(folder)
    names, rows = [f"u-{n}" for n in range(NAMES)], [f"u-r{n}" for n in range(NAMES)]
    program.ask(b"".join(made([*names, *rows])))
    calls = b"".join(call for row in rows for call in included(row, names))
    for what in ("500 names included, anew, in 500 rows", "500 names included, again, in 500 rows"):
        seconds, told = program.ask(calls)
        accepted(told, NAMES)
        tell(what, seconds, NAMES, program)
    program.end()
    program = Program(folder)
    names = [f"u-{n}" for n in range(60_000)]
    program.ask(b"".join(made(["u-root", *names])) + b"".join(included("u-root", names[1_000:])))
    seconds, told = program.ask(b"".join(call for name in names[:1_000] for call in included("u-root", [name])))
    accepted(told, 1_000)
    tell("one name more in a row of 59,000", seconds, 1_000, program)
    program.end()


PARTS = {"large bodies": large_bodies, "rights": rights, "deadlines": deadlines, "star": star, "inclusions": inclusions}


def main():
    word = sys.argv[1] if len(sys.argv) > 1 else ""
    harness.build_program()
    for name, part in PARTS.items():
        if word in name:
            with tempfile.TemporaryDirectory() as folder:
                part(folder)
    print("over a second: " + (", ".join(slow) or "none"))
    return 0


if __name__ == "__main__":
    sys.exit(main())
