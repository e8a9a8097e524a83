"""The requests of examples/*.http, and the replies that stand beside them.

The program reads the system's clock, so a stored moment stands for one of the run: wherever it is stored the same one
has to come, later ones no earlier, each within the run, and a deadline 48 hours after its create time. A deadline that
a request gives is put in place of the stored one, an hour from now, and has to come back as it was sent. No check waits
for a deadline. Each run has ended by itself before its output is looked at.
"""

import re
import time

from harness import EXAMPLES, LENGTH, Wrong, replies, run, same
from moments import micros, moment_in, now

MOMENT = re.compile(rb'"(createTime|deadline|finalizeStartTime|finalizeTime)":"([^"]*)"')
LIFETIME = 48 * 3600 * 1_000_000
GIVEN = b"2023-11-14T23:13:20Z"  # stands for a deadline that the request gives


def as_stored(stored, came, span, given):
    """What came, with the stored moments, and the lengths that they bring with them, in place of those of the run."""
    wanted, got, stands_for = list(replies(stored)), list(replies(came)), {}
    if len(wanted) != len(got):
        raise Wrong(f"{len(got)} replies, and {len(wanted)} are stored: {came!r}")
    for (_, text), (head, body) in zip(wanted, got):
        names, found = MOMENT.findall(text), MOMENT.findall(body)
        if [field for field, _ in names] == [field for field, _ in found]:
            for (field, name), (_, moment) in zip(names, found):
                if stands_for.setdefault(name, (moment, field))[0] != moment:
                    raise Wrong(f"{name!r} stands for {stands_for[name][0]!r} and for {moment!r}")
            see_lifetime(dict(names), dict(found), given)
            following = iter(names)
            body = MOMENT.sub(lambda _: b'"%s":"%s"' % next(following), body)
            head = LENGTH.sub(b"Content-Length: %d\r\n" % len(body), head + b"\r\n")[:-2]
        yield head + b"\r\n\r\n" + body
    see_order(stands_for, span)


def see_lifetime(names, moments, given):
    """A shown deadline is the one that was given, or lies 48 hours after the create time."""
    if names.get(b"deadline") == GIVEN:
        if moments[b"deadline"] != given:
            raise Wrong(f"the deadline is {moments[b'deadline']!r}, and {given!r} was given")
    elif names and micros(moments[b"deadline"]) - micros(moments[b"createTime"]) != LIFETIME:
        raise Wrong(f"the deadline is not 48 hours away: {moments!r}")


def see_order(stands_for, span):
    """The moments of the run come in the order of the stored ones, and all but deadlines lie within the run."""
    in_order = [stands_for[name] for name in sorted(stands_for, key=micros)]
    if any(micros(one) > micros(next_one) for (one, _), (next_one, _) in zip(in_order, in_order[1:])):
        raise Wrong(f"moments in another order: {stands_for!r}")
    for moment, field in in_order:
        if field != b"deadline" and not span[0] <= micros(moment) <= span[1]:
            raise Wrong(f"{moment!r} lies outside the run")


def expect_stored(feed, folder, stored, errors=b"", status=0, given=None):
    """The run gives the stored replies, but for their moments."""
    begun = now()
    out, *end = run(feed, folder)
    if end != [errors, status]:
        raise Wrong(f"ended by {end!r} behind {out!r}")
    same(b"".join(as_stored(stored, out, (begun, now()), given)), stored)


def example(name, suffix):
    return (EXAMPLES / f"{name}.{suffix}").read_bytes()


def answers(name, errors=b"", status=0):
    """The example's requests in one piece."""

    def check(folder):
        expect_stored(example(name, "http"), folder, example(name, "reply"), errors, status)

    return check


def a_deadline_that_is_given(folder):
    """A request whose deadline is an hour away."""
    given = moment_in(hours=1).encode()
    feed = example("deadline-and-tags", "http").replace(GIVEN, given)
    expect_stored(feed, folder, example("deadline-and-tags", "reply"), given=given)


def a_byte_at_a_time(folder):
    """The same bytes through a pipe that gives one byte to each read."""

    def drip(pipe):
        for byte in example("three-requests", "http"):
            pipe.write(bytes([byte]))
            pipe.flush()
            time.sleep(0.0005)

    expect_stored(drip, folder, example("three-requests", "reply"))


CHECKS = {
    "one request": answers("create-invocation"),
    "three requests in one piece": answers("three-requests"),
    "wrong fields": answers("wrong-fields"),
    "no caller": answers("no-caller"),
    "no permission": answers("no-permission"),
    "a reserved id": answers("reserved-id"),
    "an unknown method": answers("unknown-method"),
    "a deadline and tags": a_deadline_that_is_given,
    "a tree of invocations": answers("tree"),
    "changes that are refused": answers("refused-changes"),
    "a creation that is sent again": answers("repeat"),
    "a batch that is sent again": answers("batch"),
    "verdicts, as three callers see them": answers("verdicts"),
    "artifacts, listed and read": answers("artifacts"),
    "the same bytes one at a time": a_byte_at_a_time,
    "a request cut short": answers("cut-short", b"rdb: wire 8 CutShort\n", 8),
    "another method": answers("other-method"),
    "a message without a length": answers("no-length", b"rdb: wire 4 NoLength\n", 8),
}
