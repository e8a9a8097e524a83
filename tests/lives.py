"""What becomes of invocations: deadlines that are moved, tokens, requests that are sent again, batches, full tables, and
drawn graphs beside a model.
"""

import random

from harness import Wrong, adding, changing, exonerations, folder_in_memory, named, new, replies, request, results, run
from harness import same, token, told, told_by, updating
from moments import micros, moment_in, now


def a_deadline_that_is_moved(folder):
    """An update sets the deadline alone where the mask names it alone; out of reach it is refused."""
    near, given, far = moment_in(), moment_in(hours=1), moment_in(hours=121)
    tags = [{"key": "k", "value": "v"}]
    begun = now()
    created, moved, again, cleared, *refused = told(
        request("CreateInvocation", new("u-a"))
        + changing("u-a", "UpdateInvocation", updating("u-a", "deadline", deadline=given, tags=tags))
        + changing("u-a", "UpdateInvocation", updating("u-a", "tags,deadline", deadline=given, tags=tags))
        + changing("u-a", "UpdateInvocation", updating("u-a", "tags", deadline="never"))
        + changing("u-a", "UpdateInvocation", updating("u-a", "deadline", deadline=near))
        + changing("u-a", "UpdateInvocation", updating("u-a", "deadline", deadline=far)),
        folder,
    )
    shown = {**created[1], "deadline": given}
    same((moved, again, cleared), ((200, shown), (200, {**shown, "tags": tags}), (200, shown)))
    same(len(refused), 2)
    for (status, text), deadline in zip(refused, (near, far)):
        front, _, moment = text.rstrip("\n").rpartition(" ")
        same((status, front), (400, f"13 DeadlineRange: {deadline}"))
        if not begun <= micros(moment.encode()) <= now():
            raise Wrong(f"{moment} lies outside the run")


def tokens_and_many_names(folder):
    """Update tokens that are there twice, or empty; and 501 names, and 500, of which each counts once."""
    shown = f"Update-Token: {token('u-a')}"
    create, get = request("CreateInvocation", new("u-a")), request("GetInvocation", named("u-a"))
    twice = request("FinalizeInvocation", named("u-a"), shown, shown)
    empty = request("FinalizeInvocation", named("u-a"), "Update-Token:")
    many, most = (changing("u-a", "UpdateIncludedInvocations", adding("u-a", *["u-b"] * n)) for n in (501, 500))
    got = told(create + request("CreateInvocation", new("u-b")) + twice + empty + many + most + get, folder)
    same(got[2], (401, "9 NoUpdateToken: invocations/u-a\n"))
    same(got[3], (403, "10 BadUpdateToken: invocations/u-a\n"))
    same(got[4], (400, "15 TooMany: 501\n"))
    same(got[5], (200, {}))
    same(got[6], (200, {**got[0][1], "includedInvocations": ["invocations/u-b"]}))


def requests_that_are_sent_again(folder):
    """A creation that is sent again under its request id gets its first reply again, byte for byte, whatever has become
    of the invocation. Another one under the id is refused and adds nothing; a refused one leaves its id free."""

    def numbered(number, name):
        return request("CreateInvocation", {"requestId": number, **new(name)})

    first, other = numbered("q", "u-a"), numbered("q", "u-b")
    end = changing("u-a", "FinalizeInvocation", named("u-a"))
    looks = b"".join(request("GetInvocation", named(name)) for name in ("u-a", "u-b"))
    taken, free = numbered("r", "u-a"), numbered("r", "u-b")
    out, *ended = run(first + first + end + first + other + looks + taken + free, folder)
    same(ended, [b"", 0])
    came = list(replies(out))
    same([came[1], came[3]], [came[0], came[0]])
    created, _, final, _, *rest, accepted = [told_by(int(head.split(b" ")[1]), body) for head, body in came]
    same([created[1]["state"], final[1]["state"]], ["ACTIVE", "FINALIZED"])
    reused, missing = (400, "7 RequestIdReused: q\n"), (404, "8 NotFound: invocations/u-b\n")
    same(rest, [reused, final, missing, (409, "19 Taken: invocations/u-a\n")])
    same((accepted[0], accepted[1]["name"]), (200, "invocations/u-b"))


def batches_that_come_in_whole(folder):
    """A batch with a row that is there adds none of its rows. Under its request id a batch gets its first reply again,
    byte for byte, where it was sent again because the reply was lost, and also once its invocation has ended."""
    first, placed = results("u-a", "r0", "r1", number="q"), exonerations("u-a", 2, number="x")
    end = changing("u-a", "FinalizeInvocation", named("u-a"))
    stream = [
        request("CreateInvocation", new("u-a")),
        first,
        results("u-a", "r2", "r3", "r1"),
        first,
        results("u-a", "r3", "r2"),
        results("u-a", "r4", number="q"),
        placed,
        exonerations("u-a", 1),
        end,
        first,
        placed,
        results("u-a", "r4"),
    ]
    out, *ended = run(b"".join(stream), folder)
    same(ended, [b"", 0])
    came = list(replies(out))
    same([came[3], came[9], came[10]], [came[1], came[1], came[6]])
    _, one, taken, _, two, reused, both, third, _, _, _, late = [told_by(int(h.split(b" ")[1]), b) for h, b in came]
    same([row["resultId"] for row in one[1]["testResults"] + two[1]["testResults"]], ["r0", "r1", "r3", "r2"])
    same(taken, (409, "19 Taken: invocations/u-a/tests/t/results/r1\n"))
    same(reused, (400, "7 RequestIdReused: q\n"))
    given = [row["exonerationId"] for row in both[1]["testExonerations"] + third[1]["testExonerations"]]
    same(given, [f"e3b0c44298fc1c14:{place}" for place in (1, 2, 3)])
    same(late, (400, "12 NotActive: invocations/u-a FINALIZED\n"))


def full_invocations(folder):
    """An invocation has at most 100,000 results, and as many exonerations. A batch that would go past them is refused
    whole; another invocation has its own."""
    full = [[f"r{n}" for n in range(at, at + 500)] for at in range(0, 100_000, 500)]
    stream = request("CreateInvocation", new("u-a")) + request("CreateInvocation", new("u-b"))
    stream += b"".join(results("u-a", *ids) for ids in [*full[:-1], full[-1][:-1]])
    stream += results("u-a", "one", "two") + results("u-a", "one") + results("u-a", "two") + results("u-b", "two")
    stream += exonerations("u-a", 500) * 200 + exonerations("u-a", 1) + exonerations("u-b", 1)
    got = told(stream, folder)[2:]
    same({status for status, _ in got[:200]}, {200})
    same(got[200], (429, "20 TableFull: results 99999\n"))
    same([status for status, _ in got[201:204]], [200, 429, 200])
    same(got[202][1], "20 TableFull: results 100000\n")
    same({status for status, _ in got[204:404]}, {200})
    same(got[403][1]["testExonerations"][-1]["exonerationId"], "e3b0c44298fc1c14:100000")
    same(got[404], (429, "20 TableFull: exonerations 100000\n"))
    same(got[405][0], 200)


def full_tables(folder):
    """The 65,537th invocation is refused, and the 262,145th inclusion, with all that its call names. What stands may be
    asked for again."""
    names = [f"u-{n}" for n in range(65_536)]
    several, most, others = names[:524], names[524], names[1_000:1_500]

    def including(name, count):
        return changing(name, "UpdateIncludedInvocations", adding(name, *others[:count]))

    stream = b"".join(request("CreateInvocation", new(name)) for name in [*names, "u-more", "u-0"])
    stream += b"".join(including(name, 500) for name in several)
    stream += b"".join(including(*row) for row in ((most, 145), (most, 144), (names[525], 1), (most, 144)))
    with folder_in_memory(folder) as own:
        got = told(stream + request("GetInvocation", named(most)), own)
    created, got = got[: len(names)], got[len(names) :]
    same({status for status, _ in created}, {200})
    same(got[:2], [(429, "20 TableFull: invocations 65536\n"), (409, "19 Taken: invocations/u-0\n")])
    same([row for row in got[2:526] if row != (200, {})], [])
    same(got[526:528], [(429, "20 TableFull: inclusions 262000\n"), (200, {})])
    same(got[528:530], [(429, "20 TableFull: inclusions 262144\n"), (200, {})])
    same(got[530][1]["includedInvocations"], [f"invocations/{name}" for name in others[:144]])


def reached(inclusions, start):
    """Whom a walk of inclusions leads to, the start among them."""
    found, left = set(), [start]
    while left:
        node = left.pop()
        if node not in found:
            found.add(node)
            left += [to for by, to in inclusions if by == node]
    return found


def graphs_beside_a_model(folder):
    """Drawn graphs, cycles among them, whose invocations are finalised in a drawn order: after each call, which are
    final, and since when. One is final from the first call on after which no walk leads from it to an active one."""
    for seed in range(8):
        drawn = random.Random(seed)
        names = [f"u-{n}" for n in range(7)]
        pairs = [(by, to) for by in names for to in names if by != to]
        inclusions, order = drawn.sample(pairs, 4 + seed), drawn.sample(names, len(names))
        stream = b"".join(request("CreateInvocation", new(name)) for name in names)
        stream += b"".join(changing(by, "UpdateIncludedInvocations", adding(by, to)) for by, to in inclusions)
        looks = b"".join(request("GetInvocation", named(name)) for name in names)
        stream += b"".join(changing(name, "FinalizeInvocation", named(name)) + looks for name in order)
        got = iter(told(stream, folder)[len(names) + len(inclusions) :])
        active, ends = set(names), {}
        for name in order:
            _, ended = next(got)
            active.remove(name)
            for other in names:
                if other not in ends and not reached(inclusions, other) & active:
                    ends[other] = ended["finalizeStartTime"]
                status, shown = next(got)
                state = "ACTIVE" if other in active else "FINALIZED" if other in ends else "FINALIZING"
                same((status, shown["state"], shown.get("finalizeTime")), (200, state, ends.get(other)))
                same(shown["name"], f"invocations/{other}")


CHECKS = {
    "a deadline that is moved": a_deadline_that_is_moved,
    "tokens, and many names": tokens_and_many_names,
    "requests that are sent again": requests_that_are_sent_again,
    "batches that come in whole": batches_that_come_in_whole,
    "graphs beside a model": graphs_beside_a_model,
    "full invocations": full_invocations,
    "full tables": full_tables,
}
