"""What is read of results: verdicts in pages, masks by realm, page tokens, and drawn builds beside a model that is
written apart from the program.
"""

import base64
import hashlib
import json
import random

from harness import SECRET, Wrong, changing, named, replies, request, rows, run, same, told, told_by, token

STATUSES = ["PASS", "FAIL", "CRASH", "ABORT", "SKIP"]
NUMBERS = {"UNEXPECTED": 10, "UNEXPECTEDLY_SKIPPED": 20, "FLAKY": 30, "EXONERATED": 40, "EXPECTED": 50}
EMPTY = hashlib.sha256().hexdigest()[:16]
WHOLE = {"alice": {"proj:ci", "proj:priv"}, "bob": {"proj:ci"}, "carol": set()}  # who sees results whole, and where


def asking(caller, method, **body):
    text = json.dumps(body)
    head = [
        f"POST /prpc/luci.resultdb.v1.ResultDB/{method} HTTP/1.1",
        f"Authorization: Bearer tok-{caller[0]}",
        f"Content-Length: {len(text)}",
    ]
    return ("\r\n".join(head) + "\r\n\r\n" + text).encode()


def made(name, realm="proj:ci"):
    return request("CreateInvocation", {"invocationId": name, "invocation": {"realm": realm}})


def result(test, number, status, expected=False, **more):
    return {"testId": test, "resultId": number, "status": status, **({"expected": True} if expected else {}), **more}


def recorded(name, *results):
    return changing(name, "BatchCreateTestResults", rows(name, "testResult", results))


def excused(name, *exonerations):
    return changing(name, "BatchCreateTestExonerations", rows(name, "testExoneration", exonerations))


def including(name, *others):
    added = [f"invocations/{other}" for other in others]
    return changing(name, "UpdateIncludedInvocations", {"includingInvocation": f"invocations/{name}", "addInvocations": added})


def five_verdicts():
    """An invocation with one verdict of each status."""
    return (
        made("u-v")
        + recorded(
            "u-v",
            result("t1", "r1", "PASS", True),
            result("t2", "r1", "FAIL"),
            result("t3", "r1", "FAIL"),
            result("t3", "r2", "PASS", True),
            result("t4", "r1", "SKIP"),
            result("t5", "r1", "FAIL"),
        )
        + excused("u-v", {"testId": "t2"})
    )


def page_token(method, names, kind, key):
    query = hashlib.sha256("".join(f"{each}\n" for each in [method, *names]).encode()).digest()
    return base64.b64encode(b"\1" + query + bytes([kind]) + key).decode()


def verdict_token(names, status, test, label=EMPTY, ordinal=0):
    key = bytes([status]) + len(test).to_bytes(2, "little") + test.encode() + label.encode() + ordinal.to_bytes(4, "little")
    return page_token("QueryTestVariants", names, 1, key)


def verdicts_in_pages(folder):
    """Verdicts stand by their status, in pages of two, each with the token of the page behind it."""
    names = ["invocations/u-v"]
    first, second = verdict_token(names, 20, "t4"), verdict_token(names, 40, "t2")
    pages = [asking("alice", "QueryTestVariants", invocations=names, pageSize=2, pageToken=each) for each in ("", first, second)]
    shows = [shown for _, shown in told(five_verdicts() + b"".join(pages), folder)[3:]]
    tests = [[(each["testId"], each["status"], [r["result"]["resultId"] for r in each["results"]]) for each in page["testVariants"]] for page in shows]
    same(
        tests,
        [
            [("t5", "UNEXPECTED", ["r1"]), ("t4", "UNEXPECTEDLY_SKIPPED", ["r1"])],
            [("t3", "FLAKY", ["r1", "r2"]), ("t2", "EXONERATED", ["r1"])],
            [("t1", "EXPECTED", ["r1"])],
        ],
    )
    same([page.get("nextPageToken") for page in shows], [first, second, None])
    same(
        shows[2],
        {"testVariants": [{"results": [{"result": {"expected": True, "name": "invocations/u-v/tests/t1/results/r1", "resultId": "r1", "status": "PASS", "testId": "t1", "variantHash": EMPTY}}], "status": "EXPECTED", "testId": "t1", "variantHash": EMPTY}]},
    )


def tokens_of_other_queries(folder):
    """A token goes with the names of its query, as they were written, and is read whole or not at all."""
    right = verdict_token(["invocations/u-v"], 20, "t4")
    ask = lambda name, text: asking("alice", "QueryTestVariants", invocations=[f"invocations/{name}"], pageToken=text)
    got = told(five_verdicts() + made("u-w") + ask("u-w", right) + ask("u-v", right[:-1]) + ask("u-v", right), folder)[4:]
    same(got[:2], [(400, "6 BadValue: pageToken OtherQuery\n"), (400, "6 BadValue: pageToken NotBase64\n")])
    same([each["testId"] for each in got[2][1]["testVariants"]], ["t3", "t2", "t1"])


def masks_by_the_holder(folder):
    """What a caller may not see in the realm of the invocation that holds a result is masked there, and only there."""
    message = "x" * 139 + "é" + "tail"
    failed = result(
        "t", "r", "FAIL", variant={"def": {"os": "linux"}}, failureReason={"primaryErrorMessage": message}, summaryHtml="<b>",
        tags=[{"key": "k", "value": "v"}], properties={"a": 1},
    )
    stream = made("u-p", "proj:priv") + made("u-r") + including("u-r", "u-p") + recorded("u-p", failed) + recorded("u-r", failed)
    for caller in ("alice", "bob", "carol"):
        stream += asking(caller, "QueryTestVariants", invocations=["invocations/u-r"])
    *_, alice, bob, carol = [shown["testVariants"] for _, shown in told(stream, folder)[5:]]
    for shown, masked in ((alice, ()), (bob, ("u-p",)), (carol, ("u-p", "u-r"))):
        same(len(shown), 1)
        same([each["result"]["name"].split("/")[1] for each in shown[0]["results"]], ["u-p", "u-r"])
        for each in (each["result"] for each in shown[0]["results"]):
            hidden = each["name"].split("/")[1] in masked
            same(each.get("isMasked", False), hidden)
            same(each["failureReason"]["primaryErrorMessage"], "x" * 139 if hidden else message)
            same([member in each for member in ("variant", "summaryHtml", "tags", "properties")], [not hidden] * 4)
        same("variant" in shown[0], len(masked) < 2)
        same(shown[0].get("isMasked", False), len(masked) == 2)


def one_result(folder):
    """A result is shown by its name; a name in another spelling is refused, and one of no result isn't found."""
    test = "a/b;c ?%é"
    name = "invocations/u-a/tests/a%2Fb%3Bc%20%3F%25%C3%A9/results/r"
    stream = made("u-a") + recorded("u-a", result(test, "r", "PASS", True))
    for each in (name, name.replace("%2F", "%2f"), name[:-1] + "s", name.replace("u-a", "u-b")):
        stream += asking("alice", "GetTestResult", name=each)
    got = told(stream, folder)[2:]
    same((got[0][0], got[0][1]["testId"], got[0][1]["name"]), (200, test, name))
    same(got[1], (400, f"6 BadValue: name NotCanonical {name.index('%2F')}\n"))
    same(got[2], (404, f"8 NotFound: {name[:-1]}s\n"))
    same(got[3], (404, "8 NotFound: invocations/u-b\n"))


def who_may_list(folder):
    """A permission or the limited one is asked, name by name, and the limited one is named."""
    stream = made("u-a") + made("u-b", "proj:priv")
    names = ["invocations/u-a", "invocations/u-b"]
    for caller in ("bob", "carol", "dana"):
        stream += asking(caller, "QueryTestVariants", invocations=names) + asking(caller, "QueryTestResults", invocations=names)
    denied = (403, "11 Denied: resultdb.testResults.listLimited proj:priv\n")
    same(told(stream, folder)[2:], [(200, {})] * 2 + [denied] * 2 + [(200, {})] * 2)


# Drawn builds beside a model


class Build:
    """A drawn build: invocations that include one another, with their realms, results and exonerations."""

    def __init__(self, draw):
        count = draw.randint(2, 6)
        self.names = [f"u-{chr(97 + n)}" for n in range(count)]
        self.realms = {name: draw.choice(["proj:ci", "proj:priv"]) for name in self.names}
        self.edges = {name: draw.sample([o for o in self.names if o != name], draw.randint(0, 2 if count > 2 else 1)) for name in self.names}
        variants = [{}, {"os": "mac"}, {"os": "linux", "a": "b"}]
        self.results, self.excused, taken = [], [], set()
        for _ in range(draw.randint(5, 40)):
            holder, test, number = draw.choice(self.names), f"t{draw.randint(0, 5)}", f"r{draw.randint(0, 9)}"
            if (holder, test, number) not in taken:
                taken.add((holder, test, number))
                self.results.append((holder, test, number, draw.choice(STATUSES), draw.random() < 0.5, draw.choice(variants)))
        for _ in range(draw.randint(0, 4)):
            self.excused.append((draw.choice(self.names), f"t{draw.randint(0, 5)}", draw.choice(variants), f"why {draw.randint(0, 9)}"))

    def stream(self):
        text = b"".join(made(name, self.realms[name]) for name in self.names)
        text += b"".join(including(name, *others) for name, others in self.edges.items() if others)
        for holder, test, number, status, expected, pairs in self.results:
            text += recorded(holder, result(test, number, status, expected, variant={"def": pairs}))
        for holder, test, pairs, why in self.excused:
            text += excused(holder, {"testId": test, "variant": {"def": pairs}, "explanationHtml": why})
        return text

    def requests(self):
        return len(self.names) + sum(bool(each) for each in self.edges.values()) + len(self.results) + len(self.excused)

    def reached(self, roots):
        found, todo = set(), list(roots)
        while todo:
            name = todo.pop()
            if name not in found:
                found.add(name)
                todo += self.edges[name]
        return found

    def verdicts(self, roots, caller, limit):
        """The verdicts as the caller is shown them, in their order."""
        there, groups = self.reached(roots), {}
        for row in self.results:
            if row[0] in there:
                groups.setdefault((row[1], pairs_of(row[5])), []).append(row)
        keyed = []
        for (test, pairs), found in groups.items():
            excuses = [e for e in self.excused if e[0] in there and e[1] == test and pairs_of(e[2]) == pairs]
            excuses.sort(key=lambda e: (e[0], [x for x in self.excused if x[0] == e[0]].index(e)))
            found.sort(key=lambda r: (r[4], r[0], r[2]))
            status = status_of(found, excuses)
            keyed.append(((NUMBERS[status], test, label_of(pairs), pairs), status, found, excuses))
        keyed.sort(key=lambda each: each[0])
        return [self.shown(*each, caller, limit) for each in keyed]

    def shown(self, key, status, found, excuses, caller, limit):
        _, test, label, pairs = key
        sees = [self.realms[row[0]] in WHOLE[caller] for row in found]
        shown = {"status": status, "testId": test, "variantHash": label}
        shown["results"] = [{"result": self.row(row, label, seen)} for row, seen in list(zip(found, sees))[:limit]]
        if excuses:
            shown["exonerations"] = [{"explanationHtml": e[3]} if self.realms[e[0]] in WHOLE[caller] else {} for e in excuses]
        if not any(sees):
            shown["isMasked"] = True
        elif pairs:
            shown["variant"] = {"def": dict(pairs)}
        return shown

    def row(self, row, label, seen):
        holder, test, number, status, expected, pairs = row
        shown = {"name": f"invocations/{holder}/tests/{test}/results/{number}", "testId": test, "resultId": number, "status": status, "variantHash": label}
        if expected:
            shown["expected"] = True
        if not seen:
            shown["isMasked"] = True
        elif pairs:
            shown["variant"] = {"def": pairs}
        return shown


def pairs_of(variant):
    return tuple(sorted(variant.items()))


def label_of(pairs):
    return hashlib.sha256("".join(f"{key}:{value}\n" for key, value in pairs).encode()).hexdigest()[:16]


def status_of(found, excuses):
    if excuses:
        return "EXONERATED"
    if all(row[4] for row in found):
        return "EXPECTED"
    if any(row[4] for row in found):
        return "FLAKY"
    return "UNEXPECTEDLY_SKIPPED" if all(row[3] == "SKIP" for row in found) else "UNEXPECTED"


def tokens_behind(names, verdicts, size):
    """The tokens by which the pages of this size are asked, the first one empty."""
    tokens, seen = [""], {}
    for at, each in enumerate(verdicts, 1):
        key = (NUMBERS[each["status"]], each["testId"], each["variantHash"])
        seen[key] = seen.get(key, 0) + 1
        if at % size == 0 and at < len(verdicts):
            tokens.append(verdict_token(names, *key, seen[key] - 1))
    return tokens


DENIED = (403, "11 Denied: resultdb.testResults.listLimited proj:priv\n")  # what carol is told of roots there


def pages_of(build, roots, caller, draw):
    """The requests for all pages of drawn sizes, and what they are told."""
    names, size, limit = [f"invocations/{root}" for root in roots], draw.randint(1, 4), draw.randint(1, 3)
    verdicts = build.verdicts(roots, caller, limit)
    tokens = tokens_behind(names, verdicts, size)
    for at, text in enumerate(tokens):
        body = {"invocations": names, "pageSize": size, "resultLimit": limit, "pageToken": text}
        page = {"testVariants": verdicts[at * size : at * size + size]} if verdicts else {}
        more = {"nextPageToken": tokens[at + 1]} if at + 1 < len(tokens) else {}
        is_denied = caller == "carol" and "proj:priv" in [build.realms[root] for root in roots]
        yield asking(caller, "QueryTestVariants", **body), DENIED if is_denied else (200, {**page, **more})


def drawn_builds(folder):
    """Drawn builds, read by each caller in pages of drawn sizes, are shown as the model has them."""
    draw = random.Random(29)
    for _ in range(12):
        build = Build(draw)
        roots = draw.sample(build.names, draw.randint(1, 2))
        pages = [each for caller in ("alice", "bob", "carol") for each in pages_of(build, roots, caller, draw)]
        got = told(build.stream() + b"".join(asked for asked, _ in pages), folder)
        same(got[build.requests() :], [wanted for _, wanted in pages])


CHECKS = {
    "verdicts in pages": verdicts_in_pages,
    "tokens of other queries": tokens_of_other_queries,
    "masks by the holder": masks_by_the_holder,
    "one result": one_result,
    "who may list": who_may_list,
    "drawn builds": drawn_builds,
}
