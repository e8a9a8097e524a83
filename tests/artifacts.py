"""Files that are recorded: drawn batches of them beside a model that is written apart from the program, read by three
callers in pages of drawn sizes, over two runs of one journal; contents of 1 MiB; and what is refused.
"""

import base64
import hashlib
import random
import subprocess

from harness import RDB, SECONDS, changing, same, told
from journals import journal_in, shown
from verdicts import asking, made, page_token

MOST = 1 << 20  # bytes that contents may have
CONTENTS = "requests[0].artifact.contents"
COUNTS = b"invocations %d, finalized 0, results 0, exonerations 0, artifacts %d, kept %d, bytes %d\n"
READERS = {"alice": ("proj:ci", "proj:priv"), "bob": ("proj:ci",), "carol": ()}  # who reads artifacts, and where


def hash_of(contents):
    return f"sha256:{hashlib.sha256(contents).hexdigest()}"


def artifact(name, contents=b"", **more):
    return {"artifactId": name, "contents": base64.b64encode(contents).decode(), **more}


def added(*rows, number=None):
    """A batch of rows, each a parent and an artifact, that shows the token of the first one's invocation."""
    requests = [{"parent": parent, "artifact": each} for parent, each in rows]
    body = {"requestId": number or "", "requests": requests}
    return changing(holder_of(rows[0][0]), "BatchCreateArtifacts", body)


def escaped(name):
    """An artifact's id in a name: of its bytes only `/` doesn't stand as itself there."""
    return name.replace("/", "%2F")


def line(parent, row):
    """What a list shows of a row: what is empty is left out."""
    size = len(base64.b64decode(row["contents"]))
    shows = {
        "artifactId": row["artifactId"],
        "contentType": row.get("contentType"),
        "name": f"{parent}/artifacts/{escaped(row['artifactId'])}",
        "sizeBytes": str(size) if size else "",
    }
    return {name: value for name, value in shows.items() if value}


def whole(parent, row):
    """What a row's own reply shows of it."""
    contents = row["contents"]
    return {**line(parent, row), "hash": hash_of(base64.b64decode(contents)), **({"contents": contents} if contents else {})}


def list_token(parent, last):
    return page_token("ListArtifacts", [parent], 3, len(last).to_bytes(2, "little") + last.encode())


def token_before(parent, rows, at):
    """The token by which the page is asked that begins at a row: none at the first."""
    return list_token(parent, rows[at - 1]["artifactId"]) if at else ""


def page_from(parent, rows, at, size):
    more = token_before(parent, rows, at + size) if at + size < len(rows) else ""
    shows = {"artifacts": [line(parent, row) for row in rows[at : at + size]], "nextPageToken": more}
    return {name: value for name, value in shows.items() if value}


# Drawn files beside a model


def holder_of(parent):
    return parent.split("/")[1]


def parents_in(holder):
    front = f"invocations/{holder}"
    return [front, f"{front}/tests/t%2F1/results/r", f"{front}/tests/t/results/r"]


class Files:
    """Two invocations, and the files that were accepted for them and for results in them."""

    def __init__(self, draw):
        self.draw, self.rows, self.kept = draw, [], {}
        self.realms = {"u-a": "proj:ci", "u-b": draw.choice(READERS["alice"])}

    def row(self, parents):
        """A parent and an artifact of it, whose size or hash may be said, and be wrong."""
        draw, more = self.draw, {}
        contents = draw.randbytes(draw.choice([0, 1, 2, 3, 30, 3000]))
        if draw.random() < 0.5:
            size = len(contents) + (draw.random() < 0.05)
            more["sizeBytes"] = draw.choice([size, str(size)])
        if draw.random() < 0.5:
            more["hash"] = hash_of(contents + b"x" * (draw.random() < 0.05))
        if draw.random() < 0.5:
            more["contentType"] = draw.choice(["text/plain", "image/png", ""])
        letters = "".join(draw.choices("aA0-_.", k=draw.randint(1, 2)))
        name = draw.choice([f"{letters}{draw.randint(0, 12)}", f"{letters}/{draw.randint(0, 9)}"])
        return draw.choice(parents), artifact(name, contents, **more)

    def told_of(self, batch):
        """What a batch is told by the rules, in their order; where it is accepted its rows are there from now on."""
        names = [(parent, row["artifactId"]) for parent, row in batch]
        for second, name in enumerate(names):
            if names.index(name) < second:
                return 400, f"16 Repeated: {names.index(name)} {second}\n"
        found = [base64.b64decode(row["contents"]) for _, row in batch]
        for at, (_, row) in enumerate(batch):
            if int(row.get("sizeBytes", 0)) not in (0, len(found[at])):
                return 400, f"17 SizeWrong: {at} {row['sizeBytes']} {len(found[at])}\n"
        for at, (_, row) in enumerate(batch):
            if row.get("hash", hash_of(found[at])) != hash_of(found[at]):
                return 400, f"18 HashWrong: {at} {row['hash']} {hash_of(found[at])}\n"
        there = {(parent, row["artifactId"]) for parent, row in self.rows}
        for parent, name in names:
            if (parent, name) in there:
                return 409, f"19 Taken: {parent}/artifacts/{escaped(name)}\n"
        self.rows += batch
        return 200, {"artifacts": [line(*each) for each in batch]}

    def batches(self, count, front):
        """Drawn batches, and what each is told: one of three is numbered, and some are sent again."""
        for at in range(count):
            parents = parents_in(self.draw.choice(list(self.realms)))
            batch = [self.row(parents) for _ in range(self.draw.randint(1, 6))]
            batch += self.draw.sample(batch, self.draw.random() < 0.08)
            number = f"{front}{at}" if self.draw.random() < 0.33 else None
            asked, told_first = added(*batch, number=number), self.told_of(batch)
            yield asked, told_first
            if number and told_first[0] == 200:
                self.kept[asked] = told_first
            if self.kept and self.draw.random() < 0.2:
                yield self.draw.choice(list(self.kept.items()))

    def told_to(self, caller, right, parent, shows):
        """What a caller is told who asks for this by this right, in the realm of the parent's invocation."""
        realm = self.realms[holder_of(parent)]
        return (200, shows) if realm in READERS[caller] else (403, f"11 Denied: resultdb.artifacts.{right} {realm}\n")

    def reads(self, caller):
        """The requests for all pages of each parent, in drawn sizes, and for each artifact, and what they are told."""
        for parent in [parent for holder in self.realms for parent in parents_in(holder)]:
            rows = sorted((row for each, row in self.rows if each == parent), key=lambda row: row["artifactId"].encode())
            size = self.draw.randint(1, 7)
            for at in range(0, max(len(rows), 1), size):
                body = {"parent": parent, "pageSize": size, "pageToken": token_before(parent, rows, at)}
                page = page_from(parent, rows, at, size)
                yield asking(caller, "ListArtifacts", **body), self.told_to(caller, "list", parent, page)
            for row in rows:
                name = line(parent, row)["name"]
                yield asking(caller, "GetArtifact", name=name), self.told_to(caller, "get", parent, whole(parent, row))


def all_told(calls, folder, path):
    """Runs the program once over the requests, each of which is told what is wanted."""
    got = shown(b"".join(asked for asked, _ in calls), folder, path)
    same(len(got), len(calls))
    for came, (asked, wanted) in zip(got, calls):
        if came != wanted:
            same((asked[-300:], came), (asked[-300:], wanted))


def counted(path, invocations, artifacts, kept):
    """What `check` prints of the journal."""
    done = subprocess.run([RDB, "check", "--journal", path], capture_output=True, timeout=SECONDS)
    wanted = COUNTS % (invocations, artifacts, kept, path.stat().st_size - 9)
    same((done.stdout, done.stderr, done.returncode), (wanted, b"", 0))


def drawn_files(folder):
    """Drawn batches in two runs over one journal, each with reads by three callers; then a third run, in which what was
    numbered is sent again and adds nothing."""
    draw = random.Random(30)
    for _ in range(6):
        files, path = Files(draw), journal_in(folder, b"")
        creations = made("u-a", files.realms["u-a"]) + made("u-b", files.realms["u-b"])
        same([status for status, _ in shown(creations, folder, path)], [200, 200])
        for front in ("first-", "second-"):
            changes = list(files.batches(25, front))
            all_told(changes + [call for caller in READERS for call in files.reads(caller)], folder, path)
        counted(path, 2, len(files.rows), len(files.kept))
        all_told([*files.kept.items(), *files.reads("alice")], folder, path)
        counted(path, 2, len(files.rows), len(files.kept))


# Contents at their limit


def contents_of_a_mebibyte(folder):
    """Contents of 1 MiB come back as they went, in this run and in the next one; a byte more is refused."""
    path, front = journal_in(folder), "invocations/u-a"
    draw = random.Random(31)
    rows = [(front, artifact(f"{n}.bin", draw.randbytes(MOST), sizeBytes=MOST, contentType="image/png")) for n in range(3)]
    over = [(front, artifact("over.bin", bytes(MOST + 1)))]
    changes = [(added(*rows[:2]), (200, {"artifacts": [line(*row) for row in rows[:2]]}))]
    changes += [(added(rows[2]), (200, {"artifacts": [line(*rows[2])]}))]
    changes += [(added(*over), (400, f"6 BadValue: {CONTENTS} TooLong {MOST + 1}\n"))]
    reads = [(asking("bob", "GetArtifact", name=line(*row)["name"]), (200, whole(*row))) for row in rows]
    same(shown(made("u-a"), folder, path)[0][0], 200)
    all_told(changes + reads, folder, path)
    all_told(reads, folder, path)
    counted(path, 1, 3, 0)


# What is refused


def what_is_said_of_them(folder):
    """Rules in their order: a repeated name before a size, a size of any row before a hash, a hash before a name that is
    taken; a size of 0 says nothing, and an empty hash is none; a refused batch adds none of its rows."""
    front, none = "invocations/u-a", hash_of(b"x")
    a = lambda name, **more: (front, artifact(name, b"abc", **more))
    cases = [
        (added(a("a"), a("b", sizeBytes=0)), (200, {"artifacts": [line(*a("a")), line(*a("b"))]})),
        (added(a("c"), a("d", hash="")), (400, "6 BadValue: requests[1].artifact.hash Empty\n")),
        (added(a("c", sizeBytes=4), a("d"), a("e"), a("e"), a("c")), (400, "16 Repeated: 2 3\n")),
        (added(a("a", hash=none), a("c"), a("d", sizeBytes="4")), (400, "17 SizeWrong: 2 4 3\n")),
        (added(a("a"), a("c", sizeBytes=3, hash=none)), (400, f"18 HashWrong: 1 {none} {hash_of(b'abc')}\n")),
        (added(a("c"), a("b"), a("a")), (409, "19 Taken: invocations/u-a/artifacts/b\n")),
        (added(*(a(f"n{n}") for n in range(501))), (400, "15 TooMany: 501\n")),
        (asking("alice", "ListArtifacts", parent=front), (200, {"artifacts": [line(*a("a")), line(*a("b"))]})),
    ]
    same(told(made("u-a") + b"".join(asked for asked, _ in cases), folder)[1:], [wanted for _, wanted in cases])


def parents_apart(folder):
    """The same id may stand at an invocation and at its results, which need not be there; a batch is of one invocation."""
    front = "invocations/u-a"
    parents = [front, f"{front}/tests/t/results/r", f"{front}/tests/t%2F/results/r"]
    rows = [(parent, artifact("log.txt", bytes([at]))) for at, parent in enumerate(parents)]
    stream = made("u-a") + made("u-b") + added(*rows) + added(rows[0], ("invocations/u-b", artifact("log.txt")))
    for parent in [*parents, f"{front}/tests/none/results/r"]:
        stream += asking("bob", "ListArtifacts", parent=parent)
    got = told(stream, folder)[2:]
    same(got[0], (200, {"artifacts": [line(*row) for row in rows]}))
    same(got[1], (400, "6 BadValue: requests[1].parent Differs\n"))
    same(got[2:], [*((200, {"artifacts": [line(*row)]}) for row in rows), (200, {})])


def only_into_active_ones(folder):
    """A final invocation takes no more; what it has is read, and what was numbered is told again."""
    row = ("invocations/u-a", artifact("log.txt", b"abc"))
    kept, later = added(row, number="files-1"), added(("invocations/u-a", artifact("late.txt")))
    end = changing("u-a", "FinalizeInvocation", {"name": "invocations/u-a"})
    got = told(made("u-a") + kept + end + kept + later + asking("bob", "GetArtifact", name=line(*row)["name"]), folder)
    same([got[1], got[3]], [(200, {"artifacts": [line(*row)]})] * 2)
    same(got[4:], [(400, "12 NotActive: invocations/u-a FINALIZED\n"), (200, whole(*row))])


def names_and_tokens(folder):
    """A name in another spelling is refused, one of no artifact isn't found, and a token goes with its parent alone."""
    front, token = "invocations/u-a", list_token("invocations/u-a", "a/b")
    name = f"{front}/artifacts/a%2Fb"
    get = lambda text: asking("bob", "GetArtifact", name=text)
    ask = lambda parent, text="": asking("bob", "ListArtifacts", parent=parent, pageToken=text)
    cases = [
        (get(name.replace("%2F", "%2f")), (400, f"6 BadValue: name NotCanonical {name.index('%2F')}\n")),
        (get(name[:-1]), (404, f"8 NotFound: {name[:-1]}\n")),
        (get(name.replace("u-a", "u-b")), (404, "8 NotFound: invocations/u-b\n")),
        (ask("invocations/u-b"), (404, "8 NotFound: invocations/u-b\n")),
        (ask(front, token), (200, {"artifacts": [line(front, artifact("b"))]})),
        (ask(front, token[:-1]), (400, "6 BadValue: pageToken NotBase64\n")),
        (ask(f"{front}/tests/t/results/r", token), (400, "6 BadValue: pageToken OtherQuery\n")),
        (added((front, {"artifactId": "c", "contents": "YWJ="})), (400, f"6 BadValue: {CONTENTS} NotBase64\n")),
    ]
    stream = made("u-a") + added((front, artifact("a/b")), (front, artifact("b")))
    same(told(stream + b"".join(asked for asked, _ in cases), folder)[2:], [wanted for _, wanted in cases])


CHECKS = {
    "drawn files": drawn_files,
    "contents of 1 MiB": contents_of_a_mebibyte,
    "what is said of sizes and hashes": what_is_said_of_them,
    "parents apart": parents_apart,
    "only into active ones": only_into_active_ones,
    "names and tokens": names_and_tokens,
}
