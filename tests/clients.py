"""Clients behind a listener: Python's library, a plain socket, and curl where it is installed."""

import base64
import contextlib
import http.client
import json
import pathlib
import shutil
import socket
import subprocess

from harness import (
    BEARER,
    SECONDS,
    Wrong,
    adding,
    listening,
    named,
    new,
    not_implemented,
    route,
    same,
    token,
    told_by,
)

CALL = route("CreateInvocation")
CREATE = json.dumps(new("u-a"))


@contextlib.contextmanager
def calling(folder):
    """A client of Python's library, on one connection to the program."""
    with listening(folder) as port:
        with contextlib.closing(http.client.HTTPConnection("127.0.0.1", port, timeout=SECONDS)) as client:
            yield client


def status_of(reply, wanted, starts):
    body = reply.read()
    if reply.status != wanted or not body.startswith(starts):
        raise Wrong(f"got {reply.status} {body!r}, wanted {wanted} {starts!r}")


def a_client_of_the_library(folder):
    """Python's http.client over one connection: each reply comes before the next request is sent."""
    with calling(folder) as client:
        client.request("POST", CALL, CREATE, BEARER)
        status_of(client.getresponse(), 200, b")]}'\n{")
        client.request("POST", CALL, CREATE, BEARER)
        status_of(client.getresponse(), 409, b"19 Taken: invocations/u-a\n")
        client.request("GET", "/")
        reply = client.getresponse()
        if reply.getheader("Connection") != "close":
            raise Wrong("the connection stays open")
        status_of(reply, 501, b"1 NoMethod: /\n")


def a_cycle_of_three(folder):
    """Three that include one another are finalised in turn: all are final with the last one. Each update token is the
    one that the reply to the creation handed out."""
    names = ("u-a", "u-b", "u-c")
    with calling(folder) as client:

        def call(method, body, shown=None):
            headers = {**BEARER, "Update-Token": shown} if shown else BEARER
            client.request("POST", route(method), json.dumps(body), headers)
            reply = client.getresponse()
            status, shown = told_by(reply.status, reply.read())
            same(status, 200)
            return shown, reply.getheader("Update-Token")

        tokens = {name: call("CreateInvocation", new(name))[1] for name in names}
        same(tokens, {name: token(name) for name in names})
        for name, other in zip(names, names[1:] + names[:1]):
            same(call("UpdateIncludedInvocations", adding(name, other), tokens[name]), ({}, None))
        ended = [call("FinalizeInvocation", named(name), tokens[name])[0] for name in names]
        same([shown["state"] for shown in ended], ["FINALIZING", "FINALIZING", "FINALIZED"])
        end = ended[2]["finalizeStartTime"]
        for name, shown in zip(names, ended):
            wanted = {**shown, "state": "FINALIZED", "finalizeTime": end}
            same(call("GetInvocation", named(name)), (wanted, None))
            same(call("FinalizeInvocation", named(name), tokens[name]), (wanted, None))


def a_plain_socket(folder):
    """A client that waits for the first reply before it sends the second request, and then ends its side."""
    request = b"POST /x HTTP/1.1\r\nContent-Length: 2\r\n\r\n{}"
    reply = not_implemented(b"/x").replace(b"Connection: close\r\n", b"")
    with listening(folder) as port:
        with socket.create_connection(("127.0.0.1", port), timeout=SECONDS) as link:
            for _ in range(2):
                link.sendall(request[:20])
                link.sendall(request[20:])
                got = b""
                while len(got) < len(reply):
                    got += link.recv(4096)
                if got != reply:
                    raise Wrong(f"got {got!r}")
            link.shutdown(socket.SHUT_WR)
            if link.recv(1):
                raise Wrong("more than two replies")


def by_curl(folder, *words):
    """What curl writes."""
    with listening(folder) as port:
        done = subprocess.run(
            ["curl", "-sS", "--max-time", str(SECONDS), *(word.replace("PORT", str(port)) for word in words)],
            capture_output=True,
            timeout=SECONDS,
        )
    if done.returncode:
        raise Wrong(f"curl: {done!r}")
    return done.stdout


def curl_words(method, body, *headers):
    """Words for a call whose body is given, or stands in a file."""
    shown = [word for header in ("Authorization: Bearer tok-a", *headers) for word in ("-H", header)]
    sent = ["--data-binary", f"@{body}"] if isinstance(body, pathlib.Path) else ["-d", json.dumps(body)]
    return [*shown, *sent, f"http://127.0.0.1:PORT{route(method)}"]


def where_curl_is(check):
    return check if shutil.which("curl") else lambda _: "nothing was tried, since curl isn't installed"


def a_call_by_curl(folder):
    out = by_curl(folder, "-w", " %{http_code}", *curl_words("CreateInvocation", new("u-a")))
    if not (out.startswith(b")]}'\n{") and out.endswith(b"} 200")):
        raise Wrong(f"curl: {out!r}")


def calls_by_curl(folder):
    """Calls that follow one another on one connection, as docs/calling.md has them."""
    shown = f"Update-Token: {token('u-a')}"
    words = curl_words("CreateInvocation", new("u-a"))
    for method, body, *headers in (
        ("CreateInvocation", new("u-b")),
        ("UpdateIncludedInvocations", adding("u-a", "u-b"), shown),
        ("FinalizeInvocation", named("u-a"), shown),
        ("GetInvocation", named("u-a")),
    ):
        words += ["--next", "-sS", *curl_words(method, body, *headers)]
    out = by_curl(folder, *words)
    texts = [json.loads(text) for text in out.split(b")]}'\n")[1:]]
    same([text.get("state") for text in texts], ["ACTIVE", "ACTIVE", None, "FINALIZING", "FINALIZING"])
    same(texts[4]["includedInvocations"], ["invocations/u-b"])


def a_file_by_curl(folder):
    """A file of 1 MiB is recorded and read back, its body being too long for a word."""
    contents = base64.b64encode(bytes(range(256)) * 4096).decode()
    row = {"artifactId": "log.bin", "contents": contents, "sizeBytes": "1048576"}
    body = pathlib.Path(folder) / "body.json"
    body.write_text(json.dumps({"requests": [{"parent": "invocations/u-a", "artifact": row}]}))
    headers = (f"Update-Token: {token('u-a')}", "Expect:")
    words = curl_words("CreateInvocation", new("u-a"))
    words += ["--next", "-sS", *curl_words("BatchCreateArtifacts", body, *headers)]
    words += ["--next", "-sS", *curl_words("GetArtifact", {"name": "invocations/u-a/artifacts/log.bin"})]
    _, added, shown = [json.loads(text) for text in by_curl(folder, *words).split(b")]}'\n")[1:]]
    same(added["artifacts"][0]["sizeBytes"], "1048576")
    same(shown["contents"], contents)


CHECKS = {
    "a cycle of three": a_cycle_of_three,
    "a client of Python's library": a_client_of_the_library,
    "a plain socket": a_plain_socket,
    "a call by curl": where_curl_is(a_call_by_curl),
    "calls by curl on one connection": where_curl_is(calls_by_curl),
    "a file by curl": where_curl_is(a_file_by_curl),
}
