"""curl: each line of the session in a call of its own, and the ways of curl that a server may
stumble over."""
import json
import pathlib
import subprocess
import time

from model import maps, messages
from expected import expected, unlike
from model.messages import TOO_LARGE, made, there
from server.served import Server, asked

LONG = 6 << 20
STATUS = "\n%{http_code} %{num_connects}\n"


def curl(*words):
    """What curl writes: of each URL the status and body as a script's line, and how many
    connections were made for it."""
    ran = subprocess.run(
        ["curl", "-sS", "--max-time", "20", "-w", STATUS, *words],
        stdout=subprocess.PIPE,
        stderr=subprocess.PIPE,
        timeout=60,
    )
    if ran.returncode:
        raise OSError(f"curl {words[:6]} ends with status {ran.returncode}: {ran.stderr.decode(errors='replace')}")
    lines = ran.stdout.split(b"\n")
    return [(end.split()[0] + b" " + body, int(end.split()[1])) for body, end in zip(lines[::2], lines[1::2])]


def words_of(server, line, folder, *more):
    """The words of curl for a line; its body comes from a file."""
    method, path, *body = line.split(b" ", 2)
    words = ["-X", method.decode(), f"http://127.0.0.1:{server.port}{path.decode()}", *more]
    if body:
        pathlib.Path(folder, "body").write_bytes(body[0])
        words += ["--data-binary", f"@{folder}/body"]
    return words


def each_route(server, folder, pairs, *more):
    return unlike(pairs, [curl(*words_of(server, line, folder, *more))[0][0] for line, _ in pairs])


def one_connection(server, folder, pairs):
    """Several URLs in one call: a connection, kept for all."""
    urls = [f"http://127.0.0.1:{server.port}{line.split()[1].decode()}" for line, _ in pairs]
    found = curl(*urls)
    return unlike(pairs, [it for it, _ in found]) or (
        None if [it for _, it in found] == [1] + [0] * (len(urls) - 1) else f"connections {[it for _, it in found]}"
    )


def expect(server, folder):
    """With Expect: 100-continue curl waits a second for a word that doesn't come, and then sends
    the body; without it nothing waits."""
    lines = [messages.import_of(maps.tiny(), it) for it in ("e1", "e2")]
    spent = []
    for line, header in zip(lines, ("Expect: 100-continue", "Expect:")):
        start = time.monotonic()
        found = curl(*words_of(server, line, folder, "-H", header))
        spent.append(time.monotonic() - start)
        if not found[0][0].startswith(b"201 "):
            return f"{header}: {found[0][0]!r}"
    return None if 0.9 < spent[0] < 3 and spent[1] < 0.9 else f"seconds {spent}"


def too_long(server, folder):
    """Of a body over the limit curl sends nothing, since it asks first by Expect; where it doesn't
    ask, it sends what the server throws away."""
    line = b"POST /t/a/maps " + json.dumps({"request": "long", "text": "#" * LONG}).encode()
    for header in ("Expect: 100-continue", "Expect:"):
        found = curl(*words_of(server, line, folder, "-H", header))
        if found[0][0] != TOO_LARGE:
            return f"{header}: {found[0][0]!r}"
    return None


def chunks(server, folder):
    """A body without its length is refused."""
    words = words_of(server, messages.import_of(maps.tiny(), "c1"), folder, "-H", "Transfer-Encoding: chunked")
    found = curl(*words)[0][0]
    return None if found == b'501 {"error":"length"}' else f"it is {found!r}"


def head_only(server, folder):
    """HEAD isn't a method of any path; its reply has a body, and curl leaves that unread."""
    ran = subprocess.run(
        ["curl", "-sSI", "--max-time", "20", f"http://127.0.0.1:{server.port}/t/a"],
        stdout=subprocess.PIPE,
        stderr=subprocess.PIPE,
    )
    return (
        None
        if ran.stdout.startswith(b"HTTP/1.1 405 Method Not Allowed\r\n") and ran.returncode == 0
        else f"status {ran.returncode}, {ran.stdout!r}, {ran.stderr!r}"
    )


def checks(program, folder):
    """The name of each check, and why it fails, or None."""
    pairs = expected(program)
    with Server(program, pathlib.Path(folder, "curl.db")) as server:
        yield "each route", each_route(server, folder, pairs)
        yield "each route by HTTP/1.0", each_route(server, folder, pairs, "--http1.0")
        yield "each route with Expect: and an offer of HTTP/2", each_route(
            server, folder, pairs, "-H", "Expect:", "--http2", "--compressed", "-A", "Mozilla/5.0"
        )
        asked(server, [b"PUT /t/a"])
        some = [
            (b"GET /t/a", there(b"a")),
            (b"GET /t/b", b'404 {"error":"no_tenant"}'),
            (b"GET /x", b'404 {"error":"no_path"}'),
        ] * 5
        yield "several URLs over one connection", one_connection(server, folder, some)
        yield "Expect", expect(server, folder)
        yield "a body over the limit", too_long(server, folder)
        yield "a body in chunks", chunks(server, folder)
        yield "HEAD", head_only(server, folder)
        yield "the server goes on", None if asked(server, [b"PUT /t/z"]) == [made(b"z")] else "it doesn't"
