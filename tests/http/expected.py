"""A session that has each route once and some refusals, as lines of a script, and the replies that
a script of them gets."""
import json
import pathlib
import re
import sys

TOP = pathlib.Path(__file__).resolve().parent.parent.parent
sys.path.insert(0, str(TOP / "tests"))
from model import maps, messages  # noqa: E402
from model.messages import body  # noqa: E402
from server.served import Unserved, script_replies  # noqa: E402

ROUTE = re.compile(r"^\| `([A-Z]+) (/t/[^`]*)`", re.M)


def session(tenant="a"):
    """The lines, for a tenant that isn't there yet. The last of them drops it."""
    lines = [
        b"PUT /t/a",
        messages.import_of(maps.duo(), "m1"),
        messages.import_of((TOP / "examples" / "three_hosts.txt").read_text(), "m2"),
        b"GET /t/a/maps/2",
        messages.devices_of("d1", messages.state(1, reweight=40000, up=False)),
        messages.csv_of("d2", messages.lines_of("0,30000,1", end="\r\n")),
        messages.pool_of("p1", pg_num=64, pgp_num=64),
        messages.pool_of("p2", id=2, name="q"),
        messages.removal_of("p3", 2),
        b"GET /t/a/pools/1/groups/5",
        b"POST /t/a/pools/1/locate " + json.dumps({"name": "Äpfel.jpg"}, ensure_ascii=False).encode(),
        messages.usage_of(),
        messages.moves_of(1, 2),
        messages.impact_of(0),
        messages.exceptions_of("x1", (5, 4, 3), (63, 0, 1)),
        messages.shown_of(),
        b"GET /t/a/pools/1/groups/5",
        messages.exceptions_of("x2", (64, 0, 1)),
        b"POST /t/a/pick " + body([(4, 65536), (9, 131072)]),
        messages.test_of(x=4294967295, size=2),
        b"GET /t/a",
        # an import again, and refusals
        messages.import_of(maps.duo(), "m1"),
        b"PUT /t/a",
        b"GET /t/a/maps/3",
        b"GET /",
        b"GET /t/a?all=1",
        b"GET /t/%61",
        b"PATCH /t/a",
        b"OPTIONS /t/a",
        b"POST /t/a/test {}",
        messages.import_of("host {", "m3"),
        b"GET /t/nobody",
        b"DELETE /t/a",
        b"GET /t/a",
    ]
    return [it.replace(b"/t/a", b"/t/" + tenant.encode(), 1) for it in lines]


def routes_without_a_line(lines):
    """The routes of docs/REQUESTS.md of which no line is."""
    asked = [it.split(b" ", 2)[:2] for it in lines]
    for method, path in ROUTE.findall((TOP / "docs" / "REQUESTS.md").read_text()):
        form = re.compile(re.sub(r"\\\{\w\\\}", "[^/]+", re.escape(path)))
        if not any(a.decode() == method and form.fullmatch(b.decode(errors="replace")) for a, b in asked):
            yield f"{method} {path}"


def expected(program, tenant="a"):
    """Pairs of lines and replies. Every route of the page has a line."""
    lines = session(tenant)
    if missing := list(routes_without_a_line(lines)):
        raise Unserved(f"the session has no line for {missing}")
    return list(zip(lines, script_replies(program, lines), strict=True))


def unlike(pairs, got):
    """Where replies differ from those of the script, or None."""
    for (line, want), reply in zip(pairs, got):
        if reply != want:
            return f"{line[:80]!r}: it is {reply[:200]!r}, not {want[:200]!r}"
    return None if len(got) == len(pairs) else f"there are {len(got)} replies to {len(pairs)} requests"
