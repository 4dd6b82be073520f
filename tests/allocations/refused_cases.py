"""Scripts whose replies definition.py has, for runs with failing allocations: each ends with the
stored run, which then has its own replies whatever came before. And what such runs may answer."""
import random

from model import messages
from model.maps import straw2_tiny, tiny, with_rule
from program import cache_cases
from model.definition import JEWEL, declaring, played
from model.messages import NO_MEMORY, body, exceptions_of, short, shown_of, stored_run
from files.stored import run_over


def script_of(calls):
    """A script of these lines, of a DELETE, and of the stored run."""
    return b"".join(it + b"\n" for it in (*calls, b"DELETE /t/a")) + stored_run()[0]


def two_tenants():
    drawn = random.Random(3)

    def pick(tenant):
        row = [(it, drawn.randrange(262_144)) for it in drawn.sample(range(1000), drawn.randrange(2, 9))]
        return b"POST /t/%s/pick " % tenant + body(row, x=drawn.getrandbits(32), r=drawn.randrange(50))

    put, get, delete = (lambda tenant, call=call: b"%s /t/%s" % (call, tenant) for call in (b"PUT", b"GET", b"DELETE"))
    a, b = b"a", b"b"
    calls = [
        (put, a),
        (pick, b),
        (put, b),
        (pick, a),
        (pick, b),
        (get, a),
        (get, b),
        (pick, a),
        (delete, a),
        (pick, b),
        (get, a),
        (get, b),
        (pick, a),
        (put, a),
        (put, b),
        (pick, b),
        (get, a),
        (delete, b),
        (pick, a),
        (get, b),
        (pick, b),
        (get, a),
    ]
    return script_of(call(tenant) for call, tenant in calls)


def maps():
    """An import, its repeat, a test, a second import, a refused one, tests on both versions, and
    one with a straw2 bucket; and the same again for a tenant of the same name."""
    first, second = messages.import_of(tiny(3), "m1"), messages.import_of(tiny(5), "m2")
    straw2 = messages.import_of(straw2_tiny(7), "m4")
    calls = [
        b"PUT /t/a",
        first,
        first,
        messages.test_of(x=7),
        second,
        messages.import_of(tiny(4), "m1"),
        messages.import_of("", "m3"),
        messages.test_of(),
        messages.test_of(version=1),
        messages.test_of(version=3),
        second,
        b"GET /t/a",
        straw2,
        straw2,
        messages.test_of(x=9),
        b"GET /t/a/maps/3",
        b"DELETE /t/a",
        b"PUT /t/a",
        messages.test_of(),
        second,
        first,
        messages.test_of(version=1),
        b"GET /t/a",
    ]
    return script_of(calls)


def pools():
    """Each request on devices, pools and groups, accepted, refused and repeated; and again for a
    tenant of the same name."""
    first, down = messages.pool_of("p1"), messages.devices_of("d1", messages.state(3, up=False))
    calls = [
        b"PUT /t/a",
        first,
        messages.import_of(tiny(3)),
        first,
        first,
        messages.object_of("a"),
        messages.group_of(7),
        down,
        messages.group_of(0),
        messages.devices_of("d2", messages.state(3, reweight=0)),
        messages.object_of("cat.jpg"),
        messages.test_of(),
        down,
        messages.devices_of("d3", messages.state(4, up=True)),
        messages.devices_of("d1", messages.state(3, up=True)),
        messages.pool_of("p1", id=2, name="q"),
        messages.pool_of("p2", id=2, name="q"),
        messages.pool_of("p3"),
        messages.pool_of("p3", rule=1),
        messages.import_of(with_rule(1, tiny(3)), "m2"),
        messages.group_of(8),
        messages.group_of(1, 2),
        messages.removal_of("e1"),
        messages.removal_of("e1"),
        messages.removal_of("e2"),
        messages.group_of(0),
        messages.object_of("a"),
        messages.import_of(tiny(5), "m2"),
        messages.group_of(1, 2),
        b"GET /t/a",
        b"DELETE /t/a",
        messages.group_of(0),
        b"PUT /t/a",
        down,
        messages.import_of(tiny(3)),
        first,
        messages.group_of(0),
        b"GET /t/a",
    ]
    return script_of(calls)


def reports():
    """Each report, and states of devices as CSV, accepted, refused and repeated; and again for a
    tenant of the same name."""
    usage, moves, impact, lines = messages.usage_of(), messages.moves_of, messages.impact_of, messages.lines_of
    down, other = messages.csv_of("c1", lines("3,65536,0")), with_rule(1, tiny(5))
    calls = [
        b"PUT /t/a",
        usage,
        down,
        messages.import_of(tiny(3)),
        messages.pool_of("p1"),
        usage,
        moves(1, 1),
        impact(3),
        impact(5),
        down,
        down,
        usage,
        impact(3),
        messages.import_of(tiny(5), "m2"),
        usage,
        moves(1, 2),
        moves(2, 1),
        moves(1, 3),
        down,
        messages.csv_of("c1", lines("5,0,1")),
        messages.csv_of("c2", lines("3,0,1")),
        messages.csv_of("c2", lines()),
        messages.csv_of("c2", lines("5,0,1")),
        usage,
        impact(5),
        moves(1, 2),
        messages.removal_of("e1"),
        impact(5),
        messages.import_of(other, "m3"),
        messages.pool_of("p2", rule=1),
        moves(2, 3),
        moves(3, 3),
        messages.csv_of("c3", lines("5,65536,1")),
        usage,
        impact(5),
        b"GET /t/a",
        b"DELETE /t/a",
        usage,
        b"PUT /t/a",
        messages.import_of(tiny(3)),
        messages.pool_of("p1"),
        down,
        usage,
        moves(1, 1),
        impact(3),
        b"GET /t/a",
    ]
    return script_of(calls)


def exceptions():
    """Exceptions, accepted, refused, repeated, replaced and shown, with the groups and reports that
    they change; and again for a tenant of the same name."""
    first, usage, impact, group = (
        exceptions_of("x1", (0, 0, 1), (3, 0, 2)),
        messages.usage_of(),
        messages.impact_of(1),
        messages.group_of(0),
    )
    calls = [
        b"PUT /t/a",
        first,
        shown_of(),
        messages.import_of(declaring(0)),
        messages.pool_of("p1"),
        shown_of(),
        group,
        first,
        first,
        shown_of(),
        group,
        messages.object_of("a"),
        usage,
        impact,
        exceptions_of("x2", (8, 0, 1)),
        exceptions_of("x2", (0, 0, 9)),
        exceptions_of("x2", (0, 0, 0)),
        exceptions_of("x1", (0, 0, 2)),
        exceptions_of("x2", *((it % 8, *((0, 1), (1, 2), (2, 0))[it % 3]) for it in range(30))),
        shown_of(),
        group,
        usage,
        impact,
        first,
        messages.devices_of("d1", messages.state(1, reweight=0)),
        group,
        impact,
        messages.import_of(tiny(0), "m2"),
        group,
        shown_of(),
        messages.moves_of(1, 2),
        exceptions_of("x3"),
        shown_of(),
        group,
        messages.pool_of("p2", id=2, name="q"),
        exceptions_of("x4", pool=2),
        messages.removal_of("e1"),
        shown_of(),
        shown_of(2),
        b"GET /t/a",
        b"DELETE /t/a",
        shown_of(),
        b"PUT /t/a",
        messages.import_of(declaring(0)),
        messages.pool_of("p1"),
        first,
        group,
        shown_of(),
        b"GET /t/a",
    ]
    return script_of(calls)


def same_placements():
    """Two tenants with the same map and pool, whose groups lie alike; one of them is dropped, and
    comes again with another map."""

    def of_a(device):
        return [
            b"PUT /t/a",
            messages.import_of(tiny(device)),
            messages.pool_of("p1"),
            messages.group_of(0),
            messages.object_of("a"),
        ]

    b = [messages.of_b(it) for it in of_a(0)]
    return script_of(
        [
            *of_a(0),
            *b,
            messages.group_of(0),
            b"DELETE /t/a",
            messages.of_b(messages.group_of(0)),
            *of_a(7),
            messages.of_b(messages.group_of(0)),
        ]
    )


def repeats():
    """An import, another, the first again, and its number with another map."""
    first = messages.import_of(tiny(), "m1")
    return script_of(
        [b"PUT /t/a", first, messages.import_of(tiny(), "m2"), first, messages.import_of(tiny(7), "m1"), b"GET /t/a"]
    )


def jewel():
    """A map that crushtool wrote: imported, shown, tested, and with a pool placed on it."""
    return script_of(
        [
            b"PUT /t/a",
            messages.import_of(JEWEL),
            b"GET /t/a/maps/1",
            messages.import_of(JEWEL),
            messages.test_of(x=9),
            messages.pool_of("p1"),
            messages.group_of(5),
            b"GET /t/a",
        ]
    )


def every_route():
    """Each route, and refusals: what a client sends over one connection."""
    again = messages.pool_of("p1")
    usage, moves, impact = messages.usage_of(), messages.moves_of(1, 2), messages.impact_of(3)
    pairs = exceptions_of("x1", (0, 1, 0), (1, 1, 2))
    return script_of(
        [
            b"PUT /t/a",
            messages.import_of(JEWEL),
            messages.import_of(tiny(3), "m2"),
            b"GET /t/a/maps/1",
            b"GET /t/a/maps/9",
            again,
            again,
            messages.devices_of("d1", messages.state(3, up=False)),
            messages.group_of(1),
            messages.csv_of("c1", messages.lines_of("3,65536,1")),
            messages.object_of("cat.jpg"),
            usage,
            moves,
            impact,
            b"POST /t/a/pick " + body([(4, 65536), (9, 131072)]),
            messages.test_of(x=4294967295),
            messages.import_of("", "m3"),
            messages.import_of(tiny(5), "m2"),
            messages.import_of(declaring(1), "m4"),
            pairs,
            shown_of(),
            messages.group_of(0),
            pairs,
            exceptions_of("x2", (0, 1, 3)),
            b"PUT /t/a",
            b"PUT /t/b",
            messages.of_b(messages.import_of(tiny(3), "m1")),
            messages.of_b(again),
            messages.of_b(usage),
            messages.removal_of("e1"),
            b"GET /t/b",
            b"DELETE /t/b",
            b"GET /t/b",
            b"GET /t/a",
        ]
    )


def kept():
    """60 calls of three tenants, for the most part on the same few groups."""
    return script_of(cache_cases.calls_of([b"a", b"b", b"c"]))


SCRIPTS = {
    "two tenants": two_tenants,
    "same placements": same_placements,
    "repeats": repeats,
    "a map of crushtool's": jewel,
    "maps and rule tests": maps,
    "devices and pools": pools,
    "exceptions": exceptions,
    "reports": reports,
    "every route": every_route,
    "groups that are kept": kept,
}


def file_of_two(program, db):
    """Makes a file with tenants a, which has a map, and b, and returns them as the definition has
    them."""
    first = [b"PUT /t/a", messages.import_of(tiny(3), "first"), b"PUT /t/b"]
    replies, live = played(first)
    ran = run_over(program, db, b"".join(it + b"\n" for it in first))
    if (ran.returncode, ran.stdout.splitlines()) != (0, replies):
        raise OSError(f"status {ran.returncode}, standard error {short(ran.stderr)}")
    return live


def replies_unlike(replies, lines, live):
    """Why the replies to lines aren't the definition's for those not answered 503, or None; and the
    tenants that these leave."""
    served = [place for place, reply in enumerate(replies) if reply != NO_MEMORY]
    want, live = played([lines[it] for it in served], live)
    wrong = next((place for place, reply in zip(served, want) if replies[place] != reply), None)
    return (None if wrong is None else f"reply {wrong + 1}, to {short(lines[wrong])}, is {short(replies[wrong])}"), live


def judged(name, total, found):
    """Says how many allocations of so many were refused, and returns why one of the runs isn't as
    it may be, or None. found: of each run why it isn't, or None, and whether it missed the memory;
    the last met no refusal."""
    met = sum(it for _, it in found)
    print(f"{name}: {len(found) - 1} of {total} allocations were refused, {met} runs missed the memory.", flush=True)
    return next((why for why, _ in found if why), None) or (
        None if met else f"no run of {len(found)} missed the memory"
    )
