"""Scripts that ask for groups again and again, with the replies of definition.py, which keeps
nothing, and the room for placements that each is played with."""
import random

from model import maps, messages
from model.definition import declaring, played

CALLS, TENANTS, CONTENTS = 60, 300, 256
LEAST, USUAL, MOST = (("--cache", count) for count in ("1", "1024", "65536"))


def of(tenant, line):
    """The same request of another tenant than a."""
    return line.replace(b"/t/a", b"/t/" + tenant, 1)


def asks(drawn, tenant):
    """A request for a group or an object, of two pools with few of each, so that most of them come
    again."""
    pool = drawn.choice((1, 1, 2))
    line = (
        messages.group_of(drawn.randrange(3), pool)
        if drawn.random() < 0.7
        else messages.object_of(drawn.choice("ab"), pool)
    )
    return of(tenant, line)


def changes(drawn, tenant, number, device):
    """What makes placements stale: states of the device of the newest map, a map, the pool removed
    and made again, the tenant dropped and made again. Returns the lines, and the device of the
    newest map after them."""
    request = f"{tenant.decode()}{number}"
    kind = drawn.randrange(5)
    if kind < 2:
        lines = [
            messages.devices_of(
                request, messages.state(device, up=drawn.random() < 0.5, reweight=drawn.choice((0, 65536)))
            )
        ]
    elif kind == 2:
        device = drawn.randrange(10)
        lines = [messages.import_of(maps.tiny(device), request)]
    elif kind == 3:
        lines = [messages.removal_of(request), messages.pool_of(request + "again")]
    else:
        lines = [b"DELETE /t/a", b"PUT /t/a", messages.import_of(maps.tiny(device)), messages.pool_of("p1")]
    return [of(tenant, it) for it in lines], device


def calls_of(names):
    """60 calls of three tenants: each with a map and two pools at first, then by turns as they
    come."""
    drawn = random.Random(7)
    devices, lines = {name: place for place, name in enumerate(names)}, []
    for name in names:
        first = [
            b"PUT /t/a",
            messages.import_of(maps.tiny(devices[name])),
            messages.pool_of("p1"),
            messages.pool_of("p2", id=2, name="q"),
        ]
        lines += [of(name, it) for it in first]
    while len(lines) < CALLS:
        name = drawn.choice(names)
        if drawn.random() < 0.8:
            lines.append(asks(drawn, name))
        else:
            more, devices[name] = changes(drawn, name, len(lines), devices[name])
            lines += more
    return lines[:CALLS]


def maps_by_the_hundreds():
    """300 tenants with 300 maps, each asked for group 0, and all of them again: at the 257th what
    is kept of the others is given up."""
    names = [b"t%d" % it for it in range(TENANTS)]
    start = [b"PUT /t/a", None, messages.pool_of("p1")]
    lines = [of(name, it or messages.import_of(maps.tiny(place))) for place, name in enumerate(names) for it in start]
    return lines + [of(name, messages.group_of(0)) for _ in range(2) for name in names]


def exceptions_between():
    """A group and an object, twice each before and after changes of the pool's exceptions, of the
    state of a device that they lead to, and of its being declared. Another pool has its own."""
    both = lambda pool: [messages.group_of(0, pool), messages.object_of("a", pool)]  # the object's group is 0
    asked = [it for _ in range(3) for pool in (1, 2) for it in both(pool)]
    lists = [((0, 0, 1),), ((0, 0, 2),), ((0, 0, 1), (0, 1, 2)), ((0, 1, 2), (0, 0, 1)), ((1, 0, 1),), (), ((0, 0, 1),)]
    lines = [
        b"PUT /t/a",
        messages.import_of(declaring(0)),
        messages.pool_of("p1"),
        messages.pool_of("p2", id=2, name="q"),
        messages.exceptions_of("q1", (0, 0, 2), pool=2),
        *asked,
    ]
    for place, pairs in enumerate(lists):
        lines += [messages.exceptions_of(f"x{place}", *pairs), *asked]
    for place, entry in enumerate(({"reweight": 0}, {"reweight": 1}, {"up": False}, {"up": True})):
        lines += [messages.devices_of(f"d{place}", messages.state(1, **entry)), *asked]
    for place, text in enumerate((maps.tiny(0), declaring(0), declaring(1))):
        lines += [messages.import_of(text, f"again {place}"), *asked]
    return lines + [messages.removal_of("e1"), messages.pool_of("p3"), *asked]


def one_content_too_many():
    """The groups of 256 tenants with maps of their own, those of one more, and the first ones'
    again, after a change of states as well."""
    names = [b"t%d" % it for it in range(CONTENTS + 1)]
    lines = [
        of(name, it)
        for place, name in enumerate(names)
        for it in (b"PUT /t/a", messages.import_of(maps.tiny(place)), messages.pool_of("p1"))
    ]
    ask = lambda names: [of(name, messages.group_of(group)) for name in names for group in (3, 3, 4)]
    down = [of(names[0], messages.devices_of("d1", messages.state(0, up=False)))]
    return (
        lines
        + ask(names[:-1])
        + ask(names[:1])
        + ask(names[-1:])
        + ask(names[:2])
        + down
        + ask(names[:1])
        + ask(names[-1:])
    )


def states_between():
    """A group and an object, twice each before and after a change of states that leaves the device
    out, down, and as it was at first."""
    asked = [messages.group_of(7), messages.object_of("a"), messages.group_of(7), messages.object_of("a")]
    entries = ({"reweight": 0}, {"reweight": 65536, "up": False}, {"up": True})
    lines = [b"PUT /t/a", messages.import_of(maps.tiny(3)), messages.pool_of("p1"), *asked]
    for place, entry in enumerate(entries):
        lines += [messages.devices_of(f"d{place}", messages.state(3, **entry)), *asked]
    return lines


def cases():
    """Names, the options of the program, lines and their replies."""
    sixty, others = calls_of([b"a", b"b", b"c"]), calls_of([b"d", b"e", b"f"])
    for room in (LEAST, USUAL, MOST, ()):
        kept = f"kept_{room[1] if room else 'by_default'}"
        yield f"sixty_calls_{kept}", room, sixty
        yield f"sixty_calls_after_those_of_others_{kept}", room, others + sixty
        yield f"sixty_calls_with_those_of_others_{kept}", room, [it for both in zip(others, sixty) for it in both]
        yield f"states_between_{kept}", room, states_between()
        yield f"exceptions_between_{kept}", room, exceptions_between()
    yield "three_hundred_maps", USUAL, maps_by_the_hundreds()
    yield "one_content_too_many", USUAL, one_content_too_many()
    yield "one_content_too_many_kept_1", LEAST, one_content_too_many()


def replies(lines):
    return played(lines)[0]
