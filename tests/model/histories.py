"""Sessions one after another, as the definition has them: what the replies of a session have to
be, which tenants a stop after it may leave, and whether one list of kept calls explains a whole
history. And calls of several tenants, drawn by chance."""
import collections

from model import maps, messages
from model.definition import DECLARED, declaring, played, step
from model.messages import body, short

MAPS, POOLS, DEVICES = 4, 3, 2  # that the calls of a tenant name


class Unexplained(Exception):
    """Why a session, or what is found after it, isn't as the definition has it."""


def tenant_of(line):
    return line.split(b"/")[2].split(b" ")[0]


def unlike(want, got):
    """Where replies differ, or None."""
    place = next((place for place, (a, b) in enumerate(zip(want, got)) if a != b), None)
    if place is None:
        return None if len(want) == len(got) else f"{len(got)} replies, not {len(want)}"
    return f"reply {place + 1}: want {short(want[place])}, got {short(got[place])}"


def may_leave(live, calls, acknowledged, most):
    """The tenants that a stop may leave: those after the acknowledged calls, and those after these
    and one more, and so on up to so many more. live: those that the session found; acknowledged:
    the replies to the first of its calls."""
    want, after = played(calls[: len(acknowledged)], live)
    if why := unlike(want, acknowledged):
        raise Unexplained(why)
    states = [after]
    for line in calls[len(acknowledged) :][:most]:
        states.append(played([line], states[-1])[1])
    return states


class History:
    """What is kept of sessions, by tenants: each kept call with its reply, or None where it was in
    doubt and was found done."""

    def __init__(self):
        self.kept = collections.defaultdict(list)
        self.sessions, self.calls, self.done, self.doubts, self.refused = 0, 0, 0, 0, 0

    def add(self, calls, acknowledged, more):
        """Keeps the acknowledged calls of a session, and so many more."""
        for place, line in enumerate(calls[: len(acknowledged) + more]):
            self.kept[tenant_of(line)].append((line, acknowledged[place] if place < len(acknowledged) else None))
        self.sessions, self.calls, self.done = self.sessions + 1, self.calls + len(acknowledged), self.done + more

    def explain(self, live):
        """Raises what the definition on the kept calls of each tenant alone, from nothing, has
        otherwise than they had: a reply, the tenant at the end, or a number that acts twice."""
        for name, kept in self.kept.items():
            state, accepted = None, set()
            for place, (line, reply) in enumerate(kept):
                want, after = step(state, line)
                if reply is not None and reply != want:
                    raise Unexplained(
                        f"kept call {place + 1} of tenant {name.decode()}: want {short(want)}, got {short(reply)}"
                    )
                accepted = acting(accepted, state, after)
                state = after
            if state != live.get(name):
                raise Unexplained(f"tenant {name.decode()} isn't what its {len(kept)} kept calls leave")


def acting(accepted, before, after):
    """The request numbers that have changed a tenant since it was made, after one more call."""
    if before is None or after is None or before == after:
        return accepted if after is not None else set()
    (number,) = after.receipts.keys() - before.receipts.keys()
    if number in accepted:
        raise Unexplained(f"the number {number} acts twice")
    return accepted | {number}


# ---- calls by chance


def of(tenant, line):
    """The same request of another tenant than a."""
    return line.replace(b"/t/a", b"/t/" + tenant, 1)


def changing(drawn, number):
    """A changing request of tenant a under this number."""
    device, pool = drawn.randrange(DEVICES), 1 + drawn.randrange(POOLS)
    kind = drawn.randrange(11)
    if kind < 2:
        return messages.import_of(drawn.choice((maps.tiny, maps.straw2_tiny, declaring, declaring))(device), number)
    if kind > 8:
        pairs = ((drawn.randrange(3), *drawn.sample(range(DECLARED), 2)) for _ in range(drawn.choice((0, 1, 2, 5, 40))))
        return messages.exceptions_of(number, *pairs, pool=pool)
    if kind == 2:
        return messages.import_of("", number)
    if kind < 5:
        return messages.devices_of(
            number, messages.state(device, reweight=drawn.choice((0, 20000, 65536)), up=drawn.random() < 0.7)
        )
    if kind == 5:
        return messages.csv_of(number, messages.lines_of(f"{device},{drawn.randrange(65537)},{drawn.randrange(2)}"))
    return messages.pool_of(number, id=pool, name=f"p{pool}") if kind < 8 else messages.removal_of(number, pool)


def asking(drawn):
    """A request of tenant a that changes nothing."""
    device, pool = drawn.randrange(DEVICES), 1 + drawn.randrange(POOLS)
    first, second = (1 + drawn.randrange(MAPS) for _ in range(2))
    return drawn.choice(
        (
            b"GET /t/a",
            b"GET /t/a/maps/%d" % first,
            messages.group_of(drawn.randrange(9), pool),
            messages.object_of("cat.jpg", pool),
            messages.test_of(x=drawn.getrandbits(32)),
            messages.test_of(x=1, version=first),
            messages.usage_of(pool),
            messages.moves_of(first, second, pool),
            messages.impact_of(device, pool),
            messages.shown_of(pool),
            b"POST /t/a/pick " + body([(4, 65536), (9, drawn.getrandbits(16))], x=drawn.getrandbits(32)),
        )
    )


def again(drawn, live, tenant):
    """A request of the tenant that was accepted already, or another one under its number; None
    where it has none."""
    receipts = live[tenant].receipts if tenant in live else {}
    if not receipts:
        return None
    number = drawn.choice(sorted(receipts))
    return receipts[number][0] if drawn.random() < 0.8 else of(tenant, changing(drawn, number))


def drawn_calls(drawn, tenants, count, live, start):
    """So many calls of these tenants, of which those that are there have receipts; start: the first
    request number."""
    lines, there = [], set(live)
    for place in range(start, start + count):
        tenant, kind = drawn.choice(tenants), drawn.random()
        if tenant not in there and kind < 0.8:
            lines.append(b"PUT /t/" + tenant)
            there.add(tenant)
        elif kind < 0.02:
            lines.append(b"DELETE /t/" + tenant)
            there.discard(tenant)
        elif kind < 0.12:
            lines.append(again(drawn, live, tenant) or b"PUT /t/" + tenant)
        elif kind < 0.7:
            lines.append(of(tenant, changing(drawn, f"n{place}")))
        else:
            lines.append(of(tenant, asking(drawn)))
    return lines
