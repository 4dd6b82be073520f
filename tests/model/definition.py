"""The definition's reply to a request, and what its tenant has afterwards, for requests on the few
maps that are named here: those of one device in one bucket, with the rule 0 or 1, of which some
declare two devices more and some have a straw2 bucket, and one that crushtool wrote. Written from
the rules of requests; hashes are those of crush.py."""
import collections
import json
import pathlib

from model import crush, map_text, maps, messages, placed
from model.messages import BAD, EXISTS, NO_TENANT, dropped, item, made

# a tenant: the map of each version, the line and the reply of each accepted change by its request
# number, the reweight and whether it is up of each device with a state, and the pools by their ids;
# no two of these pools have a name in common
Tenant = collections.namedtuple("Tenant", "versions receipts states pools")
# a pool: the id of its rule, whether it is erasure coded, and its exceptions (group, from, to)
Pool = collections.namedtuple("Pool", "rule erasure pairs")
GROUPS = messages.POOL["pg_num"]  # of each pool
# a map: the one device that its bucket holds, its one rule, its canonical text, and the devices
# that it declares
Map = collections.namedtuple("Map", "device rule text devices")
JEWEL = (pathlib.Path(__file__).resolve().parent.parent / "program" / "cases" / "jewel.map").read_text()
DECLARED = 3  # devices of a map that declares more than one


def canonical_of(device, rule):
    return maps.canonical_tiny(device).replace("\tid 0\n", f"\tid {rule}\n")


def canonical(text):
    return map_text.write(map_text.read(text.encode())).decode()


def declaring(device, rule=0):
    """The map of one device that declares three."""
    return maps.with_devices(DECLARED, device).replace("\n id 0\n", f"\n id {rule}\n")


# the texts that are imported, each with its map
TEXTS = {
    maps.with_rule(rule, maps.tiny(device)): Map(device, rule, canonical_of(device, rule), (device,))
    for device in range(300)
    for rule in range(2)
}
TEXTS |= {
    declaring(device, rule): Map(device, rule, canonical(declaring(device, rule)), tuple(range(DECLARED)))
    for device in range(DECLARED)
    for rule in range(2)
}
TEXTS |= {
    maps.straw2_tiny(device): Map(device, 0, canonical(maps.straw2_tiny(device)), (device,)) for device in range(10)
}
TEXTS[JEWEL] = Map(0, 0, canonical(JEWEL), (0,))


def import_into(tenant, asked, epoch):
    if asked["text"] == "":
        return messages.refused("M4", 1), None
    map = TEXTS[asked["text"]]
    if any(it.rule != map.rule for it in tenant.pools.values()):
        return messages.IN_USE, None
    versions = (*tenant.versions, map)
    return messages.imported(epoch, len(versions)), tenant._replace(versions=versions)


def change_devices(tenant, asked, epoch):
    if not tenant.versions:
        return messages.NO_VERSION, None
    if any(it["id"] not in tenant.versions[-1].devices for it in asked["devices"]):
        return messages.NO_DEVICE, None
    states = dict(tenant.states)
    for it in asked["devices"]:
        reweight, up = states.get(it["id"], (65536, True))
        states[it["id"]] = (it.get("reweight", reweight), it.get("up", up))
    return messages.accepted(len(asked["devices"]), epoch), tenant._replace(states=states)


def entries_of(csv):
    """The entries that a CSV says; None where it isn't of the form. Those of the scripts have LF
    line ends and no quotes."""
    head, *rows = [it.split(",") for it in csv.splitlines()] or [[]]
    if head != ["id", "reweight", "up"] or not rows or any(len(it) != 3 for it in rows):
        return None
    return [{"id": int(id), "reweight": int(reweight), "up": up == "1"} for id, reweight, up in rows]


def change_by_csv(tenant, asked, epoch):
    return change_devices(tenant, {"devices": entries_of(asked["csv"])}, epoch)


def create_pool(tenant, asked, epoch):
    if not tenant.versions:
        return messages.NO_VERSION, None
    if asked["rule"] != tenant.versions[-1].rule:
        return messages.NO_RULE, None
    if asked["id"] in tenant.pools:
        return EXISTS, None
    pool = Pool(asked["rule"], asked["kind"] == "erasure", ())
    return messages.created(epoch, asked["id"]), tenant._replace(pools={**tenant.pools, asked["id"]: pool})


def remove_pool(tenant, asked, epoch):
    if asked["id"] not in tenant.pools:
        return messages.NO_POOL, None
    return messages.removed(epoch, asked["id"]), tenant._replace(
        pools={it: pool for it, pool in tenant.pools.items() if it != asked["id"]}
    )


def except_groups(tenant, asked, epoch):
    if asked["id"] not in tenant.pools:
        return messages.NO_POOL, None
    pairs = tuple((it["group"], it["from"], it["to"]) for it in asked["exceptions"])
    if any(group >= GROUPS for group, _, _ in pairs):
        return messages.NO_GROUP, None
    if any(it not in tenant.versions[-1].devices for _, *both in pairs for it in both):
        return messages.NO_DEVICE, None
    pool = tenant.pools[asked["id"]]._replace(pairs=pairs)
    return messages.excepted(epoch, len(pairs), asked["id"]), tenant._replace(pools={**tenant.pools, asked["id"]: pool})


CHANGES = {
    ("maps",): import_into,
    ("devices",): change_devices,
    ("devices", "csv"): change_by_csv,
    ("pools",): create_pool,
    ("pools", "remove"): remove_pool,
    ("pools", "exceptions"): except_groups,
}


def change(tenant, line, asked, act):
    """The definition's reply to a changing request, and the tenant after it."""
    if asked["request"] in tenant.receipts:
        first, reply = tenant.receipts[asked["request"]]
        return (reply if first == line else messages.REUSED), tenant
    reply, changed = act(tenant, asked, len(tenant.receipts) + 1)
    return reply, changed._replace(receipts={**tenant.receipts, asked["request"]: (line, reply)}) if changed else tenant


def state_of(tenant, device):
    return tenant.states.get(device, (65536, True))


def items_of(tenant, device, x):
    """What the rule of a version's map answers for an input: its device, unless that is out by its
    reweight. Every try then comes to the same."""
    weight, _ = state_of(tenant, device)
    is_out = weight < 65536 and (weight == 0 or crush.hash2(x, device) & 0xFFFF >= weight)
    return [] if is_out else [device]


def raw_of(tenant, map, pool, group):
    return items_of(tenant, map.device, seed_of(pool, group))


def up_of(tenant, map, pool, group):
    """The list that the pool's pairs make of that answer, without the devices that aren't up."""
    _, is_erasure, pairs = tenant.pools[pool]
    own = [(old, new) for of, old, new in pairs if of == group]
    items = placed.excepted(
        raw_of(tenant, map, pool, group), own, lambda it: it in map.devices and state_of(tenant, it)[0] > 0
    )
    slots = [it if state_of(tenant, it)[1] else None for it in items]
    return slots if is_erasure else [it for it in slots if it is not None]


def test_on(tenant, asked):
    """The definition's reply to a rule test: the bucket of a version's map has one device."""
    number = asked.get("version", len(tenant.versions))
    if not 1 <= number <= len(tenant.versions):
        return messages.NO_VERSION
    map = tenant.versions[number - 1]
    if asked["rule"] != map.rule:
        return messages.NO_RULE
    items = items_of(tenant, map.device, asked["x"])
    return messages.tested(items, items, len(tenant.receipts), number)


def seed_of(pool, group):
    return crush.hash2(group, pool)


def group_in(tenant, pool, group, **more):
    """The definition's reply on a group of a pool."""
    if pool not in tenant.pools:
        return messages.NO_POOL
    if group >= GROUPS:
        return messages.NO_GROUP
    map = tenant.versions[-1]
    return messages.lies(
        len(tenant.receipts),
        group,
        seed_of(pool, group),
        up_of(tenant, map, pool, group),
        raw_of(tenant, map, pool, group),
        len(tenant.versions),
        **more,
    )


def usage_in(tenant, pool):
    """The definition's counts: each group is on one device, or on none."""
    if pool not in tenant.pools:
        return messages.NO_POOL
    map = tenant.versions[-1]
    entries = [it for group in range(GROUPS) for it in up_of(tenant, map, pool, group) if it is not None]
    counts = {device: entries.count(device) for device in sorted(map.devices)}
    rows = [
        (device, count, count, count, 1000 * count // len(entries) if entries else 0)
        for device, count in counts.items()
    ]
    return messages.used(len(tenant.receipts), *rows, version=len(tenant.versions), pool=pool)


def moves_in(tenant, pool, first, second):
    """The definition's moves: each group is on one device by a version, or on none."""
    if pool not in tenant.pools:
        return messages.NO_POOL
    if not (1 <= first <= len(tenant.versions) and 1 <= second <= len(tenant.versions)):
        return messages.NO_VERSION
    old, new = tenant.versions[first - 1], tenant.versions[second - 1]
    if not old.rule == new.rule == tenant.pools[pool].rule:
        return messages.NO_RULE
    lists = [(group, *(up_of(tenant, it, pool, group) for it in (old, new))) for group in range(GROUPS)]
    rows = [
        (group, len(set(after) - {*before, None}), before, after) for group, before, after in lists if before != after
    ]
    return messages.moved(len(tenant.receipts), first, second, *rows, pool=pool)


def impact_in(tenant, pool, device):
    """The definition's groups: those whose trace has the device, as it does where the newest map's
    bucket holds it and it isn't out by its reweight, and those with a pair that leads to it."""
    if pool not in tenant.pools:
        return messages.NO_POOL
    map = tenant.versions[-1]
    if device not in map.devices:
        return messages.NO_DEVICE
    led = {group for group, _, new in tenant.pools[pool].pairs if new == device}
    groups = [it for it in range(GROUPS) if it in led or device in raw_of(tenant, map, pool, it)]
    return messages.touched(len(tenant.receipts), device, groups, len(tenant.versions), pool)


def exceptions_in(tenant, pool):
    """The definition's reply with the exceptions of a pool."""
    return (
        messages.shown(len(tenant.receipts), *tenant.pools[pool].pairs, pool=pool)
        if pool in tenant.pools
        else messages.NO_POOL
    )


def version_of(tenant, number):
    """The definition's reply with the text of a version."""
    return (
        messages.version_of(tenant.versions[number - 1].text, number)
        if 1 <= number <= len(tenant.versions)
        else messages.NO_VERSION
    )


REPORTS = {"groups": group_in, "usage": usage_in, "moves": moves_in, "impact": impact_in, "exceptions": exceptions_in}


def ask(tenant, rest, asked):
    """The definition's reply to a POST that changes nothing."""
    if rest == ("test",):
        return test_on(tenant, asked)
    if rest == ("pick",):
        bucket = asked["bucket"]
        return item(
            crush.PICKS[bucket["kind"]](
                bucket["id"], [(it["item"], it["weight"]) for it in bucket["items"]], asked["x"], asked["r"]
            )
        )
    hash = crush.name_hash(asked["name"].encode())
    return group_in(tenant, int(rest[1]), crush.stable_mod(hash, GROUPS), hash=hash)


def is_malformed(rest, sent):
    """Whether a body isn't of its form: of the scripts some CSV, and pairs of one device."""
    if rest == ("devices", "csv"):
        return entries_of(json.loads(sent)["csv"]) is None
    return rest == ("pools", "exceptions") and any(it["from"] == it["to"] for it in json.loads(sent)["exceptions"])


def step(tenant, line):
    """The definition's reply to a line, and its tenant after it. tenant: its tenant before it; None
    where it is absent."""
    method, path, sent = (line.split(b" ", 2) + [b""])[:3]
    name, *rest = path.decode().split("/")[2:]
    rest = tuple(rest)
    if method == b"PUT":
        return (EXISTS, tenant) if tenant else (made(name.encode()), Tenant((), {}, {}, {}))
    if is_malformed(rest, sent):
        return BAD, tenant
    if tenant is None:
        return NO_TENANT, None
    if method == b"DELETE":
        return dropped(name.encode()), None
    if method == b"GET" and rest[:1] == ("maps",):
        return version_of(tenant, int(rest[1])), tenant
    if method == b"GET" and rest:
        return REPORTS[rest[2]](tenant, int(rest[1]), *map(int, rest[3:])), tenant
    if method == b"GET":
        return (
            messages.summary(len(tenant.receipts), len(tenant.versions), len(tenant.states), len(tenant.pools), name),
            tenant,
        )
    asked = json.loads(sent)
    return change(tenant, line, asked, CHANGES[rest]) if rest in CHANGES else (ask(tenant, rest, asked), tenant)


def pools_of(tenant):
    """What each of its pools was made of, by its id."""
    pools = {}
    for line, _ in tenant.receipts.values():
        _, path, sent = line.split(b" ", 2)
        asked = json.loads(sent)
        if path.endswith(b"/pools"):
            pools[asked["id"]] = asked
        elif path.endswith(b"/pools/remove"):
            del pools[asked["id"]]
    return pools


def receipt_of(request, line, reply):
    _, path, sent = line.decode().split(" ", 2)
    status, said = reply.decode().split(" ", 1)
    return request, path, sent, int(status), said


def rows_of(tenant):
    """The epoch and the rows of a tenant, behind its number and in the order of their keys."""
    pools = sorted(pools_of(tenant).values(), key=lambda it: it["id"])
    pairs = {it["id"]: tenant.pools[it["id"]].pairs for it in pools}
    return {
        "epoch": len(tenant.receipts),
        "maps": [(place, it.text) for place, it in enumerate(tenant.versions, 1)],
        "devices": sorted((device, reweight, int(up)) for device, (reweight, up) in tenant.states.items()),
        "pools_2": [messages.pool_row(it, pairs[it["id"]]) for it in pools],
        "exceptions": [(pool, place, *pair) for pool, list in pairs.items() for place, pair in enumerate(list)],
        "receipts": sorted(
            (receipt_of(request, *it) for request, it in tenant.receipts.items()), key=lambda row: row[0].encode()
        ),
    }


def played(lines, live=None):
    """The replies to lines, and the tenants after them by their names; live: those before them."""
    replies, live = [], dict(live or {})
    for line in lines:
        name = line.split(b"/")[2].split(b" ")[0]
        reply, tenant = step(live.get(name), line)
        replies.append(reply)
        live[name] = tenant
    return replies, {name: tenant for name, tenant in live.items() if tenant is not None}


def tables_of(live):
    """What the tables hold of these tenants, by their names."""
    return {name.decode(): rows_of(tenant) for name, tenant in live.items()}
