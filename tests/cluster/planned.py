"""Small clusters for runbooks and for balance: twelve OSDs in six hosts of three racks, of straw2
buckets. Weights are near enough to each other that each device can have its share by weight: the
shares are worked here from the dumps, with no part of crushplan."""
import collections
import fractions
import random

import real
from clusters import PROFILE, Planned
from make_maps import HOST, ONE, OSD, RACK, ROOT

RACKS, HOSTS, DEVICES = 3, 2, 2
# of each kind whether its devices have classes, and its pools: name, rule, size, groups
KINDS = {
    "plain": (False, (("even", "hosts", 3, 128), ("parts", "parts", 4, 64))),
    "classed": (True, (("even", "hosts-of-hdd", 3, 128), ("fast", "devices-of-ssd", 2, 64))),
    "racked": (False, (("even", "racks", 2, 128), ("parts", "parts", 4, 64))),
    "two-level": (False, (("pairs", "two-of-racks", 4, 128), ("even", "hosts", 3, 64))),
    "uneven": (True, (("even", "hosts", 2, 128), ("parts", "parts-of-two", 4, 64), ("fast", "devices-of-ssd", 2, 64))),
}
OVER = ("set_chooseleaf_tries 5", "set_choose_tries 100")
LEAVES, PARTS = f"chooseleaf firstn 0 {HOST}", f"chooseleaf indep 0 {HOST}"
RULES = (
    ("hosts", "replicated", ("take -1", LEAVES, "emit")),
    ("parts", "erasure", (*OVER, "take -1", PARTS, "emit")),
    ("racks", "replicated", ("take -1", f"chooseleaf firstn 0 {RACK}", "emit")),
    ("two-of-racks", "replicated", ("take -1", f"choose firstn 2 {RACK}", f"choose firstn 2 {OSD}", "emit")),
    ("parts-of-two", "erasure", (*OVER, "take -1", f"choose indep 2 {RACK}", f"choose indep 2 {OSD}", "emit")),
)
CLASSED = (
    ("hosts-of-hdd", "replicated", ("take -1 hdd", LEAVES, "emit")),
    ("devices-of-ssd", "replicated", ("take -1 ssd", f"choose firstn 0 {OSD}", "emit")),
)
OBJECTS, BYTES = 120, 4096  # of each pool


class SmallMap(Planned):
    """A map of some devices with classes, or without."""

    def __init__(self, kind, choice):
        super().__init__(kind)
        self.classes = KINDS[kind][0]
        weight = lambda device: choice.randrange(ONE, ONE * 13 // 10)
        racks = []
        for _ in range(RACKS):
            hosts = [self.bucket("straw2", HOST, self.take_devices(DEVICES, weight)) for _ in range(HOSTS)]
            racks.append(self.bucket("straw2", RACK, hosts))
        self.bucket("straw2", ROOT, racks, -1)

    def rules(self):
        own = RULES + CLASSED if self.classes else RULES
        return [(name, number, kind, steps) for number, (name, kind, steps) in enumerate(own)]

    def text(self):
        found = super().text()
        for device in range(self.devices) if self.classes else ():
            line = f"device {device} osd.{device}"
            found = found.replace(f"{line}\n", f"{line} class {('hdd', 'ssd')[device % 2]}\n")
        return found


def prepare(cluster, kind, seed, folder):
    """Gives a cluster its map, pools, reweights and objects."""
    choice = random.Random(f"planned {kind} {seed}")
    map_ = SmallMap(kind, choice)
    text, compiled = folder / "map.txt", folder / "map.bin"
    text.write_text(map_.text())
    real.run("crushtool", "-c", text, "-o", compiled)
    cluster.told("osd setcrushmap", given=compiled.read_bytes())
    cluster.told("osd set-require-min-compat-client", version="luminous")
    cluster.told("osd erasure-code-profile set", name="two-and-two", profile=PROFILE)
    kinds = {name: type_ for name, _, type_, _ in map_.rules()}
    for name, rule, size, groups in KINDS[kind][1]:
        more = {"size": size} if kinds[rule] == "replicated" else {"erasure_code_profile": "two-and-two"}
        own = {"pool": name, "pg_num": groups, "pgp_num": groups, "pool_type": kinds[rule], "rule": rule}
        cluster.told("osd pool create", **own, **more)
    for device in choice.sample(range(map_.devices), 2):
        cluster.told("osd reweight", id=device, weight=choice.randrange(ONE * 9 // 10, ONE) / ONE)
    cluster.settled()
    for name, *_ in KINDS[kind][1]:
        cluster.write(name, [(f"{name}-{it}", BYTES) for it in range(OBJECTS)])
    cluster.settled()


# ---- shares by weight, from dumps


def weights_of(crush, osd, class_=None):
    """Returns the weight of each device by its reweight, and the buckets above it by type."""
    classes = {it["id"]: it.get("class") for it in crush["devices"]}
    reweights = {it["osd"]: fractions.Fraction(round(it["weight"] * ONE), ONE) for it in osd["osds"]}
    own = {it["id"]: it for it in crush["buckets"] if "~" not in it["name"]}
    above = {of["id"]: it for it in own.values() for of in it["items"]}
    found = {}
    for it in own.values():
        for of in it["items"] if it["type_name"] == "host" else ():
            if class_ in (None, classes[of["id"]]) and reweights[of["id"]]:
                found[of["id"]] = of["weight"] * reweights[of["id"]], it["id"], above[it["id"]]["id"]
    return found


def shares_of(crush, osd, pool):
    """Returns the copies that each device of a pool should have by weight. Failed where a host or a
    rack is too heavy for that."""
    rule = next(it for it in crush["rules"] if it["rule_id"] == pool["crush_rule"])
    take = next(it["item_name"] for it in rule["steps"] if it["op"] == "take")
    chosen = [it for it in rule["steps"] if it["op"].startswith("choose")]
    own = weights_of(crush, osd, take.partition("~")[2] or None)
    copies, whole = pool["size"] * pool["pg_num"], sum(weight for weight, *_ in own.values())
    level = {"osd": None, "host": 1, "rack": 2}[chosen[0]["type"]]
    heavy = collections.Counter()
    for device, it in own.items():
        heavy[device if level is None else it[level]] += it[0]
    tops = pool["size"] if len(chosen) == 1 else chosen[0]["num"]
    if max(heavy.values()) * tops > whole:
        raise real.Failed(f"pool {pool['pool_name']}: a domain is too heavy for its share by weight")
    return {device: copies * weight / whole for device, (weight, *_) in own.items()}


def deviation(shares, lists):
    """Returns how far a device is from its share, at most."""
    counts = collections.Counter(device for up in lists for device in up if device is not None)
    return max(abs(counts[device] - share) for device, share in shares.items())
