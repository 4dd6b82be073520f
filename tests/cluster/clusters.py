"""The clusters that are foretold: CRUSH maps of list, tree, uniform, mixed and straw buckets, and
those that Ceph makes by itself, of straw2 buckets; their pools and objects, all drawn from a
seed."""
import copy
import pathlib
import sys

HERE = pathlib.Path(__file__).resolve().parent
sys.path[:0] = [str(HERE.parent), str(HERE.parent / "ceph")]
from model import crush  # noqa: E402
from make_maps import HOST, ONE, RACK, ROOT, Map  # noqa: E402

# of each kind of cluster the kinds of its root, racks and hosts
KINDS = {
    "list": ("list", "list", "list"),
    "tree": ("tree", "tree", "tree"),
    "uniform": ("uniform", "uniform", "uniform"),
    "mixed": ("list", "tree", "uniform"),
    "straw": ("straw", "straw", "straw"),
    **dict.fromkeys(("straw2", "classes", "weights"), ("straw2", "straw2", "straw2")),
}
# of the kinds whose maps Ceph makes by itself the mode of its balancer; those that have one have
# device classes and primary affinities too
OWN = {"straw2": None, "classes": "upmap", "weights": "crush-compat"}
CLASSES = ("hdd", "hdd", "ssd")  # of the devices of each host, in turn
RACKS, HOSTS = 3, 2
OSDS = (12, 18, 24)
LARGE = 24  # so many devices have many groups and few objects
PROFILE = ["k=2", "m=2", "plugin=jerasure", "technique=reed_sol_van"]
# the id of each pool is its place, from 1 on; the size of an erasure pool is that of its profile
POOLS = (
    {"pool": "even", "pg_num": 32, "pgp_num": 32, "pool_type": "replicated", "rule": "hosts", "size": 3},
    {"pool": "racks", "pg_num": 16, "pgp_num": 16, "pool_type": "replicated", "rule": "racks", "size": 3},
    {
        "pool": "parts",
        "pg_num": 25,
        "pgp_num": 25,
        "pool_type": "erasure",
        "rule": "hosts-of-parts",
        "erasure_code_profile": "two-and-two",
    },
    {"pool": "pairs", "pg_num": 24, "pgp_num": 24, "pool_type": "replicated", "rule": "racks-then-hosts", "size": 4},
)
# of Ceph's own maps: each rule's type and class, by 'osd crush rule create-replicated' and, of the
# erasure pool, 'create-erasure'. The balancer's mode crush-compat wants no device below two rules'
# roots: there the rule over racks has a class too
OWN_RULES = {
    "hosts": ("host", "hdd"),
    "racks": ("rack", None),
    "hosts-of-parts": ("host", "hdd"),
    "devices": ("osd", "ssd"),
}
OWN_POOLS = (*POOLS[:3], {**POOLS[3], "rule": "devices", "size": 3})
LARGE_POOLS = {"even": 512, "racks": 256, "parts": 250, "pairs": 518}  # the numbers of groups
ODD_NAMES = ("with a blank", "a/b\\c\"d'e", "ä, 名前, 🦀", "0", "n" * 300)
# pools whose groups have the same number of objects of one size: how many, and their bytes
EVEN = {"even": (30, 4096), "parts": (20, 8192)}
OBJECTS, LARGEST, ALIKE = 800, 30_000, "pairs"  # of the other pools; in one of them all are of one size
FEWER = 4  # Ceph's own maps have a quarter of these objects, and a twentieth with many groups
FEWEST = 20


class Planned(Map):
    """A map with the rules that the pools name, under the root -1."""

    def rules(self):
        over = ("set_chooseleaf_tries 5", "set_choose_tries 100")
        return (
            ("hosts", 0, "replicated", ("take -1", f"chooseleaf firstn 0 {HOST}", "emit")),
            ("hosts-of-parts", 1, "erasure", (*over, "take -1", f"chooseleaf indep 0 {HOST}", "emit")),
            ("racks", 2, "replicated", ("take -1", f"chooseleaf firstn 0 {RACK}", "emit")),
            (
                "racks-then-hosts",
                3,
                "replicated",
                ("take -1", f"choose firstn 2 {RACK}", f"chooseleaf firstn 2 {HOST}", "emit"),
            ),
        )

    def rule_lines(self):
        return [line for it in self.rules() for line in self.lines_of_rule(*it)]


class Layout:
    """Racks of hosts of devices with their weights, and the kinds of their buckets."""

    def __init__(self, kind, osds, choice):
        self.kind, self.osds, numbers = kind, osds, iter(range(osds))
        self.racks = [
            [[[next(numbers), weight(choice)] for _ in range(osds // HOSTS // RACKS)] for _ in range(HOSTS)]
            for _ in range(RACKS)
        ]

    def map(self):
        """Returns the map: the buckets of racks and hosts have the ids -2, -3 and so on, each rack
        after its hosts. A uniform bucket has the weight of its first item for all."""
        root, rack, host = KINDS[self.kind]
        map_ = Planned(self.kind)
        map_.devices = self.osds

        def bucket(kind, type_, entries, id_=None):
            return map_.bucket(
                kind, type_, [(it, entries[0][1]) for it, _ in entries] if kind == "uniform" else entries, id_
            )

        bucket(root, ROOT, [bucket(rack, RACK, [bucket(host, HOST, of) for of in hosts]) for hosts in self.racks], -1)
        return map_

    def of_kind(self, kind):
        """Returns the same layout with buckets of another kind."""
        other = copy.deepcopy(self)
        other.kind = kind
        return other

    def changed(self, choice):
        """Returns a layout in which a device is in another host, and two have another weight."""
        other = copy.deepcopy(self)
        hosts = [host for rack in other.racks for host in rack]
        taken, given = choice.sample(hosts, 2)
        given.append(taken.pop())
        for host in choice.sample(hosts, 2):
            host[choice.randrange(len(host))][1] = weight(choice)
        return other

    def hosts(self):
        """Returns the name of each host, with its rack's name and its devices."""
        id_, found = 2, []
        for hosts in self.racks:
            rack = f"rack{id_ + len(hosts)}"
            found += [(f"host{id_ + place}", rack, [device for device, _ in host]) for place, host in enumerate(hosts)]
            id_ += len(hosts) + 1
        return found

    def places(self):
        """Returns where each device is, its host and rack, and its weight."""
        of = {device: (host, rack) for host, rack, devices in self.hosts() for device in devices}
        return {device: (*of[device], weight) for rack in self.racks for host in rack for device, weight in host}


def pools(kind, osds):
    """Returns the pools of a cluster of so many devices."""
    found = OWN_POOLS if kind in OWN else POOLS
    return (
        tuple({**it, "pg_num": LARGE_POOLS[it["pool"]], "pgp_num": LARGE_POOLS[it["pool"]]} for it in found)
        if osds == LARGE
        else found
    )


def class_of(kind, device):
    """Returns the class that a device gets, or None."""
    return CLASSES[device % len(CLASSES)] if OWN.get(kind) else None


def own_rules(kind):
    """Returns each rule of a map that Ceph makes: its name, type and class or None."""
    mode = OWN[kind]
    return [
        (name, type_, "hdd" if mode == "crush-compat" and name == "racks" else class_ if mode else None)
        for name, (type_, class_) in OWN_RULES.items()
    ]


def weight(choice):
    return choice.randrange(ONE // 2, 2 * ONE)


def objects(choice, kind, osds):
    """Returns the objects of each pool: names with their bytes."""
    found, part = {}, FEWEST if osds == LARGE else FEWER if kind in OWN else 1
    for pool in pools(kind, osds):
        name, groups = pool["pool"], pool["pg_num"]
        if name in EVEN:
            each, size = EVEN[name]
            found[name] = even_objects(name, groups, each // part, size)
        else:
            own = [f"{name}-{it}" for it in range(OBJECTS // part)] + list(ODD_NAMES)
            found[name] = [(it, 4096 if name == ALIKE else choice.randrange(1, LARGEST)) for it in own]
    return found


def even_objects(name, groups, each, size):
    """Returns objects of a pool, as many in each of its groups."""
    left, found, number = [each] * groups, [], 0
    while any(left):
        object_, number = f"{name}-{number}", number + 1
        group = crush.stable_mod(crush.name_hash(object_.encode()), groups)
        if left[group]:
            left[group] -= 1
            found.append((object_, size))
    return found
