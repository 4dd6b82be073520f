"""The definition's replies to requests of tenants on maps of any size, and the rows that they
leave: the limits of docs/REQUESTS.md, map texts by map_text.py, placements by choosing.py. Bodies
have to be of their form, but for how many rows and bytes they have."""
import collections
import functools
import json

from model import choosing, crush, map_text, messages, placed

# as the design has them, and not from the program's sources
BODY, CHANGES, PAIRS, VERSIONS, POOLS, RECEIPTS = 5_242_880, 1_024, 1_024, 256, 256, 100_000
WHOLE = (65_536, True)  # a device without a state
LEGACY = {b"choose_total_tries": 19}
RULE_TUNABLES = (b"choose_total_tries", b"chooseleaf_descend_once", b"chooseleaf_vary_r", b"chooseleaf_stable")


class Version:
    """A map, and what its rules answer."""

    def __init__(self, text):
        self.map = map_text.read(text)
        types, ids = self.map.numbers, self.map.ids
        self.picks = choosing.Picks(
            [
                (number, types[kind], alg.decode(), [(ids[it], weight) for it, weight in items])
                for number, kind, _, alg, items in self.map.buckets
            ]
        )
        self.tunables = [self.map.tunables.get(it, LEGACY.get(it, 0)) for it in RULE_TUNABLES]
        self.rules = {
            number: [placed.step_of(self.map, types, it) for it in steps]
            for number, (_, _, steps) in self.map.rules.items()
        }

    @functools.cached_property
    def text(self):
        return map_text.write(self.map).decode()

    def answer(self, rule, reweights, x, size):
        """The items of a rule's answer and its trace."""
        self.picks.pick.cache_clear()  # of other inputs, which would fill the memory
        return choosing.run_rule(self.picks, self.tunables, self.rules[rule], reweights, x, size)


@functools.lru_cache(maxsize=300)
def version_of(text):
    return Version(text)


class Tenant:
    def __init__(self, name):
        self.name, self.versions, self.states, self.pools, self.pairs, self.receipts = name, [], {}, {}, {}, {}
        self.answers = {}  # of rules, with the states as they are now

    def epoch(self):
        return len(self.receipts)

    def newest(self):
        return self.versions[-1]

    # ---- where groups lie

    def state(self, device):
        return self.states.get(device, WHOLE)

    def answer(self, version, rule, x, size):
        key = version, rule, x, size
        if key not in self.answers:
            reweights = {device: reweight for device, (reweight, _) in self.states.items() if reweight < 65_536}
            self.answers[key] = version.answer(rule, reweights, x, size)
        return self.answers[key]

    def seed(self, pool, group):
        place = crush.stable_mod(group, pool["pgp_num"])
        return crush.hash2(place, pool["id"]) if pool["hashpspool"] else place + pool["id"] & crush.WORD

    def seeds(self, pool):
        by_place = [self.seed(pool, group) for group in range(pool["pgp_num"])]
        return [by_place[crush.stable_mod(group, pool["pgp_num"])] for group in range(pool["pg_num"])]

    def answer_of(self, version, pool, seed):
        return self.answer(version, pool["rule"], seed, pool["size"])

    def pairs_by_group(self, pool):
        found = collections.defaultdict(list)
        for group, old, new in self.pairs[pool["id"]]:
            found[group].append((old, new))
        return found

    def up(self, version, pool, raw, pairs):
        has = version.map.devices
        items = placed.excepted(raw, pairs, lambda it: it in has and self.state(it)[0] > 0)
        slots = [it if it in has and self.state(it)[1] else None for it in items]
        return slots if pool["kind"] == "erasure" else [it for it in slots if it is not None]

    def ups(self, version, pool):
        """The up list of each group."""
        pairs, found = self.pairs_by_group(pool), {}
        for group, seed in enumerate(self.seeds(pool)):
            if group in pairs:
                yield self.up(version, pool, self.answer_of(version, pool, seed)[0], pairs[group])
            else:
                if seed not in found:
                    found[seed] = self.up(version, pool, self.answer_of(version, pool, seed)[0], ())
                yield found[seed]

    # ---- what only asks

    def shows(self):
        return messages.summary(self.epoch(), len(self.versions), len(self.states), len(self.pools), self.name)

    def version(self, number):
        return (
            messages.version_of(self.versions[number - 1].text, number)
            if 1 <= number <= len(self.versions)
            else messages.NO_VERSION
        )

    def group(self, pool, group, **more):
        if group >= pool["pg_num"]:
            return messages.NO_GROUP
        seed = self.seed(pool, group)
        raw = self.answer_of(self.newest(), pool, seed)[0]
        return messages.lies(
            self.epoch(),
            group,
            seed,
            self.up(self.newest(), pool, raw, self.pairs_by_group(pool)[group]),
            raw,
            len(self.versions),
            **more,
        )

    def usage(self, pool):
        groups, entries, primaries = (collections.Counter() for _ in range(3))
        for up in self.ups(self.newest(), pool):
            there = [it for it in up if it is not None]
            entries.update(there)
            groups.update(set(there))
            primaries.update(there[:1])
        whole = sum(entries.values())
        rows = [
            (it, groups[it], entries[it], primaries[it], entries[it] * 1000 // whole if whole else 0)
            for it in sorted(self.newest().map.devices)
        ]
        return messages.used(self.epoch(), *rows, version=len(self.versions), pool=pool["id"])

    def moves(self, pool, first, second):
        if not all(1 <= it <= len(self.versions) for it in (first, second)):
            return messages.NO_VERSION
        both = [self.versions[it - 1] for it in (first, second)]
        if any(pool["rule"] not in it.rules for it in both):
            return messages.NO_RULE
        lists = zip(*(self.ups(it, pool) for it in both))
        rows = [(group, len(set(new) - {*old, None}), old, new) for group, (old, new) in enumerate(lists) if old != new]
        return messages.moved(self.epoch(), first, second, *rows, pool=pool["id"])

    def impact(self, pool, device):
        if device not in self.newest().map.devices:
            return messages.NO_DEVICE
        led = {group for group, _, new in self.pairs[pool["id"]] if new == device}
        groups = [
            group
            for group, seed in enumerate(self.seeds(pool))
            if group in led or device in self.answer_of(self.newest(), pool, seed)[1]
        ]
        return messages.touched(self.epoch(), device, groups, len(self.versions), pool["id"])

    def exceptions(self, pool):
        return messages.shown(self.epoch(), *self.pairs[pool["id"]], pool=pool["id"])

    def located(self, pool, asked):
        hash = crush.name_hash(asked["name"].encode())
        return self.group(pool, crush.stable_mod(hash, pool["pg_num"]), hash=hash)

    def tested(self, asked):
        number = asked.get("version", len(self.versions))
        if not 1 <= number <= len(self.versions):
            return messages.NO_VERSION
        version = self.versions[number - 1]
        if asked["rule"] not in version.rules:
            return messages.NO_RULE
        return messages.tested(*self.answer(version, asked["rule"], asked["x"], asked["size"]), self.epoch(), number)

    # ---- what changes something: the reply, and what to do then

    def import_map(self, asked, epoch):
        if len(self.versions) == VERSIONS:
            return messages.LIMIT, None
        try:
            version = version_of(asked["text"].encode())
        except map_text.Refused as why:
            return messages.refused(why.code, why.line), None
        if any(it["rule"] not in version.rules for it in self.pools.values()):
            return messages.IN_USE, None
        return messages.imported(epoch, len(self.versions) + 1), lambda: self.versions.append(version)

    def change_devices(self, asked, epoch):
        if not 1 <= len(asked["devices"]) <= CHANGES:
            return messages.BAD, None
        if not self.versions:
            return messages.NO_VERSION, None
        if any(it["id"] not in self.newest().map.devices for it in asked["devices"]):
            return messages.NO_DEVICE, None

        def act():
            for it in asked["devices"]:
                reweight, up = self.state(it["id"])
                self.states[it["id"]] = (it.get("reweight", reweight), it.get("up", up))
                if self.state(it["id"])[0] != reweight:
                    self.answers.clear()

        return messages.accepted(len(asked["devices"]), epoch), act

    def change_by_csv(self, asked, epoch):
        rows = [it.split(",") for it in asked["csv"].splitlines()[1:]]
        return self.change_devices(
            {"devices": [{"id": int(id), "reweight": int(reweight), "up": up == "1"} for id, reweight, up in rows]},
            epoch,
        )

    def create_pool(self, asked, epoch):
        if not self.versions:
            return messages.NO_VERSION, None
        if asked["rule"] not in self.newest().rules:
            return messages.NO_RULE, None
        if asked["id"] in self.pools or any(it["name"] == asked["name"] for it in self.pools.values()):
            return messages.EXISTS, None
        if len(self.pools) == POOLS:
            return messages.LIMIT, None

        def act():
            self.pools[asked["id"]], self.pairs[asked["id"]] = asked, ()

        return messages.created(epoch, asked["id"]), act

    def remove_pool(self, asked, epoch):
        if asked["id"] not in self.pools:
            return messages.NO_POOL, None

        def act():
            del self.pools[asked["id"]], self.pairs[asked["id"]]

        return messages.removed(epoch, asked["id"]), act

    def except_groups(self, asked, epoch):
        if len(asked["exceptions"]) > PAIRS:
            return messages.BAD, None
        if asked["id"] not in self.pools:
            return messages.NO_POOL, None
        pairs = tuple((it["group"], it["from"], it["to"]) for it in asked["exceptions"])
        if any(group >= self.pools[asked["id"]]["pg_num"] for group, _, _ in pairs):
            return messages.NO_GROUP, None
        if any(it not in self.newest().map.devices for _, *both in pairs for it in both):
            return messages.NO_DEVICE, None
        return messages.excepted(epoch, len(pairs), asked["id"]), lambda: self.pairs.update({asked["id"]: pairs})

    CHANGING = {
        ("maps",): import_map,
        ("devices",): change_devices,
        ("devices", "csv"): change_by_csv,
        ("pools",): create_pool,
        ("pools", "remove"): remove_pool,
        ("pools", "exceptions"): except_groups,
    }

    def change(self, change, asked, path, sent):
        """Checks of forms stand before those of receipts: of the forms that aren't supposed, how
        many rows a body has."""
        request, sizes = asked["request"], {"devices": (1, CHANGES), "exceptions": (0, PAIRS)}
        if any(key in asked and not least <= len(asked[key]) <= most for key, (least, most) in sizes.items()):
            return messages.BAD
        if request in self.receipts:
            *first, reply = self.receipts[request]
            return reply if first == [path, sent] else messages.REUSED
        if len(self.receipts) == RECEIPTS:
            return messages.LIMIT
        reply, act = change(self, asked, len(self.receipts) + 1)
        if act:
            act()
            self.receipts[request] = (path, sent, reply)
        return reply

    def get(self, rest):
        if not rest:
            return self.shows()
        if rest[0] == "maps":
            return self.version(int(rest[1]))
        if int(rest[1]) not in self.pools:
            return messages.NO_POOL
        report = {
            "groups": self.group,
            "usage": self.usage,
            "moves": self.moves,
            "impact": self.impact,
            "exceptions": self.exceptions,
        }[rest[2]]
        return report(self.pools[int(rest[1])], *map(int, rest[3:]))

    def post(self, rest, path, sent):
        asked = json.loads(sent)
        if rest in self.CHANGING:
            return self.change(self.CHANGING[rest], asked, path, sent)
        if rest == ("test",):
            return self.tested(asked)
        return self.located(self.pools[int(rest[1])], asked) if int(rest[1]) in self.pools else messages.NO_POOL

    # ---- what the tables hold of it

    def rows(self):
        pools = sorted(self.pools.values(), key=lambda it: it["id"])
        receipts = [
            (request, path.decode(), sent.decode(), int(reply[:3]), reply[4:].decode())
            for request, (path, sent, reply) in self.receipts.items()
        ]
        return {
            "epoch": self.epoch(),
            "maps": [(number, it.text) for number, it in enumerate(self.versions, 1)],
            "devices": sorted((device, reweight, int(up)) for device, (reweight, up) in self.states.items()),
            "pools_2": [messages.pool_row(it, self.pairs[it["id"]]) for it in pools],
            "exceptions": [(it["id"], place, *pair) for it in pools for place, pair in enumerate(self.pairs[it["id"]])],
            "receipts": sorted(receipts, key=lambda row: row[0].encode()),
        }


class Tenants:
    """All tenants by their names."""

    def __init__(self):
        self.live = {}

    def reply(self, line):
        method, path, sent = (line.split(b" ", 2) + [b""])[:3]
        if len(sent) > BODY:
            return messages.TOO_LARGE
        name, *rest = path.decode().split("/")[2:]
        if method == b"PUT":
            if name in self.live:
                return messages.EXISTS
            self.live[name] = Tenant(name)
            return messages.made(name.encode())
        if name not in self.live:
            return messages.NO_TENANT
        if method == b"DELETE":
            del self.live[name]
            return messages.dropped(name.encode())
        tenant = self.live[name]
        return tenant.get(rest) if method == b"GET" else tenant.post(tuple(rest), path, sent)

    def rows(self):
        return {name: it.rows() for name, it in self.live.items()}
