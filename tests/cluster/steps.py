"""What is done to a cluster, step by step. Each step is recorded in a folder of its own: the
cluster's dumps before it, the words of crushplan that foretell it, and where the groups lay before
and after.

step.json has "words", the words of crushplan, in which FOLDER is the step's; "pools"; "holes" of
tree buckets; "before", the groups; "stages", what was done, each with the groups once the cluster
had settled; and what a step has beside: "by", the comparison, where that isn't its command's;
"more", words of crushplan's every command; "drains", each from the same state, with the devices'
names and the groups that were then otherwise. Where drains are kept, of each there is a sum of
these in their place.
"""
import json
import random

import clusters
import real
from clusters import CLASSES
from make_maps import ONE, weight_text

DUMPS = {
    "crush.json": ("mon", "osd crush dump", {}), "osd.json": ("mon", "osd dump", {}),
    "df.json": ("mon", "df", {"detail": "detail"}),
    "osd-df.json": ("mgr", "osd df", {}), "pgs.json": ("mgr", "pg dump", {"dumpcontents": ["pgs_brief"]}),
}  # fmt: skip
LISTS = 3  # of devices, hosts and racks that are drained together, where drains come in turn


class Story:
    """A cluster of a kind, and its steps."""

    def __init__(self, cluster, kind, seed, folder, lists=LISTS):
        self.cluster, self.kind, self.seed, self.folder, self.count = cluster, kind, seed, folder, 0
        self.lists = lists
        self.choice = random.Random(f"{kind} {seed}")
        self.layout = clusters.Layout(kind, cluster.osds, self.choice)
        self.objects, self.pools = clusters.objects(self.choice, kind, cluster.osds), clusters.pools(kind, cluster.osds)
        self.left, self.holes = set(range(cluster.osds)), []

    def hosts(self):
        """Returns the name of each host, with its rack's name and its devices."""
        return self.layout.hosts()

    def prepare(self):
        """Gives the cluster its map, pools, reweights and objects."""
        told = self.cluster.told
        self.set_map(self.layout)
        told("osd set-require-min-compat-client", version="luminous")
        told("osd erasure-code-profile set", name="two-and-two", profile=clusters.PROFILE)
        self.fill()

    def fill(self):
        """Makes the pools, and gives three devices a reweight; not where the balancer would undo
        that."""
        told = self.cluster.told
        for it in self.pools:
            told("osd pool create", **it)
        for device in (
            self.choice.sample(range(self.cluster.osds), 3) if clusters.OWN.get(self.kind) != "crush-compat" else ()
        ):
            told("osd reweight", id=device, weight=self.choice.randrange(ONE // 2, ONE) / ONE)
        self.cluster.settled()
        for pool, objects in self.objects.items():
            self.cluster.write(pool, objects)
        self.cluster.settled()

    def set_map(self, layout):
        text, compiled = self.folder / "map.txt", self.folder / "map.bin"
        text.write_text(layout.map().text())
        real.run("crushtool", "-c", text, "-o", compiled)
        self.cluster.told("osd setcrushmap", given=compiled.read_bytes())
        self.layout = layout

    # ---- recording

    def dump(self, folder):
        """Writes the dumps of the cluster, which has settled, once they have all objects."""
        wanted = {number: len(self.objects[it["pool"]]) for number, it in enumerate(self.pools, 1)}

        def current():
            groups = self.cluster.groups()
            said = {
                it["id"]: (it["stats"]["objects"], it["stats"]["stored"])
                for it in self.cluster.asked("df", detail="detail")["pools"]
            }
            own = {
                pool: tuple(
                    sum(it[key] for (of, _), it in groups.items() if of == pool) for key in ("objects", "bytes")
                )
                for pool in wanted
            }
            return groups if own == said and all(own[it][0] == wanted[it] for it in wanted) else None

        groups = real.awaited(current, "what ceph df says of the objects")
        folder.mkdir(parents=True)
        for name, (to, prefix, more) in DUMPS.items():
            (folder / name).write_text(self.cluster.told(prefix, to, format="json", **more))
        return groups

    def step(self, name, words, *stages, files=None, **more):
        """Does the stages of a step, each a line that says it and a function, and records it."""
        self.count += 1
        folder = self.folder / f"{self.count}-{name}"
        before, holes = self.dump(folder), list(self.holes)
        for file, text in (files or {}).items():
            (folder / file).write_text(text)
        done = []
        for said, does in stages:
            does()
            done.append({"done": said, "groups": self.cluster.settled()})
        pools = {
            it["pool"]: {key: it[key] for key in ("pool_name", "size", "min_size", "type", "pg_num")}
            for it in self.cluster.asked("osd dump")["pools"]
        }
        if "drains" in more:
            more["drains"] = more["drains"](before)
        record = {
            "kind": self.kind,
            "seed": self.seed,
            "words": words,
            "pools": pools,
            "holes": holes,
            "before": before,
            "stages": done,
            **{key: it() if callable(it) else it for key, it in more.items()},
        }
        (folder / "step.json").write_text(text_of(record))
        return folder

    # ---- what is done

    def out(self, devices):
        return "ceph osd out " + " ".join(map(str, devices)), lambda: self.cluster.told(
            "osd out", ids=[str(it) for it in devices]
        )

    def ended(self, devices):
        def end():
            self.left -= set(devices)
            self.cluster.end([f"osd.{it}" for it in devices])
            # as they are dead, no group has to wait until what they were allowed to answer is over
            self.cluster.told("osd down", ids=[str(it) for it in devices], definitely_dead=True)
            self.cluster.await_up(self.left)

        return "the processes of " + " ".join(f"osd.{it}" for it in devices) + " end", end

    def back(self, devices):
        def start():
            self.left |= set(devices)
            for it in devices:
                self.cluster.start_osd(it)
            self.cluster.told("osd in", ids=[str(it) for it in devices])
            self.cluster.await_up(self.left)

        return "they start again, ceph osd in", start

    def purged(self, devices):
        def purge():
            for it in devices:
                self.cluster.told("osd purge", "mgr", id=it, force=True, yes_i_really_mean_it=True)

        return "ceph osd purge " + " ".join(map(str, devices)), purge

    def devices_of(self, *names):
        return [
            device
            for host, rack, devices in self.hosts()
            for device in devices
            if device in self.left and {host, rack, f"osd.{device}"} & set(names)
        ]

    # ---- the steps

    def all(self):
        """Yields the folder of each step, once it is done."""
        self.prepare()
        yield self.located()
        if self.kind == "list":
            for kind in ("straw2", "list"):
                yield self.made_of(kind)
        yield self.failure()
        yield self.upmaps()
        yield self.map_changed()
        host, _, devices = next(
            it for it in self.choice.sample(self.layout.hosts(), len(self.layout.hosts())) if len(it[2]) >= 3
        )
        for place, device in enumerate(devices[:2]):
            yield self.device_removed(device)
            if clusters.KINDS[self.kind][2] == "tree":
                self.holes.append({"bucket": host, "pos": place})
        yield self.host_drained(host)

    def located(self):
        names = {
            pool: [name for name, _ in self.choice.sample(objects, 8)] + list(clusters.ODD_NAMES)
            for pool, objects in self.objects.items()
        }

        def asked():
            found = {
                pool: {name: self.cluster.asked("osd map", pool=pool, object=name) for name in own}
                for pool, own in names.items()
            }
            return {
                pool: {
                    name: {"id": it["pgid"], "up": real.listed(it["up"]), "primary": real.none_or(it["up_primary"])}
                    for name, it in own.items()
                }
                for pool, own in found.items()
            }

        return self.step("locate", ["usage"], objects=asked)

    def failure(self):
        """Ends a rack, or two hosts of different racks, puts them out, and has them come back."""
        if self.choice.random() < 0.5:
            names = [self.choice.choice(self.hosts())[1]]
        else:
            names = self.hosts_of_two_racks()
        devices = self.devices_of(*names)
        return self.step(
            "fail", ["fail", *names, "--groups"], self.ended(devices), self.out(devices), self.back(devices)
        )

    def hosts_of_two_racks(self):
        racks = self.choice.sample(sorted({it[1] for it in self.hosts()}), 2)
        return [self.choice.choice([host for host, of, _ in self.hosts() if of == rack]) for rack in racks]

    def upmaps(self):
        """Sends upmap items of some two dozen groups: a device of the list for another of the same
        host, or of a host that the list doesn't have, in the rack of the first."""
        groups = self.cluster.groups()
        place = {device: (rack, host) for host, rack, devices in self.hosts() for device in devices}
        items = {}
        for key in self.choice.sample(sorted(groups), 24):
            up = [it for it in groups[key]["up"] if it is not None]
            old = self.choice.choice(up)
            used = {place[it] for it in up if it != old}
            others = [
                it
                for it in place
                if it not in up
                and place[it] not in used
                and place[it][0] == place[old][0]
                and self.class_of(it) == self.class_of(old)
            ]
            if others:
                items[key] = (old, self.choice.choice(others))
        lines = [f"ceph osd pg-upmap-items {pool}.{group:x} {old} {new}" for (pool, group), (old, new) in items.items()]

        def send():
            for (pool, group), pair in items.items():
                self.cluster.told("osd pg-upmap-items", pgid=f"{pool}.{group:x}", id=list(pair))

        return self.step(
            "upmap",
            ["upmap", "FOLDER/commands"],
            (f"{len(lines)} of ceph osd pg-upmap-items", send),
            files={"commands": "".join(f"{it}\n" for it in lines)},
        )

    def map_changed(self):
        layout = self.layout.changed(self.choice)
        return self.step(
            "compare",
            ["compare", "FOLDER/new.txt", "--groups"],
            ("ceph osd setcrushmap", lambda: self.set_map(layout)),
            files={"new.txt": layout.map().text()},
        )

    def made_of(self, kind):
        """Sets the same map with buckets of another kind."""
        layout = self.layout.of_kind(kind)
        return self.step(
            kind,
            ["compare", "FOLDER/new.txt", "--groups"],
            ("ceph osd setcrushmap", lambda: self.set_map(layout)),
            files={"new.txt": layout.map().text()},
        )

    def class_of(self, device):
        return clusters.class_of(self.kind, device)

    def device_removed(self, device):
        return self.step(
            "remove",
            ["drain", f"osd.{device}", "--groups"],
            self.out([device]),
            self.ended([device]),
            self.purged([device]),
        )

    def host_drained(self, other):
        """Drains another host than this; then ends every process, and counts what the stores of
        the others hold."""
        host = self.choice.choice([it[0] for it in self.hosts() if it[0] != other])
        devices = self.devices_of(host)
        return self.step(
            "drain", ["drain", host, "--groups"], self.out(devices), self.ended(devices), stores=lambda: self.stores()
        )

    def stores(self):
        """Ends the OSDs that are left, and returns how many objects of each pool each holds."""
        left = sorted(self.left)
        self.cluster.end([f"osd.{it}" for it in left])
        return {it: self.cluster.stored(it) for it in left}


class StrawStory(Story):
    """A cluster of straw buckets, of which Ceph makes straw2 ones."""

    def all(self):
        self.prepare()
        yield self.converted()
        self.layout = self.layout.of_kind("straw2")
        yield self.located()
        yield self.upmaps()
        yield self.map_changed()
        yield self.host_drained(None)

    def converted(self):
        """Has Ceph convert the buckets. As straw buckets can't be computed, crushplan takes the
        groups from where the cluster says that they lie."""
        new = json.loads(self.cluster.told("osd crush dump", format="json"))
        for it in new["buckets"]:
            it["alg"] = "straw2"

        def convert():
            self.cluster.told("osd crush set-all-straw-buckets-to-straw2")
            if json.loads(self.cluster.told("osd crush dump", format="json"))["buckets"] != new["buckets"]:
                raise real.Failed("the converted map has other buckets than the same ones of straw2")

        return self.step(
            "convert",
            ["compare", "FOLDER/new.json", "--groups"],
            ("ceph osd crush set-all-straw-buckets-to-straw2", convert),
            files={"new.json": json.dumps(new)},
            by="converted",
        )


class OwnStory(Story):
    """A cluster whose map Ceph makes by itself, by its commands alone."""

    def hosts(self):
        nodes = {it["id"]: it for it in self.cluster.asked("osd tree")["nodes"]}
        racks = sorted((it for it in nodes.values() if it["type"] == "rack"), key=lambda it: it["name"])
        hosts = [(nodes[id_], rack["name"]) for rack in racks for id_ in sorted(rack["children"])]
        return [(it["name"], rack, sorted(it["children"])) for it, rack in hosts if it["children"]]

    def prepare(self):
        told, mode = self.cluster.told, clusters.OWN[self.kind]
        told("osd set-require-min-compat-client", version="luminous")
        for device, (host, rack, weight) in self.layout.places().items():
            told("osd crush create-or-move", id=device, weight=weight / ONE, args=self.location(host, rack))
            if self.class_of(device):
                told("osd crush set-device-class", **{"class": self.class_of(device)}, ids=[str(device)])
        for name, type_, class_ in clusters.own_rules(self.kind):
            if name == "hosts-of-parts":
                profile = [
                    *clusters.PROFILE,
                    f"crush-failure-domain={type_}",
                    *([f"crush-device-class={class_}"] if class_ else []),
                ]
                told("osd erasure-code-profile set", name="two-and-two", profile=profile)
                told("osd crush rule create-erasure", name=name, profile="two-and-two")
            else:
                told(
                    "osd crush rule create-replicated",
                    name=name,
                    root="default",
                    type=type_,
                    **({"class": class_} if class_ else {}),
                )
        for device in self.choice.sample(range(self.cluster.osds), 4) if mode else ():
            told("osd primary-affinity", id=device, weight=self.choice.choice((0.0, 0.25, 0.5)))
        self.fill()

    def location(self, host, rack):
        return ["root=default", f"rack={rack}", f"host={host}"]

    def all(self):
        self.prepare()
        yield self.located()
        mode = clusters.OWN[self.kind]
        if mode == "crush-compat":
            yield self.weights_set()
        if mode:
            yield self.balanced(mode)
        yield self.upmaps()
        yield self.map_changed()
        yield self.reweighted()
        if self.cluster.osds == clusters.LARGE:
            yield self.drained_in_turn()
        yield self.failure()
        devices = self.choice.sample(sorted(self.left), 3)
        yield self.device_removed(devices[0])
        yield self.weight_first(devices[1])
        yield self.unplaced(devices[2])
        yield self.host_added(devices[2])
        if mode:
            yield self.class_given(devices[2])
        yield self.host_drained(None)

    # ---- changed maps

    def dumped(self):
        """Returns the dump of the cluster's map."""
        return self.cluster.told("osd crush dump", format="json")

    def edited(self, *edits):
        """Returns the cluster's map as crushtool changes it, compiled and as a dump."""
        compiled, other = self.folder / "map.bin", self.folder / "new.bin"
        compiled.write_bytes(self.cluster.told_bytes("osd getcrushmap"))
        for it in edits:
            real.run("crushtool", "-i", compiled, *it, "-o", other)
            other.replace(compiled)
        return compiled.read_bytes(), real.run("crushtool", "-i", compiled, "--dump")

    def map_changed(self):
        """Sets a map in which a device is in another host, and two have another weight."""
        before, layout, edits = self.layout.places(), self.layout.changed(self.choice), []
        for device, (host, rack, weight) in layout.places().items():
            if before[device][:2] != (host, rack):
                edits.append(
                    (
                        "--move",
                        f"osd.{device}",
                        *(word for it in self.location(host, rack) for word in ("--loc", *it.split("="))),
                    )
                )
            if before[device][2] != weight:
                edits.append(("--reweight-item", f"osd.{device}", weight_text(weight)))
        compiled, dump = self.edited(*edits)
        self.layout = layout
        return self.compared(
            "compare", "ceph osd setcrushmap", lambda: self.cluster.told("osd setcrushmap", given=compiled), dump
        )

    def reweighted(self):
        """Gives a device another CRUSH weight."""
        device, weight = self.choice.choice(sorted(self.left)), clusters.weight(self.choice)
        _, dump = self.edited(("--reweight-item", f"osd.{device}", weight_text(weight)))
        said = f"ceph osd crush reweight osd.{device} {weight_text(weight)}"
        return self.compared(
            "reweight",
            said,
            lambda: self.cluster.told("osd crush reweight", name=f"osd.{device}", weight=weight / ONE),
            dump,
        )

    def unplaced(self, device):
        """Takes a device out of the map, which stays up and in."""
        return self.compared(
            "unplace",
            f"ceph osd crush rm osd.{device}",
            lambda: self.cluster.told("osd crush rm", name=f"osd.{device}"),
        )

    def host_added(self, device):
        """Sets a map in which crushtool has added a host with the device that is in none."""
        rack, weight = self.choice.choice(self.hosts())[1], clusters.weight(self.choice)
        place = (word for it in self.location("host-more", rack) for word in ("--loc", *it.split("=")))
        compiled, dump = self.edited(("--add-item", str(device), weight_text(weight), f"osd.{device}", *place))
        said = f"crushtool --add-item {device} {weight_text(weight)} osd.{device}, ceph osd setcrushmap"
        return self.compared(
            "add", said, lambda: self.cluster.told("osd setcrushmap", given=compiled), dump, more=["--allow-unplaced"]
        )

    def class_given(self, device):
        """Gives a device without a class one, and takes another's for a new one."""
        other = self.choice.choice([it for it in sorted(self.left) if it != device and self.class_of(it) == CLASSES[0]])

        def change():
            self.cluster.told("osd crush rm-device-class", ids=[str(other)])
            self.cluster.told("osd crush set-device-class", **{"class": CLASSES[-1]}, ids=[str(device), str(other)])

        return self.compared(
            "class", f"ceph osd crush rm-device-class {other}, set-device-class {CLASSES[-1]} {device} {other}", change
        )

    def compared(self, name, said, does, dump=None, **more):
        """Does a change of the map; without a dump of the new one that is known when it is done."""
        folder = self.step(
            name,
            ["compare", "FOLDER/new.json", "--groups"],
            (said, does),
            files={"new.json": dump} if dump else {},
            **more,
        )
        if not dump:
            (folder / "new.json").write_text(self.dumped())
        return folder

    # ---- weight sets, and the balancer

    def weights_set(self):
        """Makes the weight set of all pools, with other weights of a third of the devices."""
        weights = {
            it: clusters.weight(self.choice) for it in self.choice.sample(sorted(self.left), self.cluster.osds // 3)
        }

        def make():
            self.cluster.told("osd crush weight-set create-compat")
            for device, weight in weights.items():
                self.cluster.told("osd crush weight-set reweight-compat", item=f"osd.{device}", weight=[weight / ONE])

        return self.compared(
            "weights", f"ceph osd crush weight-set create-compat, {len(weights)} of reweight-compat", make
        )

    def balanced(self, mode):
        """Does what the balancer finds, if it finds anything."""
        told = self.cluster.told
        for name, value in (
            ("target_max_misplaced_ratio", "0.5"),
            ("mgr/balancer/upmap_max_deviation", "1"),
            ("mgr/balancer/upmap_max_optimizations", "30"),
        ):
            told("config set", who="mgr", name=name, value=value, force=True)
        told("balancer mode", "mgr", mode=mode)
        found = self.cluster.answer(
            {"to": "mgr", "command": {"prefix": "balancer optimize", "plan": "found"}, "input": ""}
        )
        done = (
            []
            if found["status"] < 0
            else [("the balancer's plan", lambda: told("balancer execute", "mgr", plan="found"))]
        )
        if mode == "crush-compat":
            said, does = done[0] if done else ("nothing", lambda: None)
            return self.compared("balance", said, does)
        items = json.loads(told("balancer dump", "mgr", plan="found")) if done else {}
        lines = [f"ceph osd rm-pg-upmap-items {it}" for it in items.get("old_pg_upmap_items", ())]
        lines += [
            f"ceph osd pg-upmap-items {it['pgid']} " + " ".join(f"{of['from']} {of['to']}" for of in it["mappings"])
            for it in items.get("new_pg_upmap_items", ())
        ]
        return self.step(
            "balance",
            ["upmap", "FOLDER/commands"],
            *(done or [("nothing", lambda: None)]),
            files={"commands": "".join(f"{it}\n" for it in lines)},
        )

    # ---- drains, each from the same state

    def drain_names(self):
        """Returns what is drained: each device, host and rack, and lists of them, no devices
        twice."""
        hosts = self.hosts()
        devices = [f"osd.{it}" for it in sorted(self.left)]
        drawn = (
            lambda turn: self.hosts_of_two_racks(),
            lambda turn: self.choice.sample(devices, 3 + turn % 3),
            lambda turn: [self.choice.choice(devices), self.choice.choice(hosts)[0]],
        )
        single = [*devices, *(host for host, _, _ in hosts), *sorted({rack for _, rack, _ in hosts})]
        found, count = {frozenset(self.devices_of(it)): [it] for it in single}, 0
        while len(found) < len(single) + self.lists:
            names = drawn[count % len(drawn)](count // len(drawn))
            found.setdefault(frozenset(self.devices_of(*names)), names)
            count += 1
        return list(found.values())

    def drained_in_turn(self):
        """Drains one after the other. Before the next one the devices are in again, with the upmap
        items that Ceph's monitors removed while they were out, and all groups lie as before."""
        names, items = self.drain_names(), self.upmap_items()

        def all_(before):
            for it in names:
                devices = sorted(set(self.devices_of(*it)))
                self.out(devices)[1]()
                yield {"names": it, "groups": self.cluster.settled()}
                self.in_again(devices, items)
                again = self.cluster.placed()
                if any(
                    (again[key]["up"], again[key]["primary"]) != (of["up"], of["primary"]) for key, of in before.items()
                ):
                    raise real.Failed(f"once {' '.join(it)} are in again, groups don't lie as before")

        return self.step("drains", ["check"], by="drains", drains=lambda before: list(all_(before)))

    def upmap_items(self):
        return {
            it["pgid"]: [device for pair in it["mappings"] for device in (pair["from"], pair["to"])]
            for it in self.cluster.asked("osd dump")["pg_upmap_items"]
        }

    def in_again(self, devices, items):
        self.cluster.told("osd in", ids=[str(it) for it in devices])
        left = self.upmap_items()
        for group, pairs in items.items():
            if left.get(group) != pairs:
                self.cluster.told("osd pg-upmap-items", pgid=group, id=pairs)

    # ---- removals

    def weight_first(self, device):
        """Gives a device the CRUSH weight 0, ends it and removes it."""
        weigh = f"ceph osd crush reweight osd.{device} 0", lambda: self.cluster.told(
            "osd crush reweight", name=f"osd.{device}", weight=0.0
        )
        return self.step(
            "weight",
            ["drain", f"osd.{device}", "--groups"],
            weigh,
            self.ended([device]),
            self.purged([device]),
            by="weight",
        )


def text_of(record):
    """Returns a record as JSON, with a line for each group. A stage has the groups alone that
    differ from those before, and a group its acting list where that isn't up."""

    def said(group):
        kept = {key: it for key, it in group.items() if key != "acting" or it != group["up"]}
        return {**kept, "states": "+".join(sorted(group["states"]))}

    def lines(groups):
        return (
            "{\n"
            + ",\n".join(f'"{pool}.{group:x}": {json.dumps(it)}' for (pool, group), it in sorted(groups.items()))
            + "\n}"
        )

    before = {key: said(it) for key, it in record["before"].items()}

    def done(name):
        found = [
            [
                json.dumps({key: of for key, of in it.items() if key != "groups"})[1:-1],
                {key: said(of) for key, of in it["groups"].items() if said(of) != before[key]},
            ]
            for it in record.get(name, ())
        ]
        return (
            f'"{name}": [' + ",\n".join('{%s, "groups": %s}' % (words, lines(groups)) for words, groups in found) + "]"
        )

    rest = "".join(
        f"{json.dumps(key)}: {json.dumps(it)},\n"
        for key, it in record.items()
        if key not in ("before", "stages", "drains")
    )
    drains = f'{done("drains")},\n' if "drains" in record else ""
    return "{\n" + rest + f'"before": {lines(before)},\n{drains}{done("stages")}' + "\n}\n"


def read(folder):
    """Returns the record of a step, with all groups of each stage."""
    record = json.loads((folder / "step.json").read_text())
    record["before"] = {key: {"acting": it["up"], **it} for key, it in record["before"].items()}
    for it in (*record["stages"], *(of for of in record.get("drains", ()) if "groups" in of)):
        it["groups"] = {**record["before"], **{key: {"acting": of["up"], **of} for key, of in it["groups"].items()}}
    record["pools"] = {int(it): of for it, of in record["pools"].items()}
    return record
