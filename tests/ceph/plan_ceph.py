"""Ceph's side of the comparison of crushplan: the dumps of a cluster, and what osdmaptool and
crushtool say of it once something is changed. Upmap items are removed as Ceph's monitors do, by
osdmaptool --upmap-cleanup."""
import json
import pathlib
import re
import tempfile

import library
from make_maps import HOST, ONE, OSD, RACK
from osdmap import NONE, OsdMap
from plan_clusters import allowing, compiled, removed_item

COMMAND = re.compile(r"ceph osd (rm-pg-upmap-items|pg-upmap-items) (\d+)\.([0-9a-f]+)((?: \d+)*)")
RATIOS = {"full_ratio": 0.95, "backfillfull_ratio": 0.9, "nearfull_ratio": 0.85}
OBJECTS = ("a", "cat.jpg", "rbd_data.1f3a6b8b4567.0000000000000a40", "with a blank", "ä, 名前")


class State:
    """A cluster's map, states and upmap items at one moment."""

    def __init__(self, crush, states, upmaps):
        self.crush, self.states, self.upmaps = crush, list(states), dict(upmaps)


def group_id(at):
    return f"{at[0]}.{at[1]:x}"


def elsewhere(before, after):
    """The groups that lie elsewhere afterwards, or have another raw list."""
    return {at: it for at, it in after.items() if it != before[at]}


class Ceph:
    """A cluster as Ceph has it, with what it answers, in a folder of its own."""

    def __init__(self, cluster, folder):
        self.cluster, self.folder, self.number = cluster, pathlib.Path(folder), 0
        self.there = [it for it in range(cluster.map.devices) if it not in cluster.removed]
        self.start = State(
            compiled(cluster, folder),
            [state if it in self.there else (0, False) for it, state in enumerate(cluster.states)],
            {},
        )
        self.draw_upmaps()
        self.write_dumps()
        self.before = self.placements(self.start)
        if any(cluster.ruleless):
            self.write_pgs()

    def draw_upmaps(self):
        """Draws upmap items by the raw lists, and keeps those that the monitors keep."""
        drawn, before = self.cluster.drawn, self.asked(self.start, clean=False)
        for group in drawn.sample(sorted(before), min(self.cluster.upmaps, len(before))):
            raw = [it for it in before[group][0] if it is not None]
            for old in drawn.sample(raw, min(len(raw), drawn.choice((1, 1, 2)))):
                self.start.upmaps.setdefault(group, []).append(
                    (old, drawn.choice([it for it in self.there if it != old]))
                )
        self.asked(self.start)

    def placements(self, state, clean=True):
        """Raw, up and the primary by the ids of groups."""
        return {group_id(at): list(it) for at, it in self.asked(state, clean).items()}

    def asked(self, state, clean=True):
        """The same by pool and group. Upmap items that the monitors don't keep are removed from the
        state first."""
        with tempfile.TemporaryDirectory() as folder:
            map_ = OsdMap(
                folder,
                None,
                self.cluster.pools,
                state.states,
                state.crush,
                read=False,
                affinities=self.cluster.affinities,
            )
            while True:
                map_.set_upmaps(state.upmaps, read=False)
                if not (clean and state.upmaps and self.removed_some(map_, state)):
                    break
            self.dump = map_.read()
            return map_.placements()

    def removed_some(self, map_, state):
        """Removes upmap items as osdmaptool says that the monitors do."""
        out = map_.path.with_suffix(".cleanup")
        out.unlink(missing_ok=True)
        map_.ask("--upmap-cleanup", out)
        found = COMMAND.findall(out.read_text()) if out.exists() else []
        for word, pool, group, pairs in found:
            numbers = list(map(int, pairs.split()))
            state.upmaps.pop((int(pool), int(group, 16)))
            if word == "pg-upmap-items":
                state.upmaps[int(pool), int(group, 16)] = list(zip(numbers[::2], numbers[1::2]))
        return bool(found)

    def write_dumps(self):
        """Writes the files that crushplan reads."""
        dump = json.loads(self.dump)
        for pool in dump["pools"]:
            pool["pg_num_target"], pool["pg_placement_num_target"] = pool["pg_num"], pool["pg_placement_num"]
        dump["osds"] = [it for it in dump["osds"] if it["osd"] in self.there]
        dump.update(RATIOS)
        self.dumps = self.folder / "dumps"
        self.dumps.mkdir()
        (self.dumps / "osd.json").write_text(json.dumps(dump))
        (self.dumps / "crush.json").write_text(library.run(["crushtool", "-i", self.start.crush, "--dump"])[0])
        library.run(["crushtool", "-d", self.start.crush, "-o", self.dumps / "map.txt"])

    def write_pgs(self):
        """Writes where the groups of pools lie that can't be computed, as a cluster says it. Ceph
        places nothing of a pool for which it finds no rule."""
        none = lambda up: [NONE if it is None else it for it in up]
        rows = [
            {
                "pgid": at,
                "state": "active+clean",
                "up": none(up),
                "up_primary": -1 if primary is None else primary,
                "acting": none(up),
                "acting_primary": -1 if primary is None else primary,
            }
            for at, (_, up, primary) in self.before.items()
        ]
        (self.dumps / "pgs.json").write_text(json.dumps({"pg_stats": rows}))

    def edited(self, crush, *options):
        """The file of a map that crushtool has changed."""
        self.number += 1
        path = self.folder / f"edited{self.number}.bin"
        library.run(["crushtool", "-i", crush, *options, "-o", path])
        return path

    def without(self, crush, devices):
        for it in devices:
            self.number += 1
            path = self.folder / f"edited{self.number}.bin"
            removed_item(crush, it, path)
            crush = path
        return crush

    def weightless(self, crush, devices):
        for it in devices:
            crush = self.edited(crush, "--reweight-item", f"osd.{it}", 0)
        return crush

    def with_states(self, devices, reweight=None, up=None):
        """The state once devices have another reweight, or are up or down."""
        states = list(self.start.states)
        for it in devices:
            states[it] = (states[it][0] if reweight is None else reweight, states[it][1] if up is None else up)
        return State(self.start.crush, states, self.start.upmaps)

    # ---- the answers

    def answers(self):
        """Draws what is asked, and what Ceph answers to it."""
        cluster, drawn = self.cluster, self.cluster.drawn
        if cluster.ruleless:
            return {
                "pools": cluster.pools,
                "before": self.before,
                "ruleless": cluster.ruleless,
                "maps": dict(self.changes()) if self.alg("straw") else {},
            }
        drains = cluster.drains or [[drawn.choice(cluster.names(HOST))], drawn.sample(cluster.names(OSD), 2)]
        if not cluster.drains and len(cluster.names(RACK)) > 2:
            drains.append([drawn.choice(cluster.names(RACK))])
        return {
            "pools": cluster.pools, "hosts": cluster.names(HOST),
            "types": ["host", "rack"] if cluster.names(RACK) else ["host"], "before": self.before,
            "drains": [self.drain(names) for names in drains], "upmap": self.upmap(),
            "maps": {**dict(self.maps()), **dict(self.changes())}, "locate": self.locate(),
        }  # fmt: skip

    def drain(self, names):
        """A drain, what a purge moves afterwards, and the same devices down, and then out."""
        devices = sorted({it for name in names for it in self.devices_below(name)})
        drained = self.with_states(devices, reweight=0)
        after = self.placements(drained)
        down, out = (self.placements(self.with_states(devices, reweight, up=False)) for reweight in (None, 0))
        # crushtool writes no tree bucket that it has emptied
        purge = None if "tree" in self.cluster.emptied(devices) else self.purge(devices, drained, after)
        return {
            "names": names,
            "devices": devices,
            "after": elsewhere(self.before, after),
            "down": elsewhere(self.before, down),
            "out": elsewhere(self.before, out),
            "purge": purge,
        }

    def purge(self, devices, drained, after):
        """The devices are still in the OSD map, out, as crushplan has them: a rule that takes
        one by name still answers it."""
        purged = self.placements(State(self.without(self.start.crush, devices), drained.states, drained.upmaps))
        weightless = State(self.weightless(self.start.crush, devices), self.start.states, self.start.upmaps)
        first = self.placements(weightless)
        then = self.placements(State(self.without(weightless.crush, devices), weightless.states, weightless.upmaps))
        return {
            "purge": elsewhere(after, purged),
            "weight_first": elsewhere(self.before, first),
            "then_purge": elsewhere(first, then),
        }

    def devices_below(self, name):
        by_name = {self.cluster.map.item_name(id_): items for id_, _, _, items in self.cluster.map.buckets}
        if name not in by_name:
            return [int(name.split(".")[1])]
        inner = [self.cluster.map.item_name(it) for it, _ in by_name[name]]
        return [device for it in inner for device in self.devices_below(it) if device in self.there]

    def upmap(self):
        """A list of commands: new items, other items, removed ones; drawn by raw lists, so that
        some break the rule and some have no effect."""
        drawn, wanted, asked, lines = self.cluster.drawn, dict(self.start.upmaps), [], []
        for id_ in drawn.sample(sorted(self.before), min(12, len(self.before))):
            at, raw, pairs = (
                (int(id_.split(".")[0]), int(id_.split(".")[1], 16)),
                [it for it in self.before[id_][0] if it is not None],
                [],
            )
            for _ in range(drawn.choice((0, 1, 1, 2))):
                old = drawn.choice(raw) if raw and drawn.random() < 0.9 else drawn.choice(self.there)
                pairs.append((old, drawn.choice([it for it in self.there if it != old])))
            wanted.pop(at, None)
            if pairs:
                wanted[at] = pairs
            asked.append(id_)
            words = " ".join(f"{old} {new}" for old, new in pairs)
            lines.append(f"ceph osd {'pg-upmap-items' if pairs else 'rm-pg-upmap-items'} {id_} {words}".rstrip() + "\n")
        (self.dumps / "commands").write_text("".join(lines))
        after = self.placements(State(self.start.crush, self.start.states, wanted), clean=False)
        kept = State(self.start.crush, self.start.states, wanted)
        self.placements(kept)
        return {
            "after": {at: after[at] for at in asked},
            "kept": {
                group_id(at): [list(it) for it in pairs] for at, pairs in kept.upmaps.items() if group_id(at) in asked
            },
        }

    def maps(self):
        """Changed maps, by their files: a dump with other weights; and its text, with weights as
        crushtool -d rounds them, where crushtool reads that back as it was."""
        drawn, crush = self.cluster.drawn, self.start.crush
        for it in drawn.sample(self.cluster.names(OSD), 2):
            crush = self.edited(crush, "--reweight-item", it, f"{drawn.choice((0.5, 1.25, 3, 2.7285)):.5f}")
        (self.dumps / "new.json").write_text(library.run(["crushtool", "-i", crush, "--dump"])[0])
        yield "new.json", elsewhere(self.before, self.placements(State(crush, self.start.states, self.start.upmaps)))
        if not self.cluster.removed:
            library.run(["crushtool", "-d", crush, "-o", self.dumps / "new.txt"])
            library.run(["crushtool", "-c", self.dumps / "new.txt", "-o", self.folder / "rounded.bin"])
            yield "new.txt", elsewhere(
                self.before, self.placements(State(self.folder / "rounded.bin", self.start.states, self.start.upmaps))
            )

    def alg(self, *algs):
        return any(alg in algs for _, _, alg, _ in self.cluster.map.buckets)

    def changes(self):
        """More changed maps, as dumps: buckets made straw2; a host more, with two devices; another
        class of the devices of a host."""
        drawn, map_ = self.cluster.drawn, self.cluster.map
        if self.alg("list", "straw", "tree", "uniform") and not self.cluster.removed:
            text = re.sub("^\talg .*", "\talg straw2", allowing(map_.text()), flags=re.M)
            (self.folder / "straw2.txt").write_text(text)
            library.run(["crushtool", "-c", self.folder / "straw2.txt", "-o", self.folder / "straw2.bin"])
            yield self.changed("straw2.json", self.rebuilt(self.folder / "straw2.bin"))
        if self.alg("straw2") and not self.alg("tree", "uniform"):
            yield self.changed("host.json", self.with_host(drawn), 2)
        if hasattr(map_, "class_of") and not self.alg("straw"):
            host = drawn.choice(self.cluster.names(HOST))
            classes = {map_.class_of[it] for it in self.devices_below(host)}
            class_ = drawn.choice(sorted({"hdd", "ssd"} - classes) or ["hdd", "ssd"])
            yield self.changed(
                "class.json",
                self.rebuilt(self.edited(self.start.crush, "--reclassify", "--set-subtree-class", host, class_)),
            )

    def rebuilt(self, crush):
        """The map with the trees of classes made anew, as the monitors do after most changes."""
        return self.edited(crush, "--rebuild-class-roots") if hasattr(self.cluster.map, "class_of") else crush

    def with_host(self, drawn):
        """The map with a host more, in a rack where there are some."""
        crush, racks = self.start.crush, self.cluster.names(RACK)
        place = [*(("rack", drawn.choice(racks)) if racks else ()), "root", self.cluster.map.item_name(-1)]
        for device in range(self.cluster.map.devices, self.cluster.map.devices + 2):
            weight = f"{drawn.choice((0.5, 1, 2.7285)):.5f}"
            crush = self.edited(
                crush,
                "--add-item",
                device,
                weight,
                f"osd.{device}",
                "--loc",
                "host",
                "host-more",
                *(word for at in range(0, len(place), 2) for word in ("--loc", *place[at : at + 2])),
            )
        if hasattr(self.cluster.map, "class_of"):
            crush = self.rebuilt(self.edited(crush, "--reclassify", "--set-subtree-class", "host-more", "hdd"))
        return crush

    def changed(self, name, crush, more=0):
        """A changed map in a dump, with some devices more, and where the groups lie on it."""
        (self.dumps / name).write_text(library.run(["crushtool", "-i", crush, "--dump"])[0])
        states = self.start.states + [(ONE, True)] * more
        return name, elsewhere(self.before, self.placements(State(crush, states, self.start.upmaps)))

    def locate(self):
        """Where objects of one pool lie."""
        pool = self.cluster.drawn.choice(self.cluster.pools)
        with tempfile.TemporaryDirectory() as folder:
            map_ = OsdMap(
                folder,
                None,
                self.cluster.pools,
                self.start.states,
                self.start.crush,
                affinities=self.cluster.affinities,
            )
            if self.start.upmaps:
                map_.set_upmaps(self.start.upmaps)
            found = [(name, *map_.object_lies(pool["id"], name)) for name in OBJECTS]
        return {
            "pool": pool["name"],
            "objects": [[name, group_id((pool["id"], group)), up] for name, group, up in found],
        }
