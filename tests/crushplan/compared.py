"""Compares what crushplan says of a cluster with Ceph's answers, which were asked just now
(../ceph/check_plan) or kept (clusters/).

The answers are one object: where each group lies by `before` (raw, up, primary by the group's id),
and of each change the groups alone that lie elsewhere then.
"""
import collections
import json
import subprocess


class Differs(Exception):
    """Says what crushplan says, and what Ceph says."""


def same(what, here, ceph):
    """Compares two values; dictionaries by key, so that what differs is named."""
    if isinstance(here, dict) and isinstance(ceph, dict):
        for key in sorted(here.keys() | ceph.keys(), key=str):
            if here.get(key) != ceph.get(key):
                raise Differs(f"{what}, {key}: here {here.get(key)}, Ceph {ceph.get(key)}")
    elif here != ceph:
        raise Differs(f"{what}: here {here}, Ceph {ceph}")


def copies(up):
    return len({it for it in up if it is not None})


def anew(pool, old, new):
    """Copies that a move writes: in an erasure pool each place with another device."""
    if pool["kind"] == "erasure":
        return sum(it is not None and old[place : place + 1] != [it] for place, it in enumerate(new))
    return sum(it not in old for it in set(new))


class Comparison:
    """One cluster: a folder of dumps, Ceph's answers, and the words that run crushplan."""

    def __init__(self, folder, answers, command):
        self.folder, self.answers, self.command = folder, answers, command
        self.pools = {it["id"]: it for it in answers["pools"]}
        self.before = answers["before"]
        self.counts = collections.Counter()

    def pool(self, id_):
        return self.pools[int(id_.split(".")[0])]

    def plan(self, command, *words):
        """What crushplan answers: its JSON."""
        ran = subprocess.run(
            [*self.command, command, str(self.folder), *map(str, words), "--json"],
            stdout=subprocess.PIPE,
            stderr=subprocess.PIPE,
            text=True,
        )
        if ran.stderr or not ran.stdout:
            raise Differs(f"{command} {' '.join(map(str, words))} says {(ran.stderr or ran.stdout)[-2000:]!r}")
        said = json.loads(ran.stdout)
        same(f"{command}: status", said["status"], ran.returncode)
        return said

    def usage(self):
        said = self.plan("usage", "--groups")
        here = {it["id"]: [it["raw"], it["up"], it["primary"]] for it in said["groups"]}
        same("usage, groups", here, self.before)
        self.counts["groups"] += len(here)
        self.same_usage("usage", {it["device"]: (it["copies"], it["primaries"]) for it in said["rows"]}, self.before)
        for name in self.answers["types"]:
            rows = self.plan("usage", "--by", name)["rows"]
            same(
                f"usage by {name}",
                sum(it["copies"] for it in rows),
                sum(it is not None for _, up, _ in self.before.values() for it in up),
            )

    def same_usage(self, what, here, placements):
        entries, primaries = collections.Counter(), collections.Counter()
        for _, up, primary in placements.values():
            entries.update(it for it in up if it is not None)
            primaries.update([] if primary is None else [primary])
        same(
            what,
            {it: of for it, of in here.items() if of != (0, 0)},
            {it: (entries[it], primaries[it]) for it in entries},
        )
        self.counts["sums"] += len(entries)

    def anew(self, before, after):
        return sum(anew(self.pool(at), before[at][1], after[at][1]) for at in before)

    def moved(self, what, said, after):
        """Compares the groups that move, each with both lists and primaries."""
        own = ("before", "after", "primary_before", "primary_after")
        here = {it["id"]: [it.get(name) for name in own] for it in said["groups"]}
        ceph = {
            at: [self.before[at][1], after[at][1], self.before[at][2], after[at][2]]
            for at in after
            if self.before[at][1] != after[at][1]
        }
        if said["groups"] and "primary_after" not in said["groups"][0]:
            ceph = {at: [*it[:2], None, None] for at, it in ceph.items()}
        same(f"{what}, groups that move", here, ceph)
        same(f"{what}, numbers", (said["moved"], said["copies"]), (len(ceph), self.anew(self.before, after)))
        self.counts["moves"] += len(ceph)

    def summary(self, what, said, after):
        self.moved(what, said, after)
        for name, placements in (("after", after), ("before", self.before)):
            self.same_usage(
                f"{what}, usage {name}",
                {it["device"]: (it[f"copies_{name}"], it[f"primaries_{name}"]) for it in said["usage"]},
                placements,
            )
        for name, placements in (("", after), ("_before", self.before)):
            lacking = [self.pool(at)["size"] - copies(it[1]) for at, it in placements.items()]
            same(
                f"{what}, short{name}",
                (said["short"]["groups" + name], said["short"]["copies" + name]),
                (sum(it > 0 for it in lacking), sum(it for it in lacking if it > 0)),
            )

    def drain(self, it):
        what, devices = f"drain {' '.join(it['names'])}", it["devices"]
        said, after = self.plan("drain", *it["names"], "--groups"), {**self.before, **it["after"]}
        same(f"{what}, devices", said["devices"], devices)
        self.summary(what, said, after)
        keeps = any(device in up for _, up, _ in after.values() for device in devices)
        same(f"{what}, status", said["status"], 1 if said["short"]["copies"] or keeps else 0)
        self.counts["drains"] += 1
        if it["purge"]:
            first = {**self.before, **it["purge"]["weight_first"]}
            self.same_step(f"{what}, purge", said["purge"], after, {**after, **it["purge"]["purge"]})
            self.same_step(f"{what}, weight first", said["weight_first"], self.before, first)
            self.same_step(
                f"{what}, then purge", said["weight_first"]["then_purge"], first, {**first, **it["purge"]["then_purge"]}
            )

    def same_step(self, what, said, before, after):
        moved = {at: [before[at][1], after[at][1]] for at in before if before[at][1] != after[at][1]}
        same(f"{what}, groups", {it["id"]: [it["before"], it["after"]] for it in said["groups"]}, moved)
        same(what, (said["moved"], said["copies"]), (len(moved), self.anew(before, after)))
        self.counts["purged"] += said["moved"]

    def fail(self, it):
        what, down = f"fail {' '.join(it['names'])}", {**self.before, **it["down"]}
        said = self.plan("fail", *it["names"], "--groups")
        left = {at: copies(up) for at, (_, up, _) in down.items()}
        short = {
            at: [down[at][1], down[at][2], left[at], left[at] < self.pool(at)["min_size"]]
            for at in down
            if left[at] < self.pool(at)["size"]
        }
        here = {
            of["id"]: [of["up"], of["primary"], of["copies"], of["below_min_size"]] for of in said["down"]["groups"]
        }
        same(f"{what}, groups that are short", here, short)
        stopped = sum(of[3] for of in short.values())
        same(f"{what}, numbers", (said["down"]["short"], said["down"]["below_min_size"]), (len(short), stopped))
        out = {**self.before, **it["out"]}
        self.summary(f"{what}, out", said["out"], out)
        keeps = any(device in up for _, up, _ in out.values() for device in it["devices"])
        same(f"{what}, status", said["status"], 1 if stopped or said["out"]["short"]["copies"] or keeps else 0)
        self.counts["failures"] += 1

    def each(self, name, hosts):
        """One line a host has the numbers of that host's own failure."""
        rows = {it["name"]: it for it in self.plan("fail", "--each", name)["each"]}
        same(f"each {name}", sorted(rows), sorted(hosts))
        worst = [(it["below_min_size"], it["missing_copies"], it["copies"]) for it in rows.values()]
        same(f"each {name}, order", worst, sorted(worst, reverse=True))
        for of in hosts[:: max(1, len(hosts) // 2)]:
            row, said = rows[of], self.plan("fail", of)
            here = (
                row["below_min_size"],
                row["short_down"],
                row["moved"],
                row["copies"],
                row["missing_copies"],
                row["short_groups"],
            )
            out = said["out"]
            same(
                f"each {name}, {of}",
                here,
                (
                    said["down"]["below_min_size"],
                    said["down"]["short"],
                    out["moved"],
                    out["copies"],
                    out["short"]["copies"],
                    out["short"]["groups"],
                ),
            )

    def upmap(self, path, it):
        said = self.plan("upmap", path)
        here = {of["id"]: [of["raw"], of["before"], of["after"], of["primary_after"]] for of in said["groups"]}
        same("upmap, groups", here, {at: [of[0], self.before[at][1], of[1], of[2]] for at, of in it["after"].items()})
        same(
            "upmap, kept",
            {of["id"]: of["kept"] for of in said["groups"]},
            {at: it["kept"].get(at, []) for at in it["after"]},
        )
        self.counts["upmaps"] += len(here)

    def compare(self, path, after):
        self.moved(f"compare {path.name}", self.plan("compare", path, "--groups"), {**self.before, **after})
        self.counts["maps"] += 1

    def locate(self, it):
        said = self.plan("locate", it["pool"], *(name for name, _, _ in it["objects"]))["objects"]
        for (name, group, up), of in zip(it["objects"], said):
            same(
                f"locate {name}",
                [of["id"], of["up"], of["raw"], of["primary"]],
                [group, up, self.before[group][0], self.before[group][2]],
            )
        self.counts["objects"] += len(said)

    def uncomputed(self):
        """Compares a cluster of which some pools can't be computed: exactly these are left out; of
        the others where groups lie; and what a map moves by which all can be."""
        ruleless = set(self.answers["ruleless"])
        for command in ("usage", "check"):
            said = self.plan(command, *["--groups"] * (command == "usage"))
            same(
                f"{command}, left out",
                sorted(pool for it in said["uncomputed"] for pool in it["pools"]),
                sorted(ruleless),
            )
            if command == "usage":
                here = {it["id"]: [it["raw"], it["up"], it["primary"]] for it in said["groups"]}
        computed = {at: it for at, it in self.before.items() if int(at.split(".")[0]) not in ruleless}
        same("usage, groups", here, computed)
        self.counts["groups"] += len(here)
        for name, after in self.answers["maps"].items():
            self.compare(self.folder / name, after)
        if not self.answers["maps"]:
            # Ceph has placed nothing where it finds no rule
            same(
                "groups without a rule",
                {str(it) for at, it in self.before.items() if at not in computed},
                {str([[], [], None])},
            )
        return self.counts

    def all(self):
        """Every comparison of the cluster."""
        if "ruleless" in self.answers:
            return self.uncomputed()
        self.usage()
        for it in self.answers["drains"]:
            self.drain(it)
            self.fail(it)
        self.each("host", self.answers["hosts"])
        self.upmap(self.folder / "commands", self.answers["upmap"])
        for name, after in self.answers["maps"].items():
            self.compare(self.folder / name, after)
        self.locate(self.answers["locate"])
        return self.counts
