"""Runbooks that are drawn at random and typed into a small real cluster, line by line, and balance
of its pools: each beside what crushplan foretold of it from the cluster's dumps."""
import json
import random
import shlex
import shutil
import subprocess
import tempfile
import time

import foretold
import planned
import real
from steps import DUMPS
from typist import Typist, code_of

OSDS = planned.RACKS * planned.HOSTS * planned.DEVICES
LINES = (3, 8)
MOST_AWAY = 3  # OSDs that are out, stopped or gone
GOES_OUT = 4  # seconds after which an OSD that is down is out
KINDS = tuple(f"runbooks-{it}" for it in planned.KINDS)


class Differs(Exception):
    """Says what the cluster did otherwise."""


def wants(why):
    if why:
        raise Differs(why)


# ---- what is drawn


class Drawn:
    """Draws the lines of runbooks, by what the cluster is like and what earlier lines did."""

    def __init__(self, choice, crush, osd, groups):
        self.choice, self.groups = choice, groups
        self.osds = [it["osd"] for it in osd["osds"]]
        self.out = {it["osd"] for it in osd["osds"] if not it["weight"]}
        self.stopped, self.gone, self.flags, self.made = set(), set(), set(), 0
        self.pools = {it["pool"]: it for it in osd["pools"]}
        self.hosts = [it["name"] for it in crush["buckets"] if it["type_name"] == "host" and "~" not in it["name"]]
        self.racks = [it["name"] for it in crush["buckets"] if it["type_name"] == "rack" and "~" not in it["name"]]
        self.classes = {it["id"]: it.get("class") for it in crush["devices"]}
        self.root = next(it["name"] for it in crush["buckets"] if it["type_name"] == "root" and "~" not in it["name"])
        self.items = [it["pgid"] for it in osd["pg_upmap_items"]]

    def present(self):
        return [it for it in self.osds if it not in self.gone]

    def away(self):
        return self.out | self.stopped | self.gone

    def lines(self):
        """Returns the lines of a runbook."""
        found = []
        for _ in range(self.choice.randint(*LINES)):
            draw = self.choice.choices(*zip(*self.ways()))[0]
            found += [draw()]
        return found

    def ways(self):
        """Yields functions that draw a line, each with how often."""
        yield self.reweighted, 4
        yield self.weighed, 5
        yield self.item, 6
        yield self.moved, 3
        yield self.of_pool, 3
        yield self.host_weighed, 2
        yield self.flagged, 1
        yield self.affinity, 1
        yield self.swapped, 1
        yield self.refused, 1
        if len(self.away()) < MOST_AWAY:
            yield self.goes_out, 5
            yield self.stops, 3
        if self.out - self.gone:
            yield self.comes_in, 4
        if self.stopped - self.gone:
            yield self.starts, 3
            yield self.purged, 1
        if self.items:
            yield self.item_gone, 2
        if any(self.classes.values()):
            yield self.classed, 2

    def one(self):
        return self.choice.choice(self.present())

    def weight(self, least, most):
        return f"{self.choice.uniform(least, most):.{self.choice.randint(2, 5)}f}"

    def goes_out(self):
        own = self.choice.sample(self.present(), self.choice.randint(1, MOST_AWAY - len(self.away())))
        self.out |= set(own)
        return "ceph osd out " + " ".join(map(str, own))

    def comes_in(self):
        own = self.choice.choice(sorted(self.out - self.gone))
        self.out.discard(own)
        return f"ceph osd in osd.{own}"

    def stops(self):
        own = self.one()
        self.stopped.add(own)
        return f"systemctl stop ceph-osd@{own}"

    def starts(self):
        own = self.choice.choice(sorted(self.stopped - self.gone))
        self.stopped.discard(own)
        return f"systemctl start ceph-osd@{own}"

    def purged(self):
        own = self.choice.choice(sorted(self.stopped - self.gone))
        self.gone.add(own)
        return f"ceph osd purge {own} --yes-i-really-mean-it"

    def reweighted(self):
        return f"ceph osd reweight {self.one()} {self.weight(0.5, 1)}"

    def weighed(self):
        return f"ceph osd crush reweight osd.{self.one()} {self.weight(0.5, 2)}"

    def host_weighed(self):
        return f"ceph osd crush reweight-subtree {self.choice.choice(self.hosts)} {self.weight(0.8, 1.4)}"

    def item(self):
        """An item to any device: Ceph keeps it or removes it at once."""
        group = self.choice.choice(sorted(self.groups))
        up = [it for it in self.groups[group] if it is not None]
        others = [it for it in self.present() if it not in up]
        self.items.append(group)
        return f"ceph osd pg-upmap-items {group} {self.choice.choice(up)} {self.choice.choice(others)}"

    def item_gone(self):
        return f"ceph osd rm-pg-upmap-items {self.choice.choice(self.items)}"

    def moved(self):
        host = self.choice.choice(self.hosts)
        if self.choice.random() < 0.5:
            return f"ceph osd crush move {host} rack={self.choice.choice(self.racks)} root={self.root}"
        device, word = self.one(), self.choice.choice(("move", "set", "create-or-move"))
        if word == "move":
            return f"ceph osd crush move osd.{device} host={host}"
        return f"ceph osd crush {word} osd.{device} {self.weight(0.5, 2)} host={host}"

    def swapped(self):
        return "ceph osd crush swap-bucket {} {} --yes-i-really-mean-it".format(*self.choice.sample(self.hosts, 2))

    def of_pool(self):
        pool = self.choice.choice(sorted(it["pool_name"] for it in self.pools.values() if it["type"] == 1))
        if self.choice.random() < 0.5:
            return f"ceph osd pool set {pool} size {self.choice.choice((2, 3, 3, 4))}"
        if self.choice.random() < 0.5:
            self.made += 1
            return (
                "ceph osd crush rule create-replicated"
                f" more{self.made} {self.root} {self.choice.choice(('osd', 'host'))}"
            )
        rule = f"more{self.made}" if self.made else "hosts"
        return f"ceph osd pool set {pool} crush_rule {rule}"

    def flagged(self):
        return f"ceph osd {self.choice.choice(('set', 'unset'))} noout"

    def affinity(self):
        return f"ceph osd primary-affinity {self.one()} {self.weight(0, 1)}"

    def classed(self):
        device = self.choice.choice([it for it in self.present() if self.classes.get(it)])
        self.classes[device] = None
        return f"ceph osd crush rm-device-class {device}"

    def refused(self):
        return self.choice.choice((
            f"ceph osd purge {self.one()} --yes-i-really-mean-it", "ceph osd crush reweight osd.99 1",
            "ceph osd crush rule rm hosts", f"ceph osd crush rm {self.choice.choice(self.hosts)}",
            f"ceph osd crush add-bucket {self.choice.choice(self.hosts)} tower",
        ))  # fmt: skip


# ---- what is done


class Played:
    """A small cluster, and what is done to it and compared."""

    def __init__(self, cluster, typist, kind, seed, program, folder):
        self.cluster, self.typist, self.kind, self.program, self.folder = cluster, typist, kind, program, folder
        self.choice, self.moved, self.lines, self.runbooks = random.Random(f"runbooks {kind} {seed}"), 0, 0, 0
        self.removed = self.refusals = 0
        planned.prepare(cluster, kind, seed, folder)
        # the options of ceph.conf have it that no OSD goes out by itself
        real.run("ceph", "-c", cluster.conf, "tell", "mon.a", "config", "set", "mon_osd_down_out_interval", GOES_OUT)

    def dumped(self, name):
        """Returns a folder with the dumps of the cluster, which has settled, and where its groups
        lie."""
        folder = self.folder / name
        folder.mkdir(parents=True)
        lies = self.lists()
        for file, (to, prefix, more) in DUMPS.items():
            (folder / file).write_text(self.cluster.told(prefix, to, format="json", **more))
        return folder, lies

    def lists(self):
        """Returns the up list of each group, once all is at rest."""
        return {f"{pool}.{group:x}": it["up"] for (pool, group), it in self.cluster.settled().items()}

    def asked(self, command, folder, *words):
        """Returns what crushplan says of the dumps, and writes it beside them."""
        ran = subprocess.run(
            [str(foretold.CRUSHPLAN), command, str(folder), *words, "--json", "--program", self.program],
            stdin=subprocess.DEVNULL,
            stdout=subprocess.PIPE,
            stderr=subprocess.PIPE,
            timeout=foretold.SECONDS,
        )
        (folder / f"{command}.json").write_bytes(ran.stdout)
        said = json.loads(ran.stdout)
        if "error" in said or said["uncomputed"]:
            raise Differs(f"crushplan {command}: {said.get('error') or said['uncomputed']}")
        return said

    def osd_dump(self):
        return self.cluster.asked("osd dump")

    # ---- a line

    def typed(self, line):
        """Does a line, and returns the name of its error, or nothing."""
        words = shlex.split(line)
        if words[0] != "systemctl":
            return code_of(self.typist.type(words[1:]))
        devices = [int(it.split("@")[1]) for it in words[2:]]
        if words[1] == "start":
            for it in devices:
                self.cluster.start_osd(it)
            real.awaited(lambda: self.up() >= set(devices), f"OSDs {devices}")
            return ""
        self.cluster.end([f"osd.{it}" for it in devices])
        # as they are dead, no group has to wait until what they were allowed to answer is over
        self.cluster.told("osd down", ids=[str(it) for it in devices], definitely_dead=True)
        if "noout" not in self.osd_dump()["flags"]:
            time.sleep(GOES_OUT)
            real.awaited(lambda: not self.down_and_in(), "that what is down goes out")
        return ""

    def up(self):
        return {it["osd"] for it in self.osd_dump()["osds"] if it["up"]}

    def down_and_in(self):
        return [it["osd"] for it in self.osd_dump()["osds"] if not it["up"] and it["in"]]

    def runbook(self, number):
        """Types the lines of a runbook, and compares what each does with what was foretold."""
        folder, lies = self.dumped(f"{number}-runbook")
        crush, osd = (json.loads((folder / name).read_text()) for name in ("crush.json", "osd.json"))
        lines = Drawn(self.choice, crush, osd, lies).lines()
        (folder / "runbook").write_text("".join(f"{it}\nwait\n" for it in lines))
        said = self.asked("plan", folder, str(folder / "runbook"), "--groups")
        sizes = {it["pool"]: it for it in osd["pools"]}
        for line, step in zip(lines, said["steps"]):
            (event,) = step["events"]
            if event["unforetold"]:
                break
            code, at = self.typed(line), f"'{line}'"
            wants(foretold.same((event["refused"] or {"code": ""})["code"], code, f"{at}: crushplan"))
            after, self.lines = self.lists(), self.lines + 1
            is_set = {it: sizes[int(it.split(".")[0])]["type"] == 1 for it in after}
            odd = {it for it in after if not alike(lies[it], after[it], is_set[it])}
            told = {it["id"]: (it["before"], it["after"]) for it in step["groups"]}
            told = {it: of for it, of in told.items() if not alike(*of, is_set[it])}
            wants(foretold.same(set(told), odd, f"{at}, groups that move: crushplan"))
            for it in odd:
                right = alike(told[it][0], lies[it], is_set[it]) and alike(told[it][1], after[it], is_set[it])
                wants(None if right else f"{at}, {it}: foretold {told[it]}, the cluster {lies[it]} {after[it]}")
            self.compare_items(at, step)
            short = {it for it, up in after.items() if len(set(up) - {None}) < self.size_of(it)}
            wants(foretold.same(set(step["short"]), short, f"{at}, groups without a device: crushplan"))
            lies, self.moved = after, self.moved + len(odd)
            if code:
                self.refusals += 1
                break
        self.runbooks += 1
        folder, _ = self.dumped(f"{number}-after")
        check = self.asked("check", folder)
        wants(foretold.same(check["lying"]["others"], [], "check"))
        self.restored()

    def size_of(self, group):
        return next(it["size"] for it in self.osd_dump()["pools"] if it["pool"] == int(group.split(".")[0]))

    def compare_items(self, at, step):
        """Compares which upmap items a line set that Ceph has removed again."""
        (event,) = step["events"]
        words = event["command"].split()
        if words[:3] == ["ceph", "osd", "pg-upmap-items"] and not event["refused"]:
            has = any(it["pgid"] == words[3] for it in self.osd_dump()["pg_upmap_items"])
            gone = any(it.split()[0] == words[3] for it in event["removed"])
            wants(foretold.same(not gone, has, f"{at}: whether its item is kept: crushplan"))
            self.removed += gone

    def restored(self):
        """Has all OSDs run and be in again, and pools as at first."""
        self.typist.type(["osd", "unset", "noout"])
        known = {it["osd"] for it in self.osd_dump()["osds"]}
        for it in sorted(known):
            if f"osd.{it}" not in self.cluster.processes:
                self.cluster.start_osd(it)
        self.typist.type(["osd", "in", *map(str, sorted(known))])
        for name, rule, size, _ in planned.KINDS[self.kind][1]:
            if "parts" not in rule:
                self.typist.type(["osd", "pool", "set", name, "size", str(size)])
                self.typist.type(["osd", "pool", "set", name, "crush_rule", rule])
        real.awaited(lambda: self.up() == known, "all OSDs")
        self.cluster.settled()

    # ---- balance

    def balanced(self):
        """Types the lines of balance: all items are kept, the groups lie as foretold and no other
        moves, and each device has its share by weight, rounded."""
        folder, before = self.dumped("0-balance")
        said = self.asked("balance", folder)
        for line in said["lines"]:
            wants(foretold.same("", code_of(self.typist.type(line.split()[1:])), f"'{line}': crushplan"))
        after = self.lists()
        told = {it["id"]: it["after"] for it in said["groups"]}
        wants(foretold.same({**before, **told}, after))
        items = {
            it["pgid"]: [[of["from"], of["to"]] for of in it["mappings"]] for it in self.osd_dump()["pg_upmap_items"]
        }
        wants(foretold.same({it["id"]: it["pairs"] for it in said["groups"]}, items))
        crush, osd = (json.loads((folder / name).read_text()) for name in ("crush.json", "osd.json"))
        for pool in osd["pools"]:
            shares = planned.shares_of(crush, osd, pool)
            own = next(it for it in said["pools"] if it["pool"] == pool["pool"])
            for key, lists in (("deviation_before", before), ("deviation_after", after)):
                here = planned.deviation(
                    shares, [up for it, up in lists.items() if int(it.split(".")[0]) == pool["pool"]]
                )
                wants(None if 0 <= here - own[key] < 0.001 else f"{pool['pool_name']}: {key} {own[key]}, {float(here)}")
            wants(None if own["deviation_after"] < 1 else f"{pool['pool_name']}: {own['deviation_after']} off")
        self.moved += len(told)
        return len(said["lines"])


def alike(first, second, is_set):
    """Returns whether two up lists are the same: of replicated pools in any order."""
    return set(first) - {None} == set(second) - {None} if is_set else first == second


def compared(kind, seed, runbooks, program, records):
    """Plays a cluster of a kind, and yields what was compared, and why it differs, or None."""
    folder, name = records / kind, kind.partition("-")[2]
    shutil.rmtree(folder, ignore_errors=True)
    folder.mkdir(parents=True)
    with tempfile.TemporaryDirectory() as own, real.Cluster(own, OSDS) as cluster, Typist(cluster) as typist:
        played = Played(cluster, typist, name, seed, program, folder)
        try:
            lines = played.balanced()
            yield f"{kind}: balance, {lines} lines", None
        except Differs as why:
            yield f"{kind}: balance", str(why)
        for number in range(1, runbooks + 1):
            try:
                played.runbook(number)
                yield f"{kind}: runbook {number}", None
            except Differs as why:
                yield f"{kind}: runbook {number}", str(why)
                played.restored()
        print(
            f"{kind}: {played.runbooks} runbooks of {played.lines} lines, of which {played.refusals} were refused; Ceph"
            f" moved {played.moved:,} groups and removed {played.removed} items at once"
        )
