"""Clusters as Ceph makes them today, by all the files that `crushplan fetch` writes: straw2, trees
of classes, rules with several takes, weight sets, whole upmap lists, set primaries, affinities,
more upmap items than the service takes at once, bytes, and the cluster's own word of where its
groups lie. What the page shows is what crushplan prints."""
import json
import random
import tempfile
from pathlib import Path

from clusters import ONE, TUNABLES, TYPES, Cluster, exact
from kept import dropped, field, groups_shown, plan, same_compare, same_drain, same_failure, same_usage
from page import first, unlike

GIB = 1 << 30
STEP = lambda op, num, kind: {"op": op, "num": num, "type": kind}


class Today:
    """Racks of hosts of devices, all buckets straw2, each second device of the class ssd, with the
    trees of both classes."""

    def __init__(self, racks=2, hosts=3, devices=4, seed=3, classes=None):
        """`classes` says of devices which class they have, if not that by their number."""
        self.chance = random.Random(seed)
        self.plain = Cluster(racks, hosts, devices, "straw2", seed)
        self.count = self.plain.count
        self.classes = {it: (classes or {}).get(it, ("ssd", "hdd")[it % 2]) for it in range(self.count)}
        self.buckets = [(id_, name, kind, items) for id_, name, kind, items in self.plain.buckets]
        self.roots = {"": self.plain.root}
        for class_ in ("ssd", "hdd"):
            self.shadow(class_)

    def shadow(self, class_):
        """The tree of a class: each bucket with its devices of the class alone."""
        copies = {}
        for id_, name, kind, items in self.plain.buckets:
            own = [
                (copies[item], self.weight(copies[item])) if item < 0 else (item, weight)
                for item, weight in items
                if item < 0 or self.classes[item] == class_
            ]
            copies[id_] = -1 - len(self.buckets)
            self.buckets.append((copies[id_], f"{name}~{class_}", kind, own))
        self.roots[class_] = copies[self.plain.root]

    def weight(self, id_):
        return sum(weight for _, weight in self.buckets[-1 - id_][3])

    def weight_set(self, class_):
        """Rows of one position for the tree of a class, each weight up to a tenth less."""
        rows = []
        for id_, name, _, items in self.buckets:
            if name.endswith(f"~{class_}") or not class_:
                rows.append(
                    {
                        "bucket_id": id_,
                        "weight_set": [[round(weight * self.chance.uniform(0.9, 1) / ONE, 5) for _, weight in items]],
                    }
                )
        return rows

    def rules(self):
        take = lambda class_: {
            "op": "take",
            "item": self.roots[class_],
            "item_name": "default" + (f"~{class_}" if class_ else ""),
        }
        rule = lambda id_, name, type_, steps: {
            "rule_id": id_,
            "rule_name": name,
            "ruleset": id_,
            "type": type_,
            "min_size": 1,
            "max_size": 10,
            "steps": steps,
        }
        emit = {"op": "emit"}
        return [
            rule(0, "replicated_rule", 1, [take(""), STEP("chooseleaf_firstn", 0, "host"), emit]),
            rule(1, "fast", 1, [take("ssd"), STEP("chooseleaf_firstn", 0, "host"), emit]),
            rule(
                2,
                "mixed",
                1,
                [
                    take("ssd"),
                    STEP("chooseleaf_firstn", 1, "host"),
                    emit,
                    take("hdd"),
                    STEP("chooseleaf_firstn", -1, "host"),
                    emit,
                ],
            ),
            rule(
                3,
                "coded",
                3,
                [{"op": "set_chooseleaf_tries", "num": 5}, take("hdd"), STEP("chooseleaf_indep", 0, "host"), emit],
            ),
        ]

    def crush(self, sets=None):
        kinds = dict(TYPES)
        return {
            "devices": [{"id": it, "name": f"osd.{it}", "class": self.classes[it]} for it in range(self.count)],
            "types": [{"type_id": number, "name": name} for number, name in TYPES],
            "buckets": [
                {
                    "id": id_,
                    "name": name,
                    "type_id": kind,
                    "type_name": kinds[kind],
                    "weight": sum(weight for _, weight in items),
                    "alg": "straw2",
                    "hash": "rjenkins1",
                    "items": [
                        {"id": item, "weight": weight, "pos": place} for place, (item, weight) in enumerate(items)
                    ],
                }
                for id_, name, kind, items in self.buckets
            ],
            "rules": self.rules(),
            "tunables": TUNABLES,
            "choose_args": sets or {},
        }

    def text(self, sets=None):
        """The same map as 'crushtool -d' writes it, but for weights, which are exact: trees of
        classes by the ids of their buckets, and classes that rules take."""
        kinds, weighed = dict(TYPES), {id_: sum(weight for _, weight in items) for id_, _, _, items in self.buckets}
        names = {**{it: f"osd.{it}" for it in range(self.count)}, **{id_: name for id_, name, _, _ in self.buckets}}
        lines = (
            [f"tunable {name} {value}" for name, value in TUNABLES.items()]
            + [f"device {it} osd.{it} class {of}" for it, of in self.classes.items()]
            + [f"type {number} {name}" for number, name in TYPES]
        )
        for id_, name, kind, items in (it for it in self.buckets if "~" not in it[1]):
            shadows = [
                f"\tid {other} class {of.split('~')[1]}"
                for other, of, _, _ in self.buckets
                if of.startswith(f"{name}~")
            ]
            lines += [
                f"{kinds[kind]} {name} {{",
                f"\tid {id_}",
                *shadows,
                f"\t# weight {weighed[id_] / ONE:.3f}",
                "\talg straw2",
                "\thash 0\t# rjenkins1",
            ]
            lines += [*(f"\titem {names[item]} weight {exact(weight)}" for item, weight in items), "}"]
        for it in self.rules():
            lines += [
                f"rule {it['rule_name']} {{",
                f"\tid {it['rule_id']}",
                f"\ttype {'erasure' if it['type'] == 3 else 'replicated'}",
                "\tmin_size 1",
                "\tmax_size 10",
                *(f"\tstep {words_of(of)}" for of in it["steps"]),
                "}",
            ]
        for key, rows in (sets or {}).items():
            row = lambda it: "".join(f"    [ {' '.join(map(str, of))} ]\n" for of in it["weight_set"])
            lines += [
                f"choose_args {2**64 - 1 if key == '-1' else key} {{",
                *(f"  {{\n    bucket_id {it['bucket_id']}\n    weight_set [\n  {row(it)}    ]\n  }}" for it in rows),
                "}",
            ]
        return "\n".join(lines) + "\n"

    def osd(self, pools, states=(), **more):
        """Pools are (name, type, size, min_size, rule, pg_num)."""
        found = json.loads(
            self.plain.osd([(name, size, least, rule, groups) for name, _, size, least, rule, groups in pools], states)
        )
        for it, (_, kind, *_) in zip(found["pools"], pools):
            it["type"] = kind
        return {**found, "backfillfull_ratio": 0.9, **more}


def words_of(step):
    """A step of a rule as a text has it."""
    op, name = step["op"], step.get("item_name", "")
    if op == "take":
        return f"take {name.replace('~', ' class ')}"
    return (
        f"{op.replace('_firstn', ' firstn').replace('_indep', ' indep')} {step['num']} type {step['type']}"
        if op.startswith("choose")
        else f"{op} {step['num']}" if "num" in step else op
    )


POOLS = (("photos", 1, 3, 2, 0, 64), ("fast", 1, 2, 1, 1, 32), ("mixed", 1, 3, 2, 2, 64), ("coded", 3, 4, 3, 3, 32))
STATES = {3: (0.5, True), 9: (0.899994, True), 14: (1, False), 17: (0, True)}


def files_of(folder, program, crush, osd, full=0.6):
    """Writes all dumps of a cluster; the cluster says that groups lie as they are computed."""
    (folder / "crush.json").write_text(json.dumps(crush))
    (folder / "osd.json").write_text(json.dumps(osd))
    groups = plan(program, folder, "usage", "--groups")["groups"]
    counts, taken = {}, {}
    for it in groups:
        taken[it["pool"]] = taken.get(it["pool"], 0) + len([of for of in it["up"] if of is not None])
        for device in it["up"]:
            if device is not None:
                counts[device] = counts.get(device, 0) + 1
    none = lambda items: [2147483647 if it is None else it for it in items]
    (folder / "pgs.json").write_text(
        json.dumps(
            {
                "pg_ready": True,
                "pg_stats": [
                    {
                        "pgid": it["id"],
                        "state": "active+clean",
                        "up": none(it["up"]),
                        "up_primary": -1 if it["primary"] is None else it["primary"],
                        "acting": none(it["up"]),
                        "acting_primary": 0,
                    }
                    for it in groups
                ],
            }
        )
    )
    pools = [
        {
            "id": it["pool"],
            "name": it["pool_name"],
            "stats": {"stored": 1, "bytes_used": taken.get(it["pool"], 0) * 3 * GIB},
        }
        for it in osd["pools"]
    ]
    (folder / "df.json").write_text(
        json.dumps({"stats": {"num_osds": len(osd["osds"]), "num_per_pool_osds": len(osd["osds"])}, "pools": pools})
    )
    nodes = [
        {
            "id": it["osd"],
            "name": f"osd.{it['osd']}",
            "type": "osd",
            "kb": 80 * GIB // 1024,
            "kb_used": round((counts.get(it["osd"], 0) * 3 * full + 4) * GIB / 1024),
            "pgs": counts.get(it["osd"], 0),
        }
        for it in osd["osds"]
    ]
    (folder / "osd-df.json").write_text(json.dumps({"nodes": nodes, "stray": [], "summary": {}}))
    return groups


def with_folder(case):
    """A case that gets a folder of its own."""

    def whole(page):
        with tempfile.TemporaryDirectory() as folder:
            return case(page, Path(folder))

    whole.__name__, whole.__doc__ = case.__name__, case.__doc__
    return whole


def exceptions_of(today, folder, program, crush, osd):
    """Exceptions of all kinds, of groups as they lie: pairs, whole lists (one with a device that is
    out), set primaries, affinities."""
    (folder / "crush.json").write_text(json.dumps(crush))
    (folder / "osd.json").write_text(json.dumps(osd))
    groups = {it["id"]: it for it in plan(program, folder, "usage", "--groups")["groups"]}
    host = lambda device: device // 4

    def other(up):
        return next(
            it
            for it in range(today.count)
            if it not in (14, 17) and host(it) not in {host(of) for of in up if of is not None}
        )

    a, b, c = (groups[it]["up"] for it in ("1.3", "1.9", "1.1b"))
    return {
        "pg_upmap_items": [
            {"pgid": "1.3", "mappings": [{"from": a[0], "to": other(a)}]},
            {"pgid": "1.1b", "mappings": [{"from": c[-1], "to": other(c)}]},
        ],
        "pg_upmap": [{"pgid": "1.9", "osds": [b[1], other(b), b[0]]}, {"pgid": "1.a", "osds": [0, 17, 8]}],
        "pg_upmap_primaries": [
            {"pgid": "1.1b", "primary_osd": c[0]},
            {"pgid": "1.c", "primary_osd": groups["1.c"]["up"][-1]},
            {"pgid": "3.5", "primary_osd": groups["3.5"]["up"][-1]},
        ],
    }


# ---- cases


@with_folder
def a_whole_cluster_of_today_is_answered_as_crushplan_does(page, folder):
    """All files at once: usage, drains, failures and another map are those of crushplan, and every
    group lies as computed."""
    today, program = Today(), page.program
    crush, osd = today.crush({"2": today.weight_set("ssd")}), today.osd(POOLS, STATES)
    osd.update(exceptions_of(today, folder, program, crush, osd))
    for it, affinity in ((1, 0.0), (6, 0.5), (12, 0.25), (21, 0.0)):
        osd["osds"][it]["primary_affinity"] = affinity
    files_of(folder, program, crush, osd)
    crush["buckets"][0]["items"][1]["weight"] *= 2
    (folder / "new.json").write_text(json.dumps(crush))
    dropped(page, folder)
    said, check = page.browser.text("#said"), plan(program, folder, "check")
    return first(
        (
            None
            if "; 192 of 192 groups lie as computed" in said and "192 of 192 groups lie as computed" in check["answer"]
            else f"{said} {check['answer']}"
        ),
        same_usage(page, program, folder),
        same_drain(page, program, folder, ["host1"]),
        same_failure(page, program, folder, ["host4"]),
        same_drain(page, program, folder, ["rack1"]),
        same_compare(page, program, folder, "new.json"),
    )


@with_folder
def groups_that_lie_otherwise_make_every_answer_unknown(page, folder):
    """What the cluster says of its groups is compared with what is computed, in check's words."""
    today, program = Today(), page.program
    osd = today.osd(POOLS[:2], STATES)
    groups = files_of(folder, program, today.crush(), osd)
    pgs = json.loads((folder / "pgs.json").read_text())
    other = next(it for it in range(24) if it not in groups[7]["up"])
    pgs["pg_stats"][7]["up"][0] = pgs["pg_stats"][7]["up_primary"] = other
    pgs["pg_stats"][70]["state"] = "stale+active"
    (folder / "pgs.json").write_text(json.dumps(pgs))
    dropped(page, folder, ("crush.json", "osd.json"))
    hint = page.browser.text("#lying")
    page.browser.drop((folder / "pgs.json").read_text(), "pgs.json")
    page.browser.until(lambda: "pgs.json is read" in page.browser.text("#said"), "pgs.json isn't taken")
    page.settled()
    said, wanted = page.browser.text("#lying"), plan(program, folder, "check")["answer"].split("; ", 1)[1]
    page.drained("host2")
    verdict, drain = page.browser.text("#verdict"), plan(program, folder, "drain", "host2")["answer"]
    same = lambda text: text[0].lower() + text[1:].replace(
        "the view Map says more", "'crushplan check' says more"
    ).replace(" room", " a device")
    return first(
        None if "ceph pg dump pgs_brief" in hint else hint,
        unlike(same(said), wanted, "check:"),
        (
            None
            if verdict.startswith("Unknown: osd.") and same(verdict) == drain.replace(" room", " a device")
            else f"{verdict} {drain}"
        ),
    )


@with_folder
def a_folder_without_pgs_is_compared_by_device(page, folder):
    """osd-df.json has how many groups each device has; a number that is none is left out with a
    note."""
    today, program = Today(), page.program
    files_of(folder, program, today.crush(), today.osd(POOLS[:2], STATES))
    (folder / "pgs.json").unlink()
    nodes = json.loads((folder / "osd-df.json").read_text())
    nodes["nodes"][5]["utilization"] = "NAN"
    (folder / "osd-df.json").write_text(json.dumps(nodes).replace('"NAN"', "nan"))
    dropped(page, folder)
    first_said, note = page.browser.text("#said"), page.browser.text("#not-computed")
    nodes["nodes"][6]["pgs"] += 2
    (folder / "osd-df.json").write_text(json.dumps(nodes).replace('"NAN"', "nan"))
    dropped(page, folder)
    said, wanted = page.browser.text("#lying"), plan(program, folder, "check")["answer"].split("; ", 1)[1]
    return first(
        None if "each device has as many groups as computed" in first_said else first_said,
        None if "osd-df.json has no number of how full osd.5 is (nan)" in note else note,
        unlike(said[0].lower() + said[1:], wanted),
    )


@with_folder
def weight_sets_are_a_text_each(page, folder):
    """Sets of one position, for single pools and all others, of which those stand in one text that
    have no bucket in common; more positions leave a pool out by name."""
    today, program = Today(), page.program
    sets = {"-1": today.weight_set(""), "2": today.weight_set("ssd"), "4": today.weight_set("hdd")}
    for it in sets["4"]:
        it["weight_set"].append([of + 0.5 for of in it["weight_set"][0]])
    files_of(folder, program, today.crush(sets), today.osd(POOLS, STATES))
    tenant = dropped(page, folder)
    note, said = page.browser.text("#not-computed"), plan(program, folder, "check")
    why = next(it["why"] for it in said["pools"] if it["pool"] == 4)
    known = json.loads(page.browser.run("return localStorage.getItem(`crushcalc.tenant.${arguments[0]}`)", tenant))
    found = first(
        None if f"pool coded (4) isn't computed: {why}" in note else note,
        unlike(known["sides"], {"1": 1, "2": 1, "3": 2}, "pools that have another text:"),
        unlike(known["texts"], 3, "texts:"),
        same_usage(page, program, folder),
        same_drain(page, program, folder, ["host3"]),
    )
    # with its name all of it is deleted
    page.browser.tab("Map")
    page.browser.click("#remove")
    page.browser.click("dialog[open] button.danger")
    page.browser.one("#name")
    sides = [page.ask("GET", f"/t/{tenant}.copy-f0000000000{it}")[0] for it in (1, 2)]
    return found or unlike(sides, [404, 404], "tenants of other texts:")


@with_folder
def upmap_lines_with_set_primaries_are_tried(page, folder):
    """Lines as they stand in a shell's script, beside what is set: what moves, and which primaries
    change, is what crushplan says."""
    today, program = Today(), page.program
    osd = today.osd(POOLS[:1], STATES)
    crush = today.crush()
    osd.update(
        {
            key: own
            for key, own in exceptions_of(today, folder, program, crush, today.osd(POOLS, STATES)).items()
            if key == "pg_upmap"
        }
    )
    groups = {it["id"]: it for it in files_of(folder, program, crush, osd)}
    up = lambda id_: groups[id_]["up"]
    free = next(it for it in range(24) if it not in (14, 17) and it // 4 not in {of // 4 for of in up("1.2")})
    lines = [
        f"ceph osd pg-upmap-primary 1.2a {up('1.2a')[1]} &",
        f"ceph osd pg-upmap-items 1.2 {up('1.2')[0]} {free};",
        f"ceph osd pg-upmap-primary 1.9 {up('1.9')[-1]}",
        f"ceph osd pg-upmap-primary 1.b {up('1.b')[0]}",
    ]
    (folder / "commands").write_text("\n".join(lines) + "\n")
    dropped(page, folder)
    said = plan(program, folder, "upmap", folder / "commands")
    page.browser.tab("Pools")
    page.browser.until(
        lambda: page.browser.all("main tbody tr[data-pool='1'] a"), "the number of exceptions isn't shown"
    )
    page.browser.click("main tbody tr[data-pool='1'] a")
    page.browser.one("#pairs")
    page.browser.run("document.getElementById('pairs').value = arguments[0]", "\n".join(lines))
    page.browser.click("#try")
    page.browser.one("#answer")
    page.settled()
    moved = {
        it["id"]: [field(it["before"]), field(it["after"])]
        for it in said["groups"]
        if set(it["before"]) != set(it["after"])
    }
    changes = sum(it["primary_before"] != it["primary_after"] for it in said["groups"])
    figures, leads = page.figures(), page.browser.text("#primaries")
    return first(
        unlike((figures["moved"], figures["anew"]), (str(said["moved"]), str(said["copies"]))),
        unlike(groups_shown(page), moved, "groups:"),
        None if changes > 1 and leads == f"{changes} primaries change." else f"{leads} {changes} {said['answer']}",
    )


@with_folder
def straw_buckets_that_become_straw2_are_compared_by_the_clusters_word(page, folder):
    """Pools below straw buckets aren't computed; where the cluster says how they lie, another map
    on which they are is compared with that."""
    today, program = Today(), page.program
    crush, osd = today.crush(), today.osd(POOLS[:2], STATES)
    groups = files_of(folder, program, crush, osd)
    pgs = json.loads((folder / "pgs.json").read_text())
    for at in (3, 20, 33, 70):
        up = groups[at]["up"]
        pgs["pg_stats"][at]["up"] = up[1:] + [
            next(it for it in range(0, 24, 2) if it // 4 not in {of // 4 for of in up})
        ]
    (folder / "pgs.json").write_text(json.dumps(pgs))
    (folder / "new.json").write_text(json.dumps(crush))
    for it in crush["buckets"]:
        it["alg"] = "straw"
    (folder / "crush.json").write_text(json.dumps(crush))
    dropped(page, folder)
    notes, check = page.browser.text("#not-computed"), plan(program, folder, "check")
    said = plan(program, folder, "compare", folder / "new.json")
    return first(
        *(None if it["why"] in notes else f"{it['why']!r} isn't in {notes!r}" for it in check["pools"]),
        None if said["moved"] == 4 else str(said),
        same_compare(page, program, folder, "new.json"),
    )


@with_folder
def more_upmap_items_than_are_taken_at_once(page, folder):
    """A pool with more than 1,024 pairs: set part by part in a copy, as crushplan does."""
    today, program = Today(3, 4, 4, 7), page.program
    pools = (("photos", 1, 3, 2, 0, 512),)
    osd = today.osd(pools, {5: (0.5, True)})
    (folder / "crush.json").write_text(json.dumps(today.crush()))
    (folder / "osd.json").write_text(json.dumps(osd))
    items = []
    for it in plan(program, folder, "usage", "--groups")["groups"][:400]:
        hosts = [of for of in range(12) if of not in {device // 4 for device in it["up"]}]
        items.append(
            {
                "pgid": it["id"],
                "mappings": [
                    {"from": old, "to": 4 * host + today.chance.randrange(4)}
                    for old, host in zip(it["up"], today.chance.sample(hosts, 3))
                ],
            }
        )
    osd["pg_upmap_items"] = items
    files_of(folder, program, today.crush(), osd, 0.05)
    dropped(page, folder)
    said = page.browser.text("#said")
    page.browser.tab("Object")
    page.browser.fill("#group", "1.9")
    page.browser.named("form[aria-label='A group'] button", "Where is it?").click()
    found = (
        page.browser.run(
            "return [...document.querySelectorAll('#found [data-device]')].map((it) => Number(it.dataset.device))"
        )
        if page.browser.one("#found")
        else []
    )
    lies = plan(program, folder, "locate", "--group", "1.9")["groups"][0]["up"]
    return first(
        None if "1,200 upmap items" in said and "512 of 512 groups lie as computed" in said else said,
        unlike(found, lies, "group 1.9:"),
        same_usage(page, program, folder),
        same_drain(page, program, folder, ["host7"]),
    )


@with_folder
def a_tree_over_the_most_buckets(page, folder):
    """600 hosts with two classes are 1,900 buckets: a text for the tree of each rule."""
    today, program = Today(30, 20, 2, 9), page.program
    pools = (("photos", 1, 3, 2, 0, 128), ("fast", 1, 2, 1, 1, 64))
    files_of(folder, program, today.crush(), today.osd(pools), 0.05)
    dropped(page, folder)
    return first(
        None if "192 of 192 groups lie as computed" in page.browser.text("#said") else page.browser.text("#said"),
        same_drain(page, program, folder, ["rack4"]),
    )


@with_folder
def the_folder_of_fetch_is_dropped_as_it_is(page, folder):
    """A folder's files, as a drop of a folder carries them; the map's text in it is passed over,
    and so are the planner's own files."""
    today, program = Today(), page.program
    files_of(folder, program, today.crush(), today.osd(POOLS[:1], STATES))
    (folder / "map.txt").write_text(today.text())
    (folder / "new.json").write_text((folder / "crush.json").read_text())
    (folder / "notes.txt").write_text("host3 gets a new mainboard")
    page.fresh()
    texts = {it.name: it.read_text() for it in folder.iterdir()}
    page.browser.run(FOLDER, texts)
    page.browser.until(lambda: "The cluster is there" in page.browser.text("#said"), "the folder isn't taken")
    said = page.browser.text("#said")
    page.settled()
    return first(
        None if "64 of 64 groups lie as computed" in said else said, same_drain(page, program, folder, ["host0"])
    )


FOLDER = """
const entries = Object.entries(arguments[0]).map(([name, text]) => (
    { isFile: true, isDirectory: false, name, file: (done) => done(new File([text], name)) }
));
const batches = [entries.slice(0, 2), entries.slice(2), []];
const reader = { readEntries: (done) => done(batches.shift()) };
const folder = { isFile: false, isDirectory: true, name: "july", createReader: () => reader };
const event = new Event("drop", { bubbles: true, cancelable: true });
event.dataTransfer = { types: ["Files"], files: [new File([""], "july")], items: [{ webkitGetAsEntry: () => folder }] };
document.querySelector("main").dispatchEvent(event);
"""


@with_folder
def what_stops_in_stretch_mode_is_unknown(page, folder):
    """And flags by which nothing goes out are said."""
    today, program = Today(), page.program
    osd = today.osd(
        POOLS[:1],
        flags="noout,sortbitwise",
        crush_node_flags={"host1": ["noout"]},
        device_class_flags={"ssd": ["noout"]},
        stretch_mode={"stretch_mode_enabled": True},
    )
    files_of(folder, program, today.crush(), osd)
    dropped(page, folder)
    page.drained("host1", way="fail")
    verdict, beside, stopped = (
        page.browser.text("#verdict"),
        page.browser.text("#beside"),
        page.figures("at-once")["stopped"],
    )
    said = plan(program, folder, "fail", "host1")
    return first(
        unlike(verdict, f"{said['answer'][0].upper()}{said['answer'][1:]}"),
        unlike(stopped, "?"),
        *(None if it.lower() in beside.lower() else f"{it!r} isn't in {beside!r}" for it in said["warnings"]),
    )


def a_text_of_straw2_gets_its_mark(page):
    """A text as crushtool writes it; a fault is said at the line that the file has."""
    today = Today()
    text = today.plain.text()
    tenant = page.imported(text)
    taken = page.ask("GET", f"/t/{tenant}/maps/1")[1]["text"]
    wrong = text.replace(" item osd.5 ", " item osd.99 ", 1)
    page.fresh()
    page.browser.drop(wrong, "map.txt")
    said = page.browser.text(".refused h3")
    bucket = next(number for number, line in enumerate(wrong.splitlines(), 1) if line.startswith("host host1 "))
    return first(
        (
            None
            if taken.startswith("# crushcalc: straw2\n") and taken.count("alg straw2") == len(today.plain.buckets)
            else taken[:200]
        ),
        None if f"line {bucket}, code M5" in said else f"{said}, not {bucket}",
    )


def cases():
    return (
        a_whole_cluster_of_today_is_answered_as_crushplan_does,
        groups_that_lie_otherwise_make_every_answer_unknown,
        a_folder_without_pgs_is_compared_by_device,
        weight_sets_are_a_text_each,
        upmap_lines_with_set_primaries_are_tried,
        straw_buckets_that_become_straw2_are_compared_by_the_clusters_word,
        more_upmap_items_than_are_taken_at_once,
        a_tree_over_the_most_buckets,
        the_folder_of_fetch_is_dropped_as_it_is,
        what_stops_in_stretch_mode_is_unknown,
        a_text_of_straw2_gets_its_mark,
    )
