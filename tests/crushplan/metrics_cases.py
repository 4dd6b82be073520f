"""`crushplan metrics` and the health checks that come from it, beside what crushplan's other
commands answer on the same dumps; and a cluster's dumps from its manager."""
import json
import os
import re
import types

from made import ONE, STEPS, bucket, crush_dump, osd_dump, pool, rule, write
from running import equals, wants

from crushplan_parts import health
from crushplan_parts.from_manager import SLICE, Dumps

LABEL = r'[a-z_]+="(?:[^"\\\n]|\\["\\n])*"'
SAMPLE = re.compile(rf"(crushplan_[a-z_]+)(?:\{{({LABEL}(?:,{LABEL})*)\}})? (-?\d+(?:\.\d+)?)")
KB = 1024
# of the worst of a type, the fields of `fail --each`
FIELDS = {"groups_stopped": "below_min_size", "copies_without_device": "missing_copies", "devices_too_full": "too_full"}


def samples(text):
    """Returns the samples of a text in Prometheus' format, by their names and labels. Each metric
    has its help and its type before it, once."""
    found, told, kinds = {}, set(), set()
    for line in text.splitlines():
        if line.startswith("# HELP "):
            name = line.split(" ")[2]
            wants(name not in told and line.endswith("."), f"the help of {name}")
            told.add(name)
        elif line.startswith("# TYPE "):
            _, _, name, kind = line.split(" ")
            wants(name in told and name not in kinds and kind == "gauge", line)
            kinds.add(name)
        elif not line.startswith("# crushplan metrics: "):
            it = SAMPLE.fullmatch(line)
            wants(it and it[1] in kinds and line.split(" ")[0] not in found, line)
            found[line.rpartition(" ")[0]] = float(it[3])
    wants(text.endswith("\n") and kinds == told, text[-200:])
    return found


def rooms(kb, used):
    """Returns how full devices are, by device in KiB of so many."""
    return {"nodes": [{"id": it, "kb": kb, "kb_used": of, "pgs": None} for it, of in used.items()]}


def usage_dump(gib):
    stats = {"stored": gib << 30, "bytes_used": 3 * gib << 30}
    return {"stats": {}, "pools": [{"id": 1, "name": "photos", "stats": stats}]}


def failing(folder):
    """A cluster of four hosts, of which one is nearly down: none of the others can fail."""
    osd = osd_dump(down=(0, 1))
    used = {it: (20 << 20) + (it << 18) for it in range(12)}
    return write(folder, crush_dump(), osd, df_json=usage_dump(90), osd__df_json=rooms(32 << 20, used))


def with_groups(runner, folder):
    """Writes pgs.json, in which groups lie as computed."""
    groups = runner.said("usage", folder, "--groups")["groups"]
    lists = [(it["id"], it["up"], it["primary"]) for it in groups]
    rows = [
        {"pgid": id_, "state": "active+clean", "up": up, "up_primary": first, "acting": up, "acting_primary": first}
        for id_, up, first in lists
    ]  # fmt: skip
    write(folder, pgs_json=json.dumps(rows))
    return rows


def numbers(runner, folder):
    """Each metric is what fail --each, usage and check answer."""
    failing(folder)
    with_groups(runner, folder)
    code, text, err = runner.run("metrics", folder, "--each", "host", "--each", "osd")
    equals("status", (code, err), (0, ""))
    found = samples(text)
    wanted = {}
    for type_ in ("host", "osd"):
        rows, label = runner.said("fail", folder, "--each", type_)["each"], f'{{type="{type_}"}}'
        for status, word in enumerate(("yes", "no", "unknown")):
            count = sum(it["status"] == status for it in rows)
            wanted[f'crushplan_failures{{type="{type_}",can_fail="{word}"}}'] = count
        for name, field in FIELDS.items():
            wanted[f"crushplan_worst_{name}{label}"] = max(it[field] for it in rows)
        wanted[f"crushplan_worst_fullest_ratio{label}"] = max(it["fullest"]["used_after"] for it in rows)
    said = runner.said("usage", folder)
    over = [it["copies"] - it["share"] for it in said["rows"]]
    for name in ("least", "greatest"):
        wanted[f'crushplan_share_ratio{{of="{name}"}}'] = round(said[name]["percent"] / 100, 3)
    wanted["crushplan_copies_over_share"] = round(max(over), 2)
    wanted["crushplan_copies_under_share"] = round(-min(over), 2)
    same = runner.said("check", folder)["lying"]["same"]
    lying = {"as_computed": same, "otherwise": 0, "unknown": 0}
    wanted |= {f'crushplan_groups{{lie="{it}"}}': number for it, number in lying.items()}
    is_unproved = "unproved" in runner.run("--version")[1]
    oldest = min(int(it.stat().st_mtime) for it in folder.glob("*.json"))
    wanted |= {
        'crushplan_pools{computed="yes"}': 1, 'crushplan_pools{computed="no"}': 0, "crushplan_known": 1,
        "crushplan_proved": int(not is_unproved), "crushplan_dumps_timestamp_seconds": oldest,
    }  # fmt: skip
    equals("metrics", found, wanted)
    harm = ('failures{type="host",can_fail="no"}', 'worst_groups_stopped{type="host"}')
    wants(all(found[f"crushplan_{it}"] for it in harm), "no host does harm")
    rows = runner.run("metrics", folder, "--csv", "--each", "host", "--each", "osd")[1].splitlines()
    equals("samples of the CSV", len(rows) - 1, len(found))


def into_a_file(runner, folder):
    """--to writes the same text, whole or not at all: where there is no answer the file stays."""
    failing(folder / "july")
    path = folder / "july.prom"
    text = runner.run("metrics", folder / "july")[1]
    code, out, _ = runner.run("metrics", folder / "july", "--to", path)
    equals("what is said", (code, out), (0, f"{path} is written: 13 metrics.\n"))
    equals("the file", path.read_text(), text)
    equals("its rights", path.stat().st_mode & 0o444, 0o444)
    (folder / "july" / "osd.json").write_text("{")
    runner.refused("metrics", folder / "july", "--to", path, has="osd.json: line 1: it isn't JSON")
    equals("the file stays", path.read_text(), text)
    equals("nothing else is left", sorted(os.listdir(folder)), ["july", "july.prom"])
    failing(folder / "july")
    words = ("metrics", folder / "july", "--to", folder / "none" / "a.prom")
    runner.refused(*words, has="a.prom: No such file or directory")
    runner.refused("metrics", folder / "july", "--each", "hots", has="has no type 'hots'; the nearest is host")


def unknowns(runner, folder):
    """What isn't known has no line, and crushplan_known is 0: a pool that isn't computed, groups
    that lie otherwise, no pool at all, no device."""
    crush = crush_dump()
    crush["buckets"][0]["alg"] = "straw"
    write(folder / "straw", crush, osd_dump())
    found = samples(runner.run("metrics", folder / "straw")[1])
    names = ("known", 'pools{computed="no"}', 'failures{type="host",can_fail="unknown"}')
    equals("of a straw bucket", [found[f"crushplan_{it}"] for it in names], [0, 1, 4])
    absent = tuple(f"crushplan_{it}" for it in ("worst", "share", "copies", "groups"))
    wants(not any(it.startswith(absent) for it in found), str(found))

    failing(folder / "other")
    rows = with_groups(runner, folder / "other")
    rows[9]["up"] = rows[9]["up"][::-1]
    write(folder / "other", pgs_json=json.dumps(rows))
    code, text, _ = runner.run("metrics", folder / "other")
    found = samples(text)
    names = ("known", 'groups{lie="otherwise"}', 'groups{lie="as_computed"}')
    equals("of a group elsewhere", [code, *(found[f"crushplan_{it}"] for it in names)], [2, 0, 1, 63])
    wants(text.startswith("# crushplan metrics: unknown: 1 group lies otherwise"), text[:100])

    write(folder / "empty", crush_dump(), osd_dump(pools=[]))
    said = runner.said("metrics", folder / "empty")
    found = samples(runner.run("metrics", folder / "empty")[1])
    equals("of no pool", (said["answer"], found["crushplan_known"]), ("There is no pool.", 0))
    bare = {**crush_dump(), "devices": [], "buckets": [bucket(-1, "default", 10, "list", [])]}
    write(folder / "bare", bare, osd_dump(0, pools=[]))
    samples(runner.run("metrics", folder / "bare")[1])
    equals("its health", health.checks_of(runner.said("metrics", folder / "bare")), {**unproved_check(runner)})


def unproved_check(runner):
    said = {"failures": [], "lying": {}, "proved": "unproved" not in runner.run("--version")[1]}
    return health.checks_of(said)


def hard_names(runner, folder):
    """A type whose name has signs that the format writes otherwise."""
    crush = crush_dump()
    for it in crush["types"]:
        it["name"] = 'ho"st\\' if it["type_id"] == 1 else it["name"]
    for it in crush["buckets"]:
        it["type_name"] = 'ho"st\\' if it["type_id"] == 1 else it["type_name"]
    crush["rules"] = [rule(0, "replicated_rule", (STEPS[0], {**STEPS[1], "type": 'ho"st\\'}, STEPS[2]))]
    write(folder, crush, osd_dump())
    found = samples(runner.run("metrics", folder, "--each", 'ho"st\\')[1])
    equals("the label", found['crushplan_failures{type="ho\\"st\\\\",can_fail="yes"}'], 4)


# ---- health checks


def cant_fail(runner, folder):
    """The check has each host that does harm with its numbers, the worst first."""
    failing(folder)
    rows = [it for it in runner.said("fail", folder, "--each", "host")["each"] if it["status"] == 1]
    found = health.checks_of(runner.said("metrics", folder))["CRUSHPLAN_CANT_FAIL"]
    head = [found[it] for it in ("severity", "count", "summary")]
    equals("the check", head, ["warning", 4, "4 hosts can't fail without harm"])
    for it, line in zip(rows, found["detail"]):
        parts = [f"host {it['name']}: "] + [f"{it['below_min_size']} groups would stop"] * bool(it["below_min_size"])
        parts += [f"{it['missing_copies']} copies would have no device"] * bool(it["missing_copies"])
        fullest = f"{it['fullest']['name']} at {100 * it['fullest']['used_after']:.1f}%"
        parts += [f"would be past backfill-full once it is out, the fullest {fullest}"] * bool(it["too_full"])
        wants(all(of in line for of in parts), f"{line!r} lacks one of {parts}")
    equals("lines", len(found["detail"]), len(rows))
    write(folder, osd=osd_dump(), osd__df_json=rooms(320 << 20, dict.fromkeys(range(12), 20 << 20)))
    equals("once they are up", health.checks_of(runner.said("metrics", folder)).keys() - {"CRUSHPLAN_PROGRAM"}, set())


def many_lines(runner, folder):
    """A check has 50 lines at most, and says how many more there would be."""
    pools = [pool(1, "photos", size=3, min_size=3, pg_num=1024)]
    write(folder, crush_dump(hosts=60, devices=1), osd_dump(60, pools=pools))
    found = health.checks_of(runner.said("metrics", folder))["CRUSHPLAN_CANT_FAIL"]
    equals("lines", (found["count"], len(found["detail"]), found["detail"][-1]), (60, 50, "and 11 more"))


def other_checks(runner, folder):
    """Groups that differ, pools that aren't computed, and a program that fails."""
    failing(folder)
    rows = with_groups(runner, folder)
    rows[9]["up"] = rows[9]["up"][::-1]
    write(folder, pgs_json=json.dumps(rows))
    found = health.checks_of(runner.said("metrics", folder))
    here = next(it for it in runner.said("usage", folder, "--groups")["groups"] if it["id"] == "1.9")
    equals("groups that differ", found["CRUSHPLAN_DIFFERS"], {
        "severity": "warning", "summary": "1 group doesn't lie as computed: what failures do is unknown", "count": 1,
        "detail": [f"1.9 up {rows[9]['up']} primary {rows[9]['up_primary']}, computed {here['up']} {here['primary']}"],
    })  # fmt: skip
    summary = found["CRUSHPLAN_CANT_FAIL"]["summary"]
    wants(summary.startswith("unknown, since 1 group lies otherwise: as computed 4 hosts can't"), summary)
    crush = crush_dump()
    crush["buckets"][0]["alg"] = "straw"
    write(folder, crush, osd_dump())
    (folder / "pgs.json").unlink()
    said = runner.said("metrics", folder)
    equals("off by default", "CRUSHPLAN_NOT_COMPUTED" in health.checks_of(said), False)
    found = health.checks_of(said, True)["CRUSHPLAN_NOT_COMPUTED"]
    wanted = ["1 pool of 1 isn't computed", [f"pool photos (1): {said['pools'][0]['why']}"]]
    equals("a pool that isn't computed", [found["summary"], found["detail"]], wanted)
    found = health.failed("unknown: it is gone")
    summary = found["CRUSHPLAN_PROGRAM"]["summary"]
    equals("a program that fails", summary, "which failures the cluster bears is unknown: it is gone")


# ---- a manager's module


class FakeMap:
    """A map of a manager, which answers from dumps as Ceph's own object does."""

    def __init__(self, osd, crush, rows):
        self.osd, self.crush, self.rows = osd, crush, {it["pgid"]: it for it in rows}

    def get_epoch(self):
        return self.osd["epoch"]

    def dump(self):
        return self.osd

    def get_crush(self):
        return types.SimpleNamespace(dump=lambda: self.crush)

    def pg_to_up_acting_osds(self, pool_id, group):
        row = self.rows[f"{pool_id}.{group:x}"]
        return {name: row[name] for name in ("up", "up_primary", "acting", "acting_primary")}


class FakeModule:
    def __init__(self, osd, crush, df, stats, rows=()):
        self.map, self.known = FakeMap(osd, crush, rows), {"df": df, "osd_stats": {"osd_stats": stats}}

    def get_osdmap(self):
        return self.map

    def get(self, name):
        return self.known[name]


def stats_of(dump):
    return [{"osd": it["id"], "kb": it["kb"], "kb_used": it["kb_used"]} for it in dump["nodes"]]


BRIEF = (("check",),)
FULL = (*BRIEF, ("drain", "host1", "--groups"), ("fail", "--each", "host"), ("usage", "--groups"))


def from_manager(runner, folder):
    """A manager's dumps are answered as the files are: with more groups than are written at once,
    and with none."""
    for pg_num, all_words in ((SLICE * 2, BRIEF), (SLICE + 1, BRIEF), (64, FULL)):
        own = folder / str(pg_num)
        failing(own)
        osd = osd_dump(pools=[pool(1, "photos", pg_num=pg_num)], weights={3: 0, 4: ONE // 2})
        write(own, osd=osd)
        rows = with_groups(runner, own)
        room = json.loads((own / "osd-df.json").read_text())
        lent = folder / f"lent-{pg_num}"
        lent.mkdir()
        module = FakeModule(osd, crush_dump(), usage_dump(90), stats_of(room), rows)
        Dumps(module).write(lent)
        equals("groups", [{**it, "state": "mapped"} for it in rows], json.loads((lent / "pgs.json").read_text()))
        for it in room["nodes"]:
            it.update({"kb": 0, "kb_used": 0} if it["id"] == 3 else {})
        write(own, osd__df_json=room)  # as Ceph writes of a device that is out
        for name, *words in all_words:
            equals(f"{name} {words}", runner.said(name, lent, *words), runner.said(name, own, *words))
    (folder / "none").mkdir()
    Dumps(FakeModule(osd_dump(0, pools=[]), crush_dump(), {"pools": []}, [])).write(folder / "none")
    equals("no group", (folder / "none" / "pgs.json").read_text(), "[]")


def marks(runner, folder):
    """What places groups, says what stops, or makes a device fuller by a percent is another mark;
    an epoch and a few bytes aren't."""
    used = [{"osd": it, "kb": 1000 * KB, "kb_used": 100 * KB} for it in range(12)]
    base = FakeModule(osd_dump(), crush_dump(), {}, used)
    mark = Dumps(base).mark()
    later = {**osd_dump(), "epoch": 8, "pg_temp": [{"pgid": "1.0", "osds": [1]}]}
    more = [{**it, "kb_used": it["kb_used"] + 9 * KB} for it in used]
    equals("the same", Dumps(FakeModule(later, crush_dump(), {}, more)).mark(), mark)
    fuller = [{**it, "kb_used": it["kb_used"] + 10 * KB * (it["osd"] == 3)} for it in used]
    paired = {**osd_dump(), "pg_upmap_items": [{"pgid": "1.0", "mappings": []}]}
    changed = {
        "a device is down": FakeModule(osd_dump(down=(1,)), crush_dump(), {}, used),
        "a reweight": FakeModule(osd_dump(weights={1: ONE // 2}), crush_dump(), {}, used),
        "a pool": FakeModule(osd_dump(pools=[pool(1, "photos", min_size=1)]), crush_dump(), {}, used),
        "a weight": FakeModule(osd_dump(), crush_dump(devices=4), {}, used),
        "an upmap": FakeModule(paired, crush_dump(), {}, used),
        "a ratio": FakeModule({**osd_dump(), "backfillfull_ratio": 0.91}, crush_dump(), {}, used),
        "a percent": FakeModule(osd_dump(), crush_dump(), {}, fuller),
    }  # fmt: skip
    found = {name: Dumps(it).mark() for name, it in changed.items()}
    equals("other marks", [name for name, it in found.items() if it == mark], [])


def cases():
    own = (numbers, into_a_file, unknowns, hard_names, cant_fail, many_lines, other_checks, from_manager, marks)
    return [(it.__name__, it) for it in own]
