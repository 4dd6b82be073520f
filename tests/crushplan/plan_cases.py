"""`crushplan plan`: steps, sums and orders of runbooks, beside placements by the definition's own
calculator (model/placed.py) and sums by hand; what Ceph refuses, removes, and what isn't
foretold."""
import argparse
import collections
import copy
import json
import pathlib
import shlex

import effect_cases
from crushplan_parts import commands
from crushplan_parts.cluster import read_cluster
from crushplan_parts.follow import Follower
from crushplan_parts.placing import Plan
from crushplan_parts.runbook import Line
from crushplan_parts.service import Script
from crushplan_parts.wrapper import Unforetold
from dumped import changed, plain
from made import ONE, bucket, crush_dump, osd_dump, pool, text_of, write
from model.placed import Placed
from running import equals, wants

GIB = 1 << 30
SIZE = 1000 * GIB  # of a device of osd-df.json


def placed(crush, reweights=(), **fields):
    return Placed(text_of(crush), pool=1, size=fields.pop("size", 3), pg_num=64, reweights=dict(reweights), **fields)


def weighed(crush, weights):
    """The map with other weights of devices, and the sums above them, by hand."""
    found = copy.deepcopy(crush)
    for host in found["buckets"][1:]:
        for it in host["items"]:
            it["weight"] = weights.get(it["id"], it["weight"])
        host["weight"] = sum(it["weight"] for it in host["items"])
    for it in found["buckets"][0]["items"]:
        it["weight"] = next(of["weight"] for of in found["buckets"] if of["id"] == it["id"])
    return found


def runbook(folder, *lines):
    path = pathlib.Path(folder) / "runbook"
    path.write_text("\n".join(lines) + "\n")
    return path


def moved(before, after):
    """The moves from one placement to another, as the JSON has them."""
    return [(group, old, new) for group, old, new in before.moves(after) if set(old) != set(new)]


def copies(moves):
    return sum(len(set(new) - set(old)) for _, old, new in moves)


def groups(step):
    return [(it["group"], it["before"], it["after"]) for it in step["groups"]]


def rooms(used):
    """osd-df.json of devices that hold so many bytes each."""
    return {"nodes": [{"id": it, "kb_used": of // 1024, "kb": SIZE // 1024} for it, of in used.items()]}


def steps(runner, folder):
    """Three steps: what each moves, what moves twice, and the same change in one step."""
    crush = crush_dump()
    write(folder, crush, osd_dump())
    path = runbook(
        folder,
        "# a host goes",
        "ceph osd out 3 osd.4; ceph osd out 5",
        "wait",
        "sudo ceph osd crush reweight osd.0 2 && ceph osd crush reweight osd.1 0.5",
        "wait",
        "ceph osd in 3 \\",
        "  4 5  # back again",
    )
    said = runner.said("plan", folder, path, "--groups", status=0)
    out = {3: 0, 4: 0, 5: 0}
    other = weighed(crush, {0: 2 * ONE, 1: ONE // 2})
    lies = [placed(crush), placed(crush, out), placed(other, out), placed(other)]
    equals("steps", [it["lines"] for it in said["steps"]], [[2, 2], [4, 4], [6]])
    for number, it in enumerate(said["steps"]):
        equals(f"step {number}", groups(it), moved(lies[number], lies[number + 1]))
    own = [moved(*both) for both in zip(lies, lies[1:])]
    equals("copies", said["copies"], sum(map(copies, own)))
    counts = collections.Counter(group for of in own for group, *_ in of)
    equals("twice", said["twice"], [f"1.{group:x}" for group in sorted(counts) if counts[group] > 1])
    one = moved(lies[0], lies[3])
    equals("in one step", (said["one_step"]["moved"], said["one_step"]["copies"]), (len(one), copies(one)))
    wants(
        said["answer"].startswith("yes: in 3 steps ")
        and f", {said['copies']} copies are written anew, and " in said["answer"],
        said["answer"],
    )
    text = runner.run("plan", folder, path)[1]
    wants(text.startswith(said["answer"]) and "By step, until all is clean:" in text, text)


def refused(runner, folder):
    """A runbook that Ceph refuses on line 4 of 6 is told so with Ceph's words, and how the cluster
    looks there; nothing behind it is foretold."""
    crush = crush_dump()
    write(folder, crush, osd_dump())
    path = runbook(
        folder,
        "ceph osd out 0",
        "wait",
        "ceph osd crush reweight osd.7 3",
        "ceph osd purge 0 --yes-i-really-mean-it",
        "wait",
        "ceph osd out 1",
    )
    said = runner.said("plan", folder, path, "--groups", status=1)
    equals(
        "the answer", said["answer"], "no: line 4 is refused: EBUSY osd.0 is not `down`; nothing behind it is foretold."
    )
    equals("what decides", (said["decides"]["step"], said["decides"]["lines"]), (2, [3, 4]))
    equals("the steps", len(said["steps"]), 2)
    equals("behind it", said["unfollowed"], [6])
    lies = placed(crush, {0: 0}), placed(weighed(crush, {7: 3 * ONE}), {0: 0})
    equals("up to there", groups(said["steps"][1]), moved(*lies))
    text = runner.run("plan", folder, path)[1]
    wants("Copies where line 4 is refused:" in text and "What decides is step 2 (lines 3-4):" in text, text)
    entries = lies[1].entries()
    row = next(it.split() for it in text.split("Copies where line 4")[1].splitlines() if it.split()[:1] == ["osd.7"])
    equals("a device there", row[:4], ["osd.7", "host2", str(placed(crush).entries()[7][1]), str(entries[7][1])])
    # a step of which nothing is done has no numbers, and one of which a part is says which
    row = next(it.split() for it in text.split("By step")[1].splitlines() if "refused" in it)
    equals("its row", row[:4], ["2", "3,", "4", "refused"])
    text = runner.run("plan", folder, runbook(folder, "ceph osd out 0", "wait", "ceph osd purge 0 --force", "wait"))[1]
    row = next(it.split() for it in text.split("By step")[1].splitlines() if "refused" in it)
    equals("nothing of it is done", row, ["2", "3", "refused", *"-" * 9])
    csv = runner.run("plan", folder, folder / "runbook", "--csv")[1].splitlines()
    equals("nor in CSV", csv[-1], "2,3,3,,,,,,,,,,,,,3")
    lines = "ceph osd out 0; ceph osd purge 0 --force; ceph osd out 1", "wait", "ceph osd out 2", "ceph osd out 3"
    said = runner.said("plan", folder, runbook(folder, *lines), status=1)
    equals("behind it, in its line and others", said["unfollowed"], [1, 3, 4])


def with_line(runner, folder):
    """Line 4 of 6 leaves two hosts for three copies: it is named, with how devices look there."""
    crush = crush_dump()
    write(folder, crush, osd_dump())
    path = runbook(
        folder,
        "ceph osd crush reweight osd.7 3",
        "ceph osd out 0 1 2",
        "ceph osd reweight 9 0.5",
        "ceph osd out 3 4 5",
        "ceph osd reweight 9 0.75",
        "ceph osd crush reweight osd.7 1",
    )
    said = runner.said("plan", folder, path, "--groups", status=1)
    equals("the answer", said["answer"], "no: step 1 (lines 1-6), with line 4: 64 copies have no device.")
    equals("the line", said["decides"]["line"], 4)
    there = placed(weighed(crush, {7: 3 * ONE}), {**dict.fromkeys(range(6), 0), 9: ONE // 2}).entries()
    rows = [it.split() for it in runner.run("plan", folder, path)[1].split("Copies with line 4:")[1].splitlines()]
    counts = {it[0]: int(it[3]) for it in rows if it[:1] and it[0].startswith("osd.")}
    equals("the cluster there", counts, {f"osd.{it}": there[it][1] for it in range(12)})


def meanwhile(runner, folder):
    """Groups whose copies are gone before others are made: with a 'wait' in between there are
    none; OSDs that are down one after the other are never missed together."""
    crush = crush_dump()
    write(folder, crush, osd_dump())
    up = placed(crush).up
    with_any = lambda *own: [f"1.{group:x}" for group, it in enumerate(up) if set(it) & set(own)]
    lines = ["ceph osd out 0", "systemctl stop ceph-osd@0", "ceph osd purge 0 --yes-i-really-mean-it"]
    said = runner.said("plan", folder, runbook(folder, *lines), status=0)
    equals("short", (said["short_meanwhile"], said["fewest_meanwhile"]), (with_any(0), 2))
    equals("by step", said["steps"][0]["short_meanwhile"], with_any(0))
    (remark,) = said["steps"][0]["remarks"]
    wants(remark.startswith(f"from line 2 on {len(with_any(0))} groups ("), remark)
    wants(remark.endswith("; with a 'wait' before line 2 they move first"), remark)
    wants(said["answer"].endswith("have fewer copies."), said["answer"])
    text = runner.run("plan", folder, folder / "runbook")[1]
    wants(
        f"from line 2 on {len(with_any(0))} groups (" in text and "with a 'wait' before line 2 they move" in text, text
    )
    said = runner.said("plan", folder, runbook(folder, lines[0], "wait", *lines[1:]), status=0)
    equals("with a wait", (said["short_meanwhile"], said["fewest_meanwhile"]), ([], None))
    wants("meanwhile" not in said["answer"], said["answer"])
    turn = [f"systemctl {word} ceph-osd@{it}" for it in (0, 3) for word in ("stop", "start")]
    said = runner.said("plan", folder, runbook(folder, *turn), status=0)
    equals("in turn", (said["short_meanwhile"], said["fewest_meanwhile"]), (with_any(0, 3), 2))
    wants("with a 'wait'" not in runner.run("plan", folder, folder / "runbook")[1], "a wait wouldn't help")
    said = runner.said("plan", folder, runbook(folder, turn[0], turn[2], turn[1], turn[3]), status=1)
    stopped = [f"1.{group:x}" for group, it in enumerate(up) if {0, 3} <= set(it)]
    equals("together", (said["fewest_meanwhile"], said["below_min_size"]), (1, stopped))
    wants("from line 2 on " in said["answer"] and "which stops I/O" in said["answer"], said["answer"])


def broken(runner, folder):
    """Upmap items that break the rule are taken by Ceph and removed at once: line 4 of 6."""
    crush = crush_dump()
    write(folder, crush, osd_dump())
    up = placed(crush).up
    group = next(
        it for it, own in enumerate(up) if not {0, 1} & set(own) and {3, 4, 5} & set(own) and {6, 7, 8} & set(own)
    )
    old = next(it for it in up[group] if it // 3 == 1)
    other = next(it for it in (6, 7, 8) if it not in up[group])
    path = runbook(
        folder,
        f"ceph osd pg-upmap-items 1.{group:x} {old} 0",
        "wait",
        "ceph osd reweight 11 0.5",
        f"ceph osd pg-upmap-items 1.{group:x} {old} {other}",
        "wait",
        "ceph osd in 11",
    )
    said = runner.said("plan", folder, path, "--groups", status=1)
    wants(
        said["answer"].startswith(f"no: line 4: Ceph removes what it sets at once, 1.{group:x} {old}>{other} (")
        and "are in one host" in said["answer"],
        said["answer"],
    )
    equals("which step", said["decides"]["step"], 2)
    equals(
        "the first step", groups(said["steps"][0]), [(group, up[group], [0 if it == old else it for it in up[group]])]
    )
    lies = placed(crush, pairs=[(group, old, 0)]), placed(crush, {11: ONE // 2})
    equals("the second step", groups(said["steps"][1]), moved(*lies))
    equals("all steps are foretold", len(said["steps"]), 3)


def removed_later(runner, folder):
    """Items that the monitors remove when their device goes out don't come back with it."""
    crush = crush_dump()
    up = placed(crush).up
    group = next(it for it, own in enumerate(up) if 0 not in own and 3 in own and not {1, 2} & set(own))
    osd = osd_dump()
    osd["pg_upmap_items"] = [{"pgid": f"1.{group:x}", "mappings": [{"from": 3, "to": 0}]}]
    write(folder, crush, osd)
    said = runner.said("plan", folder, runbook(folder, "ceph osd out 0; ceph osd in 0"), "--groups", status=0)
    equals("it moves back", groups(said["steps"][0]), [(group, [0 if it == 3 else it for it in up[group]], up[group])])
    equals("the line that removes it", [len(it["removed"]) for it in said["steps"][0]["events"]], [1, 0])


def room(runner, folder):
    """How full devices get, on the way and afterwards, and hours by the busiest device; each copy
    has 1 GiB."""
    crush = crush_dump()
    before, after = placed(crush), placed(crush, {0: 0, 1: 0, 2: 0})
    used = {device: row[1] * GIB for device, row in before.entries().items()}
    write(
        folder,
        crush,
        osd_dump(),
        df_json={
            "pools": [{"id": 1, "name": "photos", "stats": {"bytes_used": 192 * GIB, "stored": 64 * GIB}}],
            "stats": {"num_osds": 12, "num_per_pool_osds": 12},
        },
        osd__df_json=rooms(used),
    )
    path = runbook(folder, "ceph osd out 0 1 2", "wait", "ceph osd crush reweight osd.3 1.5")
    said = runner.said("plan", folder, path, "--rate", "100", status=0)
    written, read, freed = (collections.Counter() for _ in range(3))
    for _, old, new in moved(before, after):
        for device in set(new) - set(old):
            written[device] += 1
            read[new[0] if new[0] in old else old[0]] += 1
        freed.update(set(old) - set(new))
    step = said["steps"][0]
    way = {it: used[it] + written[it] * GIB for it in used}
    most = max(way, key=lambda it: (way[it], -it))
    equals("on the way", (step["on_the_way"]["device"], step["on_the_way"]["used"]), (most, round(way[most] / SIZE, 4)))
    then = {it: way[it] - freed[it] * GIB for it in used}
    most = max((it for it in then if after.entries()[it][1]), key=lambda it: (then[it], -it))
    equals("afterwards", (step["fullest"]["device"], step["fullest"]["used"]), (most, round(then[most] / SIZE, 4)))
    busiest = max(written[it] + read[it] for it in used)
    equals("hours", step["hours"], round(busiest * GIB / 100e6 / 3600, 2))
    equals("bytes", step["bytes"], sum(written.values()) * GIB)
    ratios = {"nearfull_ratio": 0.85, "backfillfull_ratio": 0.9}
    equals("rate and ratios", (said["rate"], said["ratios"]), (100.0, ratios))
    equals("without a rate", runner.said("plan", folder, path, status=0)["rate"], None)
    wants("every copy has room" in said["answer"], said["answer"])
    osd = osd_dump()
    osd["backfillfull_ratio"] = 0.02
    write(folder, crush, osd)
    said = runner.said("plan", folder, path, status=1)
    wants(
        said["answer"].startswith("no: step 1 (line 1): osd.") and "past the backfill-full ratio" in said["answer"],
        said["answer"],
    )
    osd["backfillfull_ratio"] = 0.9
    nodes = rooms(used)
    nodes["nodes"].pop()
    write(folder, crush, osd, osd__df_json=nodes)
    said = runner.said("plan", folder, path, status=2)
    wants("osd-df.json doesn't say how full osd.11 gets" in said["answer"], said["answer"])


def stops(runner, folder):
    """OSDs that are stopped: groups below min_size while they are down; then they go out by
    themselves. A purge before their groups have moved loses data."""
    crush = crush_dump()
    write(folder, crush, osd_dump())
    hosts = " ".join(f"ceph-osd@{it}" for it in range(6))
    path = runbook(folder, f"systemctl stop {hosts}", "wait")
    said = runner.said("plan", folder, path, "--groups", status=1)
    lies = placed(crush), placed(crush, dict.fromkeys(range(6), 0))
    alive = [sum(it > 5 for it in up) for up in lies[0].up]
    stopped = {f"1.{group:x}" for group, count in enumerate(alive) if count < 2} | {
        f"1.{group:x}" for group, up in enumerate(lies[1].up) if len(up) < 2
    }
    equals("which stop", set(said["steps"][0]["below_min_size"]), stopped)
    equals("they go out", groups(said["steps"][0]), moved(*lies))
    equals("missing copies", said["steps"][0]["missing_copies"], sum(3 - len(it) for it in lies[1].up))
    wants("go out (mon_osd_down_out_interval)" in runner.run("plan", folder, path)[1], "nothing goes out")
    said = runner.said(
        "plan", folder, runbook(folder, "ceph osd set noout", f"systemctl stop {hosts}"), "--groups", status=1
    )
    equals("with noout no group moves to another device", said["steps"][0]["copies"], 0)
    lines = ["ceph osd set noout", "systemctl stop ceph-osd@0 ceph-osd@3 ceph-osd@6"]
    lines += [f"ceph osd purge {it} --yes-i-really-mean-it" for it in (0, 3, 6)]
    lost = [f"1.{group:x}" for group, up in enumerate(lies[0].up) if set(up) <= {0, 3, 6}]
    said = runner.said("plan", folder, runbook(folder, *lines), status=1)
    equals("what is lost", said["steps"][0]["lost"], lost)
    said = runner.said("plan", folder, runbook(folder, "ceph osd down 0 1 2 3 4 5"), status=0)
    wants("are up again in a second" in said["steps"][0]["events"][0]["remarks"][0], said["steps"][0]["events"])


def whole_rack(runner, folder):
    """OSDs of a rack of which all are down stay in, and those of another go out."""
    crush = crush_dump()
    root, hosts = crush["buckets"][0], crush["buckets"][1:]
    racks = [
        bucket(-10 - at, f"rack{at}", 3, "list", [(it["id"], 3 * ONE) for it in own])
        for at, own in enumerate((hosts[:2], hosts[2:]))
    ]
    root["items"] = [{"id": it["id"], "weight": 6 * ONE, "pos": at} for at, it in enumerate(racks)]
    crush["buckets"] += racks
    write(folder, crush, osd_dump(pools=[pool(1, "photos", size=2, min_size=1)]))
    path = runbook(folder, "systemctl stop " + " ".join(f"ceph-osd@{it}" for it in range(7)))
    said = runner.said("plan", folder, path)
    equals(
        "by itself",
        said["steps"][0]["by_itself"],
        [
            "osd.0, osd.1, osd.2, osd.3, osd.4, osd.5, down for long, stay in: the whole rack is down",
            "osd.6, down for long, goes out (mon_osd_down_out_interval)",
        ],
    )


def orders(runner, folder):
    """The lines between two waits as one step and one by one."""
    crush = crush_dump()
    write(folder, crush, osd_dump())
    path = runbook(
        folder,
        "ceph osd crush reweight osd.0 2",
        "ceph osd crush reweight osd.4 2",
        "ceph osd crush reweight osd.0 1",
        "wait",
        "ceph osd out 11",
    )
    said = runner.said("plan", folder, path, "--orders", status=0)
    maps = [crush, weighed(crush, {0: 2 * ONE}), weighed(crush, {0: 2 * ONE, 4: 2 * ONE}), weighed(crush, {4: 2 * ONE})]
    lies = [placed(it) for it in maps]
    own = said["steps"][0]["orders"]
    equals(
        "one by one",
        [(it["line"], it["copies"]) for it in own["one_by_one"]],
        [(number, copies(moved(*both))) for number, both in enumerate(zip(lies, lies[1:]), 1)],
    )
    single, whole = sum(it["copies"] for it in own["one_by_one"]), copies(moved(lies[0], lies[3]))
    equals("as one", said["steps"][0]["copies"], whole)
    equals(
        "which moves least",
        own["moves_least"],
        "as one step" if whole < single else "one by one" if single < whole else None,
    )
    equals("a step of one line has one order", said["steps"][1]["orders"], None)
    text = runner.run("plan", folder, path, "--orders")[1]
    wants("Step 1: as one step moves least" in text and "Orders of the lines between two waits:" in text, text)


def pools(runner, folder):
    """Commands on pools: size with its min_size, another rule, pgp_num."""
    crush = crush_dump()
    crush["rules"].append(
        {
            **crush["rules"][0],
            "rule_id": 1,
            "rule_name": "plain",
            "ruleset": 1,
            "steps": [crush["rules"][0]["steps"][0], {"op": "choose_firstn", "num": 0, "type": "osd"}, {"op": "emit"}],
        }
    )
    write(folder, crush, osd_dump(pools=[pool(1, "photos", size=2, min_size=1)]))
    path = runbook(
        folder,
        "ceph osd pool set photos size 3",
        "wait",
        "ceph osd pool set photos crush_rule plain",
        "wait",
        "ceph osd crush rule rm plain",
    )
    said = runner.said("plan", folder, path, "--groups", status=1)
    lies = placed(crush, size=2), placed(crush), placed(crush, rule=1)
    for number in range(2):
        equals(f"step {number}", groups(said["steps"][number]), moved(lies[number], lies[number + 1]))
    equals("min_size", said["steps"][0]["events"][0]["remarks"], ["min_size becomes 2, and was 1"])
    equals(
        "a rule in use",
        said["answer"],
        "no: line 5 is refused: EBUSY crush rule plain is in use; nothing behind it is foretold.",
    )
    said = runner.said("plan", folder, runbook(folder, "ceph osd pool set photos pg_num 128"), status=2)
    wants("line 1 ('ceph osd pool set photos pg_num 128') isn't foretold: new groups" in said["answer"], said["answer"])


def unforetold(runner, folder):
    """What depends on load is named with its line, after what stands before it."""
    crush = crush_dump()
    write(folder, crush, osd_dump())
    said = runner.said(
        "plan",
        folder,
        runbook(folder, "ceph osd out 3", "wait", "ceph osd reweight-by-utilization 120", "wait", "ceph osd out 4"),
        "--groups",
        status=2,
    )
    wants(
        said["answer"].startswith("unknown: line 3 ('ceph osd reweight-by-utilization 120') isn't foretold: ")
        and said["answer"].endswith("nothing behind it is foretold."),
        said["answer"],
    )
    equals("the first step", groups(said["steps"][0]), moved(placed(crush), placed(crush, {3: 0})))
    equals("steps", len(said["steps"]), 2)
    own = effect_cases.start_of({"crush": crush, "osd": osd_dump()}, folder)
    for name, why in commands.UNFORETOLD.items():
        try:
            commands.after(own, commands.read_words(["ceph", *name, "x"], "here"))
        except Unforetold as said:
            equals(str(name), str(said), why)
        else:
            wants(False, f"{name} is foretold")


BAD = (
    ("ceph osd outt 3", "line 2: there is no command 'ceph osd outt 3' here; the nearest is osd out"),
    ("rm -rf x", "line 2: 'rm -rf x' is no command of 'ceph'"),
    ("ceph osd out $ID", "line 2: '$ID' isn't foretold"),
    ("ceph osd out 3 | cat", "line 2: '|' isn't foretold"),
    ("ceph osd out 'x", "line 2: no closing quotation"),
    ("ceph osd out 3 --loud", "line 2: the option --loud of 'ceph osd out' isn't known here"),
    ("systemctl restart x", "line 2: 'systemctl restart x' isn't"),
)


def bad(runner, folder):
    """Lines that are no commands are named by file and line."""
    write(folder, crush_dump(), osd_dump())
    for line, words in BAD:
        runner.refused("plan", folder, runbook(folder, "ceph osd out 1", line), has=words)
    runner.refused("plan", folder, runbook(folder, "# nothing", "wait"), has="has no commands")
    runner.refused("plan", folder, folder / "nope", has="No such file")
    runner.refused("plan", folder, runbook(folder, "ceph osd out 1"), "--rate", "0", has="isn't a number above 0")
    code, out, _ = runner.run("plan", folder, "-", given=b"ceph osd out 3\n")
    wants(code == 0 and out.startswith("yes: in 1 step "), out)


def outputs(runner, folder):
    """CSV has a line for each step; the page has the same sentence and a drawing."""
    write(folder, crush_dump(), osd_dump())
    path = runbook(folder, "ceph osd out 3", "wait", "ceph osd out 4")
    said = runner.said("plan", folder, path, status=0)
    rows = [it.split(",") for it in runner.run("plan", folder, path, "--csv")[1].splitlines()]
    equals(
        "rows",
        [(it[0], it[3], it[4]) for it in rows[1:]],
        [(str(it["step"]), str(it["moved"]), str(it["copies"])) for it in said["steps"]],
    )
    rows = [it.split(",") for it in runner.run("plan", folder, path, "--csv", "--groups")[1].splitlines()]
    equals("a row for each group", len(rows) - 1, sum(it["moved"] for it in said["steps"]))
    runner.run("plan", folder, path, "--html", folder / "page.html")
    page = (folder / "page.html").read_text()
    wants(said["answer"] in page and 'data-name="osd.4"' in page, "the page lacks the answer or a bar")


def kept_upmaps(runner, folder):
    """The upmap entries after each line are those that a real monitor kept."""
    kept = json.loads((effect_cases.KEPT / "upmaps.json").read_text())
    own, there, entries = effect_cases.start_of(kept, folder), plain(kept["crush"], kept["osd"]), 0
    options = argparse.Namespace(allow_unplaced=True, size=None, pg_num=None, min_size=None)
    follower = Follower(Plan(read_cluster(folder, options), Script(runner.program)), ())
    for number, it in enumerate(kept["lines"], 1):
        there = changed(there, it["changes"])
        where = f"{number}: {it['line']} ({it['said'][:60]})"
        if " pool create " in it["line"]:
            own = effect_cases.given(it["line"], own, there)
            continue
        own, event = follower.do(Line(number, it["line"], commands.read_words(shlex.split(it["line"]), "here")), own)
        equals(f"{where}: error", event.refused.code if event.refused else "", it["code"])
        here = effect_cases.told(own)
        for part in ("pairs", "lists", "buckets", "osds"):
            odd = {
                key: (here[part].get(key), there[part].get(key))
                for key in {*here[part], *there[part]}
                if here[part].get(key) != there[part].get(key)
            }
            wants(not odd, f"{where}: {part}: here and there {odd}")
        entries += sum(len(it["changes"].get(part, ())) for part in ("pairs", "lists"))
    wants(entries >= 10, f"only {entries} entries came or went")


def cases():
    for case in (
        steps,
        refused,
        with_line,
        meanwhile,
        broken,
        removed_later,
        room,
        stops,
        whole_rack,
        orders,
        pools,
        unforetold,
        bad,
        outputs,
        kept_upmaps,
    ):
        yield case.__name__, case
