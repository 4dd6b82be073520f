"""`crushplan compare` of several changed maps, beside Ceph's lists of their groups."""
import csv
import io
import json

from compared import anew
from kept_cases import CLUSTERS
from running import equals, wants

KEPT = CLUSTERS / "other-class"


def moved_by_ceph(answers, name):
    """Returns how many groups move on a map, and how many copies are written, by Ceph's lists."""
    before, pools = answers["before"], {it["id"]: it for it in answers["pools"]}
    moves = [
        (group, before[group][1], it[1]) for group, it in answers["maps"][name].items() if it[1] != before[group][1]
    ]
    return len(moves), sum(anew(pools[int(group.split(".")[0])], old, new) for group, old, new in moves)


def lines(runner, folder):
    """Each map has a line with what moves by Ceph's lists, the one that moves least first, and the
    status that it has alone."""
    answers = json.loads((KEPT / "answers.json").read_text())
    paths = [KEPT / it for it in sorted(answers["maps"])]
    said = runner.said("compare", KEPT, *paths)
    wanted = {str(it): moved_by_ceph(answers, it.name) for it in paths}
    equals("what moves", {it["new"]: (it["moved"], it["copies"]) for it in said["maps"]}, wanted)
    alone = {str(it): runner.said("compare", KEPT, it) for it in paths}
    equals("statuses", {it["new"]: it["status"] for it in said["maps"]}, {it: of["status"] for it, of in alone.items()})
    for it in said["maps"]:
        same = ("bytes", "least", "missing_copies", "missing_copies_before", "fullest")
        equals(it["new"], [it[key] for key in same], [alone[it["new"]][key] for key in same])
    rows = list(csv.reader(io.StringIO(runner.run("compare", KEPT, *paths, "--csv")[1])))
    equals(
        "rows", [row[:3] for row in rows[1:]], [[it["new"], str(it["moved"]), str(it["copies"])] for it in said["maps"]]
    )
    copies = [it["copies"] for it in said["maps"] if it["status"] != 1]
    equals("what moves least first", copies, sorted(copies))
    text = runner.run("compare", KEPT, *paths)[1]
    first = said["maps"][0]
    wants(text.startswith(f"Of {len(paths)} maps {first['new']} moves least: {first['copies']} copies.\n"), text[:200])
    behind = runner.run("compare", KEPT, paths[0], "--csv", *paths[1:])[1]
    equals("names behind options", list(csv.reader(io.StringIO(behind))), rows)


def refused(runner, folder):
    """A map that can't be read is named, and --groups is of one map."""
    path = KEPT / "new.json"
    (folder / "broken").write_text("device x\n")
    runner.refused("compare", KEPT, path, folder / "no", has="no: No such file or directory")
    runner.refused("compare", KEPT, path, folder / "broken", has="broken")
    runner.refused("compare", KEPT, path, path, "--groups", has="--groups lists the groups of one NEW")


def processes(runner, folder):
    """What several processes do side by side is what one does, and what one of them refuses is
    said."""
    for words in (("fail", CLUSTERS / "reweighted", "--each", "osd"), ("fail", KEPT, "--each", "host")):
        alone, shared = (runner.run(*words, "--json", CRUSHPLAN_JOBS=it) for it in ("1", "4"))
        wants(json.loads(alone[1])["each"], "nothing fails")
        equals(f"{words[0]} {words[1].name}", shared, alone)
    stub = folder / "crushcalc"
    stub.write_text("#!/bin/sh\n[ $1 = --version ] && echo crushcalc 0.1.0 || { echo out of order >&2; exit 3; }\n")
    stub.chmod(0o755)
    status, out, err = runner.run("fail", KEPT, "--each", "host", CRUSHCALC=str(stub), CRUSHPLAN_JOBS="4")
    wants(status == 2 and not out and "out of order" in err and "Traceback" not in err, (status, out, err))


def cases():
    return [(it.__name__, it) for it in (lines, refused, processes)]
