"""README's line for the shell, which says of `ceph osd crush dump` alone whether the cluster can be
computed: run as it stands there, with a program in the place of ceph. What it says is written here,
and whether it says yes is compared with 'crushplan check'."""
import copy
import json
import os
import pathlib
import subprocess

from kept_cases import CLUSTERS
from made import cluster, crush_dump
from running import SECONDS, equals, wants

TOP = pathlib.Path(__file__).resolve().parent.parent.parent
REAL = TOP / "tests" / "cluster" / "data"
README, FENCE, FIRST = TOP / "README.md", "```", "ceph osd crush dump"
KEPT = ("holes", "holes-of-one", "reweighted")
PLAIN, OTHER = [1.0, 1.0, 1.0], [1.0, 0.5, 1.0]
LOCAL_STEP = {"op": "set_choose_local_tries", "num": 2}
OF_RULE, OF_SET = "rule replicated_rule: MSR, or local tries", "weight set {}: several positions, or ids"


def kinds(*algs):
    """Gives the buckets these kinds, in their order: the root, then the hosts."""
    return lambda crush: [it.update(alg=alg) for it, alg in zip(crush["buckets"], algs)]


def weight_set(key, *rows):
    """A set of a row for each of the first hosts: its positions, and ids."""
    found = [{"bucket_id": -2 - place, "weight_set": row, **more} for place, (row, more) in enumerate(rows)]
    return lambda crush: crush.update(choose_args={key: found})


def tunable(name, value):
    return lambda crush: crush["tunables"].update({name: value})


def everything(crush):
    kinds("straw2", "straw")(crush)
    crush["rules"][0].update(type=5)
    tunable("choose_local_tries", 2)(crush)


# a change of a dump that is computed, and what the line says then
CHANGES = {
    "a straw bucket": (kinds("straw2", "straw"), ["bucket host0: straw"]),
    "buckets of two kinds": (kinds("straw", "list", "straw3"), ["bucket default: straw", "bucket host1: straw3"]),
    "an MSR rule": (lambda crush: crush["rules"][0].update(type=4), [OF_RULE]),
    "a rule of local tries": (lambda crush: crush["rules"][0]["steps"].insert(0, LOCAL_STEP), [OF_RULE]),
    "positions": (weight_set("-1", ([PLAIN, OTHER], {}), ([PLAIN], {})), [OF_SET.format(-1)]),
    "ids": (weight_set("1", ([PLAIN], {"ids": [7, 8, 9]})), [OF_SET.format(1)]),
    "local tries": (tunable("choose_local_tries", 2), ["tunable choose_local_tries"]),
    "local fallback tries": (tunable("choose_local_fallback_tries", 5), ["tunable choose_local_fallback_tries"]),
    "all at once": (everything, ["bucket host0: straw", OF_RULE, "tunable choose_local_tries"]),
    # what is computed
    "each kind": (kinds("list", "straw2", "tree", "uniform"), ["yes"]),
    "a dump without weight sets": (lambda crush: crush.pop("choose_args"), ["yes"]),
    "a flat weight set": (weight_set("-1", ([PLAIN], {}), ([OTHER], {})), ["yes"]),
    "equal positions": (weight_set("1", ([OTHER] * 3, {"ids": []})), ["yes"]),
    "a name as of tries": (lambda crush: crush["rules"][0]["steps"][0].update(item_name="choose_local"), ["yes"]),
}
# what is no dump of a map: none of these may look like an answer
BROKEN = {
    "nothing": b"",
    "no JSON": b"Error ENOENT: no such command\n",
    "half a dump": json.dumps(crush_dump()).encode()[:400],
    "another dump": b'{"epoch": 7, "pools": []}',
    "a list": b"[]",
}


def line():
    """The line as README has it."""
    blocks = README.read_text().split(f"\n{FENCE}")
    found = [it.partition("\n")[2] for it in blocks if it.partition("\n")[2].startswith(FIRST)]
    equals("README's lines over a dump", len(found), 1)
    return found[0]


def said(folder, dump):
    """What the line prints of a dump, its status, and whether it says anything else."""
    (folder / "dump").write_bytes(dump)
    (folder / "bin").mkdir(exist_ok=True)
    ceph = folder / "bin" / "ceph"
    ceph.write_text(f'#!/bin/sh\n[ "$*" = "osd crush dump -f json" ] && exec cat {folder}/dump\n')
    ceph.chmod(0o755)
    how = {"stdin": subprocess.DEVNULL, "stdout": subprocess.PIPE, "stderr": subprocess.PIPE, "timeout": SECONDS}
    ran = subprocess.run(["sh", "-c", line()], env={**os.environ, "PATH": f"{folder}/bin:{os.environ['PATH']}"}, **how)
    return ran.stdout.decode().splitlines(), ran.returncode, ran.stderr.decode()


def kept(_, folder):
    """Of the kept clusters, whose answers Ceph gave, of examples/july and of real clusters, whose
    groups lay as computed, each is computed."""
    own = [*(CLUSTERS / it for it in KEPT), TOP / "examples" / "july"]
    dumps = [it / "crush.json" for it in own] + [*REAL.glob("*/crush.json")]
    wants(len(dumps) > len(own), "there is no dump of a real cluster")
    for it in dumps:
        equals(it, said(folder, it.read_bytes()), (["yes"], 0, ""))


def changed(change, wanted):
    def case(runner, folder):
        # Ceph places by weight sets in straw2 buckets alone
        crush = copy.deepcopy(crush_dump(alg="straw2", root="straw2"))  # other cases share its steps
        change(crush)
        equals("the line", said(folder, json.dumps(crush).encode()), (wanted, 0, ""))
        made = cluster(folder / "made")
        (made / "crush.json").write_text(json.dumps(crush))
        code, out, err = runner.run("check", made)
        equals(f"crushplan check ({out[:200]!r}, {err[:200]!r})", out.startswith("yes"), wanted == ["yes"])
        equals("its status", code == 0, wanted == ["yes"])

    return case


def broken(dump):
    def case(_, folder):
        out, status, err = said(folder, dump)
        wants(not out and status and err, f"it prints {out} with status {status}")

    return case


def cases():
    yield "kept dumps", kept
    for name, (change, wanted) in CHANGES.items():
        yield name, changed(change, wanted)
    for name, dump in BROKEN.items():
        yield name, broken(dump)
