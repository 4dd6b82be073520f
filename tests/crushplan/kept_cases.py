"""Clusters with the answers of Ceph that are kept in clusters/, and dumps of real clusters, which
are kept in ../cluster/data."""
import json
import os
import pathlib
import shutil

from compared import Comparison, Differs
from running import Wrong, equals, wants

CLUSTERS = pathlib.Path(__file__).resolve().parent / "clusters"
REAL = CLUSTERS.parent.parent / "cluster" / "data"
DUMPS = ("crush.json", "osd.json", "pgs.json")


def compared(folder):
    def case(runner, _):
        os.environ["CRUSHCALC"] = str(runner.program)
        answers = json.loads((folder / "answers.json").read_text())
        try:
            counts = Comparison(folder, answers, runner.command).all()
        except Differs as why:
            raise Wrong(str(why)) from None
        if not all(counts[it] for it in ("groups", "drains", "failures", "moves", "upmaps", "maps", "objects", "sums")):
            raise Wrong(f"too little was compared: {dict(counts)}")

    return case


def real(folder, name, **other):
    """Copies the dumps of a step of a real cluster, some of them of another step."""
    for it in DUMPS:
        shutil.copy(REAL / other.get(it.split(".")[0], name) / it, folder / it)


def is_unknown(runner, folder, what, every=False):
    """Wants the answers on dumps to be unknown, each with the status 2: those of check and drain,
    or of every command."""
    device = json.loads((folder / "osd.json").read_text())["osds"][0]["osd"]
    said = runner.said("check", folder, status=2)
    wants("lie as computed; " in said["answer"] and said["lying"]["others"], f"{what}: check says {said['answer']}")
    (folder / "list").write_text(
        "".join(f"ceph osd rm-pg-upmap-items {it['id']}\n" for it in said["lying"]["others"][:3])
    )
    asked = [
        ("drain", f"osd.{device}"),
        ("usage",),
        ("fail", f"osd.{device}"),
        ("fail", "--each", "host"),
        ("compare", folder / "crush.json"),
        ("upmap", folder / "list"),
        ("locate", "--group", said["lying"]["others"][0]["id"]),
    ]
    for command, *words in asked if every else asked[:1]:
        answer = runner.said(command, folder, *words, status=2)["answer"]
        wants(answer.startswith("unknown: "), f"{what}: {command} {words} says {answer}")
    wants(len(said["lying"]["others"]) + said["lying"]["same"] == said["lying"]["groups"], said["lying"])
    return said["lying"]


def words_of_a_cluster(runner, folder):
    """Dumps of real clusters of straw2, classes and a weight set: all groups lie as computed. With
    a copy of the map of list buckets, with one device's other weight, without the weight set, or
    with the dumps of an earlier time, every answer is unknown."""
    for name in ("straw2-3-upmap", "classes-7-remove", "weights-10-drain"):
        real(folder, name)
        groups = sum(it["pg_num"] for it in json.loads((folder / "osd.json").read_text())["pools"])
        answer = runner.said("check", folder, status=0)["answer"]
        equals(name, answer, f"yes: 4 of 4 pools can be computed; {groups} of {groups} groups lie as computed.")
        map_ = json.loads((folder / "crush.json").read_text())
        as_list = {**map_, "buckets": [{**it, "alg": "list"} for it in map_["buckets"]]}
        heavier = json.loads(json.dumps(map_))
        for it in heavier["buckets"]:
            for of in it["items"]:
                of["weight"] *= 3 if of["id"] == 1 else 1
        for what, other in (
            ("a copy of list buckets", as_list),
            ("another weight", heavier),
            *([("no weight set", {**map_, "choose_args": {}})] if map_["choose_args"] else []),
        ):
            if not (what == "another weight" and map_["choose_args"]):
                (folder / "crush.json").write_text(json.dumps(other))
                is_unknown(runner, folder, f"{name}: {what}", what == "another weight")
    real(folder, "classes-7-remove", crush="classes-2-balance", osd="classes-2-balance")
    wants(is_unknown(runner, folder, "earlier dumps")["same"], "no group lies as before")


def cases():
    for folder in sorted(CLUSTERS.iterdir()):
        if (folder / "answers.json").exists():
            yield f"cluster {folder.name}", compared(folder)
    yield "words of a cluster", words_of_a_cluster
