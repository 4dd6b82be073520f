"""The module of Ceph's manager without Ceph: by a manager that knows what a folder of dumps has."""
import ast
import collections
import importlib.util
import json
import os
import pathlib
import shutil
import sys
import threading
import time
import tracemalloc
import types

from made import crush_dump, osd_dump, pool, write
from metrics_cases import FULL, FakeModule, failing, stats_of, usage_dump, with_groups
from running import PLAN, equals, wants

from crushplan_parts.faults import Fault, NoAnswer
from crushplan_parts.runs import Runs
from crushplan_parts.watch import Watch

MODULE = PLAN.parent / "mgr" / "crushplan" / "module.py"
REAL = pathlib.Path(__file__).resolve().parent / "releases"
LOOKS, MOST_GROWTH = 50, 1 << 20  # of looks at a cluster, and bytes that they may leave
EIO, EINVAL = -5, -22
SHORT = 10  # seconds that a program may hang
# of the replies of crushcalc that of a group with its first two devices in another order
SWAPPED = r"s/^\(200 {.*\"group\":9,.*\"up\":\[\)\([0-9]*\),\([0-9]*\)/\1\3,\2/"


# commands with what `ceph` sends in a file and as options, and the same words of crushplan
RUNBOOK = "ceph osd out 3\nwait\nceph osd purge 3 --yes-i-really-mean-it\n"
# what rules have in dumps of release 16 alone, and the steps of one of release 19
RULE_FIELDS = ("ruleset", "min_size", "max_size")
MSR_STEPS = [
    {"op": "take", "item": -1, "item_name": "default"}, {"op": "choosemsr", "num": 0, "type": "host"},
    {"op": "choosemsr", "num": 1, "type": "osd"}, {"op": "emit"},
]  # fmt: skip
NEW_MAP = "ceph osd setcrushmap -i new.bin"
ASKED = (
    ("upmap", "ceph osd pg-upmap-items 1.9 3 7\n", {}, []),
    ("plan", RUNBOOK, {}, []),
    ("plan", RUNBOOK, {"rate": "80", "orders": True, "groups": True}, ["--rate", "80", "--orders", "--groups"]),
    ("plan", "ceph osd out 99\n", {}, []),
    ("balance", "", {}, []),
    (
        "balance",
        "",
        {"names": ["photos"], "moves": "3", "for_bytes": "0"},
        ["photos", "--moves", "3", "--for-bytes", "0"],
    ),
    ("balance", "", {"until_fill": "80"}, ["--until-fill", "80"]),
    ("balance", "", {"primaries": True}, ["--primaries"]),
)


class Manager:
    """What Ceph's manager gives its modules (mgr_module.py)."""

    def __init__(self, fake, folder, options):
        self.fake, self.folder, self.checks, self.log = fake, folder, [], types.SimpleNamespace(exception=print)
        self.options = {**{it["name"]: it["default"] for it in self.MODULE_OPTIONS}, **options}

    def get_osdmap(self):
        return self.fake.get_osdmap()

    def get(self, name):
        return self.fake.get(name)

    def get_ceph_option(self, name):
        return str(self.folder) if name == "mgr_data" else None

    def get_module_option(self, name):
        return self.options[name]

    def set_health_checks(self, checks):
        self.checks.append(checks)


def option(*, name, default, type, desc, **more):  # noqa: A002
    """Stands for the manager's Option: from release to release its parameters change places."""
    return {"name": name, "default": default}


def loaded(**more):
    """Returns the module, loaded beside a manager's own module that is no more than this."""
    result = collections.namedtuple("HandleCommandResult", "retval stdout stderr")
    own = types.SimpleNamespace(HandleCommandResult=result, MgrModule=Manager, Option=option, **more)
    sys.modules["mgr_module"] = own
    spec = importlib.util.spec_from_file_location("crushplan_of_manager", MODULE)
    found = importlib.util.module_from_spec(spec)
    spec.loader.exec_module(found)
    return found


def module_on(runner, folder, **options):
    """Returns the module of a manager that knows the cluster of a folder."""
    osd, crush = (json.loads((folder / f"{name}.json").read_text()) for name in ("osd", "crush"))
    room = json.loads((folder / "osd-df.json").read_text())
    rows = json.loads((folder / "pgs.json").read_text())
    rows = rows["pg_stats"] if "pg_stats" in rows else rows  # as Ceph writes it
    fake = FakeModule(osd, crush, usage_dump(90), stats_of(room), rows)
    return loaded().Module(fake, folder / "mgr", {"program": str(runner.program), **options})


def usual(runner, folder):
    failing(folder)
    with_groups(runner, folder)
    return folder


def told(module, command, given="", **words):
    it = module.handle_command(given, {"prefix": f"crushplan {command}", **words})
    return it.retval, it.stdout or it.stderr


def commands(runner, folder):
    """Each command answers as crushplan does; an empty line has a blank, since managers leave it
    out."""
    module = module_on(runner, usual(runner, folder))
    given = {"drain": {"names": ["host1"], "groups": True}, "fail": {"each": "host"}, "usage": {"groups": True}}
    for name, *words in FULL:
        wanted = runner.run(name, folder, *words)[1].replace("\n\n", "\n \n")
        equals(name, told(module, name, **given.get(name, {})), (0, wanted))
        wanted = runner.said(name, folder, *words)
        status, said = told(module, name, format="json", **given.get(name, {}))
        equals(f"{name}: JSON", (status, json.loads(said)), (0, wanted))
    for name, text, given, words in ASKED:
        words = [*words, "-"] if text else words
        wanted = runner.run(name, folder, *words, given=text.encode())[1].replace("\n\n", "\n \n")
        equals(name, told(module, name, text, **given), (0, wanted))
        wanted = json.loads(runner.run(name, folder, *words, "--json", given=text.encode())[1])
        status, said = told(module, name, text, format="json", **given)
        equals(f"{name}: JSON", (status, json.loads(said)), (0, wanted))
    equals("folders that are left", os.listdir(folder / "mgr" / "crushplan"), [])


def refusals(runner, folder):
    """What is refused says so in its first word; no word becomes an option."""
    module = module_on(runner, usual(runner, folder))
    mark = folder / "was-run"
    evil = scripted(folder, "evil", f"touch {mark}")
    option, absent = f"--program={evil}", "crush.json has no host, rack or device"
    for command, words, wanted in (
        ("drain", {"names": ["host9"]}, f"{absent} 'host9'; the nearest is host3"),
        ("drain", {"names": [option]}, f"{absent} '{option}'"),
        ("drain", {"names": ["--", option]}, ""),
        ("usage", {"pool": [f"photos {option}"]}, "there is no pool"),
        ("locate", {"pool": option, "objects": ["a"]}, "there is no pool"),
        ("fail", {"each": "hots"}, "crush.json has no type"),
        ("check", {"format": "xml"}, "crushplan answers plain or json, and not xml"),
        ("upmap", {}, "ceph crushplan upmap wants a file"),
        ("plan", {}, "ceph crushplan plan wants a file"),
        ("plan", {"given": "ceph osd out 1\nceph osd oot 2\n"}, "standard input: line 2: there is no command"),
        ("plan", {"given": f"ceph osd out 1\n{NEW_MAP}\n"}, f"line 2 ('{NEW_MAP}') can't be followed here: "),
        ("plan", {"given": f"{NEW_MAP.replace('new.bin', '/etc/passwd')}\n"}, "line 1 ('ceph osd setcrushmap -i "),
        ("plan", {"given": RUNBOOK, "rate": "fast"}, "argument --rate: 'fast' isn't a number above 0"),
        ("balance", {"names": ["phots"]}, "there is no pool"),
        ("balance", {"moves": "3", "deviation": "2"}, "argument --moves: not allowed with argument --deviation"),
        ("balance", {"names": [option]}, "there is no pool"),
    ):
        for form in ({}, {"format": "json"}):
            status, said = told(module, command, **{**form, **words})
            found = (status, said.startswith(f"refused: {wanted}"), mark.exists())
            equals(f"{command} {words}: {said}", found, (EINVAL, True, False))


def scripted(folder, name, body):
    path = folder / name
    path.write_text(f"#!/bin/sh\n{body}\n")
    path.chmod(0o755)
    return path


def hanging(folder):
    """Returns the body of a program that doesn't end by itself, and says its number in a file."""
    return f"echo $$ >{folder}/pid; trap '' TERM; while :; do sleep 1; done"


def bad_programs(runner, folder):
    """A program that is missing, crashes or writes nonsense: an unknown answer, and a check."""
    usual(runner, folder)
    bodies = {"crashes": "kill -SEGV $$", "nonsense": "echo 200 []"}
    for name in ("nowhere", *bodies):
        program = scripted(folder, name, bodies[name]) if name in bodies else folder / name
        module = module_on(runner, folder, program=str(program))
        status, said = told(module, "drain", names=["host1"])
        equals(f"{name}: {said}", (status, said.split()[0]), (EIO, "unknown:"))
        checks = module.looked()
        equals(f"{name}: {checks}", (list(checks), checks["CRUSHPLAN_PROGRAM"]["count"]), (["CRUSHPLAN_PROGRAM"], 2))


def differing_program(runner, folder):
    """A program that has one group elsewhere: a check has it, and each answer is unknown."""
    usual(runner, folder)
    program = scripted(folder, "lies", f"'{runner.program}' \"$@\" | sed '{SWAPPED}'")
    module = module_on(runner, folder, program=str(program))
    checks = module.looked()
    of = runner.said("check", folder, "--program", program)["lying"]["others"]
    equals("the groups", [it["id"] for it in of], ["1.9"])
    line = f"1.9 up {of[0]['up']} primary {of[0]['up_primary']}, computed {of[0]['here']} {of[0]['here_primary']}"
    equals("the check", checks["CRUSHPLAN_DIFFERS"]["detail"], [line])
    summary = checks["CRUSHPLAN_CANT_FAIL"]["summary"]
    wants(summary.startswith("unknown, since 1 group lies otherwise: "), summary)
    status, said = told(module, "locate", group=["1.9"])
    equals(said, (status, said.split()[0]), (0, "unknown:"))


def hanging_program(runner, folder):
    """A program that hangs: an unknown answer once the time is over, and nothing of it is left."""
    usual(runner, folder)
    program = scripted(folder, "hangs", hanging(folder))
    module = module_on(runner, folder, program=str(program), seconds=SHORT)
    wanted = f"unknown: crushplan hasn't answered within {SHORT} seconds"
    equals("the answer", told(module, "drain", names=["host1"]), (EIO, wanted))
    if (folder / "pid").exists():  # on a busy machine it hasn't begun by then
        is_gone((folder / "pid").read_text().strip())


def is_gone(pid):
    end = time.monotonic() + 30
    while pathlib.Path("/proc", pid).exists():
        wants(time.monotonic() < end, f"the process {pid} is there")
        time.sleep(0.2)


def ended(runner, folder):
    """A module that is shut down ends what runs, and begins nothing else."""
    usual(runner, folder)
    program = scripted(folder, "hangs", hanging(folder))
    module = module_on(runner, folder, program=str(program), seconds=600, watch_seconds=600)
    thread = threading.Thread(target=module.serve)
    thread.start()
    end = time.monotonic() + 60
    while not (folder / "pid").exists() and time.monotonic() < end:
        time.sleep(0.1)
    module.shutdown()
    thread.join(60)
    equals("the thread, and the checks", (thread.is_alive(), module.checks), (False, []))
    is_gone((folder / "pid").read_text().strip())
    equals("a command", told(module, "check"), (EIO, "unknown: the module is being stopped"))


def no_disk(runner, folder):
    """Dumps that can't be written: a command and a look say so."""
    module = module_on(runner, usual(runner, folder))
    (folder / "mgr").write_text("a file in the place of the folder")
    status, said = told(module, "check")
    equals(said, (status, said.startswith(("unknown: NotADirectoryError", "unknown: FileExistsError"))), (EIO, True))
    wants("Error: " in module.looked()["CRUSHPLAN_PROGRAM"]["summary"], "no word of it")


def looks(runner, folder):
    """A look computes where something changed, and keeps what was known where there is no
    answer."""
    osd, used = osd_dump(), [{"osd": it, "kb": 1000, "kb_used": 10} for it in range(12)]
    asked, answers = [], []

    def answer(words):
        asked.append(words)
        it = answers.pop(0)
        if isinstance(it, Fault):
            raise it
        return json.dumps(it)

    write(folder / "dumps", crush_dump(), osd)
    bad = runner.said("metrics", failing(folder / "failing"))
    good = {**runner.said("metrics", folder / "dumps"), "proved": True}
    watch, fake = Watch(answer, folder / "looked"), FakeModule(osd, crush_dump(), {}, used, [])
    fake.map.osd = {**osd, "pools": []}

    def look(types=("host",), own=("",), with_uncomputed=False):
        return sorted(watch.look(fake, types, own, with_uncomputed))

    answers.append(good)
    equals("at first", (look(), len(asked)), ([], 1))
    equals("nothing changed", (look(), len(asked)), ([], 1))
    wants("--each=host" in asked[0] and asked[0][0] == "metrics" and "--json" in asked[0], str(asked[0]))
    answers.append(bad)
    fake.map.osd = {**fake.map.osd, "epoch": 8}
    equals("an epoch", (look(), len(asked)), ([], 1))
    fake.map.osd = {**fake.map.osd, "epoch": 9, "nearfull_ratio": 0.5}
    equals("a host can't fail", ("CRUSHPLAN_CANT_FAIL" in look(), len(asked)), (True, 2))
    answers += [NoAnswer("it is gone")] * 2 + [good]
    both = ["CRUSHPLAN_CANT_FAIL", "CRUSHPLAN_PROGRAM"]
    equals("another program, which is gone", (look(own=("other",)), len(asked)), (both, 3))
    equals("still", (look(own=("other",)), len(asked)), (both, 4))
    equals("it is back", (look(own=("other",)), len(asked)), ([], 5))
    answers.append(good)
    equals("other types", (look(types=("host", "rack"), own=("other",)), len(asked)), ([], 6))
    equals("no type", (look(types=()), len(asked)), ([], 6))
    equals("no folder is left", (folder / "looked").exists(), False)


def many_looks(runner, folder):
    """Many looks leave no memory behind."""
    usual(runner, folder)
    module = module_on(runner, folder)
    said = json.dumps(runner.said("metrics", folder))
    watch = Watch(lambda words: said, folder / "looked")
    tracemalloc.start()
    try:
        sizes = []
        for number in range(LOOKS):
            module.fake.map.osd.update(epoch=number, nearfull_ratio=number / LOOKS)
            wants("CRUSHPLAN_CANT_FAIL" in watch.look(module, ("host",), (), False), "the check is gone")
            if number in (LOOKS // 5, LOOKS - 1):
                sizes.append(tracemalloc.get_traced_memory()[0])
    finally:
        tracemalloc.stop()
    wants(sizes[1] - sizes[0] < MOST_GROWTH, f"it grew by {sizes[1] - sizes[0]:,} bytes")


def runs_of_others(runner, folder):
    """A crushplan that is missing, or says nothing, is named."""
    ended = "crushplan ended with status"
    for body, wanted in ((None, "nowhere"), ("exit 0", f"{ended} 0 and said nothing"), ("exit 7", f"{ended} 7")):
        path = folder / "nowhere" if body is None else scripted(folder, "other", body)
        try:
            Runs(path).run(["check"], 10)
            wants(False, f"{body} is answered")
        except Fault as fault:
            wants(wanted in str(fault), str(fault))


def cut_short(runner, folder):
    """A search that is told to end gives what it found; another command has no answer."""
    writes = "trap 'echo interrupted: 3 copies so far; exit 1' INT; while :; do sleep 0.1; done"
    found = Runs(scripted(folder, "search", writes)).run(["balance"], 1)
    equals("a search", found, "interrupted: 3 copies so far\n")
    for ends in ("exit 130", "trap - INT; kill -INT $$"):
        path = scripted(folder, "other", f"trap '{ends}' INT; while :; do sleep 0.1; done")
        try:
            Runs(path).run(["drain"], 1)
            wants(False, f"{ends} is answered")
        except NoAnswer as fault:
            equals(ends, str(fault), "unknown: crushplan hasn't answered within 1 seconds")


def of_release(number):
    """Returns the map and the pools of a cluster as a release dumps them: rules without sizes from
    17 on, set primaries from 18 on, MSR rules from 19 on."""
    crush, osd = crush_dump(alg="straw2", root="straw2"), osd_dump()
    if number >= 17:
        crush["rules"] = [{key: it for key, it in of.items() if key not in RULE_FIELDS} for of in crush["rules"]]
    if number >= 18:
        osd["pg_upmap_primaries"] = []
        osd["pools"][0]["read_balance"] = {"score_type": "Fair distribution", "score_acting": 1.0}
    if number >= 19:
        crush["tunables"].update(msr_descents=100, msr_collision_tries=100)
        crush["rules"].append({"rule_id": 1, "rule_name": "msr", "type": 4, "steps": MSR_STEPS})
        osd["pools"].append(pool(2, "new", crush_rule=1))
    return crush, osd


def dumps_of_releases(runner, folder):
    """What the releases 17 to 19 dump otherwise than 16 changes no answer of the module; a pool of
    an MSR rule is left out by name."""
    room = {"nodes": [{"id": it, "kb": 320 << 20, "kb_used": 23 << 20} for it in range(12)]}
    told_of = {}
    for number in (16, 17, 18, 19):
        own = folder / str(number)
        crush, osd = of_release(number)
        write(own, crush, osd, df_json=usage_dump(90), osd__df_json=room)
        with_groups(runner, own)
        rows = json.loads((own / "pgs.json").read_text())
        rows += [{**it, "pgid": f"2.{it['pgid'].split('.')[1]}"} for it in rows if number >= 19]
        write(own, pgs_json=json.dumps(rows))
        module = module_on(runner, own)
        asked = (("check", {}), ("usage", {"pool": ["photos"], "groups": True}), ("drain", {"names": ["host1"]}))
        told_of[number] = [json.loads(told(module, name, format="json", **words)[1]) for name, words in asked]
        check, usage, drain = told_of[number]
        wanted = [("photos", True), ("new", False)][: len(osd["pools"])]
        equals(f"{number}: pools", [(it["name"], it["computed"]) for it in check["pools"]], wanted)
        equals(f"{number}: usage", usage["groups"], told_of[16][1]["groups"])
        equals(f"{number}: what moves", drain["pools"][0], told_of[16][2]["pools"][0])
        equals(f"{number}: a drain", drain["status"], told_of[16][2]["status"] if number < 19 else 2)
        wants(all("MSR rule" in it["text"] for it in check["uncomputed"]), check["uncomputed"])
        checks = module.looked()
        equals(f"{number}: {checks}", checks.get("CRUSHPLAN_PROGRAM", {}).get("count", 1), 1)  # 1: it is unproved


def real_dumps(runner, folder):
    """Dumps of real clusters of releases 18.2.7 and 20.2.4, with a set primary, an affinity, a
    reweight and an upmap item, in 20 also with an optimized erasure code and an MSR rule: groups
    lie as computed, the pool of the MSR rule is left out by name, and the module answers the
    same."""
    for number, names in (("18", ["photos", "archive"]), ("20", ["photos", "archive", "wide"])):
        own = shutil.copytree(REAL / number, folder / number)
        said = runner.said("check", own)
        computed = [(it["name"], it["computed"]) for it in said["pools"]]
        equals(f"{number}: pools", computed, [(it, it != "wide") for it in names])
        equals(
            f"{number}: uncomputed", ["MSR rule" in it["text"] for it in said["uncomputed"]], [True] * len(names[2:])
        )
        lying = {name: said["lying"][name] for name in ("groups", "same", "silent", "others")}
        equals(f"{number}: groups", lying, {"groups": 64, "same": 64, "silent": [], "others": []})
        module = module_on(runner, own)
        equals(f"{number}: by the module", json.loads(told(module, "check", format="json")[1])["lying"], said["lying"])
        checks = module.looked()
        equals(f"{number}: {checks}", checks.get("CRUSHPLAN_PROGRAM", {}).get("count", 1), 1)  # 1: it is unproved


def releases(runner, folder):
    """The module and crushplan's parts are of Python 3.9, which the managers of release 17 have."""
    for it in (MODULE, *(PLAN.parent / "crushplan_parts").glob("*.py")):
        ast.parse(it.read_text(), feature_version=(3, 9))
    declared = [it["cmd"] for it in loaded().Module.COMMANDS]
    names = ["check", "drain", "fail", "usage", "locate", "upmap", "plan", "balance"]
    equals("commands", [it.split()[1] for it in declared], names)
    wants(all(it["perm"] == "r" and it["desc"] for it in loaded().Module.COMMANDS), "a command that may write")
    base = types.SimpleNamespace(make_registry_subtype=lambda name: types.SimpleNamespace(COMMANDS={}))
    equals("in release 20", loaded(CLICommandBase=base).Module.CLICommand.COMMANDS, {})


def cases():
    own = (
        commands, refusals, bad_programs, differing_program, hanging_program, ended, no_disk, looks, many_looks,
        runs_of_others, cut_short, dumps_of_releases, real_dumps, releases,
    )  # fmt: skip
    return [(it.__name__, it) for it in own]
