"""What is tried of the module crushplan in a real manager, step by step. What is expected comes
from crushplan on fetched dumps, or from Ceph."""
import json
import time

from managed import INTERVAL, Wrong, equals, real

SETTLED = 15  # seconds after which what OSDs use is looked at again
# each command of the module, and the same words of crushplan
COMMANDS = (
    ("check", {}, []),
    ("usage", {}, []),
    ("usage", {"pool": ["photos"], "by": "host", "groups": True}, ["--pool", "photos", "--by", "host", "--groups"]),
    ("drain", {"names": ["host1"]}, ["host1"]),
    (
        "drain", {"names": ["host1", "osd.4-5"], "by": "host", "groups": True},
        ["host1", "osd.4-5", "--by", "host", "--groups"],
    ),
    ("fail", {"names": ["host2"], "groups": True}, ["host2", "--groups"]),
    ("fail", {"each": "host"}, ["--each", "host"]),
    ("fail", {"each": "osd"}, ["--each", "osd"]),
    ("locate", {"pool": "photos", "objects": ["photo-1", "a b", "ä/🦀"]}, ["photos", "photo-1", "a b", "ä/🦀"]),
    ("locate", {"group": ["1.9", "1.1f"]}, ["--group", "1.9", "--group", "1.1f"]),
    ("balance", {}, []),
    ("balance", {"names": ["photos"], "moves": "3", "for_bytes": "0"}, ["photos", "--moves", "3", "--for-bytes", "0"]),
    ("balance", {"primaries": True}, ["--primaries"]),  # refused before release 18
)  # fmt: skip
# what is refused, and the words of crushplan that are
REFUSED = (
    ("drain", {"names": ["host9"]}, ["host9"]),
    ("drain", {}, []),
    ("drain", {"names": ["host1"], "class": "ssd"}, ["host1", "--class", "ssd"]),
    ("fail", {"each": "hots"}, ["--each", "hots"]),
    ("usage", {"pool": ["photo"]}, ["--pool", "photo"]),
    ("locate", {"group": ["1.ffff"]}, ["--group", "1.ffff"]),
    ("balance", {"names": ["photo"]}, ["photo"]),
    ("balance", {"moves": "few"}, ["--moves", "few"]),
)
UPMAP = b"ceph osd pg-upmap-items 1.3 0 6 1 7\nceph osd pg-upmap-items 1.9 2 4\n"
RUNBOOK = b"""ceph osd out 6 7 # a host
wait
systemctl stop ceph-osd@6 ceph-osd@7
ceph osd purge 6 --yes-i-really-mean-it
ceph osd purge 7 --yes-i-really-mean-it
wait
ceph osd crush rm host3
"""
# commands with a file that they are sent, and the words of crushplan
SENT = (
    ("upmap", UPMAP, {}, []),
    ("plan", RUNBOOK, {}, []),
    ("plan", RUNBOOK, {"rate": "80", "orders": True, "groups": True}, ["--rate", "80", "--orders", "--groups"]),
    ("plan", b"ceph osd crush reweight osd.99 1\nceph osd out 1\n", {}, []),
)
# the same of those that are refused: a line that is no command, and one that reads a file
SENT_REFUSED = (
    ("plan", b"ceph osd out 1\nceph osd oot 2\n", {}, []),
    ("plan", RUNBOOK, {"rate": "fast"}, ["--rate", "fast"]),
    ("plan", b"ceph osd out 1\nceph osd setcrushmap -i new.bin\n", {}, ["--no-files"]),
)
TRIES = 8  # how full devices are changes from one moment to the next
EINVAL = -22


def commands(it):
    """Each command's answer is the command line's on fetched dumps, as text and as JSON."""
    asked = [(command, words, own, b"") for command, words, own in COMMANDS]
    asked += [(command, words, [*own, "-"], given) for command, given, words, own in SENT]
    for command, words, own, given in asked:
        for more, form in (({}, []), ({"format": "json"}, ["--json"])):
            same(it, command, {**words, **more}, [*own, *form], given)
    same(it, "check", {}, [], fetch=it.fetch_by_crushplan)


def same(it, command, words, own, given=b"", fetch=None):
    for left in reversed(range(TRIES)):
        status, said = it.ask(command, given, **words)
        found, wanted = (status, lines(said)), expected(it, command, (fetch or it.fetch)(), own, given)
        if found == wanted:
            return
        if not left:
            equals(f"{command} {words}", found, wanted)
        time.sleep(1)


def expected(it, command, folder, own, given):
    """Returns the status and the lines that the module has to answer, by the command line on
    dumps."""
    _, out, err = it.run(command, folder, *own, given=given)
    if out and not err:
        return 0, lines(out)
    last = err.strip().splitlines()[-1]
    return EINVAL, [f"refused: {last.partition(': error: ')[2] or last.removeprefix('crushplan: ')}"]


def lines(text):
    """Returns the lines of a text without blanks at their ends: the manager takes an empty line
    away, and the module has a blank in it."""
    return [it.rstrip() for it in text.rstrip().split("\n")]


def refusals(it):
    """What is refused says so in its first word, as the command line says why, and is an error."""
    folder = it.fetch()
    asked = [(command, words, own, b"") for command, words, own in REFUSED]
    asked += [(command, words, [*own, "-"], given) for command, given, words, own in SENT_REFUSED]
    for command, words, own, given in asked:
        status, wanted = expected(it, command, folder, own, given)
        equals(f"{command} {words} by crushplan: {wanted[:3]}", status, EINVAL)
        for form in ({}, {"format": "json"}):
            equals(f"{command} {words} {form}", it.ask(command, given, **words, **form), (EINVAL, wanted[0]))
    equals("a form", it.ask("check", format="xml"), (EINVAL, "refused: crushplan answers plain or json, and not xml"))
    for command in ("upmap", "plan"):
        equals("no file", it.ask(command), (EINVAL, f"refused: ceph crushplan {command} wants a file, by -i FILE"))
    status, said = it.ask("plan", SENT_REFUSED[-1][1])
    equals(said, (status, "line 2 ('ceph osd setcrushmap -i new.bin') can't be followed here" in said), (EINVAL, True))


def options_as_names(it):
    """A name that is written as an option is a name: none reaches crushplan as an option."""
    mark = it.folder / "was-run"
    program = scripted(it, "evil", f"touch {mark}")
    option = f"--program={program}"
    for words in ({"names": [option]}, {"names": ["--", option]}, {"class": f"x {option}"}):
        status, said = it.ask("drain", **words)
        equals(f"{words}: {said}", (status, said.startswith("refused: "), mark.exists()), (EINVAL, True, False))
    status, said = it.ask("locate", pool=option, objects=["--html=/tmp/x"])
    equals(said, (status, mark.exists()), (EINVAL, False))


def scripted(it, name, body):
    """Returns the path of a program that does something else than crushcalc."""
    path = it.folder / name
    path.write_text(f"#!/bin/sh\n{body}\n")
    path.chmod(0o755)
    return path


def healthy(it):
    """Where each host can fail there is no check, but of an unproved program."""
    it.await_foretold(False)
    said = it.run("check", it.fetch(), "--json")[1]
    equals("groups that differ", json.loads(said)["lying"]["others"], [])
    is_unproved = "unproved" in real.run(it.program, "--version")
    equals("other checks", sorted(it.checks()), ["PROGRAM"] * is_unproved)


def host_stopped(it):
    """A host's processes end: what would stop by the next failure is said, until they are back."""
    it.cluster.end(["osd.6", "osd.7"])
    it.cluster.told("osd down", ids=["6", "7"], definitely_dead=True)
    it.cluster.await_up(range(6))
    found = it.await_foretold(True)
    if not any(stops for _, stops, _, _ in found):
        raise Wrong(f"no group would stop: {found}")
    status = real.run("ceph", "-c", it.cluster.conf, "-s")
    if f"{len(found)} hosts can't fail without harm" not in status:
        raise Wrong(f"ceph -s says {status}")
    for device in (6, 7):
        it.cluster.start_osd(device)
    it.cluster.await_up(range(8))
    it.await_foretold(False)
    if "can't fail" in real.run("ceph", "-c", it.cluster.conf, "-s"):
        raise Wrong("ceph -s still has it")


def reweighted(it):
    """A host gets the reweight 0: three are left, of which none can fail, until it is back."""
    for device in ("6", "7"):
        it.cluster.told("osd reweight", id=int(device), weight=0.0)
    found = it.await_foretold(True)
    if not all(missing for _, _, missing, _ in found):
        raise Wrong(f"no copy would lack a device: {found}")
    for device in ("6", "7"):
        it.cluster.told("osd reweight", id=int(device), weight=1.0)
    it.await_foretold(False)


def fullest(it):
    """Returns which part of the fullest device would be used, whichever host fails, once it stays
    so: for a while after it began, an OSD uses ever less."""
    end, last = time.monotonic() + real.PATIENCE, None
    while True:
        rows = json.loads(it.run("fail", it.fetch(), "--each", "host", "--json")[1])["each"]
        most = max(of["fullest"]["used_after"] for of in rows)
        if most == last or time.monotonic() > end:
            return most
        last = most
        time.sleep(SETTLED)


def filled(it):
    """A device would be past the backfill-full ratio, until that is higher again."""
    most = fullest(it)
    for name in ("nearfull", "backfillfull"):
        it.cluster.told(f"osd set-{name}-ratio", ratio=round(most - 0.01, 3))
    found = it.await_foretold(True)
    if not any(full for _, _, _, full in found):
        raise Wrong(f"no device would be too full: {found}")
    for name, ratio in (("backfillfull", 0.9), ("nearfull", 0.85)):
        it.cluster.told(f"osd set-{name}-ratio", ratio=ratio)
    it.await_foretold(False)


def too_large_pool(it):
    """A pool needs more hosts than there are, until it is gone."""
    it.make_pool("wide", 16, 5)
    found = it.await_foretold(True)
    if len(found) != 4 or not all(missing for _, _, missing, _ in found):
        raise Wrong(f"of four hosts {found}")
    it.remove_pool("wide")
    it.await_foretold(False)


def muted(it):
    """A check can be muted, and comes back."""
    it.make_pool("wide", 16, 5)
    it.await_foretold(True)
    it.cluster.told("health mute", code="CRUSHPLAN_CANT_FAIL")
    it.await_check("CANT_FAIL", lambda of: of and of[3])
    it.cluster.told("health unmute", code="CRUSHPLAN_CANT_FAIL")
    it.await_check("CANT_FAIL", lambda of: of and not of[3])
    it.remove_pool("wide")
    it.await_check("CANT_FAIL", lambda of: of is None)


def uncomputed(it):
    """Pools that aren't computed are a check where the option says so."""
    told = it.cluster.told
    told("osd crush weight-set create", pool="photos", mode="positional")
    told("osd crush weight-set reweight", pool="photos", item="osd.0", weight=[1.0, 0.5, 1.0])
    why = next(of["why"] for of in json.loads(it.run("check", it.fetch(), "--json")[1])["pools"])
    time.sleep(3 * INTERVAL)
    equals("while it is off", it.checks().get("NOT_COMPUTED"), None)
    it.set("uncomputed", "true")
    found = it.await_check("NOT_COMPUTED", bool)
    equals("the check", found[:3], (1, "1 pool of 1 isn't computed", [f"pool photos (1): {why}"]))
    status, said = it.ask("drain", names=["host1"])
    equals(f"a drain: {said[:200]}", (status, said.split()[0]), (0, "unknown:"))
    told("osd crush weight-set rm", pool="photos")
    it.await_check("NOT_COMPUTED", lambda of: of is None)
    it.set("uncomputed", "false")


STEPS = {
    "healthy": healthy, "a host stopped": host_stopped, "a reweight": reweighted,
    "a device that is nearly full": filled, "a pool that is too large": too_large_pool, "muted": muted,
    "not computed": uncomputed, "commands": commands, "refusals": refusals, "options as names": options_as_names,
}  # fmt: skip
