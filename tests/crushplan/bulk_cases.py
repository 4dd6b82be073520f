"""`crushplan locate --objects`: lists of names, from the hash of tests/model to Ceph's own lists of
the groups; lines that are no names; what lies on some devices; how it ends."""
import csv
import io
import json
import os
import pty
import signal
import subprocess
import sys
import time

from kept_cases import CLUSTERS, real
from made import crush_dump, osd_dump, pool, write
from model import crush
from running import PLAN, SECONDS, equals, wants

HEADS = ["object", "group", "up", "primary"]
NAMES = [f"rbd_data.{it:x}" for it in range(120)] + [
    "cat.jpg", "a,b", 'say "cat"', '"', ",", "two words", " blank", "\u00fc\u2028\U0001f600", "\u0001", "-1", "1.1f",
    "a" * 1024, "\u00e9" * 512,
]  # fmt: skip
# crushplan with small parts of a list, so that short ones have many
IN_PARTS = (
    "import sys; sys.path.insert(0, {parts!r}); from crushplan_parts import bulk, main; bulk.PART = {size};"
    " sys.exit(main.main(sys.argv[1:], []))"
)


def kept(name):
    """Returns the folder of a kept cluster, and Ceph's answers."""
    return CLUSTERS / name, json.loads((CLUSTERS / name / "answers.json").read_text())


def group_of(pool_, name):
    """Returns the name of an object's group, by the model."""
    return f"{pool_['id']}.{crush.stable_mod(crush.name_hash(name.encode()), pool_['pg_num']):x}"


def row_of(pool_, name, placed):
    """Returns the row of an object; `placed` are Ceph's raw and up lists with their primary."""
    group = group_of(pool_, name)
    _, up, primary = placed[group]
    return [name, group, " ".join("-" if it is None else str(it) for it in up), "" if primary is None else str(primary)]


def rows_in(text):
    return list(csv.reader(io.StringIO(text, newline="")))


def listed(names, end="\n"):
    return "\n".join(names).encode() + end.encode()


def located(runner, folder, pool_, names, *words):
    """Returns the rows that are written of names, all of which are computed."""
    status, out, err = runner.run("locate", folder, pool_, "--objects", "-", *words, given=listed(names))
    equals("status and errors", (status, err), (0, ""))
    return rows_in(out)


def rows(runner, folder):
    """Each name lies where Ceph says that its group lies, in the order of the list: from a file and
    from standard input, with heads and without."""
    for name in ("reweighted", "holes", "other-class"):
        own, answers = kept(name)
        for it in answers["pools"][:2]:
            wanted = [HEADS] + [row_of(it, name, answers["before"]) for name in NAMES]
            equals(f"{name}, {it['name']}", located(runner, own, it["name"], NAMES), wanted)
    (folder / "names").write_bytes(listed(NAMES, end=""))
    equals("no line end", rows_in(runner.run("locate", own, it["id"], "--objects", folder / "names")[1]), wanted)
    equals("as CSV", located(runner, own, it["id"], NAMES, "--csv"), wanted)
    equals("without heads", located(runner, own, it["id"], NAMES, "--no-head"), wanted[1:])
    equals("no names", (runner.run("locate", own, it["id"], "--objects", os.devnull)), (0, ",".join(HEADS) + "\n", ""))


def parts(runner, folder):
    """Parts that are located side by side stand in the order of the list, also where lines lie on
    both sides of a cut, and lines without a name keep their numbers."""
    own, answers = kept("reweighted")
    it, names = answers["pools"][0], [*NAMES, *(f"{number}" for number in range(300))]
    given = listed([*names, "x" * 5000, "\tx", *NAMES], end="")
    wanted = [HEADS] + [row_of(it, name, answers["before"]) for name in [*names, *NAMES]]
    for size in (997, 2048):
        driver = IN_PARTS.format(parts=str(PLAN.parent), size=size)
        words = [sys.executable, "-c", driver, "locate", own, it["name"], "--objects", "-"]
        ran = subprocess.run(words, input=given, stdout=subprocess.PIPE, stderr=subprocess.PIPE, env=runner.environment)
        equals(f"parts of {size} bytes", rows_in(ran.stdout.decode()), wanted)
        err = ran.stderr.decode().splitlines()
        equals(
            "lines without a name",
            [line.split(",")[0] for line in err[:2]],
            [f"crushplan: line {len(names) + 1}", f"crushplan: line {len(names) + 2}"],
        )
        equals(
            "status, and how many they are",
            (ran.returncode, err[2:]),
            (
                2,
                [
                    f"crushplan: of {len(names) + 2 + len(NAMES)} lines 2 are left out: 1 longer than 1,024 bytes, 1"
                    " with columns"
                ],
            ),
        )


def no_names(runner, folder):
    """Each line that isn't computed is named with why, and counted; of many twenty are named."""
    write(folder, crush_dump(), osd_dump())
    given = b"cat.jpg\n\n\tdefault.jpg\nspace\tdog.jpg\nkey.jpg\tkey\nwindows\r\n\xff\n" + b"a" * 1025 + b"\ndog.jpg\n"
    status, out, err = runner.run("locate", folder, "photos", "--objects", "-", given=given)
    equals("the names", [it[0] for it in rows_in(out)], ["object", "cat.jpg", "dog.jpg"])
    lines = err.splitlines()
    for place, words in enumerate(
        (
            "line 2, '', isn't computed: it is empty",
            "line 3, '\\tdefault.jpg', isn't computed: it has columns",
            "line 4, ",
            "line 5, ",
            "line 6, 'windows\\r', isn't computed: it has a carriage return",
            "line 7, '\\xff', isn't computed: it isn't UTF-8",
            "line 8, 'aaa",
        )
    ):
        wants(words in lines[place], f"{words!r} isn't in {lines[place]!r}")
    counts = "1 empty, 1 longer than 1,024 bytes, 3 with columns, 1 with a carriage return, 1 not UTF-8"
    equals("status, and the last line", (status, lines[7:]), (2, [f"crushplan: of 9 lines 7 are left out: {counts}"]))
    status, out, err = runner.run("locate", folder, "photos", "--objects", "-", given=b"\n" * 1000)
    equals("empty lines", (status, out, len(err.splitlines())), (2, ",".join(HEADS) + "\n", 21))
    wants(err.endswith("crushplan: of 1,000 lines 1,000 are left out: 1,000 empty\n"), err[-200:])


def only_on(runner, folder):
    """Just the objects that lie on devices or hosts, with the copies that are left elsewhere."""
    own, answers = kept("reweighted")
    it, placed = answers["pools"][0], answers["before"]
    of = {name: placed[group_of(it, name)][1] for name in NAMES}
    tree = json.loads((own / "crush.json").read_text())["buckets"]
    host = next(bucket for bucket in tree if bucket["name"] == answers["hosts"][0])
    below = {item["id"] for item in host["items"]}
    first, second = of[NAMES[0]][:2]
    for words, devices in (
        (f"osd.{first},osd.{second}", {first, second}),
        (f"osd.{first}", {first}),
        (host["name"], below),
    ):
        wanted = [
            [*row_of(it, name, placed), str(len(set(of[name]) - devices))] for name in NAMES if devices & set(of[name])
        ]
        wants(wanted, f"no object lies on {words}")
        equals(f"on {words}", located(runner, own, it["name"], NAMES, "--only-on", words), [[*HEADS, "left"], *wanted])
        for left in (0, 1, 2):
            found = located(runner, own, it["name"], NAMES, "--only-on", words, "--left", left, "--no-head")
            equals(f"on {words}, {left} left", found, [row for row in wanted if int(row[-1]) <= left])


def only_on_down(runner, folder):
    """What lies on a device that is down is there, without it; what lay on one that is out isn't
    known, which is said. Pairs of upmap items count."""
    crush_, osd = crush_dump(), osd_dump(down=(7,))
    osd["pg_upmap_items"] = [{"pgid": f"1.{it:x}", "mappings": [{"from": 7, "to": 8}]} for it in range(8)]
    write(folder, crush_, osd)
    # by Ceph's rule a device that is down keeps its place in the raw list, and has none in up
    groups = {it["id"]: it for it in runner.said("usage", folder, "--groups")["groups"]}
    it = {"id": 1, "pg_num": 64}
    wanted = []
    for name in NAMES:
        group = group_of(it, name)
        if 7 in groups[group]["raw"] and int(group.split(".")[1], 16) >= 8:
            wanted.append((name, str(len(groups[group]["raw"]) - 1)))
    wants(wanted, "nothing lies on osd.7")
    equals(
        "on osd.7",
        [(row[0], row[4]) for row in located(runner, folder, "photos", NAMES, "--only-on", "osd.7", "--no-head")],
        wanted,
    )
    write(folder, crush_, osd_dump(weights={7: 0}))
    status, out, err = runner.run(
        "locate", folder, "photos", "--objects", "-", "--only-on", "osd.7", given=listed(NAMES)
    )
    equals("out", (status, out), (0, ",".join([*HEADS, "left"]) + "\n"))
    wants(err.startswith("crushplan: osd.7 is out: "), err)


def doubted(runner, folder):
    """Where groups lie otherwise in the cluster, the rows are there, and unknown."""
    real(folder, "classes-7-remove", crush="classes-2-balance", osd="classes-2-balance")
    id_ = json.loads((folder / "osd.json").read_text())["pools"][0]["pool"]
    status, out, err = runner.run("locate", folder, id_, "--objects", "-", given=listed(NAMES))
    equals("status, and rows", (status, len(rows_in(out))), (2, len(NAMES) + 1))
    wants(err.startswith("crushplan: unknown: ") and "otherwise in the cluster" in err, err)


def refused(runner, folder):
    """What doesn't go together is refused, as a list that can't be read."""
    write(folder, crush_dump(), osd_dump(pools=[pool(1, "photos", pg_num=8), pool(2, "tier", tier_of=1)]))
    (folder / "names").write_bytes(listed(NAMES))
    list_ = ("--objects", folder / "names")
    for words, has in (
        (list_, "wants a POOL"),
        (("photos", "cat.jpg", *list_), "wants a POOL"),
        (("--group", "1.1", *list_), "wants a POOL"),
        (("photos", "cat.jpg", "--only-on", "host0"), "--only-on goes with --objects"),
        (("photos", "cat.jpg", "--no-head"), "--no-head goes with --objects"),
        (("photos", *list_, "--left", "1"), "--left goes with --only-on"),
        (("photos", *list_, "--only-on", "hots0"), "hots0"),
        (("photos", *list_, "--only-on", "host0,"), "''"),
        (("photos", *list_, "--service", "http://127.0.0.1:1"), "127.0.0.1:1"),
        (("tier", *list_), "is a tier"),
        (("photos", "--objects", folder / "no"), "no: No such file or directory"),
        (("photos", "--objects", folder), "Is a directory"),
    ):
        runner.refused("locate", folder, *words, has=has)
    status, out, _ = runner.run("locate", folder, "photos", *list_, "--json")
    equals("as JSON", (status, json.loads(out)["error"]), (2, "--objects writes CSV, and has no --json"))


def ended(runner, folder):
    """A pipe that closes, a full disk, Ctrl-C and a program that fails end it as other commands,
    and no process is left."""
    write(folder, crush_dump(), osd_dump())
    (folder / "names").write_bytes(listed(NAMES))
    command = " ".join([*runner.command, "locate", str(folder), "photos", "--objects", str(folder / "names")])
    for end, words in (("> /dev/full", "No space left on device"), (">&-", "it is closed")):
        ran = subprocess.run(
            ["sh", "-c", f"{command} {end}"], stdout=subprocess.PIPE, stderr=subprocess.PIPE, env=runner.environment
        )
        wanted = f"crushplan: the answer can't be written to standard output: {words}\n"
        equals(end, (ran.returncode, ran.stderr.decode()), (2, wanted))
    program = folder / "program"
    for how, words in (
        ("exit 3", "isn't a crushcalc that plays scripts"),
        ("kill -9 $PPID", "a process that locates names ended"),
    ):
        # the cluster's own run is played, and the list isn't
        program.write_text(
            "#!/bin/sh\nread -r first\nread -r second\ncase $second in *osd.11*) { printf '%s\\n' \"$first\""
            f' "$second"; cat; }} | {runner.program} "$@" ;; *) {how} ;; esac\n'
        )
        program.chmod(0o755)
        ran = runner.run("locate", folder, "photos", "--objects", folder / "names", "--program", program)
        equals(f"{how}: status and rows", ran[:2], (2, ",".join(HEADS) + "\n"))
        wants(words in ran[2] and ran[2].count("\n") == 1, ran[2])
    for sent in (signal.SIGINT, signal.SIGTERM):
        ran = subprocess.Popen(
            [*runner.command, "locate", str(folder), "photos", "--objects", "-"],
            stdin=subprocess.PIPE,
            stdout=subprocess.PIPE,
            stderr=subprocess.PIPE,
            env=runner.environment,
        )
        equals("the heads", ran.stdout.readline(), (",".join(HEADS) + "\n").encode())
        ran.send_signal(sent)
        equals(sent.name, (ran.wait(SECONDS), *ran.communicate()), (130, b"", b"crushplan: interrupted\n"))
    leader, follower = pty.openpty()
    ran = subprocess.Popen(
        [*runner.command, "locate", str(folder), "photos", "--objects", "-"],
        stdin=subprocess.PIPE,
        stdout=subprocess.PIPE,
        stderr=follower,
        env={**runner.environment, "TERM": "xterm"},
    )
    os.close(follower)
    time.sleep(4)
    ran.communicate(listed(NAMES), timeout=SECONDS)
    wants(b"0 names are located" in os.read(leader, 65536), "no progress is shown")
    os.close(leader)


def cases():
    return [(it.__name__, it) for it in (rows, parts, no_names, only_on, only_on_down, doubted, refused, ended)]
