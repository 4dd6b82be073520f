"""What is written: forms, widths, colours, progress, the help, and the fetching of files."""
import csv
import io
import os
import pty
import re
import select
import shlex
import subprocess
import sys

from made import ONE, STEPS, bucket, crush_dump, osd_dump, pool, rule, text_of, write
from running import PLAN, SECONDS, equals, wants

COMMANDS = ("fetch", "check", "usage", "compare", "drain", "fail", "plan", "balance", "upmap", "locate", "metrics")


def usual(folder):
    write(folder, crush_dump(), osd_dump(pools=[pool(1, "photos"), pool(2, "mail", size=2, min_size=1)]))
    (folder / "list").write_text("ceph osd pg-upmap-items 1.9 0 3\n")


def words_of(folder):
    """A call of each command that computes."""
    return (
        ("check", folder), ("usage", folder), ("usage", folder, "--by", "host"), ("usage", folder, "--groups"),
        ("compare", folder, folder / "crush.json"), ("compare", folder, folder / "crush.json", "--groups"),
        ("drain", folder, "host0"), ("drain", folder, "host0", "--groups"),
        ("fail", folder, "host0"), ("fail", folder, "host0", "--groups"),
        ("fail", folder, "--each", "host"), ("balance", folder), ("upmap", folder, folder / "list"),
        ("locate", folder, "photos", "a", "b"), ("locate", folder, "--group", "1.1f", "--group", "2.0"),
    )  # fmt: skip


def forms(runner, folder):
    """Each command as text, CSV and JSON: the same status, CSV with as many fields in each row, and
    no colours on a pipe."""
    usual(folder)
    for words in words_of(folder):
        said = runner.said(*words)
        code, text, err = runner.run(*words)
        equals(f"{words}: status and standard error", (code, err), (said["status"], ""))
        wants("\033" not in text and text.endswith("\n"), f"{words} has colours, or no end: {text[:80]!r}")
        wants(text.startswith(said["answer"]), f"{words} doesn't begin with its answer: {text[:80]!r}")
        code, rows, err = runner.run(*words, "--csv")
        equals(f"{words}: status of the CSV", (code, err), (said["status"], ""))
        read = list(csv.reader(io.StringIO(rows)))
        wants(len(read) > 1 or words[0] == "compare", f"{words}: a CSV without rows")
        equals(f"{words}: fields of each row", {len(it) for it in read}, {len(read[0])})
        for key in ("crushplan", "command", "status", "answer", "map", "warnings", "uncomputed", "notes"):
            wants(key in said, f"{words}: no field {key}")


def documented(runner, folder):
    """Each field of each command's JSON stands in docs/CRUSHPLAN.md."""
    usual(folder)
    words = set(re.findall(r"`([a-z_0-9]+)`", (PLAN.parent.parent / "docs" / "CRUSHPLAN.md").read_text()))
    for it in words_of(folder):
        missing = sorted(
            name for name in fields_in(runner.said(*it)) if not {name, re.sub("_(before|after)$", "", name)} & words
        )
        equals(f"{it[0]}: fields that the page lacks", missing, [])


def fields_in(value):
    """Yields the names of all fields of a value; members named by files and types are left out."""
    for inner in value if isinstance(value, list) else ():
        yield from fields_in(inner)
    for name, inner in value.items() if isinstance(value, dict) else ():
        yield name
        if name not in ("files", "above"):
            yield from fields_in(inner)


def rows(runner, folder):
    """The rows of a CSV are those of the JSON."""
    usual(folder)
    said, read = runner.said("usage", folder), list(
        csv.DictReader(io.StringIO(runner.run("usage", folder, "--csv")[1]))
    )
    equals(
        "usage",
        [(it["name"], int(it["copies"]), float(it["share"])) for it in read],
        [(it["name"], it["copies"], it["share"]) for it in said["rows"]],
    )
    said, read = runner.said("drain", folder, "host0", "--groups"), list(
        csv.DictReader(io.StringIO(runner.run("drain", folder, "host0", "--groups", "--csv")[1]))
    )
    equals(
        "groups",
        [(it["id"], it["before"], it["after"]) for it in read],
        [(it["id"], " ".join(map(str, it["before"])), " ".join(map(str, it["after"]))) for it in said["groups"]],
    )


def on_terminal(words, environment, columns=80):
    """What a program writes on a terminal of so many columns."""
    leader, follower = pty.openpty()
    import fcntl
    import struct
    import termios

    fcntl.ioctl(follower, termios.TIOCSWINSZ, struct.pack("HHHH", 40, columns, 0, 0))
    ran = subprocess.Popen(
        [sys.executable, str(PLAN), *map(str, words)],
        stdin=subprocess.DEVNULL,
        stdout=follower,
        stderr=follower,
        env=environment,
    )
    os.close(follower)
    found = b""
    while select.select([leader], [], [], SECONDS)[0]:
        try:
            part = os.read(leader, 65536)
        except OSError:
            break
        if not part:
            break
        found += part
    ran.wait(SECONDS)
    os.close(leader)
    return found.decode()


def without_waiting(said):
    """What a program wrote on a terminal, without the lines that it took away again."""
    return re.sub("^(?:\r[^\r]*\033\\[K)+", "", said)


def terminals(runner, folder):
    """On a terminal there are colours, but not with NO_COLOR; tables are as wide as the terminal;
    and a failure of each host in turn shows how far it is."""
    usual(folder)
    environment = {
        name: value for name, value in runner.environment.items() if name not in ("NO_COLOR", "COLUMNS", "LINES")
    }
    environment["TERM"] = "xterm"
    said = without_waiting(on_terminal(("drain", folder, "host0"), environment))
    wants(said.startswith("\033[32myes:"), f"no colour: {said[:60]!r}")
    said = without_waiting(on_terminal(("drain", folder, "host0"), {**environment, "NO_COLOR": "1"}))
    wants(said.startswith("yes:") and "\033" not in said, f"a colour: {said[:60]!r}")
    narrow = without_waiting(on_terminal(("usage", folder), {**environment, "NO_COLOR": "1"}, 50))
    wants(max(len(it) for it in narrow.splitlines() if it.startswith("  ")) <= 50, "a table is wider than the terminal")
    narrow = without_waiting(on_terminal(("drain", folder, "host0"), {**environment, "NO_COLOR": "1"}, 72)).split(
        "Copies before"
    )[0]
    wants(
        max(len(it) for it in narrow.splitlines() if it.startswith("  ")) <= 72,
        f"the summary is wider than the terminal: {narrow}",
    )
    whole = runner.run("drain", folder, "host0")[1].split("Copies before")[0]
    equals("the summary's words on a narrow terminal", sorted(narrow.split()), sorted(whole.split()))
    said = on_terminal(("fail", folder, "--each", "host"), environment)
    wants("1 of 4 hosts" in said and "s left" in said, f"no progress: {said[:200]!r}")
    _, _, err = runner.run("fail", folder, "--each", "host")
    equals("progress on a pipe", err, "")


def last_column(runner, folder):
    """On 80 columns what a failure of each host does isn't cut in its last columns, nor is any
    number; where nothing of a host is computed it has question marks, and no zeros."""
    crush, count = crush_dump(), 12
    for number, it in enumerate(crush["buckets"][1:]):
        it["name"] = f"storage-of-the-first-hall-{number}"
    crush["devices"] += [{"id": it, "name": f"osd.{it}"} for it in range(count, count + 3)]
    hosts = [bucket(-20 - it, f"storage-of-the-other-hall-{it}", 1, "straw", [(count + it, ONE)]) for it in range(3)]
    crush["buckets"] += [*hosts, bucket(-30, "other", 10, "straw", [(it["id"], ONE) for it in hosts])]
    crush["rules"].append(rule(1, "other", ({**STEPS[0], "item": -30, "item_name": "other"}, *STEPS[1:])))
    write(folder, crush, osd_dump(count + 3, [pool(1, "photos"), pool(2, "index", crush_rule=1)]))
    environment = {name: value for name, value in runner.environment.items() if name not in ("COLUMNS", "LINES")}
    said = on_terminal(("fail", folder, "--each", "host"), {**environment, "TERM": "dumb", "NO_COLOR": "1"})
    table = said.split("\r\n\r\n")[1].splitlines()
    wants(max(map(len, table)) <= 80, f"it is wider than the terminal: {said}")
    equals("heads", table[0].split()[-2:], ["fullest", "computed"])
    equals("the last column", sorted(it.split()[-1] for it in table[1:]), ["all"] * 4 + ["nothing"] * 3)
    for it in table[1:]:
        name, *rest = it.split()
        wants("…" not in "".join(rest), it)
        wants(rest[-1] == "all" or set(rest[:-1]) == {"?"}, it)


def helps(runner, folder):
    """Each command has a help with an example, whose options are there, and its exit status."""
    code, out, _ = runner.run("--help")
    equals("--help", code, 0)
    for name in COMMANDS:
        wants(re.search(rf"^    {name} ", out, re.M), f"--help has no {name}")
        code, text, _ = runner.run(name, "--help")
        wants(code == 0 and "exit status: " in text, f"{name} --help has no exit status")
        example = re.search(r"^example: crushplan (.*)$", text, re.M)
        wants(example and example[1].split()[0] == name, f"{name} --help has no example")
        for option in re.findall(r"--[a-z-]+", example[1]):
            wants(
                option in text.split("example: ")[0] or option == "--cluster",
                f"{name}: the example has {option}, which its help hasn't",
            )


# the files of the help's examples, as they are made here
EXAMPLE_FILES = {
    "july": "july",
    "mended.txt": "mended.txt",
    "new.txt": "new.txt",
    "commands.sh": "july/list",
    "july.prom": "july.prom",
    "runbook": "runbook",
}


def examples(runner, folder):
    """The examples of the help, on a folder july, do what the help says."""
    usual(folder / "july")
    crush = crush_dump()
    crush["buckets"][1]["alg"] = "tree"
    write(folder / "july", crush)
    (folder / "new.txt").write_text(text_of(crush_dump(devices=2)))
    (folder / "runbook").write_text("ceph osd out 1\nwait\n")
    text = runner.run("--help")[1]
    found = re.findall(r"^  crushplan (\S.*?)(?:   .*)?$", text, re.M)
    wants(len(found) >= 4, f"too few examples: {found}")
    for it in found:
        if it.startswith("fetch"):
            continue
        own = {"july": folder / "july", "july.html": folder / "july.html", "rack": "host", "r1h*": "host[01]"}
        code, out, err = runner.run(*(own.get(word, word) for word in shlex.split(it)))
        wants(code in (0, 1) and out and not err, f"{it}: {code} {err}")
    for name in COMMANDS[1:]:
        words = re.search(r"^example: crushplan (.*)$", runner.run(name, "--help")[1], re.M)[1].split()
        code, out, err = runner.run(
            *(str(folder / EXAMPLE_FILES[it]) if it in EXAMPLE_FILES else it.replace("osd.17", "osd.1") for it in words)
        )
        wants(code in (0, 1) and out and not err, f"{words}: {code} {err}")
    wants(text_of(crush_dump()) != (folder / "mended.txt").read_text() != "", "check --mend wrote no other text")


def completion(runner, folder):
    """The completion of bash knows the commands and their options."""
    script = PLAN.parent / "crushplan.bash"
    for name in COMMANDS:
        asked = (
            f"source {script}; COMP_WORDS=(crushplan {name} --); COMP_CWORD=2; _crushplan; printf '%s\\n'"
            ' "${COMPREPLY[@]}"'
        )
        said = subprocess.run(["bash", "-c", asked], stdout=subprocess.PIPE, check=True).stdout.decode().split()
        wanted = {
            it
            for it in re.findall(r"--[a-z-]+", runner.run(name, "--help")[1].split("example: ")[0].split("options:")[1])
            if it not in ("--crushtool",)
        }
        equals(f"options of {name}", {*said} | {"--help"}, wanted | {"--help"})
    said = (
        subprocess.run(
            [
                "bash",
                "-c",
                (
                    f"source {script}; COMP_WORDS=(crushplan ''); COMP_CWORD=1; _crushplan; printf '%s\\n'"
                    ' "${COMPREPLY[@]}"'
                ),
            ],
            stdout=subprocess.PIPE,
            check=True,
        )
        .stdout.decode()
        .split()
    )
    equals("commands", {it for it in said if not it.startswith("-")}, {*COMMANDS, "help"})


FAKE = """#!/bin/sh
case "$*" in
"osd dump -f json") cat "{folder}/osd.json" ;;
"osd crush dump -f json") cat "{folder}/crush.json" ;;
"df detail -f json") echo '{{"pools":[]}}' ;;
"osd df -f json") {osd_df} ;;
"pg dump pgs_brief -f json") echo '{{"pg_ready":true,"pg_stats":[]}}' ;;
"osd getcrushmap -o "*) echo map >"$4" ;;
*) echo "unknown: $*" >&2; exit 22 ;;
esac
"""


def fetched(runner, folder):
    """The files of a cluster, by its own commands; what fails is said, and whatever is needed ends
    the program."""
    usual(folder)
    ceph, crushtool = folder / "ceph", folder / "crushtool"
    ceph.write_text(FAKE.format(folder=folder, osd_df="echo '{\"nodes\":[]}'"))
    crushtool.write_text('#!/bin/sh\ncp "$2" "$4"\n')
    for it in (ceph, crushtool):
        it.chmod(0o755)
    code, out, err = runner.run("fetch", folder / "new", "--ceph", ceph, "--crushtool", crushtool)
    equals("status", (code, err), (0, ""))
    equals(
        "files",
        sorted(os.listdir(folder / "new")),
        ["crush.json", "df.json", "map.txt", "osd-df.json", "osd.json", "pgs.json"],
    )
    equals("osd.json", (folder / "new" / "osd.json").read_bytes(), (folder / "osd.json").read_bytes())
    equals("the folder is read", runner.said("check", folder / "new")["status"], 0)
    ceph.write_text(FAKE.format(folder=folder, osd_df="echo no manager >&2; exit 1"))
    code, out, _ = runner.run("fetch", folder / "other", "--ceph", ceph, "--crushtool", folder / "none")
    wants(
        code == 0 and "osd-df.json isn't written" in out and "no manager" in out and "map.txt isn't written" in out, out
    )
    ceph.write_text("#!/bin/sh\necho no monitor >&2; exit 1\n")
    runner.refused("fetch", folder / "third", "--ceph", ceph, has=("osd dump -f json failed: no monitor",))
    runner.refused("fetch", folder / "third", "--ceph", folder / "nowhere", has="isn't there")


def cases():
    return [
        (it.__name__, it)
        for it in (forms, documented, rows, terminals, last_column, helps, examples, completion, fetched)
    ]
