"""The command line itself: names of several devices, help, errors of arguments, progress, and the
completions of two shells."""
import concurrent.futures
import json
import os
import pty
import re
import select
import shutil
import subprocess
import time

from made import bucket, crush_dump, osd_dump, pool, write
from output_cases import on_terminal
from running import PLAN, SECONDS, equals, wants

TWO = [pool(1, "photos", pg_num=8), pool(2, "my pool", pg_num=8)]


def racks(folder):
    """Two racks of two hosts of three devices; devices with even ids are ssd."""
    crush = crush_dump()
    for it in crush["devices"]:
        it["class"] = "hdd" if it["id"] % 2 else "ssd"
    hosts = crush["buckets"][1:]
    for number, it in enumerate(hosts):
        it["name"] = f"r{number // 2 + 1}h{number % 2 + 1}"
    own = [
        bucket(-10 - it, f"r{it + 1}", 3, "list", [(of["id"], of["weight"]) for of in hosts[it * 2 : it * 2 + 2]])
        for it in range(2)
    ]
    crush["buckets"] = [bucket(-1, "default", 10, "list", [(it["id"], it["weight"]) for it in own]), *own, *hosts]
    return write(folder, crush, osd_dump(pools=TWO))


def ranges(runner, folder):
    """Ranges, patterns and classes name the devices that they say, and the text says which."""
    racks(folder)
    for words, devices, said in (
        (("osd.1-5",), [1, 2, 3, 4, 5], "This is of 5 devices: osd.1, osd.2, osd.3, osd.4, osd.5."),
        (("r1h*", "11"), [0, 1, 2, 3, 4, 5, 11], "This is of 7 devices, below r1h1, r1h2: osd.0, osd.1, "),
        (("2-3", "r2h1-2"), [2, 3, 6, 7, 8, 9, 10, 11], "below r2h1, r2h2: "),
        (("osd.1[01]",), [10, 11], "This is of 2 devices: osd.10, osd.11."),
        (("r1", "--class", "ssd"), [0, 2, 4], "This is of 3 devices of the class ssd, below r1: osd.0, osd.2, osd.4."),
        (("--class", "hdd"), [1, 3, 5, 7, 9, 11], "This is of 6 devices of the class hdd: osd.1, "),
        (("r2h2",), [9, 10, 11], None),
        (("--by", "host", "osd.1", "--groups", "osd.2"), [1, 2], None),
    ):
        equals(f"drain {words}", runner.said("drain", folder, *words)["devices"], devices)
        text = runner.run("fail", folder, *words)[1]
        wants(said in text if said else "This is of" not in text, f"fail {words} says {text[:300]!r}")
    said = runner.said("locate", folder, "--program", runner.program, "photos", "--allow-unplaced", "a", "b", "--json")
    equals("objects behind options", [it["name"] for it in said["objects"]], ["a", "b"])
    each = runner.said("fail", folder, "--each", "host", "--class", "ssd")["each"]
    equals("each host's", {it["name"]: it["devices"] for it in each}, {"r1h1": 2, "r1h2": 1, "r2h1": 2, "r2h2": 1})
    said = runner.said("drain", folder, "osd.10-13")
    equals("a range with devices that aren't there", said["devices"], [10, 11])
    wants("of osd.10-13 crush.json has 2, and 2 aren't there" in said["warnings"], said["warnings"])


def named_nothing(runner, folder):
    """What names nothing is refused by its name."""
    racks(folder)
    for words, wanted in (
        (("r9*",), "crush.json has no host, rack or device whose name is as 'r9*'"),
        (("r1", "osd.[x]"), "no host, rack or device whose name is as 'osd.[x]'"),
        (("osd.50-60",), "crush.json has none of osd.50-60"),
        (("osd.5-1",), "osd.5-1 goes down: a range is as osd.1-5"),
        (("disk1-2",), "no host, rack or device 'disk1-2'"),
        (("--class", "sdd"), "no device of the class 'sdd'; the nearest is ssd"),
        (("osd.1", "--class", "ssd"), "osd.1 has no devices of the class ssd"),
    ):  # fmt: skip
        runner.refused("drain", folder, *words, has=wanted)
    runner.refused("fail", folder, "--each", "host", "--class", "nvme", has="no device of the class 'nvme'")
    write(folder, crush_dump())
    runner.refused("drain", folder, "--class", "ssd", has="crush.json has no classes of devices")


def asked_for_help(runner, folder):
    """help, and help of a command, are what --help writes."""
    for words, same in ((("help",), ("--help",)), (("help", "drain"), ("drain", "--help"))):
        said = runner.run(*words)
        equals(f"{words}: status and standard error", (said[0], said[2]), (0, ""))
        equals(words, said[1], runner.run(*same)[1])
    runner.refused("help", "drian", has="there is no command 'drian'; the nearest is drain")


def misused(runner, folder):
    """Errors of arguments are JSON where that is asked for, and text on standard error always."""
    for words, command, why in (
        (("drain", "--json"), "drain", "the following arguments are required: DIR"),
        (("fly", "--json"), None, "argument COMMAND: invalid choice: 'fly'"),
        (("--json",), None, "unrecognized arguments: --json"),
        (("usage", folder, "--size", "0", "--json"), "usage",
         "argument --size: '0' isn't a whole number from 1 to 65536"),
        (("drain", folder, "host1", "--csv", "--json"), "drain", "argument --json: not allowed with argument --csv"),
        (("drain", folder, "--json"), "drain", "crushplan drain wants the names of hosts, racks or devices"),
    ):  # fmt: skip
        if words[1:] == (folder, "--json"):
            write(folder, crush_dump(), osd_dump())
        code, out, err = runner.run(*words)
        said = json.loads(out)
        equals(f"{words}: status", (code, said["status"], said["crushplan"], said["command"]), (2, 2, 1, command))
        equals(f"{words}: fields", sorted(said), ["command", "crushplan", "error", "status"])
        wants(said["error"].startswith(why) and why in err, f"{words} says {said['error']!r} and {err[-200:]!r}")
        code, out, err = runner.run(*[it for it in words if it != "--json"] or ["fly"])
        equals(f"{words} without --json: standard output", (code, out), (2, ""))


SLOW = '#!/bin/sh\ncase $1 in script) sleep 4 ;; esac\nexec {program} "$@"\n'


def progress(runner, folder):
    """Every command that takes over two seconds says so on a terminal's standard error, and takes
    it away again; it says nothing on a pipe, nor where it is quick."""
    write(folder, crush_dump(), osd_dump())
    (folder / "list").write_text("ceph osd rm-pg-upmap-items 1.9\n")
    slow, ceph = folder / "slow", folder / "ceph"
    slow.write_text(SLOW.format(program=runner.program))
    ceph.write_text("#!/bin/sh\nsleep 4\necho no monitor >&2\nexit 1\n")
    for it in (slow, ceph):
        it.chmod(0o755)
    environment = {name: value for name, value in runner.environment.items() if name not in ("COLUMNS", "LINES")}
    environment.update(TERM="xterm", NO_COLOR="1", CRUSHCALC=str(slow))
    own = (
        ("check", folder), ("usage", folder), ("compare", folder, folder / "crush.json"), ("drain", folder, "host0"),
        ("fail", folder, "host0"), ("upmap", folder, folder / "list"), ("locate", folder, "photos", "a"),
        ("fetch", folder / "new", "--ceph", ceph),
    )  # fmt: skip
    with concurrent.futures.ThreadPoolExecutor(len(own)) as jobs:
        found = list(jobs.map(lambda words: on_terminal(words, environment), own))
    for words, said in zip(own, found):
        asks = "osd dump -f json" if words[0] == "fetch" else r"crushcalc has answered [\d,]+ of [\d,]+ requests"
        wants(re.search(rf"\r\d+ s: [^\r]*{asks}\x1b\[K", said), f"{words} says {said[:300]!r}")
        rest = said.rsplit("\r\x1b[K", 1)
        wants(len(rest) == 2 and " s: crushcalc" not in rest[1], f"{words} leaves its line: {said[-300:]!r}")
    equals("on a pipe", runner.run("usage", folder, CRUSHCALC=str(slow))[2], "")
    wants(" s: " not in on_terminal(("--version",), {**environment, "CRUSHCALC": str(runner.program)}), "it isn't slow")


def asked_of_bash(*words):
    """What the completion of bash offers for the last of some words."""
    line = " ".join("'" + str(it).replace("'", "'\\''") + "'" for it in words)
    script = (
        f"source {PLAN.parent / 'crushplan.bash'}; COMP_WORDS=({line}); COMP_CWORD={len(words) - 1}; _crushplan; printf"
        " '%s\\n' \"${COMPREPLY[@]}\""
    )
    return sorted(
        subprocess.run(["bash", "-c", script], stdout=subprocess.PIPE, check=True).stdout.decode().splitlines()
    )


def bash(runner, folder):
    """The completion of bash has the hosts, racks, devices, pools, types and classes of the folder
    that is named, wherever they stand."""
    racks(folder)
    for words, wanted in (
        (("drain", folder, "r1"), ["r1", "r1h1", "r1h2"]),
        (("drain", folder, "--by", "host", "r2", "osd.1"), ["osd.1", "osd.10", "osd.11"]),
        (("fail", "--groups", folder, "r2"), ["r2", "r2h1", "r2h2"]),
        (("fail", folder, "--each", "r"), ["rack", "root"]),
        (("usage", folder, "--pool", ""), ["my\\ pool", "photos"]), (("locate", folder, "p"), ["photos"]),
        (("locate", folder, "photos", ""), [""]), (("drain", folder, "--class", ""), ["hdd", "ssd"]),
        (("drain", folder / "nothing", "h"), [""]), (("help", "d"), ["drain"]), (("d",), ["drain"]),
        (("drain", f"{folder}/"), [""]), (("compare", folder, f"{folder}/os"), [f"{folder}/osd.json"]),
        (("drain", folder, "--ht"), ["--html"]),
    ):  # fmt: skip
        equals(words, asked_of_bash(PLAN, *words), wanted)


def zsh_shows(folder, typed, wanted):
    """What zsh shows once something is typed and Tab pressed, as soon as it has all that is
    wanted."""
    functions = folder / "functions"
    if not functions.exists():
        functions.mkdir()
        shutil.copy(PLAN.parent / "crushplan.zsh", functions / "_crushplan")
    leader, follower = pty.openpty()
    environment = {
        **os.environ,
        "TERM": "dumb",
        "COLUMNS": "200",
        "LINES": "50",
        "PATH": f"{PLAN.parent}:{os.environ['PATH']}",
    }
    ran = subprocess.Popen(
        ["zsh", "-f", "-i"], stdin=follower, stdout=follower, stderr=follower, env=environment, start_new_session=True
    )
    os.close(follower)
    begin = f"PROMPT=; LISTMAX=0; fpath=({functions} $fpath); autoload -Uz compinit; compinit -u -D; print rea''dy\n"
    os.write(leader, begin.encode())
    found, sent, until = "", False, time.monotonic() + SECONDS
    while time.monotonic() < until:
        if not select.select([leader], [], [], 1)[0]:
            continue
        found += os.read(leader, 65536).decode(errors="replace")
        if not sent and "ready" in found:
            found, sent = "", True
            os.write(leader, f"{typed}\t\t".encode())
        elif sent and all(it in found.removeprefix(typed) for it in wanted):
            break
    ran.kill()
    ran.wait()
    os.close(leader)
    return found


def zsh(runner, folder):
    """So has that of zsh, where there is a zsh; its commands and options are those of the help."""
    script = (PLAN.parent / "crushplan.zsh").read_text()
    for name in (
        "fetch",
        "check",
        "usage",
        "compare",
        "drain",
        "fail",
        "plan",
        "balance",
        "upmap",
        "locate",
        "metrics",
    ):
        wants(f"'{name}:" in script and f"        {name}) _arguments" in script, f"no {name}")
        for option in re.findall(
            r"--[a-z-]+", runner.run(name, "--help")[1].split("example: ")[0].split("options:")[1]
        ):
            wants(f"{option}[" in script, f"no {option} of {name}")
    if not shutil.which("zsh"):
        return
    racks(folder)
    for typed, wanted in (
        (f"crushplan drain {folder} r1", ["r1h1", "r1h2"]), (f"crushplan fail {folder} --each r", ["rack", "root"]),
        (f"crushplan usage {folder} --pool ", ["my\\ pool", "photos"]),
        (f"crushplan drain {folder} --class ", ["hdd", "ssd"]),
        ("crushplan ", ["compare", "locate"]),
    ):  # fmt: skip
        said = zsh_shows(folder, typed, wanted)
        wants(all(it in said.removeprefix(typed) for it in wanted), f"{typed}: {said!r}")


def cases():
    found = (ranges, named_nothing, asked_for_help, misused, progress, bash, zsh)
    return [(it.__name__, it) for it in found]
