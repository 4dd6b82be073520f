"""crushplan's searches over Dask (`--on`): the answers of one machine to the byte, certificates,
workers that die, and those that are left out."""
import json
import os
import pathlib
import shutil
import subprocess
import time

from dask_cluster import PYTHON, SECONDS, TOOLS, Dask, certificate, configured, free_port
from made import cluster

TOP = TOOLS.parent
KEPT = TOP / "tests" / "crushplan" / "clusters" / "reweighted"
RUNBOOK = "ceph osd out 3\nceph osd reweight 5 0.5\nceph osd out 7 8\n"
# a program that is slow, and says which process has it
SLOW = """#!/bin/sh
[ "$1" = script ] && echo $PPID >>{runs} && sleep 0.3
exec {program} "$@"
"""


class Unlike(Exception):
    """Says what isn't as it has to be."""


def wants(condition, what):
    if not condition:
        raise Unlike(what)


def planned(program, *words, environment=None):
    """Returns the status of crushplan, by Debian's Python, and what it writes on both streams."""
    own = {**os.environ, "CRUSHCALC": str(program), **(environment or {})}
    command = [PYTHON, str(TOOLS / "crushplan"), *map(str, words)]
    ran = subprocess.run(command, stdout=subprocess.PIPE, stderr=subprocess.PIPE, env=own, timeout=10 * SECONDS)
    return ran.returncode, ran.stdout.decode(), ran.stderr.decode()


def commands(folder):
    """The commands that go out, each on a cluster."""
    (folder / "runbook").write_text(RUNBOOK)
    maps = [KEPT / "new.json", KEPT / "new.txt", KEPT / "map.txt"]
    return (
        ("fail", KEPT, "--each", "osd"),
        ("fail", KEPT, "--each", "host", "--csv"),
        ("fail", KEPT, "--each", "osd", "--json"),
        ("fail", KEPT, "host3", "--json", "--groups"),
        ("plan", KEPT, folder / "runbook", "--orders", "--json"),
        ("balance", KEPT, "--json"),
        ("compare", KEPT, *maps, "--json"),
        ("compare", KEPT, *maps),
    )


def same_answers(program, folder):
    """Each command says to the byte what it says on one machine."""
    made = certificate(folder, "own")
    with Dask(folder, made) as dask, dask.workers(2, program):
        for words in commands(folder):
            alone = planned(program, *words)
            spread = planned(program, *words, "--on", dask.url, environment=configured(made))
            wants(alone[1] and alone == spread, f"{words}: {spread} and not {alone}"[:600])


def certificates(program, folder):
    """Without certificates, or with another authority's, there is no answer; an open scheduler is
    said in a line."""
    made, other = certificate(folder, "own"), certificate(folder, "other")
    words = ("fail", KEPT, "--each", "host")
    alone = planned(program, *words)
    with Dask(folder, made) as dask, dask.workers(1, program):
        for environment, has in (({}, "aren't configured"), (configured(other), "no scheduler answers there")):
            status, out, err = planned(program, *words, "--on", dask.url, environment=environment)
            wants((status, out, err.count("\n")) == (2, "", 1) and has in err, f"{has}: {status} {out} {err}")
    with Dask(folder) as dask, dask.workers(1, program):
        status, out, err = planned(program, *words, "--on", dask.url)
        wants((status, out) == alone[:2], f"open: {status} {out[:200]} {err}")
        wants(err.startswith("crushplan: without certificates") and err.count("\n") == 1, err)


def death(program, folder):
    """A worker that is killed amid a task: another does it, and the answer is the same."""
    runs, slow = folder / "runs", folder / "slow"
    slow.write_text(SLOW.format(runs=runs, program=program))
    slow.chmod(0o755)
    words = ("fail", KEPT, "--each", "osd", "--json")
    alone = planned(program, *words)
    with Dask(folder) as dask, dask.workers(3, slow) as workers:
        command = [PYTHON, str(TOOLS / "crushplan"), *map(str, words), "--on", dask.url]
        own = {**os.environ, "CRUSHCALC": str(slow)}
        ran = subprocess.Popen(command, stdout=subprocess.PIPE, stderr=subprocess.PIPE, env=own)
        killed = last_of(runs, {it.pid: it for it in workers})
        killed.kill()
        out, err = ran.communicate(timeout=10 * SECONDS)
        wants((ran.returncode, out.decode()) == alone[:2], f"{ran.returncode} {out[:300]} {err[-300:]}")
        wants(killed.wait(SECONDS) == -9, "the worker had ended before")


def last_of(runs, workers):
    """Returns the worker that has the program now, once each has had it."""
    end = time.monotonic() + SECONDS
    while time.monotonic() < end:
        seen = [int(it) for it in runs.read_text().split()] if runs.exists() else []
        own = [it for it in seen if it in workers]
        if set(own) == set(workers):
            return workers[own[-1]]
        time.sleep(0.02)
    raise Unlike("not each worker had a task")


def left_out(program, folder):
    """Workers without crushplan or the program, or with another of either, are left out by name;
    where none else is there, there is no answer."""
    other = folder / "crushcalc"
    other.write_bytes(pathlib.Path(program).read_bytes() + b"\n")
    other.chmod(0o755)
    tools = folder / "tools"
    shutil.copytree(TOOLS, tools, ignore=shutil.ignore_patterns("__pycache__"))
    with (tools / "crushplan_parts" / "items.py").open("a") as file:
        file.write("# another\n")
    words = ("fail", KEPT, "--each", "host")
    alone = planned(program, *words)
    odd = {
        "without": ({"CRUSHPLAN": "", "PATH": "/nowhere"}, "it has no crushplan on PATH"),
        "programless": ({"CRUSHCALC": "/nowhere/crushcalc"}, "it has no crushcalc at /nowhere/crushcalc"),
        "another": ({"CRUSHCALC": str(other)}, "it has another crushcalc"),
        "edited": ({"CRUSHPLAN": str(tools / "crushplan")}, "it has another crushplan"),
    }
    with Dask(folder) as dask:
        for name, (changed, _) in odd.items():
            dask.worker(
                name,
                **{"program": program, **changed} if "CRUSHCALC" not in changed else {"program": changed["CRUSHCALC"]},
            )
        status, out, err = planned(program, *words, "--on", dask.url)
        lines = err.splitlines()[1:]
        for name, (_, why) in odd.items():
            wants(any(f"the worker {name} (tcp://" in it and it.endswith(why) for it in lines), f"{name}: {err}")
        wants((status, out) == (2, "") and "none is left but" in lines[-1], f"none is left: {status} {err}")
        dask.worker("good", program)
        status, out, err = planned(program, *words, "--on", dask.url)
        wants((status, out, err.count("left out")) == (*alone[:2], 4), f"{status} {out[:200]} {err}")


def refused(program, folder):
    """What can't be asked is refused with its reason, and without --on nothing of Dask is
    imported."""
    (folder / "without").mkdir()
    for name in ("distributed", "dask", "tornado", "cloudpickle"):
        (folder / "without" / f"{name}.py").write_text("raise ImportError\n")
    cluster(folder / "dumps")
    without = {"PYTHONPATH": str(folder / "without")}
    on = lambda url: ("fail", folder / "dumps", "--each", "host", "--on", url)
    status, out, err = planned(program, *on("tcp://127.0.0.1:1")[:-2], environment=without)
    wants((status, err) == (0, ""), f"without --on: {status} {err}")
    port = free_port()
    for words, environment, has in (
        (on("tls://127.0.0.1:1"), without, "wants the package distributed"),
        (on("127.0.0.1:1"), {}, "it has to be as tls://HOST:8786"),
        (on("http://127.0.0.1:1"), {}, "it has to be as tls://HOST:8786"),
        (on("tcp://127.0.0.1"), {}, "it has to be as tls://HOST:8786"),
        (on(f"tcp://127.0.0.1:{port}"), {}, "no scheduler answers there"),
        ((*on("tcp://127.0.0.1:1"), "--service", "http://127.0.0.1:1"), {}, "takes no --service"),
    ):
        status, out, err = planned(program, *words, environment=environment)
        wants((status, out) == (2, "") and has in err and "mistake" not in err, f"{words}: {status} {out} {err}")
    with Dask(folder) as dask:
        status, out, err = planned(program, *on(dask.url), "--json")
        wants(status == 2 and json.loads(out)["error"].endswith("there are none"), f"no workers: {status} {out} {err}")


def checks(program, folder, is_long):
    for it in (same_answers, certificates, death, left_out, refused):
        own = folder / it.__name__
        own.mkdir()
        try:
            it(program, own)
            yield it.__name__, None
        except (Unlike, OSError, ValueError, subprocess.SubprocessError) as why:
            yield it.__name__, f"{type(why).__name__}: {why}"
