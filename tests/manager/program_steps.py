"""What is tried of the module crushplan with programs that fail, step by step."""
import json

from managed import equals, real
from module_steps import scripted

EIO = -5
LIMITS, SHORT = {"seconds": 60, "watch_seconds": 120}, 10  # of a run of crushplan, as options
HANGS = "trap '' TERM; while :; do sleep 1; done"


def bad_programs(it):
    """A program that is missing, crashes, writes nonsense or is too old is a check, and its answers
    are unknown."""
    bodies = {
        "nowhere": None, "crashes": "kill -SEGV $$", "nonsense": "echo nonsense",
        "wrong": "while read -r line; do echo 201 []; done",
        "old": "while read -r line; do echo '404 {\"error\":\"no_path\"}'; done",
    }  # fmt: skip
    folder = it.fetch()
    for name, body in bodies.items():
        path = it.folder / name if body is None else scripted(it, name, body)
        why = it.run("drain", folder, "host1", program=path)[2].removeprefix("crushplan: ").strip()
        it.set("program", path)
        real.awaited(lambda: it.ask("drain", names=["host1"]) == (EIO, why), f"{name}: {why}")
        it.await_check("PROGRAM", lambda of: of and of[:2] == (2, f"which failures the cluster bears is {why}"))
        equals(name, why.split()[0], "unknown:")
    it.set("program", it.program)
    it.await_check("PROGRAM", lambda of: of is None or of[0] == 1)


def hanging_program(it):
    """A program that hangs is a check too, and nothing of it is left."""
    for limit in LIMITS:
        it.set(limit, SHORT)
    it.set("program", scripted(it, "hangs", HANGS))
    why = f"unknown: crushplan hasn't answered within {SHORT} seconds"
    real.awaited(lambda: it.ask("drain", names=["host1"]) == (EIO, why), why)
    it.await_check("PROGRAM", lambda of: of and of[:2] == (2, f"which failures the cluster bears is {why}"))
    for name, value in ({"program": it.program} | LIMITS).items():
        it.set(name, value)
    it.await_check("PROGRAM", lambda of: of is None or of[0] == 1)
    real.awaited(lambda: not it.processes_of("hangs"), "the end of what hangs")


def lying_program(it):
    """A program that has one group elsewhere: the check has the groups that differ, and each answer
    is unknown."""
    swap = r"s/^\(200 {.*\"group\":9,.*\"up\":\[\)\([0-9]*\),\([0-9]*\)/\1\3,\2/"
    it.set("program", scripted(it, "lies", f"'{it.program}' \"$@\" | sed '{swap}'"))
    found = it.await_check("DIFFERS", bool)
    others = json.loads(it.run("check", it.fetch(), "--json", program=it.folder / "lies")[1])["lying"]["others"]
    equals("the group", [of["id"] for of in others], ["1.9"])
    equals("the check", found[:2], (1, "1 group doesn't lie as computed: what failures do is unknown"))
    of = others[0]
    line = f"1.9 up {of['up']} primary {of['up_primary']}, computed {of['here']} {of['here_primary']}"
    equals("its line", found[2], [line])
    status, said = it.ask("locate", group=["1.9"])
    equals(f"locate: {said[:200]}", (status, said.split()[0]), (0, "unknown:"))
    it.set("program", it.program)
    it.await_check("DIFFERS", lambda of: of is None)


STEPS = {
    "bad programs": bad_programs, "a program that hangs": hanging_program, "a program that differs": lying_program,
}  # fmt: skip
