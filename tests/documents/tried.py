#!/usr/bin/env python3
"""Does what README says to somebody who has a clone and the toolchain: `make try`, and then each of
README's examples, with the unproved program that this leaves.

usage: tests/documents/tried.py        takes a minute on four processors

- In a copy of the repository's own files alone `make try` answers examples/first.script, and says
  its steps, one at least in about ten seconds.
- The program says that it is unproved, and so does each line with the word 'proved'.
- README's examples print what README shows, but that the line 'proved' says the program is
  unproved.
- A second `make try` builds nothing. A changed source would have it built again, a changed proof
  not.
- Where `./crushcalc` is there too, crushplan asks that one.

The last line is 'N passed, M failed'.
"""
import importlib.machinery
import importlib.util
import os
import pathlib
import re
import shutil
import subprocess
import sys
import tempfile

sys.dont_write_bytecode = True
TOP = pathlib.Path(__file__).resolve().parent.parent.parent
sys.path.insert(0, str(TOP / "tests"))
from documents import shown  # noqa: E402

RT = os.environ.get("RT", "rt")
PROGRAM, SECONDS = "build/try/crushcalc", 1800
BUILDS, BUILT = "Building build/try/crushcalc", "Built build/try/crushcalc in "
# a step of the build, behind its seconds; how long it may be silent, on a busy machine too
STEP, SILENT = re.compile(r"^ +(\d+) s  (.*)$", re.M), 20
STEPS = ["reading the sources", "compiling by LLVM", "linking"]
# the row of an answer that says what is proved, and its label where the program is unproved
ROW, UNPROVED = re.compile(r"^  proved( +)", re.M), "not proved: the program is unproved"
SOURCE, PROOF = "crates/crush_hash/src/lib.rt", "crates/crush_hash/proofs/Lib.antt"


def copied(folder):
    """Copies the files that a clone would have."""
    listed = subprocess.run(["git", "ls-files", "-z"], cwd=TOP, stdout=subprocess.PIPE)
    names = [it for it in listed.stdout.decode().split("\0") if it]
    for it in map(pathlib.Path, names):
        if (TOP / it).is_file():
            (folder / it).parent.mkdir(parents=True, exist_ok=True)
            shutil.copy2(TOP / it, folder / it)
    return bool(names)


def ran(words, folder):
    environment = {name: value for name, value in os.environ.items() if name != "CRUSHCALC"}
    how = {"stdin": subprocess.DEVNULL, "stdout": subprocess.PIPE, "stderr": subprocess.STDOUT, "timeout": SECONDS}
    done = subprocess.run(words, cwd=folder, env=environment, **how)
    return done.returncode, done.stdout.decode(errors="replace")


def as_unproved(text):
    """What is shown, as an unproved program has it: the columns stay."""
    return ROW.sub(lambda row: f"  {UNPROVED}{' ' * (len('proved') + len(row[1]) - len(UNPROVED))}", text)


def played(folder, told):
    """Why `make try` doesn't answer the first script, or None. Below each request is its reply."""
    replies = [line for line in told.splitlines() if re.match(r"\d{3} \{", line)]
    wanted = (folder / "examples" / "first.out").read_text().splitlines()
    return None if replies == wanted else f"it prints {told[-400:]!r}"


def silent(told):
    """Why `make try` doesn't say its steps on the way, each in one line, or None."""
    found = [(int(seconds), step) for seconds, step in STEP.findall(told[told.index(BUILDS) :])]
    times = [seconds for seconds, _ in found]
    is_said = found[:1] == [(0, STEPS[0])] and list(dict.fromkeys(step for _, step in found)) == STEPS
    is_often = all(after - before <= SILENT for before, after in zip(times, times[1:]))
    return None if is_said and is_often and BUILT in told else f"it says {told[-800:]!r}"


def proved_lines(folder):
    """Lines that say of the unproved program that something is proved."""
    for words in (["--version"], ["--help"]):
        status, said = ran([f"./{PROGRAM}", *words], folder)
        if status or "unproved" not in said.lower():
            yield f"{words} ends with {status} and says {said[:200]!r}"
    for command, _ in shown.commands_in((folder / "README.md").read_text()):
        lines = ran(["sh", "-c", command], folder)[1].splitlines()
        yield from (f"{command!r}: {it}" for it in lines if re.search(r"\bproved\b", it) and "unproved" not in it)


def sums(folder):
    """The digest of what the program is built of, which decides whether it is built again."""
    loader = importlib.machinery.SourceFileLoader("crushcalc_played", str(folder / "tools" / "played"))
    tool = importlib.util.module_from_spec(importlib.util.spec_from_loader(loader.name, loader))
    loader.exec_module(tool)
    with tempfile.TemporaryDirectory() as room:
        tool.make(pathlib.Path(room))
        return tool.sum_of(pathlib.Path(room), tool.toolchain())


def rebuilds(folder):
    """Why a change wouldn't lead to what it has to, or None."""
    kept = (folder / f"{PROGRAM}.sum").read_text()
    if sums(folder) != kept:
        return "its digest isn't the one that is kept"
    for path, is_new in ((PROOF, False), (SOURCE, True)):
        with open(folder / path, "a") as it:
            it.write("\n")
        if (sums(folder) != kept) != is_new:
            return f"a change of {path} {'builds nothing' if is_new else 'builds it again'}"
    return None


def goes_first(folder):
    """Why crushplan doesn't ask ./crushcalc where that is there too, or None."""
    built = folder / "crushcalc"
    built.write_text("#!/bin/sh\necho crushcalc 9.8.7\n")
    built.chmod(0o755)
    said = ran(["tools/crushplan", "--version"], folder)[1]
    built.unlink()
    return None if "crushcalc 9.8.7 (" in said and "unproved" not in said else f"it says {said[:300]!r}"


def checks(folder):
    if not copied(folder):
        yield "a copy of the repository's files", "git lists none"
        return
    status, told = ran(["make", "try", f"RT={RT}"], folder)
    is_built = status == 0 and BUILDS in told
    yield "make try", played(folder, told) if is_built else f"it ends with {status}: {told[-800:]!r}"
    yield "the steps of make try", silent(told) if is_built else "it built nothing"
    if not (folder / PROGRAM).is_file():
        yield "README's examples", "there is no program"
        return
    yield "what is said of proofs", next(proved_lines(folder), None)
    commands = shown.commands_in((folder / "README.md").read_text())
    yield "README has examples", None if commands else "it has none"
    for place, (command, wanted) in enumerate(commands, 1):
        said = ran(["sh", "-c", command], folder)[1]
        yield f"README, command {place}", None if said == as_unproved(wanted) else f"it prints {said[:600]!r}"
    before = (folder / PROGRAM).stat()
    status, told = ran(["make", "try", f"RT={RT}"], folder)
    after = (folder / PROGRAM).stat()
    is_same = status == 0 and BUILDS not in told and before.st_ino == after.st_ino and before.st_mtime == after.st_mtime
    yield "a second make try", played(folder, told) if is_same else f"it ends with {status}: {told[:400]!r}"
    yield "a program that 'make' built", goes_first(folder)
    yield "changes of sources", rebuilds(folder)


def main():
    passed = failed = 0
    with tempfile.TemporaryDirectory(prefix="crushcalc-tried-") as folder:
        for name, why in checks(pathlib.Path(folder)):
            passed, failed = passed + (why is None), failed + (why is not None)
            if why is not None:
                print(f"FAIL {name}: {why}", flush=True)
    print(f"{passed} passed, {failed} failed")
    return 1 if failed or not passed else 0


if __name__ == "__main__":
    sys.exit(main())
