"""Cases of `tools/dist` and `tools/rebuild`, on a repository in which a gate has passed: its
program is a script, the toolchain another that copies it, and a package the program alone."""
import os
import pathlib
import shutil
import subprocess
import sys

from documents import stamped
from gate.counted import Untried

TOP = pathlib.Path(__file__).resolve().parent.parent.parent
TOOLS = ("tools/dist", "tools/rebuild", "tools/rebuilding.py", "tests/documents/stamped.py")
# the program prints its own version, as its source has it
PROGRAM = r"""#!/bin/sh
: 'const VERSION: &str = "1.2.3\nRattle logic 1\n"'
printf "$(sed -n 's/^: .const VERSION: &str = "\(.*\)".$/crushcalc \1/p' "$0")"
"""
PACKAGE = """import pathlib, shutil, sys
to = pathlib.Path(sys.argv[2], "v3.deb" if "--v3" in sys.argv else "v2.deb")
to.parent.mkdir(parents=True, exist_ok=True)
print(shutil.copy(sys.argv[1], to))
"""
BUILDS = (
    '#!/bin/sh\n[ "$1" = all ] || { mkdir -p out; cp ../crush_arguments/src/command.rt out/crushcalc; chmod +x'
    " out/crushcalc; }\n"
)
BUILDS_OTHERWISE = BUILDS + '[ "$1" = all ] || pwd >>out/crushcalc\n'
FILES = {
    stamped.SOURCE: PROGRAM,
    "crates/crushcalc/src/main.rt": "\n",
    "package/build": PACKAGE,
    "CHANGELOG.md": "# Changes\n\n## 1.2.3\n",
    ".gitignore": "/build\n/dist\n/crushcalc\n__pycache__\n",
}


def said_by(top, *words, rt="rt"):
    return subprocess.run(
        list(map(str, words)),
        cwd=top,
        env=os.environ | {"RT": str(rt)},
        stdout=subprocess.PIPE,
        stderr=subprocess.STDOUT,
        text=True,
    )


def git(top, *words):
    run = said_by(top, "git", "-c", "user.name=a", "-c", "user.email=a@localhost", *words)
    run.check_returncode()
    return run.stdout.strip()


def release(folder):
    """The repository, with what its gate has left."""
    top = folder / "repository"
    for path, text in FILES.items():
        (top / path).parent.mkdir(parents=True, exist_ok=True)
        (top / path).write_text(text)
    for path in TOOLS:
        (top / path).parent.mkdir(parents=True, exist_ok=True)
        shutil.copy2(TOP / path, top / path)
    git(top, "init", "-q")
    git(top, "add", ".")
    git(top, "commit", "-q", "-m", "all")
    gate_passes(top)
    return top


def gate_passes(top):
    commit, copy = git(top, "rev-parse", "HEAD"), top / "build" / "copy"
    (copy / stamped.SOURCE).parent.mkdir(parents=True, exist_ok=True)
    shutil.copy(top / stamped.SOURCE, copy / stamped.SOURCE)
    stamped.stamp(copy, commit[:12])
    (copy / stamped.SOURCE).chmod(0o755)
    for name in ("crushcalc", "build/crushcalc-v3"):
        shutil.copy2(copy / stamped.SOURCE, top / name)
    sums = said_by(top, "sha256sum", "crushcalc").stdout.split()[0]
    (top / "build" / "proved.txt").write_text(
        f"commit: {commit}\nversion: 1.2.3\nprogram: sha256 {sums}\nprogram for x86-64-v3: sha256 {sums} (tried)\n"
    )


def a_release_has_what_the_gate_built(folder):
    top = release(folder)
    made = made_by_dist(top)
    if made.returncode:
        return made.stdout
    to = top / "dist" / "crushcalc-1.2.3"
    sums = said_by(to, "sha256sum", "-c", "SHA256SUMS")
    if sums.returncode or len(sums.stdout.splitlines()) != 3:
        return f"the sums: {sums.stdout}"
    packages = [(to / it).read_bytes() == (top / "crushcalc").read_bytes() for it in ("v2.deb", "v3.deb")]
    return (
        None
        if packages == [True, True] and (top / "build/proved.txt").read_text() in (to / "PROVED.txt").read_text()
        else "its files are others"
    )


def made_by_dist(top, *words):
    made = said_by(top, sys.executable, "tools/dist", *words)
    if "can't run the program for x86-64-v3" in made.stdout:
        raise Untried("this processor has no x86-64-v3")
    return made


def unnamed(top):
    shutil.copy2(top / stamped.SOURCE, top / "crushcalc")
    (top / "crushcalc").chmod(0o755)
    sums = [said_by(top, "sha256sum", it).stdout.split()[0] for it in ("build/crushcalc-v3", "crushcalc")]
    written(
        top / "build/proved.txt", lambda text: text.replace(f"program: sha256 {sums[0]}", f"program: sha256 {sums[1]}")
    )


def written(path, change):
    path.write_text(change(path.read_text()))


def committed(top):
    git(top, "commit", "-q", "--allow-empty", "-m", "another")


def without_heading(top):
    written(top / "CHANGELOG.md", lambda text: text.replace("1.2.3", "1.2.30"))
    git(top, "commit", "-q", "-a", "-m", "no heading")
    gate_passes(top)


# what is done after the gate, and the reason that has to be said
REFUSALS = {
    "no record": (lambda top: (top / "build/proved.txt").unlink(), "there is no build/proved.txt"),
    "another commit": (committed, "and {} is checked out"),
    "a changed file": (
        lambda top: written(top / "package/build", lambda text: text + "\n"),
        "the working tree has changes",
    ),
    "a version that CHANGELOG lacks": (without_heading, "CHANGELOG.md has no heading of the version 1.2.3"),
    "another program": (
        lambda top: written(top / "crushcalc", lambda text: text + "\n"),
        "crushcalc isn't the program that the proofs of build/proved.txt built",
    ),
    "another program for x86-64-v3": (
        lambda top: written(top / "build/crushcalc-v3", lambda text: text + "\n"),
        "build/crushcalc-v3 isn't the program",
    ),
    "a program that names no commit": (unnamed, "crushcalc --version doesn't name the commit"),
}


def refused_after(change, reason, folder):
    top = release(folder)
    change(top)
    made = made_by_dist(top)
    wanted = reason.format(git(top, "rev-parse", "--short=12", "HEAD"))
    return (
        None
        if made.returncode and wanted in made.stdout and not (top / "dist").exists()
        else f"status {made.returncode}: {made.stdout}"
    )


def rebuilt(folder, builds, *words):
    return built_by(release(folder), folder / "rt", builds, *words)


def built_by(top, rt, builds, *words):
    rt.write_text(builds)
    rt.chmod(0o755)
    return said_by(top, sys.executable, "tools/rebuild", *words, rt=rt)


def a_rebuild_of_the_same_bytes_passes(folder):
    """The gate's program is the second build where it names its commit as is asked for."""
    stamp = rebuilt(folder / "1", BUILDS, "--stamp")
    plain = rebuilt(folder / "2", BUILDS)
    found = [
        (run.returncode, run.stdout.splitlines()[-1], "The second build is the gate's" in run.stdout)
        for run in (stamp, plain)
    ]
    return (
        None
        if found == [(0, "2 passed, 0 failed", True), (0, "2 passed, 0 failed", False)]
        else f"{found}: {stamp.stdout}{plain.stdout}"
    )


def a_release_is_rebuilt(folder):
    """The commit of the release is built again, whatever is checked out, and compared with its
    sums."""
    top, found = release(folder), []
    if made_by_dist(top).returncode:
        return "there is no release"
    committed(top)
    for builds in (BUILDS, BUILDS_OTHERWISE):
        run = built_by(top, folder / "rt", builds, "--release", "dist/crushcalc-1.2.3")
        found.append((run.returncode, run.stdout.splitlines()[-1]))
    (top / "dist/crushcalc-1.2.3/SHA256SUMS").unlink()
    run = built_by(top, folder / "rt", BUILDS, "--release", "dist/crushcalc-1.2.3")
    found.append((run.returncode, "it has no SHA256SUMS" in run.stdout))
    return (
        None if found == [(0, "2 passed, 0 failed"), (1, "0 passed, 2 failed"), (1, True)] else f"{found}: {run.stdout}"
    )


def a_rebuild_of_other_bytes_fails(folder):
    run = rebuilt(folder, BUILDS_OTHERWISE, "--stamp")
    return None if run.returncode == 1 and run.stdout.splitlines()[-1] == "0 passed, 2 failed" else run.stdout


def cases():
    for name, (change, reason) in REFUSALS.items():
        yield f"a release is refused after {name}", lambda folder, change=change, reason=reason: refused_after(
            change, reason, folder
        )
    for case in (
        a_release_has_what_the_gate_built,
        a_rebuild_of_the_same_bytes_passes,
        a_release_is_rebuilt,
        a_rebuild_of_other_bytes_fails,
    ):
        yield case.__name__.replace("_", " "), case
