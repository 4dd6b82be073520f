"""Clones of a commit, the program built in each by the toolchain, and what package/build makes
of it: for `rebuild` and `dist`."""
import hashlib
import os
import pathlib
import subprocess
import sys

TOP = pathlib.Path(__file__).resolve().parent.parent
sys.path.insert(0, str(TOP / "tests"))
from documents import stamped  # noqa: E402

RT = os.environ.get("RT", "rt")


def ran(words, folder):
    """Runs a command; its output is shown where it fails."""
    done = subprocess.run(words, cwd=folder, stdin=subprocess.DEVNULL, stdout=subprocess.PIPE, stderr=subprocess.STDOUT)
    if done.returncode:
        sys.exit(
            f"{' '.join(words)} ends with {done.returncode}:\n{done.stdout.decode(errors='replace')[-3000:]}\n0 passed,"
            " 1 failed"
        )
    return done.stdout.decode(errors="replace")


def clone(folder, commit, is_stamped):
    """A clone with this commit checked out."""
    ran(["git", "clone", "-q", "--no-hardlinks", str(TOP), str(folder)], TOP)
    ran(["git", "checkout", "-q", "--detach", commit], folder)
    if is_stamped:
        stamped.stamp(folder, commit)


def build(folder):
    """Proves and builds the program in a clone, and returns its path."""
    crate = folder / "crates" / "crushcalc"
    print(f"Proving and building in {folder}, from nothing: half an hour on four cores.", flush=True)
    ran([RT, "all", "check", "--jobs", str(os.cpu_count())], crate)
    ran([RT, "run", "--", "--help"], crate)
    return crate / "out" / "crushcalc"


def packaged(folder, program, to, *options):
    """The packages of this program that package/build makes in a checkout."""
    made = ran([sys.executable, "package/build", str(program), str(to), *options], folder).split()
    return [to / pathlib.Path(it).name for it in made]


def sum_of(path):
    return hashlib.sha256(path.read_bytes()).hexdigest()
