"""The program's own words on which commit it was built from. A release's program names it, in a
line of `crushcalc --version` that the gate puts into its copy of the sources (`tests/all
--stamp`); in the repository no source names a commit, since a commit can't name itself."""
import pathlib
import re
import subprocess

TOP = pathlib.Path(__file__).resolve().parent.parent.parent
SOURCE = pathlib.Path("crates/crush_arguments/src/command.rt")
# the words of the source before which the line goes: the version's own end
VERSION = re.compile(r'(const VERSION: &str = "\d+\.\d+\.\d+\\n)(Rattle logic )')
LINE = re.compile(rb"^commit ([0-9a-f]{12})\n", re.MULTILINE)


def head():
    """The first 12 digits of the commit that is checked out."""
    ran = subprocess.run(["git", "rev-parse", "--short=12", "HEAD"], cwd=TOP, stdout=subprocess.PIPE, check=True)
    return ran.stdout.decode().strip()


def version():
    """The version in the sources."""
    return re.search(r'const VERSION: &str = "(\d+\.\d+\.\d+)\\n', (TOP / SOURCE).read_text())[1]


def stamp(copy, commit):
    """Puts the commit into the version of the sources in the folder `copy`."""
    path = copy / SOURCE
    text, count = VERSION.subn(rf"\g<1>commit {commit}\\n\g<2>", path.read_text())
    if count != 1:
        raise ValueError(f"{SOURCE} has {count} versions")
    path.write_text(text)


def without_commit(text):
    """What the program says of its version, without the line of its commit, if that is the one that
    is checked out."""
    found = LINE.search(text)
    return text if found is None or found[1].decode() != head() else text[: found.start()] + text[found.end() :]
