"""`crushplan fetch`: the files of a cluster, by commands that only read it."""
import json
import os
import pathlib
import shlex
import subprocess
import tempfile

from .faults import Fault
from .fields import load
from .output import Answer
from .waiting import waiting

FILES = (
    ("osd.json", ("osd", "dump", "-f", "json")), ("crush.json", ("osd", "crush", "dump", "-f", "json")),
    ("df.json", ("df", "detail", "-f", "json")), ("osd-df.json", ("osd", "df", "-f", "json")),
    ("pgs.json", ("pg", "dump", "pgs_brief", "-f", "json")),
)  # fmt: skip
OPTIONAL = ("df.json", "osd-df.json", "pgs.json", "map.txt")
SECONDS = 120


def ran(words):
    """Returns what a command writes; a Fault says what it said where it failed."""
    waiting.at(shlex.join(words))
    try:
        done = subprocess.run(
            words, stdin=subprocess.DEVNULL, stdout=subprocess.PIPE, stderr=subprocess.PIPE, timeout=SECONDS
        )
    except FileNotFoundError:
        raise Fault(
            f"{words[0]} isn't there: run 'crushplan fetch' where the cluster's commands are, or name them by --ceph"
        ) from None
    except OSError as error:
        raise Fault(f"{words[0]} can't be run: {error.strerror or error}") from None
    except subprocess.TimeoutExpired:
        raise Fault(f"{shlex.join(words)} hasn't ended within {SECONDS} seconds") from None
    if done.returncode:
        said = (done.stderr or done.stdout).decode(errors="replace").strip().splitlines()[-1:] or ["no word of why"]
        raise Fault(f"{shlex.join(words)} failed: {said[0]}")
    return done.stdout


def write(path, data):
    """Writes a file whole or not at all."""
    try:
        part = path.with_name(path.name + ".part")
        part.write_bytes(data)
        os.replace(part, path)
    except OSError as error:
        raise Fault(f"{path}: {error.strerror or error}") from None


def fetch(asked):
    """Writes the files of a cluster into a folder, and says which."""
    folder, ceph = pathlib.Path(asked.folder), shlex.split(asked.ceph)
    try:
        folder.mkdir(parents=True, exist_ok=True)
    except OSError as error:
        raise Fault(f"{folder}: {error.strerror or error}") from None
    lines, failed = [], []
    for name, words in FILES:
        try:
            write(folder / name, ran([*ceph, *words]))
            lines.append(f"{folder / name}: {shlex.join([*ceph, *words])}")
        except Fault as fault:
            if name not in OPTIONAL:
                raise
            failed.append(f"{name} isn't written: {fault}")
            (folder / name).unlink(missing_ok=True)  # one of another time would say what isn't so any more
    try:
        write(folder / "map.txt", map_text(ceph, asked.crushtool))
        lines.append(f"{folder / 'map.txt'}: {shlex.join([*ceph, 'osd', 'getcrushmap'])}, {asked.crushtool} -d")
    except Fault as fault:
        failed.append(f"map.txt isn't written (crush.json is enough): {fault}")
    before, now = load(folder / "osd.json"), dumped(ran([*ceph, "osd", "dump", "-f", "json"]))
    if now.get("crush_version") != before.get("crush_version"):
        failed.append("the map changed while it was read: fetch again")
    elif now.get("epoch") != before.get("epoch"):
        failed.append(
            "states or exceptions changed while they were read: where 'crushplan check' then finds groups that differ,"
            " fetch again"
        )
    return Answer(
        0,
        f"{len(lines)} files are in {folder}.",
        {"files": lines, "failed": failed},
        ["\n".join(lines), "\n".join(failed)],
        [["file"], *([it] for it in lines)],
    )


def dumped(data):
    """Returns the object of a dump."""
    try:
        found = json.loads(data)
    except ValueError:
        found = None
    if not isinstance(found, dict):
        raise Fault("ceph osd dump -f json doesn't write JSON")
    return found


def map_text(ceph, crushtool):
    """Returns the map's text by `ceph osd getcrushmap` and `crushtool -d`."""
    with tempfile.TemporaryDirectory() as folder:
        binary, text = f"{folder}/map.bin", f"{folder}/map.txt"
        ran([*ceph, "osd", "getcrushmap", "-o", binary])
        ran([*shlex.split(crushtool), "-d", binary, "-o", text])
        return pathlib.Path(text).read_bytes()
