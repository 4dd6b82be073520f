"""A file system that becomes read-only while it is served, as one does whose disk fails. An ext4 in
a file is mounted for it, which takes root and a loop device; elsewhere it can't be tried."""
import os
import pathlib
import subprocess

from model import maps, messages
from gate.counted import Untried
from model.messages import made
from server.served import Server, asked, run_to_end
from files.stored import STORE_FAULT

FAILED = b'503 {"error":"store_failed"}'
SIZE = 1 << 24
ACKNOWLEDGED = 20  # imports


def said(*words):
    return subprocess.run(words, check=True, stdout=subprocess.PIPE, stderr=subprocess.PIPE, text=True).stdout.strip()


def import_of(place):
    return messages.import_of(maps.tiny(), f"m{place}")


def mount(image, at):
    """Mounts an ext4 there that becomes read-only at its first error."""
    if os.geteuid() != 0:
        raise Untried("a file system is mounted by root alone")
    try:
        with open(image, "wb") as file:
            file.truncate(SIZE)
        said("mkfs.ext4", "-q", "-F", str(image))
        said("mount", "-o", "loop,errors=remount-ro", str(image), str(at))
    except (OSError, subprocess.CalledProcessError) as error:
        raise Untried(f"no ext4 can be mounted: {error} {getattr(error, 'stderr', '')}".strip()) from error


def fail(at):
    """Makes the file system report an error to itself, as where its disk fails."""
    device = pathlib.Path(said("findmnt", "-n", "-o", "SOURCE", str(at))).name
    pathlib.Path("/sys/fs/ext4", device, "trigger_fs_error").write_text("a test")


def becomes_read_only(program, at):
    """While it is read-only what was loaded is served, a change is answered 503 and the server
    ends; a start is refused, and changes nothing."""
    db, lines = at / "t.db", [b"PUT /t/a", *map(import_of, range(1, ACKNOWLEDGED + 1))]
    summary = messages.summary(ACKNOWLEDGED, ACKNOWLEDGED)
    with Server(program, db) as server:
        if asked(server, lines) != [made(b"a"), *(messages.imported(it, it) for it in range(1, ACKNOWLEDGED + 1))]:
            return "the imports aren't answered"
        fail(at)
        found = asked(server, [b"GET /t/a", import_of(ACKNOWLEDGED + 1), b"GET /t/a"])
        if found != [summary, FAILED, FAILED]:
            return f"once it is read-only: {found}"
        if (ended := server.ended()) != (1, b"", STORE_FAULT):
            return f"the server ends with {ended}"
    before = [it.read_bytes() for it in sorted(at.glob("t.db*"))]
    if (ended := run_to_end(program, "script", "--db", str(db), data=b"GET /t/a\n")) != (1, b"", STORE_FAULT):
        return f"a start while it is read-only ends with {ended}"
    return None if [it.read_bytes() for it in sorted(at.glob("t.db*"))] == before else "a start changes the files"


def after_repair(program, at):
    """Once it is repaired the file has what was acknowledged, and of the change that met the fault
    all or nothing; sent again it is done once."""
    last = ACKNOWLEDGED + 1
    status, out, err = run_to_end(
        program,
        "script",
        "--db",
        str(at / "t.db"),
        data=b"GET /t/a\n" + import_of(last) + b"\n" + import_of(1) + b"\nGET /t/a\n",
    )
    found = out.splitlines()
    wanted = [messages.imported(last, last), messages.imported(1, 1), messages.summary(last, last)]
    if (status, err, found[1:]) != (0, b"", wanted) or found[0] not in (
        messages.summary(it, it) for it in (last - 1, last)
    ):
        return f"after a repair: status {status}, {err!r}, {found}"
    return None


def checks(program, folder):
    """Names, each with why it fails, or None."""
    at, image = pathlib.Path(folder, "read-only"), pathlib.Path(folder, "image")
    at.mkdir()
    mount(image, at)
    try:
        why = becomes_read_only(program, at)
    finally:
        said("umount", str(at))
    yield "a file system becomes read-only", why
    subprocess.run(["e2fsck", "-f", "-y", str(image)], stdout=subprocess.DEVNULL, stderr=subprocess.DEVNULL)
    said("mount", "-o", "loop", str(image), str(at))
    try:
        why = after_repair(program, at)
    finally:
        said("umount", str(at))
    yield "a file system that was read-only", why
