"""A full disk: what is answered, and that the server goes on when there is room again. A file
system of two MiB in memory is mounted for it, which takes root; elsewhere it can't be tried."""
import errno
import os
import pathlib
import subprocess

from model import maps, messages
from gate.counted import Untried
from model.definition import played
from server.served import Server, asked, free_port, run_to_end
from files.stored import SCHEMA_1, STORE_FAULT, files_at

FULL = b'503 {"error":"store_failed"}'
SIZE, PAGE = "2m", 4_096


def import_of(place):
    return messages.import_of(maps.tiny(), f"m{place}")


def fill(server, first):
    """Imports until one is refused: the number of the last that was accepted, and the last
    reply."""
    for place in range(first, first + 1000):
        (reply,) = asked(server, [import_of(place)])
        if reply != messages.imported(place, place):
            break
    return place - 1, reply


def take_the_rest(path):
    """Writes until nothing more goes onto the disk."""
    with open(path, "wb", buffering=0) as rest:
        try:
            while rest.write(bytes(512)):
                pass
        except OSError as error:
            if error.errno != errno.ENOSPC:
                raise


def starts(program, db, summary):
    """Why a start on the full disk doesn't serve, or a clean end there isn't refused after its
    reply, or None."""
    with Server(program, db) as server:
        found = asked(server, [b"GET /t/a"])
    if found != [summary]:
        return f"a start on the full disk serves {found}"
    # a clean end copies the log into the file
    found = run_to_end(program, "script", "--db", str(db), data=b"GET /t/a\n")
    return None if found == (1, summary + b"\n", STORE_FAULT) else f"a clean end on the full disk: {found}"


def at_full_disk(program, folder):
    """Nothing but changes is refused while the disk is full, and they are accepted once there is
    room. A start with the log of before needs none; a clean end does, and without it the files
    still have everything."""
    db, ballast = pathlib.Path(folder, "t.db"), [pathlib.Path(folder, f"ballast-{it}") for it in range(2)]
    for it in ballast:
        it.write_bytes(bytes(1 << 19))
    with Server(program, db) as server:
        asked(server, [b"PUT /t/a"])
        count, reply = fill(server, 1)
        if reply != FULL or not 0 < count < 200:
            return f"import {count + 1} is answered {reply!r}"
        summary = messages.summary(count, count)
        found = asked(
            server, [b"GET /t/a", import_of(count + 1), import_of(1), messages.test_of(), b"DELETE /t/a", b"GET /t/a"]
        )
        if found != [summary, FULL, messages.imported(1, 1), messages.tested([0], [0], count, count), FULL, summary]:
            return f"while it is full: {found}"
        ballast[0].unlink()
        more, reply = fill(server, count + 1)
        if reply != FULL or more == count:
            return f"with room again import {more + 1} is answered {reply!r}"
        server.stop()
    take_the_rest(folder / "rest")
    if why := starts(program, db, messages.summary(more, more)):
        return why
    for it in (ballast[1], folder / "rest"):
        it.unlink()
    with Server(program, db) as server:
        found = asked(server, [b"GET /t/a", import_of(more + 1)])
    return (
        None
        if found == [messages.summary(more, more), messages.imported(more + 1, more + 1)]
        else f"after a start: {found}"
    )


def schema_1_at_full_disk(program, folder):
    """A file of schema 1 isn't taken over where there is no room for that, and stays as it is; and
    it is when there is room."""
    db, rest = folder / "first.db", folder / "rest"
    db.write_bytes(SCHEMA_1.read_bytes())
    take_the_rest(rest)
    found = run_to_end(program, "script", "--db", str(db), data=b"GET /t/a\n")
    left = files_at(db)
    if found != (1, b"", STORE_FAULT) or left[""] != SCHEMA_1.read_bytes() or any(left[it] for it in left if it):
        return f"on a full disk: {found}, and the files have {[len(it) for it in left.values()]} bytes"
    rest.unlink()
    live = played(SCHEMA_1.with_suffix(".script").read_bytes().splitlines())[1]
    (summary,) = played([b"GET /t/a"], live)[0]
    found = run_to_end(program, "script", "--db", str(db), data=b"GET /t/a\n")
    db.unlink()
    return None if found == (0, summary + b"\n", b"") else f"with room again: {found}"


def first_start_at_full_disk(program, folder):
    """Where there is no room for the tables of a new file a start is refused, whatever part of them
    there is room for; a start with room makes them, over what was left or anew."""
    db, rest = folder / "new.db", folder / "rest"
    for pages, words in (
        (0, ("script",)),
        (1, ("script",)),
        (2, ("serve", "--port", str(free_port()))),
        (16, ("script",)),
        (48, ("serve", "--port", str(free_port()))),
    ):
        take_the_rest(rest)
        os.truncate(rest, rest.stat().st_size - pages * PAGE)
        # the second start is over what the first has left, which has no tables yet
        for place in (1, 2):
            found = run_to_end(program, *words, "--db", str(db), data=b"GET /t/a\n")
            if found != (1, b"", STORE_FAULT):
                return f"{words[0]}, start {place} with room for {pages} pages: {found}"
        rest.unlink()
        found = run_to_end(program, "script", "--db", str(db), data=b"PUT /t/a\n")
        if found != (0, messages.made(b"a") + b"\n", b""):
            return f"with room again, after room for {pages} pages: {found}"
        for it in folder.glob("new.db*"):
            it.unlink()
    return None


def mount(folder):
    """Mounts a small file system there."""
    if os.geteuid() != 0:
        raise Untried("a file system is mounted by root alone")
    ran = subprocess.run(
        ["mount", "-t", "tmpfs", "-o", f"size={SIZE}", "crushcalc", str(folder)], stderr=subprocess.PIPE
    )
    if ran.returncode:
        raise Untried(f"no file system can be mounted: {ran.stderr.decode(errors='replace').strip()}")


def checks(program, folder):
    at = pathlib.Path(folder, "full")
    at.mkdir()
    mount(at)
    try:
        yield "a file of schema 1 on a full disk", schema_1_at_full_disk(program, at)
        for it in at.iterdir():
            it.unlink()
        yield "a first start on a full disk", first_start_at_full_disk(program, at)
        for it in at.iterdir():
            it.unlink()
        yield "a full disk", at_full_disk(program, at)
    finally:
        subprocess.run(["umount", str(at)], check=True)
