"""Files that are removed, moved, replaced or cut while the program has them open: no change is
acknowledged from then on."""
import contextlib
import os
import pathlib
import sqlite3
import subprocess
import time

from gate.counted import Untried
from server.connection_cases import first, unlike
from model.messages import made
from server.served import SECONDS, Server, asked, run_to_end
from stops.full_disk import mount

STORE_FAILED = b'503 {"error":"store_failed"}'
STORE_FAULT = (1, b"", b"crushcalc: store fault\n")


def removed(path):
    path.unlink()


def moved(path):
    path.rename(f"{path}.moved")


def replaced(path):
    """Another file with the same bytes has the name."""
    other = path.with_name("copy")
    other.write_bytes(path.read_bytes())
    other.replace(path)


def cut(path):
    os.truncate(path, path.stat().st_size - 1)


HARMS = (removed, moved, replaced, cut)


def log_of(db):
    return db.with_name(f"{db.name}-wal")


def sleeps(pid):
    """Whether a process sleeps, as one does that waits for its standard input. Until its file is
    open it doesn't, however slow the machine is."""
    return "\nState:\tS" in pathlib.Path("/proc", str(pid), "status").read_text()


def harmed_while_served(program, db, harm, path):
    """What was there before is still read; the next change is answered 503, and the server ends."""
    with Server(program, db) as server:
        why = unlike(asked(server, [b"PUT /t/a"]), [made(b"a")])
        harm(path)
        there = b'200 {"devices":0,"epoch":0,"pools":0,"tenant":"a","versions":0}'
        why = why or unlike(asked(server, [b"GET /t/a"]), [there])
        return (
            why
            or unlike(asked(server, [b"PUT /t/b", b"PUT /t/c"]), [STORE_FAILED] * 2)
            or unlike(server.ended(), STORE_FAULT)
        )


def harmed_before_a_script(program, db, harm, path):
    """The script begins once the file is open: its first change is answered 503, and its end is a
    store fault."""
    with subprocess.Popen(
        [program, "script", "--db", str(db)], stdin=subprocess.PIPE, stdout=subprocess.PIPE, stderr=subprocess.PIPE
    ) as run:
        until = time.monotonic() + SECONDS
        while (
            not (path.is_file() and path.stat().st_size > 0 and log_of(db).is_file() and sleeps(run.pid))
            and time.monotonic() < until
        ):
            time.sleep(0.01)
        time.sleep(0.5)
        harm(path)
        out, err = run.communicate(b"GET /t/a\nPUT /t/b\nPUT /t/c\n", timeout=SECONDS)
    return unlike(
        (run.returncode, out, err), (1, b'404 {"error":"no_tenant"}\n' + STORE_FAILED + b"\n", STORE_FAULT[2])
    )


def a_link_that_leads_elsewhere(program, db):
    """The path is a link, and another file is at its end."""
    real, other = db.with_name("real.db"), db.with_name("other.db")
    real.touch()
    db.symlink_to(real)
    with Server(program, db) as server:
        why = unlike(asked(server, [b"PUT /t/a"]), [made(b"a")])
        other.write_bytes(b"")
        db.unlink()
        db.symlink_to(other)
        return why or unlike(asked(server, [b"PUT /t/b"]), [STORE_FAILED]) or unlike(server.ended(), STORE_FAULT)


def a_refused_link(program, db):
    """The path is a link to another program's file: it is refused, and nothing is left beside the
    file or the link."""
    real = db.with_name("real.db")
    with contextlib.closing(sqlite3.connect(real)) as connection, connection:
        connection.execute("CREATE TABLE notes (id INTEGER PRIMARY KEY, text TEXT)")
    db.symlink_to(real)
    log_of(db).write_bytes(b"of another")
    before = {it: it.read_bytes() for it in db.parent.iterdir()}
    why = unlike(run_to_end(program, "script", "--db", str(db)), STORE_FAULT)
    return why or unlike({it: it.read_bytes() for it in db.parent.iterdir()}, before)


def numbered(folder, path, number):
    """Makes empty files there until one has this number, and gives it the name."""
    for place in range(1_000):
        it = folder / f"number-{place}"
        it.touch()
        if it.stat().st_ino == number:
            it.rename(path)
            return
    raise Untried(f"no file of this disk has the number {number}")


def another_disk_with_the_same_numbers(program, db):
    """Another file system is mounted over the folder, in which the files have the same names, bytes
    and numbers: it is told by its own number."""
    folder = db.parent / "disk"
    folder.mkdir()
    at, mounted = folder / db.name, 0
    try:
        mount(folder)
        mounted += 1
        with Server(program, at) as server:
            why = unlike(asked(server, [b"PUT /t/a"]), [made(b"a")])
            files = {it: (it.read_bytes(), it.stat().st_ino) for it in (at, log_of(at))}
            mount(folder)
            mounted += 1
            for path, (data, number) in sorted(files.items(), key=lambda it: it[1][1]):
                numbered(folder, path, number)
                path.write_bytes(data)
            return why or unlike(asked(server, [b"PUT /t/b"]), [STORE_FAILED]) or unlike(server.ended(), STORE_FAULT)
    finally:
        for _each in range(mounted):
            subprocess.run(["umount", "-l", str(folder)], check=True)


def a_file_that_comes_back(program, db):
    """Between two changes it doesn't matter where the files are."""
    with Server(program, db, "--connections", "2") as server:
        why = unlike(asked(server, [b"PUT /t/a"]), [made(b"a")])
        for path in (db, log_of(db)):
            path.rename(f"{path}.moved")
        for path in (db, log_of(db)):
            pathlib.Path(f"{path}.moved").rename(path)
        return why or unlike(asked(server, [b"PUT /t/b"]), [made(b"b")]) or unlike(server.ended(), (0, b"", b""))


def cases():
    """Names, each with what says why it isn't so, or None."""
    for harm in HARMS:
        for what in ("file", "log"):

            def case(program, db, harm=harm, what=what):
                path = db if what == "file" else log_of(db)
                return first(
                    *(it(program, folder / db.name, harm, folder / path.name) for it, folder in folders(db.parent))
                )

            case.__name__ = f"a_{what}_that_is_{harm.__name__}"
            yield case
    yield a_link_that_leads_elsewhere
    yield a_refused_link
    yield another_disk_with_the_same_numbers
    yield a_file_that_comes_back


def folders(parent):
    for place, how in enumerate((harmed_while_served, harmed_before_a_script)):
        folder = parent / str(place)
        folder.mkdir()
        yield how, folder
