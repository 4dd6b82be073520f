"""Snapshots of a file system (btrfs in a file, which takes root) while imports are served: what
each holds opens as after a kill."""
import os
import pathlib
import subprocess
import threading

from gate.counted import Untried
from model import maps, messages
from proxy import run
from server.served import Server, message, read_reply, run_to_end

COUNT, SIZE = 3, 256 << 20


def imports(server, answered, ends):
    """Imports one after the other; `answered` has how many were replied to."""
    with server.connect() as connection, connection.makefile("rb") as stream:
        connection.sendall(message(b"PUT /t/a"))
        read_reply(stream)
        while not ends.is_set() and len(answered) < 200:
            connection.sendall(message(messages.import_of(maps.tiny(), f"m{len(answered) + 1}")))
            if read_reply(stream)[0] != messages.imported(len(answered) + 1, len(answered) + 1):
                return
            answered.append(None)


def snapshots(program, at):
    """Each snapshot has the imports that were answered before it was made, and of those after it
    one at most that was under way."""
    run("btrfs", "subvolume", "create", f"{at}/files")
    answered, ends, bounds = [], threading.Event(), []
    with Server(program, at / "files" / "t.db") as server:
        client = threading.Thread(target=imports, args=(server, answered, ends))
        client.start()
        for place in range(COUNT):
            while client.is_alive() and len(answered) < 3 * place + 3:
                ends.wait(0.01)
            before = len(answered)
            run("btrfs", "subvolume", "snapshot", f"{at}/files", f"{at}/held-{place}")
            bounds.append((before, len(answered) + 1))
        ends.set()
        client.join()
    for place, (least, most) in enumerate(bounds):
        _, out, err = run_to_end(program, "script", "--db", f"{at}/held-{place}/t.db", data=b"GET /t/a\n")
        if least == 0 or out.strip() not in (messages.summary(it, it) for it in range(least, most + 1)) or err:
            return f"snapshot {place + 1} between {least} and {most} imports: {out!r}, {err!r}"
    return None


def checks(program, folder):
    at, image = pathlib.Path(folder, "mounted"), pathlib.Path(folder, "image")
    if os.geteuid() != 0:
        raise Untried("a file system is mounted by root alone")
    at.mkdir()
    with open(image, "wb") as file:
        file.truncate(SIZE)
    try:
        run("mkfs.btrfs", "-q", str(image))
        run("mount", "-o", "loop", str(image), str(at))
    except (OSError, subprocess.SubprocessError) as error:
        raise Untried(f"no btrfs can be mounted: {error}") from error
    try:
        yield "snapshots of a file system", snapshots(program, at)
    finally:
        run("umount", str(at))
