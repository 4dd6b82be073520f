"""The commands of docs/SERVING.md and of README, each with what it has to print. Those for root,
which begin with '#', run on folders of the test in place of /etc and /usr/local, with a systemctl
and an apt-get that do nothing."""
import os
import pathlib
import signal
import subprocess
import time

from documents import shown
from expected import TOP
from server.served import SECONDS, free_port

PAGE, README, PORT, ROOT = "docs/SERVING.md", "README.md", "8080", "    # "
PLACES = (
    "/etc/nginx/crushcalc",
    "/etc/nginx/conf.d",
    "/etc/systemd/system",
    "/usr/local/bin",
    "/usr/local/share/crushcalc/web",
)
INSTALLED = (
    *(f"/etc/nginx/crushcalc/{it}" for it in ("key.pem", "certificate.pem", "shop.users")),
    "/etc/nginx/conf.d/crushcalc.conf",
    "/etc/systemd/system/crushcalc@.service",
    "/usr/local/bin/crushcalc",
    "/usr/local/share/crushcalc/web/index.html",
)


def said_by(command, wanted, folder, environment=None):
    """What a command prints once its shell has ended, and what it leaves running, if that is a
    server, says that it listens."""
    with open(folder / "said", "w+b") as said:
        ran = subprocess.run(
            ["sh", "-c", command],
            cwd=folder,
            env=environment,
            stdin=subprocess.DEVNULL,
            stdout=said,
            stderr=subprocess.STDOUT,
            timeout=SECONDS,
        )
        end = time.monotonic() + SECONDS
        while "serve" in command and (folder / "said").read_bytes() != wanted and time.monotonic() < end:
            time.sleep(0.05)
    return ran.returncode, (folder / "said").read_bytes()


def fault(command, wanted, folder, port):
    """Why a command doesn't print what is shown, or None. The port of the page is one that is
    free."""
    command, wanted = command.replace(PORT, port), wanted.replace(PORT, port).encode()
    status, said = said_by(command, wanted, folder, {**os.environ, "CRUSHCALC": str(folder / "crushcalc")})
    if "kill $(" in command:
        # the shell's kill doesn't wait
        time.sleep(0.5)
    return None if said == wanted else f"{command!r} ends with {status} and prints {said[:300]!r}"


def end_server(folder):
    """Ends what a page left running, by the number that it wrote."""
    try:
        os.kill(int((folder / "crushcalc.pid").read_text()), signal.SIGKILL)
    except (OSError, ValueError):
        pass  # it has ended


def folder_for(top, name, program):
    at = pathlib.Path(top, name)
    at.mkdir()
    (at / "crushcalc").symlink_to(program)
    for it in ("examples", "tools", "web"):
        (at / it).symlink_to(TOP / it)
    return at


def by_root(text, folder):
    """Runs the commands for root below a folder, and says which of them fails, or None."""
    (folder / "bin").mkdir()
    for it in ("systemctl", "apt-get"):
        (folder / "bin" / it).write_text("#!/bin/sh\n")
        (folder / "bin" / it).chmod(0o755)
    environment = {**os.environ, "PATH": f"{folder}/bin:{os.environ['PATH']}"}
    for it in PLACES[1:]:
        pathlib.Path(f"{folder}{it}").mkdir(parents=True)
    for line in text.splitlines():
        if line.startswith(ROOT) and not line.startswith(ROOT + "nginx"):
            command = line[len(ROOT) :]
            for it in PLACES:
                command = command.replace(it, f"{folder}{it}")
            status, said = said_by(command, b"", folder, environment)
            if status:
                return f"{command!r} ends with {status} and prints {said[-300:]!r}"
    return next((f"there is no {it}" for it in INSTALLED if not pathlib.Path(f"{folder}{it}").is_file()), None)


def checks(program, top):
    for page in (PAGE, README):
        text = (TOP / page).read_text()
        folder, port = folder_for(top, page.replace("/", "-"), program), str(free_port())
        try:
            for place, (command, wanted) in enumerate(shown.commands_in(text), 1):
                yield f"{page}, command {place}", fault(command, wanted, folder, port)
        finally:
            end_server(folder)
    yield "the commands for root", by_root((TOP / PAGE).read_text(), folder_for(top, "root", program))
