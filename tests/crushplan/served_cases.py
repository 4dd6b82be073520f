"""crushplan asks a server: the same answers, and no tenant is left, also where it is
interrupted."""
import http.client
import http.server
import os
import signal
import socket
import sqlite3
import subprocess
import sys
import threading

from made import crush_dump, osd_dump, pool, write
from running import PLAN, SECONDS, equals, wants


class Served:
    """A server over a file in a folder, and before it one that hands requests on and notes their
    methods: the server locks its file while it runs."""

    def __init__(self, runner, folder):
        self.file, self.made, self.dropped = folder / "tenants.db", [], []
        # a method whose next request waits, and whether one waits
        self.held, self.waits, self.goes_on = None, threading.Event(), threading.Event()
        # whether it waits before it is handed on until a tenant is missed, and whether it went on
        self.early, self.went_on = False, threading.Event()
        with socket.socket() as it:
            it.bind(("127.0.0.1", 0))
            self.port = it.getsockname()[1]
        self.run = subprocess.Popen(
            [runner.program, "serve", "--db", self.file, "--port", str(self.port)], stdout=subprocess.PIPE
        )
        wants(self.run.stdout.readline().startswith(b"listening"), "the server doesn't listen")
        self.before = http.server.ThreadingHTTPServer(("127.0.0.1", 0), type("Before", (Before,), {"served": self}))
        self.url = f"http://127.0.0.1:{self.before.server_address[1]}"
        threading.Thread(target=self.before.serve_forever, daemon=True).start()

    def __enter__(self):
        return self

    def __exit__(self, kind, *_):
        self.before.shutdown()
        self.before.server_close()
        self.run.terminate()
        self.run.wait(SECONDS)
        self.run.stdout.close()
        if kind is None:
            with sqlite3.connect(self.file) as base:
                equals("tenants in the file", base.execute("select count(*) from tenants").fetchone()[0], 0)

    def tenants(self):
        """How many tenants were made and not dropped."""
        return len(self.made) - len(self.dropped)

    def hold(self, method, early=False):
        """Has the next request of a method wait until let_go()."""
        for it in (self.waits, self.goes_on, self.went_on):
            it.clear()
        self.held, self.early = method, early

    def let_go(self):
        self.held = None
        self.goes_on.set()

    def wait(self, method):
        """Waits where requests of this method are held."""
        if self.held == method:
            self.held = None
            self.waits.set()
            self.goes_on.wait(SECONDS)


class Before(http.server.BaseHTTPRequestHandler):
    """Hands each request on, by one connection to the server for all."""

    protocol_version, lock = "HTTP/1.1", threading.Lock()
    disable_nagle_algorithm = True  # otherwise each body waits 40 ms for the head's acknowledgement

    def hand_on(self):
        body = self.rfile.read(int(self.headers.get("Content-Length") or 0))
        if self.command == "DELETE" or self.served.early:
            self.served.wait(self.command)
        with self.lock:
            connection = http.client.HTTPConnection("127.0.0.1", self.served.port, timeout=SECONDS)
            connection.request(self.command, self.path, body or None)
            reply = connection.getresponse()
            data = reply.read()
            connection.close()
        if reply.status < 300 and self.command in ("PUT", "DELETE"):
            (self.served.made if self.command == "PUT" else self.served.dropped).append(self.path)
        if self.command == "PUT":
            self.served.went_on.set()
        if self.served.early and reply.status == 404:
            self.served.let_go()
            self.served.went_on.wait(SECONDS)
        if self.command != "DELETE" and not self.served.early:
            self.served.wait(self.command)
        try:
            self.send_response(reply.status)
            self.send_header("Content-Length", str(len(data)))
            self.end_headers()
            self.wfile.write(data)
        except ConnectionError:  # the interrupted program is gone
            self.close_connection = True

    do_GET = do_POST = do_PUT = do_DELETE = hand_on

    def log_message(self, *_):
        """Writes nothing."""


def answers(runner, folder):
    """Each command has the same answer by a server as by the program, and leaves no tenant."""
    write(
        folder,
        crush_dump(),
        osd_dump(pools=[pool(1, "photos", pg_num=32), pool(2, "mail", size=2, pg_num=8)], down=(7,)),
    )
    (folder / "list").write_text("ceph osd pg-upmap-items 1.9 0 3\n")
    with Served(runner, folder) as served:
        for words in (
            ("drain", "host1", "--groups"),
            ("fail", "host1", "--groups"),
            ("fail", "--each", "host"),
            ("usage", "--groups"),
            ("upmap", folder / "list"),
            ("locate", "photos", "a", "b"),
            ("compare", folder / "crush.json"),
            ("check",),
        ):
            by_server = runner.said(words[0], folder, *words[1:], "--service", served.url)
            equals(f"{words}", by_server, runner.said(words[0], folder, *words[1:]))
            equals(f"{words}: tenants", served.tenants(), 0)
        text = runner.run("drain", folder, "host1", "--service", served.url)[1]
        wants("proved, if the server's program is" in text, f"a server's program proves: {text}")


def refused(runner, folder):
    """Where the input is bad no tenant is left, and a server that isn't crushcalc is named."""
    write(folder, crush_dump(), osd_dump())
    with Served(runner, folder) as served:
        runner.refused("drain", folder, "hots1", "--service", served.url, has="hots1")
        runner.refused("check", folder, "--service", f"{served.url}/other", has="doesn't know a request")
        equals("tenants", served.tenants(), 0)
        wants(served.made, "no tenant was made")


def interrupted(runner, folder):
    """Ctrl-C and a termination drop the tenant, wherever they come: while the tenant is made, amid
    a run, and while it is dropped."""
    write(folder, crush_dump(hosts=40, devices=4), osd_dump(160, [pool(1, "photos", pg_num=4096)]))
    with Served(runner, folder) as served:
        # first of all: no request of an interrupted program is left that can be taken for its own
        interrupt(runner, folder, served, signal.SIGINT, "PUT", True)
        for sent in (signal.SIGINT, signal.SIGTERM):
            for method in ("PUT", "GET", "DELETE"):
                interrupt(runner, folder, served, sent, method, False)
        equals("tenants that were made", len(served.made), len(set(served.dropped)))


def interrupt(runner, folder, served, sent, method, early):
    """Sends a signal while a request of a method has no reply; an early one isn't handed on before
    the program tries to drop the tenant."""
    what = f"{sent.name} while {method} waits{' early' * early}"
    words = [sys.executable, str(PLAN), "fail", str(folder), "--each", "host", "--service", served.url]
    served.hold(method, early)
    ran = subprocess.Popen(words, stdout=subprocess.PIPE, stderr=subprocess.PIPE, env=runner.environment)
    wants(served.waits.wait(SECONDS), f"{what}: there is no such request")
    equals(f"{what}: tenants before", served.tenants(), int(not early))
    os.kill(ran.pid, sent)
    out, err = ran.communicate(timeout=SECONDS)
    served.let_go()
    equals(f"{what}: status", ran.returncode, 130)
    equals(f"{what}: what it says", (out, err), (b"", b"crushplan: interrupted\n"))
    equals(f"{what}: tenants", served.tenants(), 0)


def cases():
    return [(it.__name__, it) for it in (answers, refused, interrupted)]
