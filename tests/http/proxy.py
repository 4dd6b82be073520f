"""nginx with the configuration of examples/nginx.conf before several processes, each with a file of
its own, in a folder of the test."""
import base64
import contextlib
import http.client
import pathlib
import shutil
import ssl
import subprocess
import time

from expected import TOP
from server.served import SECONDS, Server, Unserved, free_port

TENANTS = 64
# keys of RSA take long on a busy machine
KEY = ("-newkey", "ec", "-pkeyopt", "ec_paramgen_curve:prime256v1", "-nodes")
# the tenants t0, t1, .. have a user each
USERS = {"anna": ("shop", "depot"), "ben": ("lab",)} | {f"u{it}": (f"t{it}",) for it in range(TENANTS)}
MAIN = """daemon off;
worker_processes 2;
pid {folder}/nginx.pid;
error_log {folder}/error.log;
events {{ worker_connections 512; }}
http {{
    include /etc/nginx/mime.types;
    access_log off;
    client_body_temp_path {folder}/client;
    proxy_temp_path {folder}/proxy;
    fastcgi_temp_path {folder}/fastcgi;
    uwsgi_temp_path {folder}/uwsgi;
    scgi_temp_path {folder}/scgi;
    include {folder}/crushcalc.conf;
}}
"""


class Client:
    """A user's connection to nginx by TLS, with a password or a certificate."""

    def __init__(self, port, folder, user, password=None, certificate=None):
        context = ssl.create_default_context(cafile=f"{folder}/certificate.pem")
        if certificate:
            context.load_cert_chain(certificate)
        self.connection = http.client.HTTPSConnection("localhost", port, timeout=60, context=context)
        self.headers = authorization(user, password) if user else {}

    def ask(self, line):
        """The reply to a script's line, as a script's line."""
        method, path, *body = line.split(b" ", 2)
        self.connection.request(
            method.decode(),
            path.decode(),
            body[0] if body else None,
            self.headers | {"Cookie": "c" * 3000, "User-Agent": "Mozilla/5.0"},
        )
        reply = self.connection.getresponse()
        return b"%d " % reply.status + reply.read()


def authorization(user, password=None):
    """The header of a user, whose password is the user's name where none is given."""
    return {"Authorization": "Basic " + base64.b64encode(f"{user}:{password or user}".encode()).decode()}


def run(*words, **more):
    ran = subprocess.run(words, stdout=subprocess.PIPE, stderr=subprocess.PIPE, timeout=SECONDS, **more)
    if ran.returncode:
        raise OSError(f"{words[:4]} ends with status {ran.returncode}: {ran.stderr.decode(errors='replace')[:400]}")
    return ran.stdout


def replaced(text, *pairs):
    """The text with each of these once in it and replaced."""
    for old, new in pairs:
        if text.count(old) != 1:
            raise Unserved(f"{old!r} stands {text.count(old)} times in examples/nginx.conf")
        text = text.replace(old, new)
    return text


def write_users(folder):
    """A certificate that signs itself, and for each tenant its file of users, each user's password
    being the user's name."""
    run(
        "openssl",
        "req",
        "-x509",
        *KEY,
        "-days",
        "1",
        "-subj",
        "/CN=localhost",
        "-addext",
        "subjectAltName=DNS:localhost",
        "-keyout",
        f"{folder}/key.pem",
        "-out",
        f"{folder}/certificate.pem",
    )
    for user, tenants in USERS.items():
        line = b"%s:%s" % (user.encode(), run("openssl", "passwd", "-apr1", user))
        for it in tenants:
            (folder / f"{it}.users").write_bytes(line)


def write_configuration(folder, port, servers, more):
    """examples/nginx.conf with the test's ports, its files in place of those below /etc/nginx and
    of the page, and more that is replaced."""

    def lines(ports):
        return "".join(f"    server 127.0.0.1:{it} max_fails=0;\n" for it in ports)

    files = (("/etc/nginx/crushcalc/" + it, f"{folder}/{it}") for it in ("certificate.pem", "key.pem", "$owner.users"))
    shutil.copytree(TOP / "web", folder / "web", dirs_exist_ok=True)
    page = ("/usr/local/share/crushcalc/web/", f"{folder}/web/")
    text = replaced(
        (TOP / "examples" / "nginx.conf").read_text(),
        (lines((8081, 8082)), lines(servers)),
        ("listen 443 ssl;", f"listen 127.0.0.1:{port} ssl;"),
        page,
        *files,
        *more,
    )
    (folder / "crushcalc.conf").write_text(text)
    (folder / "main.conf").write_text(MAIN.format(folder=folder))


@contextlib.contextmanager
def nginx(folder, servers, *more):
    """nginx before the servers of these ports, with its example, in which more may be replaced.
    What is given is its own port."""
    port = free_port()
    write_users(folder)
    write_configuration(folder, port, servers, more)
    words = ["nginx", "-c", f"{folder}/main.conf", "-e", f"{folder}/error.log"]
    run(*words, "-t")
    proxy = subprocess.Popen(words, stdin=subprocess.DEVNULL, stdout=subprocess.DEVNULL, stderr=subprocess.PIPE)
    try:
        wait_for(folder / "nginx.pid", proxy)
        yield port
    finally:
        proxy.terminate()
        proxy.wait(SECONDS)


def wait_for(path, proxy):
    end = time.monotonic() + SECONDS
    while not path.exists() or not path.read_text().strip():
        if proxy.poll() is not None or time.monotonic() > end:
            raise OSError(f"nginx isn't there: {proxy.stderr.read()[:400]!r}")
        time.sleep(0.05)


@contextlib.contextmanager
def processes(program, folder, count):
    """So many servers, each over a file of its own: the files 0.db, 1.db, .."""
    with contextlib.ExitStack() as stack:
        yield [stack.enter_context(Server(program, pathlib.Path(folder, f"{it}.db"))) for it in range(count)]
