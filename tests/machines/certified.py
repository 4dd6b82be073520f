"""Machines of crushcalc behind nginx, each a host with the example of examples/machines, and users
on a host of their own."""
import json
import pathlib
import pickle
import subprocess
import sys
import time

HERE = pathlib.Path(__file__).resolve().parent
sys.path.append(str(HERE.parent / "http"))
from hosts import SECONDS  # noqa: E402
from proxy import KEY, MAIN, replaced, run  # noqa: E402
from writer import NAME  # noqa: E402

EXAMPLES = HERE.parent.parent / "examples" / "machines"
COMMON = "crushcalc-machine"  # the name in each machine's certificate
LINES = "    server 127.0.0.1:8081 max_fails=0;\n    server 127.0.0.1:8082 max_fails=0;\n"


class Certified:
    """Hosts with certificates of one authority, whose files are in a folder."""

    def __init__(self, hosts, folder):
        self.hosts, self.folder, self.proxies = hosts, folder, {}

    def certificates(self, machines):
        """An authority, and what it signs: the front's two certificates, each machine's, and a
        stranger's."""
        at = self.folder
        authority = ("-subj", "/CN=authority", "-keyout", f"{at}/authority.key", "-out", f"{at}/authority.pem")
        run("openssl", "req", "-x509", *KEY, "-days", "1", *authority)
        names = {"front": "crushcalc-front", "stranger": "somebody", "certificate": NAME}
        for file, name in {**names, **{f"machine-{it}": COMMON for it in machines}}.items():
            (at / "names").write_text(f"subjectAltName=DNS:{name}")
            asked = ("-subj", f"/CN={name}", "-keyout", f"{at}/{file}.key", "-out", f"{at}/{file}.csr")
            run("openssl", "req", *KEY, *asked)
            signed = ("-CA", f"{at}/authority.pem", "-CAkey", f"{at}/authority.key", "-CAcreateserial", "-days", "1")
            files = ("-in", f"{at}/{file}.csr", "-extfile", f"{at}/names", "-out", f"{at}/{file}.pem")
            run("openssl", "x509", "-req", *signed, *files)

    def certificate(self, name):
        """The files of a certificate and of its key."""
        return [f"{self.folder}/{name}.pem", f"{self.folder}/{name}.key"]

    def write_proxy(self, host, text):
        folder = self.folder / host
        folder.mkdir(mode=0o755, exist_ok=True)
        (folder / "crushcalc.conf").write_text(text)
        (folder / "main.conf").write_text(MAIN.format(folder=folder))

    def write_machine(self, host, ports):
        """The example for a machine, with processes on these ports."""
        lines = "".join(f"    server 127.0.0.1:{it} max_fails=0;\n" for it in ports)
        files = (("machine.pem", f"machine-{host}.pem"), ("machine.key", f"machine-{host}.key"), ("authority.pem",) * 2)
        text = replaced(
            (EXAMPLES / "machine.conf").read_text(),
            (LINES, lines),
            *((f"/etc/nginx/crushcalc/{old}", f"{self.folder}/{new}") for old, new in files),
        )
        self.write_proxy(host, text)

    def proxy(self, host):
        """Starts a host's nginx."""
        at = self.folder / host
        self.proxies[host] = self.hosts.spawn(host, "nginx", "-c", at / "main.conf", "-e", at / "error.log")
        until = time.monotonic() + SECONDS
        while not (at / "nginx.pid").exists():
            if self.proxies[host].poll() is not None or time.monotonic() > until:
                raise OSError(f"nginx of {host}: {(at / 'error.log').read_text()[:500]}")
            time.sleep(0.02)

    def user(self, user, **more):
        """Starts what asks in the name of a user, on the host of the users: see writer.py."""
        asked = {"authority": f"{self.folder}/authority.pem", "user": user, **more}
        words = (sys.executable, HERE / "writer.py", json.dumps(asked))
        return self.hosts.spawn("users", *words, stdin=subprocess.PIPE, stdout=subprocess.PIPE)


def reported(user):
    """What a user wrote at its end, for which it is asked."""
    try:
        out, _ = user.communicate(timeout=2 * SECONDS)
    except subprocess.TimeoutExpired:
        raise OSError(f"a user isn't done after {2 * SECONDS} s") from None
    return pickle.loads(out)
