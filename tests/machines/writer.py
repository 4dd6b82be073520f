"""A user of crushcalc over HTTPS who writes, and knows by the definition what each reply has to be.

It is run on a host of its own: its words are a JSON object with the address and the port of nginx,
the file of nginx's authority, its user, its tenants, a seed, and the seconds between two requests.
It ends once its standard input ends, when its last request is answered, and writes what it knows
then to standard output, pickled. With "lines" it asks these alone, and writes their replies.
"""
import http.client
import json
import pathlib
import pickle
import random
import select
import socket
import ssl
import sys
import time

sys.dont_write_bytecode = True
HERE = pathlib.Path(__file__).resolve().parent
sys.path[:0] = [str(HERE.parent), str(HERE.parent / "http")]
from model.definition import step  # noqa: E402
from model.histories import drawn_calls, tenant_of  # noqa: E402
from proxy import authorization  # noqa: E402

CALLS = 20  # drawn at a time
KEPT = 0.05  # of the drops that are drawn
VERSIONS = 250  # of which a tenant's user imports no more: 256 may be there, which step() doesn't know
PAUSE = 0.02  # seconds before a request is sent again
NAME = "crushcalc.example.com"


class Writer:
    def __init__(self, asked):
        self.__dict__.update(asked)
        self.context = ssl.create_default_context(cafile=self.authority)
        if self.certificate:
            self.context.load_cert_chain(*self.certificate)
        self.drawn, self.live = random.Random(self.seed), {}
        self.names = [it.encode() for it in self.tenants]
        # what it reports: the requests that were answered; of each 503 the tenant and the time; how
        # many requests had no reply; the longest wait for one that nothing held; of each
        # acknowledged change when it was sent and answered; and what is wrong
        self.answered, self.held, self.unanswered, self.slowest, self.acts, self.wrong = 0, [], 0, 0.0, [], None

    def ask(self, line):
        """The reply to a line over a connection of its own, or None."""
        method, path, *body = line.split(b" ", 2)
        connection = http.client.HTTPConnection(self.address, self.port, timeout=self.wait)
        try:
            raw = socket.create_connection((self.address, self.port), self.wait)
            connection.sock = self.context.wrap_socket(raw, server_hostname=self.name)
            headers = authorization(self.user) | {"Connection": "close"}
            connection.request(method.decode(), path.decode(), body[0] if body else None, headers)
            reply = connection.getresponse()
            return b"%d " % reply.status + reply.read()
        except (OSError, http.client.HTTPException):
            return None
        finally:
            connection.close()

    def done(self, line):
        """Sends a line until it is answered. A request without a reply is done or not, so its next
        reply is that of either."""
        tenant, name = self.live.get(tenant_of(line)), tenant_of(line)
        wanted, after = step(tenant, line)
        fit = [wanted]
        while True:
            start = time.time()
            reply = self.ask(line)
            if reply is None or reply.startswith(tuple(it.encode() for it in self.doubtful)):
                self.unanswered += 1
                fit = [wanted, step(after, line)[0]]
            elif reply.startswith(b"503 "):
                self.held.append((name.decode(), time.time()))
            elif reply in fit:
                break
            else:
                self.wrong = f"{line[:200]!r}: {reply[:300]!r}, not {wanted[:300]!r}"
                return
            time.sleep(PAUSE)
        self.answered += 1
        if after != tenant:
            self.acts.append((start, time.time()))
        self.slowest = max(self.slowest, time.time() - start)
        self.live[name] = after

    def is_full(self, line):
        """Returns whether a line would import a map for a tenant with many of them."""
        tenant = self.live.get(tenant_of(line))
        return tenant is not None and line.split(b" ")[1].endswith(b"/maps") and len(tenant.versions) >= VERSIONS

    def run(self):
        count = 0
        while not (self.wrong or select.select([sys.stdin], [], [], 0)[0]):
            there = {it: tenant for it, tenant in self.live.items() if tenant is not None}
            for line in drawn_calls(self.drawn, self.names, CALLS, there, count):
                if line.startswith(b"DELETE ") and self.drawn.random() > KEPT or self.is_full(line):
                    continue
                self.done(line)
                if self.wrong:
                    break
                time.sleep(self.pause)
            count += CALLS
        return {
            "live": {it: tenant for it, tenant in self.live.items() if tenant is not None},
            **{it: getattr(self, it) for it in ("answered", "held", "unanswered", "slowest", "acts", "wrong")},
        }


def main(asked):
    otherwise = {
        "doubtful": (),
        "wait": 120,
        "pause": 0.01,
        "certificate": None,
        "name": NAME,
        "tenants": [],
        "seed": 0,
    }
    writer = Writer(otherwise | asked)
    found = [writer.ask(it.encode()) for it in asked["lines"]] if "lines" in asked else writer.run()
    sys.stdout.buffer.write(pickle.dumps(found))


if __name__ == "__main__":
    main(json.loads(sys.argv[1]))
