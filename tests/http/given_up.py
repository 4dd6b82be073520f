"""Two tenants of one process behind nginx with its configuration of the examples: what one of them
starts and gives up, and what the other then waits for.

The process does one request at a time, so a wait is counted by the processor time that it takes
meanwhile, whatever else the machine does.
"""
import concurrent.futures
import os
import pathlib
import socket
import ssl
import time

from proxy import Client, authorization, nginx
from model.maps import tiny, with_line
from model.messages import import_of, pool_of, there
from server.served import SECONDS, Server, Unserved

GIVEN_UP, TOGETHER, AT_ONCE = 40, 8, 20
DEVICES, SIZE, GROUPS = 100, 32, 8_192
USAGE = b"GET /t/lab/pools/1/usage"
# nginx's own 503 is a page
REFUSED = b"503 <html>"
# what small requests add, and the least that a usage has to take for a wait to be seen
SLACK, LEAST = 0.3, 0.4


def one_list():
    """One list of devices, from which a rule chooses."""
    items = "\n".join(f" item osd.{it} weight 1.0" for it in range(DEVICES))
    devices = "\n".join(f"device {it} osd.{it}" for it in range(DEVICES))
    return with_line(with_line(with_line(tiny(), 15, items), 13, " alg list"), 7, devices)


def worked(server):
    """The processor seconds that the process has taken."""
    fields = pathlib.Path("/proc", str(server.run.pid), "stat").read_text().rsplit(")", 1)[1].split()
    return (int(fields[11]) + int(fields[12])) / os.sysconf("SC_CLK_TCK")


def prepare(port, folder, server):
    """A pool of ben's whose usage takes long, and a tenant of anna's; returns how long it takes."""
    lines = [
        b"PUT /t/lab",
        *(
            it.replace(b"/t/a", b"/t/lab")
            for it in (import_of(one_list()), pool_of("p", size=SIZE, pg_num=GROUPS, pgp_num=GROUPS))
        ),
    ]
    found = [Client(port, folder, "ben").ask(it) for it in lines] + [Client(port, folder, "anna").ask(b"PUT /t/shop")]
    if not all(it.startswith(b"201 ") for it in found):
        raise Unserved(f"the replies are {found}")
    return taken(port, folder, server, "ben", USAGE, b"200 ")


def taken(port, folder, server, user, line, wanted):
    """How many processor seconds the process takes until a request is answered whose reply begins
    so."""
    client, start = Client(port, folder, user), worked(server)
    found, spent = client.ask(line), worked(server) - start
    if not found.startswith(wanted):
        raise Unserved(f"the reply to {line!r} is {found[:200]!r}")
    return spent


def opened(port, folder):
    """A TLS connection to nginx."""
    context = ssl.create_default_context(cafile=f"{folder}/certificate.pem")
    return context.wrap_socket(
        socket.create_connection(("localhost", port), timeout=SECONDS), server_hostname="localhost"
    )


def usage_message():
    """ben's request of the usage."""
    headers = "".join(f"{name}: {value}\r\n" for name, value in authorization("ben").items())
    return USAGE + b" HTTP/1.1\r\nHost: localhost\r\nConnection: close\r\n" + headers.encode() + b"\r\n"


def give_up(port, folder):
    """Asks for the usage, and goes away a moment later."""
    with opened(port, folder) as connection:
        connection.sendall(usage_message())
        time.sleep(0.1)


def given_up(port, folder, server, usage):
    """ben asks for 40 usages, eight at a time, and waits for none. Then anna waits for two of them
    at most."""
    with concurrent.futures.ThreadPoolExecutor(TOGETHER) as pool:
        list(pool.map(lambda _: give_up(port, folder), range(GIVEN_UP)))
    waited = taken(port, folder, server, "anna", b"GET /t/shop", there(b"shop"))
    usage = max(usage, taken_after_refusals(port, folder, server))
    print(
        f"after {GIVEN_UP} usages of {usage:.1f} processor seconds that one tenant gave up, another's small request"
        f" waited for {waited:.1f} of them"
    )
    return (
        None
        if waited < 2 * usage + SLACK
        else f"anna waited for {waited:.1f} processor seconds, and a usage takes {usage:.1f}"
    )


def taken_after_refusals(port, folder, server):
    """How long a usage of ben's takes once nginx passes one on."""
    end = time.monotonic() + SECONDS
    while time.monotonic() < end:
        start = worked(server)
        found = Client(port, folder, "ben").ask(USAGE)
        if found.startswith(b"200 "):
            return worked(server) - start
        time.sleep(0.1)
    raise Unserved(f"ben still gets {found[:200]!r}")


def two_at_a_time(port, folder):
    """While two requests of ben's are under way, nginx answers a third at once, and takes no place
    of anna's, whose request is done after them."""
    with concurrent.futures.ThreadPoolExecutor(2) as pool:
        both = [pool.submit(Client(port, folder, "ben").ask, USAGE) for _ in range(2)]
        time.sleep(0.2)
        start = time.monotonic()
        third, spent = Client(port, folder, "ben").ask(b"GET /t/lab"), time.monotonic() - start
        found = [third, Client(port, folder, "anna").ask(b"GET /t/shop"), *(it.result() for it in both)]
    if not (
        found[0].startswith(REFUSED) and found[1] == there(b"shop") and all(it.startswith(b"200 ") for it in found[2:])
    ):
        return f"the replies are {[it[:100] for it in found]}"
    return None if spent < LEAST else f"the third waited for {spent:.1f} seconds"


def many_at_once(port, folder):
    """Small requests of one user that come at once: each is answered, or refused by nginx since two
    are under way, and answered when it is sent again."""

    def insistent(_):
        client = Client(port, folder, "anna")
        return next(
            it for it in (client.ask(b"GET /t/shop") for _ in range(100 * AT_ONCE)) if not it.startswith(REFUSED)
        )

    with concurrent.futures.ThreadPoolExecutor(AT_ONCE) as pool:
        found = list(pool.map(insistent, range(AT_ONCE)))
    return None if found == [there(b"shop")] * AT_ONCE else f"the replies are {found[:3]} .."


def without_the_password(port, folder):
    """Who doesn't know anna's password takes none of her places."""

    def guess(_):
        return Client(port, folder, "anna", "guessed").ask(b"GET /t/shop")

    with concurrent.futures.ThreadPoolExecutor(AT_ONCE) as pool:
        guesses = [pool.submit(guess, it) for it in range(10 * AT_ONCE)]
        found = [Client(port, folder, "anna").ask(b"GET /t/shop") for _ in range(AT_ONCE)]
        guessed = [it.result() for it in guesses]
    if found != [there(b"shop")] * AT_ONCE:
        return f"the replies are {found[:3]} .."
    return None if all(it.startswith(b"401 ") for it in guessed) else "a guess isn't answered 401"


def half_closed(port, folder):
    """A client that shuts its writing side once it has asked gets its reply."""
    context = ssl.create_default_context(cafile=f"{folder}/certificate.pem")
    coming, going = ssl.MemoryBIO(), ssl.MemoryBIO()
    inner = context.wrap_bio(coming, going, server_hostname="localhost")
    with socket.create_connection(("localhost", port), timeout=SECONDS) as connection:
        through(connection, coming, going, inner.do_handshake)
        inner.write(usage_message())
        connection.sendall(going.read())
        connection.shutdown(socket.SHUT_WR)
        found = through(connection, coming, going, lambda: inner.read(100))
    return None if found.startswith(b"HTTP/1.1 200 ") else f"the reply is {found!r}"


def through(connection, coming, going, call):
    """What a call on a TLS object returns, whose bytes go over a connection."""
    for _ in range(1000):
        try:
            return call()
        except ssl.SSLWantReadError:
            if going.pending:
                connection.sendall(going.read())
            coming.write(connection.recv(65_536))
    raise Unserved("TLS doesn't end")


def checks(program, top):
    folder = pathlib.Path(top, "tenants")
    folder.mkdir(mode=0o755)
    with Server(program, folder / "0.db") as server, nginx(folder, [server.port]) as port:
        usage = prepare(port, folder, server)
        yield "a usage that takes long", None if usage >= LEAST else f"it takes {usage:.2f} seconds"
        yield "40 usages that were given up", given_up(port, folder, server, usage)
        yield "two requests at a time", two_at_a_time(port, folder)
        yield "small requests at once", many_at_once(port, folder)
        yield "wrong passwords", without_the_password(port, folder)
        yield "a client that shuts its writing side", half_closed(port, folder)
