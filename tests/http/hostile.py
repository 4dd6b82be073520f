"""Clients that hold the service up, or go away. Each has a server of its own; they run side by
side, since most of them only wait."""
import pathlib
import socket
import threading
import time

from model import maps, messages
from server.connection_cases import LITTLE
from program.hostile_cases import BODY_LIMIT
from model.messages import BAD, made, there
from server.served import Server, asked, message, replies_on, reset

# what a client may take: for one read or write, and for a message with its reply; and what a busy
# machine adds
WAIT, WHOLE, SLACK = 5, 30, 10
CLIENTS, MANY = 50, 9_000
# the text of this map is a reply of some 60 kB
IMPORT = messages.import_of(maps.with_devices(1000))


def goes_on(server, within=SLACK):
    """Why the next client isn't served, with the replies of ever and within so many seconds, or
    None."""
    start = time.monotonic()
    found, spent = asked(server, [b"PUT /t/next", b"GET /t/next", b"DELETE /t/next"])[:2], time.monotonic() - start
    if found != [made(b"next"), there(b"next")]:
        return f"the next client gets {found}"
    return None if spent < within else f"the next client waited {spent:.1f} seconds"


def nothing_is_said(server):
    with server.connect():
        return goes_on(server, WAIT + SLACK)


def silent_after_a_message(server):
    with server.connect() as connection:
        connection.sendall(message(b"GET /t/a") + b"GET /t/")
        return goes_on(server, WAIT + SLACK)


def dripped(server, front, rest):
    """Sends these bytes at once, and of the others one a second: the client is let go 30 seconds
    after its first byte, though each byte comes in time."""

    def drip():
        try:
            for byte in rest:
                connection.send(bytes([byte]))
                if ends.wait(1):
                    break
        except OSError:
            pass  # let go

    ends, connection = threading.Event(), server.connect()
    connection.sendall(front)
    slow = threading.Thread(target=drip)
    slow.start()
    time.sleep(0.5)
    try:
        return goes_on(server, WHOLE + WAIT + SLACK)
    finally:
        ends.set()
        slow.join()
        connection.close()


def a_byte_a_second(server):
    return dripped(server, b"", message(b"GET /t/a", *(b"A: b" for _ in range(20))))


def a_byte_of_a_body_a_second(server):
    """No memory is taken for a body of the limit while it comes."""
    asked(server, [b"PUT /t/a"])
    # the pages of the program itself count too, and the next client's requests need some more
    why = goes_on(server)
    peak = server.peak()
    why = why or dripped(server, b"POST /t/a/maps HTTP/1.1\r\nContent-Length: %d\r\n\r\n" % BODY_LIMIT, b" " * 100)
    more = server.peak() - peak
    return why or (None if more < LITTLE else f"it took {more:,} bytes")


def never_reads(server):
    """Replies of many megabytes that nobody reads: a write that moves nothing for five seconds ends
    the connection."""
    asked(server, [b"PUT /t/a", IMPORT])
    connection = server.connect(room=4096)
    connection.setblocking(False)
    try:
        connection.send(message(b"GET /t/a/maps/1") * MANY)
        return goes_on(server, WHOLE + WAIT + SLACK)
    finally:
        connection.close()


def reads_a_little(server):
    """The client reads eight kilobytes a second of many megabytes: no write waits for long, but all
    of them do for more than 30 seconds."""
    asked(server, [b"PUT /t/a", IMPORT])
    connection, ends = server.connect(room=4096), threading.Event()
    connection.setblocking(False)

    def sip():
        try:
            while not ends.wait(0.5):
                connection.recv(4000)
        except OSError:
            pass  # let go

    slow = threading.Thread(target=sip)
    try:
        connection.send(message(b"GET /t/a/maps/1") * MANY)
        slow.start()
        return goes_on(server, WHOLE + WAIT + SLACK)
    finally:
        ends.set()
        slow.join()
        connection.close()


def many_resets(server):
    """Clients that connect, send a part, a whole message or many, and reset."""
    whole = message(b"PUT /t/a")
    for place in range(CLIENTS):
        connection = server.connect()
        connection.sendall((b"", whole[: place % len(whole)], whole, message(b"GET /t/a") * 100)[place % 4])
        reset(connection)
    # what came whole before the resets is served first, and takes the machine's time
    return goes_on(server, WHOLE) or goes_on(server)


def many_at_once(server):
    """As many clients at once as wait in the system's queue: each gets its replies."""
    clients = [server.connect() for _ in range(CLIENTS)]
    for it in clients:
        it.sendall(message(b"GET /t/nobody"))
        it.shutdown(socket.SHUT_WR)
    found = [replies_on(it) for it in clients]
    for it in clients:
        it.close()
    return (
        goes_on(server)
        if found == [([b'404 {"error":"no_tenant"}'], False)] * CLIENTS
        else f"the replies are {found[:3]} .."
    )


def half_closes(server):
    """A client that shuts its writing side after each part of a message: no reply, or the one."""
    whole = message(b"GET /t/nobody")
    for cut in range(len(whole) + 1):
        with server.connect() as connection:
            connection.sendall(whole[:cut])
            connection.shutdown(socket.SHUT_WR)
            found = replies_on(connection)
        if found != ([b'404 {"error":"no_tenant"}'] * (cut == len(whole)), False):
            return f"after {cut} bytes: {found}"
    return goes_on(server)


def other_protocols(server):
    """The first bytes of TLS, of HTTP/2, of SSH and of noise are no message."""
    for data in (
        b"\x16\x03\x01\x02\x00\x01\x00\x01\xfc\x03\x03" + bytes(500),
        b"PRI * HTTP/2.0\r\n\r\nSM\r\n\r\n",
        b"SSH-2.0-OpenSSH_9.2p1\r\n",
        bytes(range(256)) * 40,
    ):
        with server.connect() as connection:
            connection.sendall(data)
            connection.shutdown(socket.SHUT_WR)
            found = replies_on(connection)
        if found != ([BAD], True):
            return f"{data[:20]!r}: {found}"
    return goes_on(server)


CASES = (
    nothing_is_said,
    silent_after_a_message,
    a_byte_a_second,
    a_byte_of_a_body_a_second,
    never_reads,
    reads_a_little,
    many_resets,
    many_at_once,
    half_closes,
    other_protocols,
)


def checks(program, folder):
    found = {}

    def run(case):
        try:
            with Server(program, pathlib.Path(folder, f"{case.__name__}.db")) as server:
                found[case] = case(server)
        except Exception as error:  # a thread has nobody else to say it to
            found[case] = f"{type(error).__name__}: {error}"

    threads = [threading.Thread(target=run, args=(it,)) for it in CASES]
    for it in threads:
        it.start()
    for case, it in zip(CASES, threads):
        it.join()
        yield case.__name__.replace("_", " "), found[case]
