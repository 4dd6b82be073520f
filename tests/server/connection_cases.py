"""Connections to the program as a server, each with what it has to send back by the rules of
requests."""
import contextlib
import os
import pathlib
import resource
import signal
import socket
import struct
import subprocess
import threading
import time

from program.hostile_cases import BODIES, BODY_LIMIT, HEADS, LENGTH, exceptions
from model.maps import with_devices
from model.messages import EXISTS, TOO_LARGE, dropped, import_of, made, short, there
from server.served import SECONDS, Server, asked, free_port, message, read_reply, replies_on, reset, run_to_end

HERE = pathlib.Path(__file__).resolve().parent

WAIT = 5
MESSAGES = 10_000
HEAD_LIMIT = 8_192  # bytes that the server reads at once at most
DATA_SEGMENTS = 152  # where Linux's tcp_info has the number of segments with data that have come
# pairs of messages, and the seconds from which on their replies are slow: a system that has nothing
# to send puts off an acknowledgement for 0.04
PAIRS, SLOW = 40, 0.03
LITTLE = 1 << 20  # bytes that may come and go without a body
# seconds between the bytes that a client goes on sending, and how long it does so at most
BETWEEN, LONG = 0.02, 20
# bytes that a client sends behind a refused head, more than the server's system keeps unread
MORE = 1 << 20


def unlike(got, want):
    """Where something isn't what it has to be, or None."""
    return None if got == want else f"it is {short(got)}, not {short(want)}"


def first(*whys):
    return next((it for it in whys if it), None)


def goes_on(server):
    """Why the next client isn't served as ever, or None."""
    return unlike(
        asked(server, [b"PUT /t/next", b"GET /t/next", b"DELETE /t/next"])[:2], [made(b"next"), there(b"next")]
    )


def two_messages(program, db):
    """Two messages of one connection, and the replies before the client says that nothing more
    comes."""
    with Server(program, db) as server, server.connect() as connection:
        connection.sendall(message(b"PUT /t/a") + message(b"GET /t/a"))
        connection.settimeout(WAIT - 1)
        want = [
            (
                b"HTTP/1.1 201 Created\r\nContent-Length: 24\r\nContent-Type: application/json\r\n\r\n"
                b'{"epoch":0,"tenant":"a"}'
            ),
            (
                b"HTTP/1.1 200 OK\r\nContent-Length: 59\r\nContent-Type: application/json\r\n\r\n"
                b'{"devices":0,"epoch":0,"pools":0,"tenant":"a","versions":0}'
            ),
        ]
        got = b""
        while len(got) < len(b"".join(want)):
            got += connection.recv(4096)
        connection.shutdown(socket.SHUT_WR)
        return unlike(got, b"".join(want)) or unlike(replies_on(connection), ([], False))


def byte_by_byte(program, db):
    """Each byte in a segment of its own."""
    with Server(program, db) as server, server.connect() as connection:
        for byte in message(b"PUT /t/a") + message(
            b'POST /t/a/pick {"bucket":{"id":-1,"items":[{"item":4,"weight":65536}],"kind":"list"},"r":0,"x":0}'
        ):
            connection.send(bytes([byte]))
        connection.shutdown(socket.SHUT_WR)
        return unlike(replies_on(connection), ([made(b"a"), b'200 {"item":4}'], False))


def two_replies_at_once(program, db):
    """Of two messages that the server reads at two times, the second reply doesn't wait until the
    client's system has acknowledged the first. By turns with two that are read at one time, so that
    a busy machine delays both alike."""
    apart, together = (
        b"".join(message(b"GET /t/a", b"X: " + b"x" * it) for it in lengths)
        for lengths in ((HEAD_LIMIT - 100, 200), (1, 1))
    )
    slow = {apart: 0, together: 0}
    with Server(program, db) as server, server.connect() as connection, connection.makefile("rb") as stream:
        connection.sendall(message(b"PUT /t/a"))
        read_reply(stream)
        for data in (together, apart) * PAIRS:
            start = time.monotonic()
            connection.sendall(data)
            found = [read_reply(stream) for _each in range(2)]
            slow[data] += time.monotonic() - start >= SLOW
            if found != [(there(b"a"), False)] * 2:
                return f"the replies are {found}"
    more = slow[apart] - slow[together]
    return None if more <= PAIRS // 2 else f"{slow[apart]} of {PAIRS} are slow, and {slow[together]} read at one time"


def segments_of(connection):
    """How many segments with data have come over a connection."""
    return struct.unpack_from("I", connection.getsockopt(socket.IPPROTO_TCP, socket.TCP_INFO, 256), DATA_SEGMENTS)[0]


def messages_of_one_segment(program, db):
    """Messages that come in one segment are read at once, and their replies are sent at once: they
    come in one segment too, or few."""
    one = message(b"GET /t/a")
    count = HEAD_LIMIT // len(one)
    with Server(program, db) as server, server.connect() as connection, connection.makefile("rb") as stream:
        connection.sendall(message(b"PUT /t/a"))
        read_reply(stream)
        before = segments_of(connection)
        connection.sendall(one * count)
        found = [read_reply(stream) for _each in range(count)]
        came = segments_of(connection) - before
    return unlike(found, [(there(b"a"), False)] * count) or (
        None if 0 < came <= 4 else f"{count} replies come in {came} segments"
    )


def a_log_that_cannot_be_copied(program, db):
    """The end copies the log into the file. Where nothing can be written by then the status and
    standard error say so, and the next start has what was answered."""
    with Server(
        program, db, "--connections", "2", preexec_fn=lambda: signal.signal(signal.SIGXFSZ, signal.SIG_IGN)
    ) as server:
        why = unlike(asked(server, [b"PUT /t/a"]), [made(b"a")])
        # from here on each write to a file fails; replies go to sockets
        resource.prlimit(server.run.pid, resource.RLIMIT_FSIZE, (0, 0))
        why = first(why, unlike(asked(server, [b"GET /t/a"]), [there(b"a")]))
        why = first(why, unlike(server.ended(), (1, b"", b"crushcalc: store fault\n")))
    later = run_to_end(program, "script", "--db", str(db), data=b"GET /t/a\n")
    return first(why, unlike(later, (0, there(b"a") + b"\n", b"")))


def examples(program, db):
    """Stored scripts over one connection each, to a server that is begun anew for each."""
    cases = [
        path
        for it in ("exceptions", "maps", "pools", "reports")
        for path in (HERE.parent / "program" / "cases").glob(f"{it}*.in")
    ]
    for path in sorted([*(HERE.parent.parent / "examples").glob("*.script"), *cases]):
        with Server(program, db.with_name(f"{path.stem}.db")) as server:
            if why := unlike(
                asked(server, path.read_bytes().splitlines()), path.with_suffix(".out").read_bytes().splitlines()
            ):
                return f"{path.name}: {why}"
    return None


def heads(program, db):
    """Each head has its reply. What ends its connection ends it behind the reply, and nothing after
    it is read."""
    with Server(program, db) as server:
        asked(server, [b"PUT /t/a"])
        for name, data, want, ends in HEADS:
            with server.connect() as connection:
                connection.sendall(message(b"PUT /t/a") + data + message(b"DELETE /t/a" if ends else b"GET /t/a"))
                connection.shutdown(socket.SHUT_WR)
                found = replies_on(connection)
            if found != ([EXISTS, want] if ends else [EXISTS, want, there(b"a")], ends):
                return f"{name}: the replies are {found}"
        return unlike(asked(server, [b"GET /t/a"]), [there(b"a")])


def bodies(program, db):
    """Each body has its reply, and the connection goes on."""
    with Server(program, db) as server:
        lines = [b"PUT /t/a", *(b"POST /t/a/pick " + sent for _, sent, _ in BODIES), b"GET /t/a"]
        found, wanted = asked(server, lines), [made(b"a"), *(reply for _, _, reply in BODIES), there(b"a")]
        wrong = next((name for (name, _, reply), it in zip(BODIES, found[1:]) if it != reply), None)
        if wrong or found != wanted:
            return f"{wrong}: the reply isn't as it has to be" if wrong else unlike(found, wanted)
        lines = [(b"DELETE /t/a", dropped(b"a")), *exceptions()]
        found = asked(server, [it for it, _ in lines])
        return next(
            (
                f"{short(line)}: {short(it)}, not {short(reply)}"
                for (line, reply), it in zip(lines, found)
                if it != reply
            ),
            None,
        )


def third_messages(program, db):
    """Of a third message whose body isn't whole there is no reply, unless its length is past the
    limit."""
    two = message(b"PUT /t/a") + message(b"GET /t/a")
    with Server(program, db) as server:
        for size, more in ((30, []), (BODY_LIMIT, []), (BODY_LIMIT + 1, [TOO_LARGE])):
            with server.connect() as connection:
                connection.sendall(two + b'POST /t/a/test HTTP/1.1\r\nContent-Length: %d\r\n\r\n{"ru' % size)
                connection.shutdown(socket.SHUT_WR)
                found = replies_on(connection)
            asked(server, [b"DELETE /t/a"])
            if found != ([made(b"a"), there(b"a"), *more], bool(more)):
                return f"a body of {size} bytes: {found}"
    return None


def last_messages(program, db):
    """Connection: close, HTTP/1.0 and the last message that a connection may have end it; what
    follows is not served."""
    more = message(b"DELETE /t/a")
    with Server(program, db) as server:
        asked(server, [b"PUT /t/a"])
        for last in (
            message(b"GET /t/a", b"connection: CLOSE"),
            message(b"GET /t/a", version=b"1.0"),
            message(b"GET /t/a") * MESSAGES,
        ):
            with server.connect() as connection:
                sender = threading.Thread(target=lambda: connection.sendall(last + more))
                sender.start()
                found, ended = replies_on(connection)
                sender.join()
            if set(found) != {there(b"a")} or len(found) != (MESSAGES if len(last) > 1000 else 1) or not ended:
                return f"{last[:60]!r}: there are {len(found)} replies, of which the last is {found[-1:]}"
        return unlike(asked(server, [b"GET /t/a"]), [there(b"a")])


def silent_clients(program, db):
    """A client that says nothing, or nothing more of a body of the limit, is let go after five
    seconds, and then the next is served. No memory is taken for the body."""
    with Server(program, db) as one, Server(program, db.with_name("u.db")) as other:
        peak = asked(other, [b"PUT /t/a"]) and other.peak()
        with one.connect() as silent, other.connect() as silent_in_a_body:
            silent_in_a_body.sendall(b'POST /t/a/maps HTTP/1.1\r\nContent-Length: %d\r\n\r\n{"r' % BODY_LIMIT)
            start = time.monotonic()
            why, spent = goes_on(one) or goes_on(other), time.monotonic() - start
            why = why or unlike(silent.recv(1), b"") or unlike(silent_in_a_body.recv(1), b"")
        more = other.peak() - peak
        return (
            why
            or (None if WAIT - 1 < spent < WAIT + 5 else f"the next waited {spent:.1f} seconds")
            or (None if more < LITTLE else f"it took {more:,} bytes")
        )


def silent_clients_in_a_row(program, db):
    """Each client's seconds begin at 0: after six that say nothing for five seconds each, as long
    together as one message may take, the next is served as ever."""
    with Server(program, db) as server:
        silent = [server.connect() for _each in range(6)]
        why = goes_on(server)
        for connection in silent:
            why = why or unlike(connection.recv(1), b"")
            connection.close()
        return why


def a_client_that_never_reads(program, db):
    """Replies of many megabytes that nobody reads: a write that moves nothing for five seconds ends
    the connection, and the next client is served. Before there may be writes that are done in part
    after five seconds, as long as the message took less than thirty."""
    with Server(program, db) as server:
        asked(server, [b"PUT /t/a", import_of(with_devices(1_000))])
        with server.connect(room=4_096) as connection:
            start = time.monotonic()
            connection.sendall(message(b"GET /t/a/maps/1") * 1_000)
            why, spent = goes_on(server), time.monotonic() - start
            return why or (None if WAIT - 1 < spent < 8 * WAIT else f"the next waited {spent:.1f} seconds")


def a_client_that_stays(program, db):
    """A client that has its last reply and doesn't end its side is waited for a tenth of a second,
    and not for five."""
    with Server(program, db) as server, server.connect() as connection:
        connection.sendall(message(b"PUT /t/a", b"Connection: close"))
        why = unlike(replies_on(connection), ([made(b"a")], True))
        start = time.monotonic()
        why, spent = why or goes_on(server), time.monotonic() - start
        return why or (None if spent < WAIT - 1 else f"the next waited {spent:.1f} seconds")


def a_client_that_goes_on_sending(program, db):
    """A client that has its last reply and goes on sending byte by byte keeps nobody from being
    served for long: what it sends is taken by so many reads at most."""

    def go_on():
        try:
            while time.monotonic() - start < LONG:
                connection.send(b"x")
                time.sleep(BETWEEN)
        except OSError:  # the server has ended the connection
            pass

    with Server(program, db) as server, server.connect() as connection:
        connection.sendall(message(b"PUT /t/a", b"Connection: close"))
        why, start = unlike(replies_on(connection), ([made(b"a")], True)), time.monotonic()
        sender = threading.Thread(target=go_on)
        sender.start()
        why, spent = why or goes_on(server), time.monotonic() - start
        sender.join()
        return why or (None if spent < LONG / 2 else f"the next waited {spent:.1f} seconds")


def a_refused_body_that_still_comes(program, db):
    """A client whose body is refused by its head, and who has sent a megabyte of it, reads the
    whole refusal and then the end of the connection. What it has sent is taken: a socket that is
    closed before resets the connection."""
    with Server(program, db) as server:
        for header, want in (
            (b"Content-Length: %d" % (BODY_LIMIT + 1), TOO_LARGE),
            (b"Transfer-Encoding: chunked", LENGTH),
        ):
            with server.connect() as connection:
                connection.sendall(b"POST /t/a/maps HTTP/1.1\r\n" + header + b"\r\n\r\n" + bytes(MORE))
                why = unlike(replies_on(connection), ([want], True))
                # the next client is served once the server has closed this one's socket
                why = why or goes_on(server)
                if error := connection.getsockopt(socket.SOL_SOCKET, socket.SO_ERROR):
                    why = why or os.strerror(error)
            if why:
                return f"{short(want)}: {why}"
        return None


def resets(program, db):
    """A client that resets its connection, before a message, in one, and with replies on their way,
    does no harm."""
    whole = message(b"GET /t/a")
    with Server(program, db) as server:
        for data in (b"", whole[:10], message(b'POST /t/a/pick {"x":1}')[:-3], whole, whole * 2000):
            connection = server.connect()
            connection.sendall(data)
            reset(connection)
            if why := goes_on(server):
                return f"after {len(data)} bytes: {why}"
        return None


def half_closes(program, db):
    """A client that shuts its writing side gets the replies to what was whole, and nothing else."""
    data = message(b"PUT /t/a") + message(b"GET /t/a")
    with Server(program, db) as server:
        for cut in (0, 10, len(message(b"PUT /t/a")), len(data) - 1):
            with server.connect() as connection:
                connection.sendall(data[:cut])
                connection.shutdown(socket.SHUT_WR)
                found, ended = replies_on(connection)
            if ended or len(found) != (cut >= len(message(b"PUT /t/a"))) or not set(found) <= {made(b"a"), EXISTS}:
                return f"cut at {cut}: {found}"
        return goes_on(server)


def accepts_that_fail(program, db):
    """Where no file descriptor is free an accept fails: each counts as a connection and takes a
    tenth of a second, and the end says how many there were. So it is with one descriptor more than
    the server needs to listen: it has that for its waits."""
    listens = False
    for most in range(3, 20):
        port = free_port()
        words = [program, "serve", "--db", str(db), "--port", str(port), "--connections", "6"]
        with subprocess.Popen(
            words,
            stdout=subprocess.PIPE,
            stderr=subprocess.PIPE,
            preexec_fn=lambda: resource.setrlimit(resource.RLIMIT_NOFILE, (most, most)),
        ) as run:
            if not run.stdout.readline():
                run.communicate(timeout=SECONDS)
                continue
            if not listens:
                listens = True
                run.kill()
                continue
            since = time.monotonic()
            with socket.create_connection(("127.0.0.1", port)):
                try:
                    out, err = run.communicate(timeout=SECONDS)
                except subprocess.TimeoutExpired:
                    run.kill()
                    return f"with {most} descriptors it doesn't end"
            took = time.monotonic() - since
            return unlike((run.returncode, out, err), (0, b"", b"crushcalc: 6 of 6 connections not accepted\n")) or (
                None if 0.6 <= took < 15 else f"it took {took} seconds"
            )
    return "it never listens"


def some_accepts_that_fail(program, db):
    """Where more than half of the accepts failed, and not all, the end says how many; where half of
    them did it says nothing. The status is 0."""
    for served, err in ((2, b"crushcalc: 4 of 6 connections not accepted\n"), (3, b"")):
        with Server(program, db, "--connections", "6") as server:
            for _each in range(served):
                if why := goes_on(server):
                    return why
            # from here on no socket gets a descriptor: an accept that waits has its own, and the
            # second handle of its socket hasn't; where none waits, the server ends by itself
            resource.prlimit(server.run.pid, resource.RLIMIT_NOFILE, (3, 3))
            with contextlib.suppress(ConnectionRefusedError):
                server.connect().close()
            if why := unlike(server.ended(), (0, b"", err)):
                return f"after {served} that were served: {why}"
    return None


def cases():
    return (
        accepts_that_fail,
        some_accepts_that_fail,
        two_messages,
        byte_by_byte,
        two_replies_at_once,
        messages_of_one_segment,
        a_log_that_cannot_be_copied,
        examples,
        heads,
        bodies,
        third_messages,
        last_messages,
        silent_clients,
        silent_clients_in_a_row,
        a_client_that_never_reads,
        a_client_that_stays,
        a_client_that_goes_on_sending,
        a_refused_body_that_still_comes,
        resets,
        half_closes,
    )
