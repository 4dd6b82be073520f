"""Python's http.client over one connection, and a client that opens six connections at once, as a
browser does."""
import http.client
import pathlib
import threading
import time

from expected import expected, unlike
from server.served import Server, asked, message, read_reply, script_replies

BROWSER = (
    b"User-Agent: Mozilla/5.0 (X11; Linux x86_64; rv:128.0) Gecko/20100101 Firefox/128.0",
    b"Accept: text/html,application/xhtml+xml,application/xml;q=0.9,*/*;q=0.8",
    b"Accept-Language: en-GB,en;q=0.5",
    b"Accept-Encoding: gzip, deflate",
    b"DNT: 1",
    b"Connection: keep-alive",
    b"Upgrade-Insecure-Requests: 1",
    b"Cookie: a=b; c=d",
    b"Priority: u=0, i",
)


def by_http_client(server, pairs):
    """The whole session over one connection."""
    connection, found = http.client.HTTPConnection("127.0.0.1", server.port, timeout=20), []
    for line, _ in pairs:
        method, path, *body = line.decode().split(" ", 2)
        connection.request(
            method, path, body[0].encode() if body else None, {"Content-Type": "application/json"} if body else {}
        )
        reply = connection.getresponse()
        found.append(b"%d " % reply.status + reply.read())
        if reply.will_close:
            return f"{line[:60]!r}: the connection ends"
    connection.close()
    return unlike(pairs, found)


def six_connections(server, pairs):
    """Six connections are opened before anything is sent; each sends a few requests, one at a time,
    and says nothing more. They are served one after the other: each but the first waits until the
    one before it has said nothing for five seconds."""
    found, spent = {}, {}

    def ask(place, connection):
        with connection, connection.makefile("rb") as stream:
            found[place] = []
            for line, _ in pairs:
                connection.sendall(message(line, *BROWSER))
                found[place].append(read_reply(stream)[0])
            spent[place] = time.monotonic() - start
            while not ends.is_set() and len(spent) < 6:
                time.sleep(0.1)

    start, ends = time.monotonic(), threading.Event()
    clients = [threading.Thread(target=ask, args=(place, server.connect())) for place in range(6)]
    for it in clients:
        it.start()
    for it in clients:
        it.join(60)
    ends.set()
    why = next((why for it in range(6) if (why := unlike(pairs, found[it]))), None)
    return why or (
        None if max(spent.values()) < 35 else f"the last connection was served after {max(spent.values()):.1f} seconds"
    )


def checks(program, folder):
    pairs = expected(program)
    with Server(program, pathlib.Path(folder, "python.db")) as server:
        yield "http.client over one connection", by_http_client(server, pairs)
        lines = [it for it, _ in pairs[:-2]]
        asked(server, lines)
        # what they are asked for after all that was changed
        reading = [it for it in lines if it.startswith(b"GET /t/a/pools")]
        replies = script_replies(program, [*lines, *reading])[-len(reading) :]
        yield "six connections opened at once", six_connections(server, list(zip(reading, replies, strict=True)))
