"""Asks the process of its own host over HTTP, again and again: a change of a tenant of its own, and
what only asks. It notes of each reply when it was asked and answered. Its words are the port, the
tenant and the seconds that it waits for a reply; it ends once its standard input ends, and writes
to standard output, pickled, its notes of changes and of what only asks.
"""
import http.client
import pathlib
import pickle
import select
import sys
import time

sys.dont_write_bytecode = True
sys.path.insert(0, str(pathlib.Path(__file__).resolve().parent.parent))
from model import maps, messages  # noqa: E402

PAUSE = 0.05


def asked(port, line, seconds):
    """The status of a reply, or None; when it was asked, and answered."""
    method, path, *body = line.decode().split(" ", 2)
    start = time.time()
    connection = http.client.HTTPConnection("127.0.0.1", port, timeout=seconds)
    try:
        connection.request(method, path, body[0] if body else None, {"Connection": "close"})
        reply = connection.getresponse()
        reply.read()
        return reply.status, start, time.time()
    except (OSError, http.client.HTTPException):
        return None, start, time.time()
    finally:
        connection.close()


def main(port, tenant, seconds):
    def of(line):
        return line.replace(b"/t/a", b"/t/" + tenant.encode(), 1)

    number, changes, questions, made = 0, [], [], False
    while not select.select([sys.stdin], [], [], 0)[0]:
        if not made:
            for line in (b"PUT /t/a", messages.import_of(maps.tiny(), "m1")):
                made = (asked(port, of(line), seconds)[0] or 0) in (200, 201, 409)
        if made:
            line = of(messages.devices_of(f"n{number}", messages.state(0, reweight=number % 65536)))
            found = asked(port, line, seconds)
            if found[0] == 200:
                changes.append((f"n{number}", *found[1:]))
            number += 1
        found = asked(port, of(b"GET /t/a"), seconds)
        if found[0] == 200:
            questions.append(found[1:])
        time.sleep(PAUSE)
    sys.stdout.buffer.write(pickle.dumps((changes, questions)))


if __name__ == "__main__":
    main(int(sys.argv[1]), sys.argv[2], float(sys.argv[3]))
