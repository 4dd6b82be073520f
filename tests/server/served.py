"""The program as a server, for tests: messages made of lines of a script, and replies as the lines
that a script writes."""
import pathlib
import re
import signal
import socket
import struct
import subprocess

SECONDS = 60
RESET = struct.pack("ii", 1, 0)  # SO_LINGER: a close sends a reset
HEAD = re.compile(
    rb"HTTP/1\.1 (\d{3}) ([A-Za-z ]+)\r\nContent-Length: (\d+)\r\nContent-Type: application/json\r\n(Connection:"
    rb" close\r\n)?\r\n"
)
PHRASES = {
    b"200": b"OK",
    b"201": b"Created",
    b"400": b"Bad Request",
    b"404": b"Not Found",
    b"405": b"Method Not Allowed",
    b"409": b"Conflict",
    b"413": b"Payload Too Large",
    b"422": b"Unprocessable Entity",
    b"429": b"Too Many Requests",
    b"500": b"Internal Server Error",
    b"501": b"Not Implemented",
    b"503": b"Service Unavailable",
}


class Unserved(Exception):
    """Why the server or a reply isn't as it has to be. end: of a server that never listened, its
    status, standard output and standard error."""

    def __init__(self, why, end=None):
        super().__init__(why)
        self.end = end


def free_port():
    with socket.socket() as it:
        it.bind(("127.0.0.1", 0))
        return it.getsockname()[1]


class Server:
    """The program over a file. It listens once this is made, and a `with` ends it."""

    def __init__(self, program, db, *words, port=None, **how):
        self.port = port or free_port()
        self.run = subprocess.Popen(
            [program, "serve", "--db", str(db), "--port", str(self.port), *words],
            stdin=subprocess.DEVNULL,
            stdout=subprocess.PIPE,
            stderr=subprocess.PIPE,
            **how,
        )
        line = self.run.stdout.readline()
        if line != b"listening 127.0.0.1:%d\n" % self.port:
            out, err = self.run.communicate(timeout=SECONDS)
            raise Unserved(
                f"the server's first line is {line + out!r}; standard error {err!r}; status {self.run.returncode}",
                (self.run.returncode, line + out, err),
            )

    def __enter__(self):
        return self

    def __exit__(self, *_):
        if self.run.poll() is None:
            self.run.kill()
        self.run.communicate(timeout=SECONDS)

    def connect(self, seconds=SECONDS, room=None):
        """A connection; `room` is the least that the system keeps unread for it."""
        it = socket.socket()
        it.settimeout(seconds)
        if room:
            it.setsockopt(socket.SOL_SOCKET, socket.SO_RCVBUF, room)
        it.connect(("127.0.0.1", self.port))
        it.setsockopt(socket.IPPROTO_TCP, socket.TCP_NODELAY, 1)
        return it

    def peak(self):
        """The most bytes of memory that it has had."""
        said = pathlib.Path("/proc", str(self.run.pid), "status").read_text()
        return int(re.search(r"^VmHWM:\s+(\d+) kB$", said, re.MULTILINE)[1]) * 1024

    def stop(self, with_signal=signal.SIGTERM):
        """Ends it by a signal, and returns the status, and what it wrote to standard output after
        its first line and to standard error."""
        self.run.send_signal(with_signal)
        return self.ended()

    def ended(self, seconds=SECONDS):
        """The status and what it wrote, once it has ended by itself."""
        out, err = self.run.communicate(timeout=seconds)
        return self.run.returncode, out, err


def run_to_end(program, *words, data=b""):
    """A run that has to end by itself: its status, standard output and standard error."""
    ran = subprocess.run([program, *words], input=data, stdout=subprocess.PIPE, stderr=subprocess.PIPE, timeout=SECONDS)
    return ran.returncode, ran.stdout, ran.stderr


def script_replies(program, lines):
    """What a script of these lines gets in memory."""
    ran = subprocess.run(
        [program, "script"],
        input=b"".join(it + b"\n" for it in lines),
        stdout=subprocess.PIPE,
        stderr=subprocess.PIPE,
        timeout=SECONDS,
    )
    if ran.returncode or ran.stderr:
        raise Unserved(f"the script ends with status {ran.returncode} and {ran.stderr!r}")
    return ran.stdout.splitlines()


def message(line, *headers, version=b"1.1"):
    """The message of a script's line, with more headers."""
    method, path, *body = line.split(b" ", 2)
    size = [b"Content-Length: %d" % len(it) for it in body]
    return b"".join(
        it + b"\r\n" for it in (b"%s %s HTTP/%s" % (method, path, version), b"Host: localhost", *size, *headers, b"")
    ) + b"".join(body)


def read_reply(stream):
    """The next reply of a connection as a script's line, and whether the connection ends after it;
    None where nothing comes."""
    head = b""
    while not head.endswith(b"\r\n\r\n"):
        line = stream.readline()
        if not line and not head:
            return None
        head += line
        if not line:
            raise Unserved(f"the head of a reply is cut: {head!r}")
    found = HEAD.fullmatch(head)
    if found is None or PHRASES.get(found[1]) != found[2]:
        raise Unserved(f"the head of a reply is {head!r}")
    body = stream.read(int(found[3]))
    if len(body) != int(found[3]):
        raise Unserved(f"a body of {len(body)} bytes follows {head!r}")
    return found[1] + b" " + body, bool(found[4])


def replies_on(connection):
    """All replies until the connection ends, as a script's lines; only the last may end it."""
    found = []
    with connection.makefile("rb") as stream:
        while reply := read_reply(stream):
            if found and found[-1][1]:
                raise Unserved(f"{reply[0]!r} follows a reply that ends the connection")
            found.append(reply)
    return [line for line, _ in found], bool(found) and found[-1][1]


def asked(server, lines, *headers):
    """The replies to these lines, sent as one whole over a connection of their own whose writing
    side is then shut."""
    with server.connect() as connection:
        connection.sendall(b"".join(message(it, *headers) for it in lines))
        connection.shutdown(socket.SHUT_WR)
        return replies_on(connection)[0]


def reset(connection):
    """Closes a connection so that the peer sees a reset."""
    connection.setsockopt(socket.SOL_SOCKET, socket.SO_LINGER, RESET)
    connection.close()
