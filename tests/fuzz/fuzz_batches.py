"""What a batch of damaged inputs tries, and how many replies of each kind it found. Each first
gives its inputs; Found says what is wrong."""
import collections
import json
import pathlib
import re
import subprocess
import tempfile

from fuzz import csv_read, fuzzing
from model import messages
from program import hostile_cases
from model import map_text
from fuzz import picks_read
from model.messages import BAD, made, short
from server.served import HEAD, PHRASES, Server, asked

SECONDS = 300
STATUSES = b"200 201 400 404 405 409 413 422 429 500 501".split()
REPLY = re.compile(rb"(\d{3}) (\{.*\})", re.S)
WHOLE = re.compile(rb"[A-Z]+ /[!-~]*( .*)?", re.S)
LINES, TEXTS, PICKS, TABLES, MESSAGES = 4_000, 1_500, 4_000, 2_000, 300


class Found(Exception):
    """What a batch found."""


def played(program, lines, *words):
    """The replies to lines, one each."""
    try:
        ran = subprocess.run(
            [program, "script", *words],
            input=b"".join(it + b"\n" for it in lines),
            stdout=subprocess.PIPE,
            stderr=subprocess.PIPE,
            timeout=SECONDS,
        )
    except subprocess.TimeoutExpired:
        raise Found(f"no end within {SECONDS} seconds") from None
    replies = ran.stdout.split(b"\n")[:-1]
    if (ran.returncode, ran.stderr) != (0, b"") or len(replies) != len(lines):
        raise Found(
            f"status {ran.returncode}, standard error {short(ran.stderr)}, {len(replies)} replies to {len(lines)} lines"
        )
    return replies


def formed(lines, replies):
    """Each reply is a status and compact JSON with its members in order, and none is a 503."""
    for line, reply in zip(lines, replies):
        it = REPLY.fullmatch(reply)
        if (
            not it
            or it[1] not in STATUSES
            or json.dumps(json.loads(it[2]), separators=(",", ":"), sort_keys=True, ensure_ascii=False).encode()
            != it[2]
        ):
            raise Found(f"the reply to {short(line)} is {short(reply)}")


def alike(what, lines, one, other):
    for line, a, b in zip(lines, one, other, strict=True):
        if a != b:
            raise Found(f"{what}: the reply to {short(line)} is {short(b)}, and {short(a)} before")


def tenant_in(line):
    parts = line.split(b" ", 2)[1].split(b"/") if line.count(b" ") else []
    return parts[2] if len(parts) > 2 and parts[2] in fuzzing.TENANTS else None


def kept(cases, lines, replies):
    """Writes lines with their replies to the folder of cases, if there is one."""
    if cases:
        name = f"lines-{sum(1 for _ in cases.iterdir()) // 2}"
        (cases / name).write_bytes(b"".join(it + b"\n" for it in lines))
        (cases / f"{name}.stdout").write_bytes(b"".join(it + b"\n" for it in replies))


def lines_batch(drawn, program, beside, cases, whole):
    lines = fuzzing.lines_of(drawn, whole, LINES)
    yield lines
    replies = played(program, lines)
    formed(lines, replies)
    for tenant in (None, *fuzzing.TENANTS):
        own = [place for place, it in enumerate(lines) if tenant_in(it) == tenant]
        alone = played(program, [lines[it] for it in own])
        alike(f"alone, {tenant}", [lines[it] for it in own], [replies[it] for it in own], alone)
    kept(cases, lines, replies)
    if beside:
        alike("the other build", lines, replies, played(beside, lines))
    if drawn.random() < 0.25:
        with tempfile.TemporaryDirectory() as folder:
            db, cut = str(pathlib.Path(folder, "t.db")), drawn.randrange(len(lines) + 1)
            alike(
                "over a file",
                lines,
                replies,
                played(program, lines[:cut], "--db", db) + played(program, lines[cut:], "--db", db),
            )
    if drawn.random() < 0.25:
        sent = [it for it in lines if WHOLE.fullmatch(it)]
        with tempfile.TemporaryDirectory() as folder, Server(program, pathlib.Path(folder, "t.db")) as server:
            alike("on a server", sent, played(program, sent), asked(server, sent))
    yield collections.Counter(it[:3].decode() for it in replies)


def import_of(text):
    return b"POST /t/x/maps " + json.dumps({"request": "m", "text": text.decode()}, separators=(",", ":")).encode()


def imported(program, texts, cases=None):
    """Of each text the reply to its import into a new tenant, and the canonical text, or None."""
    lines = [it for text in texts for it in (b"PUT /t/x", import_of(text), b"GET /t/x/maps/1", b"DELETE /t/x")]
    replies = played(program, lines)
    formed(lines, replies)
    kept(cases, lines, replies)
    return [
        (replies[it + 1], json.loads(replies[it + 2][4:])["text"].encode() if replies[it + 2][:3] == b"200" else None)
        for it in range(0, len(lines), 4)
    ]


def texts_batch(drawn, program, beside, cases, texts):
    texts = [fuzzing.damaged(drawn, drawn.choice(texts)).decode("utf-8", "replace").encode() for _ in range(TEXTS)]
    yield texts
    for text, (reply, canonical) in zip(texts, found := imported(program, texts, cases)):
        answer = map_text.answer(text).split()
        want = hostile_cases.reply_to(answer)
        if (
            reply != want
            or (canonical is not None) != (answer[0] == "ok")
            or (canonical is not None and canonical != map_text.write(map_text.read(text)))
        ):
            raise Found(f"{short(text)}: {short(reply)}, and not {short(want)}; canonical {short(canonical or b'')}")
    again = [canonical if canonical is not None else text + b" # more" for text, (_, canonical) in zip(texts, found)]
    for text, before, after in zip(again, found, imported(program, again)):
        if before != after:
            raise Found(f"again, {short(text)}: {before}, and then {after}")
    if beside and imported(beside, texts) != found:
        raise Found("the other build reads these texts otherwise")
    yield collections.Counter(
        "map" if canonical is not None else reply.split(b'"')[7].decode() for reply, canonical in found
    )


def picks_batch(drawn, program, beside, cases, bodies):
    bodies = [fuzzing.damaged(drawn, drawn.choice(bodies)).replace(b"\n", b" ").rstrip(b"\r") for _ in range(PICKS)]
    yield bodies
    lines = [b"PUT /t/a", *(b"POST /t/a/pick " + it for it in bodies)]
    replies = played(program, lines)
    formed(lines, replies)
    kept(cases, lines, replies)
    alike("by its rules", lines, [made(b"a"), *map(picks_read.reply_to, bodies)], replies)
    yield collections.Counter(it[:3].decode() for it in replies[1:])


def tables_batch(drawn, program, beside, cases, tables):
    """Changes of devices as CSV, on a map of the devices 0 to 11."""
    tables = [fuzzing.damaged(drawn, drawn.choice(tables).encode()).decode("utf-8", "replace") for _ in range(TABLES)]
    yield [it.encode() for it in tables]
    lines, wanted = [b"PUT /t/a", messages.import_of(fuzzing.CLUSTER)], [made(b"a"), messages.imported(1, 1)]
    epoch = 1
    for place, text in enumerate(tables):
        ids = csv_read.changes_of(text)
        lines.append(messages.csv_of(f"c{place}", text))
        if ids is None:
            wanted.append(BAD)
        elif max(ids) > 11:
            wanted.append(messages.NO_DEVICE)
        else:
            epoch += 1
            wanted.append(messages.accepted(len(ids), epoch))
    replies = played(program, lines)
    formed(lines, replies)
    kept(cases, lines, replies)
    alike("by its rules", lines, wanted, replies)
    yield collections.Counter(it[:3].decode() for it in replies[2:])


def answered(server, stream, cuts):
    """All bytes that come to a stream that is sent in pieces."""
    got = b""
    with server.connect() as connection:
        try:
            for begin, end in zip((0, *cuts), (*cuts, len(stream))):
                connection.sendall(stream[begin:end])
            connection.shutdown(1)
        except OSError:
            pass  # the server has ended it
        try:
            while part := connection.recv(65536):
                got += part
        except ConnectionResetError:
            pass
    return got


def split(got):
    """The statuses of replies that follow one another, each of its form; only the last may end the
    connection."""
    found, closes = [], None
    while got:
        head = HEAD.match(got)
        if head is None or closes or PHRASES.get(head[1]) != head[2] or head[1] == b"503":
            raise Found(f"a reply begins {short(got)}")
        sent, got, closes = got[head.end() : head.end() + int(head[3])], got[head.end() + int(head[3]) :], head[4]
        formed([b""], [head[1] + b" " + sent])
        found.append(head[1].decode())
    return found


def streams_batch(drawn, program, beside, cases, whole):
    streams = []
    while sum(map(len, streams)) < MESSAGES:
        lines = [it for it in fuzzing.lines_of(drawn, whole, drawn.randrange(1, 12)) if WHOLE.fullmatch(it)]
        streams.append(lines)
    sent = [fuzzing.stream_of(drawn, lines) for lines in streams]
    sent = [fuzzing.damaged(drawn, it) if drawn.random() < 0.8 else it for it in sent]
    yield [*sent, *[b""] * (sum(map(len, streams)) - len(sent))]
    statuses = collections.Counter()
    with tempfile.TemporaryDirectory() as folder, Server(program, pathlib.Path(folder, "a.db")) as one, Server(
        beside or program, pathlib.Path(folder, "b.db")
    ) as other:
        for stream in sent:
            cuts = sorted({drawn.randrange(len(stream) + 1) for _ in range(drawn.choice((1, 5, 20)))})
            got, cut = answered(one, stream, ()), answered(other, stream, cuts)
            if got != cut:
                raise Found(f"{short(stream)} is answered {short(got)}, and {short(cut)} where it is cut at {cuts}")
            statuses.update(split(got))
    yield statuses
