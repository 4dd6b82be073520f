"""Tenants on three machines behind one nginx, by the examples of examples/machines: each host is a
network namespace. Eight users write while crushcalc-move moves their tenants, and is killed at each
of its steps now and then; a machine is added."""
import os
import pathlib
import random
import subprocess
import sys
import time

HERE = pathlib.Path(__file__).resolve().parent
sys.path.append(str(HERE.parent / "http"))
from files.stored import Unsound, change, differ, held  # noqa: E402
from gate.counted import Untried  # noqa: E402
from certified import COMMON, EXAMPLES, Certified, reported  # noqa: E402
from hosts import SECONDS, SLOW, Hosts, end, is_root  # noqa: E402
from model import messages  # noqa: E402
from model.definition import declaring, played, tables_of  # noqa: E402
from model.messages import NO_TENANT, made, there  # noqa: E402
from proxy import replaced, run  # noqa: E402
from with_certificates import processor_time  # noqa: E402

TOP = HERE.parent.parent
TOOL = TOP / "tools" / "crushcalc-move"
MACHINES, WRITERS = ("a", "b", "c"), 8
MOVES, SHORT, QUESTIONS, NAMES = 100, 10, 200, 24
PORTS = (8081, 8082)
# the words that a move's output has when it is at each step
STEPS = (" to ", "changes", "held'", "compared", "closed'", "from")


class Place(Certified):
    """Three machines and their front, each a host with nginx; and the host of the users."""

    def __init__(self, hosts, program, folder, pooled):
        super().__init__(hosts, folder)
        self.program, self.pooled, self.servers, self.table = program, pooled, {}, folder / "tenants.map"

    # ---- files

    def users(self, tenants):
        """Each tenant's file of users: each user's password is the user's name."""
        hashes = {user: run("openssl", "passwd", "-apr1", user) for user in set(tenants.values())}
        for tenant, user in tenants.items():
            (self.folder / f"{tenant}.users").write_bytes(b"%s:%s" % (user.encode(), hashes[user]))

    def configure(self):
        """The examples, with the test's addresses and files in the place of theirs."""
        at = {it: self.hosts.addresses[it] for it in MACHINES}
        files = ("certificate.pem", "$owner.users", "tenants.map", "front.pem", "front.key", "authority.pem")
        text = (EXAMPLES / "front.conf").read_text()
        for it in MACHINES:
            text = text.replace(f"{it}.crushcalc.example.com", at[it])
        for it in MACHINES:
            if it not in self.pooled:
                text = replaced(text, (f"    server {at[it]}:8443 max_fails=0;\n", ""))
        text = replaced(
            text,
            ("/etc/nginx/crushcalc/key.pem", f"{self.folder}/certificate.key"),
            *((f"/etc/nginx/crushcalc/{it}", f"{self.folder}/{it}") for it in files),
        )
        self.write_proxy("front", text)
        for it in MACHINES:
            self.write_machine(it, PORTS)
        self.table.write_text((EXAMPLES / "tenants.map").read_text())
        self.settings()

    def settings(self):
        text = (EXAMPLES / "machines.conf").read_text()
        nginx = f"nginx -c {self.folder}/front/main.conf -e {self.folder}/front/error.log"
        for it in MACHINES:
            text = replaced(
                text,
                (f"address = {it}.crushcalc.example.com", f"address = {self.hosts.addresses[it]}"),
                (f"ssh root@{it}.crushcalc.example.com", " ".join([*self.hosts.inside(it), "sh -c"])),
            )
            text = text.replace("/var/lib/crushcalc/*/", f"{self.folder}/{it}/*/", 1)
        text = replaced(
            text,
            ("/run/nginx.pid", f"{self.folder}/front/nginx.pid"),
            ("test = nginx -t", f"test = {nginx} -t"),
            ("reload = nginx -s reload", f"reload = {nginx} -s reload\ntool = {TOOL}"),
            *(
                (f"/etc/nginx/crushcalc/{it}", f"{self.folder}/{it}")
                for it in ("tenants.map", "front.pem", "front.key", "authority.pem")
            ),
        )
        (self.folder / "machines.conf").write_text(text)

    # ---- processes

    def start(self):
        for it in MACHINES:
            for port in PORTS:
                self.serve(it, port)
        for it in (*MACHINES, "front"):
            self.proxy(it)

    def db(self, host, port):
        return self.folder / host / str(port) / "tenants.db"

    def serve(self, host, port):
        self.db(host, port).parent.mkdir(exist_ok=True)
        words = (self.program, "serve", "--db", self.db(host, port), "--port", port)
        server = self.hosts.spawn(host, *words, stdout=subprocess.PIPE)
        if server.stdout.readline() != b"listening 127.0.0.1:%d\n" % port:
            raise OSError(f"the process of {host} doesn't listen")
        self.servers[host, port] = server

    def stop(self):
        for it in self.servers.values():
            end(it)

    def restart(self):
        for it in list(self.servers):
            self.serve(*it)

    def has(self, host, port, tenant):
        """Whether a process has a tenant, by asking it on its host."""
        return self.hosts.at(host, "curl", "-sS", f"http://127.0.0.1:{port}/t/{tenant.decode()}").startswith(
            '{"devices"'
        )

    def on(self, host, tenant):
        return any(self.has(host, port, tenant) for port in PORTS)

    # ---- what is asked

    def move(self, *words, until=None):
        """crushcalc-move with these words: its status and what it said; killed at the line that has
        `until` in it."""
        conf = () if "--conf" in words else ("--conf", self.folder / "machines.conf")
        command = [sys.executable, TOOL, *conf, *words]
        ran = self.hosts.spawn("front", *command, stdout=subprocess.PIPE, stderr=subprocess.STDOUT)
        said = []
        for line in ran.stdout:
            said.append(line.decode().rstrip())
            if until is not None and until in said[-1]:
                ran.kill()
        return ran.wait(SECONDS), said

    def front(self, user, **more):
        """Starts what asks the front in the name of a user."""
        return self.user(user, **{"address": self.hosts.addresses["front"], "port": 443, **more})

    def asked(self, user, *lines, **more):
        """The replies to lines, one after the other."""
        return reported(self.front(user, lines=[it.decode() for it in lines], **more))

    def at(self, machine):
        """The words of one who asks a machine's nginx, as the front does."""
        words = {"address": self.hosts.addresses[machine], "port": 8443, "name": COMMON}
        return {**words, "certificate": self.certificate("front")}

    def held(self):
        """What the files have of each tenant, by machine and name."""
        found = {}
        for host, port in self.servers:
            for name, rows in held(self.db(host, port)).items():
                if (host, name) in found:
                    raise Unsound(f"both files of {host} have a tenant {name}")
                found[host, name] = rows
        return found


def of(tenant, *lines):
    return [it.replace(b"/t/a", b"/t/" + tenant, 1) for it in lines]


def first(tenant, device=0):
    """Requests that make a tenant with rows in each table, and their replies."""
    lines = of(
        tenant,
        b"PUT /t/a",
        messages.import_of(declaring(device), "m1"),
        messages.pool_of("p1"),
        messages.devices_of("d1", messages.state(1, reweight=20000, up=False)),
        messages.exceptions_of("x1", (0, 1, 0), (7, 1, 2)),
        b"GET /t/a",
    )
    return lines, played(lines)[0]


def begun(place, user, *tenants):
    """Makes these tenants; raises where a reply isn't the definition's."""
    made = [first(it, number % 3) for number, it in enumerate(tenants)]
    found = place.asked(user, *(line for lines, _ in made for line in lines))
    if found != [reply for _, replies in made for reply in replies]:
        raise OSError(f"the tenants {tenants[:3]} ..: {found[:10]}")


def machine_of(place, tenant):
    """The machines that have a tenant."""
    return [it for it in MACHINES if place.on(it, tenant)]


# ---- checks


def who_reaches_a_machine(place):
    """The front alone does, by its certificate."""
    for file, wanted in (("front", NO_TENANT), ("stranger", b"403 "), (None, b"400 ")):
        known = place.certificate(file) if file else None
        (found,) = place.asked("anna", b"GET /t/nobody", **{**place.at("a"), "certificate": known})
        if not found.startswith(wanted):
            return f"{file}: {found[:100]!r}, not {wanted}"
    return None


def names_in_either_case(place):
    """Two tenants whose names differ by a capital are moved to two machines."""
    begun(place, "anna", b"shop", b"Shop.x", b"shop.x")
    for name, target in ((b"shop.x", "a"), (b"Shop.x", "b")):
        (source,) = machine_of(place, name)
        if source != target and (ran := place.move(name.decode(), source, target))[0]:
            return f"{ran}"
    found = {it: machine_of(place, it) for it in (b"shop.x", b"Shop.x")}
    if found != {b"shop.x": ["a"], b"Shop.x": ["b"]}:
        return f"they are on {found}"
    replies = place.asked("anna", b"GET /t/Shop.x", b"GET /t/shop.x")
    wanted = [played([*first(it, number)[0]])[0][-1] for number, it in ((1, b"Shop.x"), (2, b"shop.x"))]
    return None if replies == wanted else f"the replies are {replies}"


def a_machine_more(place):
    """Tenants without a line, on two machines; once the third is added each is where it was, and
    the third gets some of as many new names."""
    old, new = ([b"%s-%d" % (it, number) for number in range(NAMES)] for it in (b"old", b"new"))
    if (found := place.asked("anna", *(b"PUT /t/" + it for it in old))) != [made(it) for it in old]:
        return f"the replies are {found[:3]} .."
    conf = place.folder / "front" / "crushcalc.conf"
    line = f"    server {place.hosts.addresses['c']}:8443 max_fails=0;"
    status, said = place.move("--pin", f"sed -i '/    hash $tenant consistent;/a \\{line}' {conf}")
    if status or line not in conf.read_text():
        return f"{status}: {said}"
    time.sleep(SLOW)  # nginx reads the line by itself
    wanted = [there(it) for it in old] + [made(it) for it in new]
    found = place.asked("anna", *(b"GET /t/" + it for it in old), *(b"PUT /t/" + it for it in new))
    if found != wanted:
        return f"the replies are {[it for it in zip(found, wanted) if it[0] != it[1]][:3]} .."
    place.stop()
    files = place.held()
    place.restart()
    moved = [it for it in old if ("c", it.decode()) in files]
    taken = sum(("c", it.decode()) in files for it in new)
    if moved or not 0 < taken < NAMES:
        return f"the new machine has {taken} of {NAMES} new names, and of the old {moved}"
    print(f"a third machine: none of {NAMES} tenants moved; it has {taken} of {NAMES} new names", flush=True)
    return None


def refused(place):
    """What can't be done safely is refused by name, and changes nothing."""
    begun(place, "anna", b"depot")
    (source,) = machine_of(place, b"depot")
    other, third = (it for it in MACHINES if it != source)
    place.asked("anna", *first(b"depot")[0], **place.at(third))
    begun(place, "anna", b"odd")
    (home,) = machine_of(place, b"odd")
    away = next(it for it in MACHINES if it != home)
    before = place.table.read_text()
    for words, wanted in (
        (("depot", source, "d"), "there is no machine d: the settings have a b c"),
        (("depot", source, source), "are one machine"),
        (("de pot", source, other), "'de pot' is no tenant's name"),
        (("nobody", source, other), f"{source} has no tenant nobody"),
        (("depot", source, other), f"{third} has a tenant depot too"),
        (("depot", other, source), f"{other} has no tenant depot"),
        (("--undo", "depot"), "no move of depot can be taken back"),
        (("--patience", "x", "depot", source, other), "--patience x is no number"),
        (("--conf", "/nowhere", "depot", source, other), "/nowhere can't be read"),
        (("--never",), "doesn't know these words"),
    ):
        status, said = place.move(*words)
        if status != 1 or wanted not in said[-1] or place.table.read_text() != before:
            return f"{words}: status {status}: {said}, not {wanted}"
    # its receipts were changed by hand, and are no history any more
    (db,) = [place.db(home, port) for port in PORTS if place.has(home, port, b"odd")]
    number = "(SELECT id FROM tenants WHERE name = 'odd')"
    for statement, wanted in (
        (
            (
                f"UPDATE receipts SET body = replace(body, '20000', '20001') || ' ' WHERE tenant = {number} AND request"
                " = 'd1'"
            ),
            "the rows differ, in devices",
        ),
        (
            (
                f"UPDATE receipts SET reply = replace(reply, '200', '201') || ' ' WHERE tenant = {number} AND request ="
                " 'd1'"
            ),
            "its receipts aren't its history",
        ),
        (f"UPDATE receipts SET reply = 'x' WHERE tenant = {number} AND request = 'd1'", "don't have the epochs 1 to 4"),
    ):
        place.stop()
        change(db, statement)
        place.restart()
        status, said = place.move("odd", home, away)
        if status != 1 or wanted not in said[-1]:
            return f"{statement}: status {status}: {said}"
        if machine_of(place, b"odd") != [home] or place.asked("anna", b"GET /t/odd") != first(b"odd")[1][-1:]:
            return f"{statement}: it is on {machine_of(place, b'odd')}, {place.asked('anna', b'GET /t/odd')}"
    return None


def a_request_under_way(place):
    """While nginx still reads a request that it took before, nothing is switched, and changes are
    answered again."""
    begun(place, "anna", b"yard")
    (source,) = machine_of(place, b"yard")
    target = next(it for it in MACHINES if it != source)
    words = ("openssl", "s_client", "-quiet", "-connect", f"{place.hosts.addresses['front']}:443")
    slow = place.hosts.spawn(
        "users", *words, stdin=subprocess.PIPE, stdout=subprocess.DEVNULL, stderr=subprocess.DEVNULL
    )
    slow.stdin.write(
        b"POST /t/yard/maps HTTP/1.1\r\nHost: x\r\nAuthorization: Basic YW5uYTphbm5h\r\nContent-Length: 99\r\n\r\n{"
    )
    slow.stdin.flush()
    time.sleep(1)
    status, said = place.move("--patience", "1", "yard", source, target)
    if status != 1 or "after 1 s nginx still answers requests" not in said[-1]:
        return f"status {status}: {said}"
    (line,) = of(b"yard", messages.removal_of("r1"))
    if (found := place.asked("anna", line)) != [messages.removed(5)]:
        return f"the reply is {found}"
    end(slow)
    status, said = place.move("yard", source, target)
    found = place.asked("anna", line, b"GET /t/yard")
    wanted = played([*first(b"yard")[0], line, line, b"GET /t/yard"])[0][-2:]
    return None if (status, found) == (0, wanted) else f"status {status}: {said}; the replies are {found}"


def taken_back(place):
    """A move that is killed at each step before the switch is taken back."""
    begun(place, "anna", b"cellar")
    (source,) = machine_of(place, b"cellar")
    target = next(it for it in MACHINES if it != source)
    for word in STEPS[:-1]:
        place.move("cellar", source, target, until=word)
        status, said = place.move("--undo", "cellar")
        if status or machine_of(place, b"cellar") != [source]:
            return f"killed at {word!r}: status {status}: {said}; it is on {machine_of(place, b'cellar')}"
        if (found := place.asked("anna", b"GET /t/cellar")) != first(b"cellar")[1][-1:]:
            return f"killed at {word!r}: the reply is {found}"
    return None


def a_process_that_is_held(place):
    """Where what reads rows is killed while it holds a process for a copy, the process goes on, and
    the next run removes the copy."""
    begun(place, "anna", b"slow")
    ((home, port),) = [it for it in place.servers if place.has(*it, b"slow")]
    server, db = place.servers[home, port], place.db(home, port)
    late = place.folder / "late"
    late.mkdir()
    (late / "cp").write_text('#!/bin/sh\nsleep 5\nexec /bin/cp "$@"\n')
    (late / "cp").chmod(0o755)
    words = ("env", f"PATH={late}:{os.environ['PATH']}", TOOL, "--rows", "slow", "0", db)
    reader = place.hosts.spawn(home, *words, stdout=subprocess.DEVNULL)
    if not awaited(lambda: state_of(server.pid) == "T"):
        return "the process isn't held"
    reader.kill()
    if not awaited(lambda: state_of(server.pid) != "T"):
        return "the process is held still"
    left = list(db.parent.glob(".crushcalc-move-*"))
    said = place.hosts.at(home, TOOL, "--rows", "slow", "0", db)
    if not left or list(db.parent.glob(".crushcalc-move-*")) or '"epoch":4' not in said:
        return f"left were {left}; then {said[:200]}"
    return None


def state_of(pid):
    return pathlib.Path("/proc", str(pid), "stat").read_text().rsplit(")", 1)[1].split()[0]


def awaited(found):
    until = time.monotonic() + SECONDS
    while not found() and time.monotonic() < until:
        time.sleep(0.01)
    return found()


def what_a_request_takes(place):
    """The processor time of a small question, over a connection of its own, in each program."""
    begun(place, "anna", b"busy")
    ((home, port),) = [it for it in place.servers if place.has(*it, b"busy")]
    server = pathlib.Path("/proc", str(place.servers[home, port].pid), "stat")

    def ticks():
        fields = server.read_text().rsplit(")", 1)[1].split()
        return [processor_time(place.folder / it) for it in ("front", home)] + [int(fields[11]) + int(fields[12])]

    before = ticks()
    found = place.asked("anna", *[b"GET /t/busy"] * QUESTIONS)
    spent = [10 * (new - old) / QUESTIONS for old, new in zip(before, ticks())]
    print(
        "processor ms a question: {:.2f} in the front's nginx, {:.2f} in the machine's, {:.3f} in the process".format(
            *spent
        ),
        flush=True,
    )
    return None if found == first(b"busy")[1][-1:] * QUESTIONS else f"the replies are {found[:3]} .."


class Moved:
    """Moves by chance, and what they said."""

    def __init__(self, place, tenants, drawn):
        self.place, self.tenants, self.drawn = place, tenants, drawn
        self.count, self.killed, self.windows, self.seconds = 0, 0, [], []

    def one(self):
        """Moves a tenant to another machine; each third move is killed at a step before. Returns
        why it isn't as it has to be, or None."""
        tenant = self.drawn.choice(self.tenants)
        there = [it for it in MACHINES if self.place.on(it, tenant.encode())]
        if len(there) != 1:
            time.sleep(0.2)
            return None if not there else f"{tenant} is on {there}"
        source, target = there[0], self.drawn.choice([it for it in MACHINES if it != there[0]])
        start, word = time.time(), None
        if self.count % 3 == 2:
            word = STEPS[self.killed % len(STEPS)]
            self.place.move(tenant, source, target, until=word)
            self.killed += 1
        status, said = self.place.move(tenant, source, target)
        self.windows.append((tenant, start, time.time()))
        if status:
            # its user dropped it
            return None if f"{source} has no tenant {tenant}" in said[-1] else f"{tenant} {source} {target}: {said}"
        found = said[-1].partition("were answered 503 for ")[2].split()
        if found:
            self.seconds.append((float(found[0]), float(found[5])))
        self.count += 1
        return None

    def unheld(self, held):
        """The 503 that no move explains."""
        spans = [(name, start - 0.5, end + 0.5) for name, start, end in self.windows]
        return [it for it in held if not any(it[0] == name and start <= it[1] <= end for name, start, end in spans)]


def moves_under_load(place, count):
    """Eight users write to two tenants each while these are moved. Then each tenant's rows are on
    one machine, and are what its user's replies say."""
    owned = {f"w{it}": [f"tenant-{it}", f"Tenant.{it}"] for it in range(WRITERS)}
    # nginx answers 504 where a machine is too busy: the request is done or not
    users = [place.front(user, tenants=tenants, seed=user, doubtful=["504 "]) for user, tenants in owned.items()]
    moved = Moved(place, [it for of in owned.values() for it in of], random.Random(9))
    begin, why = time.monotonic(), None
    time.sleep(2)
    while moved.count < count and why is None:
        why = moved.one()
    seconds = time.monotonic() - begin
    found = [reported(it) for it in users]
    place.stop()
    if why or (why := next((it["wrong"] for it in found if it["wrong"]), None)):
        return why
    want = {name: rows for it in found for name, rows in tables_of(it["live"]).items()}
    files = place.held()
    got = {name: rows for (_, name), rows in files.items() if name.lower().startswith("tenant")}
    many = [name for name in got if sum(it == name for _, it in files) != 1]
    if many or (why := differ(want, got)):
        return f"on two machines: {many}" if many else why
    held = [it for of in found for it in of["held"]]
    if others := moved.unheld(held):
        return f"answered 503 outside its moves: {others[:3]}"
    answered, slowest = sum(it["answered"] for it in found), max(it["slowest"] for it in found)
    changes, all = (sorted(it) for it in zip(*moved.seconds))
    print(
        (
            f"{moved.count} moves, {moved.killed} of them killed at a step and done again, in {seconds:.0f} s;"
            f" {WRITERS} users had {answered:,} replies, {len(held)} times 503,"
            f" {sum(it['unanswered'] for it in found)} times none; a tenant's changes were answered 503 for"
            f" {changes[len(changes) // 2]:.2f} s (median; most {changes[-1]:.2f}), all its requests for"
            f" {all[len(all) // 2]:.2f} s ({all[-1]:.2f}); no other's were; the slowest reply of all came after"
            f" {slowest:.2f} s"
        ),
        flush=True,
    )
    return None


def checks(program, folder, is_long):
    if not is_root():
        raise Untried("network namespaces are made by root alone")
    owned = [f"{it}{number}" for it in ("tenant-", "Tenant.") for number in range(WRITERS)]
    tenants = {it: f"w{it[7:]}" for it in owned}
    tenants |= {it: "anna" for it in ("shop", "Shop.x", "shop.x", "depot", "odd", "yard", "cellar", "slow", "busy")}
    tenants |= {f"{it}-{number}": "anna" for it in ("old", "new") for number in range(NAMES)}
    with Hosts("front", "users", *MACHINES) as hosts:
        place = Place(hosts, program, folder, MACHINES[:2])
        place.certificates(MACHINES)
        place.users(tenants)
        place.configure()
        place.start()
        yield "who reaches a machine", who_reaches_a_machine(place)
        yield "names in either case", names_in_either_case(place)
        yield "a machine more", a_machine_more(place)
        yield "what is refused", refused(place)
        yield "a request under way", a_request_under_way(place)
        yield "moves that are taken back", taken_back(place)
        yield "a process that is held", a_process_that_is_held(place)
        yield "what a request takes", what_a_request_takes(place)
        yield "moves under load", moves_under_load(place, int(os.environ.get("MOVES", MOVES if is_long else SHORT)))
