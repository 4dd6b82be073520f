"""One file of crushcalc on a real CephFS, and two hosts of which one serves it, by the examples of
examples/machines: keepalived, the script that it runs, nginx. Each host is a network namespace with
a ceph-fuse of its own. Hosts die, are cut off, or stand still and come back, while users write."""
import os
import pathlib
import pickle
import shutil
import signal
import subprocess
import sys
import time

HERE = pathlib.Path(__file__).resolve().parent
sys.path += [str(HERE.parent / "http"), str(HERE.parent / "cluster")]
import real  # noqa: E402
from files.stored import copy_to, differ, held  # noqa: E402
from gate.counted import Untried  # noqa: E402
from certified import COMMON, EXAMPLES, Certified, reported  # noqa: E402
from hosts import OFF, ON, SLOW, Hosts, end, is_root  # noqa: E402
from model import maps, messages  # noqa: E402
from model.definition import tables_of  # noqa: E402
from proxy import replaced  # noqa: E402
from unit import analyze  # noqa: E402

PAIR, ADDRESS = ("a", "b"), "10.77.0.100"
FAILOVERS, SHORT, WRITERS = 30, 4, 4
PORT, PATIENCE, WAIT = 8081, 120 * SLOW, 4 * SLOW  # seconds in all, and for one reply
COMMITS = 300
# what may happen to the host that serves
KINDS = ("dies", "is cut off", "stands still", "is cut off and isn't ended by keepalived")
# in the place of systemd: a process that is started again after each end, and says when
KEEPER = """#!/bin/sh
# usage: keeper start|stop|mount|unmount
at={at} files={folder}
served() {{
    echo $$ >$at/keeper.pid
    while :; do
        while ! grep -q " $files " /proc/self/mounts; do sleep 0.5; done
        date +%s.%N >>$at/starts
        {inside} {program} serve --db $files/tenants.db --port {port} &
        echo $! >$at/server.pid
        wait
        sleep 0.5
    done
}}
killed() {{
    for it; do
        [ ! -r $at/$it.pid ] || kill -KILL $(cat $at/$it.pid)
        rm -f $at/$it.pid
    done
}}
case $1 in
served) served ;;
start) setsid $0 served </dev/null >>$at/served 2>&1 & ;;
stop) killed keeper server ;;
mount)
    $0 unmount
    {inside} ceph-fuse -c $at/ceph.conf -n client.{name} -f $files </dev/null >>$at/fuse.log 2>&1 &
    echo $! >$at/fuse.pid
    for it in $(seq {tenths}); do
        ! grep -q " $files " /proc/self/mounts || exit 0
        sleep 0.1
    done
    killed fuse
    ;;
unmount)
    killed fuse
    while grep -q " $files " /proc/self/mounts; do umount -l $files; done
    ;;
esac 2>/dev/null
exit 0
"""
SETTINGS = """FOLDER={folder}
ME={name} OTHER={other}
STATE={at}/state
START='{at}/keeper start'
STOP='{at}/keeper stop'
MOUNT='{at}/keeper mount'
UNMOUNT='{at}/keeper unmount'
WITHIN={slow}
CEPH='timeout {longest} {inside} ceph -c {at}/ceph.conf -n client.{name}'
"""


class Storage(real.Cluster):
    """A cluster of three OSDs with a CephFS."""

    def start(self):
        super().start()
        for it in range(3):
            self.told("osd crush add", id=it, weight=1.0, args=["root=default", f"host=h{it}"])
        key = self.told(
            "auth get-or-create", entity="mds.a",
            caps=["mon", "allow profile mds", "mgr", "allow profile mds", "mds", "allow *", "osd", "allow *"],
        )  # fmt: skip
        ring = self.folder / "mds-keyring"
        ring.write_text(key)
        for it in ("meta", "data"):
            self.told("osd pool create", pool=it, pg_num=8)
        self.told("fs new", fs_name="files", metadata="meta", data="data")
        self.spawn("mds.a", "ceph-mds", "-i", "a", "--keyring", ring)
        real.awaited(self.is_served, "the file system")

    def is_served(self):
        systems = self.asked("fs dump")["filesystems"]
        return any(it["state"] == "up:active" for it in systems[0]["mdsmap"]["info"].values())

    def user(self, name, at):
        """Writes what a client of the file system needs: configuration and key."""
        caps = ["mon", "allow r", "mgr", "allow r", "mds", "allow *", "osd", "allow rw tag cephfs data=files"]
        (at / "keyring").write_text(self.told("auth get-or-create", entity=f"client.{name}", caps=caps))
        host = next(it for it in self.conf.read_text().splitlines() if it.startswith("mon host"))
        (at / "ceph.conf").write_text(f"[global]\n{host}\nkeyring = {at}/keyring\n[client]\nlog file = {at}/fuse.log\n")


class Pair(Certified):
    """Two hosts with the file system, and what the examples start on each."""

    def __init__(self, hosts, storage, program, folder):
        super().__init__(hosts, folder)
        self.storage, self.program, self.keepers = storage, program, {}

    def at(self, name):
        return self.folder / name

    def files(self, name):
        return self.folder / f"{name}-files"

    def write(self, name):
        """Writes a host's files, from the examples."""
        at, other = self.at(name), next(it for it in PAIR if it != name)
        at.mkdir(mode=0o755)
        self.files(name).mkdir()
        self.storage.user(name, at)
        said = {"at": at, "name": name, "other": other, "folder": self.files(name), "program": self.program}
        said |= {"port": PORT, "slow": SLOW, "longest": 20 * SLOW, "tenths": 250 * SLOW}
        said["inside"] = " ".join(self.hosts.inside(name))
        (at / "keeper").write_text(KEEPER.format(**said))
        (at / "keeper").chmod(0o755)
        (at / "host").write_text(SETTINGS.format(**said))
        script = replaced(
            (EXAMPLES / "crushcalc-host").read_text(), ("${CRUSHCALC_HOST:-/etc/crushcalc/host}", f"{at}/host")
        )
        (at / "crushcalc-host").write_text(script)
        (at / "crushcalc-host").chmod(0o755)
        text = (EXAMPLES / "keepalived.conf").read_text()
        times = (("interval 1", 1), ("advert_int 1", 1), ("timeout 3", 3))
        text = replaced(text, *((it, f"{it.split()[0]} {SLOW * number}") for it, number in times))
        text = replaced(text, ("interface eth0", "interface eth"), ("192.0.2.10/24", f"{ADDRESS}/24 dev eth"))
        # the files of a test lie below /tmp, where everybody may write
        text = replaced(text, ("    enable_script_security\n", ""))
        (at / "keepalived.conf").write_text(text.replace("/etc/keepalived/", f"{at}/"))
        self.write_machine(name, [PORT])

    def is_mounted(self, name):
        """Whether a host has the file system; a mount whose ceph-fuse has ended is none."""
        try:
            return self.files(name).is_mount()
        except OSError:
            return False

    def mount(self, name):
        subprocess.run([self.at(name) / "keeper", "mount"], timeout=PATIENCE)
        if not self.is_mounted(name):
            raise OSError(f"{name} has no file system: {(self.at(name) / 'fuse.log').read_text()[-500:]}")

    def keep(self, name):
        """Starts keepalived."""
        at = self.at(name)
        words = (
            "keepalived",
            "-n",
            "-l",
            "-D",
            "-P",
            "-f",
            at / "keepalived.conf",
            "-p",
            at / "keepalived.pid",
            "-r",
            at / "vrrp.pid",
        )
        with (at / "keepalived.log").open("ab") as log:
            self.keepers[name] = self.hosts.spawn(name, *words, stdout=log, stderr=log)

    def pid(self, name, what):
        try:
            return int((self.at(name) / f"{what}.pid").read_text())
        except (OSError, ValueError):
            return None

    def signal(self, name, sent, *whats):
        """A signal to these of a host's processes."""
        for what in whats:
            pid = self.keepers[name].pid if what == "keepalived" else self.pid(name, what)
            for it in [pid, *(self.children(pid) if what == "keepalived" else ())] if pid else ():
                try:
                    os.kill(it, sent)
                except ProcessLookupError:
                    pass

    def children(self, pid):
        found = subprocess.run(["pgrep", "-P", str(pid)], stdout=subprocess.PIPE).stdout.split()
        return [int(it) for it in found]

    def has_address(self, name):
        return ADDRESS in self.hosts.at(name, "ip", "-o", "-4", "address", "show", "dev", "eth")

    def is_alive(self, name):
        return subprocess.run([self.at(name) / "crushcalc-host", "alive"], timeout=PATIENCE).returncode == 0

    def master(self):
        """The host that has the address and serves, or None."""
        found = [it for it in PAIR if self.has_address(it) and self.serves(it)]
        return found[0] if len(found) == 1 else None

    def serves(self, name):
        ran = subprocess.run(
            [*self.hosts.inside(name), "curl", "-sS", "-m", "2", f"http://127.0.0.1:{PORT}/t/nobody"],
            stdout=subprocess.PIPE,
            stderr=subprocess.DEVNULL,
        )
        return ran.stdout == b'{"error":"no_tenant"}'

    def starts(self, name):
        """When its process was started, each time."""
        try:
            return [float(it) for it in (self.at(name) / "starts").read_text().split()]
        except OSError:
            return []

    def prober(self, name):
        words = (sys.executable, HERE / "prober.py", PORT, f"probe-{name}", WAIT)
        return self.hosts.spawn(name, *words, stdin=subprocess.PIPE, stdout=subprocess.PIPE)

    def writer(self, number):
        return self.user(
            f"w{number}", address=ADDRESS, port=8443, name=COMMON, wait=WAIT, pause=0.03, seed=f"failover {number}",
            tenants=[f"tenant-{number}", f"Tenant.{number}"], doubtful=["502 ", "504 ", '503 {"error":"store_failed"}'],
            certificate=self.certificate("front"),
        )  # fmt: skip

    def stop(self):
        """Ends all that the hosts have, and unmounts."""
        for it in self.keepers.values():
            end(it)
        for name in PAIR:
            self.hosts.link(name, ON)
            for word in ("stop", "unmount"):
                if (self.at(name) / "keeper").exists():
                    subprocess.run([self.at(name) / "keeper", word], timeout=PATIENCE)


def awaited(found, what, seconds=PATIENCE):
    until = time.monotonic() + seconds
    while time.monotonic() < until:
        if it := found():
            return it
        time.sleep(0.1)
    raise OSError(f"{what} didn't come in {seconds} s")


# ---- what happens to a host


def strike(pair, name, kind):
    """It happens to a host that serves."""
    if kind == "dies":
        pair.signal(name, signal.SIGKILL, "keepalived", "keeper", "server", "fuse")
        pair.hosts.link(name, OFF)
    elif kind == "is cut off":
        pair.hosts.link(name, OFF)
    elif kind == "stands still":
        pair.signal(name, signal.SIGSTOP, "keepalived", "keeper", "server", "fuse")
        pair.hosts.link(name, OFF)
    else:
        pair.signal(name, signal.SIGSTOP, "keepalived")
        pair.hosts.link(name, OFF)


def mend(pair, name, kind):
    """The host comes back, as it was or started anew."""
    pair.hosts.link(name, ON)
    if kind == "dies":
        pair.keepers.pop(name).wait()
        # what a machine that starts finds
        subprocess.run(["umount", "-l", pair.files(name)], stderr=subprocess.DEVNULL)
        for it in ("keeper", "server", "fuse", "keepalived", "vrrp"):
            (pair.at(name) / f"{it}.pid").unlink(missing_ok=True)
        pair.hosts.at(name, "ip", "address", "flush", "to", f"{ADDRESS}/32")
        pair.keep(name)
    elif kind == "stands still":
        pair.signal(name, signal.SIGCONT, "fuse", "server", "keeper")
        time.sleep(2)  # its process may try what it likes before keepalived ends it
        pair.signal(name, signal.SIGCONT, "keepalived")
    elif kind != "is cut off":
        time.sleep(2)
        pair.signal(name, signal.SIGCONT, "keepalived")


def failover(pair, kind):
    """The host that serves is struck; returns its name and the seconds until the other answers."""
    name = awaited(pair.master, "a host that serves")
    other = next(it for it in PAIR if it != name)
    awaited(lambda: pair.is_mounted(other) and pair.is_alive(other), f"the file system of {other}")
    time.sleep(3 * SLOW)  # keepalived sees it too
    start = time.monotonic()
    strike(pair, name, kind)
    awaited(lambda: pair.serves(other), f"{other} after {name} {kind}")
    seconds = time.monotonic() - start
    mend(pair, name, kind)
    return name, seconds


# ---- checks


def the_unit(program, folder):
    """systemd knows each word of the unit."""
    if shutil.which("systemd-analyze") is None:
        return Untried("there is no systemd-analyze")
    path = folder / "crushcalc-shared.service"
    text = (EXAMPLES / path.name).read_text()
    path.write_text(replaced(text, ("/usr/local/bin/crushcalc", program)))
    status, said = analyze("verify", str(path))
    return None if (status, said.strip()) == (0, "") else f"status {status}: {said}"


def script(program, db, lines):
    return subprocess.run(
        [program, "script", "--db", str(db)], input=b"".join(it + b"\n" for it in lines), stdout=subprocess.PIPE,
        stderr=subprocess.PIPE, timeout=PATIENCE,
    )  # fmt: skip


def commit_times(pair):
    """Milliseconds of a commit on the file system, beside the local disk."""
    lines = [b"PUT /t/a", messages.import_of(maps.tiny(), "m1")]
    lines += [messages.devices_of(f"n{it}", messages.state(0, reweight=it)) for it in range(COMMITS)]
    took = {}
    for name, folder in (("CephFS", pair.files("a")), ("the local disk", pair.folder)):
        start = time.monotonic()
        ran = script(pair.program, folder / "commits.db", lines)
        took[name] = 1000 * (time.monotonic() - start) / len(lines)
        if ran.returncode or ran.stdout.count(b"\n") != len(lines):
            return f"on {name}: status {ran.returncode}, {ran.stderr!r}"
    print("milliseconds a commit: " + ", ".join(f"{name} {it:.1f}" for name, it in took.items()), flush=True)
    return None


def the_lock_alone(pair, waits):
    """Without keepalived: a second process is refused while the first has the file; once that host
    is cut off, and nobody evicts it, it is served when the file system gives up its session."""
    server = pair.hosts.spawn(
        "a", pair.program, "serve", "--db", pair.files("a") / "lock.db", "--port", "9001", stdout=subprocess.PIPE
    )
    server.stdout.readline()
    ran = script(pair.program, pair.files("b") / "lock.db", [b"PUT /t/a"])
    if (ran.returncode, ran.stdout, ran.stderr) != (1, b"", b"crushcalc: store fault\n"):
        return f"the second process: {ran}"
    if waits:
        pair.hosts.link("a", OFF)
        start = time.monotonic()
        awaited(
            lambda: script(pair.program, pair.files("b") / "lock.db", [b"PUT /t/a"]).returncode == 0, "the lock", 400
        )
        print(
            f"without an eviction the file opens {time.monotonic() - start:.0f} s after its host was cut off",
            flush=True,
        )
        pair.hosts.link("a", ON)
    server.kill()
    subprocess.run([pair.at("a") / "keeper", "unmount"])
    pair.mount("a")
    return None


def overlapping(pair, notes):
    """Where the changes that one process acknowledged, from the first to the last, aren't all
    before or all after those of another; or None. notes: of each host's processes the number of
    each change, and when it was asked and answered."""
    spans = []
    for name, of in notes.items():
        starts = [*pair.starts(name), float("inf")]
        for begin, until in zip(starts, starts[1:]):
            own = [answered for _, start, answered in of if begin <= start < until]
            spans += [(min(own), max(own), name)] if own else []
    spans.sort()
    for (_, last, name), (first, _, other) in zip(spans, spans[1:]):
        if last >= first:
            return f"a process of {name} answers a change at {last}, and one of {other} at {first}"
    return None


def stale(pair, notes, questions):
    """The longest time that a host went on answering what only asks after the other had answered a
    change."""
    worst = 0.0
    for name, of in questions.items():
        others = sorted(answered for other, its in notes.items() if other != name for _, _, answered in its)
        for start, answered in of:
            begun = max((it for it in pair.starts(name) if it <= start), default=0)
            first = next((it for it in others if it > begun), None)
            if first is not None and answered > first:
                worst = max(worst, answered - first)
    return worst


def failovers(pair, count):
    """So many failovers under load. Then the file has what was acknowledged, each change once; and
    no two processes served at a time."""
    for it in PAIR:
        pair.keep(it)
    awaited(pair.master, "a host that serves")
    probers = {it: pair.prober(it) for it in PAIR}
    writers = [pair.writer(it) for it in range(WRITERS)]
    took = []
    for number in range(count):
        kind = KINDS[number % len(KINDS)]
        name, seconds = failover(pair, kind)
        took.append((seconds, kind))
        print(f"{number + 1}: {name} {kind}: {seconds:.1f} s", flush=True)
    awaited(pair.master, "a host that serves")
    found = [reported(it) for it in writers]
    notes, questions = {}, {}
    for name, it in probers.items():
        notes[name], questions[name] = pickle.loads(it.communicate(timeout=PATIENCE)[0])
    for name in PAIR:
        end(pair.keepers[name])
        subprocess.run([pair.at(name) / "keeper", "stop"])
    if why := next((it["wrong"] for it in found if it["wrong"]), None):
        return why
    name = next(it for it in PAIR if pair.is_mounted(it) and pair.is_alive(it))
    copy = copy_to(pair.files(name) / "tenants.db", pair.folder)
    got = held(copy)
    probes = {it: got.pop(f"probe-{it}", None) for it in PAIR}
    want = {name: rows for it in found for name, rows in tables_of(it["live"]).items()}
    if why := differ(want, got):
        return why
    for name, rows in probes.items():
        lost = {it for it, *_ in notes[name]} - {it[0] for it in rows["receipts"]} if rows else {"all"}
        if lost:
            return f"acknowledged at {name}, and lost: {sorted(lost)[:5]}"
    if why := overlapping(pair, notes):
        return why
    seconds = sorted(it for it, _ in took)
    acts = sum(len(it["acts"]) for it in found) + sum(map(len, notes.values()))
    print(
        (
            f"{count} failovers, {SLOW} processes a processor: served again after"
            f" {seconds[len(seconds) // 2]:.1f} s (median; {seconds[0]:.1f} to {seconds[-1]:.1f}); {acts:,} changes"
            " acknowledged, none lost, none done twice; no change was acknowledged by a host after the other's first;"
            f" what only asks was answered up to {stale(pair, notes, questions):.1f} s later"
        ),
        flush=True,
    )
    return None


def checks(program, folder, is_long):
    if not is_root():
        raise Untried("network namespaces and mounts are made by root alone")
    if not os.path.exists("/dev/fuse"):
        raise Untried("there is no /dev/fuse")
    yield "the unit's words", the_unit(program, folder)
    with Hosts("storage", "users", *PAIR) as hosts:
        where = {"address": hosts.addresses["storage"], "inside": hosts.inside("storage")}
        with Storage(folder / "cluster", 3, **where) as storage:
            pair = Pair(hosts, storage, program, folder)
            try:
                pair.certificates(PAIR)
                for it in PAIR:
                    pair.write(it)
                    pair.mount(it)
                    pair.proxy(it)
                yield "milliseconds a commit", commit_times(pair)
                yield "the lock alone", the_lock_alone(pair, is_long)
                yield "failovers under load", failovers(
                    pair, int(os.environ.get("FAILOVERS", FAILOVERS if is_long else SHORT))
                )
            finally:
                pair.stop()
