"""A real Ceph cluster on the loopback interface, in a folder of its own: a monitor, a manager and
some OSDs whose objects are in memory, by Debian's packages.

Each of its processes is a child of this one, is ended with it, and no other process is.
"""
import base64
import collections
import concurrent.futures
import json
import pathlib
import re
import shutil
import socket
import subprocess
import time
import uuid

CONF = """[global]
fsid = {fsid}
mon initial members = a
mon host = [v2:{address}:{ports[0]},v1:{address}:{ports[1]}]
public addr = {address}
cluster addr = {address}
ms bind port min = 16800
ms bind port max = 18800
ms async op threads = 1
mon data = {folder}/mon
mgr data = {folder}/mgr
osd data = {folder}/osd.$id
run dir = {folder}/run
admin socket = {folder}/run/$name.$pid.asok
log file = {folder}/log/$name.log
keyring = {folder}/keyring
# a disk that is nearly full holds nothing up: objects are in memory
mon data avail warn = 1
mon data avail crit = 0
mon allow pool delete = true
mon max pg per osd = 100000
# seconds that the monitor gives its own test of a new map
mon lease = 120
osd max pg per osd hard ratio = 1000
# nothing goes down or out, and nothing comes into the map, but by this test
mon osd down out interval = 0
mon osd min in ratio = 0
mon osd min up ratio = 0
mon osd adjust heartbeat grace = false
osd heartbeat grace = 600
osd heartbeat interval = 60
# a manager on a slow machine isn't replaced; but the monitor's clock starts with the machine and
# has no time before 0: with a grace longer than that, each beacon is too old
mon mgr beacon grace = {grace}
# a group waits until what an OSD that ended was allowed to answer is over: 6 seconds, not 480
osd pool default read lease ratio = 0.01
osd crush update on start = false
osd class update on start = false
osd pool default pg autoscale mode = off
# objects move at once, and what an OSD says of its groups is a second old at most
mgr stats period = 1
osd recovery sleep = 0
osd recovery sleep hdd = 0
osd recovery sleep ssd = 0
osd recovery sleep hybrid = 0
osd recovery delay start = 0
osd recovery retry interval = 1
osd backfill retry interval = 1
osd max backfills = 100
osd recovery max active = 100
osd fast shutdown = false
osd objectstore = memstore
memstore device bytes = {bytes_of_osd}
[mgr]
keyring = {folder}/mgr/keyring
# no module is loaded but those that a test asks for: that takes long, and the balancer makes upmap
# items of its own
mgr module path = {folder}/modules
[osd]
keyring = {folder}/osd.$id/keyring
osd op num shards = 1
osd op num threads per shard = 1
"""
BYTES_OF_OSD = 256 * 1024 * 1024
GRACE = 600  # seconds
NEEDED = (
    "ceph",
    "ceph-mon",
    "ceph-mgr",
    "ceph-osd",
    "ceph-objectstore-tool",
    "ceph-authtool",
    "monmaptool",
    "crushtool",
    "osdmaptool",
    "setpriv",
)
JOBS = 4
# a group in one of these is still at work
AT_WORK = {
    "creating", "unknown", "peering", "activating", "stale", "wait", "laggy", "recovering", "recovery_wait",
    "recovery_unfound", "backfilling", "backfill_wait", "backfill_toofull", "forced_recovery", "forced_backfill",
    "repair", "snaptrim", "scrubbing",
}  # fmt: skip
NONE = 2147483647
MODULES = pathlib.Path("/usr/share/ceph/mgr")  # of the manager
MAPPED = re.compile(
    r"(\d+)\.([0-9a-f]+) raw \(\[[^]]*\], p-?\d+\) up \(\[([^]]*)\], p(-?\d+)\) acting \(\[([^]]*)\], p-?\d+\)"
)
PERIOD = 1.2  # seconds: a little more than OSDs wait between two reports
PATIENCE = 3600  # seconds for what takes a few on a machine that does nothing else


class Failed(Exception):
    """Says what the cluster, or a program, refused or didn't do in time."""


def run(*words):
    """Returns what a program writes on standard output. Failed says why there is none."""
    try:
        ran = subprocess.run(
            [str(it) for it in words],
            stdin=subprocess.DEVNULL,
            stdout=subprocess.PIPE,
            stderr=subprocess.PIPE,
            timeout=PATIENCE,
        )
    except (OSError, subprocess.TimeoutExpired) as error:
        raise Failed(f"{words[0]}: {error}") from None
    if ran.returncode:
        raise Failed(
            f"{' '.join(map(str, words))}: status {ran.returncode}:"
            f" {ran.stderr.decode(errors='replace')[-500:].strip()}"
        )
    return ran.stdout.decode()


def missing():
    """Returns the programs that aren't installed."""
    return [it for it in NEEDED if not shutil.which(it)]


def free_ports(number):
    """Returns as many TCP ports of the loopback interface, on which nothing listens."""
    sockets = [socket.socket() for _ in range(number)]
    for it in sockets:
        it.bind(("127.0.0.1", 0))
    ports = [it.getsockname()[1] for it in sockets]
    for it in sockets:
        it.close()
    return ports


def awaited(found, what):
    """Returns what `found` answers, once that is true. Failed says what took too long."""
    end = time.monotonic() + PATIENCE
    while True:
        it = found()
        if it:
            return it
        if time.monotonic() > end:
            raise Failed(f"{what} didn't come in {PATIENCE} s")
        time.sleep(0.3)


class Cluster:
    """A cluster with the OSDs 0 .. osds-1, each up and in, in a map without buckets, with the
    balancer at rest, or without it. `modules` are others of the manager, folders that lie in its
    own folder of modules or elsewhere, and `options` what they have by name. `inside` are words
    before its commands, which make them run where it has this address. A `with` ends it."""

    def __init__(self, folder, osds, balancer=False, modules=(), options=(), address="127.0.0.1", inside=()):
        self.folder, self.osds = pathlib.Path(folder).resolve(), osds
        self.address, self.inside = address, inside
        self.modules = [*(["balancer"] if balancer else []), *modules]
        self.options = {**({"balancer/active": "false"} if balancer else {}), **dict(options)}
        self.conf, self.processes, self.client = self.folder / "ceph.conf", {}, None
        try:
            self.start()
        except BaseException:
            self.stop()
            raise

    def __enter__(self):
        return self

    def __exit__(self, *_):
        self.stop()

    # ---- its processes

    def start(self):
        for name in ("mon", "mgr", "modules", "run", "log"):
            (self.folder / name).mkdir(parents=True)
        self.start_monitor()
        self.start_manager()
        names = range(self.osds)
        made = {it: str(uuid.uuid4()) for it in names}
        for it in names:
            (self.folder / f"osd.{it}").mkdir()
            self.told("osd new", uuid=made[it], id=it)
            key = self.told(
                "auth get-or-create",
                entity=f"osd.{it}",
                caps=["mon", "allow profile osd", "mgr", "allow profile osd", "osd", "allow *"],
            )
            (self.folder / f"osd.{it}" / "keyring").write_text(key)
        with concurrent.futures.ThreadPoolExecutor(JOBS) as jobs:
            list(
                jobs.map(
                    lambda it: run(
                        "ceph-osd", "-c", self.conf, "-i", it, "--mkfs", "--osd-uuid", made[it], "--no-mon-config"
                    ),
                    names,
                )
            )
        for it in names:
            self.start_osd(it)
        self.await_up(names)

    def start_monitor(self):
        fsid, ring, ports = str(uuid.uuid4()), self.folder / "keyring", free_ports(2)
        grace = min(GRACE, int(time.monotonic()))
        self.conf.write_text(
            CONF.format(
                fsid=fsid, folder=self.folder, ports=ports, grace=grace, bytes_of_osd=BYTES_OF_OSD, address=self.address
            )
        )
        run("ceph-authtool", "--create-keyring", ring, "--gen-key", "-n", "mon.", "--cap", "mon", "allow *")
        run(
            "ceph-authtool",
            ring,
            "--gen-key",
            "-n",
            "client.admin",
            *(word for of in ("mon", "osd", "mgr") for word in ("--cap", of, "allow *")),
        )
        monmap = self.folder / "monmap"
        run(
            "monmaptool",
            "--create",
            "--addv",
            "a",
            f"[v2:{self.address}:{ports[0]},v1:{self.address}:{ports[1]}]",
            "--fsid",
            fsid,
            monmap,
        )
        words = ["--monmap", monmap, "--keyring", ring, *self.first_map()]
        run("ceph-mon", "-c", self.conf, "--mkfs", "-i", "a", *words)
        self.spawn("mon.a", "ceph-mon", "-i", "a")
        self.client = subprocess.Popen(
            [*self.inside, "/usr/bin/python3", str(pathlib.Path(__file__).with_name("client.py")), str(self.conf)],
            stdin=subprocess.PIPE,
            stdout=subprocess.PIPE,
            text=True,
        )
        self.told("osd stat")

    def first_map(self):
        """Returns the monitor's words on the map with which it begins: by itself that of no OSD."""
        return []

    def start_manager(self):
        key = self.told(
            "auth get-or-create", entity="mgr.x", caps=["mon", "allow profile mgr", "osd", "allow *", "mds", "allow *"]
        )
        (self.folder / "mgr" / "keyring").write_text(key)
        for name, value in self.options.items():
            self.told("config set", who="mgr", name=f"mgr/{name}", value=value, force=True)
        for it in [*(["mgr_module.py", "mgr_util.py"] if self.modules else []), *self.modules]:
            path = MODULES / it  # which is `it` where that is a whole path
            (self.folder / "modules" / path.name).symlink_to(path)
        self.spawn("mgr.x", "ceph-mgr", "-i", "x")
        awaited(lambda: self.asked("mgr dump")["available"], "the manager")

    def start_osd(self, number):
        self.spawn(f"osd.{number}", "ceph-osd", "-i", number)

    def spawn(self, name, program, *words):
        """Starts a process of the cluster, which gets SIGTERM when this one ends in any way."""
        said = (self.folder / "log" / f"{name}.out").open("ab")
        self.processes[name] = subprocess.Popen(
            [*self.inside, "setpriv", "--pdeathsig", "TERM", program, "-f", "-c", str(self.conf), *map(str, words)],
            stdin=subprocess.DEVNULL,
            stdout=said,
            stderr=said,
            cwd=self.folder,
        )
        said.close()

    def end(self, names):
        """Ends these processes of its own, and waits for them."""
        ended = [self.processes.pop(it) for it in names if it in self.processes]
        for it in ended:
            it.terminate()
        for it in ended:
            try:
                it.wait(60)
            except subprocess.TimeoutExpired:
                it.kill()
                it.wait()

    def stop(self):
        if self.client:
            self.client.stdin.close()
            self.client.kill()
            self.client.wait()
        self.end([it for it in self.processes if it != "mon.a"])
        self.end(["mon.a"])

    # ---- commands

    def answer(self, request):
        try:
            self.client.stdin.write(json.dumps(request) + "\n")
            self.client.stdin.flush()
            line = self.client.stdout.readline()
        except OSError as error:
            raise Failed(f"the client: {error}") from None
        if not line:
            raise Failed("the client of the cluster ended")
        return json.loads(line)

    def told(self, prefix, to="mon", given=b"", **words):
        """Returns what a command answers, as text. Failed says why it was refused."""
        return self.told_bytes(prefix, to, given, **words).decode()

    def told_bytes(self, prefix, to="mon", given=b"", **words):
        """Returns the same as bytes."""
        said = self.answer(
            {"to": to, "command": {"prefix": prefix, **words}, "input": base64.b64encode(given).decode()}
        )
        if said["status"] < 0:
            raise Failed(f"ceph {prefix} {words}: {said['said']} ({said['status']})")
        return base64.b64decode(said["out"])

    def asked(self, prefix, to="mon", **words):
        """Returns the same of a command that answers JSON."""
        return json.loads(self.told(prefix, to, format="json", **words))

    def write(self, pool, objects):
        """Writes objects: names with their bytes."""
        said = self.answer({"write": pool, "objects": objects})
        if said["status"] < 0:
            raise Failed(f"the objects of {pool}: {said['said']}")

    def stored(self, number):
        """Returns how many objects of each pool the store of an OSD holds, which has ended."""
        out = run(
            "ceph-objectstore-tool",
            "--no-mon-config",
            "--type",
            "memstore",
            "--data-path",
            self.folder / f"osd.{number}",
            "--op",
            "list",
        )
        found = collections.Counter()
        for line in out.splitlines():
            _, it = json.loads(line)
            if it["oid"] and it["pool"] >= 0:
                found[it["pool"]] += 1
        return dict(found)

    # ---- what it is doing

    def await_up(self, names):
        """Waits until exactly these OSDs are up."""
        awaited(lambda: {it["osd"] for it in self.asked("osd dump")["osds"] if it["up"]} == set(names), f"OSDs {names}")

    def groups(self, *, brief=False):
        """Returns each group of each pool, (pool, group), as its OSDs say: up and acting lists, in
        which None is an empty place, the primary of up, the states; if not brief, which takes a
        tenth of the time, its objects and their bytes."""
        found = {}
        for it in self.asked("pg dump", "mgr", dumpcontents=["pgs_brief" if brief else "pgs"])["pg_stats"]:
            pool, group = it["pgid"].split(".")
            found[int(pool), int(group, 16)] = {
                "up": listed(it["up"]), "primary": none_or(it["up_primary"]), "acting": listed(it["acting"]),
                "states": frozenset(it["state"].split("+")),
                **({} if brief else {"objects": it["stat_sum"]["num_objects"], "bytes": it["stat_sum"]["num_bytes"]}),
            }  # fmt: skip
        return found

    def mapped(self):
        """Returns the up and acting lists and the primary of all groups, by the monitor's newest
        map."""
        path = self.folder / "osdmap"
        path.write_bytes(self.told_bytes("osd getmap"))
        found = {}
        for line in run("osdmaptool", path, "--test-map-pgs-dump-all").splitlines():
            it = MAPPED.match(line)
            if it:
                up, acting = ([none_or(int(device)) for device in of.split(",") if device] for of in (it[3], it[5]))
                found[int(it[1]), int(it[2], 16)] = up, acting, none_or(int(it[4]))
        return found

    def placed(self):
        """Returns the groups, in brief, once the OSDs have the up lists of the newest map, whether
        objects still move or not."""

        def found():
            groups, mapped = self.groups(brief=True), self.mapped()
            return (
                groups
                if {key: it["up"] for key, it in groups.items()} == {key: up for key, (up, *_) in mapped.items()}
                else None
            )

        return awaited(found, "the lists of the newest map")

    def settled(self):
        """Returns the groups once none is at work, and the OSDs have the lists of the newest map,
        twice one after the other; those that no OSD has have the lists of that map. Failed says
        which are at work."""
        end, last = time.monotonic() + PATIENCE, None
        while True:
            groups, mapped = self.groups(brief=last is None), self.mapped()
            gone = self.gone(groups, mapped)
            why = {
                key: why_at_work(groups.get(key), up, acting)
                for key, (up, acting, _) in sorted(mapped.items())
                if key not in gone
            }
            why = {key: it for key, it in why.items() if it}
            short = {key: in_brief(it) for key, it in groups.items()}
            if not why and set(groups) == set(mapped) and short == last:
                return groups
            if time.monotonic() > end:
                raise Failed(f"{len(why)} groups didn't settle in {PATIENCE} s: {dict(list(why.items())[:5])}")
            last = short if not why else None
            time.sleep(PERIOD)

    def gone(self, groups, mapped):
        """Returns the groups whose every OSD has ended, and gives them the lists of the map. OSDs
        that the map gives them later know nothing of them."""
        stale = [key for key, it in groups.items() if "stale" in it["states"] and key in mapped]
        up = {it["osd"] for it in self.asked("osd dump")["osds"] if it["up"]} if stale else ()
        found = {key for key in stale if not {*groups[key]["up"], *groups[key]["acting"]} & {*up}}
        for key in found:
            groups[key].update(zip(("up", "acting", "primary"), mapped[key]))
        return found


def why_at_work(group, up, acting):
    """Returns what a group still has to do before it is at rest on these lists, or None."""
    if group is None:
        return "unknown"
    states = group["states"]
    if not any(it is not None for it in acting):
        return "not stale yet"
    if (group["up"], group["acting"]) != (up, acting):
        return f"its OSDs have {group['up']} {group['acting']}, the map has {up} {acting}"
    # an undersized group may keep a copy outside its list, if it has all that the list asks for
    if (
        states & AT_WORK
        or not states & {"clean", "undersized"}
        or "undersized" in states
        and not set(up) <= {*acting, None}
    ):
        return "+".join(sorted(states))
    return None


def in_brief(group):
    return {key: it for key, it in group.items() if key not in ("objects", "bytes")}


def listed(devices):
    return [none_or(it) for it in devices]


def none_or(device):
    """Returns a device, or None for what Ceph writes as 2147483647 or -1."""
    return None if device in (NONE, -1) else device
