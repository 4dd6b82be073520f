"""Maps, lines of scripts and runs over database files, for stored and http."""
import contextlib
import json
import pathlib
import random
import shutil
import statistics
import subprocess
import sys
import tempfile
import time

TOP = pathlib.Path(__file__).resolve().parent.parent
sys.path[:0] = [str(TOP / "tests"), str(TOP / "tests" / "ceph")]
from make_maps import HOST, ONE, RACK, ROOT, Map, hosts_of, tree_of  # noqa: E402

RUNS = 5

# ---- maps and lines


def tiny():
    it = Map("tiny")
    it.bucket("uniform", ROOT, it.take_devices(1), -1)
    return it.rule("take -1", "choose firstn 0 0", "emit").text()


def cluster(hosts, devices):
    it = hosts_of(Map("cluster"), ("list", "list"), hosts, devices)
    return it.rule("take -1", f"chooseleaf firstn 3 {HOST}", "emit").text()


def racks(kind, per_host, size=3):
    """Four racks of eight hosts with so many devices each, all buckets of this kind."""
    it = Map("racks")
    for host in range(32):
        it.bucket(kind, HOST, it.take_devices(per_host), -6 - host)
    for rack in range(4):
        it.bucket(kind, RACK, [(-6 - host, per_host * ONE) for host in range(8 * rack, 8 * (rack + 1))], -2 - rack)
    it.bucket(kind, ROOT, [(-2 - rack, 8 * per_host * ONE) for rack in range(4)], -1)
    return it.rule("take -1", f"chooseleaf firstn {size} {HOST}", "emit", sizes=(size,)).text()


def even_weights():
    return lambda d: ONE


def mixed_weights():
    return lambda d: ONE * (1 + d % 4)


def random_weights():
    """Below 16.0."""
    drawn = random.Random(1)
    return lambda d: drawn.randrange(1, 16 * ONE)


def racks_of(kind, weight, size, name, *shape):
    """So many racks of so many hosts of so many devices, all buckets of this kind."""
    it = tree_of(Map(name), [kind] * 3, *shape, weight)
    return it.rule("take -1", f"chooseleaf firstn {size} {HOST}", "emit", sizes=(size,)).text()


def racks_of_twelve(kind, weight, size=3):
    """Eight racks of ten hosts of twelve devices."""
    return racks_of(kind, weight, size, "twelve", 8, 10, 12)


def racks_of_32(kind, weight, size=3):
    """Four racks of eight hosts of 32 devices."""
    return racks_of(kind, weight, size, "racks", 4, 8, 32)


def flat(kind, count, weight):
    """So many devices in one bucket of this kind, of which the rule takes one."""
    it = Map("flat")
    it.bucket(kind, ROOT, it.take_devices(count, weight), -1)
    return it.rule("take -1", "choose firstn 1 0", "emit", sizes=(1,)).text()


def of_length(length, kind="list"):
    """A map with names of 64 bytes whose canonical text has about this many bytes, and whose
    buckets are of this kind."""
    head = [
        "tunable choose_local_tries 0",
        "tunable choose_local_fallback_tries 0",
        "type 0 osd",
        "type 1 host",
        "type 2 root",
    ]
    # a device with its line and its item takes some 178 bytes
    count = min(1024, length // 178)
    names = [f"device-{it:057}" for it in range(count)]
    lines = head + [f"device {it} {name}" for it, name in enumerate(names)]
    items = [f"\titem {name} weight 1.00000" for name in names]
    more, hosts = max(0, length - 178 * count), []
    while more > 0:
        hosts.append(len(hosts) + 2)
        lines += [
            f"host host-{len(hosts):059} {{",
            f"\tid -{hosts[-1]}",
            f"\talg {kind}",
            *items[: min(count, more // 90 + 1)],
            "}",
        ]
        more -= 90 * min(count, more // 90 + 1)
    lines += [
        "root default {",
        "\tid -1",
        f"\talg {kind}",
        *items,
        "}",
        "rule all {",
        "\tid 0",
        "\ttype replicated",
        "\tstep take default",
        "\tstep choose firstn 0 type osd",
        "\tstep emit",
        "}",
        "",
    ]
    return "\n".join(lines)


def post(tenant, path, **members):
    return f"POST /t/{tenant}/{path} {json.dumps(members, separators=(',', ':'))}"


def import_of(tenant, number, text):
    return post(tenant, "maps", request=number, text=text)


def change_of(tenant, number, up):
    return post(tenant, "devices", request=number, devices=[{"id": 0, "up": up}])


def pool_of(tenant, groups=65536, size=1):
    return post(
        tenant,
        "pools",
        request="pool",
        id=1,
        name="pool",
        kind="replicated",
        size=size,
        rule=0,
        pg_num=groups,
        pgp_num=groups,
        hashpspool=True,
    )


# ---- runs


def took(program, lines, db=None, statuses=("2",)):
    """The wall time of a script; its replies have to begin so."""
    data = "".join(f"{it}\n" for it in lines).encode()
    with tempfile.TemporaryFile() as script:
        script.write(data)
        script.seek(0)
        start = time.perf_counter()
        ran = subprocess.run(
            [program, "script", *(["--db", str(db)] if db else [])],
            stdin=script,
            stdout=subprocess.PIPE,
            stderr=subprocess.PIPE,
        )
        spent = time.perf_counter() - start
    wrong = next((it for it in ran.stdout.decode().splitlines() if not it.startswith(statuses)), None)
    if ran.returncode or wrong:
        sys.exit(f"status {ran.returncode}, {ran.stderr[:200]!r}, a reply {wrong!r}")
    return spent


def by_turns(*works):
    """The medians of these works' times, one after the other again and again."""
    return [statistics.median(it) for it in zip(*([work() for work in works] for _ in range(RUNS)))]


def fresh(db, to):
    for it in ("", "-wal"):
        pathlib.Path(f"{to}{it}").unlink(missing_ok=True)
        if pathlib.Path(f"{db}{it}").exists():
            shutil.copyfile(f"{db}{it}", f"{to}{it}")
    return to


@contextlib.contextmanager
def folder():
    (TOP / "build").mkdir(exist_ok=True)
    with tempfile.TemporaryDirectory(dir=TOP / "build") as name:
        yield pathlib.Path(name)
