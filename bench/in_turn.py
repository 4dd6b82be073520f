"""Maps of hosts in racks, lines of scripts, states of devices, what crushtool says of them, and
runs by turns, for reports and larger."""
import json
import os
import pathlib
import re
import resource
import shutil
import subprocess
import sys

HERE = pathlib.Path(__file__).resolve().parent
RUNS, GROUPS, SIZE, PER_HOST = 5, 65_536, 3, 10
KINDS = ("uniform", "list", "tree", "straw2")
MARK = "# crushcalc: straw2"  # the first line of each text with straw2 buckets
# devices, with the hosts of a rack
SHAPES = {1_000: 20, 1_250: 25, 2_500: 50, 5_000: 50, 10_000: 50}
ONE, HALF = 65_536, 32_768
# changes of devices that a request may have
CHANGES = 1_024
STORED = re.compile(r"^\s*device (\d+):\s*stored : (\d+)", re.M)
MAPPING = re.compile(r"^CRUSH rule \d+ x (\d+) \[(.*)\]$", re.M)
COLLECTED = re.compile(rb"Collected : (\d+)")


# ---- maps


def bucket(type_, name, number, kind, items):
    return [
        f"{type_} {name} {{",
        f"\tid -{number}",
        f"\talg {kind}",
        "\thash 0",
        *(f"\titem {it} weight {weight}.000" for it, weight in items),
        "}",
    ]


def cluster(devices, kind="list", hosts=None):
    """Hosts of ten devices in racks in a root, with names of one length, so that none takes longer
    to compare by its number. Fewer hosts leave the last ones out of their rack."""
    all_hosts = devices // PER_HOST
    per_rack, hosts = SHAPES[devices], hosts or all_hosts
    lines = [MARK] if kind == "straw2" else []
    lines += [
        f"tunable {it}"
        for it in (
            "choose_local_tries 0",
            "choose_local_fallback_tries 0",
            "choose_total_tries 50",
            "chooseleaf_descend_once 1",
            "chooseleaf_vary_r 1",
            "chooseleaf_stable 1",
        )
    ]
    lines += [f"device {it} osd.{it:05}" for it in range(devices)] + [
        "type 0 osd",
        "type 1 host",
        "type 2 rack",
        "type 3 root",
    ]
    racks = [[it for it in range(start, start + per_rack) if it < hosts] for start in range(0, all_hosts, per_rack)]
    for it in range(hosts):
        lines += bucket(
            "host",
            f"host.{it:04}",
            2 + len(racks) + it,
            kind,
            [(f"osd.{PER_HOST * it + place:05}", 1) for place in range(PER_HOST)],
        )
    for number, own in enumerate(racks):
        lines += bucket("rack", f"rack.{number:02}", 2 + number, kind, [(f"host.{it:04}", PER_HOST) for it in own])
    weights = [PER_HOST * (per_rack if kind == "uniform" else len(own)) for own in racks]
    lines += bucket(
        "root", "default", 1, kind, [(f"rack.{number:02}", weight) for number, weight in enumerate(weights)]
    )
    rule = (
        "id 0",
        "type replicated",
        "min_size 1",
        "max_size 10",
        "step take default",
        f"step chooseleaf firstn {SIZE} type host",
        "step emit",
    )
    return "\n".join([*lines, "rule data {", *(f"\t{it}" for it in rule), "}"]) + "\n"


# ---- states of devices


class States:
    """Of each ten devices one is out, two have the reweight 0.5, and two are down: one of them has
    the reweight 0.5 too. Or each device is as a new one."""

    def __init__(self, devices, drawn):
        places = [(it, (it + it // PER_HOST) % PER_HOST) for it in range(devices if drawn else 0)]
        self.reweights = {it: 0 if place == 0 else HALF for it, place in places if place < 3}
        self.down = {it for it, place in places if place in (2, 3)}

    def lines(self):
        """The requests that store these states."""
        changes = [
            {"id": it, "reweight": self.reweights.get(it, ONE), "up": it not in self.down}
            for it in sorted({*self.reweights, *self.down})
        ]
        return [
            post("devices", request=f"states {start}", devices=changes[start : start + CHANGES])
            for start in range(0, len(changes), CHANGES)
        ]

    def words(self):
        """The same to crushtool, which has reweights and no device that is down."""
        return [word for it, weight in self.reweights.items() for word in ("--weight", it, weight / ONE)]


# ---- scripts


def post(path, tenant="a", **members):
    return f"POST /t/{tenant}/{path} {json.dumps(members, separators=(',', ':'))}"


def imports(*texts, tenant="a"):
    return [
        f"PUT /t/{tenant}",
        *(post("maps", tenant, request=f"map {place}", text=text) for place, text in enumerate(texts)),
    ]


def pool(groups=GROUPS, tenant="a"):
    """The pool 1, of which group g has the seed g + 1."""
    return post(
        "pools",
        tenant,
        request="pool",
        id=1,
        name="pool",
        kind="replicated",
        size=SIZE,
        rule=0,
        pg_num=groups,
        pgp_num=groups,
        hashpspool=False,
    )


def asks(count, first=0):
    return [f"GET /t/a/pools/1/groups/{it}" for it in range(first, first + count)]


def body(written):
    """What the last reply of a script holds."""
    return json.loads(written.splitlines()[-1][4:])


# ---- crushtool


def tried(compiled, *words, groups=GROUPS):
    """The words by which crushtool places the groups of the pool."""
    return (
        "crushtool",
        "-i",
        compiled,
        "--test",
        "--rule",
        0,
        "--num-rep",
        SIZE,
        "--min-x",
        1,
        "--max-x",
        groups,
        *words,
    )


def stored_in(written):
    """How often crushtool stores on each device where it does, by --show-utilization."""
    return {int(device): int(count) for device, count in STORED.findall(written.decode()) if int(count)}


def mappings_in(written):
    """The devices of each input, by --show-mappings."""
    return {int(x): [int(it) for it in items.split(",") if it] for x, items in MAPPING.findall(written.decode())}


# ---- runs


class Bench:
    """Runs of a program, with what the machine has beside it: crushtool, a C compiler (for the
    peak of memory) and valgrind."""

    def __init__(self, crushcalc, folder):
        self.crushcalc, self.folder = crushcalc, folder
        self.has_ceph, self.launcher = shutil.which("crushtool"), None
        self.has_valgrind = shutil.which("valgrind") and shutil.which("callgrind_annotate")
        if shutil.which("gcc"):
            self.launcher = folder / "peak"
            subprocess.run(["gcc", "-O1", "-o", str(self.launcher), str(HERE / "peak.c")], check=True)
        if not self.has_ceph:
            print("crushtool isn't installed, so nothing is compared with it: 'make bench-deps' installs it.")

    def file(self, name, lines):
        path = self.folder / name
        path.write_text(lines if isinstance(lines, str) else "\n".join(lines) + "\n")
        return path

    def script(self, lines, *words, name="script", program=None):
        """The words and the input of a script."""
        return (program or self.crushcalc, "script", *words), self.file(name, lines)

    def compiled(self, text, name):
        """The map in crushtool's form."""
        self.run(("crushtool", "-c", self.file(f"{name}.txt", text), "-o", self.folder / name))
        return self.folder / name

    def run(self, words, given=None):
        """The seconds of processor time that a program took, and what it wrote."""
        before = resource.getrusage(resource.RUSAGE_CHILDREN)
        with open(given or os.devnull, "rb") as source:
            ran = subprocess.run(
                [str(it) for it in words], stdin=source, stdout=subprocess.PIPE, stderr=subprocess.PIPE
            )
        after = resource.getrusage(resource.RUSAGE_CHILDREN)
        replies = ran.stdout.splitlines() if "script" in words else []
        wrong = next((it for it in replies if not it.startswith(b"20")), None)
        if ran.returncode != 0 or wrong:
            sys.exit(
                f"{words}: status {ran.returncode}, {ran.stderr.decode(errors='replace')[:200]}, a reply {wrong!r}"
            )
        return after.ru_utime + after.ru_stime - before.ru_utime - before.ru_stime, ran.stdout, ran.stderr

    def by_turns(self, works, runs=RUNS):
        """The shortest time of each work in milliseconds, and what each wrote last. They take
        turns, so that other work on the machine meets all."""
        took, written = {}, {}
        for _ in range(runs):
            for name, (words, given) in works.items():
                seconds, out, err = self.run(words, given)
                took[name], written[name] = min(1e3 * seconds, took.get(name, 1e9)), out + err
        return took, written

    def instructions(self, works):
        """The instructions of each work, by callgrind, and what each wrote."""
        if not self.has_valgrind:
            sys.exit("valgrind isn't installed, so no instructions are counted.")
        spent, written = {}, {}
        for name, (words, given) in works.items():
            _, written[name], said_ = self.run(
                ("valgrind", "--tool=callgrind", f"--callgrind-out-file={self.folder / 'callgrind'}", *words), given
            )
            spent[name] = int(COLLECTED.search(said_).group(1))
        return spent, written

    def callgrind_table(self):
        """The functions of the last work whose instructions were counted, each with its callees."""
        return self.run(("callgrind_annotate", "--inclusive=yes", "--threshold=100", self.folder / "callgrind"))[
            1
        ].decode()

    def peak(self, words, given=None):
        """The bytes of memory that a program took at most, and the last line that it wrote."""
        if not self.launcher:
            return 0, b""
        _, out, err = self.run((self.launcher, *words), given)
        return int(err.split()[-1]), out.splitlines()[-1] if out else b""


def said(ratio, aim):
    return f"{ratio:.2f} (the aim is at most {aim:.2f})"
