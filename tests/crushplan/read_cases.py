"""What crushplan reads: reweights of dumps, texts of maps, weights; and that it writes them for
crushcalc as they are."""
import decimal
import json
import pathlib
import subprocess

from crushplan_parts.cluster import fixed
from crushplan_parts.crush_map import CrushMap
from crushplan_parts.read_text import read_text
from crushplan_parts.write_text import Text, exact
from running import equals, wants

MAPS = pathlib.Path(__file__).resolve().parent.parent / "ceph" / "maps"
ONE = 65536


def reweights(runner, folder):
    """Each of the 65,537 reweights is found again in the six digits that a dump has of it."""
    for value in range(ONE + 1):
        equals(f"the reweight {value}", fixed(decimal.Decimal(f"{value / ONE:f}")), value)


def canonical(runner, texts):
    """The canonical texts of maps, by crushcalc."""
    lines = ["PUT /t/a"] + [
        f"POST /t/a/maps {json.dumps({'request': f'n{place}', 'text': text})}" for place, text in enumerate(texts)
    ]
    lines += [f"GET /t/a/maps/{place + 1}" for place in range(len(texts))]
    ran = subprocess.run(
        [runner.program, "script"], input="\n".join(lines).encode(), stdout=subprocess.PIPE, check=True
    )
    replies = ran.stdout.decode().splitlines()[1:]
    equals("imports", {it[:3] for it in replies[: len(texts)]}, {"201"})
    return [json.loads(it[4:])["text"] for it in replies[len(texts) :]]


def texts(runner, folder):
    """A text that is read and written again is the same map: 156 texts of all kinds."""
    given, written = [], []
    for path in sorted(MAPS.glob("*.txt")):
        map_ = read_text(path.read_text(), path.name)
        given.append(path.read_text())
        written.append(Text(map_, list(map_.buckets), sorted(map_.rules)).text())
    equals("how many maps", len(given), 156)
    for path, one, other in zip(sorted(MAPS.glob("*.txt")), canonical(runner, given), canonical(runner, written)):
        # the order of buckets needn't be the same
        equals(path.name, parts(other), parts(one))


def parts(text):
    """The declarations of a text, each with its lines."""
    found, own = [], []
    for line in text.splitlines():
        if not line.startswith("\t") and line != "}":
            own = [line]
            found.append(own)
        else:
            own.append(line)
    return sorted(found)


def weights(runner, folder):
    """Weights of all sizes are kept to the last 65536th: the canonical text has them rounded up to
    five decimals."""
    wanted = sorted({*range(1, 70000, 17), *(1 << it for it in range(32)), *((1 << it) - 1 for it in range(1, 28))})
    lines = [
        "tunable choose_local_tries 0",
        "tunable choose_local_fallback_tries 0",
        *(f"device {it} osd.{it}" for it in range(len(wanted))),
        "type 0 osd",
        "type 1 host",
    ]
    for start in range(0, len(wanted), 40):
        items = [
            f"item osd.{place} weight {exact(wanted[place])}" for place in range(start, min(start + 40, len(wanted)))
        ]
        kept = [it for it in items if not it.endswith(f" {exact(1 << 31)}")]
        lines.append(f"host h{start} {{ id {-1 - start} alg list {' '.join(kept)} }}")
    text = canonical(runner, ["\n".join(lines)])[0]
    found = dict(line.split()[1:4:2] for line in text.splitlines() if line.strip().startswith("item "))
    for place, weight in enumerate(wanted):
        if weight != 1 << 31:
            hundred_thousandths = -(-weight * 100_000 // ONE)
            equals(
                f"the weight {weight}",
                found[f"osd.{place}"],
                f"{hundred_thousandths // 100_000}.{hundred_thousandths % 100_000:05d}",
            )


def faults(runner, folder):
    """Texts that can't be read are named by their line."""
    from crushplan_parts.faults import Fault

    head = "device 0 osd.0\ntype 0 osd\ntype 1 host\n"
    for text, wanted in (
        (head + "host a {\n id -1\n alg list\n item osd.1 weight 1.0\n}\n", "line 7: the item 'osd.1'"),
        (head + "rack a { id -1 }\n", "line 4: 'rack' is neither"),
        (head + "host a { id 1 alg list }\n", "has no id below 0"),
        (head + "host a {\n id -1 alg list item osd.0 weight x }\n", "line 5: 'x' isn't a weight"),
        (head + "rule r { id 0 step take b }\n", "takes 'b'"), (head + "host a { id -1 alg", "ends too early"),
        (head + "rule r { id 0 step fly }\n", "no step 'fly'"),
        ("device x osd.0\n", "line 1: 'x' isn't a whole number"), ("", "declares no device"),
        (head + "host a { id -1 alg list item osd.0 pos 3 }\n", "no free place 3"),
    ):  # fmt: skip
        try:
            read_text(text, "map.txt")
        except Fault as why:
            wants(wanted in str(why) and str(why).startswith("map.txt: "), f"{text!r} is said to be {why}")
        else:
            wants(False, f"{text!r} is read")
    wants(isinstance(read_text(head, "map.txt"), CrushMap), "a map without buckets isn't read")


def cases():
    return [("reweights", reweights), ("texts of maps", texts), ("weights", weights), ("lines of faults", faults)]
