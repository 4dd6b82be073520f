"""Requests on maps and rule tests, each with the reply that the rules of requests give it. The maps
are small enough to be answered by hand."""
import pathlib

from model.maps import canonical_tiny, hosts, marked, never_picked, tiny, with_line
from model.messages import (
    BAD,
    EXISTS,
    LIMIT,
    METHOD,
    NO_PATH,
    NO_RULE,
    NO_TENANT,
    NO_VERSION,
    REUSED,
    START,
    TOO_LARGE,
    dropped,
    import_of,
    imported,
    made,
    of_b,
    post,
    refused,
    summary,
    test_of,
    tested,
    version_of,
)
from program import straw2_cases

HERE = pathlib.Path(__file__).resolve().parent


# ---- the cases: names, and lines with their replies


def receipts():
    """A request number acts once: the first reply again for the same path and body, else a
    refusal."""
    return START + [
        (import_of(tiny(), "m1"), imported(1, 1)),
        (import_of(tiny(), "m2"), imported(2, 2)),
        (import_of(tiny(), "m1"), imported(1, 1)),
        (import_of(tiny(7), "m1"), REUSED),
        (b"GET /t/a", summary(2, 2)),
        (import_of(tiny(), "m1") + b" ", REUSED),  # one more blank: another body
        (b"POST /t/a/maps {", BAD),
        (import_of("", "m3"), refused("M4", 1)),  # a refused request leaves no receipt
        (import_of(tiny(7), "m3"), imported(3, 3)),
        (b"GET /t/a/maps/3", version_of(canonical_tiny(7), 3)),
        (b"DELETE /t/a", dropped(b"a")),
        (b"PUT /t/a", made(b"a")),
        (import_of(tiny(7), "m1"), imported(1, 1)),  # nothing of the old tenant is left
        (b"GET /t/a/maps/1", version_of(canonical_tiny(7), 1)),
        (b"GET /t/a/maps/2", NO_VERSION),
    ]


def refusals():
    straw2 = with_line(tiny(), 13, " alg straw2")
    front = "\n".join(tiny().split("\n")[:15]) + "\n"
    no_tunables = with_line(with_line(tiny(), 1, None), 1, None)
    return START + [
        (import_of(straw2), refused("X2", 13)),
        (import_of(front), refused("X1", 15)),
        (import_of(no_tunables), refused("M13", 21)),
        (b"GET /t/a", summary(0, 0)),
        (import_of("#" * 4_194_304), refused("M4", 1)),
        (import_of("#" * 4_194_305), refused("X7", 1)),
        (import_of("#" * 5_242_880), TOO_LARGE),
        (import_of(tiny().replace("osd.0 weight 1.0", "osd.0 weight 0.5 pos 1")), refused("X5", 15)),
        (import_of(with_line(tiny(), 20, " step take default class ssd")), refused("X3", 20)),
        (import_of(tiny() + "choose_args 0 {"), refused("X4", 24)),
        (import_of(with_line(tiny(), 11, "rack default {")), refused("M4", 11)),
        (import_of(with_line(tiny(), 21, " step choose firstn 65 type osd")), refused("M12", 17)),
        (import_of(with_line(tiny(), 21, " step chooseleaf indep 0 type osd")), refused("M14", 17)),
        (b"GET /t/a", summary(0, 0)),
        (b"GET /t/a/maps", METHOD),
        (b"PUT /t/a/maps", METHOD),
        (b"DELETE /t/a/maps/1", METHOD),
        (b"GET /t/a/maps/", NO_PATH),
        (b"GET /t/a/maps/1/", NO_PATH),
        (b"POST /t/a/test/1 {}", NO_PATH),
        (b"POST /t/a/maps/1 {}", METHOD),
        (b"GET /t/a/maps/x", BAD),
        (b"GET /t/a/maps/00000000001", BAD),
        (b"GET /t/a/maps/0", NO_VERSION),
        (b"GET /t/a/maps/9999999999", NO_VERSION),
        (b"GET /t/b/maps/1", NO_TENANT),
        (b"GET /t/a/maps/1 {}", BAD),
        (b'POST /t/a/maps {"request":"","text":""}', BAD),
        (b'POST /t/a/maps {"request":"%s","text":""}' % (b"r" * 65), BAD),
        (b'POST /t/a/maps {"request":1,"text":""}', BAD),
        (b'POST /t/a/maps {"text":""}', BAD),
        (b'POST /t/a/maps {"more":0,"request":"m","text":""}', BAD),
        (b'POST /t/b/maps {"request":"m","text":""}', NO_TENANT),
        (import_of(tiny(), "r" * 64), imported(1, 1)),
        (b"GET /t/a/maps/0000000001", version_of(canonical_tiny(), 1)),
        (b"GET /t/a/maps/4294967297", NO_VERSION),  # 2^32 + 1: numbers are compared as a whole
        (b"GET /t/a/maps/4294967296", NO_VERSION),
    ]


def rule_tests():
    indep = with_line(tiny(3), 21, " step choose indep 2 type osd")
    rack = with_line(tiny(), 10, "type 10 root\ntype 3 rack")
    firstn_rack = with_line(rack, 22, " step choose firstn 1 type rack")
    indep_rack = with_line(rack, 22, " step choose indep 1 type rack")
    empty = with_line(
        with_line(tiny(), 15, " item e weight 1.0"), 10, "type 10 root\nhost e {\n id -2\n alg uniform\n hash 0\n}"
    )
    firstn_empty = with_line(empty, 26, " step choose firstn 1 type osd")
    indep_empty = with_line(empty, 26, " step choose indep 1 type osd")
    takes = with_line(tiny(5), 7, "device 5 osd.5\ndevice 6 osd.6")
    one = with_line(with_line(takes, 22, None), 21, " step take osd.5")
    two = with_line(one, 22, " step emit\n step take osd.6\n step emit")
    out = START + [(test_of(), NO_VERSION)]
    epoch = 0
    for text, rows in (
        (indep, [(dict(size=2, x=x), [3, None], [3]) for x in range(200)]),
        (hosts(), [(dict(size=2, x=x), [0], [0]) for x in range(200)]),
        (never_picked("list"), [(dict(size=32, x=x), [0], [0]) for x in range(32)]),  # all tries would take minutes
        (never_picked("tree"), [(dict(size=32, x=x), [0], [0]) for x in range(32)]),
        (marked(never_picked("straw2")), [(dict(size=32, x=x), [0], [0]) for x in range(32)]),
        (firstn_rack, [({}, [], [])]),
        (indep_rack, [({}, [None], [])]),
        (firstn_empty, [({}, [], [])]),
        (indep_empty, [({}, [None], [])]),
        (one, [({}, [5], [])]),
        (two, [({}, [5], [])]),
    ):
        epoch += 1
        out.append((import_of(text, f"m{epoch}"), imported(epoch, epoch)))
        for asked, items, trace in rows:
            out.append((test_of(**asked), tested(items, trace, epoch, epoch)))
    out += [
        (test_of(version=1, size=2), tested([3, None], [3], epoch, 1)),
        (test_of(version=0), NO_VERSION),
        (test_of(version=epoch + 1), NO_VERSION),
        (test_of(version=4294967295), NO_VERSION),
        (test_of(rule=1), NO_RULE),
        (test_of(rule=255), NO_RULE),
        (test_of(rule=256), BAD),
        (test_of(size=0), BAD),
        (test_of(size=33), BAD),
        (test_of(size=32, version=1), tested([3, None], [3], epoch, 1)),
        (test_of(x=4294967295, version=1, size=2), tested([3, None], [3], epoch, 1)),
        (test_of(x=4294967296), BAD),
        (test_of(version=None), BAD),
        (test_of(version=-1), BAD),
        (test_of(version=4294967297), BAD),
        (test_of(rule=4294967296), BAD),
        (test_of(size=4294967297), BAD),
        (test_of(more=0), BAD),
        (b'POST /t/a/test {"rule":0,"size":1}', BAD),
        (b"GET /t/a/test", METHOD),
        (b"POST /t/b/test {}", BAD),
        (b'POST /t/b/test {"rule":0,"size":1,"x":0}', NO_TENANT),
    ]
    return out


def tenants_apart():
    """Another tenant's versions, receipts and limits are its own, and what is dropped is gone."""
    return START + [
        (import_of(tiny(), "m1"), imported(1, 1)),
        (of_b(import_of(tiny(), "m1")), NO_TENANT),
        (b"PUT /t/b", made(b"b")),
        (of_b(test_of()), NO_VERSION),
        (b"GET /t/b/maps/1", NO_VERSION),
        (b"GET /t/b", summary(0, 0, tenant="b")),
        (of_b(import_of(tiny(7), "m1")), imported(1, 1)),  # a's receipt says nothing of b
        (import_of(tiny(7), "m1"), REUSED),
        (of_b(import_of(tiny(7), "m1")), imported(1, 1)),
        (of_b(import_of(tiny(), "m1")), REUSED),
        (import_of(tiny(9), "m2"), imported(2, 2)),
        (test_of(), tested([9], [9], 2, 2)),
        (test_of(version=1), tested([0], [0], 2, 1)),
        (of_b(test_of()), tested([7], [7], 1, 1)),
        (of_b(test_of(version=2)), NO_VERSION),
        (b"GET /t/a/maps/1", version_of(canonical_tiny(), 1)),
        (b"GET /t/b/maps/1", version_of(canonical_tiny(7), 1)),
        (b"DELETE /t/a", dropped(b"a")),
        (import_of(tiny(), "m1"), NO_TENANT),  # nor is the reply of a receipt given again
        (test_of(version=1), NO_TENANT),
        (b"GET /t/a/maps/1", NO_TENANT),
        (b"GET /t/b", summary(1, 1, tenant="b")),
        (of_b(test_of()), tested([7], [7], 1, 1)),
        (b"PUT /t/a", made(b"a")),
        (b"GET /t/a/maps/1", NO_VERSION),
        (test_of(), NO_VERSION),
        (import_of(tiny(3), "m1"), imported(1, 1)),
        (test_of(), tested([3], [3], 1, 1)),
    ]


def repeats():
    """A repeat has the reply of the first time, whatever came in between; what is compared are
    bytes."""
    one, other = import_of(tiny(), "m1"), import_of(tiny(5), "m2")
    turned = post("maps", {"text": tiny(), "request": "m1"})  # the same keys and values in another order
    escaped = one.replace(b'"m1"', b'"\\u006d1"')  # the same request number, written otherwise
    return START + [
        (one, imported(1, 1)),
        (other, imported(2, 2)),
        (one, imported(1, 1)),
        (b"GET /t/a", summary(2, 2)),
        (turned, REUSED),
        (escaped, REUSED),
        (other, imported(2, 2)),
        (import_of(with_line(tiny(), 13, " alg straw2"), "m2"), REUSED),  # before the text is read
        (import_of(with_line(tiny(), 13, " alg straw2"), "m3"), refused("X2", 13)),
        (import_of(with_line(tiny(), 13, " alg straw2"), "m3"), refused("X2", 13)),
        (import_of(tiny(6), "m3"), imported(3, 3)),
        (import_of(tiny(6), "M3"), imported(4, 4)),  # numbers differ in case
        (import_of(tiny(6), "m3 "), imported(5, 5)),  # a number is any text
        (import_of(tiny(6), "\u00e9" * 32), imported(6, 6)),  # 64 bytes
        (import_of(tiny(6), "\u00e9" * 33), BAD),
        (test_of(version=3), tested([6], [6], 6, 3)),
        (import_of(tiny(6), "\u00e9" * 32), imported(6, 6)),
        (b"PUT /t/a", EXISTS),
        (b"GET /t/a", summary(6, 6)),
        (import_of(tiny(6), "\0"), imported(7, 7)),  # a NUL is a byte as any other
        (import_of(tiny(6), "\0"), imported(7, 7)),
        (import_of(tiny(7), "\0"), REUSED),
        (import_of(tiny(6), "\0\0"), imported(8, 8)),
        (import_of(tiny(6), "m1\0"), imported(9, 9)),
        (import_of(tiny(6), "\0"), imported(7, 7)),
        (import_of(tiny(6), ""), BAD),
        (b"GET /t/a", summary(9, 9)),
    ]


def canonical_texts():
    """A text as crushtool writes it, without what canonical texts drop; weights are rounded down to
    65536ths, and written rounded up."""
    jewel = (HERE / "cases" / "jewel.map").read_text()
    dropped_lines = (
        "tunable straw_calc_version",
        "tunable allowed_bucket_algs",
        "\tid -4 class",
        "\t# weight",
        "\tmin_size",
        "\tmax_size",
    )
    kept = [it for it in jewel.split("\n") if not it.startswith(dropped_lines)]
    kept = [it if it.startswith("#") else it.split("#")[0].rstrip() for it in kept]
    canonical = "\n".join(kept).replace(" class ssd", "").replace("weight 1.000", "weight 1.00000")
    tenth = tiny().replace("weight 1.0", "weight 0.1")
    return START + [
        (import_of(jewel), imported(1, 1)),
        (b"GET /t/a/maps/1", version_of(canonical, 1)),
        (import_of(canonical, "m2"), imported(2, 2)),  # a canonical text is its own
        (b"GET /t/a/maps/2", version_of(canonical, 2)),
        (import_of(tenth, "m3"), imported(3, 3)),
        (b"GET /t/a/maps/3", version_of(canonical_tiny().replace("1.00000", "0.10000"), 3)),
        (import_of(tiny().replace("\n", "\r\n"), "m4"), imported(4, 4)),
        (b"GET /t/a/maps/4", version_of(canonical_tiny(), 4)),
    ]


def legacy_text(buckets="", rules=""):
    """The canonical text of a map that names the local tunables alone, and has two types, three
    devices and these buckets and rules."""
    return f"""# begin crush map
tunable choose_local_tries 0
tunable choose_local_fallback_tries 0
tunable choose_total_tries 19
tunable chooseleaf_descend_once 0
tunable chooseleaf_vary_r 0
tunable chooseleaf_stable 0

# devices
device 0 a
device 1 b
device 2 c

# types
type 0 osd
type 1 host

# buckets
{buckets}
# rules
{rules}
# end crush map
"""


def legacy_bucket(*items, name="h", number=-1, alg="list"):
    """A bucket of it, whose items are given with their weights."""
    return f"host {name} {{\n\tid {number}\n\talg {alg}\n\thash 0\n" + "".join(f"\titem {it}\n" for it in items) + "}\n"


def texts_as_they_are_read():
    """Values that a text leaves out, places, and what is dropped, as the canonical text shows
    them."""
    head = (
        "tunable choose_local_tries 0 tunable choose_local_fallback_tries 0 type 0 osd type 1 host device 0 a device 1"
        " b device 2 c "
    )
    of = {it: f"{it} weight 1.00000" for it in "abc"}
    emits = "rule q {\n\tid 0\n\ttype erasure\n" + "\tstep emit\n" * 32 + "}\n"
    texts = [
        ("", legacy_text()),  # the other tunables have their legacy values
        ("host h { id -1 alg list item a item b pos 1 item c }", legacy_text(legacy_bucket(of["a"], of["b"], of["c"]))),
        ("host h { id -1 alg list item a pos 2 item b item c }", legacy_text(legacy_bucket(of["b"], of["c"], of["a"]))),
        (
            "host h { id -1 alg list item a item b pos 0 }",
            legacy_text(legacy_bucket(of["b"], of["a"])),
        ),  # also where the place is named later
        (
            "host e { id -2 alg uniform } host h { id -1 alg list item e item a }",
            legacy_text(legacy_bucket(name="e", number=-2, alg="uniform") + legacy_bucket("e weight 0.00000", of["a"])),
        ),
        ("host h { id 5 class ssd id -1 id -9999999999 class hdd alg list }", legacy_text(legacy_bucket())),
        (
            "rule q { id 0 type erasure " + "step emit " * 32 + "step set_choose_local_tries 0 }",
            legacy_text(rules=emits),
        ),
    ]
    rows = list(START)
    for number, (text, canonical) in enumerate(texts, 1):
        rows += [
            (import_of(head + text, f"m{number}"), imported(number, number)),
            (b"GET /t/a/maps/%d" % number, version_of(canonical, number)),
        ]
    return rows + [
        (
            import_of(head.replace("choose_local_tries 0", "straw_calc_version 0"), "m"),
            refused("M13", 1),
        ),  # one of the local tunables isn't named
        (import_of(head.replace("choose_local_fallback_tries 0", "straw_calc_version 0"), "m"), refused("M13", 1)),
        (import_of(head + "rule q { id 0 type erasure " + "step emit " * 33 + "}", "m"), refused("M1", 1)),
    ]


def version_limit():
    """256 versions; a repeat is answered before the limit, and the limit comes before a fault of
    the text."""
    rows = START + [(import_of(tiny(), f"m{n}"), imported(n, n)) for n in range(1, 257)]
    return rows + [
        (import_of(tiny(), "more"), LIMIT),
        (import_of("", "more"), LIMIT),
        (import_of(tiny(), "m256"), imported(256, 256)),
        (import_of(tiny(7), "m256"), REUSED),
        (b"GET /t/a", summary(256, 256)),
        (test_of(version=256), tested([0], [0], 256, 256)),
    ]


def cases():
    for make in (
        receipts,
        repeats,
        tenants_apart,
        refusals,
        rule_tests,
        canonical_texts,
        texts_as_they_are_read,
        version_limit,
    ):
        yield make.__name__, make()
    for name, pairs in straw2_cases.cases():
        yield f"straw2_{name}", pairs
