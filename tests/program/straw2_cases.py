"""Requests on maps of straw2 buckets, and texts that ask for them or don't, each with the reply
that the format's rules give it. Answers stand here as crushtool has them, or come from model/."""
import random

from model import choosing, map_text
from model.maps import MARK, canonical_tiny, marked, straw2_of, straw2_under, tiny, with_line
from model.messages import (
    BAD,
    NO_VERSION,
    REUSED,
    START,
    body,
    created,
    dropped,
    import_of,
    imported,
    item,
    made,
    of_b,
    pool_of,
    refused,
    summary,
    test_of,
    tested,
    version_of,
)

ONE, JEWEL = 65536, (50, 1, 1, 1)
GREATEST = 2**31 - 1  # of a weight in a straw2 bucket: "32767.99999"

STRAW2 = with_line(tiny(), 13, " alg straw2")
# first lines that ask for straw2, and some that don't
ASKING = [MARK, MARK + "\r"]
NOT_ASKING = [
    "", MARK + " ", MARK + "\t", " " + MARK, "\t" + MARK, MARK + "\r\r", MARK + "\r ", "\r" + MARK, MARK + "#",
    MARK + " # more", MARK + "\0", "#" + MARK, "#crushcalc: straw2", "#  crushcalc: straw2", "#\tcrushcalc: straw2",
    "# crushcalc:straw2", "# crushcalc: straw", "# crushcalc: straw22", "# crushcalc: straw 2", "# crushcalc straw2",
    "# Crushcalc: straw2", "# crushcalc: Straw2", "# CRUSHCALC: STRAW2", "# crushcalc: list", "# begin crush map", "#",
]  # fmt: skip


def texts():
    """Names, texts and what 'crushcalc check' says of them."""
    accepted = "ok devices 1 buckets 1 rules 1"
    no_mark, alg = "refused line 13 code X2", "refused line 14 code X2"
    yield "straw2 without the mark", STRAW2, no_mark
    yield "straw2 with the mark", marked(STRAW2), accepted
    yield "straw with the mark", marked(with_line(tiny(), 13, " alg straw")), alg
    yield "straw3 with the mark", marked(with_line(tiny(), 13, " alg straw3")), "refused line 14 code X1"
    yield "Straw2 with the mark", marked(with_line(tiny(), 13, " alg Straw2")), "refused line 14 code X1"
    for place, line in enumerate(ASKING):
        yield f"a first line that asks, {place}", f"{line}\n{STRAW2}", accepted
    for place, line in enumerate(NOT_ASKING):
        yield f"a first line that doesn't ask, {place}", f"{line}\n{STRAW2}", alg
    yield "the mark in CR LF throughout", marked(STRAW2).replace("\n", "\r\n"), accepted
    yield "the mark with LF CR", f"{MARK}\n\r{STRAW2}", accepted
    yield "the mark behind an empty line", f"\n{marked(STRAW2)}", "refused line 15 code X2"
    yield "the mark behind a remark", f"# begin crush map\n{marked(STRAW2)}", "refused line 15 code X2"
    yield "the mark at the end", f"{STRAW2}{MARK}\n", no_mark
    yield "the mark at the very end", f"{STRAW2}{MARK}", no_mark
    behind = STRAW2[STRAW2.index("\n") + 1 :]
    yield "the mark as the last words of the first line", f"tunable choose_local_tries 0 {marked(behind)}", no_mark
    yield "the mark twice", marked(marked(STRAW2)), accepted
    yield "the mark alone", MARK, "refused line 1 code M4"
    yield "the mark and a line end", MARK + "\n", "refused line 1 code M4"
    yield "the mark and CR", MARK + "\r", "refused line 1 code M4"
    yield "a part of the mark alone", MARK[:-1], "refused line 1 code M4"
    yield "a mark that hides the rest, in CR", marked(STRAW2).replace("\n", "\r"), "refused line 1 code M4"
    yield "the mark without straw2", marked(tiny()), accepted
    yield "the mark and no alg", marked("\n".join(STRAW2.split("\n")[:12]) + "\n alg"), "refused line 14 code X1"
    yield "a byte order mark before the mark", "\ufeff" + marked(STRAW2), "refused line 1 code X1"
    yield "the mark with all bytes of a text", padded(marked(STRAW2)), accepted
    yield "the mark with a byte more", padded(marked(STRAW2)) + "#", "refused line 1 code X7"
    yield "the greatest weight", straw2_of([(0, "32767.99999")]), accepted
    yield "a greater weight", straw2_of([(0, "32768.0")]), "refused line 12 code M7"
    yield "a much greater weight", straw2_of([(0, "65535.99999")]), "refused line 12 code M7"
    yield "a greater weight in a list", marked(
        with_line(with_line(tiny(), 13, " alg list"), 15, " item osd.0 weight 65535.99999")
    ), accepted
    yield "a greater weight in a second place", straw2_of([(0, "0"), (1, "32768.0")]), "refused line 13 code M7"
    yield "the greatest sum", straw2_of(
        [(0, "32767.99999"), (1, "32767.99999"), (2, "0.00003")]
    ), "ok devices 3 buckets 1 rules 1"
    yield "a greater sum", straw2_of(
        [(0, "32767.99999"), (1, "32767.99999"), (2, "0.00004")]
    ), "refused line 14 code M7"
    # a bucket that weighs too much as the item of a straw2 bucket
    under = "host h {{ id -2 alg {} item osd.0 weight {} }}\nroot default {{"
    for low, weight, answer in (
        ("list", "32767.99999", "ok devices 1 buckets 2 rules 1"),
        ("list", "32768", "refused line 13 code M7"),
        ("straw2", "32768", "refused line 12 code M7"),
    ):
        it = with_line(STRAW2, 15, " item h").replace("root default {", under.format(low, weight))
        yield f"a {low} bucket of {weight} in it", marked(it), answer


def padded(text, length=map_text.LENGTH):
    return text + "#" * (length - len(text))


def short_texts():
    """The texts that aren't at a text's limit."""
    return [it for it in texts() if len(it[1]) < 10_000]


# ---- the cases: names, and lines with their replies


def of_tests(texts, asked, start=START):
    """Imports of texts, each with tests of its rule: pairs of size and input, and of the items and
    trace."""
    rows = list(start)
    for number, (text, pairs) in enumerate(zip(texts, asked), 1):
        rows.append((import_of(text, f"m{number}"), imported(number, number)))
        for (size, x), (items, trace) in pairs:
            rows.append((test_of(x, size), tested(items, trace, number, number)))
    return rows


def firsts(answers):
    """Tests of size 1, each with the item that is known."""
    return [((1, x), ([it], [it])) for x, it in enumerate(answers)]


def texts_that_ask():
    """Each text in a tenant of its own."""
    rows = []
    for _, text, answer in short_texts():
        words = answer.split()
        reply = imported(1, 1) if words[0] == "ok" else refused(words[-1], int(words[2]))
        rows += [(b"PUT /t/a", made(b"a")), (import_of(text), reply), (b"DELETE /t/a", dropped(b"a"))]
    return rows


def canonical_texts():
    """A map with straw2 buckets has the mark in its text, and no other has."""
    canonical = marked(canonical_tiny().replace("alg uniform", "alg straw2"))
    two = canonical_tiny().replace(
        "root default {", "host h {\n\tid -2\n\talg straw2\n\thash 0\n\titem osd.0 weight 1.00000\n}\nroot default {"
    )
    both = marked(two.replace("alg uniform", "alg list"))
    return START + [
        (import_of(marked(STRAW2)), imported(1, 1)),
        (b"GET /t/a/maps/1", version_of(canonical, 1)),
        (import_of(canonical, "m2"), imported(2, 2)),
        (b"GET /t/a/maps/2", version_of(canonical, 2)),
        (import_of(canonical.split("\n", 1)[1], "m3"), refused("X2", 20)),
        (import_of(marked(tiny()), "m3"), imported(3, 3)),
        (b"GET /t/a/maps/3", version_of(canonical_tiny(), 3)),
        (import_of(marked(STRAW2).replace("\n", "\r\n"), "m4"), imported(4, 4)),
        (b"GET /t/a/maps/4", version_of(canonical, 4)),
        (import_of(marked(marked(STRAW2)), "m5"), imported(5, 5)),
        (b"GET /t/a/maps/5", version_of(canonical, 5)),
        (import_of(both, "m6"), imported(6, 6)),
        (b"GET /t/a/maps/6", version_of(both, 6)),
    ]


def texts_apart():
    """The mark of one text says nothing of the next, of the same tenant or of another."""
    return START + [
        (b"PUT /t/b", made(b"b")),
        (import_of(marked(STRAW2)), imported(1, 1)),
        (import_of(STRAW2, "m2"), refused("X2", 13)),
        (of_b(import_of(STRAW2)), refused("X2", 13)),
        (of_b(import_of(marked(STRAW2))), imported(1, 1)),
        (of_b(import_of(STRAW2, "m2")), refused("X2", 13)),
        (import_of(marked(STRAW2), "m2"), imported(2, 2)),
        (import_of(STRAW2), REUSED),  # the number's text had the mark
        (import_of(tiny(), "m3"), imported(3, 3)),
        (import_of(STRAW2, "m4"), refused("X2", 13)),
        (b"DELETE /t/a", dropped(b"a")),
        (b"PUT /t/a", made(b"a")),
        (import_of(STRAW2), refused("X2", 13)),
        (import_of(marked(STRAW2)), imported(1, 1)),
        (b"GET /t/a/maps/2", NO_VERSION),
        (b"GET /t/b", summary(1, 1, tenant="b")),
        (test_of(), tested([0], [0], 1, 1)),
        (of_b(test_of()), tested([0], [0], 1, 1)),
    ]


def picks_by_request():
    """No request asks for a pick of straw2, whatever a tenant has."""
    asked = b"POST /t/a/pick " + body([(0, ONE)], "straw2")
    return START + [
        (asked, BAD),
        (import_of(marked(STRAW2)), imported(1, 1)),
        (asked, BAD),
        (asked.replace(b"straw2", b"straw"), BAD),
        (asked.replace(b"straw2", b"# crushcalc: straw2"), BAD),
        (asked.replace(b"straw2", b"list"), item(0)),
        (b"GET /t/a", summary(1, 1)),
    ]


def worked_rows():
    """What crushtool answers too: three devices of 1.0, by two ids of the bucket, and with 2.0 for
    the second; none that weighs something, and one that does; the two greatest draws; two lacks
    that are equal; the greatest weights."""
    even, raised = straw2_of([(it, "1.0") for it in range(3)]), straw2_of([(0, "1.0"), (1, "2.0"), (2, "1.0")])
    first = firsts((0, 0, 1, 0, 1, 0, 2, 1, 2, 2, 0, 0, 0, 0, 1, 1))
    second = firsts((0, 0, 1, 0, 1, 1, 2, 1, 2, 2, 0, 1, 1, 0, 1, 1))
    second += [((3, x), (items, [0, 1, 2])) for x, items in enumerate(([0, 1, 2], [0, 1, 2], [1, 0, 2], [0, 1, 2]))]
    nothing = straw2_of([(it, "0") for it in range(3)])
    little = straw2_of([(0, "0"), (1, "0"), (2, "0.00002")])
    last = straw2_of([(55160, "1.0"), (64590, "1.0")])
    ties, others = (straw2_under([(0, it), (1, it)]) for it in ("20000.0", "32767.99999"))
    rows = of_tests(
        [even, with_line(even, 15, " id -77"), raised, nothing, little, last, ties, others],
        [first, first, second, firsts((0, 0, 0)), firsts((2, 2, 2)), [((1, 1), ([64590], [64590]))],
         [((1, 40602), ([0], [0]))], firsts((1, 0, 0, 1))],
    )  # fmt: skip
    return rows + [
        (import_of(straw2_under([(0, "32768.0"), (1, "32768.0")]), "m9"), refused("M7", 25)),
        (b"GET /t/a", summary(8, 8)),
    ]


def answers_of(items, asked):
    """What the rule of straw2_of answers to pairs of size and input."""
    picks = choosing.Picks([(-1, 10, "straw2", tuple(items))])
    return [
        ((size, x), choosing.run_rule(picks, JEWEL, ("take -1", "choose firstn 0 0", "emit"), (), x, size))
        for size, x in asked
    ]


def of_weights(maps):
    """Maps of one bucket, by items with their weights and pairs of size and input."""
    texts = [straw2_of([(it, map_text.weight_text(weight).decode()) for it, weight in items]) for items, _ in maps]
    return of_tests(texts, [answers_of(*it) for it in maps])


def sizes():
    """Buckets of 1 to 40 items: of one weight, and with a last item that is nearly always
    picked."""
    asked = [(1, x) for x in range(12)]
    even = [([(it, ONE) for it in range(size)], [*asked, (min(size, 5), 5)]) for size in range(1, 41)]
    last = [([*((it, ONE) for it in range(size)), (size, 64 * size * ONE)], asked) for size in range(40)]
    return of_weights(even + last)


def mixed_weights():
    """Weights of all sizes, of which some are 0, and ids up to the greatest."""
    drawn, maps = random.Random(4), []
    for size in (2, 3, 5, 8, 12, 17, 33, 100):
        ids = drawn.sample(range(65536), size)
        for of in ((0, ONE), (ONE, 2 * ONE, 4 * ONE), (0, 1, 3, ONE // 3), (ONE * 400, ONE * 600), range(1, 16 * ONE)):
            maps.append(
                (
                    [(it, drawn.choice(of)) for it in ids],
                    [(1, x) for x in range(10)] + [(4, 2**32 - 1 - x) for x in range(2)],
                )
            )
    return of_weights(maps)


TWELVE = [(it, ONE * (1 + it % 4)) for it in range(12)]


def equal_lacks():
    """Inputs at which the least lack is that of two items: the first of them is picked. The items
    weigh little, so that their draws give equal logarithms, or much, so that quotients are equal
    too."""
    return of_weights(
        [
            ([(it, ONE) for it in range(12)], [(1, x) for x in (6816, 9502, 11272, 11311, 11504)]),
            (TWELVE, [(1, x) for x in (9502, 11272, 11504)]),
            ([(0, ONE), (1, ONE)], [(1, 10841)]),
            ([(it, 900 * ONE) for it in range(4)], [(1, x) for x in (6816, 28544, 28583, 29075)]),
            ([(7, GREATEST), (3, GREATEST)], [(1, x) for x in (1274, 25461)]),
        ]
    )


def great_weights():
    """Weights by which different logarithms give equal lacks: the first is picked at each input
    that isn't small, though another's logarithm is greater. And weights at both sides of 2^30."""
    few = [(1, x) for x in range(20)]
    return of_weights(
        [
            ([(0, 20_000 * ONE), (1, 20_000 * ONE)], [(1, x) for x in (112120, 194861, 245824, 249100, 255026)]),
            ([(0, GREATEST), (1, 20_000 * ONE)], few + [(1, x) for x in (24050, 65095, 71452, 100710, 186536)]),
            ([(5, 30_000 * ONE), (4, 10_000 * ONE)], few + [(1, x) for x in (217198, 243222, 380301, 526588, 618108)]),
            ([(0, 2**30), (1, 2**30 - 1), (2, 2**30 + 1)], few),
            ([(0, 2**30 + 1), (1, ONE)], few),
            ([(0, GREATEST), (1, GREATEST), (2, 1)], few),
            # the second's lack needs no rounding: rounded up it would be the less
            ([(0, 2126115091), (1, 2126115091)], [(1, 112120)]),
        ]
    )


def tables_as_they_are():
    """Inputs at which the rests' logarithms by their formula would pick another item."""
    return of_weights([(TWELVE, [(1, x) for x in (360, 19093, 31766)])])


def placements():
    """A pool over a map of straw2 buckets."""
    text = straw2_of([(it, "1.0") for it in range(3)])
    return START + [
        (import_of(text), imported(1, 1)),
        (pool_of("p1", size=2), created(2)),
        (import_of(STRAW2, "m2"), refused("X2", 13)),
        (import_of(marked(STRAW2), "m2"), imported(3, 2)),
        (test_of(version=1, x=2), tested([1], [1], 3, 1)),
    ]


def cases():
    for make in (
        texts_that_ask,
        canonical_texts,
        texts_apart,
        picks_by_request,
        worked_rows,
        sizes,
        mixed_weights,
        equal_lacks,
        great_weights,
        tables_as_they_are,
        placements,
    ):
        yield make.__name__, make()
