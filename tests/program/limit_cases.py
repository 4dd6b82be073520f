"""Each limit of the design as the number that it is there, by requests at it and past it. Other
tests, the pages and the sources name limits too; here they are from nowhere else."""
from model.maps import tiny, with_devices, with_line
from model.messages import (
    BAD,
    EXISTS,
    NO_DEVICE,
    NO_RULE,
    NO_VERSION,
    START,
    accepted,
    created,
    csv_of,
    devices_of,
    excepted,
    exceptions_of,
    import_of,
    imported,
    item,
    lines_of,
    object_of,
    pool_of,
    post,
    refused,
    removal_of,
    removed,
    state,
    test_of,
)

LOCAL = "tunable choose_local_tries 0\ntunable choose_local_fallback_tries 0\n"
TYPES = LOCAL + "type 0 osd\ntype 1 host\n"  # four lines


def line_of(number, said):
    return with_line(tiny(), number, said)


def step_of(said):
    return line_of(21, f" step {said}")


def many(count, line):
    return "".join(line.format(it=it, more=it + 1) + "\n" for it in range(count))


# what it is; a text at the limit, and one past it with the code and the line of its fault
TEXTS = (
    ("bytes of a text", tiny() + "#" * (4_194_304 - len(tiny())), tiny() + "#" * (4_194_305 - len(tiny())), "X7", 1),
    ("devices", TYPES + many(10_000, "device {it} d{it}"), TYPES + many(10_001, "device {it} d{it}"), "M1", 10_005),
    ("a device's id", TYPES + "device 65535 d\n", TYPES + "device 65536 d\n", "M12", 5),
    (
        "buckets",
        TYPES + many(1_024, "host h{it} {{ id -{more} alg list }}"),
        TYPES + many(1_025, "host h{it} {{ id -{more} alg list }}"),
        "M1",
        1_029,
    ),
    ("a bucket's least id", line_of(12, " id -65536"), line_of(12, " id -65537"), "M12", 11),
    ("a bucket's greatest id", line_of(12, " id -1"), line_of(12, " id 0"), "M12", 11),
    (
        "items of a bucket",
        *(
            TYPES + many(4_097, "device {it} d{it}") + "host h { id -1 alg list " + many(count, "item d{it}") + "}"
            for count in (4_096, 4_097)
        ),
        "M1",
        4_102,
    ),
    (
        "a sum of weights",
        line_of(15, " item osd.0 weight 65535.99999"),
        line_of(15, " item osd.0 weight 65536.0"),
        "X6",
        15,
    ),
    ("types", LOCAL + many(32, "type {it} t{it}"), LOCAL + many(33, "type {it} t{it}"), "M1", 35),
    ("a type's number", TYPES + "type 65535 t\n", TYPES + "type 65536 t\n", "M12", 5),
    (
        "rules",
        TYPES + many(64, "rule r{it} {{ id {it} type replicated step emit }}"),
        TYPES + many(65, "rule r{it} {{ id {it} type replicated step emit }}"),
        "M1",
        69,
    ),
    ("a rule's id", line_of(18, " id 255"), line_of(18, " id 256"), "M12", 17),
    (
        "steps of a rule",
        *(TYPES + "rule r { id 0 type replicated " + "step emit " * count + "}" for count in (32, 33)),
        "M1",
        5,
    ),
    ("a count", step_of("choose firstn 64 type osd"), step_of("choose firstn 65 type osd"), "M12", 17),
    ("a count below 0", step_of("choose firstn -64 type osd"), step_of("choose firstn -65 type osd"), "M12", 17),
    (
        "total tries",
        line_of(3, "tunable choose_total_tries 999"),
        line_of(3, "tunable choose_total_tries 1000"),
        "M12",
        3,
    ),
    (
        "descend once",
        line_of(4, "tunable chooseleaf_descend_once 1"),
        line_of(4, "tunable chooseleaf_descend_once 2"),
        "M12",
        4,
    ),
    ("vary_r", line_of(5, "tunable chooseleaf_vary_r 8"), line_of(5, "tunable chooseleaf_vary_r 9"), "M12", 5),
    ("stable", line_of(6, "tunable chooseleaf_stable 1"), line_of(6, "tunable chooseleaf_stable 2"), "M12", 6),
    *(
        (word, step_of(f"{word} {most}"), step_of(f"{word} {most + 1}"), "M12", 17)
        for word, most in (
            ("set_choose_tries", 1_000),
            ("set_chooseleaf_tries", 1_000),
            ("set_chooseleaf_vary_r", 8),
            ("set_chooseleaf_stable", 1),
        )
    ),
    ("a name", TYPES + f"type 2 {'n' * 64}\n", TYPES + f"type 2 {'n' * 65}\n", "M15", 5),
    # what no type may be named
    *(
        (f"a type named {word}", TYPES + f"type 2 {word}s\n", TYPES + f"type 2 {word}\n", "M15", 5)
        for word in ("tunable", "device", "type", "rule", "choose_args", "class")
    ),
)


def of_texts():
    """A text at each limit is imported, and one past it is refused for that."""
    rows, epoch = list(START), 0
    for name, within, past, fault, line in TEXTS:
        epoch += 1
        rows += [(import_of(past, name), refused(fault, line)), (import_of(within, name), imported(epoch, epoch))]
    return rows


def of_requests():
    """Numbers of requests, and how many of something they may have."""
    every = [state(it, up=True) for it in range(1_025)]
    rows = START + [(import_of(with_devices(1_025), "m"), imported(1, 1))]
    epoch = 1

    def add(reply, *lines):
        nonlocal epoch
        epoch += 1
        rows.extend([*lines[1:], (lines[0], reply(epoch))])

    add(
        lambda it: imported(it, 2),
        import_of(with_devices(1_025), "n" * 64),
        (import_of(tiny(), "n" * 65), BAD),
        (import_of(tiny(), ""), BAD),
    )
    add(
        lambda it: accepted(1_024, it),
        devices_of("d", *every[:1_024]),
        (devices_of("d", *every), BAD),
        (devices_of("d"), BAD),
    )
    add(
        lambda it: accepted(1_024, it),
        csv_of("c", lines_of(*(f"{it},65536,1" for it in range(1_024)))),
        (csv_of("c", lines_of(*(f"{it},65536,1" for it in range(1_025)))), BAD),
    )
    add(
        lambda it: accepted(1, it),
        devices_of("r", state(0, reweight=65_536)),
        (devices_of("r", state(0, reweight=65_537)), BAD),
        (devices_of("r", state(0, reweight=-1)), BAD),
    )
    add(
        lambda it: accepted(1, it),
        devices_of("i", state(1_024, up=True)),
        (devices_of("i", state(1_025, up=True)), NO_DEVICE),
    )
    wide = dict(pg_num=65_536, pgp_num=65_536)
    add(
        lambda it: created(it, 2_147_483_647),
        pool_of("p1", **{**wide, "id": 2_147_483_647}),
        (pool_of("p1", **{**wide, "id": 2_147_483_648}), BAD),
        (pool_of("p1", id=0), BAD),
    )
    add(
        lambda it: created(it, 1),
        pool_of("p2", name="q" * 64, **wide),
        *(
            (pool_of("p2", **{**wide, "name": "q", **wrong}), BAD)
            for wrong in (
                {"pg_num": 65_537},
                {"pgp_num": 65_537},
                {"pgp_num": 65_535, "pg_num": 65_534},
                {"pgp_num": 0},
                {"pg_num": 0, "pgp_num": 0},
                {"name": "q" * 65},
                {"name": ""},
            )
        ),
    )
    add(
        lambda it: created(it, 2),
        pool_of("p3", id=2, name="r", size=32),
        (pool_of("p3", id=2, name="r", size=33), BAD),
        (pool_of("p3", id=2, name="r", size=0), BAD),
    )
    pairs = [(it % 65_536, 0, 1) for it in range(1_025)]
    add(
        lambda it: excepted(it, 1_024),
        exceptions_of("x", *pairs[:1_024]),
        (exceptions_of("x", *pairs), BAD),
        (exceptions_of("x", (65_536, 0, 1)), BAD),
        (exceptions_of("x", (0, 65_536, 1)), BAD),
    )
    rows += [
        (pool_of("p4", id=3, name="s", rule=255), NO_RULE),
        (pool_of("p4", id=3, name="s", rule=256), BAD),
        (pool_of("p4", id=3, name="r"), EXISTS),
        (test_of(rule=255), NO_RULE),
        (test_of(rule=256), BAD),
        (test_of(version=4_294_967_295), NO_VERSION),
        (test_of(version=4_294_967_296), BAD),
        (test_of(size=33), BAD),
        (test_of(size=0), BAD),
        (test_of(x=4_294_967_296), BAD),
        (object_of("o" * 1_025), BAD),
    ]
    for number in (2_147_483_647, 1, 2):
        add(lambda it: removed(it, number), removal_of(f"e{number}", number))
    return rows


def pick_of(items, bucket=-1, x=0, r=0, kind="list"):
    return post(
        "pick",
        {
            "bucket": {"id": bucket, "items": [{"item": it, "weight": weight} for it, weight in items], "kind": kind},
            "r": r,
            "x": x,
        },
    )


def of_picks():
    """The numbers of a pick; a bucket of one item gives that."""
    one = [(7, 65_536)]
    first = lambda count: [(it, 0) for it in range(count)]
    good = [
        (one, {}),
        (one, {"bucket": -65_536}),
        (one, {"x": 4_294_967_295}),
        (one, {"r": 2_147_483_647}),
        ([(65_535, 1)], {}),
        ([(-65_536, 1)], {}),
        ([(7, 4_294_967_295)], {}),
        (first(4_096), {}),
    ]
    wrong = [
        (one, {"bucket": -65_537}),
        (one, {"bucket": 0}),
        (one, {"x": 4_294_967_296}),
        (one, {"r": 2_147_483_648}),
        ([(65_536, 1)], {}),
        ([(-65_537, 1)], {}),
        ([(7, 4_294_967_296)], {}),
        ([(7, 4_294_967_295), (8, 1)], {}),
        (first(4_097), {}),
        ([], {}),
        (one, {"kind": "straw2"}),
    ]
    return (
        START
        + [(pick_of(items, **more), item(items[0][0])) for items, more in good]
        + [(pick_of(items, **more), BAD) for items, more in wrong]
    )


def cases():
    yield "texts", of_texts()
    yield "requests", of_requests()
    yield "picks", of_picks()
