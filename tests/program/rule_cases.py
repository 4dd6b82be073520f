"""Rule tests whose answers are Ceph's, as crushtool of Ceph 16 gives them:

    crushtool -c MAP -o COMPILED
    crushtool -i COMPILED --test --show-mappings --rule 0 --num-rep 3 --min-x 0 --max-x 11
"""
import json

from model.messages import START, import_of, imported, test_of


def leaves(vary_r, stable, *steps):
    """Four hosts of three devices in lists, and a rule that takes a leaf of each of three."""
    tunables = {
        "choose_local_tries": 0,
        "choose_local_fallback_tries": 0,
        "choose_total_tries": 50,
        "chooseleaf_descend_once": 1,
        "chooseleaf_vary_r": vary_r,
        "chooseleaf_stable": stable,
    }
    lines = [
        *(f"tunable {name} {value}" for name, value in tunables.items()),
        *(f"device {it} osd.{it}" for it in range(12)),
        "type 0 osd",
        "type 1 host",
        "type 2 root",
    ]
    for host in range(4):
        lines += [
            f"host h{host} {{",
            f" id {-2 - host}",
            " alg list",
            " hash 0",
            *(f" item osd.{it} weight 1.0" for it in range(3 * host, 3 * host + 3)),
            "}",
        ]
    lines += [
        "root default {",
        " id -1",
        " alg list",
        " hash 0",
        *(f" item h{host} weight 3.0" for host in range(4)),
        "}",
    ]
    lines += [
        "rule all {",
        " id 0",
        " type replicated",
        " min_size 1",
        " max_size 10",
        *(f" step {it}" for it in (*steps, "take default", "chooseleaf firstn 0 type host", "emit")),
        "}",
        "",
    ]
    return "\n".join(lines)


# the answers for the inputs 0 to 11, by vary_r and by stable, which a step of the rule may say too
ANSWERS = {
    (1, 0): (
        [6, 3, 0],
        [6, 9, 4],
        [6, 10, 4],
        [3, 2, 7],
        [9, 8, 3],
        [1, 3, 8],
        [7, 11, 4],
        [8, 0, 5],
        [11, 4, 6],
        [10, 4, 6],
        [11, 5, 6],
        [0, 6, 5],
    ),
    (1, 1): (
        [6, 3, 1],
        [6, 10, 3],
        [6, 9, 4],
        [3, 2, 7],
        [9, 8, 4],
        [1, 4, 7],
        [7, 11, 4],
        [8, 2, 5],
        [11, 5, 7],
        [10, 3, 8],
        [11, 3, 6],
        [0, 7, 4],
    ),
    (0, 0): (
        [6, 3, 0],
        [6, 10, 3],
        [6, 9, 3],
        [3, 2, 7],
        [9, 8, 4],
        [1, 4, 6],
        [7, 11, 4],
        [8, 2, 3],
        [11, 3, 8],
        [10, 5, 7],
        [11, 3, 7],
        [0, 7, 4],
    ),
    (0, 1): (
        [6, 5, 1],
        [6, 11, 4],
        [6, 10, 4],
        [3, 1, 7],
        [9, 7, 3],
        [1, 5, 8],
        [7, 9, 3],
        [8, 0, 3],
        [11, 3, 8],
        [10, 4, 6],
        [11, 5, 6],
        [0, 8, 4],
    ),
}


def stable_leaves():
    """A leaf's first attempt is by how many items there are, or, where it is stable, by none: as
    the map says, or the rule."""
    rows, version = list(START), 0
    for (vary_r, stable), answers in ANSWERS.items():
        said = (
            leaves(vary_r, stable),
            leaves(vary_r, 1 - stable, f"set_chooseleaf_stable {stable}"),
            leaves(1 - vary_r, stable, f"set_chooseleaf_vary_r {vary_r}"),
        )
        for text in said:
            version += 1
            rows.append((import_of(text, f"m{version}"), imported(version, version)))
            for x, items in enumerate(answers):
                words = json.dumps(
                    {"epoch": version, "items": items, "trace": sorted(items), "version": version},
                    separators=(",", ":"),
                )
                rows.append((test_of(x, 3), b"200 " + words.encode()))
    return rows


def cases():
    yield "stable_leaves", stable_leaves()
