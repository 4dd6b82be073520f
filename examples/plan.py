#!/usr/bin/env python3
"""Writes requests for 'crushcalc script' from files, and the rows of a report as CSV.

usage: plan.py map PATH NUMBER <TEXT       the request that imports the text of a map
       plan.py devices PATH NUMBER <CSV    the request that changes states of devices
       plan.py upmap PATH NUMBER POOL <DUMP   the request that sets a pool's exceptions as the upmap
           items that a cluster has of it, by the JSON of 'ceph osd dump -f json'
       plan.py csv <REPLY                  the rows of a reply with usage or moves

PATH is as /t/shop/maps, /t/shop/devices/csv or /t/shop/pools/exceptions, POOL the id of a pool.

NUMBER is a request number: it has to be another one for each request of a tenant.
"""
import json
import sys

BODIES = {"map": "text", "devices": "csv"}
HEADS = (("device", "groups", "entries", "primaries", "permille"), ("group", "gained", "old", "new"))


def field(value):
    """A number, or a list of devices, in which none is '-'."""
    return " ".join("-" if it is None else str(it) for it in value) if isinstance(value, list) else str(value)


def csv_of(reply):
    """The rows of a reply 'STATUS BODY', or of its body alone."""
    report = json.loads(reply[reply.index("{") :])
    head = HEADS["moved" in report]
    return "".join(
        ",".join(it) + "\n" for it in [head, *([field(row[name]) for name in head] for row in report["rows"])]
    )


def pairs_of(dump, pool):
    """The upmap items of a pool, one after the other."""
    for it in dump["pg_upmap_items"]:
        of, group = it["pgid"].split(".")
        if of == pool:
            yield from ({"group": int(group, 16), "from": pair["from"], "to": pair["to"]} for pair in it["mappings"])


def main():
    word, *more = sys.argv[1:] or [""]
    data = sys.stdin.buffer.read().decode()
    if word in BODIES and len(more) == 2:
        print("POST", more[0], json.dumps({"request": more[1], BODIES[word]: data}))
    elif word == "upmap" and len(more) == 3:
        print(
            "POST",
            more[0],
            json.dumps({"request": more[1], "id": int(more[2]), "exceptions": [*pairs_of(json.loads(data), more[2])]}),
        )
    elif word == "csv" and not more:
        sys.stdout.write(csv_of(data))
    else:
        sys.exit(__doc__)


main()
