#!/usr/bin/env python3
"""Writes schema_1.db anew: a file of schema 1, which a later program has to take over.

usage: tests/files/data/schema_1.py PROGRAM      PROGRAM is a crushcalc that still makes schema 1,
    such as one built at commit 5ac55101

Its tenants: a has maps of two versions, states of devices, pools of both kinds of which one was
removed, and their receipts; b has a map and its receipt; c has no row but its own; d was dropped.
The requests are in schema_1.script beside it, and their replies in schema_1.replies.
"""
import pathlib
import subprocess
import sys

sys.dont_write_bytecode = True
HERE = pathlib.Path(__file__).resolve().parent
sys.path.insert(0, str(HERE.parent.parent))
from model import maps, messages  # noqa: E402


def lines():
    own = [b"PUT /t/a", messages.import_of(maps.tiny(0), "m1"), messages.import_of(maps.tiny(1), "m2")]
    own += [messages.devices_of("d1", messages.state(1, reweight=40000, up=False)), messages.pool_of("p1")]
    own += [messages.pool_of("p2", id=2, name="q", kind="erasure"), messages.pool_of("p3", id=3, name="r")]
    own += [b'POST /t/a/pools/remove {"id":3,"request":"r1"}']
    rest = [b"PUT /t/b", messages.of_b(messages.import_of(maps.tiny(2), "m1"))]
    return own + rest + [b"PUT /t/c", b"PUT /t/d", b"DELETE /t/d"]


def main():
    db = HERE / "schema_1.db"
    for it in (db, db.with_name("schema_1.db-wal")):
        it.unlink(missing_ok=True)
    script = b"".join(it + b"\n" for it in lines())
    ran = subprocess.run([sys.argv[1], "script", "--db", str(db)], input=script, stdout=subprocess.PIPE, check=True)
    db.with_name("schema_1.db-wal").unlink(missing_ok=True)
    (HERE / "schema_1.script").write_bytes(script)
    (HERE / "schema_1.replies").write_bytes(ran.stdout)
    print(f"{db.stat().st_size} bytes")


if __name__ == "__main__":
    main()
