"""Bad input: each is named with its file, line, field or name, and ends with status 2, without a
Python traceback."""
import json
import os

from made import crush_dump, osd_dump, pool, text_of, write
from running import equals, wants


def usual(folder):
    return write(folder, crush_dump(), osd_dump())


def without(dump, *path):
    """A dump without a field."""
    inner = dump
    for it in path[:-1]:
        inner = inner[it]
    del inner[path[-1]]
    return dump


def changed(dump, *path):
    """A dump with another value at a path."""
    inner = dump
    for it in path[:-2]:
        inner = inner[it]
    inner[path[-2]] = path[-1]
    return dump


# files of a folder, by name, and what has to be said
FILES = (
    ("not JSON", {"crush.json": b"{\n\n oops"}, "crush.json: line 3: it isn't JSON"),
    ("an empty file", {"osd.json": b"\n"}, "osd.json: it is empty"),
    ("no UTF-8", {"osd.json": b"\xff{}"}, "osd.json: it isn't JSON: byte 0"),
    ("nested deeply", {"osd.json": b"[" * 100_000}, "osd.json: it isn't JSON"),
    ("a list", {"crush.json": b"[]"}, "crush.json isn't an object"),
    ("a number", {"osd.json": b"7"}, "osd.json isn't an object"),
    ("the wrong dump", {"crush.json": osd_dump()}, "it isn't what 'ceph osd crush dump"),
    ("the other wrong dump", {"osd.json": crush_dump()}, "it isn't what 'ceph osd dump"),
    ("a name that is a number", {"crush.json": changed(crush_dump(), "buckets", 1, "name", 7)},
     "crush.json: buckets[1]: name isn't a text"),
    ("a weight that is a text", {"crush.json": changed(crush_dump(), "buckets", 1, "items", 0, "weight", "1")},
     "crush.json: buckets[1]: items[0]: weight isn't a whole number"),
    ("a missing field", {"crush.json": without(crush_dump(), "buckets", 2, "alg")},
     "crush.json: buckets[2] has no field 'alg'"),
    ("an id that is true", {"crush.json": changed(crush_dump(), "devices", 0, "id", True)},
     "crush.json: devices[0]: id isn't a whole number"),
    ("a bucket's id above 0", {"crush.json": changed(crush_dump(), "buckets", 0, "id", 3)},
     "the id of a bucket is below 0"),
    ("a pool without a rule", {"osd.json": without(osd_dump(), "pools", 0, "crush_rule")},
     "osd.json: pools[0] has no field 'crush_rule'"),
    ("an up of 2", {"osd.json": changed(osd_dump(), "osds", 0, "up", 2)}, "osd.json: osds[0]: up is neither 0 nor 1"),
    ("a weight below 0", {"osd.json": changed(osd_dump(), "osds", 3, "weight", -0.5)},
     "osd.json: osds[3]: weight is below 0"),
    ("a weight that isn't a number", {"osd.json": changed(osd_dump(), "osds", 3, "weight", None)},
     "osd.json: osds[3]: weight isn't a number"),
    ("an id of a device that is too great", {"osd.json": changed(osd_dump(), "osds", 3, "osd", 65536)},
     "ids are 0 to 65535"),
    ("a group that is none", {"osd.json": changed(osd_dump(), "pg_upmap_items", [{"pgid": "photos", "mappings": []}])},
     "isn't the id of a group"),
    ("a dump of another cluster", {"osd.json": osd_dump(15)},
     "osd.json has devices that crush.json lacks (osd.12, osd.13, osd.14)"),
    ("bytes that are a text", {"df.json": {"pools": [{"id": 1, "stats": {"bytes_used": "1", "stored": 1}}]}},
     "df.json: pools[0]: stats: bytes_used isn't a whole number"),
    ("no stats", {"df.json": {"pools": [{"id": 1}]}}, "df.json: pools[0] has no field 'stats'"),
    ("a weight of a thousand digits",
     {"osd.json": json.dumps(osd_dump()).replace('"weight": 1.0', '"weight": 1e999999999', 1).encode()},
     "osd.json: osds[0]: weight isn't a number of at most 20 digits"),
    ("a ratio near 0", {"osd.json": json.dumps(osd_dump()).replace("0.95", "1e-999999999").encode()},
     "osd.json: full_ratio isn't a number of at most"),
    ("a ratio below 0", {"osd.json": {**osd_dump(), "nearfull_ratio": -1}}, "osd.json: nearfull_ratio is below 0"),
    ("a min_size below 0", {"osd.json": changed(osd_dump(), "pools", 0, "min_size", -2)},
     "osd.json: pools[0]: min_size is below 0"),
    ("bytes below 0", {"df.json": {"pools": [{"id": 1, "stats": {"bytes_used": -5, "stored": 1}}]}},
     "df.json: pools[0]: stats: bytes_used is below 0"),
    ("room below 0", {"osd-df.json": {"nodes": [{"id": 0, "kb": 5, "kb_used": -1}]}},
     "osd-df.json: nodes[0]: kb_used is below 0"),
    ("a CRUSH weight below 0", {"crush.json": changed(crush_dump(), "buckets", 1, "items", 0, "weight", -1)},
     "crush.json: buckets[1]: items[0]: weight is below 0"),
    ("bytes of another cluster",
     {"df.json": {"pools": [{"id": 1, "name": "mail", "stats": {"bytes_used": 5, "stored": 1}}]}},
     "df.json has pool 1 as 'mail', and osd.json as 'photos': are they of one cluster"),
    ("nodes of nothing", {"osd-df.json": {"nodes": {}}}, "osd-df.json: nodes isn't a list"),
    ("NaN", {"osd.json": json.dumps(osd_dump()).replace("0.95", "NaN").encode()},
     "osd.json: full_ratio isn't a number"),
    ("a bucket below itself", {"crush.json": changed(crush_dump(), "buckets", 1, "items", 0, "id", -1)},
     "crush.json: the bucket default is below itself (default has host0 has default)"),
    ("a bucket that isn't there", {"crush.json": changed(crush_dump(), "buckets", 0, "items", 0, "id", -77)}, ""),
)  # fmt: skip


def file(name, files, wanted):
    def case(runner, folder):
        usual(folder)
        for of, content in files.items():
            (folder / of).write_bytes(content if isinstance(content, bytes) else json.dumps(content).encode())
        if wanted:
            for words in (("drain", folder, "host1"), ("check", folder), ("usage", folder)):
                runner.refused(*words, has=wanted)
        else:
            # what it says is no fault of the files, or is named as not computed
            for words in (
                ("drain", folder, "host1"),
                ("check", folder),
                ("usage", folder),
                ("fail", folder, "--each", "host"),
            ):
                code, out, err = runner.run(*words)
                equals(f"{words}: status", code, 2)
                wants("crush" in err or "not computed" in out, f"{words} says {out[:200]!r} {err[:200]!r}")

    return f"file: {name}", case


def names(runner, folder):
    """Names that don't exist, with the nearest that does."""
    usual(folder)
    for words, wanted in (
        (("drain", folder, "hots1"), "no host, rack or device 'hots1'; the nearest is host1"),
        (("drain", folder, "osd.99"), "'osd.99'; the nearest is osd."),
        (("fail", folder, "zzz"), "no host, rack or device 'zzz'"),
        (("fail", folder, "--each", "hosts"), "no type 'hosts'; the nearest is host"),
        (("usage", folder, "--by", "rak"), "no type 'rak'; the nearest is rack"),
        (("usage", folder, "--pool", "foto"), "no pool 'foto'; the nearest is photos"),
        (("locate", folder, "photo", "a"), "no pool 'photo'; the nearest is photos"), (("drain", folder, "-1"), ""),
        (("fail", folder), "wants the names"), (("fail", folder, "host1", "--each", "host"), "either names or --each"),
        (("drain", f"{folder}x", "host1"), "there is no such folder"),
        (("drain", folder / "osd.json", "host1"), "it isn't a folder"),
        (("compare", folder, folder / "new.txt"), "No such file"), (("compare", folder, folder), "Is a directory"),
        (("upmap", folder, folder / "list"), "No such file"),
        (("fail", folder, "--each", "rack"), "no rack has devices"),
        (("locate", folder, "photos", "x" * 1025), "longer than 1024 bytes"),
        (("locate", folder), "wants a POOL with the names of objects"),
        (("locate", folder, "photos"), "wants a POOL with the names of objects"),
        (("locate", folder, "photos", "a", "--group", "1.1"), "wants a POOL with the names of objects"),
        (("locate", folder, "photos", "--group", "1.1"), "wants a POOL with the names of objects"),
        (("locate", folder, "--group", "photos.1"), "isn't the name of a group"),
        (("locate", folder, "--group", "1.0x1"), "isn't the name of a group"),
        (("locate", folder, "--group", "7.1"), "no pool '7'"),
        (("locate", folder, "--group", "1.40"), "the groups 1.0 to 1.3f, and no 1.40"),
    ):  # fmt: skip
        runner.refused(*words, has=wanted)


def empty_folder(runner, folder):
    """A folder without a map says what to do."""
    runner.refused("check", folder, has=("neither crush.json", "map.txt", "crushplan fetch"))
    os.mkdir(folder / "crush.json")
    runner.refused("check", folder, has="crush.json: Is a directory")


def texts(runner, folder):
    """A map.txt with a fault is named by its line."""
    write(folder, osd=osd_dump(), map_txt=text_of(crush_dump()).replace("item osd.4 weight", "item osd.44 weight"))
    runner.refused("drain", folder, "host1", has="map.txt: line ")
    (folder / "map.txt").write_bytes(b"\x00\xff\xfe")
    runner.refused("drain", folder, "host1", has="map.txt: line 1")
    (folder / "map.txt").write_text("")
    runner.refused("drain", folder, "host1", has="map.txt: it declares no device and no bucket")


LISTS = (
    ("ceph osd out 3\n", "line 1: it isn't 'ceph osd pg-upmap-items"),
    ("\n\nceph osd pg-upmap-items 1.x 0 3\n", "line 3: '1.x' isn't the id of a group"),
    ("ceph osd pg-upmap-items 1.1 0\n", "line 1: it wants pairs of devices, FROM TO, and has 1 device"),
    ("ceph osd pg-upmap-items 1.1\n", "has 0 devices"), ("ceph osd pg-upmap-items 7.1 0 3\n", "there is no pool 7"),
    ("ceph osd pg-upmap-items 1.40 0 3\n", "none of which is 1.40"),
    ("ceph osd pg-upmap-items 1.1 0 33\n", "there is no device osd.33"),
    ("ceph osd pg-upmap-items 1.1 0 a\n", "'a' isn't the id of a device"),
    ("ceph osd pg-upmap-items 1.1 4 4\n", "leads from a device to itself"),
    ("ceph osd pg-upmap 1.1 4 5 6\n", "line 1: it isn't"),
)  # fmt: skip


def lists(runner, folder):
    """Lists of upmap commands with a fault are named by the line."""
    usual(folder)
    for text, wanted in LISTS:
        (folder / "list").write_text(text)
        runner.refused("upmap", folder, folder / "list", has=wanted)


def programs(runner, folder):
    """The program's absence, and one that is something else."""
    usual(folder)
    empty = folder / "bin"
    empty.mkdir()
    runner.refused("check", folder, "--program", folder / "none", has="there is no program there")
    runner.refused("check", folder, "--program", folder / "osd.json", has="there is no program there")
    other = empty / "other"
    other.write_text("#!/bin/sh\necho other 1.0\n")
    other.chmod(0o755)
    runner.refused(
        "check", folder, "--program", other, has=("isn't a crushcalc that plays scripts", "its version: other 1.0")
    )
    old = empty / "old"
    old.write_text('#!/bin/sh\nwhile read -r line; do [ -z "$line" ] || echo \'404 {"error":"no_path"}\'; done\n')
    old.chmod(0o755)
    runner.refused("check", folder, "--program", old, has="it is older than crushplan")
    code, out, _ = runner.run("--version")
    wants(code == 0 and out.startswith("crushplan ") and "crushcalc 0.1.0" in out, f"--version says {out!r}")
    runner.refused("check", folder, "--service", "http://127.0.0.1:1", has="doesn't answer")
    runner.refused("check", folder, "--service", "ftp://here", has="has to be as http://")
    runner.refused("check", folder, "--service", "http://127.0.0.1:port", has="its port is none")


def arguments(runner, folder):
    """Arguments that it doesn't know."""
    usual(folder)
    for words, wanted in (
        ((), "usage: crushplan"),
        (("fly", folder), "invalid choice: 'fly'"),
        (("drain", folder), "crushplan drain wants the names of hosts, racks or devices, or --class CLASS"),
        (("usage", folder, "--size", "0"), "isn't a whole number from 1 to 65536"),
        (("usage", folder, "--pg-num", "x"), "isn't a whole number"),
    ):
        runner.refused(*words, has=wanted)


def unplaced(runner, folder):
    """Devices of osd.json that the map lacks: refused where they work, unless that is allowed; and
    devices of the map that osd.json lacks count as out and down."""
    write(folder, crush_dump(), osd_dump(14))
    runner.refused("check", folder, has="--allow-unplaced")
    said = runner.said("check", folder, "--allow-unplaced", status=0)
    wants("osd.12, osd.13" in said["warnings"][0], said["warnings"])
    write(folder, osd=osd_dump(14, weights={12: 0, 13: 0}))
    equals("devices that are out", runner.said("check", folder)["status"], 0)
    write(folder, osd=osd_dump(9))
    said = runner.said("usage", folder, status=0)
    equals("devices that osd.json lacks hold nothing", [it["copies"] for it in said["rows"]][9:], [0, 0, 0])
    wants("osd.9, osd.10, osd.11" in said["warnings"][0], said["warnings"])


def odd_upmaps(runner, folder):
    """Upmap items of groups, pools and devices that aren't there are passed over."""
    osd = osd_dump()
    osd["pg_upmap_items"] = [
        {"pgid": "1.ff", "mappings": [{"from": 0, "to": 4}]},
        {"pgid": "9.1", "mappings": [{"from": 0, "to": 4}]},
        {"pgid": "1.2", "mappings": [{"from": 0, "to": 77}, {"from": 3, "to": 3}]},
    ]
    write(folder, crush_dump(), osd)
    said = runner.said("usage", folder, status=0)
    equals("the note", [(it["kind"], it["groups"]) for it in said["notes"]], [("upmap", ["1.2"])])
    equals("copies", said["pools"][0]["copies"], 192)


def many_pools(runner, folder):
    """A tenant has 256 pools: more are named."""
    write(folder, crush_dump(), osd_dump(pools=[pool(it, f"pool{it}", pg_num=1) for it in range(1, 259)]))
    said = runner.said("check", folder, status=1)
    equals("pools", sum(it["computed"] for it in said["pools"]), 256)


def cases():
    found = [file(*it) for it in FILES]
    own = (names, empty_folder, texts, lists, programs, arguments, unplaced, odd_upmaps, many_pools)
    return [*found, *((it.__name__, it) for it in own)]
