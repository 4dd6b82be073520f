"""Requests and the replies that the format's rules give them, and the run that is stored with the
program."""
import json
import pathlib

from model import crush

HERE = pathlib.Path(__file__).resolve().parent

BAD = b'400 {"error":"bad_request"}'
NO_PATH = b'404 {"error":"no_path"}'
NO_TENANT = b'404 {"error":"no_tenant"}'
METHOD = b'405 {"error":"method"}'
EXISTS = b'409 {"error":"exists"}'
TOO_LARGE = b'413 {"error":"too_large"}'
NO_MEMORY = b'503 {"error":"no_memory"}'
NO_VERSION = b'404 {"error":"no_version"}'
NO_RULE = b'404 {"error":"no_rule"}'
REUSED = b'409 {"error":"request_reused"}'
LIMIT = b'429 {"error":"tenant_limit"}'
NO_POOL = b'404 {"error":"no_pool"}'
NO_GROUP = b'404 {"error":"no_group"}'
NO_DEVICE = b'404 {"error":"no_device"}'
IN_USE = b'409 {"error":"rule_in_use"}'
POOL = {"id": 1, "name": "p", "kind": "replicated", "size": 1, "rule": 0, "pg_num": 8, "pgp_num": 8, "hashpspool": True}
SEED = 91478055  # hash2(0, 1): group 0 of pool 1
TWO = dict(pg_num=2, pgp_num=2)  # groups of a pool


def made(tenant):
    return b'201 {"epoch":0,"tenant":"%s"}' % tenant


def there(tenant):
    return b'200 {"devices":0,"epoch":0,"pools":0,"tenant":"%s","versions":0}' % tenant


def dropped(tenant):
    return b'200 {"dropped":"%s"}' % tenant


def item(number):
    return b'200 {"item":%d}' % number


def body(entries, kind="list", bucket=-1, x=0, r=0):
    items = [{"item": it, "weight": weight} for it, weight in entries]
    return json.dumps(
        {"bucket": {"id": bucket, "items": items, "kind": kind}, "r": r, "x": x}, separators=(",", ":")
    ).encode()


def pool_row(it, pairs):
    """The row of a pool in the tables, behind its tenant's number."""
    erasure, hashes = int(it["kind"] == "erasure"), int(it["hashpspool"])
    return it["id"], it["name"], erasure, it["size"], it["rule"], it["pg_num"], it["pgp_num"], hashes, len(pairs)


def stored_run():
    """The program's own run, which rt ci compares too."""
    return tuple((HERE.parent.parent / "crates" / "crushcalc" / name).read_bytes() for name in ("stdin", "stdout"))


def short(text):
    return repr(text if len(text) <= 200 else text[:200] + b"..")


def post(path, members):
    return b"POST /t/a/%s %s" % (path.encode(), json.dumps(members, separators=(",", ":"), ensure_ascii=False).encode())


def import_of(text, request="m1"):
    return post("maps", {"request": request, "text": text})


def imported(epoch, version):
    return b'201 {"epoch":%d,"version":%d}' % (epoch, version)


def refused(fault, line):
    return b'422 {"error":"map_refused","fault":"%s","line":%d}' % (fault.encode(), line)


def test_of(x=0, size=1, rule=0, **more):
    return post("test", {"rule": rule, "size": size, "x": x, **more})


def tested(items, trace, epoch=1, version=1):
    words = json.dumps({"epoch": epoch, "items": items, "trace": trace, "version": version}, separators=(",", ":"))
    return b"200 " + words.encode()


def of_b(line):
    """The same request of the tenant b."""
    return line.replace(b"/t/a", b"/t/b", 1)


def version_of(text, number):
    return b'200 {"text":%s,"version":%d}' % (json.dumps(text).encode(), number)


def words(status, members):
    return b"%d %s" % (status, json.dumps(members, separators=(",", ":"), sort_keys=True).encode())


def devices_of(request, *entries):
    return post("devices", {"request": request, "devices": list(entries)})


def state(device, **more):
    return {"id": device, **more}


def accepted(entries, epoch):
    return words(200, {"devices": entries, "epoch": epoch})


def pool_of(request, **members):
    return post("pools", {"request": request, **POOL, **members})


def created(epoch, pool=1):
    return words(201, {"epoch": epoch, "pool": pool})


def removal_of(request, pool=1):
    return post("pools/remove", {"request": request, "id": pool})


def removed(epoch, pool=1):
    return words(200, {"epoch": epoch, "removed": pool})


def group_of(group, pool=1):
    return b"GET /t/a/pools/%d/groups/%d" % (pool, group)


def object_of(name, pool=1):
    return post(f"pools/{pool}/locate", {"name": name})


def lies(epoch, group, seed, up, raw=None, version=1, **more):
    """The reply on a group; raw is up where it isn't given."""
    primary = next((it for it in up if it is not None), None)
    return words(
        200,
        {
            "epoch": epoch,
            "group": group,
            "primary": primary,
            "raw": up if raw is None else raw,
            "seed": seed,
            "up": up,
            "version": version,
            **more,
        },
    )


def summary(epoch, versions, devices=0, pools=0, tenant="a"):
    return words(200, {"devices": devices, "epoch": epoch, "pools": pools, "tenant": tenant, "versions": versions})


def usage_of(pool=1):
    return b"GET /t/a/pools/%d/usage" % pool


def moves_of(first, second, pool=1):
    return b"GET /t/a/pools/%d/moves/%d/%d" % (pool, first, second)


def impact_of(device, pool=1):
    return b"GET /t/a/pools/%d/impact/%d" % (pool, device)


def csv_of(request, text):
    return post("devices/csv", {"request": request, "csv": text})


def lines_of(*lines, end="\n"):
    """The CSV with these lines under its head."""
    return "".join(it + end for it in ("id,reweight,up", *lines))


def used(epoch, *rows, version=1, pool=1):
    """Each row: the device, its groups, its entries, of how many groups it is the primary, and
    permille."""
    named = [dict(zip(("device", "groups", "entries", "primaries", "permille"), it)) for it in rows]
    return words(200, {"epoch": epoch, "pool": pool, "rows": named, "version": version})


def moved(epoch, first, second, *rows, pool=1):
    """Each row: the group, how many devices it gains, the old list and the new one."""
    named = [dict(zip(("group", "gained", "old", "new"), it)) for it in rows]
    return words(
        200,
        {
            "epoch": epoch,
            "from": first,
            "gained": sum(it["gained"] for it in named),
            "moved": len(named),
            "pool": pool,
            "rows": named,
            "to": second,
        },
    )


def touched(epoch, device, groups, version=1, pool=1):
    return words(200, {"device": device, "epoch": epoch, "groups": groups, "pool": pool, "version": version})


def pairs_of(pairs):
    return [{"group": group, "from": old, "to": new} for group, old, new in pairs]


def exceptions_of(request, *pairs, pool=1):
    """Pairs: a group, and two devices."""
    return post("pools/exceptions", {"request": request, "id": pool, "exceptions": pairs_of(pairs)})


def excepted(epoch, count, pool=1):
    return words(200, {"epoch": epoch, "exceptions": count, "pool": pool})


def shown_of(pool=1):
    return b"GET /t/a/pools/%d/exceptions" % pool


def shown(epoch, *pairs, pool=1):
    return words(200, {"epoch": epoch, "exceptions": pairs_of(pairs), "pool": pool})


def seed_of(group, pool=1):
    return crush.hash2(group, pool)


START = [(b"PUT /t/a", made(b"a"))]
SECOND = dict(id=2, name="e", kind="erasure", **TWO)
