"""OSD maps for Ceph's osdmaptool, with the pools and the states of devices that a comparison wants.

osdmaptool makes pools of one form alone (`--createsimple --with-default-pool`: replicated, size 3),
and none of its options keeps a device down or gives it a reweight. So its own map is changed here
in its encoded form (`OSDMap::encode` and `pg_pool_t::encode` of Ceph's osd/, release 16): the
pools, their names, the states and reweights of devices, and the upmap items of groups. osdmaptool
then has to read the changed map, and to say by `--dump json` that each pool, each device and each
upmap item is as it was wanted.
"""
import json
import pathlib
import re
import struct

import library

EXISTS, UP = 1, 2  # bits of a device's state
HASHPSPOOL = 1  # the bit of a pool's flags
TYPES = {"replicated": 1, "erasure": 3}
# places in the body of an encoded pool
TYPE, SIZE, RULE, PG_NUM, PGP_NUM, FLAGS, MIN_SIZE = 0, 1, 2, 4, 8, 52, 64
NONE = 2_147_483_647  # CRUSH_ITEM_NONE
UPMAP_FORM = 9  # of the section of an encoded map for clients
CRUSH_MAGIC = struct.pack("<I", 0x00010000)
LEAST_MAP = 64  # bytes of a CRUSH map


def checksums():
    """The table of Castagnoli's checksum."""
    for crc in range(256):
        for _ in range(8):
            crc = (crc >> 1) ^ (0x82F63B78 if crc & 1 else 0)
        yield crc


TABLE = list(checksums())


def checksum(data):
    """Ceph's: begun with all ones, and not inverted at the end."""
    crc = 0xFFFFFFFF
    for byte in data:
        crc = TABLE[(crc ^ byte) & 255] ^ (crc >> 8)
    return crc


def number(data, at):
    return struct.unpack_from("<I", data, at)[0]


def section_end(data, at):
    """The end of a section: two bytes of its version, its length, and so many bytes."""
    return at + 6 + number(data, at + 2)


def section(version, body):
    return version + struct.pack("<I", len(body)) + body


def of_pool(template, pool):
    """An encoded pool: the template with these parts."""
    found = bytearray(template)
    parts = (
        ("B", TYPE, TYPES[pool["kind"]]), ("B", SIZE, pool["size"]), ("B", RULE, pool["rule"]),
        ("I", PG_NUM, pool["pg_num"]), ("I", PGP_NUM, pool["pgp_num"]),
        ("Q", FLAGS, HASHPSPOOL if pool["hashpspool"] else 0), ("B", MIN_SIZE, pool.get("min_size", 1)),
    )  # fmt: skip
    for form, at, value in parts:
        struct.pack_into("<" + form, found, 6 + at, value)
    return bytes(found)


def of_pools(template, pools):
    """Encoded pools, their names, and the greatest of their ids."""
    found = struct.pack("<I", len(pools))
    for pool in pools:
        found += struct.pack("<q", pool["id"]) + of_pool(template, pool)
    found += struct.pack("<I", len(pools))
    for pool in pools:
        found += struct.pack("<qI", pool["id"], len(pool["name"])) + pool["name"].encode()
    return found + struct.pack("<i", pools[-1]["id"])


def of_states(states):
    """The encoded states of devices, and their reweights."""
    numbers = [
        len(states),
        *(EXISTS | (UP if up else 0) for _, up in states),
        len(states),
        *(reweight for reweight, _ in states),
    ]
    return struct.pack(f"<{len(numbers)}I", *numbers)


def changed(data, pools, states):
    """The encoded map of one pool with these pools, in order of id, and these states: pairs of a
    reweight, and whether the device is up."""
    if checksum(data[:-4]) != number(data, len(data) - 4):
        raise library.Failed("osdmaptool's own map has another checksum than this program finds")
    client_end = section_end(data, 6)
    body = data[12:client_end]
    first = 36  # behind the id of the cluster, the epoch, and two times
    template = body[first + 12 : section_end(body, first + 12)]
    name = first + 12 + len(template)
    flags = name + 12 + number(body, name + 12) + 4 + 4
    if number(body, first) != 1 or number(body, name) != 1 or number(body, flags + 4) != len(states):
        raise library.Failed("osdmaptool's own map hasn't one pool and the devices that were asked for")
    behind = flags + 8 + 2 * (4 + 4 * len(states))
    client = body[:first] + of_pools(template, pools) + body[flags : flags + 8] + of_states(states) + body[behind:]
    # the checksum is of the whole, its length included
    whole = section(data[:2], section(data[6:8], client) + data[client_end:])[:-4]
    return whole + struct.pack("<I", checksum(whole))


def of_upmaps(upmaps):
    """Encoded upmap items: of each group, by its pool and its number, pairs of devices."""
    found = struct.pack("<I", len(upmaps))
    for (pool, group), pairs in sorted(upmaps.items()):
        # a group's form, its pool, its number, and the device that it once could prefer
        found += struct.pack("<BQIiI", 1, pool, group, -1, len(pairs))
        found += b"".join(struct.pack("<ii", *it) for it in pairs)
    return found


def with_upmaps(data, upmaps):
    """The encoded map, which has no upmap items, with these."""
    client_end = section_end(data, 6)
    client = data[12:client_end]
    # behind the upmap items are the version of the CRUSH map, two lists of removed snapshots, and
    # two times; before them the whole lists of upmap
    place = len(client) - (4 + 4 + 4 + 8 + 8) - 4
    if data[6] != UPMAP_FORM or client[place - 4 : place + 4] != bytes(8) or client[place + 8 : place + 16] != bytes(8):
        raise library.Failed("osdmaptool's map is of another form, or has upmap items or removed snapshots")
    client = client[:place] + of_upmaps(upmaps) + client[place + 4 :]
    whole = section(data[:2], section(data[6:8], client) + data[client_end:])[:-4]
    return whole + struct.pack("<I", checksum(whole))


def with_affinities(data, affinities, devices):
    """The encoded map, which has no primary affinities, with these by device, in 65536ths."""
    client_end = section_end(data, 6)
    client = data[12:client_end]
    # before the CRUSH map, which begins with its length and a number of its own, are the lists of
    # pg_temp, of primary_temp and of affinities
    places = [
        at
        for at in range(16, len(client) - 4)
        if client[at : at + 4] == CRUSH_MAGIC
        and client[at - 16 : at - 4] == bytes(12)
        and LEAST_MAP < number(client, at - 4) <= len(client) - at
    ]
    if len(places) != 1:
        raise library.Failed("osdmaptool's map is of another form, or has affinities")
    place = places[0] - 8
    numbers = [devices, *(affinities.get(it, 65536) for it in range(devices))]
    client = client[:place] + struct.pack(f"<{len(numbers)}I", *numbers) + client[place + 4 :]
    whole = section(data[:2], section(data[6:8], client) + data[client_end:])[:-4]
    return whole + struct.pack("<I", checksum(whole))


def compiled(folder, text):
    """The file of a CRUSH map's text, compiled by crushtool."""
    path = pathlib.Path(folder) / "osdmap"
    path.with_suffix(".txt").write_text(text)
    library.run(["crushtool", "-c", path.with_suffix(".txt"), "-o", path.with_suffix(".crush")])
    return path.with_suffix(".crush")


SIMPLE = {}  # osdmaptool's own maps, by how many devices they have


def simple(path, devices):
    """Writes osdmaptool's own map of so many devices, which it makes once."""
    if devices not in SIMPLE:
        library.run(["osdmaptool", path, "--createsimple", devices, "--with-default-pool", "--clobber"])
        SIMPLE[devices] = path.read_bytes()
    path.write_bytes(SIMPLE[devices])


class OsdMap:
    """A file in a folder with the OSD map of a CRUSH map's text, or of a compiled file, of pools
    of states and of primary affinities. Without `read` it is for the caller to have it read once it
    is whole."""

    def __init__(self, folder, text, pools, states, crush=None, read=True, affinities=None):
        self.path = pathlib.Path(folder) / "osdmap"
        self.pools, self.states, self.upmaps = sorted(pools, key=lambda of: of["id"]), states, {}
        crush = crush or compiled(folder, text)
        simple(self.path, len(states))
        self.path.write_bytes(changed(self.path.read_bytes(), self.pools, states))
        library.run(["osdmaptool", self.path, "--import-crush", crush])
        self.affinities = affinities or {}
        if self.affinities:
            self.path.write_bytes(with_affinities(self.path.read_bytes(), self.affinities, len(states)))
        self.bare = self.path.read_bytes()
        if read:
            self.read()

    def set_upmaps(self, upmaps, read=True):
        """Sets the upmap items, in the place of others: of each group, by its pool and its number,
        pairs of devices."""
        self.path.write_bytes(with_upmaps(self.bare, upmaps) if upmaps else self.bare)
        self.upmaps = dict(upmaps)
        if read:
            self.read()

    def read(self):
        """What osdmaptool dumps of the map, which has to be what was wanted."""
        text = self.ask("--dump", "json")
        said = json.loads(text)
        if [
            {**self.pool_said(of), **{it: of[it] for it in ("min_size",) if it in pool}}
            for of, pool in zip(said["pools"], self.pools)
        ] != self.pools:
            raise library.Failed(f"osdmaptool reads other pools than {self.pools}")
        if [self.state_said(of) for of in said["osds"]] != [(of, *it) for of, it in enumerate(self.states)]:
            raise library.Failed(f"osdmaptool reads other states than {self.states}")
        if {
            of["osd"]: round(of["primary_affinity"] * 65536) for of in said["osds"] if of["primary_affinity"] != 1
        } != self.affinities:
            raise library.Failed(f"osdmaptool reads other affinities than {self.affinities}")
        items = {it["pgid"]: [(of["from"], of["to"]) for of in it["mappings"]] for it in said["pg_upmap_items"]}
        if items != {f"{pool}.{group:x}": list(pairs) for (pool, group), pairs in self.upmaps.items()}:
            raise library.Failed("osdmaptool reads other upmap items than were set")
        return text

    def ask(self, *words):
        return library.run(["osdmaptool", self.path, *words])[0]

    @staticmethod
    def pool_said(of):
        return {
            "id": of["pool"], "kind": {number: kind for kind, number in TYPES.items()}[of["type"]], "size": of["size"],
            "rule": of["crush_rule"], "pg_num": of["pg_num"], "pgp_num": of["pg_placement_num"],
            "hashpspool": "hashpspool" in of["flags_names"], "name": of["pool_name"],
        }  # fmt: skip

    @staticmethod
    def state_said(of):
        return of["osd"], round(of["weight"] * 65536), of["up"] == 1

    def placements(self, *options):
        """For each pool and group raw, up and the primary; None stands for none. Options change
        states of devices for this once."""
        line = re.compile(r"(\d+)\.([0-9a-f]+) raw \(\[([^]]*)\], p-?\d+\) up \(\[([^]]*)\], p(-?\d+)\) acting .*")
        found = filter(None, map(line.fullmatch, self.ask(*options, "--test-map-pgs-dump-all").splitlines()))
        return {
            (int(it[1]), int(it[2], 16)): (slots(it[3]), slots(it[4]), None if it[5] == "-1" else int(it[5]))
            for it in found
        }

    def object_lies(self, pool, name):
        """The group of the object with a name, and the devices that are up in it."""
        said = self.ask("--test-map-object", name, "--pool", pool)
        found = re.fullmatch(re.escape(f" object '{name}' -> {pool}.") + r"([0-9a-f]+) -> \[([^]]*)\]\n", said)
        if not found:
            raise library.Failed(f"osdmaptool --test-map-object: {said}")
        return int(found[1], 16), slots(found[2])


def slots(text):
    return [None if it == str(NONE) else int(it) for it in filter(None, text.split(","))]
