"""A cluster of many OSDs that are up and in, and never started: a monitor that begins with a map by
crushtool and osdmaptool, and a manager. The manager then has the map, and no report of an OSD.

osdmaptool marks OSDs up, but knows no features of theirs, without which the monitor aborts: these
are written into its file, behind which stands the file's sum.
"""
import pathlib
import struct

from managed import real

OF_HOST, OF_RACK = 10, 10
# what OSDs of release 16 say that they can: CEPH_FEATURES_ALL
FEATURES = struct.pack("<Q", 0x3F01CFBFFFFDFFFF)
# an osd_xinfo_t as osdmaptool writes it, version 4: its head, and 40 bytes, of which the 8 behind
# the first 16 are the features
HEAD, BEFORE, LENGTH = b"\x04\x01" + struct.pack("<I", 40), 16, 40
POLYNOMIAL = 0x82F63B78  # of CRC-32C, with its bits the other way round


def table():
    found = []
    for it in range(256):
        for _ in range(8):
            it = it >> 1 ^ POLYNOMIAL * (it & 1)
        found.append(it)
    return found


def summed(data):
    """Returns Ceph's sum of some bytes."""
    own, at = table(), 0xFFFFFFFF
    for it in data:
        at = own[(at ^ it) & 255] ^ at >> 8
    return at


def with_features(data, osds):
    """Returns a map of OSDs that say what they can."""
    data = bytearray(data)
    if summed(data[:-4]) != struct.unpack("<I", data[-4:])[0]:
        raise real.Failed("the file of osdmaptool doesn't end in its sum")
    one = HEAD + bytes(LENGTH)
    at = data.find(struct.pack("<I", osds) + osds * one)
    if at < 0:
        raise real.Failed("the file of osdmaptool has no osd_xinfo_t of version 4")
    for it in range(osds):
        place = at + 4 + it * len(one) + len(HEAD) + BEFORE
        data[place : place + len(FEATURES)] = FEATURES
    data[-4:] = struct.pack("<I", summed(data[:-4]))
    return bytes(data)


def make(folder, osds):
    """Returns a file with the map of OSDs in hosts and racks of ten, without a pool."""
    folder = pathlib.Path(folder)
    crush, path = folder / "crush", folder / "osdmap"
    layers = ["host", "straw2", OF_HOST, "rack", "straw2", OF_RACK, "root", "straw2", 0]
    real.run("crushtool", "--build", "--num_osds", osds, *layers, "-o", crush)
    real.run("osdmaptool", "--createsimple", osds, "--clobber", path)
    real.run("osdmaptool", path, "--import-crush", crush)
    # that OSDs are up is written where something else is changed too
    real.run("osdmaptool", path, "--mark-up-in", "--adjust-crush-weight", "0:1.0", "--save")
    path.write_bytes(with_features(path.read_bytes(), osds))
    return path


class Large(real.Cluster):
    """A cluster whose OSDs, all up, never start; without a map there is none."""

    def __init__(self, folder, osdmap=None, **more):
        self.osdmap = osdmap
        super().__init__(folder, 0, **more)

    def first_map(self):
        return ["--osdmap", self.osdmap] if self.osdmap else []

    def start(self):
        super().start()
        # the monitor takes OSDs down that say nothing for so long, and a pool that begins with more
        # groups has them only once the first are active
        for name in ("mon_osd_report_timeout", "mon_osd_max_initial_pgs"):
            self.told("config set", who="mon", name=name, value="1000000")

    def await_up(self, names):
        """None starts."""
