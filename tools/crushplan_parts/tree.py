"""The tree of a map for people: names, what is below them, the host and rack of a device."""
from .faults import Fault, nearest


class Tree:
    """Parents and names of a map's items. The trees of single classes stay out, and so do the
    holes that removed items left."""

    def __init__(self, map_):
        self.map, self.parents, self.ids = map_, {}, {}
        for id_, name in map_.devices.items():
            self.ids[name] = id_
        for bucket in map_.buckets.values():
            if bucket.shadow:
                continue
            self.ids[bucket.name] = bucket.id
            for item, _ in bucket.items:
                if item is not None:
                    self.parents.setdefault(item, []).append(bucket.id)
        self.above = {}

    def placed_devices(self):
        """Returns the devices that some bucket has."""
        return sorted(it for it in self.parents if it >= 0)

    def ancestors(self, item):
        """Returns the buckets above an item, the nearest first."""
        if item not in self.above:
            found = {}
            for parent in self.parents.get(item, ()):
                found[parent] = True
            for parent in list(found):
                found.update(dict.fromkeys(self.ancestors(parent)))
            self.above[item] = list(found)
        return self.above[item]

    def of_type(self, item, type_):
        """Returns the bucket of a type that an item is below, or None."""
        return next((it for it in self.ancestors(item) if self.map.buckets[it].type == type_), None)

    def host(self, device):
        """Returns the name of the bucket that has a device, or a dash."""
        parents = self.parents.get(device)
        return self.map.buckets[parents[0]].name if parents else "-"

    def path(self, device):
        """Returns the types and names of the buckets above a device."""
        return {
            self.map.types.get(self.map.buckets[it].type, "?"): self.map.buckets[it].name
            for it in reversed(self.ancestors(device))
        }

    def item(self, name):
        """Returns the id of a name, a device (osd.3 or 3) or a bucket. A Fault has the nearest."""
        if name in self.ids:
            return self.ids[name]
        if name.isdigit() and int(name) in self.map.devices:
            return int(name)
        raise Fault(f"{self.map.file} has no host, rack or device {name!r}{nearest(name, self.ids)}")

    def type_number(self, name):
        """Returns the number of a type; a Fault has the nearest."""
        for number, known in self.map.types.items():
            if known == name or (name == "osd" and number == 0):
                return number
        raise Fault(f"{self.map.file} has no type {name!r}{nearest(name, self.map.types.values())}")

    def buckets_of_type(self, number):
        """Returns the items of a type that have devices: buckets, or the devices themselves."""
        if number == 0:
            return self.placed_devices()
        return [
            it.id for it in self.map.buckets.values() if it.type == number and not it.shadow and self.map.below(it.id)
        ]

    def host_type(self):
        """Returns the number of the type of most buckets that have devices, or None."""
        counts = {}
        for bucket in self.map.buckets.values():
            if not bucket.shadow and any(item is not None and item >= 0 for item, _ in bucket.items):
                counts[bucket.type] = counts.get(bucket.type, 0) + 1
        return max(counts, key=counts.get, default=None)
