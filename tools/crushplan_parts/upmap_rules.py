"""What Ceph's monitors do with upmap items whenever a map changes, by OSDMap::check_pg_upmaps and
CrushWrapper::verify_upmap of release 16: which items they remove."""
import math


def pair_remarks(raw, pairs, may_be):
    """Returns the list that pairs make of a raw one, and what is to be said of pairs without
    effect."""
    items, remarks = list(raw), []
    for old, new in pairs:
        if old not in items:
            remarks.append(f"osd.{old} isn't in the list: no effect")
        elif new in items:
            remarks.append(f"osd.{new} is in the list already: no effect")
        elif not may_be(new):
            remarks.append(f"osd.{new} is out: no effect")
        else:
            items[items.index(old)] = new
    return items, remarks


class Keeper:
    """What the monitors keep on a map, with states of devices: a function from a device."""

    def __init__(self, map_, states):
        self.map, self.states = map_, states
        self.domains, self.weights, self.devices = {}, {}, {}

    def knows_as(self, other):
        """Takes what another keeper found of the same map, and returns itself."""
        if self.map is other.map:
            self.domains, self.weights, self.devices = other.domains, other.weights, other.devices
        return self

    def may_be(self, device):
        return self.states(device).reweight > 0

    def kept(self, pool, raw, pairs, whole=None):
        """Returns the pairs of a group that stay, where CRUSH gives it a raw list, and its whole
        list or None."""
        items = list(raw) if whole is None or self.is_idle(whole) else list(whole)
        if whole is None or not self.is_idle(whole):
            items, _ = pair_remarks(items, pairs, self.may_be)
        if self.broken(pool, items) or whole is not None and (list(whole) == list(raw) or len(whole) != pool.size):
            return [], None
        return [(old, new) for old, new in pairs if old in raw and self.may_be(new)], whole

    def is_idle(self, whole):
        """Returns whether a whole list doesn't act: neither do the pairs of its group then."""
        return any(it is not None and not self.may_be(it) for it in whole)

    def kept_at_last(self, pool, raw, pairs, whole=None):
        """Returns the pairs and the whole list that stay once nothing more is removed: each removal
        is a change of the map, at which they are looked at again."""
        while True:
            found, left = self.kept(pool, raw, pairs, whole)
            if found == list(pairs) and left == whole:
                return found, left
            pairs, whole = found, left

    def broken(self, pool, items):
        """Returns why a list breaks its pool's rule, or None where it doesn't."""
        rule = self.map.rules[pool.rule]
        for step in rule.steps:
            why = self.crowded(rule, pool, step, items) if step[0] in ("choose", "chooseleaf") else None
            if why:
                return why
        return self.outside(rule, pool, items) or self.weightless(rule, items)

    def crowded(self, rule, pool, step, items):
        """Returns why a list has too many devices in one bucket, or too many buckets, or None."""
        type_ = next((number for number, name in self.map.types.items() if name == step[3]), 0)
        if type_ == 0:
            return None
        found, domain_of = {}, self.domains_of(rule, type_)
        for it in dict.fromkeys(items):
            if it in domain_of:
                found.setdefault(domain_of[it], []).append(it)
        if step[0] == "chooseleaf":
            own = next((own for own in found.values() if len(own) > 1), None)
            return f"{' and '.join(f'osd.{it}' for it in own)} are in one {step[3]}" if own else None
        count = step[2] if step[2] > 0 else pool.size + step[2]
        return f"it lies in {len(found)} of type {step[3]}, and the rule wants {count}" if len(found) > count else None

    def outside(self, rule, pool, items):
        """Returns why a device, or a place without one, isn't below what the rule takes, or None:
        each take has as many places as its steps ask for."""
        root, types, cursor = 0, {}, 0
        for step in rule.steps:
            if step[0] == "take":
                root = step[1]
            elif step[0] in ("choose", "chooseleaf"):
                types.setdefault(step[3], step[2] if step[2] > 0 else pool.size + step[2])
            elif step[0] == "emit":
                places = 1
                for it in types.values():
                    places *= it
                if root < 0:
                    for it in items[cursor : cursor + max(places, 0)]:
                        cursor += 1
                        if it not in self.devices_of(root):
                            return (
                                "a place of it has no device"
                                if it is None
                                else f"osd.{it} isn't below what the rule takes"
                            )
                root, types = 0, {}
        return None

    def weightless(self, rule, items):
        """Returns why a device of a list has no weight, or None."""
        weights = self.weights_of(rule)
        for it in items:
            if it is None:
                return "a place of it has no device"
            if it not in weights:
                return f"osd.{it} isn't below what the rule takes"
            if not weights[it] or not self.may_be(it) and not math.isnan(weights[it]):
                return f"osd.{it} has no weight or is out"
        return None

    def domains_of(self, rule, type_):
        """Returns the bucket of a type, below what a rule takes, in which each device is."""
        key = (rule.id, type_)
        if key not in self.domains:
            found = {}
            for root in sorted(set(rule.takes())):
                for bucket in self.buckets_of_type(root, type_):
                    for device in self.devices_of(bucket):
                        found.setdefault(device, bucket)
            self.domains[key] = found
        return self.domains[key]

    def buckets_of_type(self, item, type_):
        bucket = self.map.buckets.get(item)
        if bucket is None or bucket.type < type_:
            return []
        if bucket.type == type_:
            return [item]
        return [it for inner, _ in bucket.items if inner is not None for it in self.buckets_of_type(inner, type_)]

    def devices_of(self, bucket):
        """Returns the devices below a bucket; Ceph takes a hole for osd.0."""
        if bucket not in self.devices:
            found = set(self.map.below(bucket))
            if any(self.map.buckets[it].holes() for it in self.map.buckets_below(bucket)):
                found.add(0)
            self.devices[bucket] = found
        return self.devices[bucket]

    def weights_of(self, rule):
        """Returns the weight of each device below what a rule takes, level by level: the last place
        that has it counts, and a hole is osd.0 with the weight 0. Ceph divides each by what all
        weigh together; where that is 0 they are no numbers, and none of them counts as 0."""
        if rule.id not in self.weights:
            found = {}
            for root in rule.takes():
                own, queue, total = {}, [root], 0
                if root >= 0:
                    own, queue, total = {root: 1}, [], 1
                while queue:
                    bucket = self.map.buckets[queue.pop(0)]
                    for item, weight in bucket.items:
                        if item is None or item >= 0:
                            own[item or 0] = weight
                            total += weight
                        else:
                            queue.append(item)
                for device, weight in own.items():
                    found[device] = found.get(device, 0) + (weight if total else math.nan)
            self.weights[rule.id] = found
        return self.weights[rule.id]
