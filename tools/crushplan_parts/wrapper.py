"""Changes of a CRUSH map as Ceph makes them: CrushWrapper.cc of release 16, function by function.
Ceph's own order and its oddities are kept, since placements depend on them."""
import copy
import struct

from .crush_map import ONE, Bucket, WeightSet

MOST_WEIGHT = 32768 * ONE  # from here on a weight is refused
ALGS = ((5, "straw2"), (4, "straw"), (3, "tree"), (2, "list"), (1, "uniform"))  # the best first


class Refused(Exception):
    """A command that Ceph refuses: the name of its error, and its words. `keeps` is whether it has
    done a part of it nevertheless."""

    def __init__(self, code, why, keeps=False):
        super().__init__(why)
        self.code, self.why, self.keeps, self.maps = code, why, keeps, None


class Unforetold(Exception):
    """A command whose effect isn't known: says why."""


def as_float(weight):
    """Returns 65536ths as they are once they were a float of 24 bits (adjust_item_weightf)."""
    return int(struct.unpack("f", struct.pack("f", weight / ONE))[0] * ONE)


def copied(map_):
    """Returns a map that can be changed, without what was found of the other."""
    found = copy.copy(map_)
    found.kept = {}
    for name in ("tunables", "devices", "classes", "types", "rules"):
        setattr(found, name, dict(getattr(map_, name)))
    found.class_names = list(map_.class_names or class_order(map_))
    found.shadow_ids = dict(map_.shadow_ids or map_.shadows())
    found.buckets = {id_: copy.copy(it) for id_, it in map_.buckets.items()}
    for it in found.buckets.values():
        it.items = list(it.items)
    found.weight_sets = {}
    for key, it in map_.weight_sets.items():
        rows = {id_: [list(row) for row in own] for id_, own in it.rows.items()}
        found.weight_sets[key] = WeightSet(rows, it.with_ids, it.rounded)
    return found


def class_order(map_):
    """Returns the classes of a map in the order in which they were made, as far as the ids of
    shadows show it: no dump has it."""
    first = {
        class_: max(id_ for (_, own), id_ in map_.shadows().items() if own == class_) for _, class_ in map_.shadows()
    }
    others = sorted(set(map_.classes.values()) - first.keys())
    return [*sorted(first, key=first.get, reverse=True), *others]


class Wrapper:
    """A map that is changed. Buckets are looked at from the id -1 down, as Ceph has them in its
    array."""

    def __init__(self, map_):
        self.map = map_
        self.places = None  # the buckets that have each item, found when they are asked for
        self.later = None  # in the midst of many changes what waits for the last of them

    # ---- what there is

    def buckets(self):
        return [self.map.buckets[it] for it in sorted(self.map.buckets, reverse=True)]

    def id_of(self, name):
        """Returns the item of a name, or None. A device has one while the map knows it."""
        found = next((it.id for it in self.map.buckets.values() if it.name == name), None)
        if found is None:
            found = next(
                (id_ for id_, own in self.map.devices.items() if own == name and not is_placeholder(id_, own)), None
            )
        return found

    def holders(self, item):
        """Returns the buckets that have an item, shadows too; a hole is osd.0 to Ceph."""
        if self.places is None:
            self.places = {}
            for bucket in self.buckets():
                for own in {0 if it is None else it for it, _ in bucket.items}:
                    self.places.setdefault(own, []).append(bucket)
        return list(self.places.get(item, ()))

    def stands(self, item):
        return bool(self.holders(item))

    def parent(self, item):
        """Returns the first bucket that has an item, of those that aren't shadows
        (get_immediate_parent)."""
        return next((it for it in self.holders(item) if not it.shadow), None)

    def roots(self):
        """Returns the ids of the buckets in no other, the most negative first."""
        below = {item for it in self.map.buckets.values() for item, _ in it.items}
        return sorted(it.id for it in self.map.buckets.values() if it.id not in below and not it.shadow)

    def weight_of(self, item):
        """Returns the weight of an item at the first place that has it (get_item_weight)."""
        holder = self.holders(item)[0]
        return holder.items[place_of(holder, item)][1]

    def lowest(self, location):
        """Returns the type and the name of a location's lowest word, or None: the words above
        count only where it is new."""
        return next(
            (
                (number, location[name])
                for number, name in sorted(self.map.types.items())
                if number and name in location
            ),
            None,
        )

    def is_at(self, item, location):
        """Returns the bucket that a location's lowest word names where it holds the item itself,
        or None (check_item_loc)."""
        lowest = self.lowest(location)
        bucket = self.map.buckets.get(self.id_of(lowest[1])) if lowest else None
        return bucket if bucket is not None and place_of(bucket, item) is not None else None

    def is_taken(self, item):
        """Returns whether a rule takes a bucket or a shadow of it, or it is a shadow
        (_bucket_is_in_use)."""
        own = {id_ for (bucket, _), id_ in self.map.shadow_ids.items() if bucket == item} | {item}
        return item in self.map.shadow_ids.values() or any(own & set(it.takes()) for it in self.map.rules.values())

    # ---- weights

    def adjust(self, item, weight, with_sets=True):
        """Gives an item a weight in every bucket that has it (adjust_item_weight)."""
        found = self.holders(item)
        for it in found:
            self.adjust_in(it, item, weight, with_sets)
        return bool(found)

    def adjust_in(self, bucket, item, weight, with_sets=True):
        """Gives an item a weight in a bucket (adjust_item_weight_in_bucket). Ceph then looks at all
        buckets for those that have this one, and makes the rows of weight sets sums on the way."""
        self.give_weight(bucket, item, weight, with_sets)
        self.sum_sets()

    def give_weight(self, bucket, item, weight, with_sets):
        """Gives an item a weight in a bucket, and each bucket above what it weighs then. A uniform
        bucket has one weight, which all its items get."""
        for place, (own, _) in enumerate(bucket.items):
            if own == item or own is None and item == 0:
                if with_sets:
                    self.set_rows(bucket.id, place, weight)
                if bucket.alg == "uniform":
                    bucket.items = [(it, weight) for it, _ in bucket.items]
                elif own is not None:
                    bucket.items[place] = (own, weight)
                for above in self.holders(bucket.id):
                    self.give_weight(above, bucket.id, bucket.weight(), False)

    def sum_sets(self):
        """Gives each bucket in the rows of weight sets the sum of its own, from below; a bucket of
        straw2 that lacks a row gets one of its weights."""
        if self.later is not None:
            self.later[self.sum_sets] = True
            return
        for own in self.map.weight_sets.values():
            count = positions_of(own)
            for bucket in self.leaves_first() if own.rows else ():
                if bucket.alg == "straw2" and not own.rows.get(bucket.id):
                    own.rows[bucket.id] = [[weight for _, weight in bucket.items] for _ in range(count)]
                for place, (item, _) in enumerate(bucket.items):
                    below = own.rows.get(item, ())
                    for row, of in zip(own.rows.get(bucket.id, ()), below):
                        row[place] = sum(of)

    def set_rows(self, bucket, place, weight):
        for own in self.map.weight_sets.values():
            for row in own.rows.get(bucket, ()):
                row[place] = weight

    def adjust_row(self, own, item, weights):
        """Gives an item weights in a weight set, and the buckets above the sums; each bucket of
        straw2 that lacks a row gets one on the way (choose_args_adjust_item_weight)."""
        changed = 0
        for bucket in self.buckets():
            changed += self.adjust_row_in(own, bucket, item, weights)
        return changed

    def adjust_row_in(self, own, bucket, item, weights):
        changed, rows = 0, own.rows.get(bucket.id)
        if not rows and bucket.alg == "straw2":
            rows = own.rows[bucket.id] = [[weight for _, weight in bucket.items] for _ in range(positions_of(own))]
            changed += 1
        if not rows or len(rows) != len(weights):
            return 0
        for place, (it, _) in enumerate(bucket.items):
            if it == item:
                changed += 1
                for row, weight in zip(rows, weights):
                    row[place] = weight
        if changed:
            self.adjust_row(own, bucket.id, [sum(it) for it in rows])
        return changed

    def reweight_below(self, bucket, weight):
        """Gives each device below a bucket a weight, in the buckets below it alone
        (adjust_subtree_weight)."""
        changed, queue = 0, [bucket]
        while queue:
            it = queue.pop(0)
            for item, _ in list(it.items):
                if item is not None and item >= 0:
                    self.adjust_in(it, item, weight)
                    changed += 1
                elif item in self.map.buckets:
                    queue.append(self.map.buckets[item])
        self.rebuild()
        return changed

    def reweight_all(self):
        """Gives buckets the sums of what is below them, from the roots down and up again
        (CrushWrapper::reweight), and weight sets too."""
        done = set()

        def visit(bucket):
            if bucket.id in done:
                return
            done.add(bucket.id)
            for place, (item, weight) in enumerate(bucket.items):
                if item in self.map.buckets:
                    visit(self.map.buckets[item])
                    bucket.items[place] = (item, self.map.buckets[item].weight())

        for id_ in self.roots():
            visit(self.map.buckets[id_])
        self.sum_sets()
        self.rebuild()

    def leaves_first(self):
        """Returns the buckets, each behind those that it has."""
        found, done = [], set()

        def visit(id_):
            if id_ in done or id_ not in self.map.buckets:
                return
            done.add(id_)
            for item, _ in self.map.buckets[id_].items:
                visit(item)
            found.append(self.map.buckets[id_])

        for it in self.buckets():
            visit(it.id)
        return found

    # ---- items put in and taken out

    def add_bucket(self, name, type_):
        """Makes an empty bucket of the best kind that the map allows, with the highest free id."""
        alg = next((alg for number, alg in ALGS if self.map.algs >> number & 1), None)
        if alg is None:
            raise Refused("EINVAL", "the map allows no kind of bucket")
        id_ = -1
        while id_ in self.map.buckets:
            id_ -= 1
        self.map.buckets[id_] = Bucket(id_, name, type_, alg, "rjenkins1", [])
        return self.map.buckets[id_]

    def put_in(self, bucket, item, weight):
        """Puts an item at the end of a bucket, and of its rows (bucket_add_item)."""
        if bucket.alg == "uniform" and bucket.items and bucket.items[0][1] != weight:
            raise Unforetold(
                f"the monitor ends: {bucket.name} is a uniform bucket whose items have weight, and Ceph puts a new "
                "one in with 0"
            )
        self.places = None
        bucket.items.append((item, weight))
        for own in self.map.weight_sets.values():
            for row in own.rows.get(bucket.id, ()):
                row.append(weight)

    def take_out(self, bucket, item):
        """Takes an item of weight 0 out of a bucket. A tree bucket keeps a hole, but for places of
        no weight at its end, which it loses (crush_remove_tree_bucket_item)."""
        place = place_of(bucket, item)
        for own in self.map.weight_sets.values():
            for row in own.rows.get(bucket.id, ()):
                del row[place]
        if bucket.alg != "tree":
            del bucket.items[place]
            if self.places is not None and place_of(bucket, item) is None:
                self.places[item] = [it for it in self.places[item] if it is not bucket]
            return
        self.places = None
        bucket.items[place] = (None, 0)
        if (
            bucket.items
            and not any(weight for _, weight in bucket.items)
            and any(it is not None for it, _ in bucket.items)
        ):
            raise Unforetold(
                f"the monitor's map is damaged: {bucket.name} is a tree bucket that keeps items of weight 0 alone"
            )
        while bucket.items and bucket.items[-1][1] == 0:
            bucket.items.pop()

    def insert(self, item, weight, name, location, with_sets=True):
        """Puts an item into the map (insert_item): from the lowest word of its location up, new
        buckets are made, until one is there, to which all is added."""
        if self.lowest(location) is None:
            raise Refused("EINVAL", f"(22) Invalid argument: no type of the map is in {location_text(location)}")
        if item >= 0:
            self.map.devices[item] = name
        below, found = item, False
        for number, type_ in sorted(self.map.types.items()):
            if not number or type_ not in location:
                continue
            at = self.id_of(location[type_])
            if at is None:
                made = self.add_bucket(location[type_], number)
                self.put_in(made, below, 0)
                below, found = made.id, True
                continue
            bucket = self.map.buckets.get(at)
            if bucket is None or bucket.type != number:
                raise Refused("EINVAL", f"(22) Invalid argument: {location[type_]} isn't of the type {type_}")
            if below in self.map.buckets and at in self.map.buckets_below(below):
                raise Refused(
                    "ELOOP",
                    f"(40) Too many levels of symbolic links: {location[type_]} is below {self.map.name_of(below)}",
                )
            if place_of(bucket, below) is not None:
                raise Refused(
                    "EINVAL", f"(22) Invalid argument: {location[type_]} has {self.map.name_of(below)} already"
                )
            self.put_in(bucket, below, 0)
            found = True
            break
        self.map.kept = {}
        for it in self.named(location):
            if place_of(it, item) is not None:
                self.adjust_in(it, item, weight, with_sets and item >= 0)
        self.rebuild()
        return found

    def named(self, location):
        """Returns the buckets that a location names, by the names of their types."""
        found = [self.map.buckets.get(self.id_of(name)) for _, name in sorted(location.items())]
        return [it for it in found if it is not None]

    def remove(self, item, unlink=False):
        """Takes an item out of all places, and out of the map where it isn't only unlinked
        (remove_item)."""
        if item < 0 and not unlink:
            self.check_removal(item)
        found = False
        for bucket in self.holders(item):
            while bucket.id in self.map.buckets and real_place(bucket, item) is not None:
                self.adjust_in(bucket, item, 0)
                self.take_out(bucket, item)
                found = True
        return self.forget(item, unlink) or found

    def each(self, items, act):
        """Does something to items, one after the other. Sums of weight sets and trees of classes
        are made once, behind the last: no change of a weight and no removal depends on those."""
        self.later = {}
        for it in items:
            act(it)
        later, self.later = self.later, None
        for it in later:
            it()

    def check_removal(self, item):
        if self.map.buckets[item].items:
            raise Refused("ENOTEMPTY", "(39) Directory not empty")
        if self.is_taken(item):
            raise Refused("EBUSY", "(16) Device or resource busy")

    def remove_under(self, item, ancestor, unlink=False):
        """Takes an item out of the places below an ancestor, of a bucket only those right below
        where it isn't only unlinked (remove_item_under)."""
        if item < 0 and not unlink:
            self.check_removal(item)
        found = False
        for own in list(self.map.buckets[ancestor].items):
            if own[0] == item:
                self.adjust_in(self.map.buckets[ancestor], item, 0)
                self.take_out(self.map.buckets[ancestor], item)
                found = True
            elif own[0] in self.map.buckets and (item >= 0 or unlink):
                found = self.remove_under(item, own[0], unlink) or found
        return self.forget(item, unlink) or found

    def forget(self, item, unlink):
        """Ends the last of an item that stands nowhere any more (_maybe_remove_last_instance): its
        shadows are made anew."""
        if self.stands(item) or item < 0 and not unlink and item not in self.map.buckets:
            return False
        if item < 0 and self.is_taken(item) and not unlink:
            return False
        if item < 0 and not unlink:
            del self.map.buckets[item]
            self.places = None
            for own in self.map.weight_sets.values():
                own.rows.pop(item, None)
        if item >= 0:
            self.map.devices.pop(item, None)
        if item >= 0 and not unlink:
            self.map.classes.pop(item, None)
        self.rebuild()
        return True

    def detach(self, bucket):
        """Takes a bucket out of its first parent, and returns its weight (detach_bucket)."""
        weight, parent = bucket.weight(), self.parent(bucket.id)
        if parent is not None:
            self.adjust_in(parent, bucket.id, 0)
            self.take_out(parent, bucket.id)
        return weight

    def move(self, item, location):
        """Moves a bucket (move_bucket); what it weighs passes a float."""
        bucket = self.map.buckets[item]
        self.insert(item, as_float(self.detach(bucket)), bucket.name, location, False)

    def link(self, bucket, location):
        """Puts a bucket in once more (link_bucket)."""
        self.insert(bucket.id, as_float(bucket.weight()), bucket.name, location, False)

    def set_item(self, item, weight, name, location):
        """Gives a device its weight at a location, where it isn't otherwise taken out of all places
        and put in (update_item)."""
        at = self.is_at(item, location)
        if at is None:
            if self.stands(item):
                self.remove(item, unlink=True)
            self.insert(item, weight, name, location)
            return
        if at.items[place_of(at, item)][1] != weight:
            for it in self.named(location):
                if place_of(it, item) is not None:
                    self.adjust_in(it, item, weight)
            self.rebuild()

    def create_or_move(self, item, weight, name, location):
        """Puts a device in that stands nowhere, and moves one that stands elsewhere with the weight
        of its first place (create_or_move_item)."""
        if self.is_at(item, location) is not None:
            return
        if self.stands(item):
            weight = as_float(self.weight_of(item))
            self.remove(item, unlink=True)
        self.insert(item, weight, name, location)

    def swap(self, first, second):
        """Exchanges what two buckets have, and their names (swap_bucket). What was the first's is
        then sorted by id."""
        a, b = self.map.buckets[first], self.map.buckets[second]
        weights = a.weight(), b.weight()
        self.adjust(first, weights[1])
        self.adjust(second, weights[0])
        items = {}
        for item, weight in list(a.items):
            items[item] = weight
            self.take_out(a, item)
        for item, weight in list(b.items):
            self.take_out(b, item)
            self.put_in(a, item, weight)
        for item in sorted(items):
            self.put_in(b, item, items[item])
        a.name, b.name = b.name, a.name
        self.rebuild()

    # ---- the trees of classes

    def rebuild(self):
        """Makes the buckets of single classes anew (rebuild_roots_with_classes): a pair of a bucket
        and a class keeps its id, and a new one gets the highest that is free and was none's."""
        if self.later is not None:
            self.later[self.rebuild] = True
            return
        self.map.kept, self.places = {}, None
        old, used = self.map.shadow_ids, set(self.map.shadow_ids.values())
        self.forget_classes()
        for id_ in used:
            self.map.buckets.pop(id_, None)
        self.map.shadow_ids = {}
        sums = {key: {} for key in self.map.weight_sets}
        for root in self.roots():
            for class_ in self.map.class_names:
                self.clone(root, class_, old, used, sums)

    def make_shadows(self, ids):
        """Makes the buckets of single classes that have these ids, by bucket and class."""
        sums, used = {key: {} for key in self.map.weight_sets}, set(ids.values())
        for bucket, class_ in ids:
            self.clone(bucket, class_, ids, used, sums)

    def forget_classes(self):
        """Forgets the classes that no device has and no rule takes (cleanup_dead_classes)."""
        own, taken = set(self.map.classes.values()), {item for it in self.map.rules.values() for item in it.takes()}
        own |= {class_ for (_, class_), id_ in self.map.shadow_ids.items() if id_ in taken}
        self.map.class_names = [it for it in self.map.class_names if it in own]

    def clone(self, id_, class_, old, used, sums):
        """Makes the bucket of the devices of a class alone, behind those of its items, and returns
        its id (device_class_clone)."""
        if (id_, class_) in self.map.shadow_ids:
            return self.map.shadow_ids[id_, class_]
        original, items, places = self.map.buckets[id_], [], []
        for place, (item, weight) in enumerate(original.items):
            if item is None or item >= 0 and self.map.classes.get(item) != class_:
                continue
            if item < 0:
                item = self.clone(item, class_, old, used, sums)
                weight = self.map.buckets[item].weight()
            items.append((item, weight))
            places.append(place)
        own = old.get((id_, class_)) or self.free_shadow(used)
        self.map.buckets[own] = Bucket(
            own, f"{original.name}~{class_}", original.type, original.alg, original.hash, items, class_
        )
        self.map.shadow_ids[id_, class_] = own
        for key, it in self.map.weight_sets.items():
            self.clone_row(it, id_, own, items, places, sums[key])
        return own

    def free_shadow(self, used):
        id_ = -1
        while id_ in self.map.buckets or id_ in used:
            id_ -= 1
        return id_

    def clone_row(self, own, bucket, id_, items, places, sums):
        """Gives a shadow its row of a weight set. Of a set of several positions Ceph counts what a
        shadow weighs at the last alone."""
        own.rows.pop(id_, None)
        rows = own.rows.get(bucket)
        if not rows:
            return
        found, last = [], len(rows) - 1
        for at, row in enumerate(rows):
            found.append(
                [
                    row[place] if item >= 0 else sums.get(item, [0] * len(rows))[at]
                    for (item, _), place in zip(items, places)
                ]
            )
        own.rows[id_], sums[id_] = found, [0] * last + [sum(found[last])]


def positions_of(own):
    """Returns how many positions a weight set has (get_choose_args_positions)."""
    return next((len(it) for _, it in sorted(own.rows.items(), reverse=True) if it), 1)


def place_of(bucket, item):
    """Returns the first place of an item in a bucket, or None; a hole is osd.0 to Ceph."""
    return next((at for at, (own, _) in enumerate(bucket.items) if own == item or own is None and item == 0), None)


def real_place(bucket, item):
    """Returns the first place of an item that isn't a hole, or None."""
    return next((at for at, (own, _) in enumerate(bucket.items) if own == item), None)


def is_placeholder(device, name):
    """Returns whether a dump names a device so since the map has no name of it."""
    return name == f"device{device}"


def location_text(location):
    """Returns a location as Ceph writes it."""
    return "{" + ",".join(f"{key}={value}" for key, value in sorted(location.items())) + "}"
