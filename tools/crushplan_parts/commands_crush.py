"""Commands on devices, buckets, classes and tunables of the CRUSH map (OSDMonitor.cc: what it looks
at before it hands the map to CrushWrapper)."""
import pathlib
import struct

from .commands import NAME, id_in, number_in, osd_in
from .crush_map import ONE, mark_holes
from .faults import some
from .wrapper import MOST_WEIGHT, Refused, Unforetold, Wrapper, location_text

# what 'crush tunables' sets: local tries, fallback tries, total tries, descend_once, vary_r,
# stable, straw_calc_version (None keeps it), allowed kinds of buckets
PROFILES = {
    "legacy": (2, 5, 19, 0, 0, 0, 0, 22),
    "argonaut": (2, 5, 19, 0, 0, 0, None, 22),
    "bobtail": (0, 0, 50, 1, 0, 0, None, 22),
    "firefly": (0, 0, 50, 1, 1, 0, 1, 22),
    "hammer": (0, 0, 50, 1, 1, 0, 1, 54),
    "jewel": (0, 0, 50, 1, 1, 1, 1, 54),
}
PROFILES["optimal"] = PROFILES["default"] = PROFILES["jewel"]
TUNABLES = (
    "choose_local_tries",
    "choose_local_fallback_tries",
    "choose_total_tries",
    "chooseleaf_descend_once",
    "chooseleaf_vary_r",
    "chooseleaf_stable",
)


def weight_in(text):
    """Returns the 65536ths of a weight that is typed: it becomes a float of 24 bits first."""
    value = number_in(text, 0)
    if value >= MOST_WEIGHT / ONE:
        raise Refused("EOVERFLOW", "(75) Value too large for defined data type")
    return int(struct.unpack("f", struct.pack("f", value))[0] * ONE)


def location_in(words):
    """Returns a location, words TYPE=NAME."""
    found = {}
    for it in words:
        key, sign, name = it.partition("=")
        if not sign or not name or not NAME.fullmatch(name):
            raise Refused("EINVAL", f"(22) Invalid argument: {it} isn't TYPE=NAME")
        found[key] = name
    return found


def item_in(wrapper, name, words):
    """Returns the item of a name; `words` are Ceph's where there is none."""
    item = wrapper.id_of(name)
    if item is None:
        raise Refused("ENOENT", words)
    return item


# ---- weights


def reweight(maps, words):
    name, weight = words.take(2, 2, "NAME WEIGHT")
    wrapper = Wrapper(maps.crush)
    item = item_in(wrapper, name, f"device '{name}' does not appear in the crush map")
    if item < 0:
        raise Refused("EINVAL", f"device '{name}' is not a leaf in the crush map")
    if not wrapper.adjust(item, weight_in(weight)):
        raise Refused("ENOENT", "(2) No such file or directory")
    return uniform_text(wrapper, [item])


def uniform_text(wrapper, items):
    """Says where the weight of a device becomes that of others too."""
    own = [
        it.name
        for it in wrapper.buckets()
        if it.alg == "uniform" and not it.shadow and {item for item, _ in it.items} & set(items)
    ]
    return [f"all items of {some(own)} get the weight, since a uniform bucket has one"] if own else []


def reweight_subtree(maps, words):
    name, weight = words.take(2, 2, "NAME WEIGHT")
    wrapper = Wrapper(maps.crush)
    item = item_in(wrapper, name, f"device '{name}' does not appear in the crush map")
    if item >= 0:
        raise Refused("EINVAL", f"device '{name}' is not a subtree in the crush map")
    wrapper.reweight_below(maps.crush.buckets[item], weight_in(weight))
    return []


def reweight_all(maps, words):
    words.take(0, 0, "")
    Wrapper(maps.crush).reweight_all()


# ---- devices


def add_or_set(maps, words):
    first, weight, *rest = words.take(3, None, "ID WEIGHT LOCATION..")
    id_, value, location, wrapper = osd_in(first), weight_in(weight), location_in(rest), Wrapper(maps.crush)
    if id_ not in maps.osds:
        raise Refused("ENOENT", f"osd.{id_} does not exist. Create it before updating the crush map")
    is_set = words.name[-1] == "set"
    if is_set and not wrapper.stands(id_) and wrapper.id_of(f"osd.{id_}") is None:
        raise Refused(
            "ENOENT",
            (
                f"unable to set item id {id_} name 'osd.{id_}' weight {weight} at location {location_text(location)}: "
                "does not exist"
            ),
        )
    if is_set or wrapper.is_at(id_, location) is not None:
        wrapper.set_item(id_, value, f"osd.{id_}", location)
        return []
    there = wrapper.parent(id_)
    wrapper.insert(id_, value, f"osd.{id_}", location)
    return [f"osd.{id_} also stays in {there.name}: 'crush set' or 'crush move' moves it"] if there else []


def create_or_move(maps, words):
    first, weight, *rest = words.take(3, None, "ID WEIGHT LOCATION..")
    id_, value, location, wrapper = osd_in(first), weight_in(weight), location_in(rest), Wrapper(maps.crush)
    if id_ not in maps.osds:
        raise Refused("ENOENT", f"osd.{id_} does not exist.  create it before updating the crush map")
    if wrapper.is_at(id_, location) is not None:
        return ["it stands there: no change"]
    remarks = ["it keeps its weight: what is typed is for devices that stand nowhere"] if wrapper.stands(id_) else []
    wrapper.create_or_move(id_, value, f"osd.{id_}", location)
    return remarks


def move(maps, words):
    name, *rest = words.take(2, None, "NAME LOCATION..")
    wrapper, location = Wrapper(maps.crush), location_in(rest)
    item = item_in(wrapper, name, f"item {name} does not exist")
    if wrapper.is_at(item, location) is not None:
        return [f"no need to move item id {item} name '{name}' to location {location_text(location)} in crush map"]
    if item >= 0:
        wrapper.create_or_move(item, 0, name, location)
    else:
        wrapper.move(item, location)
    return []


def link(maps, words):
    name, *rest = words.take(2, None, "NAME LOCATION..")
    wrapper, location = Wrapper(maps.crush), location_in(rest)
    item = item_in(wrapper, name, f"item {name} does not exist")
    if wrapper.is_at(item, location) is not None:
        return ["it is linked there already"]
    if item >= 0:
        raise Refused("EINVAL", "(22) Invalid argument: devices aren't linked")
    bucket = maps.crush.buckets[item]
    wrapper.link(bucket, location)
    return []


def taken_out(maps, words):
    """crush rm, remove and unlink."""
    name, ancestor = words.take(1, 2, "NAME [ANCESTOR]")
    wrapper, unlink = Wrapper(maps.crush), words.name[-1] == "unlink"
    item = wrapper.id_of(name)
    if item is None:
        return [f"device '{name}' does not appear in the crush map"]
    if ancestor is None:
        return [] if wrapper.remove(item, unlink) else [f"item {item} does not appear in that position"]
    above = item_in(wrapper, ancestor, f"ancestor item '{ancestor}' does not appear in the crush map")
    if above >= 0:
        raise Refused("EINVAL", "(22) Invalid argument")
    found = wrapper.remove_under(item, above, unlink)
    return [] if found else [f"item {item} does not appear in that position"]


# ---- buckets


def add_bucket(maps, words):
    name, type_, *rest = words.take(2, None, "NAME TYPE [LOCATION..]")
    wrapper, location = Wrapper(maps.crush), location_in(rest)
    if wrapper.id_of(name) is not None:
        return [f"bucket '{name}' already exists"]
    number = next((it for it, own in maps.crush.types.items() if own == type_), None)
    if number is None:
        raise Refused("EINVAL", f"type '{type_}' does not exist")
    if number == 0:
        raise Refused("EINVAL", f"type '{type_}' is for devices, not buckets")
    if not NAME.fullmatch(name):
        raise Refused("EINVAL", f"Invalid command: invalid chars in {name}")
    bucket = wrapper.add_bucket(name, number)
    if location:
        try:
            wrapper.move(bucket.id, location)
        except Refused:
            raise Refused("EINVAL", f"error moving bucket '{name}' to location {location_text(location)}") from None
    return []


def swap_bucket(maps, words):
    first, second = words.take(2, 2, "SOURCE DEST")
    wrapper, crush = Wrapper(maps.crush), maps.crush
    ids = [
        item_in(wrapper, it, f"source item {it} does not exist" if it == first else f"dest item {it} does not exist")
        for it in (first, second)
    ]
    if min(ids) == max(ids):
        raise Unforetold("the monitor ends: a bucket is swapped with itself")
    if max(ids) >= 0:
        raise Refused("EINVAL", f"{first if ids[0] >= 0 else second} is not a bucket")
    a, b = (crush.buckets[it] for it in ids)
    if not words.is_sure():
        if wrapper.parent(a.id) is not None:
            raise Refused("EPERM", f"{first} has a parent; pass --yes-i-really-mean-it to proceed anyway")
        if a.alg != b.alg:
            raise Refused(
                "EPERM", f"{first} alg {a.alg} != {second} alg {b.alg}; pass --yes-i-really-mean-it to proceed anyway"
            )
    for one, other in ((a, b), (b, a)):
        if any(item == other.id for item, _ in one.items):
            raise Refused("EINVAL", "(22) Invalid argument: one is the other's parent")
        if other.id in crush.buckets_below(one.id):
            raise Unforetold("the monitor ends: one bucket is some levels below the other")
    wrapper.swap(a.id, b.id)
    return []


def rename_bucket(maps, words):
    old, new = words.take(2, 2, "SRCNAME DSTNAME")
    wrapper = Wrapper(maps.crush)
    item, other = wrapper.id_of(old), wrapper.id_of(new)
    if item is None and other is not None and other < 0:
        return [f"bucket '{new}' is there already, and '{old}' isn't"]
    if item is None:
        raise Refused("ENOENT", f"srcname '{old}' does not exist")
    if item >= 0:
        raise Refused("ENOTDIR", f"srcname '{old}' is not a bucket")
    if other is not None:
        raise Refused("EEXIST", f"dstname '{new}' already exists")
    if not NAME.fullmatch(new):
        raise Refused("EINVAL", f"Invalid command: invalid chars in {new}")
    # its shadows keep the old name until they are made anew
    maps.crush.buckets[item].name = new
    return []


def all_straw2(maps, words):
    words.take(0, 0, "")
    own = [it for it in maps.crush.buckets.values() if it.alg == "straw"]
    for it in own:
        it.alg = "straw2"
    return [] if own else ["no bucket is of straw"]


# ---- classes and tunables


def set_class(maps, words):
    class_, *ids = words.take(2, None, "CLASS ID..")
    found = devices_in(maps, ids)
    for id_ in found:
        has = maps.crush.classes.get(id_)
        if has is not None and has != class_:
            raise Refused(
                "EBUSY",
                (
                    f"osd.{id_} has already bound to class '{has}', can not reset class to '{class_}'; "
                    "use 'ceph osd crush rm-device-class <id>' to remove old class first"
                ),
            )
    if not NAME.fullmatch(class_):
        raise Refused("EINVAL", f"Invalid command: invalid chars in {class_}")
    changed = [id_ for id_ in found if maps.crush.classes.get(id_) != class_]
    check_tree(maps)
    if changed:
        if class_ not in maps.crush.class_names:
            maps.crush.class_names.append(class_)
        for id_ in changed:
            maps.crush.classes[id_] = class_
            maps.crush.devices.setdefault(id_, f"osd.{id_}")
        Wrapper(maps.crush).rebuild()
    return [] if changed else ["they have the class already"]


def rm_class(maps, words):
    ids = words.take(1, None, "ID..")
    found = devices_in(maps, ids)
    remarks = [f"osd.{it} belongs to no class" for it in found if it not in maps.crush.classes]
    own = [it for it in found if it in maps.crush.classes]
    check_tree(maps)
    for it in own:
        del maps.crush.classes[it]
    if own:
        Wrapper(maps.crush).rebuild()
    return remarks


def check_tree(maps):
    own = [it.name for it in maps.crush.buckets.values() if it.alg == "tree" and not it.shadow]
    if own:
        raise Unforetold(
            f"classes in a map with tree buckets ({some(own, 2)}) damage the monitor's memory, which ends later"
        )


def devices_in(maps, ids):
    """Returns the OSDs of a command on classes; ids that aren't there, and words that are none, are
    passed over."""
    if ids[0] in ("any", "all", "*"):
        return sorted(maps.osds)
    return [it for it in map(id_in, ids) if it in maps.osds]


def tunables(maps, words):
    (name,) = words.take(1, 1, "PROFILE")
    if name not in PROFILES:
        raise Refused("EINVAL", f"Invalid command: {name} not in {'|'.join(PROFILES)}")
    *own, _, algs = PROFILES[name]
    maps.crush.tunables.update(zip(TUNABLES, own))
    maps.crush.algs = algs
    return []


# ---- a whole map


def set_crush_map(maps, words):
    """Takes a compiled map in the place of the present one."""
    words.take(0, 1, "-i FILE")
    if not words.file:
        raise Refused("EINVAL", "Error reading crush map: it is 'ceph osd setcrushmap -i FILE'")
    path = next((it / words.file for it in maps.folders if (it / words.file).is_file()), None)
    if path is None:
        raise Refused("ENOENT", f"Can't open input file {words.file}: [Errno 2] No such file or directory")
    from .read_compiled import read_compiled

    crush = read_compiled(pathlib.Path(path))
    mark_holes(crush.buckets, 0 in maps.osds)
    lacking = [it for it in maps.pools.values() if it.rule not in crush.rules]
    if lacking:
        raise Refused("EINVAL", f"the crush rule no {lacking[0].rule} for pool id {lacking[0].id} is in use")
    maps.crush = crush
    return []


COMMANDS = {
    ("osd", "crush", "reweight"): reweight,
    ("osd", "crush", "reweight-subtree"): reweight_subtree,
    ("osd", "crush", "reweight-all"): reweight_all,
    ("osd", "crush", "add"): add_or_set,
    ("osd", "crush", "set"): add_or_set,
    ("osd", "crush", "create-or-move"): create_or_move,
    ("osd", "crush", "move"): move,
    ("osd", "crush", "link"): link,
    ("osd", "crush", "unlink"): taken_out,
    ("osd", "crush", "rm"): taken_out,
    ("osd", "crush", "remove"): taken_out,
    ("osd", "crush", "add-bucket"): add_bucket,
    ("osd", "crush", "swap-bucket"): swap_bucket,
    ("osd", "crush", "rename-bucket"): rename_bucket,
    ("osd", "crush", "set-all-straw-buckets-to-straw2"): all_straw2,
    ("osd", "crush", "set-device-class"): set_class,
    ("osd", "crush", "rm-device-class"): rm_class,
    ("osd", "crush", "tunables"): tunables,
    ("osd", "setcrushmap"): set_crush_map,
}
