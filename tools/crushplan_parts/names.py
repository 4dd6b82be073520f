"""Names of devices and buckets as a planner gives them: single ones, ranges as osd.1-5, patterns as
r1h*, and the devices of a class alone; and the names of a folder for the completions of shells."""
import fnmatch
import pathlib
import re

from .faults import Fault, counted, nearest, some

RANGE = re.compile(r"(.*?)(\d{1,9})-(\d{1,9})")
WILD, EVERYTHING = re.compile(r"[*?[]"), "*"


def names_in(asked, command):
    """Returns the names of a command's arguments, of which there are some where no class is
    given."""
    if not asked.names and asked.of_class is None:
        or_each = ", or --each TYPE" if command == "fail" else ""
        raise Fault(f"crushplan {command} wants the names of hosts, racks or devices, or --class CLASS{or_each}")
    return asked.names


def of_class(plan, class_):
    """Returns a function that returns those of some devices that are of a class, or all where none
    is given. A Fault where no device has it."""
    if class_ is None:
        return list
    known, file = set(plan.map.classes.values()), plan.map.file
    if not known:
        raise Fault(f"{file} has no classes of devices")
    if class_ not in known:
        raise Fault(f"{file} has no device of the class {class_!r}{nearest(class_, known)}")
    return lambda devices: [it for it in devices if plan.map.classes.get(it) == class_]


class Chosen:
    """What words name, or a class alone: `names` of devices and buckets, and the devices at and
    below them, by id."""

    def __init__(self, plan, words, class_=None):
        self.plan, self.tree, self.words, self.class_ = plan, plan.tree, words, class_
        own, found, named = of_class(plan, class_), {}, {}
        for word in words or [EVERYTHING]:
            items = self.items(word)
            devices = own(device for item in items for device in plan.map.below(item))
            if not devices:
                raise Fault(f"{word} has no devices" + (f" of the class {class_}" if class_ else ""))
            found.update(dict.fromkeys(devices))
            named.update(dict.fromkeys(items if words else ()))
        self.devices, self.named = sorted(found), list(named)
        self.names = [plan.map.name_of(it) for it in named]

    def items(self, word):
        """Returns the items that a word names: itself, where there is an item of this name, else
        those of a pattern or a range."""
        ids, file = self.tree.ids, self.plan.map.file
        if word not in ids and WILD.search(word):
            found = [id_ for name, id_ in ids.items() if fnmatch.fnmatchcase(name, word)]
            if not found:
                raise Fault(f"{file} has no host, rack or device whose name is as {word!r}")
            return found
        parts = RANGE.fullmatch(word)
        if word in ids or not parts or not self.is_range(parts[1]):
            return [self.tree.item(word)]
        prefix, first, last = parts[1], int(parts[2]), int(parts[3])
        if first > last:
            raise Fault(f"{word} goes down: a range is as {prefix}{last}-{first}")
        found = {it: id_ for it, id_ in self.numbered(prefix) if first <= it <= last}
        if not found:
            raise Fault(f"{file} has none of {word}")
        absent = last - first + 1 - len(found)
        if absent:
            self.plan.cluster.warnings.append(f"of {word} {file} has {len(found):,}, and {absent:,} aren't there")
        return list(found.values())

    def numbered(self, prefix):
        """Yields the numbers that follow a prefix in names, each with its item; without a prefix
        the ids of devices."""
        if not prefix:
            yield from ((it, it) for it in self.plan.map.devices)
            return
        for name, id_ in self.tree.ids.items():
            rest = name[len(prefix) :]
            if name.startswith(prefix) and rest.isascii() and rest.isdigit():
                yield int(rest), id_

    def is_range(self, prefix):
        """Returns whether some name is a prefix and a number."""
        return next(self.numbered(prefix), None) is not None

    def text(self):
        """Says which devices are meant, where words don't name each of them."""
        if self.words and self.class_ is None and all(it in self.tree.ids or it.isdigit() for it in self.words):
            return ""
        buckets = [name for it, name in zip(self.named, self.names) if it < 0]
        of = f", below {some(buckets)}" if buckets else ""
        class_ = f" of the class {self.class_}" if self.class_ else ""
        devices = some([self.plan.map.name_of(it) for it in self.devices])
        return f"This is of {counted(len(self.devices), 'device')}{class_}{of}: {devices}."


def write_names(kind, folder):
    """Writes the names of one kind that a folder has, a line each: items (devices and buckets),
    types, classes or pools. It writes none of a folder that can't be read: it is asked while
    somebody types."""
    from .main import write_out

    try:
        found = NAMES[kind](pathlib.Path(folder))
    except (Fault, KeyError):
        found = ()
    write_out("".join(f"{it}\n" for it in found if it.isprintable()))
    return 0


def items_in(folder):
    map_ = map_in(folder)
    return [*(it.name for it in map_.buckets.values() if not it.shadow), *map_.devices.values()]


def types_in(folder):
    return list(map_in(folder).types.values())


def classes_in(folder):
    return sorted(set(map_in(folder).classes.values()))


def map_in(folder):
    from .cluster import read_map

    return read_map(folder, True)


def pools_in(folder):
    from .cluster import OSD_DUMP
    from .fields import opened

    return [it.get("pool_name", str) for it in opened(folder / OSD_DUMP, OSD_DUMP).each("pools")]


NAMES = {"items": items_in, "types": types_in, "classes": classes_in, "pools": pools_in}
