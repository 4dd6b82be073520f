"""Commands on OSDs: out, in, reweight, down, rm, purge, .. (OSDMonitor::prepare_command_impl)."""
from .commands import id_in, number_in, osd_in
from .crush_map import ONE
from .maps import Osd
from .wrapper import Refused, Wrapper

ALL = ("any", "all", "*")
LIMIT = "rack"  # the least type whose buckets Ceph doesn't mark out by itself where all of one is down
FLAGS = (
    "full",
    "pause",
    "noup",
    "nodown",
    "noout",
    "noin",
    "nobackfill",
    "norebalance",
    "norecover",
    "noscrub",
    "nodeep-scrub",
    "notieragent",
    "nosnaptrim",
    "sortbitwise",
    "recovery_deletes",
    "require_jewel_osds",
    "require_kraken_osds",
    "pglog_hardlimit",
    "noautoscale",
)


def each_osd(maps, words, act, unknown=None):
    """Does something to each OSD of a command. Each is judged by the maps before the line; a word
    that is no id makes the line EINVAL, and those before it are done."""
    ids = words.take(1, None, "ID..")
    if ids[0] in ALL:
        return [act(it) for it in sorted(maps.osds)]
    remarks, wrong, done = [], [], set()
    for text in ids:
        id_ = id_in(text)
        if id_ is None:
            wrong.append(text)
        elif id_ not in maps.osds and id_ not in done:
            remarks.append(f"osd.{id_} does not exist" if unknown is None else unknown)
        elif id_ not in done:
            remarks.append(act(id_))
            done.add(id_)
    if wrong:
        raise Refused("EINVAL", f"invalid osd id: {wrong[0]}", keeps=True)
    return remarks


def out(maps, words):
    def act(id_):
        it = maps.osds[id_]
        if not it.reweight:
            return f"osd.{id_} is already out"
        it.old, it.reweight, it.went_out = it.reweight, 0, False
        return None

    return each_osd(maps, words, act)


def in_(maps, words):
    def act(id_):
        it = maps.osds[id_]
        if it.reweight:
            return f"osd.{id_} is already in"
        it.reweight, it.old, it.went_out = it.old or ONE, 0, False
        return f"osd.{id_} comes in with the reweight {it.reweight / ONE:.5g}" if it.reweight != ONE else None

    return each_osd(maps, words, act)


def down(maps, words):
    back = []

    def act(id_):
        it = maps.osds[id_]
        if not it.up:
            return f"osd.{id_} is already down"
        it.up = False
        if it.runs and "noup" not in maps.flags:
            back.append(id_)
        return None

    remarks = each_osd(maps, words, act)
    if back:
        remarks.append(
            f"{'it is' if len(back) == 1 else 'they are'} up again in a second: 'ceph osd set noup' before it, or stop "
            "the process"
        )
    return remarks


def remove(maps, words):
    """Removes OSDs that are down. The error is that of the last, and others are done."""
    last = []

    def act(id_):
        last[:] = [id_] if maps.osds[id_].up else []
        if last:
            return f"osd.{id_} is still up; must be down before removal"
        forget(maps, id_)
        return f"the CRUSH map keeps osd.{id_} with its weight" if Wrapper(maps.crush).stands(id_) else None

    remarks = each_osd(maps, words, act)
    if last:
        raise Refused("EBUSY", f"osd.{last[0]} is still up; must be down before removal. ", keeps=True)
    return remarks


def forget(maps, id_):
    """Has an OSD exist no more; to CRUSH its weight stays what it was."""
    maps.gone[id_] = maps.osds.pop(id_).reweight


def sure_and_down(maps, words):
    """Returns the OSD of a purge or a destroy, which goes through the manager, or None where there
    is no such OSD."""
    (text,) = words.take(1, 1, "ID --yes-i-really-mean-it")
    id_ = osd_in(text)
    if not words.is_sure():
        raise Refused(
            "EPERM",
            (
                "Are you SURE?  Did you verify with 'ceph osd safe-to-destroy'?  This will mean real, permanent data"
                " loss. Pass --yes-i-really-mean-it if you really do."
            ),
        )
    if id_ in maps.osds and maps.osds[id_].up:
        raise Refused("EBUSY", f"osd.{id_} is not `down`.")
    return id_ if id_ in maps.osds else None


def destroy(maps, words):
    id_ = sure_and_down(maps, words)
    if id_ is None:
        return [f"osd.{osd_in(words.arguments[0])} does not exist"]
    maps.osds[id_].destroyed = True
    return []


def purge(maps, words):
    id_ = sure_and_down(maps, words)
    if id_ is None:
        return [f"osd.{osd_in(words.arguments[0])} does not exist"]
    forget(maps, id_)
    maps.gone.pop(id_)
    Wrapper(maps.crush).remove(id_)
    return []


def reweight(maps, words):
    text, weight = words.take(2, 2, "ID WEIGHT")
    id_, value = osd_in(text), int(ONE * number_in(weight, 0, 1))
    if id_ not in maps.osds:
        raise Refused("ENOENT", f"osd.{id_} does not exist")
    it = maps.osds[id_]
    it.reweight = value
    if value:
        # OSDMap::apply_incremental: an OSD that is in has no weight to come in with
        it.old, it.went_out = 0, False
    return []


def primary_affinity(maps, words):
    text, weight = words.take(2, 2, "ID WEIGHT")
    id_, value = osd_in(text), int(ONE * number_in(weight, 0, 1))
    if id_ not in maps.osds:
        raise Refused("ENOENT", f"osd.{id_} does not exist")
    maps.osds[id_].affinity = value
    return []


def create(maps, words):
    """A new OSD exists, in and down; the CRUSH map has none of it."""
    words.take(0, 2, "[UUID] [ID]")
    given = words.arguments[-1:] if words.arguments and id_in(words.arguments[-1]) is not None else []
    id_ = id_in(given[0]) if given else next(it for it in range(len(maps.osds) + 1) if it not in maps.osds)
    if id_ in maps.osds and not maps.osds[id_].destroyed:
        raise Refused("EEXIST", f"osd.{id_} exists already")
    maps.osds[id_] = Osd(up=False, runs=False)
    maps.gone.pop(id_, None)
    return [f"it is osd.{id_}, in and down"]


def flag(maps, words):
    (name,) = words.take(1, 1, "FLAG")
    if name not in FLAGS:
        raise Refused("EINVAL", f"Invalid command: {name} is no flag")
    (maps.flags.add if words.name[1] == "set" else maps.flags.discard)(name)
    return []


def process(maps, words):
    """The process of an OSD stops or starts, by systemctl on its host."""
    starts = words.name[1] == "start"
    for text in words.arguments:
        it = maps.osds.get(int(text))
        if it is None:
            raise Refused("ENOENT", f"osd.{text} does not exist")
        it.runs = starts
        if not starts and "nodown" not in maps.flags:
            it.up = False
        elif starts and "noup" not in maps.flags:
            come_up(maps, it)
    return []


def come_up(maps, it):
    """An OSD is up again, and in where it had gone out by itself."""
    it.up = True
    if it.went_out and "noin" not in maps.flags:
        it.reweight, it.old, it.went_out = it.old or ONE, 0, False


def comes_up(maps, it):
    """Returns whether an OSD is down whose process runs, and that is up again in a second."""
    return not it.up and it.runs and "noup" not in maps.flags and not it.destroyed


def await_clean(maps):
    """Returns the maps once enough time has passed, with what has happened by itself: OSDs whose
    process runs are up again, and others that the runbook took down are out."""
    found, remarks = maps.copied(), []
    for id_, it in found.osds.items():
        if comes_up(found, it):
            come_up(found, it)
            remarks.append(f"osd.{id_} is up again")
    return found, remarks


def kept_in(maps, ids):
    """Returns those of some OSDs that are down that stay in: the whole rack, or what is above one,
    is down (mon_osd_down_out_subtree_limit)."""
    of_rack = next((number for number, name in maps.crush.types.items() if name == LIMIT), None)
    if of_rack is None:
        return []
    is_down = lambda id_: id_ not in maps.osds or not maps.osds[id_].up
    racks = [set(maps.crush.below(it.id)) for it in maps.crush.buckets.values() if it.type >= of_rack and not it.shadow]
    down = set().union(*(own for own in racks if all(map(is_down, own))))
    return [it for it in ids if it in down]


def go_out(maps, ids):
    """Returns the maps once OSDs that were down for long are out, by mon_osd_down_out_interval."""
    found = maps.copied()
    for id_ in ids:
        it = found.osds[id_]
        it.old, it.reweight, it.went_out = it.reweight, 0, True
    return found


COMMANDS = {
    ("osd", "out"): out,
    ("osd", "in"): in_,
    ("osd", "down"): down,
    ("osd", "rm"): remove,
    ("osd", "destroy"): destroy,
    ("osd", "purge"): purge,
    ("osd", "reweight"): reweight,
    ("osd", "primary-affinity"): primary_affinity,
    ("osd", "create"): create,
    ("osd", "new"): create,
    ("osd", "set"): flag,
    ("osd", "unset"): flag,
    ("systemctl", "stop"): process,
    ("systemctl", "start"): process,
}
