"""What of a cluster's maps crushcalc takes: texts without the rules and pools that it refuses."""
from .faults import Fault
from .service import Later, at_once, change
from .texts import Texts

MOST_FAULTS = 200  # declarations that are left out of a map, one after the other


class MapRefused(Exception):
    """A plan's map is refused, in which a part has to be left out."""


class Acceptance:
    """Asks crushcalc whether it takes maps of a cluster. By `hoped` it is asked while others work:
    where it then refuses a part of the map, `confirm` ends by MapRefused."""

    def __init__(self, cluster, client):
        self.cluster, self.client = cluster, client
        self.unread = None  # the replies to a map, as long as it isn't known whether it is refused

    def written(self, map_, pools):
        """Returns the texts of a map for pools: with the devices that have states, or that the
        cluster's own map has."""
        return Texts(map_, pools.values(), self.cluster.states.keys() | self.cluster.map.devices.keys())

    def accepted(self, map_, pools, leave_out):
        """Returns the texts of a map for some pools, a dictionary, without the rules and pools that
        the service refuses: these are left out."""
        for _ in range(MOST_FAULTS):
            texts = self.written(map_, pools)
            if not pools:
                return texts
            replies = self.imported(texts)
            refused = next(((text, said) for text, ((status, said),) in zip(texts.all, replies) if status != 201), None)
            if refused is None:
                return texts
            text, said = refused
            if said.get("error") != "map_refused":
                raise Fault(f"{self.client.where} refuses the map: {said}")
            name, touched = touched_by(texts, text, said["line"], pools)
            for pool in touched:
                leave_out(
                    pool,
                    "map",
                    (
                        f"crushcalc refuses the {name} by its code {said['fault']} ('crushcalc check --help' says what"
                        " it means)"
                    ),
                )
                pools.pop(pool.id, None)
        raise Fault(f"{map_.file}: crushcalc refuses more than {MOST_FAULTS} declarations of it")

    def hoped(self, map_, pools):
        """Returns the texts of a map for some pools, which may be refused: `confirm` says so."""
        texts = self.written(map_, pools)
        self.unread = Later(lambda: self.imported(texts))
        return texts

    def imported(self, texts):
        """Returns the replies to texts of a map."""
        return at_once(self.client, [[change("/maps", text=it.text())] for it in texts.all])

    def confirm(self):
        """Waits until the map is read; MapRefused where a part of it is refused."""
        unread = self.unread
        if unread is not None:
            if any(status != 201 for ((status, _),) in unread.result()):
                raise MapRefused
            self.unread = None


def touched_by(texts, text, line, pools):
    """Returns the declaration that a line of a text belongs to, in words, and the pools that it
    touches."""
    map_, (kind, key) = texts.map, text.at_line(line)
    own = [it for it in pools.values() if texts.of[it.id] is text]
    if kind == "rule":
        return f"rule {map_.rules[key].name}", [it for it in own if it.rule == key] or own
    if kind == "bucket":
        below = [it for it in own if any(key in map_.buckets_below(item) for item in map_.rules[it.rule].takes())]
        return f"bucket {map_.buckets[key].name}", below or own
    return f"{kind} {key}" if key is not None else "map", own
