"""pgs.json: where the cluster itself says that groups lie, as `ceph pg dump pgs_brief -f json`
writes it."""
import json

from .faults import Fault

NONE = 2_147_483_647  # an item that is none, in Ceph's lists


class Said:
    """What the cluster says of a group: its state, its up list and the primary of that."""

    __slots__ = ("state", "up", "primary", "acting")

    def __init__(self, state, up, primary, acting):
        self.state, self.up, self.primary, self.acting = state, up, primary, acting


def read_pgs(path):
    """Reads a dump of groups, by pool and group. Releases before 14 write the list alone."""
    if not path.exists():
        return None
    try:
        whole = json.loads(path.read_bytes())
        rows = whole if isinstance(whole, list) else whole["pg_stats"]
        found = {}
        for row in rows:
            pool, group = row["pgid"].split(".")
            up, acting = (listed(row[name]) for name in ("up", "acting"))
            primary = row.get("up_primary", -1)
            found.setdefault(int(pool), {})[int(group, 16)] = Said(
                row["state"], up, primary if primary >= 0 else None, acting
            )
        return found
    except OSError as error:
        raise Fault(f"{path}: {error.strerror or error}") from None
    except (ValueError, TypeError, KeyError, AttributeError):
        raise Fault(f"{path.name}: it isn't what 'ceph pg dump pgs_brief -f json' writes") from None


def listed(items):
    if not isinstance(items, list) or not all(type(it) is int for it in items):
        raise ValueError
    return [None if it == NONE or it < 0 else it for it in items]


def is_said(said):
    """Returns whether the cluster says where a group lies: of one that is stale or just made it
    doesn't."""
    return said is not None and (said.up or said.state not in ("unknown", "creating")) and "stale" not in said.state
