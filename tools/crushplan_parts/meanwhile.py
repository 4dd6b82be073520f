"""Groups that have fewer copies while data moves, as OSDs that hold some are down or gone by then:
copies that are made anew count as there once all of them are."""
from .commands_osd import comes_up
from .summary import copies_in


class Meanwhile:
    """What groups lack between two moments. `alive` are the OSDs that serve their data, each set
    with the number of the line from which on, or None. `short` are groups with fewer copies than
    before and than the pool's size, `stopped` those that lose their I/O by it, by name; `fewest` is
    how many copies are left of the group that has fewest, `short_from` and `stopped_from` the lines
    from which on, `lacking` the OSDs that are missed."""

    def __init__(self, alive):
        self.alive, self.always = alive, frozenset.intersection(*(own for _, own in alive))
        self.short, self.stopped, self.lacking = [], set(), set()
        self.fewest = self.short_from = self.stopped_from = None

    def take(self, pool, group, up):
        """Takes a group that lies so before."""
        missed = {it for it in up if it is not None} - self.always
        if not missed:
            return
        wanted, name = min(copies_in(up), pool.size), pool.group_name(group)
        left = [(number, copies_in([it if it in own else None for it in up])) for number, own in self.alive]
        below = [number for number, copies in left if copies < wanted]
        if not below:
            return
        fewest = min(copies for _, copies in left)
        self.short.append(name)
        self.lacking |= missed
        self.fewest, self.short_from = least(self.fewest, fewest), least(self.short_from, below[0])
        if fewest < min(pool.min_size, wanted) and not pool.stretched:
            self.stopped.add(name)
            first = next(number for number, copies in left if copies < pool.min_size)
            self.stopped_from = least(self.stopped_from, first)

    def words(self):
        """Returns what is short, from where on, in words, or None."""
        if not self.short:
            return None
        count = len(self.short)
        named = f"{', '.join(self.short[:3])}{', ..' if count > 3 else ''}"
        groups = f"{self.short[0]} has" if count == 1 else f"{count:,} groups ({named}) have"
        left = f"{self.fewest} at least" if count > 1 else f"{self.fewest}"
        return f"{from_line(self.short_from)}{groups} fewer copies until others are made: {left}"


def alive_in(maps):
    """Returns the OSDs that have their data and serve it, at once or once they are up again."""
    return frozenset(id_ for id_, it in maps.osds.items() if (it.up or comes_up(maps, it)) and not it.destroyed)


def least(first, second):
    """Returns the lesser of two numbers, of which one may be None."""
    return min((it for it in (first, second) if it is not None), default=None)


def from_line(number):
    return "" if number is None else f"from line {number} on "
