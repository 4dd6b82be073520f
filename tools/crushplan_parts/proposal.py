"""What is proposed for some pools together: the searches of each, by a deviation, by a greatest
number of moves or by how full devices may be, and their upmap items."""
import fractions

from .balancing import ceiling
from .ladder import Ladder
from .several import Fill, even_out, in_order

MOST_SEARCHES = 24  # of all pools, for one that keeps to a number of moves


class Stopped(Exception):
    """Says that a search was interrupted: where it is by then is kept."""


class Proposal:
    """Pools with the searches that even them out to a deviation, or to their shares rounded down
    and up, where it is None."""

    def __init__(self, balancings, deviation, watch):
        self.deviation, self.watch, self.extra, self.is_whole = deviation, watch, 0, True
        self.fill, self.pairs = Fill(balancings), []
        self.least = sum(it.least(deviation) for it in balancings)
        self.order = in_order(balancings, self.fill)

    def search(self):
        """Searches pool by pool, and returns itself."""
        try:
            for it in self.order:
                search = it.begun(self.deviation, self.fill.level_of(it), self.watch)
                self.pairs.append((it, search))
                it.run(search)
                self.fill.take(it, search.count)
        except Stopped:
            self.is_whole = False
        return self

    def even_bytes(self, percent, most=None):
        """Evens out the bytes of several pools by so many percent more moves, and at most so many
        in all."""
        room = self.cost * percent // 100
        if most is not None:
            room = min(room, most - self.cost)
        try:
            if self.is_whole:
                self.extra = even_out(self.pairs, self.fill, room, self.watch)
        except Stopped:
            self.is_whole = False
        return self

    @property
    def cost(self):
        return sum(search.cost for _, search in self.pairs)

    def reached(self):
        """Returns the greatest deviation of all pools."""
        return max((it.deviation(search.count) for it, search in self.pairs), default=fractions.Fraction(0))


def within_moves(balancings, most, watch):
    """Returns the proposal of the least deviation that moves at most so many copies."""
    ladder, best = Ladder(balancings), None
    enough = lambda it: all(of.is_possible(it) for of in balancings) and sum(of.least(it) for of in balancings) <= most
    place, step = ladder.first_where(enough), 1
    for _ in range(MOST_SEARCHES):
        found = Proposal(balancings, ladder.at(place), watch).search()
        if found.cost <= most and (best is None or found.reached() < best.reached()):
            best = found
        if not found.is_whole or found.cost <= most and found.reached() <= found.deviation or place >= ladder.last:
            break
        place, step = min(place + step, ladder.last), 2 * step
    # at the end of the ladder nothing has to move
    return best or Proposal(balancings, ladder.at(ladder.last), watch).search()


def until_fill(balancings, is_past, watch):
    """Returns the proposal of the greatest deviation, of those rounded down and up and whole
    numbers, after which no device is past a fill; if each leaves one, that of the shares
    rounded."""
    greatest = max((ceiling(it.deviation(it.ground.counts)) for it in balancings), default=0)
    low, high, best = 0, greatest, None
    while low <= high:
        middle = (low + high) // 2
        found = Proposal(balancings, fractions.Fraction(middle) if middle else None, watch).search()
        past = is_past(found)
        if best is None or not past:
            best = found
        if not found.is_whole:
            break
        low, high = (low, middle - 1) if past else (middle + 1, high)
    return best if not is_past(best) or not best.is_whole else Proposal(balancings, None, watch).search()
