"""The deviations at which what a search may do changes."""
import fractions

from .balancing import HALF, ceiling


class Ladder:
    """The deviation 1/2, and all above it at which limits of some device change, by their place."""

    def __init__(self, balancings):
        self.parts = sorted({fractions.Fraction(0)}.union(*(it.turns() for it in balancings)))
        greatest = max((it.deviation(it.ground.counts) for it in balancings), default=fractions.Fraction(0))
        self.first = next((place for place, it in enumerate(self.parts) if it > HALF), len(self.parts)) - 1
        self.last = (ceiling(greatest) + 1) * len(self.parts)

    def at(self, place):
        whole, part = divmod(place, len(self.parts))
        return max(HALF, whole + self.parts[part])

    def first_where(self, holds):
        """Returns the first place at which something holds that then holds at all that follow."""
        low, high = self.first, max(self.first, self.last)
        while low < high:
            middle = (low + high) // 2
            if holds(self.at(middle)):
                high = middle
            else:
                low = middle + 1
        return low
