"""What ends the program with a sentence and status 2: input that can't be read or computed."""


class Fault(Exception):
    """Says what is wrong, with its file, line, field or name."""


class NoAnswer(Fault):
    """Says why crushcalc, a program or a server, gave no answer: what was asked stays unknown."""

    FIRST = "unknown: "

    def __init__(self, why):
        super().__init__(self.FIRST + why)


def nearest(name, names):
    """Returns the end of a sentence about a name that isn't there: the name most like it."""
    import difflib

    found = difflib.get_close_matches(name, list(names), n=1, cutoff=0.5)
    return f"; the nearest is {found[0]}" if found else ""


def some(names, most=6):
    """Returns names as a list in words, cut after some of them."""
    names = [str(it) for it in names]
    if len(names) > most:
        return ", ".join(names[:most]) + f" and {len(names) - most} more"
    return ", ".join(names)


def counted(number, one, many=None):
    """Returns a number with its noun, as '1 group' or '1,535 groups'."""
    return f"{number:,} {one if number == 1 else many or one + 's'}"
