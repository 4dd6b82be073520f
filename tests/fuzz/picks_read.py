"""What a pick's body is answered, by the rules of JSON and of picks: a reader of its own, over
Python's."""
import json
import math

from model import crush
from model.messages import BAD, item

DEPTH = 127


class Refused(ValueError):
    """The body isn't of the form."""


def is_deep(text):
    """Whether brackets outside of texts are nested too deep."""
    depth, place = 0, 0
    while place < len(text):
        it = text[place]
        if it == '"':
            place += 1
            while place < len(text) and text[place] != '"':
                place += 2 if text[place] == "\\" else 1
        elif it in "[{":
            depth += 1
            if depth > DEPTH:
                return True
        elif it in "]}":
            depth -= 1
        place += 1
    return False


def decimal(text):
    """A number with a point or an exponent, which is no whole number here; one past all floats is
    none at all."""
    if math.isinf(float(text)):
        raise Refused(text)
    return float(text)


def whole(text):
    """A whole number; -0 and one past 64 bits are floats."""
    number = int(text)
    return float(number) if text == "-0" or not -(2**63) <= number < 2**64 else number


def no_constant(text):
    raise Refused(text)


def no_half_of_a_pair(text):
    if any(0xD800 <= ord(it) < 0xE000 for it in text):
        raise Refused(text)


def no_half_within(value):
    if isinstance(value, str):
        no_half_of_a_pair(value)
    elif isinstance(value, list):
        for it in value:
            no_half_within(it)


class Members(dict):
    """An object whose texts are looked at as it is read, also those that a later member of the name
    replaces."""

    def __init__(self, pairs):
        for name, value in pairs:
            no_half_of_a_pair(name)
            no_half_within(value)
        super().__init__(pairs)


def number_in(asked, name, least, most):
    it = asked[name]
    if type(it) is not int or not least <= it <= most:
        raise Refused(name)
    return it


def has_exactly(asked, *names):
    if not isinstance(asked, dict) or sorted(asked) != sorted(names):
        raise Refused(names)


def pick_of(sent):
    """What is picked; Refused where the body isn't of its form."""
    text = sent.decode()
    if is_deep(text):
        raise Refused("nested too deep")
    asked = json.loads(
        text, object_pairs_hook=Members, parse_float=decimal, parse_int=whole, parse_constant=no_constant
    )
    has_exactly(asked, "bucket", "r", "x")
    bucket = asked["bucket"]
    has_exactly(bucket, "id", "items", "kind")
    if not isinstance(bucket["items"], list) or not 1 <= len(bucket["items"]) <= 4096:
        raise Refused("items")
    for it in bucket["items"]:
        has_exactly(it, "item", "weight")
    number, x, r = (
        number_in(bucket, "id", -65536, -1),
        number_in(asked, "x", 0, 2**32 - 1),
        number_in(asked, "r", 0, 2**31 - 1),
    )
    row = [(number_in(it, "item", -65536, 65535), number_in(it, "weight", 0, 2**32 - 1)) for it in bucket["items"]]
    weights = [weight for _, weight in row]
    if (
        bucket["kind"] not in ("uniform", "list", "tree")
        or sum(weights) > 2**32 - 1
        or (bucket["kind"] == "uniform" and len(set(weights)) > 1)
    ):
        raise Refused("kind")
    if len({it for it, _ in row}) != len(row) or number in {it for it, _ in row}:
        raise Refused("items")
    return crush.PICKS[bucket["kind"]](number, row, x, r)


def reply_to(sent):
    """The reply to the pick of a tenant that is there."""
    try:
        return item(pick_of(sent))
    except (ValueError, OverflowError, RecursionError):
        return BAD
