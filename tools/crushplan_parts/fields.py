"""Files of JSON, and their fields by name: each that is missing or of another kind is a Fault with
its file and its path in it."""
import decimal
import json
import pathlib
import re

from .faults import Fault

KINDS = {int: "a whole number", str: "a text", list: "a list", dict: "an object", decimal.Decimal: "a number"}
REQUIRED = object()
MOST_DIGITS = 20
NAN = re.compile(r"(?<=[:\[,\s])-?(?:nan|inf)(?=\s*[,}\]])")  # which Ceph writes, and JSON doesn't have


def load(path):
    """Reads a file of JSON; numbers with a point become exact decimals. A Fault where it can't be
    read."""
    path = pathlib.Path(path)
    try:
        text = path.read_bytes().decode("utf-8-sig")
    except OSError as error:
        raise Fault(f"{path}: {error.strerror or error}") from None
    except UnicodeDecodeError as error:
        raise Fault(f"{path}: it isn't JSON: byte {error.start} is no UTF-8") from None
    if not text.strip():
        raise Fault(f"{path}: it is empty")
    try:
        return parsed(text)
    except json.JSONDecodeError as error:
        raise Fault(f"{path}: line {error.lineno}: it isn't JSON ({error.msg})") from None
    except (RecursionError, ValueError) as error:
        raise Fault(f"{path}: it isn't JSON that can be read ({type(error).__name__})") from None


def parsed(text):
    """Returns what a text of JSON has; numbers that are none, as Ceph writes them, are NaN."""
    try:
        return json.loads(text, parse_float=decimal.Decimal)
    except json.JSONDecodeError:
        return json.loads(NAN.sub("NaN", text), parse_float=decimal.Decimal)


class Node:
    """A value of a file. Where it stands is put into words when these are wanted: `inside` is the
    node that has it, or None, and `name` its name there, or its place in a list."""

    __slots__ = ("value", "name", "inside")

    def __init__(self, value, name, inside=None):
        self.value, self.name, self.inside = value, name, inside

    @property
    def where(self):
        if self.inside is None:
            return self.name
        return (
            f"{self.inside.where}[{self.name}]" if isinstance(self.name, int) else f"{self.inside.where}: {self.name}"
        )

    def of_kind(self, kind):
        """Returns the value, which has to be of a kind."""
        value = self.value
        if type(value) is kind and kind is not decimal.Decimal:
            return value
        if kind is decimal.Decimal and isinstance(value, int) and not isinstance(value, bool):
            return decimal.Decimal(value)
        if not isinstance(value, kind) or isinstance(value, bool):
            raise Fault(f"{self.where} isn't {KINDS[kind]}")
        if kind is decimal.Decimal and not (value.is_finite() and (not value or abs(value.adjusted()) < MOST_DIGITS)):
            raise Fault(f"{self.where} isn't a number of at most {MOST_DIGITS} digits")
        return value

    def has(self, name):
        value = self.value
        return name in (value if type(value) is dict else self.of_kind(dict))

    def at(self, name):
        """Returns the member of a name."""
        if not self.has(name):
            raise Fault(f"{self.where} has no field {name!r}")
        return Node(self.value[name], name, self)

    def get(self, name, kind, default=REQUIRED):
        """Returns the value of a member; where it is missing the default, if there is one."""
        value = self.value.get(name) if type(self.value) is dict else None
        if type(value) is kind and kind is not decimal.Decimal:
            return value
        if kind is decimal.Decimal and type(value) is int:
            return decimal.Decimal(value)
        if default is not REQUIRED and not self.has(name):
            return default
        return self.at(name).of_kind(kind)

    def size(self, name, kind=int, default=REQUIRED):
        """Returns the value of a member that isn't below 0."""
        value = self.get(name, kind, default)
        if value < 0:
            raise Fault(f"{self.where}: {name} is below 0")
        return value

    def each(self, name, default=REQUIRED):
        """Yields the members of a list that is a member."""
        if default is not REQUIRED and not self.has(name):
            return
        inner = self.at(name)
        for place, value in enumerate(inner.of_kind(list)):
            yield Node(value, place, inner)

    def texts(self, name):
        """Returns the texts of a list that is a member; none where it is missing."""
        value = self.value.get(name) if type(self.value) is dict else None
        if type(value) is list and all([type(it) is str for it in value]):
            return value
        return [it.of_kind(str) for it in self.each(name, ())]

    def flag(self, name, default):
        """Returns whether a member is true or 1."""
        if not self.has(name):
            return default
        value = self.value[name]
        if value not in (0, 1):
            raise Fault(f"{self.where}: {name} is neither 0 nor 1")
        return bool(value)


def opened(path, name):
    """Returns the whole of a file as a node."""
    return Node(load(path), name)
