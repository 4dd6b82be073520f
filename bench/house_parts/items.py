"""The items of the crates: functions, types and imports, as far as walks need them.

A type is a pair of a name and the types that it is given; a name of the project's is
`crate::Name`. `[]` is a list of any sort, `()` a tuple.
"""
import dataclasses
import functools
from typing import NamedTuple

from house_parts.lexing import NAME, closed, up_to

LIST, TUPLE = "[]", "()"


@dataclasses.dataclass(eq=False)
class Function:
    """`place`: its crate and file. `owner`: the type that it is a method of. `body`: its tokens."""

    place: tuple
    owner: tuple
    name: str
    generics: dict
    parameters: tuple
    returned: tuple
    body: tuple

    @property
    def crate(self):
        return self.place[0]

    @property
    def file(self):
        return self.place[1]

    def owned(self):
        return f"{self.owner[0].split('::')[-1]}::{self.name}" if self.owner else self.name

    def named(self):
        return f"{self.file} {self.owned()}"

    def is_law(self):
        """Whether it does nothing but call laws."""
        texts = [it.text for it in self.body[1:-1]]
        calls = all(texts[at + 1 : at + 4] == ["(", ")", ";"] for at in range(0, len(texts), 4))
        return calls and not self.owner and not self.returned


class Type(NamedTuple):
    """`fields`: those of a struct, or the parts of each variant of an enum. `other`: the type that
    it is another name of."""

    place: tuple
    generics: tuple = ()
    fields: dict = {}
    other: tuple = None


BEFORE_TYPES = {"&", "&&", "mut", "dyn", "impl", "*", "const", "?"}


def type_at(tokens, at):
    """The type that is written there, and where it ends."""
    while at < len(tokens) and (tokens[at].text in BEFORE_TYPES or tokens[at].text[0] == "'"):
        at += 1
    if at == len(tokens) or tokens[at].text == "!":
        return None, at + 1
    if tokens[at].text in (LIST[0], TUPLE[0]):
        end, inner = closed(tokens, at), split(tokens[at + 1 : closed(tokens, at) - 1], ",", ";")
        if tokens[at].text == LIST[0]:
            return (LIST, (type_at(inner[0], 0)[0],)), end
        return (TUPLE, tuple(type_at(it, 0)[0] for it in inner)), end
    if tokens[at].text == "<":
        at = angle_end(tokens, at) - 1
    path, given = [tokens[at].text], ()
    at += 1
    while at < len(tokens) and tokens[at].text in ("::", "<", "("):
        if tokens[at].text == "(":
            at = closed(tokens, at)
        elif tokens[at].text == "<":
            end = angle_end(tokens, at)
            inner = [it for it in split(tokens[at + 1 : end - 1], ",") if it and it[0].text[0] != "'"]
            given, at = tuple(type_at(it, 0)[0] for it in inner), end
        elif tokens[at + 1].text != "<":
            path.append(tokens[at + 1].text)
            at += 2
        else:
            at += 1
    return ("::".join(path), given), at


def angle_end(tokens, at):
    depth = 0
    while at < len(tokens):
        if tokens[at].text in "([{":
            at = closed(tokens, at)
            continue
        depth += (tokens[at].text == "<") - (tokens[at].text == ">")
        at += 1
        if depth == 0:
            break
    return at


def split(tokens, *marks):
    """The parts between these marks, which stand in no bracket."""
    found, part, depth, at = [], [], 0, 0
    while at < len(tokens):
        text = tokens[at].text
        end = closed(tokens, at) if text in "([{" else at + 1
        depth += (text == "<") - (text == ">")
        if text in marks and depth <= 0:
            found.append(part)
            part = []
        else:
            part += tokens[at:end]
        at = end
    return [*found, part] if part else found


def generics_of(tokens):
    """The generic names of a list in angles, each with the traits that bound it."""
    found = {}
    for part in split(tokens[1:-1], ","):
        if part and part[0].text[0] != "'" and part[0].text != "const":
            found[part[0].text] = tuple(it.text for it in part[2:] if it.kind == NAME)
    return found


def flat(tokens, before=()):
    """(name here, path) of each name that a `use` brings in."""
    for part in split(tokens, ","):
        brace = next((at for at, it in enumerate(part) if it.text == "{"), None)
        path = [*before, *(it.text for it in part[:brace] if it.text != "::")]
        if brace is not None:
            yield from flat(part[brace + 1 : -1], path)
        elif "as" in path:
            yield path[-1], tuple(path[:-2])
        else:
            path = path[:-1] if path[-1] == "self" else path
            yield path[-1], tuple(path)


class Crates:
    """What crates have, by name: `functions` by crate or owner, `types`, and `imports` by file."""

    def __init__(self, sources):
        self.all, self.functions, self.types, self.imports = [], {}, {}, {}
        sources = [it for it in sources if it.end == ".rt" and it.sort == "code"]
        self.names = sorted({it.crate for it in sources})
        for it in sources:
            Reader(self, (it.crate, it.path.rpartition("/")[2]), it.parts.items).items(None, {})
        for it in self.all:
            owner = self.named(it.owner[0], *it.place) or it.owner[0] if it.owner else it.crate
            self.functions.setdefault((owner, it.name), []).append(it)
        self.methods = {it.name for it in self.all if it.owner and it.body}
        self.named = functools.cache(self.named)

    def named(self, name, crate, file=None):
        """The type of the project that a name means in a crate's file, or for other crates; or
        None. Where a crate only shows it, it is one of that name."""
        path = self.imported((crate, file), name)
        at = path[0] if path else crate
        if (at, name) in self.types:
            return f"{at}::{name}"
        if at not in self.names or file and not path:
            return None
        return next((f"{it}::{name}" for it in self.names if (it, name) in self.types), None)

    def variants(self):
        """(type, variant) of each."""
        return {(name, it) for (_, name), type in self.types.items() for it in type.fields}

    def anywhere(self, name):
        """The type that has this name in some crate."""
        return next(((f"{crate}::{it}", ()) for crate, it in self.types if it == name), None)

    def imported(self, place, name):
        return self.imports.get(place, {}).get(name)

    def free(self, path, crate, file):
        """The functions that a path may mean in a file: where it stands, or is brought from, or
        else, as where another crate shows it, all of its name."""
        *modules, name = path
        own = [it for it in self.functions.get((crate, name), []) if it.file == file]
        if not modules and own:
            return own
        first = self.imported((crate, file), path[0])
        path = (*first, *path[1:]) if first and path[0] not in self.names else path
        crate = path[0] if path[0] in self.names else crate
        found = self.functions.get((crate, name), [])
        found = [it for it in found if it.file in {f"{module}.rt" for module in path[:-1]}] or found
        return found or [it for it in self.all if it.name == name and not it.owner]


class Reader:
    """Reads the items of one source."""

    def __init__(self, crates, place, tokens, at=0, end=None):
        self.crates, self.place, self.tokens, self.at, self.end = crates, place, tokens, at, end or len(tokens)
        self.crate = place[0]

    def items(self, owner, generics):
        test = False
        while self.at < self.end:
            text = self.tokens[self.at].text
            if text == "#":
                start = self.at
                self.at = closed(self.tokens, up_to(self.tokens, self.at, "["))
                test = test or any(it.text == "test" for it in self.tokens[start : self.at])
                continue
            if text == "pub":
                self.at += 1 + (self.tokens[self.at + 1].text == "(") * 3
                continue
            if test and text != "const":
                end = up_to(self.tokens, self.at, ";", "{")
                self.at = closed(self.tokens, end)
            elif text == "use":
                self.use()
            elif text == "fn":
                self.function(owner, generics)
            elif text in ("impl", "trait"):
                self.block(text)
            elif text in ("struct", "enum"):
                self.type(text)
            elif text == "type":
                self.alias(owner)
            elif text in ("const", "static") and self.tokens[self.at + 1].text != "fn" or text == "mod":
                self.at = up_to(self.tokens, self.at, ";") + 1
            else:
                self.at += 1
            test = False

    def use(self):
        start, self.at = self.at + 1, up_to(self.tokens, self.at, ";") + 1
        for name, path in flat(self.tokens[start : self.at - 1]):
            path = (self.crate, *path[1:]) if path[0] in ("crate", "self") else path
            self.crates.imports.setdefault(self.place, {})[name] = path

    def given(self):
        """The generics at this place, if any."""
        if self.tokens[self.at].text != "<":
            return {}
        start, self.at = self.at, angle_end(self.tokens, self.at)
        return generics_of(self.tokens[start : self.at])

    def function(self, owner, generics):
        name, self.at = self.tokens[self.at + 1].text, self.at + 2
        generics = {**generics, **self.given()}
        end = closed(self.tokens, self.at)
        parameters = []
        for part in split(self.tokens[self.at + 1 : end - 1], ","):
            texts = [it.text for it in part if it.text not in ("mut", "&") and it.text[0] != "'"]
            if texts[0] == "self":
                parameters.append(("self", ("Self", ())))
            elif texts[1] == ":":
                colon = next(at for at, it in enumerate(part) if it.text == ":")
                parameters.append((texts[0], type_at(part, colon + 1)[0]))
        returned = None
        if self.tokens[end].text == "->":
            returned, end = type_at(self.tokens, end + 1)
        body = up_to(self.tokens, end, "{", ";")
        self.at = closed(self.tokens, body) if self.tokens[body].text == "{" else body + 1
        code = tuple(self.tokens[body : self.at]) if self.tokens[body].text == "{" else ()
        found = Function(self.place, owner, name, generics, tuple(parameters), returned, code)
        self.crates.all.append(found)

    def block(self, kind):
        self.at += 1
        generics = self.given()
        (name, types), self.at = type_at(self.tokens, self.at)
        if kind == "trait":
            self.crates.types[self.crate, name] = Type(self.place)
        elif self.tokens[self.at].text == "for":
            (name, types), self.at = type_at(self.tokens, self.at + 1)
        start = up_to(self.tokens, self.at, "{")
        self.at = closed(self.tokens, start)
        inner = Reader(self.crates, self.place, self.tokens, start + 1, self.at - 1)
        inner.items((name.split("::")[-1], types), generics)

    def type(self, kind):
        name, self.at = self.tokens[self.at + 1].text, self.at + 2
        generics, fields = tuple(self.given()), {}
        start = up_to(self.tokens, self.at, "{", ";", "(")
        self.at = closed(self.tokens, start) if self.tokens[start].text != ";" else start + 1
        for number, part in enumerate(split(self.tokens[start + 1 : self.at - 1], ",")):
            while part and part[0].text in ("#", "pub", "("):
                part = part[closed(part, 1 if part[0].text == "#" else 0) :]
            if not part:
                continue
            if kind == "enum":
                fields[part[0].text] = named_parts(part[1:])
            elif self.tokens[start].text == "{":
                fields[part[0].text] = type_at(part, 2)[0]
            else:
                fields[str(number)] = type_at(part, 0)[0]
        self.crates.types[self.crate, name] = Type(self.place, generics, fields)

    def alias(self, owner):
        name, start = self.tokens[self.at + 1].text, self.at
        self.at = up_to(self.tokens, self.at, ";") + 1
        equal = up_to(self.tokens, start, "=", ";")
        if self.tokens[equal].text == "=" and owner is None:
            self.crates.types[self.crate, name] = Type(self.place, other=type_at(self.tokens, equal + 1)[0])


def named_parts(tokens):
    """The parts of a variant, by number or by name."""
    if not tokens or tokens[0].text not in ("(", "{"):
        return {}
    parts = split(tokens[1 : closed(tokens, 0) - 1], ",")
    if tokens[0].text == "(":
        return {str(number): type_at(it, 0)[0] for number, it in enumerate(parts)}
    return {it[0].text: type_at(it, 2)[0] for it in parts}
