"""What types and calls mean in a function of the project's, and what the standard library gives."""
from house_parts.items import LIST, TUPLE

UNIT = (TUPLE, ())
# a type of a library, which no function of the project's is asked of
LIBRARY = ("library", ())
BOXES = ("Rc", "Box", "Arc")
CELLS = ("Cell", "RefCell")
MAYBES = ("Option", "Result")
LISTS = (LIST, "Vec", "VecDeque", "Option")
# calls of the standard library, by what they give: the same type, what is in it, or an item of it
SAME = "as_ref as_mut as_deref as_slice as_mut_slice iter iter_mut copied rev take skip min max filter or map_err"
SAME = frozenset(SAME.split())
INNER = frozenset("unwrap unwrap_or expect".split())
ITEM = frozenset("get get_mut last first pop next find peek remove".split())


def is_known(type):
    """Whether a type is one of the project's."""
    return type is not None and "::" in type[0]


def opened(type):
    """A type without the boxes around it."""
    while type and type[0] in BOXES and type[1]:
        type = type[1][0]
    return type


def item_of(type):
    """The type of what a list has."""
    type = opened(type)
    return type[1][0] if type and type[0] in LISTS and type[1] else None


def inner_of(type):
    """What is in an option or a result; another type is itself."""
    if type and type[0] in MAYBES:
        return type[1][0] if type[1] else None
    return type


def of_library(type, name, given):
    """What a call of a library's type gives, where `given` are the types that it is given."""
    first = given[0] if given else None
    if type[0] in CELLS:
        return type[1][0] if type[1] else LIBRARY
    if name in SAME:
        return type
    if name in INNER:
        return inner_of(type) or first
    if name == "clone":
        return "Result", (type,)
    if name in ("ok", "ok_or"):
        return "Option" if name == "ok" else "Result", type[1][:1]
    if name in ("and_then", "map_or", "fold"):
        return given[-1] if given else None
    if name in ("map", "filter_map"):
        return type[0] if type[0] in MAYBES else LIST, (inner_of(first) if name == "filter_map" else first,)
    if name == "enumerate":
        return LIST, ((TUPLE, (LIBRARY, item_of(type))),)
    if name == "zip":
        return LIST, ((TUPLE, (item_of(type), item_of(first))),)
    if name in ITEM:
        # of a map by name the value, of a list the item
        return "Option", (type[1][-1] if type[1] else LIBRARY,)
    return LIBRARY if type[0] not in BOXES else None


def unify(pattern, type, generics, bound):
    """Finds what generics stand for, where what is written as `pattern` has a type."""
    if pattern is None or type is None:
        return
    if pattern[0] in generics:
        bound.setdefault(pattern[0], type)
        return
    type = type if pattern[0] in BOXES else opened(type)
    for one, other in zip(pattern[1], type[1]):
        unify(one, other, generics, bound)


class Meanings:
    """What names mean in a function, where its generics are `bound` to types. A generic that isn't
    has the type that `traits` has for its bound in this file, or everywhere."""

    def __init__(self, crates, traits, function, bound):
        self.crates, self.traits, self.function = crates, traits, function
        self.bound = {it: bound.get(it) or self.by_traits(its) for it, its in function.generics.items()}
        if function.owner:
            self.bound["Self"] = self.whole(function.owner)

    def by_traits(self, names):
        found = (self.traits.get((it, self.function.file)) or self.traits.get(it) for it in names)
        return next((self.crates.anywhere(it) for it in found if it), None)

    def whole(self, type, bound=None, place=None):
        """A type as it is written in a crate's file, with whole names of the project's."""
        bound, place = self.bound if bound is None else bound, place or self.function.place
        if type is None or type[0] in bound:
            return bound[type[0]] if type else None
        name, given = type[0], tuple(self.whole(it, bound, place) for it in type[1])
        *path, last = name.split("::")
        if name in (LIST, TUPLE) or path and path[0] in self.crates.names:
            return name, given
        if path and path[0][0].isupper():
            return None
        if path:
            first = (self.crates.imported(place, path[0]) or path)[0]
            place = (place[0] if first == "crate" else first, None)
        key = self.crates.named(last, *place)
        found = key and self.crates.types[tuple(key.split("::"))]
        return self.whole(found.other, {}, found.place) if found and found.other else (key or last, given)

    def parts(self, type, variant=None):
        """The types of the fields of a struct, or of the parts of a variant."""
        found = self.crates.types.get(tuple(type[0].split("::"))) if is_known(type) else None
        if found is None:
            return {}
        fields = found.fields if variant is None else found.fields.get(variant, {})
        bound = dict(zip(found.generics, type[1]))
        return {name: self.whole(it, bound, found.place) for name, it in fields.items() if not isinstance(it, dict)}

    def field(self, type, name):
        if is_known(type):
            return self.parts(type).get(name)
        if type and type[0] == TUPLE and name.isdigit() and int(name) < len(type[1]):
            return type[1][int(name)]
        return LIBRARY if type and type[0] not in (TUPLE, *LISTS, *MAYBES) else None

    def methods(self, type, name):
        """The functions that a name may mean, asked of a type of the project's."""
        found = [it for it in self.crates.functions.get((type[0], name), []) if it.body]
        fitting = [it for it in found if all(self.fits(it, *both) for both in zip(it.owner[1], type[1]))]
        return fitting or found

    def fits(self, function, written, type):
        return written is None or written[0] in function.generics or self.whole(written, {}, function.place) == type

    def meant(self, path):
        """The functions that a path may mean, or None where it is a library's."""
        *before, name = path
        if before and (before[-1][0].isupper() or before[-1] in self.bound):
            type = self.whole(("::".join(before), ()))
            return self.methods(type, name) if is_known(type) else None
        first = (self.crates.imported(self.function.place, path[0]) or path)[0]
        if first not in (*self.crates.names, "crate") and (before or first != name):
            # a module of this crate, or a library
            own = self.crates.functions.get((self.function.crate, name), [])
            return [it for it in own if before and it.file == f"{path[0]}.rt"] or None
        path = [self.function.crate if it == "crate" else it for it in path]
        return self.crates.free(tuple(path), *self.function.place)

    def given(self, function, types, generics):
        """What a call returns of a function that is given these types, and what its generics then
        stand for."""
        bound = {}
        for (_, pattern), type in zip(function.parameters, types):
            unify(function.owner if pattern == ("Self", ()) else pattern, type, function.generics, bound)
        bound |= dict(zip([it for it in function.generics if it not in bound], generics))
        inner = Meanings(self.crates, self.traits, function, bound)
        return inner.whole(function.returned), inner.bound
