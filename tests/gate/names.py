"""What the names in crates' sources, definitions and proofs mean: each is resolved, through `use`
lines and what other files pass on, to the item that it names.

An item's text is kept without imports and with a mark for each item that it names, so that neither
an item's place nor how a file comes to its name counts. What isn't the repository's, as std's
words, stands in the text by the path of its origin. Where a name that a file imports isn't found,
all of the crate that it names counts, and `unknown` has it.
"""
from definitions import PASSED_ON, Definitions, uses_of
from items import Item, sha
from prover import below, kit
from rattle import CodeReader, put_tokens
from sources import definitions

# how far what a name means goes into the digest of the text that names it; all beyond is in the
# digest of an edit by itself
ROUNDS = 2


class Names:
    """The names of the crates below a folder; a crate is read when it is first asked for."""

    def __init__(self, top, crates, sources):
        self.top, self.crates, self.sources = top, crates, sources
        self.items, self.code, self.files, self.functions = [], {}, {}, {}
        # of a type its impls: (crate, trait or None, frame, functions by their names)
        self.impls, self.foreign, self.macros = {}, [], {}
        self.unknown, self.outside, self.named_memo, self.walked, self.hashed = {}, {}, {}, {}, {}
        self.everything, self.walks, self.folders = {}, {}, {}
        # the texts of macros, and those in whose text a name is looked up
        self.expanded, self.expanding = {}, set()

    # ---- items

    def new(self, kind, name, crate, read):
        item = Item(len(self.items), kind, name, crate, read)
        self.items.append(item)
        self.everything.setdefault(crate, []).append(item.number)
        return item

    def hash(self, number, rounds=ROUNDS):
        """The digest of an item's text in which each name has the digest of what it names, so many
        times over."""
        if (number, rounds) not in self.hashed:
            meaning = self.items[number].meaning
            if rounds:
                below = ("+".join(sorted({self.hash(it, rounds - 1) for it in some})) for some in meaning.refs)
                self.hashed[number, rounds] = sha(self.hash(number, 0), *below)
            else:
                item = self.items[number]
                self.hashed[number, 0] = sha(item.kind, item.name, meaning.said)
        return self.hashed[number, rounds]

    def said(self, meaning):
        """What a text says, in which each name has the digest of what it names."""
        return sha(meaning.said, *("+".join(sorted({self.hash(it) for it in some})) for some in meaning.refs))

    def lost(self, where, what):
        self.unknown.setdefault(where, set()).add(what)

    # ---- definitions

    def load(self, crate):
        if crate in self.code:
            return
        folder = self.top / "crates" / crate
        self.code[crate] = {}
        for part in ("specs", "proofs"):
            for it in sorted((folder / part).rglob("*.antt")):
                path = it.relative_to(folder).with_suffix("").parts
                path = path[:-1] if path[-1] == "Lib" else path
                self.files[crate, path] = it
        CodeReader(self, crate).read()

    def file(self, crate, path):
        """A file of definitions, or None."""
        found = self.files.get((crate, path))
        if found is not None and not isinstance(found, Definitions):
            found = self.files[crate, path] = Definitions(self, crate, path, found.read_text(encoding="utf-8"))
        return found

    def all_of(self, crate):
        """The items of a crate."""
        for of, path in list(self.files):
            if of == crate:
                self.file(of, path)
        return self.everything.get(crate, ())

    def named(self, path, name):
        """(items, outside) that this name means in the module with this path."""
        key = path, name
        if key not in self.named_memo:
            self.named_memo[key] = set(), set()
            self.named_memo[key] = self.find(path, name)
        return self.named_memo[key]

    def find(self, path, name):
        if path[0] != "Rattle" or len(path) < 2 or path[1] not in self.crates:
            return set(), {self.origin(path, name)}
        crate, inner = path[1], path[2:]
        self.load(crate)
        file = self.file(crate, inner)
        if file:
            if name in file.declares:
                return set(file.declares[name]), {name}
            if name in file.scope.brought:
                items, outside, _ = file.scope.meaning(name) or (set(), set(), [])
                return set(items), set(outside)
            for it in file.globs:
                items, outside = self.named(it, name)
                if items or outside:
                    return items, outside
        made = self.generated(crate, [*inner, name])
        if made:
            return made[0], {".".join(made[1])} if made[1] else set()
        file = self.file(crate, inner[:-1]) if inner else None
        if file and inner[-1] in file.declares:
            # a constructor behind its type
            return set(file.declares[inner[-1]]), {name}
        for end in range(len(inner) - 1, 0, -1):
            # a module that a file passes on
            file = self.file(crate, inner[:end])
            for module, item, _ in file.scope.brought.get(inner[end], ()) if file else ():
                if item is None and (further := (*module, *inner[end + 1 :])) != path:
                    return self.named(further, name)
        self.lost(".".join(path), name)
        return set(self.all_of(crate)), {".".join([*path, name])}

    def generated(self, crate, words):
        """What the toolchain names after the sources: (items, words left), or None."""
        if words[0] == "specs" and words[1] in ("declared", "contracts"):
            return self.generated_in(crate, (), words[2:])
        return self.generated_in(crate, (), words[1:]) if words[0] == "proofs" else None

    def generated_in(self, crate, module, words):
        while words and words[0].startswith("The"):
            words = words[1:]
        at = self.code[crate].get(module)
        if not words or not at:
            return None
        word, left = words[0], words[1:]
        if word in at.children and (made := self.generated_in(crate, (*module, word), left)):
            return made
        if left and (crate, module, word, left[0]) in self.folders:
            return {self.folders[crate, module, word, left[0]]}, left[1:]
        spelt = word.removeprefix("out-"), word.removeprefix("+")
        items = {number for it in spelt for number in at.items.get(it, ())}
        # what a module passes on goes by its path there too
        items = items or self.look_up(crate, module, word)[0]
        for it in list(items) if left else ():
            for of, _, _, functions in self.impls.get(it, ()):
                items |= set(functions.get(left[0], ())) if of == crate else set()
        return (items, [it for it in left if not it.startswith("The")]) if items else None

    def lacks(self, path, name):
        """Whether the module with this path is a file without this name: then what stands there is
        a variable that hides the module."""
        if path[0] != "Rattle" or path[1] not in self.crates:
            return False
        self.load(path[1])
        file = self.file(path[1], path[2:])
        return file is not None and not (name in file.declares or name in file.scope.brought or file.globs)

    def put_path(self, words, into):
        """A name by its whole path."""
        crate = words[0]
        if crate not in self.crates:
            into.refer((), {".".join(["Rattle", *words])})
            return
        self.load(crate)
        for end in range(len(words) - 1, 0, -1):
            if (crate, tuple(words[1:end])) in self.files:
                items, outside = self.named(("Rattle", *words[:end]), words[end])
                into.refer(items, outside)
                into.say(".".join(words[end + 1 :]))
                return
        items, outside = self.named(("Rattle", *words[:-1]), words[-1])
        into.refer(items, outside)

    def origin(self, path, name):
        """The path of a name that isn't the repository's, through what the toolchain's files pass
        on."""
        key = path, name
        if key not in self.outside:
            self.outside[key] = ".".join([*path, name])
            if path[0] == "Rattle" and len(path) > 3:
                for at, item in self.passed_on(path).get(name, ())[:1]:
                    self.outside[key] = self.origin(at, item)
        return self.outside[key]

    def passed_on(self, path):
        if path not in self.walked:
            self.walked[path] = {}
            file = kit() / "rattle" / path[1] / "/".join(path[2:])
            file = next((it for it in (file.with_suffix(".antt"), file / "Lib.antt") if it.is_file()), None)
            if file:
                for line in definitions(file.read_text(encoding="utf-8")).split("\n"):
                    for name, module, item in (uses_of(line, path, (), {}) or ()) if PASSED_ON.match(line) else ():
                        if item not in (None, "*"):
                            self.walked[path].setdefault(name, []).append((module, item))
        return self.walked[path]

    # ---- sources

    def look_up(self, crate, module, name, seen=frozenset()):
        """What a name means in a module of code: (items, modules, outside)."""
        self.load(crate)
        at = self.code[crate].get(module)
        if at is None or (crate, module, name) in seen:
            return set(), set(), set()
        seen = seen | {(crate, module, name)}
        items, modules, outside = set(at.items.get(name, ())), set(), set()
        if name in at.children:
            modules.add((crate, (*module, name)))
        for path in at.uses.get(name, ()):
            some, more, other, left = self.walk(crate, module, path, seen)
            items, modules, outside = items | some, modules | more, outside | other
            if left and some:
                outside.add("::".join(left))
        if not (items or modules or outside):
            for path in at.globs:
                some, more, _, left = self.walk(crate, module, path, seen)
                if some:
                    self.lost(f"{crate}::{'::'.join(module)}", "::".join([*path, "*"]))
                for inner, path_there in more if not left else ():
                    found = self.look_up(inner, path_there, name, seen)
                    items, modules, outside = items | found[0], modules | found[1], outside | found[2]
        return items, modules, outside

    def macro(self, crate, name):
        """The macros of this name in the crate and below, which go by no path."""
        return {number for it in (crate, *below(self.crates, crate)) for number in self.macros.get((it, name), ())}

    def expand(self, number, module, ghosts, made):
        """Adds what the names of a macro's text mean where it is called."""
        if number in self.expanded and number not in self.expanding:
            self.expanding.add(number)
            put_tokens(self, self.expanded[number], module, ghosts, made)
            self.expanding.remove(number)

    def walk(self, crate, module, path, seen=frozenset()):
        """What a path of code means: (items, modules, outside, words left)."""
        if seen:
            return self.walk_on(crate, module, path, seen)
        key = crate, module, tuple(path)
        if key not in self.walks:
            self.walks[key] = self.walk_on(crate, module, path, seen)
        return self.walks[key]

    def walk_on(self, crate, module, path, seen):
        first, rest = path[0], list(path[1:])
        if first == "crate":
            at = {(crate, ())}
        elif first == "self":
            at = {(crate, module)}
        elif first == "super":
            at = {(crate, module[:-1])}
            while rest and rest[0] == "super":
                at, rest = {(it, inner[:-1]) for it, inner in at}, rest[1:]
        else:
            items, at, outside = self.look_up(crate, module, first, seen)
            if items and not (at and rest):
                return items, set(), set(), rest
            if outside:
                return items, at, {"::".join([it, *rest]) for it in outside}, []
            if not at:
                if first in self.crates[crate]:
                    if first not in self.crates:
                        return set(), set(), {"::".join(path)}, []
                    at = {(first, ())}
                elif first in ("std", "core", "alloc"):
                    return set(), set(), {"::".join(path)}, []
                else:
                    return set(), set(), set(), list(path)
        while rest:
            if rest[0] in ("specs", "proofs") and len(rest) > 1 and any(not inner for _, inner in at):
                root = next(it for it, inner in at if not inner)
                items, outside = self.named(("Rattle", root, *rest[:-1]), rest[-1])
                return items, set(), outside, []
            items, modules, outside = set(), set(), set()
            for it, inner in at:
                found = self.look_up(it, inner, rest[0], seen)
                items, modules, outside = items | found[0], modules | found[1], outside | found[2]
            rest = rest[1:]
            if items and not (modules and rest):
                return items, set(), outside, rest
            if not modules:
                return items, set(), outside, rest
            at = modules
        return set(), at, set(), []
