"""Files of definitions and proofs: what each declares, what its `use` lines bring in and pass on,
and what the names in its text mean.
"""
import re

from items import Meaning
from sources import definitions

NAME = r'[^\s(){}.;,@"«»]+'
# a name or several, as a line declares them
SIGNED = rf"(?:(?![=|→λ:](?:\s|$)){NAME}\s+)+:(?=\s|$)"
WORD = re.compile(rf'"(?:\\.|[^"\\])*"|\.?{NAME}(?:\.{NAME})*')
IMPORT = re.compile(r"(?:(?:pub|unfoldable)\s+)*(?:use|mod)\s")
PASSED_ON = re.compile(r"(?:pub\s+|unfoldable\s+){1,2}use\s")
CHILD = re.compile(rf"(?:pub\s+)?mod\s+({NAME})")
USE = re.compile(
    rf"(?:ghost\s+)?(?:pub\s+|unfoldable\s+)*use\s+(?P<path>{NAME}(?:\.{NAME})*)"
    rf"(?:(?P<all>\.\*)|\.\{{(?P<items>.*)\}}|\s+as\s+(?P<alias>{NAME}))?\s*;?\s*$",
    re.S,
)
MARKS = r"(?:(?:pub|abbrev|unfoldable|pattern)\s+)*"
DECLARED = re.compile(
    rf"{MARKS}(?:(?P<kind>data|record|ruleset)\s+(?P<name>{NAME})|(?P<block>module|mutual)\b"
    rf"|(?P<fixity>infix[lr]?)\b|(?P<names>{SIGNED}))"
)
# what a block or a type declares further in
INNER = re.compile(rf"^\s+{MARKS}(?:(?:data|record)\s+)?({SIGNED})", re.M)
INNER_TYPE = re.compile(rf"^\s+{MARKS}(?:data|record)\s+({NAME})", re.M)
# what others see the text of, and not what it says alone
OPEN = re.compile(rf"{MARKS}(?:abbrev|unfoldable|data|record|ruleset|module|mutual|infix\w?)\b")
# the files of a function's own proof
OWN = ("Answers", "Invariants", "Proof")


def uses_of(line, home, children, known):
    """What a `use` line of definitions brings: (name, path of its module, name there), with None
    for the latter where it names a module, and '*' where it takes all."""
    found = USE.match(line)
    if not found:
        return None
    path = tuple(found["path"].split("."))
    if path[0] in children:
        path = (*home, *path)
    elif path[0] in known and path[0] != "Rattle":
        path = (*known[path[0]], *path[1:])
    if found["all"]:
        return [("*", path, "*")]
    if found["items"] is None:
        return [(found["alias"] or path[-1], path, None)]
    brought = []
    for part in found["items"].split(","):
        words = part.split()
        if words:
            *inner, name = words[0].split(".") if words[0].strip(".") else [words[0]]
            brought.append((words[2] if len(words) == 3 and words[1] == "as" else name, (*path, *inner), name))
    return brought


class Scope:
    """The names in sight in clauses, definitions and proofs of a file. Its operators go by their
    parts too."""

    def __init__(self, names, above=None):
        self.names, self.above, self.brought, self.found, self.words = names, above, {}, {}, {}

    def bring(self, name, path, item):
        """Brings in an item of another module, by its name there; a module, with None in its place;
        or with no path an item of one's own, by its number."""
        for part in {name, *(filter(None, name.split("◌")) if "◌" in name else ())}:
            self.brought.setdefault(part, []).append((path, item, name))

    def modules(self):
        return {name: some[0][0] for name, some in self.brought.items() if some[0][1] is None}

    def meaning(self, name):
        """(items, outside, paths of modules) or None where the name isn't in sight."""
        if name not in self.found:
            items, outside, modules = set(), set(), []
            for path, item, spelt in self.brought.get(name, ()):
                if item is None:
                    modules.append(path)
                elif path is None:
                    items.add(item)
                    outside.add(spelt)
                else:
                    some, other = self.names.named(path, item)
                    items |= some
                    outside |= other
            seen = (items, outside, modules) if items or outside or modules else None
            self.found[name] = seen or (self.above.meaning(name) if self.above else None)
        return self.found[name]

    def put(self, text, into):
        """Reads a text of clauses, definitions or proofs."""
        refs = into.refs

        def marked(found):
            word = found[0]
            if word not in self.words:
                self.words[word] = self.mark(word)
            mark, items = self.words[word]
            refs.extend(items)
            return mark

        into.parts.append(WORD.sub(marked, text))

    def mark(self, word):
        """What stands for a word, and the items that it may mean."""
        if word[0] in '".':
            return word, ()
        made = Meaning()
        first, *rest = word.split(".")
        if first == "Rattle" and len(rest) > 2:
            self.names.put_path(rest, made)
            return made.said, made.refs
        seen = self.meaning(first)
        if seen is None:
            return word, ()
        items, outside, modules = seen
        if rest and modules:
            if all(self.names.lacks(it, rest[0]) for it in modules):
                return word, ()
            for module in modules:
                some, other = self.names.named(module, rest[0])
                items, outside = items | some, outside | other
            rest = rest[1:]
        elif not items and not outside:
            outside = {".".join([*module, *rest]) for module in modules}
        made.refer(items, outside)
        if rest:
            made.say(".".join(["", *rest]))
        return made.said, made.refs


class Definitions:
    """A file of specs or of proofs: what it declares, and what it brings in and passes on."""

    def __init__(self, names, crate, path, text):
        self.names, self.crate, self.path = names, crate, path
        self.scope, self.declares, self.blocks, self.globs, children = Scope(names), {}, [], [], set()
        home = ("Rattle", crate, *path)
        for block in self.split(definitions(text)):
            if found := CHILD.match(block):
                children.add(found[1])
                self.scope.bring(found[1], (*home, found[1]), None)
            elif (brought := uses_of(block, home, children, self.scope.modules())) is not None:
                for name, module, item in brought:
                    if name == "*":
                        self.globs.append(module)
                    else:
                        self.scope.bring(name, module, item)
            else:
                self.blocks.append(block)
        self.declare()

    @staticmethod
    def split(text):
        """The blocks of a file: a line at the margin that declares or imports, with all up to the
        next such line."""
        blocks = []
        for line in text.split("\n"):
            if not blocks or (not line[:1].isspace() and (IMPORT.match(line) or DECLARED.match(line))):
                blocks.append(line)
            else:
                blocks[-1] += "\n" + line
        return [it for it in blocks if it.strip()]

    def declare(self):
        is_proof, is_own = self.path[0] == "proofs", self.path[-1] in OWN
        for block in self.blocks:
            found, inner = DECLARED.match(block), []
            if not found:
                # a definition without its type, as an answer may be
                named = block.split()[:1]
                if not is_own:
                    self.names.lost(".".join([self.crate, *self.path]), named[0])
            elif found["fixity"]:
                named = [it for it in block.split() if "◌" in it]
            else:
                named = [found["name"]] if found["name"] else (found["names"] or "").split()[:-1]
            if found and (found["block"] or found["kind"] == "data"):
                inner = [name for it in INNER.findall(block) for name in it.split()[:-1]] + INNER_TYPE.findall(block)
            # what a shut lemma says counts, and not how it is proved
            is_shut = is_proof and found and found["names"] and not OPEN.match(block)
            self.new(" ".join(named), {*named, *inner}, block, "\n".join(self.statement(block)) if is_shut else block)

    def new(self, name, declares, block, shown):
        kind = "lemma" if self.path[0] == "proofs" else "definition"
        item = self.names.new(kind, name, self.crate, lambda: self.read(shown))
        item.whole = lambda: self.read(block)
        for it in declares:
            self.declares.setdefault(it, set()).add(item.number)
            self.scope.bring(it, None, item.number)

    @staticmethod
    def statement(block):
        first, *more = block.split("\n")
        yield first
        for line in more:
            if not line[0].isspace():
                return
            yield line

    def read(self, text):
        made = Meaning()
        self.scope.put(text, made)
        return made
