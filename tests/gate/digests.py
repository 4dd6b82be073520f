"""The digest of all that the refusal of an edit rests on, which goes by what names mean (names.py).

That is the function that the edit changes, before and after, with its proofs, and all that these
name, and what that names, and so on, in its crate and in those below: heads with their clauses,
types with their invariants and the impls of traits for them, constants, definitions, lemmas. No
other item of a crate is in the prover's sight: a tactic reads the facts at its goal, each of a
call, a type, a test or a clause, and the list that it is given, and no set of lemmas is open to all
goals. (What a proof of `rt check` imports bears this out.) A shut lemma counts by what it says,
which is all that others see of it.

Where a text doesn't tell which item it means, each that it may mean counts: of `x.f()` each `f` of
a type in sight, of a macro what its names mean where it stands and where it is called. So where an
item stands, how a file comes to its names, other functions' bodies, comments and the layout of code
don't count. A file may move, a prelude come in between and two crates become one.

An edit that doesn't change the body of one function rests on its whole crate in the same way.
"""
import re

from definitions import OWN
from edits import Unfit
from items import Meaning, sha
from names import Names
from prover import below, crates_of
from rattle import put_code
from sources import TEST_MODULE, source_of

VISIBLE = re.compile(r"\bpub\s*(?:\([^)]*\)\s*)?(?=(?:unsafe\s+|async\s+|const\s+|extern\s+)*fn\b)")


class Digests:
    """Reads the crates below `top`; each text is read once."""

    def __init__(self, top):
        self.top, self.crates, self.read = top, crates_of(top), {}
        self.names = Names(top, self.crates, self.sources)
        self.seen, self.folders, self.wholes = {}, {}, {}

    def folder(self, crate):
        return self.top / "crates" / crate

    def texts_of(self, edits):
        """The files that these edits change, by their paths."""
        paths = {it.file: self.folder(it.crate) / (it.file or "") for it in edits}
        return {file: path.read_text(encoding="utf-8") if path.is_file() else "" for file, path in paths.items()}

    def sources(self, crate):
        """The crate's sources by their paths, without those of its tests."""
        if crate not in self.read:
            texts = {
                str(it.relative_to(self.folder(crate))): it.read_text(encoding="utf-8")
                for it in sorted((self.folder(crate) / "src").rglob("*.rt"))
            }
            sources = {path: source_of(text) for path, text in texts.items()}
            tests = {f"{name}.rt" for it in sources.values() for name in TEST_MODULE.findall(it.code)}
            self.read[crate] = {path: it for path, it in sources.items() if path.split("/")[-1] not in tests}
        return self.read[crate]

    # ---- what is in sight

    def visible(self, crate):
        if crate not in self.seen:
            self.seen[crate] = {crate, *below(self.crates, crate)}
            for it in sorted(self.seen[crate]):
                self.names.load(it)
        return self.seen[crate]

    def sight(self, crate, texts):
        """The items that these texts name, with what those name, and so on."""
        visible, names = self.visible(crate), self.names
        found, types, calls = set(), [], set().union(*(it.calls for it in texts))
        todo = [number for text in texts for some in text.refs for number in some]
        while todo:
            while todo:
                number = todo.pop()
                if number not in found:
                    found.add(number)
                    meaning = names.items[number].meaning
                    todo.extend(meaning.named)
                    calls |= meaning.calls
                    if number in names.impls:
                        types.append(number)
            todo = [it for entry in self.implied(types, found, calls, visible) for it in entry if it not in found]
        return found

    def digests(self, items):
        return sorted({self.names.hash(it) for it in items})

    def implied(self, types, found, calls, visible):
        """The impls for types in sight. Of an impl of the type alone its functions count that may
        be called; of one of a trait all, for code calls such without naming it: but where the trait
        is the repository's, only if it is in sight or a function of its names may be called."""
        names = self.names
        for crate, of_trait, frame, functions in (*(it for type in types for it in names.impls[type]), *names.foreign):
            called = [number for name in functions if name in calls for number in functions[name]]
            if crate not in visible:
                continue
            if not of_trait:
                yield frame, *called
            elif called or not names.items[frame].trait or names.items[frame].trait & found:
                yield frame, *(number for some in functions.values() for number in some)

    # ---- functions

    def proofs(self, place, name, crate):
        """The files of the function's own proof. A folder that is no function's counts for each
        function of its name."""
        names = self.names
        if crate not in self.folders:
            files = [path for of, path in names.files if of == crate and path[0] == "proofs" and path[-1] in OWN]
            own = [it for (of, _, _), it in names.functions.items() if of == crate]
            known = {path for it in own for path in paths_of(it.place, it.name)}
            self.folders[crate] = files, known
        files, known = self.folders[crate]
        mine = [it for it in files if it[:-1] in paths_of(place, name)]
        return mine or [it for it in files if it[-2].lstrip("+") == name and it[:-1] not in known]

    def changed(self, place, source, number):
        """What a function's text says, with the item that its impl or trait is."""
        made, end = Meaning(), source.functions[number].end
        code, bare = (it[place.begin : end] for it in (source.code, source.bare))
        if found := VISIBLE.search(bare):
            code, bare = (it[: found.start()] + it[found.end() :] for it in (code, bare))
        put_code(self.names, code, bare, *place.scope, made)
        if place.frame is not None:
            made.refer([place.frame])
        return made

    def tactic(self, module):
        """The attribute that says which tactics are tried in a module."""
        while module.path and not module.tactic:
            module = self.names.code[module.crate][module.path[:-1]]
        made, text = Meaning(), module.tactic or ""
        put_code(self.names, text, text, module, module.ghosts, made)
        return made

    def proof(self, place, name, crate):
        """What the function's proof says."""
        for path in sorted(self.proofs(place, name, crate)):
            made, file = Meaning(), self.names.file(crate, path)
            made.say(path[-1])
            for block in file.blocks:
                file.scope.put(block, made)
                made.say("\n")
            yield made

    # ---- edits

    def of_function(self, edit, text, number):
        """What the refusal of an edit of one body rests on, or None where its function can't be
        found."""
        self.visible(edit.crate)
        source = self.sources(edit.crate)[edit.file]
        item = self.names.functions.get((edit.crate, edit.file, source.functions[number].body))
        if item is None:
            self.names.lost(f"{edit.crate}/{edit.file}", source.functions[number].name)
            return None
        place = item.place
        after = source_of(edit.applied(text))
        texts = [self.changed(place, it, number) for it in (source, after)]
        texts += [self.tactic(place.scope[0]), *self.proof(place, item.name, edit.crate)]
        return [*(self.names.said(it) for it in texts), *self.digests(self.sight(edit.crate, texts))]

    def whole(self, crate):
        """All of a crate, and what it names."""
        if crate not in self.wholes:
            self.visible(crate)
            items = [self.names.items[it] for it in self.names.all_of(crate)]
            texts = [it.whole() if it.whole else it.meaning for it in items]
            texts += [self.tactic(it) for it in self.names.code[crate].values()]
            self.wholes[crate] = sorted({self.names.said(it) for it in texts}) + self.digests(self.sight(crate, texts))
        return self.wholes[crate]

    def of_edit(self, edit):
        """The edit's digest, or None where it can't be applied."""
        try:
            text = self.texts_of([edit])[edit.file]
            function = edit.function(text)
        except Unfit:
            return None
        made = self.of_function(edit, text, function[1]) if function else None
        return sha(*(made or [*(it for pair in edit.pairs for it in pair), *self.whole(edit.crate)]))[:16]


def paths_of(place, name):
    """The folders in which the proof of a function may lie."""
    return [("proofs", *place.scope[0].path, *owner, name) for owner in place.owners or [()]]
