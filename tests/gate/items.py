"""What a crate declares, as items: a function, a type, a constant, a trait, an impl without its
functions, a definition of specs, a lemma of proofs; and their texts with the items that these name.
"""
import hashlib


def sha(*parts):
    made = hashlib.sha256()
    for part in parts:
        data = part.encode()
        made.update(f"{len(data)}\n".encode() + data)
    return made.hexdigest()


class Meaning:
    """A text with the items that it names: `said`, with a mark for each; `refs`, these in their
    order, each as the items that the name may mean; and `calls`, the names behind a dot or `::`,
    which a type that is in sight may have as functions."""

    def __init__(self):
        self.parts, self.refs, self.calls, self.all_named = [], [], set(), None

    def say(self, text):
        if self.parts and self.parts[-1] == "," and text in (")", "]", "}", ">"):
            self.parts.pop()
        self.parts.append(text)

    def refer(self, items, outside=()):
        self.say("".join(["\0", *(f" {it}" for it in sorted(outside))]))
        self.refs.append(tuple(sorted(items)))

    @property
    def said(self):
        return " ".join(self.parts)

    @property
    def named(self):
        if self.all_named is None:
            self.all_named = {it for some in self.refs for it in some}
        return self.all_named


class Item:
    """What is declared: its number, its kind, its name, its crate, and how to read its text."""

    def __init__(self, number, kind, name, crate, read):
        self.number, self.kind, self.name, self.crate, self.read = number, kind, name, crate, read
        self.made = self.whole = None
        # of a function its place (Place), of an impl its trait
        self.place = self.trait = None

    @property
    def meaning(self):
        if self.made is None:
            self.made = self.read()
        return self.made


class Place:
    """Where a function stands: its module with the names in sight in clauses, where its item begins
    in the code, the impl or the trait around it, and what its folder of proofs may be named
    after."""

    def __init__(self, scope, begin, frame, owners):
        self.scope, self.begin, self.frame, self.owners = scope, begin, frame, owners
