"""Sources: the items of a crate's modules, what their `use` items bring in, and what the names in
their code and clauses mean.
"""
import re

from definitions import Scope, uses_of
from items import Meaning, Place
from sources import TOKEN, body_of, closing

IDENTIFIER = re.compile(r"[A-Za-z_]\w*$")
ATTRIBUTE = re.compile(r"\s*#\s*(!?)\s*\[")
WORDS = r"(?:(?:unsafe|async|default|const(?=\s+(?:unsafe\s+|extern\s+)*fn\b)|extern\s+\"[^\"]*\"(?=\s*fn\b))\s+)*"
HEAD = re.compile(
    rf"(?P<pub>(?:pub\s*(?:\([^)]*\)\s*)?)?){WORDS}"
    r"(?P<kind>ghost\s+use|ghost|use|mod|fn|const|static|struct|enum|union|type|trait|impl|macro_rules\s*!"
    r"|extern\s+crate|[\w:]+\s*!)(?P<more>\s*(?P<name>\w*))"
)
TEST_ITEM = re.compile(r"#\s*\[\s*(?:cfg\s*\(\s*test\s*\)|test)\s*\]")
GHOST = re.compile(r"\b(?:requires|ensures|decreases|ghost)\b[^{}();]*\{")


class Code:
    """A module of a crate's sources: the items in it by their names, and what it imports."""

    def __init__(self, crate, path):
        self.crate, self.path = crate, path
        self.items, self.children, self.uses, self.globs = {}, {}, {}, []
        self.ghosts, self.tactic = None, None


class CodeReader:
    """Reads the sources of a crate."""

    def __init__(self, names, crate):
        self.names, self.crate = names, crate
        self.modules = names.code[crate]
        self.linked = []

    def module(self, path):
        if path not in self.modules:
            self.modules[path] = Code(self.crate, path)
            self.modules[path].ghosts = Scope(self.names)
            if path:
                self.module(path[:-1]).children[path[-1]] = path
        return self.modules[path]

    def read(self):
        self.module(())
        for file, source in self.names.sources(self.crate).items():
            path = tuple(file.removeprefix("src/").removesuffix(".rt").split("/"))
            path = () if path in (("lib",), ("main",)) else path[:-1] if path[-1] == "mod" else path
            self.items(file, source, self.module(path), 0, len(source.code))
        for link in self.linked:
            link()

    # ---- items of a module

    def heads(self, source, at, end):
        """(attributes, head, where the item begins, its end) of each item between these places."""
        code, bare = source.code, source.bare
        while at < end:
            while at < end and bare[at] in " \t\n\r;,":
                at += 1
            start, inner = at, []
            while at < end and (found := ATTRIBUTE.match(bare, at)):
                stop = matching(bare, found.end() - 1)
                if found[1]:
                    inner.append(code[at:stop])
                    start = stop
                at = stop
            if inner:
                yield inner, None, start, at
            while at < end and bare[at].isspace():
                at += 1
            if at >= end:
                return
            head = HEAD.match(bare, at)
            if not head:
                self.names.lost(self.crate, code[at : at + 40].split("\n")[0])
                at = past(bare, at, ";\n")
                continue
            stop = self.item_end(source, head)
            yield code[start:at], head, start, stop
            at = max(stop, at + 1)

    def item_end(self, source, head):
        bare, kind = source.bare, head["kind"].split()[0]
        if kind == "fn":
            body = body_of(bare, head.end())
            return closing(bare, body) if body is not None else past(bare, head.end(), ";")
        if kind in ("struct", "enum", "union", "trait", "impl", "mod") or kind.startswith("macro_rules"):
            stop = past(bare, head.end(), ";{")
            return closing(bare, stop - 1) if bare[stop - 1 : stop] == "{" else stop
        if kind == "ghost" and re.match(r"\s*:", bare[head.end() :]):
            return past(bare, head.end(), ",;")
        if kind.endswith("!"):
            stop = past(bare, head.end() - len(head["more"]), ";{(")
            return closing(bare, stop - 1) if bare[stop - 1] == "{" else stop
        return past(bare, head.end() - len(head["more"]), ";")

    def items(self, file, source, module, start, end):
        for attributes, head, begin, stop in self.heads(source, start, end):
            if head is None:
                module.tactic = next((it for it in attributes if re.search(r"\btactic\b", it)), module.tactic)
                continue
            if TEST_ITEM.search(attributes):
                continue
            kind, name = head["kind"].split()[0], head["name"]
            if kind.endswith("!") and not kind.startswith("macro_rules"):
                kind = "invocation"
            if head["kind"].startswith("ghost") and head["kind"] != "ghost":
                self.ghost_use(source.code[head.start() : stop], module.ghosts)
            elif kind == "use":
                self.use(source.code[head.start("kind") + 3 : stop].strip().rstrip(";"), module)
            elif kind == "mod":
                path = self.module((*module.path, name))
                if source.bare[stop - 1] == "}":
                    path.ghosts = Scope(self.names, module.ghosts)
                    brace = source.bare.index("{", head.end())
                    self.items(file, source, path, brace + 1, stop - 1)
            elif kind == "extern":
                continue
            elif kind == "impl":
                self.impl(file, source, module, begin, head, stop)
            elif kind == "trait":
                self.trait(file, source, module, begin, head, stop)
            elif kind == "fn":
                item = self.function(file, source, module, module.ghosts, begin, head, stop)
                module.items.setdefault(name, []).append(item.number)
            else:
                item = self.plain(kind, name, source, module, module.ghosts, begin, stop)
                if kind == "invocation":
                    # what it declares isn't known
                    self.names.foreign.append((self.crate, False, item.number, {}))
                    continue
                module.items.setdefault(name, []).append(item.number)
                if kind.startswith("macro_rules"):
                    self.names.macros.setdefault((self.crate, name), []).append(item.number)
                    self.names.expanded[item.number] = source.code[head.end() : stop]

    def plain(self, kind, name, source, module, ghosts, begin, stop):
        return self.names.new(kind, name, self.crate, lambda: self.read_code(source, module, ghosts, [(begin, stop)]))

    def ghost_use(self, text, scope):
        for name, path, item in uses_of(" ".join(text.split()), (), (), scope.modules()) or ():
            scope.bring(name, path, item)

    def use(self, text, module):
        for path, name in flat_uses(TOKEN.findall(text), []):
            if name == "*":
                module.globs.append(path)
            elif name != "_":
                module.uses.setdefault(name, []).append(path)

    # ---- functions, impls and traits

    def function(self, file, source, module, ghosts, begin, head, stop, frame=None, owners=()):
        body = body_of(source.bare, head.end())
        body = stop if body is None else body
        text = source.code[begin:body]
        # a cycle of calls has one proof, in which each body is seen; and a type that the head
        # leaves open is that of the body
        shown = stop if re.search(r"#\s*\[\s*cycle\b|->\s*impl\b", text) else body
        spans = [(begin, head.start()), (head.end("pub"), shown)]
        whole = [spans[0], (head.end("pub"), stop)]

        def read(parts):
            return self.read_code(source, module, ghosts, parts, frame)

        item = self.names.new("fn", head["name"], self.crate, lambda: read(spans))
        item.whole = lambda: read(whole)
        item.place = Place((module, ghosts), begin, frame, owners)
        for owner in owners:
            self.names.folders[self.crate, module.path, *owner, head["name"]] = item.number
        self.names.functions[self.crate, file, body] = item
        return item

    def members(self, source, module, start, end):
        """The members between these places, and the names that their `ghost use` lines bring."""
        ghosts, found = Scope(self.names, module.ghosts), []
        for attributes, head, begin, stop in self.heads(source, start, end):
            if head is None or TEST_ITEM.search(attributes):
                continue
            if head["kind"].startswith("ghost") and head["kind"] != "ghost":
                self.ghost_use(source.code[head.start() : stop], ghosts)
            else:
                found.append((head, begin, stop))
        return ghosts, found

    def impl(self, file, source, module, begin, head, stop):
        brace = past(source.bare, head.end(), "{") - 1
        ghosts, members = self.members(source, module, brace + 1, stop - 1)
        spans = [(begin, brace), *((at, to) for it, at, to in members if it["kind"] != "fn")]
        frame = self.names.new("impl", "", self.crate, lambda: self.read_code(source, module, ghosts, spans))
        functions = {}
        trait, owner = impl_of(source.code[head.end("kind") : brace])
        of = re.findall(r"[A-Z]\w*", owner)
        owner, traits = path_in(owner), path_in(trait or "")
        last = [it[-1] for it in (owner, traits) if it]
        owners = [("".join(last),), ("+".join(of),), (last[0],)] if last else ()
        for it, at, to in members:
            if it["kind"] == "fn":
                item = self.function(file, source, module, ghosts, at, it, to, frame.number, owners)
                functions.setdefault(it["name"], []).append(item.number)

        def link():
            walk = self.names.walk
            types = walk(self.crate, module.path, owner)[0] if owner else set()
            frame.trait = walk(self.crate, module.path, traits)[0] if traits else set()
            entry = self.crate, trait is not None, frame.number, functions
            for it in types:
                self.names.impls.setdefault(it, []).append(entry)
            if not types or any(self.names.items[it].kind == "type" for it in types):
                self.names.foreign.append(entry)

        self.linked.append(link)

    def trait(self, file, source, module, begin, head, stop):
        brace = past(source.bare, head.end(), "{") - 1
        ghosts, members = self.members(source, module, brace + 1, stop - 1)
        spans = [(begin, brace), *((at, to) for it, at, to in members)]
        item = self.names.new("trait", head["name"], self.crate, lambda: self.read_code(source, module, ghosts, spans))
        module.items.setdefault(head["name"], []).append(item.number)
        for it, at, to in members:
            if it["kind"] == "fn":
                self.function(file, source, module, ghosts, at, it, to, item.number, [(head["name"],)])

    # ---- texts

    def read_code(self, source, module, ghosts, spans, frame=None):
        made = Meaning()
        for begin, stop in spans:
            put_code(self.names, source.code[begin:stop], source.bare[begin:stop], module, ghosts, made)
        if frame is not None:
            made.refer([frame])
        return made


def put_code(names, code, bare, module, ghosts, made):
    """Reads a text of code, with its clauses."""
    at = 0
    while found := GHOST.search(bare, at):
        stop = closing(bare, found.end() - 1)
        put_tokens(names, code[at : found.end()], module, ghosts, made)
        ghosts.put(" ".join(code[found.end() : stop - 1].split()), made)
        made.say("}")
        at = stop
    put_tokens(names, code[at:], module, ghosts, made)


def put_tokens(names, code, module, ghosts, made):
    words, at = TOKEN.findall(code), 0
    while at < len(words):
        word = words[at]
        if not IDENTIFIER.match(word):
            made.say(word)
            at += 1
            continue
        # behind a dot, which isn't that of a range, or behind `::`
        if at and (words[at - 1] == "." and words[at - 2 : at - 1] != ["."] or words[at - 2 : at] == [":", ":"]):
            made.calls.add(word)
            made.say(word)
            at += 1
            continue
        path, end = [word], at + 1
        while words[end : end + 2] == [":", ":"] and end + 2 < len(words) and IDENTIFIER.match(words[end + 2]):
            path.append(words[end + 2])
            end += 3
        items, _, outside, left = names.walk(module.crate, module.path, path)
        if not items and words[end : end + 1] == ["!"]:
            items = names.macro(module.crate, path[-1])
            left = [] if items else left
        if not items and not outside and len(path) == 1 and (seen := ghosts.meaning(word)):
            items, outside = seen[0], seen[1]
            left = []
        for it in items if words[end : end + 1] == ["!"] else ():
            names.expand(it, module, ghosts, made)
        if items or outside:
            made.refer(items, outside)
            for it in left:
                made.say(f":: {it}")
        else:
            made.say(" :: ".join(path))
            left = path[1:]
        made.calls.update(left)
        at = end


def matching(bare, at):
    """Behind the bracket that closes the one at this place."""
    depth = 0
    for place in range(at, len(bare)):
        depth += (bare[place] in "([{") - (bare[place] in ")]}")
        if depth == 0:
            return place + 1
    return len(bare)


def past(bare, at, ends):
    """Behind the first of these letters outside brackets."""
    while at < len(bare):
        if bare[at] in ends:
            return at + 1
        at = matching(bare, at) if bare[at] in "([{" else at + 1
    return len(bare)


def flat_uses(words, before):
    """(path, name) of each name that a `use` item of code brings."""
    path = list(before)
    at = 0
    while at < len(words):
        word = words[at]
        if word == "{":
            depth, start, parts = 0, at + 1, []
            for place in range(at, len(words)):
                depth += (words[place] == "{") - (words[place] == "}")
                if depth == 1 and words[place] == "," or depth == 0:
                    parts.append(words[start:place])
                    start = place + 1
                    if depth == 0:
                        break
            for part in parts:
                yield from flat_uses(part, path)
            return
        if word == "*":
            yield path, "*"
            return
        if word == "as":
            yield path, words[at + 1]
            return
        if word == "self" and path:
            at += 1
            continue
        if IDENTIFIER.match(word):
            path.append(word)
        at += 1
    if path:
        yield path, path[-1]


def impl_of(head):
    """(trait or None, type) of the head of an impl."""
    head = head.split(" where ")[0].strip()
    if head.startswith("<"):
        depth = 0
        for place, letter in enumerate(head):
            depth += (letter == "<") - (letter == ">" and head[place - 1] != "-")
            if depth == 0:
                head = head[place + 1 :].strip()
                break
    found = re.split(r"\bfor\b", head, maxsplit=1)
    return (found[0].strip(), found[1].strip()) if len(found) == 2 else (None, head)


def path_in(text):
    """The words of the path with which a type begins."""
    text = re.sub(r"'\w+|\b(?:mut|dyn|const|impl)\b|[&*(\[!]", " ", text)
    found = re.match(r"\s*(\w+(?:\s*::\s*\w+)*)", text)
    return re.findall(r"\w+", found[1]) if found else []
