"""Walks of a request: the functions that it enters, in the order of their first entry.

A walk reads a function's body in the order in which it runs, finds the function that each call
means by imports and declared types, and goes on there when it is entered for the first time. What
types don't say is in a `Route`: which branches the request takes. Calls of libraries, of laws, and
those that no name shows (of operators, of what is dropped, of formats) aren't followed.
"""
from house_parts.items import LIST, TUPLE, angle_end, split, type_at
from house_parts.lexing import LITERAL, NAME, OPENING, closed, up_to
from house_parts.meanings import INNER, ITEM, LIBRARY, LISTS, SAME, UNIT, Meanings
from house_parts.meanings import inner_of, is_known, item_of, of_library, opened

TRUTHS = {"<", ">", "==", "!=", "<=", ">=", "&&", "||"}
RANGES = {"..", "..="}
BINARY = {*"+-*/%&|^=", *TRUTHS, *RANGES, "+=", "-=", "*=", "/=", "%=", "&=", "|=", "^="}
PREFIXES = {"&", "&&", "mut", "*", "-", "!", "move"}
# marks that go on with an expression where a block ends a statement
GOES_ON = BINARY - {"*", "&", "-", "<", "|", "||"} | {".", "?"}
BLOCKS = {"if", "match", "while", "loop", "for", "unsafe", "{"}
BEHIND = {"", ")", "]", "}", ",", ";"}


class Walk:
    """`entered`: the functions in order. `unknown`: (function, call) that couldn't be resolved.
    `unmet`: (function, call) and (type, variant) of the route that aren't met."""

    def __init__(self, crates, route):
        self.crates, self.route, self.times = crates, route, {}
        self.entered, self.unknown, self.met = [], [], set()
        for name in route.starts:
            start = [it for it in crates.all if it.named() == name and it.body]
            if len(start) != 1:
                raise LookupError(f"there are {len(start)} functions {name!r}, where a walk begins")
            self.enter(start[0], {})
        self.unmet = sorted([*route.entries() - self.met, *route.variants_but(crates.variants())])

    def enter(self, function, bound):
        """Goes on in a function that is entered for the first time, or for the second where the
        first time it did less."""
        times = self.times[function] = self.times.get(function, 0) + 1
        if times > 1 + (function.owned() in self.route.again) or not function.body or function.is_law():
            return
        if times == 1:
            self.entered.append(function)
        Body(self, function, bound).block()

    def is_skipped(self, function, calls, callee):
        """Whether the route doesn't make a call, by either writing, in this function."""
        entries = {(name, call) for name in (function.owned(), function.named()) for call in calls}
        made_later = self.times[function] == 1 and set(self.route.again.get(function.owned(), "").split()) & set(calls)
        met = entries & self.route.entries()
        self.met |= met
        return bool(met or made_later) or callee is not None and callee.owned() in self.route.never

    def changes(self):
        """How often the crate changes in the order of entry."""
        crates = [it.crate for it in self.entered]
        return sum(one != other for one, other in zip(crates, crates[1:]))


class Body:
    """Reads the body of a function. Each method reads one form at `at`, and returns its type.
    `quiet`: how many branches around this place the route doesn't take. `ended`: it returned."""

    def __init__(self, walk, function, bound):
        self.walk, self.route, self.function = walk, walk.route, function
        self.means = Meanings(walk.crates, walk.route.traits, function, bound)
        self.tokens, self.at, self.quiet, self.ended = function.body, 0, 0, False
        self.variables = {name: self.means.whole(type) for name, type in function.parameters}

    @property
    def text(self):
        return self.tokens[self.at].text if self.at < len(self.tokens) else ""

    def take(self, text):
        found = self.text == text
        self.at += found
        return found

    def kept(self, read):
        """Reads a part whose variables are its own."""
        variables, self.variables = self.variables, dict(self.variables)
        type, self.variables = read(), variables
        return type

    def branch(self, read, taken):
        """Reads a part, of which no call is entered if it isn't taken."""
        self.quiet += not taken
        type = read()
        self.quiet -= not taken
        return type

    # ---- blocks and statements

    def block(self):
        return self.kept(self.statements)

    def statements(self):
        type, end = UNIT, closed(self.tokens, self.at) - 1
        self.at += 1
        while self.at < end:
            type = self.statement()
        self.at = end + 1
        return type

    def statement(self):
        while self.text == "#":
            self.at = closed(self.tokens, self.at + 1)
        if self.text in ("use", "const", "static"):
            self.at = up_to(self.tokens, self.at, ";") + 1
            return UNIT
        if self.take("let"):
            self.let()
            return UNIT
        if self.text not in BLOCKS:
            type = self.expression()
            return UNIT if self.take(";") else type
        type = self.operand(False)
        if self.text in GOES_ON:
            self.expression()
        self.take(";")
        return type

    def let(self):
        start, equal = self.at, up_to(self.tokens, self.at, "=", ";")
        colon = up_to(self.tokens, start, ":", "=", ";")
        written = type_at(self.tokens, colon + 1)[0] if self.tokens[colon].text == ":" else None
        self.at = equal + 1
        type = self.expression() if self.tokens[equal].text == "=" else None
        pattern = Pattern(self, start, self.means.whole(written) or type)
        if self.take("else"):
            self.branch(self.block, not pattern.is_taken())
            self.ended = self.ended or not pattern.is_taken()
        pattern.bind()
        self.take(";")

    # ---- expressions

    def expression(self, structs=True):
        """Without `structs` a brace ends it, as in a condition."""
        type = self.operand(structs)
        while self.text in BINARY or self.text == "as":
            mark, self.at = self.text, self.at + 1
            if mark == "as":
                type, self.at = type_at(self.tokens, self.at)
                continue
            self.take(mark)
            ends = mark in RANGES and (self.text in BEHIND or self.text == "{" and not structs)
            other = None if ends else self.operand(structs)
            type = LIBRARY if mark in TRUTHS else (LIST, (type,)) if mark in RANGES else type or other
        return type

    def operand(self, structs):
        while self.text in PREFIXES:
            self.at += 1
        if self.text in ("return", "break", "continue", *RANGES):
            self.at += 1
            if self.text not in BEHIND:
                self.expression(structs)
            return None
        return self.chain(self.primary(structs))

    def primary(self, structs):
        token = self.tokens[self.at]
        if token.text in BLOCKS - {"{"}:
            self.at += 1
            return self.kept(getattr(self, f"{token.text}_"))
        if token.text == "{":
            return self.block()
        if token.text in ("|", "||"):
            return self.kept(self.closure)
        if token.text == "(":
            types, comma = self.several()
            return (TUPLE, tuple(types)) if comma or not types else types[0]
        if token.text == "[":
            return LIST, (*self.several()[0], None)[:1]
        if token.kind == NAME or token.text == "<":
            return self.path(structs)
        self.at += 1
        return LIBRARY if token.kind == LITERAL else None

    def several(self, hint=None):
        """The types of the expressions in brackets, and whether a comma stands there. Closures are
        given what `hint` says."""
        end, types, comma = closed(self.tokens, self.at) - 1, [], False
        self.at += 1
        while self.at < end:
            self.take("move")
            is_closure = self.text in ("|", "||")
            types.append(self.kept(lambda: self.closure(hint)) if is_closure else self.expression())
            comma = self.take(",") or self.take(";") or comma
        self.at = end + 1
        return types, comma

    def if_(self):
        taken = self.condition()
        type = self.branch(self.block, taken is not False)
        if not self.take("else"):
            return type
        read = (lambda: self.kept(self.if_)) if self.take("if") else self.block
        other = self.branch(read, taken is not True)
        return other if taken is False or type in (None, UNIT) else type

    def while_(self):
        self.branch(self.block, self.condition() is not False)
        return UNIT

    def condition(self):
        """Whether it holds, as far as the route says; None where it may or not."""
        if not self.take("let"):
            self.expression(False)
            return None
        start, self.at = self.at, up_to(self.tokens, self.at, "=") + 1
        pattern = Pattern(self, start, self.expression(False))
        pattern.bind()
        return pattern.is_taken() and (pattern.is_chosen() or None)

    def loop_(self):
        return self.block()

    unsafe_ = loop_

    def for_(self):
        start, self.at = self.at, up_to(self.tokens, self.at, "in") + 1
        Pattern(self, start, item_of(self.expression(False))).bind()
        self.block()
        return UNIT

    def match_(self):
        asked, start, arms = self.expression(False), self.at + 1, []
        end = closed(self.tokens, self.at) - 1
        self.at += 1
        while self.at < end:
            arms.append(Pattern(self, self.at, asked))
            self.at = up_to(self.tokens, arms[-1].end, "=>") + 1
            self.at = closed(self.tokens, self.at) if self.text == "{" else up_to(self.tokens[:end], self.at, ",")
            self.take(",")
        chosen, self.at, found = any(it.is_chosen() for it in arms), start, None
        for pattern in arms:
            taken = pattern.is_chosen() if chosen else pattern.is_taken()
            type = self.kept(lambda: self.branch(lambda: self.arm(pattern), taken))
            found = type if taken and found in (None, UNIT) else found
        self.at = end + 1
        return found

    def arm(self, pattern):
        pattern.bind()
        self.at = pattern.end
        if self.take("if"):
            self.expression(False)
        self.at += 1
        type = self.block() if self.text == "{" else self.expression()
        self.take(",")
        return type

    def closure(self, hint=None):
        if not self.take("||"):
            self.at += 1
            while not self.take("|"):
                pattern = Pattern(self, self.at, hint, False)
                self.at = pattern.end
                pattern.bind()
                if self.take(":"):
                    type, self.at = type_at(self.tokens, self.at)
                    self.variables.update(dict.fromkeys(pattern.found, self.means.whole(type)))
                self.take(",")
        if self.take("->"):
            self.at = type_at(self.tokens, self.at)[1]
        return self.expression()

    # ---- paths and calls

    def path(self, structs):
        generics, path = (), [self.text]
        self.at += 1
        if path == ["<"]:
            path, self.at = [type_at(self.tokens, self.at)[0][0]], angle_end(self.tokens, self.at - 1)
        while self.take("::"):
            if self.text == "<":
                end = angle_end(self.tokens, self.at)
                parts = split(self.tokens[self.at + 1 : end - 1], ",")
                generics, self.at = tuple(self.means.whole(type_at(it, 0)[0]) for it in parts), end
            else:
                path.append(self.text)
                self.at += 1
        if self.text == "!" and self.tokens[self.at + 1].text in OPENING:
            return self.macro(path[-1])
        if self.text == "(":
            return self.call(path, generics)
        if self.text == "{" and structs and path[-1][0].isupper():
            return self.struct(path)
        return self.value(path)

    def value(self, path):
        if len(path) == 1:
            if path[0] in self.variables:
                return self.variables[path[0]]
            constant = LIBRARY if path[0].isupper() else self.means.whole((path[0], ()))
            return ("Option", (None,)) if path[0] == "None" else constant
        return self.means.whole(("::".join(path[:-1]), ())) if path[-2][0].isupper() else None

    def macro(self, name):
        self.at += 1
        end = closed(self.tokens, self.at)
        if name == "matches":
            # the pattern behind the comma isn't read
            self.at += 1
            self.expression()
        elif self.text != "{":
            self.several()
        self.at = end
        return LIBRARY

    def struct(self, path):
        end = closed(self.tokens, self.at) - 1
        self.at += 1
        while self.at < end:
            self.at += 2 if self.tokens[self.at + 1].text == ":" else 0
            self.expression()
            self.take(",")
        self.at = end + 1
        type = self.means.whole(("::".join(path), ()))
        return type if is_known(type) or len(path) < 2 else self.value(path)

    def call(self, path, generics):
        name, types = path[-1], []
        # no call fails, so no fault is made
        self.branch(lambda: types.extend(self.several()[0]), name != "Err")
        if len(path) == 1 and name in ("Ok", "Some", "Err"):
            return "Option" if name == "Some" else "Result", (None if name == "Err" or not types else types[0],)
        if len(path) == 1 and name in self.variables:
            return None
        if name[0].isupper():
            return self.value(path) if len(path) > 1 else self.means.whole((name, ()))
        found = self.means.meant(path)
        if found is None:
            return (path[-2], ()) if len(path) > 1 and path[-2][0].isupper() else LIBRARY
        return self.enter(found, (name, "::".join(path)), types, generics)

    def enter(self, found, calls, types, generics=()):
        """Enters the function that a call means, by either writing; returns what it gives."""
        callee = found[0] if len(found) == 1 else None
        skipped = self.walk.is_skipped(self.function, calls, callee) or self.quiet or self.ended
        if callee is None:
            if not skipped:
                self.walk.unknown.append((self.function, calls[-1]))
            return None
        returned, bound = self.means.given(callee, types, generics)
        if not skipped:
            self.walk.enter(callee, bound)
        return returned

    def chain(self, type):
        """Reads what stands behind an operand: calls, fields, places and question marks."""
        while True:
            if self.take("?"):
                type = inner_of(type)
            elif self.text == "[":
                types, _ = self.several()
                type = type if types and types[0] and types[0][0] == LIST else item_of(type)
            elif self.text == "(":
                self.several()
                type = None
            elif self.take("."):
                name, self.at = self.text, self.at + 1
                if self.take("::"):
                    self.at = angle_end(self.tokens, self.at)
                type = self.method(type, name) if self.text == "(" else self.means.field(opened(type), name)
            else:
                return type

    def method(self, type, name):
        inner = opened(type)
        hint = item_of(inner) if inner and inner[0] in LISTS else inner_of(inner)
        types, _ = self.several(hint)
        if not is_known(inner):
            if type is not None:
                return of_library(type if name == "clone" or not inner else inner, name, types)
            if name in SAME | INNER | ITEM or name not in self.walk.crates.methods:
                return None
            return self.enter([], (name, f"?.{name}"), types)
        found = self.means.methods(inner, name)
        if not found and name in ("clone", *SAME):
            return ("Result", (type,)) if name == "clone" else type
        return self.enter(found, (name, f"{inner[0].split('::')[-1]}.{name}"), [inner, *types])


class Pattern:
    """A pattern of values of a type: of each option that it has, the variants that it names, as
    (type, variant); and the variables that it binds, by name. It ends before `end`."""

    def __init__(self, body, at, type, several=True):
        self.body, self.tokens, self.end = body, body.tokens, at
        self.options, self.found = [[]], {}
        self.one(type)
        while several and self.take("|"):
            self.options.append([])
            self.one(type)

    @property
    def text(self):
        return self.tokens[self.end].text

    def take(self, *texts):
        found = self.text in texts
        self.end += found
        return found

    def one(self, type):
        while self.take("&", "&&", "mut", "ref", "-"):
            pass
        type = opened(type)
        if self.text in ("(", "["):
            self.group(type, self.text == "(")
        elif self.tokens[self.end].kind != NAME or self.text == "_":
            self.end += 1
            self.range()
        else:
            self.name(type)

    def name(self, type):
        path = [self.text]
        self.end += 1
        while self.take("::"):
            path.append(self.text)
            self.end += 1
        if self.text == "(" or self.text == "{" and path[-1][0].isupper():
            self.parts(path, type)
        elif path[-1][0].isupper():
            self.variant(path, type)
            self.range()
        else:
            self.found[path[0]] = type
            if self.take("@"):
                self.one(type)

    def range(self):
        if self.take(*RANGES):
            self.take("-")
            self.end += self.tokens[self.end].kind in (LITERAL, NAME)

    def inside(self):
        """Stops at each part of the brackets that begin here, and then behind them."""
        end, number = closed(self.tokens, self.end) - 1, 0
        self.end += 1
        while self.end < end:
            yield number
            while self.take("|"):
                self.one(None)
            self.take(",")
            number += 1
        self.end = end + 1

    def group(self, type, is_tuple):
        for number in self.inside():
            if not is_tuple:
                self.one(item_of(type))
            elif type and type[0] == TUPLE:
                self.one(type[1][number] if number < len(type[1]) else None)
            else:
                self.one(type)

    def variant(self, path, type):
        """Notes a variant; returns the types of its parts."""
        name, means = path[-1], self.body.means
        if name in ("Ok", "Err", "Some", "None"):
            self.options[-1].append(("Result" if name in ("Ok", "Err") else "Option", name))
            return {"0": inner_of(type) if name != "Err" else (*type[1], None, None)[1] if type else None}
        if len(path) == 1:
            whole = means.whole((name, ()))
            return means.parts(type if type and type[0] == whole[0] else whole)
        whole = means.whole(("::".join(path[:-1]), ())) or LIBRARY
        self.options[-1].append((whole[0].split("::")[-1], name))
        return means.parts(type if type and type[0] == whole[0] else whole, name)

    def parts(self, path, type):
        named, types = self.text == "{", self.variant(path, type)
        for number in self.inside():
            name = str(number)
            if named:
                name = self.text
                if self.tokens[self.end + 1].text == ":":
                    self.end += 2
            self.one(types.get(name))

    def bind(self):
        self.body.variables.update(self.found)

    def takes(self):
        """Of each option, whether the route takes its variants, as far as it says."""
        return [{self.body.route.takes(*it) for it in option} for option in self.options]

    def is_taken(self):
        """Whether one of its options has no variant that the route doesn't take."""
        return any(False not in it for it in self.takes())

    def is_chosen(self):
        """Whether one of its options has a variant that the route takes, and none that it
        doesn't."""
        return any(True in it and False not in it for it in self.takes())
