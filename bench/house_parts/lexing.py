"""Tokens of the sources: .rt, .antt, Python and JavaScript; and what of an .rt or .antt source is
an import or a clause, and what is code.
"""
import re
from typing import NamedTuple

NAME, LITERAL, MARK, COMMENT = "name", "literal", "mark", "comment"
MARKS = r"::|->|=>|\.\.=|\.\.\.|\.\.|&&|\|\||[=!<>+*/%&|^-]=|[^\w\s]"
TEXT = r'"(?:\\.|[^"\\])*"'
# of each ending of a file: comments, literals and names
PATTERNS = {
    ".rt": (
        r"//[^\n]*|/\*.*?\*/",
        rf"""b?r(?P<raw>\#*)".*?"(?P=raw)|b?{TEXT}|b?'(?:\\[^']+|[^\\'])'|\d\w*(?:\.\d\w*)?""",
        r"'?[^\W\d]\w*'*",
    ),
    ".antt": (r"--(?=\s)[^\n]*|----[^\n]*", rf"{TEXT}|\d+", r"[^\W\d][\w']*(?:-[^\W\d][\w']*)*"),
    ".py": (
        r"\#[^\n]*",
        rf"""[rRbBfF]*(?:\"\"\".*?\"\"\"|'''.*?'''|{TEXT}|'(?:\\.|[^'\\])*')|\d[\w.]*""",
        r"[^\W\d]\w*",
    ),
    ".js": (
        r"//[^\n]*|/\*.*?\*/",
        rf"""`(?:\\.|[^`\\])*`|{TEXT}|'(?:\\.|[^'\\])*'|(?<=[(,=:] )/(?![/*])(?:\\.|[^/\\\n])+/\w*|\d[\w.]*""",
        r"[^\W\d][\w$]*",
    ),
}
LEXERS = {
    end: re.compile(rf"\s*(?:(?P<comment>{comment})|(?P<literal>{literal})|(?P<name>{name})|(?P<mark>{MARKS}))", re.S)
    for end, (comment, literal, name) in PATTERNS.items()
}
OPENING, CLOSING = frozenset("([{"), frozenset(")]}")
CLAUSES = ("requires", "ensures", "decreases", "invariant")


class Token(NamedTuple):
    kind: str
    text: str
    line: int
    start: int


def tokens_of(text, end):
    """The tokens of a text whose file has this ending, comments too."""
    found, line, last = [], 1, 0
    for it in LEXERS[end].finditer(text):
        kind = it.lastgroup if it.lastgroup != "raw" else LITERAL
        start = it.start(kind)
        line += text.count("\n", last, start)
        last = start
        found.append(Token(kind, it[kind], line, start))
    return found


def closed(tokens, at):
    """Behind the bracket that closes the one at this place, or else behind this place."""
    depth = 0
    while at < len(tokens):
        text = tokens[at].text
        depth += (text in OPENING) - (text in CLOSING)
        at += 1
        if depth == 0:
            break
    return at


def up_to(tokens, at, *ends):
    """Where the first of these tokens stands, in no further bracket."""
    while at < len(tokens) and tokens[at].text not in ends:
        at = closed(tokens, at)
    return at


class Parts(NamedTuple):
    """Of a source without comments: `code`; `items`, the code with its imports; and imports (of
    code, and of what clauses cite) and clauses, each the list of its tokens."""

    code: list
    items: list
    uses: list
    ghost_uses: list
    clauses: list


def parts_of(tokens):
    """The parts of an .rt source."""
    parts, at = Parts([], [], [], [], []), 0
    tokens = [it for it in tokens if it.kind != COMMENT]
    while at < len(tokens):
        start, text = at, tokens[at].text
        following = tokens[at + 1].text if at + 1 < len(tokens) else ""
        if text == "use" or text == "ghost" and following == "use":
            at = up_to(tokens, at, ";") + 1
            (parts.uses if text == "use" else parts.ghost_uses).append(tokens[start:at])
            parts.items.extend(tokens[start:at] if text == "use" else ())
        elif text == "ghost" or text in CLAUSES and any(it.text == "{" for it in tokens[at + 1 : at + 3]):
            at = clause_end(tokens, at)
            parts.clauses.append(tokens[start:at])
        else:
            at += 1
            parts.code.append(tokens[start])
            parts.items.append(tokens[start])
    return parts


def clause_end(tokens, at):
    """Behind a clause, and behind the mark that ends a ghost."""
    end = closed(tokens, up_to(tokens, at, "{"))
    return end + (tokens[at].text == "ghost" and end < len(tokens) and tokens[end].text in (";", ","))


def parts_of_definitions(tokens):
    """The parts of an .antt source. An import is a line, or goes on to the end of its bracket."""
    parts, at, line = Parts([], [], [], [], []), 0, 0
    tokens = [it for it in tokens if it.kind != COMMENT]
    while at < len(tokens):
        start, begins = at, tokens[at].line != line
        line, at = tokens[at].line, at + 1
        if begins and tokens[start].text == "use":
            while at < len(tokens) and tokens[at].line == line:
                at = closed(tokens, at)
            parts.uses.append(tokens[start:at])
        else:
            parts.code.append(tokens[start])
    return parts
