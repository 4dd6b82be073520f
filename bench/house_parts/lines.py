"""Lines of the sources by sort, imports, entries of crates.txt, and clauses that stand again."""
from house_parts.lexing import CLAUSES, COMMENT
from house_parts.sources import is_of_tests

USE, GHOST_USE, SPEC_USE = "imports of code", "imports of clauses", "imports of definitions and proofs"
IMPORTS = (USE, GHOST_USE, SPEC_USE)
SORTS = ("code", "clauses", "definitions", "proofs", "tests", *IMPORTS, "comments", "Python", "JavaScript")
# how often the text of a clause stands at least
OFTEN = 4


def imports_of(source):
    """(sort, tokens) of each import."""
    yield from ((SPEC_USE if source.end == ".antt" else USE, it) for it in source.parts.uses)
    yield from ((GHOST_USE, it) for it in source.parts.ghost_uses)


def sorted_tokens(source):
    """(token, sort) of each token, in order."""
    of_clauses = "clauses" if source.sort == "code" else source.sort
    found = [(it, source.sort) for it in source.parts.code]
    found += [(it, of_clauses) for clause in source.parts.clauses for it in clause]
    found += [(it, sort) for sort, tokens in imports_of(source) for it in tokens]
    found += [(it, "comments") for it in source.tokens if it.kind == COMMENT]
    return sorted(found, key=lambda it: it[0].start)


def lines_by_sort(sources):
    """How many lines there are of each sort, by what begins the line. Empty lines don't count."""
    counts = dict.fromkeys(SORTS, 0)
    for source in sources:
        last = 0
        for token, sort in sorted_tokens(source):
            for line, text in enumerate(token.text.split("\n"), token.line):
                counts[sort] += line > last and bool(text.strip())
                last = max(last, line)
    return counts


def bytes_of_imports(sources):
    """How many bytes the texts of all imports have, ends of lines between them not among them."""
    count = 0
    for source in sources:
        for _, (first, *_, last) in imports_of(source):
            count += len(source.text[first.start : last.start + len(last.text)].encode())
    return count


def entries(text):
    """Of crates.txt: the crates that each crate names."""
    lines = (line.split("#")[0].partition(":") for line in text.splitlines())
    return {crate.strip(): named.split() for crate, colon, named in lines if colon}


def counted_entries(named):
    pairs = [(crate, it) for crate, its in named.items() for it in its]
    return {
        "in all": len(pairs),
        "of tests' crates": sum(is_of_tests(crate) for crate, _ in pairs),
        "outside sqlite_*": sum(not it.startswith("sqlite_") for _, it in pairs),
    }


def repeated_clauses(sources):
    """(text, places) of the clauses of code that stand OFTEN or more, the commonest first."""
    found = {}
    for source in sources:
        for clause in source.parts.clauses if source.sort == "code" else ():
            if clause[0].text in CLAUSES:
                inner = clause[1:] if clause[1].text == "{" else clause[2:]
                text = " ".join(it.text for it in (clause[0], *inner))
                found.setdefault(text, []).append(f"{source.path}:{clause[0].line}")
    often = [(text, places) for text, places in found.items() if len(places) >= OFTEN]
    return sorted(often, key=lambda it: (-len(it[1]), it[0]))
