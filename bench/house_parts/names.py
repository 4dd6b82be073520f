"""Names of types that stand for more than one thing."""
TYPES = {"struct", "enum", "trait", "type"}


def declared(source):
    """(name, place) of each type that a file of code declares; types of an impl stand indented."""
    code = source.parts.code
    for before, name in zip(code, code[1:]):
        line = source.text[: before.start].rpartition("\n")[2]
        if before.text in TYPES and not line[:1].isspace():
            yield name.text, f"{source.path}:{before.line}"


def of_several_crates(sources):
    """(name, places) of the names that two crates or more have for types of their own."""
    found = {}
    for source in sources:
        for name, place in declared(source) if (source.sort, source.end) == ("code", ".rt") else ():
            found.setdefault(name, []).append((source.crate, place))
    several = ((name, its) for name, its in found.items() if len({crate for crate, _ in its}) > 1)
    return sorted((name, [place for _, place in its]) for name, its in several)
