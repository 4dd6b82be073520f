"""The files of a tree by sort, with their tokens."""
import functools
import os
import pathlib

from house_parts.lexing import COMMENT, Parts, parts_of, parts_of_definitions, tokens_of

PYTHON = b"#!/usr/bin/env python3"
FOLDERS = {"src": "code", "specs": "definitions", "proofs": "proofs"}
PASSED_OVER = {"out", "build", "dist", "__pycache__", "node_modules"}


def is_of_tests(crate):
    return crate.endswith("_tests")


class Source:
    """A file. `sort`: code, definitions or proofs of a crate; or tests, Python, JavaScript."""

    def __init__(self, path, sort, end, text):
        self.path, self.sort, self.end, self.text = path, sort, end, text

    @property
    def crate(self):
        return self.path.split("/")[1]

    @functools.cached_property
    def tokens(self):
        return tokens_of(self.text, self.end)

    @functools.cached_property
    def parts(self):
        if self.end == ".rt":
            return parts_of(self.tokens)
        if self.end == ".antt":
            return parts_of_definitions(self.tokens)
        return Parts([it for it in self.tokens if it.kind != COMMENT], [], [], [], [])


def sort_of(path):
    """The sort of a file and the ending that says how it is read, or None."""
    parts = path.parts
    if parts[0] == "crates":
        if path.suffix not in (".rt", ".antt") or len(parts) < 4 or parts[2] not in FOLDERS:
            return None
        return "tests" if is_of_tests(parts[1]) or path.name == "tests.rt" else FOLDERS[parts[2]], path.suffix
    return {".js": ("JavaScript", ".js"), ".py": ("Python", ".py")}.get(path.suffix)


def sources_of(top):
    """The sources of a tree, by their paths."""
    found = []
    for folder, folders, files in os.walk(top):
        folders[:] = sorted(it for it in folders if it not in PASSED_OVER and it[0] != ".")
        for path in (pathlib.Path(folder) / it for it in sorted(files)):
            inner = path.relative_to(top)
            sort = sort_of(inner) or (("Python", ".py") if not path.suffix and is_python(path) else None)
            if sort:
                found.append(Source(inner.as_posix(), *sort, path.read_text(encoding="utf-8", errors="replace")))
    return found


def is_python(path):
    with path.open("rb") as opened:
        return opened.read(len(PYTHON)) == PYTHON
