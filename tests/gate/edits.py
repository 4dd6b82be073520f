"""Wrong bodies that the prover must refuse: crates/NAME/must-fail/WHAT_IT_DOES.edit, what each
changes, and the record of what refused it (REFUSED.md beside them).

An edit is a line `file: src/FILE.rt`, then pairs of lines `old: TEXT` and `new: TEXT`, and no
other line. Each old text stands once in the file as the pairs before left it. A record is a row for
each edit, with the digest of all that its refusal rests on (digests.py). It is written by `wrong`,
never by hand.
"""
import os
import pathlib
import re
import subprocess

from prover import RT, crates_of
from sources import source_of

TOP = pathlib.Path(__file__).resolve().parent.parent.parent
# what runs on this machine recorded
KEPT = pathlib.Path(os.environ.get("XDG_CACHE_HOME") or pathlib.Path.home() / ".cache") / "crushcalc" / "refused"
ROW = re.compile(r"^\| `(\w+)` \| (.*) \| ([0-9a-f]{16}) \|$", re.M)
TOOLCHAIN = re.compile(r"^Toolchain: (.*)$", re.M)
SECONDS = re.compile(r"^Seconds of processor: (\d+) for the first of (\d+) checks, (\d+) for each further one\.$", re.M)
HEAD = """# Refused edits

Written by `make wrong`, never by hand. The prover refused each edit beside this file; the last
column is the digest of what that rests on, and `make test` tries the edits again whose digest is
another. `make test-all` tries all.

Toolchain: {}

Seconds of processor: {} for the first of {} checks, {} for each further one.

| edit | refused at | rests on |
|---|---|---|
"""


class Unfit(Exception):
    """Why an edit can't be applied."""


class Edit:
    def __init__(self, path):
        self.name, self.crate, self.text = path.stem, path.parent.parent.name, path.read_text(encoding="utf-8")
        self.file, self.pairs, self.stray, old = None, [], None, None
        for line in self.text.split("\n"):
            if line.startswith("file: "):
                self.file = line[len("file: ") :].strip()
            elif line.startswith("old: "):
                old = line[len("old: ") :]
            elif line.startswith("new:"):
                self.pairs.append((old, line[len("new:") :].removeprefix(" ")))
            elif line:
                # a text of two lines would be tried as its first
                self.stray = line

    def __str__(self):
        return f"{self.crate}/{self.name}"

    def steps(self, text):
        """The text before each pair, with the place of its old text, and at last the text behind
        all with no place."""
        if not self.file or not self.pairs:
            raise Unfit("it has no file, or no old and new text")
        if self.stray:
            raise Unfit(f"a line is neither file, old nor new: {self.stray.strip()}")
        for old, new in self.pairs:
            if not old or text.count(old) != 1:
                raise Unfit(f"an old text stands {text.count(old) if old else 0} times in {self.file}")
            yield text, text.index(old)
            text = text.replace(old, new)
        yield text, None

    def applied(self, text):
        *_, (text, _) = self.steps(text)
        return text

    def function(self, text):
        """The name of the one function whose body it changes, with that function's place in the
        file, or None where it changes anything else."""
        found = set()
        for before, place in self.steps(text):
            if place is not None:
                source = source_of(before) if self.file.startswith("src/") else None
                if source is None or not source.is_in_body(place):
                    return None
                function = source.function_at(place)
                found.add((function.name, source.functions.index(function)))
        return found.pop() if len(found) == 1 else None


def edits_of(crate, top=TOP):
    return [Edit(path) for path in sorted((top / "crates" / crate / "must-fail").glob("*.edit"))]


def crates_with_edits(top=TOP):
    return [it for it in crates_of(top) if edits_of(it, top)]


def version():
    return subprocess.run([RT, "version"], stdout=subprocess.PIPE, text=True, check=True).stdout.strip()


def logic(toolchain):
    """The logic of a toolchain, with which its line of `rt version` ends: what a proof rests on."""
    return toolchain.partition(" logic ")[2]


def read(path, toolchain):
    """The rows of a record, and the seconds or None; none of another logic."""
    text = path.read_text() if path.is_file() else ""
    by, seconds = TOOLCHAIN.search(text), SECONDS.search(text)
    if not by or logic(by[1]) != logic(toolchain):
        return {}, None
    return {name: (where, digest) for name, where, digest in ROW.findall(text)}, (
        tuple(map(int, seconds.groups())) if seconds else None
    )


def recorded(kept, toolchain):
    """Where edits were refused on this machine, by their digests: these go by what names mean, so
    that an edit which moved to another crate, or has another name, keeps its own."""
    return {row[1]: row for path in sorted(kept.glob("*.md")) for row in read(path, toolchain)[0].values()}


class Record:
    """What refused the edits of a crate: where, and the digest, by the edits' names. What was
    recorded on this machine, as by a run in another checkout, is there too."""

    def __init__(self, crate, toolchain, top=TOP, kept=None):
        self.path, self.toolchain = top / "crates" / crate / "must-fail" / "REFUSED.md", toolchain
        self.kept, self.is_taken = kept or (KEPT if top == TOP else None), False
        self.file = self.kept / f"{crate}.md" if self.kept else None
        self.others = recorded(self.kept, toolchain) if self.kept else {}
        self.rows, self.seconds = read(self.path, toolchain)
        if self.file and not self.seconds:
            self.seconds = read(self.file, toolchain)[1]

    def fits(self, edit, digest):
        """Whether the edit is recorded as refused with this digest."""
        if digest in self.others and digest != self.rows.get(edit.name, (None, None))[1]:
            self.rows[edit.name], self.is_taken = self.others[digest], True
        return digest is not None and self.rows.get(edit.name, (None, None))[1] == digest

    def take(self, edit, where, digest, here):
        """Records where a wrong body was refused, or None. `digest` is that of the sources on which
        it was tried, and `here` that of the repository's: where these differ, as they do for a
        program that names its commit, what is recorded stays if it fits here."""
        if where and digest and digest == here:
            self.rows[edit.name] = where, digest
        elif not (where and self.fits(edit, here)):
            self.rows.pop(edit.name, None)

    def minutes(self):
        """Minutes of processor that trying all edits took, or nothing where that isn't recorded."""
        first, checks, further = self.seconds or (0, 0, 0)
        return f"{(first + (checks - 1) * further) / 60:.1f}" if checks else ""

    def write(self, names):
        """Writes the rows of these edits; what is recorded of others is dropped."""
        rows = [
            f"| `{name}` | {where} | {digest} |\n"
            for name, (where, digest) in sorted(self.rows.items())
            if name in names
        ]
        text = HEAD.format(self.toolchain, *self.seconds) + "".join(rows)
        self.path.write_text(text)
        if self.file:
            self.kept.mkdir(parents=True, exist_ok=True)
            self.file.write_text(text)
