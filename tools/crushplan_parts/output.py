"""What is written: tables for people, CSV, JSON; colours and progress on a terminal alone."""
import json
import os
import sys
import threading
import time

from .waiting import is_shown, waiting

UNITS = ("B", "KiB", "MiB", "GiB", "TiB", "PiB", "EiB")
RED, GREEN, YELLOW, BOLD, PLAIN = "\033[31m", "\033[32m", "\033[33m", "\033[1m", "\033[0m"
COLOURS = {0: GREEN, 1: RED, 2: YELLOW}
NARROWEST = 8  # of a column that is cut to fit
NARROW = 20  # of a last column whose words go on in further lines


class Answer:
    """What a command found: its status, one sentence, the fields of its JSON, blocks of text for
    people, and the rows of its CSV with their heads first. The fields and the blocks may be
    functions that return them; `drawing` is one that returns what is drawn of it (drawing.py), or
    None; `plain` one that returns the whole text for people in the place of sentence and blocks, or
    None."""

    def __init__(self, status, sentence, fields, blocks, rows, drawing=None):
        self.status, self.sentence, self.fields = status, sentence, fields
        self.shown, self.rows, self.drawing, self.plain = blocks, rows, drawing, None
        self.pools = self.bytes_of = None  # ids of the pools that it is of, and of whose bytes; or all

    @property
    def blocks(self):
        if callable(self.shown):
            self.shown = self.shown()
        return self.shown

    def add(self, block):
        """Adds a block behind the others."""
        self.shown = [*self.blocks, block]

    def of(self, pools, bytes_of=None):
        """Says which pools it is of, and returns itself: by that notes are left out."""
        self.pools = {*pools}
        self.bytes_of = self.pools if bytes_of is None else {*bytes_of}
        return self

    def concerns(self, note):
        """Returns whether a note is of what it says."""
        own = self.bytes_of if note.kind == "pg_num" else self.pools
        return note.open or not note.pools or own is None or not own.isdisjoint(note.pools)


class Table:
    """Rows under heads; numbers stand at the right. A title stands above. Where a terminal is too
    narrow, the columns `spare` are left out, the words of a last column go on below, or columns are
    cut, but no numbers, no last column and none of `uncut`."""

    def __init__(self, heads, rows, title=None, spare=(), uncut=()):
        self.heads, self.rows, self.title, self.spare, self.uncut = heads, rows, title, spare, uncut

    def without(self, place):
        """Returns the table without a column."""
        cut_out = lambda row: [*row[:place], *row[place + 1 :]]
        moved = lambda places: [it - (it > place) for it in places if it != place]
        rows = [cut_out(it) for it in self.rows]
        return Table(cut_out(self.heads), rows, self.title, moved(self.spare), moved(self.uncut))

    def text(self, width):
        cells = [[shown(it) for it in row] for row in self.rows]
        right = [all(is_number(row[place]) for row in self.rows) for place in range(len(self.heads))]
        widths = [
            max(len(head), *(len(row[place]) for row in cells)) if cells else len(head)
            for place, head in enumerate(self.heads)
        ]
        if width and self.spare and sum(widths) + 2 * len(widths) > width:
            return self.without(self.spare[0]).text(width)
        over = sum(widths) + 2 * len(widths) - width if width else 0
        wrapped = over > 0 and not right[-1] and widths[-1] - over >= NARROW
        if wrapped:
            widths[-1] -= over
        least = [NARROWEST] * len(widths)
        for place in [it for it, of in enumerate(right) if of] + [*self.uncut] + [len(widths) - 1] * (not wrapped):
            least[place] = max((len(row[place]) for row in cells), default=0)  # of these the head alone is cut
        while width and sum(widths) + 2 * len(widths) > width:
            wide = [it for it in range(len(widths)) if widths[it] > least[it]]
            if not wide:
                break
            widths[max(wide, key=lambda it: widths[it])] -= 1
        lines = [self.title] if self.title else []
        for row in ([list(self.heads)] if any(self.heads) else []) + cells:
            *first, last = row
            for part in wrap(last, widths[-1]) if wrapped else [last]:
                parts = [
                    cut(it, size).rjust(size) if of else cut(it, size).ljust(size)
                    for it, size, of in zip([*first, part], widths, right)
                ]
                lines.append(("  " + "  ".join(parts)).rstrip())
                first = [""] * len(first)
        return "\n".join(lines)


def wrap(text, width):
    """Returns a text in lines of a width."""
    import textwrap

    return textwrap.wrap(text, width) or [""]


def is_number(value):
    return value is None or value == "" or isinstance(value, (int, float)) or (isinstance(value, Sized))


class Sized(str):
    """A number in words that stands at the right, as a size in bytes."""


def shown(value):
    if value is None:
        return "-"
    if isinstance(value, bool):
        return "yes" if value else "no"
    if isinstance(value, int):
        return f"{value:,}"
    if isinstance(value, float):
        return f"{value:,.1f}" if value == round(value, 1) else f"{value:,.2f}"
    return str(value)


def cut(text, size):
    return text if len(text) <= size else text[: size - 1] + "…"


def sized(value):
    """Returns a number of bytes in words."""
    if value is None:
        return None
    sign, value, unit = "-" if value < 0 else "", abs(float(value)), 0
    while value >= 1024 and unit + 1 < len(UNITS):
        value, unit = value / 1024, unit + 1
    return Sized(f"{sign}{value:.0f} B" if unit == 0 else f"{sign}{value:.1f} {UNITS[unit]}")


def devices_text(items):
    """Returns a list of devices as Ceph writes it; a place without one is a dash."""
    return "[" + ",".join("-" if it is None else str(it) for it in items) + "]"


def coloured(stream):
    return stream.isatty() and "NO_COLOR" not in os.environ and os.environ.get("TERM") != "dumb"


def painted(text, colour):
    return f"{colour}{text}{PLAIN}" if coloured(sys.stdout) else text


def width():
    """Returns how wide a table may be: the terminal's width, or 0 where there is none."""
    if not sys.stdout.isatty():
        return 0
    import shutil

    return shutil.get_terminal_size().columns


def csv_text(rows):
    import csv
    import io

    out = io.StringIO()
    writer = csv.writer(out, lineterminator="\n")
    for row in rows:
        writer.writerow(["" if it is None else it for it in row])
    return out.getvalue()


def written(answer, command, form, plan):
    """Returns an answer as text, CSV or JSON. `plan` has the notes, or is None."""
    notes = [it for it in plan.notes if answer.concerns(it)] if plan else []
    warnings = plan.cluster.warnings if plan else []
    if form == "json":
        head = {"crushplan": 1, "command": command, "status": answer.status, "answer": answer.sentence}
        tail = {
            "map": plan and {"file": plan.map.file, "exact": not plan.map.rounded}, "warnings": warnings,
            "uncomputed": [it.said() for it in notes if it.open], "notes": [it.said() for it in notes if not it.open],
        }  # fmt: skip
        fields = answer.fields() if callable(answer.fields) else answer.fields
        return json.dumps({**head, **fields, **tail}) + "\n"
    if form == "csv":
        return csv_text(answer.rows)
    if answer.plain:
        return answer.plain()
    return people_text(answer, notes, warnings)


def people_text(answer, notes, warnings):
    blocks = [painted(answer.sentence, COLOURS.get(answer.status, BOLD))] if answer.sentence else []
    for it in answer.blocks:
        blocks.append(it.text(width()) if isinstance(it, Table) else it)
    text = "\n\n".join(it for it in blocks if it)
    remarks = (
        [f"not computed: {it.short}" for it in notes if it.open]
        + [f"note: {it}" for it in warnings]
        + [f"note: {it.text}" for it in notes if not it.open]
    )
    return text + "\n" + ("\n" + "\n".join(remarks) + "\n" if remarks else "")


class Progress:
    """A bar on standard error with the time that is left; nothing where that is no terminal."""

    def __init__(self, whole, what):
        self.whole, self.what, self.start, self.shown = whole, what, time.monotonic(), is_shown() and whole > 1
        self.done, self.lock = 0, threading.Lock()
        if self.shown:
            waiting.give_way(True)

    def at(self, done):
        if not self.shown:
            return
        passed = time.monotonic() - self.start
        left = f", {passed / done * (self.whole - done):.0f} s left" if done else ""
        filled = 24 * done // self.whole
        sys.stderr.write(f"\r[{'#' * filled}{'.' * (24 - filled)}] {done} of {self.whole} {self.what}{left} \033[K")
        sys.stderr.flush()

    def more(self, count=1):
        """One more is done, or several, by whichever thread."""
        with self.lock:
            self.done += count
            self.at(self.done)

    def end(self):
        if self.shown:
            sys.stderr.write("\r\033[K")
            sys.stderr.flush()
            waiting.give_way(False)
