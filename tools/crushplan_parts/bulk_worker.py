"""The process that locates a part of a list of names for `crushplan locate --objects` (bulk.py). It
reads what it needs once, then part after part, and writes the rows of each: as long as its standard
input lasts."""
import csv
import io
import json
import pickle
import re
import signal
import sys

from .faults import Fault, NoAnswer
from .service import Script, change, numbered

MOST_NAME = 1024  # bytes of an object's name
EMPTY, LONG, COLUMNS, RETURN, UNREADABLE = "empty", "long", "columns", "return", "unreadable"
# a group of a name depends on the name and pg_num alone: asked on a map of one device, it comes
# without the time to place the group
MAP = """tunable choose_local_tries 0
tunable choose_local_fallback_tries 0
device 0 osd.0
type 0 osd
type 1 root
root default {
	id -1
	alg list
	hash 0
	item osd.0 weight 1.000
}
rule one {
	id 0
	type replicated
	min_size 1
	max_size 10
	step take default
	step choose firstn 0 type osd
	step emit
}
"""
POOL = {"id": 1, "name": "pool", "kind": "replicated", "size": 1, "rule": 0, "hashpspool": True}
ASK = "POST /t/plan/pools/1/locate "
GROUP = re.compile(rb'^200 \{"epoch":\d+,"group":(\d+),', re.MULTILINE)


def why_not(line):
    """Returns why a line isn't a name that is computed, or None."""
    if not line:
        return EMPTY
    if len(line) > MOST_NAME:
        return LONG
    if b"\t" in line:
        return COLUMNS
    if b"\r" in line:
        return RETURN
    try:
        line.decode()
    except UnicodeDecodeError:
        return UNREADABLE
    return None


def names_in(part):
    """Returns the names of a part, whole lines as bytes, and the lines that are none: the place of
    each, why, and its bytes."""
    lines, bad = part.split(b"\n")[:-1], []
    try:
        names = part.decode().split("\n")[:-1]
    except UnicodeDecodeError:
        names = None
    # nearly all parts have names alone: that is seen of a whole part sooner than of each line
    odd = names is None or b"\t" in part or b"\r" in part or b"\n\n" in b"\n" + part
    if odd or max(map(len, lines), default=0) > MOST_NAME:
        found = [(it, why_not(it)) for it in lines]
        names = [it.decode() for it, why in found if why is None]
        bad = [(place, why, it[:MOST_NAME]) for place, (it, why) in enumerate(found) if why is not None]
    return names, bad


def field(name):
    """Returns a name as CSV has it: in quotes where it has to be."""
    if "," not in name and '"' not in name:
        return name
    out = io.StringIO()
    csv.writer(out, lineterminator="").writerow([name])
    return out.getvalue()


class Names:
    """Locates names in a pool of so many groups. `ends` are what stands behind an object's name in
    its row, by its group, or None where there is no row."""

    def __init__(self, program, pg_num, ends):
        self.program, self.ends = Script(program), {b"%d" % group: it for group, it in enumerate(ends)}
        requests = [change("/maps", text=MAP), change("/pools", **POOL, pg_num=pg_num, pgp_num=pg_num)]
        lines = [f"{method} /t/plan{path} {body}" for method, path, body in numbered(requests)]
        self.head = "".join(f"{it}\n" for it in ["PUT /t/plan", *lines])
        self.begun = len(lines) + 1

    def groups(self, names):
        """Returns the group of each name."""
        if not names:
            return []
        # one call writes all of them as JSON, each behind the words of its request
        asked = json.dumps(names, separators=("}\n" + ASK + '{"name":', ":"))[1:-1]
        replies = self.program.play(f'{self.head}{ASK}{{"name":{asked}}}\n'.encode())
        found = GROUP.findall(replies)
        if len(found) != len(names) or replies.count(b"\n") != len(names) + self.begun:
            odd = next((it for it in replies.splitlines()[self.begun :] if not GROUP.match(it)), b"nothing")
            raise NoAnswer(f"{self.program.where} answers {odd[:60]!r} where an object lies")
        return found

    def rows(self, part):
        """Returns the rows of a part as bytes of CSV, how many they are, how many names the part
        has, and its lines that are none."""
        names, bad = names_in(part)
        fields = names if b"," not in part and b'"' not in part else map(field, names)
        ends = map(self.ends.__getitem__, self.groups(names))
        rows = [name + end for name, end in zip(fields, ends) if end is not None]
        return "".join(rows).encode(), len(rows), len(names), bad


def work():
    """Answers parts until there are no more. What can't be answered is a text."""
    signal.signal(signal.SIGINT, signal.SIG_IGN)  # Ctrl-C is the matter of who gives the parts
    given, out = sys.stdin.buffer, sys.stdout.buffer
    names = Names(*pickle.load(given))
    while True:
        try:
            part = pickle.load(given)
        except EOFError:
            return
        try:
            found = names.rows(part)
        except Fault as fault:
            found = str(fault)
        pickle.dump(found, out)
        out.flush()
