"""Tries wrong bodies, many in one check: edits of different functions of a crate are applied
together, and each has to be refused by a goal of its own function. One that isn't, or that
can't be tried beside others, is tried alone.
"""
import collections
import pathlib
import re
import shutil
import tempfile

from edits import Unfit
from prover import linked
from sources import source_of

FUNCTION = re.compile(r"^fn (\S+): (not proved|no proof|could not tell)(?:[:;] (.*))?$", re.M)
PLACE = re.compile(r"^(?:note: )?(?:\./)?(src/[\w/]+\.rt):(\d+):\d+: (.*)$", re.M)
PROOF = re.compile(r"^(?:note: )?(?:\./)?proofs/([\w/]+)/\w+\.antt:\d+:\d+: (.*)$", re.M)
GOAL = re.compile(r"\((?:in )?`([^`]*)`\)|error: `([^`]*)`")
# a reason that is another function's
OTHERS = re.compile(r"^(?:it calls .*|.*\b(?:is|are) not proved)$")
LIMIT = re.compile(r"ran out of|outgrew the memory limit|stopped at the step limit|gave no verdict")
# what says that a proof names something that the edit took away
GONE = re.compile(r"has no field|is not in scope|has no `|was not admitted|that can be named from here")
# where the compiler refuses a text nothing is proved
COMPILER = re.compile(r"\berror\[[\w-]+\]")


class Outcome:
    """What became of an edit: whether it was refused, where or why not, and in which way."""

    TOGETHER, ALONE, LIMIT = (
        "refused by a goal of its own function",
        "refused alone",
        "refused by a limit of the prover",
    )

    def __init__(self, way, where):
        self.way, self.where = way, where

    def is_refused(self):
        return self.way is not None


def groups(edits, texts):
    """The edits in lists, each of which is tried in one check, the shortest first: what its check
    proves, all functions but its own, the later ones begin with. An edit that changes anything but
    one body has a list of its own."""
    by_function, alone = collections.defaultdict(list), []
    for edit in edits:
        try:
            function = edit.function(texts[edit.file])
        except Unfit:
            function = None
        if function:
            by_function[edit.file, function[0]].append(edit)
        else:
            alone.append([edit])
    together = [[] for _ in range(max(map(len, by_function.values()), default=0))]
    for same in by_function.values():
        for place, edit in enumerate(same):
            together[place].append(edit)
    return sorted(alone + together, key=len)


def applied(edits, texts):
    """The texts that these edits make together, and the edits that don't fit beside the others."""
    made, left = {}, []
    for edit in edits:
        try:
            made[edit.file] = edit.applied(made.get(edit.file, texts[edit.file]))
        except Unfit:
            left.append(edit)
    return made, left


def lines_of(edit, text):
    """The function that the edit changes, with its first and last line; an edit keeps the lines of
    its file."""
    name, number = edit.function(text)
    source = source_of(text)
    function = source.functions[number]
    first, last = (text.count("\n", 0, source.in_text(at)) + 1 for at in (function.start, function.end - 1))
    return name, first, last


class Said:
    """What a check said of a crate."""

    def __init__(self, status, output):
        self.status, self.output = status, output
        self.places = [
            (file, int(line), told) for file, line, told in PLACE.findall(output) if not told.startswith("warning")
        ]
        self.proofs = [
            (folder.split("/"), told) for folder, told in PROOF.findall(output) if not told.startswith("warning")
        ]

    def is_not_proved(self):
        return self.status == 1 and self.output.rstrip().split("\n")[-1].startswith("logic=not-proved")

    def is_limited(self):
        return self.status == 3 and bool(LIMIT.search(self.output))

    def failed_itself(self):
        """The functions that aren't proved for more than what they call."""
        found = ((path, verdict, why.split("; ")) for path, verdict, why in FUNCTION.findall(self.output))
        return [
            path for path, verdict, reasons in found if verdict != "no proof" or not all(map(OTHERS.match, reasons))
        ]

    def own_goal(self, edit, text):
        """The goal of the edited function that refused the edit, or None."""
        name, first, last = lines_of(edit, text)
        module = edit.file.removeprefix("src/").removesuffix(".rt").split("/")
        own = [told for file, line, told in self.places if file == edit.file and first <= line <= last]
        own += [
            told
            for folder, told in self.proofs
            if folder[-1] == name and (module[0] in ("lib", "main") or folder[: len(module)] == module)
        ]
        return f"`{name}`, {edit.file}: {goal_of(own)}" if own else None

    def first_goal(self):
        if self.places:
            file, line, told = self.places[0]
            return f"{file}: {goal_of([told])}"
        return f"proofs/{'/'.join(self.proofs[0][0])}: {goal_of([self.proofs[0][1]])}" if self.proofs else "-"


def goal_of(told):
    goals = [found[1] or found[2] for found in map(GOAL.search, told) if found]
    gone = " (its proof names what is gone)" if all(GONE.search(it) for it in told) else ""
    return f"`{(goals or ['-'])[0]}`{gone}"


class Trial:
    """The edits of one crate, tried over libraries that are built. Its steps are called one after
    another or, where they are given together, side by side."""

    def __init__(self, prover, crate, edits, texts, seed=None):
        self.prover, self.crate, self.edits, self.given = prover, crate, edits, seed
        self.texts = texts
        self.outcomes, self.seconds = {}, []
        self.room = pathlib.Path(tempfile.mkdtemp(prefix="crushcalc-seed-"))

    def begin(self):
        """Tries the first list over what is given, or from nothing; gives the steps that come
        next."""
        lists = groups(self.edits, self.texts)
        seed = self.room / "seed"
        linked(self.given, seed) if self.given else seed.mkdir()
        alone = self.together(lists[0], seed)
        steps = [lambda it=it: self.over_copy(it) for it in lists[1:]]
        return steps + [lambda it=it: self.alone(it) for it in alone]

    def over_copy(self, edits):
        with tempfile.TemporaryDirectory(dir=self.room) as room:
            seed = pathlib.Path(room) / "seed"
            linked(self.room / "seed", seed)
            left = self.together(edits, seed)
        return [lambda it=it: self.alone(it) for it in left]

    def check(self, texts, seed):
        status, output, seconds = self.prover.check(self.crate, texts, seed)
        self.seconds.append(seconds)
        return Said(status, output)

    def together(self, edits, seed):
        """Tries these edits in one check; gives those that have to be tried alone."""
        made, left = applied(edits, self.texts)
        beside = [it for it in edits if it not in left]
        if not beside:
            return left
        said = self.check(made, seed)
        names, found = set(), {}
        for edit in beside if said.is_not_proved() else []:
            function = edit.function(self.texts[edit.file])
            goal = said.own_goal(edit, self.texts[edit.file]) if function else None
            names.add(function[0] if function else None)
            if goal:
                found[edit] = Outcome(Outcome.TOGETHER, goal)
            elif len(beside) == 1:
                found[edit] = Outcome(Outcome.ALONE, said.first_goal())
        # else what failed there may have failed for what was changed elsewhere; other steps add
        # theirs meanwhile
        if len(beside) == 1 or not self.has_others(said, names):
            self.outcomes.update(found)
        return [it for it in edits if it not in self.outcomes]

    def has_others(self, said, names):
        paths = (set(re.split(r"::|\+", path)) for path in said.failed_itself())
        return any(not names & path for path in paths)

    def alone(self, edit):
        """Tries one edit, over the seed and, where it is proved there, from nothing."""
        with tempfile.TemporaryDirectory(dir=self.room) as room:
            over, empty = pathlib.Path(room) / "seed", pathlib.Path(room) / "empty"
            linked(self.room / "seed", over)
            empty.mkdir()
            self.outcomes[edit] = self.judged(edit, over)
            if not self.outcomes[edit].is_refused():
                self.outcomes[edit] = self.judged(edit, empty)
        return []

    def judged(self, edit, seed):
        try:
            made = {edit.file: edit.applied(self.texts[edit.file])}
        except Unfit as why:
            return Outcome(None, f"it can't be applied: {why}")
        said = self.check(made, seed)
        if said.is_not_proved():
            function = edit.function(self.texts[edit.file])
            goal = said.own_goal(edit, self.texts[edit.file]) if function else None
            return Outcome(Outcome.ALONE, goal or said.first_goal())
        if said.is_limited():
            return Outcome(Outcome.LIMIT, said.first_goal())
        if said.status == 0:
            return Outcome(None, "the crate is still proved with it")
        if COMPILER.search(said.output):
            return Outcome(None, f"it doesn't compile: {COMPILER.split(said.output)[-1][:160].strip()}")
        return Outcome(None, f"its check ended with status {said.status}: {said.output[-300:]}")

    def end(self):
        shutil.rmtree(self.room, ignore_errors=True)

    def costs(self):
        """Seconds of processor for the first check, how many checks there were, and seconds for
        each further one."""
        further = self.seconds[1:] or self.seconds
        return round(self.seconds[0]), len(self.seconds), round(sum(further) / len(further))
