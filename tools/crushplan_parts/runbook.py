"""A runbook as it is typed: lines of commands with 'wait' between steps."""
import pathlib
import shlex
import sys

from .cluster import text_of
from .commands import read_words
from .faults import Fault

ENDS, WAIT = (";", "&&"), "wait"
ODD = ("|", "||", "&", "(", ")", "<", ">", ">>", "$", "`")


class Line:
    """A command of a runbook, with the number of its line and its text."""

    def __init__(self, number, text, words):
        self.number, self.text, self.words = number, text, words


class Step:
    """The commands up to a 'wait', or to the end; `wait` is its line, or None at the end."""

    def __init__(self, lines, wait=None):
        self.lines, self.wait = lines, wait

    def where(self):
        """Returns its lines in words."""
        first, last = self.lines[0].number, self.lines[-1].number
        return f"line {first}" if first == last else f"lines {first}-{last}"


def read_runbook(path):
    """Reads the steps of a file, or of standard input by '-'. A Fault names the line that isn't of
    this form."""
    text, name = (sys.stdin.read(), "standard input") if path == "-" else (text_of(pathlib.Path(path)), path)
    steps, lines = [], []
    for number, own in joined(text):
        where = f"{name}: line {number}"
        for words in commands_in(own, where):
            if words == [WAIT]:
                steps += [Step(lines, number)] if lines else []
                lines = []
            else:
                lines.append(Line(number, " ".join(words), read_words(words, where)))
    steps += [Step(lines)] if lines else []
    if not steps:
        raise Fault(f"{name} has no commands")
    return steps


def joined(text):
    """Yields the lines with their numbers; one that ends in a backslash goes on in the next."""
    number, first, found = 0, 0, ""
    for number, line in enumerate(text.splitlines(), 1):
        first = first or number
        if line.endswith("\\"):
            found += line[:-1] + " "
            continue
        yield first, found + line
        first, found = 0, ""
    if found:
        yield first, found


def commands_in(line, where):
    """Returns the words of each command of a line, without what a shell reads behind '#'."""
    parts = shlex.shlex(line, posix=True, punctuation_chars=";&|()<>")
    parts.whitespace_split, parts.commenters = True, "#"
    found = [[]]
    try:
        for it in parts:
            if it in ENDS:
                found.append([])
            elif it in ODD or "$" in it or "`" in it:
                raise Fault(
                    f"{where}: {it!r} isn't foretold: write the commands as they are once the shell has read them"
                )
            else:
                found[-1].append(it)
    except ValueError as error:
        raise Fault(f"{where}: {str(error).lower()}") from None
    return [it for it in found if it]
