"""The program from its arguments to its exit status."""
import argparse
import gc
import importlib
import json
import os
import signal
import sys

from . import arguments
from .faults import Fault
from .service import Script, found_program
from .waiting import waiting

FAILED = UNKNOWN = 2
INTERRUPTED = 130
AGAIN = ("check", "drain", "fail", "usage")  # commands that can be done twice: they read nothing but the folder
YOUNG = 200_000  # objects that are made before those that refer to each other in a circle are looked for


def client_of(asked, beside):
    if asked.service and getattr(asked, "on", None):
        raise Fault("--on asks programs at other machines, and takes no --service")
    if asked.service:
        from .server import Server

        return Server(asked.service)
    program = found_program(asked.program or os.environ.get("CRUSHCALC"), beside)
    if getattr(asked, "on", None):
        from .machines import Machines

        return Machines(asked.on, program)
    return Script(program)


def said_version(beside):
    """Writes the version, and that of the program."""
    try:
        program = Script(found_program(os.environ.get("CRUSHCALC"), beside))
        said = f"{program.version()} ({program.where})"
    except Fault as fault:
        said = fault
    write_out(f"crushplan {arguments.VERSION}\n{said}\n")


def answered(asked, beside):
    """Returns the exit status, once the answer is written."""
    # of the commands that one alone is read which is asked for
    command = getattr(importlib.import_module(f".{asked.command}", __package__), asked.command)
    from .output import written

    with waiting:
        if asked.command == "fetch":
            answer, plan = command(asked), None
        else:
            from .acceptance import MapRefused

            try:
                answer, plan = found_by(command, asked, beside, asked.command in AGAIN)
            except MapRefused:
                answer, plan = found_by(command, asked, beside, False)
        if getattr(asked, "html", None):
            from .page import write_page

            waiting.at(f"writing {asked.html}")
            write_page(asked.html, answer, asked, plan)
        text = written(answer, asked.command, asked.form, plan)
    write_out(text)
    return answer.status


def found_by(command, asked, beside, is_hopeful):
    """Returns what a command answers, and the plan that it asked; MapRefused where that hoped in
    vain that crushcalc takes the whole map."""
    from .cluster import read_cluster
    from .placing import Plan

    waiting.at(f"reading {asked.folder}")
    cluster, client = read_cluster(asked.folder, asked), client_of(asked, beside)
    try:
        plan = Plan(cluster, client, is_hopeful and isinstance(client, Script))
        try:
            answer = command(plan, asked)
        except Exception:
            plan.acceptance.confirm()
            raise
        plan.acceptance.confirm()
        return doubted(answer, plan.doubt), plan
    finally:
        client.end()


def write_out(text):
    """Writes an answer, a text or bytes; a Fault where it can't be written whole."""
    try:
        (sys.stdout.buffer if isinstance(text, bytes) else sys.stdout).write(text)
        sys.stdout.flush()
    except BrokenPipeError:
        raise
    except (OSError, ValueError) as error:
        close_out()
        raise Fault(
            f"the answer can't be written to standard output: {getattr(error, 'strerror', None) or error}"
        ) from None


def open_streams():
    """Has both streams there, also where they were closed, and characters that a terminal lacks
    written as a mark."""
    if sys.stderr is None:
        sys.stderr = open(os.devnull, "w")
    if sys.stdout is None:
        sys.stdout = Closed()
    for stream in (sys.stdout, sys.stderr):
        if hasattr(stream, "reconfigure"):
            stream.reconfigure(errors="replace")


def close_out():
    """Has what is left of standard output go nowhere."""
    if hasattr(sys.stdout, "fileno"):
        os.dup2(os.open(os.devnull, os.O_WRONLY), sys.stdout.fileno())


class Closed:
    """Standard output where there is none."""

    buffer = property(lambda self: self)  # for bytes

    def write(self, text):
        raise OSError("it is closed")

    def flush(self):
        """Has nothing to write."""

    def isatty(self):
        return False


def doubted(answer, doubt):
    """Returns an answer as one that isn't known, where the cluster itself says otherwise of its
    groups."""
    if doubt:
        answer.status = UNKNOWN
        answer.sentence = f"unknown: {doubt}." + (f" As computed: {answer.sentence}" if answer.sentence else "")
    return answer


def failed(asked, why):
    """Says why there is no answer, in JSON too where that was asked for."""
    return failed_by(asked.command, why, f"crushplan: {why}\n", getattr(asked, "form", "") == "json")


def failed_by(command, why, text, with_json):
    """Writes text on standard error, and with JSON first, as far as both can be written."""
    try:
        if with_json and not isinstance(sys.stdout, Closed):
            write_out(json.dumps({"crushplan": 1, "command": command, "status": FAILED, "error": why}) + "\n")
    except (Fault, OSError):
        close_out()
    sys.stderr.write(text)
    return FAILED


def misused(wrong, words):
    """Says what is wrong with the arguments, as JSON too where they ask for it."""
    first = next((it for it in words if not it.startswith("-")), None)
    command = first if first in arguments.COMMANDS else None
    own = words[: words.index("--")] if "--" in words else words
    return failed_by(command, str(wrong), f"{wrong.usage}{wrong.prog}: error: {wrong}\n", "--json" in own)


def terminated(*_):
    raise KeyboardInterrupt


def main(words, beside):
    """Does what the arguments ask. `beside` are the places where crushcalc may be."""
    signal.signal(signal.SIGTERM, terminated)
    # what is read stays until the end: to look at it for what isn't needed any more is in vain
    gc.set_threshold(YOUNG, 20, 20)
    open_streams()
    asked = argparse.Namespace(command=None)
    try:
        parser = arguments.parser(words)
        asked = arguments.parsed(parser, words)
        if asked.version:
            said_version(beside)
            return 0
        if asked.names_of:
            from .names import write_names

            return write_names(*asked.names_of)
        if asked.command == "help":
            arguments.help_of(parser, asked.topic)
            return 0
        if not asked.command:
            sys.stderr.write(parser.format_help())
            return FAILED
        return answered(asked, beside)
    except arguments.Misuse as wrong:
        return misused(wrong, words)
    except Fault as fault:
        return failed(asked, str(fault))
    except KeyboardInterrupt:
        print("crushplan: interrupted", file=sys.stderr)
        return INTERRUPTED
    except BrokenPipeError:
        close_out()
        return FAILED
    except RecursionError:
        return failed(asked, "the map is nested too deeply")
    except Exception as error:  # whatever it is given, the program says a sentence
        if "CRUSHPLAN_TRACE" in os.environ:
            raise
        return failed(
            asked, f"it can't go on: {type(error).__name__}: {str(error)[:200]}. This is a mistake in crushplan."
        )
