"""Runs crushplan for the cases."""
import json
import os
import pathlib
import subprocess

PLAN = pathlib.Path(__file__).resolve().parent.parent.parent / "tools" / "crushplan"
SECONDS = 300


class Wrong(Exception):
    """Says how a case failed."""


def wants(condition, what):
    if not condition:
        raise Wrong(what)


def equals(what, here, wanted):
    if here != wanted:
        raise Wrong(f"{what}: {str(here)[:300]}, wanted {str(wanted)[:300]}")


class Runner:
    """Runs crushplan beside a crushcalc."""

    def __init__(self, program):
        self.program = program
        self.environment = {**os.environ, "CRUSHCALC": str(program), "COLUMNS": "100"}
        self.environment.pop("CRUSHPLAN_TRACE", None)
        self.command = ["python3", str(PLAN)]

    def run(self, *words, given=None, **changed):
        """The status, standard output and standard error. None takes away a variable of the
        environment."""
        environment = {name: value for name, value in {**self.environment, **changed}.items() if value is not None}
        ran = subprocess.run(
            [*self.command, *map(str, words)],
            input=given,
            stdout=subprocess.PIPE,
            stderr=subprocess.PIPE,
            env=environment,
            timeout=SECONDS,
        )
        out, err = ran.stdout.decode(), ran.stderr.decode()
        wants("Traceback" not in err + out and "mistake in crushplan" not in err, f"{words} says {err[-400:]!r}")
        return ran.returncode, out, err

    def said(self, *words, status=None):
        """The JSON of an answer."""
        code, out, err = self.run(*words, "--json")
        wants(out and not err, f"{words} says {err[-400:]!r}")
        said = json.loads(out)
        equals(f"{words}: status in the JSON", said["status"], code)
        if status is not None:
            equals(f"{words}: status", code, status)
        return said

    def refused(self, *words, has, given=None):
        """A command that ends with status 2 and a line on standard error that has some words."""
        code, out, err = self.run(*words, given=given)
        equals(f"{words}: status ({err[:200]!r})", code, 2)
        for it in (has,) if isinstance(has, str) else has:
            wants(it in err, f"{words} doesn't say {it!r} but {err[:400]!r}")
        equals(f"{words}: standard output", out, "")
