"""docs/openapi.yaml beside the server, the worked cases and the sources: what `described` finds,
which needs the packages of Debian's own python."""
import json
import subprocess

from expected import TOP

PYTHON, SECONDS = "/usr/bin/python3", 600


def checks(program, folder):
    ran = subprocess.run(
        [PYTHON, TOP / "tests" / "http" / "described", program, folder],
        stdout=subprocess.PIPE,
        stderr=subprocess.PIPE,
        timeout=SECONDS,
    )
    for line in ran.stdout.splitlines():
        yield json.loads(line)
    if ran.returncode:
        yield "described", ran.stderr.decode(errors="replace")[-500:]
