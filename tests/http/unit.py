"""The unit of examples/crushcalc.service, as systemd-analyze sees it: no word of it is unknown, and
little is left that the process may do."""
import pathlib
import re
import shutil
import subprocess

from expected import TOP
from gate.counted import Untried

EXPOSURE = 1.5
SCORE = re.compile(r"Overall exposure level for .*: (\d+\.\d+)")


def analyze(*words):
    ran = subprocess.run(["systemd-analyze", *words], stdout=subprocess.PIPE, stderr=subprocess.STDOUT, timeout=60)
    return ran.returncode, ran.stdout.decode(errors="replace")


def checks(program, folder):
    if shutil.which("systemd-analyze") is None:
        raise Untried("there is no systemd-analyze")
    unit = pathlib.Path(folder, "crushcalc@8081.service")
    text = (TOP / "examples" / "crushcalc.service").read_text()
    unit.write_text(text.replace("/usr/local/bin/crushcalc", program))
    status, said = analyze("verify", str(unit))
    yield "the unit's words", (
        None if (status, said.strip(), text.count("/usr/local/bin/crushcalc")) == (0, "", 1) else said
    )
    status, said = analyze("security", "--offline=true", str(unit))
    found = SCORE.search(said)
    yield "the unit's rights", None if found and float(found[1]) <= EXPOSURE else said[-300:]
