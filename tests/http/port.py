"""The port on the loopback, which any user of the machine reaches, and only nginx's user and root
with the rule of nftables that docs/SERVING.md shows. Root tries it, in a network of its own."""
import os
import pathlib
import re
import shutil
import subprocess

from expected import TOP
from gate.counted import Untried
from server.served import SECONDS, Unserved

BLOCK = re.compile(r"^```text\n(table inet crushcalc .*?)^```$", re.M | re.S)
PORT, USERS = 8081, ("root", "www-data", "nobody")
# arguments: the rule's file, the program, and the database
SCRIPT = f"""
ip link set lo up
nft -f "$1" || exit 1
rm -f "$3.said"
"$2" serve --db "$3" --port {PORT} >"$3.said" &
for turn in $(seq 600); do grep -q listening "$3.said" && break; sleep 0.1; done
for user in {' '.join(USERS)}; do
    runuser -u $user -- curl -sS -m 20 http://127.0.0.1:{PORT}/t/a 2>/dev/null
    echo " $user $?"
done
kill $!
"""


def answers(program, folder, rule):
    """What curl says to each user, and its status."""
    file = pathlib.Path(folder, "rule")
    file.write_text(rule)
    ran = subprocess.run(
        ["unshare", "-n", "sh", "-c", SCRIPT, "sh", str(file), program, f"{folder}/port.db"],
        stdout=subprocess.PIPE,
        stderr=subprocess.PIPE,
        timeout=4 * SECONDS,
    )
    if ran.returncode:
        raise Unserved(f"the status is {ran.returncode}, with {ran.stderr.decode(errors='replace')[-300:]!r}")
    return ran.stdout.decode().splitlines()


def checks(program, folder):
    if os.geteuid() or shutil.which("nft") is None:
        raise Untried("there is no nft, or no root")
    rule = BLOCK.search((TOP / "docs" / "SERVING.md").read_text())
    served = '{"error":"no_tenant"}'
    found = answers(program, folder, "")
    yield "any user without a rule", None if found == [f"{served} {it} 0" for it in USERS] else str(found)
    found = answers(program, folder, rule[1])
    yield "nginx's user and root with it", (
        None if found == [f"{served} root 0", f"{served} www-data 0", " nobody 7"] else str(found)
    )
