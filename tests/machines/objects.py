"""`crushplan locate --objects` as a part of a pipe, under GNU parallel and over Dask; in constant
memory; and beside Ceph's osdmaptool, object by object."""
import csv
import os
import pathlib
import shutil
import subprocess
import sys

from dask_cluster import PYTHON, TOOLS, Dask
from gate.counted import Untried

HERE = pathlib.Path(__file__).resolve().parent
PARTS, SECONDS = 12, 600
NAMES = (2_000, 200_000)  # of a list, in the short form and the long one
SAMPLE = (30, 1_000)  # names that osdmaptool is asked for, of each cluster
MANY = (400_000, 1_000_000)  # names of a list, of which ten times as many take as much memory
CLUSTERS = ("trees", "reweighted", "classes", "weight-sets")
MORE = 1.3  # how much more these may take: of parts not all are as large, nor as many at once
# each part of a list is piped through crushplan by a worker
OVER_DASK = """
import subprocess, sys
import distributed
url, source, *words = sys.argv[1:]
lines = open(source, "rb").readlines()
parts = [b"".join(lines[it * len(lines) // {parts} : (it + 1) * len(lines) // {parts}]) for it in range({parts})]
piped = lambda part: subprocess.run(words, input=part, stdout=subprocess.PIPE, check=True).stdout
with distributed.Client(url) as client:
    sys.stdout.buffer.writelines(client.gather(client.map(piped, parts)))
"""
# the greatest memory of crushplan and of what it started, each by itself
MEASURED = """
import resource, subprocess, sys
with open(sys.argv[1], "rb") as names, open("/dev/null", "wb") as out:
    subprocess.run(sys.argv[2:], stdin=names, stdout=out, check=True)
print(resource.getrusage(resource.RUSAGE_CHILDREN).ru_maxrss)
"""


def command(folder, pool):
    return [sys.executable, str(TOOLS / "crushplan"), "locate", str(folder), pool, "--objects", "-", "--no-head"]


def written(path, count):
    """Writes names into a file, some of which CSV has in quotes."""
    with open(path, "w") as file:
        for it in range(count):
            odd = ',"' if it % 50 == 0 else ""
            file.write(f"rbd_data.{it * 2654435761 % 2**48:x}{odd}\n")
    return path


def ran(words, program, **how):
    own = {**os.environ, "CRUSHCALC": program}
    how = {"stdout": subprocess.PIPE, "stderr": subprocess.PIPE, "timeout": SECONDS, **how}
    done = subprocess.run(list(map(str, words)), env=own, **how)
    if done.returncode:
        raise OSError(f"{words[:2]} ends with status {done.returncode}: {done.stderr.decode()[-300:]}")
    return done.stdout


def piped(program, folder, is_long):
    """Yields whether a pipe writes under GNU parallel, and over Dask, what it writes alone."""
    words = command(TOOLS.parent / "examples" / "july", "photos")
    names = written(folder / "names", NAMES[is_long])
    with names.open("rb") as given:
        alone = ran(words, program, stdin=given)
    rows = len(alone.splitlines())
    yield "alone", None if rows == NAMES[is_long] else f"{rows:,} rows of {NAMES[is_long]:,} names"
    if shutil.which("parallel"):
        block = str(names.stat().st_size // PARTS)
        with names.open("rb") as given:
            by = ["parallel", "--pipe", "--keep-order", "-j4", "--block", block, "-q"]
            spread = ran([*by, *words], program, stdin=given)
        yield "GNU parallel", None if spread == alone else f"{spread[:200]} and not {alone[:200]}"
    else:
        yield "GNU parallel", Untried("parallel isn't installed")
    if subprocess.run([PYTHON, "-c", "import distributed"], stderr=subprocess.DEVNULL).returncode:
        yield "Dask", Untried("distributed isn't installed for /usr/bin/python3")
        return
    with Dask(folder) as dask, dask.workers(2, program):
        spread = ran([PYTHON, "-c", OVER_DASK.format(parts=PARTS), dask.url, names, *words], program)
    yield "Dask", None if spread == alone else f"{spread[:200]} and not {alone[:200]}"


def memory(program, folder, is_long):
    """Returns why ten times the names take more memory, or None."""
    words, found = command(TOOLS.parent / "examples" / "july", "photos"), []
    for count in (MANY[is_long], 10 * MANY[is_long]):
        names = written(folder / "many", count)
        found.append(int(ran([sys.executable, "-c", MEASURED, names, *words], program)))
    return None if found[1] <= MORE * found[0] else f"{found[0]:,} and {found[1]:,} KB"


def beside_ceph(program, folder, is_long):
    """Compares where objects lie with what osdmaptool says, and yields each cluster with how many
    differ."""
    if not shutil.which("osdmaptool") or not shutil.which("crushtool"):
        yield "osdmaptool", Untried("osdmaptool and crushtool aren't installed")
        return
    sys.path.append(str(HERE.parent / "ceph"))
    from osdmap import OsdMap
    from plan_ceph import Ceph
    from plan_clusters import named_clusters
    from today_clusters import today_clusters

    for cluster in (*named_clusters(), *today_clusters()):
        if cluster.name not in CLUSTERS:
            continue
        own = folder / cluster.name
        own.mkdir()
        ceph = Ceph(cluster, own)
        map_ = OsdMap(own, None, cluster.pools, ceph.start.states, ceph.start.crush, affinities=cluster.affinities)
        map_.set_upmaps(ceph.start.upmaps)
        pool = cluster.pools[0]
        names = [f"rbd_data.{it:016x}" for it in range(SAMPLE[is_long])]
        given = "".join(f"{it}\n" for it in names).encode()
        rows = list(csv.reader(ran(command(ceph.dumps, pool["name"]), program, input=given).decode().splitlines()))
        wanted = [lies(map_, pool["id"], it) for it in names]
        differ = sum(row[:3] != it for row, it in zip(rows, wanted)) + abs(len(rows) - len(wanted))
        yield f"osdmaptool, {cluster.name}: {len(names):,} objects", f"{differ} differ" if differ else None


def lies(map_, pool, name):
    """Returns the row that osdmaptool's words make, up to the devices."""
    group, up = map_.object_lies(pool, name)
    return [name, f"{pool}.{group:x}", " ".join("-" if it is None else str(it) for it in up)]


def checks(program, folder, is_long):
    yield from piped(program, folder, is_long)
    yield "memory", memory(program, folder, is_long)
    yield from beside_ceph(program, folder, is_long)
