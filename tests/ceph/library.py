"""Ceph's side of the comparisons: its crushtool reads the text of a map, and bench/ceph_mappings.c
asks its library's crush_do_rule."""
import json
import pathlib
import shutil
import subprocess
import tempfile

TOP = pathlib.Path(__file__).resolve().parent.parent.parent
BENCH, BUILD = TOP / "bench", TOP / "build"
SET_STEPS = {12: "set_chooseleaf_vary_r", 13: "set_chooseleaf_stable"}  # crushtool prints these by their numbers
TUNABLES = ("choose_total_tries", "chooseleaf_descend_once", "chooseleaf_vary_r", "chooseleaf_stable")


class Failed(Exception):
    """Says which program failed, and what it said."""


def run(words, given=None):
    """What a program writes on standard output and on standard error."""
    try:
        ran = subprocess.run(
            [str(it) for it in words], input=given, stdout=subprocess.PIPE, stderr=subprocess.PIPE, text=True
        )
    except OSError as error:
        raise Failed(f"{words[0]}: {error.strerror}") from None
    if ran.returncode != 0:
        raise Failed(f"{words[0]}: {(ran.stderr or ran.stdout).strip()}")
    return ran.stdout, ran.stderr


def built():
    """The program that asks the library, or None where the library, crushtool or gcc is missing."""
    library = run(["sh", BENCH / "libceph"])[0].strip()
    if not (library and shutil.which("gcc") and shutil.which("crushtool")):
        return None
    BUILD.mkdir(exist_ok=True)
    program = BUILD / "ceph_mappings"
    run(["gcc", "-O2", "-o", program, BENCH / "ceph_mappings.c", library, f"-Wl,-rpath,{pathlib.Path(library).parent}"])
    return program


def read(text):
    """The map of a text as crushtool reads it."""
    with tempfile.TemporaryDirectory() as name:
        given, compiled = pathlib.Path(name) / "map.txt", pathlib.Path(name) / "map.bin"
        given.write_text(text)
        run(["crushtool", "-c", given, "-o", compiled])
        return json.loads(run(["crushtool", "-i", compiled, "--dump"])[0])


def step_line(step, types):
    if "opcode" in step:
        return f"{SET_STEPS[step['opcode']]} {step['arg1']}"
    op = step["op"]
    if op == "take":
        return f"take {step['item']}"
    if op == "emit":
        return op
    if op.startswith("set_"):
        return f"{op} {step['num']}"
    word, mode = op.split("_")
    return f"{word} {mode} {step['num']} {types[step['type']]}"


def lines_of(text, reweights=()):
    """The lines that declare a map and its first rule to the program, as crushtool reads the text,
    with pairs of device and reweight."""
    it = read(text)
    types = {of["name"]: of["type_id"] for of in it["types"]}
    lines = [
        "map text",
        "tunables " + " ".join(str(it["tunables"][name]) for name in TUNABLES),
        f"devices {max(of['id'] for of in it['devices']) + 1}",
    ]
    for bucket in it["buckets"]:
        items = "".join(f" {of['id']}:{of['weight']}" for of in sorted(bucket["items"], key=lambda of: of["pos"]))
        lines.append(f"bucket {bucket['id']} {bucket['type_id']} {bucket['alg']}{items}")
    lines += [f"reweight {device} {weight}" for device, weight in reweights]
    return lines + [f"step {step_line(of, types)}" for of in it["rules"][0]["steps"]]
