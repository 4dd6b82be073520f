"""What crushplan asks each worker of Dask before it sends any task: which crushplan and crushcalc
it has. The functions go there by value, so they import what they need, and nothing of
crushplan."""


def found_tools():
    """Returns the folder of crushplan's parts, and the program: by CRUSHPLAN and CRUSHCALC, or on
    PATH, the program also beside crushplan. A LookupError names what isn't there."""
    import os
    import pathlib
    import shutil

    name = os.environ.get("CRUSHPLAN") or shutil.which("crushplan")
    if not name or not os.path.isfile(name):
        raise LookupError("it has no crushplan on PATH")
    here = pathlib.Path(name).resolve().parent
    own = [it / "crushplan_parts" for it in (here, here.parent / "share" / "crushcalc")]
    parts = next((it for it in own if it.is_dir()), None)
    if parts is None:
        raise LookupError(f"the parts of {name} are missing")
    beside = [here / "crushcalc", here.parent / "crushcalc", here.parent / "build" / "try" / "crushcalc"]
    given = os.environ.get("CRUSHCALC")
    named = [pathlib.Path(given)] if given else [*beside, pathlib.Path(shutil.which("crushcalc") or "/")]
    program = next((it for it in named if it.is_file() and os.access(it, os.X_OK)), None)
    if program is None:
        raise LookupError(f"it has no crushcalc {f'at {given}' if given else 'beside crushplan or on PATH'}")
    return parts, program


def digests(parts, program):
    """Returns what has to be the same at all machines, by its name."""
    import hashlib
    import sys

    own = hashlib.sha256()
    for it in sorted(parts.glob("*.py")):
        data = it.read_bytes()
        own.update(f"{it.name} {len(data)}\n".encode() + data)
    return {
        "Python": "{}.{}".format(*sys.version_info),
        "crushplan": own.hexdigest(),
        "crushcalc": hashlib.sha256(program.read_bytes()).hexdigest(),
    }


def probed(expected):
    """Makes a worker ready for tasks. Returns why it can't be, or None."""
    import sys

    try:
        parts, program = found_tools()
        found = digests(parts, program)
    except (LookupError, OSError) as error:
        return str(error)
    for name, own in expected.items():
        if found[name] != own:
            both = f": {found[name]}, and {own} here" if name == "Python" else ""
            return f"it has another {name}{both}"
    # a worker lives longer than an installation, and keeps what it has read
    loaded = getattr(sys.modules.get("crushplan_parts"), "digest", None)
    if loaded not in (None, found["crushplan"]):
        return "it still has another crushplan in memory: start it again"
    if loaded is None:
        sys.path.insert(0, str(parts.parent))
        import crushplan_parts

        crushplan_parts.digest = found["crushplan"]
    return None
