"""The man pages and the completions of package/ beside the programs' help: each command, and each
option of a command, of the one stands in the other."""
import pathlib
import re
import subprocess

TOP = pathlib.Path(__file__).resolve().parent.parent.parent
MANUALS = TOP / "package" / "man"
COMPLETIONS = {"crushcalc": TOP / "package/completions/crushcalc", "crushplan": TOP / "tools/crushplan.bash"}
OPTION = re.compile(r"(?<![\w-])--[a-z][a-z-]*")
# the line of a man page that names the commands which have an option
COMMANDS = re.compile(r'^\.RB "?\(([^)]*)\)$')
HELP = "--help"
SECONDS = 60


def help_of(program, *words):
    ran = subprocess.run(
        [program, *words, "--help"],
        stdin=subprocess.DEVNULL,
        stdout=subprocess.PIPE,
        timeout=SECONDS,
        check=True,
        env={"PATH": "/usr/bin:/bin", "COLUMNS": "200"},
    )
    return ran.stdout.decode()


def commands_in(text):
    """The commands that a program's help lists: below a line of their own, indented."""
    part = re.search(r"^commands:\n(.*?)\n\n", text, re.MULTILINE | re.DOTALL | re.IGNORECASE)[1]
    return {it for it in re.findall(r"^ {2,4}(\w+)  +\w", part, re.MULTILINE)}


def options_of(program, command):
    """The options of a command, as its help lists them in lines that begin with them."""
    lines = [
        line for line in help_of(program, *([command] if command else [])).splitlines() if re.match(r" {2,6}-", line)
    ]
    return {OPTION.search(line)[0] for line in lines if OPTION.search(line)}


def helped(program):
    """Of each command of the program, and of '', the program itself: its options."""
    commands = commands_in(help_of(program))
    return {name: options_of(program, name) if name != "help" else set() for name in {"", *commands}}


def section(text, name):
    return text.partition(f"\n.SH {name}\n")[2].partition("\n.SH ")[0]


def synopsis(name, text):
    """Of each command of a man page, and of '', the program itself: the options in its lines of the
    synopsis."""
    found = {}
    for line in section(text, "SYNOPSIS").split("\n.br\n"):
        command = re.match(rf"\.B {name}(?: (\w+))?$", line, re.MULTILINE)[1] or ""
        found.setdefault(command, set()).update(OPTION.findall(line))
    return found


def manual(name):
    """Of each command that a man page names, and of '', the program itself: its options. Those of
    an entry of OPTIONS belong to the commands that its second line names, as '(usage, drain)' or
    '(all but fetch)', or to those in whose synopsis they are; --help to each command too."""
    text = (MANUALS / f"{name}.1").read_text().replace("\\-", "-")
    found = synopsis(name, text)
    commands, options = set(found) - {""}, {it: {HELP} - ({HELP} if it == "help" else set()) for it in found}
    for entry in section(text, "OPTIONS").split(".TP\n")[1:]:
        tag, second, *_ = entry.split("\n")
        named = COMMANDS.match(second)
        words = set(re.findall(r"\w+", named[1])) if named else set()
        for option in OPTION.findall(tag):
            of = commands - words if "but" in words else words or {it for it in found if option in found[it]}
            for command in of:
                options.setdefault(command, set()).add(option)
    return options


def unnamed(name):
    """Options in the synopsis of a command which its entries of OPTIONS don't have."""
    text = (MANUALS / f"{name}.1").read_text().replace("\\-", "-")
    options = manual(name)
    return [
        f"{command} {it}" for command, some in synopsis(name, text).items() for it in sorted(some - options[command])
    ]


def completed(name, *words):
    """What the completion offers for the last of the words."""
    line = " ".join(f"'{it}'" for it in (name, *words))
    script = (
        f". {COMPLETIONS[name]}; COMP_WORDS=({line}); COMP_CWORD={len(words)}; _{name}; printf '%s\\n'"
        ' "${COMPREPLY[@]}"'
    )
    ran = subprocess.run(["bash", "-c", script], stdout=subprocess.PIPE, timeout=SECONDS, check=True)
    return set(ran.stdout.decode().split())


def unlike(one, other, what):
    return None if one == other else f"{what}: {sorted(one ^ other)} stands in one of the two alone"


def of_program(program, name):
    found, options = helped(program), manual(name)
    text = (MANUALS / f"{name}.1").read_text().replace("\\-", "-")
    yield "the page's commands", unlike(set(options), set(found), "commands")
    for command in sorted(set(found) & set(options)):
        yield f"the page's options of {command or 'the program'}", unlike(options[command], found[command], "options")
    yield "the page's synopsis", f"its entries of OPTIONS lack {unnamed(name)}" if unnamed(name) else None
    missing = {"NAME", "SYNOPSIS", "DESCRIPTION", "OPTIONS", "EXIT STATUS", "FILES", "EXAMPLES"} - set(
        re.findall(r"^\.SH (.*)$", text, re.MULTILINE)
    )
    yield "the page's sections", f"it lacks {missing}" if missing else None
    missing = [it for it in found if it and not re.search(rf"{name} {it}\b", section(text, "EXAMPLES"))]
    yield "the page's examples", f"none of {missing}" if missing else None
    yield "the completion's commands", unlike(completed(name, ""), (set(found) - {""}) | found[""], "commands")
    for command in sorted(set(found) - {"", "help"}):
        yield f"completion of {command}", unlike(completed(name, command, "--"), found[command], "options")


def outcomes(program, words):
    """Each check of the man pages and the completions, or of those whose names have one of the
    words: its name, and why it fails, or None."""
    programs = [(program, "crushcalc"), (TOP / "tools" / "crushplan", "crushplan")]
    for it, name in programs:
        if pathlib.Path(it).is_file() and (not words or any(word in f"manuals of {name}" for word in words)):
            yield from ((f"manuals of {name}: {what}", why) for what, why in of_program(it, name))
