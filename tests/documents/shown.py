"""The commands that documents show, each with what it has to print: indented lines, a command after
'$ ' and its output below it. The commands of a document run in order in one folder, which has the
program as crushcalc, the examples and the tools."""
import os
import pathlib
import re
import subprocess
import tempfile

TOP = pathlib.Path(__file__).resolve().parent.parent.parent
DOCUMENTS = ("README.md", "examples/README.md", "docs/REQUESTS.md", "docs/MAPS.md", "docs/PLANNING.md")
INDENT, PROMPT = "    ", "    $ "
# what a command's first line ends with that goes on, and what its last line begins with
LONGER = {"<<'END'": "END", "; do": "done"}
# the documents whose commands are typed in a checkout, in which they leave no files behind
TIDY = ("README.md", "docs/PLANNING.md")
# commands of the server and of curl, which http/shown_pages.py runs
SERVED = re.compile(r"\bcurl\b|\bserve\b|crushcalc\.pid")


def commands_in(text):
    """The commands of a document, each with its output."""
    lines, found = iter(text.splitlines()), []
    command, empty = None, ""
    for line in lines:
        if line.startswith(PROMPT):
            empty = ""
            command = [line[len(PROMPT) :]]
            last = next((last for first, last in LONGER.items() if command[0].endswith(first)), None)
            for more in lines if last else ():
                command.append(more.removeprefix(INDENT))
                if command[-1].startswith(last):
                    break
            found.append(("\n".join(command) + "\n", []))
        elif line.startswith(INDENT) and command is not None:
            found[-1][1].append(empty + line[len(INDENT) :] + "\n")
            empty = ""
        elif not line and command is not None:
            # of the output, if that goes on
            empty += "\n"
        else:
            command, empty = None, ""
    return [(command, "".join(output)) for command, output in found]


def fault(folder, command, wanted, seconds):
    """Why a command doesn't print what is shown, or None."""
    environment = {**os.environ, "CRUSHCALC": f"{folder}/crushcalc"}
    ran = subprocess.run(
        ["sh", "-c", command],
        cwd=folder,
        env=environment,
        stdin=subprocess.DEVNULL,
        stdout=subprocess.PIPE,
        stderr=subprocess.STDOUT,
        timeout=seconds,
    )
    said = ran.stdout.decode(errors="replace")
    return None if said == wanted else f"it prints {said[:400]!r}"


def outcomes(program, words, seconds):
    """Each command of the documents, or of those whose names have one of the words: its name, and
    why it fails, or None."""
    for document in DOCUMENTS:
        name = f"shown in {document}"
        if words and not any(it in name for it in words):
            continue
        with tempfile.TemporaryDirectory() as folder:
            os.symlink(program, f"{folder}/crushcalc")
            for it in ("examples", "tools"):
                os.symlink(TOP / it, f"{folder}/{it}")
            for place, (command, wanted) in enumerate(commands_in((TOP / document).read_text()), 1):
                if SERVED.search(command):
                    continue
                yield f"{name}, command {place}", fault(folder, command, wanted, seconds)
            if document in TIDY:
                left = sorted(
                    str(it.relative_to(folder))
                    for it in pathlib.Path(folder).rglob("*")
                    if not it.is_dir() and not it.is_symlink()
                )
                yield f"{name}: its commands leave no files", f"they leave {', '.join(left)}" if left else None
