#!/usr/bin/env python3
"""Checks the pages (*.md) and the comments of the sources, which needs no built program.

usage: tests/documents/pages.py [WORD..]      with WORDs only the checks whose names have one, as
    REQUESTS, limits or crush_map

- A line has at most 100 characters. Tables, code and a line that is one link may be longer.
- A fenced block whose first line ends in 'from FILE', as in ```rust from
  crates/crush_app/src/play.rt, is a quote. Its lines stand together in that file, whose path begins
  at the top of the repository, blanks and all.
- A link to a file, or to a heading of a page, leads to one that is there.
- The table of limits in docs/REQUESTS.md has a row for each limit, with its const and crate: `pub
  const NAME: TYPE = NUMBER;` in crates/CRATE/src/limits.rt. The numbers are the same. (A const that
  is computed from others has no row.)
- The help of `crushcalc check` has a limit's number in the line of each code of HELPED.
- README and some pages of docs/ have a greatest number of lines, and the table of words in
  docs/ARCHITECTURE.md one of rows.
- Each page has a greatest number of words (`wc -w`), alone or with others, but generated ones.
- No page has a word of the right column of the glossary of docs/CHANGING.md.
- Files and names between backticks are in the tree, on the pages of NAMING. Commands, placeholders
  (as NAME), what is built and paths of requests are passed over.
- A recipe of docs/CHANGING.md names each file in which an example of it stands (RECIPES).
  tests/gate/check shows that these four checks can fail, and that of lines of code.
- A comment in crates/*/src, specs and proofs, or in tests, bench, tools and examples, has at most
  100 characters a line, and so has a docstring.
- A line of Python or JavaScript has at most 120 characters. (`black` breaks no comment, and not
  each text.)
- `tools/contracts` prints what the sources have (contracts.py).

tests/program/check runs these checks with its own. The last line is 'N passed, M failed': pages,
the limits, the help, crates, and the index of contracts.
"""
import ast
import fnmatch
import functools
import pathlib
import re
import sys

sys.dont_write_bytecode = True
sys.path.insert(0, str(pathlib.Path(__file__).resolve().parent.parent))
from documents import contracts  # noqa: E402

TOP = pathlib.Path(__file__).resolve().parent.parent.parent
FOLDERS = ("docs", "examples", "bench", "tests")
LONGEST, LONGEST_CODE = 100, 120
FENCE, INDENT = "```", ("    ", "\t")
QUOTED = re.compile(r"^```\w* from (\S+)$")
LINK = re.compile(r"\[[^\]]*\]\(([^)\s]*)\)")
CONST = re.compile(r"^pub const (\w+): \w+ = (-?[\d_]+);$")
LIMITED = re.compile(r"^\|[^|]*\| (-?[\d,]+) \| `(\w+)` \| `(\w+)` \|$")
LIMITS = "docs/REQUESTS.md"
HELP = "crates/crush_arguments/src/command.rt"
# the code of a fault: the crate and the const of its limit, and the number that its line of the
# help has
HELPED = {
    "X7": ("crush_text", "TEXT_LIMIT", lambda limit: f"{limit:,}"),
    "M7": (
        "crush_map",
        "TOTAL_WEIGHT_LIMIT",
        lambda limit: str((limit + 1) // 65536),
    ),  # the first whole weight past it
    "M15": ("crush_map", "NAME_LIMIT", lambda limit: f"{limit:,}"),
}
WORDS = "## Words that mean something special here"
MOST_LINES = {"README.md": 110, "docs/ARCHITECTURE.md": 130, "docs/STATUS.md": 40}
MOST_DEFINED = 25
# how many words a page may have, or some pages together
MOST_WORDS = (
    (870, "README.md"),
    (2_150, "CHANGELOG.md"),
    (530, "CONTRIBUTING.md", "SECURITY.md"),
    (2_740, "docs/PERFORMANCE.md", "docs/STATUS.md"),
    (4_500, "docs/ARCHITECTURE.md", "docs/DECISIONS.md"),
    (2_030, "docs/CHANGING.md"),
    (2_420, "bench/README.md", "tests/ceph/README.md"),
    (1_280, "tests/README.md"),
    (360, "tests/crushplan/README.md"),
    (2_140, "docs/BELIEVE.md"),
    (1_900, "docs/CLAUSES.md"),
    (6_200, "docs/DEFINITIONS.md"),
    (4_500, "docs/SERVING.md", "docs/STORE.md"),
    (2_500, "docs/MAPS.md"),
    (2_500, "docs/REQUESTS.md"),
    (2_400, "docs/PLANNING.md"),
    (1_230, "docs/CRUSHPLAN.md"),
    (760, "docs/INCLUSTER.md"),
    (950, "docs/MACHINES.md"),
    (950, "docs/RELEASES.md"),
    (1_270, "examples/README.md"),
    (250, "examples/machines/README.md"),
    (1_070, "docs/LIBRARY.md"),
)
GENERATED = ("docs/PROOFS.md", "tests/only_tested/REFUSED.md")
GLOSSARY, GLOSSARY_HEAD = "docs/CHANGING.md", "## Words\n"
NAMING = (
    "docs/CHANGING.md",
    "docs/ARCHITECTURE.md",
    "docs/DECISIONS.md",
    "docs/PERFORMANCE.md",
    "docs/STATUS.md",
    "bench/README.md",
    "tests/README.md",
    "tests/ceph/README.md",
)
CODE = re.compile(r"`([^`]+)`")
FILE, NAME = re.compile(
    r"[\w./*-]+\.(?:rt|antt|py|js|md|c|json|yaml|txt|conf|edit|1)|[\w.-]+(?:/[\w.*-]+)+"
), re.compile(r"[A-Za-z_][\w:]*")
PLACEHOLDER = re.compile(r"(?:\b|_)(?:NAME|FILE|TEXT|CRATE|FUNCTION|WHAT_IT_DOES)\b|\.\.|^/|^\./|^build/|[{}]")
SOURCES = ("crates", "tests", "tools", "web", "bench", "examples", "package")
# of a recipe of docs/CHANGING.md: what names an example of it in sources, definitions and proofs of
# the product, below these paths. Each such file is one that the recipe names
RECIPES = {
    "A reading route": (r"\b[Rr]oute(::|\.)Usage\b|\b[Qq]uery(::|\.)Usage\b|\(Usage q\)", "crates"),
    "A changing route": (
        r"\bOrder::RemovePool\b|\(RemovePool id\) (inventory|s)|\bMade::NoPool\b|\bRemovedPool\b",
        "crates",
    ),
    "A column of a report": (r"\bpermille\b", "crates"),
    "A table or column of the file": (r"\bhashpspool\b", "crates/table_", "crates/tenant_tables"),
    "A new store": (r"\bStore<FileStore<", "crates"),
    "A tunable": (r"\bvary_r\b|\bVaryR\b|\bSetVaryR\b", "crates"),
    "Another cache": (r"\bCached::Touched\b|\bAsked::Device\b|\bTouched, M", "crates"),
    "A bucket kind": (r"\bKind::Tree\b|\bListKind\b|\bDraw::Tree\b", "crates"),
    "A fault of maps": (r"\bM15\b", "crates"),
    "A limit, a timeout, an option": (
        r"\bWAIT_SECONDS\b|\bMESSAGE_SECONDS\b|\"cache\"|--cache|\\-\\-cache",
        "crates",
        "package",
    ),
}
# proofs of single functions, of whose goals a recipe says nothing
OF_FUNCTIONS = ("Answers.antt", "Invariants.antt")
COMMENTS = {".rt": ("//",), ".antt": ("--",)}
TOOLS, NO_TOOLS = ("tests", "bench", "tools", "examples", "web"), {".md", ".in", ".out", ".pyc", ".json", ".script"}
PYTHON = re.compile(r"#!.*\bpython3\b")
LINK_ALONE = re.compile(r"^[-\s]*\[[^\]]*\]\([^)]*\)[.,;:]?$")


def pages():
    """Every page, by its path from the top."""
    found = [*TOP.glob("*.md"), *(page for folder in FOLDERS for page in (TOP / folder).rglob("*.md"))]
    return sorted(str(page.relative_to(TOP)) for page in found)


def parts(text):
    """The lines outside fenced blocks, each with its number; and the blocks: the number and text of
    the first line, and the lines inside."""
    prose, blocks, block = [], [], None
    for number, line in enumerate(text.splitlines(), 1):
        if line.startswith(FENCE):
            if block is None:
                block = (number, line, [])
                blocks.append(block)
            else:
                block = None
        elif block is None:
            prose.append((number, line))
        else:
            block[2].append(line)
    return prose, blocks


def long_lines(prose):
    for number, line in prose:
        if len(line) > LONGEST and not line.startswith(("|", *INDENT)) and not LINK_ALONE.match(line):
            yield f"line {number} has {len(line)} characters"


def wrong_quotes(blocks):
    for number, first, lines in blocks:
        quoted = QUOTED.match(first)
        if quoted is None:
            continue
        source = TOP / quoted[1]
        if not source.is_file():
            yield f"line {number}: there is no file {quoted[1]}"
            continue
        text = source.read_text()
        if "\n" + "\n".join(lines) + "\n" not in "\n" + text:
            other = next((line for line in lines if line not in text.splitlines()), None)
            yield f"line {number}: the block isn't in {quoted[1]}" + (
                "" if other is None else f", which has no line {other!r}"
            )


def anchors(text):
    """The names by which links know the headings of a page."""
    headings = (line.lstrip("#") for _, line in parts(text)[0] if line.startswith("#"))
    return {re.sub(r"[^\w\- ]", "", it.strip().lower()).replace(" ", "-") for it in headings}


def wrong_links(page, prose):
    for number, line in prose:
        if line.startswith(INDENT):
            continue
        for target in LINK.findall(re.sub(r"`[^`]*`", "", line)):
            path, _, anchor = target.partition("#")
            if "://" in target:
                continue
            file = (TOP / page).parent / path if path else TOP / page
            if not file.exists():
                yield f"line {number}: the link {target} leads to no file"
            elif anchor and anchor not in anchors(file.read_text()):
                yield f"line {number}: the link {target} leads to no heading"


def long_page(page, text):
    lines = len(text.splitlines())
    if lines > MOST_LINES.get(page, lines):
        yield f"line {lines}: the page may have {MOST_LINES[page]} lines"
    if WORDS in text:
        first = text[: text.index(WORDS)].count("\n") + 1
        rows = [line for line in text.split(WORDS)[1].split("\n## ")[0].splitlines() if line.startswith("|")][2:]
        words = [word for row in rows for word in row.split("|")[1].split(",")]
        if len(words) > MOST_DEFINED:
            yield f"line {first}: the table has {len(words)} words, of which it may have {MOST_DEFINED}"


def long_pages(texts, most=MOST_WORDS, generated=GENERATED):
    """Pages, by their path, that have more words than they may, or no number of them."""
    for greatest, *together in most:
        words = sum(len(texts.get(it, "").split()) for it in together)
        if words > greatest:
            yield f"{' and '.join(together)}: {words:,} words, and at most {greatest:,} are allowed"
    limited = {it for _, *together in most for it in together}
    for page in texts:
        if page not in limited and page not in generated:
            yield f"{page} has no greatest number of words"


def glossary(text):
    """What the glossary of a page refuses, each with what it has in its place; and the page without
    it."""
    before, _, rest = text.partition(GLOSSARY_HEAD)
    part, heading, behind = rest.partition("\n## ")
    rows = [line.strip("|").split("|") for line in part.splitlines() if line.startswith("|")][2:]
    return {word.strip(): cells[0].strip() for cells in rows for word in cells[1].split(",")}, before + heading + behind


def refused_words(text, refused):
    """Words of a page's prose, over ends of lines too, that the glossary refuses."""
    kept = dict(parts(text)[0])
    prose = "\n".join(kept.get(number, "") for number in range(1, max(kept, default=0) + 1))
    prose = CODE.sub(
        lambda it: re.sub(r"\S", " ", it[0]), "\n".join("" if it.startswith(INDENT) else it for it in prose.split("\n"))
    )
    for word, better in refused.items():
        for found in re.finditer(r"\b" + word.replace(" ", r"\s+") + r"\b", prose, re.IGNORECASE):
            yield (
                f"line {prose.count(chr(10), 0, found.start()) + 1}: {' '.join(found[0].split())!r}, for which the"
                f" glossary has: {better}"
            )


def unnamed_files(recipe, example, files):
    """Files, by path, in which an example of a recipe stands, and which the recipe doesn't name."""
    for path, text in files.items():
        name = path.rpartition("/")[2]
        if name not in recipe and name not in OF_FUNCTIONS and re.search(example, text):
            yield path


def recipe_faults(page):
    found = {}
    for it in sorted(it for folder in ("crates", "package") for it in (TOP / folder).rglob("*") if it.is_file()):
        path = it.relative_to(TOP)
        if (
            path.parts[0] == "package"
            or path.parts[2] in ("src", "specs", "proofs")
            and not path.parts[1].endswith("_tests")
            and path.parts[1] != "crush_bench"
        ):
            found[str(path)] = it.read_text(errors="replace")
    recipes = dict(part.partition("\n")[::2] for part in page.split("\n## "))
    for heading, (example, *folders) in RECIPES.items():
        below = {path: text for path, text in found.items() if path.startswith(tuple(folders))}
        for path in unnamed_files(recipes.get(heading, ""), example, below):
            yield f"{GLOSSARY}: the recipe {heading!r} doesn't name {path}"


@functools.cache
def source_files():
    """The files below the folders of sources, but what is built there."""
    return [
        it
        for folder in SOURCES
        for it in (TOP / folder).rglob("*")
        if it.is_file() and "out" not in it.relative_to(TOP).parts and it.suffix != ".pyc"
    ]


@functools.cache
def tree():
    """The paths of the repository's files and folders, and the words of its sources."""
    files = source_files()
    paths = {f"/{it.relative_to(TOP)}" for it in [*files, *TOP.glob("*"), *TOP.glob("docs/*")]}
    sources = [*(it for it in files if it.suffix != ".md"), TOP / "Makefile", TOP / "crates.txt"]
    words = set(re.findall(r"\w+", "\n".join(it.read_text(errors="replace") for it in sources)))
    return paths | {str(folder) for it in paths for folder in pathlib.PurePath(it).parents}, words


def unknown_names(text, paths, words):
    """Files and names between backticks that aren't in the tree."""
    for number, line in parts(text)[0]:
        for span in CODE.findall("" if line.startswith(INDENT) else line):
            if " " in span or PLACEHOLDER.search(span):
                continue
            if FILE.fullmatch(span):
                if not any(fnmatch.fnmatchcase(it, f"*/{span}") for it in paths):
                    yield f"line {number}: there is no file {span}"
            elif NAME.fullmatch(span) and span.split("::")[-1] not in words:
                yield f"line {number}: no source has {span}"


def name_faults(page, text):
    yield from (f"{page}: {why}" for why in unknown_names(text, *tree()))


def page_faults(page):
    text = (TOP / page).read_text()
    prose, blocks = parts(text)
    yield from long_lines(prose)
    yield from wrong_quotes(blocks)
    yield from wrong_links(page, prose)
    yield from long_page(page, text)


def limits():
    """The limits of the sources: of each crate and const, where it stands and its number."""
    for source in sorted(TOP.glob("crates/*/src/limits.rt")):
        for number, line in enumerate(source.read_text().splitlines(), 1):
            const = CONST.match(line)
            if const:
                yield (source.parts[-3], const[1]), (f"{source.relative_to(TOP)}: line {number}", int(const[2]))


def limit_faults():
    there, listed = dict(limits()), set()
    for number, line in enumerate((TOP / LIMITS).read_text().splitlines(), 1):
        row = LIMITED.match(line)
        if row is None:
            continue
        place, value, key = f"{LIMITS}: line {number}", int(row[1].replace(",", "")), (row[3], row[2])
        if key in listed:
            yield f"{place}: {row[2]} of {row[3]} has a second row"
        elif key not in there:
            yield f"{place}: there is no number {row[2]} in crates/{row[3]}/src/limits.rt"
        elif there[key][1] != value:
            yield f"{place}: {row[2]} is {there[key][1]:,} in {there[key][0]}"
        listed.add(key)
    for (crate, name), (place, _) in there.items():
        if (crate, name) not in listed:
            yield f"{place}: {name} of {crate} has no row in {LIMITS}"


def help_faults():
    there = dict(limits())
    lines = list(enumerate((TOP / HELP).read_text().splitlines(), 1))
    for code, (crate, name, written) in HELPED.items():
        number, line = next(((number, line) for number, line in lines if line.split()[:1] == [code]), (None, ""))
        if number is None:
            yield f"{HELP}: there is no line of {code}"
        elif written(there[crate, name][1]) not in re.findall(r"\d[\d,]*", line):
            yield f"{HELP}: line {number} hasn't the number {written(there[crate, name][1])} of {name}"


def comment_faults(crate):
    """Lines of comments that are too long, in the sources, definitions and proofs of a crate."""
    for part in ("src", "specs", "proofs"):
        for source in sorted((TOP / "crates" / crate / part).rglob("*")):
            for number, line in enumerate(source.read_text().splitlines() if source.suffix in COMMENTS else (), 1):
                if len(line) > LONGEST and line.lstrip().startswith(COMMENTS[source.suffix]):
                    yield f"{source.relative_to(TOP)}: line {number} is a comment of {len(line)} characters"


def tool_faults():
    """Lines of comments and docstrings that are too long, in what tests, measures and builds."""
    files = [TOP / "Makefile", TOP / ".ci/run", *(it for folder in TOOLS for it in (TOP / folder).rglob("*"))]
    for file in sorted(it for it in files if it.is_file() and it.suffix not in NO_TOOLS):
        text = file.read_text(errors="replace")
        spoken = docstring_lines(text) if '"""' in text else set()
        for number, line in enumerate(text.splitlines(), 1):
            if len(line) > LONGEST and (number in spoken or line.lstrip().startswith(("# ", "//", "/*", "* "))):
                yield f"{file.relative_to(TOP)}: line {number} is a comment of {len(line)} characters"


def long_code(path, text):
    """Lines that are too long in a program of Python or JavaScript; none where it is no such
    program."""
    if not path.endswith((".py", ".js")) and not PYTHON.match(text):
        return
    for number, line in enumerate(text.split("\n"), 1):
        if len(line) > LONGEST_CODE:
            yield f"{path}: line {number} has {len(line)} characters, and at most {LONGEST_CODE} are allowed"


def code_faults():
    for file in sorted(source_files()):
        yield from long_code(str(file.relative_to(TOP)), file.read_text(errors="replace"))


def docstring_lines(text):
    """The numbers of the lines of a program's docstrings; none where it isn't one of Python."""
    try:
        nodes = list(ast.walk(ast.parse(text)))
    except SyntaxError:
        return set()
    owners = (
        it for it in nodes if isinstance(it, (ast.Module, ast.FunctionDef, ast.ClassDef)) and ast.get_docstring(it)
    )
    return {number for it in owners for number in range(it.body[0].lineno, it.body[0].end_lineno + 1)}


def checks():
    """What is checked: its name, and its faults, each with its place."""
    for page in pages():
        yield f"the page {page}", (f"{page}: {why}" for why in page_faults(page))
    texts = {page: (TOP / page).read_text() for page in pages()}
    yield "the words of all pages", long_pages(texts)
    refused, texts[GLOSSARY] = glossary(texts[GLOSSARY])
    yield "the glossary", (f"{page}: {why}" for page, text in texts.items() for why in refused_words(text, refused))
    yield "the recipes", recipe_faults(texts[GLOSSARY])
    for page in NAMING:
        yield f"the names of {page}", name_faults(page, texts[page])
    yield "the table of limits", limit_faults()
    yield "the limits in the help", help_faults()
    yield "the index of contracts", contracts.faults()
    yield "the comments of tests, measurements and tools", tool_faults()
    yield "the lines of Python and JavaScript", code_faults()
    for crate in sorted(path.name for path in (TOP / "crates").iterdir() if path.is_dir()):
        yield f"the comments of {crate}", comment_faults(crate)


def outcomes(words):
    """Each check, or those whose names have one of the words: what is checked, and its first fault,
    or None."""
    for name, faults in checks():
        if not words or any(it in name for it in words):
            yield name, next(faults, None)


def main(words):
    passed = failed = 0
    for name, faults in checks():
        if words and not any(it in name for it in words):
            continue
        found = list(faults)
        passed, failed = passed + (not found), failed + bool(found)
        for why in found:
            print(f"FAIL {why}")
    print(f"{passed} passed, {failed} failed")
    return 1 if failed or not passed else 0


if __name__ == "__main__":
    sys.exit(main(sys.argv[1:]))
