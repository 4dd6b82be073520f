"""What the sources say of public contracts, for `contracts` and for the checks of pages: the public
calls of each crate with what a caller must ensure, and the definitions that public clauses cite.

A public call is a public function that its crate shows, a method of a public trait, or a public
method, or a trait's method, of a type that its crate shows. A public clause is a `requires` or
`ensures` of such a call, or what such a type is in contracts (`ghost Value`, the relations of a
trait). A definition is what a public clause names and `ghost use` brings from a file of `specs/`;
structs, enums and constants of sources aren't definitions. The crates of tests and measurements
(`.._tests`, `crush_bench`) don't count.

Sources are read by their lines, as `rt fmt` lays them out.
"""
import pathlib
import re
import typing

TOP = pathlib.Path(__file__).resolve().parent.parent
USE = re.compile(r"ghost use Rattle\.(\w+)\.specs\.([\w.]+?)(?:\.\{([^}]*)\})?(?: as (\w+))?;")
NAMES = re.compile(r"(?<![\w.])([A-Za-z_]\w*)(?:\.([A-Za-z_]\w*))?")
CLAUSE = re.compile(r"\s*(requires|ensures)\b")
HEAD = re.compile(r"(\s*)(pub )?(?:const )?(?:unsafe )?fn (\w+)")
GHOST = re.compile(r"\s+ghost (Value = |\w+: )")
PUBLIC_USE = re.compile(r"^pub use (\w+)::(?:\{([^}]*)\}|(\w+));", re.M)
PUBLIC_MODULE = re.compile(r"^pub mod (\w+);", re.M)


class Call(typing.NamedTuple):
    """A public call: its type or trait, or None; its name; the number of its first line; its
    parameters and result, on one line; the text of each of its clauses; its comment, on one
    line."""

    owner: str | None
    name: str
    line: int
    takes: str
    clauses: list[str]
    comment: str

    def shown(self):
        return (f"{self.owner}::" if self.owner else "") + self.name + self.takes

    def requires(self):
        """What a caller must ensure: each `requires`, on one line."""
        return [" ".join(it.split()) for it in self.clauses if it.lstrip().startswith("requires")]

    def is_law(self):
        """Whether it takes and returns nothing, so that its contract is all that it has."""
        return self.owner is None and re.fullmatch(r"(<.*>)?\(\)", self.takes) is not None


def crates():
    """The crates of the product, lowest first."""
    names = [
        line.split(":")[0].split()[0]
        for line in (TOP / "crates.txt").read_text().splitlines()
        if line.strip() and not line.startswith("#")
    ]
    return [name for name in names if not name.endswith("_tests") and name != "crush_bench"]


def sources(crate):
    return sorted((TOP / "crates" / crate / "src").glob("*.rt"))


def shown_by(crate):
    """What a crate shows: the modules that are public as a whole, and the names that it shows of
    the others."""
    root = TOP / "crates" / crate / "src" / "lib.rt"
    return shown_in(root.read_text() if root.is_file() else "")


def shown_in(text):
    """The same, from the text of the crate's `lib.rt`."""
    names = {
        name.strip() for _, many, one in PUBLIC_USE.findall(text) for name in (many or one).split(",") if name.strip()
    }
    return {"lib", *PUBLIC_MODULE.findall(text)}, names


def read(text, whole, shown):
    """The public calls of a source, and the lines that say what its public types are in contracts.
    `whole`: the source's module is public; `shown`: the names that the crate shows."""
    lines = text.splitlines()
    calls, ghosts = [], []
    kind = owner = None
    at = 0
    while at < len(lines):
        line = lines[at]
        if line.startswith("pub trait "):
            kind, owner = "trait", re.match(r"pub trait (\w+)", line)[1]
        elif re.match(r"impl\b", line):
            target = re.sub(r"^impl(<[^{]*?>)? ", "", line)
            kind = "trait impl" if " for " in target else "impl"
            owner = re.match(r"&?(?:'\w+ )?(\w+)", target.split(" for ")[-1])[1]
        elif line == "}":
            kind = owner = None
        is_public = whole if owner is None else whole or owner in shown
        if kind in ("trait", "trait impl") and is_public and GHOST.match(line):
            ghosts.append(line)
        head = HEAD.match(line)
        if head is None:
            at += 1
            continue
        indent, pub, name = head.groups()
        first, takes, clauses = at, [], []
        while at < len(lines):
            line, at = lines[at], at + 1
            if CLAUSE.match(line):
                clauses.append(line)
            elif clauses and line not in (indent + "{", indent + "{}") and not line.lstrip().startswith("//"):
                clauses[-1] += "\n" + line
            elif not clauses and line not in (indent + "{", indent + "{}"):
                takes.append(line)
            if line in (indent + "{", indent + "{}") or line.rstrip().endswith(";"):
                break
            if not clauses and line.rstrip().endswith(("{", "}")):
                break
        if (
            (pub and (whole or name in shown))
            if owner is None
            else is_public and (pub or kind in ("trait", "trait impl"))
        ):
            calls.append(Call(owner, name, first + 1, one_line(takes, name), clauses, comment_above(lines, first)))
    return calls, ghosts


def comment_above(lines, first):
    """The comment of the function that begins at a line."""
    found = []
    for line in reversed(lines[:first]):
        if line.lstrip().startswith("///"):
            found.append(line.strip().removeprefix("///").strip())
        elif not line.lstrip().startswith("#["):
            break
    return " ".join(filter(None, reversed(found)))


def one_line(lines, name):
    """The parameters and the result of a function's first lines."""
    text = " ".join(" ".join(line.split("//")[0] for line in lines).split())
    text = text.split(f"fn {name}", 1)[1].removesuffix(";").removesuffix("{}").removesuffix("{").strip()
    return re.sub(r",? ?\)", ")", text.replace("( ", "("))


def calls_of(crate):
    """The public calls of a crate, by source."""
    modules, shown = shown_by(crate)
    for source in sources(crate):
        calls, _ = read(source.read_text(), source.stem in modules, shown)
        if calls:
            yield source, calls


def imports(text):
    """What a file brings in: names, each with its crate, file and name there; and files under
    another name."""
    names, files = {}, {}
    for crate, path, inside, alias in USE.findall(text):
        if path.startswith("declared"):
            continue
        if inside:
            for it in filter(None, (part.strip() for part in inside.split(","))):
                name, _, other = it.partition(" as ")
                names[other or name] = (crate, path, name)
        elif alias:
            files[alias] = (crate, path)
    return names, files


def cited_in(text, whole, shown):
    """The definitions that public clauses of a source cite, each with its crate and file."""
    names, files = imports(text)
    calls, ghosts = read(text, whole, shown)
    for clause in [*ghosts, *(it for call in calls for it in call.clauses)]:
        for name, member in NAMES.findall(re.sub(r"\b(requires|ensures)( \w+)? \{", "", clause)):
            if name in names:
                yield names[name]
            elif name in files and member:
                yield (*files[name], member)


def cited():
    """The definitions that public clauses of any crate cite, by crate of the product and file of
    its `specs`."""
    product = crates()
    found = {}
    for crate in product:
        modules, shown = shown_by(crate)
        for source in sources(crate):
            for owner, path, name in cited_in(source.read_text(), source.stem in modules, shown):
                if owner in product:
                    found.setdefault((owner, path.replace(".", "/") + ".antt"), set()).add(name)
    return {
        key: sorted(found[key], key=lambda name: (name.lower(), name))
        for key in sorted(found, key=lambda key: (product.index(key[0]), key[1]))
    }
