#!/usr/bin/env python3
"""Checks what `tools/contracts` prints, and that docs/DEFINITIONS.md says something of each crate
whose definitions it prints.

usage: tests/documents/contracts.py        needs no built program; `pages.py` runs it too

- A small source has the calls that are written here beside it.
- Some crates have the calls that are written here, and no others.
- A public clause cites no definition of `specs/Private`, which is for private clauses alone.
- The page names each crate whose definitions public clauses cite.
- Each name in backticks on the page is a word of the sources or definitions of crates, or one of
  ELSEWHERE.
- Each call whose form docs/LIBRARY.md explains is made in a crate beside its own, so it is compiled
  as a caller writes it.
"""
import pathlib
import re
import sys

sys.dont_write_bytecode = True
TOP = pathlib.Path(__file__).resolve().parent.parent.parent
sys.path.insert(0, str(TOP / "tools"))
import contracting  # noqa: E402

PAGE = "docs/DEFINITIONS.md"
LIBRARY = "docs/LIBRARY.md"

# functions of Ceph that no comment names, the crate server_tests, and words of commands
ELSEWHERE = {"_remove_nonexistent_osds", "bucket_list_choose", "bucket_straw2_choose", "bucket_tree_choose"}
ELSEWHERE |= {"server_tests", "tools", "contracts", "CRATE", "plant", "_of_the_form"}

# ---- a source, of a module whose names LIB shows in part
LIB = """mod store;
pub use store::{Store, Kept, open, law};
"""
SOURCE = """ghost use Rattle.one.specs.Held.{Holds as Has, IsOpen};
ghost use Rattle.two.specs.Rows as rows;

impl Model for Store {
    ghost Value = { rows.Row };
}

impl Store {
    /// Reads a row.
    ///
    /// `None`: there is none.
    #[tactic(auto)]
    pub fn read(
        &self,
        key: &str, // its name
    ) -> Option<Row>
        requires open { IsOpen self.now }
        // a comment
        requires { length key.now
            < 2 ^ 32 }
        ensures { Has self.now key.now result }
    {
        None
    }

    fn look(&self) -> bool
        ensures { rows.hidden self.now }
    {
        true
    }
}

impl Kept for Store {
    fn kept(&self) -> bool {
        true
    }
}

impl Other {
    pub fn other(&self) {}
}

pub trait Kept {
    ghost is_kept: { Self → rows.Kind };

    fn kept(&self) -> bool;
}

/// Opens a store.
pub fn open<T: Disk>(disk: T) -> Store
    requires { rows.fits disk }
{
    Store::over(disk)
}

pub fn hidden()
    ensures { rows.hidden }
{}

/// A law.
pub fn law()
    ensures { Has [] [] None }
{}
"""
CALLS = [
    (
        "Store::read(&self, key: &str) -> Option<Row>",
        ["requires open { IsOpen self.now }", "requires { length key.now < 2 ^ 32 }"],
        "Reads a row. `None`: there is none.",
    ),
    ("Store::kept(&self) -> bool", [], ""),
    ("Kept::kept(&self) -> bool", [], ""),
    ("open<T: Disk>(disk: T) -> Store", ["requires { rows.fits disk }"], "Opens a store."),
    ("law()", [], "A law."),
]
CITED = {
    ("one", "Held", "Holds"),
    ("one", "Held", "IsOpen"),
    ("two", "Rows", "Row"),
    ("two", "Rows", "Kind"),
    ("two", "Rows", "fits"),
}

# ---- the calls of some crates
KNOWN = {
    "crush_hash": (
        "hash1 hash2 hash3 hash4 hash5 name_hash hash3_lanes hash3_each hash3_four hash3_items hash4_each hash4_four"
        " hash4_lanes Perm::build Perm::member Perm::kept Perms::build Perms::member eight_members"
        " permutation_has_each_place a_perm_keeps_few_places"
    ),
    "crush_writing": "write_map",
    "tenant_reports": (
        "read_pick answer AskedBucket::new AskedBucket::pick picks_are_of_the_form read_changes"
        " device_csv_requests_are_of_the_form id_of touched_reply moved_reply MoveRow::push UsageRow::push"
    ),
    "tenant_service": (
        "history a_number_with_a_receipt_changes_nothing only_a_drop_takes_a_receipt_away"
        " a_changing_request_has_the_path_and_the_body_of_its_call memory_stores_are_honest MemoryStore::new"
        " MemoryStore::is_latched MemoryStore::load MemoryStore::find_receipt MemoryStore::create MemoryStore::commit"
        " MemoryStore::remove Service::in_memory Service::over Service::with_routes Service::into_store"
        " Service::is_latched Service::request Service::run Service::run_session write_whole shown_body"
    ),
}


def example_faults():
    """Where the calls of the small source, or what they cite, aren't those beside it."""
    shown = contracting.shown_in(LIB)
    calls, _ = contracting.read(SOURCE, "store" in shown[0], shown[1])
    found = [(it.shown(), it.requires(), it.comment) for it in calls]
    for have, wanted in zip([*found, *[None] * len(CALLS)], [*CALLS, *[None] * len(found)]):
        if have != wanted:
            yield f"the example has the call {wanted}, and {have} was read"
    laws = [it.name for it in calls if it.is_law()]
    if laws != ["law"]:
        yield f"the example has one law, and {laws} were read"
    cited = set(contracting.cited_in(SOURCE, "store" in shown[0], shown[1]))
    if cited != CITED:
        yield f"the example cites {sorted(CITED)}, and {sorted(cited)} were read"


def known_faults():
    for crate, names in KNOWN.items():
        found = {
            (f"{call.owner}::" if call.owner else "") + call.name
            for _, calls in contracting.calls_of(crate)
            for call in calls
        }
        if found != set(names.split()):
            yield (
                f"the calls of {crate} differ from those in tests/documents/contracts.py:"
                f" {sorted(found ^ set(names.split()))}"
            )


def cited_faults():
    text = (TOP / PAGE).read_text()
    for (crate, file), names in contracting.cited().items():
        if file.startswith("Private"):
            yield (
                f"a public clause cites {names[0]} of crates/{crate}/specs/{file}, which only private clauses may cite"
            )
        if f"`{crate}`" not in text and f"`{crate}/specs" not in text:
            yield f"{PAGE} doesn't name {crate}, of which public clauses cite {names[0]}"


def name_faults():
    known = set(ELSEWHERE)
    for part in ("src", "specs"):
        for source in (TOP / "crates").glob(f"*/{part}/**/*"):
            if source.suffix in (".rt", ".antt"):
                known |= set(re.findall(r"\w+", source.read_text()))
    text = (TOP / PAGE).read_text()
    for quoted in re.finditer(r"`([^`]+)`", text):
        for name in set(re.findall(r"[A-Za-z_]\w+", quoted[1])) - known:
            yield (
                f"{PAGE}: line {text[: quoted.start()].count(chr(10)) + 1}: no source and no definition has the name"
                f" {name}"
            )


def calls_explained():
    """The names in the first column of LIBRARY's table of calls, each once."""
    part = (TOP / LIBRARY).read_text().split("## Why calls have this form")[1].split("\n## ")[0]
    rows = [it for it in part.splitlines() if it.startswith("| ")][1:]
    return list(dict.fromkeys(name for row in rows for name in re.findall(r"`([\w:]+)`", row.split("|")[1])))


def unmade_faults():
    calls = {}
    for crate in contracting.crates():
        for _, found in contracting.calls_of(crate):
            for call in found:
                calls.setdefault(f"{call.owner}::{call.name}" if call.owner else call.name, set()).add(crate)
    folders = [it for it in (TOP / "crates").iterdir() if (it / "src").is_dir()]
    code = {it.name: "\n".join(file.read_text() for file in (it / "src").rglob("*.rt")) for it in folders}
    explained = [it for it in calls_explained() if it in calls]
    if len(explained) < 20:
        yield f"{LIBRARY} explains {len(explained)} calls: is its table another?"
    for name in explained:
        made = re.compile(rf"\b{name.split('::')[-1]}(?:::<[^()]*>)?\(")
        if not any(made.search(text) for crate, text in code.items() if crate not in calls[name]):
            yield f"{LIBRARY} explains {name}, which no other crate calls"


def faults():
    yield from example_faults()
    yield from known_faults()
    yield from cited_faults()
    yield from name_faults()
    yield from unmade_faults()


def main():
    found = list(faults())
    for why in found:
        print(f"FAIL {why}")
    print(f"{not found:d} passed, {len(found)} failed")
    return 1 if found else 0


if __name__ == "__main__":
    sys.exit(main())
