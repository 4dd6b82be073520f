"""Cases of `bench/house`: a small tree, whose figures were counted by hand, and the walks of this
one."""
import json
import pathlib
import subprocess
import sys

TOP = pathlib.Path(__file__).resolve().parent.parent.parent
sys.path.insert(0, str(TOP / "bench"))
from house_parts import routes  # noqa: E402
from house_parts.items import Crates  # noqa: E402
from house_parts.lexing import parts_of, tokens_of  # noqa: E402
from house_parts.likes import Likes  # noqa: E402
from house_parts.sources import Source, sources_of  # noqa: E402
from house_parts.walks import Walk  # noqa: E402

# ---- like places: 20 tokens each, of which `other` differs in the 19th from the first two
ONE = "fn one(a: u32, b: u32) -> u32 { a + b * a }"
TWO = "fn two(c: u64, d: u64) -> u64 { c + d * c }"
OTHER = "fn other(c: u64, d: u64) -> u64 { c + d * d }"
# 18 tokens, with three literals
TEXTS = ('let a = f(1) + g("b") + h(1);', 'let b = g("a") + h(2) + f("a");', "let c = f(1) + g(2) + h(3);")
LISTS = ("let a = [1, 2, 3];", 'let b = ["c"];')
TABLE = " ".join(f"a{it} => {it}," for it in range(30))
CLAUSED = f"""{ONE[:30]}
    requires {{ a < 4 }}
    ensures sum {{ result ≡ a }}
{ONE[30:]}"""
# (the least number of tokens, texts, how many pairs are alike)
LIKES = {
    "places that are alike but for names": (20, (ONE, TWO), 1),
    "a name that stands for two": (20, (ONE, OTHER), 0),
    "places that are alike up to a name": (18, (ONE, TWO, OTHER), 3),
    "a place that is too short": (21, (ONE, TWO), 0),
    "literals that are renamed": (18, TEXTS[:2], 1),
    "a literal that stands for two": (18, TEXTS, 1),
    "lists of literals": (7, LISTS, 1),
    "a table": (20, (TABLE, TABLE), 0),
    "code with clauses, which are apart": (20, (CLAUSED, TWO), 1),
    "a place twice in a file": (20, (f"{ONE} {OTHER} struct A; {TWO}",), 1),
}

# ---- a tree
FRONT = """//! The front.
ghost use Rattle.std.specs.Prelude.{◌≡◌};

use back::laws::nothing;
use back::{
    Asked, Kept, Store, half,
};
struct Turn;

/// Says what is asked.
pub fn serve<T: Store>(store: &mut T, asked: Asked) -> u32
    requires { asked ≡ asked }
    ensures some { result
        ≡ 4 }
{
    nothing();
    match asked {
        Asked::Whole(kept) => kept.size(),
        Asked::Half => half(store.read()),
    }
}

fn reply(many: &[Kept]) -> Result<u32, u32> {
    let Some(kept) = many.first() else {
        return Err(fault());
    };
    Ok(kept.size() + many.iter().map(|it| it.twice()).max())
}

fn fault() -> u32 {
    0
}
"""
BACK = """use std::rc::Rc;
mod laws;
pub enum Asked {
    Whole(Rc<Kept>),
    Half,
}
pub struct Kept {
    size: u32,
}
impl Kept {
    pub fn size(&self) -> u32 {
        self.size
    }
    pub fn twice(&self) -> u32 {
        2 * self.size()
    }
}
pub trait Store {
    fn read(&mut self) -> u32;
}
pub struct Disk;
impl Store for Disk {
    fn read(&mut self) -> u32 {
        self.unknown().twice()
    }
}
pub fn half(of: u32) -> u32 {
    of / 2
}
"""
LAWS = """pub(crate) enum Turn {}
pub fn nothing()
    ensures { 1 ≡ 1 }
{}
pub fn too_little()
    ensures { 1  ≡
        1 }
{}
pub fn few()
    ensures one { 1 ≡ 1 }
    ensures two { 1 ≡ 1 }
    ensures { 2 ≡ 2 }
{}
"""
TREE = {
    "crates/front/src/lib.rt": FRONT,
    "crates/back/src/lib.rt": BACK,
    "crates/back/src/laws.rt": LAWS,
    "crates/back/specs/Half.antt": "-- a half\nuse Rattle.a.{\n  b}\nuse Rattle.c as d\n\nhalf : ℕ\nhalf = 1\n",
    "crates/back/proofs/Half.antt": "use Rattle.a.{b}\n\npub is_half : half ≡ 1\nis_half = refl -- so\n",
    "crates/back_tests/src/lib.rt": "// a test\nuse back::half;\n\n#[test]\nfn halves() {}\n",
    "crates/back/out/made.rt": "fn made() {}\n",
    "crates.txt": "# all\nback: sqlite_disk sqlite\nfront: back\nback_tests: back sqlite_disk\n",
    "tools/some": "#!/usr/bin/env python3\nimport os\n\nprint(os) # all\n",
    "tools/other.py": '"""Two\n\nlines."""\n',
    "web/page.js": "// a page\nlet a = 1;\n",
}
# what `bench/house` has to say of the lines and clauses of this tree
LINES = {
    "lines: code": 18 + 28 + 7,
    "lines: clauses": 3 + 6,
    "lines: definitions": 2,
    "lines: proofs": 2,
    "lines: tests": 2,
    "lines: imports of code": 1 + 4 + 1,
    "lines: imports of clauses": 1,
    "lines: imports of definitions and proofs": 3 + 1,
    "lines: comments": 2 + 1 + 1 + 1 + 1,
    "lines: Python": 2 + 2,
    "lines: JavaScript": 1,
    "bytes of imports": 47 + 24 + 44 + 16 + 19 + 17 + 16 + 15,
    "crates": 3,
    "entries of crates.txt: in all": 5,
    "entries of crates.txt: of tests' crates": 2,
    "entries of crates.txt: outside sqlite_*": 3,
    "texts of clauses that stand 4 times or more": 1,
    "how often they stand": 4,
    "names of types that stand in several crates": 1,
}

# ---- walks of this tree: what the route says, the functions in order, which calls aren't resolved,
# and what of the route isn't met
SERVE, REPLY = ("lib.rt serve",), ("lib.rt reply",)
PRODUCT = ("crates/front/src", "crates/back/src")
TWICE = """fn start() -> u32 { read(); write(); read() }
fn read() -> u32 { look(); find() }
fn look() -> u32 { 1 }
fn find() -> u32 { 2 }
fn write() -> u32 { 3 }
"""
WHOLE, HALF = "front serve, back Kept::size", "front serve, back Disk::read, back half"
LOST = ["Disk.unknown", "?.twice"]
WALKS = {
    "a variant that is taken": ({"variants": {"Asked": "Whole"}, "starts": SERVE}, WHOLE, [], []),
    "a generic whose type the route says": ({"variants": {"Asked": "Half"}, "starts": SERVE}, HALF, LOST, []),
    "both variants": ({"starts": SERVE}, f"{WHOLE}, back Disk::read, back half", LOST, []),
    "calls that aren't made": (
        {"not_by": {"serve": "half size lost"}, "starts": SERVE},
        "front serve, back Disk::read",
        LOST,
        ["serve lost"],
    ),
    "no fault, and a closure": ({"starts": REPLY}, "front reply, back Kept::size, back Kept::twice", [], []),
    "two starts": (
        {"variants": {"Asked": "Whole"}, "starts": SERVE + REPLY},
        f"{WHOLE}, front reply, back Kept::twice",
        [],
        [],
    ),
    "a function that isn't entered": (
        {"never": frozenset(["Kept::twice"]), "starts": REPLY},
        "front reply, back Kept::size",
        [],
        [],
    ),
    "a variant that isn't there": (
        {"variants": {"Asked": "Whole Quarter", "Lost": "One"}, "starts": SERVE},
        WHOLE,
        [],
        ["Asked Quarter", "Lost One"],
    ),
}


def pairs_differ(least, texts, wanted):
    files = [(f"{at}.rt", ".rt", parts_of(tokens_of(text, ".rt")).code) for at, text in enumerate(texts)]
    found = Likes(files, least)
    return None if len(found.pairs) == wanted else f"{len(found.pairs)} pairs, {[str(it) for it in found.groups()]}"


def places_are_listed(_):
    texts = {"a": f"\n{ONE}", "b": TWO.replace("{", "{\n"), "c": OTHER}
    files = [(name, ".rt", tokens_of(text, ".rt")) for name, text in texts.items()]
    found = [str(it) for it in Likes(files, 18).listed()]
    return None if found == ["18 tokens, 3 places: a:2-2 b:1-2 c:1-1"] else f"it lists {found}"


def figures_differ(folder):
    for path, text in TREE.items():
        (folder / path).parent.mkdir(parents=True, exist_ok=True)
        (folder / path).write_text(text)
    words = [sys.executable, TOP / "bench" / "house", "--json", "--at", folder, "lines", "clauses", "names"]
    found = json.loads(subprocess.run(list(map(str, words)), check=True, stdout=subprocess.PIPE).stdout)
    differing = [name for name in found | LINES if found.get(name) != LINES.get(name)]
    return "; ".join(f"{name}: {found.get(name)}, not {LINES.get(name)}" for name in differing) or None


def walk_of(texts, said):
    sources = [Source(path, "code", ".rt", text) for path, text in texts.items()]
    return Walk(Crates(sources), routes.Route(**{"variants": {}, "not_by": {}, "traits": {"Store": "Disk"}} | said))


def walk_differs(said, wanted, unknown, unmet):
    walk = walk_of({path: text for path, text in TREE.items() if path.startswith(PRODUCT)}, said)
    entered = ", ".join(f"{it.crate} {it.owned()}" for it in walk.entered)
    found = entered, [call for _, call in walk.unknown], [" ".join(it) for it in walk.unmet]
    return None if found == (wanted, unknown, unmet) else f"it enters {found[0]}, {found[1:]}"


def a_second_call_goes_further(_):
    walk = walk_of({"crates/one/src/lib.rt": TWICE}, {"starts": ("lib.rt start",), "again": {"read": "find"}})
    found = " ".join(it.owned() for it in walk.entered)
    return None if found == "start read look write find" else f"it enters {found}"


def changes_of_crate_are_counted(_):
    product = {path: text for path, text in TREE.items() if path.startswith(PRODUCT)}
    walk = walk_of(product, {"variants": {"Asked": "Whole"}, "starts": SERVE + REPLY})
    return None if walk.changes() == 3 else f"{walk.changes()} changes of front, back, front, back"


def the_walks_of_this_tree_are_known(_):
    crates = Crates(sources_of(TOP))
    for name, route in routes.ROUTES.items():
        walk = Walk(crates, route)
        if walk.unknown or walk.unmet:
            return f"'bench/house walks' says what bench/house_parts/routes.py lacks for {name}"
    return None


def cases():
    for name, case in LIKES.items():
        yield f"house: {name}", lambda _, case=case: pairs_differ(*case)
    for name, case in WALKS.items():
        yield f"house: a walk with {name}", lambda _, case=case: walk_differs(*case)
    yield "house: lines and clauses", figures_differ
    others = places_are_listed, a_second_call_goes_further, changes_of_crate_are_counted
    for case in (*others, the_walks_of_this_tree_are_known):
        yield f"house: {case.__name__.replace('_', ' ')}", case
