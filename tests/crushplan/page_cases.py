"""Answers as pages (--html): a parser of their own reads them, and their numbers are those of the
JSON."""
import collections
import html.parser
import os
import subprocess

from advice_cases import df, entries, osd_df
from made import crush_dump, osd_dump, pool, text_of, write
from model.placed import Placed
from running import equals, wants
from today_cases import brief

PHOTOS = {"pool": 1, "size": 3, "pg_num": 64}
VOID = {"meta", "br", "rect", "line"}


class Page(html.parser.HTMLParser):
    """A page: its first sentence with its kind, its tables by their titles, its bars and lists. It
    has no script, and names nothing from elsewhere."""

    def __init__(self, text):
        super().__init__()
        self.open, self.sentence, self.kind, self.title, self.text, self.tables, self.bars, self.lists = (
            [],
            "",
            None,
            "",
            "",
            {},
            {},
            {},
        )
        self.feed(text)
        self.close()
        equals("elements that are left open", self.open, [])
        for it in ("<script", "<link", "<img", "src=", "href=", "url(", "@import", "http:", "https:"):
            wants(it not in text, f"the page has {it}")
        wants(text.startswith("<!DOCTYPE html>") and "default-src 'none'" in text, text[:200])

    def handle_starttag(self, tag, attributes):
        attributes = dict(attributes)
        if tag == "section":
            self.title = ""
        elif tag == "h1":
            self.kind = attributes["class"]
        elif tag == "tr":
            self.tables.setdefault(self.title, []).append([])
        elif tag in ("td", "th"):
            self.tables[self.title][-1].append("")
        elif tag == "li":
            self.lists.setdefault(self.title, []).append("")
        elif tag == "svg" and "data-name" in attributes:
            self.bar = {}
            self.bars[attributes["data-name"]] = (attributes.get("data-before"), attributes.get("data-after"), self.bar)
        elif tag == "rect" and attributes["class"] != "track" and self.open[-2] == "div":
            self.bar[attributes["class"]] = float(attributes["width"].rstrip("%"))
        if tag not in VOID:
            self.open.append(tag)

    def handle_endtag(self, tag):
        equals("the element that ends", tag, self.open.pop() if self.open else None)

    def handle_startendtag(self, tag, attributes):
        self.handle_starttag(tag, attributes)
        if tag not in VOID:
            self.open.pop()

    def handle_data(self, data):
        within = self.open[-1] if self.open else ""
        self.text += data if within != "style" else ""
        if within == "h1":
            self.sentence += data
        elif within == "h2":
            self.title += data
        elif within in ("td", "th"):
            self.tables[self.title][-1][-1] += data
        elif within == "li":
            self.lists[self.title][-1] += data

    def rows(self, title):
        """The rows of a table, each by its heads."""
        heads, *rows = self.tables[title]
        return [dict(zip(heads, it)) for it in rows]

    def numbers(self):
        """The bars as numbers."""
        return {name: tuple(None if it is None else float(it) for it in bar[:2]) for name, bar in self.bars.items()}


def page_of(runner, folder, *words):
    """The page of a command, and its JSON, which are of one run."""
    path = folder / "page.html"
    said = runner.said(*words, "--html", path)
    page = Page(path.read_bytes().decode())
    marked = "".join(it if it.isprintable() else "\ufffd" for it in said["answer"].encode(errors="replace").decode())
    equals(f"{words}: the sentence", (page.sentence, page.kind), (marked, ("good", "bad", "unknown")[said["status"]]))
    equals(f"{words}: what is left", [it for it in os.listdir(folder) if "part" in it], [])
    for name, bar in page.bars.items():
        for kind, value in zip(("old", "new"), bar[:2]):
            equals(f"{words}: the bar of {name}", kind in bar[2], value is not None)
    return page, said


def usual(folder, **files):
    crush = crush_dump()
    used = entries(Placed(text_of(crush), **PHOTOS))
    return write(
        folder,
        crush,
        osd_dump(),
        df_json=df("photos"),
        osd__df_json=osd_df(used, {it: 32_000_000 for it in range(12)}),
        **files,
    )


def changed(runner, folder):
    """Drains and failures: how full devices are before and after, and what lies on them."""
    usual(folder)
    for words, of in ((("drain", folder, "host0"), lambda it: it), (("fail", folder, "host1"), lambda it: it["out"])):
        page, said = page_of(runner, folder, *words)
        rows = of(said)["usage"]
        equals(f"{words}: bars", page.numbers(), {it["name"]: (it["used_before"], it["used_after"]) for it in rows})
        most = max(it["used_after"] for it in rows)
        name = next(it["name"] for it in rows if it["used_after"] == most)
        equals("the longest bar", page.bars[name][2]["new"], round(most * 100, 2))
        table = page.rows("Copies before and after, by device")
        equals(
            f"{words}: the table",
            [(it["device"], it["host"], int(it["before"]), int(it["after"])) for it in table],
            [(it["name"], it["host"], it["copies_before"], it["copies_after"]) for it in rows],
        )
        near = [abs(float(it["used %"]) - of["used_after"] * 100) for it, of in zip(table, rows)]
        wants(max(near) < 0.06, f"{words}: used: {near}")
        wants(f"{of(said)['moved']} of 64" in page.text, "groups that move")
        wants("near-full, 85.0%" in page.text and "backfill-full, 90.0%" in page.text, "the ratios")
    page, said = page_of(runner, folder, "drain", folder, "host0", "--by", "host")
    by_host = collections.Counter()
    for it in said["usage"]:
        by_host.update({(it["host"], 0): it["copies_before"], (it["host"], 1): it["copies_after"]})
    equals(
        "by host", page.numbers(), {f"host{it}": (by_host[f"host{it}", 0], by_host[f"host{it}", 1]) for it in range(4)}
    )
    equals("its longest bar", max(max(it[2].values()) for it in page.bars.values()), 100)
    unproved = folder / "unproved"
    unproved.write_text(
        '#!/bin/sh\n[ "$1" = --version ] && { echo "crushcalc 0.1.0 (unproved)"; exit; }\nexec'
        f' {runner.program} "$@"\n'
    )
    unproved.chmod(0o755)
    page, _ = page_of(runner, folder, "drain", folder, "osd.1", "--program", unproved)
    wants("crushcalc 0.1.0 (unproved)" in page.text, page.text[:300])
    wants("not proved: the program is unproved" in {it[0] for it in page.tables[""]}, page.tables[""])
    (folder / "df.json").unlink()
    page, said = page_of(runner, folder, "drain", folder, "osd.1")
    equals("copies", page.numbers(), {it["name"]: (it["copies_before"], it["copies_after"]) for it in said["usage"]})
    equals("notes", page.lists["Notes"], said["warnings"])


def in_turn(runner, folder):
    """Failures in turn: the fullest device of each."""
    usual(folder)
    page, said = page_of(runner, folder, "fail", folder, "--each", "host")
    equals("bars", page.numbers(), {it["name"]: (None, it["fullest"]["used_after"]) for it in said["each"]})
    table = page.rows("")
    equals(
        "the table",
        [(it["host"], int(it["move"]), int(it["copies"])) for it in table],
        [(it["name"], it["moved"], it["copies"]) for it in said["each"]],
    )


def lying(runner, folder):
    """Usage beside shares, and what is computed beside what the cluster says."""
    placed = Placed(text_of(crush_dump()), **PHOTOS)
    usual(folder, pgs_json=brief(placed))
    page, said = page_of(runner, folder, "usage", folder)
    equals("usage", page.numbers(), {it["name"]: (it["share"], it["copies"]) for it in said["rows"]})
    equals("its table", [int(it["copies"]) for it in page.rows("")], [it["copies"] for it in said["rows"]])
    own = entries(placed)
    page, said = page_of(runner, folder, "check", folder)
    equals("check", page.numbers(), {f"osd.{it}": (own[it], own[it]) for it in own})
    (folder / "pgs.json").unlink()
    page, said = page_of(runner, folder, "check", folder)
    equals("without pgs.json", page.numbers(), {f"osd.{it}": (None, own[it]) for it in own})


def on_paper(runner, folder):
    """Changed maps and lists of upmap items."""
    usual(folder)
    wider = crush_dump(hosts=5)
    (folder / "new.txt").write_text(text_of(wider))
    page, said = page_of(runner, folder, "compare", folder, folder / "new.txt")
    old, new = entries(Placed(text_of(crush_dump()), **PHOTOS)), entries(Placed(text_of(wider), **PHOTOS))
    equals("compare", page.numbers(), {f"osd.{it}": (old[it], new[it]) for it in range(15)})
    equals(
        "hosts",
        [(it["host"], int(it["lost"]), int(it["gained"])) for it in page.rows("Copies lost and gained, by host")],
        [(it["name"], it["lost"], it["gained"]) for it in said["hosts"]],
    )
    first, second, third = Placed(text_of(crush_dump()), **PHOTOS).raw[9]
    near = next(it for it in range(first // 3 * 3, first // 3 * 3 + 3) if it != first)
    (folder / "list").write_text(f"ceph osd pg-upmap-items 1.9 {first} {near}\n")
    page, said = page_of(runner, folder, "upmap", folder, folder / "list")
    equals(
        "upmap",
        {name: bar[0] < bar[1] for name, bar in page.numbers().items()},
        {f"osd.{first}": False, f"osd.{near}": True},
    )
    equals("its groups", [(it["group"], it["after"]) for it in page.rows("")], [("1.9", f"[{near},{second},{third}]")])


def not_computed(runner, folder):
    """What isn't computed stands last, and where nothing is computed nothing is drawn."""
    crush = crush_dump(root="straw")
    write(folder, crush, osd_dump())
    (folder / "new.json").write_bytes((folder / "crush.json").read_bytes())
    for words in (
        ("drain", folder, "host0"),
        ("compare", folder, folder / "new.json"),
        ("usage", folder),
        ("check", folder),
        ("fail", folder, "--each", "host"),
    ):
        page, said = page_of(runner, folder, *words)
        equals(f"{words}: bars", page.bars, {})
        wants("set-all-straw-buckets-to-straw2" in page.lists["Not computed"][0], page.lists)


def escaped(runner, folder):
    """Names are text, whatever they are."""
    crush, name = crush_dump(), "<script>&\"'h\u00f6st\u21920"
    crush["buckets"][1]["name"] = name
    write(folder, crush, osd_dump(pools=[pool(1, "<b onload=x>\u0007\ud800")]))
    page, _ = page_of(runner, folder, "drain", folder, name, "--by", "host")
    wants(name in page.bars and name in page.text, page.text[:200])
    page, _ = page_of(runner, folder, "usage", folder)
    wants(page.text.count("<b onload=x>") == 1, page.text)


def whole(runner, folder):
    """A page is written whole or not at all: what was there stays where it can't be written, or
    where there is no answer."""
    usual(folder)
    path = folder / "page.html"
    path.write_text("what was there")
    runner.refused("drain", folder, "nothing", "--html", path, has="no host, rack or device 'nothing'")
    command = f"ulimit -f 16; exec {' '.join(runner.command)} drain {folder} host0 --html {path}"
    ran = subprocess.run(["sh", "-c", command], stdout=subprocess.PIPE, stderr=subprocess.PIPE, env=runner.environment)
    equals("a file that may not be so large", (ran.returncode, ran.stdout), (2, b""))
    wants(f"crushplan: --html {path}: File too large\n" == ran.stderr.decode(), ran.stderr)
    for target, words in (
        (folder / "none" / "page.html", "No such file or directory"),
        (folder, "it is there, and isn't a file"),
        ("/dev/null", "it is there, and isn't a file"),
        ("-", "it is written into a file"),
    ):
        runner.refused("drain", folder, "host0", "--html", target, has=(f"--html {target}", words))
    equals(
        "what was there",
        (path.read_text(), [it for it in os.listdir(folder) if it.endswith("part")]),
        ("what was there", []),
    )
    link = folder / "link.html"
    link.symlink_to("page.html")
    text = runner.run("drain", folder, "host0", "--html", link)[1]
    wants(f"{link} is this as a page." in text, text[-200:])
    equals("a link", (link.is_symlink(), Page(path.read_text()).kind), (True, "good"))
    equals("who may read it", path.stat().st_mode & 0o777, 0o666 & ~umask())


def umask():
    own = os.umask(0o022)
    os.umask(own)
    return own


def cases():
    found = (changed, in_turn, lying, on_paper, not_computed, escaped, whole)
    return [(it.__name__, it) for it in found]
