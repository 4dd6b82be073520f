"""Answers of `crushplan plan` and `crushplan balance` that are dropped as JSON: each number is that
of the file, or by hand of the cluster of docs/PLANNING.md; what isn't such an answer is refused by
name; the page asks the service nothing for them."""
import copy
import csv
import io
import json
import os
import re
import subprocess

from selenium.webdriver.common.keys import Keys

from looks import BROKEN, CHECKED, faint, press, tab_to
from many import Watch
from page import PICTURES, TOP, example, first, unlike

JULY = TOP / "examples" / "july"
HEIGHT, ABOVE = 120, 18  # of the drawing of steps, and what is above it
OUT, STOP = "ceph osd out 0 1", "systemctl stop ceph-osd@0 ceph-osd@1"
PURGE = [f"ceph osd purge {it} --yes-i-really-mean-it" for it in (0, 1)]
PLANNED = [OUT, "wait", STOP, *PURGE]  # of docs/PLANNING.md
BY_LOAD = "ceph osd reweight-by-utilization"


def answered(page, command, *words, lines=(), folder=JULY):
    """What crushplan answers: its JSON."""
    own = ["python3", str(TOP / "tools" / "crushplan"), command, str(folder), *(["-"] if lines else []), *words]
    ran = subprocess.run(
        [*own, "--json"],
        input="".join(f"{it}\n" for it in lines),
        stdout=subprocess.PIPE,
        stderr=subprocess.PIPE,
        text=True,
        env={**os.environ, "CRUSHCALC": str(page.program)},
        timeout=300,
    )
    if not ran.stdout:
        raise OSError(f"crushplan {command} says {ran.stderr[-300:]!r}")
    return json.loads(ran.stdout)


def shown(page, said, name="answer.json", fresh=True):
    """Drops an answer on the first page, and waits until it is shown."""
    if fresh:
        page.fresh()
    page.browser.drop(json.dumps(said), name)
    page.browser.until(lambda: name in page.browser.text("#about"), f"{name} isn't shown")


def texts(page, selector):
    return page.browser.run("return [...document.querySelectorAll(arguments[0])].map((it) => it.textContent)", selector)


def columns(page, chart, kind):
    """Of each step its column of a kind: where it begins, and its height."""
    script = """return [...document.querySelectorAll(`[data-chart=${arguments[0]}] g`)].map((it) => {
        const own = it.querySelector(`rect.${arguments[1]}`);
        return [it.dataset.step, own && [Number(own.getAttribute("y")), Number(own.getAttribute("height"))]];
    })"""
    return {int(step): it and tuple(round(of, 3) for of in it) for step, it in page.browser.run(script, chart, kind)}


def bars(page, kind):
    """The bars of devices of a kind: of each where it begins, the share, the value and where it
    ends."""
    path = page.browser.run(
        "return document.querySelector(`[data-chart=off] path.${arguments[0]}`).getAttribute('d')", kind
    )
    found = [re.fullmatch(r"M(.+) (.+)V(.+)H(.+)V(.+)", it).groups() for it in path.split("Z")[:-1]]
    return [tuple(round(float(it), 3) for it in own[:4]) for own in found]


def cells(page, selector):
    """The texts of the cells of rows."""
    script = (
        "return [...document.querySelectorAll(arguments[0])].map((row) =>"
        " [...row.children].map((it) => it.textContent.trim()))"
    )
    return page.browser.run(script, selector)


def column(part):
    """A column of this part of the drawing's height."""
    return round(ABOVE + HEIGHT * (1 - part), 3), round(HEIGHT * part, 3)


# ---- a plan


def a_plan_is_shown_step_by_step(page):
    """The runbook of docs/PLANNING.md: what stands there, and by hand from the drain there."""
    shown(page, answered(page, "plan", "--rate", "80", "--groups", "--orders", lines=PLANNED), "plan.json")
    wanted = {
        "moved": "11",
        "copies": "14",
        "one-step": "11",
        "least": "10.7",
        "twice": "3",
        "stops": "0",
        "short-meanwhile": "0",
        "on-the-way": "83.8%",
        "fullest": "76.3%",
        "hours": "0.11",
    }
    words = texts(page, "#answer dt")
    found = cells(page, "#steps tbody tr")
    lines = [it[1:3] for it in cells(page, "#lines tbody tr")]
    # the drain moves 10 groups, the purge four again; near-full is 85 % of a column's height
    full, copies = columns(page, "full", "used"), columns(page, "copies", "gain")
    across = page.browser.run(
        "return ['near', 'full'].map((it) => Number(document.querySelector(`[data-chart=full] > line.${it}`)"
        ".getAttribute('y1')))"
    )
    # the greatest number of the drawing of copies is what the first step asks for, 10.67
    page.browser.click("#which summary")
    groups = [it.split(".")[1] for it in texts(page, "#which tbody th")]
    page.browser.click("#orders summary")
    orders = texts(page, "#orders p")
    single = texts(page, "#orders tbody th")
    return first(
        unlike(page.browser.text("h1"), "What a runbook does"),
        unlike(
            page.browser.text("#verdict"),
            "Yes: in 2 steps 11 groups move, 14 copies are written anew, and every copy has room.",
        ),
        unlike(page.browser.run("return document.getElementById('verdict').className"), "verdict good"),
        unlike(page.figures(), wanted, "figures:"),
        None if "copies are written anew in all, 42.0 GiB" in words else words,
        None if "copies by the same change in one step, 33.0 GiB" in words else words,
        unlike(
            found,
            [
                ["1", "1", "10", "10", "30.0 GiB", "10.7", "osd.2 76.3%", "osd.2 76.3%", "0", "0", "0", "0.08"],
                ["2", "3–5", "4", "4", "12.0 GiB", "0.0", "osd.2 83.8%", "osd.2 76.3%", "0", "0", "0", "0.03"],
            ],
            "steps:",
        ),
        unlike(lines, [[str(it), line] for it, line in enumerate(PLANNED, 1)], "lines:"),
        unlike(full, {1: column(0.7625), 2: column(0.8375)}, "the fullest on the way:"),
        unlike(columns(page, "full", "then"), {1: column(0.7625), 2: column(0.7625)}, "the fullest afterwards:"),
        unlike(copies, {1: column(10 / 10.67), 2: column(4 / 10.67)}, "copies:"),
        unlike([round(it, 3) for it in across], [column(0.85)[0], column(0.9)[0]], "near-full and backfill-full:"),
        unlike(len(groups), 14, "groups that move:"),
        None if len(orders) == 1 and orders[0].startswith("Step 2: ") else orders,
        unlike(single, ["as one step", "3", "4", "5"]),
        unlike(len(page.browser.all("#decides, #unfollowed, #until")), 0, "what decides a yes:"),
    )


def a_refused_line_is_no_zero(page):
    """Nothing of the second step is done: it has dashes, and no column; its line says why; two
    commands behind it aren't foretold."""
    lines = [OUT, "wait", "ceph osd purge 0; ceph osd out 3", "ceph osd out 4"]
    said = answered(page, "plan", lines=lines)
    shown(page, said)
    rows, why = cells(page, "#steps tbody tr"), texts(page, "#lines .wrong")
    page.browser.run("document.querySelector('h1').focus()")
    tab_to(page, lambda it: it.text == "Show step 2")
    press(page, Keys.ENTER)
    focus = page.browser.run("return document.activeElement.id")
    crosses = page.browser.run(
        "return [...document.querySelectorAll('.chart g')].filter((it) => it.querySelector('text.empty'))"
        ".map((it) => it.dataset.step)"
    )
    return first(
        unlike(page.browser.run("return document.getElementById('verdict').className"), "verdict bad"),
        None if page.browser.text("#verdict").startswith("No: line 3 is refused: EPERM Are you SURE?") else "verdict",
        unlike(page.browser.text("#decides strong"), "Step 2 decides, by its line 3."),
        unlike(focus, "step-2", "the focus is on"),
        unlike(rows[0][:4], ["1", "1", "10", "10"]),
        unlike(rows[1], ["2", "3 refused", *["–"] * 9], "the refused step:"),
        unlike(columns(page, "full", "used"), {1: column(0.7625), 2: None}),
        unlike(columns(page, "copies", "gain"), {1: column(10 / 10.67), 2: None}),
        unlike(crosses, ["2", "2"], "crosses:"),
        unlike(len(why), 1, "what is wrong:"),
        None if why[0].startswith("Ceph refuses it: EPERM Are you SURE?") else why,
        unlike(page.browser.text("#unfollowed"), "Nothing is foretold of what stands behind it: lines 3–4."),
        None if "before line 3, which is refused" in page.browser.text("#until") else page.browser.text("#until"),
    )


def a_plan_of_unknown_answer(page):
    """A line that depends on load: behind other steps, and as the first one, where no number
    stands."""
    shown(page, answered(page, "plan", lines=[STOP, OUT, "wait", BY_LOAD]), "behind.json")
    behind = cells(page, "#steps tbody tr")
    # by hand: the drain's 10 groups, which lack a copy while their devices are stopped
    short, verdict = texts(page, "#lines [data-line='3'] td p"), page.browser.text("#verdict")
    kind = page.browser.run("return document.getElementById('verdict').className")
    shown(page, answered(page, "plan", lines=[BY_LOAD, OUT]), "first.json")
    alone = cells(page, "#steps tbody tr")
    return first(
        unlike(kind, "verdict unknown"),
        None if verdict.startswith(f"Unknown: line 4 ('{BY_LOAD}') isn't foretold: what it does") else verdict,
        unlike([it[:4] for it in behind], [["1", "1–2", "10", "10"], ["2", "4 not foretold", "–", "–"]]),
        unlike(behind[0][9], "10", "short meanwhile:"),
        unlike(len(short), 1),
        None if short[0].startswith("from line 1 on 10 groups (1.0, 1.2, 1.3, ..) have fewer copies") else short,
        unlike(alone, [["1", "1 not foretold", *["–"] * 9]]),
        unlike(len(page.browser.all("#answer, .chart, #until")), 0, "sums of nothing:"),
        unlike(page.browser.text("#unfollowed"), "Nothing is foretold of what stands behind it: line 2."),
    )


def a_plan_that_stops_groups(page):
    """Both devices of most groups stop: what is wrong stands with its step, red; groups are named.
    Without df.json and osd-df.json the drawing is of shares."""
    folder = page.downloads.parent / "without-room"
    folder.mkdir(exist_ok=True)
    for it in ("crush.json", "osd.json"):
        (folder / it).write_bytes((JULY / it).read_bytes())
    osd = json.loads((folder / "osd.json").read_text())
    osd["pools"][0]["min_size"] = 2
    (folder / "osd.json").write_text(json.dumps(osd))
    said = answered(page, "plan", lines=[STOP, "wait"], folder=folder)
    step = said["steps"][0]
    shown(page, said)
    row, wrong = cells(page, "#steps tbody tr")[0], texts(page, "#lines .wrong")
    bad = texts(page, "#steps td.bad")
    legend = texts(page, "#steps-drawn .legend li")
    return first(
        # with a min_size of 2 each of the 10 groups that have a copy there stops
        unlike(len(step["below_min_size"]), 10, "by crushplan:"),
        unlike((row[8], row[9], row[10]), (str(step["missing_copies"]), "10", "10")),
        None if "10" in bad else bad,
        unlike(wrong, step["faults"]),
        None if "its share" in legend and not any("near-full" in it for it in legend) else legend,
        unlike(row[4], "–", "bytes:"),
    )


# ---- a balance


def a_balance_before_and_after(page):
    """The cluster of docs/PLANNING.md, whose copies and shares stand there by hand: 7, 3, 7, 4, 6
    and 5 for shares of 5.33, and three lines, each of which moves a copy."""
    before, after = [7, 3, 7, 4, 6, 5], [5, 5, 6, 5, 6, 5]
    lines = [f"ceph osd pg-upmap-items 1.{it}" for it in ("0 0 1", "2 0 3", "4 2 1")]
    shown(page, answered(page, "balance"), "balance.json")
    figures, pools = page.figures(), cells(page, "#by-pool tbody tr")
    rows = page.rows("#evened tbody tr")
    # what is cut after two decimals: 7 - 16/3 is 1.66
    cut = lambda it: f"{'+' if 3 * it > 16 else '−'}{abs(3 * it - 16) * 100 // 3 / 100:.2f}"
    wanted = {
        it: [f"osd.{it}host{it // 2}", "", str(old), str(new), "5.33", cut(old), cut(new)]
        for it, (old, new) in enumerate(zip(before, after))
    }
    order = list(rows)
    # by hand: the share in the middle at 120, and the farthest device, 2.33 off, 116 from it;
    # devices that have most above their shares stand first
    at = lambda it: round(120 - 116 * (it - 5.333) / 2.333, 3)
    devices = [0, 2, 4, 5, 3, 1]
    drawn = [(place, 120.0, at(before[it]), place + 1) for place, it in enumerate(devices)]
    then = [(place + 0.25, 120.0, at(after[it]), place + 0.75) for place, it in enumerate(devices)]
    named = texts(page, "[data-chart=off] text")
    typed = page.browser.run("return document.getElementById('to-type').textContent")
    saved = page.saved("#save-lines")
    table = list(csv.reader(io.StringIO(page.saved("#evened-csv"))))
    page.browser.driver.execute_cdp_cmd(
        "Browser.grantPermissions", {"permissions": ["clipboardReadWrite", "clipboardSanitizedWrite"]}
    )
    page.browser.click("#copy-lines")
    page.browser.until(lambda: "3 lines are copied" in page.browser.text("#status"), "the lines aren't copied")
    page.browser.run("navigator.clipboard.readText().then((it) => { window.pasted = it; })")
    page.browser.until(lambda: page.browser.run("return window.pasted"), "nothing is on the clipboard")
    pasted = page.browser.run("return window.pasted")
    text = "".join(f"{it}\n" for it in lines)
    page.by("host", "evened")
    hosts = page.rows("#evened tbody tr")
    return first(
        unlike(page.browser.text("h1"), "What evens out pools"),
        unlike(page.browser.text("#verdict"), "3 copies move by 3 lines, and no list of items does it with fewer."),
        unlike(
            figures, {"copies": "3", "least": "3", "lines": "3", "farthest-before": "2.33", "farthest-after": "0.66"}
        ),
        unlike(pools, [["photos", "1", "2.33", "0.66", "3", "3", "3", "9.0 GiB", "0"]]),
        unlike(rows, wanted, "devices:"),
        unlike(order[0], 1, "the farthest first:"),
        unlike(bars(page, "was"), drawn, "bars before:"),
        unlike(bars(page, "used"), then, "bars after:"),
        unlike(named, [str(it) for it in devices], "names of bars:"),
        unlike(typed, text),
        unlike(saved, text, "saved:"),
        unlike(pasted, text, "copied:"),
        unlike(
            table,
            [
                ["pool", "device", "name", "host", "copies_before", "copies_after", "share"],
                *(
                    ["1", str(it), f"osd.{it}", f"host{it // 2}", str(old), str(new), "5.333"]
                    for it, (old, new) in enumerate(zip(before, after))
                ),
            ],
        ),
        unlike(
            {it: row[2:4] for it, row in hosts.items()},
            {f"host{it}": [str(sum(of[2 * it : 2 * it + 2])) for of in (before, after)] for it in range(3)},
            "hosts:",
        ),
    )


def primaries_are_shown_too(page):
    """--primaries: which lead before and after, beside a share of 16/6 by hand."""
    folder = page.downloads.parent / "reef"
    folder.mkdir(exist_ok=True)
    for it in JULY.iterdir():
        (folder / it.name).write_bytes(it.read_bytes())
    osd = json.loads((folder / "osd.json").read_text())
    (folder / "osd.json").write_text(json.dumps({**osd, "require_osd_release": "reef"}))
    said = answered(page, "balance", "--primaries", folder=folder)
    shown(page, said)
    lead, then = (
        [sum(it["device"] == device for it in said["pools"][0]["usage"] for _ in range(it[key])) for device in range(6)]
        for key in ("before", "after")
    )
    changed = {(it["primary_before"], it["primary_after"]) for it in said["groups"]}
    rows = page.rows("#evened tbody tr")
    return first(
        # docs/PLANNING.md has the primaries of hosts: 3, 6 and 7
        unlike([sum(lead[it : it + 2]) for it in (0, 2, 4)], [3, 6, 7]),
        None if all(2 <= it <= 3 for it in then) else then,
        None if changed else "no primary changes",
        unlike({it: row[2:5] for it, row in rows.items()}, {it: [str(lead[it]), str(then[it]), "2.67"] for it in rows}),
        unlike(page.figures()["copies"], str(len(said["groups"]))),
        unlike(texts(page, "#to-type code"), [f"{it['line']}\n" for it in said["groups"]]),
        unlike(len(page.browser.all("#which tbody tr")), len(said["groups"])),
    )


def several_pools_and_what_is_left_out(page):
    """Two pools of a file made by hand, of which the second is chosen; a device without a share;
    what is left out and noted; names that are markup stay text."""
    odd = "<b>photos</b>"
    pool = lambda number, name, usage, off: {
        "pool": number,
        "name": name,
        "kind": "replicated",
        "size": 3,
        "pg_num": 4,
        "copies": number,
        "least": 1,
        "lines": number,
        "bytes": None,
        "deviation_before": 12.005,
        "deviation_after": 0.999,
        "staying_groups": 0,
        "off": [{"device": it, "copies": 1, "share": 2.5} for it in off],
        "usage": [dict(zip(("device", "before", "after", "share"), it)) for it in usage],
    }
    said = {
        "crushplan": 1,
        "command": "balance",
        "status": 2,
        "answer": "3 copies move by 1 line.",
        "whole": True,
        "copies": 3,
        "least": 2,
        "extra": 1,
        "bytes": None,
        "pools": [pool(1, odd, [(0, 1, 2, 2.5)], []), pool(2, "meta", [(0, 4, 3, 2.25), (7, 1, 1, None)], [0])],
        "groups": [],
        "lines": ["ceph osd rm-pg-upmap-items 2.1"],
        "devices": [{"device": 0, "name": "osd.0", "host": "host0"}, {"device": 7, "name": "osd.7", "host": "-"}],
        "remarks": ["First 'ceph osd set-require-min-compat-client luminous'."],
        "map": {"file": "map.txt", "exact": False},
        "warnings": ["a warning"],
        "uncomputed": [{"kind": "balance", "text": "pool old isn't evened out", "pools": [3]}],
        "notes": [{"kind": "down", "text": "a note", "pools": [2]}],
    }
    shown(page, said)
    pools = cells(page, "#by-pool tbody tr")
    one = page.rows("#evened tbody tr")
    page.browser.click("#which-pool option[value='1']")
    page.browser.until(lambda: 7 in page.rows("#evened tbody tr"), "the second pool isn't shown")
    other, drawn = page.rows("#evened tbody tr"), bars(page, "was")
    return first(
        unlike(page.browser.run("return document.getElementById('verdict').className"), "verdict unknown"),
        unlike(
            pools,
            [
                [odd, "1", "12.00", "0.99", "1", "1", "1", "–", "0"],
                ["meta", "2", "12.00", "0.99", "2", "1", "2", "–", "1"],
            ],
        ),
        unlike({it: row[2:] for it, row in one.items()}, {0: ["1", "2", "2.50", "−1.50", "−0.50"]}),
        unlike(
            {it: row[2:] for it, row in other.items()},
            {0: ["4", "3", "2.25", "+1.75", "+0.75"], 7: ["1", "1", "–", "–", "–"]},
        ),
        unlike(len(drawn), 1, "bars of devices with a share:"),
        unlike(page.figures()["extra"], "1"),
        unlike(texts(page, "#remarks li"), said["remarks"]),
        unlike(texts(page, "#not-computed li"), ["pool old isn't evened out"]),
        unlike(texts(page, "#notes li"), ["a warning", "a note"]),
        None if "map.txt, with weights of three decimals" in page.browser.text("#about") else "the map's weights",
    )


# ---- what isn't such an answer


def changed(said, path, value=None):
    """The answer with one value changed, or without it where there is none."""
    found = copy.deepcopy(said)
    *above, last = path
    at = found
    for it in above:
        at = at[it]
    if value is None:
        del at[last]
    else:
        at[last] = value
    return found


def what_is_no_such_answer_is_refused_by_name(page):
    """Each with its file, and its field where one is at fault; the first page stays, and no tenant
    is made."""
    plan, balance = answered(page, "plan", lines=PLANNED), answered(page, "balance")
    drain = answered(page, "drain", "host0")
    misused = {"crushplan": 1, "command": None, "status": 2, "error": "no such option"}
    tenant = page.fresh()
    for name, said, words in (
        ("cut.json", json.dumps(plan)[:900], "cut.json is none of what 'crushplan fetch' writes"),
        ("other.json", '{"planned": 1}', "nor what 'crushplan plan DIR FILE --json' or 'crushplan balance DIR --json'"),
        ("list.json", "[1]", "list.json is none of what"),
        ("next.json", {**plan, "crushplan": 2}, "next.json isn't shown: its form of crushplan's answers is 2"),
        ("text.json", {"crushplan": "plan"}, "text.json isn't shown: its form of crushplan's answers is \"plan\""),
        ("drain.json", drain, "drain.json isn't shown: it is what 'crushplan drain --json' writes"),
        ("failed.json", {**misused, "command": "plan"}, "failed.json has no answer. 'crushplan plan' said: no such"),
        ("misused.json", misused, "misused.json has no answer. 'crushplan ..' said: no such option"),
        ("a.json", changed(plan, ["steps", 1, "copies"]), "a.json: steps[1] has no field 'copies'"),
        ("b.json", changed(plan, ["steps", 0, "copies"], "10"), "b.json: steps[0]: copies isn't a whole number"),
        ("c.json", changed(plan, ["steps", 0, "events"], []), "c.json: steps[0]: events is empty"),
        ("d.json", changed(plan, ["steps", 0, "events", 0, "line"]), "d.json: steps[0]: events[0] has no field 'line'"),
        ("e.json", changed(plan, ["one_step"], 4), "e.json: one_step isn't an object"),
        ("f.json", changed(plan, ["steps", 0, "faults"], [3]), "f.json: steps[0]: faults: 0 isn't a text"),
        (
            "g.json",
            changed(plan, ["ratios", "nearfull_ratio"], "0.85"),
            "g.json: ratios: nearfull_ratio isn't a number",
        ),
        ("h.json", changed(balance, ["pools", 0, "usage"]), "h.json: pools[0] has no field 'usage'"),
        ("i.json", changed(balance, ["lines"], [1]), "i.json: lines: 0 isn't a text"),
        ("j.json", changed(balance, ["answer"]), "j.json has no field 'answer'"),
        ("k.json", changed(balance, ["map"], "crush.json"), "k.json: map isn't an object"),
        ("l.json", changed(plan, ["steps"], {}), "l.json: steps isn't a list"),
    ):
        page.browser.drop(said if isinstance(said, str) else json.dumps(said), name)
        page.browser.until(lambda: words in page.browser.text("#said .fault"), f"{name}: {words!r} isn't said")
    page.browser.drop(json.dumps(plan), "plan.json", (json.dumps(balance), "balance.json"))
    page.browser.until(lambda: "are of one kind" in page.browser.text("#said .fault"), "two answers are taken")
    page.browser.drop(json.dumps(plan), "plan.json", (example("three_hosts.txt"), "map.txt"))
    page.browser.until(
        lambda: "plan.json is shown by itself: drop it without map.txt" in page.browser.text("#said .fault"),
        "an answer is taken with a map",
    )
    return first(
        unlike(page.browser.text("h1"), "Plan a cluster on paper"),
        unlike(page.browser.run("return location.hash"), ""),
        unlike(page.ask("GET", f"/t/{tenant}")[0], 404, "the tenant's status:"),
    )


def no_pool_and_nothing_to_move(page):
    """An answer without a pool has its sentence and what isn't computed alone; one of which no copy
    has to move has no lines to type."""
    none = {
        "crushplan": 1,
        "command": "balance",
        "status": 2,
        "answer": "unknown: no pool can be evened out.",
        "pools": [],
        "groups": [],
        "lines": [],
        "map": {"file": "crush.json", "exact": True},
        "warnings": [],
        "uncomputed": [{"kind": "balance", "text": "pool a isn't evened out", "pools": [1]}],
        "notes": [],
    }
    shown(page, none)
    verdict, parts = page.browser.text("#verdict"), len(page.browser.all("#answer, #by-pool, #typed, .chart"))
    left = texts(page, "#not-computed li")
    shown(page, answered(page, "balance", "--deviation", "3"), "even.json")
    return first(
        unlike(verdict, "Unknown: no pool can be evened out."),
        unlike(parts, 0, "parts:"),
        unlike(left, ["pool a isn't evened out"]),
        unlike(page.browser.text("#verdict"), "no copy has to move: each device is within 3 of its share."),
        unlike(len(page.browser.all("#typed, #which")), 0, "lines to type:"),
        unlike(page.figures()["farthest-after"], "2.33"),
    )


# ---- beside a cluster


def an_answer_beside_a_cluster(page):
    """With a cluster open the answer is a view beside the others, for which the service is asked
    nothing; the cluster's views stay. Without one a map that is dropped there makes one. Once the
    page is loaded again the answer is gone."""
    said = answered(page, "balance")
    page.planned()
    page.browser.loaded()
    shown(page, said, "balance.json", fresh=False)
    asked = [it for it in page.browser.loaded() if "/t/" in it]
    current, title = page.browser.text("nav [aria-current=page]"), page.browser.driver.title
    page.browser.tab("Usage")
    page.browser.one("#places tbody tr")
    page.browser.named("nav a", "Result").click()
    page.browser.one("#evened tbody tr")
    page.browser.driver.back()
    page.browser.until(lambda: page.browser.text("h1") == "Usage", "the way back isn't there")
    page.browser.driver.refresh()
    page.browser.one("#places tbody tr")
    tabs = texts(page, "nav a")
    shown(page, said, "balance.json")
    page.browser.drop(example("three_hosts.txt"), "map.txt")
    page.browser.one("#tree [data-bucket]")
    made = page.browser.run("return location.hash")
    shown(page, said, "again.json")
    page.browser.driver.refresh()
    page.browser.until(lambda: page.browser.text("h1") == "Plan a cluster on paper", "the first page isn't there")
    return first(
        unlike(asked, [], "the service is asked:"),
        unlike(current, "Result"),
        unlike(title, "What evens out pools: crushcalc"),
        None if "Result" not in tabs else tabs,
        None if made.startswith("#/plan") and made.endswith("/map") else made,
    )


# ---- many devices and steps, and how it looks


def of_many(pools, devices):
    """A balance of so many pools and devices, in hosts of ten: the first half of the devices has 3
    too many, the other lacks 3."""
    usage = [
        {"device": it, "before": 103 if it < devices // 2 else 97, "after": 100, "share": 100.0}
        for it in range(devices)
    ]
    lines = [
        f"ceph osd pg-upmap-items {pool}.{it:x} {it} {devices // 2 + it}" for pool in range(pools) for it in range(500)
    ]
    group = lambda it: {"id": it.split()[3], "copies": 1, "before": [0, 1, 2], "after": [0, 1, 3]}
    return {
        "crushplan": 1,
        "command": "balance",
        "status": 0,
        "answer": "many copies move.",
        "copies": len(lines),
        "least": len(lines),
        "extra": 0,
        "bytes": 0,
        "pools": [
            {
                "pool": it,
                "name": f"pool{it}",
                "size": 3,
                "pg_num": 32768,
                "copies": 500,
                "least": 500,
                "lines": 500,
                "bytes": 0,
                "deviation_before": 3.0,
                "deviation_after": 0.0,
                "off": [],
                "usage": usage,
            }
            for it in range(pools)
        ],
        "groups": [group(it) for it in lines],
        "lines": lines,
        "devices": [{"device": it, "name": f"osd.{it}", "host": f"host{it // 10}"} for it in range(devices)],
        "remarks": [],
        "map": {"file": "crush.json", "exact": True},
        "warnings": [],
        "uncomputed": [],
        "notes": [],
    }


def of_steps(page, count):
    """The plan of docs/PLANNING.md with its first step so many times, the last of them refused."""
    found = answered(page, "plan", lines=PLANNED)
    first_one, refused = found["steps"][0], {"code": "EINVAL", "why": "no"}
    step = lambda it: {
        **first_one,
        "step": it,
        "lines": [2 * it - 1],
        "wait": 2 * it,
        "copies": it,
        "events": [{**first_one["events"][0], "line": 2 * it - 1, "refused": refused if it == count else None}],
    }
    decides = {"step": count, "lines": [2 * count - 1], "line": 2 * count - 1, "why": "no"}
    return {**found, "decides": decides, "steps": [step(it) for it in range(1, count + 1)]}


def a_thousand_devices_and_three_hundred_steps(page):
    """Lists are cut, all bars are drawn, and no task of the page is long."""
    watch, browser = Watch(page), page.browser
    page.fresh()
    many = of_many(4, 1000)
    big, lines = json.dumps(many), many["lines"]
    rows = "document.querySelectorAll('#evened tbody tr').length"
    watch.step("a balance of 1,000 devices", lambda: browser.drop(big, "big.json"), f"{rows} === 60")
    watch.expect(len(texts(page, "#to-type code")), 200, "lines that are shown:")
    watch.expect(page.saved("#save-lines").splitlines(), lines, "lines that are saved:")
    was, then = bars(page, "was"), bars(page, "used")
    # half of the devices has 3 too many, 116 pixels, and the others lack as much
    watch.expect(was, [(it, 120, 4 if it < 500 else 236, it + 1) for it in range(1000)], "before:")
    watch.expect(then, [(it + 0.25, 120, 120, it + 0.75) for it in range(1000)], "after:")
    watch.step(
        "another pool",
        lambda: browser.click("#which-pool option[value='3']"),
        "document.querySelector('#off-shares .hint').textContent.includes('Pool pool3 ')",
    )
    watch.typed("a search for a device", "#evened-search", "osd.99", f"{rows} === 11")
    browser.picture(PICTURES / "balance-1000.png")
    steps = json.dumps(of_steps(page, 300))
    watch.step(
        "a plan of 300 steps",
        lambda: browser.drop(steps, "steps.json"),
        "document.querySelectorAll('#steps tbody tr').length === 200",
    )
    drawn = columns(page, "copies", "gain")
    watch.expect((len(drawn), drawn[300], drawn[299]), (300, None, column(1.0)), "columns:")
    watch.expect(
        browser.run("return document.querySelectorAll('[data-chart=copies] text').length") <= 30, True, "words:"
    )
    browser.picture(PICTURES / "plan-300.png")
    browser.click("#decides button")
    watch.expect(len(cells(page, "#steps tbody tr")), 300, "steps, once the last one is asked for:")
    watch.expect(browser.run("return document.activeElement.id"), "step-300", "the focus is on")
    return first(*watch.whys)


def answers_look_well(page):
    """A plan that is refused, one with all options, and a balance, at three widths, dark and light:
    nothing is wider than the window, words are whole, texts are read well, and a screen reader has
    names for all."""
    whys = []
    cases = (
        ("plan", answered(page, "plan", "--rate", "80", "--groups", "--orders", lines=PLANNED)),
        ("refused", answered(page, "plan", lines=[OUT, "wait", "ceph osd purge 0", OUT])),
        ("balance", answered(page, "balance")),
    )
    for name, said in cases:
        shown(page, said, f"{name}.json")
        for it in page.browser.all("#answered > details > summary"):
            page.browser.press(it)
        for width, scheme in ((360, "dark"), (360, "light"), (800, "light"), (1920, "light"), (1920, "dark")):
            page.browser.size(width, 740 if width == 360 else 1080)
            page.browser.colours(scheme)
            over = page.browser.run("return document.scrollingElement.scrollWidth") - width
            page.browser.picture(PICTURES / f"result-{name}-{width}-{scheme}.png")
            if over > 0:
                whys.append(f"{name} is {over} pixels wider than {width}")
            if broken := page.browser.run(BROKEN):
                whys.append(f"{name} at {width} breaks {broken[:5]}")
            whys += faint(page, f"{name} in {scheme}")
        page.browser.size(1280)
        page.browser.colours("light")
        if wrong := page.browser.run(CHECKED):
            whys.append(f"{name}: {wrong[:3]}")
        unnamed = [
            it.get_attribute("outerHTML")[:100]
            for it in page.browser.all("a, button, input, select, summary, textarea, table, [role=region]")
            if it.is_displayed() and not (it.accessible_name or "").strip()
        ]
        if unnamed:
            whys.append(f"{name}: no name has {unnamed[:3]}")
    # by keyboard: the lines to type, and both buttons below them, one after the other
    page.browser.run("document.querySelector('h1').focus()")
    tab_to(page, lambda it: it.get_attribute("id") == "to-type")
    after = []
    for _ in range(2):
        press(page, Keys.TAB)
        after.append(page.browser.run("return document.activeElement.id"))
    return first(*whys, unlike(after, ["copy-lines", "save-lines"]))


def cases():
    return (
        a_plan_is_shown_step_by_step,
        a_refused_line_is_no_zero,
        a_plan_of_unknown_answer,
        a_plan_that_stops_groups,
        a_balance_before_and_after,
        primaries_are_shown_too,
        several_pools_and_what_is_left_out,
        what_is_no_such_answer_is_refused_by_name,
        no_pool_and_nothing_to_move,
        an_answer_beside_a_cluster,
        a_thousand_devices_and_three_hundred_steps,
        answers_look_well,
    )
