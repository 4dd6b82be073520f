"""A cluster from its own dumps: crush.json and osd.json dropped at once, then the answer for a host
in two clicks; what isn't computed is named; and what another browser knows."""
import json

from model import map_text
from selenium.webdriver.common.action_chains import ActionChains

from answers import Change, parts_of, rounded, wanted_figures
from clusters import Cluster
from page import first, unlike
from model.placed import Placed

SMALL = Cluster(2, 3, 4)
POOLS = (("photos", 3, 2, 0, 64), ("meta", 2, 1, 1, 32))
STATES = {3: (0.5, True), 9: (0.899994, True), 14: (1, False)}
UPMAPS = (("1.5", ((0, 1),)), ("1.2b", ((4, 5), (8, 9))), ("2.3", ((0, 2),)))
FIXED = {3: 32768, 9: 58982}


def placed(cluster, number, **more):
    """A pool of the dump, by the independent calculator."""
    _, size, _, rule, groups = POOLS[number - 1]
    pairs = [
        (int(pgid.split(".")[1], 16), old, new)
        for pgid, own in UPMAPS
        if pgid.startswith(f"{number}.")
        for old, new in own
    ]
    reweights = {**FIXED, **more.pop("reweights", {})}
    return Placed(
        cluster.text(),
        pool=number,
        size=size,
        pg_num=groups,
        rule=rule,
        reweights=reweights,
        down={14, *more.pop("down", ())},
        pairs=pairs,
        **more,
    )


def dropped(page, cluster, **more):
    """A new tenant of the two files."""
    tenant = page.fresh()
    page.browser.drop(cluster.crush(), "crush.json", (cluster.osd(POOLS, STATES, UPMAPS, **more), "osd.json"))
    page.browser.until(lambda: "The cluster is there" in page.browser.text("#said"), "the dumps aren't taken")
    page.settled()
    return tenant


def both_files_make_the_cluster(page):
    """The map with exact weights, states, pools and upmap items, as the service then has them."""
    tenant = dropped(page, SMALL)
    said, text = page.browser.text("#said"), page.ask("GET", f"/t/{tenant}/maps/1")[1]["text"]
    wanted = map_text.write(map_text.read(SMALL.text().encode())).decode()
    rows = lambda number: {
        it["device"]: it["entries"] for it in page.ask("GET", f"/t/{tenant}/pools/{number}/usage")[1]["rows"]
    }
    pairs = [
        (it["group"], it["from"], it["to"])
        for it in page.ask("GET", f"/t/{tenant}/pools/1/exceptions")[1]["exceptions"]
    ]
    known = json.loads(page.browser.run("return localStorage.getItem(`crushcalc.tenant.${arguments[0]}`)", tenant))
    return first(
        None if "2 pools, 3 devices with a reweight or down, 4 upmap items" in said else said,
        unlike(sorted(text.splitlines()), sorted(wanted.splitlines())),
        unlike(pairs, [(5, 0, 1), (43, 4, 5), (43, 8, 9)]),
        *(
            unlike(rows(number), {it: row[0] for it, row in placed(SMALL, number).usage().items()}, f"pool {number}")
            for number in (1, 2)
        ),
        unlike([it["min_size"] for it in known["pools"]], [2, 1]),
        unlike(page.summary(tenant)["epoch"], known["seen"], "what the browser knows:"),
        unlike(len(page.browser.all("#unknown")), 0, "notes:"),
    )


def the_answer_for_a_host_in_two_clicks(page):
    """From the picture: a click on the host, and one on its drain."""
    dropped(page, SMALL)
    page.browser.run("window.clicks = 0")
    click_in_picture(page, "host4")
    page.browser.named("#picture a.act", "Drain host4").click()
    page.browser.one("#answer")
    page.settled()
    clicks, out = page.clicks(), {it: 0 for it in range(16, 20)}
    changes = [Change(placed(SMALL, it), placed(SMALL, it, reweights=out), POOLS[it - 1][1]) for it in (1, 2)]
    parts = parts_of(SMALL.text(), {**FIXED, **out}, {14})
    return first(
        unlike(clicks, 2, "clicks:"),
        unlike(page.browser.text(".title"), "Drain of host4"),
        unlike(
            {key: it for key, it in page.figures().items() if key != "fullest"},
            {key: it for key, it in wanted_figures(changes, parts).items() if key != "fullest"},
        ),
    )


def click_in_picture(page, name):
    """Clicks on a place of the picture: where it is, is found by what is said of the place below
    the pointer."""
    canvas = page.browser.one("#picture canvas")
    page.browser.run("arguments[0].scrollIntoView({ block: 'center' })", canvas)
    width, height = canvas.size["width"], canvas.size["height"]
    script = """const [canvas, name] = arguments, at = canvas.getBoundingClientRect();
        for (let y = 2; y < at.height; y += 8) for (let x = 2; x < at.width; x += 6) {
            const place = { clientX: at.left + x, clientY: at.top + y, bubbles: true };
            canvas.dispatchEvent(new PointerEvent("pointermove", place));
            const said = document.querySelector("#picture .said").textContent;
            if (said.startsWith("host") && said.split(/[ :]/).includes(name)) return [x, y];
        }
        return null;"""
    found = page.browser.run(script, canvas, name)
    if not found:
        raise ValueError(f"{name} isn't in the picture")
    ActionChains(page.browser.driver).move_to_element_with_offset(
        canvas, found[0] - width / 2, found[1] - height / 2
    ).click().perform()
    page.browser.until(lambda: page.browser.text("#picture .way strong") == name, f"{name} isn't looked into")


def a_picture_is_looked_into_by_keys(page):
    """Its list leads into places, and what is said of one is its share."""
    dropped(page, SMALL)
    before, parts = [placed(SMALL, it) for it in (1, 2)], parts_of(SMALL.text(), FIXED, {14})
    page.browser.click("#into option[value='1']")
    page.browser.until(lambda: page.browser.text("#picture .way strong") == "rack1", "not in rack1")
    said = page.browser.text("#picture .said")
    copies = sum(of.usage()[it][0] for of in before for it in range(12, 24))
    focus = page.browser.run("return document.activeElement.id")
    page.browser.named("#picture .way button", "default").click()
    whole = page.browser.text("#picture .said")
    every = sum(it[0] for of in before for it in of.usage().values())
    return first(
        None if said.startswith(f"rack rack1: {copies} copies, ") else said,
        None if whole == f"root default: {every} copies, 100.0 % of its share" else whole,
        unlike(focus, "into"),
        unlike(round(float(sum(parts.values())), 9), 1.0),
    )


def what_is_not_computed_is_named(page):
    """Each with the pools, groups and devices that it touches."""
    osd = json.loads(SMALL.osd(POOLS))
    osd["pools"][1]["crush_rule"] = 7
    osd["pools"][0]["pg_num_target"] = 128
    osd["pg_temp"] = [{"pgid": "1.8", "osds": [1, 5, 9]}]
    tenant = page.fresh()
    page.browser.drop(SMALL.crush(), "crush.json", (json.dumps(osd), "osd.json"))
    page.browser.until(lambda: "The cluster is there" in page.browser.text("#said"), "the dumps aren't taken")
    pools, said = page.summary(tenant)["pools"], page.browser.text("#not-computed")
    wanted = (
        "pool meta (2) isn't computed: crush.json lacks its rule 7",
        "pool photos is being split or merged (pg_num 64 on its way to 128",
        "1.8",
    )
    # a drain of a host
    lies = lambda **more: Placed(SMALL.text(), pool=1, size=3, pg_num=64, **more)
    before = lies()
    host = before.up[7][0] // 4
    moves = before.moves(lies(reweights=dict.fromkeys(range(4 * host, 4 * host + 4), 0)))
    page.drained(f"host{host}")
    verdict, lacks = page.browser.text("#verdict"), page.browser.text("#left-out")
    page.browser.click("#which summary")
    page.browser.has("#groups tbody tr")
    return first(
        *(None if it in said else f"{it!r} isn't in {said!r}" for it in wanted),
        unlike(pools, 1),
        unlike(verdict, f"Unknown: pool meta can't be computed; of what can, {len(moves)} groups move."),
        unlike(sorted(page.rows("#groups tbody tr")), [it for it, _, _ in moves], "groups:"),
        None if "pool meta (2) isn't computed" in lacks else lacks,
    )


def files_that_are_no_dumps(page):
    """What is wrong is said with its file and field, and no tenant is made."""
    tenant, whys = page.fresh(), []
    broken = json.loads(SMALL.crush())
    del broken["buckets"][2]["items"][1]["weight"]
    for files, words in (
        ([("{", "crush.json")], "crush.json is none of what"),
        ([("[]", "osd.json")], "osd.json"),
        ([(json.dumps(broken), "crush.json")], "crush.json: buckets[2]: items[1] has no field 'weight'"),
        ([(SMALL.osd(POOLS), "osd.json")], "Drop the map too"),
        ([(SMALL.crush(), "a.json"), (SMALL.crush(), "b.json")], "of one kind"),
    ):
        page.browser.drop(*files[0], *files[1:])
        page.browser.until(lambda: words in page.browser.text("#said .fault"), f"{words!r} isn't said")
    return first(*whys, unlike(page.ask("GET", f"/t/{tenant}")[0], 404, "the tenant's status:"))


def a_map_text_and_osd_json(page):
    """map.txt in the place of crush.json; and osd.json alone for a map that is there."""
    tenant = page.fresh()
    page.browser.drop(SMALL.text(), "map.txt", (SMALL.osd(POOLS, STATES, UPMAPS), "osd.json"))
    page.browser.until(lambda: "The cluster is there" in page.browser.text("#said"), "the files aren't taken")
    rows = lambda: {it["device"]: it["entries"] for it in page.ask("GET", f"/t/{tenant}/pools/1/usage")[1]["rows"]}
    found, note = rows(), page.browser.text("#not-computed")
    page.browser.drop(SMALL.osd(POOLS, {}, ()), "osd.json")
    page.browser.until(
        lambda: "0 devices with a reweight or down, 0 upmap items" in page.browser.text("#said"),
        "osd.json isn't taken alone",
    )
    plain = Placed(SMALL.text(), pool=1, size=3, pg_num=64).usage()
    return first(
        unlike(found, {it: row[0] for it, row in placed(SMALL, 1).usage().items()}),
        unlike(rows(), {it: row[0] for it, row in plain.items()}),
        None if "map.txt has weights that 'crushtool -d' rounded" in note else note,
    )


def what_another_browser_knows(page):
    """The file that one browser saves makes the other one know the pools and states."""
    tenant = dropped(page, SMALL)
    text = page.saved("#save-known")
    page.browser.run("localStorage.clear()")
    page.browser.driver.refresh()
    page.browser.one("#tree [data-bucket]")
    note = page.browser.text("#unknown")
    page.drop(text, f"{tenant}.crushcalc.json", "2 pools and the states of 3 devices")
    page.settled()
    gone = len(page.browser.all("#unknown"))
    page.browser.tab("Usage")
    page.by("device")
    usages = [placed(SMALL, it).usage() for it in (1, 2)]
    parts = {number: parts_of(SMALL.text(), FIXED, {14}) for number in (1, 2)}
    copies = {it: sum(of[it][0] for of in usages) for it in range(24)}
    expected = {
        it: sum(parts[number][it] * sum(row[0] for row in usages[number - 1].values()) for number in (1, 2))
        for it in range(24)
    }
    found = {it: row[2:4] for it, row in page.rows("#places tr[data-device]").items()}
    return first(
        None if "this browser knows 0 pools" in note else note,
        unlike(gone, 0, "the note is left:"),
        unlike(found, {it: [str(copies[it]), rounded(expected[it], 2)] for it in range(24)}),
    )


def cases():
    return (
        both_files_make_the_cluster,
        the_answer_for_a_host_in_two_clicks,
        a_picture_is_looked_into_by_keys,
        what_is_not_computed_is_named,
        files_that_are_no_dumps,
        a_map_text_and_osd_json,
        what_another_browser_knows,
    )
