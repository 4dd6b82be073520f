"""What a planner does with maps, pools and objects, on maps of the examples: each with at most
three clicks, with the numbers of docs/PLANNING.md and of placed.py."""
import os
import pathlib
import re
import subprocess
import tempfile

from model import crush, map_text
from documents import shown
from clusters import Cluster
from page import EXAMPLES, TOP, example, first, unlike
from model.placed import Placed

CLICKS = 3
STRAW = "Nothing is wrong with such a map: Ceph computes straw buckets"
NOT_COMPUTED = {"X2", "X3", "X4", "M13"}
MARKUP = '<b>cat</b> & "dog"<img src=x onerror=alert(1)>.jpg'
PAGE = (TOP / "docs" / "PLANNING.md").read_text()
STRAW_PAGE, MAPS = (TOP / "docs" / "MAPS.md").read_text().split("\n## Codes\n")


def said_by(words):
    """What docs/PLANNING.md shows below the command that has these words."""
    return next(output for command, output in shown.commands_in(PAGE) if words in command)


def few_clicks(page):
    found = page.clicks()
    return None if found <= CLICKS else f"it takes {found} clicks"


# ---- maps


def lines_of_the_tree(page):
    """Of each device its buckets from the root, and its line."""
    return page.browser.run(
        """return Object.fromEntries([...document.querySelectorAll("#tree [data-device]")].map((it) => {
        const above = [];
        for (let at = it.closest("[data-bucket]"); at; at = at.parentElement.closest("[data-bucket]")) {
            above.unshift(at.dataset.bucket);
        }
        const badges = [...it.querySelectorAll("button.badge:not(.other)")].map((one) => one.innerText.trim());
        const line = [it.querySelector(".weight").innerText.trim(), ...badges];
        return [it.querySelector(".device").innerText, [above, line]];
    }))"""
    )


def wanted_tree(text, states=None):
    read = map_text.read(text.encode())
    above = {item: (name, weight) for _, _, name, _, items in read.buckets for item, weight in items}
    found = {}
    for number, name in read.devices.items():
        path, at = [], name
        while at in above:
            at = above[at][0]
            path.insert(0, at.decode())
        found[name.decode()] = [
            path,
            [map_text.weight_text(above[name][1]).decode(), *(states or {}).get(number, ("in", "up"))],
        ]
    return found


def a_dropped_map_is_imported_and_its_tree_is_shown(page):
    text = example("cluster.txt")
    tenant = page.imported(text, "cluster.txt")
    types = page.browser.run(
        'return Object.fromEntries([...document.querySelectorAll("#tree [data-bucket] > summary")].map((it) =>'
        ' [it.querySelector(".name").innerText, it.querySelector(".type").innerText]))'
    )
    read = map_text.read(text.encode())
    return first(
        unlike(lines_of_the_tree(page), wanted_tree(text)),
        unlike(types, {name.decode(): kind.decode() for _, kind, name, _, _ in read.buckets}),
        unlike(page.ask("GET", f"/t/{tenant}/maps/1")[1]["text"], map_text.write(read).decode()),
        few_clicks(page),
    )


def a_file_is_chosen_and_states_of_devices_are_shown(page):
    tenant = page.fresh()
    page.browser.all("#file")[0].send_keys(str(EXAMPLES / "three_hosts.txt"))
    page.browser.one("#tree [data-bucket]")
    page.drop('id,reweight,up\r\n0,0,1\r\n"1",32768,1\r\n2,65536,0\r\n', "states.csv", "3 devices")
    states = {0: ("out", "up"), 1: ("reweight 0.5", "up"), 2: ("in", "down")}
    page.browser.driver.refresh()
    page.browser.one("#tree [data-bucket]")
    return first(
        unlike(lines_of_the_tree(page), wanted_tree(example("three_hosts.txt"), states)),
        unlike(page.summary(tenant), {"devices": 3, "epoch": 2, "pools": 0, "tenant": tenant, "versions": 1}),
    )


def names_that_no_tenant_may_have(page):
    page.fresh()
    for it in ("", ".", "..", "a b", "a/b", "<b>"):
        page.browser.fill("#name", it)
        page.browser.drop(example("three_hosts.txt"), "three_hosts.txt")
        page.browser.until(
            lambda: not page.browser.run("return document.getElementById('name').checkValidity()"), f"{it!r} is taken"
        )
    return first(
        unlike(page.browser.text("h1"), "Plan a cluster on paper"),
        unlike([it for it in page.browser.loaded() if "/t/" in it], [], "requests:"),
    )


def the_first_view_says_what_to_do(page):
    """Before anything is dropped: what the name is for, and what can't be computed."""
    page.fresh()
    label, hint = (page.browser.text(it) for it in ("label[for=name]", "#name-hint"))
    note, whole = page.browser.text(".start .note"), page.browser.text("main")
    page.browser.click(".start .note summary")
    more, command = page.browser.text(".start .note"), page.browser.text(".start .note pre")
    tops = page.browser.run(
        "return ['.start .note', '#name', '.drop', '#there'].map((it) =>"
        " document.querySelector(it).getBoundingClientRect().top)"
    )
    return first(
        unlike(label, "Cluster (tenant)"),
        None if "A name of your choice" in hint and "calls that a tenant" in hint else hint,
        None if "straw2" in note and "can't compute" in note else note,
        unlike(whole.count("tenant"), 2, "'tenant' stands so often:"),
        None if STRAW in more else more,
        None if f"    {command}\n" in STRAW_PAGE else command,
        unlike(tops, sorted(tops), "the order is"),
    )


def a_name_that_is_taken(page):
    """A map isn't dropped into a cluster that is there; a link leads to it."""
    tenant = page.imported(example("three_hosts.txt"))
    summary = page.summary(tenant)
    page.fresh(tenant=tenant)
    page.browser.drop(example("four_hosts.txt"), "four_hosts.txt")
    said = page.browser.text("#said .fault")
    page.browser.named("#said a", f"open {tenant}").click()
    page.browser.one("#tree [data-bucket]")
    return first(
        None if said.startswith(f"There is a cluster {tenant} already.") else said,
        unlike(page.summary(tenant), summary),
    )


def one_that_is_there_is_opened(page):
    """By its name and by its link; what isn't there is said, and isn't kept in the address."""
    tenant = page.imported(example("three_hosts.txt"))
    page.open("#/")
    page.browser.one("#there")
    links = [it.text for it in page.browser.all(".tenants a")]
    page.browser.fill("#there", "nobody")
    page.browser.named("button", "Open it").click()
    said = page.browser.text("#said .fault")
    address = page.browser.run("return location.hash")
    page.browser.fill("#there", tenant)
    page.browser.named("button", "Open it").click()
    page.browser.one("#tree [data-bucket]")
    return first(
        unlike(links, [tenant]), None if said.startswith("nobody: 404 no_tenant") else said, unlike(address, "#/")
    )


def a_refused_first_map_leaves_nothing(page):
    """What was made for it can be deleted, after a question."""
    tenant = page.fresh()
    page.browser.drop("device 0\n", "no_map.txt")
    page.browser.one(".refused")
    there = page.summary(tenant)
    page.browser.click("#remove")
    question = page.browser.text("dialog")
    page.browser.named("dialog button", "Keep it").click()
    kept = page.ask("GET", f"/t/{tenant}")[0]
    page.browser.click("#remove")
    page.browser.named("dialog button", "Delete it").click()
    page.browser.until(lambda: page.browser.text("h1") == "Plan a cluster on paper", "the first view")
    links = [it.text for it in page.browser.all(".tenants a")]
    return first(
        unlike(there, {"devices": 0, "epoch": 0, "pools": 0, "tenant": tenant, "versions": 0}),
        None if question.startswith(f"Delete {tenant}?") and "no map" in question else question,
        unlike(kept, 200, "the status after keeping it:"),
        unlike(page.ask("GET", f"/t/{tenant}"), (404, {"error": "no_tenant"})),
        unlike(links, []),
    )


def a_cluster_is_deleted(page):
    tenant = page.planned()
    page.browser.tab("Map")
    page.browser.click("#remove")
    question = page.browser.text("dialog")
    page.browser.named("dialog button", "Delete it").click()
    page.browser.one("#name")
    return first(
        few_clicks(page),
        (
            None
            if all(
                it in question
                for it in (
                    "1 versions",
                    "1 pools",
                    "0 device states",
                    "can't be had back",
                    "Your Ceph cluster isn't touched",
                )
            )
            else question
        ),
        unlike(page.ask("GET", f"/t/{tenant}"), (404, {"error": "no_tenant"})),
        unlike(page.browser.run("return Object.keys(localStorage)"), [], "the browser keeps"),
    )


def states_by(command, dump):
    """The states.csv that a command of the page writes where `ceph` says this dump."""
    with tempfile.TemporaryDirectory() as folder:
        ceph = pathlib.Path(folder) / "ceph"
        ceph.write_text(f"#!/bin/sh\ncat <<'END'\n{dump}\nEND\n")
        ceph.chmod(0o755)
        subprocess.run(
            ["sh", "-c", command],
            cwd=folder,
            env={**os.environ, "PATH": f"{folder}:{os.environ['PATH']}"},
            check=True,
            timeout=60,
        )
        return (pathlib.Path(folder) / "states.csv").read_text()


def devices_are_saved_as_csv(page):
    page.imported(example("cluster.txt"))
    page.drop("id,reweight,up\n4,32768,0\n", "states.csv", "1 devices")
    note, dumps = page.browser.text("#tree-search-hint"), page.browser.text(".drop .hint code")
    page.browser.click(".drop summary")
    states_of = states_by(page.browser.text(".drop pre"), Cluster(1, 1, 3).osd((), {1: (0.5, True), 2: (1, False)}))
    rows = [it.split(",") for it in page.saved("#devices-csv").splitlines()]
    tree, states = wanted_tree(example("cluster.txt")), {"osd.4": ["32768", "0"]}
    wanted = [
        [name[4:], name, path[-1], words[0], *states.get(name, ["65536", "1"]), " ".join(reversed(path[:-1]))]
        for name, (path, words) in tree.items()
    ]
    return first(
        unlike(rows[0], "device name host weight reweight up above".split()),
        unlike(sorted(rows[1:]), sorted(wanted)),
        None if "Classes of devices (hdd, ssd) aren't shown" in note else note,
        None if f"    {dumps}\n" in PAGE else dumps,
        unlike(states_of, "id,reweight,up\n0,65536,1\n1,32768,1\n2,65536,0\n"),
    )


def a_tree_can_be_searched(page):
    page.imported(example("cluster.txt"))
    page.browser.fill("#tree-search", "osd.11")
    page.browser.until(lambda: len(page.browser.all("#tree [data-device]")) == 1, "not one device is found")
    return first(
        unlike(page.browser.text("#tree [data-device] .device"), "osd.11"),
        unlike(page.browser.text("#tree .above"), "in host3, rack1, default"),
    )


def smallest_texts():
    """The texts of docs/MAPS.md with their codes and lines, and one for the code of texts that are
    too long; and the first words of each code's meaning. A text of straw2 that has no mark would
    get it."""
    for section in re.split(r"^(?=\*\*[XM]\d+\*\*: )", MAPS, flags=re.MULTILINE)[1:]:
        code = re.match(r"\*\*([XM]\d+)\*\*", section)[1]
        meaning = re.sub(
            r"\[([^\]]*)\]\([^)]*\)", r"\1", " ".join(section.split("\n\n")[0].split("**: ")[1].split())
        ).replace("`", "")
        pairs = re.findall(r"^```\n((?:.*\n)*?)```\n`refused line (\d+) code [XM]\d+`$", section, flags=re.MULTILINE)
        for text, line in pairs or [("#" * 4_194_305, 1)]:
            asked = text if text.startswith("# crushcalc: straw2\n") else text.replace("alg straw2", "alg straw")
            yield code, asked, int(line), re.split(r"[;.:]( |$)| \(", meaning)[0]


def every_code_is_shown_at_its_line(page):
    page.imported(example("three_hosts.txt"))
    codes = set()
    for code, text, line, meaning in smallest_texts():
        codes.add(code)
        # a row that would be markup, in a remark, which the text may have
        name = f"{code}<i>.txt"
        page.browser.run("document.getElementById('said').replaceChildren()")
        page.browser.drop(text, name)
        title = page.browser.text(".refused h3")
        said = page.browser.run(
            "return [...document.querySelectorAll('.refused .here')].map((it) => [it.value,"
            " it.querySelector('code').textContent, it.querySelector('.meaning').textContent])"
        )
        wanted = (text.split("\n")[line - 1])[:300]
        words = f"crushcalc can't compute {name}" if code in NOT_COMPUTED else f"{name} isn't imported"
        if why := first(
            unlike(title, f"{words}: line {line}, code {code}"),
            unlike(
                [it[:2] for it in said],
                [[line, wanted + (" .." if len(text) > 300 and line == 1 and "\n" not in text else "")]],
                code,
            ),
        ):
            return why
        if not said[0][2].startswith(f"{code}: {meaning.removesuffix(' may have')}"):
            return f"{code} is said to be {said[0][2]!r}, not {meaning!r}"
        whole = page.browser.text(".refused")
        if (
            (code in NOT_COMPUTED) != ("Nothing is wrong with such a map" in whole)
            or (code == "X2") != (STRAW in whole and "straw2?/\\1list/'" in whole)
            or "docs/" in whole
        ):
            return f"{code}: the page says {whole}"
    return unlike(len(codes), 22, "the codes are")


def a_text_is_never_markup(page):
    page.imported(example("three_hosts.txt"))
    page.browser.drop(
        f"tunable choose_local_tries 0\n# {MARKUP}\ndevice 0 {MARKUP}\n", f"{MARKUP.replace('/', '')}.txt"
    )
    page.browser.one(".refused")
    lines = page.browser.run("return [...document.querySelectorAll('.refused li code')].map((it) => it.textContent)")
    inside = page.browser.run("return document.querySelectorAll('main b, main img, main i').length")
    injected = page.browser.run(
        "try { document.querySelector('main').innerHTML = '<b>x</b>'; return 'taken'; } catch (why) { return"
        " why.name; }"
    )
    policy = page.browser.run(
        "const asked = new XMLHttpRequest(); asked.open('GET', location.pathname, false); asked.send(); return"
        " asked.getResponseHeader('Content-Security-Policy');"
    )
    page.browser.errors()  # the refused markup above is one
    return first(
        unlike(lines[1:3], [f"# {MARKUP}", f"device 0 {MARKUP}"]),
        unlike(inside, 0, "elements of the text:"),
        unlike(injected, "TypeError"),
        None if policy and "default-src 'none'" in policy and "unsafe" not in policy else f"the policy is {policy}",
    )


# ---- pools, usage


def a_pool_has_the_defaults_of_ceph(page):
    tenant = page.imported(example("cluster.txt"))
    page.browser.run("window.clicks = 0")
    page.pool("photos")
    clicks, focus = few_clicks(page), page.browser.run("return document.activeElement.id")
    text = page.saved("#pools-csv")
    wanted = Placed(example("cluster.txt"), pool=1, size=3, pg_num=32).up
    found = [page.ask("GET", f"/t/{tenant}/pools/1/groups/{it}") for it in range(33)]
    cells = lambda: [it.text for it in page.browser.all("main tbody tr")[0].find_elements("css selector", "th, td")]
    page.browser.until(lambda: cells()[-2] == "0", "the number of its exceptions isn't shown")
    row = cells()
    page.browser.click("#kind option[value='erasure']")
    size = page.browser.one("#size").get_property("value")
    return first(
        clicks,
        unlike([it["up"] for _, it in found[:32]], wanted),
        unlike(found[32], (404, {"error": "no_group"})),
        unlike(row, ["1", "photos", "replicated", "3", "2", "0", "32", "32", "yes", "0", "Remove"]),
        unlike(size, "4", "the size of an erasure pool is"),
        unlike(focus, "said", "the focus is on"),
        unlike(
            text, "id,name,kind,size,min_size,rule,pg_num,pgp_num,hashpspool\n1,photos,replicated,3,2,0,32,32,true\n"
        ),
    )


def a_pool_that_is_refused(page):
    page.planned()
    page.browser.fill("#pool-id", "1")
    page.browser.fill("#pool-name", "photos")
    page.browser.click("form button.main")
    return first(
        unlike(page.browser.text("#said .fault"), "The pool isn't made. 409 exists: it is there already."),
        unlike(page.browser.run("return document.activeElement.id"), "said", "the focus is on"),
    )


def a_pool_that_was_made_elsewhere(page):
    """This browser doesn't know it; filled in as it was made, it is used."""
    tenant = page.imported(example("three_hosts.txt"))
    page.ask(
        "POST",
        f"/t/{tenant}/pools",
        {
            "request": "p",
            "id": 7,
            "name": "old",
            "kind": "replicated",
            "size": 2,
            "rule": 0,
            "pg_num": 16,
            "pgp_num": 16,
            "hashpspool": True,
        },
    )
    page.browser.tab("Pools")
    note = page.browser.text("main .note")
    for field, value in (("pool-id", 7), ("pool-name", "old"), ("size", 2), ("pg_num", 16)):
        page.browser.fill(f"#{field}", str(value))
    page.browser.click("form button.main")
    page.browser.named("#said button", "It is the pool that I filled in").click()
    page.browser.until(lambda: len(page.browser.all("main tbody tr")) == 1, "the pool isn't listed")
    page.browser.tab("Usage")
    page.by("device")
    wanted = Placed(example("three_hosts.txt"), pool=7, size=2, pg_num=16).usage()
    found = {it: int(row[2]) for it, row in page.rows("#places tr[data-device]").items()}
    return first(None if "keeps 1 pool of" in note else note, unlike(found, {it: row[0] for it, row in wanted.items()}))


def a_pool_is_removed(page):
    """After a question; and with its Remove it is gone on the service too."""
    tenant = page.planned()
    page.browser.click("[data-remove='1']")
    page.browser.named("dialog button", "Keep it").click()
    kept = page.summary(tenant)["pools"]
    page.browser.click("[data-remove='1']")
    page.browser.named("dialog button", "Remove it").click()
    page.browser.until(lambda: "The pool photos is removed" in page.browser.text("#said"), "the pool isn't removed")
    return first(
        unlike(kept, 1, "pools after keeping it:"),
        unlike(page.summary(tenant)["pools"], 0, "pools:"),
        unlike(len(page.browser.all("main tbody tr")), 0, "rows:"),
    )


def states_are_set_by_a_click(page):
    """Out, in and down by the badges of the tree, and another reweight by its question."""
    tenant = page.planned()
    page.browser.tab("Map")
    for words, holds in (
        ("in: take it out (of osd.0)", {0: (0, True)}),
        ("out: take it in (of osd.0)", {0: (65536, True)}),
        ("up: say that it is down (of osd.3)", {0: (65536, True), 3: (65536, False)}),
    ):
        page.browser.until(
            lambda: page.browser.run(
                (
                    "const it = document.querySelector(`button.badge[aria-label='${arguments[0]}']`); it?.click();"
                    " return Boolean(it)"
                ),
                words,
            ),
            f"no badge {words}",
        )
        page.browser.until(lambda: states_known(page, tenant) == holds, f"the states aren't {holds}")
    page.browser.until(
        lambda: page.browser.run(
            "const it = document.querySelector(`button.badge[aria-label='Another reweight (of osd.1)']`); it?.click();"
            " return Boolean(it)"
        ),
        "no other reweight",
    )
    page.browser.fill("#reweight", "0.25")
    page.browser.named("dialog button", "Set it").click()
    page.browser.until(lambda: states_known(page, tenant).get(1) == (16384, True), "the reweight isn't set")
    wanted = Placed(example("three_hosts.txt"), pool=1, size=2, pg_num=16, reweights={1: 16384}, down={3}).usage()
    found = {it["device"]: it["entries"] for it in page.ask("GET", f"/t/{tenant}/pools/1/usage")[1]["rows"]}
    page.browser.until(
        lambda: lines_of_the_tree(page)["osd.1"][1][1:] == ["reweight 0.25", "up"], "the reweight isn't shown"
    )
    return unlike(found, {it: row[0] for it, row in wanted.items()})


def states_known(page, tenant):
    known = page.browser.run(
        "return JSON.parse(localStorage.getItem(`crushcalc.tenant.${arguments[0]}`)).states", tenant
    )
    return {int(it): (state["reweight"], state["up"]) for it, state in known.items()}


def holes_are_mended(page):
    """A tree bucket from which devices were removed: the text with a device of the weight 0 in each
    hole places every input as the service does where the devices are there with the weight 0."""
    text = holed(example("three_hosts.txt"))
    page.fresh()
    page.browser.drop(text, "holes.txt")
    title, lines = page.browser.text(".refused h3"), page.browser.run(
        "return [...document.querySelectorAll('.refused .here')].map((it) => [it.value,"
        " it.querySelector('code').textContent.trim()])"
    )
    offered = page.browser.text("#mending p")
    page.browser.click("#mend")
    page.browser.one("#tree [data-bucket]")
    page.pool(size=2, pg_num=64)
    page.browser.tab("Usage")
    page.by("device")
    wanted = Placed(
        text.replace("osd.0 weight 0.000 pos 2", "gone weight 0.000 pos 2")
        .replace("osd.0 weight 0.000 pos 3", "lost weight 0.000 pos 3")
        .replace("\ntype 0", "\ndevice 6 gone\ndevice 7 lost\ntype 0", 1),
        pool=1,
        size=2,
        pg_num=64,
    )
    found = {it: int(row[2]) for it, row in page.rows("#places tr[data-device]").items() if int(row[2])}
    at = text.split("\n").index("\titem osd.0 weight 0.000 pos 3") + 1
    return first(
        None if "code M6" in title else title,
        unlike(lines, [[at, "item osd.0 weight 0.000 pos 3"]]),
        None if "has 2 holes" in offered else offered,
        unlike(found, {it: row[0] for it, row in wanted.usage().items() if row[0]}),
        unlike(sorted(page.rows("#places tr[data-device]")), [*range(6)], "devices that are shown:"),
    )


def holed(text):
    """The map of three hosts with tree buckets, of which host1 has lost two devices at its end."""
    items = (
        "\titem osd.2 weight 1.000 pos 0\n\titem osd.3 weight 1.000 pos 1\n\titem osd.0 weight 0.000 pos 2\n\titem"
        " osd.0 weight 0.000 pos 3\n\titem osd.4 weight 1.000 pos 4\n"
    )
    lines = [
        line
        for line in text.replace("alg list", "alg tree").split("\n")
        if not line.strip().startswith(("item osd.2", "item osd.3", "item osd.4"))
    ]
    body = "\n".join(lines).replace("host host1 {", "host host1 {\n@@", 1)
    start = body.index("@@")
    end = body.index("}", start)
    return body[:start] + body[start + 3 : end] + items + body[end:]


# ---- objects


def an_object_is_found(page):
    tenant = page.planned()
    page.browser.tab("Object")
    page.browser.fill("#object", "cat.jpg")
    page.browser.click("form button.main")
    page.browser.one("#found")
    clicks, devices = few_clicks(page), [
        int(it.get_attribute("data-device")) for it in page.browser.all("#found [data-device]")
    ]
    whole = page.browser.text("#found")
    page.browser.fill("#object", MARKUP)
    page.browser.click("form button.main")
    page.browser.until(lambda: page.browser.text("#found h2") == MARKUP, "the name isn't shown as it is")
    group = crush.stable_mod(crush.name_hash(MARKUP.encode()), 16)
    placed, named = Placed(example("three_hosts.txt"), pool=1, size=2, pg_num=16), [
        int(it.get_attribute("data-device")) for it in page.browser.all("#found [data-device]")
    ]
    page.browser.fill("#group", "15")
    page.browser.named("form button", "Where is it?")
    page.browser.all("form[aria-label='A group'] button")[0].click()
    page.browser.until(lambda: page.browser.text("#found h2") == "Group 15", "no group")
    of_group = [int(it.get_attribute("data-device")) for it in page.browser.all("#found [data-device]")]
    facts = page.browser.text("#found .facts")
    page.browser.fill("#group", "1.D")
    page.browser.all("form[aria-label='A group'] button")[0].click()
    page.browser.until(lambda: page.browser.text("#found h2") == "Group 13", "no group by its id in Ceph")
    page.browser.fill("#group", "2.d")
    page.browser.all("form[aria-label='A group'] button")[0].click()
    taken = page.browser.run("return document.getElementById('group').checkValidity()")
    return first(
        clicks,
        unlike(devices, [4, 0]),
        None if all(it in whole for it in ("326290889", "2168299143", "primary")) else whole,
        unlike(named, placed.up[group]),
        unlike(of_group, placed.up[15]),
        None if "1.f" in facts else facts,
        unlike(taken, False, "a group of another pool is taken:"),
        unlike(len(page.browser.all("main b, main img")), 0),
        unlike(page.summary(tenant)["epoch"], 2),
    )


def cases():
    return (
        a_dropped_map_is_imported_and_its_tree_is_shown,
        a_file_is_chosen_and_states_of_devices_are_shown,
        names_that_no_tenant_may_have,
        the_first_view_says_what_to_do,
        a_name_that_is_taken,
        one_that_is_there_is_opened,
        a_refused_first_map_leaves_nothing,
        a_cluster_is_deleted,
        devices_are_saved_as_csv,
        a_tree_can_be_searched,
        every_code_is_shown_at_its_line,
        a_text_is_never_markup,
        a_pool_has_the_defaults_of_ceph,
        a_pool_that_is_refused,
        a_pool_that_was_made_elsewhere,
        a_pool_is_removed,
        states_are_set_by_a_click,
        holes_are_mended,
        an_object_is_found,
    )
