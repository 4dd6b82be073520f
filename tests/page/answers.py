"""What the page answers first: drains and failures, maps that are compared, exceptions that are
tried. Where groups lie is computed by placed.py, and shares here, in fractions."""
from fractions import Fraction

from model import map_text
from page import example, first, unlike
from model.placed import WHOLE, Placed

THREE, FOUR, CLUSTER = (example(it) for it in ("three_hosts.txt", "four_hosts.txt", "cluster.txt"))


# ---- what is expected


def parts_of(text, reweights=(), down=()):
    """The part of each device of what lies below the bucket default, by the weights of each bucket,
    and reweights."""
    read, reweights = map_text.read(text.encode()), dict(reweights)
    buckets = {name: items for _, _, name, _, items in read.buckets}
    numbers, found = {name: number for number, name in read.devices.items()}, {}

    def visit(name, part):
        if name not in buckets:
            found[numbers[name]] = 0 if numbers[name] in down else part * reweights.get(numbers[name], WHOLE)
            return
        whole = sum(weight for _, weight in buckets[name])
        for item, weight in buckets[name]:
            visit(item, part * Fraction(weight, whole))

    visit(b"default", Fraction(1))
    whole = sum(found.values())
    return {device: part / whole for device, part in found.items()}


def rounded(number, places):
    """A fraction as a decimal number, rounded half up."""
    scale = 10**places
    return f"{(2 * Fraction(number) * scale + 1) // 2 / scale:.{places}f}"


def percent(copies, expected):
    return f"{rounded(100 * copies / expected, 1)} %" if expected else "none expected" if copies else "–"


class Change:
    """What differs between two placements of a pool."""

    def __init__(self, before, after, size, erasure=False):
        self.before, self.after, self.size = before, after, size
        self.moves = before.moves(after)
        others = lambda old, new: len({it for it in new if it is not None} - set(old))
        places = lambda old, new: sum(it is not None and (at >= len(old) or old[at] != it) for at, it in enumerate(new))
        self.anew = sum((places if erasure else others)(old, new) for _, old, new in self.moves)
        lacks = [size - len({it for it in up if it is not None}) for up in after.up]
        self.short, self.missing = sum(it > 0 for it in lacks), sum(lacks)

    def stopped(self, least):
        """Of the groups with fewer copies than so many: their numbers, by how many are left."""
        left = [len({it for it in up if it is not None}) for up in self.after.up]
        return {
            copies: [group for group, it in enumerate(left) if it == copies]
            for copies in range(least)
            if copies in left
        }


def fullest(changes, parts):
    """The percent of the device that is fullest afterwards."""
    copies = {device: sum(it.after.usage()[device][0] for it in changes) for device in parts}
    whole = sum(copies.values())
    return percent(*max(((copies[it], parts[it] * whole) for it in parts if parts[it]), key=lambda it: it[0] / it[1]))


def wanted_figures(changes, parts):
    sums = {
        "short": sum(it.short for it in changes),
        "moved": sum(len(it.moves) for it in changes),
        "anew": sum(it.anew for it in changes),
    }
    return {**{key: f"{it:,}" for key, it in sums.items()}, "fullest": fullest(changes, parts)}


def wanted_rows(change, parts_before, parts_after):
    """Of each device the figures of the table."""
    old, new, found = change.before.usage(), change.after.usage(), {}
    whole = [sum(it[0] for it in usage.values()) for usage in (old, new)]
    for device in old:
        had, has = old[device][0], new[device][0]
        sign = f"+{has - had}" if has > had else f"−{had - has}" if had > has else "0"
        found[device] = [
            str(had),
            str(has),
            sign,
            percent(had, parts_before[device] * whole[0]),
            percent(has, parts_after[device] * whole[1]),
        ]
    return found


def of_three(reweights=(), down=(), **more):
    return Placed(THREE, pool=1, size=2, pg_num=16, reweights=dict(reweights), down=down, **more)


# ---- drains and failures


def figures_of_devices(page, table="usages"):
    page.by("device", table)
    return {it: row[2:] for it, row in page.rows(f"#{table} tr[data-device]").items()}


def no_copy_is_left(page, tenant, summary):
    page.faults()
    for it in page.copies:
        page.browser.until(
            lambda: page.ask("GET", f"/t/{it}") == (404, {"error": "no_tenant"}), f"the copy {it} is left"
        )
    return first(None if page.copies else "there was no copy", unlike(page.summary(tenant), summary, "the tenant is"))


def a_drain_of_a_host_is_answered_first(page):
    """Two clicks from its view: the sentence, the large numbers, then what each place has."""
    tenant = page.planned()
    summary, usage = page.summary(tenant), page.ask("GET", f"/t/{tenant}/pools/1/usage")
    page.browser.tab("Drain")
    page.browser.run("window.clicks = 0")
    page.browser.named("label.host", "host0").click()
    page.browser.click("#drain")
    page.browser.one("#answer")
    clicks = page.clicks()
    before, after = of_three(), of_three({0: 0, 1: 0})
    change, parts = Change(before, after, 2), [parts_of(THREE), parts_of(THREE, {0: 0, 1: 0})]
    tops = page.browser.run(
        "return ['#verdict', '#answer', '#usages', '#which'].map((it) =>"
        " document.querySelector(it).getBoundingClientRect().top)"
    )
    folded, lists = page.browser.run("return !document.getElementById('which').open"), {
        *before.impact(0),
        *before.impact(1),
    }
    page.browser.until(
        lambda: page.browser.text("#proved").startswith(
            f"Proved: no group moves but the {len(lists)} of the impact lists"
        ),
        "what is proved isn't said",
    )
    hosts = {it: row[2:5] for it, row in page.rows("#usages tr[data-place]").items()}
    sums = {
        f"host{it}": [str(sum(of.usage()[device][0] for device in (2 * it, 2 * it + 1))) for of in (before, after)]
        for it in range(3)
    }
    return first(
        unlike(clicks, 2, "clicks:"),
        unlike(page.browser.text("#verdict"), f"Yes: {len(change.moves)} groups move, and every copy has a device."),
        unlike(page.figures(), wanted_figures([change], parts[1])),
        unlike(tops, sorted(tops), "the order is"),
        unlike(folded, True, "the groups are folded:"),
        unlike({it: row[:2] for it, row in hosts.items()}, sums, "sums of hosts:"),
        unlike(figures_of_devices(page), wanted_rows(change, *parts)),
        unlike(page.ask("GET", f"/t/{tenant}/pools/1/usage"), usage),
        no_copy_is_left(page, tenant, summary),
    )


def a_rack_without_room_is_red(page):
    """Of four hosts in two racks one rack is drained: each group of size 3 lacks a copy."""
    tenant = page.imported(CLUSTER)
    page.pool(pg_num=64)
    page.drained("rack0")
    placed = lambda reweights: Placed(CLUSTER, pool=1, size=3, pg_num=64, reweights=reweights)
    devices = [it for it in range(12) if it < 6]
    change = Change(placed({}), placed(dict.fromkeys(devices, 0)), 3)
    red = page.browser.run("return getComputedStyle(document.querySelector('[data-figure=short] dd')).color")
    badges = page.browser.run("return [...document.querySelectorAll('#usages .badge.out')].map((it) => it.textContent)")
    return first(
        unlike(
            page.browser.text("#verdict"),
            f"No: {change.missing} copies of pool photos have no device; {len(change.moves)} groups move.",
        ),
        unlike(page.figures(), wanted_figures([change], parts_of(CLUSTER, dict.fromkeys(devices, 0)))),
        (
            None
            if change.missing > 0
            and red
            != page.browser.run("return getComputedStyle(document.querySelector('[data-figure=moved] dd')).color")
            else f"the number is {red}"
        ),
        unlike(badges, ["drained"] * 2),
        unlike(page.summary(tenant)["epoch"], 2),
    )


def ids(pool, groups):
    """Groups by their ids, six at most."""
    rest = f" and {len(groups) - 6} more" if len(groups) > 6 else ""
    return ", ".join(f"{pool}.{it:x}" for it in groups[:6]) + rest


def a_failure_says_what_stops_at_once(page):
    """Groups below min_size while a host is down, then what its going out moves."""
    page.planned()
    page.browser.tab("Pools")
    page.pool("pairs", size=2, min_size=2, pg_num=8)
    page.drained("host1", way="fail")
    pools = [(1, 16, 1), (2, 8, 2)]
    placed = lambda pool, groups, **more: Placed(THREE, pool=pool, size=2, pg_num=groups, **more)
    down = [Change(placed(pool, groups), placed(pool, groups, down={2, 3}), 2) for pool, groups, _ in pools]
    out = [
        Change(placed(pool, groups), placed(pool, groups, down={2, 3}, reweights={2: 0, 3: 0}), 2)
        for pool, groups, _ in pools
    ]
    left = [(it, number, least) for it, (number, _, least) in zip(down, pools)]
    stops = [(number, least, copies, own) for it, number, least in left for copies, own in it.stopped(least).items()]
    stopped, short = sum(len(own) for *_, own in stops), sum(it.short for it in down)
    rows, stop_rows = (
        [
            [cell.text for cell in row.find_elements("css selector", "th, td")]
            for row in page.browser.all(f"#{table} tbody tr")
        ]
        for table in ("by-pool", "stops")
    )
    return first(
        unlike(page.figures("at-once"), {"stopped": str(stopped), "degraded": str(short)}),
        unlike(page.figures(), wanted_figures(out, parts_of(THREE, down={2, 3}))),
        (
            None
            if page.browser.text("#verdict").startswith(
                f"No: {stopped} groups of pool pairs have 1 copy left while the devices are down, below min_size 2, so"
                " their I/O stops; "
            )
            else page.browser.text("#verdict")
        ),
        unlike([it[:3] for it in stops], [(2, 2, 1)], "what stops:"),
        unlike(
            stop_rows,
            [
                ["pairs", "2", str(least), str(copies), str(len(own)), ids(number, own)]
                for number, least, copies, own in stops
            ],
            "the groups that stop:",
        ),
        unlike(
            rows,
            [
                [name, str(it.short), str(it.missing), str(len(it.moves)), str(it.anew)]
                for name, it in zip(("photos", "pairs"), out)
            ],
        ),
        None if stopped and stopped != short else "all that is short stops",
    )


def which_groups_move(page):
    """Folded until they are wanted: those that move with both lists, one by its id that stays,
    those that a device leaves; and as CSV."""
    page.planned()
    page.drained("host0")
    page.browser.click("#which summary")
    page.browser.has("#groups tbody tr")
    before, after = of_three(), of_three({0: 0, 1: 0})
    names = lambda devices: " ".join(f"osd.{it}" for it in devices)
    wanted = {group: [f"1.{group:x}", names(old), names(new)] for group, old, new in before.moves(after)}
    found = page.rows("#groups tbody tr")
    marks = page.browser.run(
        "return ['del', 'ins'].map((it) => [...document.querySelectorAll(`#groups tr[data-group='15'] ${it}`)].map((at)"
        " => at.textContent))"
    )
    stays = next(it for it in range(16) if it not in wanted)
    seen = []
    for word in (f"1.{stays:x}", "osd.1", "1.99"):
        page.browser.fill("#group-search", word)
        page.browser.until(
            lambda: len(page.browser.all("#groups tbody tr"))
            == {"osd.1": sum(1 in old for _, old, _ in before.moves(after)), "1.99": 0}.get(word, 1),
            f"groups of {word}",
        )
        seen.append(page.rows("#groups tbody tr"))
    text = page.saved("#groups-csv").splitlines()
    field = lambda devices: " ".join(map(str, devices))
    return first(
        unlike(found, wanted),
        unlike(
            marks,
            [
                [f"osd.{it}" for it in one.up[15] if it not in other.up[15]]
                for one, other in ((before, after), (after, before))
            ],
        ),
        unlike(seen[0], {stays: [f"1.{stays:x}", names(before.up[stays]), f"{names(before.up[stays])} stays"]}),
        unlike(sorted(seen[1]), [group for group, old, _ in before.moves(after) if 1 in old]),
        unlike(
            text,
            [
                "pool,pool_name,group,id,old,new,old_names,new_names",
                *(
                    f"1,photos,{group},1.{group:x},{field(old)},{field(new)},{names(old)},{names(new)}"
                    for group, old, new in before.moves(after)
                ),
            ],
        ),
    )


def a_drain_is_saved_as_csv(page):
    page.planned()
    page.drained("host0")
    change, parts = Change(of_three(), of_three({0: 0, 1: 0}), 2), [parts_of(THREE), parts_of(THREE, {0: 0, 1: 0})]
    rows = page.saved("#usages-csv").splitlines()
    wanted = []
    for device, (had, has, _, was, will) in wanted_rows(change, *parts).items():
        wanted.append(
            f"{device},osd.{device},host{device // 2},1.00000,65536,1,{had},{has},{rounded(parts[0][device] * 32, 2)},"
            f"{rounded(parts[1][device] * 32, 2)},{was.removesuffix(' %')},{will.removesuffix(' %').replace('–', '')}"
        )
    return unlike(
        rows,
        [
            (
                "device,name,host,weight,reweight,up,copies_before,copies_after,expected_before,expected_after,"
                "percent_before,percent_after"
            ),
            *wanted,
        ],
    )


def a_drain_beside_states_and_exceptions(page):
    """Two devices of different hosts are drained of a cluster that has reweights and exceptions
    already; pairs of a device that the newest map lacks have no effect."""
    tenant = page.imported(FOUR, "four_hosts.txt")
    page.pool(size=2, pg_num=16)
    pairs = [(9, 4, 3), (11, 2, 6), (9, 3, 2), (1, 5, 1), (15, 0, 7), (13, 3, 0), (13, 0, 1)]
    said = page.ask(
        "POST",
        f"/t/{tenant}/pools/exceptions",
        {
            "request": "x",
            "id": 1,
            "exceptions": [{"group": group, "from": old, "to": new} for group, old, new in pairs],
        },
    )
    page.browser.tab("Map")
    page.browser.drop(THREE, "three_hosts.txt")
    page.kept(2)
    page.browser.tab("Map")
    page.drop("id,reweight,up\n4,32768,1\n", "states.csv", "1 devices")
    summary = page.summary(tenant)
    page.drained("osd.0", "osd.3")
    before, after = (of_three({4: 32768} | it, pairs=pairs) for it in ({}, {0: 0, 3: 0}))
    change, parts = Change(before, after, 2), [parts_of(THREE, {4: 32768} | it) for it in ({}, {0: 0, 3: 0})]
    return first(
        unlike(said[0], 200),
        None if before.up != of_three({4: 32768}).up else "the pairs change nothing",
        unlike(page.figures(), wanted_figures([change], parts[1])),
        unlike(figures_of_devices(page), wanted_rows(change, *parts)),
        no_copy_is_left(page, tenant, summary),
    )


def a_result_goes_with_the_choice(page):
    """What is shown of a host isn't left beside the choice of another."""
    page.planned()
    page.drained("host0")
    page.browser.fill("#drain-search", "host1")
    page.browser.named(".picker label", "host1").click()
    page.browser.until(lambda: not page.browser.all("#answer, #usages"), "the result of another choice is left")
    return None


def a_copy_that_lies_elsewhere_is_not_drained(page):
    """A device's state was set elsewhere, which no request lists: the page says so."""
    tenant = page.planned()
    page.ask("POST", f"/t/{tenant}/devices", {"request": "d", "devices": [{"id": 2, "reweight": 0}]})
    summary = page.summary(tenant)
    page.browser.tab("Map")
    note = page.browser.text("#unknown")
    page.browser.tab("Drain")
    page.browser.named("label.host", "host0").click()
    page.browser.click("#drain")
    said = page.browser.text("#result .fault")
    return first(
        None if "changed by another browser" in note else note,
        None if said.startswith("The copy doesn't lie as the cluster does (pool photos)") else said,
        unlike(len(page.browser.all("#usages")), 0),
        no_copy_is_left(page, tenant, summary),
    )


def a_copy_that_was_left_is_found(page):
    """Another browser was closed amid a drain: its copy is found by its name, and dropped."""
    tenant = page.planned()
    left = f"{tenant}.copy-000000000002"
    page.ask("PUT", f"/t/{left}")
    page.browser.tab("Map")
    # what comes of the picture moves what is below it
    page.settled()
    page.browser.click("#copies summary")
    page.browser.click("#look")
    page.browser.until(
        lambda: [it.text for it in page.browser.all("#copies li code")] == [left], "the copy isn't found"
    )
    page.browser.named("#copies button", "Drop it").click()
    page.browser.until(lambda: "is dropped" in page.browser.text("#copies"), "it isn't dropped")
    return unlike(page.ask("GET", f"/t/{left}")[0], 404)


# ---- usage


def usage_is_shown_by_host_and_device(page):
    page.planned()
    page.browser.tab("Usage")
    page.browser.one("#places tbody tr")
    placed, parts = of_three(), parts_of(THREE)
    usage, hosts = placed.usage(), {it: row[2:] for it, row in page.rows("#places tr[data-place]").items()}
    row = lambda copies, expected: [str(copies), rounded(expected, 2), percent(copies, expected)]
    page.browser.named("button.open", "host1").click()
    inside = {it: cells[2:] for it, cells in page.rows("#places tr.inside").items()}
    wanted = {it: row(usage[it][0], parts[it] * 32) for it in usage}
    page.by("device")
    found = {it: cells[2:] for it, cells in page.rows("#places tr[data-device]").items()}
    most, least = (end(usage, key=lambda it: (usage[it][0] / parts[it], 0)) for end in (max, min))
    figures = page.figures()
    text = page.saved("#places-csv").splitlines()
    lines = [
        f"1,photos,{it},osd.{it},host{it // 2},1.00000,65536,1,{usage[it][0]},{wanted[it][1]},"
        f"{wanted[it][2].removesuffix(' %')},{placed.entries()[it][0]},{usage[it][1]},{usage[it][2]}"
        for it in usage
    ]
    return first(
        unlike(hosts, {f"host{it}": row(usage[2 * it][0] + usage[2 * it + 1][0], Fraction(32, 3)) for it in range(3)}),
        unlike(inside, {it: wanted[it] for it in (2, 3)}),
        unlike(found, wanted),
        unlike(figures, {"copies": "32", "most": wanted[most][2], "least": wanted[least][2]}),
        unlike(
            text,
            [
                "pool,pool_name,device,name,host,weight,reweight,up,copies,expected,percent,groups,primaries,permille",
                *lines,
            ],
        ),
    )


def shares_follow_weights_and_reweights(page):
    """Device 0 weighs twice as much as the others, and device 5 has a half of its share: percents,
    and the order by them."""
    text = THREE.replace("item osd.0 weight 1.0", "item osd.0 weight 2.0").replace(
        "item host0 weight 2.0", "item host0 weight 3.0"
    )
    page.imported(text)
    page.drop("id,reweight,up\n5,32768,1\n", "states.csv", "1 devices")
    page.pool(size=2, pg_num=64)
    page.browser.tab("Usage")
    page.by("device")
    usage, parts = Placed(text, pool=1, size=2, pg_num=64, reweights={5: 32768}).usage(), parts_of(text, {5: 32768})
    whole = sum(it[0] for it in usage.values())
    found = {it: cells[2:] for it, cells in page.rows("#places tr[data-device]").items()}
    page.browser.click("#places-order option[value='most']")
    order = list(page.rows("#places tr[data-device]"))
    return first(
        unlike(
            found,
            {
                it: [str(usage[it][0]), rounded(parts[it] * whole, 2), percent(usage[it][0], parts[it] * whole)]
                for it in usage
            },
        ),
        unlike(order, sorted(usage, key=lambda it: -usage[it][0] / parts[it])),
        unlike(sum(parts.values()), 1),
    )


def all_pools_are_one_view(page):
    """Two pools are added, or one of them is looked at alone."""
    page.planned()
    page.pool("others", size=3, pg_num=8)
    page.browser.tab("Usage")
    page.by("device")
    one, other = of_three().usage(), Placed(THREE, pool=2, size=3, pg_num=8).usage()
    copies = lambda: {it: int(row[2].replace(",", "")) for it, row in page.rows("#places tr[data-device]").items()}
    both = copies()
    page.browser.click("#pool option[value='2']")
    page.settled()
    page.by("device")
    return first(
        unlike(both, {it: one[it][0] + other[it][0] for it in one}),
        unlike(copies(), {it: row[0] for it, row in other.items()}),
    )


# ---- maps that are compared


def a_map_is_tried_in_a_copy(page):
    """A map that is dropped is compared with the newest version, and becomes one when asked."""
    tenant = page.planned()
    summary = page.summary(tenant)
    page.browser.drop(FOUR, "four_hosts.txt")
    page.browser.one("#answer")
    old, new = of_three(), Placed(FOUR, pool=1, size=2, pg_num=16)
    change, kept = Change(old, new, 2), page.summary(tenant)
    parts = [{**dict.fromkeys(range(8), 0), **parts_of(THREE)}, parts_of(FOUR)]
    figures, verdict = page.figures(), page.browser.text("#verdict")
    found = figures_of_devices(page)
    usage = {**dict.fromkeys(range(8), (0, 0, 0)), **old.usage()}
    row = lambda it: [
        str(usage[it][0]),
        str(new.usage()[it][0]),
        (lambda by: f"+{by}" if by > 0 else f"−{-by}" if by < 0 else "0")(new.usage()[it][0] - usage[it][0]),
        percent(usage[it][0], parts[0][it] * 32),
        percent(new.usage()[it][0], parts[1][it] * 32),
    ]
    page.kept(2)
    page.browser.one("#places tbody tr")
    return first(
        unlike(kept, summary, "the tenant is"),
        unlike(
            {key: figures[key] for key in ("short", "moved", "anew", "fullest")}, wanted_figures([change], parts[1])
        ),
        None if verdict.startswith(f"Yes: {len(change.moves)} groups move") else verdict,
        unlike(found, {it: row(it) for it in range(8)}),
        unlike(page.summary(tenant)["versions"], 2),
    )


def a_map_that_is_tried_may_be_refused(page):
    page.planned()
    page.browser.drop(FOUR.replace("item osd.7", "item osd.77"), "four_hosts.txt")
    title = page.browser.text(".refused h3")
    line = page.browser.run("return document.querySelector('.refused .here code').textContent.trim()")
    return first(
        None if title.startswith("four_hosts.txt isn't imported: line ") and title.endswith("code M5") else title,
        unlike(line, "item osd.77 weight 1.0"),
    )


def two_versions_are_compared(page):
    page.planned()
    page.browser.drop(FOUR, "four_hosts.txt")
    page.kept(2)
    page.settled()
    old, new = of_three(), Placed(FOUR, pool=1, size=2, pg_num=16)
    moves = old.moves(new)
    gains = {it: sum(it in after and it not in before for _, before, after in moves) for it in range(8)}
    losses = {it: sum(it in before and it not in after for _, before, after in moves) for it in range(8)}
    signed = lambda by: f"+{by}" if by > 0 else f"−{-by}" if by < 0 else "0"
    page.by("host")
    hosts = {it: row[2:] for it, row in page.rows("#places tr[data-place]").items()}
    page.browser.click("#places-order option[value='gain']")
    order = list(page.rows("#places tr[data-place]"))
    page.by("device")
    found = {it: row[2:] for it, row in page.rows("#places tr[data-device]").items()}
    text, parts = page.saved("#places-csv").splitlines(), parts_of(FOUR)
    lines = [
        f"{it},osd.{it},host{it // 2},1.00000,65536,1,{gains[it]},{losses[it]},{rounded(32 * parts[it], 2)}"
        for it in range(8)
        if gains[it] or losses[it]
    ]
    add = lambda of, host: of[2 * host] + of[2 * host + 1]
    net = {f"host{it}": add(gains, it) - add(losses, it) for it in range(4)}
    page.browser.click("#which summary")
    page.browser.has("#groups tbody tr")
    names = lambda devices: " ".join(f"osd.{it}" for it in devices)
    return first(
        unlike(page.figures(), {"moved": str(len(moves)), "anew": str(Change(old, new, 2).anew)}),
        unlike(
            hosts,
            {
                f"host{it}": [str(add(gains, it)), str(add(losses, it)), signed(net[f"host{it}"])]
                for it in range(4)
                if add(gains, it) or add(losses, it)
            },
        ),
        unlike([net[it] for it in order], sorted((net[it] for it in order), reverse=True)),
        unlike(
            found,
            {
                it: [str(gains[it]), str(losses[it]), signed(gains[it] - losses[it])]
                for it in range(8)
                if gains[it] or losses[it]
            },
        ),
        unlike(
            page.rows("#groups tbody tr"),
            {group: [f"1.{group:x}", names(before), names(after)] for group, before, after in moves},
        ),
        unlike(text, ["device,name,host,weight,reweight,up,gained,lost,expected", *lines]),
    )


def empty_places_of_an_erasure_pool(page):
    """Four places on three hosts leave one empty, which a fourth host fills; a device that changes
    its place writes another part."""
    rule = "\nrule coded { id 1 type erasure step take default step chooseleaf indep 0 type host step emit }\n"
    page.imported(THREE + rule, "old.txt")
    page.browser.tab("Pools")
    page.browser.click("#kind option[value='erasure']")
    page.pool("coded", pg_num=16)
    page.browser.drop(FOUR + rule, "new.txt")
    page.browser.one("#answer")
    before, after = (Placed(it + rule, pool=1, size=4, pg_num=16, rule=1, erasure=True) for it in (THREE, FOUR))
    change, names = Change(before, after, 4, erasure=True), lambda devices: " ".join(
        "none" if it is None else f"osd.{it}" for it in devices
    )
    page.browser.click("#which summary")
    page.browser.has("#groups tbody tr")
    short = lambda new: " a copy short" if None in new else ""
    old, new, copies = parts_of(THREE), parts_of(FOUR), sum(it is not None for up in before.up for it in up)
    least = float(copies * sum(part - old.get(it, 0) for it, part in new.items() if part > old.get(it, 0)))
    figures = {**wanted_figures([change], new), "least": f"{least:,.1f}"}
    return first(
        None if any(None in it for it in before.up) else "no place is empty",
        unlike(page.figures(), figures),
        unlike(
            page.rows("#groups tbody tr"),
            {group: [f"1.{group:x}", names(one), names(other) + short(other)] for group, one, other in change.moves},
        ),
    )


# ---- exceptions


def exceptions_are_tried_set_and_taken_back(page):
    """As lines of ceph osd pg-upmap-items; what they change is computed in a copy first."""
    tenant = page.planned()
    page.browser.until(lambda: page.browser.all("main tbody tr a"), "the number of exceptions isn't shown")
    page.browser.click("main tbody tr a")
    page.browser.one("#pairs")
    page.browser.fill("#pairs", "ceph osd pg-upmap-items 1.9 0 1\nceph osd pg-upmap-items 1.4 2 3\n")
    page.browser.click("#try")
    page.browser.one("#answer")
    pairs = [(9, 0, 1), (4, 2, 3)]
    change, parts = Change(of_three(), of_three(pairs=pairs), 2), parts_of(THREE)
    asked = lambda: [
        (it["group"], it["from"], it["to"])
        for it in page.ask("GET", f"/t/{tenant}/pools/1/exceptions")[1]["exceptions"]
    ]
    tried, figures = asked(), page.figures()
    page.browser.click("#set")
    page.browser.until(lambda: "Pool photos has 2 pairs" in page.browser.text("#said"), "they aren't set")
    now, text = asked(), page.browser.one("#pairs").get_property("value")
    page.browser.click("#take-back")
    page.browser.until(lambda: "Pool photos has 0 pairs" in page.browser.text("#said"), "they aren't taken back")
    taken = asked()
    faults = []
    for line in ("ceph osd pg-upmap-items 1.9 0", "ceph osd pg-upmap-items 2.9 0 1", "1.9 0 77"):
        page.browser.fill("#pairs", line)
        page.browser.click("#set")
        faults.append(page.browser.text("#pairs-said .fault"))
    return first(
        unlike(tried, [], "before they are set:"),
        unlike(figures, wanted_figures([change], parts)),
        unlike(now, pairs),
        unlike(text, "ceph osd pg-upmap-items 1.9 0 1\nceph osd pg-upmap-items 1.4 2 3"),
        unlike(taken, [], "after taking them back:"),
        None if all(it.startswith("Line 1: ") for it in faults) else f"the faults are {faults}",
    )


def cases():
    return (
        a_drain_of_a_host_is_answered_first,
        a_rack_without_room_is_red,
        a_failure_says_what_stops_at_once,
        which_groups_move,
        a_drain_is_saved_as_csv,
        a_drain_beside_states_and_exceptions,
        a_result_goes_with_the_choice,
        a_copy_that_lies_elsewhere_is_not_drained,
        a_copy_that_was_left_is_found,
        usage_is_shown_by_host_and_device,
        shares_follow_weights_and_reweights,
        all_pools_are_one_view,
        a_map_is_tried_in_a_copy,
        a_map_that_is_tried_may_be_refused,
        two_versions_are_compared,
        empty_places_of_an_erasure_pool,
        exceptions_are_tried_set_and_taken_back,
    )
