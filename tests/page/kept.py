"""Each number that the page shows is the one that crushplan prints: the kept clusters of
tests/crushplan, of which crushplan's answers are compared with Ceph's, and the kept steps of real
clusters (tests/cluster/data) are dropped on the page, and what it shows of drains, failures, usage,
another map and upmap items is compared with crushplan's JSON."""
import json
import os
import subprocess
from collections import defaultdict

from page import TOP, first, unlike

CLUSTERS = TOP / "tests" / "crushplan" / "clusters"
STEPS = TOP / "tests" / "cluster" / "data"
EACH_DRAIN = 12  # of drains in turn
FILES = ("crush.json", "osd.json", "df.json", "osd-df.json", "pgs.json")


def counted(number):
    """A whole number as the page writes it."""
    return f"{number:,}"


def signed(number):
    return f"+{number:,}" if number > 0 else f"−{-number:,}" if number < 0 else "0"


def share(number):
    return f"{number:.2f}"


def sized(number):
    """Bytes as crushplan prints them."""
    unit = 0
    while abs(number) >= 1024 and unit < 6:
        number, unit = number / 1024, unit + 1
    return f"{number:.{1 if unit else 0}f} {('B', 'KiB', 'MiB', 'GiB', 'TiB', 'PiB', 'EiB')[unit]}"


def part(used):
    """A part of 1 in percent, as it is shown."""
    return "–" if used is None else f"{(round(used * 10000) + 5) // 10 / 10:.1f}%"


def in_bytes(row):
    """The figures of bytes and room of a row of usage, where the files say them."""
    return ([sized(row["bytes"])] if row["bytes"] is not None else []) + (
        [part(row["used"])] if row["used"] is not None else []
    )


def percent(of, copies):
    return f"{of:.1f} %" if of is not None else "none expected" if copies else "–"


def plan(program, folder, command, *words):
    """What crushplan answers: its JSON."""
    words = ["python3", str(TOP / "tools" / "crushplan"), command, str(folder), *map(str, words), "--json"]
    ran = subprocess.run(
        words,
        stdout=subprocess.PIPE,
        stderr=subprocess.PIPE,
        text=True,
        env={**os.environ, "CRUSHCALC": str(program)},
        timeout=300,
    )
    if not ran.stdout:
        raise OSError(f"crushplan {command} says {ran.stderr[-300:]!r}")
    return json.loads(ran.stdout)


def dropped(page, folder, names=FILES):
    """A new tenant of those of the cluster's files that are there; its name."""
    tenant = page.fresh()
    files = [((folder / it).read_text(), it) for it in names if (folder / it).exists()]
    page.browser.drop(*files[0], *files[1:])
    page.browser.until(lambda: "The cluster is there" in page.browser.text("#said"), "the dumps aren't taken")
    page.settled()
    return tenant


def shown_by(page, level, table):
    """The rows of a table of places by a level: of each name the texts of its figures."""
    page.by(level, table)
    page.browser.until(lambda: all_rows(page, table), "not all rows are shown")
    script = (
        "return [...document.querySelectorAll(arguments[0])].map((row) =>"
        " [row.querySelector('th').firstChild.textContent, [...row.querySelectorAll('td.number')].map((it) =>"
        " it.textContent)])"
    )
    return dict(page.browser.run(script, f"#{table} tbody tr"))


def all_rows(page, table):
    """Asks for the rows that aren't shown yet."""
    return page.browser.run(
        (
            "const more = [...document.querySelectorAll(`#${arguments[0]} .cut button`)]; more.forEach((it) =>"
            " it.click()); return !more.length"
        ),
        table,
    )


def field(items):
    """An up list in a CSV of groups."""
    return " ".join("-" if it is None else str(it) for it in items)


def groups_shown(page):
    """Of each group that moves, by its id, both lists, as the CSV of groups has them."""
    page.browser.click("#which summary")
    page.browser.one("#groups-csv")
    return {it.split(",")[3]: it.split(",")[4:6] for it in page.saved("#groups-csv").splitlines()[1:]}


# ---- usage


def same_usage(page, program, folder):
    """The large numbers, the tables by device, host and rack, and the CSV."""
    page.browser.tab("Usage")
    page.browser.one("#answer")
    page.settled()
    whys, said = [], plan(program, folder, "usage")
    copies, wanted = sum(it["copies"] for it in said["pools"]), sum(it["wanted"] for it in said["pools"])
    ends = {shown: said[key]["percent"] for shown, key in (("most", "greatest"), ("least", "least")) if said[key]}
    whys.append(
        unlike(
            page.figures(),
            {
                "copies": counted(copies),
                **({"missing": counted(wanted - copies)} if wanted > copies else {}),
                **{key: percent(it, 1) for key, it in ends.items()},
            },
            "usage:",
        )
    )
    for level in ("device", "host", "rack"):
        rows = plan(program, folder, "usage", *(["--by", level] if level != "device" else []))["rows"]
        if all(it["name"] == "-" for it in rows):
            there = page.browser.all(f"#places-level option[value='{level}']")
            whys.append(f"places are shown by {level}, of which there is none" if there else None)
            continue
        here = shown_by(page, level, "places")
        whys.append(
            unlike(
                here,
                {
                    it["name"]: [
                        counted(it["copies"]),
                        share(it["share"]),
                        percent(it["percent"], it["copies"]),
                        *in_bytes(it),
                    ]
                    for it in rows
                    if it["name"] != "-"
                },
                f"usage by {level}:",
            )
        )
    found = defaultdict(lambda: [0, 0])
    for _, _, device, *_, own, _, _, _, primaries, _ in (
        it.split(",") for it in page.saved("#places-csv").splitlines()[1:]
    ):
        one = found[int(device)]
        one[:] = one[0] + int(own), one[1] + int(primaries)
    whys.append(
        unlike(dict(found), {it["device"]: [it["copies"], it["primaries"]] for it in said["rows"]}, "the CSV of usage:")
    )
    return first(*whys)


# ---- drains and failures


def same_change(page, what, said):
    """The figures, the pools, the devices and hosts, and the groups of an answer."""
    row = lambda it: [
        counted(it["copies_before"]),
        counted(it["copies_after"]),
        signed(it["copies_after"] - it["copies_before"]),
        percent(it["percent_after"], it["copies_after"]),
        *([sized(it["bytes_after"])] if it["bytes_after"] is not None else []),
    ]
    here = {name: [*own[:3], *own[4:6]] for name, own in shown_by(page, "device", "usages").items()}
    figures = {
        "short": counted(said["short"]["groups"]),
        "moved": counted(said["moved"]),
        "anew": counted(said["copies"]),
    }
    fullest = said["fullest"] or {"used_after": None}
    if said["fullest"]:
        figures["fullest"] = percent(fullest["percent_after"], 1)
    found = page.figures()
    room, used = found.pop("room", None), fullest["used_after"]
    pools = [
        [cell.text for cell in it.find_elements("css selector", "th, td")]
        for it in page.browser.all("#by-pool tbody tr")
    ]
    anew = page.browser.text("[data-figure='anew'] dt")
    lines = [it.split(",") for it in page.saved("#usages-csv").splitlines()][1:]
    csv = {
        int(it[0]): (
            it[1],
            it[2],
            *map(int, it[6:8]),
            *map(float, it[8:10]),
            *(float(of) if of else None for of in it[12:]),
        )
        for it in lines
    }
    rooms = (
        ("bytes_before", "bytes_after", "used_before", "used_after")
        if any(it["bytes_after"] is not None for it in said["usage"])
        else ()
    )
    wanted = {
        it["device"]: (
            it["name"],
            it["host"],
            it["copies_before"],
            it["copies_after"],
            it["share_before"],
            it["share_after"],
            *(it[of] for of in rooms),
        )
        for it in said["usage"]
    }
    by_pool = [
        [it["name"], *(counted(it[key]) for key in ("short_groups", "missing_copies", "moved", "copies"))]
        for it in said["pools"]
    ]
    return first(
        unlike(found, figures, f"{what}:"),
        None if used is None or abs(float(room.rstrip("%")) - 100 * used) <= 0.06 else f"{what}: {room}, not {used}",
        unlike(pools, by_pool if len(by_pool) > 1 else [], f"{what}, pools:"),
        (
            None
            if said["bytes"] is None or sized(said["bytes"]) in anew
            else f"{what}: {anew}, not {sized(said['bytes'])}"
        ),
        unlike(here, {it["name"]: row(it) for it in said["usage"]}, f"{what}, devices:"),
        unlike(csv, wanted, f"{what}, the CSV:"),
        same_hosts(page, what, said),
        same_groups(page, what, said),
    )


def same_hosts(page, what, said):
    """Sums of hosts."""
    wanted = defaultdict(lambda: [0, 0])
    for it in said["usage"]:
        own = wanted[it["host"]]
        own[0], own[1] = own[0] + it["copies_before"], own[1] + it["copies_after"]
    here = {name: own[:3] for name, own in shown_by(page, "host", "usages").items()}
    return unlike(
        here,
        {name: [counted(had), counted(has), signed(has - had)] for name, (had, has) in wanted.items()},
        f"{what}, hosts:",
    )


def same_groups(page, what, said):
    return unlike(
        groups_shown(page),
        {it["id"]: [field(it["before"]), field(it["after"])] for it in said["groups"]},
        f"{what}, groups:",
    )


def answered(page, names, way):
    """The answer for these names, with nothing ticked before."""
    page.browser.tab("Map")
    page.drained(*names, way=way)
    page.browser.until(lambda: page.browser.text("#proved").startswith("Proved"), "what is proved isn't said")


def verdict_of(said):
    """The answer as the page says it."""
    return f"{said['answer'][0].upper()}{said['answer'][1:]}"


def same_drain(page, program, folder, names):
    said = plan(program, folder, "drain", *names, "--groups")
    answered(page, names, "drain")
    what = f"drain {' '.join(names)}"
    return first(
        unlike(page.browser.text("#verdict"), verdict_of(said), f"{what}:"),
        unlike(
            page.browser.text("#proved").split(" but the ")[1].split(" of ")[0],
            counted(said["can_move"]),
            f"{what}, proved:",
        ),
        same_change(page, what, said),
    )


def same_failure(page, program, folder, names):
    said = plan(program, folder, "fail", *names, "--groups")
    answered(page, names, "fail")
    what = f"fail {' '.join(names)}"
    return first(
        unlike(
            page.figures("at-once"),
            {"stopped": counted(said["down"]["below_min_size"]), "degraded": counted(said["down"]["short"])},
            f"{what}, at once:",
        ),
        unlike(page.browser.text("#verdict"), verdict_of(said), f"{what}:"),
        same_change(page, what, said["out"]),
    )


# ---- another map, upmap items


def same_compare(page, program, folder, name):
    """Another map: the figures, the verdict, what is used then, hosts, pools and groups."""
    said = plan(program, folder, "compare", folder / name, "--groups")
    page.browser.tab("Map")
    page.browser.drop((folder / name).read_text(), name)
    page.browser.one("#answer")
    page.settled()
    figures, what, verdict = page.figures(), f"compare {name}", page.browser.text("#verdict")
    rows = lambda table: [
        [cell.text for cell in it.find_elements("css selector", "th, td")]
        for it in page.browser.all(f"#{table} tbody tr")
    ]
    hosts = [[it["name"], counted(it["lost"]), counted(it["gained"])] for it in said["hosts"]]
    pools = [[it["name"], counted(it["moved"]), counted(it["copies"])] for it in said["pools"]]
    least = [float(it.replace(",", "")) for it in (figures.get("least", "nan"), *(own[5] for own in rows("by-pool")))]
    wanted = [said["least"], *(it["least"] for it in said["pools"] if len(pools) > 1)]
    return first(
        unlike(
            {key: figures[key] for key in ("moved", "anew")},
            {"moved": counted(said["moved"]), "anew": counted(said["copies"])},
            f"{what}:",
        ),
        verdict_fault(what, verdict, said),
        (
            None
            if len(least) == len(wanted) and all(abs(one - other) <= 0.0501 for one, other in zip(least, wanted))
            else f"{what}, the least: {least}, not {wanted}"
        ),
        room_fault(what, figures, said["fullest"]),
        (
            None
            if said["bytes"] is None or sized(said["bytes"]) in page.browser.text("[data-figure='anew'] dt")
            else f"{what}: the bytes aren't {sized(said['bytes'])}"
        ),
        unlike([[it[0], *it[3:5]] for it in rows("by-pool")], pools if len(pools) > 1 else [], f"{what}, pools:"),
        unlike(rows("by-host"), hosts, f"{what}, hosts:"),
        same_groups(page, what, said),
    )


def verdict_fault(what, verdict, said):
    """Why the page's verdict on another map isn't crushplan's, or None."""
    missing, full = sum(it["missing_copies"] for it in said["pools"]), said["past_backfillfull"]
    head = "No" if missing or full else "Unknown" if "not all can be computed" in said["answer"] else "Yes"
    words = (
        ([counted(missing)] if missing else [])
        + ([f"osd.{full[0]} would be ", "past the backfill-full ratio"] if full else [])
        + ([f"{counted(len(said['past_nearfull']))} device"] if said["past_nearfull"] and head == "Yes" else [])
    )
    return (
        None
        if verdict.startswith(head) and all(it in verdict for it in words)
        else f"{what}: {verdict!r} is no {head} with {words}; crushplan says {said['answer']!r}"
    )


def room_fault(what, figures, fullest):
    """Why what is used of the fullest device isn't what crushplan says, or None."""
    if fullest is None:
        return f"{what}: room {figures['room']}" if "room" in figures else None
    return (
        None
        if "room" in figures and abs(float(figures["room"].rstrip("%")) - 100 * fullest["used_after"]) <= 0.06
        else f"{what}: room {figures.get('room')}, not {fullest}"
    )


def same_upmap(page, program, folder):
    """The lines of the cluster's file of commands, those of each pool tried beside its others."""
    said, lines = plan(program, folder, "upmap", folder / "commands"), (folder / "commands").read_text().splitlines()
    pools = sorted({int(it.split()[3].split(".")[0]) for it in lines})
    return first(
        *(same_pairs(page, said, pool, [it for it in lines if it.split()[3].startswith(f"{pool}.")]) for pool in pools),
        None if said["moved"] else "upmap: no group moves",
    )


def same_pairs(page, said, pool, lines):
    page.browser.tab("Pools")
    page.browser.until(
        lambda: page.browser.all(f"main tbody tr[data-pool='{pool}'] a"), "the number of exceptions isn't shown"
    )
    page.browser.click(f"main tbody tr[data-pool='{pool}'] a")
    own = page.browser.one("#pairs").get_property("value")
    page.browser.run("document.getElementById('pairs').value = arguments[0]", "\n".join([own, *lines]))
    page.browser.click("#try")
    page.browser.one("#answer")
    page.settled()
    groups, what = [it for it in said["groups"] if it["pool"] == pool], f"upmap of pool {pool}"
    moved = {it["id"]: it for it in groups if it["before"] != it["after"]}
    found, figures, verdict, broken = (
        groups_shown(page),
        page.figures(),
        page.browser.text("#verdict"),
        sum(it["breaks"] is not None for it in groups),
    )
    return first(
        (
            None
            if (
                f"{broken} group{'s' if broken > 1 else ''} would break the rule" in verdict
                if broken
                else "break the rule" not in verdict
            )
            else f"{what}: {verdict}, and {broken} groups break it"
        ),
        unlike(
            (figures["moved"], figures["anew"]),
            (counted(len(moved)), counted(sum(it["copies"] for it in groups))),
            f"{what}:",
        ),
        unlike(
            found, {id_: [field(it["before"]), field(it["after"])] for id_, it in moved.items()}, f"{what}, groups:"
        ),
    )


def compared(folder):
    def case(page):
        answers = json.loads((folder / "answers.json").read_text())
        dropped(page, folder)
        program = page.program
        return first(
            same_usage(page, program, folder),
            *(same_drain(page, program, folder, it["names"]) for it in answers["drains"]),
            *(same_failure(page, program, folder, it["names"]) for it in answers["drains"]),
            same_upmap(page, program, folder),
            *(same_compare(page, program, folder, it) for it in answers["maps"]),
        )

    case.__name__ = f"crushplan_says_the_same_of_{folder.name.replace('-', '_')}"
    return case


def stepped(folder):
    """A step of a real cluster, as its words are; of drains in turn some."""

    def case(page):
        record = json.loads((folder / "step.json").read_text())
        command, *words = record["words"]
        dropped(page, folder)
        program, names = page.program, [it for it in words if it != "--groups"]
        files = [it.removeprefix("FOLDER/") for it in names]
        drains = [it["names"] for it in record.get("drains", ())]
        answer = {
            "drain": lambda: same_drain(page, program, folder, names),
            "fail": lambda: same_failure(page, program, folder, names),
            "upmap": lambda: same_upmap(page, program, folder),
            "compare": lambda: same_compare(page, program, folder, files[0]),
            "check": lambda: first(*(same_drain(page, program, folder, it) for it in drains[::-EACH_DRAIN])),
            "usage": lambda: None,
        }  # fmt: skip
        return first(lying_fault(page, program, folder), same_usage(page, program, folder), answer[command]())

    case.__name__ = f"crushplan_says_the_same_of_a_real_cluster_{folder.name.replace('-', '_')}"
    return case


def lying_fault(page, program, folder):
    """Why the page doesn't say of how groups lie what check says, or None."""
    check, said = plan(program, folder, "check")["answer"], page.browser.text("#said")
    lying = "as computed" in check and check.rstrip(".").split("; ")[-1]
    return None if not lying or lying in said else f"{lying!r} isn't in {said!r}"


def cases():
    kept = (compared(it) for it in sorted(CLUSTERS.iterdir()) if (it / "answers.json").exists())
    return (*kept, *(stepped(it) for it in sorted(STEPS.iterdir())))
