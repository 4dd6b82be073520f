"""Another map of a cluster of today, as a dump or as a text: what the page shows of it is what
crushplan prints. Classes and weight sets, hosts that are added, devices that change their host,
class or weight, buckets of another kind."""
import copy
import json

from clusters import Cluster
from kept import dropped, plan, same_compare, same_drain, same_usage
from page import first, unlike
from today import POOLS, STATES, Today, files_of, with_folder


def bucket(crush, name):
    return next(it for it in crush["buckets"] if it["name"] == name)


def weighed(crush):
    """The same map once each bucket weighs what its items do."""
    own = {it["id"]: it for it in crush["buckets"]}

    def total(id_):
        for it in own[id_]["items"]:
            if it["id"] < 0:
                it["weight"] = total(it["id"])
        own[id_]["weight"] = sum(it["weight"] for it in own[id_]["items"])
        return own[id_]["weight"]

    for id_ in own:
        total(id_)
    return crush


def said_of(page, program, folder, name, words):
    """The comparison as crushplan has it, with notes that have all these words."""
    found = same_compare(page, program, folder, name)
    notes = page.browser.text("#beside") if page.browser.all("#beside") else ""
    return first(found, *(None if it.lower() in notes.lower() else f"{it!r} isn't in {notes!r}" for it in words))


@with_folder
def a_changed_text_has_classes_and_weight_sets(page, folder):
    """A text as crushtool writes it, with rules that take classes and a weight set for all pools
    and one for one pool, each with other weights."""
    today, program = Today(), page.program
    sets = {"-1": today.weight_set(""), "2": today.weight_set("ssd")}
    files_of(folder, program, today.crush(sets), today.osd(POOLS, STATES))
    (folder / "new.txt").write_text(today.text({"-1": today.weight_set(""), "2": today.weight_set("ssd")}))
    dropped(page, folder)
    return said_of(
        page, program, folder, "new.txt", ["new.txt has weights with three decimals, and the newest version exact ones"]
    )


@with_folder
def hosts_are_added_and_classes_change(page, folder):
    """Two hosts more with new devices, others in another rack, and devices of another class."""
    program, today, other = page.program, Today(), Today(2, 4, 4, classes={1: "ssd", 2: "hdd", 10: "hdd"})
    files_of(folder, program, today.crush(), today.osd(POOLS, STATES))
    (folder / "new.json").write_text(json.dumps(other.crush()))
    dropped(page, folder)
    return said_of(page, program, folder, "new.json", ["of those alone whose weight stays"])


@with_folder
def devices_change_their_host_and_weight(page, folder):
    """Room is looked at where a device keeps its weight alone: one with twice the weight may be
    another one by then. Copies are lost by the old host, and gained by the new one."""
    program, today = page.program, Today()
    crush, osd = today.crush(), today.osd(POOLS[:1], STATES)
    files_of(folder, program, crush, osd, 1.45)
    other = copy.deepcopy(crush)
    moved = bucket(other, "host1")["items"].pop(1)
    bucket(other, "host4")["items"].append({**moved, "pos": 4})
    bucket(other, "host4~hdd")["items"].append({**bucket(other, "host1~hdd")["items"].pop(0), "pos": 2})
    for it in (of for own in other["buckets"] for of in own["items"] if of["id"] == 6):
        it["weight"] *= 2
    (folder / "new.json").write_text(json.dumps(weighed(other)))
    dropped(page, folder)
    said = plan(program, folder, "compare", folder / "new.json")
    return first(
        (
            None
            if said["past_backfillfull"] and 6 not in said["past_nearfull"]
            else f"{said['past_nearfull']} {said['past_backfillfull']}"
        ),
        same_compare(page, program, folder, "new.json"),
    )


@with_folder
def list_buckets_become_straw2(page, folder):
    program, plain = page.program, Cluster(2, 3, 4, "list", 3)
    pools = [("photos", 3, 2, 0, 64), ("wide", 2, 1, 1, 32)]
    files_of(
        folder,
        program,
        json.loads(plain.crush()),
        {"backfillfull_ratio": 0.9, **json.loads(plain.osd(pools, STATES, [("1.3", [])]))},
    )
    (folder / "new.json").write_text(Cluster(2, 3, 4, "straw2", 3).crush())
    dropped(page, folder)
    return same_compare(page, program, folder, "new.json")


@with_folder
def a_map_that_lacks_a_host_and_a_rule(page, folder):
    """What a removed host loses, devices without a place, and a pool whose rule is no more."""
    program, today = page.program, Today()
    files_of(folder, program, today.crush(), today.osd(POOLS, STATES))
    other = today.crush()
    gone = {it["id"] for it in other["buckets"] if it["name"].split("~")[0] == "host2"}
    for it in other["buckets"]:
        it["items"] = [of for of in it["items"] if of["id"] not in gone]
    other["buckets"] = [it for it in other["buckets"] if it["id"] not in gone]
    other["rules"] = [it for it in other["rules"] if it["rule_id"] != 3]
    (folder / "new.json").write_text(json.dumps(weighed(other)))
    dropped(page, folder)
    found = same_compare(page, program, folder, "new.json")
    page.browser.click("#usages-level option[value='host']")
    hosts = [it.text for it in page.browser.all("#usages tbody tr th .open")]
    return first(
        found,
        None if "new.json lacks its rule 3" in page.browser.text("#left-out") else page.browser.text("#left-out"),
        None if "host2" in hosts else str(hosts),
    )


@with_folder
def a_text_stands_in_the_place_of_the_dump(page, folder):
    """map.txt with osd.json and all else, where its rules take classes."""
    program, today = page.program, Today()
    files_of(folder, program, today.crush(), today.osd(POOLS, STATES))
    (folder / "crush.json").unlink()
    (folder / "map.txt").write_text(today.text())
    dropped(page, folder, ("map.txt", "osd.json", "df.json", "osd-df.json", "pgs.json"))
    said, note = page.browser.text("#said"), page.browser.text("#not-computed")
    return first(
        None if "192 of 192 groups lie as computed" in said else said,
        None if "map.txt has weights that 'crushtool -d' rounded" in note else note,
        same_usage(page, program, folder),
        same_drain(page, program, folder, ["host3"]),
    )


def a_text_alone_may_take_classes(page):
    """Pools of such rules are filled in by hand."""
    today = Today()
    tenant = page.imported(today.text())
    page.browser.tab("Pools")
    page.browser.click("#rule option[value='1']")
    page.pool("fast", pg_num=16)
    page.browser.tab("Usage")
    page.by("device")
    used = {it for it, row in page.rows("#places tr[data-device]").items() if row[2] != "0"}
    text = page.ask("GET", f"/t/{tenant}/maps/1")[1]["text"]
    return first(
        None if used and all(it % 2 == 0 for it in used) else f"devices with copies: {used}",
        unlike(text.count("alg straw2"), len(today.buckets), "straw2 buckets:"),
    )


def cases():
    return (
        a_changed_text_has_classes_and_weight_sets,
        hosts_are_added_and_classes_change,
        devices_change_their_host_and_weight,
        list_buckets_become_straw2,
        a_map_that_lacks_a_host_and_a_rule,
        a_text_stands_in_the_place_of_the_dump,
        a_text_alone_may_take_classes,
    )
