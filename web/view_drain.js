// A drain or a failure on paper: the answer first, then the usage before and after, then the
// groups.
import { button, el, fault, labelled, options, pause, sayDone } from "./dom.js";
import { canMove, stagesOf } from "./answer.js";
import {
    answerRow, beforeAfter, beside, changePicture, groupsFolded, leftOutNote, poolLines, totals, verdict
} from "./change_view.js";
import { figures } from "./figures.js";
import { idOf } from "./groups.js";
import { partsOf } from "./shares.js";
import { count, many, some } from "./words.js";
import { namesOf, picker } from "./picker.js";
import { leftOut, missing, poolsChosen, poolPicker } from "./view_pools.js";
import { Stopped, working } from "./waiting.js";

const HOLDING = ["norebalance", "nobackfill", "norecover"];
const WAYS = {
    drain: "Drain: they are taken out, as by ceph osd out",
    fail: "Fail: they go down at once, and are taken out later"
};

// The states that the cluster has when these devices are out.
function statesAfter(cluster, ids, down) {
    const states = { ...cluster.known.states };
    for (const id of ids)
        states[id] = { ...(states[id] ?? { up: true }), ...(down ? { up: false } : {}), reweight: 0 };
    return states;
}

function stages(cluster, ids, fails) {
    const states = statesAfter(cluster, ids, fails);
    const out = {
        words: "With the devices out", states,
        change: (copy) => copy.states(ids.map((id) => ({ id, reweight: 0 }))),
        then: () => ({ ids: new Set(ids), states })
    };
    const down = {
        words: "With the devices down", states: statesDown(cluster, ids),
        change: (copy) => copy.states(ids.map((id) => ({ id, up: false })))
    };
    return fails ? [down, out] : [out];
}

function statesDown(cluster, ids) {
    return {
        ...cluster.known.states,
        ...Object.fromEntries(
            ids.map((id) => [id, { reweight: 65536, ...cluster.known.states[id], up: false }])
        )
    };
}

// Flags of the cluster, while which Ceph doesn't do by itself what is computed.
function flagsOf(cluster, ids, fails) {
    const { known } = cluster;
    const flags = known.flags.filter((it) => [...HOLDING, ...fails ? ["noout"] : []].includes(it));
    const own = fails
        ? known.noout.filter(([, devices]) => devices.some((id) => ids.includes(id))).map(([name]) => name)
        : [];
    const { map } = cluster, rack = map.types.get("rack") ?? Infinity;
    const wide = fails
        ? namesOf(cluster, ids).filter((it) => map.types.get(map.buckets.get(it)?.type) >= rack)
        : [];
    return [
        flags.length > 0
            && `osd.json has the ${flags.length === 1 ? "flag" : "flags"} ${some(flags)}: until Ceph is `
                + `without ${flags.length === 1 ? "it" : "them"}, it doesn't do all of this`,
        own.length > 0
            && `osd.json has the flag noout of ${some(own)}: Ceph marks out none of `
                + `${own.length === 1 ? "its" : "their"} devices by itself`,
        wide.length > 0
            && `Ceph marks out by itself no whole rack, nor what is above racks `
                + `(mon_osd_down_out_subtree_limit, unless it was set): ${some(wide)}`,
    ];
}

// Pools in stretch mode that may have groups on the devices: what stops in them isn't known, since
// it also counts where copies are, and Ceph changes min_size by itself.
function stretchedOf(cluster, pools, ids) {
    const own = new Set(ids);
    return pools.filter(
        (it) => isStretched(cluster, it) && [...partsOf(cluster.map, it, {}).keys()].some((id) => own.has(id))
    );
}

function isStretched({ known }, pool) {
    return known.stretched.includes(pool.id);
}

// Which groups stop while devices are down, as far as is known: pools, each with how many copies
// are left of how many groups.
function stoppedIn(cluster, found) {
    return found.filter((it) => !isStretched(cluster, it.pool)).flatMap(
        ({ pool, lacks }) => lacks.left.map((it) => ({ pool, ...it }))
    );
}

// A line for each pool whose groups stop, and how many copies are left.
function stoppedTable(stopped) {
    const heads = ["pool", "size", "min_size", "copies left", "groups", "which"];
    const row = ({ pool, copies, groups, first }) => {
        const numbers = [pool.size, pool.min_size, copies, groups], rest = groups - first.length;
        const names = first.map((it) => idOf(pool, it)).join(", ");
        return el(
            "tr", {}, el("th", { scope: "row", class: "place" }, pool.name),
            numbers.map((it) => el("td", { class: "number" }, count(it))),
            el("td", {}, rest ? `${names} and ${count(rest)} more` : names)
        );
    };
    const head = (it, at) => el("th", { scope: "col", class: at && at < 5 ? "number" : "place" }, it);
    return stopped.length > 0 && el(
        "div",
        { class: "card scroll", id: "stops", tabindex: "0", role: "region", "aria-label": "Groups that stop" },
        el(
            "table", { "aria-label": "Groups that stop" }, el("thead", {}, el("tr", {}, heads.map(head))),
            el("tbody", {}, stopped.map(row))
        )
    );
}

// What holds while the devices are down and not out yet.
function atOnce(cluster, found, stretched) {
    const degraded = found.reduce((all, it) => all + it.lacks.groups, 0), stops = stoppedIn(cluster, found);
    const stopped = stops.reduce((all, it) => all + it.groups, 0);
    const unknown = found.filter((it) => !it.pool.min_size).map((it) => it.pool.name);
    return [
        el("h2", {}, "At once, while they are down"),
        figures(
            [
                [
                    stretched.length && !stopped ? "?" : stopped,
                    "groups stop: they have fewer copies than the pool's min_size",
                    stopped ? "bad" : stretched.length ? "" : "good", "stopped"
                ],
                [degraded, "groups have fewer copies than the pool's size", "", "degraded"]
            ],
            "at-once"
        ),
        stoppedTable(stops),
        unknown.length > 0 && el(
            "p", { class: "note" },
            `The min_size of ${unknown.join(", ")} isn't known here, so no group of it is counted as stopped.`
        ),
        stretched.length > 0 && el(
            "p", { class: "note" },
            `What stops in ${some(stretched.map((it) => it.name))} isn't computed: in stretch mode it also `
                + `counts where copies are.`
        ),
        el("h2", {}, "When they are taken out")
    ];
}

// What is proved, by the impact lists: they are asked for once the answer is shown.
function proved(cluster, pools, ids) {
    const said = el("p", { class: "hint", id: "proved" }, "Which groups can move at all is being asked ..");
    const asks = async (work) => {
        // the answer is put there first
        await pause();
        return canMove(cluster, pools, ids, work, () => said.isConnected);
    };
    working("Which groups can move", asks).then((lists) => {
        const all = [...lists.values()].reduce((sum, it) => sum + it.size, 0);
        said.replaceChildren(`Proved: no group moves but the ${count(all)} of the impact lists, while only `
            + `the reweights of these devices are lowered.`);
    }).catch((why) => said.replaceChildren(fault(why.message)));
    return said;
}

// The copies that stay on these devices, since a rule takes them by name.
function stay(cluster, ids, found) {
    const taken = ({ pool }) => new Set(
        cluster.map.rules.find((it) => it.id === pool.rule)?.steps.filter(([op]) => op === "take").map(
            ([, name]) => cluster.map.devices.get(name)?.id
        )
    );
    return found.reduce(
        (all, it) => all + ids.filter((id) => taken(it).has(id)).reduce(
            (sum, id) => sum + (it.has[id] ?? 0), 0
        ),
        0
    );
}

function shown(cluster, pools, ids, fails, results) {
    const lacks = leftOut(cluster, ids), stretched = fails ? stretchedOf(cluster, pools, ids) : [];
    const found = results.at(-1), names = namesOf(cluster, ids).join(", "), chosen = new Set(ids);
    const all = totals(
        cluster, found, { before: cluster.known.states, after: statesAfter(cluster, ids, fails) }
    );
    const mark = (place) => {
        const within = place.devices.filter((it) => chosen.has(it)).length;
        const word = fails ? "failed" : "drained";
        return within > 0 && el(
            "span", { class: "badge out" }, within === place.devices.length ? word : `${word} in part`
        );
    };
    const file = `${cluster.tenant}-${namesOf(cluster, ids)[0]}`;
    const stopped = fails ? stoppedIn(cluster, results[0]) : [];
    return [
        el(
            "h2", { class: "title", id: "answered", tabindex: "-1" },
            `${fails ? "Failure" : "Drain"} of ${names}`
        ),
        verdict(cluster, found, all, { stopped, keeping: stay(cluster, ids, found), lacks, stretched }),
        leftOutNote(lacks), beside(all, flagsOf(cluster, ids, fails)),
        fails && atOnce(cluster, results[0], stretched), answerRow(cluster, all), proved(cluster, pools, ids),
        poolLines(found), el("h2", {}, "Usage before and after"), changePicture(cluster, all),
        beforeAfter(cluster, all, file, mark), groupsFolded(cluster, found, ["before", "after"], file),
        el(
            "p", { class: "hint" },
            `Computed on a copy of the cluster on the service, which is dropped: neither your Ceph cluster `
                + `nor what is kept here is changed. ${many(ids.length, "device")}, `
                + `${many(pools.length, "pool")}.`
        )
    ].flat();
}

export function showDrain(cluster, wanted = {}) {
    const section = el("section", {}, el("h1", { tabindex: "-1" }, "Drain"));
    const lacks = missing(cluster);
    if (lacks) {
        section.append(lacks);
        return section;
    }
    const chosen = new Set(wanted.devices), at = el("div", { class: "result", id: "result", tabindex: "-1" });
    let running = null;
    // what is shown is of what was chosen for it
    function other() {
        running?.stop();
        at.replaceChildren(hint());
    }
    const hint = () => el(
        "p", { class: "empty" },
        "Tick a rack, a host or devices, then the answer is here: whether every copy has a device, what "
            + "moves, and how full each host gets."
    );
    async function run(event) {
        event?.preventDefault();
        if (running) return;
        const pools = poolsChosen(cluster), ids = [...chosen].sort((a, b) => a - b);
        const fails = way.value === "fail";
        if (!ids.length) {
            at.replaceChildren(fault("Choose a rack, a host or a device first."));
            return;
        }
        go.setAttribute("aria-disabled", "true");
        at.setAttribute("aria-busy", "true");
        try {
            await working(fails ? "A failure on a copy" : "A drain on a copy", async (work) => {
                running = work;
                const results = await stagesOf(cluster, pools, stages(cluster, ids, fails), work);
                work.goesOn();
                at.replaceChildren(...shown(cluster, pools, ids, fails, results).filter(Boolean));
            });
            sayDone("The answer is there");
            if (at.getBoundingClientRect().top > window.innerHeight * 0.5) at.querySelector(".title").focus();
        } catch (why) {
            at.replaceChildren(
                fault(why instanceof Stopped ? "Stopped." : why.message || "It was given up.")
            );
        } finally {
            running = null;
            go.removeAttribute("aria-disabled");
            at.removeAttribute("aria-busy");
        }
    }
    const way = options(
        el("select", { id: "way", on: { change: other } }), Object.entries(WAYS), wanted.way ?? "drain"
    );
    const go = el("button", { class: "main", id: "drain" }, "What happens?");
    const skip = button("Skip the list", () => go.focus(), { class: "skip-list" });
    section.addEventListener("left", () => running?.stop());
    section.append(
        el(
            "div", { class: "split" },
            el(
                "form", { "aria-label": "A drain or a failure", on: { submit: run } },
                labelled("What is tried", way), poolPicker(cluster, other),
                picker(cluster, chosen, other, skip), el("div", { class: "go" }, go)
            ),
            at
        )
    );
    at.append(hint());
    if (chosen.size) run();
    return section;
}
