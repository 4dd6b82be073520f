// Two maps compared: two versions, or the newest one and a map that is tried in a copy and doesn't
// become a version. What moves in all, and what each place gains and loses.
import { ask, change } from "./service.js";
import { good, movesByWord, report, stagesOf } from "./answer.js";
import { meaning } from "./codes.js";
import { button, csv, el, fault, labelled, options } from "./dom.js";
import { copiesText, hostLines, hostsOf, leastOf, steadyDevices } from "./compared.js";
import {
    answerRow, beforeAfter, beside, changePicture, groupsFolded, leftOutNote, legend, poolLines, totals,
    verdict
} from "./change_view.js";
import { figures } from "./figures.js";
import { count, many, some } from "./words.js";
import { note } from "./known.js";
import { faultOf } from "./refused.js";
import { listsSaid } from "./lying.js";
import { devicesBelow, devicesIn, readMap } from "./map.js";
import { wholeText } from "./map_texts.js";
import { DEVICE_HEADS, deviceFields, placesTable } from "./places.js";
import { decimals } from "./shares.js";
import { mapOf } from "./remembered.js";
import { isExact } from "./take.js";
import { exceptionsOf, usagesOf } from "./usage.js";
import { leftOut, missing, poolPicker, poolsChosen } from "./view_pools.js";
import { filling } from "./waiting.js";

// What each place gains and loses, of parts that have only that. `expected` is what devices are
// expected to have now.
function gainsAndLosses(cluster, found, name, expected) {
    const added = (key) => {
        const all = new Map();
        for (const part of found) part[key].forEach((it, id) => it && all.set(id, (all.get(id) ?? 0) + it));
        return all;
    };
    const gains = added("gains"), losses = added("losses");
    const ids = [...new Set([...gains.keys(), ...losses.keys()])].sort((a, b) => a - b);
    const gone = ids.filter((id) => !cluster.map.byId.has(id)), net = (it) => it.gains - it.losses;
    const signed = (it) => (it > 0 ? `+${count(it)}` : it < 0 ? `−${count(-it)}` : "0");
    const table = placesTable(cluster, {
        values: { gains: (id) => gains.get(id), losses: (id) => losses.get(id) },
        top: (it) => it.gains + it.losses, only: (id) => gains.has(id) || losses.has(id),
        columns: [
            { head: "copies gained", text: (it) => count(it.gains) },
            { head: "copies lost", text: (it) => count(it.losses) },
            { head: "in all", text: (it) => signed(net(it)) }
        ],
        draw({ block }, it) {
            block("loss", 0, it.losses);
            block("gain", it.losses, it.losses + it.gains);
        },
        orders: [["gain", "greatest gain first", net], ["loss", "greatest loss first", (it) => -net(it)]],
        legend: legend(["gain", "copies gained"], ["loss", "copies lost"]),
        file: {
            name: `gains-${name}.csv`, title: "Copies gained and lost",
            text: () => csv(
                [...DEVICE_HEADS, "gained", "lost", "expected"],
                ids.map(
                    (id) => [
                        ...deviceFields(cluster, id), gains.get(id) ?? 0, losses.get(id) ?? 0,
                        decimals(expected.get(id) ?? 0, 2)
                    ]
                )
            )
        },
    });
    const lines = gone.map(
        (id) => `${cluster.name(id)} (loses ${losses.get(id) ?? 0}, gains ${gains.get(id) ?? 0})`
    );
    return [
        gone.length > 0 && el(
            "p", { class: "note" }, `Devices that the newest version doesn't have: ${lines.join(", ")}.`
        ),
        table
    ];
}

// Two versions, by the service's own report: each with the states of now.
async function versions(cluster, from, to, work) {
    const { known } = cluster, pools = poolsChosen(cluster).filter((it) => !known.sides[it.id]), found = [];
    const name = `${cluster.tenant}-${from}-${to}`;
    const others = poolsChosen(cluster).filter((it) => known.sides[it.id]);
    let without = 0;
    for (const pool of pools) {
        work.step(`What moves: ${pool.name}`);
        const exceptions = await exceptionsOf(cluster, pool, work);
        const but = [...new Set([...exceptions.others(), ...exceptions.pairs.keys()])];
        const said = await report(
            "moves", "Compare two versions", `${cluster.path(pool)}/moves/${from}/${to}`,
            { pool, but, affinity: known.affinity }, work.signal
        );
        without += but.length;
        // the report has the pool's number in a field of this name
        found.push({ ...said, pool });
    }
    const { expected } = await usagesOf(cluster, pools, work);
    const moved = found.reduce((sum, it) => sum + it.moved, 0);
    const anew = found.reduce((sum, it) => sum + it.anew, 0);
    const lacks = [
        others.length > 0
            && `Versions are compared of the map's first text, which ${some(others.map((it) => it.name))} `
                + `${others.length === 1 ? "isn't" : "aren't"} computed on: drop the other map to `
                + `compare it.`,
        without > 0
            && `${many(without, "group")} with whole lists, set primaries, or more upmap items than the `
                + `service takes at once ${without === 1 ? "isn't" : "aren't"} compared here: drop the `
                + `other map to compare it.`
    ].filter(Boolean);
    return [
        ...lacks.map((it) => el("p", { class: "note" }, it)),
        figures(
            [
                [moved, moved === 1 ? "group moves" : "groups move", "", "moved"],
                [anew, anew === 1 ? "copy is written anew" : "copies are written anew", "", "anew"]
            ],
            "answer"
        ),
        ...moved
            ? [
                ...gainsAndLosses(cluster, found, name, expected),
                groupsFolded(cluster, found, [`on version ${from}`, `on version ${to}`], name)
            ]
            : [el("p", { class: "done" }, "No group moves: each lies as before.")]
    ];
}

// A map that is tried in a copy, beside the newest version.
async function tried(cluster, file, refresh, work) {
    const { name } = file, computed = (pool) => !file.dump || pool.id in file.places;
    const pools = poolsChosen(cluster).filter(computed), { states } = cluster.known;
    const without = poolsChosen(cluster).filter((it) => !computed(it));
    const why = (pool) => [...file.left].find(([it]) => it.id === pool.id)?.[1];
    let lacks = [
        ...leftOut(cluster),
        ...without.map(
            (it) => (
                { name: it.name, text: `pool ${it.name} (${it.id}) isn't computed on ${name}: ${why(it)}` }
            )
        )
    ];
    const said = new Map();
    const byWord = leftOut(cluster).map((it) => it.body).filter(
        (it) => it && file.dump && it.id in file.places
    ).filter(
        (it) => said.set(it.id, listsSaid(cluster.tenant, it)).get(it.id)
    );
    lacks = lacks.filter((it) => !byWord.some((pool) => pool.id === it.pool));
    if (!pools.length && !byWord.length)
        return [
            el(
                "p", { class: "verdict unknown", id: "verdict" }, el("strong", {}, "Unknown"),
                ": no pool can be computed."
            ),
            leftOutNote(lacks)
        ];
    const refusals = [];
    // of several texts the first ones have the map's own weights
    let other = file.texts.length > 1 ? readMap(...file.texts.slice(0, file.shown)) : null;
    const later = file.dump
        ? { texts: file.texts, places: file.places }
        : { texts: [file.text], places: Object.fromEntries(pools.map((it) => [it.id, 0])) };
    const [found] = await stagesOf(cluster, pools, [{
        words: `With ${name}`, states,
        async change(copy, group) {
            const reply = await change(
                `Try ${name} in a copy`, copy.name, "maps", { text: group.later }, { copy: true }
            );
            if (reply.error === "map_refused") refusals.push(faultOf({ ...file, text: group.later, reply }));
            if (reply.status !== 201) throw new Error(`${name}: ${meaning(reply.status, reply.error)}`);
            other ??= readMap(
                good(
                    await ask(
                        `Read ${name} as the service has it`, "GET", `/t/${copy.name}/maps/${reply.version}`
                    ),
                    name
                ).text
            );
            copy.devices = devicesIn(group.later);
            return reply.version;
        },
        then: () => ({ states, map: other }),
    }], work, later).catch((fault) => {
        if (refusals.length) return [null];
        throw fault;
    });
    if (!found) return refusals;
    if (byWord.length) other ??= readMap(...file.texts.slice(0, file.shown));
    if (byWord.length) found.push(...await movesByWord(cluster, byWord, said, later, other, work));
    return compared(cluster, byWord.length > 0, other, file, found, lacks, refresh);
}

// What is shown of a map that was tried.
function compared(cluster, isByWord, other, file, found, lacks, refresh) {
    const { name } = file, { tenant, summary, known } = cluster, { states } = known;
    const saved = `${tenant}-${name}`;
    // of what isn't computed the service has no map
    const first = isByWord && mapOf(tenant) ? readMap(wholeText(mapOf(tenant))) : cluster.map;
    const now = { ...cluster, map: first };
    const both = { ...cluster, map: union(first, other) };
    const all = totals(
        now, found, { before: states, after: states, map: other, only: steadyDevices(first, other) }
    );
    both.name = (id) => both.map.byId.get(id)?.name ?? cluster.name(id);
    const leasts = new Map(found.map((it) => [it, leastOf(it, first, other, states)]));
    const least = [...leasts.values()].reduce((sum, it) => sum + it, 0);
    const notes = [
        all.rooms.looks && all.rooms.others
            && "how full devices get is said of those alone whose weight stays: one of another weight may "
                + "be another device by then, and of a new one the files know no room",
        !isExact(file) && known.exact
            && `${name} has weights with three decimals, and the newest version exact ones: what this `
                + `rounding alone moves is part of the answer, as it would be in the cluster`,
    ];
    return [
        el("h2", { class: "title" }, `Version ${summary.versions} and ${name}`),
        tryingNote(cluster, file, refresh), verdict(both, found, all, { lacks }), leftOutNote(lacks),
        beside(all, notes),
        answerRow(
            both, all,
            [[copiesText(least), "copies are the least that the change of weights asks for", "", "least"]]
        ),
        poolLines(found, [["the least asked for", (it) => copiesText(leasts.get(it))]]),
        changePicture(both, all), beforeAfter(both, all, saved),
        hostLines(hostsOf(found, first, other), saved),
        groupsFolded(both, found, ["now", `by ${name}`], saved)
    ].flat();
}

// That a map was only tried, and how it becomes a version.
function tryingNote(cluster, file, refresh) {
    const { summary, tenant, known } = cluster, { name } = file;
    const keep = (file.texts.length > 1 || known.texts > 1)
        ? "Its map has several texts: drop it with osd.json to take it."
        : button(`Make it version ${summary.versions + 1}`, async () => {
        const reply = await change(`Import ${name}`, tenant, "maps", { text: file.text }, { file: name });
        if (reply.status === 201) note(tenant, { exact: isExact(file) });
        if (reply.status === 201) return refresh();
        keep.after(fault(meaning(reply.status, reply.error)));
        return undefined;
    }, { id: "keep" });
    return el(
        "p", { class: "hint" },
        `${name} was tried in a copy: the newest version is ${summary.versions} as before. `, keep
    );
}

// The places of both maps: those of the other one, and what it lacks of the first. A bucket that is
// no more has the devices that have no other place then.
function union(first, other) {
    const isGone = ({ id }) => !other.byId.get(id)?.buckets.length;
    const gone = [...first.buckets.values()].filter((it) => !other.buckets.has(it.name));
    const byId = new Map([...first.byId, ...other.byId]);
    const buckets = new Map(
        [...other.buckets, ...gone.map((it) => [it.name, { ...it, below: devicesBelow(it).filter(isGone) }])]
    );
    return {
        ...other, byId, buckets, devices: new Map([...first.devices, ...other.devices]),
        levels: other.levels.length ? other.levels : first.levels
    };
}

export function showCompare(cluster, what, refresh) {
    const section = el("section", {}, el("h1", { tabindex: "-1" }, "Compare"));
    const lacks = cluster.summary.versions && what?.file && cluster.known.left.length
        ? null
        : missing(cluster);
    if (lacks) {
        section.append(lacks);
        return section;
    }
    const newest = cluster.summary.versions, at = el("div");
    const drop = el(
        "p", { class: "hint" },
        "Drop a changed map text anywhere on this page: it is compared with the newest version in a copy, "
            + "and becomes no version unless you say so."
    );
    const lines = Array.from(
        { length: newest },
        (_, it) => [
            newest - it,
            `${newest - it}${cluster.known.files[newest - it] ? `: ${cluster.known.files[newest - it]}` : ""}`
        ]
    );
    const [from, to] = [
        options(el("select", { id: "from" }), lines, Math.max(1, newest - 1)),
        options(el("select", { id: "to" }), lines, newest)
    ];
    const fills = (words, act) => filling(at, words, (work) => {
        section.addEventListener("left", work.stop);
        return act(work);
    });
    let file = what?.file;
    const load = () => (
        file
            ? fills(`Trying ${file.name}`, (work) => tried(cluster, file, refresh, work))
            : newest > 1
                ? fills("Comparing", (work) => versions(cluster, from.value, to.value, work))
                : at.replaceChildren(el("p", { class: "empty" }, "There is one version of the map."))
    );
    for (const it of [from, to]) {
        it.addEventListener("change", () => {
            file = null;
            load();
        });
    }
    section.append(
        el(
            "div", { class: "controls" }, poolPicker(cluster, load),
            ...newest > 1 ? [labelled("From version", from), labelled("To version", to)] : []
        ),
        drop,
        newest > 1
            ? el("p", { class: "hint" }, "States of devices are those of now, for both versions.")
            : "",
        at
    );
    load();
    return section;
}
