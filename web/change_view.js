// An answer as it is shown: what counts in large numbers, then what each place has before and
// after, and the groups, folded.
import { counted, csv, el } from "./dom.js";
import { figures } from "./figures.js";
import { groupTable } from "./group_table.js";
import { DEVICE_HEADS, deviceFields, isPlaced, placesTable } from "./places.js";
import { decimals, expectedOf, partText, percent, percentText } from "./shares.js";
import { NO_ROOM, hundredths, nearText, roomsOf, usedText } from "./rooms.js";
import { picture } from "./picture.js";
import { count, many, sized, some } from "./words.js";

export function legend(...pairs) {
    return el(
        "ul", { class: "legend" },
        pairs.map(
            ([kind, text]) => el("li", {}, el("span", { class: `key ${kind}`, "aria-hidden": "true" }), text)
        )
    );
}

// A number of a device, added over the parts of an answer.
function added(found, key) {
    const all = new Map();
    for (const part of found) part[key].forEach((it, id) => it && all.set(id, (all.get(id) ?? 0) + it));
    return (id) => all.get(id) ?? 0;
}

function sum(list, of) {
    return list.reduce((all, it) => all + of(it), 0);
}

// What is added over all pools, and what each device is expected to have before and after.
// `only` are the devices of which it is said how full they get, where it isn't all.
export function totals(cluster, found, { before, after, map = cluster.map, only = null }) {
    const pools = found.map((it) => it.pool);
    const copies = (key) => (pool) => sum([...found.find((it) => it.pool === pool)[key]], (it) => it);
    return {
        moved: sum(found, (it) => it.moved), anew: sum(found, (it) => it.anew),
        short: sum(found, (it) => it.lacks.groups), missing: sum(found, (it) => it.lacks.copies),
        shortBefore: sum(found, (it) => it.lackedBefore.groups),
        missingBefore: sum(found, (it) => it.lackedBefore.copies), had: added(found, "had"),
        has: added(found, "has"), gains: added(found, "gains"), losses: added(found, "losses"),
        expectedBefore: expectedOf(cluster.map, pools, before, copies("had")),
        expectedAfter: expectedOf(map, pools, after, copies("has")), rooms: roomsOf(cluster, found, only),
    };
}

// The device that is fullest after the change: by bytes where these are known, else by what is
// expected of it, or by its copies where nothing is expected of any.
export function fullest(cluster, all) {
    const ids = [...cluster.map.byId.keys()].filter(
        (id) => cluster.map.devices.has(cluster.name(id)) && all.has(id)
    );
    const used = ids.filter((id) => all.rooms.usedAfter(id) !== null);
    const share = (id) => percent(all.has(id), all.expectedAfter.get(id) ?? 0);
    const expected = ids.filter((id) => share(id) !== undefined);
    const [of, found] = used.length
        ? [all.rooms.usedAfter, used]
        : expected.length ? [share, expected] : [all.has, ids];
    return found.length ? found.reduce((top, id) => (of(id) > of(top) ? id : top)) : null;
}

// The answer in a row of large numbers: groups that get fewer copies, groups that move, copies that
// are written anew, `more`, and the fullest device.
export function answerRow(cluster, all, more = []) {
    const whose = all.rooms.only
        ? "the fullest of the devices whose weight stays"
        : "the fullest device afterwards";
    const top = fullest(cluster, all), { rooms } = all, near = cluster.known.ratios.nearfull_ratio;
    const past = rooms.past("nearfull_ratio").length;
    return figures(
        [
            [
                all.short,
                `${all.short === 1 ? "group has" : "groups have"} fewer copies than the pool's size `
                    + `afterwards${all.shortBefore ? `, and ${count(all.shortBefore)} now` : ""}`,
                all.short ? "bad" : "good", "short"
            ],
            [all.moved, `${all.moved === 1 ? "group moves" : "groups move"}`, "", "moved"],
            [
                all.anew,
                `${all.anew === 1 ? "copy is" : "copies are"} written `
                    + `anew${rooms.wrote === null ? "" : `, ${sized(rooms.wrote)}`}`,
                "", "anew"
            ],
            ...more,
            top !== null && [
                percentText(all.has(top), all.expectedAfter.get(top)),
                `of its share has ${cluster.name(top)}, ${whose}`, "", "fullest"
            ],
            top !== null && rooms.usedAfter(top) !== null && [
                hundredths(rooms.usedAfter(top)),
                `of its room is used then${near === undefined ? "" : `; near-full is ${hundredths(near)}`}`
                    + (past > 1 ? `, and ${count(past)} devices get past it` : ""),
                past ? "bad" : "", "room"
            ],
        ],
        "answer"
    );
}

// The answer in one sentence: whether every copy has a device, and how many groups move. `stopped`
// is which groups stop while devices are down, by pool and how many copies are left, `keeping` how
// many copies stay on devices that a rule takes by name, `broken` how many groups have exceptions
// that break their rule, `lacks` the pools that aren't computed and may have to do with it,
// `stretched` those of which it isn't known what stops. Nothing is known where the cluster itself
// says that its groups lie otherwise.
export function verdict(cluster, found, all, more = {}) {
    const { kind, head, rest } = answered(cluster, found, all, more), { doubt } = cluster.known;
    if (doubt)
        return el(
            "p", { class: "verdict unknown", id: "verdict" }, el("strong", {}, "Unknown"),
            `: ${doubt}. As computed: ${head.toLowerCase()}${rest}`
        );
    return el("p", { class: `verdict ${kind}`, id: "verdict" }, el("strong", {}, head), rest);
}

// Which I/O stops while devices are down, and why.
function stops(stopped) {
    const groups = sum(stopped, (it) => it.groups), names = [...new Set(stopped.map((it) => it.pool.name))];
    const [{ pool, copies }] = stopped, has = groups === 1 ? "has" : "have", one = stopped.length === 1;
    const left = one ? `${copies ? many(copies, "copy", "copies") : "no copy"} left` : "fewer copies than min_size";
    return `${many(groups, "group")} of ${names.length === 1 ? "pool" : "the pools"} ${some(names, 3)} ${has} `
        + `${left} while the devices are down${one ? `, below min_size ${pool.min_size}` : ""}, `
        + `so ${groups === 1 ? "its" : "their"} I/O stops`;
}

function answered(cluster, found, all, { stopped = [], keeping = 0, broken = 0, lacks = [], stretched = [] }) {
    const { rooms } = all, full = rooms.past("backfillfull_ratio"), near = nearText(rooms);
    const lacking = found.filter((it) => it.lacks.copies).map((it) => it.pool.name);
    const moved = all.moved ? `${many(all.moved, "group")} ${all.moved === 1 ? "moves" : "move"}` : "no group moves";
    const has = (it) => (it === 1 ? "has" : "have");
    const before = all.missingBefore === all.missing
        ? " (as many as before)"
        : all.missingBefore ? ` (${count(all.missingBefore)} before)` : "";
    const why = [
        stopped.length && stops(stopped),
        all.missing
            && `${many(all.missing, "copy", "copies")} of ${lacking.length === 1 ? "pool" : "the pools"} `
                + `${some(lacking, 3)} ${has(all.missing)} no device${before}`,
        full.length && `${usedText(cluster, rooms, full)}, past the backfill-full ratio`,
        broken && `${many(broken, "group")} would break the rule, and Ceph removes such items`,
        keeping
            && `${many(keeping, "copy", "copies")} ${keeping === 1 ? "stays" : "stay"}: a rule takes the `
                + `device by name`,
    ].filter(Boolean);
    if (why.length)
        return {
            kind: "bad", head: "No", rest: `: ${[...why, rooms.gap].filter(Boolean).join("; ")}; ${moved}.`
        };
    const named = (all) => `${all.length === 1 ? "pool" : "the pools"} ${some(all.map((it) => it.name), 3)}`;
    const unknown = [
        lacks.length && `${named(lacks)} can't be computed`, rooms.gap,
        stretched.length && `what stops in ${named(stretched)} isn't computed (stretch mode)`
    ].filter(Boolean);
    if (unknown.length)
        return { kind: "unknown", head: "Unknown", rest: `: ${unknown.join("; ")}; of what can, ${moved}.` };
    return {
        kind: "good", head: "Yes",
        rest: `${near ? `, but ${near}` : ""}: ${moved}, and every copy has ${rooms.isKnown ? "room" : "a device"}.`
    };
}

// What isn't computed and may have to do with the answer.
export function leftOutNote(lacks) {
    return lacks.length
        ? el(
            "div", { class: "note", id: "left-out" }, el("p", {}, "The answer lacks this:"),
            el("ul", {}, lacks.map((it) => el("li", {}, it.text)))
        )
        : null;
}

// What a planner has to know beside the answer: that room isn't looked at, and `more`.
export function beside(all, more = []) {
    const lines = [!all.rooms.looks && NO_ROOM, ...more].filter(Boolean);
    return lines.length
        ? el(
            "ul", { class: "hint", id: "beside" },
            lines.map((it) => el("li", {}, `${it[0].toUpperCase()}${it.slice(1)}.`))
        )
        : null;
}

// One line for each pool, where there are several. `more` are further columns: their heads, and
// what they say of a part of the answer.
export function poolLines(found, more = []) {
    if (found.length < 2) return null;
    const head = [
        "pool", "fewer copies than its size", "copies without a device", "groups that move",
        "copies written anew", ...more.map(([it]) => it)
    ];
    const cells = ({ lacks, moved, anew }) => [lacks.groups, lacks.copies, moved, anew].map(
        (it, at) => el("td", { class: `number ${at < 2 && it ? "bad" : ""}` }, count(it))
    );
    const others = (part) => more.map(([, of]) => el("td", { class: "number" }, of(part)));
    const row = (part) => el(
        "tr", { "data-pool": part.pool.id }, el("th", { scope: "row", class: "place" }, part.pool.name),
        cells(part), others(part)
    );
    return el(
        "div",
        { class: "card scroll", id: "by-pool", tabindex: "0", role: "region", "aria-label": "By pool" },
        el(
            "table", { "aria-label": "By pool" },
            el(
                "thead", {},
                el(
                    "tr", {},
                    head.map((it, at) => el("th", { scope: "col", class: at ? "number" : "place" }, it))
                )
            ),
            el("tbody", {}, found.map(row))
        )
    );
}

const signed = (it) => (it > 0 ? `+${count(it)}` : it < 0 ? `−${count(-it)}` : "0");

// What each place has before and after, with sums.
export function beforeAfter(cluster, all, name, marked) {
    const { rooms } = all;
    const values = {
        had: all.had, has: all.has, was: (id) => all.expectedBefore.get(id),
        will: (id) => all.expectedAfter.get(id)
    };
    const sized_ = rooms.known && [...cluster.map.byId.keys()].some(rooms.hasRoom);
    if (rooms.known)
        Object.assign(values, { bytes: rooms.bytesAfter, held: rooms.heldAfter, size: rooms.size });
    const columns = [
        { head: "copies before", text: ({ had }) => count(had) },
        { head: "copies after", text: ({ has }) => count(has) },
        { head: "change", text: ({ had, has }) => signed(has - had) },
        { head: "share before", text: ({ had, was }) => percentText(had, was) },
        { head: "share after", text: ({ has, will }) => percentText(has, will) },
        ...rooms.known ? [{ head: "bytes after", text: ({ bytes }) => sized(bytes) }] : [],
        ...sized_
            ? [{ head: "used after", text: ({ held, size }) => (size ? hundredths(held / size) : "–") }]
            : [],
    ];
    function draw({ block, line }, { had, has, will }) {
        block("used", 0, Math.min(had, has));
        block("gain", had, has);
        block("less", has, had);
        if (will) line("even", will);
    }
    const orders = [
        ["most", "most of its share first", ({ has, will }) => percent(has, will) ?? -1],
        ["gain", "greatest gain first", ({ had, has }) => has - had],
        ["copies", "most copies first", ({ has }) => has],
        ...sized_ ? [["full", "fullest first", ({ held, size }) => (size ? held / size : -1)]] : []
    ];
    const heads = [
        ...DEVICE_HEADS, "copies_before", "copies_after", "expected_before", "expected_after",
        "percent_before", "percent_after",
        ...rooms.known ? ["bytes_before", "bytes_after", "used_before", "used_after"] : []
    ];
    const part = (it) => (it === null ? "" : decimals(it, 4));
    const inBytes = (id) => (
        rooms.known
            ? [
                Math.round(rooms.bytesBefore(id)), Math.round(rooms.bytesAfter(id)),
                part(rooms.usedBefore(id)), part(rooms.usedAfter(id))
            ]
            : []
    );
    const rows = () => [...cluster.map.byId.keys()].filter(
        (id) => isPlaced(cluster, id) || all.had(id) || all.has(id)
    ).map(
        (id) => [
            ...deviceFields(cluster, id), all.had(id), all.has(id),
            decimals(all.expectedBefore.get(id) ?? 0, 2), decimals(all.expectedAfter.get(id) ?? 0, 2),
            partText(all.had(id), all.expectedBefore.get(id) ?? 0),
            partText(all.has(id), all.expectedAfter.get(id) ?? 0), ...inBytes(id)
        ]
    );
    return placesTable(cluster, {
        values, columns, draw, orders, top: ({ had, has, will }) => Math.max(had, has, will), id: "usages",
        mark: marked,
        legend: legend(
            ["used", "copies before and after"], ["gain", "more after"], ["less", "less after"],
            ["even", "expected after, by weight and reweight"]
        ),
        file: {
            name: `before-after-${name}.csv`, title: "Copies before and after", text: () => csv(heads, rows())
        },
    });
}

// The groups that move, folded until they are wanted.
export function groupsFolded(cluster, found, heads, name) {
    const moved = sum(found, (it) => it.moved), inside = el("div");
    const fold = el(
        "details", { class: "card", id: "which" },
        el("summary", {}, counted("Which groups", { length: moved })), inside
    );
    fold.addEventListener(
        "toggle",
        () => fold.open && !inside.firstChild && inside.append(groupTable(cluster, found, heads, name))
    );
    return fold;
}

// The cluster's picture, coloured by what each place gains and loses.
export function changePicture(cluster, all) {
    return picture(cluster, {
        colour: (sums) => (
            sums.had === sums.has
                ? "same"
                : sums.has > sums.had
                    ? ["gain", (sums.has - sums.had) / Math.max(1, sums.had)]
                    : ["loss", (sums.had - sums.has) / Math.max(1, sums.had)]
        ),
        values: { had: all.had, has: all.has },
        words: ({ had, has }) => `${count(had)} copies before, ${count(has)} after (${signed(has - had)})`,
        keys: [["gain", "gets copies"], ["loss", "loses copies"], ["same", "as before"]],
    });
}
