// What evens out pools, as `crushplan balance` found it: how far devices are from their shares
// before and after, and the lines to type.
import { button, counted, csv, cut, el, labelled, options, pause, save, sayDone } from "./dom.js";
import { legend } from "./change_view.js";
import { offShares } from "./charts.js";
import { figures } from "./figures.js";
import { placesTable } from "./places.js";
import { decimals } from "./shares.js";
import { count, many, sized } from "./words.js";

const NONE = "–", NO_HOST = "-", ROWS = 200;

// A number with two decimals, cut after them, as crushplan writes it: what is below 1 stays so.
function cutOff(number) {
    return (Math.floor(Math.abs(number) * 100 + 1e-6) / 100).toFixed(2);
}

function signed(number) {
    const text = cutOff(number);
    return text === "0.00" ? text : `${number > 0 ? "+" : "−"}${text}`;
}

function farthest(pools, key) {
    return cutOff(Math.max(...pools.map((it) => it[key])));
}

// ---- the answer

function answerRow(result) {
    const { pools, lines, ofPrimaries } = result;
    const bytes = result.bytes === null || ofPrimaries ? "" : `, ${sized(result.bytes)}`;
    const copies = ofPrimaries ? result.changed : result.copies, what = ofPrimaries ? "primaries" : "copies";
    return figures(
        [
            ofPrimaries
                ? [copies, `${copies === 1 ? "primary changes" : "primaries change"}; no data moves`, "", "copies"]
                : [copies, `${copies === 1 ? "copy moves" : "copies move"}${bytes}`, "", "copies"],
            [result.least, `${what} at least: no list of lines does it with fewer`, "", "least"],
            [lines.length, `${lines.length === 1 ? "line" : "lines"} to type`, "", "lines"],
            [
                farthest(pools, "deviation_before"), `${what} off its share is the farthest device before`, "",
                "farthest-before"
            ],
            [
                farthest(pools, "deviation_after"), `${what} off its share is the farthest device afterwards`, "",
                "farthest-after"
            ],
            result.extra > 0 && [result.extra, "of these copies only even out bytes between pools", "", "extra"]
        ],
        "answer"
    );
}

function poolsTable({ pools, ofPrimaries }) {
    const number = (text) => el("td", { class: "number" }, text);
    const moved = ofPrimaries
        ? [["primaries change", (it) => count(it.changed)]]
        : [
            ["copies move", (it) => count(it.copies)], ["at least", (it) => count(it.least)],
            ["lines", (it) => count(it.lines)], ["bytes", (it) => (it.bytes === null ? NONE : sized(it.bytes))]
        ];
    const columns = [
        ["id", (it) => String(it.pool)], ["farthest before", (it) => cutOff(it.deviation_before)],
        ["after", (it) => cutOff(it.deviation_after)], ...moved,
        ...ofPrimaries ? [["at least", (it) => count(it.least)]] : [],
        ["devices stay off", (it) => count(it.off.length)]
    ];
    const row = (it) => el(
        "tr", { "data-pool": it.pool }, el("th", { scope: "row", class: "place" }, it.name),
        columns.map(([, of]) => number(of(it)))
    );
    const body = el("tbody"), foot = cut(body, pools.length, (place) => row(pools[place]), ROWS);
    return el(
        "div", { class: "card scroll", id: "by-pool", tabindex: "0", role: "region", "aria-label": "By pool" },
        el(
            "table", { class: "plain", "aria-label": "By pool" },
            el(
                "thead", {},
                el(
                    "tr", {}, el("th", { scope: "col", class: "place" }, "pool"),
                    columns.map(([head]) => el("th", { scope: "col", class: "number" }, head))
                )
            ),
            body
        ),
        foot
    );
}

// ---- a pool before and after

// The devices of the file in their hosts, as the tables of places want a map.
function placesOf(devices) {
    const buckets = new Map(), own = new Map(), byId = new Map();
    for (const { device: id, name, host } of devices) {
        const it = { id, name, buckets: [] };
        own.set(name, it);
        byId.set(id, it);
        if (host === NO_HOST) continue;
        const bucket = buckets.get(host) ?? { name: host, type: "host", items: [] };
        buckets.set(host, bucket);
        bucket.items.push({ device: it });
        it.buckets.push(bucket);
    }
    return { map: { levels: buckets.size ? ["host"] : [], buckets, devices: own, byId } };
}

function usageCsv({ devices }, pool, what) {
    const own = new Map(devices.map((it) => [it.device, it]));
    return csv(
        ["pool", "device", "name", "host", `${what}_before`, `${what}_after`, "share"],
        pool.usage.map((it) => {
            const { name, host } = own.get(it.device) ?? { name: "", host: "" };
            return [pool.pool, it.device, name, host, it.before, it.after, it.share ?? ""];
        })
    );
}

function poolShown(result, cluster, pool) {
    const own = new Map(pool.usage.map((it) => [it.device, it])), what = result.ofPrimaries ? "primaries" : "copies";
    const shared = pool.usage.filter((it) => it.share !== null);
    const off = shared.map((it) => ({ id: it.device, was: it.before - it.share, is: it.after - it.share }));
    const stay = pool.usage.length - shared.length;
    const table = placesTable(cluster, {
        id: "evened", begin: { level: "device", order: "off" }, values: {
            had: (id) => own.get(id)?.before, has: (id) => own.get(id)?.after, share: (id) => own.get(id)?.share ?? 0,
            was: (id) => offOf(own.get(id), "before"), is: (id) => offOf(own.get(id), "after")
        },
        only: (id) => own.has(id), top: ({ had, has, share }) => Math.max(had, has, share),
        columns: [
            { head: `${what} before`, text: ({ had }) => count(had) },
            { head: `${what} after`, text: ({ has }) => count(has) },
            { head: "share", text: ({ share }) => (share ? decimals(share, 2) : NONE) },
            { head: "off before", text: ({ was, share }) => (share ? signed(was) : NONE) },
            { head: "off after", text: ({ is, share }) => (share ? signed(is) : NONE) }
        ],
        draw({ block, line }, { had, has, share }) {
            block("used", 0, Math.min(had, has));
            block("gain", had, has);
            block("less", has, had);
            if (share) line("even", share);
        },
        orders: [
            ["off", "farthest off before first", ({ was }) => Math.abs(was)],
            ["off-after", "farthest off after first", ({ is }) => Math.abs(is)],
            ["copies", `most ${what} first`, ({ has }) => has]
        ],
        legend: legend(
            ["used", `${what} before and after`], ["gain", "more after"], ["less", "less after"], ["even", "share"]
        ),
        file: {
            name: `balance-${pool.name}.csv`, title: `Pool ${pool.name}, before and after`,
            text: () => usageCsv(result, pool, what)
        }
    });
    return [
        el(
            "div", { class: "card", id: "off-shares" },
            el("h3", {}, counted(`${what[0].toUpperCase()}${what.slice(1)} off the share, by device`, off)),
            legend(
                ["was", "before"], ["used", "after"], ["off", "1 off"]
            ),
            offShares(off),
            el(
                "p", { class: "hint" },
                `Each bar is a device, those with most above their shares at the left: up is what it has more, down `
                    + `what it lacks. Pool ${pool.name} is at most ${cutOff(pool.deviation_before)} off before, and `
                    + `${cutOff(pool.deviation_after)} after`
                    + `${stay ? `; ${many(stay, "device")} without a share, not drawn` : ""}.`
            )
        ),
        table
    ];
}

function offOf(it, key) {
    return it && it.share !== null ? it[key] - it.share : 0;
}

function beforeAndAfter(result) {
    const cluster = placesOf(result.devices), at = el("div"), { pools } = result;
    const which = options(
        el("select", { id: "which-pool" }), pools.map((it, place) => [place, `${it.name} (${it.pool})`]), 0
    );
    const show = () => at.replaceChildren(...poolShown(result, cluster, pools[Number(which.value)]));
    which.addEventListener("change", show);
    // the answer above is there before long lists are drawn
    pause().then(show);
    return el(
        "div", { id: "before-after" }, el("h2", {}, "A pool before and after"),
        el("div", { class: "controls" }, labelled("Pool", which)), at
    );
}

// ---- the lines

async function copied(text, lines) {
    try {
        await navigator.clipboard.writeText(text);
    } catch {
        // where the page has no such right the browser's own command copies what is marked
        const area = el("textarea", { "aria-hidden": "true", tabindex: "-1", class: "sr" }, text);
        document.body.append(area);
        area.select();
        document.execCommand("copy");
        area.remove();
    }
    sayDone(`${many(lines.length, "line")} ${lines.length === 1 ? "is" : "are"} copied`);
}

function linesToType({ lines }) {
    if (!lines.length) return null;
    const text = lines.map((it) => `${it}\n`).join("");
    const shown = el("pre", { id: "to-type", tabindex: "0", role: "region", "aria-label": "Lines to type" });
    const foot = cut(shown, lines.length, (place) => el("code", {}, `${lines[place]}\n`), ROWS);
    return el(
        "div", { class: "card", id: "typed" }, el("h2", {}, counted("Lines to type", lines)), shown, foot,
        el(
            "div", { class: "buttons" },
            button("Copy the lines", () => copied(text, lines), { class: "main", id: "copy-lines" }),
            button("Save them as a file", () => save("balance-lines.txt", text, "text/plain"), { id: "save-lines" })
        )
    );
}

const listText = (list) => `[${list.map((it) => it ?? "-").join(",")}]`;

function groupsFolded({ groups, ofPrimaries }) {
    if (!groups.length) return null;
    const columns = ofPrimaries
        ? [
            ["devices", (it) => listText(it.up)], ["primary before", (it) => it.primary_before ?? NONE],
            ["primary after", (it) => it.primary_after ?? NONE]
        ]
        : [
            ["before", (it) => listText(it.before)], ["after", (it) => listText(it.after)],
            ["copies", (it) => count(it.copies)]
        ];
    const body = el("tbody");
    const foot = cut(body, groups.length, (place) => el(
        "tr", { "data-group": groups[place].id }, el("th", { scope: "row", class: "id" }, groups[place].id),
        columns.map(([, of]) => el("td", {}, String(of(groups[place]))))
    ));
    return el(
        "details", { class: "card", id: "which" }, el("summary", {}, counted("Which groups", groups)),
        el(
            "table", { class: "plain", "aria-label": "Groups" },
            el(
                "thead", {},
                el("tr", {}, ["group", ...columns.map(([head]) => head)].map((it) => el("th", { scope: "col" }, it)))
            ),
            body
        ),
        foot
    );
}

export function shownBalance(result) {
    if (!result.pools.length) return [];
    return [
        answerRow(result), poolsTable(result),
        result.remarks.length > 0
            && el("ul", { class: "hint", id: "remarks" }, result.remarks.map((it) => el("li", {}, it))),
        linesToType(result), beforeAndAfter(result), groupsFolded(result)
    ];
}
