// What a change of the map is told by beside the groups that move: the least that the change of
// weights asks for, what each host loses and gains, and the devices of which it is known how full
// they get.
import { button, csv, cut, el, save } from "./dom.js";
import { listAt } from "./lists.js";
import { decimals, partsOf } from "./shares.js";
import { count } from "./words.js";

// by how much rounding to three decimals changes a weight
const ROUNDED = 33 / 65536;

// The weight of each device in all buckets.
function weightsOf({ buckets }) {
    const found = new Map();
    for (const bucket of buckets.values()) {
        for (const { device, number } of bucket.items)
            if (device) found.set(device.id, (found.get(device.id) ?? 0) + number);
    }
    return found;
}

// The devices that have one weight in both maps. That of another weight may be another device by
// then, and of a new one the files know no room.
export function steadyDevices(first, other) {
    const old = weightsOf(first), next = weightsOf(other);
    return new Set(
        [...old].filter(
            ([id, it]) => it && next.get(id) && Math.abs(it - next.get(id)) <= ROUNDED
        ).map(([id]) => id)
    );
}

// How many copies of a pool's part of an answer devices gain by their shares alone.
export function leastOf({ pool, had }, first, other, states) {
    const old = partsOf(first, pool, states), next = partsOf(other, pool, states);
    const whole = had.reduce((sum, it) => sum + it, 0);
    return whole * [...next].reduce((sum, [id, part]) => sum + Math.max(0, part - (old.get(id) ?? 0)), 0);
}

// A number of copies with one decimal.
export function copiesText(copies) {
    return Number(decimals(copies, 1)).toLocaleString("en", { minimumFractionDigits: 1 });
}

// How many copies each host loses by the first map, and gains by the other one: names with both
// numbers, those with most first.
export function hostsOf(found, first, other) {
    const hosts = new Map(), hostIn = (map, id) => map.byId.get(id)?.buckets[0]?.name ?? "-";
    const add = (map, place, list, others) => {
        for (const id of new Set(list)) {
            if (id === -1 || others.includes(id)) continue;
            const name = hostIn(map, id);
            if (!hosts.has(name)) hosts.set(name, [0, 0]);
            hosts.get(name)[place] += 1;
        }
    };
    for (const { groups, old, next } of found) {
        groups.forEach((_, place) => {
            const [before, after] = [listAt(old, place), listAt(next, place)];
            add(first, 0, before, after);
            add(other, 1, after, before);
        });
    }
    const sum = ([, [lost, gained]]) => lost + gained;
    return [...hosts].sort((one, two) => sum(two) - sum(one) || (one[0] < two[0] ? -1 : 1));
}

// The table of these hosts.
export function hostLines(hosts, name) {
    if (!hosts.length) return null;
    const body = el("tbody"), head = ["host", "copies lost", "copies gained"];
    const title = "Copies lost and gained by host";
    const row = ([host, both]) => el(
        "tr", { "data-host": host }, el("th", { scope: "row", class: "place" }, host),
        both.map((it) => el("td", { class: "number" }, count(it)))
    );
    const foot = cut(body, hosts.length, (place) => row(hosts[place]));
    const file = button(
        "Save as CSV",
        () => save(
            `hosts-${name}.csv`, csv(["host", "lost", "gained"], hosts.map(([host, both]) => [host, ...both]))
        ),
        { id: "hosts-csv" }
    );
    return [
        el("h2", {}, title),
        el(
            "p", { class: "hint" },
            "Lost where a device stands now, gained where it stands by the other map. ", file
        ),
        el(
            "div",
            { class: "card scroll", id: "by-host", tabindex: "0", role: "region", "aria-label": title },
            el(
                "table", { "aria-label": title },
                el(
                    "thead", {},
                    el(
                        "tr", {},
                        head.map((it, at) => el("th", { scope: "col", class: at ? "number" : "place" }, it))
                    )
                ),
                body
            )
        ),
        foot
    ];
}
