// The groups that move, with their devices before and after, and any group that one looks for.
import { button, cut, el, labelled, later, longCsv, save } from "./dom.js";
import { devicesCell, groupOf, idOf, written } from "./groups.js";
import { listAt } from "./lists.js";

const LINES = 50;

// All groups that move, of all pools: of each its pool's part of the answer and its place there.
function placesOf(found) {
    const all = [];
    for (const part of found)
        for (let place = 0; place < part.groups.length; place += 1) all.push([part, place]);
    return all;
}

function short(part, list) {
    return list.reduce((sum, it) => sum + (it !== -1), 0) < part.pool.size;
}

// The lists of a group that was asked for, which may stay as it is.
function lookedFor(found, word) {
    return found.filter((part) => part.lists).flatMap((part) => {
        const group = groupOf(part.pool, word);
        if (!(group < part.pool.pg_num)) return [];
        const place = part.groups.indexOf(group);
        return place === -1 ? [[part, -1, group]] : [[part, place]];
    });
}

function lists([part, place, group]) {
    return place === -1
        ? [listAt(part.lists.before, group), listAt(part.lists.after, group)]
        : [listAt(part.old, place), listAt(part.next, place)];
}

function groupAt([part, place, group]) {
    return place === -1 ? group : part.groups[place];
}

// Those that a word names: a group by its number or its id, or a device that joins or leaves it.
function wanted(cluster, found, all, word) {
    if (!word) return all;
    const device = cluster.deviceOf(word);
    if (device === undefined) return lookedFor(found, word);
    return all.filter((it) => {
        const [old, next] = lists(it);
        return old.includes(device) !== next.includes(device);
    });
}

// `found` are the parts of an answer, one of each pool. `heads` are the words above the lists.
export function groupTable(cluster, found, heads, name) {
    const all = placesOf(found), body = el("tbody"), foot = el("div");
    const search = el("input", { type: "search", id: "group-search", autocomplete: "off" });
    const lacking = (it) => short(it[0], lists(it)[1]), first = all.filter(lacking);
    const rest = all.filter((it) => !lacking(it)), said = el("p", { class: "hint", "aria-live": "polite" });
    const sorted = [...first, ...rest];
    function row(it) {
        const [part] = it, group = groupAt(it), [old, next] = lists(it);
        const after = devicesCell(cluster, next, old, "ins");
        if (it[1] === -1) after.append(" ", el("span", { class: "badge in" }, "stays"));
        else if (short(part, next)) after.append(" ", el("span", { class: "badge out" }, "a copy short"));
        return el(
            "tr", { "data-group": group, "data-pool": part.pool.id },
            el(
                "th", { scope: "row", class: "id", title: `Group ${group} of pool ${part.pool.name}` },
                idOf(part.pool, group)
            ),
            devicesCell(cluster, old, next, "del"), after
        );
    }
    function draw() {
        const word = search.value.trim(), rows = wanted(cluster, found, sorted, word);
        foot.replaceChildren(cut(body, rows.length, (place) => row(rows[place]), LINES));
        said.textContent = !word
            ? ""
            : rows.length
                ? `${rows.length.toLocaleString("en")} found.`
                : "No pool has such a group, and no group that moves has such a device.";
    }
    search.addEventListener("input", later(draw));
    draw();
    const fields = (it) => [
        it[0].pool.id, it[0].pool.name, groupAt(it), idOf(it[0].pool, groupAt(it)), ...lists(it).map(written),
        ...lists(it).map((list) => named(cluster, list))
    ];
    const file = button(
        "Save as CSV",
        async () => save(
            `groups-${name}.csv`,
            await longCsv(
                ["pool", "pool_name", "group", "id", "old", "new", "old_names", "new_names"], sorted.length,
                (place) => fields(sorted[place])
            )
        ),
        { id: "groups-csv" }
    );
    const example = found[0]?.pool ?? { id: 1 };
    return el(
        "div", { id: "groups" },
        el(
            "div", { class: "controls" },
            labelled(
                "Find a group or device", search,
                `A group's number or its id in Ceph (group 28 of pool ${example.id} is `
                    + `${idOf(example, 28)}), also one that stays; or a device that joins or leaves.`
            ),
            file
        ),
        said,
        el(
            "table", { class: "plain lists", "aria-label": "Groups" },
            el("thead", {}, el("tr", {}, ["group", ...heads].map((it) => el("th", { scope: "col" }, it)))),
            body
        ),
        foot
    );
}

function named(cluster, list) {
    return Array.from(list, (it) => (it === -1 ? "-" : cluster.name(it))).join(" ");
}
