// How evenly the pools lie: copies beside what is expected by weight and reweight, by rack, host or
// device.
import { csv, el } from "./dom.js";
import { legend } from "./change_view.js";
import { figures } from "./figures.js";
import { count, sized } from "./words.js";
import { picture } from "./picture.js";
import { DEVICE_HEADS, deviceFields, isPlaced, placesTable } from "./places.js";
import { decimals, partText, partsOf, percent, percentText } from "./shares.js";
import { copiesIn, usagesOf } from "./usage.js";
import { missing, poolPicker, poolsChosen } from "./view_pools.js";
import { hundredths } from "./rooms.js";
import { placeActions } from "./actions.js";
import { filling } from "./waiting.js";

// The devices that have the most and the least of what is expected of them.
function ends(cluster, copies, expected) {
    const parts = [...cluster.map.byId.keys()].filter((id) => expected.get(id) > 0).map(
        (id) => [id, percent(copies.get(id) ?? 0, expected.get(id))]
    );
    return [d3.max, d3.min].map((end) => {
        const value = end(parts, (it) => it[1]), id = parts.find((it) => it[1] === value)?.[0];
        return id === undefined
            ? null
            : [percentText(copies.get(id) ?? 0, expected.get(id)), cluster.name(id)];
    });
}

function usageCsv(cluster, pools, usages) {
    const heads = [
        "pool", "pool_name", ...DEVICE_HEADS, "copies", "expected", "percent", "groups", "primaries",
        "permille"
    ];
    const rows = pools.flatMap((pool, place) => {
        const parts = partsOf(cluster.map, pool, cluster.known.states), whole = copiesIn(usages[place]);
        return usages[place].rows.filter((it) => isPlaced(cluster, it.device) || it.entries).map((it) => {
            const expected = (parts.get(it.device) ?? 0) * whole;
            return [
                pool.id, pool.name, ...deviceFields(cluster, it.device), it.entries, decimals(expected, 2),
                partText(it.entries, expected), it.groups, it.primaries, it.permille
            ];
        });
    });
    return csv(heads, rows);
}

// The cluster's picture, coloured by percent of the shares in all pools that are known.
export async function sharePicture(cluster, work, actions, pools = cluster.known.pools, earlier = undefined) {
    const { copies, expected } = await usagesOf(cluster, pools, work);
    return picture(cluster, {
        values: { copies: (id) => copies.get(id), expected: (id) => expected.get(id) },
        colour: (it) => percent(it.copies, it.expected),
        words: (it) => `${count(it.copies)} copies, ${percentText(it.copies, it.expected)} of its share`,
        keys: [["low", "50 % of its share"], ["even-ground", "100 %"], ["high", "150 %"]], actions, earlier,
    });
}

// What pools take on each device, by the part of their copies that it has.
function bytesIn(pools, usages, bytes) {
    const found = new Map();
    pools.forEach((pool, place) => {
        const whole = copiesIn(usages[place]);
        for (const it of whole ? usages[place].rows : [])
            found.set(it.device, (found.get(it.device) ?? 0) + bytes[pool.id] * it.entries / whole);
    });
    return (id) => found.get(id) ?? 0;
}

async function shown(cluster, work) {
    const pools = poolsChosen(cluster);
    const { usages, copies, expected, whole } = await usagesOf(cluster, pools, work);
    const lacks = pools.reduce((sum, it) => sum + it.size * it.pg_num, 0) - whole;
    const [most, least] = ends(cluster, copies, expected);
    const name = pools.length === 1 ? pools[0].name : "all-pools";
    const values = { copies: (id) => copies.get(id), expected: (id) => expected.get(id) };
    const { bytes, rooms } = cluster.known, known = pools.every((it) => (bytes[it.id] ?? null) !== null);
    const used = Object.keys(rooms).length > 0;
    if (known) values.bytes = bytesIn(pools, usages, bytes);
    if (used) Object.assign(values, { held: (id) => rooms[id]?.[0], size: (id) => rooms[id]?.[1] });
    const share = (it) => percent(it.copies, it.expected);
    return [
        figures(
            [
                [count(whole), "copies in all", "", "copies"],
                lacks > 0 && [count(lacks), "copies have no device", "bad", "missing"],
                most && [most[0], `of its share has ${most[1]}, the most`, "", "most"],
                least && [least[0], `of its share has ${least[1]}, the least`, "", "least"]
            ],
            "answer"
        ),
        await sharePicture(cluster, work, placeActions(cluster), pools),
        placesTable(cluster, {
            values, top: (it) => Math.max(it.copies, it.expected),
            columns: [
                { head: "copies", text: (it) => count(it.copies) },
                { head: "expected", text: (it) => decimals(it.expected, 2) },
                { head: "of its share", text: (it) => percentText(it.copies, it.expected) },
                ...known ? [{ head: "bytes", text: (it) => sized(it.bytes) }] : [],
                ...used
                    ? [
                        {
                            head: "used",
                            text: (it) => (
                                it.size ? hundredths(Number(decimals(it.held / it.size, 4))) : "–"
                            )
                        }
                    ]
                    : []
            ],
            draw({ block, line }, it) {
                block("used", 0, it.copies);
                if (it.expected) line("even", it.expected);
            },
            orders: [
                ["most", "most of its share first", (it) => share(it) ?? -1],
                ["copies", "most copies first", (it) => it.copies],
                ...used ? [["full", "fullest first", (it) => (it.size ? it.held / it.size : -1)]] : []
            ],
            legend: legend(["used", "copies"], ["even", "expected, by weight and reweight"]),
            file: {
                name: `usage-${cluster.tenant}-${name}.csv`, title: "Copies by place",
                text: () => usageCsv(cluster, pools, usages)
            },
        }),
    ];
}

export function showUsage(cluster) {
    const section = el("section", {}, el("h1", { tabindex: "-1" }, "Usage"));
    const lacks = missing(cluster);
    if (lacks) {
        section.append(lacks);
        return section;
    }
    const at = el("div"), load = () => filling(at, "Usage", (work) => {
        section.addEventListener("left", work.stop);
        return shown(cluster, work);
    });
    section.append(
        el("div", { class: "controls" }, poolPicker(cluster, load)),
        el(
            "p", { class: "hint" },
            "Copies are the places that a device has in the groups' lists of devices that are up. Its share "
                + "is what it is expected to have, by its weight and reweight."
        ),
        at
    );
    load();
    return section;
}
