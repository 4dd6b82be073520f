// How full devices get, where the dumps say it: each copy of a pool has the same part of the pool's
// bytes, and what a device gains is added to what it holds now.
import { many, some } from "./words.js";
import { decimals } from "./shares.js";

export const NO_ROOM =
    "how full devices get isn't looked at (that takes df.json, osd-df.json and the ratios of osd.json)";

const total = (it) => it.had.reduce((sum, copies) => sum + copies, 0);

// A part of 1 in percent with one decimal.
export function hundredths(part) {
    return `${decimals(100 * part, 1)}%`;
}

// What an answer's pools take on each device, and how much of its room is used: before and after,
// or null where that isn't known. `past` gives the devices that get more and are past a ratio.
// `only` are the devices of which that is said, where it isn't all.
export function roomsOf(cluster, found, only = null) {
    const { bytes, rooms, ratios } = cluster.known, takes = (it) => bytes[it.pool.id] ?? null;
    const known = found.length > 0 && found.every((it) => takes(it) !== null);
    const wholes = new Map(found.map((it) => [it, total(it)]));
    const sum = (of) => found.reduce(
        (all, it) => all + (wholes.get(it) ? takes(it) * of(it) / wholes.get(it) : 0), 0
    );
    const looks = "backfillfull_ratio" in ratios && Object.keys(rooms).length > 0
        && Object.values(bytes).some((it) => it !== null);
    const size = (id) => rooms[id]?.[1] ?? 0, has = (id) => known && size(id) > 0 && (!only || only.has(id));
    const gained = (id) => sum((it) => it.net[id] ?? 0), part = (value) => Math.max(value, 0);
    const all = {
        known, looks, only, hasRoom: has,
        bytesBefore: (id) => (known ? sum((it) => it.had[id] ?? 0) : null),
        bytesAfter: (id) => (known ? sum((it) => it.has[id] ?? 0) : null),
        held: (id) => (has(id) ? part(rooms[id][0]) : 0),
        heldAfter: (id) => (has(id) ? part(rooms[id][0] + gained(id)) : 0),
        size: (id) => (has(id) ? size(id) : 0),
        usedBefore: (id) => (has(id) ? part(rooms[id][0]) / size(id) : null),
        usedAfter: (id) => (has(id) ? part(rooms[id][0] + gained(id)) / size(id) : null),
        wrote: known ? sum((it) => it.wrote) : null,
    };
    const ids = [...cluster.map.byId.keys()];
    const gaining = ids.filter((id) => found.some((it) => it.net[id] > 0));
    all.past = (name) => (
        name in ratios
            ? ids.filter((id) => has(id) && gained(id) > 0 && all.usedAfter(id) > ratios[name])
            : []
    );
    // whether a device gains of which it isn't said
    all.others = only !== null && found.some((it) => it.net.some((by, id) => by > 0 && !only.has(id)));
    all.gap = looks && !only && !gaining.every(has)
        ? gapOf(
            found.filter((it) => takes(it) === null).map((it) => it.pool.name),
            gaining.filter((id) => !has(id)).map((id) => cluster.name(id))
        )
        : null;
    all.isKnown = looks && !only && !all.gap;
    return all;
}

// What the files don't say of how full devices get, in words.
function gapOf(pools, devices) {
    if (pools.length)
        return `df.json doesn't say what ${pools.length === 1 ? "pool" : "the pools"} ${some(pools, 3)} `
            + `${pools.length === 1 ? "takes" : "take"}, and so not how full devices get`;
    return `osd-df.json doesn't say how full ${some(devices, 3)} gets`;
}

// Devices with how full they would be.
export function usedText(cluster, rooms, ids) {
    return some(ids.map((id) => `osd.${id} would be ${hundredths(rooms.usedAfter(id))} full`), 3);
}

// What Ceph writes no more copies to, and what it warns of, as the answer's last words.
export function nearText(rooms) {
    const near = rooms.past("nearfull_ratio");
    return near.length
        ? `${many(near.length, "device")} ${near.length === 1 ? "gets" : "get"} past near-full (a health `
            + `warning)`
        : "";
}

