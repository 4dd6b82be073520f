// Groups as planners know them: beside its number a group has the id that Ceph writes, which is its
// pool's id, a point, and the number in hexadecimal.
import { el } from "./dom.js";

export function idOf(pool, group) {
    return `${pool.id}.${group.toString(16)}`;
}

// The group that a number or an id names, as 28 or 1.1c; none where it is neither, or an id of
// another pool.
export function groupOf(pool, words) {
    const word = words.trim().toLowerCase();
    if (/^\d{1,10}$/.test(word)) return Number(word);
    const [, id, number] = /^(\d{1,10})\.([0-9a-f]{1,8})$/.exec(word) ?? [];
    return id === String(pool.id) ? parseInt(number, 16) : undefined;
}

// The devices of an up list, of which those are marked that the other one lacks. An empty place is
// null or -1; `more` is what stands behind a device.
export function devicesCell(cluster, list, other, kind, more = () => null) {
    const one = (id) => [
        other.includes(id) ? el("span", {}, cluster.name(id)) : el(kind, {}, cluster.name(id)), more(id)
    ];
    return el(
        "td", {},
        Array.from(
            list, (id, place) => [place ? " " : "", id === null || id === -1 ? "none" : one(id)]
        ).flat(3)
    );
}

// An up list in a field of a CSV.
export function written(list) {
    return Array.from(list, (it) => (it === null || it === -1 ? "-" : it)).join(" ");
}
