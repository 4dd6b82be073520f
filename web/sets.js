// Weight sets (choose_args): weights by which pools are placed in the place of those of the map.
// Ceph's balancer makes them in its mode crush-compat.
import { some } from "./words.js";

const ALL = -1, ONE = 65536;
// weights below it are exact as floats of 24 bits, which a dump has
const FLOAT = 256 * ONE;

// The key of the weight set that a pool is placed by, or undefined.
export function keyOf(map, pool) {
    return [pool, ALL].find((it) => map.weightSets.has(it));
}

function nameOf(key) {
    return `the weight set choose_args ${key}${key === ALL ? " of all pools" : ""}`;
}

// The straw2 buckets among some that a set has rows for: other kinds pick by the map's own weights.
function ownRows(map, key, buckets) {
    const { rows } = map.weightSets.get(key) ?? { rows: new Map() };
    return [...buckets].filter(
        (it) => rows.has(it) && map.buckets.get(it).alg === "straw2"
    ).map((it) => [map.buckets.get(it), rows.get(it)]);
}

// Why a set can't be computed on some buckets, or null.
export function setFault(map, key, buckets) {
    for (const [bucket, positions] of ownRows(map, key, buckets)) {
        if (positions.some((it) => String(it) !== String(positions[0])))
            return `${nameOf(key)} has other weights for each of ${positions.length} places of a list, `
                + `which crushcalc doesn't compute: one made by 'weight-set create POOL flat' it does`;
        if (positions.some((it) => it.length !== bucket.items.length))
            return `${nameOf(key)} has ${positions[0].length} weights for the ${bucket.items.length} items `
                + `of ${bucket.name}`;
    }
    const ids = (map.weightSets.get(key)?.withIds ?? []).filter((it) => buckets.has(it));
    return ids.length
        ? `${nameOf(key)} has other ids for the items of `
            + `${some(ids.map((it) => map.buckets.get(it).name), 3)}, which crushcalc doesn't compute`
        : null;
}

// The weights of a set by bucket, where they aren't the map's own.
export function rowsOf(map, key, buckets) {
    const found = ownRows(map, key, buckets).filter(([, positions]) => positions.length).map(
        ([bucket, positions]) => [bucket, positions[0]]
    );
    return new Map(
        found.filter(
            ([bucket, row]) => bucket.items.some((it, place) => it.weight !== row[place])
        ).map(([bucket, row]) => [bucket.id, row])
    );
}

// Finds the weights of 256 and more, which a dump rounds: a bucket weighs what its own row has
// together.
export function sharpen(map, own) {
    const rows = new Map([...own.rows].filter(([, it]) => it.length === 1).map(([id, it]) => [id, it[0]]));
    const seen = new Set();
    const sum = (all) => all.reduce((whole, it) => whole + it, 0);
    // of a bucket without a row the map has the weight
    const total = (id) => (
        rows.has(id) ? sum(rows.get(id)) : sum(map.buckets.get(id).items.map((it) => it.weight))
    );
    const visit = (id) => {
        if (seen.has(id) || !map.buckets.has(id)) return;
        seen.add(id);
        const { items } = map.buckets.get(id), row = rows.get(id);
        for (const it of items) visit(it.id);
        if (row?.length !== items.length) return;
        items.forEach((it, place) => {
            if (row[place] < FLOAT) return;
            if (map.buckets.has(it.id) && Math.floor(Math.fround(total(it.id))) === row[place])
                row[place] = total(it.id);
            else own.rounded = true;
        });
    };
    for (const id of rows.keys()) visit(id);
}
