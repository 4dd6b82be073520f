// What a device is expected to have of a pool: its share by weights and reweights, going down from
// what the pool's rule takes. Where a rule takes several items, each gets as much as the places
// that its steps fill.

const WHOLE = { reweight: 65536, up: true };

export function stateOf(states, id) {
    return states[id] ?? WHOLE;
}

// The part of each device below a bucket that has the part `part` itself: an item has what its
// weight is of all its bucket's weights.
function goDown(bucket, part, found) {
    const whole = bucket.items.reduce((sum, it) => sum + it.number, 0);
    for (const it of bucket.items) {
        const own = whole ? part * it.number / whole : 0;
        if (it.device) found.set(it.device.id, (found.get(it.device.id) ?? 0) + own);
        else goDown(it.bucket, own, found);
    }
}

// The items that a rule takes, each with how many places of a list its steps then fill.
function blocksOf(rule, size) {
    const found = [];
    let taken = null, places = 1, left = size;
    for (const [op, ...words] of rule.steps) {
        if (op === "take") {
            [taken, places] = [words[0], 1];
        } else if (op === "choose" || op === "chooseleaf") {
            const count = Number(words[1]);
            places *= Math.max(0, count > 0 ? count : size + count);
        } else if (op === "emit" && taken !== null) {
            found.push([taken, Math.min(places, left)]);
            left -= Math.min(places, left);
            taken = null;
        }
    }
    return found;
}

// Of each device below an item that is up and in, its part of what the item gets.
function blockParts(map, item, states) {
    const found = new Map();
    if (map.all.has(item)) goDown(map.all.get(item), 1, found);
    else if (map.devices.has(item)) found.set(map.devices.get(item).id, 1);
    for (const [id, part] of found) {
        const { reweight, up } = stateOf(states, id);
        if (up && reweight && part) found.set(id, part * reweight);
        else found.delete(id);
    }
    const whole = [...found.values()].reduce((sum, it) => sum + it, 0);
    for (const [id, part] of found) found.set(id, part / whole);
    return found;
}

// Of each device that a pool's rule can take, its part of the pool's copies.
export function partsOf(map, pool, states) {
    const rule = map.rules.find((it) => it.id === pool.rule), found = new Map();
    const blocks = blocksOf(rule ?? { steps: [] }, pool.size).map(
        ([item, places]) => [blockParts(map, item, states), places]
    ).filter(([parts, places]) => parts.size && places);
    const whole = blocks.reduce((sum, it) => sum + it[1], 0);
    for (const [parts, places] of blocks)
        for (const [id, part] of parts) found.set(id, (found.get(id) ?? 0) + part * places / whole);
    return found;
}

// The copies that each device is expected to have of several pools: `copies` says how many a pool
// has in all.
export function expectedOf(map, pools, states, copies) {
    const found = new Map();
    for (const pool of pools) {
        const whole = copies(pool);
        for (const [id, part] of partsOf(map, pool, states))
            found.set(id, (found.get(id) ?? 0) + part * whole);
    }
    return found;
}

// So many hundredths of what is expected, or nothing where nothing is expected.
export function percent(copies, expected) {
    return expected > 0 ? 100 * copies / expected : undefined;
}

// A number with so many decimals, rounded half up, also where its binary form is a little less.
export function decimals(number, places) {
    const scale = 10 ** places;
    return (Math.floor(number * scale + 0.5 + 1e-7) / scale).toFixed(places);
}

export function percentText(copies, expected) {
    const found = percent(copies, expected);
    return found === undefined ? (copies ? "none expected" : "–") : `${decimals(found, 1)} %`;
}

// The same for a CSV: a number, or nothing.
export function partText(copies, expected) {
    const found = percent(copies, expected);
    return found === undefined ? "" : decimals(found, 1);
}
