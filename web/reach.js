// What rules can come by on the map of a dump.

export const takesOf = (rule) => rule.steps.filter(([op]) => op === "take").map(([, item]) => item);

// The devices below an item, and the buckets at and below it.
function reach(map, item, found) {
    if (item === null || found.devices.has(item) || found.buckets.has(item)) return;
    if (item >= 0) found.devices.add(item);
    if (!map.buckets.has(item)) return;
    found.buckets.add(item);
    for (const it of map.buckets.get(item).items) reach(map, it.id, found);
}

// The devices and buckets that a rule can come by. Each is found once.
export function reachOf(map, rule) {
    map.reached ??= new Map();
    if (!map.reached.has(rule.id)) {
        const found = { devices: new Set(), buckets: new Set() };
        for (const it of takesOf(rule)) reach(map, it, found);
        map.reached.set(rule.id, found);
    }
    return map.reached.get(rule.id);
}
