// What a removal leaves in a map: holes in tree buckets, and devices that are no more.

// Makes holes of the items that a removal left in tree buckets: a dump shows them as the device 0
// with the weight 0. Where that may be the device 0 itself, the first one is; a tree bucket never
// picks a weight of 0, so which it is changes no placement. `zero` is whether there is a device 0.
// Gives how many holes there are.
export function markHoles({ buckets, devices }, zero) {
    let found = 0;
    for (const bucket of buckets.values()) {
        const places = bucket.alg === "tree"
            ? bucket.items.filter((it) => it.id === 0 && it.weight === 0)
            : [];
        if (!places.length) continue;
        const weighed = [...buckets.values()].some(
            (it) => (it === bucket || !it.shadow) && it.items.some((one) => one.id === 0 && one.weight > 0)
        );
        const itself = zero && !weighed && !bucket.items.some((it) => it.id < 0) && devices.has(0)
            && devices.get(0) !== "device0";
        const holes = places.slice(itself ? 1 : 0);
        for (const it of holes) it.id = null;
        found += holes.length;
    }
    return found;
}

// Takes away what is in no bucket and no device: Ceph writes the ids that were never used too, as
// device7, and keeps the name osd.0 for holes. What a rule takes by name stays.
export function dropGone({ buckets, devices, rules }, there) {
    const placed = new Set([...buckets.values()].flatMap((it) => it.items.map((one) => one.id)));
    for (const it of rules.values()) for (const [op, item] of it.steps) if (op === "take") placed.add(item);
    for (const [id, name] of devices)
        if (!placed.has(id) && (name === `device${id}` || there?.(id) === false)) devices.delete(id);
}
