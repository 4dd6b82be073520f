// The trees of single classes (default~ssd), as Ceph makes them from the tree of all devices, by
// CrushWrapper::device_class_clone of release 16.

// Makes the buckets of single classes: `shadows` has the id of each, with its bucket and its class.
// Rows of weight sets go with them.
export function makeShadows(map, shadows) {
    const sums = new Map([...map.weightSets.keys()].map((key) => [key, new Map()]));
    for (const name of [...new Set(shadows.map((it) => it.class))].sort()) {
        const ids = new Map(shadows.filter((it) => it.class === name).map((it) => [it.bucket, it.id]));
        const done = new Set();
        for (const bucket of ids.keys()) copied(map, bucket, { name, ids, sums, done });
    }
}

const total = (list) => list.reduce((sum, it) => sum + it, 0);

// Makes the bucket that has the devices of a class alone, behind those of its items.
function copied(map, bucket, all) {
    const { name, ids, done } = all, original = map.buckets.get(bucket), items = [], places = [];
    if (done.has(bucket)) return;
    done.add(bucket);
    original.items.forEach(({ id, weight }, place) => {
        if (id >= 0 ? map.classes.get(id) !== name : !map.buckets.has(id) || !ids.has(id)) return;
        if (id >= 0) {
            items.push({ id, weight });
        } else {
            copied(map, id, all);
            const own = ids.get(id);
            items.push({ id: own, weight: total(map.buckets.get(own).items.map((it) => it.weight)) });
        }
        places.push(place);
    });
    const id = ids.get(bucket);
    map.buckets.set(id, { ...original, id, name: `${original.name}~${name}`, items, shadow: name });
    for (const [key, own] of map.weightSets) copyRows(own.rows, bucket, id, items, places, all.sums.get(key));
}

// Gives the copy of a bucket its rows of a weight set: a copied bucket without rows weighs nothing
// in it. `sums` are what those weigh that were copied before.
function copyRows(rows, bucket, id, items, places, sums) {
    rows.delete(id);
    if (!rows.get(bucket)?.length) return;
    const found = rows.get(bucket).map(
        (row, at) => items.map((it, place) => (it.id >= 0 ? row[places[place]] : sums.get(it.id)?.[at] ?? 0))
    );
    rows.set(id, found);
    sums.set(id, found.map(total));
}
