// Which exceptions (upmap items and whole lists) Ceph's monitors remove when states of devices
// change, by OSDMap::check_pg_upmaps and CrushWrapper::verify_upmap of release 16. Lists have null
// at empty places.
import { isIdle, paired } from "./settled.js";

// Devices below a bucket, by id; where it has a hole Ceph takes that for the device 0.
function devicesOf(map, bucket, found = new Set()) {
    for (const it of bucket.whole) {
        if (it.bucket) devicesOf(map, it.bucket, found);
        else found.add(it.hole ? 0 : it.device.id);
    }
    return found;
}

function bucketsOfType(map, bucket, type) {
    if (bucket.type === type) return [bucket];
    return map.types.get(bucket.type) < map.types.get(type)
        ? []
        : bucket.items.filter((it) => it.bucket).flatMap((it) => bucketsOfType(map, it.bucket, type));
}

// What the monitors keep on a map, with states: `mayBe` says whether a device is in. Of a group to
// which CRUSH gives a raw list `kept` gives the pairs and the whole list that stay once nothing
// more is removed, and `breaks` says whether they break the pool's rule.
export function keeper(map, mayBe) {
    const made = new Map(), once = (key, make) => made.get(key) ?? made.set(key, make()).get(key);
    const takes = (rule) => rule.steps.filter(([op]) => op === "take").map((it) => it[1]);
    const below = (name) => once(`below ${name}`, () => devicesOf(map, map.all.get(name)));
    const domains = (rule, type) => once(`type ${rule.id} ${type}`, () => {
        const found = new Map();
        for (const name of new Set(takes(rule))) {
            for (const bucket of map.all.has(name) ? bucketsOfType(map, map.all.get(name), type) : [])
                for (const id of below(bucket.name)) if (!found.has(id)) found.set(id, bucket.name);
        }
        return found;
    });
    // the weight of each device below what a rule takes, level by level: the last place counts;
    // Ceph divides each by what all weigh together, and where that is 0 none of them counts as 0
    const weights = (rule) => once(`weights ${rule.id}`, () => {
        const found = new Map();
        for (const name of takes(rule)) {
            const own = new Map(), queue = map.all.has(name) ? [map.all.get(name)] : [];
            let total = 0;
            function weigh(id, weight) {
                own.set(id, weight);
                total += weight;
            }
            if (!queue.length) weigh(map.devices.get(name)?.id, 1);
            for (const bucket of queue) for (const it of bucket.whole) if (it.bucket) queue.push(it.bucket); else weigh(
                it.hole ? 0 : it.device.id, it.number ?? 0
            );
            for (const [id, weight] of own) found.set(id, (found.get(id) ?? 0) + (total ? weight : NaN));
        }
        return found;
    });
    const wants = (pool, count) => (Number(count) > 0 ? Number(count) : pool.size + Number(count));
    // too many devices in one bucket, or too many buckets
    function crowded(rule, pool, [op, , count, , type], items) {
        if (!map.types.get(type)) return false;
        const found = new Map(), of = domains(rule, type);
        for (const it of new Set(items))
            if (of.has(it)) found.set(of.get(it), (found.get(of.get(it)) ?? 0) + 1);
        return op === "chooseleaf"
            ? [...found.values()].some((it) => it > 1)
            : found.size > wants(pool, count);
    }
    // a device, or a place without one, that isn't below what the rule takes
    function outside(rule, pool, items) {
        let root = null, types = new Map(), cursor = 0;
        for (const [op, ...words] of rule.steps) {
            if (op === "take") root = words[0];
            else if (
                op === "choose" || op === "chooseleaf"
            ) types.has(words[3]) || types.set(words[3], wants(pool, words[1]));
            else if (op === "emit") {
                const places = Math.max(0, [...types.values()].reduce((all, it) => all * it, 1));
                if (root !== null && map.all.has(root)) {
                    if (items.slice(cursor, cursor + places).some((it) => !below(root).has(it))) return true;
                    cursor += Math.min(places, items.length - cursor);
                }
                [root, types] = [null, new Map()];
            }
        }
        return false;
    }
    function weightless(rule, it) {
        const weight = weights(rule).get(it);
        return weight === undefined || weight === 0 || !mayBe(it) && !Number.isNaN(weight);
    }
    function broken(rule, pool, items) {
        return rule.steps.some(
            (step) => (step[0] === "choose" || step[0] === "chooseleaf") && crowded(rule, pool, step, items)
        ) || outside(rule, pool,
        items) || items.some((it) => it === null || weightless(rule, it));
    }
    // the list as it is by a whole list and pairs; a list of which a device is out acts no more,
    // nor do the pairs then
    const listed = (raw, pairs, list) => (
        list && isIdle(list, mayBe) ? raw : paired(list ?? raw, pairs, mayBe)
    );
    function keptOnce(rule, pool, raw, { pairs, list }) {
        if (
            broken(rule, pool, listed(raw, pairs, list)) || list && (
                String(list) === String(raw) || list.length !== pool.size
            )
        )
            return { pairs: [], list: undefined };
        return { pairs: pairs.filter(([from, to]) => raw.includes(from) && mayBe(to)), list };
    }
    const ruleOf = (pool) => map.rules.find((it) => it.id === pool.rule);
    function kept(pool, raw, pairs, list) {
        for (let now = { pairs, list }; ;) {
            const next = keptOnce(ruleOf(pool), pool, raw, now);
            if (next.pairs.length === now.pairs.length && next.list === now.list) return next;
            now = next;
        }
    }
    return { kept, breaks: (pool, raw, pairs, list) => broken(ruleOf(pool), pool, listed(raw, pairs, list)) };
}
