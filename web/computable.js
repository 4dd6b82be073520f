// Which pools of a cluster can be computed on the map of its dump, and why others can't, in words
// that say what to do next.
import { count, many, some } from "./words.js";
import { keyOf, setFault } from "./sets.js";
import { reachOf } from "./reach.js";

const COMPUTED = new Set(["list", "straw2", "tree", "uniform"]);
const LOCAL = ["choose_local_tries", "choose_local_fallback_tries"];
const SIZE = 32, GROUPS = 65536, POOLS = 256;
// the limits of a text
export const BUCKETS = 1024, DEVICES = 10000;
const NEXT = {
    straw: ": 'ceph osd crush set-all-straw-buckets-to-straw2' makes straw2 buckets of them, which can be "
        + "computed"
};

// Why a pool can't be computed, or null. `rule` is its rule on the map `file`, and `dump` the map
// where it is a dump.
export function poolFault(pool, rule, file, dump) {
    if (!rule) return `${file} lacks its rule ${pool.rule}`;
    if (pool.kind.startsWith("of type")) return `it is a pool ${pool.kind}`;
    if (!(pool.size >= 1 && pool.size <= SIZE))
        return `its size is ${pool.size}, and crushcalc takes 1 to ${SIZE}: 'ceph pg ls-by-pool `
            + `${pool.name}' says where its groups lie`;
    if (!(pool.pg_num >= 1 && pool.pg_num <= GROUPS && pool.pgp_num >= 1 && pool.pgp_num <= pool.pg_num))
        return `it has ${pool.pg_num} groups, ${pool.pgp_num} by pgp_num, and crushcalc takes 1 to `
            + `${count(GROUPS)}`;
    if (rule.odd) return `of its rule ${rule.name}: ${rule.odd}`;
    if (pool.kind !== rule.kind)
        return `it is ${pool.kind}, and its rule ${rule.name} is for ${rule.kind} pools: Ceph then finds no `
            + `rule`;
    if (rule.sizes && (pool.size < rule.sizes[0] || pool.size > rule.sizes[1]))
        return `its size ${pool.size} isn't within ${rule.sizes[0]} to ${rule.sizes[1]} of its rule `
            + `${rule.name}: Ceph then finds no rule`;
    return dump
        ? takesFault(dump, rule) ?? bucketsFault(dump, rule) ?? setFault(
            dump, keyOf(dump, pool.id), reachOf(dump, rule).buckets
        )
        : null;
}

// The pools that can be computed, and of each other one why not: at most 256 have a place.
export function computedPools(pools, ruleOf, file, dump) {
    const left = new Map(
        pools.map((it) => [it, poolFault(it, ruleOf(it.rule), file, dump)]).filter(([, why]) => why)
    );
    const kept = pools.filter((it) => !left.has(it));
    for (const it of kept.splice(POOLS)) left.set(it, `crushcalc takes ${POOLS} pools`);
    return { kept, left };
}

// Why a rule can't be computed on the map of a dump, or null.
export function ruleFault(map, rule) {
    return (
        rule.odd && `of its rule ${rule.name}: ${rule.odd}`
    ) || takesFault(map, rule) || bucketsFault(map, rule);
}

// What is wrong with what a rule takes, and with its tries, or null.
function takesFault(map, rule) {
    for (const [op, value, of] of rule.steps) {
        if (op === "take" && of)
            return `its rule ${rule.name} takes the class ${of} alone, whose trees crush.json has, and `
                + `${map.file} hasn't`;
        if (op === "take" && value < 0 && !map.buckets.has(value))
            return `its rule ${rule.name} takes the bucket ${value}, which isn't there`;
        if (LOCAL.includes(op.slice("set_".length)) && value > 0)
            return `its rule ${rule.name} has the step ${op} ${value}, which crushcalc doesn't compute: a `
                + `rule without it can be`;
    }
    const own = map.tunables.find(([name, value]) => LOCAL.includes(name) && value);
    return own
        ? `${map.file} has the tunable ${own[0]} ${own[1]}, of Ceph's first releases, which crushcalc `
            + `doesn't compute: 'ceph osd crush tunables bobtail' and those behind it are without it, `
            + `and move much`
        : null;
}

// What is wrong with the buckets below a rule, or null.
function bucketsFault(map, rule) {
    const { buckets: ids, devices } = reachOf(map, rule), buckets = [...ids].map((it) => map.buckets.get(it));
    const lost = buckets.flatMap((it) => it.items).find(
        (it) => it.id !== null && it.id < 0 && !map.buckets.has(it.id)
    );
    if (lost) return `below its rule ${rule.name} is the bucket ${lost.id}, which isn't there`;
    const others = buckets.filter((it) => !COMPUTED.has(it.alg));
    const algs = [...new Set(others.map((it) => it.alg))].sort();
    if (others.length)
        return `below its rule ${rule.name} are ${algs.join(" and ")} buckets `
            + `(${some(others.map((it) => it.name), 3)}), which crushcalc doesn't `
            + `compute${NEXT[algs[0]] ?? ""}`;
    const hashed = buckets.filter((it) => it.hash !== "rjenkins1" && it.hash !== "0");
    if (hashed.length)
        return `the buckets ${some(hashed.map((it) => it.name), 3)} have another hash than rjenkins1`;
    if (buckets.length > BUCKETS)
        return `below its rule ${rule.name} are ${many(buckets.length, "bucket")}, and crushcalc takes `
            + `${count(BUCKETS)}`;
    return devices.size > DEVICES
        ? `below its rule ${rule.name} are ${many(devices.size, "device")}, and crushcalc takes `
            + `${count(DEVICES)}`
        : null;
}

// Whether a bucket and all that are below it are of kinds that are computed; `known` is what was
// found before.
export function isComputed(map, id, known) {
    if (!known.has(id)) {
        const bucket = map.buckets.get(id);
        known.set(
            id,
            !bucket || COMPUTED.has(bucket.alg) && bucket.items.every(
                (it) => it.id === null || it.id >= 0 || isComputed(map, it.id, known)
            )
        );
    }
    return known.get(id);
}

// Whether all of a map can be computed.
export function fits(map) {
    const known = new Map();
    return !map.holes && [...map.rules.values()].every((it) => !ruleFault(map, it))
        && [...map.buckets.keys()].every(
        (it) => isComputed(map, it, known)
    );
}
