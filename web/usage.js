// How much of the pools lies on each device, as the service says it, with what it doesn't know, and
// what is made of it.
import { ask } from "./service.js";
import { exceptionsIn, good, groupsOf, withCopy } from "./copies.js";
import { Exceptions, MOST, NOW, askGroups, listsIn, settled, statesOn } from "./lies.js";
import { expectedOf } from "./shares.js";

// What the service says. It is asked once for each epoch of the cluster.
export async function plainUsage(cluster, pool, work) {
    const what = `Usage of ${pool.name}`;
    if (!cluster.plain.has(pool.id)) {
        work.step(what);
        cluster.plain.set(
            pool.id, good(await ask(what, "GET", `${cluster.path(pool)}/usage`, undefined, work.signal), what)
        );
    }
    return cluster.plain.get(pool.id);
}

// The exceptions of a pool that this browser knows. Pairs that the service has are left to it,
// unless they are wanted.
export async function exceptionsOf(cluster, pool, work, withPairs = false) {
    const pairs = withPairs || cluster.known.pairs[pool.id]
        ? await exceptionsIn(cluster, pool, work.signal)
        : [];
    return new Exceptions(
        cluster.known, pool,
        pairs.filter((it) => cluster.map.byId.has(it.from) && cluster.map.byId.has(it.to))
    );
}

// The rows of a usage, of other copies and primaries by device.
function rowsOf({ rows }, entries, primaries) {
    const ids = [...new Set([...rows.map((it) => it.device), ...entries.keys()])].sort((a, b) => a - b);
    const whole = [...entries.values()].reduce((sum, it) => sum + it, 0), of = (all, id) => all.get(id) ?? 0;
    return ids.map(
        (id) => (
            {
                device: id, entries: of(entries, id), groups: of(entries, id), primaries: of(primaries, id),
                permille: whole ? Math.floor(1000 * of(entries, id) / whole) : 0
            }
        )
    );
}

function add(all, id, more) {
    if (id !== null && id !== -1 && id !== undefined) all.set(id, (all.get(id) ?? 0) + more);
}

// The usage with some groups as they lie by their whole lists and primaries.
async function corrected(cluster, pool, plain, work) {
    const exceptions = await exceptionsOf(cluster, pool, work, true);
    const entries = new Map(plain.rows.map((it) => [it.device, it.entries]));
    const primaries = new Map(plain.rows.map((it) => [it.device, it.primaries]));
    const state = statesOn(cluster.map, cluster.known.states);
    const groups = [...exceptions.others()].filter((it) => it < pool.pg_num);
    for (const said of (await askGroups(cluster.path(pool), groups, work)).values()) {
        const now = settled(pool, said, exceptions, state);
        for (const [it, sign] of [[said, -1], [now, 1]]) {
            for (const id of it.up) add(entries, id, sign);
            add(primaries, it.primary, sign);
        }
    }
    return rowsOf(plain, entries, primaries);
}

// The usage of all lists, found in a copy: where affinity says which device leads a list, and where
// there are more upmap items than the service takes.
async function countedInCopy(cluster, pool, plain, work) {
    const exceptions = await exceptionsOf(cluster, pool, work, true), [group] = groupsOf(cluster, [pool]);
    const entries = new Map(), primaries = new Map();
    const lists = await withCopy(
        cluster, group, work,
        (copy) => listsIn(
            copy, pool, NOW, exceptions, statesOn(cluster.map, cluster.known.states), "Usage", work
        )
    );
    for (const id of lists.items) add(entries, id, 1);
    for (const id of lists.primaries) add(primaries, id, 1);
    return rowsOf(plain, entries, primaries);
}

// The usage of a pool now. It is found once for each epoch of the cluster.
export async function usageOf(cluster, pool, work) {
    if (!cluster.usages.has(pool.id)) {
        const plain = await plainUsage(cluster, pool, work);
        const exceptions = await exceptionsOf(cluster, pool, work);
        const find = exceptions.affine || exceptions.isBatched() || exceptions.others().size > MOST
            ? countedInCopy
            : exceptions.others().size ? corrected : null;
        cluster.usages.set(
            pool.id, find ? { ...plain, rows: await find(cluster, pool, plain, work) } : plain
        );
    }
    return cluster.usages.get(pool.id);
}

export function copiesIn(usage) {
    return usage.rows.reduce((sum, it) => sum + it.entries, 0);
}

// Of each device the copies that it has of all these usages.
function copiesByDevice(usages) {
    const found = new Map();
    for (const { rows } of usages)
        for (const it of rows) found.set(it.device, (found.get(it.device) ?? 0) + it.entries);
    return found;
}

// The usages of several pools, the copies of each device, and what it is expected to have.
export async function usagesOf(cluster, pools, work) {
    const usages = [];
    for (const it of pools) usages.push(await usageOf(cluster, it, work));
    const whole = new Map(pools.map((pool, place) => [pool, copiesIn(usages[place])]));
    return {
        usages, copies: copiesByDevice(usages),
        expected: expectedOf(cluster.map, pools, cluster.known.states, (pool) => whole.get(pool)),
        whole: [...whole.values()].reduce((sum, it) => sum + it, 0)
    };
}
