// Whether the cluster's groups lie as they are computed: by pgs.json each of them, else by
// osd-df.json how many each device has.
import { groupsOf, withCopy } from "./copies.js";
import { NOW, listsIn, statesOn } from "./lies.js";
import { flat, listAt } from "./lists.js";
import { comparedPool, comparedText } from "./pgs.js";
import { wordOf } from "./remembered.js";
import { exceptionsOf, usageOf } from "./usage.js";
import { count, many, some } from "./words.js";

const MORE = "the view Map says more";

// The lists of a pool's groups by the cluster's own word, or null where it is silent of one.
export function listsSaid(tenant, pool) {
    const said = wordOf(tenant)?.find((it) => it.pool === pool.id);
    const places = new Map(Array.from(said?.groups ?? [], (group, at) => [group, at]));
    const groups = Array.from({ length: pool.pg_num }, (_, group) => places.get(group));
    if (groups.some((at) => at === undefined || said.silent[at])) return null;
    return {
        ...flat(groups.map((at) => listAt(said, at))),
        primaries: Int32Array.from(groups, (at) => said.primaries[at])
    };
}

// Why a group of a pool may lie otherwise, in words.
function causes(cluster, pool, exceptions) {
    const { known } = cluster, state = statesOn(cluster.map, known.states), others = exceptions.others();
    const moving = new Set(known.moving[pool.id] ?? []);
    return (group, up, here) => {
        const gone = up.filter((it) => it !== -1 && !(state(it).up && state(it).reweight));
        const order = (list) => [...list].sort().join();
        if (gone.length)
            return `${some(gone.map((it) => `osd.${it}`), 2)} is down or out in osd.json: the dumps are of `
                + `different times`;
        if (known.splits.includes(pool.id)) return "its pool is being split or merged";
        if (moving.has(group)) return "pg_temp: it moves just now, and the dumps may be of different times";
        if (String(up) === String(here))
            return "only the primary: an affinity or a set primary of another time";
        if (exceptions.pairs.has(group) || others.has(group))
            return "its upmap exception in osd.json is of another time";
        return order(up) === order(here)
            ? "only the order: an affinity or a set primary of another time"
            : "no cause is known";
    };
}

// The device of which the cluster says another number of copies of a pool than is computed, in
// words, or null.
function otherUsage(pool, said, lists) {
    const here = new Map();
    for (const it of lists.items) if (it !== -1) here.set(it, (here.get(it) ?? 0) + 1);
    const devices = [
        ...new Set([...said.keys(), ...here.keys()])
    ].filter((it) => said.get(it) !== here.get(it));
    const first = Math.min(...devices);
    return devices.length
        ? `osd.${first} has ${many(said.get(first) ?? 0, "copy", "copies")} of pool ${pool.name} by `
            + `pgs.json, and ${count(here.get(first) ?? 0)} as computed; ${MORE}`
        : null;
}

// By each group. `said` is what pgs.json says, by pool.
export async function lyingByGroup(cluster, said, work) {
    const { pools } = cluster.known, found = new Map();
    let doubt = null;
    for (const group of groupsOf(cluster, pools)) {
        await withCopy(cluster, group, work, async (copy) => {
            for (const pool of group.pools) {
                const exceptions = await exceptionsOf(cluster, pool, work, true);
                const lists = await listsIn(
                    copy, pool, NOW, exceptions, statesOn(cluster.map, cluster.known.states),
                    "Where the groups lie", work
                );
                found.set(
                    pool,
                    comparedPool(
                        pool, lists, said.find((it) => it.pool === pool.id), causes(cluster, pool, exceptions)
                    )
                );
                if (found.get(pool).usage) doubt ??= otherUsage(pool, found.get(pool).usage, lists);
            }
        });
    }
    const { text, lines, differ } = comparedText(pools.map((it) => found.get(it)));
    return { lying: { text, lines: differ > 1 ? lines : [], differ }, doubt };
}

// By how many groups each device has, while none moves and all pools are computed.
export async function lyingByDevice(cluster, work) {
    const { known } = cluster, rooms = Object.entries(known.rooms).filter(([, it]) => it[2] !== null);
    if (!rooms.length || known.left.length || Object.keys(known.moving).length || !known.pools.length)
        return { lying: null, doubt: null };
    const here = new Map(), state = statesOn(cluster.map, known.states);
    for (const pool of known.pools)
        for (const it of (await usageOf(cluster, pool, work)).rows)
            here.set(it.device, (here.get(it.device) ?? 0) + it.entries);
    const others = rooms.filter(
        ([id, it]) => it[2] !== (here.get(Number(id)) ?? 0) && state(Number(id)).up
    ).map(
        ([id, it]) =>
            `osd.${id} has ${many(it[2], "group")} by osd-df.json, and ${count(here.get(Number(id)) ?? 0)} `
                + `as computed`
    );
    if (!others.length)
        return {
            lying: { text: "each device has as many groups as computed", lines: [], differ: 0 }, doubt: null
        };
    return {
        lying: {
            text: `but groups don't lie as computed: ${some(others, 3)}`, lines: [], differ: others.length
        },
        doubt: `${some(others, 1)}; ${MORE}`
    };
}
