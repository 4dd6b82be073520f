// What a change would do, found on a copy of the cluster: the lists of all groups before it and
// after each of its stages, and what differs.
import { Unlike, groupsOf, withCopy } from "./copies.js";
import { keeper } from "./keeper.js";
import { NOW, askGroup, listsIn, rawsIn, notRead, report, statesOn } from "./lies.js";
import { listAt } from "./lists.js";
import { readLong } from "./reading.js";
import { exceptionsOf, plainUsage } from "./usage.js";
import { Stopped } from "./waiting.js";

// Whether the copy lies as the tenant does: each device has as many places, by the service alone.
async function compare(cluster, pools, lists, work) {
    for (const pool of pools) {
        const { rows } = await plainUsage(cluster, pool, work), { counts } = lists.get(pool.id);
        if (rows.some((it) => it.entries !== (counts[it.device] ?? 0))) {
            throw new Unlike(
                `The copy doesn't lie as the cluster does (pool ${pool.name}): on the service it has states `
                    + `of devices that were set elsewhere, or its pool isn't as filled in. No request lists `
                    + `these; ` + "drop osd.json or a CSV of all states on the page, and try again."
            );
        }
    }
}

// The groups of a pool whose exceptions may be removed: where the map changes all; else those that
// move, those with a pair that names a device whose state changes, and those with a whole list.
function inDoubt({ pairs, lists }, ids, before, after) {
    const own = [...pairs].filter(
        ([group, of]) => !ids || of.some(
            (pair) => pair.some((it) => ids.has(it))
        ) || String(listAt(before, group)) !== String(listAt(after, group))
    );
    return new Set([...own.map(([group]) => group), ...lists.keys()]);
}

// Takes away the exceptions of a pool that Ceph's monitors would remove then, and gives how many
// these are: `ids` are the devices whose states change, `map` is another map.
async function removeBroken(cluster, copy, pool, version, held, { ids, states, map }, before, after, work) {
    const on = map ?? cluster.map;
    const { kept: stays } = keeper(on, (id) => statesOn(on, states)(id).reweight > 0);
    const groups = [...inDoubt(held, ids, before, after)].filter((it) => it < pool.pg_num);
    let removed = 0;
    if (groups.length) work.step(`Exceptions of ${pool.name} that Ceph would remove`);
    const raws = groups.length
        ? await rawsIn(
            copy, pool, version, groups, statesOn(on, states), held.isBatched() ? new Map() : held.pairs,
            work
        )
        : [];
    for (const [group, raw] of raws) {
        const pairs = held.pairs.get(group) ?? [], list = held.lists.get(group);
        const kept = stays(pool, raw, pairs, list);
        removed += pairs.length - kept.pairs.length + (list && !kept.list ? 1 : 0);
        if (kept.pairs.length) held.pairs.set(group, kept.pairs);
        else held.pairs.delete(group);
        if (!kept.list) held.lists.delete(group);
    }
    return removed;
}

// What differs.
async function differ(pools, before, after, how) {
    const found = [];
    for (const pool of pools) {
        const lists = { before: before.get(pool.id), after: after.get(pool.id) };
        const it = await readLong("differences", [], { pool, ...lists, ...how });
        if (!it) throw notRead(`Lists of ${pool.name}`);
        found.push({ pool, lists, ...it });
    }
    return found;
}

// The lists of some pools in a copy, each with what it holds.
async function allLists(copy, pools, version, held, state, words, work) {
    const found = new Map();
    for (const pool of pools)
        found.set(pool.id, await listsIn(copy, pool, version, held.get(pool.id), state, words, work));
    return found;
}

// The stages of a change on a copy of pools that have one text.
async function stagesOn(cluster, group, copy, stages, how, work) {
    const { pools } = group, held = new Map(), found = [];
    for (const it of pools)
        held.set(it.id, (await exceptionsOf(cluster, it, work)).withPairs(copy.pairs.get(it.id)));
    const before = await allLists(
        copy, pools, NOW, held, statesOn(cluster.map, cluster.known.states), "Where the groups lie now", work
    );
    work.step("Comparing the copy with the cluster");
    await compare(cluster, pools, before, work);
    for (const { words, change, states, then } of stages) {
        work.step(words);
        const version = await change(copy, group, held) ?? NOW, last = then?.();
        const state = statesOn(last?.map ?? cluster.map, states);
        let after = await allLists(copy, pools, version, held, state, words, work), removed = 0;
        for (const pool of last ? pools : []) {
            const own = held.get(pool.id).copied();
            const count = await removeBroken(
                cluster, copy, pool, version, own, last, before.get(pool.id), after.get(pool.id), work
            );
            if (count) {
                removed += count;
                held.set(pool.id, own);
                await copy.exceptions(pool, own.sent());
            }
        }
        if (removed) after = await allLists(copy, pools, version, held, state, words, work);
        found.push(Object.assign(await differ(pools, before, after, how), { removed }));
    }
    return found;
}

// The stages of a change, each as it differs from what is now: a list of pools each, with how many
// exceptions Ceph would remove. `change` of a stage changes the copy, and gives the version on
// which it is looked at, if another; `states` are those of devices then; `then` gives what decides
// which exceptions are removed: the states, and the devices that have another one, or another map.
// `later` are the texts of another map, which the copies get; `how` says whether another order
// alone is no move in a replicated pool (`unordered`).
export async function stagesOf(cluster, pools, stages, work, later = null, how = {}) {
    const found = stages.map(() => Object.assign([], { removed: 0 }));
    for (const group of groupsOf(cluster, pools, later)) {
        const own = await withCopy(
            cluster, group, work, (copy) => stagesOn(cluster, group, copy, stages, how, work)
        );
        own.forEach((it, place) => {
            found[place].push(...it);
            found[place].removed += it.removed;
        });
    }
    for (const it of found) it.sort((one, other) => pools.indexOf(one.pool) - pools.indexOf(other.pool));
    return found;
}

// What another map moves of pools that can be computed on it alone: from where the cluster itself
// says that their groups lie (`before`, by pool) to where they lie on it, by its texts `later`.
export async function movesByWord(cluster, pools, before, later, map, work) {
    const found = [], { states } = cluster.known, state = statesOn(map, states);
    for (const pool of pools) {
        const lies = (copy, held) => listsIn(copy, pool, NOW, held, state, "Where the groups lie then", work);
        const after =
            await withCopy(cluster, { text: later.texts[later.places[pool.id]], pools: [pool] }, work, async (copy) => {
            const held = (await exceptionsOf(cluster, pool, work)).withPairs(copy.pairs.get(pool.id));
            const lists = await lies(copy, held), left = held.copied();
            if (
                !await removeBroken(
                    cluster, copy, pool, NOW, left, { states, map }, before.get(pool.id), lists, work
                )
            )
                return lists;
            await copy.exceptions(pool, left.sent());
            return lies(copy, left);
        });
        found.push(...await differ([pool], before, new Map([[pool.id, after]])));
    }
    return found;
}

// The impact lists of these devices in each pool: of a pool the groups that are in any of them, or
// have an exception to one of them that the service doesn't know. `wanted` says whether they still
// are.
export async function canMove(cluster, pools, devices, work, wanted = () => true) {
    const found = new Map();
    for (const pool of pools) {
        const has = new Set(), { pairs, lists } = await exceptionsOf(cluster, pool, work);
        const own = new Set(devices);
        for (const id of devices) {
            if (!wanted()) throw new Stopped();
            work.step(`Which groups can move: ${pool.name}, ${cluster.name(id)}`);
            const { groups } = await report(
                "impact", `Impact of ${cluster.name(id)}`, `${cluster.path(pool)}/impact/${id}`, pool,
                work.signal
            );
            for (const it of groups) has.add(it);
        }
        for (const [group, of] of pairs) if (of.some(([, to]) => own.has(to))) has.add(group);
        for (const [group, of] of lists) if (of.some((id) => own.has(id))) has.add(group);
        found.set(pool.id, has);
    }
    return found;
}

// How many of these groups have pairs that break the pool's rule; Ceph's monitors remove these.
export async function breaking(cluster, copy, pool, groups, exceptions, work) {
    const state = statesOn(cluster.map, cluster.known.states);
    const { breaks } = keeper(cluster.map, (id) => state(id).reweight > 0);
    let found = 0;
    for (const [group, pairs] of groups) {
        work.step(`Whether group ${group} keeps to its rule`);
        const { raw } = await askGroup(`/t/${copy.name}/pools/${pool.id}`, group, work);
        if (breaks(pool, raw, pairs, exceptions.lists.get(group))) found += 1;
    }
    return found;
}

export { good } from "./copies.js";
export { report };
