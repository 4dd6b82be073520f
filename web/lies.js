// Where the groups of a pool lie in a copy, as Ceph puts them: the service's lists, with what it
// doesn't know: whole upmap lists, set primaries, upmap items that are more than it takes at once,
// and primary affinity.
import { ask, askLong, read } from "./service.js";
import { meaning } from "./codes.js";
import { PAIRS, Unlike, good } from "./copies.js";
import { listAt } from "./lists.js";
import { readLong } from "./reading.js";
import { led, settledUp } from "./settled.js";
import { stateOf } from "./shares.js";

export const EMPTY = 1, NOW = 2;
const GONE = { reweight: 0, up: false };
// how many groups are asked for one by one
export const MOST = 64;

export function notRead(what) {
    return new Unlike(`${what}: the reply can't be read.`);
}

// A long reply as the worker reads it; `more` is what it needs beside that.
export async function report(kind, what, path, more, signal) {
    const { status, bytes } = await askLong(what, path, signal);
    if (status !== 200) throw new Unlike(`${what}: ${meaning(status, read(bytes).error)}`);
    const found = await readLong(kind, [bytes], more);
    if (!found) throw notRead(what);
    return found;
}

// The pairs of each group, as they are written.
export function byGroup(pairs) {
    const found = new Map();
    for (const { group, from, to } of pairs) found.set(group, [...found.get(group) ?? [], [from, to]]);
    return found;
}

function flatPairs(pairs) {
    return [...pairs].flatMap(([group, own]) => own.map(([from, to]) => ({ group, from, to })));
}

// What groups of a pool have beside their rule: pairs, whole lists and primaries by group.
// `affine` is whether devices have a primary affinity.
export class Exceptions {
    constructor(known, pool, pairs) {
        const groups = Object.entries(known.primaries[pool.id] ?? {}).map(
            ([group, device]) => [Number(group), device]
        );
        Object.assign(
            this,
            {
                pairs: byGroup(pairs),
                lists: new Map((known.whole[pool.id] ?? []).map((it) => [it.group, it.devices])),
                primaries: new Map(groups), affinity: known.affinity,
                affine: Object.keys(known.affinity).length > 0
            }
        );
    }

    // the groups that have more than pairs
    others() {
        return new Set([...this.lists.keys(), ...this.primaries.keys()]);
    }

    of(group) {
        return {
            list: this.lists.get(group), pairs: this.pairs.get(group), primary: this.primaries.get(group)
        };
    }

    // whether there are more pairs than the service takes of a pool
    isBatched() {
        let count = 0;
        for (const it of this.pairs.values()) count += it.length;
        return count > PAIRS;
    }

    // parts of the pairs by group, each with as many as the service takes
    parts() {
        const found = [new Map()];
        let room = PAIRS;
        for (const [group, own] of this.pairs) {
            if (own.length > room) {
                found.push(new Map());
                room = PAIRS;
            }
            found.at(-1).set(group, own.slice(0, PAIRS));
            room -= Math.min(own.length, PAIRS);
        }
        return found;
    }

    // the pairs that the service has of the pool
    sent() {
        return this.isBatched() ? [] : flatPairs(this.pairs);
    }

    // the same with other pairs
    withPairs(pairs) {
        return Object.assign(Object.create(Exceptions.prototype), this, { pairs: byGroup(pairs) });
    }

    // the same, to be changed
    copied() {
        return Object.assign(
            Object.create(Exceptions.prototype), this,
            { pairs: new Map(this.pairs), lists: new Map(this.lists) }
        );
    }
}

// The state of a device, where one that the map lacks is out.
export function statesOn(map, states) {
    return (id) => (map.byId.has(id) || states[id] ? stateOf(states, id) : GONE);
}

// A group as the service says it, with what it doesn't know of it.
export function settled(pool, reply, exceptions, state, isBatched) {
    const { group, raw } = reply;
    const has = exceptions.others().has(group) || isBatched && exceptions.pairs.has(group);
    const up = has ? settledUp(pool, raw, exceptions.of(group), state) : reply.up;
    return { ...reply, ...led(pool, group, up, exceptions.affinity) };
}

// What the service says of a group in a tenant.
export async function askGroup(path, group, work) {
    return good(
        await ask(`Group ${group}`, "GET", `${path}/groups/${group}`, undefined, work.signal),
        `Group ${group}`
    );
}

// The same of many groups, as many at a time as the web server lets one have: each with its reply.
export async function askGroups(path, groups, work) {
    const left = [...groups], found = new Map();
    const next = async () => {
        for (let group = left.pop(); group !== undefined; group = left.pop()) {
            work.goesOn();
            found.set(group, await askGroup(path, group, work));
        }
    };
    await Promise.all([next(), next()]);
    return found;
}

// What a pool's rule gives to some groups, before exceptions and before devices that are down are
// taken out: a list of each. Of few groups each is asked for. Else all lists are, once nothing is
// set of the pool and all devices are up; `pairs` are then set again, and so are the states.
export async function rawsIn(copy, pool, version, groups, state, pairs, work) {
    const path = `/t/${copy.name}/pools/${pool.id}`;
    if (groups.length <= MOST)
        return new Map(Array.from(await askGroups(path, groups, work), ([group, { raw }]) => [group, raw]));
    const down = [...copy.devices].filter((id) => !state(id).up);
    await copy.exceptions(pool, []);
    await copy.states(down.map((id) => ({ id, up: true })));
    const lists = await report(
        "lists", `Lists of ${pool.name}`, `${path}/moves/${EMPTY}/${version}`, pool, work.signal
    );
    await copy.states(down.map((id) => ({ id, up: false })));
    if (pairs.size) await copy.exceptions(pool, flatPairs(pairs));
    return new Map(
        groups.map((group) => [group, Array.from(listAt(lists, group), (it) => (it === -1 ? null : it))])
    );
}

// The lists of a pool's groups in a copy, on one version, with exceptions and states: up lists, the
// primaries, and what each device has by the service alone (`counts`).
export async function listsIn(copy, pool, version, exceptions, state, words, work) {
    const path = `/t/${copy.name}/pools/${pool.id}`;
    const lists = () => report(
        "lists", `Lists of ${pool.name}`, `${path}/moves/${EMPTY}/${version}`, pool, work.signal
    );
    work.step(`${words}: ${pool.name}`);
    work.goesOn();
    const found = await lists(), others = [...exceptions.others()].filter((it) => it < pool.pg_num);
    const own = new Map(), isBatched = exceptions.isBatched();
    if (isBatched) {
        for (const part of exceptions.parts()) {
            await copy.exceptions(pool, flatPairs(part));
            const more = await lists();
            for (const group of part.keys()) own.set(group, listAt(more, group));
        }
        await copy.exceptions(pool, []);
    }
    if (others.length) {
        work.step(`${words}: ${pool.name}, groups with lists and primaries of their own`);
        for (
            const [group, raw] of await rawsIn(
                copy, pool, version, others, state, isBatched ? new Map() : exceptions.pairs, work
            )
        )
            own.set(
                group, Int32Array.from(settledUp(pool, raw, exceptions.of(group), state), (it) => it ?? -1)
            );
    }
    if (!own.size && !exceptions.affine) return found;
    const after = await readLong("settled", [], { pool, lists: found, own, affinity: exceptions.affinity });
    if (!after) throw notRead(`Lists of ${pool.name}`);
    return { ...after, counts: found.counts };
}
