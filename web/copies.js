// A copy of a tenant, made for one look and dropped afterwards, so that the planner's own tenant
// isn't changed. Copies have numbers, so that those which a closed browser left are found.
import { ask, change, forget, kept } from "./service.js";
import { meaning } from "./codes.js";
import { devicesIn } from "./map.js";

const COPY = "crushcalc.copy.", CHANGES = 1024, MOST = 16;
// the longest name of which copies can be made
export const LONGEST = 46;
const inUse = new Set();

export class Unlike extends Error {}

// The reply where it is one of these, or an end with what it says.
export function good(reply, what) {
    if (reply.status === 200 || reply.status === 201) return reply;
    throw new Unlike(`${what}: ${meaning(reply.status, reply.error)}`);
}

function nameOf(tenant, number) {
    return `${tenant}.copy-${number.toString(16).padStart(12, "0")}`;
}

// While a page works with a copy it holds a lock of its name, so that no other page drops it.
function holding(name, act, how = {}) {
    return navigator.locks ? navigator.locks.request(COPY + name, how, act) : act(true);
}

export async function drop(name) {
    const reply = await ask(`Drop the copy ${name}`, "DELETE", `/t/${name}`);
    if (reply.status === 200 || reply.status === 404) localStorage.removeItem(COPY + name);
    return reply;
}

// Drops the copies that a page of this browser left.
export async function dropLeft() {
    for (const key of Object.keys(localStorage).filter((it) => it.startsWith(COPY))) {
        const name = key.slice(COPY.length);
        await holding(name, (free) => free && drop(name), { ifAvailable: true });
    }
    for (const record of kept().filter((it) => it.note?.copy && !localStorage.getItem(COPY + it.tenant)))
        forget(record);
}

// The copies of a tenant that the service has, whichever browser made them.
export async function copiesOf(tenant, signal) {
    const found = [];
    // one after the other: a web server may let a user have two requests at a time
    for (const name of Array.from({ length: MOST }, (_, it) => nameOf(tenant, it + 1))) {
        const reply = await ask(`Look for ${name}`, "GET", `/t/${name}`, undefined, signal);
        if (reply.status === 200 && !inUse.has(name)) found.push(name);
    }
    return found;
}

// A new tenant with the first name of a copy that is free. Where the reply was lost, one that is
// there and empty is the one that was made.
async function made(tenant, signal) {
    for (let number = 1; number <= MOST; number += 1) {
        const name = nameOf(tenant, number);
        const reply = await ask(`Make the copy ${name}`, "PUT", `/t/${name}`, undefined, signal);
        if (reply.status === 201) return name;
        if (reply.error !== "exists") good(reply, "The copy");
        if (reply.again && (await ask(`Look at ${name}`, "GET", `/t/${name}`, undefined, signal)).epoch === 0)
            return name;
    }
    throw new Unlike(`The service has ${MOST} copies of ${tenant} already: other browsers work with it, or `
        + `left them. Drop them on the view Map.`);
}

// The text of a map with the same devices and the rules of the same numbers, by which nothing lies
// anywhere: moves from it to another version list all groups.
export function emptyMap(text) {
    const devices = Array.from(text.matchAll(/^device \d+ \S+/gm), (it) => it[0]);
    const rules = text.matchAll(/^rule \S+ \{\s+id (\d+)\s+type (\w+)/gm);
    return [
        "tunable choose_local_tries 0", "tunable choose_local_fallback_tries 0", ...devices, "type 0 osd",
        ...Array.from(rules, ([, id, kind]) => `rule r${id} { id ${id} type ${kind} step emit }`), ""
    ].join("\n");
}

// The exceptions of a pool, without those that name a device which the newest map lacks: these have
// no effect, and the service takes none of them anew.
async function exceptionsOf(cluster, pool, { signal }, devices) {
    return (await exceptionsIn(cluster, pool, signal)).filter(
        (it) => devices.has(it.from) && devices.has(it.to)
    );
}

// The exceptions of a pool: those of the service, or all those that are more than it takes.
export async function exceptionsIn({ known, path }, pool, signal) {
    if (known.pairs[pool.id]) return known.pairs[pool.id].map(([group, from, to]) => ({ group, from, to }));
    return good(
        await ask(`Exceptions of ${pool.name}`, "GET", `${path(pool)}/exceptions`, undefined, signal),
        "The pool's exceptions"
    ).exceptions;
}

// How many pairs the service takes of a pool.
export const PAIRS = 1024;

// What is sent of a pool to the service.
export function poolBody({ id, name, kind, size, rule, pg_num, pgp_num, hashpspool }) {
    return { id, name, kind, size, rule, pg_num, pgp_num, hashpspool };
}

// A copy to which changes are made one after the other. `devices` are those of its newest text.
function writable(name, work, devices) {
    const set = async (what, route, fields) => {
        work.goesOn();
        return good(await change(what, name, route, fields, { copy: true }), what);
    };
    return {
        name, set, devices, pairs: new Map(),
        async states(changes) {
            for (const part of parts(changes.filter((it) => this.devices.has(it.id))))
                await set("Set states of devices in the copy", "devices", { devices: part });
        },
        exceptions: (pool, pairs) => set(
            "Set the pool's exceptions in the copy", "pools/exceptions", { id: pool.id, exceptions: pairs }
        ),
        // gives the number of the version
        map: async (text) => (await set("Import the map into the copy", "maps", { text })).version,
    };
}

// Version 1 has nothing anywhere, version 2 is the newest map of the tenant. Exceptions that are
// more than the service takes aren't set.
async function filled(copy, cluster, { text, pools }, work) {
    await copy.map(emptyMap(text));
    await copy.map(text);
    await copy.states(Object.entries(cluster.known.states).map(([id, it]) => ({ id: Number(id), ...it })));
    for (const pool of pools) {
        await copy.set("Make the pool in the copy", "pools", poolBody(pool));
        const pairs = await exceptionsOf(cluster, pool, work, copy.devices);
        copy.pairs.set(pool.id, pairs);
        if (pairs.length && pairs.length <= PAIRS) await copy.exceptions(pool, pairs);
    }
}

// Pools by the text that they have, each with the tenant's newest version of it, and by the one
// that they get later, where there is one.
export function groupsOf(cluster, pools, later = null) {
    const found = new Map();
    for (const pool of pools) {
        const key = `${cluster.of(pool)} ${later?.places[pool.id]}`;
        if (!found.has(key))
            found.set(
                key,
                {
                    text: cluster.texts.get(cluster.of(pool)), later: later?.texts[later.places[pool.id]],
                    pools: []
                }
            );
        found.get(key).pools.push(pool);
    }
    return [...found.values()];
}

// Makes a copy of pools that have one text, with the known states of devices and with their
// exceptions, and gives what `act` gives of it. The copy is dropped then.
export function withCopy(cluster, group, work, act) {
    if (cluster.tenant.length > LONGEST)
        throw new Unlike(`A copy has a longer name than its cluster, whose name may have ${LONGEST} letters `
            + `for that.`);
    return new Promise((done, failed) => {
        work.step("Making a copy of the cluster");
        made(cluster.tenant, work.signal).then((name) => holding(name, async () => {
            localStorage.setItem(COPY + name, "1");
            inUse.add(name);
            try {
                const copy = writable(name, work, devicesIn(group.text));
                await filled(copy, cluster, group, work);
                done(await act(copy));
            } catch (why) {
                failed(why);
            }
            try {
                await drop(name);
            } finally {
                inUse.delete(name);
            }
        })).catch(failed);
    });
}

// Drops what is in use when the page goes, without waiting for an answer.
export function leave() {
    for (const name of inUse)
        fetch(`/t/${name}`, { method: "DELETE", keepalive: true, redirect: "error" }).catch(() => {});
}

export function parts(all) {
    return Array.from(
        { length: Math.ceil(all.length / CHANGES) }, (_, it) => all.slice(it * CHANGES, (it + 1) * CHANGES)
    );
}
