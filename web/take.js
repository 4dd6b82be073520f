// What files say is set on the service: a cluster's own dumps, the text of a map, a CSV of states,
// what another browser saved.
import { change } from "./service.js";
import { meaning } from "./codes.js";
import { computedPools } from "./computable.js";
import { PAIRS, good, poolBody } from "./copies.js";
import { Fault, RJENKINS, readDf, readOsdDf } from "./dump.js";
import { el, fault } from "./dom.js";
import { SAID, known, note, statesOf as statesIn } from "./known.js";
import { devicesBelow } from "./map.js";
import { reachOf } from "./reach.js";
import { faultOf } from "./refused.js";
import { keyOf, rowsOf } from "./sets.js";
import { hasSides, makeSides, noteFor, setStates, tenantWith } from "./sides.js";
import { count, many, some } from "./words.js";

const LONGEST_BODY = 5_242_880;

// What is to be shown of a map that isn't imported.
export class Refused extends Error {
    constructor(shown) {
        super("refused");
        this.shown = shown;
    }
}

// Whether a map has weights with all their decimals.
export function isExact({ dump }) {
    return Boolean(dump && !dump.rounded);
}

// Imports a map as the next version, and gives its number; its other texts go to tenants of their
// own.
export async function importMap(tenant, map, take) {
    const { name, text } = map;
    for (const it of map.texts)
        if (it.length > LONGEST_BODY)
            throw new Fault(`${name} isn't sent: it is longer than the 5,242,880 bytes that a request may `
                + `have.`);
    const reply = await change(`Import ${name}`, tenant, "maps", { text }, { file: name });
    if (reply.status === 201) note(tenant, { exact: isExact(map) });
    if (reply.status === 201) return reply.version;
    throw new Refused(
        reply.error === "map_refused"
            ? faultOf({ ...map, reply }, take)
            : fault(`${name} isn't imported. `, meaning(reply.status, reply.error))
    );
}

// ---- pools, states and exceptions of osd.json

// What the dump has that placements here don't have, each with the pools, groups and devices that
// it touches.
function oddities(osd, dump, pools) {
    const lines = [], groups = (all) => some(all.map(([pool, group]) => `${pool}.${group.toString(16)}`));
    const said = (all, has, what) => all.length
        && lines.push(`${many(all.length, "group")} with ${has}: ${groups(all)}; ${what}`);
    for (const it of osd.pools) {
        if (it.splits)
            lines.push(`pool ${it.name} is being split or merged (pg_num ${it.pg_num} on its way to `
                + `${it.splits[0]}, pgp_num ${it.pgp_num} to ${it.splits[1]}): it is computed as it is now, `
                + `and its groups move by themselves`);
        if (it.hash !== RJENKINS)
            lines.push(`pool ${it.name} has another object hash than rjenkins: where its groups lie is `
                + `computed, where its objects lie isn't`);
        if (it.stretched)
            lines.push(`pool ${it.name} is stretched over sites: where its groups lie is computed, and `
                + `whether the I/O of a group stops isn't, since it also stops where a site has no copy`);
    }
    said(
        osd.temporary.lists, "a temporary list (pg_temp)", "what is said is where they lie once that is over"
    );
    said(
        osd.temporary.primaries, "a temporary primary (primary_temp)",
        "what is said is where they lie once that is over"
    );
    for (const [key, own] of dump?.weightSets ?? []) {
        const in_use = pools.filter(
            (it) => keyOf(dump, it.id) === key && rowsOf(
                dump, key, reachOf(dump, dump.rules.get(it.rule)).buckets
            ).size
        );
        if (own.rounded && in_use.length)
            lines.push(`${dump.file} has rounded weights of 256 and more in the weight set choose_args `
                + `${key}: a few groups of ${some(in_use.map((it) => it.name))} may lie otherwise`);
    }
    return lines;
}

// The states of a dump; devices of the map that it lacks count as out and down.
function statesOf(osd, map) {
    const placed = [...map.devices.values()].filter((it) => it.buckets.length && !osd.states.has(it.id));
    return new Map([...osd.states, ...placed.map((it) => [it.id, { reweight: 0, up: false }])]);
}

// Sets states in the cluster's own tenant, and in those of its other texts, which are new.
async function setAllStates(cluster, states, { whole: isNew }) {
    const { tenant, map, texts } = cluster;
    const wanted = [...states].filter(([id]) => map.byId.has(id)).map(([id, it]) => ({ id, ...it }));
    const whole = (it) => it.reweight === 65536 && it.up, changed = wanted.filter((it) => !whole(it));
    const [own, ...others] = texts;
    good(await setStates(tenant, [own], isNew ? changed : wanted), "The states of devices");
    good(await setStates(tenant, others, changed), "The states of devices");
    return changed.length;
}

async function makePool(tenant, pool) {
    const at = tenantWith(tenant, known(tenant), pool), noted = (more) => noteFor(tenant, at, more);
    const body = poolBody(pool);
    const send = () => change(
        `Make the pool ${pool.name}`, at, "pools", body, noted({ min_size: pool.min_size })
    );
    const same = (it) => JSON.stringify(poolBody(it)) === JSON.stringify(body);
    const there = known(tenant).pools.find((it) => it.id === pool.id);
    if (there && same(there))
        return note(
            tenant,
            {
                pools: known(tenant).pools.map(
                    (it) => (it.id === pool.id ? { ...it, min_size: pool.min_size } : it)
                )
            }
        );
    if (there)
        good(
            await change(`Remove the pool ${there.name}`, at, "pools/remove", { id: pool.id }, noted()),
            `The pool ${there.name}`
        );
    let reply = await send();
    if (reply.error === "exists" && !there) {
        await change(`Remove the pool ${pool.name}`, at, "pools/remove", { id: pool.id }, noted());
        reply = await send();
    }
    return good(reply, `The pool ${pool.name}`);
}

// The pairs of a pool's upmap items, of which those count whose devices the map has.
function pairsOf(osd, pool, map) {
    return osd.upmaps.filter(({ at: [id, group] }) => id === pool.id && group < pool.pg_num).flatMap(
        ({ at: [, group], pairs }) => pairs.filter(
            ([from, to]) => from !== to && map.byId.has(from) && map.byId.has(to)
        ).map(([from, to]) => ({ group, from, to }))
    );
}

// The devices that a pool which isn't computed may have: those below what its rule takes; none
// where that isn't known, and then it may have any.
function reached({ rule }, map, dump) {
    if (dump) return dump.rules.has(rule) ? [...reachOf(dump, dump.rules.get(rule)).devices] : [];
    const takes = map.rules.find((it) => it.id === rule)
        ?.steps.filter(([op]) => op === "take")
        .map((it) => it[1])
        ?? [];
    return takes.flatMap(
        (it) => (
            map.all.has(it)
                ? devicesBelow(map.all.get(it)).map((one) => one.id)
                : [map.devices.get(it)?.id].filter((id) => id !== undefined)
        )
    );
}

// The devices that a flag keeps in: of a device, a bucket, or a class by its name.
function flagged(name, map, dump) {
    const class_ = /^the class (.*)$/.exec(name)?.[1];
    if (class_ !== undefined)
        return [...dump?.classes ?? []].filter(([, it]) => it === class_).map(([id]) => id);
    return map.buckets.has(name)
        ? devicesBelow(map.buckets.get(name)).map((it) => it.id)
        : map.devices.has(name) ? [map.devices.get(name).id] : [];
}

// What of a dump the service doesn't know, by pool; of the pools in `left` it knows nothing.
function exceptionsOf(osd, pools, pairs, left) {
    const by = (list, make) => Object.fromEntries(
        pools.map(
            (pool) => [pool.id, list.filter(({ at }) => at[0] === pool.id && at[1] < pool.pg_num).map(make)]
        ).filter(([, own]) => own.length)
    );
    const primaries = Object.entries(
        by(osd.primaries, ({ at, device }) => [at[1], device])
    ).map(([id, own]) => [id, Object.fromEntries(own)]);
    const batched = pools.filter((it) => left.has(it) || pairs.get(it).length > PAIRS);
    return {
        whole: by(osd.lists, ({ at, devices }) => ({ group: at[1], devices })),
        primaries: Object.fromEntries(primaries), affinity: osd.affinity,
        pairs: Object.fromEntries(
            batched.map((it) => [it.id, pairs.get(it).map(({ group, from, to }) => [group, from, to])])
        ),
        moving: by(osd.temporary.lists.map((at) => ({ at })), ({ at }) => at[1]),
    };
}

// Takes away what stands of pools that the dump lacks, or that get another text.
async function removeOthers(tenant, before, pools, work) {
    for (
        const it of known(tenant).pools.filter(
            (one) => before[one.id] || known(tenant).sides[one.id]
                || !pools.some((pool) => pool.id === one.id)
        )
    ) {
        work.step(`Removing the pool ${it.name}`);
        // that of another text went with its tenant
        if (before[it.id]) note(tenant, { pools: known(tenant).pools.filter((one) => one.id !== it.id) });
        else good(
            await change(`Remove the pool ${it.name}`, tenant, "pools/remove", { id: it.id }, {}),
            `The pool ${it.name}`
        );
    }
}

// Sets what osd.json says on a cluster that has its map. `map` is that of the files, with its
// texts, or null where osd.json came alone. `open` opens the cluster anew.
export async function takeOsd(tenant, osd, map, fresh, open, work) {
    const before = known(tenant).sides;
    if (!map && (known(tenant).texts > 1 || await hasSides(tenant)))
        throw new Fault("This cluster's map has several texts: drop crush.json too.");
    if (map) {
        work.step("Making the other texts of the map");
        await makeSides(tenant, map, fresh);
    }
    const cluster = await open(), on = cluster.map, dump = map?.dump;
    const rules = new Map(on.rules.map((it) => [it.id, it]));
    const { kept: pools, left: faults } = dump
        ? computedPools(osd.pools, (id) => dump.rules.get(id), dump.file, dump)
        : computedPools(osd.pools, (id) => rules.get(id), "the map", null);
    const pairs = new Map(pools.map((it) => [it, pairsOf(osd, it, on)]));
    const left = [...faults].map(
        ([it, why]) => (
            {
                pool: it.id, name: it.name, body: { ...poolBody(it), min_size: it.min_size },
                devices: reached(it, on, dump), text: `pool ${it.name} (${it.id}) isn't computed: ${why}`
            }
        )
    );
    const lines = [...left.map((it) => it.text), ...oddities(osd, dump, pools)];
    work.step("Setting the states of devices");
    const states = await setAllStates(cluster, statesOf(osd, on), { whole: fresh });
    const lacking = [...osd.states.keys()].filter((id) => !on.byId.has(id));
    if (lacking.length)
        lines.push(`${osd.file} has devices that the map lacks; they hold nothing: `
            + `${some(lacking.map((it) => `osd.${it}`))}`);
    const missing = [...on.devices.values()].filter((it) => it.buckets.length && !osd.states.has(it.id));
    if (missing.length)
        lines.push(`the map has devices that ${osd.file} lacks; they count as out and down: `
            + `${some(missing.map((it) => `osd.${it.id}`))}`);
    if (map && !isExact(map))
        lines.push(`${map.name} has weights that 'crushtool -d' rounded to three decimals; crush.json `
            + `('ceph osd crush dump -f json') has exact ones`);
    // the tenant has the pools of the dump then, and no other
    await removeOthers(tenant, map ? before : {}, pools, work);
    // a pool that isn't computed may be on another map, where its pairs count
    for (const it of faults.keys()) pairs.set(it, pairsOf(osd, it, on));
    const own = exceptionsOf(osd, [...pools, ...faults.keys()], pairs, faults);
    let set = 0;
    for (const pool of pools) {
        work.step(`Making the pool ${pool.name}`);
        await makePool(tenant, pool);
        const all = pairs.get(pool), sent = own.pairs[pool.id] ? [] : all;
        const at = tenantWith(tenant, known(tenant), pool);
        if (sent.length || !fresh)
            good(
                await change(
                    `Set the upmap items of ${pool.name}`, at, "pools/exceptions",
                    { id: pool.id, exceptions: sent }, noteFor(tenant, at)
                ),
                `The upmap items of ${pool.name}`
            );
        set += all.length;
    }
    if (map) note(tenant, { exact: isExact(map) });
    note(tenant, {
        notes: lines, left, ...own, ratios: osd.ratios,
        stretched: pools.filter((it) => it.stretched).map((it) => it.id),
        splits: pools.filter((it) => it.splits).map((it) => it.id), flags: osd.flags,
        noout: osd.noout.map((name) => [name, flagged(name, on, dump)]), bytes: {}, rooms: {}, lying: null,
        doubt: null,
    });
    return `${pools.length < osd.pools.length ? `${count(pools.length)} of ` : ""}${many(osd.pools.length, "pool")}, `
        + `${many(states, "device")} with a reweight or down, ${many(set, "upmap item")}`;
}

// ---- the other files

// Takes what df.json and osd-df.json say of bytes, where they are there.
export function takeRooms(tenant, { df, osdDf }, osd) {
    const fields = {}, notes = [];
    if (df) fields.bytes = readDf(df.whole, df.name, osd?.pools ?? known(tenant).pools);
    if (osdDf) {
        const { rooms, odd } = readOsdDf(osdDf.whole, osdDf.name);
        fields.rooms = rooms;
        if (odd.length)
            notes.push(`${osdDf.name} has no number of how full ${some(odd)} `
                + `${odd.length === 1 ? "is" : "are"} (nan)`);
    }
    if (df || osdDf) note(tenant, { ...fields, notes: [...known(tenant).notes, ...notes] });
}

export async function takeStates(cluster, { name, text }) {
    const { tenant } = cluster;
    const reply = await change(`Set the states of ${name}`, tenant, "devices/csv", { csv: text }, {});
    if (reply.status !== 200)
        return fault(`The states of ${name} aren't set. `, meaning(reply.status, reply.error));
    good(
        await setStates(
            tenant, [...cluster.texts].slice(1), statesIn(text).map(([id, it]) => ({ id, ...it }))
        ),
        "The states of devices"
    );
    return el("p", { class: "done" }, `The states of ${name} are set: ${reply.devices} devices.`);
}

// What this browser knows of a tenant, as a file for another one.
export function savedOf(tenant) {
    const it = known(tenant), fields = ["seen", "pools", "states", "files", ...SAID];
    return JSON.stringify(
        { crushcalc: 1, tenant, ...Object.fromEntries(fields.map((name) => [name, it[name]])) }, null, 1
    );
}

// Takes over what another browser knew: it is confirmed where the cluster wasn't changed since.
export function takeSaved({ name, text }, summary) {
    const it = JSON.parse(text);
    if (it.crushcalc !== 1 || !Array.isArray(it.pools) || typeof it.states !== "object")
        throw new Fault(`${name} isn't a file that this page saved.`);
    if (it.tenant !== summary.tenant)
        throw new Fault(`${name} is of the cluster ${it.tenant}, not of ${summary.tenant}.`);
    note(
        summary.tenant,
        {
            pools: it.pools, states: it.states, files: it.files ?? {}, seen: it.seen,
            ...Object.fromEntries(SAID.filter((one) => one in it).map((one) => [one, it[one]]))
        }
    );
    return el(
        "p", { class: "done" },
        `${name} is read: ${many(it.pools.length, "pool")} and the states of `
            + `${many(Object.keys(it.states).length, "device")}.`
    );
}
