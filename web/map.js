// A map, read from the canonical text that the service gives: what contains what, with weights as
// they are written there, and the rules.
import { pause } from "./dom.js";

const ONE = 65536, BLANKS = /\s+/;

// The words of a line; nearly all lines have single blanks between them, and no remark.
function wordsOf(line) {
    const remark = line.indexOf("#"), said = (remark < 0 ? line : line.slice(0, remark)).trim();
    return said.includes("\t") || said.includes("  ") ? said.split(BLANKS) : said.split(" ");
}

export function readMap(...texts) {
    return joined(...all(texts.map(parsed)));
}

// The same of long texts, in parts, so that the browser can draw and listen between them.
export async function readLongMap(texts) {
    const parts = [];
    for (const it of texts) {
        parts.push(parsed(it));
        await pause();
    }
    const whole = all(parts);
    await pause();
    return joined(...whole);
}

// The devices that a text declares, by id.
export function devicesIn(text) {
    return new Set(Array.from(text.matchAll(/^device (\d+) /gm), (it) => Number(it[1])));
}

// What some texts of one map have together.
function all(parts) {
    const [first, ...others] = parts;
    for (const [devices, buckets, rules, types] of others) {
        for (const [at, more] of [[0, devices], [1, buckets], [3, types]])
            for (const [name, it] of more) if (!first[at].has(name)) first[at].set(name, it);
        for (const it of rules) if (!first[2].some((one) => one.id === it.id)) first[2].push(it);
    }
    return first;
}

function parsed(text) {
    const devices = new Map(), buckets = new Map(), rules = [], types = new Map();
    let open = null;
    for (const line of text.split("\n")) {
        const words = wordsOf(line);
        if (words[0] === "" || words[0] === "tunable") continue;
        if (words[0] === "type" && !open) {
            types.set(words[2], Number(words[1]));
        } else if (words[0] === "}") {
            open = null;
        } else if (words.at(-1) === "{") {
            open = words[0] === "rule"
                ? { name: words[1], steps: [] }
                : { name: words[1], type: words[0], items: [] };
            if (words[0] === "rule") rules.push(open); else buckets.set(open.name, open);
        } else if (words[0] === "device" && !open) {
            devices.set(words[2], { id: Number(words[1]), name: words[2], buckets: [] });
        } else if (words[0] === "id") {
            open.id = Number(words[1]);
        } else if (words[0] === "alg") {
            open.alg = words[1];
        } else if (words[0] === "type") {
            open.kind = words[1];
        } else if (words[0] === "item") {
            open.items.push({ name: words[1], weight: words[3], number: weightIn(words[3]) });
        } else if (words[0] === "step") {
            open.steps.push(words.slice(1));
        }
    }
    return [devices, buckets, rules, types];
}

// A weight as the service has it, in 65536ths: its text has five decimals, rounded up.
function weightIn(text) {
    return Math.floor(Number(text) * ONE + 0.01) / ONE;
}

// Each bucket and device with the buckets that have it as an item; the roots are in none. `buckets`
// are those that people see, `all` has the trees of single classes too, from which rules take.
function joined(devices, buckets, rules, types) {
    const byId = new Map();
    for (const it of devices.values()) byId.set(it.id, it);
    const every = [...buckets.values()], all = every.filter((it) => !isOfClass(it));
    for (const bucket of every)
        for (const item of bucket.items)
            Object.assign(item, { device: devices.get(item.name), bucket: buckets.get(item.name) });
    const places = new Map();
    for (const it of every.flatMap((bucket) => bucket.items))
        places.set(it.name, (places.get(it.name) ?? 0) + 1);
    for (const bucket of every) {
        // `whole` has the holes too
        bucket.whole = bucket.items;
        for (const it of bucket.whole) it.hole = isHole(bucket, it, places);
        bucket.items = bucket.items.filter((it) => !it.hole);
    }
    for (const bucket of all)
        for (const it of bucket.items) ((it.device ?? it.bucket).buckets ??= []).push(bucket);
    const fillers = [...devices.values()].filter(
        (it) => isFiller(it) && !it.buckets.length && places.has(it.name)
    );
    for (const it of fillers) {
        devices.delete(it.name);
        byId.delete(it.id);
    }
    const roots = all.filter((it) => !it.buckets?.length), seen = new Map(all.map((it) => [it.name, it]));
    return {
        devices, fillers, buckets: seen, all: buckets, rules, types, byId, roots,
        hosts: hostsOf(devices, seen), levels: levelsOf(all, types)
    };
}

// What a map says, to be compared with another one: weights as numbers.
export function signature({ devices, all, rules }) {
    const items = (it) => it.whole.map(({ name, number }) => [name, number]);
    return JSON.stringify(
        [
            [...devices.values()].map((it) => [it.id, it.name]).sort(),
            [...all.values()].map((it) => [it.id, it.name, it.type, it.alg, items(it)]).sort(),
            rules.map((it) => [it.id, it.kind, it.steps]).sort()
        ]
    );
}

// Where a device was removed from a tree bucket Ceph leaves the device 0 with the weight 0, which
// stands elsewhere too, and a mended text has a device of the weight 0 named hole: for people
// neither is there.
function isHole(bucket, { device, name, number }, places) {
    return bucket.alg === "tree" && number === 0 && device && (
        device.id === 0 && places.get(name) > 1 || isFiller(device)
    );
}

// Whether a bucket has the name of those in the tree of a class alone, which Ceph writes as
// default~hdd, and a text can't.
function isOfClass({ id, name }) {
    return name.startsWith("class.") && name.endsWith(`.${-id}`);
}

// Whether a device has the name of those that fill holes.
function isFiller({ id, name }) {
    return name === `hole.${id}`;
}

// The types of which there are buckets, those nearest to the devices first.
function levelsOf(buckets, types) {
    const there = new Set(buckets.map((it) => it.type));
    return [...types.keys()].filter((it) => there.has(it)).sort((a, b) => types.get(a) - types.get(b));
}

// The devices below a bucket, each once.
export function devicesBelow(bucket) {
    if (!bucket.below) {
        const found = new Set();
        for (const it of bucket.items)
            for (const one of it.device ? [it.device] : devicesBelow(it.bucket)) found.add(one);
        bucket.below = [...found];
    }
    return bucket.below;
}

// The weights that a device has in its buckets, as they are written, and added where it is in
// several.
export function weightOf(device) {
    const found = device.buckets.flatMap(
        (it) => it.items.filter((item) => item.device === device).map((item) => item.weight)
    );
    return found.length === 1 ? found[0] : String(found.reduce((sum, it) => sum + Number(it), 0));
}

// The buckets that have devices as items, each with these, in the order of the map; and what is in
// no bucket.
function hostsOf(devices, buckets) {
    const hosts = [...buckets.values()].filter((it) => it.items.some((item) => item.device)).map((it) => ({
        name: it.name, type: it.type, path: pathOf(it),
        devices: it.items.filter((item) => item.device).map((item) => item.device),
    }));
    const alone = [...devices.values()].filter((it) => !it.buckets.length);
    return alone.length ? [...hosts, { name: "in no bucket", type: "", path: "", devices: alone }] : hosts;
}

// The names of the buckets above, the nearest first.
export function pathOf(bucket) {
    const names = [];
    for (let it = bucket.buckets?.[0]; it; it = it.buckets?.[0]) names.push(it.name);
    return names.join(", ");
}
