// Files that are dropped or chosen: which of a cluster's files each of them is, and what it says.
import { BUCKETS, DEVICES, computedPools, fits } from "./computable.js";
import { pause } from "./dom.js";
import { Fault, WRITES, isOfGroups, kindOf, readCrush, readOsd } from "./dump.js";
import { marked, textsOf } from "./map_texts.js";
import { WRITTEN } from "./read_result.js";
import { readText } from "./read_text.js";
import { readLong } from "./reading.js";
import { many } from "./words.js";

const LONGEST_FILE = 16_777_216, LONGEST_GROUPS = 268_435_456, START = 400;

// The text of a file as it is, its byte order mark too.
async function textIn(file) {
    if (file.size > LONGEST_FILE)
        throw new Fault(`${file.name} isn't read: it is longer than ${many(LONGEST_FILE, "byte")}.`);
    return new TextDecoder("utf-8", { ignoreBOM: true }).decode(await file.arrayBuffer());
}

// A dump of groups, which the worker reads.
async function groupsIn(file) {
    if (file.size > LONGEST_GROUPS)
        throw new Fault(`${file.name} isn't read: it is longer than ${many(LONGEST_GROUPS, "byte")}.`);
    const read = await readLong("pgs", [await file.arrayBuffer()]);
    if (!read) throw new Fault(`${file.name}: it isn't what '${WRITES.pgs}' writes.`);
    return { name: file.name, kind: "pgs", read: read.pools };
}

async function fileIn(file) {
    if (isOfGroups(await file.slice(0, START).text())) return groupsIn(file);
    const text = await textIn(file);
    const { kind = /^\ufeff?"?id"?,/.test(text) ? "states" : "text", whole } = kindOf(text);
    if (kind !== "other") return { name: file.name, kind, text, whole };
    const written = Object.values(WRITES).join(", ");
    throw new Fault(`${file.name} is none of what 'crushplan fetch' writes (${written}), nor what `
        + `${WRITTEN} writes, and no map text.`);
}

// What the files are: of each kind one. A folder that `crushplan fetch` wrote has the map twice.
export async function filesOf(list) {
    const found = {};
    for (const file of list) {
        const it = await fileIn(file);
        if (found[it.kind])
            throw new Fault(`${it.name} and ${found[it.kind].name} are of one kind: drop one of them.`);
        found[it.kind] = it;
    }
    if (found.crush && found.text) delete found.text;
    return found;
}

// What osd.json and crush.json say, where they are among the files. Each is read once. `there` says
// whether the cluster has a device, where no osd.json does.
export function osdIn({ osd }) {
    if (osd) osd.read ??= readOsd(osd.whole, osd.name);
    return osd?.read;
}

export function crushIn(files, there) {
    const { crush } = files, osd = osdIn(files);
    if (crush) crush.read ??= readCrush(crush.whole, crush.name, osd ? (id) => osd.states.has(id) : there);
    return crush?.read;
}

// The map of the files: its texts for the service, the first one alone where a text can't be read
// here, and the map as it is read (`dump`). `pools` are those that it is for, where no osd.json
// says them: of those that can't be computed `left` says why.
export async function mapIn(files, osd, there, pools = []) {
    const dump = crushIn(files, there), own = osd?.pools ?? pools;
    if (dump) return written(files.crush.name, dump, osd, own);
    return files.text && ofText(files.text, osd, osd ? (id) => osd.states.has(id) : there, own);
}

async function written(name, dump, osd, pools) {
    const { kept, left } = computedPools(pools, (id) => dump.rules.get(id), dump.file, dump);
    const more = osd ? [...osd.states.keys()].filter((id) => !dump.devices.has(id)) : [];
    const found = await textsOf(dump, kept, more);
    return { name, ...found, text: found.texts[0], more: 0, dump, left };
}

// The map of a text. The service gets it as it is where it computes all of it, or where that isn't
// known and it says what is wrong; else what is computed of it, as of a dump. What pools a weight
// set places isn't known before there are pools.
async function ofText({ name, text }, osd, there, pools) {
    const own = marked(text), asItIs = { ...own, texts: [own.text] };
    const read = await readOrNot(text, name, there);
    await pause();
    const whole = read && fits(read) && !read.weightSets.size;
    await pause();
    if (!read || !pools.length && !(whole && read.takesClasses))
        return { name, ...asItIs, places: {}, shown: 1, dump: null };
    const found = await written(name, read, osd, pools);
    return whole && !read.takesClasses && isOne(read) ? { ...found, ...asItIs } : found;
}

// The map of a text, or nothing where the text can't be one, of which the service says the line.
async function readOrNot(text, name, there) {
    try {
        return await readText(text, name, there);
    } catch (why) {
        if (why instanceof Fault) return null;
        throw why;
    }
}

// Whether a map can stand in one text.
function isOne({ buckets, devices }) {
    return [...buckets.values()].filter((it) => !it.shadow).length <= BUCKETS && devices.size <= DEVICES;
}
