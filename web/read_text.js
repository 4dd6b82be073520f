// The map of a text as `crushtool -d` writes it, in the form of a dump's map: with classes, weight
// sets and what isn't computed, which the service doesn't read in a text.
import { pause } from "./dom.js";
import { Fault, MSR, TUNABLES } from "./dump.js";
import { markHoles } from "./holes.js";
import { makeShadows } from "./shadows.js";

const WORD = /[{}[\]]|[^\s{}[\]]+/g, INTEGER = /^-?\d{1,10}$/, WEIGHT = /^\d{1,10}(\.\d{1,20})?$/;
const SLICE_MS = 30;
// the key of the weight set of all pools, as crushtool writes it: that of a dump is -1
const ALL = "18446744073709551615";

// The words of a text, one after the other. Those of a line are found when it is their turn; `last`
// is the line of the last one that was found.
class Words {
    constructor(text, file) {
        Object.assign(this, { file, lines: text.split("\n"), line: 0, last: 1, words: [], place: 0 });
    }

    fill() {
        while (this.place >= this.words.length && this.line < this.lines.length) {
            this.words = this.lines[this.line].split("#", 1)[0].match(WORD) ?? [];
            this.place = 0;
            this.line += 1;
            if (this.words.length) this.last = this.line;
        }
    }

    fault(why) {
        this.fill();
        return new Fault(`${this.file}: line ${this.last}: ${why}`);
    }

    get left() {
        this.fill();
        return this.place < this.words.length;
    }

    peek() {
        this.fill();
        return this.words[this.place] ?? "";
    }

    // the next word; a Fault where there is none, or it isn't the one that is wanted
    next(wanted) {
        if (!this.left) throw this.fault("the text ends too early");
        if (wanted !== undefined && this.peek() !== wanted)
            throw this.fault(`'${this.peek()}' stands where '${wanted}' is wanted`);
        this.place += 1;
        return this.words[this.place - 1];
    }

    // whether the next word is this one, which is then passed
    passes(word) {
        if (this.peek() !== word) return false;
        this.place += 1;
        return true;
    }

    number() {
        if (!INTEGER.test(this.peek())) throw this.fault(`'${this.peek()}' isn't a whole number`);
        return Number(this.next());
    }

    weight() {
        if (!WEIGHT.test(this.peek())) throw this.fault(`'${this.peek()}' isn't a weight`);
        return fixed(this.next());
    }

    // what stands in brackets
    listed(one) {
        const found = [];
        this.next("[");
        while (this.peek() !== "]") found.push(one());
        this.next("]");
        return found;
    }
}

// The 65536ths of a weight, rounded down. Many items have the same one.
const weights = new Map();

function fixed(text) {
    if (!weights.has(text)) {
        const [whole, part = ""] = text.split(".");
        weights.set(text, Number(BigInt(whole + part) * 65536n / 10n ** BigInt(part.length)));
    }
    return weights.get(text);
}

// The map of a text; a Fault names the line where it can't be one. `there` says whether the cluster
// has a device of an id, where that is known. It is read in parts, so that the browser can draw and
// listen between them.
export async function readText(text, file, there) {
    const words = new Words(text.replace(/^\ufeff/, ""), file), ids = new Map(), shadows = [];
    const map = {
        file, rounded: true, types: new Map(), devices: new Map(), classes: new Map(), tunables: [],
        buckets: new Map(), rules: new Map(), weightSets: new Map()
    };
    for (let until = performance.now() + SLICE_MS; words.left;) {
        declared(words, words.next(), map, ids, shadows);
        if (performance.now() < until) continue;
        await pause();
        until = performance.now() + SLICE_MS;
    }
    await pause();
    if (!map.buckets.size && !map.devices.size)
        throw new Fault(`${file}: it declares no device and no bucket: it isn't what 'crushtool -d' writes`);
    map.takesClasses = takeClasses(map, shadows);
    map.holes = markHoles(map, there?.(0) ?? (map.devices.has(0) && map.devices.get(0) !== "device0"));
    return map;
}

function declared(words, word, map, ids, shadows) {
    if (word === "tunable") {
        const name = words.next(), value = words.number();
        if (TUNABLES.includes(name)) map.tunables.push([name, value]);
    } else if (word === "device") {
        const id = words.number(), name = words.next();
        map.devices.set(id, name);
        ids.set(name, id);
        if (words.passes("class")) map.classes.set(id, words.next());
    } else if (word === "type") {
        map.types.set(words.number(), words.next());
    } else if (word === "rule") {
        const rule = ruleOf(words, ids);
        map.rules.set(rule.id, rule);
    } else if (word === "choose_args") {
        const [key, own] = weightSetOf(words);
        map.weightSets.set(key, own);
    } else {
        const bucket = bucketOf(words, word, map, ids, shadows);
        map.buckets.set(bucket.id, bucket);
        ids.set(bucket.name, bucket.id);
    }
}

function bucketOf(words, typeName, map, ids, shadows) {
    const type = [...map.types].find(([, name]) => name === typeName)?.[0];
    if (type === undefined)
        throw words.fault(`'${typeName}' is neither a type of buckets nor the beginning of a declaration`);
    const bucket = {
        id: null, name: words.next(), type, alg: "", hash: "rjenkins1", items: [], shadow: null
    };
    const classes = [];
    words.next("{");
    while (!words.passes("}")) {
        const word = words.next();
        if (word === "id") {
            const id = words.number();
            if (words.passes("class")) classes.push([words.next(), id]);
            else bucket.id = id;
        } else if (word === "alg") {
            bucket.alg = words.next();
        } else if (word === "hash") {
            const hash = words.next();
            bucket.hash = hash === "0" ? "rjenkins1" : hash;
        } else if (word === "item") {
            bucket.items.push(itemOf(words, map, ids));
        } else {
            throw words.fault(`a bucket has no '${word}'`);
        }
    }
    if (bucket.id === null || bucket.id >= 0)
        throw words.fault(`the bucket '${bucket.name}' has no id below 0`);
    bucket.items = placed(words, bucket);
    for (const [name, id] of classes) shadows.push({ bucket: bucket.id, class: name, id });
    return bucket;
}

function itemOf(words, map, ids) {
    const name = words.next(), id = ids.get(name), item = { id, weight: null, place: null };
    if (id === undefined) throw words.fault(`the item '${name}' isn't declared before its bucket`);
    for (;;) {
        if (words.passes("weight")) item.weight = words.weight();
        else if (words.passes("pos")) item.place = words.number();
        else break;
    }
    item.weight ??= id >= 0 ? 65536 : map.buckets.get(id).items.reduce((sum, it) => sum + it.weight, 0);
    return item;
}

// Items in their places: those without one take the free ones in order.
function placed(words, { name, items }) {
    const found = items.map(() => null);
    for (const { id, weight, place } of items.filter((it) => it.place !== null)) {
        if (!(place in found) || found[place])
            throw words.fault(`the bucket '${name}' has no free place ${place}`);
        found[place] = { id, weight };
    }
    const rest = items.filter((it) => it.place === null).map(({ id, weight }) => ({ id, weight }));
    return found.map((it) => it ?? rest.shift());
}

function ruleOf(words, ids) {
    const rule = { id: null, name: words.next(), kind: "replicated", steps: [], sizes: null, odd: null };
    const sizes = {};
    words.next("{");
    while (!words.passes("}")) {
        const word = words.next();
        if (word === "id" || word === "ruleset") {
            rule.id = words.number();
        } else if (word === "type") {
            rule.kind = words.next();
            if (rule.kind !== "replicated" && rule.kind !== "erasure")
                rule.odd = rule.kind.startsWith("msr_") ? MSR : `its type is ${rule.kind}`;
        } else if (word === "min_size" || word === "max_size") {
            sizes[word] = words.number();
        } else if (word === "step") {
            const step = stepOf(words, ids);
            if (step.odd) rule.odd = step.odd;
            else rule.steps.push(step);
        } else {
            throw words.fault(`a rule has no '${word}'`);
        }
    }
    if (rule.id === null) throw words.fault(`the rule '${rule.name}' has no id`);
    if (Object.keys(sizes).length === 2) rule.sizes = [sizes.min_size, sizes.max_size];
    return rule;
}

// A step as a dump's map has it, or why there is none such here (`odd`).
function stepOf(words, ids) {
    const op = words.next();
    if (op === "take") {
        const name = words.next();
        if (!ids.has(name)) throw words.fault(`a step takes '${name}', which isn't declared before its rule`);
        return [op, ids.get(name), words.passes("class") ? words.next() : null];
    }
    if (op === "emit" || op === "noop") return [op];
    if (op === "choose" || op === "chooseleaf") {
        const mode = words.next(), count = words.number();
        words.next("type");
        const type = words.next();
        return mode === "firstn" || mode === "indep"
            ? [op, mode, count, type]
            : { odd: `it has a step ${op} ${mode}` };
    }
    if (op.startsWith("set_")) return [op, words.number()];
    throw words.fault(`there is no step '${op}'`);
}

// A weight set with its key: of each bucket the rows of its positions, and other ids.
function weightSetOf(words) {
    const own = { rows: new Map(), withIds: [], rounded: false };
    const key = words.passes(ALL) ? -1 : words.number();
    if (key === -1 && words.peek() !== "{") words.next();
    words.next("{");
    while (words.passes("{")) {
        let bucket = null;
        while (!words.passes("}")) {
            const word = words.next();
            if (word === "bucket_id") bucket = words.number();
            else if (word === "weight_set") own.rows.set(
                bucket, words.listed(() => words.listed(() => words.weight()))
            );
            else if (word === "ids") own.withIds.push(
                ...words.listed(() => words.number()).length ? [bucket] : []
            );
            else throw words.fault(`a weight set has no '${word}'`);
        }
    }
    words.next("}");
    return [key, own];
}

// Makes the trees of single classes, of which a text has the ids of the buckets alone, and has
// rules take them. Gives whether a rule takes one.
function takeClasses(map, shadows) {
    if (!shadows.some((it) => map.buckets.has(it.id))) {
        const rows = new Map([...map.weightSets].map(([key, it]) => [key, new Map(it.rows)]));
        makeShadows(map, shadows);
        // the text has their rows too
        for (const [key, own] of rows)
            for (const [bucket, row] of own) map.weightSets.get(key).rows.set(bucket, row);
    }
    let found = false;
    for (const step of [...map.rules.values()].flatMap((it) => it.steps)) {
        if (step[0] !== "take" || step[2] === null) continue;
        const id = shadows.find((it) => it.bucket === step[1] && it.class === step[2])?.id;
        if (map.buckets.has(id)) step.splice(1, 2, id, null);
        found = true;
    }
    return found;
}
