// The texts of a dump's map for the service, with exact weights: one for all pools where that can
// be, else one for each weight set in use, and where a map has more buckets than a text may have,
// one for the trees of some rules.
import { BUCKETS, DEVICES, isComputed, ruleFault } from "./computable.js";
import { pause } from "./dom.js";
import { ONE } from "./dump.js";
import { reachOf, takesOf } from "./reach.js";
import { keyOf, rowsOf } from "./sets.js";

// the first line of a text that has straw2 buckets
export const MARK = "# crushcalc: straw2";
const NAME = /^[A-Za-z0-9_.-]{1,64}$/;
const KEYWORDS = new Set(["tunable", "device", "type", "rule", "choose_args", "class"]);

// A text of `crushtool -d` as the service takes it, and by how many lines it is longer.
export function marked(text) {
    const own = text.replace(/^\ufeff/, "");
    return /^[ \t]*alg[ \t]+straw2[ \t\r]*$/m.test(own) && !own.startsWith(MARK)
        ? { text: `${MARK}\n${own}`, more: 1 }
        : { text, more: 0 };
}

// A weight of 65536ths with all its decimals, of which there are 16 at most. Many items have the
// same one.
const decimals = new Map();

function exact(weight) {
    if (!decimals.has(weight)) decimals.set(weight, (weight / ONE).toFixed(16).replace(/0{1,15}$/, ""));
    return decimals.get(weight);
}

// Names that a text can have, each once: those of the map where they are such names.
function names() {
    const taken = new Set();
    return (name, other) => {
        let given = name;
        if (!NAME.test(name ?? "") || taken.has(name) || KEYWORDS.has(name))
            for (given = other; taken.has(given);) given += "-";
        taken.add(given);
        return given;
    };
}

// What has a place in a text: rules, buckets, and weights of a set by bucket.
class Shelf {
    constructor(withRows) {
        Object.assign(this, { withRows, rules: new Set(), buckets: new Set(), rows: new Map() });
    }

    takes(buckets, rows) {
        const same = (it) => String(this.rows.get(it)) === String(rows.get(it));
        return new Set([...this.buckets, ...buckets]).size <= BUCKETS && [...buckets].every(
            (it) => !this.buckets.has(it) || same(it)
        );
    }

    put(rule, buckets, rows) {
        this.rules.add(rule);
        for (const it of buckets) this.buckets.add(it);
        for (const [id, row] of rows) this.rows.set(id, row);
    }
}

// The shelves that show the map with its own weights: one with all that is computed where that has
// a place, else some for the trees of the rules.
function plainShelves(map, rules) {
    const whole = new Shelf(false), known = new Map();
    for (const it of rules) whole.put(it, reachOf(map, it).buckets, []);
    for (const [id, it] of map.buckets) if (!it.shadow && isComputed(map, id, known)) whole.buckets.add(id);
    if (whole.buckets.size <= BUCKETS) return [whole];
    const shelves = [];
    for (const it of rules) {
        const { buckets } = reachOf(map, it);
        let shelf = shelves.find((one) => one.takes(buckets, new Map()));
        if (!shelf) shelves.push(shelf = new Shelf(false));
        shelf.put(it, buckets, []);
    }
    return shelves.length ? shelves : [new Shelf(false)];
}

// The texts for pools that can be computed, and of each pool by id the place of its text; the first
// `shown` of them have the map's own weights. `more` are devices with states that the map lacks.
export async function textsOf(map, pools, more = []) {
    const fits = (it) => !ruleFault(map, it), rules = [...map.rules.values()].filter(fits);
    const shelves = plainShelves(map, rules), shown = shelves.length, places = {};
    for (const pool of pools) {
        const rule = map.rules.get(pool.rule), { buckets } = reachOf(map, rule);
        const rows = rowsOf(map, keyOf(map, pool.id), buckets);
        let at = shelves.findIndex(
            (it) => (rows.size ? it.withRows && it.takes(buckets, rows) : it.rules.has(rule))
        );
        if (at < 0) at = shelves.push(new Shelf(true)) - 1;
        if (rows.size) shelves[at].put(rule, buckets, rows);
        places[pool.id] = at;
    }
    await pause();
    const write = writerOf(map, more), texts = [];
    for (const it of shelves) {
        await pause();
        texts.push(write(it));
    }
    return { texts, places, shown };
}

// A text of a whole map, with what isn't computed too, for the page alone.
export function wholeText(map) {
    const whole = new Shelf(false);
    for (const it of map.rules.values()) whole.put(it, [], []);
    for (const it of map.buckets.keys()) whole.buckets.add(it);
    return writerOf(map, [])(whole);
}

// Writes texts that have the same names. A hole has a device of the weight 0.
function writerOf(map, more) {
    const items = [...map.buckets.values()].flatMap((it) => it.items), give = names(), called = new Map();
    const filled = new Map();
    const all = new Map(
        [
            ...items.filter((it) => it.id !== null && it.id >= 0).map((it) => [it.id, `osd.${it.id}`]),
            ...more.map((id) => [id, `osd.${id}`]), ...map.devices
        ]
    );
    const devices = [...all].sort((a, b) => a[0] - b[0]);
    let next = Math.max(-1, ...all.keys()) + 1;
    const declared = devices.map(([id, name]) => {
        called.set(id, give(name, `device-${id}`));
        return `device ${id} ${called.get(id)}`;
    });
    for (const it of items.filter((one) => one.id === null)) {
        filled.set(it, next);
        called.set(next, give(`hole.${next}`, `device-${next}`));
        next += 1;
    }
    for (const [id, it] of map.buckets)
        called.set(id, give(it.shadow ? `class.${it.shadow}.${-id}` : it.name, `bucket${id}`));
    const giveType = names();
    const types = new Map([...map.types].map(([number, name]) => [number, giveType(name, `type-${number}`)]));
    const ofName = new Map([...map.types].map(([number, name]) => [name, types.get(number)]));
    return (shelf) => {
        const buckets = inOrder(map, shelf.buckets);
        const holes = buckets.flatMap(
            (it) => it.items.filter((one) => one.id === null)
        ).map((it) => filled.get(it));
        const own = all.size > DEVICES ? placedIn(buckets, shelf.rules) : null;
        const lines = buckets.some((it) => it.alg === "straw2") ? [MARK] : [];
        lines.push(
            ...map.tunables.map(([name, value]) => `tunable ${name} ${value}`),
            ...declared.filter((_, at) => !own || own.has(devices[at][0])),
            ...holes.map((id) => `device ${id} ${called.get(id)}`)
        );
        for (const [number, name] of [...types].sort((a, b) => a[0] - b[0]))
            lines.push(`type ${number} ${name}`);
        for (const bucket of buckets) {
            const row = shelf.rows.get(bucket.id);
            const pos = (place) => (bucket.alg === "tree" ? ` pos ${place}` : "");
            lines.push(
                `${types.get(bucket.type) ?? "unknown"} ${called.get(bucket.id)} {`, `\tid ${bucket.id}`,
                `\talg ${bucket.alg}`, "\thash 0",
                ...bucket.items.map(
                    (it, place) =>
                        `\titem ${called.get(it.id ?? filled.get(it))} weight `
                            + `${exact(row ? row[place] : it.weight)}${pos(place)}`
                ),
                "}"
            );
        }
        for (const it of shelf.rules) lines.push(...ruleLines(it, called, ofName));
        return `${lines.join("\n")}\n`;
    };
}

// The devices that some buckets have, or rules take.
function placedIn(buckets, rules) {
    return new Set(
        [
            ...buckets.flatMap((it) => it.items.map((one) => one.id)), ...[...rules].flatMap(takesOf)
        ].filter((id) => id !== null && id >= 0)
    );
}

// The buckets with each behind those that are its items.
function inOrder(map, wanted) {
    const found = [], seen = new Set();
    const visit = (id) => {
        if (seen.has(id) || !wanted.has(id)) return;
        seen.add(id);
        for (const it of map.buckets.get(id).items) visit(it.id);
        found.push(map.buckets.get(id));
    };
    for (const id of wanted) visit(id);
    return found;
}

function ruleLines(rule, called, types) {
    const step = ([op, ...words]) => (
        op === "take"
            ? `take ${called.get(words[0])}`
            : op.startsWith("choose")
                ? `${op} ${words[0]} ${words[1]} type ${types.get(words[2]) ?? "unknown"}`
                : [op, ...words].join(" ")
    );
    return [
        `rule ${names()(rule.name, `rule-${rule.id}`)} {`, `\tid ${rule.id}`, `\ttype ${rule.kind}`,
        ...(rule.sizes ? [`\tmin_size ${rule.sizes[0]}`, `\tmax_size ${rule.sizes[1]}`] : []),
        ...rule.steps.filter((it) => it[0] !== "noop").map((it) => `\tstep ${step(it)}`), "}"
    ];
}
