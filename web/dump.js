// What a cluster itself writes: the map of `ceph osd crush dump -f json`; pools, states and
// exceptions of `ceph osd dump -f json`; and by `ceph df` and `ceph osd df` how full it is. What
// isn't as Ceph writes it is said with its field.
import { dropGone, markHoles } from "./holes.js";
import { sharpen } from "./sets.js";

const KINDS = { 1: "replicated", 3: "erasure" }, MSR_KINDS = { 4: "replicated", 5: "erasure" }, ONE = 65536;
const RJENKINS = 2;
export const MSR =
    "it is an MSR rule (choosemsr, of release 19), which isn't computed: a rule of chooseleaf steps is";
// an item that is none, in Ceph's lists
export const NONE = 2147483647;
export const TUNABLES = [
    "choose_local_tries", "choose_local_fallback_tries", "choose_total_tries", "chooseleaf_descend_once",
    "chooseleaf_vary_r", "chooseleaf_stable"
];
const SET_STEPS = new Set(
    [
        "set_choose_tries", "set_chooseleaf_tries", "set_choose_local_tries",
        "set_choose_local_fallback_tries", "set_chooseleaf_vary_r", "set_chooseleaf_stable"
    ]
);
// steps that release 16 writes by their numbers
const OPCODES = { 12: "set_chooseleaf_vary_r", 13: "set_chooseleaf_stable" };
export class Fault extends Error {}

const OF = {
    number: (it) => Number.isInteger(it), decimal: (it) => Number.isFinite(it),
    text: (it) => typeof it === "string", list: (it) => Array.isArray(it), truth: (it) => typeof it === "boolean",
    object: (it) => it !== null && typeof it === "object" && !Array.isArray(it)
};
const CALLED = {
    number: "a whole number", decimal: "a number", text: "a text", list: "a list", truth: "true or false",
    object: "an object"
};

// The value of a field, which has to be of a kind; `where` says of what.
export function field(of, name, kind, where, otherwise) {
    if (of === null || typeof of !== "object") throw new Fault(`${where} isn't an object`);
    if (!(name in of)) {
        if (otherwise !== undefined) return otherwise;
        throw new Fault(`${where} has no field '${name}'`);
    }
    if (!OF[kind](of[name])) throw new Fault(`${where}: ${name} isn't ${CALLED[kind]}`);
    return of[name];
}

export function each(of, name, where, act, otherwise) {
    return field(of, name, "list", where, otherwise).map(
        (it, place) => act(it, `${where}: ${name}[${place}]`)
    );
}

// What each kind of file is called when files are told from each other.
export const WRITES = {
    crush: "ceph osd crush dump -f json", osd: "ceph osd dump -f json", df: "ceph df detail -f json",
    osdDf: "ceph osd df -f json", pgs: "ceph pg dump pgs_brief -f json"
};

// Whether a text begins as a dump of groups does, which may be too long to be read at once.
export function isOfGroups(start) {
    return /^\ufeff?\s*(\{\s*"pg_ready"|\{\s*"pg_stats"|\[\s*\{\s*"pgid")/.test(start);
}

// What a text of JSON says. Numbers that are none, as Ceph writes them, are null.
function parsed(text) {
    try {
        return JSON.parse(text);
    } catch {
        return JSON.parse(text.replace(/(?<=[:[,\s])-?(?:nan|inf)(?=\s*[,}\]])/g, "null"));
    }
}

function kindIn(whole) {
    if (whole.crushcalc) return "saved";
    if ("crushplan" in whole) return "result";
    if (whole.buckets && whole.tunables) return "crush";
    if (whole.pools && whole.osds) return "osd";
    if (whole.pools && whole.stats) return "df";
    return whole.nodes && (whole.summary || whole.stray) ? "osdDf" : "other";
}

// Which JSON a text is ("crush", "osd", "df", "osdDf", "saved", "result", or "other"), and what it
// says; no kind where it can be a map's text.
export function kindOf(text) {
    if (!/^\ufeff?\s*[[{]/.test(text)) return {};
    try {
        const whole = parsed(text.replace(/^\ufeff/, ""));
        return { whole, kind: kindIn(whole) };
    } catch {
        return { kind: "other" };
    }
}

// ---- the map

function stepOf(it, where, buckets) {
    if ("opcode" in it)
        return OPCODES[it.opcode] ? [OPCODES[it.opcode], field(it, "arg1", "number", where)] : null;
    const op = field(it, "op", "text", where);
    if (op === "take") {
        const item = field(it, "item", "number", where), name = field(it, "item_name", "text", where, "");
        // a class is taken by its own tree of buckets, which the dump has too
        return [
            "take", item, name.includes("~") && !buckets.has(item) ? name.slice(name.indexOf("~") + 1) : null
        ];
    }
    if (op === "emit" || op === "noop") return [op];
    if (SET_STEPS.has(op)) return [op, field(it, "num", "number", where)];
    const [, word, mode] = /^(choose|chooseleaf)_(firstn|indep)$/.exec(op) ?? [];
    return word ? [word, mode, field(it, "num", "number", where), field(it, "type", "text", where)] : null;
}

function ruleOf(it, where, buckets) {
    const id = field(it, "rule_id", "number", where), type = field(it, "type", "number", where);
    const rule = {
        id, name: field(it, "rule_name", "text", where, `rule-${id}`),
        kind: KINDS[type] ?? MSR_KINDS[type] ?? "replicated", steps: [],
        sizes: "min_size" in it && "max_size" in it ? [it.min_size, it.max_size] : null,
        odd: MSR_KINDS[type] ? MSR : KINDS[type] ? null : `its type is ${type}`
    };
    each(it, "steps", where, (one, at) => {
        const step = stepOf(one, at, buckets);
        if (step) rule.steps.push(step);
        else rule.odd ??= `it has a step '${one.op ?? "that is unknown"}'`;
    });
    if ((it.ruleset ?? id) !== id) rule.odd ??= `its ruleset is ${it.ruleset}`;
    return rule;
}

function bucketOf(it, where) {
    const id = field(it, "id", "number", where), name = field(it, "name", "text", where);
    if (id >= 0) throw new Fault(`${where}: the id of a bucket is below 0`);
    const items = each(
        it, "items", where,
        (one, at) => (
            {
                pos: one.pos ?? 0, id: field(one, "id", "number", at),
                weight: field(one, "weight", "number", at)
            }
        )
    );
    items.sort((one, other) => one.pos - other.pos);
    return {
        id, name, type: field(it, "type_id", "number", where), alg: field(it, "alg", "text", where),
        hash: it.hash ?? "rjenkins1", items,
        shadow: name.includes("~") ? name.slice(name.lastIndexOf("~") + 1) : null
    };
}

// The map of a dump, whether the service computes it or not. `there` says whether the cluster has a
// device of an id, where that is known.
export function readCrush(whole, file, there) {
    const named = (key) => (it, where) => [field(it, key, "number", where), it.name];
    const map = {
        file, types: new Map(each(whole, "types", file, named("type_id"))),
        devices: new Map(each(whole, "devices", file, named("id"))),
        tunables: TUNABLES.filter((it) => it in whole.tunables).map((it) => [it, whole.tunables[it]])
    };
    map.buckets = new Map(each(whole, "buckets", file, bucketOf).map((it) => [it.id, it]));
    map.rules = new Map(
        each(whole, "rules", file, (it, where) => ruleOf(it, where, map.buckets)).map((it) => [it.id, it])
    );
    map.classes = new Map((whole.devices ?? []).filter((it) => it.class).map((it) => [it.id, it.class]));
    map.weightSets = new Map(
        Object.entries(whole.choose_args ?? {}).map(
            ([key, own]) => [Number(key), weightSetOf(own, `${file}: choose_args: ${key}`)]
        )
    );
    for (const it of map.weightSets.values()) sharpen(map, it);
    markHoles(map, there?.(0) ?? true);
    dropGone(map, there);
    return map;
}

// A weight set: of each bucket its rows, one for each position, in 65536ths, and the buckets that
// have other ids for their items.
function weightSetOf(own, where) {
    const rows = new Map(), withIds = [];
    if (!Array.isArray(own)) throw new Fault(`${where} isn't a list`);
    own.forEach((it, place) => {
        const at = `${where}[${place}]`, bucket = field(it, "bucket_id", "number", at);
        if ("weight_set" in it)
            rows.set(bucket, each(it, "weight_set", at, (row, inner) => weightsOf(row, inner)));
        if (it.ids?.length) withIds.push(bucket);
    });
    return { rows, withIds, rounded: false };
}

function weightsOf(row, where) {
    if (!Array.isArray(row)) throw new Fault(`${where} isn't a list`);
    return row.map((it, place) => {
        if (!(Number.isFinite(it) && it >= 0))
            throw new Fault(`${where}[${place}] isn't a number of 0 and more`);
        return Math.round(it * ONE);
    });
}

// ---- pools, states, upmap items

function poolOf(it, where) {
    const kind = field(it, "type", "number", where), pg_num = field(it, "pg_num", "number", where);
    const pgp_num = field(it, "pg_placement_num", "number", where);
    const flags = "flags_names" in it ? it.flags_names.split(",") : (it.flags ?? 1) & 1 ? ["hashpspool"] : [];
    const target = [it.pg_num_target ?? pg_num, it.pg_placement_num_target ?? pgp_num];
    return {
        id: field(it, "pool", "number", where), name: field(it, "pool_name", "text", where),
        kind: KINDS[kind] ?? `of type ${kind}`, size: field(it, "size", "number", where),
        min_size: it.min_size ?? 1, rule: field(it, "crush_rule", "number", where),
        pg_num, pgp_num, hashpspool: flags.includes("hashpspool"), hash: it.object_hash ?? RJENKINS,
        splits: target[0] !== pg_num || target[1] !== pgp_num ? target : null,
        stretched: (it.peering_crush_bucket_count ?? 0) > 0,
    };
}

function groupOf(text, where) {
    const [, pool, group] = /^(\d{1,10})\.([0-9a-f]{1,8})$/.exec(text) ?? [];
    if (!pool) throw new Fault(`${where} is '${text}', which isn't the id of a group as 1.1c`);
    return [Number(pool), parseInt(group, 16)];
}

// Flags of the cluster, and those of single devices, buckets and classes by their names.
function flagsOf(whole) {
    const own = Object.entries(whole.crush_node_flags ?? {});
    const classes = Object.entries(whole.device_class_flags ?? {}).map(
        ([name, flags]) => [`the class ${name}`, flags]
    );
    const devices = whole.osds.filter(
        (it) => it.state?.includes?.("noout")
    ).map((it) => [`osd.${it.osd}`, it.state]);
    return {
        flags: typeof whole.flags === "string" ? whole.flags.split(",") : [],
        noout: [...devices, ...own, ...classes].filter(
            ([, flags]) => flags.includes?.("noout")
        ).map(([name]) => name)
    };
}

const RATIOS = ["full_ratio", "backfillfull_ratio", "nearfull_ratio"];

// The pools, states of devices, exceptions and all that can't be computed of a dump.
export function readOsd(whole, file) {
    const states = new Map(), affinity = {};
    each(whole, "osds", file, (it, where) => {
        const id = field(it, "osd", "number", where), weight = field(it, "weight", "decimal", where);
        if (weight < 0) throw new Fault(`${where}: weight is below 0`);
        states.set(id, { reweight: Math.min(ONE, Math.round(weight * ONE)), up: Boolean(it.up ?? 1) });
        const own = Math.round((it.primary_affinity ?? 1) * ONE);
        if (own !== ONE) affinity[id] = own;
    });
    const at = (it, where) => groupOf(field(it, "pgid", "text", where), `${where}: pgid`);
    const groups = (name) => each(whole, name, file, at, []);
    const upmaps = each(
        whole, "pg_upmap_items", file,
        (it, where) => (
            {
                at: at(it, where),
                pairs: each(
                    it, "mappings", where,
                    (pair, inner) => [
                        field(pair, "from", "number", inner), field(pair, "to", "number", inner)
                    ]
                )
            }
        ),
        []
    );
    const lists = each(
        whole, "pg_upmap", file,
        (it, where) => (
            {
                at: at(it, where),
                devices: field(it, "osds", "list", where, []).map((id) => (id === NONE || id < 0 ? null : id))
            }
        ),
        []
    );
    const primaries = each(
        whole, "pg_upmap_primaries", file,
        (it, where) => ({ at: at(it, where), device: field(it, "primary_osd", "number", where) }), []
    );
    const pools = each(whole, "pools", file, poolOf);
    if (whole.stretch_mode?.stretch_mode_enabled)
        for (const it of pools) it.stretched = it.kind === "replicated";
    const ratios = Object.fromEntries(
        RATIOS.filter((it) => Number.isFinite(whole[it])).map((it) => [it, whole[it]])
    );
    return {
        file, pools, states, affinity, upmaps, lists, primaries, ratios, ...flagsOf(whole),
        temporary: { lists: groups("pg_temp"), primaries: groups("primary_temp") }
    };
}

// ---- how full it is

// What each pool takes on all its devices, by df.json: null where that isn't known.
export function readDf(whole, file, pools) {
    const found = {}, { stats } = whole;
    const byPool = stats.num_per_pool_osds === undefined || stats.num_per_pool_osds === stats.num_osds;
    each(whole, "pools", file, (it, where) => {
        const pool = pools.find((one) => one.id === field(it, "id", "number", where)), own = it.stats ?? {};
        if (!pool) return;
        if ((it.name ?? pool.name) !== pool.name)
            throw new Fault(`${file} has pool ${pool.id} as '${it.name}', and osd.json as '${pool.name}': `
                + `are they of one cluster, and of the same time?`);
        const used = field(own, "bytes_used", "number", `${where}: stats`);
        // before release 14, and where devices don't count by pools, bytes_used is without copies
        found[pool.id] = "stored" in own && byPool
            ? used
            : own.stored_raw ?? (pool.kind === "replicated" ? used * pool.size : null);
    });
    return found;
}

// What each device holds and can hold in bytes, and how many groups it has, by osd-df.json; and the
// devices of which it has no such numbers.
export function readOsdDf(whole, file) {
    const rooms = {}, odd = [];
    each(whole, "nodes", file, (it, where) => {
        const id = field(it, "id", "number", where);
        if (id < 0) return;
        if (Object.values(it).includes(null)) odd.push(`osd.${id}`);
        else rooms[id] = [
            1024 * field(it, "kb_used", "number", where), 1024 * field(it, "kb", "number", where),
            Number.isInteger(it.pgs) ? it.pgs : null
        ];
    });
    return { rooms, odd };
}

export { ONE, RJENKINS };
