// What `crushplan plan` and `crushplan balance` write by --json, as it is shown. Nothing of it is
// computed again; what isn't as they write it is said with its file and field.
import { Fault, each, field } from "./dump.js";

const FORM = 1;
const SHOWN = new Set(["plan", "balance"]);
export const WRITTEN = "'crushplan plan DIR FILE --json' or 'crushplan balance DIR --json'";

// A value that may be null.
function maybe(of, name, kind, where) {
    return of !== null && typeof of === "object" && of[name] === null ? null : field(of, name, kind, where);
}

function objectIn(of, name, where) {
    const found = maybe(of, name, "object", where);
    if (found === null) throw new Fault(`${where}: ${name} isn't an object`);
    return found;
}

function texts(of, name, where) {
    return items(of, name, "text", where);
}

// A list of values of one kind.
function items(of, name, kind, where) {
    const found = field(of, name, "list", where);
    found.forEach((_, place) => field(found, place, kind, `${where}: ${name}`));
    return found;
}

// The devices of a group, with null at empty places.
function placesIn(of, name, where) {
    const found = field(of, name, "list", where);
    found.forEach((it, place) => it !== null && field(found, place, "number", `${where}: ${name}`));
    return found;
}

function fieldsOf(it, kinds, where) {
    return Object.fromEntries(
        Object.entries(kinds).map(
            ([name, kind]) => [
                name, kind.endsWith("?")
                    ? maybe(it, name, kind.slice(0, -1), where)
                    : kind.startsWith("list of ")
                        ? items(it, name, kind.slice(8), where)
                        : field(it, name, kind, where)
            ]
        )
    );
}

// ---- a plan

const LEVEL = { device: "number", used: "decimal?", copies: "number?", percent: "decimal?" };
const PASSAGE = {
    moved: "number", copies: "number", bytes: "number?", least: "decimal", missing_copies: "number",
    short: "list of text", below_min_size: "list of text", short_meanwhile: "list of text",
    fewest_meanwhile: "number?", lost: "list of text", hours: "decimal?"
};
const SUMS = {
    moved: "number", copies: "number", bytes: "number?", twice: "list of text", below_min_size: "list of text",
    short_meanwhile: "list of text", fewest_meanwhile: "number?", hours: "decimal?", rate: "decimal?",
    unfollowed: "list of number"
};

// How full a device is, or null: the used part of its room, or its copies and their percent of its
// share.
function levelIn(of, name, where) {
    const found = maybe(of, name, "object", where);
    return found && fieldsOf(found, LEVEL, `${where}: ${name}`);
}

function passageIn(it, where) {
    return {
        ...fieldsOf(it, PASSAGE, where), on_the_way: levelIn(it, "on_the_way", where),
        fullest: levelIn(it, "fullest", where)
    };
}

function eventIn(it, where) {
    const refused = maybe(it, "refused", "object", where);
    return {
        ...fieldsOf(
            it,
            {
                line: "number", command: "text", remarks: "list of text", removed: "list of text",
                unforetold: "text?"
            },
            where
        ),
        refused: refused && fieldsOf(refused, { code: "text", why: "text" }, `${where}: refused`)
    };
}

// A step, with whether nothing of it is done, and whether its last line isn't: it is refused, or
// not foretold.
function stepIn(it, where) {
    const more = Object.fromEntries(
        ["by_itself", "faults", "removed", "remarks"].map((name) => [name, "list of text"])
    );
    const events = each(it, "events", where, eventIn), last = events.at(-1);
    if (!last) throw new Fault(`${where}: events is empty`);
    const isCut = last.refused !== null || last.unforetold !== null;
    return {
        ...fieldsOf(it, { step: "number", lines: "list of number", wait: "number?" }, where),
        ...passageIn(it, where), ...fieldsOf(it, more, where), events, isCut,
        isEmpty: isCut && events.length === 1, groups: groupsIn(it, where), orders: ordersIn(it, where)
    };
}

// The groups that move in a step, where --groups names them.
function groupsIn(it, where) {
    if (!("groups" in it)) return null;
    return each(it, "groups", where, (one, at) => ({
        ...fieldsOf(one, { id: "text", copies: "number" }, at), before: placesIn(one, "before", at),
        after: placesIn(one, "after", at)
    }));
}

// Both orders of a step's lines, where --orders tries them and it has several.
function ordersIn(it, where) {
    const found = "orders" in it ? maybe(it, "orders", "object", where) : null, at = `${where}: orders`;
    return found && {
        ...fieldsOf(found, { moves_least: "text?", stays_lowest: "text?" }, at),
        one_by_one: each(
            found, "one_by_one", at, (one, own) => ({ line: field(one, "line", "number", own), ...passageIn(one, own) })
        )
    };
}

function planIn(whole, file) {
    const decides = maybe(whole, "decides", "object", file), ratios = objectIn(whole, "ratios", file);
    return {
        ...fieldsOf(whole, SUMS, file), on_the_way: levelIn(whole, "on_the_way", file),
        steps: each(whole, "steps", file, stepIn),
        one_step: passageIn(objectIn(whole, "one_step", file), `${file}: one_step`),
        ratios: fieldsOf(
            ratios, Object.fromEntries(Object.keys(ratios).map((name) => [name, "decimal"])), `${file}: ratios`
        ),
        decides: decides && fieldsOf(decides, { step: "number", line: "number?", why: "text" }, `${file}: decides`)
    };
}

// ---- a balance

const POOL = {
    pool: "number", name: "text", size: "number", pg_num: "number", least: "number",
    deviation_before: "decimal", deviation_after: "decimal"
};
const USAGE = { device: "number", before: "number", after: "number", share: "decimal?" };

function poolIn(it, where, ofPrimaries) {
    const off = each(it, "off", where, (one, at) => field(one, "device", "number", at));
    const more = ofPrimaries ? { changed: "number" } : { copies: "number", lines: "number", bytes: "number?" };
    return {
        ...fieldsOf(it, { ...POOL, ...more }, where), off,
        usage: each(it, "usage", where, (one, at) => fieldsOf(one, USAGE, at))
    };
}

// Lines that even out pools, by copies or by primaries alone; where there are no pools, no more is
// said than why.
function balanceIn(whole, file) {
    const pools = field(whole, "pools", "list", file), ofPrimaries = "changed" in whole;
    if (!pools.length) return { pools, lines: [], groups: [], devices: [], remarks: [], ofPrimaries };
    const sums = ofPrimaries
        ? { changed: "number", least: "number" }
        : { copies: "number", least: "number", extra: "number", bytes: "number?" };
    const group = ofPrimaries
        ? (it, at) => ({
            ...fieldsOf(it, { id: "text", primary_before: "number?", primary_after: "number?" }, at),
            up: placesIn(it, "up", at)
        })
        : (it, at) => ({
            ...fieldsOf(it, { id: "text", copies: "number" }, at), before: placesIn(it, "before", at),
            after: placesIn(it, "after", at)
        });
    return {
        ...fieldsOf(whole, sums, file), ofPrimaries, pools: each(
            whole, "pools", file, (it, at) => poolIn(it, at, ofPrimaries)
        ),
        ...fieldsOf(whole, { lines: "list of text", remarks: "list of text" }, file),
        groups: each(whole, "groups", file, group),
        devices: each(
            whole, "devices", file, (it, at) => fieldsOf(it, { device: "number", name: "text", host: "text" }, at)
        )
    };
}

// ---- both

// What a file of crushplan's answers says; a Fault names it where it is another one.
export function readResult(whole, file) {
    if (whole.crushplan !== FORM)
        throw new Fault(`${file} isn't shown: its form of crushplan's answers is `
            + `${JSON.stringify(whole.crushplan).slice(0, 40)}, and this page shows the form ${FORM}.`);
    const command = maybe(whole, "command", "text", file);
    if ("error" in whole)
        throw new Fault(`${file} has no answer. 'crushplan ${command ?? ".."}' said: `
            + field(whole, "error", "text", file));
    if (!SHOWN.has(command))
        throw new Fault(`${file} isn't shown: it is what 'crushplan ${command} --json' writes, and this page `
            + `shows what ${WRITTEN} writes.`);
    const noted = (name) => each(whole, name, file, (it, at) => field(it, "text", "text", at));
    return {
        file, command, status: field(whole, "status", "number", file), answer: field(whole, "answer", "text", file),
        map: fieldsOf(objectIn(whole, "map", file), { file: "text", exact: "truth" }, `${file}: map`),
        warnings: texts(whole, "warnings", file), uncomputed: noted("uncomputed"), notes: noted("notes"),
        ...command === "plan" ? planIn(whole, file) : balanceIn(whole, file)
    };
}
