// The cluster's own word: where it says that groups lie (`ceph pg dump pgs_brief -f json`), beside
// what is computed. The worker and the page both use this.
import { listAt } from "./lists.js";
import { count, many } from "./words.js";

const NONE = 2147483647, NAMED = 4, LINES = 20;

// What a dump of groups says, by pool: the number of each group, up lists one after the other,
// their primaries, and whether the cluster is silent of it. Releases before 14 write the list
// alone.
export function groupsSaid(whole) {
    const pools = new Map(), rows = Array.isArray(whole) ? whole : whole.pg_stats;
    for (const row of rows) {
        const [pool, group] = row.pgid.split("."), up = row.up.map((it) => (it === NONE || it < 0 ? -1 : it));
        const { state } = row;
        if (!pools.has(pool)) pools.set(pool, []);
        // of a group that is stale or was just made the cluster doesn't say where it lies
        pools.get(pool).push(
            {
                group: parseInt(group, 16), up, primary: row.up_primary ?? -1,
                silent: state.includes("stale") || !up.length && (state === "unknown" || state === "creating")
            }
        );
    }
    return { pools: [...pools].map(([pool, own]) => ({ pool: Number(pool), ...packed(own) })) };
}

function packed(rows) {
    const starts = new Int32Array(rows.length + 1);
    rows.forEach(({ up }, at) => { starts[at + 1] = starts[at] + up.length; });
    return {
        groups: Int32Array.from(rows, (it) => it.group), starts,
        items: Int32Array.from(rows.flatMap((it) => it.up)),
        primaries: Int32Array.from(rows, (it) => it.primary),
        silent: Uint8Array.from(rows, (it) => (it.silent ? 1 : 0))
    };
}

function written(list) {
    return `[${Array.from(list, (it) => (it === -1 ? "-" : it)).join(",")}]`;
}

const same = (one, other) => one.length === other.length && one.every((it, at) => it === other[at]);

// How the groups of a pool lie beside what is computed: how many there are, of how many the cluster
// is silent, with some of them by name (`quiet`), and how many lie otherwise, with some of them in
// words (`lines`). `said` is what it says of the pool, or undefined, and `why` gives why a group
// may lie otherwise.
export function comparedPool(pool, lists, said, why) {
    const places = new Int32Array(pool.pg_num).fill(-1);
    const found = { count: pool.pg_num, silent: 0, quiet: [], differ: 0, lines: [], usage: null };
    const entries = new Map(), id = (group) => `${pool.id}.${group.toString(16)}`;
    said?.groups.forEach((group, at) => { if (group < pool.pg_num) places[group] = at; });
    for (let group = 0; group < pool.pg_num; group += 1) {
        const at = places[group];
        if (at < 0 || said.silent[at]) {
            found.silent += 1;
            if (found.quiet.length < NAMED) found.quiet.push(id(group));
            continue;
        }
        const up = listAt(said, at), here = listAt(lists, group), primary = said.primaries[at];
        const own = lists.primaries[group];
        for (const it of up) if (it !== -1) entries.set(it, (entries.get(it) ?? 0) + 1);
        if (same(up, here) && primary === own) continue;
        found.differ += 1;
        if (found.lines.length >= LINES) continue;
        const leads = (it) => (it === -1 ? "None" : it);
        const more = same(up, here) ? `, primary ${leads(primary)} here ${leads(own)}` : "";
        found.lines.push(`${id(group)} up ${written(up)} here ${written(here)}${more}: `
            + `${why(group, [...up], [...here])}`);
    }
    if (!found.silent) found.usage = entries;
    return found;
}

// What is said of all pools together: check's words.
export function comparedText(parts) {
    const sum = (of) => parts.reduce((all, it) => all + of(it), 0), groups = sum((it) => it.count);
    const silent = sum((it) => it.silent), differ = sum((it) => it.differ);
    const first = (all, of, between, more) =>
        all.slice(0, NAMED).join(between) + (of > NAMED ? `${more} ${count(of - NAMED)} more` : "");
    const lie =
        `${count(groups - silent - differ)} of ${many(groups, "group")} ${groups === 1 ? "lies" : "lie"} as `
            + `computed`;
    const lines = parts.flatMap((it) => it.lines);
    const quiet = silent
        ? `; of ${count(silent)} the cluster says nothing `
            + `(${first(parts.flatMap((it) => it.quiet), silent, ", ", " and")})`
        : "";
    const others = differ
        ? `; ${count(differ)} ${differ === 1 ? "differs" : "differ"}: ${first(lines, differ, "; ", "; and")}`
        : "";
    return {
        text: `${lie}${quiet}${others}`,
        lines: lines.slice(0, LINES), differ
    };
}
