// A worker that reads long replies, so that the page never waits for one: moves and impacts have up
// to 65,536 groups. Lists are handed over as arrays of numbers, without a copy. An empty place is
// -1.
import { differences, listsOf, movesOf, settledLists } from "./lists.js";
import { groupsSaid } from "./pgs.js";

const decoder = new TextDecoder();

function json(bytes) {
    return JSON.parse(decoder.decode(bytes));
}

const READERS = {
    impact: ([bytes]) => {
        const { groups, ...head } = json(bytes);
        return { ...head, groups: Int32Array.from(groups) };
    },
    moves: ([bytes], { pool, but, affinity }) => {
        const { rows, ...head } = json(bytes), without = new Set(but);
        return { ...head, ...movesOf(pool, rows.filter((it) => !without.has(it.group)), affinity) };
    },
    // the lists of a pool's groups, of moves from a map on which all are empty
    lists: ([bytes], pool) => {
        const { rows, epoch } = json(bytes);
        return { epoch, ...listsOf(rows, pool.pg_num) };
    },
    settled: ([], { pool, lists, own, affinity }) => settledLists(pool, lists, own, affinity),
    differences: ([], { pool, before, after, unordered }) => differences(pool, before, after, unordered),
    // where the cluster itself says that groups lie
    pgs: ([bytes]) => groupsSaid(json(bytes)),
};

// The memory of the arrays in what is handed over.
function buffers(value) {
    if (ArrayBuffer.isView(value)) return [value.buffer];
    return typeof value === "object" && value !== null ? Object.values(value).flatMap(buffers) : [];
}

onmessage = ({ data: { place, kind, bytes, more } }) => {
    let report = null;
    try {
        report = READERS[kind](bytes, more);
    } catch {
        // no report: the page says so
    }
    postMessage({ place, report }, buffers(report));
};
