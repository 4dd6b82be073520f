// What dropped files say that neither the service nor the browser's store has: it is known as long
// as the page is open.

const words = new Map(), maps = new Map();
let result = null;

// What pgs.json says of the groups of a cluster, by pool.
export function keepWord(tenant, said) {
    words.set(tenant, said);
}

export function wordOf(tenant) {
    return words.get(tenant);
}

// The map of a cluster as its dump has it, with the buckets that aren't computed.
export function keepMap(tenant, map) {
    maps.set(tenant, map);
}

export function mapOf(tenant) {
    return maps.get(tenant);
}

// The answer of crushplan that was dropped last, or null.
export function keepResult(it) {
    result = it;
}

export function resultOf() {
    return result;
}
