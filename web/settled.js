// What Ceph makes of a rule's list: whole upmap lists, upmap items and set primaries
// (OSDMap::_apply_upmap), and the primary by primary affinity (OSDMap::_apply_primary_affinity).
// An empty place is null in lists of one group, and -1 in those of many. The worker and the page
// both use this.

const ONE = 65536;

// Mixes three words as rjenkins1 does.
function mix(a, b, c) {
    for (const [first, second, third] of [[13, 8, 13], [12, 16, 5], [3, 10, 15]]) {
        a = (a - b - c ^ (c >>> first)) | 0;
        b = (b - c - a ^ (a << second)) | 0;
        c = (c - a - b ^ (b >>> third)) | 0;
    }
    return [a, b, c];
}

// The hash of two words (crush_hash32_2).
export function hash2(one, other) {
    let [a, b, x, y, found] = [one | 0, other | 0, 231232, 1232, 1315423911 ^ one ^ other];
    [a, b, found] = mix(a, b, found);
    [x, a, found] = mix(x, a, found);
    [b, y, found] = mix(b, y, found);
    return found >>> 0;
}

// The number by which a group is placed (Ceph's stable_mod by pgp_num).
export function seedOf(pool, group) {
    const mask = 2 ** Math.ceil(Math.log2(pool.pgp_num)) - 1;
    const place = (group & mask) < pool.pgp_num ? group & mask : group & (mask >> 1);
    return pool.hashpspool ? hash2(place, pool.id) : (place + pool.id) >>> 0;
}

// An up list and its primary by the affinity of devices, which comes first in a replicated pool.
// `none` is what stands at an empty place.
export function led(pool, group, up, affinity, none = null) {
    const first = up.find((it) => it !== none) ?? none;
    if (!up.some((it) => it !== none && (affinity[it] ?? ONE) !== ONE)) return { up, primary: first };
    const seed = seedOf(pool, group);
    const leads = (it) => (affinity[it] ?? ONE) >= ONE || hash2(seed, it) >>> 16 < affinity[it];
    let place = up.findIndex((it) => it !== none && leads(it));
    if (place < 0) place = up.findIndex((it) => it !== none);
    const primary = up[place];
    return {
        up: pool.kind === "replicated" && place > 0
            ? [primary, ...up.slice(0, place), ...up.slice(place + 1)]
            : up,
        primary
    };
}

// The list that pairs of devices make of one.
export function paired(list, pairs, mayBe) {
    const items = [...list];
    for (const [from, to] of pairs)
        if (items.includes(from) && !items.includes(to) && mayBe(to)) items[items.indexOf(from)] = to;
    return items;
}

// Whether a whole list doesn't act, as one of its devices is out: neither does then what else is
// set of its group.
export function isIdle(whole, mayBe) {
    return whole.some((id) => id !== null && !mayBe(id));
}

// A rule's list once the whole list, the pairs and the primary of its group have acted.
function itemsOf(pool, raw, { list, pairs = [], primary }, mayBe) {
    if (list && isIdle(list, mayBe)) return [...raw];
    const items = paired(list ?? raw, pairs, mayBe), place = items.indexOf(primary);
    if (place >= 0 && pool.kind === "replicated" && mayBe(primary))
        [items[0], items[place]] = [primary, items[0]];
    return items;
}

// The up list of a group that has exceptions, before affinity counts. `stateOf` gives a device's
// state.
export function settledUp(pool, raw, exceptions, stateOf) {
    const works = itemsOf(
        pool, raw, exceptions, (id) => stateOf(id).reweight > 0
    ).map((id) => (id !== null && stateOf(id).up ? id : null));
    return pool.kind === "erasure" ? works : works.filter((id) => id !== null);
}
