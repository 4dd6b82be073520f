// The up lists of all groups of a pool, as arrays of numbers, and how two such lists of lists
// differ. An empty place is -1. The worker and the page both use this.
import { led } from "./settled.js";

const NAMED = 6; // of the groups whose I/O stops

// Lists, one after the other: those of `rows`, each a list that may have null at empty places.
export function flat(lists) {
    const starts = new Int32Array(lists.length + 1);
    lists.forEach((list, place) => { starts[place + 1] = starts[place] + list.length; });
    const items = new Int32Array(starts[lists.length]);
    lists.forEach((list, place) => list.forEach((it, at) => { items[starts[place] + at] = it ?? -1; }));
    return { starts, items };
}

export function listAt({ starts, items }, place) {
    return items.subarray(starts[place], starts[place + 1]);
}

// The list of each group of a pool, of the rows of moves from a map on which all lists are empty.
export function listsOf(rows, groups) {
    const lists = Array.from({ length: groups }, () => []);
    for (const it of rows) lists[it.group] = it.new;
    const found = flat(lists);
    return {
        ...found, primaries: Int32Array.from(lists, (list) => list.find((it) => it !== null) ?? -1),
        counts: counted(found, greatest(found.items) + 1)
    };
}

// The lists as they are by what the service doesn't know: `own` are those of some groups, and
// affinities of devices say which one leads a list.
export function settledLists(pool, lists, own, affinity) {
    const primaries = new Int32Array(pool.pg_num).fill(-1), found = [];
    for (let group = 0; group < pool.pg_num; group += 1) {
        const { up, primary } = led(pool, group, own.get(group) ?? listAt(lists, group), affinity, -1);
        found.push(up);
        primaries[group] = primary;
    }
    return { ...flat(found), primaries };
}

function same(one, other) {
    return one.length === other.length && one.every((it, place) => it === other[place]);
}

// How many copies a group of an erasure pool writes anew: each place has a part of its own, so a
// device that changes its place writes another one.
function placesAnew(old, next) {
    return next.reduce((count, it, place) => count + (it !== -1 && old[place] !== it), 0);
}

// The copies that a list has: its devices, each once.
export function present(list) {
    return list.reduce((count, it, place) => count + (it !== -1 && list.indexOf(it) === place), 0);
}

// How many groups have fewer copies than the pool's size, how many copies these lack, and how many
// groups have fewer than its min_size: these also by how many copies are `left`, the fewest first,
// with the first of them.
export function lacking(pool, lists) {
    const found = { groups: 0, copies: 0, stopped: 0 }, left = [];
    for (let group = 0; group < pool.pg_num; group += 1) {
        const has = present(listAt(lists, group));
        if (has < pool.size) found.groups += 1;
        found.copies += Math.max(0, pool.size - has);
        if (has < pool.min_size) {
            found.stopped += 1;
            left[has] ??= { copies: has, groups: 0, first: [] };
            left[has].groups += 1;
            if (left[has].first.length < NAMED) left[has].first.push(group);
        }
    }
    return { ...found, left: left.filter(Boolean) };
}

// Of each device, by its id, how often it stands in the lists.
function counted({ items }, ids) {
    const found = new Int32Array(ids);
    for (const it of items) if (it !== -1) found[it] += 1;
    return found;
}

function greatest(...all) {
    return all.reduce((most, items) => items.reduce((top, it) => Math.max(top, it), most), -1);
}

// The devices of a list that another one lacks, each once.
function others(list, lacks) {
    return list.filter((it, place) => it !== -1 && !lacks.includes(it) && list.indexOf(it) === place);
}

// How many of the pool's groups one counts for by its objects: other than 1 where pg_num is no
// power of two, since Ceph's stable_mod gives some groups twice as many.
function partOf({ pg_num: groups }, group) {
    const whole = 2 ** Math.ceil(Math.log2(groups));
    return whole === groups ? 1 : groups * (groups - whole / 2 <= group && group < whole / 2 ? 2 : 1) / whole;
}

// Of groups that move, with their lists: how many copies each writes anew, and how often each
// device joins a list and leaves one. By the groups' parts of the pool's objects: what is written
// in all (`wrote`), and by how much each device has more (`net`).
function moves(pool, groups, old, next) {
    const ids = greatest(old.items, next.items) + 1, gains = new Int32Array(ids);
    const losses = new Int32Array(ids), net = new Float64Array(ids), gainedBy = new Int32Array(groups.length);
    let wrote = 0;
    groups.forEach((group, place) => {
        const [one, other] = [listAt(old, place), listAt(next, place)], part = partOf(pool, group);
        for (const it of other) if (it !== -1) net[it] += part;
        for (const it of one) if (it !== -1) net[it] -= part;
        for (const it of others(other, one)) gains[it] += 1;
        for (const it of others(one, other)) losses[it] += 1;
        gainedBy[place] = pool.kind === "erasure" ? placesAnew(one, other) : others(other, one).length;
        wrote += gainedBy[place] * part;
    });
    return {
        moved: groups.length, anew: gainedBy.reduce((sum, it) => sum + it, 0), wrote, groups, gainedBy, old,
        next, gains, losses, net
    };
}

// The same of the rows of moves between two versions.
export function movesOf(pool, all, affinity = {}) {
    const rows = Object.keys(affinity).length
        ? all.map(
            (it) => (
                {
                    ...it, old: led(pool, it.group, it.old, affinity).up,
                    new: led(pool, it.group, it.new, affinity).up
                }
            )
        ).filter((it) => !same(it.old, it.new))
        : all;
    return moves(
        pool, Int32Array.from(rows, (it) => it.group), flat(rows.map((it) => it.old)),
        flat(rows.map((it) => it.new))
    );
}

// What differs between the lists of a pool before and after: the groups that move with their
// lists, what each device has before and after, gains and loses, and what has no device.
export function differences(pool, before, after, unordered = false) {
    const groups = [];
    const stays = unordered && pool.kind !== "erasure"
        ? (one, other) => same([...one].sort(), [...other].sort())
        : same;
    for (let group = 0; group < pool.pg_num; group += 1)
        if (!stays(listAt(before, group), listAt(after, group))) groups.push(group);
    const of = (lists) => flat(groups.map((group) => [...listAt(lists, group)]));
    const ids = greatest(before.items, after.items) + 1;
    return {
        ...moves(pool, Int32Array.from(groups), of(before), of(after)), had: counted(before, ids),
        has: counted(after, ids), lackedBefore: lacking(pool, before), lacks: lacking(pool, after)
    };
}
