// What this browser knows of a tenant beside the service's replies: the pools and the states of
// devices that it set, since no request lists these, the names of files that were imported, and
// what a dump says beside that: what isn't computed, in words (`notes`), and the pools that are
// left out with the devices that they may have (`left`); by pool the groups with whole upmap lists
// (`whole`) and with set primaries (`primaries`), and upmap items that are more than the service
// takes (`pairs`); primary affinities by device (`affinity`); what pools take and devices hold in
// bytes (`bytes`, `rooms`, `ratios`); flags that keep devices in (`noout`, by devices, and
// `flags`); pools in stretch mode (`stretched`), that are being split (`splits`), and groups with a
// temporary list (`moving`); how groups lie by the cluster's own word (`lying`, `doubt`); whether
// the newest map has weights with all their decimals (`exact`). A map may have several `texts`, of
// which the first ones (`shown`) show it; `sides` says of pools which one they have, if not the
// first.

const KNOWN = "crushcalc.tenant.";
const EMPTY = {
    notes: [], left: [], whole: {}, primaries: {}, pairs: {}, affinity: {}, bytes: {}, rooms: {}, ratios: {},
    noout: [], flags: [], stretched: [], moving: {}, splits: [], lying: null, doubt: null, exact: false,
    texts: 1, shown: 1, sides: {}
};

// The names of what a dump says.
export const SAID = Object.keys(EMPTY);

export function tenants() {
    return Object.keys(localStorage).filter((it) => it.startsWith(KNOWN)).map(
        (it) => it.slice(KNOWN.length)
    ).sort();
}

export function known(tenant) {
    const empty = { epoch: 0, seen: 0, pools: [], states: {}, files: {}, pool: 0, one: false, ...EMPTY };
    try {
        return { ...empty, ...JSON.parse(localStorage.getItem(KNOWN + tenant) ?? "{}") };
    } catch {
        return empty;
    }
}

export function note(tenant, fields) {
    const now = { ...known(tenant), ...fields };
    localStorage.setItem(KNOWN + tenant, JSON.stringify(now));
    return now;
}

export function forgetTenant(tenant) {
    localStorage.removeItem(KNOWN + tenant);
}

// Notes what an accepted request did. `seen` is the epoch up to which this browser knows all of the
// cluster's own tenant; a request on the tenant of another of its texts is noted as `of` it.
export function learn(record, reply) {
    if (record.note?.copy) return;
    const { request, ...fields } = JSON.parse(record.body), tenant = record.note?.of ?? record.tenant;
    const it = known(tenant);
    if (record.route === "maps") {
        if (record.note?.of) return;
        it.files[reply.version] = record.note?.file ?? "";
    } else if (record.route === "pools") {
        it.pools = [
            ...it.pools.filter((pool) => pool.id !== fields.id),
            { ...fields, min_size: record.note?.min_size }
        ].sort((one, other) => one.id - other.id);
        it.pool = fields.id;
    } else if (record.route === "pools/remove") {
        it.pools = it.pools.filter((pool) => pool.id !== fields.id);
    } else if (record.route === "devices") {
        for (const { id, ...state } of fields.devices)
            it.states[id] = { reweight: 65536, up: true, ...it.states[id], ...state };
    } else if (record.route === "devices/csv") {
        for (const [id, state] of statesOf(fields.csv)) it.states[id] = state;
    }
    if (!record.note?.of && reply.epoch === it.seen + 1) it.seen = reply.epoch;
    note(tenant, it);
}

// The states that a CSV says which the service has accepted: of each device its id, and the
// reweight and whether it is up.
export function statesOf(csv) {
    const lines = csv.replace(/^\ufeff/, "").split(/\r\n|\n|\r/).filter((it) => it !== "");
    return lines.slice(1).map((line) => {
        const [id, reweight, up] = line.split(",").map((it) => Number(it.replace(/^"(.*)"$/, "$1")));
        return [id, { reweight, up: up === 1 }];
    });
}
