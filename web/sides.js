// A cluster whose map has several texts: each but the first stands in a tenant of its own beside
// the cluster's, with the pools that are computed on it. Their names are those of copies of the
// cluster, so that the web server opens them to the same users, with numbers that no copy has.
import { ask, change } from "./service.js";
import { good, parts } from "./copies.js";
import { known, note } from "./known.js";
import { devicesIn } from "./map.js";

const FIRST = 0xf00000000000;

function sideName(tenant, place) {
    return `${tenant}.copy-${(FIRST + place).toString(16)}`;
}

// The tenants of a cluster: its own, and those of its other texts.
export function tenantsOf(tenant, { texts }) {
    return Array.from({ length: texts }, (_, it) => (it ? sideName(tenant, it) : tenant));
}

// The tenant that has a pool.
export function tenantWith(tenant, { sides }, pool) {
    return sides[pool.id] ? sideName(tenant, sides[pool.id]) : tenant;
}

// What a request on one of these tenants is noted as.
export function noteFor(tenant, at, more = {}) {
    return at === tenant ? more : { ...more, of: tenant };
}

// Whether the service has another text of a cluster, which another browser may have made.
export async function hasSides(tenant) {
    return (
        await ask(`Look for other texts of ${tenant}`, "GET", `/t/${sideName(tenant, 1)}`)
    ).status === 200;
}

// Drops the tenants of other texts, also those that another browser made.
export async function dropSides(tenant) {
    for (let place = 1; ; place += 1) {
        const reply = await ask(`Drop a text of ${tenant}`, "DELETE", `/t/${sideName(tenant, place)}`);
        if (reply.status !== 200) return reply.status === 404 || reply.error === "no_tenant" ? null : reply;
    }
}

// Makes the tenants of other texts, of which the first is the cluster's own. `places` says of pools
// by id which text they have, and `shown` how many of the texts show the map.
export async function makeSides(tenant, { texts, places, shown }, fresh) {
    const left = !fresh || texts.length > 1 ? await dropSides(tenant) : null;
    if (left) good(left, "The tenants of other texts");
    for (let place = 1; place < texts.length; place += 1) {
        const name = sideName(tenant, place), words = `Make the tenant of text ${place + 1}`;
        good(await ask(words, "PUT", `/t/${name}`), words);
        good(
            await change(
                `Import text ${place + 1} of the map`, name, "maps", { text: texts[place] }, { of: tenant }
            ),
            `Text ${place + 1} of the map`
        );
    }
    // a pool that stays in the cluster's own tenant has no place of its own
    return note(
        tenant,
        {
            texts: texts.length, shown,
            sides: Object.fromEntries(Object.entries(places).filter(([, place]) => place))
        }
    );
}

// Sets states of devices in each tenant that has them; `texts` are the tenants' texts by name.
export async function setStates(tenant, texts, changes, what = "Set the states of devices") {
    for (const [name, text] of texts) {
        const own = devicesIn(text);
        for (const part of parts(changes.filter((it) => own.has(it.id)))) {
            const reply = await change(what, name, "devices", { devices: part }, noteFor(tenant, name));
            if (reply.status !== 200) return reply;
        }
    }
    return { status: 200 };
}
