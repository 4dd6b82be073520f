// Where an object or a group lies.
import { ask } from "./service.js";
import { meaning } from "./codes.js";
import { el, fault, labelled, say } from "./dom.js";
import { groupOf, idOf } from "./groups.js";
import { settled, statesOn } from "./lies.js";
import { pathOf } from "./map.js";
import { exceptionsOf } from "./usage.js";
import { missing, poolOf, poolPicker } from "./view_pools.js";
import { quiet } from "./waiting.js";

function placeOf(cluster, id) {
    const device = cluster.map.byId.get(id), host = device?.buckets[0];
    return host ? [host.name, pathOf(host)].filter(Boolean).join(", ") : "";
}

function deviceLines(cluster, reply) {
    return el("ol", { class: "lies" }, reply.up.map((id) => {
        if (id === null) return el("li", {}, el("span", { class: "device" }, "none"));
        return el(
            "li", { "data-device": id }, el("span", { class: "device" }, cluster.name(id)),
            el("span", { class: "hint" }, placeOf(cluster, id)),
            id === reply.primary && el("span", { class: "badge in" }, "primary")
        );
    }));
}

function shown(cluster, pool, title, reply) {
    const raw = JSON.stringify(reply.raw) !== JSON.stringify(reply.up) && el(
        "p", {},
        `What the rule answers, with devices that are down: `
            + `${reply.raw.map((it) => (it === null ? "none" : cluster.name(it))).join(", ")}.`
    );
    const numbers = [
        ["group", reply.group], ["group in Ceph", idOf(pool, reply.group)], ["seed", reply.seed],
        ...("hash" in reply ? [["hash of the name", reply.hash]] : []), ["version", reply.version]
    ];
    return el(
        "div", { class: "card", id: "found" }, el("h2", { class: "name" }, title),
        el("p", {}, `In pool ${pool.name}, on these devices:`), deviceLines(cluster, reply), raw,
        el(
            "dl", { class: "facts" },
            numbers.map(([text, value]) => el("div", {}, el("dt", {}, text), el("dd", {}, value)))
        )
    );
}

// A group as Ceph puts it, with what the service doesn't know of it.
async function asItLies(cluster, pool, reply) {
    const exceptions = await exceptionsOf(cluster, pool, quiet(), true);
    return settled(
        pool, reply, exceptions, statesOn(cluster.map, cluster.known.states), exceptions.isBatched()
    );
}

export function showObject(cluster) {
    const section = el("section", {}, el("h1", { tabindex: "-1" }, "Object"));
    const lacks = missing(cluster);
    if (lacks) {
        section.append(lacks);
        return section;
    }
    const name = el("input", { id: "object", autocomplete: "off" });
    const group = el(
        "input",
        { id: "group", autocomplete: "off", required: true, on: { input: () => group.setCustomValidity("") } }
    );
    const at = el("div");
    async function find(title, ask) {
        say("Asking");
        const pool = poolOf(cluster), reply = await ask(cluster.path(pool));
        const found = reply.status === 200 ? await asItLies(cluster, pool, reply) : null;
        say("");
        at.replaceChildren(
            found ? shown(cluster, pool, title, found) : fault(meaning(reply.status, reply.error))
        );
    }
    const byName = (event) => {
        event.preventDefault();
        return find(
            name.value, (pool) => ask("Locate an object", "POST", `${pool}/locate`, { name: name.value })
        );
    };
    const byNumber = (event) => {
        event.preventDefault();
        const pool = poolOf(cluster), number = groupOf(pool, group.value);
        group.setCustomValidity(
            number === undefined ? `A number, or an id in Ceph of this pool, as ${idOf(pool, 28)}.` : ""
        );
        return group.reportValidity() && find(
            `Group ${number}`, (at) => ask("Locate a group", "GET", `${at}/groups/${number}`)
        );
    };
    section.append(
        el(
            "div", { class: "split" },
            el(
                "div", {}, poolPicker(cluster, () => at.replaceChildren(), false),
                el(
                    "form", { class: "card form", "aria-label": "An object", on: { submit: byName } },
                    labelled("Name of an object", name), el("button", { class: "main" }, "Where is it?")
                ),
                el(
                    "form", { class: "card form", "aria-label": "A group", on: { submit: byNumber } },
                    labelled(
                        "A group", group,
                        "Its number, or its id as Ceph writes it: 1.1c is group 28 of pool 1."
                    ),
                    el("button", {}, "Where is it?")
                )
            ),
            at
        )
    );
    return section;
}
