// Deleting what the service keeps of a cluster, after a question.
import { ask, forget, kept } from "./service.js";
import { meaning } from "./codes.js";
import { button, el, fault, fresh } from "./dom.js";
import { forgetTenant } from "./known.js";
import { dropSides } from "./sides.js";

function question({ tenant, summary: { versions, pools, devices } }) {
    const has = versions || pools || devices
        ? `${versions} versions of its map, ${pools} pools and ${devices} device states. They can't be `
            + `had back.`
        : "no map, no pool and no device states.";
    return `The service keeps under this name: ${has} Your Ceph cluster isn't touched.`;
}

// A button that asks, and then deletes the tenant and leads to the first page.
export function removal(cluster) {
    const { tenant } = cluster, said = el("div"), title = el("h2", { id: fresh() }, `Delete ${tenant}?`);
    async function remove() {
        // what is said meanwhile stands behind an open question
        box.close();
        const reply = await ask(`Delete ${tenant}`, "DELETE", `/t/${tenant}`);
        if (reply.status === 200) await dropSides(tenant);
        if (reply.status !== 200 && reply.error !== "no_tenant")
            return said.replaceChildren(
                fault(`${tenant} isn't deleted. `, meaning(reply.status, reply.error))
            );
        for (const it of kept().filter((record) => record.tenant === tenant || record.note?.of === tenant))
            forget(it);
        forgetTenant(tenant);
        location.hash = "#/";
        return undefined;
    }
    const box = el(
        "dialog", { "aria-labelledby": title.id }, title, el("p", {}, question(cluster)),
        el(
            "div", { class: "buttons" }, button("Keep it", () => box.close()),
            button("Delete it", remove, { class: "danger" })
        )
    );
    return el(
        "div", { class: "remove" }, button(`Delete ${tenant}`, () => box.showModal(), { id: "remove" }), said,
        box
    );
}
