// Racks, hosts and devices with a box each: a rack or a host is ticked as a whole.
import { cut, el, labelled } from "./dom.js";
import { devicesBelow, pathOf } from "./map.js";

const LINES = 40, FOUND = 60;

function boxOf(text, devices, kind, chosen, changed) {
    const input = el("input", { type: "checkbox" });
    const set = () => {
        const count = devices.filter((it) => chosen.has(it.id)).length;
        input.checked = devices.length > 0 && count === devices.length;
        input.indeterminate = count > 0 && count < devices.length;
    };
    input.addEventListener("change", () => {
        for (const it of devices) if (input.checked) chosen.add(it.id); else chosen.delete(it.id);
        changed();
    });
    input.addEventListener("again", set);
    set();
    return el("label", { class: kind }, input, text);
}

// What is chosen is kept in `chosen`, by id, and `changed` is called where it is another. `skip`
// leads on from before the list.
export function picker(cluster, chosen, changed, skip) {
    const { map } = cluster, list = el("ul", { class: "picker" }), foot = el("div");
    const search = el("input", { type: "search", id: "drain-search" });
    const small = map.buckets.size <= 12;
    const again = () => {
        for (const it of list.querySelectorAll("input")) it.dispatchEvent(new Event("again"));
        changed();
    };
    const deviceLine = (device, hint) => el(
        "li", {},
        boxOf(
            [device.name, hint && el("span", { class: "hint" }, ` in ${hint}`)].filter(Boolean), [device],
            "device", chosen, again
        )
    );
    function bucketLine(bucket, open, hint) {
        const items = el("ul"), more = el("div"), inner = bucket.items.filter((it) => it.bucket ?? it.device);
        const inside = el(
            "details", { open },
            el(
                "summary", {}, inner[0]?.bucket ? "What is in it" : "Devices",
                el("span", { class: "sr" }, ` of ${bucket.name}`)
            ),
            items, more
        );
        const fill = () => inside.open && !items.firstChild && more.replaceChildren(
            cut(
                items, inner.length,
                (at) => (
                    inner[at].bucket ? bucketLine(inner[at].bucket, small) : deviceLine(inner[at].device)
                ),
                LINES
            )
        );
        inside.addEventListener("toggle", fill);
        fill();
        const kind = inner[0]?.bucket ? "bucket" : "host";
        return el(
            "li", { "data-bucket": bucket.name },
            boxOf(
                [
                    el("span", { class: "type" }, bucket.type), " ", bucket.name,
                    hint && el("span", { class: "hint" }, ` in ${hint}`)
                ].filter(Boolean),
                devicesBelow(bucket), kind, chosen, again
            ),
            inside
        );
    }
    function draw() {
        const word = search.value.trim().toLowerCase();
        const alone = [...map.devices.values()].filter((it) => !it.buckets.length);
        if (!word) {
            const lines = [...map.roots, ...alone], many = map.buckets.size > 1;
            foot.replaceChildren(
                cut(
                    list, lines.length,
                    (at) => (lines[at].items ? bucketLine(lines[at], many) : deviceLine(lines[at])), LINES
                )
            );
            return;
        }
        const has = (it) => it.name.toLowerCase().includes(word);
        const found = [
            ...[...map.buckets.values()].filter(has),
            ...[...map.devices.values()].filter((it) => has(it) || String(it.id) === word)
        ];
        foot.replaceChildren(
            cut(
                list, found.length,
                (at) => (
                    found[at].items
                        ? bucketLine(found[at], false, pathOf(found[at]))
                        : deviceLine(found[at], found[at].buckets[0]?.name)
                ),
                FOUND
            )
        );
        if (!found.length)
            list.replaceChildren(
                el("li", { class: "empty" }, "No rack, host or device has this in its name.")
            );
    }
    search.addEventListener("input", draw);
    // it searches, and doesn't go on yet
    search.addEventListener("keydown", (event) => event.key === "Enter" && event.preventDefault());
    draw();
    return el(
        "fieldset", { class: "card" }, el("legend", {}, "Racks, hosts, devices"),
        labelled("Find one", search), skip, list, foot
    );
}

// What was chosen, in words: whole buckets by their names, and the devices that are left.
export function namesOf(cluster, ids) {
    const left = new Set(ids), names = [];
    const take = (bucket) => {
        const below = devicesBelow(bucket);
        if (below.length && below.every((it) => left.has(it.id))) {
            names.push(bucket.name);
            for (const it of below) left.delete(it.id);
        } else {
            for (const it of bucket.items) if (it.bucket) take(it.bucket);
        }
    };
    for (const it of cluster.map.roots) take(it);
    return [...names, ...[...left].map((it) => cluster.name(it))];
}
