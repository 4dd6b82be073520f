// The map: its picture, its tree with weights and states that can be changed, its versions; and
// what of the cluster this browser knows.
import { ask } from "./service.js";
import { copiesOf, drop } from "./copies.js";
import { meaning } from "./codes.js";
import { button, command, csv, cut, el, fault, labelled, options, save, say, sayDone } from "./dom.js";
import { removal } from "./removing.js";
import { setStates } from "./sides.js";
import { many } from "./words.js";
import { pathOf, readMap } from "./map.js";
import { DEVICE_HEADS, deviceFields } from "./places.js";
import { picture } from "./picture.js";
import { savedOf } from "./take.js";
import { stateOf } from "./shares.js";
import { sharePicture } from "./view_usage.js";
import { placeActions } from "./actions.js";
import { filling, working } from "./waiting.js";

// writes the states of a cluster's devices as the service takes them
const STATES =
    'ceph osd dump -f json | jq -r \'"id,reweight,up", '
        + '(.osds[] | "\\(.osd),\\(.weight * 65536 | round),\\(.up)")\' >states.csv';
const DUMPS = "ceph osd crush dump -f json >crush.json && ceph osd dump -f json >osd.json";
const MORE =
    "ceph df detail -f json >df.json; ceph osd df -f json >osd-df.json; ceph pg dump pgs_brief -f json "
        + ">pgs.json";

// The place where files are dropped, or chosen.
export function dropBox(take, more) {
    const input = el(
        "input",
        {
            type: "file", id: "file", class: "file", multiple: true,
            on: { change: () => input.files.length && take([...input.files]) }
        }
    );
    return el(
        "div", { class: "drop" },
        el(
            "p", { class: "large" },
            "Drop crush.json and osd.json here, both at once, or the folder that crushplan fetch writes"
        ),
        el("p", {}, el("span", { class: "choose" }, input, el("label", { for: "file" }, "or choose files"))),
        el(
            "p", { class: "hint" }, "On the cluster this writes them, and changes nothing: ",
            command(DUMPS)
        ),
        el(
            "p", { class: "hint" },
            "And what tells how full devices get, and whether groups lie as computed: ", command(MORE)
        ),
        el(
            "p", { class: "hint" }, "Or a map text alone, as ",
            command("ceph osd getcrushmap -o map.bin && crushtool -d map.bin -o map.txt"),
            " writes it: its weights are rounded to three decimals, and those of crush.json are exact."
        ),
        el(
            "p", { class: "hint" }, "Or an answer of crushplan, by itself: what ",
            command("crushplan plan DIR FILE --json"), " or ", command("crushplan balance DIR --json"),
            " writes is shown step by step, or pool by pool."
        ),
        more
    );
}

// ---- states

// A state that is set by a click: in or out, up or down, or another reweight.
function stateButtons(cluster, device, refresh) {
    const { reweight, up } = stateOf(cluster.known.states, device.id), of = `of ${device.name}`;
    const set = async (fields, what) => {
        const reply = await setStates(
            cluster.tenant, cluster.texts, [{ id: device.id, ...fields }], `${device.name} ${what}`
        );
        if (reply.status === 200) {
            sayDone(`${device.name} is ${what}`);
            return refresh({ focus: `[data-device="${device.id}"] button` });
        }
        return say(meaning(reply.status, reply.error));
    };
    const share = reweight === 65536
        ? "in"
        : reweight === 0 ? "out" : `reweight ${(reweight / 65536).toFixed(4).replace(/0+$/, "")}`;
    const press = (text, kind, title, act) => el(
        "button",
        {
            type: "button", class: `badge ${kind}`, title, "aria-label": `${title} (${of})`,
            on: { click: act }
        },
        text
    );
    return [
        press(
            share, reweight === 65536 ? "in" : reweight === 0 ? "out" : "part",
            reweight ? `${share}: take it out` : "out: take it in",
            () => set({ reweight: reweight ? 0 : 65536 }, reweight ? "out" : "in")
        ),
        press(
            up ? "up" : "down", up ? "up" : "down",
            up ? "up: say that it is down" : "down: say that it is up",
            () => set({ up: !up }, up ? "down" : "up")
        ),
        press(
            "..", "other", "Another reweight",
            () => askReweight(device, reweight, (it) => set({ reweight: it }, `reweighted to ${it / 65536}`))
        )
    ];
}

function askReweight(device, reweight, set) {
    const field = el(
        "input",
        {
            type: "number", min: 0, max: 1, step: "any", value: reweight / 65536, required: true,
            id: "reweight"
        }
    );
    const send = (event) => {
        event.preventDefault();
        box.close();
        set(Math.round(Number(field.value) * 65536));
    };
    const box = el(
        "dialog", { "aria-label": `Reweight of ${device.name}`, on: { close: () => box.remove() } },
        el(
            "form", { on: { submit: send } },
            labelled(`Reweight of ${device.name}`, field, "As ceph osd reweight takes it: 0 to 1."),
            el(
                "div", { class: "buttons" }, el("button", { class: "main" }, "Set it"),
                button("Leave it", () => box.close())
            )
        )
    );
    document.body.append(box);
    box.showModal();
}

// ---- the tree

function deviceLine(cluster, device, weight, refresh) {
    return el(
        "div", { class: "leaf", "data-device": device.id }, el("span", { class: "device" }, device.name),
        el("span", { class: "weight" }, weight ?? ""),
        el("span", { class: "states" }, ...stateButtons(cluster, device, refresh))
    );
}

// A bucket, whose items are made when it is opened.
function bucketLine(cluster, bucket, weight, open, refresh) {
    const items = el("ul"), foot = el("div");
    const line = el(
        "details", { "data-bucket": bucket.name },
        el(
            "summary", {}, el("span", { class: "type" }, bucket.type),
            el("span", { class: "name" }, bucket.name), el("span", { class: "weight" }, weight ?? ""),
            el("span", { class: "hint" }, `${bucket.alg}, id ${bucket.id}`)
        ),
        items, foot
    );
    let filled = false;
    function fill() {
        if (filled || !line.open) return;
        filled = true;
        foot.replaceChildren(cut(items, bucket.items.length, (place) => {
            const item = bucket.items[place];
            return el(
                "li", {},
                item.device
                    ? deviceLine(cluster, item.device, item.weight, refresh)
                    : bucketLine(cluster, item.bucket, item.weight, open - 1, refresh)
            );
        }));
    }
    line.addEventListener("toggle", fill);
    line.open = open > 0;
    fill();
    return line;
}

// How many levels are opened at first: all of a small map.
function levels(map) {
    return map.devices.size <= 64 ? 9 : map.buckets.size <= 64 ? 2 : 1;
}

function tree(cluster, map, refresh) {
    const list = el("ul", { class: "tree", id: "tree" }), foot = el("div");
    const alone = map.hosts.filter((it) => it.type === "").flatMap((it) => it.devices);
    function whole() {
        const lines = [...map.roots, ...alone];
        foot.replaceChildren(
            cut(
                list, lines.length,
                (it) => el(
                    "li", {},
                    lines[it].items
                        ? bucketLine(cluster, lines[it], null, levels(map), refresh)
                        : deviceLine(cluster, lines[it], null, refresh)
                )
            )
        );
    }
    function search() {
        const word = input.value.trim().toLowerCase();
        if (!word) return whole();
        const names = [
            ...map.buckets.values(), ...map.devices.values()
        ].filter((it) => it.name.toLowerCase().includes(word));
        foot.replaceChildren(cut(list, names.length, (place) => {
            const it = names[place];
            const above = it.items
                ? pathOf(it)
                : it.buckets[0] ? [it.buckets[0].name, pathOf(it.buckets[0])].filter(Boolean).join(", ") : "";
            const line = it.items
                ? bucketLine(cluster, it, null, 0, refresh)
                : deviceLine(
                    cluster, it, it.buckets[0]?.items.find((item) => item.device === it).weight, refresh
                );
            return el("li", {}, line, above && el("span", { class: "hint above" }, `in ${above}`));
        }));
        if (!names.length)
            list.append(el("li", { class: "empty" }, "No bucket and no device has this in its name."));
        return undefined;
    }
    const input = el("input", { type: "search", id: "tree-search", on: { input: search } });
    whole();
    return el(
        "div", { class: "card" },
        labelled(
            "Find a bucket or device", input,
            "A click on a state changes it. Classes of devices (hdd, ssd) aren't shown: the service reads "
                + "them and doesn't keep them."
        ),
        list, foot
    );
}

// ---- what else is known

// What the service has that this browser doesn't know.
function unknown({ summary, known }) {
    const count = Object.keys(known.states).length;
    if (
        summary.epoch === known.seen
            && summary.pools === known.pools.filter((it) => !known.sides[it.id]).length
    )
        return null;
    const has =
        `The service keeps ${many(summary.pools, "pool")} and the states of `
            + `${many(summary.devices, "device")}; this browser knows ${many(known.pools.length, "pool")} `
            + `and ${many(count, "state")}.`;
    return el(
        "p", { class: "note", id: "unknown" },
        `This cluster was changed by another browser or program. ${has} No request lists them: drop `
            + `osd.json, a CSV of all states, or the file that the other browser saves. What is computed in `
            + `a copy is compared with the service first.`
    );
}

function notesOf({ known }) {
    if (!known.notes.length) return null;
    return el(
        "div", { class: "note", id: "not-computed" },
        el("p", {}, el("strong", {}, "What the cluster has and isn't computed here")),
        el("ul", {}, known.notes.map((it) => el("li", {}, it)))
    );
}

// Whether groups lie as computed, by the cluster's own word, or how it can be known.
function lyingOf({ known }) {
    if (!known.pools.length) return null;
    if (!known.lying)
        return Object.keys(known.ratios).length
            ? el(
                "p", { class: "hint", id: "lying" },
                "Whether each group lies as computed is known with pgs.json: ",
                command("ceph pg dump pgs_brief -f json"), "."
            )
            : null;
    const { text, lines, differ } = known.lying, said = `${text[0].toUpperCase()}${text.slice(1)}.`;
    return el(
        "div", { class: differ ? "note" : "hint", id: "lying" },
        el("p", {}, differ ? el("strong", {}, said) : said),
        lines.length > 0 && el(
            "details", {}, el("summary", {}, "Groups that lie otherwise in the cluster"),
            el("ul", {}, lines.map((it) => el("li", {}, it)))
        )
    );
}

// Copies that a closed browser left: found by their names, and dropped when asked.
function leftCopies(cluster) {
    const dropping = (name) => button("Drop it", async (event) => {
        const line = event.currentTarget.closest("li"), reply = await drop(name);
        line.replaceChildren(
            reply.status === 200 || reply.status === 404
                ? `${name} is dropped.`
                : meaning(reply.status, reply.error, true)
        );
    });
    const found = el("div", { "aria-live": "polite" });
    const look = button("Look for copies", async () => {
        const names = await working("Looking for copies", (work) => copiesOf(cluster.tenant, work.signal));
        const lines = names.map((it) => el("li", {}, el("code", {}, it), " ", dropping(it)));
        found.replaceChildren(
            names.length ? el("ul", { class: "tenants" }, lines) : el("p", {}, "There is none.")
        );
    }, { id: "look" });
    return el(
        "details", { class: "hint", id: "copies" }, el("summary", {}, "Copies that a closed browser left"),
        el(
            "p", {},
            "A drain is computed on a copy, which is dropped at once. Where a browser was closed before, "
                + "its copy is left on the service. Don't drop one that another browser works with now."
        ),
        look, found
    );
}

function mapPicture(cluster) {
    const weight = new Map(
        [...cluster.map.devices.values()].map(
            (it) => [
                it.id,
                it.buckets.reduce(
                    (sum, bucket) => sum + bucket.items.filter((item) => item.device === it).reduce(
                        (all, item) => all + Number(item.weight), 0
                    ),
                    0
                )
            ]
        )
    );
    const out = (id) => stateOf(cluster.known.states, id).reweight === 0;
    const down = (id) => !stateOf(cluster.known.states, id).up;
    return picture(cluster, {
        values: {
            devices: () => 1, out: (id) => (out(id) ? 1 : 0), down: (id) => (down(id) ? 1 : 0),
            weight: (id) => weight.get(id)
        },
        colour: (it) => (
            it.down ? ["loss", it.down / it.devices] : it.out ? ["used", it.out / it.devices] : "same"
        ),
        words: (it, place) => [
            place.items
                ? `${many(it.devices, "device")}, weight ${Number(it.weight.toFixed(3))}`
                : `weight ${Number(it.weight.toFixed(5))}`,
            it.out && (place.items ? `${it.out} out` : "out"),
            it.down && (place.items ? `${it.down} down` : "down")
        ].filter(Boolean).join(", "),
        keys: [["same", "in and up"], ["used", "out"], ["loss", "down"]],
        actions: cluster.known.pools.length ? placeActions(cluster) : () => [],
    });
}

// The picture by states at once; by shares where there are pools, once these are known.
function pictureOf(cluster, section) {
    const first = mapPicture(cluster), at = el("div", {}, first);
    if (cluster.known.pools.length) {
        filling(at, "Usage of the pools", (work) => {
            section.addEventListener("left", work.stop);
            return sharePicture(cluster, work, placeActions(cluster), cluster.known.pools, first);
        });
    }
    return at;
}

function devicesCsv(cluster, map) {
    return csv(
        [...DEVICE_HEADS, "above"],
        [...map.devices.values()].map(
            (it) => [
                ...deviceFields({ ...cluster, map }, it.id),
                it.buckets[0] ? pathOf(it.buckets[0]).replaceAll(",", "") : ""
            ]
        )
    );
}

function versionsOf(cluster, refresh) {
    const { summary, tenant } = cluster;
    const numbers = Array.from({ length: summary.versions }, (_, it) => summary.versions - it);
    const select = options(
        el("select", { id: "version" }),
        numbers.map((it) => [it, `${it}${cluster.known.files[it] ? `: ${cluster.known.files[it]}` : ""}`]),
        summary.versions
    );
    const shown = el("div");
    let map = cluster.map;
    select.addEventListener("change", async () => {
        const version = select.value;
        const reply = await ask("Read a version", "GET", `/t/${tenant}/maps/${version}`);
        if (version !== select.value) return;
        map = readMap(reply.text ?? "");
        shown.replaceChildren(
            reply.status === 200 ? tree(cluster, map, refresh) : fault(meaning(reply.status, reply.error))
        );
    });
    shown.append(tree(cluster, map, refresh));
    const file = button(
        "Save devices as CSV", () => save(`devices-${tenant}-${select.value}.csv`, devicesCsv(cluster, map)),
        { id: "devices-csv" }
    );
    const whole = button(
        "Save for another browser",
        () => save(`${tenant}.crushcalc.json`, savedOf(tenant), "application/json"),
        {
            id: "save-known",
            title: "What this browser alone knows: names and sizes of pools, and states of devices"
        }
    );
    return [el("div", { class: "controls" }, labelled("Version", select), file, whole), shown];
}

export function showMap(cluster, said, take, refresh) {
    const { summary, tenant } = cluster, at = el("div", {}, el("div", { id: "said", tabindex: "-1" }, said));
    const states = el(
        "details", { class: "hint" }, el("summary", {}, "A CSV of device states is taken here too"),
        el(
            "p", {},
            "Where devices are down or reweighted. Its lines are id,reweight,up: a reweight is in 65536ths, "
                + "up is 1 or 0. On the cluster this writes it:"
        ),
        el("pre", {}, el("code", {}, STATES))
    );
    const section = el(
        "section", { class: "split" },
        el("div", {}, el("h1", { tabindex: "-1" }, "Map"), dropBox(take, states)), at
    );
    if (!summary.versions) {
        at.append(
            el(
                "p", { class: "empty" },
                `${tenant} has no map yet. Drop one here, or delete ${tenant}, of which the service keeps `
                    + `nothing but the name.`
            ),
            removal(cluster)
        );
        return section;
    }
    at.append(
        ...[
            unknown(cluster), lyingOf(cluster), notesOf(cluster), pictureOf(cluster, section)
        ].filter(Boolean),
        ...versionsOf(cluster, refresh), leftCopies(cluster), removal(cluster)
    );
    return section;
}
