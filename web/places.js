// A table of the cluster's places: racks, hosts or devices, each with figures that are sums over
// the devices below, and a bar. Racks and hosts open to their devices.
import { button, cut, el, labelled, later, options, save } from "./dom.js";
import { devicesBelow, pathOf, weightOf } from "./map.js";
import { stateOf } from "./shares.js";

const ROWS = 60, DEVICES = 50, HEIGHT = 18;

// The places of a level: buckets of a type, or the devices.
function placesOf(map, level) {
    if (level !== "device") {
        return [...map.buckets.values()].filter((it) => it.type === level).map(
            (it) => (
                {
                    name: it.name, type: level, above: pathOf(it),
                    devices: devicesBelow(it).map((device) => device.id), bucket: it
                }
            )
        );
    }
    return [...map.devices.values()].map(deviceOf);
}

// Devices that are in no bucket and have nothing are in no table.
function isShown({ place, sums }) {
    return place.bucket || place.device.buckets.length > 0 || Object.values(sums).some((it) => it !== 0);
}

export function isPlaced(cluster, id) {
    return Boolean(cluster.map.byId.get(id)?.buckets.length);
}

function deviceOf(device) {
    const host = device.buckets[0];
    return {
        name: device.name, type: "device", id: device.id,
        above: host ? [host.name, pathOf(host)].filter(Boolean).join(", ") : "in no bucket",
        devices: [device.id], device
    };
}

// The sums of each value over the devices of a place.
function summed(place, values) {
    const sums = {};
    for (const [key, of] of Object.entries(values))
        sums[key] = place.devices.reduce((sum, id) => sum + (of(id) ?? 0), 0);
    return { place, sums };
}

export function barOf(top) {
    const at = (value) => `${top ? 100 * value / top : 0}%`;
    const svg = d3.select(
        document.createElementNS("http://www.w3.org/2000/svg", "svg")
    ).attr("class", "bar").attr("aria-hidden", "true").attr("width", "100%").attr("height", HEIGHT);
    const block = (
        kind, from, to, y = 0, height = HEIGHT
    ) => to > from && svg.append("rect").attr("class", kind).attr("x", at(from)).attr("width",
    at(to - from)).attr("y", y).attr("height", height).attr("rx", 2);
    const line = (kind, value) => svg.append("line")
        .attr("class", kind)
        .attr("x1", at(value))
        .attr("x2", at(value))
        .attr("y1", 0)
        .attr("y2", HEIGHT);
    svg.append("rect").attr("class", "track").attr("width", "100%").attr("height", HEIGHT).attr("rx", 2);
    return { svg: svg.node(), block, line };
}

// The names of levels as one reads them.
export function levelName(level) {
    return level === "device" ? "devices" : `${level}s`;
}

// The table. `values` gives numbers of a device by their names, `columns` are figures made of
// sums (`text`), `draw` draws a bar of sums with the greatest number `top` of all, `orders` are
// ways to order places by a number of their sums, the greatest first. `mark` is what stands behind
// a name, `begin` the level and the order that are shown first.
export function placesTable(
    cluster,
    {
        values, columns, draw, top, orders, mark = () => null, legend, file, id = "places", only = () => true,
        begin = {}
    }
) {
    const { map } = cluster, levels = [...map.levels, "device"];
    const level = options(
        el("select", { id: `${id}-level` }), levels.map((it) => [it, `by ${it}`]), begin.level ?? levels[0]
    );
    const order = options(
        el("select", { id: `${id}-order` }),
        [["map", "as in the map"], ...orders.map(([key, text]) => [key, text])], begin.order ?? "map"
    );
    const search = el("input", { type: "search", id: `${id}-search` }), body = el("tbody"), foot = el("div");
    const heads = el("tr");
    const head = (place) => el("th", { scope: "col", class: "place" }, place);
    function rowOf({ place, sums }, most, inside) {
        const { svg, block, line } = barOf(most);
        draw({ block, line }, sums);
        const name = place.type === "device" || !place.devices.length
            ? [place.name]
            : [
                el(
                    "button",
                    {
                        type: "button", class: "open", "aria-expanded": "false",
                        on: { click: (event) => open(event.currentTarget, place) }
                    },
                    place.name
                )
            ];
        const cells = columns.map(
            ({ text, head }) => el("td", { class: "number", "data-head": head }, text(sums, place))
        );
        return el(
            "tr",
            {
                class: inside && "inside", "data-device": place.id,
                "data-place": place.type === "device" ? undefined : place.name
            },
            el(
                "th", { scope: "row", class: "place" }, name, mark(place),
                !inside && place.above && el("span", { class: "hint" }, place.above)
            ),
            el("td", { class: "wide" }, svg), cells
        );
    }
    function open(press, place) {
        const row = press.closest("tr"), shown = press.getAttribute("aria-expanded") === "true";
        press.setAttribute("aria-expanded", String(!shown));
        if (shown) {
            while (row.nextElementSibling?.classList.contains("inside")) row.nextElementSibling.remove();
            return;
        }
        const inside = place.devices.map((it) => summed(deviceOf(map.byId.get(it)), values));
        const most = Math.max(...inside.map((it) => top(it.sums)));
        let last = row;
        for (const it of inside.slice(0, DEVICES)) {
            const made = rowOf(it, most, true);
            last.after(made);
            last = made;
        }
        if (inside.length > DEVICES)
            last.after(
                el(
                    "tr", { class: "inside" },
                    el(
                        "td", { colspan: columns.length + 2, class: "hint" },
                        `The first ${DEVICES} of ${inside.length} devices: look for others by their name.`
                    )
                )
            );
    }
    function rows() {
        const word = search.value.trim().toLowerCase();
        const first = orders.find(([key]) => key === order.value)?.[2];
        const has = (it) => !word || it.name.toLowerCase().includes(word)
            || it.above.toLowerCase().includes(word) || it.bucket && devicesBelow(it.bucket).some(
            (one) => one.name.toLowerCase() === word
        );
        const found = placesOf(map, level.value).filter(
            (it) => it.devices.length && has(it) && it.devices.some(only)
        ).map((it) => summed(it, values)).filter(isShown);
        if (first) found.sort((a, b) => first(b.sums) - first(a.sums));
        return found;
    }
    function draws() {
        const found = rows(), most = Math.max(0, ...found.map((it) => top(it.sums)));
        heads.replaceChildren(
            head(level.value), el("th", { scope: "col", class: "wide" }, el("span", { class: "sr" }, "bar")),
            ...columns.map((it) => el("th", { scope: "col", class: "number" }, it.head))
        );
        foot.replaceChildren(cut(body, found.length, (place) => rowOf(found[place], most), ROWS));
        if (!found.length)
            body.replaceChildren(
                el(
                    "tr", {},
                    el(
                        "td", { colspan: columns.length + 2, class: "empty" },
                        "Nothing has this word in its name or above."
                    )
                )
            );
    }
    search.addEventListener("input", later(draws));
    for (const it of [level, order]) it.addEventListener("change", draws);
    draws();
    return el(
        "div", { id, class: "places" },
        el(
            "div", { class: "controls" }, labelled("Show", level), labelled("Order", order),
            labelled("Find a place", search),
            file && button("Save as CSV", () => save(file.name, file.text()), { id: `${id}-csv` })
        ),
        legend,
        el(
            "div",
            { class: "card scroll", tabindex: "0", role: "region", "aria-label": file?.title ?? "Places" },
            el("table", { "aria-label": file?.title ?? "Places" }, el("thead", {}, heads), body)
        ),
        foot
    );
}

// The first fields of a device's line in a CSV, and their names.
export const DEVICE_HEADS = ["device", "name", "host", "weight", "reweight", "up"];

export function deviceFields(cluster, id) {
    const device = cluster.map.byId.get(id), { reweight, up } = stateOf(cluster.known.states, id);
    return device
        ? [
            id, device.name, device.buckets[0]?.name ?? "", device.buckets.length ? weightOf(device) : "",
            reweight, up ? 1 : 0
        ]
        : [id, cluster.name(id), "", "", reweight, up ? 1 : 0];
}
