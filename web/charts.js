// Drawings of an answer of crushplan: the steps of a plan one after the other, and how far devices
// are from their shares. Their numbers stand in the tables below them.
import { el } from "./dom.js";

const HEIGHT = 120, ABOVE = 18, BELOW = 18, WIDEST = 16; // of a step, in hundredths of the width
const NAMED_STEPS = 12, VALUED_STEPS = 6, NAMED_DEVICES = 20, WIDEST_DEVICE = 5;

// An empty drawing; x is in hundredths of its width, y in pixels.
function blank(height, name) {
    return d3.select(document.createElementNS("http://www.w3.org/2000/svg", "svg"))
        .attr("class", "chart")
        .attr("data-chart", name)
        .attr("aria-hidden", "true")
        .attr("width", "100%")
        .attr("height", height);
}

const part = (it) => `${Math.round(1e4 * it) / 1e4}%`;

function rect(svg, kind, left, width, top, height) {
    return svg.append("rect")
        .attr("class", kind)
        .attr("x", part(left))
        .attr("width", part(width))
        .attr("y", top)
        .attr("height", Math.max(height, 0));
}

function line(svg, kind, left, right, y) {
    return svg.append("line")
        .attr("class", kind)
        .attr("x1", part(left))
        .attr("x2", part(right))
        .attr("y1", y)
        .attr("y2", y);
}

function write(svg, text, x, y, anchor, kind) {
    svg.append("text").attr("class", kind).attr("x", part(x)).attr("y", y).attr("text-anchor", anchor).text(text);
}

// Columns of the steps. Of each step `columns` are kinds with values, of which one may be null; its
// `mark` is a value with a line across, and `text` what stands above. Of a step that `isEmpty`
// there is a cross alone. `across` are lines over the whole width: kinds and values.
export function stepColumns(name, steps, across, top) {
    const svg = blank(ABOVE + HEIGHT + BELOW, name), slot = Math.min(100 / Math.max(1, steps.length), WIDEST);
    const y = (value) => ABOVE + HEIGHT * (1 - (top ? Math.min(value / top, 1) : 0));
    rect(svg, "track", 0, 100, ABOVE, HEIGHT);
    steps.forEach((it, place) => {
        const left = place * slot, middle = left + slot / 2, width = 0.7 * slot / it.columns.length;
        const own = svg.append("g").attr("data-step", it.step);
        it.columns.forEach(([kind, value], at) => {
            if (value !== null && !it.isEmpty)
                rect(own, kind, left + 0.15 * slot + at * width, width, y(value), ABOVE + HEIGHT - y(value));
        });
        if (it.mark && !it.isEmpty) line(own, it.mark[0], left + 0.08 * slot, left + 0.92 * slot, y(it.mark[1]));
        if (it.isEmpty) write(own, "×", middle, ABOVE + HEIGHT - 4, "middle", "empty");
    });
    for (const [kind, value] of across) line(svg, kind, 0, 100, y(value));
    // words stand above lines
    steps.forEach((it, place) => {
        const middle = (place + 0.5) * slot;
        const each = Math.ceil(steps.length / NAMED_STEPS);
        if (place % each === 0) write(svg, it.step, middle, ABOVE + HEIGHT + 14, "middle", "soft");
        const high = Math.max(it.mark?.[1] ?? 0, ...it.columns.map(([, value]) => value ?? 0));
        if (steps.length <= VALUED_STEPS && !it.isEmpty && it.text)
            write(svg, it.text, middle, Math.max(y(high) - 4, 12), "middle", "value");
    });
    return svg.node();
}

// How far devices are from their shares before and after: of each a bar up for copies above its
// share, and down for those that it lacks, those with most above first. Between the dashed lines
// all have their shares, rounded down or up.
export function offShares(rows) {
    const height = 2 * HEIGHT, svg = blank(height + BELOW, "off"), sorted = [...rows].sort((a, b) => b.was - a.was);
    const most = Math.max(1, ...rows.flatMap((it) => [Math.abs(it.was), Math.abs(it.is)]));
    const y = (value) => height / 2 - (height / 2 - 4) * value / most;
    const slot = Math.min(100 / Math.max(1, rows.length), WIDEST_DEVICE);
    rect(svg, "track", 0, 100, 0, height);
    // all bars of a kind are one path, whose x are places in a box of their own: of thousands of
    // devices each by itself would hold the page up
    const box = svg.append("svg")
        .attr("width", part(slot * rows.length))
        .attr("height", height)
        .attr("viewBox", `0 0 ${rows.length} ${height}`)
        .attr("preserveAspectRatio", "none");
    const bars = (kind, from, to, of) => box.append("path")
        .attr("class", kind)
        .attr("d", sorted.map((it, place) => `M${place + from} ${y(0)}V${y(of(it))}H${place + to}V${y(0)}Z`).join(""));
    bars("was", 0, 1, (it) => it.was);
    bars("used", 0.25, 0.75, (it) => it.is);
    if (rows.length <= NAMED_DEVICES)
        sorted.forEach(({ id }, place) => write(svg, id, (place + 0.5) * slot, height + 14, "middle", "soft"));
    for (const [kind, at] of [["even-before", 1], ["zero", 0], ["even-before", -1]]) line(svg, kind, 0, 100, y(at));
    return el(
        "div", { class: "beside-axis", "aria-hidden": "true" },
        el(
            "div", { class: "axis" },
            [`+${short(most)}`, "share", `−${short(most)}`].map((it) => el("span", {}, it))
        ),
        svg.node()
    );
}

function short(number) {
    return number >= 100 ? Math.round(number).toLocaleString("en") : String(Math.round(10 * number) / 10);
}
