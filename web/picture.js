// A picture of the cluster: racks and hosts as wide as their weights, each host with its devices,
// coloured by a number of theirs. A click leads into a place; a list beside it does the same for
// those who use the keyboard.
import { button, el, labelled, options } from "./dom.js";
import { devicesBelow, pathOf } from "./map.js";

const STRIP = 24, DEVICES = 150, SIDE_BY_SIDE = 14, NAMED = 18, GAP = 1;

// The rectangles of a place and of what is below it, as wide as the weights say.
function laidOut(place, left, top, width, depth, found) {
    if (!place.items) {
        found.push({ place, left, top, width, height: DEVICES });
        return;
    }
    const whole = place.items.reduce((sum, it) => sum + it.number, 0);
    const share = (it) => (whole ? it.number / whole : 1 / place.items.length);
    const devices = place.items.filter((it) => it.device), buckets = place.items.filter((it) => it.bucket);
    found.push({ place, left, top, width, height: STRIP, strip: true });
    const below = top + STRIP, gap = width / Math.max(1, place.items.length) > 6 ? GAP : 0;
    if (devices.length && width >= SIDE_BY_SIDE * place.items.length || buckets.length) {
        let at = left;
        for (const it of place.items) {
            const own = share(it) * width;
            laidOut(it.device ?? it.bucket, at, below, Math.max(0, own - gap), depth - 1, found);
            at += own;
        }
    } else {
        let at = below;
        for (const it of devices) {
            const own = share(it) * DEVICES;
            found.push({ place: it.device, left, top: at, width, height: own > 3 ? own - GAP : own });
            at += own;
        }
    }
}

function depthOf(place) {
    return place.items
        ? 1 + Math.max(0, ...place.items.filter((it) => it.bucket).map((it) => depthOf(it.bucket)))
        : 0;
}

// The colours of now, light or dark, by their names in the page's style.
function colours(node) {
    const style = getComputedStyle(node), of = (name) => style.getPropertyValue(`--${name}`).trim();
    const share = d3.scale.linear().domain([50, 100, 150]).range(
        [of("low"), of("even-ground"), of("high")]
    ).clamp(true);
    const between = {
        gain: d3.interpolateRgb(of("track"), of("gain")), loss: d3.interpolateRgb(of("track"), of("loss")),
        used: d3.interpolateRgb(of("track"), of("used"))
    };
    const mixed = (kind, part) => between[kind](0.3 + 0.7 * Math.min(1, part)), plain = of("track");
    return {
        text: of("text"), line: of("line"), strip: of("tint"),
        of: (said) => (
            said === undefined || said === "same"
                ? plain
                : typeof said === "number" ? share(said) : mixed(...said)
        ),
    };
}

function devicesOf(place) {
    return place.items ? devicesBelow(place) : [place];
}

// The picture. `colour` gives of sums a number (percent of a share), or "same", or a kind with how
// much of it; `words` says them; `actions` gives what can be done with a place. `earlier` is a
// picture in whose place it is put: it shows what that one does.
export function picture(cluster, { values, colour, words, keys, actions, earlier }) {
    const { map } = cluster, canvas = el("canvas", { role: "img" }), said = el("p", { class: "said" });
    const way = el("nav", { class: "way", "aria-label": "Where the picture is" });
    const doing = el("div", { class: "buttons" });
    const into = el("select", { id: "into" });
    const top = map.roots.length === 1
        ? map.roots[0]
        : {
            name: cluster.tenant, type: "",
            items: map.roots.map(
                (it) => ({ bucket: it, number: it.items.reduce((sum, at) => sum + at.number, 0) })
            )
        };
    let path = [top, ...earlier?.path().slice(1) ?? []], shapes = [];
    const keysOf = Object.keys(values), sums = new Map();
    const added = (place) => Object.fromEntries(
        keysOf.map((key) => [key, devicesOf(place).reduce((sum, it) => sum + (values[key](it.id) ?? 0), 0)])
    );
    const sumsOf = (place) => sums.get(place) ?? sums.set(place, added(place)).get(place);
    const say = (place) => {
        const host = !place.items && place.buckets[0];
        const above = host ? ` in ${[host.name, pathOf(host)].filter(Boolean).join(", ")}` : "";
        return `${place.type ?? ""} ${place.name}${above}: ${words(sumsOf(place), place)}`.trim();
    };
    function draw() {
        const here = path.at(-1), width = box.clientWidth, ratio = window.devicePixelRatio || 1;
        const height = STRIP * depthOf(here) + DEVICES;
        if (!width) return;
        Object.assign(canvas, { width: width * ratio, height: height * ratio });
        shapes = [];
        laidOut(here, 0, 0, width, depthOf(here), shapes);
        const to = canvas.getContext("2d"), ink = colours(box);
        to.scale(ratio, ratio);
        to.clearRect(0, 0, width, height);
        to.font = "12px system-ui, sans-serif";
        to.textBaseline = "middle";
        for (const it of shapes) {
            const own = ink.of(colour(sumsOf(it.place), it.place));
            to.fillStyle = it.strip ? ink.strip : own;
            to.fillRect(it.left, it.top, it.width, it.strip ? it.height - GAP : it.height);
            if (it.strip) {
                to.fillStyle = own;
                to.fillRect(it.left, it.top + it.height - 5, it.width, 4);
            }
            const room = it.strip ? it.height - 6 : it.height;
            if (it.width > NAMED && room > 12) write(to, it, ink.text, room);
        }
    }
    function write(to, it, ink, room) {
        // where the name has no room, that before its domain may have, or what tells it from others
        const short = it.place.name.split(".", 1)[0], last = it.place.items ? short : it.place.name;
        const name = [
            it.place.name, last, /[A-Za-z]?\d+[a-z]?$/.exec(last)?.[0], /\d+[a-z]?$/.exec(last)?.[0]
        ].find((text) => text && to.measureText(text).width <= it.width - 6);
        if (!name) return;
        to.save();
        to.beginPath();
        to.rect(it.left, it.top, it.width - 2, it.height);
        to.clip();
        to.fillStyle = ink;
        to.fillText(name, it.left + 4, it.top + room / 2);
        to.restore();
    }
    // the place below the pointer, the innermost one
    function under(event) {
        const { left, top: above } = canvas.getBoundingClientRect(), x = event.clientX - left;
        const y = event.clientY - above;
        return shapes.findLast(
            (it) => x >= it.left && x < it.left + Math.max(it.width, 1) && y >= it.top
                && y < it.top + it.height
        );
    }
    function go(place) {
        const at = path.indexOf(place);
        path = at >= 0 ? path.slice(0, at + 1) : [...path, ...wayTo(path.at(-1), place)];
        show();
    }
    function show() {
        const here = path.at(-1), below = here.items ?? [];
        way.replaceChildren(
            ...path.map(
                (it, at) => (
                    at === path.length - 1
                        ? el("strong", {}, it.name)
                        : button(it.name, () => go(it), { class: "link" })
                )
            ).flatMap((it, at) => (at ? [" › ", it] : [it]))
        );
        options(
            into,
            [
                ["", below.length ? "choose .." : "nothing below"],
                ...below.map((it, at) => [at, it.name ?? it.bucket.name])
            ],
            ""
        );
        said.textContent = say(here);
        doing.replaceChildren(...(path.length > 1 ? actions?.(here) ?? [] : []));
        canvas.setAttribute("aria-label", `Picture of ${say(here)}`);
        draw();
    }
    canvas.addEventListener("pointermove", (event) => {
        const it = under(event);
        said.textContent = say(it?.place ?? path.at(-1));
    });
    canvas.addEventListener("pointerleave", () => { said.textContent = say(path.at(-1)); });
    canvas.addEventListener("click", (event) => {
        const it = under(event);
        if (it && it.place !== path.at(-1)) go(it.place);
    });
    into.addEventListener("change", () => {
        const it = path.at(-1).items[Number(into.value)];
        if (it) go(it.bucket ?? it.device);
        into.focus();
    });
    const box = el("div", { class: "canvas" }, canvas);
    new ResizeObserver(draw).observe(box);
    matchMedia("(prefers-color-scheme: dark)").addEventListener("change", () => box.isConnected && draw());
    show();
    const whole = el(
        "div", { class: "card picture", id: "picture" },
        el(
            "div", { class: "bar-line" }, way,
            el(
                "ul", { class: "legend" },
                keys.map(
                    ([kind, text]) => el(
                        "li", {}, el("span", { class: `key ${kind}`, "aria-hidden": "true" }), text
                    )
                )
            )
        ),
        box, said, el("div", { class: "controls" }, labelled("Look into", into), doing)
    );
    return Object.assign(whole, { path: () => path });
}

// The places from one to another that is below it, without the first.
function wayTo(from, place) {
    if (from === place) return [];
    for (const it of from.items ?? []) {
        const below = it.device ?? it.bucket;
        if (below === place) return [below];
        const rest = below.items && devicesOf(place).every((one) => devicesBelow(below).includes(one))
            ? wayTo(below, place)
            : [];
        if (rest.length) return [below, ...rest];
    }
    return [];
}
