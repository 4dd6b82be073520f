// Elements of the page. Text enters as text nodes only, so that no name and no map is ever taken
// for markup.

const SLICE_MS = 30;

export function el(tag, fields, ...children) {
    const made = document.createElement(tag);
    for (const [name, value] of Object.entries(fields ?? {})) {
        if (value === undefined || value === null || value === false) continue;
        if (name === "on") {
            for (const [event, act] of Object.entries(value)) made.addEventListener(event, act);
        } else {
            made.setAttribute(name, value === true ? "" : value);
        }
    }
    made.append(...children.flat().filter((it) => it !== undefined && it !== null && it !== false));
    return made;
}

// A command in a text, of which no word is broken at its hyphen.
export function command(text) {
    const words = text.split(/(\S*-\S*)/);
    return el("code", {}, words.map((it, at) => at % 2 ? el("span", { class: "whole" }, it) : it));
}

export function button(text, act, fields) {
    return el("button", { type: "button", ...fields, on: { click: act } }, text);
}

// A control with its label above it.
export function labelled(text, control, hint) {
    const id = control.id || fresh();
    control.id = id;
    const under = hint && el("span", { class: "hint", id: `${id}-hint` }, hint);
    if (under) control.setAttribute("aria-describedby", under.id);
    return el("div", { class: "field" }, el("label", { for: id }, text), control, under);
}

let made = 0;

export function fresh() {
    made += 1;
    return `it-${made}`;
}

export function options(select, pairs, chosen) {
    select.replaceChildren(
        ...pairs.map(
            ([value, text]) => el("option", { value, selected: String(value) === String(chosen) }, text)
        )
    );
    return select;
}

let clearing = 0;

// Buttons of which Tab reaches one and the arrows the others: for a list of many.
export function roving(event) {
    const step = { ArrowRight: 1, ArrowDown: 1, ArrowLeft: -1, ArrowUp: -1 }[event.key];
    const from = event.target.closest("[role=toolbar] button");
    const to = step > 0 ? from?.nextElementSibling : step < 0 ? from?.previousElementSibling : null;
    if (!to) return;
    event.preventDefault();
    from.tabIndex = -1;
    to.tabIndex = 0;
    to.focus();
}

// What goes on, for those who hear the page and those who see it.
export function say(text) {
    clearTimeout(clearing);
    document.getElementById("status").textContent = text;
}

// What is done; it is shown for some seconds.
export function sayDone(text) {
    say(text);
    clearing = setTimeout(() => say(""), 6000);
}

export function fault(...text) {
    return el("p", { class: "fault", role: "alert" }, ...text);
}

// The caption of a list, with how long that list is.
export function counted(text, list) {
    return `${text} (${list.length.toLocaleString("en")})`;
}

// Acts once nothing was typed for a moment.
export function later(act) {
    let waiting = 0;
    return () => {
        clearTimeout(waiting);
        waiting = setTimeout(act, 150);
    };
}

// Lets the browser draw and listen before long work goes on.
export function pause() {
    return new Promise((go) => setTimeout(go));
}

// A list of which `step` lines are shown, and more when asked. `make` gives the element of a line.
export function cut(into, count, make, step = 100) {
    const foot = el("p", { class: "cut" });
    let shown = 0;
    function more() {
        const first = shown;
        shown = Math.min(count, shown + step);
        for (let place = first; place < shown; place += 1) into.append(make(place));
        foot.replaceChildren();
        if (shown < count) foot.append(`The first ${shown} of ${count} lines. `, button("Show more", more));
    }
    into.replaceChildren();
    more();
    return foot;
}

// Lines of a CSV, of lists of fields; none of the page's fields needs quotes.
export function csv(heads, rows) {
    return [heads, ...rows].map((it) => `${it.join(",")}\n`).join("");
}

// The same of many rows as texts one after the other, each made in a moment, so that the page never
// waits for them.
export async function longCsv(heads, count, row) {
    const texts = [csv(heads, [])];
    for (let at = 0; at < count;) {
        const lines = [];
        for (const end = performance.now() + SLICE_MS; at < count && performance.now() < end; at += 1)
            lines.push(`${row(at).join(",")}\n`);
        texts.push(lines.join(""));
        await pause();
    }
    return texts;
}

// A file for the planner, made of text or of texts one after the other.
export function save(name, text, type = "text/csv") {
    const address = URL.createObjectURL(new Blob([text].flat(), { type }));
    el("a", { href: address, download: name }).click();
    setTimeout(() => URL.revokeObjectURL(address), 10000);
}
