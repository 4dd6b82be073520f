// A text that the service refuses: its first fault at its line, with the item that is at fault, and
// what helps.
import { FAULTS, NOT_COMPUTED, NO_FAULT, STRAW } from "./codes.js";
import { button, el, save } from "./dom.js";
import { many } from "./words.js";
import { guilty, mended } from "./texts.js";

const AROUND = 8, LONGEST_LINE = 300;

// What holds of a map with straw buckets.
export function aboutStraw() {
    return [
        el("p", {}, STRAW.why), el("p", {}, STRAW.copy), el("pre", {}, el("code", {}, STRAW.command)),
        el("p", {}, STRAW.good), el("p", {}, STRAW.bad), el("p", {}, el("strong", {}, STRAW.never))
    ];
}

// The lines around one, which has its meaning below it.
function linesAround(lines, line, meaning) {
    const first = Math.max(1, line - AROUND), last = Math.min(lines.length, line + AROUND);
    const shown = el(
        "ol", { class: "text", start: first, "aria-label": `Lines ${first} to ${last} of the text` }
    );
    for (let at = first; at <= last; at += 1) {
        const said = lines[at - 1].replace(/\r$/, "");
        const words = el("code", {}, said.length > LONGEST_LINE ? `${said.slice(0, LONGEST_LINE)} ..` : said);
        shown.append(
            at === line
                ? el(
                    "li", { value: at, class: "here", "aria-current": "true" }, words,
                    el("p", { class: "meaning" }, ...meaning)
                )
                : el("li", { value: at }, words)
        );
    }
    return shown;
}

// The line of the item that is at fault, where the code is of one.
function itemOf(code, text, line) {
    const it = (code === "M5" || code === "M6") && guilty(text, code, line);
    if (!it) return null;
    const here = code === "M5"
        ? `${it.name} isn't declared before the bucket ${it.bucket}`
        : `${it.name} stands a second time in the bucket ${it.bucket}`;
    return { line: it.line, meaning: [el("strong", {}, code), `: ${FAULTS[code]} Here ${here}.`] };
}

// What is offered for holes of tree buckets: the text with them filled, to be taken or saved.
function mending(name, text, take) {
    const found = mended(text);
    if (!found) return null;
    const file = name.replace(/(\.[^.]*)?$/, "-mended$1");
    return el(
        "div", { id: "mending" },
        el(
            "p", {},
            `The text has ${many(found.holes, "hole")}: places of tree buckets from which devices were `
                + `removed, which Ceph writes as its first device with the weight 0. A device of the weight 0 `
                + `in each of them, which gets nothing, mends it: everything else is placed as Ceph places it.`
        ),
        el(
            "div", { class: "buttons" },
            button(
                "Take the mended text", () => take(new File([found.text], file)),
                { class: "main", id: "mend" }
            ),
            button("Save the mended text", () => save(file, found.text, "text/plain"))
        )
    );
}

// What is said of a refused text. `more` is how many lines were put before it, and `take` takes
// another one in its place.
export function faultOf({ name, text: sent, more: before = 0, reply: { fault: code, line: at } }, take) {
    const lines = sent.split("\n").slice(before), text = lines.join("\n"), line = Math.max(1, at - before);
    const item = itemOf(code, text, line);
    const meaning = item?.meaning ?? [
        el("strong", {}, code), `: ${FAULTS[code] ?? "a code that this page doesn't know."}`
    ];
    const title = NOT_COMPUTED.has(code) ? `crushcalc can't compute ${name}` : `${name} isn't imported`;
    const more = code === "X2"
        ? aboutStraw()
        : NOT_COMPUTED.has(code)
            ? el("p", {}, NO_FAULT)
            : code === "M6" && take ? mending(name, text, take) : null;
    return el(
        "div", { class: "card refused", role: "alert" }, el("h3", {}, `${title}: line ${line}, code ${code}`),
        more, linesAround(lines, item?.line ?? line, meaning)
    );
}
