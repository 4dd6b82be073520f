// Large numbers in a row, each with the words below it: what an answer begins with.
import { el } from "./dom.js";
import { count } from "./words.js";

// `lines` are [number, words, kind, key] each; the kind bad is red.
export function figures(lines, id) {
    return el(
        "dl", { class: "figures", id },
        lines.filter(Boolean).map(
            ([number, words, kind, key]) => el(
                "div", { class: kind, "data-figure": key }, el("dt", {}, words),
                el("dd", {}, typeof number === "number" ? count(number) : number)
            )
        )
    );
}
