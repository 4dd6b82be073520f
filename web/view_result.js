// An answer of `crushplan plan` or `crushplan balance` that was dropped as JSON: the sentence
// first, then what it is made of. It is shown from the file alone.
import { el } from "./dom.js";
import { shownBalance } from "./view_balance.js";
import { shownPlan } from "./view_plan.js";

const KINDS = ["good", "bad", "unknown"];
export const TITLES = { plan: "What a runbook does", balance: "What evens out pools" };

function verdict({ status, answer }) {
    const [, head, rest] = /^(yes|no|unknown|interrupted)(:[^]*)$/.exec(answer) ?? [null, "", answer];
    return el(
        "p", { class: `verdict ${KINDS[status] ?? "unknown"}`, id: "verdict" },
        head && el("strong", {}, `${head[0].toUpperCase()}${head.slice(1)}`), rest
    );
}

function listed(id, head, lines) {
    return lines.length > 0 && el(
        "div", { class: "note", id }, el("p", {}, head), el("ul", {}, lines.map((it) => el("li", {}, it)))
    );
}

// `tenant` is the cluster that is open, or nothing.
export function showResult(result, tenant) {
    const weights = result.map.exact ? "with exact weights" : "with weights of three decimals";
    const own = result.command === "plan" ? shownPlan(result) : shownBalance(result);
    return el(
        "section", { id: "answered" }, el("h1", { tabindex: "-1" }, TITLES[result.command]),
        el("div", { id: "said", tabindex: "-1" }),
        el(
            "p", { class: "hint", id: "about" },
            `${result.file}, which crushplan ${result.command} wrote of the map ${result.map.file}, ${weights}. `
                + `Nothing of it is computed again here. `,
            !tenant && el("a", { href: "#/" }, "To the first page")
        ),
        verdict(result), listed("not-computed", "Not computed:", result.uncomputed), own.filter(Boolean),
        listed("notes", "Notes:", [...result.warnings, ...result.notes])
    );
}
