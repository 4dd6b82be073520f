// What a runbook does, as `crushplan plan` foretold it: the steps in a drawing and a table, then
// line by line what Ceph does or refuses.
import { button, counted, cut, el } from "./dom.js";
import { legend } from "./change_view.js";
import { stepColumns } from "./charts.js";
import { figures } from "./figures.js";
import { hundredths } from "./rooms.js";
import { decimals } from "./shares.js";
import { count, many, sized, some } from "./words.js";

const NONE = "–", ROWS = 200, MOST_NAMED = 12;
const RATIOS = [["nearfull_ratio", "near", "near-full"], ["backfillfull_ratio", "full", "backfill-full"]];

// ---- words

// Numbers in their order as 3–7, or one alone.
function span(numbers) {
    const first = numbers[0], last = numbers.at(-1);
    return first === last ? String(first) : `${first}–${last}`;
}

function linesText(numbers) {
    return `${numbers[0] === numbers.at(-1) ? "line" : "lines"} ${span(numbers)}`;
}

// How full a device is: a part of its room, or copies and their percent of its share.
function levelText(level) {
    if (!level) return NONE;
    if (level.used !== null) return `osd.${level.device} ${hundredths(level.used)}`;
    const share = level.percent === null ? "" : `, ${decimals(level.percent, 1)}% of its share`;
    return `osd.${level.device}: ${many(level.copies, "copy", "copies")}${share}`;
}

function levelFigure(level, words, key, ratios) {
    if (!level) return null;
    const near = ratios.nearfull_ratio, bad = level.used !== null && near !== undefined && level.used > near;
    if (level.used !== null)
        return [
            hundredths(level.used), `of its room is used of osd.${level.device}, the fullest ${words}`, bad && "bad",
            key
        ];
    if (level.percent === null)
        return [count(level.copies), `copies are on osd.${level.device}, the fullest ${words}`, "", key];
    return [`${decimals(level.percent, 1)}%`, `of its share has osd.${level.device}, the fullest ${words}`, "", key];
}

const stateOf = (event) => (event.refused ? "refused" : "not foretold");
const isState = (event) => (event.refused ? "is refused" : "isn't foretold");

// ---- the answer

function decidingStep({ decides }) {
    if (!decides) return null;
    const line = decides.line === null ? "" : `, by its line ${decides.line}`;
    const show = button(`Show step ${decides.step}`, () => goTo(decides.step), { class: "link" });
    return el(
        "p", { id: "decides" }, el("strong", {}, `Step ${decides.step} decides${line}. `), show
    );
}

// Leads to the row of a step, for which the list may have to go on.
function goTo(step) {
    const row = () => document.getElementById(`step-${step}`);
    const more = () => document.querySelector("#steps .cut button");
    while (!row() && more()) more().click();
    row()?.focus();
}

function sums(plan) {
    const { one_step: one, ratios } = plan, stopped = plan.below_min_size.length, short = plan.short_meanwhile.length;
    const bytes = (it) => (it === null ? "" : `, ${sized(it)}`), twice = plan.twice.length;
    const left = plan.fewest_meanwhile === null ? "" : ` (${count(plan.fewest_meanwhile)} left at least)`;
    return figures(
        [
            [plan.moved, plan.moved === 1 ? "group moves" : "groups move", "", "moved"],
            [plan.copies, `copies are written anew in all${bytes(plan.bytes)}`, "", "copies"],
            [one.copies, `copies by the same change in one step${bytes(one.bytes)}`, "", "one-step"],
            [decimals(one.least, 1), "copies at least, by the change of weights", "", "least"],
            [twice, `${twice === 1 ? "group moves" : "groups move"} twice or more`, "", "twice"],
            [
                stopped, `${stopped === 1 ? "group stops" : "groups stop"}: fewer copies than the pool's min_size`,
                stopped ? "bad" : "good", "stops"
            ],
            [
                short, `${short === 1 ? "group has" : "groups have"} fewer copies while data moves${left}`, "",
                "short-meanwhile"
            ],
            levelFigure(plan.on_the_way, "on the way", "on-the-way", ratios),
            levelFigure(one.fullest, "at the end", "fullest", ratios),
            plan.rate !== null && [
                plan.hours === null ? "?" : decimals(plan.hours, 2),
                `hours at least, at ${count(plan.rate)} MB/s a device`, "", "hours"
            ]
        ],
        "answer"
    );
}

// ---- the drawing

// Of all steps a number of how full a device is: parts of its room where these are known, else
// hundredths of its share.
function drawing({ steps, ratios }) {
    const levels = steps.filter((it) => !it.isEmpty).flatMap((it) => [it.on_the_way, it.fullest]).filter(Boolean);
    const inRoom = levels.some((it) => it.used !== null);
    const value = (level) => (!level ? null : inRoom ? level.used : level.percent ?? null);
    const words = (it) => (inRoom ? hundredths(it) : `${decimals(it, 0)}%`);
    const top = Math.max(inRoom ? 1 : 100, ...levels.map((it) => value(it) ?? 0));
    const lines = inRoom
        ? RATIOS.filter(([name]) => name in ratios).map(
            ([name, kind, text]) => [kind, ratios[name], `${text}, ${hundredths(ratios[name])}`]
        )
        : [["near", 100, "its share"]];
    const keys = lines.map(([kind, , text]) => [kind, text]);
    const full = steps.map((it) => ({
        step: it.step, isEmpty: it.isEmpty, columns: [["used", value(it.on_the_way)], ["then", value(it.fullest)]],
        text: value(it.on_the_way) === null ? "" : words(value(it.on_the_way))
    }));
    const copies = steps.map((it) => ({
        step: it.step, isEmpty: it.isEmpty, columns: [["gain", it.copies]], mark: ["even", it.least],
        text: count(it.copies)
    }));
    const most = Math.max(1, ...steps.filter((it) => !it.isEmpty).flatMap((it) => [it.copies, it.least]));
    const crosses = steps.some((it) => it.isEmpty) ? [["cross", "refused or not foretold"]] : [];
    return el(
        "div", { class: "card charts", id: "steps-drawn" },
        el(
            "div", {},
            el("h2", {}, `The ${inRoom ? "fullest device" : "device with most of its share"}, step by step`),
            legend(["used", "on the way"], ["then", "afterwards"], ...keys, ...crosses),
            stepColumns("full", full, lines, top)
        ),
        el(
            "div", {}, el("h2", {}, "Copies written anew, step by step"),
            legend(["gain", "copies written anew"], ["mark", "at least, by the change of weights"], ...crosses),
            stepColumns("copies", copies, [], most)
        )
    );
}

// ---- the steps

function scrolled(id, label, table) {
    return el("div", { class: "card scroll", id, tabindex: "0", role: "region", "aria-label": label }, table);
}

function heads(all) {
    return el("thead", {}, el("tr", {}, all.map(([text, kind]) => el("th", { scope: "col", class: kind }, text))));
}

// The numbers of a passage, of which those that are no are red where they aren't 0.
function cells(it, hours) {
    const texts = [
        count(it.moved), count(it.copies), it.bytes === null ? NONE : sized(it.bytes), decimals(it.least, 1),
        levelText(it.on_the_way), levelText(it.fullest), count(it.missing_copies), count(it.short_meanwhile.length),
        count(it.below_min_size.length), ...hours ? [it.hours === null ? NONE : decimals(it.hours, 2)] : []
    ];
    return numberHeads(hours).map(([head, kind, isBad], at) => cell(head, kind, texts[at], isBad && texts[at] !== "0"));
}

function cell(head, kind, text, isBad = false) {
    return el("td", { class: [kind, isBad && "bad"].filter(Boolean).join(" ") || null, "data-head": head }, text);
}

function numberHeads(hours) {
    const number = (text, isBad) => [text, "number", isBad];
    return [
        number("groups move"), number("copies"), number("bytes"), number("at least"), ["fullest on the way"],
        ["afterwards"], number("no device", true), number("short meanwhile"), number("stop", true),
        ...hours ? [number("hours")] : []
    ];
}

function stepsTable({ steps, rate, unfollowed }) {
    const known = rate !== null, columns = numberHeads(known);
    const row = (it) => {
        const last = it.events.at(-1), done = it.isCut ? it.events.slice(0, -1).map((of) => of.line) : it.lines;
        const lines = [
            done.length ? span(done) : "",
            it.isCut && el("span", { class: "badge out" }, `${last.line} ${stateOf(last)}`)
        ];
        return el(
            "tr", { "data-step": it.step },
            el(
                "th",
                { scope: "row", class: "id", id: `step-${it.step}`, tabindex: "-1", "data-head": "step" },
                String(it.step)
            ),
            el("td", { "data-head": "lines" }, lines),
            it.isEmpty ? columns.map(([head, kind]) => cell(head, kind, NONE)) : cells(it, known)
        );
    };
    const behind = unfollowed.length > 0 && el(
        "p", { id: "unfollowed" }, `Nothing is foretold of what stands behind it: ${linesText(unfollowed)}.`
    );
    const body = el("tbody"), foot = cut(body, steps.length, (place) => row(steps[place]), ROWS);
    return scrolled(
        "steps", "Steps",
        [
            el(
                "table", { class: "plain stacked", "aria-label": "Steps" },
                heads([["step"], ["lines"], ...columns]), body
            ),
            foot, behind,
            el(
                "p", { class: "hint" },
                "A step goes on until all is clean. On the way a device has all that it gets before anything leaves "
                    + "it. No device: copies that lack one afterwards. Short meanwhile: groups with fewer copies "
                    + "while data moves. Stop: groups below their pool's min_size, without I/O."
            )
        ]
    );
}

// ---- the lines

const bad = (text) => el("p", { class: "wrong" }, text);
const said = (text) => el("p", {}, text);

// What there is to say of a line.
function remarksOf(it) {
    return [
        it.refused && bad(`Ceph refuses it: ${it.refused.code} ${it.refused.why}`),
        it.unforetold !== null && bad(`It isn't foretold: ${it.unforetold}`), ...it.remarks.map(said),
        ...it.removed.map((entry) => said(`Ceph removes the upmap entry ${entry}`))
    ].filter(Boolean);
}

// What there is to say of a step once its lines are done, what is wrong first.
function endOf(it) {
    const last = it.events.at(-1), again = new RegExp(`^line ${last.line} (is refused|\\()`);
    const groups = (text, all) => all.length > 0 && said(`${text}: ${some(all, MOST_NAMED)}`);
    return [
        ...it.faults.filter((text) => !(it.isCut && again.test(text))).map(bad),
        ...it.isEmpty
            ? []
            : [
                groups("Groups with fewer copies than their pool's size afterwards", it.short),
                ...it.by_itself.map(said), ...it.removed.map((entry) => said(`Ceph removes the upmap entry ${entry}`)),
                ...it.remarks.map(said)
            ]
    ].filter(Boolean);
}

function rowsOf(steps) {
    return steps.flatMap((step) => {
        const rows = step.events.map((it) => [step.step, it.line, it.command, remarksOf(it)]), end = endOf(step);
        if (step.wait !== null && !step.isCut) rows.push([step.step, step.wait, "wait", end]);
        else if (end.length) rows.push([step.step, NONE, "", end]);
        return rows;
    });
}

function linesTable({ steps }) {
    const rows = rowsOf(steps), body = el("tbody");
    const foot = cut(body, rows.length, (place) => {
        const [step, number, command, words] = rows[place];
        return el(
            "tr", { "data-line": number }, el("td", { class: "number", "data-head": "step" }, String(step)),
            el("th", { scope: "row", class: "number", "data-head": "line" }, String(number)),
            el("td", { class: "wide" }, command === "wait" || !command ? command : el("code", {}, command)),
            el("td", { class: "wide" }, words)
        );
    }, ROWS);
    return el(
        "div", { id: "lines" }, el("h2", {}, "Line by line"),
        scrolled(
            "lines-table", "Lines",
            [
                el(
                    "table", { class: "plain lines stacked", "aria-label": "Lines" },
                    heads([["step", "number"], ["line", "number"], ["command"], ["what comes of it"]]), body
                ),
                foot
            ]
        )
    );
}

// ---- what --orders and --groups add

function ordersTable({ steps, rate }) {
    const own = steps.filter((it) => it.orders);
    if (!own.length) return null;
    const known = rate !== null, either = (it) => it ?? "either";
    const row = (name, it) => el("tr", {}, el("th", { scope: "row" }, name), cells(it, known));
    return el(
        "details", { class: "card", id: "orders" }, el("summary", {}, "Lines one by one, each until all is clean"),
        own.map((it) => {
            const label = `Step ${it.step}, line by line`;
            return [
                el(
                    "p", {},
                    `Step ${it.step}: ${either(it.orders.moves_least)} moves least; `
                        + `${either(it.orders.stays_lowest)} stays lowest on the way.`
                ),
                el(
                    "div", { class: "scroll", tabindex: "0", role: "region", "aria-label": label },
                    el(
                        "table", { class: "plain", "aria-label": label }, heads([["line"], ...numberHeads(known)]),
                        el(
                            "tbody", {}, row("as one step", it),
                            it.orders.one_by_one.map((one) => row(String(one.line), one))
                        )
                    )
                )
            ];
        }).flat()
    );
}

const listText = (list) => `[${list.map((it) => it ?? "-").join(",")}]`;

function groupsOfSteps({ steps }) {
    if (!steps.some((it) => it.groups)) return null;
    const rows = steps.flatMap((it) => (it.groups ?? []).map((group) => [it.step, group])), body = el("tbody");
    const foot = cut(body, rows.length, (place) => {
        const [step, it] = rows[place];
        return el(
            "tr", { "data-group": it.id }, el("td", { class: "number" }, String(step)),
            el("th", { scope: "row", class: "id" }, it.id), el("td", {}, listText(it.before)),
            el("td", {}, listText(it.after)), el("td", { class: "number" }, count(it.copies))
        );
    });
    return el(
        "details", { class: "card", id: "which" }, el("summary", {}, counted("Which groups", rows)),
        el(
            "table", { class: "plain", "aria-label": "Groups" },
            heads([["step", "number"], ["group"], ["before"], ["after"], ["copies", "number"]]), body
        ),
        foot
    );
}

export function shownPlan(plan) {
    const none = plan.steps.every((it) => it.isEmpty), cutAt = plan.steps.find((it) => it.isCut);
    const until = !none && cutAt && el(
        "p", { class: "note", id: "until" },
        `The sums are of what is done before line ${cutAt.events.at(-1).line}, which ${isState(cutAt.events.at(-1))}.`
    );
    return [
        decidingStep(plan), until, ...none ? [] : [sums(plan), drawing(plan)], stepsTable(plan), linesTable(plan),
        ordersTable(plan), groupsOfSteps(plan)
    ];
}
