// What is said while the planner waits: after 300 ms what is done, after 5 s for how long already,
// with a button that stops it.
import { button, el } from "./dom.js";

const SAID_MS = 300, LONG_MS = 5000;
const running = [];

export class Stopped extends Error {
    constructor() {
        super("Stopped.");
    }
}

// Shows the work that began last.
function show() {
    const at = document.getElementById("waiting"), work = running.at(-1), now = performance.now();
    at.hidden = !work || now - work.since < SAID_MS;
    if (at.hidden) return at.replaceChildren();
    if (!at.firstChild)
        at.append(
            el("span", { role: "status" }), el("span", { "aria-hidden": "true" }),
            button("Stop", () => running.at(-1)?.stop(), { id: "stop" })
        );
    const [words, seconds, stop] = at.children, long = now - work.began >= LONG_MS;
    const said = long ? `${work.words}: still waiting` : `${work.words} ..`;
    if (words.textContent !== said) words.textContent = said;
    seconds.textContent = long ? `, ${Math.floor((now - work.began) / 1000)} s` : "";
    stop.hidden = !long;
    return undefined;
}

// Work that begins now. `step` says what is done next, `signal` ends its requests when it is
// stopped, and `goesOn` throws then.
function begun(words) {
    const control = new AbortController(), now = performance.now();
    return {
        words, began: now, since: now, signal: control.signal,
        step(next) {
            this.words = next;
            show();
        },
        stop: () => control.abort(new Stopped()),
        goesOn() {
            if (control.signal.aborted) throw new Stopped();
        },
    };
}

// Does what takes time, and says so; gives what it gives. `outer` stops it too.
export async function working(words, act, outer) {
    const work = begun(words);
    outer?.addEventListener("abort", work.stop);
    running.push(work);
    const clock = setInterval(show, 100);
    try {
        return await act(work);
    } finally {
        clearInterval(clock);
        outer?.removeEventListener("abort", work.stop);
        running.splice(running.indexOf(work), 1);
        show();
    }
}

// Work of which nothing is said.
export function quiet() {
    return begun("");
}

// Fills a part of a view by what takes time: what it had before is dimmed until then. The last one
// that was asked for counts.
const filled = new WeakMap();

export async function filling(at, words, act) {
    filled.get(at)?.stop();
    at.setAttribute("aria-busy", "true");
    return working(words, async (work) => {
        filled.set(at, work);
        const mine = () => filled.get(at) === work;
        try {
            const made = await act(work);
            if (mine()) at.replaceChildren(...[made].flat().filter(Boolean));
        } catch (why) {
            if (!mine()) return;
            if (why instanceof Stopped && at.firstChild)
                at.prepend(
                    el("p", { class: "fault", role: "alert" }, "Stopped: this is what was shown before.")
                );
            else at.replaceChildren(el("p", { class: "fault", role: "alert" }, why.message));
        } finally {
            if (mine()) at.removeAttribute("aria-busy");
        }
    });
}
