// Requests to the service. A changing request has a number that is made here, and is kept in the
// browser from before it is sent until it is answered, so that a reload or a lost reply repeats the
// same bytes and it acts once.
import { meaning } from "./codes.js";

const PENDING = "crushcalc.pending.";
const NO_ANSWER = new Set([0, 502, 503, 504]);
// how many requests are under way at a time: a web server may let a tenant and a user have no more
// (examples/nginx.conf)
const AT_ONCE = 2;
// how often one that the web server refuses for that is sent again by itself, and after how long
const TRIES = 8, AGAIN_MS = 500;
const decoder = new TextDecoder();

export class GivenUp extends Error {}
export class NotKept extends Error {}

let decide = async () => { throw new GivenUp(); };
let learn = () => {};

// Who asks the planner whether to repeat, and who notes what was accepted.
export function connect(asks, notes) {
    decide = asks;
    learn = notes;
}

export function hex(bytes) {
    return Array.from(
        crypto.getRandomValues(new Uint8Array(bytes)), (it) => it.toString(16).padStart(2, "0")
    ).join("");
}

// Those that wait for their turn, the first one first.
const waiting = [];
let underWay = 0;

function begin() {
    while (underWay < AT_ONCE && waiting.length) {
        underWay += 1;
        waiting.shift()();
    }
}

// Ends when it is one's turn. One that is stopped before goes out of the line.
function turn(signal) {
    return new Promise((go, stop) => {
        const leave = () => {
            waiting.splice(waiting.indexOf(mine), 1);
            stop(signal.reason);
        };
        const mine = () => {
            signal?.removeEventListener("abort", leave);
            go();
        };
        if (signal?.aborted) return stop(signal.reason);
        signal?.addEventListener("abort", leave);
        waiting.push(mine);
        return begin();
    });
}

async function send(method, path, body, signal) {
    await turn(signal);
    try {
        return await sent(method, path, body, signal);
    } finally {
        underWay -= 1;
        begin();
    }
}

async function sent(method, path, body, signal) {
    try {
        const reply = await fetch(path, { method, body, signal, cache: "no-store", redirect: "error" });
        return { status: reply.status, bytes: await reply.arrayBuffer() };
    } catch {
        if (signal?.aborted) throw signal.reason;
        return { status: 0, bytes: new ArrayBuffer(0) };
    }
}

// The JSON of a reply, or none where it has none, as a page of the web server's own.
function said(bytes) {
    try {
        return JSON.parse(decoder.decode(bytes));
    } catch {
        return {};
    }
}

// Sends until there is an answer: after a lost reply once more by itself, some times where the web
// server has too many under way, as where one that was stopped still runs, and then, as after a 503
// of the service, when the planner says so. `again` is whether a reply was lost.
async function answer(what, method, path, body, changes, signal) {
    let lost = 0, busy = 0, again = false;
    for (;;) {
        const { status, bytes } = await send(method, path, body, signal);
        if (!NO_ANSWER.has(status)) return { status, bytes, again };
        const { error } = said(bytes);
        again ||= status !== 503;
        if (status === 503 ? !error && busy < TRIES : !lost) {
            if (status === 503) busy += 1;
            else lost += 1;
            await new Promise((go) => setTimeout(go, AGAIN_MS));
        } else {
            await decide({ what, why: meaning(status, error, method !== "GET"), changes, signal });
            [lost, busy] = [0, 0];
        }
    }
}

// A request that changes nothing, or one that may be repeated as it is (PUT, DELETE). `signal` ends
// the wait for its reply; `again` is whether it was sent more than once.
export async function ask(what, method, path, fields, signal) {
    const { status, bytes, again } = await answer(
        what, method, path, fields && JSON.stringify(fields), false, signal
    );
    return { ...said(bytes), status, again };
}

// A reply that may be long, as bytes.
export function askLong(what, path, signal) {
    return answer(what, "GET", path, undefined, false, signal);
}

export function read(bytes) {
    return said(bytes);
}

// A changing request of a tenant. `what` says it in words, `note` is what the page wants to know of
// it after a reload.
export function change(what, tenant, route, fields, note) {
    const number = hex(16);
    const record = {
        number, what, tenant, route, path: `/t/${tenant}/${route}`,
        body: JSON.stringify({ request: number, ...fields }), note
    };
    try {
        localStorage.setItem(PENDING + number, JSON.stringify(record));
    } catch {
        throw new NotKept("The browser has no room to keep this request until it is answered, so it isn't "
            + "sent.");
    }
    return finish(record);
}

// Sends a kept request, and forgets it once it is answered.
export async function finish(record) {
    try {
        const { status, bytes } = await answer(record.what, "POST", record.path, record.body, true);
        const reply = { status, ...said(bytes) };
        if (status === 200 || status === 201) learn(record, reply);
        forget(record);
        return reply;
    } catch (fault) {
        if (fault instanceof GivenUp) forget(record);
        throw fault;
    }
}

export function forget(record) {
    localStorage.removeItem(PENDING + record.number);
}

// The requests that were sent, or were about to be, and have no answer yet.
export function kept() {
    return Object.keys(localStorage).filter((it) => it.startsWith(PENDING)).map(
        (it) => JSON.parse(localStorage.getItem(it))
    );
}
