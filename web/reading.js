// Long replies, read by the worker, and the differences of long lists, found by it.

const policy = globalThis.trustedTypes?.createPolicy(
    "crushcalc", { createScriptURL: (it) => (it === "reports.js" ? it : "") }
);
const worker = new Worker(policy ? policy.createScriptURL("reports.js") : "reports.js", { type: "module" });
const waiting = new Map();
let asked = 0;

worker.onmessage = ({ data: { place, report } }) => {
    waiting.get(place)(report);
    waiting.delete(place);
};

// What the worker makes of replies, which are handed over, and of what else it needs; null where a
// reply isn't as it should be.
export function readLong(kind, bytes, more) {
    asked += 1;
    const place = asked;
    return new Promise((done) => {
        waiting.set(place, done);
        worker.postMessage({ place, kind, bytes, more }, bytes);
    });
}
