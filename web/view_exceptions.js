// The exceptions of a pool, as Ceph has upmap items: written as lines, tried in a copy, set, and
// taken back.
import { change } from "./service.js";
import { breaking, stagesOf } from "./answer.js";
import { PAIRS, exceptionsIn } from "./copies.js";
import { note } from "./known.js";
import { byGroup } from "./lies.js";
import { noteFor } from "./sides.js";
import { meaning } from "./codes.js";
import { answerRow, beforeAfter, groupsFolded, totals, verdict } from "./change_view.js";
import { button, counted, el, fault, labelled } from "./dom.js";
import { many } from "./words.js";
import { groupOf, idOf } from "./groups.js";
import { filling } from "./waiting.js";

const LINE = /^(?:ceph\s+osd\s+)?(?:pg-upmap-items\s+)?(\S+)((?:\s+\S+)+)$/;
const TAKEN = /^(?:ceph\s+osd\s+)?rm-pg-upmap-items\s+(\S+)$/;
const PRIMARY = /^(?:ceph\s+osd\s+)?(rm-)?pg-upmap-primary\s+(\S+)(?:\s+(\S+))?$/;
// what was set before the last change of each pool, so that it can be taken back
const before = new Map();

// The pairs as lines, one of each group, in their order, and the set primaries.
function linesOf(pool, { pairs, primaries }) {
    const lines = [];
    let last = null;
    for (const { group, from, to } of pairs) {
        if (last?.group !== group) lines.push(last = { group, words: [] });
        last.words.push(from, to);
    }
    const leads = Object.entries(primaries).map(
        ([group, device]) => `ceph osd pg-upmap-primary ${idOf(pool, Number(group))} ${device}`
    );
    return [
        ...lines.map((it) => `ceph osd pg-upmap-items ${idOf(pool, it.group)} ${it.words.join(" ")}`),
        ...leads
    ].join("\n");
}

class Wrong extends Error {}

function deviceIn(cluster, word, at) {
    const id = cluster.deviceOf(word) ?? (/^\d+$/.test(word) ? Number(word) : undefined);
    if (!cluster.map.byId.has(id)) throw new Wrong(`Line ${at}: the map has no device ${word}.`);
    return id;
}

// The pairs and primaries that the lines say. A line of a group stands in the place of earlier ones
// of it, as on the cluster. What a shell reads behind a command isn't a part of it.
function exceptionsSaid(cluster, pool, text) {
    const groups = new Map(), primaries = {};
    text.split("\n").forEach((line, place) => {
        const said = line.replace(/#.*/, "").trim().replace(/[;&\s]+$/, ""), at = place + 1;
        const leads = PRIMARY.exec(said);
        if (!said) return;
        if (leads) {
            const [, taken, word, device] = leads, group = groupOf(pool, word);
            if (!(group < pool.pg_num) || Boolean(taken) === Boolean(device))
                throw new Wrong(`Line ${at}: it has to be as ceph osd pg-upmap-primary ${idOf(pool, 0)} 1, `
                    + `with a group of pool ${pool.name}.`);
            if (taken) delete primaries[group];
            else primaries[group] = deviceIn(cluster, device, at);
            return;
        }
        const gone = TAKEN.exec(said), found = gone ?? LINE.exec(said);
        const group = found && groupOf(pool, found[1]);
        if (!(group < pool.pg_num))
            throw new Wrong(`Line ${at}: it has to be as ceph osd pg-upmap-items ${idOf(pool, 0)} 0 1, with `
                + `a group of pool ${pool.name}.`);
        if (gone) {
            groups.delete(group);
            return;
        }
        const words = found[2].trim().split(/\s+/);
        if (words.length % 2)
            throw new Wrong(`Line ${at}: devices stand in pairs, the one that is left before the one that `
                + `takes its place.`);
        const ids = words.map((it) => deviceIn(cluster, it, at));
        groups.set(
            group,
            ids.filter((_, it) => it % 2 === 0).map((from, it) => ({ group, from, to: ids[2 * it + 1] }))
        );
    });
    return { pairs: [...groups.values()].flat(), primaries };
}

export function exceptionsView(cluster, pool, refresh) {
    const at = el("div"), key = `${cluster.tenant}/${pool.id}`;
    filling(
        at, `Exceptions of ${pool.name}`,
        async (work) => editor(
            cluster, pool, key,
            {
                pairs: await exceptionsIn(cluster, pool, work.signal),
                primaries: cluster.known.primaries[pool.id] ?? {}
            },
            refresh
        )
    );
    return at;
}

function editor(cluster, pool, key, now, refresh) {
    const text = el("textarea", { id: "pairs", rows: 10, spellcheck: "false" });
    const result = el("div", { id: "tried" }), said = el("div", { id: "pairs-said", "aria-live": "polite" });
    text.value = linesOf(pool, now);
    const read = () => {
        said.replaceChildren();
        try {
            return exceptionsSaid(cluster, pool, text.value);
        } catch (why) {
            said.replaceChildren(fault(why.message));
            return null;
        }
    };
    async function set({ pairs, primaries }, old, words) {
        // what is more than the service takes is kept here, and set part by part
        const over = pairs.length > PAIRS, at = cluster.of(pool), { known } = cluster;
        const reply = await change(
            `Set the exceptions of ${pool.name}`, at, "pools/exceptions",
            { id: pool.id, exceptions: over ? [] : pairs }, noteFor(cluster.tenant, at)
        );
        if (reply.status !== 200)
            return said.replaceChildren(fault("They aren't set. ", meaning(reply.status, reply.error)));
        note(
            cluster.tenant,
            {
                pairs: {
                    ...known.pairs,
                    [pool.id]: over ? pairs.map((it) => [it.group, it.from, it.to]) : undefined
                },
                primaries: { ...known.primaries, [pool.id]: primaries }
            }
        );
        if (old) before.set(key, old);
        else before.delete(key);
        return refresh(
            {
                said: el(
                    "p", { class: "done" }, `${words} Pool ${pool.name} has ${many(pairs.length, "pair")}.`
                )
            }
        );
    }
    const tries = () => {
        const next = read();
        if (next)
            filling(result, "Trying them in a copy", (work) => tried(cluster, pool, now.pairs, next, work));
    };
    const sets = () => {
        const next = read();
        if (next) set(next, now, "They are set.");
    };
    const earlier = before.get(key);
    return [
        el("h2", {}, counted(`Exceptions of ${pool.name}`, now.pairs)),
        el(
            "p", { class: "hint" },
            "Ceph calls them upmap items. One after the other: in the group, the second device of a pair "
                + "takes the place of the first, unless it is in the group's list, is out, or isn't in the "
                + "newest map."
        ),
        labelled(
            "Upmap items, a line for each group", text,
            `As the cluster and its balancer write them: ceph osd pg-upmap-items ${idOf(pool, 0)} 0 1 puts `
                + `group 0 on osd.1 in the place of osd.0, and ceph osd pg-upmap-primary ${idOf(pool, 0)} 1 `
                + `lets osd.1 lead it. A line that is left out is taken back.`
        ),
        said,
        el(
            "div", { class: "buttons" }, button("Try them in a copy", tries, { id: "try", class: "main" }),
            button("Set them", sets, { id: "set" }),
            earlier && button(
                "Take back what was set last", () => set(earlier, null, "The earlier ones are set again."),
                { id: "take-back" }
            )
        ),
        result
    ];
}

// Those groups that have other pairs than before, and not none.
function changed(before, now) {
    const old = byGroup(before);
    return [...byGroup(now)].filter(([group, own]) => String(old.get(group)) !== String(own));
}

async function tried(cluster, pool, before, { pairs, primaries }, work) {
    let broken = 0;
    const { states } = cluster.known, [found] = await stagesOf(cluster, [pool], [{
        words: "With the exceptions", states,
        async change(copy, group, held) {
            const own = Object.assign(
                held.get(pool.id).withPairs(pairs),
                { primaries: new Map(Object.entries(primaries).map(([at, device]) => [Number(at), device])) }
            );
            held.set(pool.id, own);
            await copy.exceptions(pool, own.sent());
            broken = await breaking(cluster, copy, pool, changed(before, pairs), own, work);
        },
    }], work, null, { unordered: true });
    const all = totals(cluster, found, { before: states, after: states });
    const name = `${cluster.tenant}-${pool.name}-exceptions`;
    const leads = found.reduce(
        (sum, { lists }) => sum + lists.before.primaries.reduce(
            (all_, it, at) => all_ + (it !== lists.after.primaries[at]), 0
        ),
        0
    );
    return [
        el("h2", {}, "Beside what is set now"), verdict(cluster, found, all, { broken }),
        leads > 0 && el(
            "p", { class: "hint", id: "primaries" },
            `${many(leads, "primary", "primaries")} ${leads === 1 ? "changes" : "change"}.`
        ),
        answerRow(cluster, all), beforeAfter(cluster, all, name),
        groupsFolded(cluster, found, ["now", "with them"], name)
    ];
}
