// The planner's page: which tenant and which view, and what the service says of the tenant.
import { GivenUp, NotKept, ask, connect, finish, kept } from "./service.js";
import { meaning } from "./codes.js";
import { button, el, fault, fresh, labelled, pause, say, sayDone } from "./dom.js";
import { forgetTenant, known, learn, note, tenants } from "./known.js";
import { devicesBelow, readLongMap, readMap, signature } from "./map.js";
import { LONGEST, dropLeft, leave } from "./copies.js";
import { lyingByDevice, lyingByGroup } from "./lying.js";
import { keepMap, keepResult, keepWord, resultOf } from "./remembered.js";
import { readResult } from "./read_result.js";
import { tenantWith, tenantsOf } from "./sides.js";
import { crushIn, filesOf, mapIn, osdIn } from "./files.js";
import { Refused, importMap, takeOsd, takeRooms, takeSaved, takeStates } from "./take.js";
import { filesOfDrop } from "./folder.js";
import { aboutStraw } from "./refused.js";
import { dropBox, showMap } from "./view_map.js";
import { showPools } from "./view_pools.js";
import { showUsage } from "./view_usage.js";
import { showCompare } from "./view_compare.js";
import { showDrain } from "./view_drain.js";
import { showObject } from "./view_object.js";
import { TITLES, showResult } from "./view_result.js";
import { Stopped, working } from "./waiting.js";

const VIEWS = {
    map: "Map", pools: "Pools", usage: "Usage", compare: "Compare", drain: "Drain", object: "Object"
};
// the view of an answer of crushplan, once one was dropped
const RESULT = "result";
// a name of one or two points would be another path
const NAME = /^(?!\.{1,2}$)[A-Za-z0-9_.-]{1,64}$/;
const NO_MAP = "Drop the map too: crush.json, or map.txt.";
const GONE =
    "a text of the map is gone from the service, with the pools that were computed on it: drop crush.json "
        + "and osd.json again";
const at = (id) => document.getElementById(id);
let cluster = null;

// ---- notices: a request without an answer, and whether to repeat it

function decide({ what, why, changes, signal }) {
    return new Promise((repeat, giveUp) => {
        signal?.addEventListener("abort", () => {
            notice.remove();
            giveUp(signal.reason);
        });
        const title = el("strong", { id: fresh() }, what);
        const notice = el("div", { class: "notice", role: "group", "aria-labelledby": title.id });
        const act = (then) => () => {
            notice.remove();
            then();
        };
        const kept = changes ? " Its number and bytes are kept here, so repeating it acts once." : "";
        notice.append(
            title, el("p", {}, `${why}${kept}`), button("Repeat", act(repeat), { class: "main" }),
            button("Give it up", act(() => giveUp(new GivenUp("It was given up."))))
        );
        at("notices").append(notice);
        say("");
    });
}

// ---- the tenant

// The cluster as the service has it now. What is read once is kept as long as nothing changes.
async function openTenant(name, work) {
    work.step(`Opening ${name}`);
    const summary = await ask(`Open ${name}`, "GET", `/t/${name}`, undefined, work.signal);
    if (summary.status !== 200) {
        if (summary.error === "no_tenant") forgetTenant(name);
        throw new Error(`${name}: ${meaning(summary.status, summary.error)}`);
    }
    if (summary.epoch < known(name).epoch) forgetTenant(name);
    const it = { tenant: name, summary, known: note(name, { epoch: summary.epoch }) };
    const summaries = await othersOf(it, work);
    const epochs = [summary, ...summaries].map((one) => one.epoch).join();
    const same = cluster?.tenant === name && cluster.epochs === epochs;
    Object.assign(
        it,
        same
            ? { map: cluster.map, texts: cluster.texts, usages: cluster.usages, plain: cluster.plain }
            : { map: null, texts: new Map(), usages: new Map(), plain: new Map() },
        { epochs }
    );
    if (summary.versions && !it.map) await readNewest(it, [summary, ...summaries], work);
    it.name = (id) => it.map.byId.get(id)?.name ?? `device ${id}`;
    it.deviceOf = (word) => it.map.devices.get(word)?.id ?? (
        /^device \d+$/.test(word) ? Number(word.slice(7)) : undefined
    );
    it.of = (pool) => tenantWith(name, it.known, pool);
    it.path = (pool) => `/t/${it.of(pool)}/pools/${pool.id}`;
    cluster = it;
    return it;
}

// What the service says of the tenants of a cluster's other texts. Where one is gone, the pools of
// all of them are.
async function othersOf(it, work) {
    const { tenant, known: own } = it, found = [];
    for (const name of tenantsOf(tenant, own).slice(1)) {
        const reply = await ask(`Open ${name}`, "GET", `/t/${name}`, undefined, work.signal);
        if (reply.error === "no_tenant") {
            it.known = note(
                tenant,
                {
                    texts: 1, shown: 1, sides: {}, pools: own.pools.filter((pool) => !own.sides[pool.id]),
                    notes: [...own.notes, GONE]
                }
            );
            return [];
        }
        if (reply.status !== 200) throw new Error(`${name}: ${meaning(reply.status, reply.error)}`);
        found.push(reply);
    }
    return found;
}

// Reads the newest text of each of the cluster's tenants; the first ones show the map.
async function readNewest(it, summaries, work) {
    work.step(`Reading the map of ${it.tenant}`);
    for (const [place, name] of tenantsOf(it.tenant, it.known).entries()) {
        const reply = await ask(
            "Read the newest version", "GET", `/t/${name}/maps/${summaries[place].versions}`, undefined,
            work.signal
        );
        if (reply.status !== 200) throw new Error(meaning(reply.status, reply.error));
        it.texts.set(name, reply.text);
        await pause();
    }
    it.map = await readLongMap([...it.texts.values()].slice(0, it.known.shown));
}

class Taken extends Error {}

async function makeTenant(name) {
    const reply = await ask(`Make ${name}`, "PUT", `/t/${name}`);
    if (reply.error === "exists")
        throw new Taken(`There is a cluster ${name} already. Take another name, or add this map to that `
            + `one: `);
    if (reply.status !== 201) throw new Error(`${name}: ${meaning(reply.status, reply.error)}`);
    note(name, {});
}

// ---- views

function place() {
    const [, tenant = "", view = "map", more = ""] = location.hash.split("/");
    const isThere = view in VIEWS || view === RESULT && resultOf();
    return { tenant: NAME.test(tenant) ? tenant : "", view: isThere ? view : "map", more };
}

function viewsThere() {
    return { ...VIEWS, ...resultOf() ? { [RESULT]: "Result" } : {} };
}

function tabs({ tenant, view }) {
    at("tabs").replaceChildren(
        ...(
            tenant
                ? Object.entries(viewsThere()).map(
                    ([it, text]) => el(
                        "a", { href: `#/${tenant}/${it}`, "aria-current": it === view && "page" }, text
                    )
                )
                : []
        )
    );
    at("tenant").replaceChildren(
        ...(
            tenant
                ? [
                    el("span", {}, "Cluster "), el("strong", {}, tenant),
                    el("a", { href: "#/", "aria-label": "Change the cluster" }, "Change")
                ]
                : []
        )
    );
    document.title = view === RESULT
        ? `${TITLES[resultOf().command]}: crushcalc`
        : tenant ? `${VIEWS[view]} of ${tenant}: crushcalc` : "crushcalc";
}

function put(section, focus) {
    for (const it of at("main").children) it.dispatchEvent(new Event("left"));
    at("main").replaceChildren(section);
    if (focus) section.querySelector("h1").focus({ preventScroll: true });
}

// What an address asks the drain for: a way and the name of a place or of a device.
function wantedOf(more) {
    const [, way, name] = /^(drain|fail):(.+)$/.exec(decodeURIComponent(more)) ?? [];
    const bucket = name && cluster.map?.buckets.get(name), device = name && cluster.map?.devices.get(name);
    return { way, devices: bucket ? devicesBelow(bucket).map((it) => it.id) : device ? [device.id] : [] };
}

// The view of the address, of the cluster as it is. `what` is what came of the planner's last step:
// `said` is shown and has the focus, `file` is a map to be tried, `focus` says what has the focus.
function viewOf({ view, more }, what) {
    const shows = {
        map: () => showMap(cluster, what.said, take, refresh),
        pools: () => showPools(cluster, what.said, refresh, decodeURIComponent(more)),
        usage: () => showUsage(cluster), compare: () => showCompare(cluster, what, refresh),
        drain: () => showDrain(cluster, wantedOf(more)), object: () => showObject(cluster),
    };
    return shows[view]();
}

let opening = null;

// Shows the view as the service has it now, and returns whether it does: not where another one was
// asked for meanwhile. Until it is there the old one is dimmed, under its own name.
async function refresh(what = {}) {
    const here = place();
    let own = null;
    opening?.stop();
    at("main").setAttribute("aria-busy", "true");
    try {
        await working(`Opening ${VIEWS[here.view]}`, async (work) => {
            opening = own = work;
            await openTenant(here.tenant, work);
            work.goesOn();
        });
        put(viewOf(here, what), false);
        tabs(here);
        if (what.said) at("said")?.focus();
        else if (what.focus) at("main").querySelector(what.focus)?.focus();
        return true;
    } catch (why) {
        if (why instanceof Stopped && opening !== own) return false;
        throw why;
    } finally {
        if (place().view === here.view && place().tenant === here.tenant)
            at("main").removeAttribute("aria-busy");
    }
}

async function show(focus = true) {
    const here = place();
    say("");
    if (!here.tenant || here.view === RESULT) {
        opening?.stop();
        opening = null;
        tabs(here);
        at("main").removeAttribute("aria-busy");
        return put(here.view === RESULT ? showResult(resultOf(), here.tenant) : start(), focus);
    }
    try {
        if (await refresh() && focus && place().view === here.view)
            at("main").querySelector("h1").focus({ preventScroll: true });
    } catch (why) {
        // another view was asked for meanwhile
        if (place().tenant !== here.tenant || place().view !== here.view) return undefined;
        if (why instanceof Stopped && at("main").firstChild) return stopped();
        history.replaceState(null, "", "#/");
        put(start(fault(why.message)), focus);
        tabs(place());
        at("main").removeAttribute("aria-busy");
    }
    return undefined;
}

// The planner didn't wait for a view: the one that was there stays.
function stopped() {
    const current = document.querySelector("nav [aria-current]")?.getAttribute("href") ?? "#/";
    history.replaceState(null, "", current);
    at("main").removeAttribute("aria-busy");
    sayDone("Stopped.");
    return undefined;
}

function isName(field) {
    field.setCustomValidity(
        NAME.test(field.value) ? "" : "1 to 64 letters, digits, - _ and ., and more than points."
    );
    return field.reportValidity();
}

// A name that no tenant has that was open here.
function freeName() {
    const taken = new Set(tenants()), names = ["plan", ...Array.from(taken, (_, it) => `plan-${it + 2}`)];
    return names.find((it) => !taken.has(it));
}

function start(said) {
    const valid = { input: (event) => event.target.setCustomValidity("") };
    const name = el(
        "input", { id: "name", value: freeName(), maxlength: LONGEST, autocomplete: "off", on: valid }
    );
    const there = el("input", { id: "there", maxlength: 64, autocomplete: "off", on: valid });
    const outcome = el("div", { id: "said", tabindex: "-1" }, said);
    const open = (event) => {
        event.preventDefault();
        if (isName(there)) location.hash = `#/${there.value}/map`;
    };
    const links = tenants().length > 0 && [
        el("p", {}, "Open here before:"),
        el(
            "ul", { class: "tenants" },
            tenants().map((it) => el("li", {}, el("a", { href: `#/${it}/map` }, it)))
        )
    ];
    return el(
        "section", { class: "start" }, el("h1", { tabindex: "-1" }, "Plan a cluster on paper"),
        el(
            "p", { class: "lead" },
            "May this host be drained? Which devices are full, what does a new host move? Computed from "
                + "what the cluster itself writes of its CRUSH map, without touching the cluster."
        ),
        el(
            "div", { class: "note" },
            el(
                "p", {},
                "Computed are straw2, list, tree and uniform buckets, classes of devices, and exceptions of "
                    + "all kinds, as clusters of today have them. What crushcalc can't compute is named "
                    + "with its pools: buckets of ",
                el("code", {}, "alg straw"), ", MSR rules, local tries, weight sets with several positions."
            ),
            el("details", {}, el("summary", {}, "What can be done with straw buckets"), aboutStraw())
        ),
        outcome,
        el(
            "div", { class: "card", role: "group", "aria-labelledby": "new" },
            el("h2", { id: "new" }, "Begin with the map of a cluster"),
            labelled(
                "Cluster (tenant)", name,
                "A name of your choice. Under it the service keeps this cluster's maps, pools and device "
                    + "states, apart from all others; it calls that a tenant."
            ),
            dropBox((files) => take(files, name)),
            el(
                "p", { class: "hint" },
                "Then usage, moves and drains are a click away. Where there is no osd.json you fill in the "
                    + "pools."
            )
        ),
        el(
            "form", { class: "card form", "aria-label": "A cluster that is there", on: { submit: open } },
            el("h2", {}, "Or go on with one that is there"), links, labelled("Its name", there),
            el("button", {}, "Open it")
        )
    );
}

// ---- files

// What came of dumps or a map for a new cluster, or for one that has no map yet.
async function takeFirst(tenant, files, work) {
    const osd = osdIn(files), map = await mapIn(files, osd);
    if (!map) throw new Error(NO_MAP);
    const version = await importMap(tenant, map, (file) => take([file]));
    return osd
        ? takeWhole(tenant, map, files, work, version === 1 && known(tenant).seen === 1)
        : done(
            tenant, `${map.name} is version ${version} of the map. `, ["pools", "Make a pool"],
            ["compare", "Compare the versions"], version
        );
}

function done(tenant, text, first, later, version, before = "") {
    const [view, words] = version > 1 ? later : first;
    // it gets the focus, so nothing says it a second time
    say("");
    return {
        said: el("p", { class: "done" }, text, before, el("a", { href: `#/${tenant}/${view}` }, words))
    };
}

// The cluster's own dumps, after its map: pools, states, exceptions, bytes, and how groups lie.
async function takeWhole(tenant, map, files, work, fresh) {
    const osd = osdIn(files), open = () => openTenant(tenant, work);
    const taken = await takeOsd(tenant, osd, map, fresh, open, work);
    if (map?.dump) keepMap(tenant, map.dump);
    takeRooms(tenant, files, osd);
    const lies = await takeLying(tenant, files, work);
    return done(
        tenant, `The cluster is there: ${taken}${lies}. `, ["drain", "choose what is drained or fails"], null,
        1, "Click on a host or rack in the picture, or "
    );
}

// Compares how groups lie with what pgs.json says, or else osd-df.json, and gives it in words.
async function takeLying(tenant, { pgs, osdDf }, work) {
    if (pgs) keepWord(tenant, pgs.read);
    if (!pgs && !osdDf || !known(tenant).pools.length) return "";
    await openTenant(tenant, work);
    const found = pgs ? await lyingByGroup(cluster, pgs.read, work) : await lyingByDevice(cluster, work);
    note(tenant, found);
    return found.lying ? `; ${found.lying.text}` : "";
}

// Bytes, and how groups lie, for a cluster that is there.
async function takeFullness(tenant, files, work) {
    takeRooms(tenant, files);
    const lies = await takeLying(tenant, files, work);
    const names = [files.df, files.osdDf, files.pgs].filter(Boolean).map((it) => it.name);
    say("");
    return {
        said: el(
            "p", { class: "done" }, `${names.join(" and ")} ${names.length === 1 ? "is" : "are"} read${lies}.`
        )
    };
}

// Files for a cluster that has a map. A map that comes alone is tried in a copy.
async function takeMore(tenant, files, work) {
    if (files.saved) return { said: takeSaved(files.saved, cluster.summary) };
    if (files.states) return { said: await takeStates(cluster, files.states) };
    const osd = osdIn(files);
    const map = await mapIn(
        files, osd, (id) => cluster.map.byId.has(id),
        [...cluster.known.pools, ...cluster.known.left.map((it) => it.body).filter(Boolean)]
    );
    if (map && osd) {
        if (signature(readMap(map.text)) !== signature(readMap(cluster.texts.get(tenant))))
            await importMap(tenant, map, (file) => take([file]));
        return takeWhole(tenant, map, files, work, false);
    }
    if (osd) return takeWhole(tenant, null, files, work, false);
    if (!map) return takeFullness(tenant, files, work);
    if (known(tenant).pools.length || known(tenant).left.length) return { view: "compare", file: map };
    const version = await importMap(tenant, map, (file) => take([file]));
    return done(
        tenant, `${map.name} is version ${version} of the map. `, ["pools", "Make a pool"],
        ["pools", "Make a pool"], version
    );
}

// An answer of crushplan, which is shown without a cluster and without the service.
async function takeResult({ result, ...others }) {
    const [other] = Object.values(others);
    if (other) throw new Error(`${result.name} is shown by itself: drop it without ${other.name}.`);
    await pause();
    keepResult(readResult(result.whole, result.name));
    await pause();
    const address = `#/${place().tenant}/${RESULT}`;
    if (location.hash !== address) history.pushState(null, "", address);
    return show();
}

// Files that were dropped or chosen: into the open cluster, or into a new one, whose name is in a
// field where the view has one.
async function take(list, field) {
    const name = field ?? el("input", { value: freeName() });
    try {
        const files = await filesOf(list), isNew = !place().tenant;
        if (files.result) {
            await takeResult(files);
            return;
        }
        if (isNew && !isName(name)) return;
        if (isNew) {
            // what can't be read makes no cluster
            osdIn(files);
            await pause();
            if (!crushIn(files) && !files.text) throw new Error(NO_MAP);
            await pause();
            await makeTenant(name.value);
            history.pushState(null, "", `#/${name.value}/map`);
        }
        const { tenant } = place();
        await working("Reading the files", async (work) => {
            await openTenant(tenant, work);
            const { view = "map", ...what } = cluster.summary.versions
                ? await takeMore(tenant, files, work)
                : await takeFirst(tenant, files, work);
            if (place().view !== view || place().more) history.pushState(null, "", `#/${tenant}/${view}`);
            await refresh(what);
        });
    } catch (why) {
        if (why instanceof GivenUp) return;
        if (why instanceof Refused) {
            if (place().view !== "map") history.pushState(null, "", `#/${place().tenant}/map`);
            await refresh({ said: why.shown });
            return;
        }
        const into = at("said") ?? at("main").firstChild.appendChild(
            el("div", { id: "said", tabindex: "-1" })
        );
        into.replaceChildren(
            fault(
                why.message,
                why instanceof Taken && el("a", { href: `#/${name.value}/map` }, `open ${name.value}`)
            )
        );
        into.focus();
    }
}

function dropping(on) {
    return (event) => {
        if (![...event.dataTransfer.types].includes("Files")) return;
        event.preventDefault();
        document.body.classList.toggle("dropping", on);
    };
}

document.addEventListener("dragover", dropping(true));
document.addEventListener("dragleave", dropping(false));
document.addEventListener("drop", (event) => {
    dropping(false)(event);
    filesOfDrop(event.dataTransfer).then((files) => files.length && take(files, at("name")));
});

// Sends the requests again that had no answer when the page was left.
async function repeatKept() {
    for (const record of kept().filter((it) => !it.note?.copy)) {
        try {
            const reply = await finish(record);
            const done = reply.status === 200 || reply.status === 201;
            if (place().tenant === record.tenant) await show(false);
            sayDone(`${record.what}: ${done ? "done" : meaning(reply.status, reply.error, true)}`);
        } catch (why) {
            if (!(why instanceof GivenUp)) throw why;
        }
    }
}

async function begin() {
    await show(false);
    await repeatKept();
    await dropLeft();
}

connect(decide, learn);
document.querySelector(".skip").addEventListener("click", (event) => {
    event.preventDefault();
    at("main").focus();
});
window.addEventListener("pagehide", leave);
window.addEventListener("hashchange", () => show());
window.addEventListener("unhandledrejection", (event) => {
    if (event.reason instanceof NotKept) at("notices").append(fault(event.reason.message));
    if (event.reason instanceof NotKept || event.reason instanceof GivenUp) event.preventDefault();
});
begin();
