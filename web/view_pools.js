// Pools: made by a form, with what Ceph takes where nothing else is said.
import { ask, change } from "./service.js";
import { meaning } from "./codes.js";
import { button, counted, csv, el, fault, labelled, options, save, sayDone } from "./dom.js";
import { exceptionsView } from "./view_exceptions.js";
import { many } from "./words.js";
import { exceptionsIn } from "./copies.js";
import { note } from "./known.js";
import { noteFor } from "./sides.js";

// Ceph's defaults: osd_pool_default_size and _pg_num, and k=2 m=2 of the erasure code profile
const SIZES = { replicated: 3, erasure: 4 }, GROUPS = 32;

// A choice of one pool, or of all where `all` is asked for and there are several.
export function poolPicker(cluster, changed, all = true) {
    const { pools, pool, one } = cluster.known, whole = all && pools.length > 1;
    const pairs = [
        ...(whole ? [["all", `all ${pools.length} pools`]] : []),
        ...pools.map((it) => [it.id, `${it.id}: ${it.name}`])
    ];
    const select = options(el("select", { id: "pool" }), pairs, whole && !one ? "all" : pool);
    select.addEventListener("change", () => {
        const chosen = select.value === "all" ? { one: false } : { one: true, pool: Number(select.value) };
        cluster.known = note(cluster.tenant, chosen);
        changed();
    });
    return labelled("Pool", select);
}

// The pools that are looked at: all that are known, or the one that was chosen.
export function poolsChosen(cluster) {
    return cluster.known.one ? [poolOf(cluster)] : cluster.known.pools;
}

// The pools of the cluster that aren't computed and are looked at with all others; with `devices`
// those that may have copies on one of them.
export function leftOut({ known }, devices) {
    return known.one
        ? []
        : known.left.filter(
            (it) => !devices || !it.devices.length || it.devices.some((id) => devices.includes(id))
        );
}

export function poolOf(cluster) {
    return cluster.known.pools.find((it) => it.id === cluster.known.pool) ?? cluster.known.pools[0];
}

// What a view says in place of its content where a map or a pool is missing.
export function missing(cluster) {
    const to = (view, text) => el("a", { href: `#/${cluster.tenant}/${view}` }, text);
    if (!cluster.summary.versions)
        return el("p", { class: "empty" }, "There is no map yet: ", to("map", "import one"), " first.");
    if (!cluster.known.pools.length)
        return el("p", { class: "empty" }, "There is no pool yet: ", to("pools", "make one"), " first.");
    return null;
}

// `more` says whose exceptions are looked at, as exceptions:1.
export function showPools(cluster, message, refresh, more = "") {
    const section = el("section", { class: "split" }, el("div", {}, el("h1", { tabindex: "-1" }, "Pools")));
    if (!cluster.summary.versions) {
        section.append(missing(cluster));
        return section;
    }
    const said = el("div", { id: "said", tabindex: "-1" }, message);
    const id = Number(/^exceptions:(\d+)$/.exec(more)?.[1]);
    const pool = cluster.known.pools.find((it) => it.id === id);
    section.firstChild.append(
        said,
        pool
            ? el("p", {}, el("a", { href: `#/${cluster.tenant}/pools` }, "All pools"))
            : form(cluster, said, refresh)
    );
    section.append(
        el("div", {}, ...pool ? [exceptionsView(cluster, pool, refresh)] : list(cluster, refresh))
    );
    return section;
}

// Asks for the exceptions of one pool after the other: how many it has goes into its cell.
async function countExceptions(cluster, cells) {
    for (const [pool, cell] of cells) {
        const found = await exceptionsIn(cluster, pool).catch((why) => why);
        if (!cell.isConnected) return;
        cell.replaceChildren(
            Array.isArray(found)
                ? el(
                    "a",
                    {
                        href: `#/${cluster.tenant}/pools/exceptions:${pool.id}`,
                        "aria-label": `${found.length} exceptions of ${pool.name}: look at them`
                    },
                    String(found.length)
                )
                : found.message
        );
    }
}

// Removing a pool, after a question.
function poolRemoval(cluster, pool, refresh) {
    const remove = async () => {
        box.close();
        const reply = await change(
            `Remove the pool ${pool.name}`, cluster.of(pool), "pools/remove", { id: pool.id },
            noteFor(cluster.tenant, cluster.of(pool))
        );
        await refresh(
            {
                said: reply.status === 200
                    ? el("p", { class: "done" }, `The pool ${pool.name} is removed.`)
                    : fault(`The pool ${pool.name} isn't removed. `, meaning(reply.status, reply.error))
            }
        );
    };
    const box = el(
        "dialog", { "aria-label": `Remove ${pool.name}?` },
        el(
            "p", {},
            `Remove the pool ${pool.name} here, with its exceptions? Your Ceph cluster isn't touched.`
        ),
        el(
            "div", { class: "buttons" }, button("Keep it", () => box.close()),
            button("Remove it", remove, { class: "danger" })
        )
    );
    return [
        button(
            "Remove", () => box.showModal(),
            { "aria-label": `Remove the pool ${pool.name}`, "data-remove": pool.id }
        ),
        box
    ];
}

const NUMBERS = new Set(["id", "size", "min_size", "rule", "pg_num", "pgp_num", "exceptions"]);

function list(cluster, refresh) {
    const { pools } = cluster.known, cells = new Map(pools.map((it) => [it, el("td", { class: "number" })]));
    const rows = pools.map(
        (it) => el(
            "tr", { "data-pool": it.id }, el("td", { class: "number" }, it.id),
            el("th", { scope: "row" }, it.name), el("td", {}, it.kind),
            ...[
                it.size, it.min_size ?? "–", it.rule, it.pg_num, it.pgp_num
            ].map((value) => el("td", { class: "number" }, value)),
            el("td", {}, it.hashpspool ? "yes" : "no"), cells.get(it),
            el("td", {}, poolRemoval(cluster, it, refresh))
        )
    );
    const heads = ["id", "name", "kind", "size", "min_size", "rule", "pg_num", "pgp_num", "hashpspool"];
    const others = cluster.summary.pools !== pools.filter((it) => !cluster.known.sides[it.id]).length && el(
        "p", { class: "note" },
        `The service keeps ${many(cluster.summary.pools, "pool")} of this cluster, and this browser knows `
            + `${pools.length}: the others were made elsewhere, and no request lists them. Drop osd.json or `
            + `the file that the other browser saves; or fill in the form as such a pool was made, then you `
            + `can say that it is there.`
    );
    const head = [...heads, "exceptions", ""].map(
        (it) => el(
            "th", { scope: "col", class: NUMBERS.has(it) && "number" },
            it || el("span", { class: "sr" }, "remove")
        )
    );
    const table = el(
        "table", { class: "plain" }, el("caption", {}, counted("Pools", pools)),
        el("thead", {}, el("tr", {}, head)), el("tbody", {}, rows)
    );
    const file = button(
        "Save as CSV",
        () => save(
            `pools-${cluster.tenant}.csv`, csv(heads, pools.map((it) => heads.map((head) => it[head] ?? "")))
        ),
        { id: "pools-csv" }
    );
    setTimeout(() => countExceptions(cluster, cells));
    return [
        others,
        rows.length
            ? [
                el(
                    "div", { class: "card scroll", tabindex: "0", role: "region", "aria-label": "Pools" },
                    table
                ),
                file
            ]
            : el("p", { class: "empty" }, "No pool yet.")
    ].flat().filter(Boolean);
}

function form(cluster, said, refresh) {
    const { rules } = cluster.map;
    const next = cluster.known.pools.reduce((most, it) => Math.max(most, it.id), 0) + 1;
    const number = (id, value, most) => el(
        "input", { type: "number", id, min: 1, max: most, value, required: true }
    );
    const name = el(
        "input",
        {
            id: "pool-name", required: true, maxlength: 64, pattern: "[A-Za-z0-9_.\\-]+", autocomplete: "off",
            title: "Letters, digits, - _ and ."
        }
    );
    const kind = options(
        el("select", { id: "kind" }), [["replicated", "replicated"], ["erasure", "erasure"]], "replicated"
    );
    const rule = options(
        el("select", { id: "rule" }), rules.map((it) => [it.id, `${it.id}: ${it.name} (${it.kind})`]),
        first(rules, "replicated")
    );
    const [id, size] = [number("pool-id", next, 2147483647), number("size", SIZES.replicated, 32)];
    const [groups, places] = [number("pg_num", GROUPS, 65536), number("pgp_num", GROUPS, 65536)];
    const least = number("min_size", leastOf("replicated", SIZES.replicated), 32);
    const hashed = el("input", { type: "checkbox", id: "hashpspool", checked: true });
    kind.addEventListener("change", () => {
        size.value = SIZES[kind.value];
        least.value = leastOf(kind.value, SIZES[kind.value]);
        rule.value = first(rules, kind.value) ?? rule.value;
    });
    size.addEventListener("input", () => { least.value = leastOf(kind.value, Number(size.value)); });
    groups.addEventListener("input", () => { places.value = groups.value; });
    const fields = () => ({
        id: Number(id.value), name: name.value, kind: kind.value, size: Number(size.value),
        rule: Number(rule.value), pg_num: Number(groups.value), pgp_num: Number(places.value),
        hashpspool: hashed.checked,
    });
    async function make(event) {
        event.preventDefault();
        await asMade(cluster, said, fields(), Number(least.value), refresh);
    }
    return el(
        "form", { class: "card form", "aria-label": "A pool", on: { submit: make } },
        el(
            "p", { class: "hint" }, "As on the cluster: ", el("code", {}, "ceph osd pool ls detail"),
            " says it all. Where you drop osd.json, all pools are made of it."
        ),
        labelled("Name", name), el("div", { class: "pair" }, labelled("Id", id), labelled("Kind", kind)),
        el(
            "div", { class: "pair" }, labelled("Size", size),
            labelled("min_size", least, "Below it a group's I/O stops. It is kept in this browser.")
        ),
        labelled("Rule", rule),
        el("div", { class: "pair" }, labelled("Groups: pg_num", groups), labelled("pgp_num", places)),
        el(
            "p", { class: "check" }, hashed,
            el("label", { for: "hashpspool" }, " The id enters the hash (hashpspool)")
        ),
        el("button", { class: "main" }, "Make the pool")
    );
}

function first(rules, kind) {
    return rules.filter((it) => it.kind === kind).reduce(
        (least, it) => (least === undefined || it.id < least ? it.id : least), undefined
    );
}

// The min_size that Ceph gives where nothing else is said.
function leastOf(kind, size) {
    return kind === "erasure" ? Math.max(1, size - 1) : Math.max(1, size - Math.floor(size / 2));
}

async function asMade(cluster, said, fields, min_size, refresh) {
    const reply = await change(`Make the pool ${fields.name}`, cluster.tenant, "pools", fields, { min_size });
    if (reply.status === 201) {
        sayDone(`The pool ${fields.name} is made`);
        await refresh(
            {
                said: el(
                    "p", { class: "done" }, `The pool ${fields.name} is made. `,
                    el("a", { href: `#/${cluster.tenant}/usage` }, "See its usage"), ", or ",
                    el("a", { href: `#/${cluster.tenant}/drain` }, "drain a host on paper")
                )
            }
        );
        return;
    }
    const there = reply.error === "exists" && button("It is the pool that I filled in", async () => {
        if (await isThere(cluster, fields)) {
            const { pools } = cluster.known;
            note(
                cluster.tenant,
                {
                    pools: [...pools.filter((it) => it.id !== fields.id), { ...fields, min_size }],
                    pool: fields.id
                }
            );
            await refresh();
        } else {
            said.replaceChildren(fault(`The service has no pool ${fields.id} of ${fields.pg_num} groups.`));
        }
    });
    said.replaceChildren(
        fault(`The pool isn't made. `, meaning(reply.status, reply.error)), ...(there ? [there] : [])
    );
    said.focus();
}

// Whether the tenant has a pool of this id with so many groups. That all else is as filled in shows
// when a copy of it is compared.
async function isThere(cluster, { id, pg_num: groups }) {
    const at = (group) => ask("Look for the pool", "GET", `/t/${cluster.tenant}/pools/${id}/groups/${group}`);
    return (await at(groups - 1)).status === 200 && (await at(groups)).error === "no_group";
}
