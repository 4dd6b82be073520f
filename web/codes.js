// What codes mean. Those of map texts begin with the words of docs/MAPS.md (`make page-check`
// compares them).

export const FAULTS = {
    X1: "a word that can't stand there, a byte that no word has, or a text that ends too early. Look at "
        + "this line, and at the word before it.",
    X2: "alg straw, or alg straw2 in a text whose first line isn't # crushcalc: straw2. Straw buckets "
        + "aren't computed; a text asks for straw2 buckets by that line.",
    X3: "a class in a take step. The trees that Ceph derives for each class aren't computed; in a copy, "
        + "take the bucket itself, or a bucket that has only the devices of that class.",
    X4: "choose_args, the weight sets of a balancer. They aren't computed; leave them out of a copy.",
    X5: "a pos that isn't below the number of the bucket's items, or that an earlier item of the bucket has.",
    X6: "a word that is no weight where one is expected: it isn't of the form of a weight, or is 65536 or "
        + "more. Where the weight was left out after weight, the line is that of the next word.",
    X7: "more bytes than a map text may have, which is 4,194,304.",
    M1: "more devices, types, buckets, items, rules or steps than the limit, or a rule whose steps are all "
        + "dropped.",
    M2: "an id or number that an earlier device, type, bucket or rule has.",
    M3: "a name that is taken (devices and buckets share their names), or a tunable that was named before.",
    M4: "a bucket of a type that isn't declared, or is misspelt; at the end of the text: there is no type "
        + "0. An empty text has it.",
    M5: "an item that isn't declared before its bucket: it is misspelt, or stands further down. The line is "
        + "that of the bucket, whichever item it is; buckets come after their items, the root last.",
    M6: "an item that stands twice in its bucket, as osd.0 where a tree bucket has holes.",
    M7: "the weights of a bucket add up to 65536 or more, or an item of a straw2 bucket weighs 32768 or "
        + "more.",
    M8: "the weights of a uniform bucket differ.",
    M9: "a bucket of type 0, which is that of devices.",
    M10: "a step takes what isn't declared before its rule: it is misspelt, or stands further down. The "
        + "line is that of the rule.",
    M11: "a choose step names a type that isn't declared, or is misspelt. The line is that of the rule.",
    M12: "a number that is out of its range.",
    M13: "local tries or local fallback tries that aren't 0, in a tunable or a step; at the end of the "
        + "text: one of the two tunables isn't named (Ceph's old values are 2 and 5).",
    M14: "chooseleaf indep of type 0; write choose indep.",
    M15: "a name of more than 64 bytes, or a type named tunable, device, type, rule, choose_args or class.",
};

// The codes of what Ceph computes and crushcalc doesn't: such a map isn't wrong.
export const NOT_COMPUTED = new Set(["X2", "X3", "X4", "M13"]);

// What a map with straw buckets can still be used for.
export const STRAW = {
    why: "Nothing is wrong with such a map: Ceph computes straw buckets, and crushcalc doesn't. 'ceph osd "
        + "crush set-all-straw-buckets-to-straw2' makes straw2 buckets of them, which are computed.",
    copy: "Or try a copy of the text in which they are lists. This command writes it:",
    command: "sed -E 's/^([[:space:]]*alg[[:space:]]+)straw2?/\\1list/' map.txt >lists.txt",
    good: "Good for: this page's steps, whether the rules find enough hosts or racks, and how evenly a pool "
        + "spreads, since each device still gets its share by weight.",
    bad: "Not good for: which groups lie where or move, and how much moves. Nearly every object lies "
        + "elsewhere in the copy than in the cluster, and a change of weights or of hosts moves other "
        + "amounts in lists.",
    never: "Never load the copy into a cluster: nearly all of its data would move.",
};

// What is said of a map that Ceph computes and crushcalc doesn't, where there is no more to say.
export const NO_FAULT =
    "Nothing is wrong with such a map: Ceph computes this, and crushcalc doesn't. What it says of a copy "
        + "without it need not hold of the cluster.";

const REFUSALS = {
    bad_request: "a part of the request isn't of its form",
    no_tenant: "the service has no cluster (tenant) of this name; it may have been deleted",
    no_version: "there is no such version of the map",
    no_device: "the newest version of the map has no such device",
    no_pool: "there is no pool of this id",
    no_rule: "the map has no such rule",
    no_group: "the pool has no such group",
    exists: "it is there already",
    tenant_limit: "the service keeps no more of these for one cluster (tenant)",
    rule_in_use: "the map lacks the rule of one of the cluster's pools",
    request_reused: "another request had this number",
    store_damaged: "the service's file has damaged rows of this cluster (tenant)",
};

const STATUSES = {
    0: "no reply came: the connection failed",
    401: "the web server wants a user and a password",
    403: "the web server has no users for this cluster (tenant), or not this one",
    413: "the request is longer than the service takes",
    502: "the service doesn't answer the web server",
    504: "the service took too long for the web server",
};

// the replies after which a request that changes something may be done or not
const UNKNOWN = new Set([0, 502, 504]);

const UNABLE = {
    no_memory: "the service had no memory for it, and nothing was done",
    store_failed: "the service's file can't be written now, as with a full disk",
};

// A reply that isn't what was asked for, in words; `changes` is whether the request was to change
// something.
export function meaning(status, error, changes = false) {
    const words = (
        status === 503 ? UNABLE : REFUSALS
    )[error] ?? STATUSES[status] ?? "the web server gave this reply";
    const more = changes && UNKNOWN.has(status) ? " The request may be done." : "";
    return `${[status || "", error ?? ""].filter((it) => it !== "").join(" ")}${status ? ": " : ""}${words}.${more}`;
}
