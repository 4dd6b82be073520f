// Map texts as they are dropped: which item of a bucket is at fault, and holes of tree buckets
// filled, with the lines of the text kept.

const WORD = /[{}[\]]|[^\s{}[\]]+/g;

// The words of a text, each with its line and where it stands; remarks are passed over.
function wordsOf(text) {
    const words = [];
    let start = 0;
    text.split("\n").forEach((line, at) => {
        const said = line.split("#", 1)[0];
        for (const it of said.matchAll(WORD))
            words.push({ word: it[0], line: at + 1, start: start + it.index });
        start += line.length + 1;
    });
    return words;
}

// The devices that the words declare, by name, and where the last one's declaration ends.
function devicesIn(words) {
    const devices = new Map();
    words.forEach(({ word }, at) => {
        if (word === "device" && /^\d+$/.test(words[at + 1]?.word ?? ""))
            devices.set(words[at + 2]?.word, { id: Number(words[at + 1].word), at });
    });
    return devices;
}

// The buckets of a text, each with its items: name, weight and place as words, and the line.
function bucketsIn(words) {
    const found = [];
    for (let at = 2; at < words.length; at += 1) {
        if (words[at].word !== "{" || words[at - 2].word === "rule") continue;
        const bucket = { name: words[at - 1].word, line: words[at - 2].line, alg: "", items: [] };
        for (at += 1; at < words.length && words[at].word !== "}"; at += 1) {
            if (words[at].word === "alg") bucket.alg = words[at + 1]?.word;
            if (words[at].word !== "item") continue;
            const item = {
                name: words[at + 1]?.word, at: words[at + 1], line: words[at].line, weight: undefined
            };
            if (words[at + 2]?.word === "weight") item.weight = words[at + 3]?.word;
            bucket.items.push(item);
        }
        found.push(bucket);
    }
    return found;
}

// The item that makes a bucket refused, for M5 (it isn't declared before) and M6 (it stands twice);
// null where it isn't found.
export function guilty(text, code, line) {
    const words = wordsOf(text), known = new Set(devicesIn(words).keys());
    for (const bucket of bucketsIn(words)) {
        const seen = new Set();
        const wrong = bucket.line !== line ? undefined : bucket.items.find((it) => {
            const again = seen.has(it.name);
            seen.add(it.name);
            return code === "M6" ? again : !known.has(it.name);
        });
        if (wrong) return { name: wrong.name, line: wrong.line, bucket: bucket.name };
        known.add(bucket.name);
    }
    return null;
}

const nothing = (weight) => weight !== undefined && Number(weight) === 0;

// The items that a removal left in tree buckets: they are written as the device 0 with the weight
// 0. Where that may be the device itself, the first one is.
function holesOf(buckets, zero) {
    return buckets.filter((it) => it.alg === "tree").flatMap((bucket) => {
        const places = bucket.items.filter((it) => it.name === zero && nothing(it.weight));
        const weighed = (one) => one.items.some((it) => it.name === zero && !nothing(it.weight));
        const itself = !buckets.some(weighed) && zero !== undefined && bucket.items.every(
            (it) => !buckets.some((one) => one.name === it.name)
        );
        return places.slice(itself ? 1 : 0);
    });
}

// The text with a device of the weight 0 in each hole, and how many there are; null where there is
// none.
export function mended(text) {
    const words = wordsOf(text), devices = devicesIn(words), buckets = bucketsIn(words);
    const zero = [...devices].find(([, it]) => it.id === 0)?.[0] ?? "device0", holes = holesOf(buckets, zero);
    if (!holes.length) return null;
    const first = Math.max(...[...devices.values()].map((it) => it.id)) + 1;
    let made = text;
    // from the end on, so that places before stay as they are
    [...holes.entries()].sort(
        ([, one], [, other]) => other.at.start - one.at.start
    ).forEach(([place, { at }]) => {
        made = `${made.slice(0, at.start)}hole.${first + place}${made.slice(at.start + at.word.length)}`;
    });
    const last = Math.max(...[...devices.values()].map((it) => words[it.at].line)), lines = made.split("\n");
    lines.splice(last, 0, ...holes.map((_, place) => `device ${first + place} hole.${first + place}`));
    return { text: lines.join("\n"), holes: holes.length };
}
