// The files that are dropped: those of a folder too, as `crushplan fetch` writes it.

// what stands beside these in such a folder is the planner's own, as a changed map
const FETCHED = new Set(["crush.json", "osd.json", "df.json", "osd-df.json", "pgs.json", "map.txt"]);

const entriesOf = (folder) => new Promise((done, failed) => {
    const found = [], reader = folder.createReader();
    // a reader gives some entries at a time, and none at the end
    const more = () => reader.readEntries((some) => {
        found.push(...some);
        if (some.length) more();
        else done(found);
    }, failed);
    more();
});

const fileOf = (entry) => new Promise((done, failed) => { entry.file(done, failed); });

// The files of a folder: those that crushplan reads, where it has any, else what can be a map.
// Others, as hidden ones, are passed over.
async function filesIn(folder) {
    const all = (await entriesOf(folder)).filter(
        (it) => it.isFile && /^[^.].*\.(json|txt|csv)$/.test(it.name)
    );
    const own = all.filter((it) => FETCHED.has(it.name));
    return Promise.all((own.length ? own : all).map(fileOf));
}

// What a drop carries, once its folders are opened.
export async function filesOfDrop(carried) {
    const entries = [...carried.items].map((it) => it.webkitGetAsEntry?.()), files = [...carried.files];
    if (!entries.some((it) => it?.isDirectory)) return files;
    const found = [];
    for (const it of entries) {
        if (it?.isFile) found.push(await fileOf(it));
        if (it?.isDirectory) found.push(...await filesIn(it));
    }
    return found;
}
