// Numbers and lists in words.

export function count(number) {
    return number.toLocaleString("en");
}

// One and many: "1 group", "2 groups".
export function many(number, one, more = `${one}s`) {
    return `${count(number)} ${number === 1 ? one : more}`;
}

export function some(all, most = 6) {
    return all.length > most
        ? `${all.slice(0, most).join(", ")} and ${count(all.length - most)} more`
        : all.join(", ");
}

const UNITS = ["B", "KiB", "MiB", "GiB", "TiB", "PiB", "EiB"];

// A number of bytes, as crushplan writes it.
export function sized(bytes) {
    let value = Math.abs(bytes), unit = 0;
    for (; value >= 1024 && unit + 1 < UNITS.length; unit += 1) value /= 1024;
    return `${bytes < 0 ? "-" : ""}${value.toFixed(unit ? 1 : 0)} ${UNITS[unit]}`;
}
