// What can be asked of a place: links to its drain and its failure.
import { el } from "./dom.js";

export function placeActions({ tenant }) {
    const link = (way, name, text) => el(
        "a", { class: "act", href: `#/${tenant}/drain/${way}:${name}` }, text
    );
    return ({ name }) => [link("drain", name, `Drain ${name}`), link("fail", name, `${name} fails`)];
}
