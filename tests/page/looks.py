"""The page at 360 and at 1,920 pixels, dark and light, by keyboard, and as a screen reader has
it."""
import re

from selenium.webdriver.common.action_chains import ActionChains
from selenium.webdriver.common.keys import Keys

from page import DRAINED, PICTURES, example, first, unlike
from model.placed import Placed

WIDTHS, VIEWS = (360, 1440, 1920), ("Map", "Pools", "Usage", "Compare", "Drain", "Object")
CONTRAST, MOST_TABS = 4.5, 80
# of each text that is shown: its colour, and the colours below it from the nearest on
TEXTS = """
const found = new Map();
for (const it of document.querySelectorAll("body *")) {
    const own = [...it.childNodes].some((at) => at.nodeType === 3 && at.data.trim());
    if (!own || it.disabled || it.closest(".skip, noscript, option")) continue;
    if (!it.checkVisibility({ opacityProperty: true, visibilityProperty: true })) continue;
    const below = [];
    for (let at = it; at; at = at.parentElement) below.push(getComputedStyle(at).backgroundColor);
    found.set(getComputedStyle(it).color + below, [it.tagName + "." + it.className, getComputedStyle(it).color, below]);
}
return [...found.values()];
"""


# words of up to twelve letters that are broken over lines, of what is seen
BROKEN = """
const clipped = (it) => it && (getComputedStyle(it).clipPath !== "none" || clipped(it.parentElement));
const walker = document.createTreeWalker(document.body, NodeFilter.SHOW_TEXT);
const found = new Set(), range = document.createRange();
for (let it = walker.nextNode(); it; it = walker.nextNode()) {
    const above = it.parentElement;
    if (!above.checkVisibility({ visibilityProperty: true }) || clipped(above)) continue;
    if (above.closest("script, .skip, noscript, option, pre, code")) continue;
    for (const word of it.data.matchAll(/(?<![^\\s-])[^\\s-]{2,12}(?![^\\s-])/g)) {
        range.setStart(it, word.index);
        range.setEnd(it, word.index + word[0].length);
        if (new Set([...range.getClientRects()].map((at) => Math.round(at.top))).size > 1) found.add(word[0]);
    }
}
return [...found];
"""


def full(page):
    """A tenant with two versions and a pool."""
    tenant = page.planned()
    page.browser.drop(example("four_hosts.txt"), "four_hosts.txt")
    page.kept(2)
    return tenant


def filled(page, view, host="host0"):
    """A view with what it shows when it is used."""
    if view == "Drain":
        page.drained(host, way="fail")
        page.browser.click("#which summary")
        page.browser.has("#groups tbody tr")
        return
    page.browser.tab(view)
    if view == "Object":
        page.browser.fill("#object", "cat.jpg")
        page.browser.click("form button.main")
        page.browser.one("#found")
    elif view in ("Usage", "Compare"):
        page.browser.one("#places tbody tr")
    page.settled()


def it_fits_both_widths(page):
    full(page)
    whys = []
    for width in WIDTHS:
        page.browser.size(width, 740 if width == 360 else 1080)
        for view in VIEWS:
            filled(page, view)
            over = page.browser.run("return document.scrollingElement.scrollWidth") - width
            page.browser.picture(PICTURES / f"{view.lower()}-{width}.png")
            if over > 0:
                whys.append(f"{view} is {over} pixels wider than {width}")
            if broken := page.browser.run(BROKEN):
                whys.append(f"{view} at {width} breaks {broken[:5]}")
    page.browser.size(1280)
    return first(*whys)


def one_group_is_chosen_on_a_phone(page):
    """At 360 pixels: a drain of a host, and one group of it by its id."""
    page.planned()
    page.browser.size(360, 740)
    page.drained("host0")
    page.browser.click("#which summary")
    page.browser.has("#groups tbody tr")
    before = Placed(example("three_hosts.txt"), pool=1, size=2, pg_num=16)
    group = before.moves(Placed(example("three_hosts.txt"), pool=1, size=2, pg_num=16, reweights={0: 0, 1: 0}))[-1][0]
    page.browser.fill("#group-search", f"1.{group:x}")
    page.browser.until(lambda: list(page.rows("#groups tbody tr")) == [group], "not one group is shown")
    page.browser.run("document.querySelector('#groups tbody tr').scrollIntoView({ block: 'center' })")
    sides = page.browser.run(
        "return [...document.querySelectorAll('#groups tbody tr > *')].flatMap((it) =>"
        " [it.getBoundingClientRect().left, it.getBoundingClientRect().right])"
    )
    lines = page.browser.run("return Math.round(document.querySelector('#groups tbody .id').getClientRects().length)")
    page.browser.picture(PICTURES / "one-group-360.png")
    page.browser.size(1280)
    return first(
        None if min(sides) >= 0 and max(sides) <= 360 else f"it lies from {min(sides)} to {max(sides)}",
        unlike(lines, 1, "lines of its id:"),
    )


def the_longest_names_fit(page):
    """Names of 64 letters, at 360 pixels."""
    text = example("three_hosts.txt")
    for name in (*(f"osd.{it}" for it in range(6)), *(f"host{it}" for it in range(3)), "replicated_rule"):
        text = re.sub(rf"\b{re.escape(name)}\b", name.ljust(64, "m"), text)
    page.imported(text, "m" * 64 + ".txt", tenant="n" * 46)
    page.pool("p" * 64, size=2, pg_num=16)
    # one device of three times the weight, so that groups move
    page.browser.drop(text.replace("weight 1.0", "weight 3.0", 1), "other.txt")
    page.kept(2)
    page.browser.size(360, 740)
    whys = []
    for view in VIEWS:
        filled(page, view, "host0".ljust(64, "m"))
        over = page.browser.run("return document.scrollingElement.scrollWidth") - 360
        page.browser.picture(PICTURES / f"{view.lower()}-long.png")
        if over > 0:
            whys.append(f"{view} is {over} pixels wider than 360")
    page.browser.size(1280)
    page.browser.driver.refresh()
    return first(*whys)


def bright(colour):
    """The relative luminance of WCAG, of a colour without transparency."""
    parts = [it / 255 for it in colour]
    red, green, blue = (it / 12.92 if it <= 0.03928 else ((it + 0.055) / 1.055) ** 2.4 for it in parts)
    return 0.2126 * red + 0.7152 * green + 0.0722 * blue


def colour_of(text):
    parts = [float(it) for it in text[text.index("(") + 1 : -1].split(",")]
    return parts[:3], parts[3] if len(parts) == 4 else 1


def contrast(text, below):
    behind = next((colour_of(it)[0] for it in below if colour_of(it)[1] == 1), [255, 255, 255])
    one, other = sorted((bright(colour_of(text)[0]), bright(behind)))
    return (other + 0.05) / (one + 0.05)


def faint(page, what):
    """The texts that are shown with too little contrast."""
    return [
        f"{what}, {it}: {text} on {below} has {contrast(text, below):.2f}"
        for it, text, below in page.browser.run(TEXTS)
        if contrast(text, below) < CONTRAST
    ]


def the_first_view_a_refused_map_and_a_question(page):
    """They fit both widths, and are read well in light and dark."""
    tenant, whys = page.fresh(), []
    page.browser.click(".start .note summary")

    def looked_at(what):
        for width, scheme in ((360, "dark"), (360, "light"), (1920, "light"), (1920, "dark")):
            page.browser.size(width, 740 if width == 360 else 1080)
            page.browser.colours(scheme)
            over = page.browser.run("return document.scrollingElement.scrollWidth") - width
            page.browser.picture(PICTURES / f"{what}-{width}-{scheme}.png")
            whys.extend(
                faint(page, f"{what} in {scheme}")
                + ([f"{what} is {over} pixels wider than {width}"] if over > 0 else [])
            )
        page.browser.size(1280)
        page.browser.colours("light")

    looked_at("first")
    page.browser.drop(example("cluster.txt").replace("alg list", "alg straw"), "straw.txt")
    page.browser.one(".refused")
    looked_at("refused")
    page.browser.click("#remove")
    page.browser.one("dialog")
    focus = page.browser.run("return document.activeElement.textContent")
    looked_at("question")
    press(page, Keys.ESCAPE)
    page.browser.until(
        lambda: not page.browser.run("return document.querySelector('dialog').open"),
        "Escape doesn't leave the question",
    )
    return first(
        *whys, unlike(focus, "Keep it", "the question begins at"), unlike(page.ask("GET", f"/t/{tenant}")[0], 200)
    )


def it_is_read_well_in_light_and_dark(page):
    full(page)
    grounds, whys = [], []
    for scheme in ("light", "dark"):
        page.browser.colours(scheme)
        grounds.append(page.browser.run("return getComputedStyle(document.documentElement).backgroundColor"))
        for view in VIEWS:
            filled(page, view)
            page.browser.picture(PICTURES / f"{view.lower()}-{scheme}.png")
            whys += faint(page, f"{view} in {scheme}")
    page.browser.colours("light")
    return first(
        *whys,
        (
            None
            if bright(colour_of(grounds[0])[0]) > 0.7 and bright(colour_of(grounds[1])[0]) < 0.1
            else f"the grounds are {grounds}"
        ),
    )


def press(page, *keys):
    ActionChains(page.browser.driver).send_keys(*keys).perform()


def tab_to(page, holds):
    """Goes on by Tab until the focus is where it should be; it has to be seen on the way."""
    for _ in range(MOST_TABS):
        press(page, Keys.TAB)
        at = page.browser.driver.switch_to.active_element
        if holds(at):
            seen = page.browser.run(
                "const it = document.activeElement, ring = it.closest('.choose')?.querySelector('label') ?? it; return"
                " getComputedStyle(ring).outlineStyle"
            )
            if seen == "none":
                raise ValueError(f"the focus isn't seen on {at.tag_name}")
            return at
    raise ValueError("Tab doesn't lead there")


def id_is(name):
    return lambda it: it.get_attribute("id") == name


def tabs_to(page, holds):
    """How often Tab is pressed until the focus is there."""
    for count in range(1, MOST_TABS):
        press(page, Keys.TAB)
        if holds(page.browser.driver.switch_to.active_element):
            return count
    raise ValueError("Tab doesn't lead there")


def a_drain_by_keyboard_alone(page):
    """From an empty page to a drained host. The dialog of files is the browser's own, so the file
    is dropped; all else is keys."""
    tenant = page.fresh()
    press(page, Keys.TAB)
    tab_to(page, id_is("name"))
    tab_to(page, lambda it: it.get_attribute("type") == "file")
    page.browser.drop(example("three_hosts.txt"), "three_hosts.txt")
    page.browser.one("#tree [data-bucket]")
    page.browser.until(
        lambda: page.browser.run("return document.activeElement.id") == "said", "what came of the import has the focus"
    )
    tab_to(page, lambda it: it.text == "Make a pool")
    press(page, Keys.ENTER)
    page.browser.one("#pool-name")
    tab_to(page, id_is("pool-name"))
    press(page, "photos", Keys.ENTER)
    page.browser.until(lambda: "The pool photos is made" in page.browser.text("#said"), "no pool")
    after_pool = tabs_to(page, lambda it: it.text == "drain a host on paper")
    press(page, Keys.ENTER)
    page.browser.one(".picker")
    to_list = tabs_to(page, id_is("drain-search"))
    press(page, "host0")
    to_list += tabs_to(page, lambda it: it.get_attribute("type") == "checkbox")
    press(page, Keys.SPACE, Keys.ENTER)
    page.browser.one("#answer")
    page.browser.has(DRAINED)
    chosen = page.browser.text(".title")
    tab_to(page, lambda it: it.tag_name == "summary" and "Which groups" in it.text)
    press(page, Keys.ENTER)
    page.browser.has("#groups tbody tr")
    return first(
        unlike(chosen, "Drain of host0"),
        unlike(page.clicks(), 0, "clicks:"),
        unlike(page.summary(tenant)["epoch"], 2),
        None if after_pool <= 2 else f"{after_pool} tabs from the pool to its drain",
        None if to_list <= 6 else f"{to_list} tabs to a host",
    )


def the_list_of_hosts_is_skipped(page):
    """On a cluster of more hosts the button is a few keys away; a search doesn't go on yet."""
    page.imported(example("cluster.txt"))
    page.pool(pg_num=64)
    page.browser.tab("Drain")
    page.browser.run("document.querySelector('h1').focus()")
    to_skip = tabs_to(page, lambda it: it.text == "Skip the list")
    press(page, Keys.ENTER)
    skipped = page.browser.run("return document.activeElement.id")
    page.browser.fill("#drain-search", "host2")
    press(page, Keys.ENTER)
    early = len(page.browser.all("#answer"))
    tab_to(page, lambda it: it.get_attribute("type") == "checkbox")
    press(page, Keys.SPACE, Keys.ENTER)
    page.browser.one("#answer")
    page.browser.has(DRAINED)
    return first(
        None if to_skip <= 4 else f"{to_skip} tabs to what skips the list",
        unlike(skipped, "drain", "the focus is on"),
        unlike(early, 0, "a search drains:"),
        unlike(page.browser.text(".title"), "Drain of host2"),
    )


def the_content_is_skipped_to(page):
    """The first link of the page leads to the content of the view that is open."""
    page.planned()
    page.browser.tab("Usage")
    page.browser.driver.refresh()
    page.browser.one("#places tbody tr")
    press(page, Keys.TAB, Keys.ENTER)
    return first(
        unlike(page.browser.run("return document.activeElement.id"), "main", "the focus is on"),
        unlike(page.browser.text("h1"), "Usage"),
    )


# what a checker of accessibility asks of the page's elements: of each that is shown what is wrong
CHECKED = """
const wrong = [], seen = new Set(), text = (it) => it.outerHTML.slice(0, 100);
const shows = (it) => it.checkVisibility({ visibilityProperty: true });
for (const it of document.querySelectorAll("[id]")) {
    if (seen.has(it.id)) wrong.push(`the id ${it.id} stands twice`);
    seen.add(it.id);
}
for (const name of ["aria-labelledby", "aria-describedby", "for"]) {
    for (const it of document.querySelectorAll(`[${name}]`)) for (const id of it.getAttribute(name).split(" ")) {
        if (!document.getElementById(id)) wrong.push(`${name} of ${text(it)} names nothing`);
    }
}
const all = (selector, isWrong, why) => {
    for (const it of document.querySelectorAll(selector)) if (isWrong(it)) wrong.push(`${text(it)} ${why}`);
};
all("[tabindex]", (it) => Number(it.getAttribute("tabindex")) > 0, "has its own place among the tabs");
all("svg, .key", (it) => !it.closest("[aria-hidden='true']"), "is read");
all("img, canvas", (it) => it.getAttribute("alt") === null && !it.getAttribute("aria-label"), "has no words");
all("button, a", (it) => it.querySelector("button, a, input, select"), "has another control in it");
all("ul > *, ol > *", (it) => it.tagName !== "LI", "is in a list");
all("dl > div", (it) => !it.querySelector("dt") || !it.querySelector("dd"), "is no pair");
let level = 0;
for (const it of document.querySelectorAll("h1, h2, h3, h4")) {
    if (!shows(it)) continue;
    const own = Number(it.tagName[1]);
    if (own > level + 1) wrong.push(`${text(it)} follows a heading of level ${level}`);
    level = own;
}
all("table", (it) => !it.querySelector("th[scope]"), "has no heads");
return wrong;
"""


def a_screen_reader_has_names_for_all(page):
    full(page)
    for view in reversed(VIEWS):
        filled(page, view)
        if wrong := page.browser.run(CHECKED):
            return f"{view}: {wrong[:3]}"
        for kind in (
            "a",
            "button",
            "input",
            "select",
            "summary",
            "textarea",
            "table",
            "canvas",
            "fieldset",
            "form",
            "dialog[open]",
        ):
            for it in page.browser.all(kind):
                if (
                    it.is_displayed()
                    and not (it.accessible_name or "").strip()
                    and not page.browser.run("return arguments[0].caption?.textContent", it)
                ):
                    return f"{view}: {kind} {it.get_attribute('outerHTML')[:120]} has no name"
        heads = page.browser.run("return [...document.querySelectorAll('h1')].length")
        current = page.browser.run("return document.querySelectorAll('nav [aria-current=page]').length")
        hidden = page.browser.run(
            "return [...document.querySelectorAll('svg')].filter((it) => it.getAttribute('aria-hidden') !=="
            " 'true').length"
        )
        if why := first(
            unlike(heads, 1, f"{view}: headings h1"),
            unlike(current, 1, f"{view}: current views"),
            unlike(hidden, 0, f"{view}: pictures that are read"),
        ):
            return why
        if page.browser.run("return document.activeElement.tagName") == "BODY":
            return f"{view}: the focus is on {page.browser.run('return document.activeElement.outerHTML')[:100]}"
    roles = page.browser.run(
        "return ['main', 'nav[aria-label]', 'header', '[role=status]', '[role=alert]'].filter((it) =>"
        " !document.querySelector(it))"
    )
    return first(unlike(roles, []), unlike(page.browser.run("return document.documentElement.lang"), "en"))


def cases():
    return (
        it_fits_both_widths,
        one_group_is_chosen_on_a_phone,
        the_first_view_a_refused_map_and_a_question,
        the_longest_names_fit,
        it_is_read_well_in_light_and_dark,
        a_drain_by_keyboard_alone,
        the_list_of_hosts_is_skipped,
        the_content_is_skipped_to,
        a_screen_reader_has_names_for_all,
    )
