"""While the page waits: what it does is said after 300 ms, after 5 s for how long already, with
a button that stops it; the old view is dimmed and keeps its own name; a failed GET may not be
done."""
import re

from page import first, unlike


def a_view_that_waits_says_so(page):
    page.planned(port=page.proxy.server_port)
    page.browser.tab("Pools")
    page.browser.until(lambda: page.browser.all("main tbody tr a"), "the pools aren't shown")
    page.proxy.holds, page.proxy.held = 8, "/usage"
    page.browser.named("nav a", "Usage").click()
    page.browser.until(
        lambda: page.browser.run("return document.getElementById('waiting').innerText").startswith("Usage"),
        "it isn't said what is asked for",
    )
    early = page.browser.run(
        "return [document.querySelector('#stop').offsetParent === null, document.querySelector('h1').textContent]"
    )
    page.browser.until(
        lambda: re.search(
            r"still waiting, [5-7] s", page.browser.run("return document.getElementById('waiting').textContent")
        ),
        "the seconds aren't said",
    )
    page.browser.click("#stop")
    page.browser.until(lambda: page.browser.text("main .fault") == "Stopped.", "it isn't stopped")
    said = page.browser.run("return document.getElementById('waiting').innerText")
    page.proxy.holds = 0
    return first(unlike(early, [True, "Usage"]), unlike(said, "", "after it was stopped:"))


def the_old_view_is_dimmed_under_its_own_name(page):
    page.planned(port=page.proxy.server_port)
    page.proxy.holds, page.proxy.held = 7, f"/t/plan-{page.made}"
    page.browser.named("nav a", "Object").click()
    page.browser.until(
        lambda: page.browser.run("return document.getElementById('main').getAttribute('aria-busy')") == "true",
        "the view isn't dimmed",
    )
    there = page.browser.run(
        "return [document.querySelector('h1').textContent, document.querySelector('nav [aria-current]').textContent,"
        " getComputedStyle(document.querySelector('main > *')).opacity]"
    )
    page.browser.until(
        lambda: page.browser.run(
            "return !document.getElementById('waiting').hidden && !document.getElementById('stop').hidden"
        ),
        "no Stop",
    )
    page.browser.run("document.getElementById('stop').click()")
    page.browser.until(
        lambda: page.browser.run("return !document.getElementById('main').hasAttribute('aria-busy')"),
        "it isn't stopped",
    )
    after = page.browser.run("return [document.querySelector('h1').textContent, location.hash.split('/')[2]]")
    page.proxy.holds = 0
    return first(
        unlike(there[:2], ["Pools", "Pools"]),
        None if float(there[2]) < 0.6 else f"its opacity is {there[2]}",
        unlike(after, ["Pools", "pools"]),
    )


def a_failed_get_is_no_change(page):
    """What is said of a GET without a reply, and of a change."""
    page.planned(port=page.proxy.server_port)
    page.proxy.drops = 2
    page.browser.named("nav a", "Usage").click()
    said = page.browser.text(".notice")
    page.browser.named(".notice button", "Repeat").click()
    page.browser.one("#places tbody tr")
    return None if "no reply came" in said and "may be done" not in said else said


ASKS = """
const done = arguments[arguments.length - 1], [tenant, count] = arguments;
import("./service.js").then(({ ask }) => {
    const asked = Array.from({ length: count }, () => ask("Look", "GET", `/t/${tenant}`));
    const control = new AbortController(), began = performance.now();
    const stopped = ask("Look", "GET", `/t/${tenant}/maps/1`, undefined, control.signal)
        .then(() => "answered", (why) => [why, performance.now() - began]);
    control.abort("stopped");
    Promise.all([stopped, ...asked]).then(([one, ...others]) => done([one, others.map((it) => it.status)]));
});
"""


def two_are_under_way_at_a_time(page):
    """Of requests at once, all of which are answered; one that waits for its turn is stopped at
    once and isn't sent."""
    page.planned(port=page.proxy.server_port)
    page.settled()
    tenant = f"plan-{page.made}"
    page.proxy.holds, page.proxy.held, page.proxy.most = 0.5, tenant, 0
    page.browser.driver.set_script_timeout(60)
    page.browser.loaded()
    (why, after), others = page.browser.driver.execute_async_script(ASKS, tenant, 6)
    page.proxy.holds = 0
    asked = [it for it in page.browser.loaded() if "/t/" in it]
    return first(
        unlike(page.proxy.most, 2, "under way:"),
        unlike(others, [200] * 6),
        unlike(why, "stopped"),
        None if after < 400 else f"it was stopped after {after:.0f} ms",
        unlike(len(asked), 6, "requests:"),
    )


def cases():
    return (
        two_are_under_way_at_a_time,
        a_view_that_waits_says_so,
        the_old_view_is_dimmed_under_its_own_name,
        a_failed_get_is_no_change,
    )
