"""Changing requests that get no reply, or a 503: they have a number from before they are sent, are
kept until they are answered, and act once."""
import json

from page import DRAINED, example, first, unlike

KEPT = "return Object.keys(localStorage).filter((it) => it.startsWith('crushcalc.pending.')).length"


def posts(page, path):
    """The bodies of the requests of this path that came by."""
    return [body for asked, body in page.proxy.posts if asked == path]


def through(page):
    page.proxy.posts.clear()
    return page.proxy.server_port


def one_body(bodies, count):
    numbers = {json.loads(it)["request"] for it in bodies}
    return first(
        unlike(len(bodies), count, "requests:"),
        unlike(len(set(bodies)), 1, "bodies:"),
        None if all(16 <= len(it) <= 64 for it in numbers) else f"the numbers are {numbers}",
    )


def a_lost_reply_is_asked_for_again(page):
    """An import is done and its reply is lost: the page sends the same bytes again."""
    tenant = page.imported(example("three_hosts.txt"), port=through(page))
    page.proxy.loses = 1
    page.drop(example("four_hosts.txt"), "four_hosts.txt", "version 2")
    bodies = [it for it in posts(page, f"/t/{tenant}/maps") if b"osd.7" in it]
    return first(
        one_body(bodies, 2),
        unlike(page.summary(tenant)["versions"], 2, "versions:"),
        unlike(page.browser.run(KEPT), 0, "kept:"),
    )


def a_reload_repeats_what_had_no_reply(page):
    """Every reply is lost, until the page is loaded again."""
    tenant = page.imported(example("three_hosts.txt"), port=through(page))
    page.browser.tab("Pools")
    page.browser.fill("#pool-name", "photos")
    page.proxy.loses = 1000
    page.browser.click("form button.main")
    notice = page.browser.text(".notice")
    kept = page.browser.run(KEPT)
    page.proxy.loses = 0
    page.browser.driver.refresh()
    page.browser.until(lambda: len(page.browser.all("main tbody tr")) == 1, "the pool isn't listed after a reload")
    return first(
        None if "no reply came" in notice else notice,
        unlike(kept, 1, "kept:"),
        one_body(posts(page, f"/t/{tenant}/pools"), 3),
        unlike(page.summary(tenant), {"devices": 0, "epoch": 2, "pools": 1, "tenant": tenant, "versions": 1}),
        unlike(page.browser.run(KEPT), 0, "kept:"),
    )


def a_503_is_shown_and_repeated(page):
    tenant = page.imported(example("three_hosts.txt"), port=through(page))
    page.proxy.refuses = 2
    page.browser.drop(example("four_hosts.txt"), "four_hosts.txt")
    notices = []
    for left in (1, 0):
        page.browser.until(lambda: page.proxy.refuses == left and page.browser.one(".notice"), "no notice of the 503")
        notices.append(page.browser.text(".notice"))
        versions = page.summary(tenant)["versions"]
        page.browser.named(".notice button", "Repeat").click()
    page.browser.until(lambda: "version 2" in page.browser.text("#said"), "it isn't imported")
    bodies = [it for it in posts(page, f"/t/{tenant}/maps") if b"osd.7" in it]
    return first(
        next((it for it in notices if "503 no_memory" not in it or "Import four_hosts.txt" not in it), None),
        unlike(versions, 1, "versions before the repeats:"),
        one_body(bodies, 3),
        unlike(page.summary(tenant)["versions"], 2, "versions:"),
        unlike(len(page.browser.all(".notice")), 0, "notices:"),
    )


def what_the_web_server_refuses_is_sent_again(page):
    """Where too many are under way nginx answers 503 itself, with nothing done: after a moment the
    same bytes are sent again, and nothing is asked."""
    tenant = page.imported(example("three_hosts.txt"), port=through(page))
    page.proxy.busy = 3
    page.drop(example("four_hosts.txt"), "four_hosts.txt", "version 2")
    bodies, left = [it for it in posts(page, f"/t/{tenant}/maps") if b"osd.7" in it], page.proxy.busy
    page.proxy.busy = 1000
    page.browser.named("nav a", "Pools").click()
    notice = page.browser.text(".notice")
    page.proxy.busy = 0
    page.browser.named(".notice button", "Repeat").click()
    page.browser.until(lambda: page.browser.text("h1") == "Pools", "no view")
    return first(
        unlike(left, 0, "left:"),
        unlike(len(set(bodies)), 1, "bodies:"),
        unlike(page.summary(tenant)["versions"], 2, "versions:"),
        None if "503" in notice else notice,
    )


def what_is_given_up_is_forgotten(page):
    tenant = page.imported(example("three_hosts.txt"), port=through(page))
    page.proxy.refuses = 1
    page.browser.drop(example("four_hosts.txt"), "four_hosts.txt")
    page.browser.named(".notice button", "Give it up").click()
    page.browser.until(lambda: page.browser.run(KEPT) == 0, "it is kept")
    page.browser.driver.refresh()
    page.browser.one("#tree [data-bucket]")
    return unlike(page.summary(tenant)["versions"], 1, "versions:")


def a_drain_with_lost_replies_and_a_503(page):
    """Each request to the copy acts once, and the copy is dropped."""
    tenant = page.imported(example("three_hosts.txt"), port=through(page))
    page.pool(size=2, pg_num=16)
    summary = page.summary(tenant)
    page.browser.tab("Drain")
    page.browser.named("label.host", "host1").click()
    page.proxy.loses, page.proxy.refuses = 1, 1
    page.browser.click("#drain")
    page.browser.named(".notice button", "Repeat").click()
    page.browser.one("#usages tbody tr")
    page.browser.has(DRAINED)
    page.browser.tab("Usage")
    page.faults()
    for it in page.copies:
        page.browser.until(lambda: page.ask("GET", f"/t/{it}")[0] == 404, f"the copy {it} is left")
    return first(None if page.copies else "there was no copy", unlike(page.summary(tenant), summary))


def interrupted(page):
    """A drain whose first request is refused, so that it goes on, on a copy; returns its tenant."""
    tenant = page.imported(example("three_hosts.txt"), port=through(page))
    page.pool(size=2, pg_num=16)
    page.browser.tab("Drain")
    page.browser.named("label.host", "host1").click()
    page.proxy.refuses = 1
    page.browser.click("#drain")
    page.browser.one(".notice")
    page.faults()
    return tenant


def a_copy_goes_with_its_page(page):
    """A drain goes on, on its copy; then the page is closed and not opened again."""
    tenant = interrupted(page)
    name = next(it for it in page.copies if it.startswith(f"{tenant}.copy-"))
    there = page.ask("GET", f"/t/{name}")[0]
    page.browser.open("about:blank")
    page.browser.until(lambda: page.ask("GET", f"/t/{name}")[0] == 404, "the copy is left")
    return unlike(there, 200, "the copy's status while it is used:")


def a_cluster_is_deleted_at_the_second_try(page):
    """A 503 is shown and repeated, and no question lies over it."""
    tenant = page.imported(example("three_hosts.txt"), port=through(page))
    page.proxy.keeps = 1
    page.browser.click("#remove")
    page.browser.named("dialog button", "Delete it").click()
    notice = page.browser.text(".notice")
    there = page.ask("GET", f"/t/{tenant}")[0]
    page.browser.named(".notice button", "Repeat").click()
    page.browser.one("#name")
    return first(
        None if "503 store_failed" in notice and f"Delete {tenant}" in notice else notice,
        unlike(there, 200, "its status before the repeat:"),
        unlike(page.ask("GET", f"/t/{tenant}")[0], 404, "its status:"),
    )


def a_drain_is_stopped(page):
    """While a request of the copy waits, the planner stops the drain: the copy is dropped."""
    tenant = page.imported(example("three_hosts.txt"), port=through(page))
    page.pool(size=2, pg_num=16)
    summary = page.summary(tenant)
    page.browser.tab("Drain")
    page.browser.named("label.host", "host1").click()
    page.proxy.refuses = 1
    page.browser.click("#drain")
    page.browser.one(".notice")
    page.browser.click("#stop")
    page.browser.named(".notice button", "Repeat").click()
    said = page.browser.text("#result .fault")
    page.browser.has(DRAINED)
    page.faults()
    for it in page.copies:
        page.browser.until(lambda: page.ask("GET", f"/t/{it}")[0] == 404, f"the copy {it} is left")
    return first(
        unlike(said, "Stopped."),
        unlike(len(page.browser.all("#usages")), 0, "usages:"),
        unlike(page.summary(tenant), summary),
    )


def a_copy_that_was_left_is_dropped(page):
    """The page is loaded anew in the middle of a drain: the copy is dropped when it is back."""
    tenant = interrupted(page)
    name = next(it for it in page.copies if it.startswith(tenant))
    there = page.ask("GET", f"/t/{name}")[0]
    page.browser.driver.refresh()
    page.browser.until(lambda: page.ask("GET", f"/t/{name}")[0] == 404, "the copy is left")
    page.browser.until(lambda: page.browser.run(KEPT) == 0, "its requests are kept")
    return unlike(there, 200, "the copy's status before:")


def cases():
    return (
        a_lost_reply_is_asked_for_again,
        a_reload_repeats_what_had_no_reply,
        a_503_is_shown_and_repeated,
        what_the_web_server_refuses_is_sent_again,
        what_is_given_up_is_forgotten,
        a_drain_with_lost_replies_and_a_503,
        a_copy_goes_with_its_page,
        a_cluster_is_deleted_at_the_second_try,
        a_drain_is_stopped,
        a_copy_that_was_left_is_dropped,
    )
