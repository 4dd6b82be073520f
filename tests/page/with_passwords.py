"""The page with examples/nginx.conf as it is: TLS, a password for each tenant, and two processes.
The page itself needs no password; the copies that it makes of a tenant are reached by the tenant's
users."""
import base64
import contextlib

import proxy
from browser import browser
from page import Page, example, unlike

USER, TENANT = "anna", "shop"


@contextlib.contextmanager
def opened(program, folder):
    top = folder / "passwords"
    top.mkdir(mode=0o755)
    with proxy.processes(program, top, 2) as servers, proxy.nginx(top, [it.port for it in servers]) as port, browser(
        top, "--ignore-certificate-errors"
    ) as one:
        one.driver.execute_cdp_cmd("Network.enable", {})
        yield one, f"https://localhost:{port}/page/"


def a_drain_behind_tls_and_passwords(program, folder):
    with opened(program, folder) as (one, address):
        one.open(address)
        page = Page(one, None, None, None)
        one.fill("#name", TENANT)
        # a person is asked by the browser, for the first request of the tenant
        word = base64.b64encode(f"{USER}:{USER}".encode()).decode()
        one.driver.execute_cdp_cmd("Network.setExtraHTTPHeaders", {"headers": {"Authorization": f"Basic {word}"}})
        one.drop(example("three_hosts.txt"), "three_hosts.txt")
        one.one("#tree [data-bucket]")
        page.pool(size=2, pg_num=16)
        page.drained("host0")
        page.by("device", "usages")
        found = {it: row[2:4] for it, row in page.rows("#usages tr[data-device]").items()}
    return unlike(found[5], ["5", "9"])


def checks(program, folder):
    yield "a drain behind tls and passwords", lambda: a_drain_behind_tls_and_passwords(program, folder)
