"""The page for the cases: opened anew for a tenant, with requests to the service beside it."""
import contextlib
import http.client
import json
import pathlib
import subprocess
import time

from server.served import SECONDS, free_port

TOP = pathlib.Path(__file__).resolve().parent.parent.parent
PICTURES = TOP / "build" / "page-check"
EXAMPLES = TOP / "examples"
# the button of a drain that has ended
DRAINED = "#drain:not([aria-disabled])"


def example(name):
    return (EXAMPLES / name).read_text()


@contextlib.contextmanager
def serving(program, folder):
    """What `make page` starts. What is given is its port."""
    port = free_port()
    run = subprocess.Popen(
        ["python3", str(TOP / "tools" / "page"), str(program), "--port", str(port), "--folder", str(folder)],
        stdout=subprocess.PIPE,
    )
    try:
        line = run.stdout.readline().decode()
        if f"http://127.0.0.1:{port}/page/" not in line:
            raise OSError(f"tools/page says {line!r}")
        yield port
    finally:
        run.terminate()
        run.communicate(timeout=SECONDS)


class Page:
    def __init__(self, browser, port, proxy, downloads, program=None):
        self.browser, self.port, self.proxy, self.downloads, self.program = browser, port, proxy, downloads, program
        self.made = 0
        self.copies = []

    # ---- the service, without the page

    def ask(self, method, path, fields=None):
        """A reply of the service to a direct request: its status and its JSON."""
        connection = http.client.HTTPConnection("127.0.0.1", self.port, timeout=60)
        connection.request(method, path, json.dumps(fields) if fields is not None else None)
        reply = connection.getresponse()
        return reply.status, json.loads(reply.read())

    def summary(self, tenant):
        return self.ask("GET", f"/t/{tenant}")[1]

    # ---- the page

    def open(self, address="", port=None):
        self.browser.open(f"http://127.0.0.1:{port or self.port}/page/{address}")

    def fresh(self, port=None, tenant=None):
        """The page as one sees it who never was there, and a name for a new tenant."""
        self.open(port=port)
        self.browser.one("h1")
        self.browser.run("localStorage.clear()")
        self.open(port=port)
        self.browser.driver.refresh()
        self.made += 1
        self.browser.one("#name")
        tenant = tenant or f"plan-{self.made}"
        self.browser.fill("#name", tenant)
        self.browser.run("window.clicks = 0")
        return tenant

    def imported(self, text, name="map.txt", port=None, tenant=None):
        """A new tenant with this map, by dropping it on the first page."""
        tenant = self.fresh(port, tenant)
        self.browser.drop(text, name)
        self.browser.one("#tree [data-bucket]")
        return tenant

    def drop(self, text, name, words):
        """Drops a file on an open tenant, and waits until the page says these words."""
        self.browser.drop(text, name)
        self.browser.until(lambda: words in self.browser.text("#said"), f"the page doesn't say {words!r}")

    def pool(self, name="photos", **fields):
        """A pool by the form, with what it isn't given left as it is."""
        self.browser.tab("Pools")
        self.browser.fill("#pool-name", name)
        for field, value in fields.items():
            self.browser.fill(f"#{field}", str(value))
        self.browser.click("form button.main")
        self.browser.until(lambda: f"The pool {name} is made" in self.browser.text("#said"), "the pool isn't made")

    def planned(self, size=2, groups=16, port=None):
        """The tenant of docs/PLANNING.md: the map of three hosts, and its pool."""
        tenant = self.imported(example("three_hosts.txt"), "three_hosts.txt", port)
        self.pool(size=size, pg_num=groups)
        self.browser.run("window.clicks = 0")
        return tenant

    def clicks(self):
        return self.browser.run("return window.clicks")

    def settled(self):
        """Waits until nothing of the view is asked for any more."""
        self.browser.until(
            lambda: not self.browser.run("return document.querySelectorAll('[aria-busy]').length"), "the view waits"
        )

    def by(self, level, table="places"):
        """Shows a table of places by a level."""
        self.browser.one(f"#{table} tbody tr")
        self.browser.click(f"#{table}-level option[value='{level}']")

    def kept(self, number):
        """Makes the map that was tried a version."""
        self.browser.click("#keep")
        self.browser.until(
            lambda: self.browser.all("#to option") and self.browser.one("#to").get_property("value") == str(number),
            f"no version {number}",
        )

    def figures(self, which="answer"):
        """The large numbers, by their keys."""
        script = (
            "return [...document.querySelectorAll(`#${arguments[0]} [data-figure]`)].map((it) => [it.dataset.figure,"
            " it.querySelector('dd').textContent])"
        )
        return dict(self.browser.run(script, which))

    def drained(self, *names, way="drain"):
        """Ticks racks, hosts or devices, and waits for the answer."""
        self.browser.tab("Drain")
        self.browser.click(f"#way option[value='{way}']")
        for name in names:
            self.browser.fill("#drain-search", name)
            self.browser.until(
                lambda: [it.click() for it in self.browser.all(".picker > li > label") if name in it.text.split()],
                f"no {name}",
            )
        self.browser.click("#drain")
        self.browser.one("#answer")
        self.browser.has(DRAINED)

    def rows(self, selector):
        """The rows of tables: of each its device and the texts of its cells."""
        script = (
            "return [...document.querySelectorAll(arguments[0])].map((row) => [row.dataset.device ?? row.dataset.group"
            " ?? row.dataset.place, [...row.children].map((it) => it.textContent.trim())])"
        )
        return {int(it) if it.isdigit() else it: cells for it, cells in self.browser.run(script, selector)}

    def bars(self, selector, kind):
        """Of each row's device, the place and the width of a mark, in hundredths of the bar."""
        script = """return [...document.querySelectorAll(arguments[0])].map((row) => {
            const it = row.querySelector(arguments[1]);
            const at = it && (it.getAttribute("x1") ?? it.getAttribute("x"));
            return [row.dataset.device, at, it && it.getAttribute("width")];
        })"""
        number = lambda it: None if it is None else float(it.rstrip("%"))
        return {
            int(device): (number(at), number(width)) for device, at, width in self.browser.run(script, selector, kind)
        }

    def saved(self, selector):
        """The file that a button saves."""
        for it in self.downloads.iterdir():
            it.unlink()
        self.browser.click(selector)
        end = time.monotonic() + SECONDS
        while time.monotonic() < end:
            files = list(self.downloads.iterdir())
            # an empty file has the name while what is in it comes under another
            if len(files) == 1 and files[0].suffix in (".csv", ".json", ".txt") and files[0].stat().st_size:
                return files[0].read_text()
            time.sleep(0.05)
        raise OSError("no file is saved")

    def faults(self):
        """What no case may have: an error in the console, or a request to another host."""
        loaded = self.browser.loaded()
        self.copies = sorted({it.split("/t/")[1].split("/")[0] for it in loaded if ".copy-" in it})
        others = [
            it
            for it in loaded
            if not it.startswith(
                (f"http://127.0.0.1:{self.port}/", f"http://127.0.0.1:{self.proxy.server_port}/", "blob:", "data:")
            )
        ]
        errors = self.browser.errors()
        return f"it asks for {others[:3]}" if others else f"the console says {errors[:2]}" if errors else None


def unlike(found, wanted, what=""):
    """Why what is found isn't what is wanted, or None; of dicts only what differs is shown."""
    if isinstance(found, dict) and isinstance(wanted, dict):
        keys = [it for it in {**found, **wanted} if it not in found or it not in wanted or found[it] != wanted[it]]
        found, wanted = ({it: of[it] for it in keys if it in of} for of in (found, wanted))
    return None if found == wanted else f"{what} {str(found)[:300]}, not {str(wanted)[:300]}".strip()


def first(*whys):
    return next((it for it in whys if it), None)
