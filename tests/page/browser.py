"""A real browser before the page: Debian's chromium by its driver. What it loads, the errors of its
console and its long tasks are recorded."""
import contextlib
import json
import os

from selenium import webdriver
from selenium.webdriver.chrome.options import Options
from selenium.webdriver.chrome.service import Service
from selenium.webdriver.common.by import By
from selenium.webdriver.support.ui import WebDriverWait

# a machine that does much else may need longer, and fewer looks
SECONDS, POLL = int(os.environ.get("PAGE_SECONDS", 60)), float(os.environ.get("PAGE_POLL", 0.05))
# records tasks of 50 ms and more, and presses of a pointer, from the page's first line on; and the
# times of the test's own scripts
RECORDER = """
window.longTasks = [];
window.ownScripts = [];
new PerformanceObserver((list) => {
    for (const it of list.getEntries()) window.longTasks.push([it.startTime, it.duration]);
}).observe({ type: "longtask", buffered: true });
window.clicks = 0;
document.addEventListener("pointerdown", (event) => { if (event.isTrusted) window.clicks += 1; }, true);
"""
DROP = """
const [files] = arguments, carried = new DataTransfer();
for (const [text, name] of files) carried.items.add(new File([text], name));
for (const kind of ["dragover", "drop"]) {
    const event = new DragEvent(kind, { dataTransfer: carried, bubbles: true, cancelable: true });
    document.querySelector("main").dispatchEvent(event);
}
"""


class Browser:
    """A browser with a new profile, and ways to use the page as people do."""

    def __init__(self, driver):
        self.driver = driver

    def open(self, address):
        self.driver.get(address)

    def all(self, selector):
        return self.driver.find_elements(By.CSS_SELECTOR, selector)

    def one(self, selector, seconds=SECONDS):
        """The element, once it is there and shown."""
        return self.until(
            lambda: next((it for it in self.all(selector) if it.is_displayed()), None), f"no {selector}", seconds
        )

    def until(self, holds, why, seconds=SECONDS):
        # an element may be replaced while it is looked at
        return WebDriverWait(self.driver, seconds, POLL, ignored_exceptions=(Exception,)).until(lambda _: holds(), why)

    def text(self, selector):
        return self.one(selector).text

    def click(self, selector):
        self.until(lambda: self.press(self.one(selector)), f"{selector} can't be clicked")

    def press(self, it):
        """Clicks on an element in the middle of the window, where nothing lies over it."""
        self.run("arguments[0].scrollIntoView({ block: 'center' })", it)
        it.click()
        return True

    def named(self, kind, words):
        """The element of this kind whose text has the words."""
        return self.until(
            lambda: next((it for it in self.all(kind) if words in it.text and it.is_displayed()), None),
            f"no {kind} with {words!r}",
        )

    def fill(self, selector, words):
        it = self.one(selector)
        it.clear()
        it.send_keys(words)

    def drop(self, text, name, *more):
        """Drops a file, or several: pairs of a text and a name."""
        self.one("h1")
        self.run(DROP, [(text, name), *more])

    def tab(self, name):
        self.named("nav a", name).click()
        self.until(lambda: self.text("h1") == name, f"no view {name}")

    def run(self, script, *words):
        """What a script returns; the page's tasks are told from it by the time that it took."""
        own = (
            "const began = performance.now(); try { return (function () { %s }).apply(null, arguments); } finally {"
            " window.ownScripts?.push([began, performance.now()]); }"
        )
        return self.driver.execute_script(own % script, *words)

    def processor_ms(self):
        """The processor time of the page's main thread so far, in milliseconds."""
        found = self.driver.execute_cdp_cmd("Performance.getMetrics", {})["metrics"]
        return 1000 * next(it["value"] for it in found if it["name"] == "TaskDuration")

    def has(self, selector, count=1, seconds=SECONDS):
        """Waits for so many elements, with little work for the page."""
        self.until(
            lambda: self.run("return document.querySelectorAll(arguments[0]).length", selector) >= count,
            f"no {selector}",
            seconds,
        )

    def size(self, width, height=900):
        self.driver.execute_cdp_cmd(
            "Emulation.setDeviceMetricsOverride",
            {"width": width, "height": height, "deviceScaleFactor": 1, "mobile": width < 600},
        )

    def colours(self, scheme):
        self.driver.execute_cdp_cmd(
            "Emulation.setEmulatedMedia", {"features": [{"name": "prefers-color-scheme", "value": scheme}]}
        )

    def picture(self, path):
        path.parent.mkdir(parents=True, exist_ok=True)
        self.driver.save_screenshot(str(path))

    def loaded(self):
        """The addresses of all that was asked for since the last look."""
        messages = (json.loads(it["message"])["message"] for it in self.driver.get_log("performance"))
        return [it["params"]["request"]["url"] for it in messages if it["method"] == "Network.requestWillBeSent"]

    def errors(self):
        """What the console says since the last look, but for replies that aren't 2xx."""
        return [
            it["message"] for it in self.driver.get_log("browser") if "Failed to load resource" not in it["message"]
        ]


@contextlib.contextmanager
def browser(downloads, *more):
    options = Options()
    options.binary_location = "/usr/bin/chromium"
    for it in (
        "--headless=new",
        "--no-sandbox",
        "--disable-gpu",
        "--disable-dev-shm-usage",
        "--renderer-process-limit=1",
        "--no-first-run",
        "--disable-background-networking",
        "--lang=en",
        *more,
    ):
        options.add_argument(it)
    options.add_experimental_option("prefs", {"download.default_directory": str(downloads)})
    options.set_capability("goog:loggingPrefs", {"performance": "ALL", "browser": "ALL"})
    before = os.getpriority(os.PRIO_PROCESS, 0)
    with contextlib.suppress(PermissionError):
        # so that the page's own tasks are measured, and not what else the machine does
        os.setpriority(os.PRIO_PROCESS, 0, -10)
    driver = webdriver.Chrome(service=Service("/usr/bin/chromedriver"), options=options)
    with contextlib.suppress(PermissionError):
        os.setpriority(os.PRIO_PROCESS, 0, before)
    try:
        driver.execute_cdp_cmd("Page.addScriptToEvaluateOnNewDocument", {"source": RECORDER})
        driver.execute_cdp_cmd("Performance.enable", {"timeDomain": "threadTicks"})
        yield Browser(driver)
    finally:
        driver.quit()
