"""What is tried of the module crushplan beside another module of the manager, and where the manager
ends, step by step."""
import os
import time
import urllib.request

from managed import INTERVAL, equals, real
from module_steps import scripted
from program_steps import HANGS, LIMITS, SHORT


def prometheus(it):
    """The manager's own module prometheus shows the checks."""
    port = real.free_ports(1)[0]
    for name, value in (("server_addr", "127.0.0.1"), ("server_port", port), ("scrape_interval", "5")):
        it.cluster.told("config set", who="mgr", name=f"mgr/prometheus/{name}", value=str(value), force=True)
    it.enable("prometheus")
    it.make_pool("wide", 16, 5)

    def shown():
        try:
            with urllib.request.urlopen(f"http://127.0.0.1:{port}/metrics", timeout=60) as reply:
                lines = reply.read().decode().splitlines()
        except OSError:
            return None
        return [of for of in lines if of.startswith("ceph_health_detail{") and "CRUSHPLAN_CANT_FAIL" in of]

    found = real.awaited(shown, "the check in the manager's metrics")
    equals("its value", [float(of.rsplit(" ", 1)[1]) for of in found], [1.0])
    it.remove_pool("wide")
    it.await_foretold(False)
    it.cluster.told("mgr module disable", module="prometheus")
    it.await_active()


def disabled(it):
    """Disabled it has neither commands nor checks, and enabled again both."""
    it.make_pool("wide", 16, 5)
    it.await_foretold(True)
    it.cluster.told("mgr module disable", module="crushplan")
    it.await_check("CANT_FAIL", lambda of: of is None)
    equals("a command", it.ask("check")[0] < 0, True)
    it.enable("crushplan")
    it.await_foretold(True)
    it.remove_pool("wide")
    it.await_foretold(False)


def killed(it):
    """The manager is killed while a program hangs: that ends by itself, and the manager that is
    started again has its checks."""
    it.set("watch_seconds", SHORT)
    it.set("program", scripted(it, "hangs", HANGS))
    real.awaited(lambda: it.processes_of("hangs"), "a look")
    process = it.cluster.processes.pop("mgr.x")
    os.kill(process.pid, 9)
    process.wait()
    real.awaited(lambda: not it.processes_of("hangs"), "the end of what it began")
    it.set("program", it.program)
    it.set("watch_seconds", LIMITS["watch_seconds"])
    it.cluster.spawn("mgr.x", "ceph-mgr", "-i", "x")
    it.await_active()
    it.await_foretold(False)
    it.await_check("PROGRAM", lambda of: of is None or of[0] == 1)
    # while a look runs its folder is there
    real.awaited(lambda: not any((it.cluster.folder / "mgr" / "crushplan").iterdir()), "the end of each folder")


def without_monitor(it):
    """The manager loses its monitor for some looks: it stays, and has its checks once that is
    back."""
    process = it.cluster.processes["mgr.x"]
    it.cluster.end(["mon.a"])
    time.sleep(5 * INTERVAL)
    it.cluster.spawn("mon.a", "ceph-mon", "-i", "a")
    it.await_active()
    it.make_pool("wide", 16, 5)
    it.await_foretold(True)
    it.remove_pool("wide")
    it.await_foretold(False)
    equals("the manager's end", process.poll(), None)


STEPS = {
    "prometheus": prometheus, "disabled and enabled": disabled, "without its monitor": without_monitor,
    "killed": killed,
}  # fmt: skip
