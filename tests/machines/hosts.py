"""Hosts as network namespaces of this machine, joined by a bridge in one more: each with an address
and a loopback of its own, and files in common."""
import math
import os
import pathlib
import subprocess

# how many processes share a processor: where that is more than one, all takes longer by it
SLOW = max(1, math.ceil(os.getloadavg()[0] / os.cpu_count()))
SECONDS = 60 * SLOW
OFF, ON = ("nomaster",), ("master", "bridge")  # of a host on the bridge


def run(*words):
    """Runs a program to its end. OSError says why it failed."""
    ran = subprocess.run(
        [str(it) for it in words],
        stdin=subprocess.DEVNULL,
        stdout=subprocess.PIPE,
        stderr=subprocess.STDOUT,
        timeout=SECONDS,
    )
    if ran.returncode:
        raise OSError(f"{words}: status {ran.returncode}: {ran.stdout.decode(errors='replace')[-500:]}")
    return ran.stdout.decode()


class Hosts:
    """Hosts of these names. A `with` ends their processes and removes them."""

    def __init__(self, *names):
        self.names, self.processes, self.made = names, [], []
        self.first = f"crushcalc-{os.getpid()}-"  # of the names of namespaces
        self.addresses = {it: f"10.77.0.{place}" for place, it in enumerate(names, 11)}

    def __enter__(self):
        try:
            self.make("net")
            self.at("net", "ip", "link", "add", "name", "bridge", "type", "bridge", "mcast_snooping", "0")
            self.at("net", "ip", "link", "set", "dev", "bridge", "up")
            for it in self.names:
                self.make(it)
                space = self.first + it
                run(
                    *("ip", "link", "add", "name", it, "netns", self.first + "net", "type", "veth"),
                    *("peer", "name", "eth", "netns", space),
                )
                self.at("net", "ip", "link", "set", "dev", it, "master", "bridge", "up")
                self.at(it, "ip", "address", "add", f"{self.addresses[it]}/24", "dev", "eth")
                self.at(it, "ip", "link", "set", "dev", "eth", "up")
        except BaseException:
            self.__exit__()
            raise
        return self

    def __exit__(self, *_):
        for it in reversed(self.processes):
            end(it)
        for it in reversed(self.made):
            subprocess.run(["ip", "netns", "delete", it], stderr=subprocess.DEVNULL)

    def make(self, name):
        run("ip", "netns", "add", self.first + name)
        self.made.append(self.first + name)
        self.at(name, "ip", "link", "set", "dev", "lo", "up")

    def inside(self, name):
        """The words before a command that make it run on a host."""
        return ["nsenter", f"--net=/run/netns/{self.first}{name}"]

    def at(self, name, *words):
        return run(*self.inside(name), *words)

    def spawn(self, name, *words, **how):
        """Starts a process on a host. It ends with this one, however that ends."""
        started = subprocess.Popen(
            [*self.inside(name), "setpriv", "--pdeathsig", "KILL", *map(str, words)],
            **{"stdin": subprocess.DEVNULL, **how},
        )
        self.processes.append(started)
        return started

    def link(self, name, state):
        """Cuts a host off the others, which it doesn't see on its interface, or joins it again."""
        self.at("net", "ip", "link", "set", "dev", name, *state)


def end(process, seconds=10):
    """Ends a process, and waits for it."""
    if process.poll() is None:
        process.terminate()
        try:
            process.wait(seconds)
        except subprocess.TimeoutExpired:
            process.kill()
            process.wait(seconds)
    for it in (process.stdin, process.stdout, process.stderr):
        if it:
            it.close()


def is_root():
    return os.geteuid() == 0 and pathlib.Path("/run").is_dir()
