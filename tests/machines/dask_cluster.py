"""Dask's scheduler with workers on 127.0.0.1, and certificates for them."""
import contextlib
import os
import pathlib
import signal
import socket
import subprocess
import time

PYTHON = "/usr/bin/python3"  # the one that Debian's python3-distributed is for
TOOLS = pathlib.Path(__file__).resolve().parent.parent.parent / "tools"
SECONDS = 120


def certificate(folder, name):
    """Returns the files of a certificate that is its own authority, and of its key."""
    made, key = folder / f"{name}.pem", folder / f"{name}.key"
    words = ["openssl", "req", "-x509", "-newkey", "ec", "-pkeyopt", "ec_paramgen_curve:prime256v1", "-nodes", "-days"]
    words += ["1", "-subj", f"/CN={name}", "-keyout", key, "-out", made]
    subprocess.run(list(map(str, words)), stdout=subprocess.DEVNULL, stderr=subprocess.DEVNULL, check=True)
    return str(made), str(key)


def configured(certificate_, role="CLIENT"):
    """Returns the environment by which Dask takes a certificate."""
    tls = "DASK_DISTRIBUTED__COMM__TLS__"
    return {
        f"{tls}CA_FILE": certificate_[0],
        f"{tls}{role}__CERT": certificate_[0],
        f"{tls}{role}__KEY": certificate_[1],
    }


def free_port():
    with socket.socket() as it:
        it.bind(("127.0.0.1", 0))
        return it.getsockname()[1]


class Dask:
    """A scheduler, which ends with the workers that it has by then."""

    def __init__(self, folder, certificate_=None):
        self.folder, self.certificate, self.running = pathlib.Path(folder), certificate_, []
        self.scheme = "tls" if certificate_ else "tcp"
        self.url = f"{self.scheme}://127.0.0.1:{free_port()}"

    def __enter__(self):
        words = ["--host", f"{self.scheme}://127.0.0.1", "--port", self.url.rpartition(":")[2], "--no-dashboard"]
        self.start("scheduler", [*words, *self.files()], {})
        self.await_words("scheduler", "Scheduler at:")
        return self

    def __exit__(self, *_):
        for it in self.running:
            it.send_signal(signal.SIGKILL)
        for it in self.running:
            it.wait(SECONDS)

    def files(self):
        if not self.certificate:
            return []
        made, key = self.certificate
        return ["--tls-ca-file", made, "--tls-cert", made, "--tls-key", key]

    def start(self, what, words, environment):
        kind = "scheduler" if what == "scheduler" else "worker"
        command = [PYTHON, "-m", f"distributed.cli.dask_{kind}", *words]
        with (self.folder / f"{what}.log").open("wb") as log:
            how = {"stdin": subprocess.DEVNULL, "stdout": log, "stderr": log, "cwd": self.folder}
            self.running.append(subprocess.Popen(command, env={**os.environ, **environment}, **how))
        return self.running[-1]

    def await_words(self, what, words):
        end = time.monotonic() + SECONDS
        while words not in (self.folder / f"{what}.log").read_text():
            if time.monotonic() > end:
                raise OSError(f"{what} doesn't say {words!r}: {(self.folder / f'{what}.log').read_text()[-400:]}")
            time.sleep(0.1)

    def worker(self, name, program, **changed):
        """Starts a worker that finds crushplan and a crushcalc, and returns its process."""
        environment = {"CRUSHPLAN": str(TOOLS / "crushplan"), "CRUSHCALC": str(program), **changed}
        words = [self.url, "--host", f"{self.scheme}://127.0.0.1", "--nthreads", "1", "--no-nanny", "--no-dashboard"]
        words += ["--name", name, "--local-directory", str(self.folder / name), *self.files()]
        started = self.start(name, words, environment)
        self.await_words(name, "Registered to:")
        return started

    @contextlib.contextmanager
    def workers(self, count, program, **changed):
        yield [self.worker(f"worker{it}", program, **changed) for it in range(count)]
