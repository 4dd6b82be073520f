"""Types commands into a cluster, as the program 'ceph' takes them."""
import base64
import errno
import json
import pathlib
import subprocess

HERE = pathlib.Path(__file__).resolve().parent


class Typist:
    """A client of a cluster that takes words. A `with` ends it."""

    def __init__(self, cluster):
        self.client = subprocess.Popen(
            ["/usr/bin/python3", str(HERE / "words_client.py"), str(cluster.conf)],
            stdin=subprocess.PIPE,
            stdout=subprocess.PIPE,
            text=True,
        )

    def __enter__(self):
        return self

    def __exit__(self, *_):
        self.end()

    def type(self, words, given=b""):
        """Returns what is answered to the words behind 'ceph': status, said and out."""
        self.client.stdin.write(json.dumps([words, base64.b64encode(given).decode()]) + "\n")
        self.client.stdin.flush()
        line = self.client.stdout.readline()
        if not line:
            raise SystemExit(f"the client ended at {words}")
        return json.loads(line)

    def end(self):
        self.client.stdin.close()
        self.client.wait()


def code_of(said):
    """Returns the name of the error of an answer, or nothing."""
    return errno.errorcode[-said["status"]] if said["status"] < 0 else ""
