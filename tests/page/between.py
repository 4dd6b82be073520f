"""A proxy between the browser and the page's server, which loses replies or answers in the
service's place, and notes every changing request."""
import contextlib
import http.client
import http.server
import sys
import threading
import time


class Between(http.server.ThreadingHTTPServer):
    """loses: how many replies to come are lost, after their requests are done. refuses: how many
    requests to come are answered 503 and not passed on. Both look at changing requests alone.
    keeps: how many DELETE to come are answered 503. holds: the seconds that a GET is held up whose
    path ends with `held`. drops: how many GET of usage to come get no reply. busy: how many
    requests to come are answered as nginx does where too many are under way. most: how many were
    under way at a time at most."""

    daemon_threads = True

    def __init__(self, port):
        super().__init__(("127.0.0.1", 0), Handler)
        self.behind, self.loses, self.refuses, self.keeps, self.posts = port, 0, 0, 0, []
        self.holds, self.held, self.drops = 0, "", 0
        self.busy, self.most, self.under_way, self.counting = 0, 0, 0, threading.Lock()

    def count(self, more):
        with self.counting:
            self.under_way += more
            self.most = max(self.most, self.under_way)

    def handle_error(self, request, client_address):
        # a browser that was stopped doesn't take its reply
        if not isinstance(sys.exc_info()[1], ConnectionError):
            super().handle_error(request, client_address)


class Handler(http.server.BaseHTTPRequestHandler):
    def counted(self):
        """Answers a request, which is under way until its reply is sent."""
        self.is_counted = self.path.startswith("/t/")
        self.server.count(self.is_counted)
        try:
            return self.pass_on()
        finally:
            self.ended()

    def ended(self):
        self.server.count(-self.is_counted)
        self.is_counted = False

    def pass_on(self):
        body = self.rfile.read(int(self.headers.get("Content-Length", 0)))
        changes = self.command == "POST" and not self.path.endswith(("/locate", "/test", "/pick"))
        if changes:
            self.server.posts.append((self.path, body))
        if self.is_counted and self.server.busy:
            self.server.busy -= 1
            return self.answer(503, b"<html><body>503 Service Temporarily Unavailable</body></html>", "text/html")
        if changes and self.server.refuses:
            self.server.refuses -= 1
            return self.answer(503, b'{"error":"no_memory"}', "application/json")
        if self.command == "DELETE" and self.server.keeps:
            self.server.keeps -= 1
            return self.answer(503, b'{"error":"store_failed"}', "application/json")
        if self.command == "GET" and self.path.endswith("/usage") and self.server.drops:
            self.server.drops -= 1
            self.close_connection = True
            return None
        if self.command == "GET" and self.server.holds and self.path.endswith(self.server.held):
            time.sleep(self.server.holds)
        asked = http.client.HTTPConnection("127.0.0.1", self.server.behind, timeout=60)
        asked.request(self.command, self.path, body or None)
        reply = asked.getresponse()
        said = reply.read()
        if changes and self.server.loses:
            self.server.loses -= 1
            self.close_connection = True
            return None
        return self.answer(reply.status, said, reply.headers["Content-Type"])

    def answer(self, status, said, kind):
        self.ended()
        self.send_response(status)
        self.send_header("Content-Type", kind)
        self.send_header("Content-Length", str(len(said)))
        self.end_headers()
        self.wfile.write(said)

    do_GET = do_POST = do_PUT = do_DELETE = counted

    def log_message(self, *_):
        pass


@contextlib.contextmanager
def between(port):
    with Between(port) as it:
        threading.Thread(target=it.serve_forever, daemon=True).start()
        yield it
        it.shutdown()
