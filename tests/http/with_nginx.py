"""nginx as a proxy: each reply through it is that of the script, users reach their tenants alone,
and a tenant has one process."""
import concurrent.futures
import pathlib
import re
import shutil

from model import maps, messages
from expected import expected, unlike
from program.hostile_cases import BODY_LIMIT
from proxy import TENANTS, TOP, Client, nginx, processes, run
from model.messages import BAD, NO_TENANT, made
from server.served import Server, asked

# what measures the load: so many users, each with two connections
USERS, CONNECTIONS, SECONDS = 32, 2, 5
# a user, a password where it isn't the user's, a path, and the status of the reply
ASKED = (
    (None, None, "/t/shop", 401),
    ("anna", "wrong", "/t/shop", 401),
    ("ben", "anna", "/t/shop", 401),
    ("ben", None, "/t/shop", 401),
    ("ben", None, "/t/lab", 404),
    ("anna", None, "/t/shop", 404),
    ("ben", None, "/t/nobody", 403),
    ("ben", None, "/", 403),
    ("ben", None, "/t/", 403),
    ("ben", None, "/t/lab/../shop", 404),
    ("ben", None, "/t/lab/%2e%2e/shop", 404),
    ("ben", None, "/t/lab%2f..%2fshop", 403),
    ("ben", None, "/t/lab?/../shop", 403),
    (None, None, "/page/", 200),
    (None, None, "/page/page.js", 200),
    (None, None, "/page/../t/shop", 401),
    ("anna", None, "/t/shop.copy-0123456789ab", 404),
    ("ben", None, "/t/shop.copy-0123456789ab", 401),
    ("anna", None, "/t/shop.copy-0123456789abc", 403),
    ("anna", None, "/t/lab.copy-0123456789ab", 401),
    ("ben", None, "/t/../t/shop", 403),
    ("ben", None, "/t/../shop", 403),
    ("ben", None, "/t/../shop.users", 403),
    ("ben", None, "//t/shop", 403),
    ("ben", None, "/t/%73hop", 403),
)


def whole_session(port, folder, program):
    """Each line of the session whose path names a tenant; a path that names none nginx refuses."""
    pairs = [it for it in expected(program, "shop") if it[0].split()[1].startswith(b"/t/shop") and b"?" not in it[0]]
    client = Client(port, folder, "anna")
    return unlike(pairs, [client.ask(line) for line, _ in pairs])


def users(port, folder):
    """No user, a wrong password, another's tenant, and other forms of its path."""
    for user, password, path, status in ASKED:
        found = Client(port, folder, user, password).ask(b"GET " + path.encode())
        if not found.startswith(b"%d " % status):
            return f"{user} asks for {path}: {found[:100]!r}, not {status}"
    return None


def other_sites(port, folder):
    """What another site makes a browser send is refused, with the right password too."""
    for site, status in (("cross-site", 403), ("same-site", 403), ("same-origin", 404), ("none", 404)):
        client = Client(port, folder, "anna")
        client.headers["Sec-Fetch-Site"] = site
        found = client.ask(b'POST /t/shop/pools/remove {"id":1,"request":"r"}')
        if not found.startswith(b"%d " % status):
            return f"{site}: {found[:100]!r}, not {status}"
    return None


def clients_at_once(port, folder):
    """Each of 64 clients makes a tenant and imports a map into it; then each asks for another's."""

    def own(place):
        client = Client(port, folder, f"u{place}")
        return [
            client.ask(it.replace(b"/t/a", b"/t/t%d" % place))
            for it in (b"PUT /t/a", messages.import_of(maps.tiny(place)), b"GET /t/a", messages.test_of(x=place))
        ]

    with concurrent.futures.ThreadPoolExecutor(TENANTS) as pool:
        found = list(pool.map(own, range(TENANTS)))
    for place, it in enumerate(found):
        want = [
            made(b"t%d" % place),
            messages.imported(1, 1),
            messages.summary(1, 1, tenant="t%d" % place),
            messages.tested([place], [place]),
        ]
        if it != want:
            return f"client {place + 1}: {it}"
    return None


def one_process_each(servers, folder):
    """Each tenant is in the file of one process, and each process has some."""
    held = [{it for it in range(TENANTS) if asked(server, [b"GET /t/t%d" % it]) != [NO_TENANT]} for server in servers]
    whole = sorted(it for tenants in held for it in tenants)
    return None if whole == list(range(TENANTS)) and all(held) else f"the tenants are {held}"


def load(port, folder):
    """ab for some seconds, for each of 32 users with two connections that are kept open; it looks
    at the length and status of each reply."""

    def own(place):
        words = (
            "-q",
            "-k",
            "-c",
            str(CONNECTIONS),
            "-t",
            str(SECONDS),
            "-A",
            f"u{place}:u{place}",
            f"https://localhost:{port}/t/t{place}",
        )
        ran = run("ab", *words).decode()
        said = dict(re.findall(r"^([\w -]+): +(\S+)", ran, re.M))
        sound = said["Failed requests"] == "0" and "Non-2xx responses" not in said
        return None if sound else ran, int(said["Complete requests"]), float(said["Requests per second"])

    with concurrent.futures.ThreadPoolExecutor(USERS) as pool:
        found = list(pool.map(own, range(USERS)))
    print(
        f"nginx with TLS, passwords, and {USERS * CONNECTIONS} connections of {USERS} users:"
        f" {sum(rate for _, _, rate in found):,.0f} requests a second"
    )
    done = sum(count for _, count, _ in found)
    return next((why for why, _, _ in found if why), None if done >= USERS else f"only {done} requests were answered")


def limit(port, folder):
    """A body of the limit comes to the program, and nginx refuses a longer one."""
    client = Client(port, folder, "anna")
    for size, wanted in ((BODY_LIMIT, BAD), (BODY_LIMIT + 1, b"413 ")):
        found = client.ask(b"POST /t/shop/maps " + b"x" * size)
        if not found.startswith(wanted):
            return f"{size} bytes: it is {found[:100]!r}"
    return None


def a_process_is_down(port, folder, servers, program):
    """The tenants of a process that is down are answered 502 and by no other process; when it is
    back it has them."""
    held = [it for it in range(TENANTS) if asked(servers[0], [b"GET /t/t%d" % it]) != [NO_TENANT]]
    servers[0].stop()
    client, other = Client(port, folder, f"u{held[0]}"), next(it for it in range(TENANTS) if it not in held)
    found = [client.ask(b"PUT /t/t%d" % held[0]), Client(port, folder, f"u{other}").ask(b"GET /t/t%d" % other)]
    if not found[0].startswith(b"502 ") or found[1] != messages.summary(1, 1, tenant="t%d" % other):
        return f"while it is down: {found}"
    with Server(program, pathlib.Path(folder, "0.db"), port=servers[0].port):
        found = client.ask(b"GET /t/t%d" % held[0])
    return None if found == messages.summary(1, 1, tenant="t%d" % held[0]) else f"when it is back: {found!r}"


def twice_as_many(program, folder):
    """From two processes to four: each file is copied to the process that comes two lines later,
    and each tenant is there."""
    for it in (0, 1):
        for end in ("", "-wal"):
            if pathlib.Path(folder, f"{it}.db{end}").exists():
                shutil.copyfile(f"{folder}/{it}.db{end}", f"{folder}/{it + 2}.db{end}")
    with processes(program, folder, 4) as servers, nginx(folder, [it.port for it in servers]) as port:
        found = [Client(port, folder, f"u{it}").ask(b"GET /t/t%d" % it) for it in range(TENANTS)]
        return (
            None
            if found == [messages.summary(1, 1, tenant="t%d" % it) for it in range(TENANTS)]
            else f"the replies are {found[:4]} .."
        )


def importers(program, folder):
    """With the example's lines for importers: who isn't one reaches the tenant, and imports no
    map."""
    block = re.search(r"^    #location .*?^    #}\n", (TOP / "examples" / "nginx.conf").read_text(), re.M | re.S)[0]
    used = re.sub(r"^    #", "    ", block, flags=re.M).replace("/etc/nginx/crushcalc", str(folder))
    with processes(program, folder, 1) as servers, nginx(folder, [it.port for it in servers], (block, used)) as port:
        for user, tenant in (("ben", "shop"), ("anna", "depot")):
            (folder / f"{tenant}.importers").write_bytes(
                b"%s:%s" % (user.encode(), run("openssl", "passwd", "-apr1", user))
            )
        client = Client(port, folder, "anna")
        found = [
            client.ask(it.replace(b"/t/a", b"/t/" + tenant))
            for tenant in (b"shop", b"depot")
            for it in (b"PUT /t/a", messages.import_of(maps.tiny(0)), b"GET /t/a")
        ]
    for place, status in enumerate((201, 401, 200, 201, 201, 200)):
        if not found[place].startswith(b"%d " % status):
            return f"request {place + 1}: {found[place][:100]!r}, not {status}"
    return None if found[4] == messages.imported(1, 1) else f"the import says {found[4]!r}"


def checks(program, top):
    folder = pathlib.Path(top, "nginx")
    folder.mkdir(mode=0o755)
    with processes(program, folder, 2) as servers, nginx(folder, [it.port for it in servers]) as port:
        yield "users and paths", users(port, folder)
        yield "other sites", other_sites(port, folder)
        yield "each route", whole_session(port, folder, program)
        yield "64 clients at once", clients_at_once(port, folder)
        yield "a tenant has one process", one_process_each(servers, folder)
        yield "64 connections, again and again", load(port, folder)
        yield "bodies of the limit and over it", limit(port, folder)
        yield "a process that is down", a_process_is_down(port, folder, servers, program)
        for it in servers[1:]:
            it.stop()
    yield "two processes become four", twice_as_many(program, folder)
    folder = pathlib.Path(top, "importers")
    folder.mkdir(mode=0o755)
    yield "importers", importers(program, folder)
