"""nginx that knows users by certificates, as docs/SERVING.md says: who reaches a tenant, and what a
request takes beside one with a password."""
import pathlib
import re
import subprocess

from expected import TOP
from proxy import KEY, Client, nginx, run
from model.messages import NO_TENANT, there
from server.served import Server, Unserved

REQUESTS = 500
BLOCK = re.compile(r"^```text\n(map \"\$ssl_client_verify.*?)^```$", re.M | re.S)


def shown():
    """The lines for certificates that the page shows."""
    found = BLOCK.search((TOP / "docs" / "SERVING.md").read_text())
    if found is None:
        raise Unserved("docs/SERVING.md shows no lines for certificates")
    return found[1]


def by_certificates(folder):
    """What is replaced in the example."""
    asked = f"ssl_client_certificate {folder}/users.pem;\n    ssl_verify_client optional;"
    return (
        ("server {\n    listen", shown() + "server {\n    listen"),
        ("    auth_basic crushcalc;\n", ""),
        (f"auth_basic_user_file {folder}/$owner.users;", asked),
        ("        if ($foreign) {", "        if ($stranger) { return 403; }\n        if ($foreign) {"),
        ("limit_conn_zone $remote_user", "limit_conn_zone $ssl_client_s_dn"),
    )


def signed(folder, authority, user):
    """The file of a user's certificate and key, signed by an authority, which is made at first."""
    at = f"{folder}/{authority}"
    if not pathlib.Path(f"{at}.pem").exists():
        run(
            "openssl",
            "req",
            "-x509",
            *KEY,
            "-days",
            "1",
            "-subj",
            f"/CN={authority}",
            "-keyout",
            f"{at}.key",
            "-out",
            f"{at}.pem",
        )
    file = f"{folder}/{authority}-{user}"
    run("openssl", "req", *KEY, "-subj", f"/CN={user}", "-keyout", f"{file}.key", "-out", f"{file}.csr")
    run(
        "openssl",
        "x509",
        "-req",
        "-in",
        f"{file}.csr",
        "-CA",
        f"{at}.pem",
        "-CAkey",
        f"{at}.key",
        "-CAcreateserial",
        "-days",
        "1",
        "-out",
        f"{file}.crt",
    )
    pathlib.Path(f"{file}.pem").write_bytes(
        pathlib.Path(f"{file}.crt").read_bytes() + pathlib.Path(f"{file}.key").read_bytes()
    )
    return f"{file}.pem"


def who_reaches(port, folder):
    """anna reaches her tenant alone; nobody does without a certificate, or with one that another
    authority signed."""
    anna, other = signed(folder, "users", "anna"), signed(folder, "others", "anna")
    asked = (
        (anna, b"/t/shop", NO_TENANT),
        (anna, b"/t/lab", b"403 "),
        (anna, b"/t/", b"403 "),
        (None, b"/t/shop", b"403 "),
        (other, b"/t/shop", b"400 "),
        (None, b"/page/", b"200 "),
    )
    for certificate, path, wanted in asked:
        found = Client(port, folder, None, certificate=certificate).ask(b"GET " + path)
        if not found.startswith(wanted):
            return f"{certificate} asks for {path}: {found[:100]!r}, not {wanted}"
    return None


def processor_time(folder):
    """The ticks that nginx's processes have taken."""
    master = (folder / "nginx.pid").read_text().strip()
    workers = subprocess.run(["pgrep", "-P", master], stdout=subprocess.PIPE, check=True).stdout.decode().split()
    fields = [pathlib.Path("/proc", it, "stat").read_text().rsplit(")", 1)[1].split() for it in workers]
    return sum(int(it[11]) + int(it[12]) for it in fields)


def time_of_requests(port, folder, **known):
    """The ticks that nginx takes for many small requests on one connection."""
    client = Client(port, folder, **known)
    # once it is answered nginx has its processes
    client.ask(b"GET /t/shop")
    start = processor_time(folder)
    found = {client.ask(b"GET /t/shop") for _ in range(REQUESTS)}
    if found != {there(b"shop")}:
        raise Unserved(f"the replies are {found}")
    return processor_time(folder) - start


def checks(program, top):
    folder = pathlib.Path(top, "certificates")
    folder.mkdir(mode=0o755)
    anna = signed(folder, "users", "anna")
    with Server(program, folder / "0.db") as server:
        with nginx(folder, [server.port], *by_certificates(folder)) as port:
            yield "who reaches a tenant", who_reaches(port, folder)
            Client(port, folder, None, certificate=anna).ask(b"PUT /t/shop")
            certified = time_of_requests(port, folder, user=None, certificate=anna)
        (folder / "nginx.pid").unlink(missing_ok=True)
        with nginx(folder, [server.port]) as port:
            known = time_of_requests(port, folder, user="anna")
    print(
        f"nginx takes {known * 10 / REQUESTS:.2f} ms of a processor for a request with a password, and"
        f" {certified * 10 / REQUESTS:.2f} ms with a certificate"
    )
