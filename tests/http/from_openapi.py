"""A client made from docs/openapi.yaml alone. It takes the method, path, body and replies of an
operation from there by its operationId, makes a tenant, imports a map, makes a pool and reads its
usage, sends requests a second time, and has each operation refuse in each way that stands there and
that a client can bring about. Each reply has to fit its schema and an example."""
import http.client
import json
import pathlib
import re
import subprocess
import sys

from expected import TOP
from server.served import SECONDS, Server, Unserved

# Debian's python3, whose modules yaml and jsonschema are
PYTHON = "/usr/bin/python3"
OPERATIONS = "createTenant", "importMap", "createPool", "reportUsage"
# refusals that no request brings about; and one that takes as many requests as importMap's
OF_THE_MACHINE, LIKE_ANOTHER = {"store_damaged", "no_memory", "store_failed"}, {("createPool", "tenant_limit")}
# a body in chunks, and one of which its length alone is sent
CHUNKS, LENGTH_ALONE = object(), object()


class Description:
    """docs/openapi.yaml."""

    def __init__(self):
        import jsonschema
        import yaml

        self.whole = yaml.safe_load((TOP / "docs" / "openapi.yaml").read_text())
        self.validator, self.validators = jsonschema.Draft202012Validator, {}
        self.operations = {
            it["operationId"]: (method.upper(), path, it, [self.at(p) for p in item.get("parameters", [])])
            for path, item in self.whole["paths"].items()
            for method, it in item.items()
            if method != "parameters"
        }

    def at(self, it):
        """What stands in the place of a reference."""
        while "$ref" in it:
            place, it = it["$ref"], self.whole
            for key in place.removeprefix("#/").split("/"):
                it = it[key]
        return it

    def fault(self, schema, value):
        """Why a value isn't of a schema, or None."""
        key = json.dumps(schema)
        if key not in self.validators:
            self.validators[key] = self.validator({**schema, "components": self.whole["components"]})
        found = next(self.validators[key].iter_errors(value), None)
        return found and f"{json.dumps(value)[:200]}: {found.message[:200]}"

    def request(self, operation, body=None, **parameters):
        """The method, path and body of a request, and why it isn't of its schemas, or None."""
        method, path, it, named = self.operations[operation]
        faults = [self.fault(p["schema"], parameters[p["name"]]) for p in named]
        if isinstance(body, dict):
            faults.append(self.fault(self.at(it["requestBody"])["content"]["application/json"]["schema"], body))
            body = json.dumps(body).encode()
        return (method, path.format(**parameters), body), next(filter(None, faults), None)

    def content(self, operation, status):
        """The schema and the examples of a reply; None where the status isn't of the operation."""
        reply = self.operations[operation][2]["responses"].get(str(status))
        return reply and self.content_of(reply)

    def content_of(self, reply):
        found = self.at(reply)["content"]["application/json"]
        return found["schema"], [it["value"] for it in found["examples"].values()]

    def refusals(self, operation):
        """The refusals of an operation, each with its status."""
        found = {}
        for status in filter(lambda it: it >= "400", self.operations[operation][2]["responses"]):
            schema = self.content(operation, status)[0]
            for one in schema.get("anyOf", [schema]):
                found[self.at(one)["properties"]["error"]["const"]] = int(status)
        return found

    def longest(self):
        """The most bytes of a body, from the words."""
        return int(
            re.search(r"over ([\d,]+) bytes", self.at({"$ref": "#/components/responses/TooLarge"})["description"])[
                1
            ].replace(",", "")
        )


class Client:
    def __init__(self, server, description):
        self.port, self.description = server.port, description

    def send(self, method, path, body=None):
        """The status and the text of a reply, over a connection of its own; where no reply of JSON
        comes, None and why."""
        connection = http.client.HTTPConnection("127.0.0.1", self.port, timeout=SECONDS)
        try:
            if body is LENGTH_ALONE:
                connection.putrequest(method, path)
                connection.putheader("Content-Length", str(self.description.longest() + 1))
                connection.endheaders()
            elif body is CHUNKS:
                connection.request(method, path, iter([b"{}"]), {"Transfer-Encoding": "chunked"}, encode_chunked=True)
            else:
                connection.request(method, path, body)
            reply = connection.getresponse()
            if reply.getheader("Content-Type") != "application/json":
                return None, f"of Content-Type {reply.getheader('Content-Type')!r}".encode()
            return reply.status, reply.read()
        except (OSError, http.client.HTTPException) as error:
            return None, f"{type(error).__name__}: {error}".encode()
        finally:
            connection.close()

    def unlike(self, content, got, status, expected):
        """Why a reply isn't of this status, schema, examples and value, or None."""
        if got[0] != status or content is None:
            return f"it is {got[0]} {got[1][:200]!r}, not {status} of the description"
        value, (schema, examples) = json.loads(got[1]), content
        if why := self.description.fault(schema, value):
            return why
        if expected is not None and any(value.get(key) != it for key, it in expected.items()):
            return f"it is {got[1][:200]!r}, not with {expected}"
        alike = [it for it in examples if (it == value if "error" in value else it.keys() == value.keys())]
        return None if alike else f"no example is like {got[1][:200]!r}"

    def done(self, operation, status, expected, body=None, again=False, **parameters):
        """Why a request isn't answered so, twice where it is sent again; or None."""
        request, why = self.description.request(operation, body, **parameters)
        got = self.send(*request)
        why = why or self.unlike(self.description.content(operation, status), got, status, expected)
        if why is None and again and (second := self.send(*request)) != got:
            why = f"sent again it is {second}, not {got}"
        return why

    def refused(self, operation, error, body=None, **parameters):
        """Why a request isn't refused so, or None. A bad request, and no other, isn't of its
        schemas."""
        request, why = self.description.request(operation, body, **parameters)
        if error == "bad_request":
            why = None if why else "the request is of its schemas"
        status = self.description.refusals(operation).get(error)
        return why or self.unlike(
            self.description.content(operation, status), self.send(*request), status, {"error": error}
        )

    def usage(self, pool, devices):
        """Why the usage of a pool, on these devices, isn't what the words say of its rows."""
        (method, path, _), _ = self.description.request("reportUsage", t="shop", p=pool["id"])
        status, text = self.send(method, path)
        rows = json.loads(text)["rows"] if status == 200 else []
        entries = pool["pg_num"] * pool["size"]
        sums = [sum(it[key] for it in rows) for key in ("entries", "groups", "primaries")]
        if [it["device"] for it in rows] != devices or sums != [entries, entries, pool["pg_num"]]:
            return f"it is {status} {text[:300]!r}"
        return next((str(it) for it in rows if it["permille"] != it["entries"] * 1000 // entries), None)


def session(client, text):
    """What the client does, each with why it isn't so, or None."""
    description = client.description
    pool = description.operations["createPool"][2]["requestBody"]["content"]["application/json"]["examples"]["photos"][
        "value"
    ]
    first = {"request": "map-1", "text": text}
    without_rules = text[: text.index("rule ")]
    yield "a tenant", client.done("createTenant", 201, {"epoch": 0, "tenant": "shop"}, t="shop")
    yield "createPool: no_version", client.refused("createPool", "no_version", pool, t="shop")
    yield "a map, twice", client.done("importMap", 201, {"epoch": 1, "version": 1}, first, again=True, t="shop")
    # of the number of the refused request
    yield "a pool, twice", client.done("createPool", 201, {"epoch": 2, "pool": pool["id"]}, pool, again=True, t="shop")
    yield "its usage", client.done(
        "reportUsage", 200, {"epoch": 2, "pool": pool["id"], "version": 1}, t="shop", p=pool["id"]
    )
    yield "the rows of its usage", client.usage(
        pool, [int(it) for it in re.findall(r"^device (\d+) ", text, re.MULTILINE)]
    )
    other = {**pool, "id": 2, "name": "a", "request": "p-2"}
    bodies = {"createTenant": None, "importMap": first, "createPool": pool, "reportUsage": None}
    for operation in OPERATIONS:
        more = {"p": pool["id"]} if operation == "reportUsage" else {}
        yield f"{operation}: too_large", client.refused(operation, "too_large", LENGTH_ALONE, t="shop", **more)
        yield f"{operation}: length", client.refused(operation, "length", CHUNKS, t="shop", **more)
        if operation != "createTenant":
            yield f"{operation}: no_tenant", client.refused(
                operation, "no_tenant", bodies[operation], t="depot", **more
            )
    yield "createTenant: bad_request", client.refused("createTenant", "bad_request", t="a+b")
    yield "createTenant: exists", client.refused("createTenant", "exists", t="shop")
    yield "importMap: bad_request", client.refused("importMap", "bad_request", {"request": "map-2"}, t="shop")
    yield "importMap: request_reused", client.refused(
        "importMap", "request_reused", {**first, "text": without_rules}, t="shop"
    )
    yield "importMap: rule_in_use", client.refused(
        "importMap", "rule_in_use", {"request": "map-2", "text": without_rules}, t="shop"
    )
    yield "importMap: map_refused", client.refused(
        "importMap", "map_refused", {"request": "map-2", "text": "host {"}, t="shop"
    )
    yield "createPool: bad_request", client.refused("createPool", "bad_request", {**other, "size": 0}, t="shop")
    yield "createPool: no_rule", client.refused("createPool", "no_rule", {**other, "rule": 7}, t="shop")
    yield "createPool: request_reused", client.refused(
        "createPool", "request_reused", {**other, "request": pool["request"]}, t="shop"
    )
    yield "createPool: exists", client.refused("createPool", "exists", {**other, "name": pool["name"]}, t="shop")
    yield "reportUsage: bad_request", client.refused("reportUsage", "bad_request", t="shop", p="one")
    yield "reportUsage: no_pool", client.refused("reportUsage", "no_pool", t="shop", p=2)
    yield "no refusal changed a thing", client.done(
        "reportUsage", 200, {"epoch": 2, "version": 1}, t="shop", p=pool["id"]
    )
    yield "importMap: tenant_limit", filled(client, without_rules)
    # refusals of no operation, whose statuses the words have
    for name, error, status, method, path in (
        ("NoPath", "no_path", 404, "GET", "/tenants"),
        ("Method", "method", 405, "PATCH", "/t/shop"),
    ):
        content = description.content_of(description.whole["components"]["responses"][name])
        yield error, client.unlike(content, client.send(method, path), status, {"error": error})


def filled(client, text):
    """Imports as many maps as a tenant has versions at most, and one more."""
    most = client.description.at({"$ref": "#/components/schemas/Tenant"})["properties"]["versions"]["maximum"]
    why = client.done("createTenant", 201, None, t="full")
    for number in range(1, most + 1):
        why = why or client.done(
            "importMap", 201, {"version": number}, {"request": str(number), "text": text}, t="full"
        )
    return why or client.refused("importMap", "tenant_limit", {"request": "one-more", "text": text}, t="full")


def untried(description, names):
    """Refusals of the description that the session hasn't."""
    for operation in OPERATIONS:
        for error in description.refusals(operation):
            if (
                error not in OF_THE_MACHINE
                and (operation, error) not in LIKE_ANOTHER
                and f"{operation}: {error}" not in names
            ):
                yield f"{operation}: {error}"


def outcomes(program, folder):
    description = Description()
    with Server(program, pathlib.Path(folder, "from_openapi.db")) as server:
        found = list(session(Client(server, description), (TOP / "examples" / "three_hosts.txt").read_text()))
    missing = list(untried(description, {name for name, _ in found}))
    return [*found, ("each refusal that a client brings about", f"there is none of {missing}" if missing else None)]


def checks(program, folder):
    ran = subprocess.run(
        [PYTHON, __file__, program, folder], stdout=subprocess.PIPE, stderr=subprocess.PIPE, timeout=10 * SECONDS
    )
    if ran.returncode:
        raise Unserved(f"the client ends with {ran.stderr.decode(errors='replace')[-400:]!r}")
    yield from json.loads(ran.stdout)


if __name__ == "__main__":
    print(json.dumps(outcomes(*sys.argv[1:])))
