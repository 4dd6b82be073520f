"""The form of an OpenAPI 3.1 document, by the tables of fields in the specification itself,
which Debian's package openapi-specification has, and by JSON Schema's own schema for each
schema in it."""
import re

import jsonschema

TABLES = "/usr/share/openapi-specification/versions/3.1.0.md"
OBJECT = re.compile(r'^#### <a name="(\w+)"></a>', re.MULTILINE)
FIELD = re.compile(r'^<a name="\w+"></a> *(\S.*?) *(?<!\\)\| *(.*?) *(?<!\\)\| *(.*)$', re.MULTILINE)
NAMED = re.compile(r"\[[^\]]*\]\(#(\w+Object)\)")
SCHEMA, REFERENCE = "schemaObject", "referenceObject"
# names of patterned fields, as the tables write them
PATTERNS = {
    "/{path}": r"/.*",
    "[HTTP Status Code](#httpCodes)": r"[1-5](\d\d|XX)",
    "{name}": r".*",
    "{expression}": r".*",
}
PLAIN = {"`string`": str, "string": str, "`boolean`": bool, "boolean": bool}


def objects():
    """Of each object of the specification: its fields, each with its type as the table writes it
    and whether it must be there."""
    with open(TABLES, encoding="utf-8") as file:
        text = file.read()
    ends = [*OBJECT.finditer(text), None]
    found = {}
    for here, after in zip(ends, ends[1:]):
        part = text[here.end() : after.start() if after else len(text)]
        found[here[1]] = {name: (kind, "**REQUIRED**" in what) for name, kind, what in FIELD.findall(part)}
    return found


def field_of(fields, key):
    """The row of the table that a key falls under, or None."""
    if key in fields:
        return fields[key]
    return next((row for name, row in fields.items() if name in PATTERNS and re.fullmatch(PATTERNS[name], key)), None)


def resolved(document, reference):
    """What a reference leads to in the document; KeyError: nothing."""
    if not reference.startswith("#/"):
        raise KeyError(reference)
    at = document
    for part in reference[2:].split("/"):
        at = at[part.replace("~1", "/").replace("~0", "~")]
    return at


class Form:
    """The tables, applied to one document."""

    def __init__(self, document):
        self.document, self.objects = document, objects()
        self.references = set()

    def faults(self):
        """Each fault with its place; those of references too."""
        if not re.fullmatch(r"3\.1\.\d+", str(self.document.get("openapi"))):
            yield "openapi: it isn't 3.1"
        yield from self.of_object("oasObject", self.document, "")
        for reference in sorted(self.references):
            try:
                resolved(self.document, reference)
            except (KeyError, TypeError):
                yield f"{reference} leads to nothing"
        for kind, parts in self.document["components"].items():
            for name in parts:
                if f"#/components/{kind}/{name}" not in self.references and kind != "responses":
                    yield f"components/{kind}/{name} is used nowhere"

    def of_schema(self, schema, at):
        try:
            jsonschema.Draft202012Validator.check_schema(schema)
        except jsonschema.SchemaError as error:
            yield f"{at}: {error.message}"
        self.references.update(re.findall(r"'\$ref': '([^']*)'", repr(schema)))

    def of_object(self, name, value, at):
        if name == SCHEMA:
            yield from self.of_schema(value, at)
            return
        if not isinstance(value, dict):
            yield f"{at}: it is no object"
            return
        fields = self.objects[name]
        for key in (key for key, (_, is_needed) in fields.items() if is_needed and key not in value):
            yield f"{at}: it has no {key}"
        for key, it in value.items():
            if str(key).startswith("x-"):
                continue
            row = field_of(fields, key) if isinstance(key, str) else None
            if row is None:
                yield f"{at}: {key!r} is no field of {name}"
            else:
                yield from self.of_type(row[0], it, f"{at}/{key}")

    def of_type(self, kind, value, at):
        """A value by the words of a table: Map[`string`, ..], [..], objects, or a plain type."""
        if kind.startswith("Map["):
            if not isinstance(value, dict):
                yield f"{at}: it is no map"
                return
            for key, it in value.items():
                yield from self.of_type(kind.partition(",")[2], it, f"{at}/{key}")
        elif kind.startswith("[[") or kind in ("[`string`]", "[string]"):
            if not isinstance(value, list):
                yield f"{at}: it is no list"
                return
            for place, it in enumerate(value):
                yield from self.of_type(kind[1:], it, f"{at}/{place}")
        elif named := NAMED.findall(kind):
            if REFERENCE in named and isinstance(value, dict) and "$ref" in value:
                self.references.add(value["$ref"])
                yield from self.of_object(REFERENCE, value, at)
            else:
                yield from self.of_object(named[0], value, at)
        elif not isinstance(value, PLAIN.get(kind.strip(" ]"), object)):
            yield f"{at}: it is no {kind}"
