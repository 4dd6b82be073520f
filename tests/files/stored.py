"""Database files: the program run over one, and what one holds, as Python's sqlite3 reads it."""
import contextlib
import pathlib
import shutil
import sqlite3
import subprocess

SECONDS = 600
# a file of schema 1 that an earlier program wrote; beside it are its script and the replies to that
SCHEMA_1 = pathlib.Path(__file__).resolve().parent / "data" / "schema_1.db"
STORE_FAULT = b"crushcalc: store fault\n"
BESIDE = ("", "-wal", "-journal", "-shm")
POOL = ("id", "name", "erasure", "size", "rule", "pg_num", "pgp_num", "hashpspool")
# the columns of each table of a tenant's rows, with those of its key first
TABLES = {
    "maps": ("version", "text"),
    "devices": ("device", "reweight", "up"),
    "receipts": ("request", "path", "body", "status", "reply"),
    "pools_2": (*POOL, "pairs"),
    "exceptions": ("pool", "place", "grp", "src", "dst"),
}
# what stands for a table of schema 2 in a file of schema 1, whose pools have no exceptions
IN_SCHEMA_1 = {
    "pools_2": f"(SELECT tenant, {', '.join(POOL)}, 0 AS pairs FROM pools)",
    "exceptions": "(SELECT 0 AS tenant, 0 AS pool, 0 AS place, 0 AS grp, 0 AS src, 0 AS dst WHERE 0)",
}


class Unsound(Exception):
    """Why a file is no sound database."""


def run_over(program, db, data):
    """Runs a script over a database file."""
    return subprocess.run(
        [program, "script", "--db", str(db)],
        input=data,
        stdout=subprocess.PIPE,
        stderr=subprocess.PIPE,
        timeout=SECONDS,
    )


def files_at(db):
    """The database file and what lies beside it, as bytes."""
    return {it: path.read_bytes() for it in BESIDE if (path := pathlib.Path(f"{db}{it}")).is_file()}


def write_files(db, files):
    """Makes a database file and what lies beside it of such bytes."""
    for suffix, content in files.items():
        pathlib.Path(f"{db}{suffix}").write_bytes(content)


def copy_to(db, folder):
    """A copy of a database file and its log, which sqlite3 may change as it reads them."""
    to = pathlib.Path(folder, "copy.db")
    for it in BESIDE:
        pathlib.Path(f"{to}{it}").unlink(missing_ok=True)
        if pathlib.Path(f"{db}{it}").is_file():
            shutil.copyfile(f"{db}{it}", f"{to}{it}")
    return to


def opened(db):
    """A connection to be closed by a with, in which each statement is a transaction."""
    return contextlib.closing(sqlite3.connect(db, isolation_level=None))


def change(db, *statements):
    """Makes these statements of a test, with no test of foreign keys."""
    with opened(db) as connection:
        for it in statements:
            connection.execute(*it) if isinstance(it, tuple) else connection.execute(it)


def schema_of(connection):
    """The number of the schema of a file's tables, or None where it has none."""
    tables = {name for name, in connection.execute("SELECT name FROM sqlite_schema WHERE type = 'table'")}
    if not tables:
        return None
    ((one, version),) = connection.execute("SELECT one, version FROM schema_info").fetchall()
    if one != 1 or ("pools" in tables, *(it in tables for it in IN_SCHEMA_1)) != (
        (version == 1),
        *(version == 2 for _ in IN_SCHEMA_1),
    ):
        raise Unsound(f"the file says the version {version}, and has the tables {sorted(tables)}")
    return version


def held(db):
    """The epoch and the rows of each tenant by its name, each table in the order of its key, as
    schema 2 has them, be it a file of schema 1; of an empty file nothing."""
    with opened(db) as connection:
        try:
            whole = (
                connection.execute("PRAGMA integrity_check").fetchall(),
                connection.execute("PRAGMA foreign_key_check").fetchall(),
            )
            if whole != ([("ok",)], []):
                raise Unsound(f"the checks of the file say {whole}")
            if (schema := schema_of(connection)) is None:
                return {}
            found, sources = {}, IN_SCHEMA_1 if schema == 1 else {}
            for number, name, epoch in connection.execute("SELECT id, name, epoch FROM tenants").fetchall():
                found[name] = {"epoch": epoch}
                for table, columns in TABLES.items():
                    rows = connection.execute(
                        (
                            f"SELECT {', '.join(columns)} FROM {sources.get(table, table)} WHERE tenant = ? ORDER BY"
                            f" {', '.join(columns)}"
                        ),
                        (number,),
                    )
                    found[name][table] = rows.fetchall()
            return found
        except sqlite3.DatabaseError as error:
            raise Unsound(f"sqlite3 says: {error}") from error


def differ(want, got):
    """Where the tables hold something else, or None."""
    for name in sorted(want.keys() | got.keys()):
        for part in ("epoch", *TABLES):
            a, b = (it.get(name, {}).get(part) for it in (want, got))
            if a != b:
                return f"the {part} of tenant {name} are {str(b)[:200]}, not {str(a)[:200]}"
    return None
