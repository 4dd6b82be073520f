"""The changes of devices that a CSV says, by the rules of the form: a reader of its own, over
Python's."""
import csv
import io
import re

NUMBER = re.compile(r"[0-9]{1,10}")
MOST = 1024


def changes_of(text):
    """The ids of the devices that it changes, in order; None where it isn't of the form."""
    try:
        rows = [it for it in csv.reader(io.StringIO(text.removeprefix("\ufeff"), newline=""), strict=False) if it]
    except csv.Error:
        return None
    if rows[:1] != [["id", "reweight", "up"]] or not 1 <= len(rows) - 1 <= MOST or any(len(it) != 3 for it in rows):
        return None
    for device, reweight, up in rows[1:]:
        if not NUMBER.fullmatch(device) or not NUMBER.fullmatch(reweight) or up not in ("0", "1"):
            return None
        if int(device) > 65535 or int(reweight) > 65536:
            return None
    ids = [int(it[0]) for it in rows[1:]]
    return ids if len(set(ids)) == len(ids) else None
