"""What a worker of Dask does for crushplan (machines.py): its tasks, by the program that it has."""
import functools
import pickle

from .faults import Fault
from .machines_probe import found_tools
from .service import Script

READ, MOST_READ = {}, 8  # what tasks need, by its digest


@functools.lru_cache(maxsize=1)
def own_script():
    """Returns the script of this worker's program."""
    return Script(found_tools()[1])


def kept(data):
    """Returns the bytes of what tasks need."""
    return data


def loaded(key, data):
    """Returns what the bytes of a digest are, which are read once for all tasks."""
    found = READ.get(key)
    if found is None:
        found = READ[key] = pickle.loads(data)
        for old in list(READ)[:-MOST_READ]:
            READ.pop(old, None)
    return found


def answered(key, data, tail):
    """Returns the replies to requests of a tenant, of which the first ones are kept, or why there
    are none, as a text."""
    return said(lambda: own_script().run([*loaded(key, data), *tail]))


def done(function, key, data, part):
    """Returns what a function makes of a part, beside what all parts share."""
    return said(lambda: function(*loaded(key, data), part))


def said(function):
    try:
        return True, function()
    except Fault as fault:
        return False, str(fault)
