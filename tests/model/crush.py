"""CRUSH's hashes and bucket picks, written from their public definition and apart from the crates.

The tests take the replies that they expect from here. `check` holds this file to known values.
Words are unsigned, of 32 bits, and wrap; a negative id enters a hash as its two's complement.
"""
import pathlib

WORD = 0xFFFFFFFF
SEED = 1315423911
X, Y = 231232, 1232


def mix(a, b, c):
    a = (a - b - c & WORD) ^ (c >> 13)
    b = (b - c - a & WORD) ^ (a << 8 & WORD)
    c = (c - a - b & WORD) ^ (b >> 13)
    a = (a - b - c & WORD) ^ (c >> 12)
    b = (b - c - a & WORD) ^ (a << 16 & WORD)
    c = (c - a - b & WORD) ^ (b >> 5)
    a = (a - b - c & WORD) ^ (c >> 3)
    b = (b - c - a & WORD) ^ (a << 10 & WORD)
    c = (c - a - b & WORD) ^ (b >> 15)
    return a, b, c


def hashed(turns, **words):
    """The seed xor all the words, mixed in turn with the two words that each pair of letters
    names."""
    words = {name: word & WORD for name, word in words.items()}
    h = SEED
    for word in words.values():
        h ^= word
    words.update(x=X, y=Y)
    for p, q in turns.split():
        words[p], words[q], h = mix(words[p], words[q], h)
    return h


def name_hash(name):
    """The hash of an object's name, from its bytes: 12 of them for each mix, and a last mix with
    the length and the rest."""
    a = b = 0x9E3779B9
    c = 0
    whole = len(name) // 12 * 12
    for place in range(0, whole, 12):
        words = (int.from_bytes(name[at : at + 4], "little") for at in (place, place + 4, place + 8))
        a, b, c = mix(*(so_far + word & WORD for so_far, word in zip((a, b, c), words)))
    rest = name[whole:]
    a = a + int.from_bytes(rest[:4], "little") & WORD
    b = b + int.from_bytes(rest[4:8], "little") & WORD
    c = c + len(name) + (int.from_bytes(rest[8:], "little") << 8) & WORD
    return mix(a, b, c)[2]


def stable_mod(x, count):
    """The remainder that keeps most of its values where the count grows to the next power of
    two."""
    mask = (1 << (count - 1).bit_length()) - 1
    return x & mask if x & mask < count else x & mask >> 1


def hash2(a, b):
    return hashed("ab xa by", a=a, b=b)


def hash3(a, b, c):
    return hashed("ab cx ya bx yc", a=a, b=b, c=c)


def hash4(a, b, c, d):
    return hashed("ab cd ax yb cx yd", a=a, b=b, c=c, d=d)


def uniform_pick(bucket, entries, x, r):
    """The item at place r of the permutation for x."""
    places = list(range(len(entries)))
    for place in range(len(places) - 1):
        other = place + hash3(x, bucket, place) % (len(places) - place)
        places[place], places[other] = places[other], places[place]
    return entries[places[r % len(places)]][0]


def list_pick(bucket, entries, x, r):
    """From the last item down, the first whose share of the weights up to it is drawn; else the
    first item."""
    total = sum(weight for _, weight in entries)
    for item, weight in reversed(entries):
        if (hash4(x, item, r, bucket) & 0xFFFF) * total >> 16 < weight:
            return item
        total -= weight
    return entries[0][0]


def tree_pick(bucket, entries, x, r):
    """Down from the root: item i is the node 2i+1, and a node's height is the number of its
    trailing zero bits."""

    def weight(node):
        half = node & -node
        first, past = (node - half + 1) // 2, (node + half) // 2
        return sum(it for _, it in entries[first:past])

    node = 1
    while node < len(entries):
        node *= 2
    while node % 2 == 0:
        half = (node & -node) // 2
        drawn = hash4(x, node, r, bucket) * weight(node) >> 32
        node = node - half if drawn < weight(node - half) else node + half
    return entries[min(node // 2, len(entries) - 1)][0]


def tables():
    """Those of straw2_tables.txt: reciprocals, logarithms, and the rests' logarithms."""
    lines = (pathlib.Path(__file__).resolve().parent / "straw2_tables.txt").read_text().splitlines()
    rows = [[int(number, 16) for number in it.split()] for it in lines if not it.startswith("#")]
    pairs = [it for it in rows if len(it) == 2]
    return [it[0] for it in pairs], [it[1] for it in pairs], [it[0] for it in rows if len(it) == 1]


RECIPROCALS, LOGS, REST_LOGS = tables()


def log(draw):
    """About 2^44 * log2(draw + 1) of a draw of 16 bits, as Ceph's crush_ln has it."""
    x, exponent = draw + 1, 15
    while x < 2**15:
        x, exponent = 2 * x, exponent - 1
    place = x // 256 - 128
    rest = x * RECIPROCALS[place] // 2**48 % 256
    return exponent * 2**44 + (LOGS[place] + REST_LOGS[rest]) // 16


def draw_of(item, x, r):
    return hash3(x, item, r) & 0xFFFF


def lack(item, weight, x, r):
    """By how much the straw of an item that weighs something is too short."""
    return (2**48 - log(draw_of(item, x, r))) // weight


def straw2_pick(bucket, entries, x, r):
    """The first item whose straw lacks least, of those that weigh something; else the first
    item. The bucket's id isn't in it."""
    lacks = [(lack(item, weight, x, r), place) for place, (item, weight) in enumerate(entries) if weight]
    return entries[min(lacks)[1] if lacks else 0][0]


PICKS = {"uniform": uniform_pick, "list": list_pick, "tree": tree_pick, "straw2": straw2_pick}


def check():
    """Whether the hashes and picks give known values."""
    even = lambda *items: [(item, 65536) for item in items]
    return (
        hash2(0, 1) == 0x0573D827
        and name_hash(b"") == 3175731469
        and name_hash(b"a") == 703514648
        and [stable_mod(x, 12) for x in range(16)] == [*range(12), 4, 5, 6, 7]
        and hash3(0, -1, 0) == 0x2235FB93
        and hash4(0, 1, 0, -1) == 0x9097F53A
        and uniform_pick(-1, even(5, 6, 7), 0, 0) == 7
        and list_pick(-1, [(0, 65536), (1, 22 * 65536)], 0, 0) == 0
        and list_pick(-1, [(0, 65536), (1, 23 * 65536)], 0, 0) == 1
        and tree_pick(-1, [(10, 0), (11, 0), (12, 0)], 0, 0) == 12
        and tree_pick(-1, [(10, 0), (11, 65536), (12, 0)], 0, 0) == 11
        and (len(RECIPROCALS), len(LOGS), len(REST_LOGS)) == (129, 129, 256)
        and [log(it) for it in (0, 32767, 65534, 65535)] == [0, 15 * 2**44, 281474932780304, 2**48 - 2**28]
        and [straw2_pick(-1, even(0, 1, 2), x, 0) for x in range(16)]
        == [0, 0, 1, 0, 1, 0, 2, 1, 2, 2, 0, 0, 0, 0, 1, 1]
        and straw2_pick(-1, even(55160, 64590), 1, 0) == 64590
        and straw2_pick(-1, [(7, 0), (6, 0)], 0, 0) == 7
    )
