"""Map texts as the definition reads them: read(bytes) gives a map, or raises Refused with the line
and code of the first fault.

It is written from the format's rules (docs/MAPS.md) alone, slowly and plainly, and calls nothing of
the program.
"""
import collections
import re

LENGTH = 4_194_304
NAME = re.compile(rb"[A-Za-z0-9._-]+")
MARK = b"# crushcalc: straw2"
TUNABLES = {
    b"choose_local_tries": (2, 0, None),
    b"choose_local_fallback_tries": (5, 0, None),
    b"choose_total_tries": (19, 0, 999),
    b"chooseleaf_descend_once": (0, 0, 1),
    b"chooseleaf_vary_r": (0, 0, 8),
    b"chooseleaf_stable": (0, 0, 1),
    b"straw_calc_version": (0, 0, None),
    b"allowed_bucket_algs": (0, 0, None),
}
LOCAL = (b"choose_local_tries", b"choose_local_fallback_tries")
SET_STEPS = {
    b"set_choose_tries": 1000,
    b"set_chooseleaf_tries": 1000,
    b"set_chooseleaf_vary_r": 8,
    b"set_chooseleaf_stable": 1,
}
LOCAL_STEPS = (b"set_choose_local_tries", b"set_choose_local_fallback_tries")
NO_TYPES = (b"tunable", b"device", b"type", b"rule", b"choose_args", b"class")

Item = collections.namedtuple("Item", "name weight pos pos_line")


class Refused(Exception):
    def __init__(self, line, code):
        super().__init__(f"refused line {line} code {code}")
        self.line, self.code = line, code


def words_of(text):
    """The words with their lines: braces, longest runs of name bytes, and each other byte that is
    no blank."""
    found = []
    for number, line in enumerate(text.split(b"\n"), 1):
        for it in re.finditer(rb"[A-Za-z0-9._-]+|[^ \t\r]", line.split(b"#")[0]):
            found.append((it[0], number))
    return found


def number_of(word):
    return int(word) if re.fullmatch(rb"[0-9]{1,10}", word) else None


def integer_of(word):
    return int(word) if re.fullmatch(rb"-?[0-9]{1,10}", word) else None


def weight_of(word):
    """The 16.16 value of a weight's text, rounded down, or None."""
    it = re.fullmatch(rb"([0-9]{1,10})(?:\.([0-9]{1,20}))?", word)
    if not it:
        return None
    digits = it[2] or b""
    value = int(it[1] + digits) * 65536 // 10 ** len(digits)
    return value if value < 2**32 else None


def weight_text(weight):
    """Five decimals, rounded up."""
    hundred_thousandths = -(-weight * 100_000 // 65536)
    return b"%d.%05d" % divmod(hundred_thousandths, 100_000)


def asks_for_straw2(text):
    """Whether the first line, less one CR at its end, is the mark."""
    return text.split(b"\n", 1)[0].removesuffix(b"\r") == MARK


class Reader:
    """Gives the words in order. What asks for a word that isn't there is refused at the text's
    end."""

    def __init__(self, text):
        self.words, self.place, self.straw2 = words_of(text), 0, asks_for_straw2(text)
        self.last_line = self.words[-1][1] if self.words else 1

    def peek(self):
        return self.words[self.place][0] if self.place < len(self.words) else None

    def line(self):
        return self.words[self.place][1] if self.place < len(self.words) else self.last_line

    def refuse(self, code="X1"):
        raise Refused(self.line(), code if self.peek() is not None else "X1")

    def take(self):
        self.place += 1
        return self.words[self.place - 1][0]

    def value(self, read, code="X1"):
        """The value of the next word, as read gives it (None refuses it)."""
        word = self.peek()
        value = read(word) if word is not None else None
        if value is None:
            token = word is not None and (NAME.fullmatch(word) or word in b"{}")
            self.refuse(code if token else "X1")
        self.place += 1
        return value

    def name(self):
        return self.value(lambda word: word if NAME.fullmatch(word) else None)

    def one_of(self, *texts):
        return self.value(lambda word: word if word in texts else None)

    def has(self, text):
        if self.peek() == text:
            self.place += 1
            return True
        return False


class Map:
    def __init__(self):
        self.tunables, self.devices, self.types, self.buckets, self.rules = {}, {}, {}, [], {}
        self.numbers = {}  # type names
        self.ids, self.weights = {}, {}  # of devices and buckets by name
        self.rule_names = set()

    def counts(self):
        return len(self.devices), len(self.buckets), len(self.rules)


def is_good(name):
    return 1 <= len(name) <= 64


def first(checks):
    for stands, code in checks:
        if stands:
            return code
    return None


def device(m, reader):
    number, name = reader.value(number_of), reader.name()
    if reader.has(b"class"):
        reader.name()
    yield first(
        (
            (len(m.devices) >= 10_000, "M1"),
            (number > 65535, "M12"),
            (number in m.devices, "M2"),
            (not is_good(name), "M15"),
            (name in m.ids, "M3"),
        )
    )
    m.devices[number], m.ids[name], m.weights[name] = name, number, 65536


def type_name(m, reader):
    number, name = reader.value(number_of), reader.name()
    yield first(
        (
            (len(m.types) >= 32, "M1"),
            (number > 65535, "M12"),
            (number in m.types, "M2"),
            (not is_good(name) or name in NO_TYPES, "M15"),
            (name in m.numbers, "M3"),
        )
    )
    m.types[number], m.numbers[name] = name, number


def tunable(m, reader):
    name, value = reader.one_of(*TUNABLES), reader.value(number_of)
    _, low, high = TUNABLES[name]
    yield first(
        (
            (name in m.tunables, "M3"),
            (high is not None and not low <= value <= high, "M12"),
            (name in LOCAL and value != 0, "M13"),
        )
    )
    m.tunables[name] = value


def bucket_items(reader):
    items = []
    while reader.has(b"item"):
        name, weight, pos, pos_line = reader.name(), None, None, None
        if reader.has(b"weight"):
            weight = reader.value(weight_of, "X6")
        if reader.has(b"pos"):
            pos_line = reader.line()
            pos = reader.value(number_of)
        items.append(Item(name, weight, pos, pos_line))
    return items


def in_place(items):
    """The items by their places; raises X5 for the first wrong one."""
    placed = {}
    for it in items:
        if it.pos is not None:
            if it.pos >= len(items) or it.pos in placed:
                raise Refused(it.pos_line, "X5")
            placed[it.pos] = it
    others = iter(it for it in items if it.pos is None)
    return [placed[place] if place in placed else next(others) for place in range(len(items))]


def bucket(m, reader, kind):
    name = reader.name()
    reader.one_of(b"{")
    plain = None
    while True:
        if plain is not None and reader.peek() == b"alg":
            break
        reader.one_of(b"id")
        number = reader.value(integer_of)
        if reader.has(b"class"):
            reader.name()
        elif plain is None:
            plain = number
        else:
            reader.refuse()
    reader.one_of(b"alg")
    if reader.peek() == b"straw" or (reader.peek() == b"straw2" and not reader.straw2):
        reader.refuse("X2")
    alg = reader.one_of(b"uniform", b"list", b"tree", b"straw2")
    while reader.has(b"hash"):
        reader.one_of(b"0", b"rjenkins1")
    items = bucket_items(reader)
    reader.one_of(b"}")
    items = in_place(items)
    yield first(
        (
            (len(m.buckets) >= 1024, "M1"),
            (not -65536 <= plain <= -1, "M12"),
            (plain in (it[0] for it in m.buckets), "M2"),
            (not is_good(name), "M15"),
            (name in m.ids, "M3"),
            (kind not in m.numbers, "M4"),
            (m.numbers.get(kind) == 0, "M9"),
            (len(items) > 4096, "M1"),
        )
    )
    seen, placed = set(), []
    for it in items:
        yield first(((it.name not in m.ids, "M5"), (it.name in seen, "M6")))
        seen.add(it.name)
        placed.append((it.name, m.weights[it.name] if it.weight is None else it.weight))
    total = sum(weight for _, weight in placed)
    is_heavy = alg == b"straw2" and any(weight >= 2**31 for _, weight in placed)
    yield first(
        ((alg == b"uniform" and len({weight for _, weight in placed}) > 1, "M8"), (total >= 2**32 or is_heavy, "M7"))
    )
    m.buckets.append((plain, kind, name, alg, placed))
    m.ids[name], m.weights[name] = plain, total


def read_step(reader):
    reader.one_of(b"step")
    word = reader.one_of(b"take", b"choose", b"chooseleaf", b"emit", *SET_STEPS, *LOCAL_STEPS)
    if word == b"take":
        name = reader.name()
        if reader.peek() == b"class":
            reader.refuse("X3")
        return word, name
    if word == b"emit":
        return (word,)
    if word in (b"choose", b"chooseleaf"):
        how, count = reader.one_of(b"firstn", b"indep"), reader.value(integer_of)
        reader.one_of(b"type")
        return word, how, count, reader.name()
    return word, reader.value(number_of)


def step_fault(m, step):
    word = step[0]
    if word == b"take":
        return first(((step[1] not in m.ids, "M10"),))
    if word in SET_STEPS:
        return first(((step[1] > SET_STEPS[word], "M12"),))
    if word in LOCAL_STEPS:
        return first(((step[1] != 0, "M13"),))
    if word == b"emit":
        return None
    _, how, count, kind = step
    return first(
        (
            (kind not in m.numbers, "M11"),
            (not -64 <= count <= 64, "M12"),
            (word == b"chooseleaf" and how == b"indep" and m.numbers.get(kind) == 0, "M14"),
        )
    )


def rule(m, reader):
    name = reader.name()
    reader.one_of(b"{")
    reader.one_of(b"id", b"ruleset")
    number = reader.value(number_of)
    reader.one_of(b"type")
    kind = reader.one_of(b"replicated", b"erasure")
    for it in (b"min_size", b"max_size"):
        if reader.has(it):
            reader.value(number_of)
    steps = [read_step(reader)]
    while not reader.has(b"}"):
        steps.append(read_step(reader))
    kept = [it for it in steps if it[0] not in LOCAL_STEPS]
    yield first(
        (
            (len(m.rules) >= 64, "M1"),
            (number > 255, "M12"),
            (number in m.rules, "M2"),
            (not is_good(name), "M15"),
            (name in m.rule_names, "M3"),
            (not 1 <= len(kept) <= 32, "M1"),
        )
    )
    for it in steps:
        yield step_fault(m, it)
    m.rules[number] = (name, kind, kept)
    m.rule_names.add(name)


def read(text):
    if len(text) > LENGTH:
        raise Refused(1, "X7")
    m, reader, early = Map(), Reader(text), True
    while reader.peek() is not None:
        line, word = reader.line(), reader.peek()
        if word in (b"tunable", b"device", b"type") and early:
            reader.take()
            faults = {b"tunable": tunable, b"device": device, b"type": type_name}[word](m, reader)
        elif word == b"rule":
            reader.take()
            faults, early = rule(m, reader), False
        elif word == b"choose_args":
            reader.refuse("X4")
        else:
            kind = reader.value(lambda it: it if NAME.fullmatch(it) and it not in NO_TYPES else None)
            faults, early = bucket(m, reader, kind), False
        for fault in faults:
            if fault:
                raise Refused(line, fault)
    if 0 not in m.types:
        raise Refused(reader.last_line, "M4")
    if not all(it in m.tunables for it in LOCAL):
        raise Refused(reader.last_line, "M13")
    return m


def write(m):
    """The canonical text of a map."""

    def shown(it):
        return it if isinstance(it, bytes) else b"%d" % it

    lines = [MARK] if any(alg == b"straw2" for _, _, _, alg, _ in m.buckets) else []
    lines.append(b"# begin crush map")
    for name, (legacy, _, _) in list(TUNABLES.items())[:6]:
        lines.append(b"tunable %s %d" % (name, m.tunables.get(name, legacy)))
    lines += [b"", b"# devices"] + [b"device %d %s" % it for it in sorted(m.devices.items())]
    lines += [b"", b"# types"] + [b"type %d %s" % it for it in sorted(m.types.items())]
    lines += [b"", b"# buckets"]
    for number, kind, name, alg, items in m.buckets:
        lines += [b"%s %s {" % (kind, name), b"\tid %d" % number, b"\talg " + alg, b"\thash 0"]
        lines += [b"\titem %s weight %s" % (item, weight_text(weight)) for item, weight in items] + [b"}"]
    lines += [b"", b"# rules"]
    for number, (name, kind, steps) in sorted(m.rules.items()):
        lines += [b"rule %s {" % name, b"\tid %d" % number, b"\ttype " + kind]
        for step in steps:
            words = step if step[0] not in (b"choose", b"chooseleaf") else (*step[:3], b"type", step[3])
            lines.append(b"\tstep " + b" ".join(map(shown, words)))
        lines.append(b"}")
    return b"\n".join(lines + [b"", b"# end crush map", b""])


def answer(text):
    """What 'crushcalc check' prints on a text, without its line end."""
    try:
        return "ok devices %d buckets %d rules %d" % read(text).counts()
    except Refused as refused:
        return str(refused)
