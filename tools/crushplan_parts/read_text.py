"""map.txt: the map as `crushtool -d` writes it, with three decimals of each weight. What crushcalc
doesn't compute is read too, so that it can be named."""
import decimal
import re

from .crush_map import MSR, ONE, TUNABLES, Bucket, CrushMap, Rule, WeightSet
from .faults import Fault
from .sets import ALL
from .wrapper import Wrapper

WORD = re.compile(r"[{}\[\]]|[^\s{}\[\]]+")
INTEGER = re.compile(r"-?\d{1,10}")
UNSIGNED_ALL = str(2**64 - 1)  # the key of the weight set of all pools, as crushtool writes it
WEIGHT = re.compile(r"\d{1,10}(\.\d{1,20})?")


class Words:
    """The words of a text, one after the other, each with its line."""

    def __init__(self, text, file):
        self.file, self.place = file, 0
        self.words = [
            (word, line)
            for line, content in enumerate(text.splitlines(), 1)
            for word in WORD.findall(content.split("#", 1)[0])
        ]

    def fault(self, why):
        line = self.words[min(self.place, len(self.words) - 1)][1] if self.words else 1
        return Fault(f"{self.file}: line {line}: {why}")

    def left(self):
        return self.place < len(self.words)

    def peek(self):
        return self.words[self.place][0] if self.left() else ""

    def next(self, wanted=None):
        """Returns the next word; a Fault where there is none or it isn't the one that is wanted."""
        if not self.left():
            raise self.fault("the text ends too early")
        word = self.words[self.place][0]
        if wanted is not None and word != wanted:
            raise self.fault(f"{word!r} stands where {wanted!r} is wanted")
        self.place += 1
        return word

    def number(self):
        if not INTEGER.fullmatch(self.peek()):
            raise self.fault(f"{self.peek()!r} isn't a whole number")
        return int(self.next())

    def weight(self):
        """Returns a weight in 65536ths, rounded down."""
        if not WEIGHT.fullmatch(self.peek()):
            raise self.fault(f"{self.peek()!r} isn't a weight")
        return int(decimal.Decimal(self.next()) * ONE)


def read_text(text, file):
    """Reads the map of a text; a Fault names the line where it can't be one."""
    words, map_ = Words(text, file), CrushMap(file, True, {}, {}, {}, {}, {}, {})
    ids, shadows = {}, {}  # ids of buckets of single classes, by bucket and class
    while words.left():
        word = words.next()
        if word == "tunable":
            name, value = words.next(), words.number()
            if name in TUNABLES:
                map_.tunables[name] = value
        elif word == "device":
            id_, name = words.number(), words.next()
            map_.devices[id_] = name
            ids[name] = id_
            if words.peek() == "class":
                words.next()
                map_.classes[id_] = words.next()
        elif word == "type":
            number = words.number()
            map_.types[number] = words.next()
        elif word == "rule":
            rule = read_rule(words, ids)
            map_.rules[rule.id] = rule
        elif word == "choose_args":
            read_weight_set(words, map_)
        else:
            bucket, own = read_bucket(words, word, map_, ids)
            map_.buckets[bucket.id] = bucket
            ids[bucket.name] = bucket.id
            shadows.update({(bucket.id, class_): id_ for class_, id_ in own.items()})
    if not map_.buckets and not map_.devices:
        raise Fault(f"{file}: it declares no device and no bucket: it isn't what 'crushtool -d' writes")
    take_classes(map_, shadows)
    return map_


def take_classes(map_, shadows):
    """Makes the trees of single classes, which a text has by the ids of their buckets alone, and
    has rules take them."""
    if not set(shadows.values()) & map_.buckets.keys():
        rows = {key: dict(it.rows) for key, it in map_.weight_sets.items()}
        Wrapper(map_).make_shadows(shadows)
        for key, own in rows.items():  # the text has their rows too
            map_.weight_sets[key].rows.update(own)
    for rule in map_.rules.values():
        rule.steps = [
            (
                (it[0], shadows[it[1], it[2]], None)
                if it[0] == "take" and shadows.get((it[1], it[2])) in map_.buckets
                else it
            )
            for it in rule.steps
        ]


def read_bucket(words, type_name, map_, ids):
    numbers = {name: number for number, name in map_.types.items()}
    if type_name not in numbers:
        raise words.fault(f"{type_name!r} is neither a type of buckets nor the beginning of a declaration")
    name, id_, alg, hash_, items, shadows = words.next(), None, "", "rjenkins1", [], {}
    words.next("{")
    while words.peek() != "}":
        word = words.next()
        if word == "id":
            number = words.number()
            if words.peek() == "class":
                words.next()
                shadows[words.next()] = number
            else:
                id_ = number
        elif word == "alg":
            alg = words.next()
        elif word == "hash":
            value = words.next()
            hash_ = "rjenkins1" if value in ("0", "rjenkins1") else value
        elif word == "item":
            items.append(read_item(words, map_, ids))
        else:
            raise words.fault(f"a bucket has no {word!r}")
    words.next("}")
    if id_ is None or id_ >= 0:
        raise words.fault(f"the bucket {name!r} has no id below 0")
    return Bucket(id_, name, numbers[type_name], alg, hash_, placed(words, name, items)), shadows


def read_item(words, map_, ids):
    """Returns the id of an item, its weight, and its place or None."""
    name = words.next()
    if name not in ids:
        raise words.fault(f"the item {name!r} isn't declared before its bucket")
    item, weight, place = ids[name], None, None
    while words.peek() in ("weight", "pos"):
        if words.next() == "weight":
            weight = words.weight()
        else:
            place = words.number()
    if weight is None:
        weight = ONE if item >= 0 else map_.buckets[item].weight()
    return item, weight, place


def placed(words, name, items):
    """Returns items in their places: those without one take the free ones in order."""
    found = [None] * len(items)
    for item, weight, place in items:
        if place is not None:
            if not 0 <= place < len(items) or found[place] is not None:
                raise words.fault(f"the bucket {name!r} has no free place {place}")
            found[place] = (item, weight)
    free = iter([place for place, it in enumerate(found) if it is None])
    for item, weight, place in items:
        if place is None:
            found[next(free)] = (item, weight)
    return found


def read_rule(words, ids):
    name, id_, kind, sizes, steps, odd = words.next(), None, "replicated", {}, [], None
    words.next("{")
    while words.peek() != "}":
        word = words.next()
        if word in ("id", "ruleset"):
            id_ = words.number()
        elif word == "type":
            kind = words.next()
            if kind not in ("replicated", "erasure"):
                odd = MSR if kind.startswith("msr_") else f"its type is {kind}"
        elif word in ("min_size", "max_size"):
            sizes[word] = words.number()
        elif word == "step":
            step = read_step(words, ids)
            if isinstance(step, str):
                odd = step
            else:
                steps.append(step)
        else:
            raise words.fault(f"a rule has no {word!r}")
    words.next("}")
    if id_ is None:
        raise words.fault(f"the rule {name!r} has no id")
    return Rule(id_, name, kind, steps, (sizes["min_size"], sizes["max_size"]) if len(sizes) == 2 else None, odd)


def read_step(words, ids):
    """Returns a step as words, or why there is none such here."""
    op = words.next()
    if op == "take":
        name, class_ = words.next(), None
        if name not in ids:
            raise words.fault(f"a step takes {name!r}, which isn't declared before its rule")
        if words.peek() == "class":
            words.next()
            class_ = words.next()
        return (op, ids[name], class_)
    if op in ("emit", "noop"):
        return (op,)
    if op in ("choose", "chooseleaf"):
        mode, number = words.next(), words.number()
        words.next("type")
        return (op, mode, number, words.next()) if mode in ("firstn", "indep") else f"it has a step {op} {mode}"
    if op.startswith("set_"):
        return (op, words.number())
    raise words.fault(f"there is no step {op!r}")


def read_weight_set(words, map_):
    """Reads the rows of a weight set: of each bucket its weights for each position, and other
    ids."""
    key, own = (ALL if words.peek() == UNSIGNED_ALL else words.number()), WeightSet({})
    if key == ALL and words.peek() != "{":
        words.next()
    words.next("{")
    while words.peek() == "{":
        words.next("{")
        bucket = None
        while words.peek() != "}":
            word = words.next()
            if word == "bucket_id":
                bucket = words.number()
            elif word == "weight_set":
                own.rows[bucket] = listed(words, lambda: listed(words, words.weight))
            elif word == "ids":
                own.with_ids += [bucket] if listed(words, words.number) else []
            else:
                raise words.fault(f"a weight set has no {word!r}")
        words.next("}")
    words.next("}")
    map_.weight_sets[key] = own


def listed(words, one):
    """Returns what stands in brackets."""
    found = []
    words.next("[")
    while words.peek() != "]":
        found.append(one())
    words.next("]")
    return found
