"""Commands on rules (CrushWrapper::add_simple_rule, OSDMonitor::crush_rule_create_erasure)."""
from .commands import NAME
from .crush_map import Rule
from .wrapper import Refused, Wrapper

TRIES = (("set_chooseleaf_tries", 5), ("set_choose_tries", 100))  # of rules that choose indep
SIZES = {1: (1, 10), 3: (3, 20)}  # that release 16 gives rules by their type
KINDS = {"replicated": 1, "erasure": 3}


def create_simple(maps, words):
    name, root, type_, mode = words.take(3, 4, "NAME ROOT TYPE [firstn|indep]")
    if mode not in (None, "firstn", "indep"):
        raise Refused("EINVAL", f"Invalid command: {mode} not in firstn|indep")
    return add_rule(maps, name, root, type_, None, mode or "firstn", "replicated")


def create_replicated(maps, words):
    name, root, type_, class_ = words.take(3, 4, "NAME ROOT TYPE [CLASS]")
    return add_rule(maps, name, root, type_, class_, "firstn", "replicated")


def create_erasure(maps, words):
    name, profile = words.take(1, 2, "NAME [PROFILE]")
    own = maps.profiles.get(profile or "default")
    if own is None:
        raise Refused(
            "EINVAL",
            (
                "cannot determine the erasure code plugin because there is no 'plugin' entry in the "
                "erasure_code_profile {}"
            ),
        )
    root, type_ = own.get("crush-root", "default"), own.get("crush-failure-domain", "host")
    size = int(own.get("k", 2)) + int(own.get("m", 1))
    return add_rule(maps, name, root, type_, own.get("crush-device-class") or None, "indep", "erasure", (3, size))


def add_rule(maps, name, root, type_, class_, mode, kind, sizes=None):
    """Adds a rule with the lowest free id, in which one of this name isn't compared."""
    crush = maps.crush
    if any(it.name == name for it in crush.rules.values()):
        return [f"rule {name} already exists: nothing is compared with it"]
    if not NAME.fullmatch(name):
        raise Refused("EINVAL", f"Invalid command: invalid chars in {name}")
    item = Wrapper(crush).id_of(root)
    if item is None:
        raise Refused("ENOENT", f"root item {root} does not exist")
    number = next((it for it, own in crush.types.items() if own == type_), None)
    if number is None:
        raise Refused("EINVAL", f"unknown type {type_}")
    if class_ and class_ not in crush.class_names:
        raise Refused("EINVAL", f"device class {class_} does not exist")
    if class_ and (item, class_) not in crush.shadow_ids:
        raise Refused("EINVAL", f"root {root} has no devices with class {class_}")
    item = crush.shadow_ids[item, class_] if class_ else item
    id_ = next(it for it in range(len(crush.rules) + 1) if it not in crush.rules)
    choose = ("choose" if number == 0 else "chooseleaf", mode, 0, type_)
    tries = TRIES if mode == "indep" else ()
    known = any(it.sizes for it in crush.rules.values())
    crush.rules[id_] = Rule(
        id_,
        name,
        kind,
        [*tries, ("take", item, None), choose, ("emit",)],
        (sizes or SIZES[KINDS[kind]]) if known else None,
    )
    return []


def remove(maps, words):
    (name,) = words.take(1, 1, "NAME")
    rule = next((it for it in maps.crush.rules.values() if it.name == name), None)
    if rule is None:
        return [f"rule {name} does not exist"]
    if any(it.rule == rule.id for it in maps.pools.values()):
        raise Refused("EBUSY", f"crush rule {name} is in use")
    del maps.crush.rules[rule.id]
    return []


COMMANDS = {
    ("osd", "crush", "rule", "create-simple"): create_simple,
    ("osd", "crush", "rule", "create-replicated"): create_replicated,
    ("osd", "crush", "rule", "create-erasure"): create_erasure,
    ("osd", "crush", "rule", "rm"): remove,
}
