"""The walks that are counted, and what no type says of them: which branches they take.

All: the connection is open, no call fails, and nothing waits to be written; the head and body come
with one read. The store is the server's over a file, and the tenant is kept in memory. The map has
list buckets of fewer than eight items and a rule take, chooseleaf firstn, emit; all devices are up
with their whole weight, without exceptions, and each try succeeds. A group is asked for the first
time. An import is new, for a tenant with an earlier version and a pool.
"""
import functools
from typing import NamedTuple


class Route(NamedTuple):
    """`variants`: of a type, those that are taken. `never`: functions that aren't entered.
    `not_by`: of a function, the calls that it doesn't make. `again`: of functions whose second call
    goes further, the calls that the first doesn't make. `traits`: the types of generics by their
    bound, or by bound and file. A walk begins at each of `starts`, one after the other."""

    variants: dict
    not_by: dict
    never: frozenset = frozenset()
    again: dict = {}
    traits: dict = {}
    starts: tuple = ()

    def takes(self, type, variant):
        """Whether a variant is taken; None where the route doesn't say."""
        return variant in self.variants[type].split() if type in self.variants else None

    def variants_but(self, known):
        """Those of its variants that aren't known."""
        found = {(type, it) for type, its in self.variants.items() for it in its.split() if type != "Result"}
        return found - known

    def entries(self):
        return {(name, call) for name, calls in self.not_by.items() for call in calls.split()}


TRAITS = {
    "TenantStore": "CachedStore",
    ("TenantStore", "ready_store.rt"): "WatchedStore",
    ("TenantStore", "watched_store.rt"): "Store",
    "Read": "Client",
    "Write": "Client",
    "Watch": "FileWatch",
    "ReportRow": "UsageRow",
}
# the reply is held, and written before the next read
STARTS = ("connection.rt serve_all", "writing.rt write_whole")
# the first reading finds nothing in the buffer
AGAIN = {
    "read_message": "bytes request_of read_body",
    "read_head": "",
    "Buffer::read_from": "read",
    "write_whole": "write",
}
# what says why a request is refused
NEVER = "out_of_grammar at_line fault_at refused store_fault fault_of refusal put_rejection"
ALL = {"serve_all": "finish", "read_body": "read_rest", "HeldBytes::put": "flush write_whole"}
NO_BODY = {"headers.rt size_of": "size_by_length"}
KEPT = {"KeptTenants::put": "forget", "evict": "size_of"}
# each try succeeds, on the map that is said above
PLACING = {
    "Perms::build": "Slot::new",
    "attempt_at": "kind is_uniform size",
    "Scratch::found": "found_in_steps",
    "list_place": "last_of_eight",
    "Plan::put_out": "choose_indep",
    "Firstn::decide": "is_due can_place",
    "Firstn::leaf_below": "is_due can_have_leaf",
    "is_in": "hash2",
    "Placing::set_up": "ExceptedSlots::new items",
}
GROUP = {
    "decide_request": "decide_loaded",
    "number_beside": "has",
    "PlacementCache::place_known": "place_anew",
    "PlacementCache::place_numbered": "kept place_and_keep",
}
LOADED = {"decide_cached": "cached answer_cached", "CachedStore::load": "WatchedStore.load keep"}
USAGE = {
    "decide_cached": "answer_cached",
    "CachedStore::cached": "get inventory pools find",
    "receipt_of": "find_receipt as_str",
    "Answers::build": "run_next items",
    "Placer::look_ahead": "seed_of parts look_ahead",
}
IMPORT = {
    "receipt_in": "receipt_from",
    "apply_to": "reply_again",
    "read_words": "stopped",
    "item_weight": "is_token",
    "step": "setting set_value",
    "Judge::items_of": "named_places arranged",
    "Judge::step_of": "set_step",
    "SymbolTable::contents_fault": "has_equal_weights",
    "Numbers::add": "table_of",
    "write_step": "write_set_step",
    "widest_of": "size",
    "is_of_tenant": "tenant",
    "is_left": "tenant has",
    "CachedStore::commit": "commit_shared",
    "CachedStore::commit_kept": "forget",
    "count_versions": "read_inventory newest",
}
VARIANTS = {"Result": "Ok", "Kind": "List", "Draw": "List"}
ASKS = {"Action": "Query", "Effect": "Keep", "CachedAnswer": "Placed", "Step": "Take Choose Emit"}
CHANGES = {"Action": "Command", "Effect": "Change", "Product": "Version"}


def route(variants, *not_by):
    """Of what a walk shares with others, and what is its own."""
    together = functools.reduce(lambda one, other: one | other, not_by, ALL)
    return Route(VARIANTS | variants, together, frozenset(NEVER.split()), AGAIN, TRAITS, STARTS)


ROUTES = {
    "group": route(ASKS | {"Route": "Group", "Query": "Group", "Question": "Group"}, NO_BODY, KEPT, PLACING, GROUP),
    "locate": route(
        ASKS | {"Route": "Object", "Query": "Object", "Question": "Object", "CachedAnswer": "Located"},
        KEPT,
        PLACING,
        GROUP,
    ),
    "usage": route(ASKS | {"Route": "Usage", "Query": "Usage"}, NO_BODY, PLACING, LOADED, USAGE),
    "import": route(CHANGES | {"Route": "ImportMap", "Order": "ImportMap"}, KEPT, LOADED, IMPORT),
}
