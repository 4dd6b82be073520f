"""The program's arguments and its help."""
import argparse

from .faults import Fault, nearest

VERSION = "0.1.0"
LONGEST_NUMBER = 40  # characters of a number in an argument
ABOUT = """Says from a cluster's own dumps what a drain, a failure or a changed map does, before it is done.

DIR is a folder with files that the cluster writes:

  crush.json    ceph osd crush dump -f json     the map with exact weights; taken before map.txt
  map.txt       crushtool -d                    the map, with weights rounded to three decimals
  osd.json      ceph osd dump -f json           pools, reweights, up and down, exceptions, full ratios;
                                                without it each rule is a pool (--size, --pg-num)
  df.json, osd-df.json                          ceph df detail -f json, ceph osd df -f json: bytes; if one is
                                                missing, no device counts as full
  pgs.json      ceph pg dump pgs_brief -f json  where the cluster itself says that groups lie: where they lie
                                                otherwise than computed, every answer is "unknown"

'crushplan fetch DIR' writes them where 'ceph' is there. Nothing here changes a cluster.
Pools over straw2, list, tree and uniform buckets are computed, by the program crushcalc; what isn't,
as pools over straw buckets, is named with what to do."""
END = """examples:
  crushplan fetch july                        the files of the cluster, into the folder july
  crushplan check july                        what of it can be computed, and what can't
  crushplan drain july host3                  may host3 be drained? The summary, then usage before and after
  crushplan fail july --each rack             each rack in turn, the worst first
  crushplan drain july 'r1h*' --html july.html   a page of it, to be sent by mail

Exit status of drain and fail: 0 yes, every copy has room (and of fail no I/O stops); 1 no;
2 what isn't computed may concern the devices. Of each command 2 where groups lie otherwise in the
cluster than computed.
'crushplan help COMMAND' has an example of each command. docs/CRUSHPLAN.md has the fields of --json."""
COMMANDS = {
    "fetch": (
        "writes the files of a cluster into DIR, by commands that only read it",
        "crushplan fetch july --ceph 'ceph --cluster backup'",
    ),
    "check": (
        "says what can be computed, what can't, and where the map has holes",
        "crushplan check july --mend mended.txt",
    ),
    "usage": (
        "shows how much of all pools or some lies where, beside what the weights ask for",
        "crushplan usage july photos --by host",
    ),
    "compare": ("shows what moves where the map becomes that of NEW", "crushplan compare july new.txt --groups"),
    "drain": (
        "says whether hosts, racks or devices can be drained, and what that moves",
        "crushplan drain july host3 osd.17",
    ),
    "fail": (
        "says what happens while hosts, racks or devices are down, and once they are out",
        "crushplan fail july --each host",
    ),
    "plan": (
        "says what the lines of a runbook do, step by step, before they are typed",
        "crushplan plan july runbook --rate 80",
    ),
    "balance": (
        "proposes upmap items that even out pools, as lines to type",
        "crushplan balance july photos --moves 200",
    ),
    "upmap": ("shows what a list of upmap commands does, before it is sent", "crushplan upmap july commands.sh"),
    "locate": ("shows where objects of a pool lie, or groups", "crushplan locate july photos cat.jpg dog.jpg"),
    "metrics": (
        "writes what is watched of a cluster, in Prometheus' text format",
        "crushplan metrics july --to july.prom",
    ),
}
NAMES = "a host, a rack or a device; several as osd.1-5, or by * ? [..] as 'r1h*'"
CLASS = "of these (without names of all) the devices of a class alone, as ssd"
STATUSES = {
    "fetch": "0 where the map and the pools were written, 2 where they weren't.",
    "check": (
        "0 where every pool can be computed, 1 where some can, 2 where none can, or groups lie otherwise than computed."
    ),
    "usage": "0; 2 where it couldn't be computed.",
    "compare": (
        "0; 1 where copies have no device afterwards, or a device whose weight stays gets more and is then past the"
        " backfill-full ratio; 2 where not all could be computed. Of several maps 1 where it is 1 for one, else 2."
    ),
    "drain": (
        "0 yes, every copy has room; 1 no; 2 where what isn't computed may concern the devices, where files on room"
        " lack a part, and after an error."
    ),
    "fail": (
        "0 yes, no I/O stops and every copy has room; 1 no; 2 where what isn't computed may concern the devices, where"
        " files on room lack a part, and after an error."
    ),
    "plan": (
        "0 yes, every line is taken and every copy has room; 1 no, with the step that decides; 2 where a line isn't"
        " foretold, or what isn't computed may concern it."
    ),
    "balance": "0; 1 where devices stay off, or it was interrupted; 2 where not all could be computed.",
    "upmap": "0; 1 where Ceph would remove some of the items again; 2 where not all could be computed.",
    "locate": "0; 2 where it couldn't be computed, or a line of a list isn't a name that is.",
    "metrics": (
        "0; 2 where groups lie otherwise than computed, which is written too, or where nothing could be written."
    ),
}
MORE = {
    "check": (
        "By pgs.json each group is compared with where the cluster says that it lies, without it the numbers of groups"
        " in osd-df.json by device. A removed device leaves a hole in a tree bucket. crushcalc refuses such a map (code"
        " M6), and crushplan fills each hole by a device of weight 0, with which every group lies as in Ceph."
    ),
    "usage": (
        "The share is what weights and reweights give an item of the copies that there are; 'bytes' are its part of the"
        " pools' bytes."
    ),
    "compare": (
        "NEW is a text as 'crushtool -d' writes it, or a dump. Of pools over straw buckets, which NEW makes straw2,"
        " pgs.json says where groups lie before. The least is what the change of weights alone asks for; where a rule"
        " takes nearly as many hosts or racks as there are, less may move."
    ),
    "drain": (
        "The reweights of the devices become 0, as by 'ceph osd out'. Only groups of the impact lists of crushcalc can"
        " move: that no other group does is proved, while no reweight is raised, and map and upmap items stay. A copy"
        " has no room where it has no device that is up, or where its device gets more and is then past the"
        " backfill-full ratio."
    ),
    "locate": (
        "An OBJECT is a name, and never a group, which --group names: 'crushplan locate july --group 5.1f', as 'ceph pg"
        " map 5.1f'. 'crushplan usage DIR --groups' lists all groups.\n\nWith --objects the rows of a list are written"
        " in its order, in constant memory, on all processors: object, group, up and primary, and with --only-on how"
        " many copies are left elsewhere. A line that isn't computed has no row: it is named on standard error (of many"
        " the first 20) and counted, and the status is 2. These are empty lines, those longer than 1,024 bytes, not in"
        " UTF-8 or with a carriage return, and lines with a tab, by which 'rados ls' names a namespace or a locator"
        " key."
    ),
    "metrics": (
        "Of each host, or each bucket of another type, its failure is computed, as 'crushplan fail --each' does. What"
        " isn't known has no line. With --to the file is written whole or not at all, and keeps what it has where there"
        " is no answer: crushplan_dumps_timestamp_seconds says how old that is."
    ),
    "fail": (
        "First what holds while the devices are down: groups with fewer copies than the pool's min_size, whose I/O"
        " stops (in stretch mode that is unknown). Then what their going out moves."
    ),
    "plan": (
        "FILE has commands of 'ceph' as they are typed, with 'wait' between steps: until all groups are clean. A line"
        " that Ceph would refuse is said with Ceph's reason, and nothing behind it is foretold. On the way a device"
        " counts all that it gets before what it loses is gone. Hours are those of the busiest device, which reads and"
        " writes MB a second in all.\n\nCommands of 'ceph osd': out, in, reweight, down, set, unset, new, rm, destroy,"
        " purge, primary-affinity; pool set (size, min_size, crush_rule, pgp_num); pg-upmap, pg-upmap-items,"
        " pg-upmap-primary, and with rm-; setcrushmap. Of 'ceph osd crush': reweight, reweight-subtree, reweight-all,"
        " add, set, create-or-move, move, link, unlink, rm, add-bucket, swap-bucket, rename-bucket, set-device-class,"
        " rm-device-class, set-all-straw-buckets-to-straw2, tunables; rule create-simple, create-replicated,"
        " create-erasure, rm; weight-set create, create-compat, reweight, reweight-compat, rm, rm-compat. 'systemctl"
        " stop ceph-osd@3' stops an OSD, and start starts it."
    ),
    "balance": (
        "POOL are names or ids of pools; without one all are evened out. Each device ends with its share by the rule,"
        " rounded down or up: the share by weights and reweights, but no host or rack that holds one copy of a group"
        " gets two. Beside what moves stands the least that any list of items would move. Of several pools with df.json"
        " the bytes are evened out too. Ctrl-C ends the search, with what is found so far. The lines are those that"
        " 'crushplan upmap' reads; 'ceph balancer off' first, as the cluster's own balancer changes items too."
    ),
    "upmap": (
        "FILE has lines 'ceph osd pg-upmap-items GROUP FROM TO ..' or 'ceph osd rm-pg-upmap-items GROUP', as"
        " 'osdmaptool --upmap FILE' writes them, or 'ceph osd pg-upmap-primary GROUP DEVICE' or 'rm-pg-upmap-primary"
        " GROUP'; '-' is standard input."
    ),
}


class Misuse(Exception):
    """Arguments that aren't of the program's forms: the usage, the program and what is wrong."""

    def __init__(self, parser, why):
        super().__init__(why)
        self.usage, self.prog = parser.format_usage(), parser.prog


class Parser(argparse.ArgumentParser):
    """A parser that leaves to the program how its errors are written, and its help."""

    def error(self, message):
        raise Misuse(self, message)

    def print_help(self, file=None):
        from .main import write_out

        write_out(self.format_help())


def positive(text):
    if not text.isdigit() or not 0 < int(text) <= 65536:
        raise argparse.ArgumentTypeError(f"{text!r} isn't a whole number from 1 to 65536")
    return int(text)


def at_least(least, most=None):
    """Returns a function that reads a number as 4, 2.5 or 7/3, with bounds."""

    def read(text):
        import fractions  # takes a while to read

        try:
            value = fractions.Fraction(text) if len(text) <= LONGEST_NUMBER else None
        except (ValueError, ZeroDivisionError):
            value = None
        if value is None or value < least or most is not None and value > most:
            bounds = f"from {float(least):g}" + (f" to {most}" if most is not None else " on")
            raise argparse.ArgumentTypeError(f"{text[:LONGEST_NUMBER]!r} isn't a number {bounds}, as 4, 2.5 or 7/3")
        return value

    return read


def copies(text):
    if not text.isdigit() or len(text) > LONGEST_NUMBER:
        raise argparse.ArgumentTypeError(f"{text!r} isn't a whole number")
    return int(text)


def common(words):
    """Adds the options of all commands that compute."""
    if words.prog.split()[-1] in DRAWN:
        words.add_argument("--html", metavar="FILE", help="also writes the answer as a page with a drawing, one file")
    form = words.add_mutually_exclusive_group()
    form.add_argument(
        "--json",
        dest="form",
        action="store_const",
        const="json",
        default="text",
        help="writes one object of JSON, with all of it",
    )
    form.add_argument("--csv", dest="form", action="store_const", const="csv", help="writes the main table as CSV")
    words.add_argument(
        "--service",
        metavar="URL",
        help=(
            "asks a server, at its own port, instead of the program: a tenant of its own, of which nginx's example has"
            " no users, and which is dropped at the end"
        ),
    )
    if words.prog.split()[-1] in SPREAD:
        words.add_argument(
            "--on",
            metavar="URL",
            help=(
                "asks the workers of Dask's scheduler at tls://HOST:8786, with the certificates that Dask is configured"
                " with; each needs the same crushplan and crushcalc"
            ),
        )
    words.add_argument(
        "--program", metavar="FILE", help="the program crushcalc (otherwise the one beside crushplan, or on PATH)"
    )
    described = words.add_argument_group("where there is no osd.json")
    described.add_argument("--size", type=positive, metavar="N", help="the size of each rule's pool (3)")
    described.add_argument("--pg-num", type=positive, metavar="N", help="its number of groups (128)")
    described.add_argument("--min-size", type=positive, metavar="N", help="its min_size")
    words.add_argument(
        "--allow-unplaced", action="store_true", help="takes an osd.json with devices, up and in, that the map lacks"
    )


def parser(words=()):
    """Returns the parser of all arguments. Where the first of the words is a command, it may lack
    the other commands: to make the parsers of all takes longer than to read a small cluster."""
    own = {words[0]: COMMANDS[words[0]]} if words and words[0] in COMMANDS else COMMANDS
    raw = argparse.RawDescriptionHelpFormatter
    whole = Parser(prog="crushplan", description=ABOUT, epilog=END, formatter_class=raw, allow_abbrev=False)
    whole.add_argument("--version", action="store_true", help="says its version, and that of crushcalc")
    # what the completions of shells ask: names of one kind that a folder has
    whole.add_argument("--names", dest="names_of", nargs=2, metavar=("KIND", "DIR"), help=argparse.SUPPRESS)
    commands = whole.add_subparsers(dest="command", metavar="COMMAND", title="commands", prog=whole.prog)
    for name, (what, example) in own.items():
        more = f"\n\n{MORE[name]}" if name in MORE else ""
        one = commands.add_parser(
            name,
            help=what,
            description=f"{what[0].upper()}{what[1:]}.{more}",
            epilog=f"example: {example}\n\nexit status: {STATUSES[name]}",
            allow_abbrev=False,
            formatter_class=Wrapped,
        )
        one.add_argument("folder", metavar="DIR", help="the folder of a cluster's dumps")
        ADD[name](one)
        if name != "fetch":
            common(one)
    both = {"help": "shows this, or the help of a command", "description": "Shows the help of a command."}
    said = commands.add_parser("help", **both, allow_abbrev=False)
    said.add_argument("topic", nargs="?", metavar="COMMAND", help="one of: " + ", ".join(COMMANDS))
    whole.commands = commands.choices
    return whole


def parsed(whole, words):
    """Returns what words ask. Names may also stand behind options, where argparse, which takes no
    names for all of them by then, leaves them."""
    asked, rest = whole.parse_known_args(words)
    if rest and (any(it.startswith("-") for it in rest) or not take_rest(asked, rest)):
        whole.error(f"unrecognized arguments: {' '.join(rest)}")
    if getattr(asked, "pool", None):
        asked.names, asked.pool = [*asked.names, *asked.pool], []
    return asked


def take_rest(asked, rest):
    """Takes words as further names of a command, and returns whether it has any."""
    if asked.command in ("balance", "drain", "fail", "usage"):
        asked.names = [*asked.names, *rest]
    elif asked.command == "compare":
        asked.others = [*asked.others, *rest]
    elif asked.command == "locate":
        first = [] if asked.pool_name is None else [asked.pool_name]
        asked.pool_name, *asked.objects = [*first, *asked.objects, *rest]
    else:
        return False
    return True


def help_of(whole, topic):
    """Writes the help of the program, or of a command."""
    if topic is None:
        whole.print_help()
    elif topic in whole.commands:
        whole.commands[topic].print_help()
    else:
        raise Fault(f"there is no command {topic!r}{nearest(topic, COMMANDS)}")


class Wrapped(argparse.RawDescriptionHelpFormatter):
    """Breaks the lines of a description, and keeps its paragraphs."""

    def _fill_text(self, text, width, indent):
        return "\n\n".join(argparse.HelpFormatter._fill_text(self, it, width, indent) for it in text.split("\n\n"))


def add_fetch(words):
    words.add_argument("--ceph", default="ceph", metavar="COMMAND", help="the command, with its options")
    words.add_argument("--crushtool", default="crushtool", metavar="COMMAND", help=argparse.SUPPRESS)
    words.set_defaults(form="text")


def add_check(words):
    words.add_argument("--mend", metavar="FILE", help="writes the map's text with its holes filled")


def add_pools(words):
    """Adds pools, which stand by themselves or each behind --pool."""
    words.add_argument("names", nargs="*", metavar="POOL", help="a pool, by its name or id (all)")
    words.add_argument("--pool", action="append", default=[], metavar="P", help="the same; may stand several times")


def add_usage(words):
    add_pools(words)
    words.add_argument("--by", metavar="TYPE", help="by host, rack or another type (by device)")
    words.add_argument("--groups", action="store_true", help="lists where each group lies")


def add_compare(words):
    words.add_argument("new", metavar="NEW", help="the changed map")
    words.add_argument(
        "others", nargs="*", metavar="NEW", help="further ones: then a line each, what moves least first"
    )
    words.add_argument("--groups", action="store_true", help="lists the groups that move")


def add_drain(words):
    words.add_argument("names", nargs="*", metavar="NAME", help=NAMES)
    words.add_argument("--class", dest="of_class", metavar="CLASS", help=CLASS)
    words.add_argument("--by", metavar="TYPE", help="usage by host, rack or another type")
    words.add_argument("--groups", action="store_true", help="lists the groups that move")


def add_fail(words):
    words.add_argument("names", nargs="*", metavar="NAME", help=NAMES)
    words.add_argument("--class", dest="of_class", metavar="CLASS", help=CLASS)
    words.add_argument("--each", metavar="TYPE", help="every host, rack or osd in turn: one line each, the worst first")
    words.add_argument("--by", metavar="TYPE", help="usage by host, rack or another type")
    words.add_argument("--groups", action="store_true", help="lists the groups that are short, and those that move")


def add_balance(words):
    add_pools(words)
    words.add_argument("--class", dest="of_class", metavar="CLASS", help="what rules take of a class alone, as ssd")
    until = words.add_mutually_exclusive_group()
    until.add_argument(
        "--deviation", type=at_least(0.5), metavar="D", help="only until each device is within D copies of its share"
    )
    until.add_argument("--moves", type=copies, metavar="N", help="as even as it gets by at most N copies that move")
    until.add_argument(
        "--until-fill", type=at_least(0, 100), metavar="P", help="only until no device is past P %% of its room"
    )
    until.add_argument(
        "--primaries",
        action="store_true",
        help="evens out primaries instead, by pg-upmap-primary (releases from 18), which moves no data",
    )
    words.add_argument(
        "--for-bytes",
        type=copies,
        default=5,
        metavar="P",
        help="P %% more moves to even out the bytes of several pools (5)",
    )
    words.add_argument("--lines", metavar="FILE", help="also writes the lines alone into a file")


def add_upmap(words):
    words.add_argument("file", metavar="FILE", help="the list of commands")


def add_plan(words):
    words.add_argument("file", metavar="FILE", help="the runbook; '-' is standard input")
    words.add_argument(
        "--rate", type=rate, metavar="MB", help="megabytes that a device reads and writes in a second: says hours"
    )
    words.add_argument("--orders", action="store_true", help="also tries the lines between two waits one by one")
    words.add_argument("--groups", action="store_true", help="lists the groups that move, in JSON and CSV")
    # of the manager's module: what it is sent may name no file of its machine
    words.add_argument("--no-files", action="store_true", help=argparse.SUPPRESS)


def rate(text):
    import fractions  # takes a while to read

    try:
        value = fractions.Fraction(text)
    except (ValueError, ZeroDivisionError):
        value = 0
    if not 0 < value <= 10**9:
        raise argparse.ArgumentTypeError(f"{text!r} isn't a number above 0")
    return value


def add_locate(words):
    words.add_argument("pool_name", nargs="?", metavar="POOL", help="the pool, by its name or id")
    words.add_argument("objects", nargs="*", metavar="OBJECT", help="the name of an object")
    words.add_argument(
        "--group",
        action="append",
        default=[],
        metavar="GROUP",
        help="a group, as 5.1f, in place of a pool and objects; may stand several times",
    )
    words.add_argument(
        "--objects",
        dest="names_from",
        metavar="FILE",
        help="names as 'rados ls' writes them, as many as there are; '-' is standard input. Writes CSV",
    )
    words.add_argument(
        "--only-on",
        metavar="NAME,..",
        help="of --objects just those that lie on these hosts, racks or devices, with the copies left elsewhere",
    )
    words.add_argument(
        "--left", type=copies, metavar="N", help="of these just those with at most N copies left: what is at risk"
    )
    words.add_argument("--no-head", action="store_true", help="writes no line of heads, as a part of a pipe")


def add_metrics(words):
    words.add_argument(
        "--each",
        action="append",
        default=[],
        metavar="TYPE",
        help="a type whose buckets fail in turn: host, rack or osd; may stand several times (host)",
    )
    words.add_argument("--to", metavar="FILE", help="writes the text into a file, whole or not at all")


SPREAD = ("compare", "fail", "plan", "balance")  # over several machines
DRAWN = ("check", "usage", "compare", "drain", "fail", "plan", "balance", "upmap")
ADD = {
    "fetch": add_fetch,
    "check": add_check,
    "usage": add_usage,
    "compare": add_compare,
    "drain": add_drain,
    "fail": add_fail,
    "plan": add_plan,
    "balance": add_balance,
    "upmap": add_upmap,
    "locate": add_locate,
    "metrics": add_metrics,
}
