"""Texts of small maps, each for one thing, and their canonical texts where these are written by
hand."""
import pathlib

CASES = pathlib.Path(__file__).resolve().parent.parent / "program" / "cases"


def tiny(device=0):
    """23 lines: one device in one uniform bucket, and one rule."""
    return (
        (CASES / "tiny.map")
        .read_text()
        .replace("device 0 osd.0", f"device {device} osd.{device}")
        .replace(" item osd.0", f" item osd.{device}")
    )


def with_line(text, number, line):
    """A text with another line in the place of one (None: without it)."""
    lines = text.split("\n")
    lines[number - 1 : number] = [] if line is None else line.split("\n")
    return "\n".join(lines)


def hosts():
    """Two devices, each in a list bucket of its own; the second bucket weighs nothing."""
    head = tiny().split("\n")[:10]
    head[6:7] = ["device 0 osd.0", "device 1 osd.1"]
    return (
        "\n".join(head)
        + """
host h0 {
 id -2
 alg list
 hash 0
 item osd.0 weight 1.0
}
host h1 {
 id -3
 alg list
 hash 0
 item osd.1 weight 1.0
}
root default {
 id -1
 alg list
 hash 0
 item h0 weight 1.0
 item h1 weight 0
}
rule all {
 id 0
 type replicated
 step take default
 step chooseleaf firstn 2 type host
 step emit
}
"""
    )


def never_picked(kind):
    """Three buckets of this kind with the same two devices, of which the second is in and weighs
    nothing, and a rule with the most tries for 64 of them."""
    head = tiny().split("\n")[:10]
    head[2] = "tunable choose_total_tries 999"
    head[6:7] = ["device 0 osd.0", "device 1 osd.1"]
    under = [
        f"host h{it} {{\n id {-2 - it}\n alg {kind}\n hash 0\n item osd.0 weight 1.0\n item osd.1 weight 0\n}}"
        for it in range(3)
    ]
    steps = [
        "set_choose_tries 1000",
        "set_chooseleaf_tries 1000",
        "take default",
        "chooseleaf firstn 64 type host",
        "emit",
    ]
    root = (
        f"root default {{\n id -1\n alg {kind}\n hash 0\n"
        + "".join(f" item h{it} weight 1.0\n" for it in range(3))
        + "}"
    )
    return "\n".join(
        [*head, *under, root, "rule all {\n id 0\n type replicated", *(f" step {it}" for it in steps), "}\n"]
    )


def canonical_tiny(device=0):
    """The canonical text of tiny, by the form of canonical texts."""
    return f"""# begin crush map
tunable choose_local_tries 0
tunable choose_local_fallback_tries 0
tunable choose_total_tries 50
tunable chooseleaf_descend_once 1
tunable chooseleaf_vary_r 1
tunable chooseleaf_stable 1

# devices
device {device} osd.{device}

# types
type 0 osd
type 1 host
type 10 root

# buckets
root default {{
\tid -1
\talg uniform
\thash 0
\titem osd.{device} weight 1.00000
}}

# rules
rule all {{
\tid 0
\ttype replicated
\tstep take default
\tstep choose firstn 0 type osd
\tstep emit
}}

# end crush map
"""


def duo():
    """Two devices in one uniform bucket."""
    return with_line(
        with_line(tiny(), 15, " item osd.0 weight 1.0\n item osd.1 weight 1.0"), 7, "device 0 osd.0\ndevice 1 osd.1"
    )


def three():
    """Three devices that the rule takes one by one."""
    taken = "\n".join(f" step take osd.{device}\n step emit" for device in range(3))
    text = with_line(with_line(with_line(tiny(), 22, None), 21, None), 20, taken)
    return with_line(text, 7, "device 0 osd.0\ndevice 1 osd.1\ndevice 2 osd.2")


def one_host():
    """Two devices in a uniform host in a list, and rules of id 0 and 1; the second has two tries
    for a leaf."""
    head = "\n".join([*tiny().split("\n")[:6], "device 0 osd.0", "device 1 osd.1", *tiny().split("\n")[7:10]])
    steps = " type replicated\n{} step take default\n step chooseleaf indep 0 type host\n step emit\n}}\n"
    return (
        head
        + """
host h {
 id -1
 alg uniform
 item osd.0 weight 1.0
 item osd.1 weight 1.0
}
root default {
 id -2
 alg list
 item h weight 1.0
}
rule all {
 id 0
"""
        + steps.format("")
        + "rule more {\n id 1\n"
        + steps.format(" step set_chooseleaf_tries 2\n")
    )


def with_devices(count, device=0):
    """The map of one device with more devices, which no bucket holds: so many from 0 on."""
    return with_line(tiny(device), 7, "\n".join(f"device {it} osd.{it}" for it in range(count)))


def with_long_text(count):
    """The map of one device with a text of some 70,000 bytes: so many more devices stand in 800
    lines of hosts, which no rule takes."""
    names = [f"device-{it:057}" for it in range(count)]
    devices = "\n".join(f"device {it} {name}" for it, name in enumerate(names, 1))
    items = "".join(f" item {name} weight 1.0\n" for name in names)
    hosts = "".join(f"host h{it} {{\n id -{it}\n alg list\n{items}}}\n" for it in range(2, 2 + 800 // count))
    return with_line(tiny(), 7, f"device 0 osd.0\n{devices}").replace("root default", f"{hosts}root default", 1)


def with_rule(number, text):
    """The map with this id for its rule."""
    return with_line(text, 18, f" id {number}")


def taking(*devices):
    """Four devices, of which the rule takes these, one by one."""
    taken = "\n".join(f" step take osd.{it}\n step emit" for it in devices)
    text = with_line(with_line(with_line(tiny(), 22, None), 21, None), 20, taken)
    return with_line(text, 7, "\n".join(f"device {it} osd.{it}" for it in range(4)))


MARK = "# crushcalc: straw2"


def marked(text):
    """A text behind the line by which it asks for straw2."""
    return f"{MARK}\n{text}"


def straw2_tiny(device=0):
    """The map of one device with a straw2 bucket."""
    return marked(with_line(tiny(device), 13, " alg straw2"))


def straw2_of(entries):
    """A marked text of a device for each entry, all in one straw2 bucket with these weights' texts,
    and the rule of the map of one device."""
    text = with_line(tiny(), 15, "\n".join(f" item osd.{device} weight {said}" for device, said in entries))
    text = with_line(text, 13, " alg straw2")
    return marked(with_line(text, 7, "\n".join(f"device {device} osd.{device}" for device, _ in entries)))


def straw2_under(entries):
    """A marked text of hosts with one device each in a straw2 root with these weights' texts."""
    text = "\n".join([*hosts().split("\n")[:23], "root default {", " id -1", " alg straw2", " hash 0"])
    text += "".join(f"\n item h{host} weight {said}" for host, said in entries) + "\n}\n"
    return marked(text + hosts()[hosts().index("rule all") :].replace("firstn 2", "firstn 0"))
