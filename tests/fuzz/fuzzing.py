"""Inputs made from good ones by damage to their bytes and words, all drawn from a seed: lines of
scripts, texts of maps, CSV, bodies, streams."""
import json
import pathlib
import re

from model import maps, messages
from program import exception_cases, hostile_cases
from model.messages import body
from program import map_cases, pool_cases, report_cases, straw2_cases

HERE = pathlib.Path(__file__).resolve().parent
LONGEST = 8_000
CLUSTER = (HERE.parent.parent / "examples" / "cluster.txt").read_text()
TENANTS = (b"a", b"b", b"c", b"d")
NUMBERS = (
    b"0",
    b"1",
    b"-1",
    b"-0",
    b"2",
    b"7",
    b"8",
    b"32",
    b"33",
    b"64",
    b"65",
    b"255",
    b"256",
    b"1.5",
    b"1e1",
    b"65535",
    b"65536",
    b"65537",
    b"4294967295",
    b"4294967296",
    b"2147483647",
    b"2147483648",
    b"9223372036854775808",
    b"18446744073709551616",
    b"00",
    b"",
    b"0.00001",
)
WORDS = (
    b"osd.0",
    b"host",
    b"root",
    b"{",
    b"}",
    b"item",
    b"weight",
    b"pos",
    b"id",
    b"alg",
    b"list",
    b"tree",
    b"uniform",
    b"straw2",
    b"hash",
    b"class",
    b"ssd",
    b"step",
    b"take",
    b"emit",
    b"choose",
    b"chooseleaf",
    b"firstn",
    b"indep",
    b"type",
    b"rule",
    b"device",
    b"tunable",
    b"default",
    b"@",
    b"#",
    b"choose_args",
    b"set_choose_tries",
    b"min_size",
    b"1.0",
    b"0.5",
)
KEYWORDS = frozenset(it for it in WORDS if it.isalpha() or b"_" in it) - {b"osd.0", b"host", b"root", b"default"} | {
    b"text",
    b"request",
    b"bucket",
    b"items",
    b"kind",
    b"x",
    b"r",
    b"exceptions",
    b"group",
    b"from",
    b"to",
}
BYTES = (0, 9, 10, 13, 32, 34, 35, 44, 45, 46, 47, 48, 57, 58, 91, 92, 93, 123, 125, 127, 128, 192, 195, 237, 255)


def texts():
    """Texts of maps that are short enough to be damaged often."""
    within = (it.encode() for _, it, _, _, _ in hostile_cases.TEXT_LIMITS)
    stored = (
        (HERE.parent / "program" / "cases" / "jewel.map").read_bytes(),
        (HERE.parent.parent / "examples" / "three_hosts.txt").read_bytes(),
        (HERE.parent.parent / "examples" / "cluster.txt").read_bytes(),
    )
    made = (maps.tiny(), maps.hosts(), maps.duo(), maps.three(), maps.one_host())
    straw2 = (
        *(it for _, it, _ in straw2_cases.short_texts()),
        maps.marked(maps.never_picked("straw2")),
        maps.marked(CLUSTER.replace("alg list", "alg straw2")),
    )
    return [it for it in (*stored, *(it.encode() for it in (*made, *straw2)), *within) if 0 < len(it) <= LONGEST]


def picks():
    """Bodies of picks that are answered, of each kind of bucket."""
    answered = [
        sent for _, sent, reply in hostile_cases.BODIES if reply == hostile_cases.SEVEN and len(sent) <= LONGEST
    ]
    rows = [
        [(4, 65536), (9, 65536), (-5, 65536)],
        [(0, 1), (1, 0), (2, 4_294_967_294)],
        [(it, it * 1000) for it in range(20)],
        [(it, 65536) for it in range(0, 90, 7)],
    ]
    return answered + [
        body(row, kind, -77, x, r)
        for row in rows
        for kind in ("uniform", "list", "tree")
        for x, r in ((0, 0), (4_294_967_295, 2_147_483_647))
    ]


def tables():
    """Changes of devices as a spreadsheet writes them."""
    made, rows = messages.lines_of, ("0,65536,1", "11,0,0", "5,32768,1", "00007,0000040000,0")
    return [
        made(*rows),
        made(*rows, end="\r\n"),
        made(*rows, end="\r"),
        made("1,2,1"),
        made("1,2,1", "2,2,0")[:-1],
        "\ufeff" + made("3,1,1", "", "4,1,1"),
        'id,reweight,up\n"6","1","0"\n8,"65536",1\n',
        '"id","reweight","up"\r\n9,1,1\r\n',
    ]


def sessions():
    """The scripts of the cases and of the examples, as lists of lines of the tenant a; long lines
    and long scripts are left out."""
    found = [path.read_bytes().splitlines() for path in sorted((HERE.parent.parent / "examples").glob("*.script"))]
    found += [
        [line for line, _ in pairs]
        for module in (map_cases, pool_cases, report_cases, exception_cases)
        for _, pairs in module.cases()
    ]
    found += [
        [b"PUT /t/a", *(b"POST /t/a/pick " + sent for _, sent, _ in hostile_cases.BODIES)],
        exceptions(),
        [line for line, _ in hostile_cases.exceptions()],
    ]
    return [
        lines for lines in ([it for it in lines if 0 < len(it) <= LONGEST] for lines in found) if 0 < len(lines) <= 120
    ]


def exceptions():
    """A session of exceptions alone, most of which are accepted, with the groups that they
    change."""
    lines = [
        b"PUT /t/a",
        messages.import_of(CLUSTER),
        messages.pool_of("p1", size=3),
        messages.pool_of("p2", id=2, name="q", size=2, kind="erasure"),
    ]
    for place in range(20):
        pool, group, old, new = 1 + place % 2, place % 8, place % 12, (place * 5 + 1) % 12
        pairs = [
            (group, old, new),
            *((it % 8, it % 12, (it + 1 + place) % 12) for it in range(1 + place % 5) if place % 12 != 11),
        ]
        pairs = [it for it in pairs if it[1] != it[2]]
        lines += [
            messages.exceptions_of(f"x{place}", *pairs, pool=pool),
            messages.group_of(group, pool),
            messages.shown_of(pool),
            messages.impact_of(new, pool),
        ]
    return lines


def is_number(word):
    return word[:1].isdigit() or (word[:1] == b"-" and word[1:2].isdigit())


def with_bytes_damaged(drawn, data):
    """One change of bytes: one more, one less, another, a part twice, a part less, two
    exchanged."""
    data, how = bytearray(data), drawn.randrange(6)
    at = drawn.randrange(len(data) + 1)
    if how == 0:
        data.insert(at, drawn.choice(BYTES))
    elif how == 1:
        del data[at : at + 1]
    elif how == 2 and data:
        data[at - 1] = drawn.choice(BYTES) if drawn.random() < 0.7 else drawn.randrange(256)
    elif how == 3:
        part = data[at : at + drawn.choice((1, 2, 8, 40))]
        data[at:at] = part
    elif how == 4:
        del data[at : at + drawn.choice((2, 8, 40))]
    elif len(data) > 1:
        one, other = drawn.randrange(len(data)), drawn.randrange(len(data))
        data[one], data[other] = data[other], data[one]
    return bytes(data)


def with_words_damaged(drawn, data):
    """One change of words: another number for a number, a word like it for a word, any word, a word
    less, one twice, two exchanged, nothing behind it."""
    words = re.findall(rb"[A-Za-z0-9._-]+|[^A-Za-z0-9._-]", data, re.S)
    if not words:
        return data
    own = [place for place, it in enumerate(words) if it.strip()] or [0]
    at, how = drawn.choice(own), drawn.randrange(16)
    if how <= 7:
        numbers = [place for place in own if is_number(words[place])] or own
        at = drawn.choice(numbers)
        words[at] = drawn.choice(NUMBERS) if drawn.random() < 0.5 else words[drawn.choice(numbers)]
    elif how <= 10:
        names = [
            place
            for place in own
            if words[place][:1].isalpha() and (words[place] not in KEYWORDS or drawn.random() < 0.1)
        ] or own
        words[drawn.choice(names)] = words[drawn.choice(names)]
    elif how == 11:
        words[at] = drawn.choice(WORDS)
    elif how == 12:
        del words[at]
    elif how == 13:
        words.insert(at, words[drawn.choice(own)])
    elif how == 14:
        other = drawn.choice(own)
        words[at], words[other] = words[other], words[at]
    else:
        begin, end = sorted((at, drawn.choice(own)))
        del words[begin : end if drawn.random() < 0.7 else len(words)]
    return b"".join(words)


def damaged(drawn, data):
    for _ in range(drawn.choice((1, 1, 1, 1, 2, 3))):
        data = (with_bytes_damaged if drawn.random() < 0.2 else with_words_damaged)(drawn, data)
    return data


def member_damaged(drawn, sent):
    """A body whose text or CSV is damaged and then sent as JSON that is whole; another body is
    damaged as it is."""
    try:
        asked = json.loads(sent)
        name = next(it for it in ("text", "csv") if it in asked)
        asked[name] = damaged(drawn, asked[name].encode()).decode("utf-8", "replace")
        return json.dumps(asked, separators=(",", ":"), ensure_ascii=drawn.random() < 0.5).encode()
    except (ValueError, TypeError, StopIteration, AttributeError):
        return damaged(drawn, sent)


def line_damaged(drawn, line):
    """A line whose body, its text, its path or the whole of it is damaged. It has no line end in
    it."""
    method, path, *sent = line.split(b" ", 2)
    how = drawn.random()
    if sent and how < 0.75:
        line = b" ".join((method, path, (member_damaged if drawn.random() < 0.6 else damaged)(drawn, sent[0])))
    elif how < 0.9:
        line = b" ".join((method, damaged(drawn, path), *sent))
    else:
        line = damaged(drawn, line)
    return line.replace(b"\n", b" ").rstrip(b"\r")


def of_tenant(line, tenant):
    return line.replace(b"/t/a", b"/t/" + tenant, 1)


def lines_of(drawn, whole, count):
    """So many lines: each tenant plays one session after another, and the tenants take turns. A
    part of the lines is damaged."""
    found, playing = [], {tenant: iter(()) for tenant in TENANTS}
    while len(found) < count:
        tenant = drawn.choice(TENANTS)
        line = next(playing[tenant], None)
        if line is None:
            playing[tenant] = iter(drawn.choice(whole))
            line = b"DELETE /t/a"
        line = of_tenant(line, tenant)
        # without its tenant a session says little
        if drawn.random() < (0.02 if line.startswith(b"PUT ") else 0.35):
            line = line_damaged(drawn, line)
        if line:
            found.append(line)
    return found


def stream_of(drawn, lines):
    """Messages of these lines, with heads as clients write them."""
    parts = []
    for line in lines:
        method, path, *sent = line.split(b" ", 2)
        headers = [b"Host: localhost"] * drawn.randrange(2) + [
            b"X-%d: %s" % (it, b"y" * drawn.randrange(30)) for it in range(drawn.choice((0, 0, 1, 5)))
        ]
        name = drawn.choice((b"Content-Length", b"content-length", b"CONTENT-LENGTH"))
        headers += [name + b": %d" % len(it) for it in sent]
        parts.append(
            b"%s %s HTTP/1.1\r\n" % (method, path) + b"".join(it + b"\r\n" for it in headers) + b"\r\n" + b"".join(sent)
        )
    return b"".join(parts)
