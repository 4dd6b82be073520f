"""Texts of maps, heads and bodies at both sides of what is refused, each with what the rules of
requests give: for texts, run and serve."""
from model import maps, messages
from model.messages import BAD, METHOD, NO_PATH, TOO_LARGE, body, dropped, item, made, there

LENGTH = b'501 {"error":"length"}'
REUSED = messages.REUSED
BODY_LIMIT, TEXT_LIMIT, HEAD_LIMIT, HEADER_LIMIT = 5_242_880, 4_194_304, 8_192, 32
OK = "ok devices 1 buckets 1 rules 1"

# ---- texts, each with what 'crushcalc check' says of it

# two lines that each whole text needs, and three with the types
LOCAL = "tunable choose_local_tries 0\ntunable choose_local_fallback_tries 0\n"
TYPES = LOCAL + "type 0 osd type 1 host\n"


def tiny(number=None, line=""):
    """The small map, with another line; of 24 lines where the line 24 is named."""
    text = maps.tiny()
    return text + line + "\n" if number == 24 else maps.with_line(text, number, line) if number else text


def devices(count):
    return "".join(f"device {it} osd.{it}\n" for it in range(count))


def padded(text, length):
    return text + "#" * (length - len(text))


def rule(steps, number=0):
    return f"rule q {{ id {number} type erasure {steps} }}\n"


def items_of(count):
    """A bucket on the line 4102 of 4,096 devices that weigh nothing, as many as are wanted, and an
    empty bucket."""
    places = [f"item osd.{it} weight 0" for it in range(min(count, 4096))] + ["item e"] * (count > 4096)
    return TYPES + devices(4096) + "host e { id -1 alg list }\n\n" + f"host h {{ id -2 alg list {' '.join(places)} }}\n"


# what it is, a text that has as much as there may be and what is said of it, and one that has more
# and why it is refused
TEXT_LIMITS = [
    ("a text's bytes", padded("", TEXT_LIMIT), "refused line 1 code M4", padded("", TEXT_LIMIT + 1), "line 1 code X7"),
    ("a map's bytes", padded(tiny(), TEXT_LIMIT), OK, padded(tiny(), TEXT_LIMIT + 1), "line 1 code X7"),
    (
        "no type 0, and a type 0 without the local tunables",
        LOCAL + "type 0 osd",
        "ok devices 0 buckets 0 rules 0",
        "type 0 osd",
        "line 1 code M13",
    ),
    (
        "a class",
        LOCAL + "type 0 osd device 0 a class ssd",
        "ok devices 1 buckets 0 rules 0",
        "device 0 osd.0 class",
        "line 1 code X1",
    ),
    (
        "an id of a device",
        LOCAL + "type 0 osd device 65535 a",
        "ok devices 1 buckets 0 rules 0",
        "device 65536 a",
        "line 1 code M12",
    ),
    (
        "an id twice",
        LOCAL + "type 0 osd device 0 a\ndevice 1 b",
        "ok devices 2 buckets 0 rules 0",
        "device 0 a\ndevice 0 b",
        "line 2 code M2",
    ),
    (
        "a name twice",
        LOCAL + "type 0 osd device 0 a\ndevice 1 A",
        "ok devices 2 buckets 0 rules 0",
        "device 0 a\ndevice 1 a",
        "line 2 code M3",
    ),
    (
        "a type's name",
        LOCAL + "type 0 osd\ntype 1 rules",
        "ok devices 0 buckets 0 rules 0",
        "type 0 osd\ntype 1 rule",
        "line 2 code M15",
    ),
    ("a byte that begins no word", tiny(7, "device 0 osd.0 #@"), OK, "@", "line 1 code X1"),
    ("a hash", tiny(14, " hash rjenkins1"), OK, tiny(14, " hash 1"), "line 14 code X1"),
    (
        "a weight",
        tiny(15, " item osd.0 weight 65535.99999"),
        OK,
        tiny(15, " item osd.0 weight 65536"),
        "line 15 code X6",
    ),
    (
        "a place",
        tiny(15, " item osd.0 weight 1.0 pos 0"),
        OK,
        tiny(15, " item osd.0 weight 1.0 pos 1"),
        "line 15 code X5",
    ),
    ("what is taken", tiny(20, " step take osd.0"), OK, tiny(20, " step take default class ssd"), "line 20 code X3"),
    ("choose_args", tiny(24, "# choose_args 0 {"), OK, tiny(24, "choose_args 0 {"), "line 24 code X4"),
    ("a bucket's type", tiny(11, "host default {"), OK, tiny(11, "rack default {"), "line 11 code M4"),
    (
        "a choose step's number",
        tiny(21, " step choose firstn 64 type osd"),
        OK,
        tiny(21, " step choose firstn 65 type osd"),
        "line 17 code M12",
    ),
    (
        "a choose step's number below 0",
        tiny(21, " step choose indep -64 type osd"),
        OK,
        tiny(21, " step choose indep -65 type osd"),
        "line 17 code M12",
    ),
    (
        "the type of chooseleaf",
        tiny(21, " step chooseleaf indep 0 type host"),
        OK,
        tiny(21, " step chooseleaf indep 0 type osd"),
        "line 17 code M14",
    ),
    (
        "tries of a step",
        tiny(21, " step set_choose_tries 1000"),
        OK,
        tiny(21, " step set_chooseleaf_tries 1001"),
        "line 17 code M12",
    ),
    (
        "tries of a map",
        tiny(3, "tunable choose_total_tries 999"),
        OK,
        tiny(3, "tunable choose_total_tries 1000"),
        "line 3 code M12",
    ),
    ("vary_r", tiny(5, "tunable chooseleaf_vary_r 8"), OK, tiny(5, "tunable chooseleaf_vary_r 9"), "line 5 code M12"),
    ("stable", tiny(6, "tunable chooseleaf_stable 0"), OK, tiny(6, "tunable chooseleaf_stable 2"), "line 6 code M12"),
    ("an id of a bucket", tiny(12, " id -65536"), OK, tiny(12, " id -65537"), "line 11 code M12"),
    ("an id of a rule", tiny(18, " id 255"), OK, tiny(18, " id 256"), "line 17 code M12"),
    ("a type's number", tiny(9, "type 65535 host"), OK, tiny(9, "type 65536 host"), "line 9 code M12"),
    ("bytes of a name", tiny(9, f"type 1 {'n' * 64}"), OK, tiny(9, f"type 1 {'n' * 65}"), "line 9 code M15"),
    ("digits of a number", tiny(9, "type 0000000001 host"), OK, tiny(9, "type 00000000001 host"), "line 9 code X1"),
    (
        "digits before a weight's point",
        tiny(15, " item osd.0 weight 0000000001.5"),
        OK,
        tiny(15, " item osd.0 weight 00000000001.5"),
        "line 15 code X6",
    ),
    (
        "digits behind a weight's point",
        tiny(15, f" item osd.0 weight 0.{'9' * 20}"),
        OK,
        tiny(15, f" item osd.0 weight 0.{'9' * 21}"),
        "line 15 code X6",
    ),
    (
        "types",
        LOCAL + "".join(f"type {it} t{it}\n" for it in range(32)),
        "ok devices 0 buckets 0 rules 0",
        LOCAL + "".join(f"type {it} t{it}\n" for it in range(33)),
        "line 35 code M1",
    ),
    (
        "devices",
        TYPES + devices(10_000),
        "ok devices 10000 buckets 0 rules 0",
        TYPES + devices(10_001),
        "line 10004 code M1",
    ),
    (
        "buckets",
        *(
            part
            for count, answer in ((1024, "ok devices 0 buckets 1024 rules 0"), (1025, "line 1028 code M1"))
            for part in (TYPES + "".join(f"host h{it} {{ id -{it + 1} alg list }}\n" for it in range(count)), answer)
        ),
    ),
    ("items of a bucket", items_of(4096), "ok devices 4096 buckets 2 rules 0", items_of(4097), "line 4102 code M1"),
    (
        "a bucket's weight",
        *(
            part
            for more, answer in (("0", "ok devices 2 buckets 1 rules 0"), ("0.00002", "line 6 code M7"))
            for part in (
                TYPES
                + devices(2)
                + f"host h {{ id -1 alg list item osd.0 weight 65535.99999 item osd.1 weight {more} }}",
                answer,
            )
        ),
    ),
    (
        "a weight in a straw2 bucket",
        maps.straw2_of([(0, "32767.99999")]),
        OK,
        maps.straw2_of([(0, "32768")]),
        "line 12 code M7",
    ),
    (
        "a weight beside another in a straw2 bucket",
        maps.straw2_of([(0, "1.0"), (1, "32767.99999")]),
        "ok devices 2 buckets 1 rules 1",
        maps.straw2_of([(0, "1.0"), (1, "32768")]),
        "line 13 code M7",
    ),
    (
        "the line that asks for straw2",
        maps.straw2_of([(0, "1.0")]),
        OK,
        "#" + maps.straw2_of([(0, "1.0")]),
        "line 14 code X2",
    ),
    (
        "rules",
        *(
            part
            for count, answer in ((64, "ok devices 0 buckets 0 rules 64"), (65, "line 68 code M1"))
            for part in (
                TYPES + "".join(rule("step emit", it).replace("rule q", f"rule q{it}") for it in range(count)),
                answer,
            )
        ),
    ),
    (
        "steps",
        TYPES + rule("step emit " * 32),
        "ok devices 0 buckets 0 rules 1",
        TYPES + rule("step emit " * 33),
        "line 4 code M1",
    ),
]


def texts():
    """Names, texts and what 'crushcalc check' says of them."""
    for name, within, answer, past, fault in TEXT_LIMITS:
        yield f"within: {name}", within.encode(), answer
        yield f"past: {name}", past.encode(), f"refused {fault}"


def reply_to(words):
    """The reply to a text's import into a tenant without versions, by the words that 'crushcalc
    check' says of it."""
    return messages.imported(1, 1) if words[0] == "ok" else messages.refused(words[-1], int(words[2]))


def imports():
    """Lines that import each text into a new tenant, with their replies."""
    for name, text, answer in texts():
        yield from [
            (b"PUT /t/a", made(b"a")),
            (messages.import_of(text.decode()), reply_to(answer.split())),
            (b"DELETE /t/a", dropped(b"a")),
        ]


# ---- heads on the tenant a, each with its reply and whether the connection ends behind it

GET, POST = b"GET /t/a HTTP/1.1\r\n", b"POST /t/a/pick HTTP/1.1\r\n"
JUNK = b"x" * BODY_LIMIT
FULL_HEAD = GET + b"A: " + b"b" * (HEAD_LIMIT - len(GET) - 7)
HERE_IS_A = there(b"a")
HEADS = [
    ("32 headers", GET + b"A: b\r\n" * HEADER_LIMIT + b"\r\n", HERE_IS_A, False),
    ("33 headers", GET + b"A: b\r\n" * (HEADER_LIMIT + 1) + b"\r\n", BAD, True),
    ("a head of 8,192 bytes", FULL_HEAD + b"\r\n\r\n", HERE_IS_A, False),
    ("a head of 8,193 bytes", FULL_HEAD + b"b\r\n\r\n", BAD, True),
    ("8,192 bytes that are no whole head", b"GET /" + b"x" * (HEAD_LIMIT - 5), BAD, True),
    ("a length of ten digits", GET + b"Content-Length: 0000000000\r\n\r\n", HERE_IS_A, False),
    ("a length of eleven digits", GET + b"Content-Length: 00000000000\r\n\r\n", BAD, True),
    ("a great length of eleven digits", GET + b"Content-Length: 12345678901\r\n\r\n", BAD, True),
    ("one length", GET + b"content-LENGTH: 0\r\n\r\n", HERE_IS_A, False),
    ("two lengths", GET + b"Content-Length: 0\r\nContent-Length: 0\r\n\r\n", BAD, True),
    ("a length that is no number", GET + b"Content-Length: +1\r\n\r\n", BAD, True),
    ("a length below 0", GET + b"Content-Length: -1\r\n\r\n", BAD, True),
    ("an empty length", GET + b"Content-Length:\r\n\r\n", BAD, True),
    ("two lengths in one", GET + b"Content-Length: 0, 0\r\n\r\n", BAD, True),
    ("a body of the limit", POST + b"Content-Length: 5242880\r\n\r\n" + JUNK, BAD, False),
    ("a body past the limit", POST + b"Content-Length: 5242881\r\n\r\n", TOO_LARGE, True),
    ("a body of ten digits", POST + b"Content-Length: 9999999999\r\n\r\n", TOO_LARGE, True),
    ("a header that is almost Transfer-Encoding", GET + b"Transfer-Encodings: chunked\r\n\r\n", HERE_IS_A, False),
    ("chunks", POST + b"Transfer-Encoding: chunked\r\n\r\n", LENGTH, True),
    ("any coding", POST + b"transfer-ENCODING: identity\r\n\r\n", LENGTH, True),
    (
        "chunks before two lengths",
        POST + b"Content-Length: 1\r\nContent-Length: 1\r\nTransfer-Encoding: chunked\r\n\r\n",
        LENGTH,
        True,
    ),
    (
        "chunks before a long body",
        POST + b"Content-Length: 5242881\r\nTransfer-Encoding: chunked\r\n\r\n",
        LENGTH,
        True,
    ),
    ("a target of ASCII", b"GET /t/a! HTTP/1.1\r\n\r\n", BAD, False),
    ("a target that is no UTF-8", b"GET /t/\xff HTTP/1.1\r\n\r\n", BAD, True),
    ("HTTP/1.0", b"GET /t/a HTTP/1.0\r\n\r\n", HERE_IS_A, True),
    ("HTTP/1.2", b"GET /t/a HTTP/1.2\r\n\r\n", BAD, True),
    ("Connection: close", GET + b"Connection: cLose\r\n\r\n", HERE_IS_A, True),
    ("Connection: close and more", GET + b"Connection: close, te\r\n\r\n", HERE_IS_A, False),
    ("Expect", GET + b"Expect: 100-continue\r\n\r\n", HERE_IS_A, False),
    ("empty lines before", b"\r\n\r\n" + GET + b"\r\n", HERE_IS_A, False),
    (
        "two Connection headers, the first close",
        GET + b"Connection: close\r\nConnection: keep-alive\r\n\r\n",
        HERE_IS_A,
        True,
    ),
    (
        "two Connection headers, the second close",
        GET + b"Connection: keep-alive\r\nConnection: close\r\n\r\n",
        HERE_IS_A,
        True,
    ),
    ("HTTP/1.0 with keep-alive", b"GET /t/a HTTP/1.0\r\nConnection: keep-alive\r\n\r\n", HERE_IS_A, True),
    ("an empty line in 8,192 bytes", b"\r\n" + FULL_HEAD[:-2] + b"\r\n\r\n", HERE_IS_A, False),
    ("an empty line in 8,193 bytes", b"\r\n" + FULL_HEAD[:-1] + b"\r\n\r\n", BAD, True),
    (
        "32 headers, one of them without a value",
        GET + b"A: b\r\n" * (HEADER_LIMIT - 1) + b"A:\r\n\r\n",
        HERE_IS_A,
        False,
    ),
    ("33 headers, one of them without a value", GET + b"A: b\r\n" * HEADER_LIMIT + b"A:\r\n\r\n", BAD, True),
    ("an empty Transfer-Encoding", POST + b"Transfer-Encoding: \r\nContent-Length: 2\r\n\r\n{}", LENGTH, True),
    ("tabs around a length", POST + b"Content-Length:\t2\t\r\n\r\n{}", BAD, False),
    ("a body by GET", GET + b"Content-Length: 2\r\n\r\n{}", BAD, False),
    ("a body by HTTP/1.0", b"POST /t/a/pick HTTP/1.0\r\nContent-Length: 2\r\n\r\n{}", BAD, True),
    ("an escape in a target", b"GET /t/%61 HTTP/1.1\r\n\r\n", BAD, False),
    ("a query in a target", b"GET /t/a?x HTTP/1.1\r\n\r\n", BAD, False),
    ("an absolute target", b"GET http://l/t/a HTTP/1.1\r\n\r\n", NO_PATH, False),
    ("a method in lower case", b"get /t/a HTTP/1.1\r\n\r\n", METHOD, False),
    ("a header without a colon", GET + b"A\r\n\r\n", BAD, True),
    ("a blank before a colon", GET + b"A : b\r\n\r\n", BAD, True),
    ("a NUL in a header", GET + b"A: \x00\r\n\r\n", BAD, True),
    ("a header on two lines", GET + b"A: b\r\n c\r\n\r\n", BAD, True),
    ("a head of HTTP/2", b"PRI * HTTP/2.0\r\n\r\nSM\r\n\r\n", BAD, True),
    ("a head of TLS", b"\x16\x03\x01\x02\x00\x01\x00\x01\xfc\x03\x03", BAD, True),
]

# ---- bodies of a pick by the tenant a, each with its reply; the connection goes on

PICK = body([(7, 0)], x=5)
FRONT = PICK[: -len(b'"x":5}')]
SEVEN = item(7)


def nested(depth):
    """A pick whose body is nested so deep, in a value that a later one of its key replaces."""
    return FRONT + b'"x":' + b"[" * (depth - 1) + b"]" * (depth - 1) + b',"x":5}'


def with_x(value):
    return FRONT + b'"x":' + value + b"}"


BODIES = [
    ("as it is asked", PICK, SEVEN),
    ("nested 127 deep", nested(127), SEVEN),
    ("nested 128 deep", nested(128), BAD),
    ("nested 128 deep, and no object", b"[" * 128 + b"]" * 128, BAD),
    ("nested without an end", b"[" * 100_000, BAD),
    ("a key more", PICK[:-1] + b',"y":0}', BAD),
    ("a key less", FRONT[:-1] + b"}", BAD),
    ("a key twice", PICK[:-1] + b',"x":5}', SEVEN),
    *(
        (f"x is {value.decode()}", with_x(value), reply)
        for value, reply in (
            (b"0", SEVEN),
            (b"4294967295", SEVEN),
            (b"4294967296", BAD),
            (b"-1", BAD),
            (b"-0", BAD),
            (b"1.5", BAD),
            (b"1.0", BAD),
            (b"1e0", BAD),
            (b"01", BAD),
            (b"18446744073709551616", BAD),
            (b"1e999", BAD),
            (b"NaN", BAD),
            (b'"5"', BAD),
            (b"null", BAD),
            (b"true", BAD),
            (b"", BAD),
        )
    ),
    ("a text in UTF-8", FRONT + b'"x":"\xc3\xa9","x":5}', SEVEN),
    ("a text that is no UTF-8", FRONT + b'"x":"\xc3","x":5}', BAD),
    ("a pair of surrogates", FRONT + b'"x":"\\ud83d\\ude00","x":5}', SEVEN),
    ("half of a pair", FRONT + b'"x":"\\ud83d","x":5}', BAD),
    ("a tab as an escape", FRONT + b'"x":"\\t","x":5}', SEVEN),
    ("a tab as it is", FRONT + b'"x":"\t","x":5}', BAD),
    ("blanks around", b" \t" + PICK + b" \t", SEVEN),
    ("a byte order mark before", b"\xef\xbb\xbf" + PICK, BAD),
    ("a NUL behind", PICK + b"\x00", BAD),
    ("a second value", PICK + b"{}", BAD),
    ("a comma at the end", PICK[:-1] + b",}", BAD),
    ("without its end", PICK[:-1], BAD),
    ("of no bytes", b"", BAD),
    ("no object", b"null", BAD),
    ("of the limit", PICK + b" " * (BODY_LIMIT - len(PICK)), SEVEN),
]

# ---- bodies of exceptions of a pool, behind one that was accepted under the same number: another
# body of the form has reused that number, and any other is refused before

PAIR = b'{"from":0,"group":0,"to":1}'
ACCEPTED = b'{"exceptions":[' + PAIR + b'],"id":1,"request":"x"}'


def pairs(*them):
    return b'{"exceptions":[' + b",".join(them) + b'],"id":1,"request":"x"}'


def pair_with(member):
    """The pair with a member behind the others, which counts in place of an earlier one of its
    key."""
    return PAIR[:-1] + b"," + member + b"}"


EXCEPTIONS = [
    ("a blank more", ACCEPTED + b" ", REUSED),
    ("no pairs", pairs(), REUSED),
    ("1,024 pairs", pairs(*[PAIR] * 1024), REUSED),
    ("1,025 pairs", pairs(*[PAIR] * 1025), BAD),
    ("30,000 pairs", pairs(*[PAIR] * 30_000), BAD),
    ("1,024 pairs, the last of one device", pairs(*[PAIR] * 1023, pair_with(b'"to":0')), BAD),
    *(
        (f"{key} is {value.decode()}", pairs(pair_with(b'"%s":%s' % (key.encode(), value))), reply)
        for key in ("group", "from", "to")
        for value, reply in (
            (b"65535", REUSED),
            (b"65536", BAD),
            (b"4294967296", BAD),
            (b"18446744073709551616", BAD),
            (b"-1", BAD),
            (b"-0", BAD),
            (b"7.0", BAD),
            (b"7e0", BAD),
            (b"07", BAD),
            (b"1e999", BAD),
            (b'"7"', BAD),
            (b"null", BAD),
            (b"true", BAD),
            (b"[7]", BAD),
            (b"{}", BAD),
            (b"", BAD),
        )
    ),
    *(
        (f"id is {value.decode()}", ACCEPTED.replace(b'"id":1', b'"id":' + value), reply)
        for value, reply in (
            (b"2", REUSED),
            (b"2147483647", REUSED),
            (b"0", BAD),
            (b"2147483648", BAD),
            (b"4294967297", BAD),
            (b"1.0", BAD),
            (b'"1"', BAD),
        )
    ),
    ("a key more", ACCEPTED[:-1] + b',"more":0}', BAD),
    ("a key more in a pair", pairs(pair_with(b'"more":0')), BAD),
    ("a key less in a pair", pairs(b'{"from":0,"group":0}'), BAD),
    ("a pair that is a list", pairs(b"[0,0,1]"), BAD),
    ("a pair that is none", pairs(b"null"), BAD),
    ("a list in a list", pairs(b"[" + PAIR + b"]"), BAD),
    ("a pair in place of the list", b'{"exceptions":' + PAIR + b',"id":1,"request":"x"}', BAD),
    ("the list twice, the last one good", b'{"exceptions":7,' + ACCEPTED[1:], REUSED),
    ("the list twice, the first one good", ACCEPTED[:-1] + b',"exceptions":7}', BAD),
    ("escaped keys", pairs(b'{"fr\\u006fm":0,"group":0,"\\u0074o":1}'), REUSED),
    ("nested 127 deep", pairs(pair_with(b'"to":' + b"[" * 124 + b"]" * 124 + b',"to":1')), REUSED),
    ("nested 128 deep", pairs(pair_with(b'"to":' + b"[" * 125 + b"]" * 125 + b',"to":1')), BAD),
    ("without its end", ACCEPTED[:-1], BAD),
    ("a comma at the end of the list", pairs(PAIR + b","), BAD),
    ("of the limit", ACCEPTED + b" " * (BODY_LIMIT - len(ACCEPTED)), REUSED),
]


def exceptions():
    """Lines with these bodies, of a tenant that has accepted one, with their replies."""
    start = [
        (b"PUT /t/a", made(b"a")),
        (messages.import_of(maps.tiny().replace("type 0 osd", "device 1 osd.1\ntype 0 osd")), messages.imported(1, 1)),
    ]
    pool = messages.post(
        "pools",
        {
            "hashpspool": True,
            "id": 1,
            "kind": "replicated",
            "name": "p",
            "pg_num": 8,
            "pgp_num": 8,
            "request": "p",
            "rule": 0,
            "size": 1,
        },
    )
    path, shown = b"POST /t/a/pools/exceptions ", b'200 {"epoch":3,"exceptions":[' + PAIR + b'],"pool":1}'
    rows = [
        *start,
        (pool, b'201 {"epoch":2,"pool":1}'),
        (path + ACCEPTED, b'200 {"epoch":3,"exceptions":1,"pool":1}'),
        *((path + sent, reply) for _, sent, reply in EXCEPTIONS),
    ]
    full = ACCEPTED.replace(b'"x"', b'"full"')
    return rows + [
        (path + ACCEPTED, b'200 {"epoch":3,"exceptions":1,"pool":1}'),
        (b"GET /t/a/pools/1/exceptions", shown),
        # a body of the limit is accepted too
        (path + full + b" " * (BODY_LIMIT - len(full)), b'200 {"epoch":4,"exceptions":1,"pool":1}'),
        (b"DELETE /t/a", dropped(b"a")),
    ]
