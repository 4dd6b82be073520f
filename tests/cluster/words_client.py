#!/usr/bin/python3
"""A client of a real cluster that takes commands as they are typed, by Ceph's own modules rados and
ceph_argparse, which are those of /usr/bin/python3.

usage: /usr/bin/python3 words_client.py CONF

Reads lines of JSON from standard input, the words of a command behind 'ceph' and the input in
base64 or null, and answers each by one: {"status": 0 or less, "said": text, "out": text}.
"""
import base64
import json
import sys

import rados
from ceph_argparse import ArgumentError, json_command, parse_json_funcsigs, validate_command

SECONDS = 300
EINVAL = -22


def answered(cluster, forms, words, given):
    """What the client or the cluster says to a command."""
    try:
        command = validate_command(forms, words)
    except ArgumentError as error:
        return EINVAL, "", f"Invalid command: {error}"
    if not command:
        return EINVAL, "", "invalid command"
    status, out, said = json_command(cluster, argdict=command, inbuf=given, timeout=SECONDS)
    return status, (out or b"").decode(), said


def main():
    cluster = rados.Rados(conffile=sys.argv[1])
    cluster.connect(timeout=SECONDS)
    _, out, _ = json_command(cluster, prefix="get_command_descriptions", timeout=SECONDS)
    forms = parse_json_funcsigs(out.decode(), "cli")
    for line in sys.stdin:
        words, given = json.loads(line)
        status, out, said = answered(cluster, forms, words, base64.b64decode(given) if given else b"")
        print(json.dumps({"status": status, "said": said, "out": out}), flush=True)


main()
