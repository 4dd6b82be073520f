#!/usr/bin/python3
"""A client of a real cluster, by Ceph's own module rados, which is that of /usr/bin/python3.

usage: /usr/bin/python3 client.py CONF

Reads requests from standard input, a line of JSON each, and answers each by a line of JSON:

- {"to": "mon" or "mgr" or the number of an OSD, "command": .., "input": base64}: what the command
  answers, {"status": 0 or less, "out": base64, "said": text};
- {"write": POOL, "objects": [[NAME, BYTES] ..]}: writes these objects, {"status": 0} once all are;
- {"list": POOL}: the names of its objects, {"status": 0, "names": [..]}.

A thousand commands take a second; a thousand processes 'ceph' take ten minutes.
"""
import base64
import json
import sys

import rados

SECONDS = 900
AT_ONCE = 64


def commanded(cluster, request):
    # Ceph reads an escaped letter beyond 16 bits as two
    command, given = json.dumps(request["command"], ensure_ascii=False), base64.b64decode(request.get("input", ""))
    if request["to"] == "mon":
        status, out, said = cluster.mon_command(command, given, timeout=SECONDS)
    elif request["to"] == "mgr":
        status, out, said = cluster.mgr_command(command, given, timeout=SECONDS)
    else:
        status, out, said = cluster.osd_command(request["to"], command, given, timeout=SECONDS)
    return {"status": status, "out": base64.b64encode(out).decode(), "said": said}


def written(cluster, request):
    with cluster.open_ioctx(request["write"]) as pool:
        waiting = []
        for name, size in request["objects"]:
            waiting.append(pool.aio_write_full(name, b"x" * size))
            if len(waiting) == AT_ONCE:
                waiting.pop(0).wait_for_complete_and_cb()
        for it in waiting:
            it.wait_for_complete_and_cb()
    return {"status": 0}


def listed(cluster, request):
    with cluster.open_ioctx(request["list"]) as pool:
        return {"status": 0, "names": sorted(it.key for it in pool.list_objects())}


def main():
    cluster = rados.Rados(conffile=sys.argv[1])
    cluster.connect(timeout=SECONDS)
    for line in sys.stdin:
        request = json.loads(line)
        answer = written if "write" in request else listed if "list" in request else commanded
        try:
            said = answer(cluster, request)
        except rados.Error as error:
            said = {"status": -1, "out": "", "said": str(error)}
        print(json.dumps(said), flush=True)


main()
