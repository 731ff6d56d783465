#!/usr/bin/python3
"""In place of the program for run.py: a service that answers at once and syncs twice a publish, as pubsubd does. So what it reaches is what the adapter, the server and the disk allow.

A publish to the node `told` gives a notice to each subscriber that run.py makes.
"""

from __future__ import annotations

import json
import os
import select
import sys

READERS = [(f"r{account}@b.localhost", f"x{resource}") for account in range(10) for resource in range(20)]
INFO = "http://jabber.org/protocol/disco#info"


class Standin:
    """The streams by their source, the sinks by their host."""

    def __init__(self, words):
        self.service, streams = words[2], words[5:]
        self.disk = os.open(words[4], os.O_CREAT | os.O_WRONLY | os.O_APPEND)
        self.hosts, self.sinks, self.rests, self.numbers = {}, {}, {}, {}
        for at in range(0, len(streams), 3):
            host, source, sink = streams[at : at + 3]
            end = os.open(source, os.O_RDONLY)
            self.hosts[end], self.rests[end] = host, b""
            self.sinks[host] = os.open(sink, os.O_WRONLY | os.O_CREAT | os.O_TRUNC)

    def run(self):
        live = set(self.hosts)
        while live:
            for end in select.select(list(live), [], [])[0]:
                data = os.read(end, 4096)
                if not data:
                    live.discard(end)
                *lines, self.rests[end] = (self.rests[end] + data).split(b"\n")
                self.take(self.hosts[end], [json.loads(line) for line in lines])

    def take(self, host, trees):
        asked = [tree for tree in trees if tree["n"] == "iq" and tree["a"]["type"] in ("get", "set")]
        parts = [tree["c"][0].get("c", [{}])[0] for tree in asked]
        published = [part for part in parts if part.get("n") == "publish"]
        if published:
            for _ in range(2):
                os.write(self.disk, b"x" * 300)
                os.fdatasync(self.disk)
        if asked:
            os.write(self.sinks[host], "".join(map(self.reply, asked)).encode())
        notices = "".join(self.notices(part) for part in published if part["a"]["node"] == "told")
        if notices:
            os.write(self.sinks["b.localhost"], notices.encode())

    def reply(self, tree):
        a, query = tree["a"], tree["c"][0]
        made = {"a": {"from": a.get("to", a["from"].split("/")[0]), "id": a["id"], "to": a["from"], "type": "result"}}
        if query.get("ns") == INFO:
            made["c"] = [{"c": [{"a": {"var": INFO}, "n": "feature"}], "n": "query", "ns": INFO}]
        return json.dumps(made | {"n": "iq"}, separators=(",", ":")) + "\n"

    def notices(self, part):
        items = {"a": {"node": "told"}, "c": part["c"], "n": "items"}
        event = json.dumps([{"c": [items], "n": "event", "ns": "http://jabber.org/protocol/pubsub#event"}], separators=(",", ":"))
        made = []
        for bare, resource in READERS:
            number = self.numbers[bare] = self.numbers.get(bare, 0) + 1
            head = f'{{"from":"{self.service}","id":"n-{number}","to":"{bare}/{resource}","type":"headline"}}'
            made.append(f'{{"a":{head},"c":{event},"n":"message"}}\n')
        return "".join(made)


if __name__ == "__main__":
    if sys.argv[1:2] != ["serve"]:
        sys.exit(2)
    Standin(sys.argv[1:]).run()
