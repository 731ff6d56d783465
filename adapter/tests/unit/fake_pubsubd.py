#!/usr/bin/python3
"""A stand-in for the service: it opens its streams as pubsubd does, keeps a list of all that it was told, and does what the node of a request asks for.

Beside the store it writes STORE.told: `start` at each start, then `HOST LINE` for each line. A file STORE.early with a number makes a start end with that status before its
streams are open, STORE.exit as it reads its store; STORE.long has the seconds that it reads.
A request whose node is `held` is answered once there is a file `go` beside the store, and nothing is read meanwhile.
"""
import json
import os
import signal
import sys
import time


def words():
    told = sys.argv[1:]
    if told[:1] == ["compact"]:
        compact(told[1], told[2])
    if told[:1] != ["serve"]:
        sys.exit(2)
    rest = told[5:]
    return told[2], told[4], [rest[at : at + 3] for at in range(0, len(rest), 3)]


def compact(old, new):
    if os.path.exists(old + ".fail"):
        print("out of memory")
        sys.exit(7)
    with open(new, "wb") as file:
        if os.path.exists(old + ".slow"):
            time.sleep(1000)
        file.write(b"PUBSUBJ1 compacted")
    sys.exit(0)


class Service:
    """One run."""

    def __init__(self, service, store, streams):
        self.service, self.store, self.status = service, store, 0
        self.told = open(store + ".told", "a", encoding="utf-8", buffering=1)
        self.told.write("start\n")
        self.hosts = {}
        for host, source, sink in streams:
            reading = os.open(source, os.O_RDONLY)
            self.hosts[reading] = (host, open(sink, "wb", buffering=0))
        self.count = dict.fromkeys(self.hosts, 0)
        self.rests = dict.fromkeys(self.hosts, b"")

    def run(self):
        import select

        reading = set(self.hosts)
        while reading:
            for fd in select.select(list(reading), [], [])[0]:
                data = os.read(fd, 4096)
                *lines, self.rests[fd] = (self.rests[fd] + data).split(b"\n")
                if not data:
                    reading.discard(fd)
                    lines += [self.rests[fd]] if self.rests[fd] else []
                for line in lines:
                    self.take(fd, line)

    def write(self, fd, tree):
        self.hosts[fd][1].write(json.dumps(tree, separators=(",", ":"), ensure_ascii=False).encode() + b"\n")

    def take(self, fd, line):
        self.count[fd] += 1
        self.told.write(f"{self.hosts[fd][0]} {line.decode(errors='replace')}\n")
        try:
            tree = json.loads(line)
        except ValueError:
            self.refuse(fd, "not-json")
            return
        a = tree.get("a", {})
        if tree["n"] == "message":
            back = {"from": self.service, "to": a["from"], "type": "error"}
            error = {"a": {"type": "auth"}, "c": [{"n": "forbidden", "ns": "urn:ietf:params:xml:ns:xmpp-stanzas"}], "n": "error"}
            self.write(fd, {"a": back, "c": [error], "n": "message"})
        if tree["n"] != "iq" or a.get("type") not in ("get", "set"):
            return
        query = tree["c"][0]
        part = query.get("c", [{}])[0] if query.get("c") else {}
        deed = part.get("a", {}).get("node", "") if isinstance(part, dict) else ""
        self.do(fd, a, deed, query)

    def refuse(self, fd, why):
        self.write(fd, {"a": {"line": str(self.count[fd]), "why": why}, "n": "refused", "ns": "urn:pubsubd:line"})

    def result(self, fd, a, *kids):
        reply = {"a": {"from": a.get("to", a["from"].split("/")[0]), "id": a.get("id", ""), "to": a["from"], "type": "result"}}
        if kids:
            reply["c"] = list(kids)
        self.write(fd, reply | {"n": "iq"})

    def notice(self, fd, a, number, sender, kids=None):
        event = {"c": [{"a": {"node": "x"}, "n": "purge"}], "n": "event", "ns": "http://jabber.org/protocol/pubsub#event"}
        to = a["from"].split("/")[0]
        self.write(fd, {"a": {"from": sender, "id": f"n-{number}", "to": to, "type": "headline"}, "c": kids or [event], "n": "message"})

    def do(self, fd, a, deed, query):
        verb, _, rest = deed.partition(" ")
        if query.get("ns") == "http://jabber.org/protocol/disco#info":
            feature = {"a": {"var": "http://jabber.org/protocol/pubsub#fake"}, "n": "feature"}
            self.result(fd, a, {"c": [feature], "n": "query", "ns": query["ns"]})
        elif verb == "silent":
            pass
        elif verb == "die":
            self.hosts[fd][1].write(b'{"a":{"from":"half')
            os.kill(os.getpid(), signal.SIGKILL)
        elif verb == "exit":
            print("store fault" if rest == "4" else "report")
            sys.stdout.flush()
            os._exit(int(rest))
        elif verb == "fault":
            print("pubsubd: store: No space left on device (os error 28)", file=sys.stderr, flush=True)
            self.status = 4
        elif verb == "close":
            self.hosts[fd][1].close()
        elif verb == "refuse":
            self.refuse(fd, rest)
        elif verb == "notice":
            number, sender = rest.split(" ")
            self.notice(fd, a, number, sender)
            self.result(fd, a)
        elif verb == "event":
            number, sender, item, *stamp = rest.split(" ")
            items = {"a": {"node": "urn:x"}, "c": [{"a": {"id": item}, "c": [{"n": "e", "ns": "urn:t"}], "n": "item"}], "n": "items"}
            event = {"c": [items], "n": "event", "ns": "http://jabber.org/protocol/pubsub#event"}
            delay = [{"a": {"stamp": one}, "n": "delay", "ns": "urn:xmpp:delay"} for one in stamp]
            self.write(fd, {"a": {"from": sender, "id": f"n-{number}", "to": a["from"], "type": "headline"}, "c": [event, *delay], "n": "message"})
            self.result(fd, a)
        elif verb == "question":
            asked = {"from": self.service, "id": f"n-{rest}", "to": a["from"], "type": "get"}
            self.write(fd, {"a": asked, "c": [{"a": {"node": "c#v"}, "n": "query", "ns": "http://jabber.org/protocol/disco#info"}], "n": "iq"})
            self.result(fd, a)
        elif verb == "held":
            while not os.path.exists(os.path.join(os.path.dirname(self.store), "go")):
                time.sleep(0.02)
            self.result(fd, a)
        else:
            self.result(fd, a)


def take(name):
    """What stands in that file, once."""
    if not os.path.exists(name):
        return None
    with open(name, encoding="utf-8") as file:
        found = file.read()
    os.unlink(name)
    return found


def main():
    service, store, streams = words()
    status = take(store + ".early")
    if status is not None:
        sys.exit(int(status))
    served = Service(service, store, streams)
    status = take(store + ".exit")
    if status is not None:
        print("report")
        sys.exit(int(status))
    try:
        with open(store, "ab") as file:
            if file.tell() == 0:
                file.write(b"PUBSUBJ1" + b"x" * 100)
    except OSError:
        print("open fault")
        sys.exit(9)
    time.sleep(float(take(store + ".long") or 0))
    served.run()
    sys.exit(served.status)


if __name__ == "__main__":
    main()
