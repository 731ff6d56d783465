"""A plain loop over the same lines: each is read as JSON, what it asks is done in dicts, and its reply is written and flushed."""
import json
import sys

PUBSUB = "http://jabber.org/protocol/pubsub"
nodes = {}


def about(part, kids):
    child = {"a": {"node": part["a"]["node"]}, "c": kids, "n": part["n"]}
    if not kids:
        del child["c"]
    return [{"c": [child], "n": "pubsub", "ns": PUBSUB}]


def done(part, who):
    """Does what the part asks, and gives the children of its result."""
    attrs = part["a"]
    if part["n"] == "create":
        nodes[attrs["node"]] = {"owner": who, "items": {}, "subs": {}, "affils": {}}
        return None
    node = nodes[attrs["node"]]
    if part["n"] == "publish":
        (item,) = part["c"]
        items = node["items"]
        items.pop(item["a"]["id"], None)
        items[item["a"]["id"]] = item["c"]
        if len(items) > 10:
            del items[next(iter(items))]
        return about(part, [{"a": {"id": item["a"]["id"]}, "n": "item"}])
    if part["n"] == "items":
        return about(part, [{"a": {"id": name}, "c": kids, "n": "item"} for name, kids in node["items"].items()])
    if part["n"] == "subscribe":
        node["subs"][attrs["jid"]] = "subscribed"
        child = {"a": {"jid": attrs["jid"], "node": attrs["node"], "subscription": "subscribed"}, "n": "subscription"}
        return [{"c": [child], "n": "pubsub", "ns": PUBSUB}]
    rows, value = (node["affils"], "affiliation") if part["n"] == "affiliations" else (node["subs"], "subscription")
    for row in part["c"]:
        rows[row["a"]["jid"]] = row["a"][value]
    return None


with open(sys.argv[1], "rb") as source, open(sys.argv[2], "wb") as sink:
    for line in source:
        tree = json.loads(line)
        attrs = tree["a"]
        reply = {"a": {"from": attrs["to"], "id": attrs["id"], "to": attrs["from"], "type": "result"}}
        kids = done(tree["c"][0]["c"][0], attrs["from"])
        if kids is not None:
            reply["c"] = kids
        reply["n"] = "iq"
        sink.write(json.dumps(reply, separators=(",", ":")).encode() + b"\n")
        sink.flush()
