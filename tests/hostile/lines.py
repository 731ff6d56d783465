"""Hostile and malformed lines, and each denial that a tree alone can have, with the replies that the tables of docs/router.md give.

`made` gives the lines of the stream of a.example for the service host pubsub.example, and the replies in line order. No line here gets as far as asking whether
its node stands, so the replies are the same whatever the service holds.
"""
from answered import HOST, SERVICE, Out, address, line_of, printed, tree
from notation import NAMESPACES, PUBSUB as P, Element

O, X, ROSTER = NAMESPACES["O"], NAMESPACES["X"], NAMESPACES["RO"]
INFO, ITEMS = NAMESPACES["DI"], NAMESPACES["DT"]
LONGEST = 262144
out = Out()
ANN = "ann@a.example/1"
turn = 0


def stanza(name, kind, *kids, **attrs):
    """A stanza of ANN to the service host with an id of its own; an attribute given as None is left out."""
    global turn
    turn += 1
    given = {"from": ANN, "id": "n%d" % turn, "to": SERVICE, "type": kind}
    given.update(attrs)
    return tree(name, None, {k: v for k, v in given.items() if v is not None}, *kids)


def iq(kind, child, **attrs):
    return stanza("iq", kind, child, **attrs)


def changed(t, **attrs):
    """The same stanza with other attributes; one given as None is taken away."""
    given = {**t.attributes, **attrs}
    return Element(t.name, t.namespace, {k: v for k, v in given.items() if v is not None}, t.children)


# ---- lines that are no tree


def not_json():
    deep = lambda n: b'{"c":[' * (n - 1) + b'{"n":"t"}' + b']}' * (n - 1)
    for line in [
        b"{", b"}", b"[", b"]", b'"', b"nul", b"tru", b"falsee", b"NaN", b"Infinity", b"-", b"+1", b"01", b"1.", b".5", b"1e", b"1e+", b"0x10",
        b"1e400", b"-1e400", b'{"n":"iq","c":[1e400]}', b'{"n":1e999,"n":"iq"}', b"9" * 400 + b".5e9999", b"{}{}", b"[] []", b'{"n":"iq"},', b'{"n":"iq",}',
        b'{"n" "iq"}', b'{n:"iq"}', b"{'n':'iq'}", b'{"n":"iq" "ns":""}', b'{,"n":"iq"}', b'{"n":"iq"', b'{"n":"iq', b'{"c":[,],"n":"iq"}', b'{"c":["a",],"n":"iq"}',
        b'/* */ {"n":"iq"}', b'{"n":"iq"} // end', b"\xef\xbb\xbf" + b'{"n":"iq"}', b"\x00", b'{"n":"iq"}\x00', b"\x0b" + b'{"n":"iq"}', b"\x0c", b'\xa0{"n":"iq"}',
        rb'{"n":"\ud800"}', rb'{"n":"\udc00"}', rb'{"n":"\ud800\ud800"}', rb'{"n":"\ud800x"}', rb'{"n":"\ud800\n"}', rb'{"n":"\udfff\ud800"}', rb'{"a":{"\ud83d":""},"n":"iq"}',
        rb'{"n":"\u12"}', rb'{"n":"\u"}', rb'{"n":"\x41"}', rb'{"n":"\'"}', b'{"n":"\\', rb'{"n":"\u00g0"}', rb'{"n":"\U0041"}',
        b'{"n":"\xff"}', b'{"n":"\xc0\xaf"}', b'{"n":"\xed\xa0\x80"}', b'{"n":"\xf4\x90\x80\x80"}', b'{"n":"\xe2\x82"}', b'{"n":"\x80"}', b'{"n":"\xf8\x88\x80\x80\x80"}',
        deep(65), deep(100), deep(1000), b"[" * 128, b"[" * 200000, b'{"a":' * 5000, b"[" * 128 + b"]" * 128,
        deep(64).replace(b'{"n":"t"}', b'{"a":{},"n":"t"}'),
    ]:
        out.refuse(line, "not-json")
    # a control character as it is, in each place of a text
    for code in [c for c in range(0x20) if c != 10]:
        for at in ("%siq", "i%sq", "iq%s"):
            out.refuse(b'{"n":"' + (at % chr(code)).encode() + b'"}', "not-json")


def not_a_tree():
    for line in [
        b"[]", b'"iq"', b"5", b"-0", b"1e308", b"1e-400", b"0e999", b"99999999999999999999", b"true", b"null", b"{}", b"[" * 127 + b"]" * 127,
        b'{"n":""}', b'{"n":null}', b'{"n":5}', b'{"n":["iq"]}', b'{"N":"iq"}', b'{"n":"iq","x":1}', b'{"n":"iq","attrs":{}}', b'{"n":"iq","":""}',
        b'{"a":null,"n":"iq"}', b'{"a":[],"n":"iq"}', b'{"a":{"from":1},"n":"iq"}', b'{"a":{"from":null},"n":"iq"}', b'{"a":{"from":["x"]},"n":"iq"}', b'{"a":"from","n":"iq"}',
        b'{"c":null,"n":"iq"}', b'{"c":{},"n":"iq"}', b'{"c":"","n":"iq"}', b'{"c":[1],"n":"iq"}', b'{"c":[null],"n":"iq"}', b'{"c":[true],"n":"iq"}', b'{"c":[[]],"n":"iq"}',
        b'{"c":[1.5],"n":"iq"}', b'{"c":[18446744073709551616],"n":"iq"}', b'{"c":[-9223372036854775809],"n":"iq"}', b'{"c":[{}],"n":"iq"}', b'{"c":[{"n":""}],"n":"iq"}',
        b'{"ns":null,"n":"iq"}', b'{"ns":5,"n":"iq"}', b'{"ns":{},"n":"iq"}', b'{"n":"iq","n":5}', b'{"a":{"id":"1"},"a":5,"n":"iq"}', rb'{"\u006e":"iq","n":""}',
        # the form of the whole line is judged before its depth
        b'{"c":[' * 40 + b'{"n":5}' + b'],"n":"t"}' * 40, b'{"c":[5,' + b'{"c":[' * 40 + b'"x"' + b'],"n":"t"}' * 40 + b'],"n":"t"}',
    ]:
        out.refuse(line, "not-a-tree")


def nested(levels, innermost):
    inner = innermost
    for _ in range(levels - 2):
        inner = tree("t", "urn:t", None, inner)
    return stanza("message", None, inner)


def too_deep():
    out.deny(nested(32, tree("t", "urn:t")), 25)
    out.deny(nested(32, tree("t", "urn:t", None, "text")), 25)
    for levels in (33, 34, 63, 64):
        out.refuse(line_of(nested(levels, tree("t"))), "too-deep")
    out.refuse(b'{"c":[' * 32 + b'{"n":"t"}' + b'],"n":"t"}' * 32, "too-deep")
    out.refuse(line_of(tree("t", None, None, tree("a"), tree("b"), shapeless(33))), "too-deep")


def shapeless(levels):
    t = tree("t")
    for _ in range(levels - 1):
        t = tree("t", None, None, t)
    return t


def blank_and_long():
    out.silent(b"")
    out.silent(b" \t\r ")
    out.silent(b" " * LONGEST)
    out.refuse(b" " * (LONGEST + 1), "too-long")
    out.refuse(b"\t \r" * 349526, "too-long")  # a megabyte
    out.refuse(b"[" * (LONGEST + 1), "too-long")
    t = stanza("message", None)
    line = line_of(t)
    out.deny(t, 25, line + b" " * (LONGEST - len(line)))
    out.deny(t, 25, b"\r" + line + b"\r")
    out.refuse(line + b" " * (LONGEST + 1 - len(line)), "too-long")
    wide = stanza("message", None, *[tree("t") for _ in range(5000)])
    wide.attributes.update({"x%d" % k: "" for k in range(2000)})
    out.deny(wide, 25)


def odd_but_read():
    """White space, repeated members, escapes and texts that are fine."""
    t = stanza("message", None)
    plain = line_of(t)
    out.deny(t, 25, b" \t" + plain.replace(b":", b" : \t").replace(b",", b" ,\r"))
    out.deny(t, 25, plain.replace(b'{"a":{', b'{"n":5,"c":7,"a":{"from":"bob@b.example/1","id":"0",', 1)[:-1] + b',"c":[]}')
    out.deny(t, 25, plain.replace(b'"from"', rb'"\u0066rom"').replace(b'"n"', rb'"\u006e"'))
    out.deny(t, 25, plain[:-1] + b',"ns":"urn:q","ns":"jabber:client"}')
    for odd in ("\u00e9", "\u2028", "\U0001f600", "\x7f", "\u0001", "\u001f", "\t", "\b", "\f", "\"", "\\", "/", "\ufeff", "\uffff"):
        out.deny(changed(t, id="i" + odd), 25)
    out.deny(changed(t, id="\U0001f600"), 25, line_of(changed(t, id="@")).replace(b'"id":"@"', rb'"id":"\ud83d\ude00"'))
    out.deny(changed(t, id="\x00\x1f"), 25, line_of(changed(t, id="@")).replace(b'"id":"@"', rb'"id":"\u0000\u001F"'))


# ---- addresses


def probe(**attrs):
    """An iq whose `pubsub` holds no tree: denied 1 where its addresses are fine."""
    return iq("get", tree("pubsub", P), **attrs)


def sent_from(spelled):
    t = probe(**{"from": spelled})
    who = address(spelled)
    if who is None:
        out.refuse(line_of(t), "bad-address")
    elif who[1] != HOST:
        out.refuse(line_of(t), "foreign-from")
    else:
        out.deny(t, 1)


def sent_to(spelled):
    t = probe(to=spelled)
    who = address(spelled)
    if who is None:
        out.deny(t, 13)
    elif printed(who) == SERVICE or (who[0] and not who[2]):
        out.deny(t, 1)
    else:
        out.deny(t, 25)


def addresses():
    parts = ("ann", "a.example", "1x")
    odd = ["\u00e9", "\u2028", "\U0001f600", "\u0130"]
    for which in range(3):
        for at in range(len(parts[which]) + 1):
            for c in [chr(code) for code in range(128)] + odd:
                put = list(parts)
                put[which] = put[which][:at] + c + put[which][at:]
                sent_from("%s@%s/%s" % tuple(put))
    spelled = [
        "ann", "ann@", "@a.example", "@", "/", "ann@/1", "ann@a.example/", "a.example/", "/a.example", "a.example", "a.example/1", "ANN@A.EXAMPLE/One", "ann@a.example/1/2",
        "ann@a.example/@", "ann@a.example/a@b/c", "ann@b.example", "b.example", "ann@a..example/1", "ann@.a.example/1", "ann@a.example./1", "ann@-/1", "ann@[::1]/1", " ann@a.example/1",
        "ann@a.example/1 ", "ann@a.example / 1", "a" * 1023 + "@a.example/1", "a" * 1024 + "@a.example/1", "ann@" + "a" * 1023 + "/1", "ann@" + "a" * 1024 + "/1",
        "ann@" + "a." * 511 + "a", "ann@" + "a." * 511 + "ab", "ann@a.example/" + "r" * 1023, "ann@a.example/" + "r" * 1024, "ann@a.example/" + "\u00e9",
    ]
    for one in spelled:
        sent_from(one)
        sent_to(one)
    for c in [chr(code) for code in range(33)] + list("\"&'/:<>@\x7f\u00e9"):
        sent_to("b%sb@b.example" % c)
        sent_to("bob@b%sb.example" % c)
        sent_to("bob@b.example/b%sb" % c)
    for one in ("PubSub.Example", "pubsub.example/1", "pubsub@pubsub.example", "bob@b.example", "BOB@B.Example", "pubsub.example.", "other.example"):
        sent_to(one)
    t = probe()
    out.refuse(line_of(changed(t, **{"from": None})), "bad-address")
    out.refuse(line_of(changed(t, **{"from": ""})), "bad-address")
    out.deny(changed(t, to=None), 1)
    out.deny(changed(t, to=""), 1)


# ---- the shape of a stanza


def shapes():
    child = tree("pubsub", P)
    good = iq("get", child)
    for t in [
        tree("foo", None, good.attributes, child), tree("IQ", None, good.attributes, child), tree("iq", "", good.attributes, child), tree("iq", "jabber:server", good.attributes, child), tree("message", P, good.attributes),
        tree("presence", "urn:t", good.attributes), tree("t", None, good.attributes), changed(good, id=None), changed(good, id=""), changed(good, type=None), changed(good, type=""), changed(good, type="Get"),
        changed(good, type="got"), iq("get", "text"), stanza("iq", "get"), stanza("iq", "set"), stanza("iq", "get", child, child), stanza("iq", "set", child, "text", tree("t")),
        changed(stanza("iq", "result"), id=None), changed(stanza("iq", "error"), id=""), changed(stanza("iq", "result", child), id=None),
    ]:
        out.refuse(line_of(t), "bad-stanza")
    out.deny(stanza("iq", "get", "text", child, "text"), 1)
    # the sender is judged before the shape, and the shape before the target
    out.refuse(line_of(tree("foo", None, {"from": "ann@@a.example"})), "bad-address")
    out.refuse(line_of(tree("foo", None, {"from": "bob@b.example/1"})), "foreign-from")
    out.refuse(line_of(tree("iq", None, {"from": ANN, "to": "@"})), "bad-stanza")


def targets():
    for to, number in (("@", 13), ("a b", 13), ("other.example", 25), ("bob@b.example/1", 25), ("pubsub.example/1", 25)):
        for child in (tree("pubsub", P), tree("t", "urn:t"), tree("pubsub", P, None, tree("create"))):
            out.deny(iq("set", child, to=to), number)
        out.deny(stanza("message", None, to=to), number)
        out.deny(stanza("message", None, to=to, id=None), number)
        for t in (stanza("presence", None, to=to), stanza("iq", "result", to=to), stanza("iq", "error", to=to), stanza("message", "error", to=to)):
            out.silent(line_of(t))


def namespaces():
    for child in (tree("x", "urn:q"), tree("pubsub", "urn:q"), tree("pubsub", P + "#event"), tree("pubsub"), tree("query", "jabber:iq:private"), tree("pubsub", "")):
        for kind in ("get", "set"):
            out.deny(iq(kind, child), 25)
    for child in (tree("foo", P), tree("foo", O), tree("query", P), tree("x", X), tree("pubsub", X), tree("pubsub", INFO), tree("item", ROSTER), tree("Query", INFO)):
        for kind in ("get", "set"):
            out.deny(iq(kind, child), 26)
    for kind, ns in (("set", INFO), ("set", ITEMS), ("get", ROSTER)):
        out.deny(iq(kind, tree("query", ns)), 26)
    for ns, other in ((P, O), (O, P)):
        for kind in ("get", "set"):
            out.deny(iq(kind, tree("pubsub", ns)), 1)
            out.deny(iq(kind, tree("pubsub", ns, None, "text")), 1)
            out.deny(iq(kind, tree("pubsub", ns, None, tree("foo"))), 26)
            out.deny(iq(kind, tree("pubsub", ns, None, tree("create", other, {"node": "w"}))), 26)
            out.deny(iq(kind, tree("pubsub", ns, None, tree("delete", other, {"node": "w"}))), 26)
            out.deny(iq(kind, tree("pubsub", ns, None, "text", tree("foo"), tree("create", P, {"node": "w"}))), 26)


# ---- the kinds: namespace, type, name, the denial of a missing node (None where a node may be missing), and those of its address
# where that is missing, none, and another's (None where that isn't judged of the tree alone)

KINDS = [
    (P, "set", "create", 27, None),
    (P, "set", "publish", 3, None),
    (P, "set", "retract", 3, None),
    (O, "set", "purge", 3, None),
    (O, "set", "delete", 3, None),
    (O, "get", "configure", 3, None),
    (O, "set", "configure", 3, None),
    (O, "get", "affiliations", 3, None),
    (O, "set", "affiliations", 3, ("affiliation", 13, 13, None)),
    (O, "get", "subscriptions", 3, None),
    (O, "set", "subscriptions", 3, ("subscription", 13, 13, None)),
    (P, "get", "affiliations", None, None),
    (P, "get", "subscriptions", None, None),
    (P, "set", "subscribe", 3, ("", 2, 2, 2)),
    (P, "set", "unsubscribe", 3, ("", 2, 2, 11)),
    (P, "get", "options", 3, ("", 2, 2, 11)),
    (P, "set", "options", 3, ("", 2, 2, 11)),
    (P, "get", "items", 3, None),
]

LONG = "n" * 513
ODD_LONG = "\u00e9" * 257
TO = (SERVICE, None, "bob@b.example")


def part_of(kind, attrs, jid):
    """The part of a kind, with that node and that address: "" is a missing one."""
    ns, _, name, _, rule = kind
    attrs = dict(attrs)
    if rule and rule[0]:
        rows = [tree(rule[0], None, {"jid": "bob@b.example", rule[0]: "none"})]
        rows.append(tree(rule[0], None, {rule[0]: "none", **({"jid": jid} if jid is not None else {})}))
        return tree(name, None, attrs, *rows)
    if rule and jid is not None:
        attrs["jid"] = jid
    return tree(name, None, attrs)


def ask(kind, attrs, jid="ann@a.example", **more):
    return iq(kind[1], tree("pubsub", kind[0], None, part_of(kind, attrs, jid)), **more)


def kinds():
    for kind in KINDS:
        ns, type, name, missing, rule = kind
        other = "get" if type == "set" else "set"
        good = ask(kind, {"node": "w"})
        out.refuse(line_of(changed(good, **{"from": None})), "bad-address")
        out.refuse(line_of(changed(good, **{"from": "ann@a.example/"})), "bad-address")
        out.refuse(line_of(changed(good, **{"from": "ann@b.example/1"})), "foreign-from")
        out.refuse(line_of(changed(good, id="")), "bad-stanza")
        out.deny(changed(good, to="pubsub..example"), 13)
        out.deny(changed(good, to="other.example"), 25)
        if (ns, other, name) not in [k[:3] for k in KINDS]:
            out.deny(changed(good, type=other), 26)
        for to in TO:
            if missing:
                out.deny(ask(kind, {}, to=to), missing)
                out.deny(ask(kind, {"node": ""}, "@", to=to), missing)
            out.deny(ask(kind, {"node": LONG}, "@", to=to), 14)
            out.deny(ask(kind, {"node": ODD_LONG}, to=to), 14)
            if rule:
                whole = {"node": "n" * 512}
                out.deny(ask(kind, whole, None, to=to), rule[1])
                for bad in ("", "@", "ann@", "ann@a.example/", "a b@a.example", "ann@a..example", "\u00e9@a.example"):
                    out.deny(ask(kind, whole, bad, to=to), rule[2])
                if rule[3]:
                    for another in ("bob@b.example", "ann@b.example/1", "a.example", "an@a.example/1"):
                        out.deny(ask(kind, whole, another, to=to), rule[3])


def discovery():
    for ns in (INFO, ITEMS):
        for to in TO:
            out.deny(iq("get", tree("query", ns, {"node": LONG}), to=to), 14)
            out.deny(iq("get", tree("query", ns, {"node": ODD_LONG}), to=to), 14)


def rosters():
    item = lambda **attrs: tree("item", None, {"subscription": "both", **attrs})
    query = lambda *kids: tree("query", ROSTER, None, *kids)
    for to in TO:
        for kids in ([], ["text"], [item(jid="bob@b.example"), item(jid="cid@b.example")], [tree("item", "urn:t", {"jid": "bob@b.example"})], [tree("Item")]):
            out.deny(iq("set", query(*kids), to=to), 1)
        for one in (item(), item(jid=""), item(jid="@"), item(jid="bob@b.example/"), item(jid="b\u00e9@b.example")):
            out.deny(iq("set", query(one), to=to), 13)
        out.deny(iq("set", query("text", item(jid="@"), tree("group", None, None, "g")), to=to), 13)


def field(var, *values, **attrs):
    return tree("field", None, {"var": var, **attrs}, *[tree("value", None, None, *([v] if v else [])) for v in values])


def form(kind, *fields, type=P + "#subscribe_authorization"):
    return tree("x", X, {"type": kind}, *([field("FORM_TYPE", type)] if type else []), *fields)


def approvals():
    node, who, allow = field("pubsub#node", "w"), field("pubsub#subscriber_jid", "bob@b.example"), field("pubsub#allow", "1")
    message = lambda *kids, **attrs: stanza("message", None, *kids, **attrs)
    for to in TO:
        for kids in ([], ["text"], [tree("body", None, None, "hi")], [tree("x", "urn:t")], [form("Submit", node, who, allow)], [tree("x", X, None, node, who, allow)], [form("submit", node, who, allow, type=None)],
                     [form("submit", node, who, allow, type=P + "#node_config")], [form("form", node, type="urn:t")], [form("result", node, type=None)], [form("form", type=None), form("submit", node, who, allow)]):
            out.deny(message(*kids, to=to), 25)
            out.deny(message(*kids, to=to, id=None), 25)
        for kind in ("form", "result"):
            out.deny(message(form(kind, node, who, allow), to=to), 26)
        for fields in ([who, allow], [field("pubsub#node", ""), who, allow], [field("pubsub#node"), who, allow], [field("pubsub#node"), node, who, allow], [field("node", "w"), field("pubsub#subscriber_jid", "@")]):
            out.deny(message(form("submit", *fields), to=to), 3)
        out.deny(message(form("submit", field("pubsub#node", LONG), field("pubsub#subscriber_jid", "@")), to=to), 14)
        whole = field("pubsub#node", "n" * 512)
        for fields in ([whole, allow], [whole, field("pubsub#subscriber_jid"), allow], [whole, field("pubsub#subscriber_jid", "", "bob@b.example"), allow], [whole, field("pubsub#subscriber_jid", "bob@"), who, allow]):
            out.deny(message(form("submit", *fields), to=to), 13)
        out.silent(line_of(message(form("cancel", node, who, allow), to=to)))
        out.silent(line_of(message(form("cancel", type=None), to=to)))
        out.silent(line_of(stanza("message", "error", form("submit", node, who, allow), to=to)))
    good = message(form("submit", node, who, allow))
    out.refuse(line_of(changed(good, **{"from": ""})), "bad-address")
    out.refuse(line_of(changed(good, **{"from": "bob@b.example"})), "foreign-from")
    out.deny(changed(good, to="a b"), 13)
    out.deny(changed(good, to="other.example"), 25)


def answers():
    """Presences and answers are never denied aloud; those here are refused, or of no known sender or target."""
    caps = tree("c", "http://jabber.org/protocol/caps", {"hash": "sha-1", "node": "urn:n", "ver": "v"})
    info = tree("query", INFO, {"node": "urn:n#v"})
    for t in (stanza("presence", None, caps), stanza("presence", "unavailable"), stanza("iq", "result", info)):
        out.refuse(line_of(changed(t, **{"from": None})), "bad-address")
        out.refuse(line_of(changed(t, **{"from": "ann@a.example/\u00e9"})), "bad-address")
        out.refuse(line_of(changed(t, **{"from": "bob@b.example/1"})), "foreign-from")
        out.silent(line_of(changed(t, to="@")))
        out.silent(line_of(changed(t, to="other.example")))
    for t in (stanza("presence", "subscribe"), stanza("presence", "probe"), stanza("presence", "error"), stanza("iq", "error", info), stanza("iq", "result", tree("t", "urn:t")), stanza("iq", "result")):
        for to in TO:
            out.silent(line_of(changed(t, to=to)))
    out.silent(line_of(stanza("presence", None, to="bob@b.example")))


def made():
    """The lines, the last of which ends with the input, and the replies."""
    for part in (not_json, not_a_tree, too_deep, odd_but_read, addresses, shapes, targets, namespaces, kinds, discovery, rosters, approvals, answers, blank_and_long):
        part()
    out.deny(stanza("message", None), 25)
    return b"\n".join(out.lines), b"".join(reply + b"\n" for reply in out.replies)
