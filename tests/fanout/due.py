"""What is due to whom: each address there is asked about each event of a deed, by the words of the standards and with no index."""
import pathlib
import sys
from collections import namedtuple

sys.path.insert(0, str(pathlib.Path(__file__).resolve().parent.parent / "lines"))
from book import SERVICE, bare, is_account
from dealt import EVERYONE, LEAVES, OWNERS
from forms import printed
from notation import NAMESPACES, Element, form, line_of

# What is told of a node, or of one address: `news` is the kind and what it names.
Event = namedtuple("Event", "node news")


# ---- who may read, and who is there


def is_near(contact):
    """The account has the contact, and the contact gets its presence."""
    return contact is not None and contact["state"] in ("from", "both")


def may_read(book, node, who):
    """By its affiliation, and without one by the node's access model (XEP-0060 §4.1, §4.5)."""
    if node not in book.nodes:
        return False
    affiliation = book.affiliation(node, who)
    if affiliation in ("owner", "publisher", "member"):
        return True
    if affiliation in ("outcast", "publish-only"):
        return False
    settings = book.nodes[node]
    account = node[0] if is_account(node[0]) else book.creators[node]
    contact = book.contacts.get((account, bare(who)))
    model = settings["access_model"]
    if model == "open":
        return True
    if model == "presence":
        return is_near(contact)
    if model == "roster":
        return contact is not None and settings["roster_groups_allowed"] in contact["groups"]
    if model == "authorize":
        return any(book.state(node, it) == "subscribed" for it in EVERYONE if bare(it) == bare(who))
    return False


def is_interested(book, node, who):
    """As a resource it is told of the node of an account: it wants it, the account is its own or sends it its presence, and neither it nor its bare
    address is subscribed (XEP-0163 §4.3)."""
    near = node[0] == bare(who) or is_near(book.contacts.get((node[0], bare(who))))
    has_row = "subscribed" in (book.state(node, who), book.state(node, bare(who)))
    return is_account(node[0]) and book.wants(who, node[1]) and near and not has_row


# ---- the events of a deed that was accepted, in their order


def of_subscriber(before, after, node, whom):
    """Each owner is asked about a subscription that has become pending; one that has come about brings the last item."""
    old, new = before.state(node, whom), after.state(node, whom)
    if new == "pending" != old:
        return [("approval", owner, whom) for owner in OWNERS if after.affiliation(node, owner) == "owner"]
    return [("last", whom, True)] if new == "subscribed" != old else []


def of_rows(before, node, rows):
    """Row by row: each is told what became of its subscription, and a new subscriber gets the last item."""
    states, news = {}, []
    for whom, new in rows:
        if states.get(whom, before.state(node, whom)) != new:
            states[whom] = new
            news += [("told", whom, new)] + ([("last", whom, True)] if new == "subscribed" else [])
    return news


def news_of(before, after, deed):
    """What is told of the deed's own node."""
    (kind, *given), node = deed.ask, deed.node
    if kind in ("create", "publish"):
        made = node not in before.nodes and node in after.links
        return [("associate",)] * made + ([("items", given[0])] if kind == "publish" else [])
    if kind == "retract":
        return [("retract", given[0])] if given[1] == "1" or before.nodes[node]["notify_retract"] == "1" else []
    if kind in ("purge", "delete"):
        return [(kind,)]
    if kind == "configure":
        same = before.nodes[node] == after.nodes[node] and before.items.get(node, []) == after.items.get(node, [])
        return [] if same else [("configuration",)]
    if kind == "subscribe":
        return of_subscriber(before, after, node, given[0])
    if kind == "set_subs":
        same = list(before.subs.items()) == list(after.subs.items())
        return [] if same else of_rows(before, node, given[0])
    if kind == "approve":
        return of_rows(before, node, [(given[0], "subscribed" if given[1] == "1" else "none")])
    return []


def of_capabilities(before, after, deed):
    """What isn't known of a resource is asked (XEP-0115 §6.2), and it gets the last items of what it has come to want, the oldest node first."""
    (kind, *given), who, events = deed.ask, deed.who, []
    if kind == "show" and given[0]:
        hash_of, ver = given[0]
        known = hash_of == "sha-1" and ver in before.vers
        shown = who in before.resources and before.resources[who]["caps"] == given[0]
        if not known and not shown:
            events.append(Event(deed.node, ("question", who, ver)))
    if kind in ("show", "tell"):
        names = [name for name in LEAVES if after.wants(who, name) and not before.wants(who, name)]
        events += [Event(node, ("last", who, False)) for node in after.nodes if is_account(node[0]) and node[1] in names]
    return events


def events_of(before, after, deed):
    return [Event(deed.node, news) for news in news_of(before, after, deed)] + of_capabilities(before, after, deed)


# ---- what an event gives an address


def way_above(book, node, who, kind):
    """The nearest collection above the node with a subscription that reaches the event, which is of items or of nodes (XEP-0248 §6)."""
    steps, above = 0, book.links.get(node)
    while above is not None:
        row = book.subs.get((above, who))
        if row and row["state"] == "subscribed" and row["type"] == kind and (steps == 0 or row["depth"] == "all"):
            return above
        steps, above = steps + 1, book.links.get(above)
    return None


def delivers(book, settings, is_on, who):
    """The configuration lets it be told, and where it matters that the address is present, it is."""
    is_there = settings["presence_based_delivery"] == "0" or book.is_present(who)
    return settings["deliver_notifications"] == "1" and is_on and is_there


def message(node, settings, *children):
    kind = {} if settings is None or settings["notification_type"] == "normal" else {"type": "headline"}
    return Element("message", None, {"from": node[0], **kind}, list(children))


def in_event(inside):
    return Element("event", NAMESPACES["E"], {}, [inside])


def items_of(node, settings, name):
    payload = [Element("entry", "urn:t", {}, [])] if settings["deliver_payloads"] == "1" else []
    return Element("items", None, {"node": node[1]}, [Element("item", None, {"id": name}, payload)])


def inside_of(node, settings, news):
    """What stands in the event of a node."""
    kind, *given = news
    if kind == "items":
        return items_of(node, settings, given[0])
    if kind == "retract":
        return Element("items", None, {"node": node[1]}, [Element("retract", None, {"id": given[0]}, [])])
    return Element(kind, None, {"node": node[1]}, [])


def of_node(book, event, who):
    """An event of the node itself, behind it the collection whose subscription was used (XEP-0248 §5.1)."""
    node, kind = event.node, event.news[0]
    settings = book.nodes.get(node)
    if settings is None:
        return None
    is_on = {"configuration": settings["notify_config"], "delete": settings["notify_delete"]}.get(kind, "1") == "1"
    if not may_read(book, node, who) or not delivers(book, settings, is_on, who):
        return None
    through = None
    if book.state(node, who) != "subscribed":
        through = way_above(book, node, who, "nodes" if kind in ("configuration", "delete") else "items")
        if through is None or not may_read(book, through, who):
            through = None
            if not is_interested(book, node, who):
                return None
    children = [in_event(inside_of(node, settings, event.news))]
    if through is not None:
        header = Element("header", None, {"name": "Collection"}, [through[1]])
        children.append(Element("headers", NAMESPACES["H"], {}, [header]))
    return message(node, settings, *children)


def of_new_node(book, node, who):
    """A node that is put into a collection: by the subscriptions above it alone, as the collection is configured."""
    collection = book.links.get(node)
    settings = book.nodes.get(collection)
    if settings is None or not delivers(book, settings, True, who):
        return None
    used = way_above(book, node, who, "nodes")
    if used is None or not may_read(book, used, who) or not may_read(book, node, who):
        return None
    associate = Element("associate", None, {"node": node[1]}, [])
    return message(node, settings, in_event(Element("collection", None, {"node": collection[1]}, [associate])))


def last(book, node, who, by_subscription):
    """The last item of a leaf (XEP-0060 §7.2.2, XEP-0163 §4.3.4)."""
    settings, names = book.nodes.get(node), book.items.get(node)
    if settings is None or not names or settings["node_type"] != "leaf" or settings["deliver_notifications"] != "1":
        return None
    sent = settings["send_last_published_item"]
    is_sent = sent != "never" and (by_subscription or sent == "on_sub_and_presence" and is_interested(book, node, who))
    if not is_sent or not may_read(book, node, who):
        return None
    return message(node, settings, in_event(items_of(node, settings, names[-1])))


def of_one(book, event, who):
    """What an event gives the one address that it names."""
    kind, *given = event.news
    if given[0] != who:
        return None
    if kind == "last":
        return last(book, event.node, who, given[1])
    if kind == "approval":
        fields = printed("subscribe_authorization", {"node": event.node[1], "subscriber_jid": given[1]})
        return message(event.node, None, form("subscribe_authorization", "form", fields))
    if kind == "told":
        attributes = {"jid": who, "node": event.node[1], "subscription": given[1]}
        return message(event.node, None, Element("pubsub", NAMESPACES["P"], {}, [Element("subscription", None, attributes, [])]))
    query = Element("query", NAMESPACES["DI"], {"node": f"urn:c#{given[1]}"}, [])
    return Element("iq", None, {"from": SERVICE, "type": "get"}, [query])


def due_to(before, after, event, who):
    """What the event gives the address. The book is that after it, but for a node that is deleted the one before it."""
    kind = event.news[0]
    if kind == "associate":
        return of_new_node(after, event.node, who)
    if kind in ("approval", "told", "last", "question"):
        return of_one(after, event, who)
    return of_node(before if kind == "delete" else after, event, who)


def lines_due(before, after, deed, numbers):
    """For each bare address the lines that are due, address by address and for each in the order of the events."""
    events, lines = events_of(before, after, deed), {}
    for who in EVERYONE:
        for event in events:
            due = due_to(before, after, event, who)
            if due is not None:
                numbers[bare(who)] = numbers.get(bare(who), 0) + 1
                due.attributes.update({"id": f"n-{numbers[bare(who)]}", "to": who})
                lines.setdefault(bare(who), []).append(line_of(due))
    return lines
