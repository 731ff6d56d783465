"""What accepted requests leave: nodes, affiliations, subscriptions, items, collections, contacts, resources and known strings of capabilities.

A plain writing of it, with no index, by the words of the standards: each deed of `dealt.py` that the program accepted is done to the book. A node is
its service and its name.
"""
import base64
import copy
import hashlib

SERVICE = "pubsub.example"
DEFAULTS = {
    "deliver_notifications": "1",
    "deliver_payloads": "1",
    "notify_config": "0",
    "notify_delete": "0",
    "notify_retract": "0",
    "persist_items": "1",
    "max_items": "10",
    "access_model": "open",
    "roster_groups_allowed": "",
    "send_last_published_item": "never",
    "presence_based_delivery": "0",
    "notification_type": "headline",
    "node_type": "leaf",
    "collection": "",
}
AT_HOME = {"max_items": "1", "access_model": "presence", "send_last_published_item": "on_sub_and_presence"}


def bare(who):
    return who.partition("/")[0]


def is_account(service):
    return "@" in service


def ver_of(features):
    """The string of features without identities and forms (XEP-0115 §5.1)."""
    text = "".join(f"{it}<" for it in sorted(features))
    return base64.b64encode(hashlib.sha1(text.encode()).digest()).decode()


class Book:
    def __init__(self):
        self.nodes, self.creators = {}, {}
        self.affils, self.subs, self.items, self.links = {}, {}, {}, {}
        self.contacts, self.resources, self.vers = {}, {}, {}

    def copy(self):
        return copy.deepcopy(self)

    # ---- what is there

    def affiliation(self, node, who):
        return "owner" if node[0] == bare(who) else self.affils.get((node, bare(who)), "none")

    def state(self, node, who):
        return self.subs[node, who]["state"] if (node, who) in self.subs else "none"

    def is_present(self, who):
        """The resource is there, or some resource of a bare address."""
        return any(it == who or bare(it) == who for it in self.resources)

    def wants(self, who, name):
        """What the resource says of itself has the node's name with `+notify` behind it (XEP-0163 §4.3.2)."""
        return who in self.resources and f"{name}+notify" in self.resources[who]["features"]

    # ---- what is done

    def make(self, node, who, fields):
        settings = {**DEFAULTS, **(AT_HOME if is_account(node[0]) else {}), **fields}
        self.nodes[node], self.creators[node] = settings, bare(who)
        self.affils[node, bare(who)] = "owner"
        if settings["collection"]:
            self.links[node] = (node[0], settings["collection"])

    def publish(self, node, who, name, fields):
        """A node of one's own account is made by the publish (XEP-0163 §3)."""
        if node not in self.nodes:
            self.make(node, who, fields)
        if self.nodes[node]["persist_items"] == "1":
            self.items[node] = [it for it in self.items.get(node, []) if it != name] + [name]
            self.evict(node)

    def evict(self, node):
        most = self.nodes[node]["max_items"]
        if most != "max":
            self.items[node] = self.items.get(node, [])[-int(most) :]

    def configure(self, node, fields):
        self.nodes[node] = {**self.nodes[node], **fields}
        if self.nodes[node]["persist_items"] == "0":
            self.items[node] = []
        self.evict(node)

    def delete(self, node):
        del self.nodes[node], self.creators[node]
        for rows in (self.affils, self.subs):
            for key in [key for key in rows if key[0] == node]:
                del rows[key]
        self.items.pop(node, None)
        self.links = {child: above for child, above in self.links.items() if node not in (child, above)}

    def set_sub(self, node, who, state, **options):
        """A row keeps its options, and a new one has the defaults (XEP-0060 §6.3)."""
        row = self.subs.pop((node, who), {"type": "items", "depth": "1"}) if state == "none" else self.subs.get((node, who), {"type": "items", "depth": "1"})
        if state != "none":
            self.subs[node, who] = {**row, **options, "state": state}

    def show(self, who, caps):
        """What is known of a resource: by its verified capabilities, or as long as these stay (XEP-0115 §5.4)."""
        old = self.resources.get(who, {"caps": None, "features": []})
        features = []
        if caps and caps[0] == "sha-1" and caps[1] in self.vers:
            features = self.vers[caps[1]]
        elif caps and old["caps"] == caps:
            features = old["features"]
        self.resources[who] = {"caps": caps, "features": features}

    def answer(self, who, ver, features):
        """An answer with the hash that was promised counts for all who show it, any other for its sender alone."""
        row = self.resources.get(who)
        if row is None or row["caps"] is None or row["caps"][1] != ver:
            return
        self.resources[who] = {**row, "features": list(features)}
        if row["caps"][0] == "sha-1" and ver_of(features) == ver:
            self.vers[ver] = list(features)

    def do(self, deed, came):
        """Does an accepted deed; `came` is the reply, which says what became of a subscription."""
        who, node, (kind, *given) = deed.who, deed.node, deed.ask
        if kind == "create":
            self.make(node, who, given[0])
        elif kind == "publish":
            self.publish(node, who, *given)
        elif kind == "retract":
            self.items[node] = [it for it in self.items.get(node, []) if it != given[0]]
        elif kind == "purge":
            self.items[node] = []
        elif kind == "delete":
            self.delete(node)
        elif kind == "configure":
            self.configure(node, given[0])
        elif kind == "affiliate":
            self.affils[node, bare(given[0])] = given[1]
        elif kind == "set_subs":
            for whom, state in given[0]:
                self.set_sub(node, whom, state)
        elif kind == "subscribe":
            state = "pending" if b'"subscription":"pending"' in came else "subscribed"
            self.set_sub(node, given[0], state, **given[1])
        elif kind == "unsubscribe":
            self.set_sub(node, given[0], "none")
        elif kind == "set_options":
            self.set_sub(node, given[0], self.state(node, given[0]), **given[1])
        elif kind == "approve":
            self.set_sub(node, given[0], "subscribed" if given[1] == "1" else "none")
        elif kind == "contact":
            self.befriend(bare(who), *given)
        elif kind == "show":
            self.show(who, given[0])
        elif kind == "hide":
            self.resources.pop(who, None)
        elif kind == "tell":
            self.answer(who, *given)
        else:
            raise ValueError(kind)

    def befriend(self, account, whom, state, group):
        if state == "remove":
            self.contacts.pop((account, whom), None)
        else:
            self.contacts[account, whom] = {"state": state, "groups": [group] if group else []}
