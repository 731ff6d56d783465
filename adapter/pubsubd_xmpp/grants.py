"""What the server lets the adapter do for its accounts: delegation (XEP-0355) and privilege (XEP-0356), in the version that it granted by."""

from __future__ import annotations

from dataclasses import dataclass, field

from .asked import Asked, Envelope
from .log import say
from .names import CLIENT, DELEGATION, FORWARD, INFO, OWNER, PRIVILEGE, PUBSUB, bare_of
from .trees import Elem, elem
from .xmltext import attribute

# What has to be granted for personal nodes, and what isn't there without it.
NEEDED = {
    "message": "events of accounts' nodes can't be sent",
    "presence": "nobody's presence is known, so nobody is sent personal events",
    "roster": "contacts aren't known, so nobody reads nodes of the access models presence and roster",
}


@dataclass
class Grant:
    """What one virtual host granted since the session began."""

    privilege: str = ""
    delegation: str = ""
    rights: dict[str, str] = field(default_factory=dict)
    namespaces: set[str] = field(default_factory=set)

    def lacks(self) -> list[str]:
        """What is missing, a sentence each."""
        missing = [f"no {right} right: {why}" for right, why in NEEDED.items() if right not in self.rights]
        for ns in (PUBSUB, OWNER):
            if ns not in self.namespaces:
                missing.append(f"{ns} isn't delegated: accounts' nodes can't be used")
        return missing


class Grants:
    """By virtual host."""

    def __init__(self, hosts: tuple[str, ...]):
        self._grants = {host: Grant() for host in hosts}

    def of(self, host: str) -> Grant:
        return self._grants[host]

    def forget(self) -> None:
        for host in self._grants:
            self._grants[host] = Grant()

    def take(self, message: Elem) -> bool:
        """Whether the message was a server's grant."""
        grant = self._grants.get(message.get("from"))
        if grant is None:
            return False
        taken = False
        for kid in message.elements():
            if kid.name == "privilege" and kid.ns.startswith(PRIVILEGE) and kid.child("perm", kid.ns) is not None:
                self._privilege(message.get("from"), grant, kid)
                taken = True
            elif kid.name == "delegation" and kid.ns.startswith(DELEGATION) and kid.child("delegated", kid.ns) is not None:
                self._delegation(message.get("from"), grant, kid)
                taken = True
        return taken

    def _privilege(self, host: str, grant: Grant, told: Elem) -> None:
        grant.privilege = told.ns
        grant.rights = {kid.get("access"): kid.get("type") for kid in told.children("perm") if kid.get("type") not in ("", "none")}
        say("granted", by=host, version=told.ns[len(PRIVILEGE) :], rights=" ".join(f"{name}:{kind}" for name, kind in grant.rights.items()))

    def _delegation(self, host: str, grant: Grant, told: Elem) -> None:
        grant.delegation = told.ns
        namespaces = grant.namespaces | {kid.get("namespace") for kid in told.children("delegated")}
        if namespaces != grant.namespaces:
            grant.namespaces = namespaces
            say("delegated", by=host, version=told.ns[len(DELEGATION) :], namespaces=len(namespaces))

    def has(self, host: str, right: str) -> bool:
        grant = self._grants.get(host)
        return grant is not None and right in grant.rights

    def can_speak(self) -> bool:
        """Whether every host lets the adapter send events of its accounts."""
        return all("message" in grant.rights for grant in self._grants.values())

    def complain(self) -> None:
        """One line for each host that granted less than personal nodes need."""
        for host, grant in self._grants.items():
            lacks = grant.lacks()
            if lacks:
                say("not granted", by=host, missing="; ".join(lacks))


def unwrap(stanza: Elem) -> tuple[Elem, Envelope] | None:
    """The request inside a delegation, and the envelope for its reply."""
    for kid in stanza.elements():
        if kid.name == "delegation" and kid.ns.startswith(DELEGATION):
            inner = kid.find("forwarded", "iq")
            if inner is not None:
                return inner, Envelope(stanza.get("from"), stanza.get("id"), kid.ns)
    return None


def wrap(reply: Elem, asked: Asked, service: str) -> Elem:
    """The reply in the envelope of its request. The server compares the addresses and the id with the request's."""
    assert asked.envelope is not None
    head = asked.head
    reply.attrs["to"] = head.get("from")
    reply.attrs["id"] = head.get("id")
    reply.attrs["from"] = head.get("to") or bare_of(head.get("from"))
    envelope = {"from": service, "to": asked.envelope.server, "id": asked.envelope.id, "type": "result"}
    inside = elem("delegation", asked.envelope.ns, None, elem("forwarded", FORWARD, None, reply))
    return elem("iq", CLIENT, envelope, inside)


def spoken_for(ns: str, service: str, host: str, number: str) -> tuple[str, str]:
    """What stands before and behind a message that the adapter sends in the name of an account of that host."""
    before = (
        f"<message from={attribute(service)} to={attribute(host)} id={attribute(number)}>"
        f"<privilege xmlns={attribute(ns)}><forwarded xmlns='{FORWARD}'>"
    )
    return before, "</forwarded></privilege></message>"


def asks_features(query: Elem) -> bool:
    """Whether the question is that of a server for the features of its accounts (the namespace of publish-subscribe alone, or they would be told twice)."""
    return query.ns == INFO and query.get("node").startswith(DELEGATION) and query.get("node").endswith(":bare:" + PUBSUB)
