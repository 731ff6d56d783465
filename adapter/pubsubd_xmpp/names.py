"""Namespaces, and what can be read off an address without judging it."""

CLIENT = "jabber:client"
COMPONENT = "jabber:component:accept"
STREAMS = "http://etherx.jabber.org/streams"
STREAM_ERRORS = "urn:ietf:params:xml:ns:xmpp-streams"
XML = "http://www.w3.org/XML/1998/namespace"
STANZAS = "urn:ietf:params:xml:ns:xmpp-stanzas"
PUBSUB = "http://jabber.org/protocol/pubsub"
OWNER = PUBSUB + "#owner"
ERRORS = PUBSUB + "#errors"
EVENT = PUBSUB + "#event"
NODE_CONFIG = PUBSUB + "#node_config"
PUBLISH_OPTIONS = PUBSUB + "#publish-options"
SUBSCRIBE_OPTIONS = PUBSUB + "#subscribe_options"
AUTHORIZATION = PUBSUB + "#subscribe_authorization"
DATA = "jabber:x:data"
INFO = "http://jabber.org/protocol/disco#info"
ITEMS = "http://jabber.org/protocol/disco#items"
CAPS = "http://jabber.org/protocol/caps"
ROSTER = "jabber:iq:roster"
PING = "urn:xmpp:ping"
FORWARD = "urn:xmpp:forward:0"
PRIVILEGE = "urn:xmpp:privilege:"  # and a version: 1 or 2
DELEGATION = "urn:xmpp:delegation:"  # and a version: 1 or 2


def bare_of(address: str) -> str:
    return address.partition("/")[0]


def host_of(address: str) -> str:
    return bare_of(address).rpartition("@")[2].lower()


def is_full(address: str) -> bool:
    """Whether it is the address of an account's resource."""
    return "@" in bare_of(address) and "/" in address


def canonical(address: str) -> str:
    """The address as the service prints it: all in lower case but the resource."""
    bare, slash, resource = address.partition("/")
    return bare.lower() + slash + resource
