"""Trees in a short notation, and the JSON lines that they are printed as.

`name:NS{attribute=value ..}(child child)` stands for an element; `:NS` is left out where it is the parent's. A namespace is written
out or is a letter of NAMESPACES. A text child, and a value with spaces, stands in double quotes, or in single ones where it has double ones. `<x*513>` anywhere stands for 513
times `x`. `@name{key=value ..}` is a submitted data form (XEP-0004) whose FORM_TYPE is the pubsub namespace, `#` and the name;
each key is a field `pubsub#key`, with several values between `|`, and `[]` for none. `@name:kind{..}` is one of another type.
`%name{..}` is the form that the service prints for a configuration, or to ask for an approval: all its fields, the defaults but for
those that are given.
"""
import json
import re

import forms

PUBSUB = "http://jabber.org/protocol/pubsub"
NAMESPACES = {
    "P": PUBSUB,
    "O": PUBSUB + "#owner",
    "E": PUBSUB + "#event",
    "R": PUBSUB + "#errors",
    "X": "jabber:x:data",
    "S": "urn:ietf:params:xml:ns:xmpp-stanzas",
    "DI": "http://jabber.org/protocol/disco#info",
    "DT": "http://jabber.org/protocol/disco#items",
    "K": "http://jabber.org/protocol/caps",
    "H": "http://jabber.org/protocol/shim",
    "RO": "jabber:iq:roster",
}


class Element:
    """An element: its name, its namespace (None for the parent's), its attributes and its children."""

    def __init__(self, name, namespace, attributes, children):
        self.name = name
        self.namespace = namespace
        self.attributes = attributes
        self.children = children


def json_of(node, parent):
    """The value that an element or a text is printed as, inside a parent of that namespace."""
    if isinstance(node, str):
        return node
    namespace = parent if node.namespace is None else node.namespace
    value = {}
    if node.attributes:
        value["a"] = dict(sorted(node.attributes.items(), key=lambda pair: pair[0].encode()))
    if node.children:
        value["c"] = [json_of(child, namespace) for child in node.children]
    value["n"] = node.name
    if namespace != parent:
        value["ns"] = namespace
    return value


def line_of(element):
    """The line that a root element is printed as."""
    return json.dumps(json_of(element, "jabber:client"), separators=(",", ":"), ensure_ascii=False).encode()


def long_text(text):
    """The text, with what is repeated in it written out."""
    return re.sub(r"<([^<>*]+)\*(\d+)>", lambda match: match[1] * int(match[2]), text)


class Reader:
    """Reads a text of the notation from its front."""

    def __init__(self, text):
        self.text = text
        self.at = 0

    def take(self, pattern):
        """What the pattern matches here, or None."""
        match = re.compile(pattern).match(self.text, self.at)
        if match is None:
            return None
        self.at = match.end()
        return match[0]

    def spaces(self):
        self.take(r"\s*")

    def quoted(self):
        """A text between double quotes, or between single ones where it has double ones itself."""
        return self.take(r'"[^"]*"|\'[^\']*\'')[1:-1]

    def attributes(self):
        values = {}
        if self.take(r"\{") is None:
            return values
        while self.take(r"\s*\}") is None:
            self.spaces()
            name = self.take(r"[^\s={}]+=")
            if name is None:
                raise ValueError("no attribute: " + self.text[self.at :])
            is_quoted = self.text[self.at : self.at + 1] in ('"', "'")
            values[name[:-1]] = self.quoted() if is_quoted else self.take(r"[^\s}]*")
        return values

    def element(self):
        mark = self.take(r"[@%]")
        name = self.take(r'[^\s{}():"\']+')
        colon = self.take(r':[^\s{}()"]+')
        after = None if colon is None else colon[1:]
        attributes = self.attributes()
        if mark == "@":
            return form(name, after or "submit", forms.given(attributes))
        if mark == "%":
            return form(name, "form", forms.printed(name, attributes))
        children = []
        if self.take(r"\(") is not None:
            children = self.nodes()
            if self.take(r"\)") is None:
                raise ValueError("no end: " + self.text[self.at :])
        return Element(name, NAMESPACES.get(after, after), attributes, children)

    def nodes(self):
        """The elements and texts up to a closing parenthesis or the end."""
        found = []
        self.spaces()
        while self.at < len(self.text) and self.text[self.at] != ")":
            found.append(self.quoted() if self.text[self.at] in "\"'" else self.element())
            self.spaces()
        return found


def read(text):
    """The elements and texts that a text of the notation stands for."""
    reader = Reader(text)
    found = reader.nodes()
    if reader.at < len(text):
        raise ValueError("more than trees: " + text[reader.at :])
    return found


def field(var, kind, values):
    attributes = {"var": var} if kind is None else {"type": kind, "var": var}
    children = [Element("value", None, {}, [value] if value else []) for value in values]
    return Element("field", None, attributes, children)


def form(name, kind, fields):
    """The data form of that FORM_TYPE and type, with these fields (XEP-0004 §3, XEP-0068)."""
    hidden = "hidden" if kind == "form" else None
    head = field("FORM_TYPE", hidden, [PUBSUB + "#" + name])
    rest = [field("pubsub#" + var, kind_of, values) for var, kind_of, values in fields]
    return Element("x", NAMESPACES["X"], {"type": kind}, [head] + rest)
