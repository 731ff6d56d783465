"""Trees as XML, both ways: a text that is written, and a stream that is read as it comes."""

from __future__ import annotations

import re
from collections.abc import Callable
from xml.parsers import expat
from xml.sax.saxutils import quoteattr

from .names import CLIENT, COMPONENT, XML
from .trees import Elem

# What XML 1.0 has no way to write.
_BAD = re.compile("[^\t\n\r\u0020-\ud7ff\ue000-\ufffd\U00010000-\U0010ffff]")
_SPECIAL = re.compile("[&<>]")
_PLAIN = re.compile("[ !#-%(-;=?-~]*")
_NAMED = {"&": "&amp;", "<": "&lt;", ">": "&gt;"}
# What lies deeper is left out. The service refuses trees of more than 32 levels, and an envelope has three.
MAX_DEPTH = 64


class NotXmpp(Exception):
    """The server sent what no XMPP stream may have."""


def escape(text: str) -> str:
    if not text.isprintable():
        text = _BAD.sub("\ufffd", text)
    return _SPECIAL.sub(lambda found: _NAMED[found[0]], text)


def attribute(text: str) -> str:
    """The value of an attribute with its quotes."""
    if _PLAIN.fullmatch(text):
        return f"'{text}'"
    return quoteattr(_BAD.sub("\ufffd", text))


def to_xml(tree: Elem, outer: str = CLIENT) -> str:
    """The tree as XML where `outer` is the namespace in force."""
    out: list[str] = []
    _write(tree, outer, out)
    return "".join(out)


def inner_xml(kids: list[Elem | str], outer: str) -> str:
    """Children as XML, inside an element of that namespace."""
    out: list[str] = []
    for kid in kids:
        if isinstance(kid, str):
            out.append(escape(kid))
        else:
            _write(kid, outer, out)
    return "".join(out)


def _write(tree: Elem, outer: str, out: list[str]) -> None:
    out.append("<" + tree.name)
    if tree.ns != outer:
        out.append(" xmlns=" + attribute(tree.ns))
    for at, (name, value) in enumerate(tree.attrs.items()):
        if name.startswith("{"):
            uri, local = name[1:].split("}", 1)
            name = f"p{at}:{local}"
            out.append(f" xmlns:p{at}={attribute(uri)}")
        out.append(f" {name}={attribute(value)}")
    if not tree.kids:
        out.append("/>")
        return
    out.append(">")
    for kid in tree.kids:
        if isinstance(kid, str):
            out.append(escape(kid))
        else:
            _write(kid, tree.ns, out)
    out.append(f"</{tree.name}>")


def _split(name: str) -> tuple[str, str]:
    ns, mark, local = name.rpartition("\x01")
    if not mark:
        return "", name
    return (CLIENT if ns == COMPONENT else ns), local


class StreamParser:
    """Reads a stream piece by piece. `opened` is told the head's attributes, `stanza` each whole child, `closed` the end.

    The namespace of a component's stream is told as that of clients, so a stanza is the same tree wherever it came from.
    """

    def __init__(self, stanza: Callable[[Elem], None], opened: Callable[[dict[str, str]], None], closed: Callable[[], None]):
        self._tell, self._opened, self._closed = stanza, opened, closed
        self._stack: list[Elem] = []
        self._depth = 0
        self._names: dict[str, tuple[str, str]] = {}
        parser = expat.ParserCreate(namespace_separator="\x01")
        parser.buffer_text = True
        parser.StartElementHandler = self._start
        parser.EndElementHandler = self._end
        parser.CharacterDataHandler = self._text
        parser.StartDoctypeDeclHandler = self._doctype
        self._parser = parser

    def feed(self, data: bytes) -> None:
        try:
            self._parser.Parse(data, False)
        except expat.ExpatError as why:
            raise NotXmpp(str(why)) from why

    def _doctype(self, *_: object) -> None:
        raise NotXmpp("a document type")

    def _named(self, name: str) -> tuple[str, str]:
        known = self._names.get(name)
        if known is None:
            known = _split(name)
            if len(self._names) < 4096:
                self._names[name] = known
        return known

    def _attrs(self, attrs: dict[str, str]) -> dict[str, str]:
        made = {}
        for name, value in attrs.items():
            ns, local = self._named(name)
            made[local if not ns else f"xml:{local}" if ns == XML else f"{{{ns}}}{local}"] = value
        return made

    def _start(self, name: str, attrs: dict[str, str]) -> None:
        self._depth += 1
        if any("\x01" in key for key in attrs):
            attrs = self._attrs(attrs)
        if self._depth == 1:
            self._opened(attrs)
        elif self._depth <= MAX_DEPTH:
            ns, local = self._named(name)
            self._stack.append(Elem(local, ns, attrs))

    def _end(self, _name: str) -> None:
        self._depth -= 1
        if self._depth == 0:
            self._closed()
        elif self._depth < MAX_DEPTH:
            done = self._stack.pop()
            if self._stack:
                self._stack[-1].kids.append(done)
            else:
                self._tell(done)

    def _text(self, text: str) -> None:
        if self._stack and self._depth <= MAX_DEPTH:
            kids = self._stack[-1].kids
            if kids and isinstance(kids[-1], str):
                kids[-1] += text  # a text comes in parts where the pieces of the stream part it
            else:
                kids.append(text)
