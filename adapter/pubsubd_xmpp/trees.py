"""Stanza trees: an element with its namespace, its attributes by name, and its children."""

from __future__ import annotations

from collections.abc import Iterator


class Elem:
    """One element. A child is an element or a text; an attribute of a namespace is named `{namespace}name`, one of XML itself `xml:name`."""

    __slots__ = ("name", "ns", "attrs", "kids")

    def __init__(self, name: str, ns: str, attrs: dict[str, str] | None = None, kids: list[Elem | str] | None = None):
        self.name = name
        self.ns = ns
        self.attrs = {} if attrs is None else attrs
        self.kids = [] if kids is None else kids

    def get(self, name: str) -> str:
        """The attribute, or the empty text."""
        return self.attrs.get(name, "")

    def elements(self) -> Iterator[Elem]:
        return (kid for kid in self.kids if isinstance(kid, Elem))

    def children(self, name: str) -> list[Elem]:
        return [kid for kid in self.elements() if kid.name == name]

    def child(self, name: str, ns: str | None = None) -> Elem | None:
        """The first child of that name, and of that namespace where one is named."""
        for kid in self.kids:
            if isinstance(kid, Elem) and kid.name == name and (ns is None or kid.ns == ns):
                return kid
        return None

    def first(self) -> Elem | None:
        """The first child that is an element."""
        return next(self.elements(), None)

    def find(self, *path: str) -> Elem | None:
        """The first child of the first name, its first child of the second, and so on."""
        at: Elem | None = self
        for step in path:
            at = at.child(step) if at is not None else None
        return at

    def text(self) -> str:
        return "".join(kid for kid in self.kids if isinstance(kid, str))

    def __eq__(self, other: object) -> bool:
        if not isinstance(other, Elem):
            return NotImplemented
        return (self.name, self.ns, self.attrs, self.kids) == (other.name, other.ns, other.attrs, other.kids)

    __hash__ = None  # type: ignore[assignment]

    def __repr__(self) -> str:
        return f"Elem({self.name!r}, {self.ns!r}, {self.attrs!r}, {self.kids!r})"


def elem(name: str, ns: str, attrs: dict[str, str | None] | None = None, *kids: Elem | str) -> Elem:
    """A tree; an attribute that is None is left out."""
    given = {key: value for key, value in (attrs or {}).items() if value is not None}
    return Elem(name, ns, given, list(kids))
