"""Trees as lines of JSON, both ways, as docs/router.md says how a line is written."""

from __future__ import annotations

import json
from json.decoder import JSONDecodeError
from json.encoder import encode_basestring as quote
from typing import Any

from .names import CLIENT
from .trees import Elem

class NotALine(Exception):
    """What came from the service is no line of a tree."""


def _text(tree: Elem, outer: str) -> str:
    """The object of a tree, where `outer` is its parent's namespace."""
    members = []
    if tree.attrs:
        members.append('"a":{' + ",".join([f"{quote(name)}:{quote(value)}" for name, value in tree.attrs.items()]) + "}")
    if tree.kids:
        members.append('"c":[' + ",".join([quote(kid) if isinstance(kid, str) else _text(kid, tree.ns) for kid in tree.kids]) + "]")
    members.append('"n":' + quote(tree.name))
    if tree.ns != outer:
        members.append('"ns":' + quote(tree.ns))
    return "{" + ",".join(members) + "}"


def to_line(tree: Elem) -> bytes:
    """The line with its newline."""
    return (_text(tree, CLIENT) + "\n").encode()


def tree_of(made: dict[str, Any], outer: str) -> Elem:
    """The tree of an object that was read, where `outer` is its parent's namespace."""
    ns = made.get("ns", outer)
    kids = [kid if isinstance(kid, str) else tree_of(kid, ns) for kid in made.get("c", ())]
    return Elem(made["n"], ns, made.get("a"), kids)


def from_line(line: bytes) -> Elem:
    try:
        return tree_of(json.loads(line), CLIENT)
    except (JSONDecodeError, UnicodeDecodeError, KeyError, TypeError, AttributeError) as why:
        raise NotALine(repr(line[:200])) from why
