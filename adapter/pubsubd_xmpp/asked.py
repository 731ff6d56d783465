"""A request that the service owes a reply."""

from __future__ import annotations

from collections.abc import Callable
from dataclasses import dataclass

from .trees import Elem


@dataclass(frozen=True, slots=True)
class Envelope:
    """The delegation that a request came in (XEP-0355): whose it is, its id, and its version."""

    server: str
    id: str
    ns: str


@dataclass(slots=True)
class Asked:
    """The head of a request (its element without children), and what is to be done with the reply.

    `then` is given the reply of a request that the adapter itself made, or None where none came; any other reply goes to the server.
    """

    head: Elem
    size: int = 0
    envelope: Envelope | None = None
    then: Callable[[Elem | None], None] | None = None
    line: int = 0
    since: float = 0.0


def head_of(stanza: Elem) -> Elem:
    return Elem(stanza.name, stanza.ns, stanza.attrs)
