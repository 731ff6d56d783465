"""Who is there, and with which capabilities: told by the server, and told to the service at the start of each of its runs."""

from __future__ import annotations

from collections.abc import Callable, Iterator

from .kept import Kept
from .lines import from_line, to_line
from .names import CAPS, CLIENT, canonical
from .trees import Elem, elem


class Presences:
    """The resources that are there. Of a presence its capabilities are kept and told, and nothing else of what it says."""

    def __init__(self, service: str, kept: Kept | None, tell: Callable[[Elem], None]):
        self._service, self._kept, self._tell = service, kept, tell
        self._there: dict[str, Elem | None] = {}
        self._stale: set[str] = set()

    def __len__(self) -> int:
        return len(self._there)

    def load(self) -> None:
        """Takes in who was there when the last adapter ended; whether he still is has to be asked."""
        if self._kept is not None:
            for resource, caps in self._kept.presences():
                self._there[resource] = from_line(caps.encode()) if caps else None
                self._stale.add(resource)

    def take(self, resource: str, stanza: Elem) -> bool:
        """The resource is there. False where the service knows it so already."""
        caps = stanza.child("c", CAPS)
        if caps is not None:
            caps = Elem("c", CAPS, caps.attrs)
        self._stale.discard(resource)
        if resource in self._there and self._there[resource] == caps:
            return False
        self._there[resource] = caps
        if self._kept is not None:
            self._kept.keep_presence(resource, to_line(caps).decode().strip() if caps is not None else "")
        return True

    def remove(self, resource: str) -> bool:
        """The resource isn't there any more. False where it wasn't."""
        self._stale.discard(resource)
        if resource not in self._there:
            return False
        del self._there[resource]
        if self._kept is not None:
            self._kept.keep_presence(resource, None)
        return True

    def tell_there(self, resource: str) -> None:
        """Tells the service, if the resource is still there."""
        if resource in self._there:
            self._tell(self._presence(resource))

    def tell_gone(self, resource: str) -> None:
        self._tell(elem("presence", CLIENT, {"from": resource, "to": self._service, "type": "unavailable"}))

    def _presence(self, resource: str) -> Elem:
        caps = self._there[resource]
        return elem("presence", CLIENT, {"from": resource, "to": self._service}, *([] if caps is None else [caps]))

    def all(self) -> Iterator[Elem]:
        """A presence of each resource that is there."""
        return (self._presence(resource) for resource in self._there)

    def doubt(self) -> None:
        """The server went: whoever it doesn't tell again is gone."""
        self._stale = set(self._there)

    def stale(self) -> list[str]:
        return sorted(self._stale)

    def sure(self, address: str) -> None:
        """The resource showed itself otherwise."""
        self._stale.discard(canonical(address))
