"""Last items that a start of the service tells once more.

At a start the service is told who is there, and to it each resource is newly there: it sends the last item of every personal node that the resource wants, under a new
number. Whoever was there before has it already. The service marks a last item by when it was published (XEP-0203). So what each resource was last told of a node is remembered,
as a digest, and a last item that says the same is dropped.
"""

from __future__ import annotations

import re

_NODE = re.compile(rb'\[\{"c":\[\{"a":\{"node":("(?:[^"\\]|\\.)*")\}')
_DELAY = re.compile(rb',\{"a":\{"stamp":"[^"]*"\},"n":"delay","ns":"urn:xmpp:delay"\}\]$')
MOST = 200_000


class Repeats:
    """What was last told, by resource, and there by account and node."""

    def __init__(self) -> None:
        self._told: dict[str, dict[tuple[str, bytes], int]] = {}
        self._count = 0

    def gone(self, resource: str) -> None:
        """Whoever comes again is told of last items as one who wasn't there."""
        self._count -= len(self._told.pop(resource, ()))

    def is_repeat(self, resource: str, account: str, content: bytes) -> bool:
        """Whether this is a last item that the resource has already. What the event says is remembered."""
        node = _NODE.match(content)
        if node is None:
            return False
        delay = _DELAY.search(content)
        said = hash(content[: delay.start()] + b"]" if delay else content)
        told = self._told.setdefault(resource, {})
        key = (account, node[1])
        if told.get(key) == said:
            return delay is not None
        if key not in told:
            self._count += 1
        told[key] = said
        if self._count > MOST:
            self.gone(next(iter(self._told)))
        return False
