"""Notices on their way out: a line of the service becomes a message of the server.

The notices of one event differ in their address and number alone, so what stands inside them is read and written once.
"""

from __future__ import annotations

import json
import re
from dataclasses import dataclass

from .forms import draw
from .lines import tree_of
from .names import CLIENT, bare_of, host_of
from .trees import Elem
from .xmltext import attribute, inner_xml

_LINE = re.compile(
    rb'\{"a":\{"from":"([^"\\]*)","id":"n-(\d+)","to":"([^"\\]*)"(,"type":"headline")?\},"c":(\[.*\]),"n":"message"\}', re.DOTALL
)
_KEPT = 32


@dataclass(slots=True)
class Notice:
    """A notice as it came, with what stands inside it as XML."""

    sender: str
    number: int
    to: str
    headline: bool
    content: bytes  # what stands inside it, as it came
    inner: str

    @property
    def bare(self) -> str:
        return bare_of(self.to)

    @property
    def sender_host(self) -> str:
        return host_of(self.sender)

    def xml(self, ns: str) -> str:
        """The message, with its namespace where one has to stand."""
        kind = " type='headline'" if self.headline else ""
        xmlns = f" xmlns='{ns}'" if ns else ""
        return f"<message{xmlns} from={attribute(self.sender)} id='n-{self.number}' to={attribute(self.to)}{kind}>{self.inner}</message>"


class Notices:
    """Reads lines that are notices."""

    def __init__(self) -> None:
        self._inner: dict[bytes, str] = {}

    def read(self, line: bytes) -> Notice | None:
        """The notice of that line, if it is one."""
        found = _LINE.fullmatch(line)
        if found is None:
            return None
        sender, number, to, headline, kids = found.groups()
        return Notice(sender.decode(), int(number), to.decode(), headline is not None, kids, self._inside(kids))

    def _inside(self, kids: bytes) -> str:
        inner = self._inner.get(kids)
        if inner is None:
            message = Elem("message", CLIENT, {}, tree_of({"n": "message", "c": json.loads(kids)}, CLIENT).kids)
            draw(message)
            inner = inner_xml(message.kids, CLIENT)
            if len(self._inner) >= _KEPT:
                self._inner.pop(next(iter(self._inner)))
            self._inner[kids] = inner
        return inner
