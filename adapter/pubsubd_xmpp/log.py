"""What an operator reads: one line an event on standard error, and the words for systemd."""

from __future__ import annotations

import os
import socket
import sys


def say(event: str, **facts: object) -> None:
    """One line: the event, and what belongs to it as name=value. systemd adds the time."""
    words = [event.rstrip()]
    for name, value in facts.items():
        text = str(value)
        if not text or any(sign in text for sign in ' "=\n'):
            text = '"' + text.replace("\n", " ").replace('"', "'") + '"'
        words.append(f"{name}={text}")
    print("pubsubd-xmpp:", *words, file=sys.stderr, flush=True)


class Rarely:
    """Says the same event again only when its facts changed, or a number of times went by: what fails each second isn't worth a line each."""

    def __init__(self) -> None:
        self._last: dict[str, list[str]] = {}
        self._passed: dict[str, int] = {}

    def say(self, event: str, **facts: object) -> None:
        key = [str(fact) for fact in facts.values()]
        passed = self._passed.get(event, 0) + 1
        if self._last.get(event) == key and passed < 100:
            self._passed[event] = passed
            return
        self._last[event], self._passed[event] = key, 0
        say(event, **facts)

    def forget(self, event: str) -> None:
        self._last.pop(event, None)


def notify(*words: str) -> None:
    """Tells systemd, where it asked to be told."""
    name = os.environ.get("NOTIFY_SOCKET", "")
    if not name:
        return
    address = "\0" + name[1:] if name.startswith("@") else name
    try:
        with socket.socket(socket.AF_UNIX, socket.SOCK_DGRAM | socket.SOCK_CLOEXEC) as end:
            end.connect(address)
            end.sendall("\n".join(words).encode())
    except OSError as why:
        say("systemd can't be told", why=why.strerror)
