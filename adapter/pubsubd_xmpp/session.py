"""The component's session with the server (XEP-0114): a stream head, a handshake, and stanzas both ways.

There are no acknowledgements in it. What waits to be sent is kept over the end of a session; what the system took is with the server, or lost with it.
"""

from __future__ import annotations

import asyncio
import hashlib
import socket
from collections import deque
from collections.abc import Callable
from typing import Protocol

from .config import Config
from .log import Rarely, say
from .names import CLIENT, COMPONENT, PING, STREAM_ERRORS, STREAMS
from .trees import Elem, elem
from .xmltext import NotXmpp, StreamParser, attribute, to_xml

HIGH_WATER = 1 << 20
SEND = 1 << 17

ADVICE = {
    "not-authorized": "the server refuses the secret: it has to be the one that the server's configuration has for this component",
    "host-unknown": "the server has no component of that name: look at its configuration",
    "conflict": "the server has this component connected already: a second adapter runs, or the server hasn't noticed yet that the last one went",
    "system-shutdown": "the server is being stopped",
}


class Owner(Protocol):
    """Who has the session."""

    def take(self, stanza: Elem) -> None: ...
    def taken(self) -> None: ...
    def connected(self) -> None: ...
    def disconnected(self) -> None: ...
    def drained(self) -> None: ...


class Session:
    """One at a time; `run` opens it again whenever it ends."""

    def __init__(self, config: Config, owner: Owner):
        self._config, self._owner = config, owner
        self._loop = asyncio.get_running_loop()
        self._socket: socket.socket | None = None
        self._queue: deque[tuple[bytes, Callable[[], None] | None]] = deque()
        self._waiting = 0  # bytes of the queue
        self._part = 0  # bytes of its first piece that are sent
        self._ended = asyncio.Event()
        self._parser: StreamParser | None = None
        self._rarely = Rarely()
        self._why = ""
        self._answered = True
        self._writing = False
        self._reading = False
        self.is_up = False
        self.was_away = False  # the server itself was away since the last session, and with it all of its clients' sessions

    # Sending

    def send(self, text: str, given: Callable[[], None] | None = None) -> None:
        """Puts a stanza into the queue; `flush` sends. `given` is called once the system has all of it."""
        data = text.encode()
        self._waiting += len(data)
        self._queue.append((data, given))

    def send_tree(self, tree: Elem) -> None:
        self.send(to_xml(tree))

    def pass_by(self, given: Callable[[], None]) -> None:
        """Calls once all that waits now is sent."""
        if self._queue:
            self._queue.append((b"", given))
        else:
            given()

    @property
    def can_take(self) -> bool:
        return self.is_up and self._waiting < HIGH_WATER

    @property
    def waiting(self) -> int:
        return self._waiting

    def flush(self) -> None:
        """Sends as much as the system takes."""
        if not self.is_up or self._socket is None:
            return
        try:
            while self._queue and self._send_some(self._socket):
                pass
        except BlockingIOError:
            pass
        except OSError as why:
            self._end(str(why.strerror or why))
            return
        self._watch_writing(bool(self._queue))

    def _send_some(self, to: socket.socket) -> bool:
        pieces, size = [], -self._part
        for data, _ in self._queue:
            pieces.append(data)
            size += len(data)
            if size >= SEND:
                break
        pieces[0] = pieces[0][self._part :]
        sent = to.send(b"".join(pieces)) if size else 0
        self._waiting -= sent
        left = sent + self._part
        while self._queue and len(self._queue[0][0]) <= left:
            data, given = self._queue.popleft()
            left -= len(data)
            if given is not None:
                given()
        self._part = left
        return sent == size

    def _watch_writing(self, wanted: bool) -> None:
        if self._socket is None or wanted == self._writing:
            return
        self._writing = wanted
        if wanted:
            self._loop.add_writer(self._socket, self._on_writable)
        else:
            self._loop.remove_writer(self._socket)

    def _on_writable(self) -> None:
        self.flush()
        if self._waiting < HIGH_WATER:
            self._owner.drained()

    # Receiving

    def read_on(self, wanted: bool) -> None:
        """Whether stanzas are taken: what isn't waits in the system, and then in the server."""
        if self._socket is None or wanted == self._reading:
            return
        self._reading = wanted
        if wanted:
            self._loop.add_reader(self._socket, self._on_readable)
        else:
            self._loop.remove_reader(self._socket)

    def _on_readable(self) -> None:
        assert self._socket is not None and self._parser is not None
        try:
            data = self._socket.recv(1 << 16)
        except BlockingIOError:
            return
        except OSError as why:
            self._end(str(why.strerror or why))
            return
        if not data:
            self._end(self._why or "the server closed the stream")
            return
        try:
            self._parser.feed(data)
        except NotXmpp as why:
            self._end(f"the server sent no XMPP: {why}")
            return
        self._owner.taken()
        self.flush()

    def _opened(self, attrs: dict[str, str]) -> None:
        assert self._socket is not None
        key = hashlib.sha1((attrs.get("id", "") + self._config.secret).encode()).hexdigest()
        self._socket.send(f"<handshake>{key}</handshake>".encode())

    def _stanza(self, stanza: Elem) -> None:
        if stanza.ns == CLIENT and stanza.name in ("iq", "message", "presence"):
            if stanza.name == "iq" and stanza.get("id") == "adapter-ping":
                self._answered = True
            else:
                self._owner.take(stanza)
        elif stanza.name == "handshake":
            self._up()
        elif stanza.ns == STREAMS and stanza.name == "error":
            names = [kid.name for kid in stanza.elements() if kid.ns == STREAM_ERRORS and kid.name != "text"]
            name = names[0] if names else "error"
            self._why = ADVICE.get(name, name)
            self.was_away = self.was_away or name == "system-shutdown"

    def _up(self) -> None:
        self.is_up = True
        self._part = 0
        self._answered = True
        self._rarely.forget("not connected")
        say("connected", server=f"{self._config.address}:{self._config.port}", component=self._config.host)
        self._owner.connected()
        self.was_away = False

    # Sessions

    def _end(self, why: str) -> None:
        self._why = why
        self._ended.set()

    async def run(self) -> None:
        """Connects, and again after each end, until it is cancelled."""
        wait = 0.2
        while True:
            was_up = await self._one()
            wait = 0.2 if was_up else min(2 * wait, 10.0)
            await asyncio.sleep(wait)

    async def _one(self) -> bool:
        """One session. Whether the server took it."""
        self._why, was_up = "", False
        pinging: asyncio.Task[None] | None = None
        try:
            await self._connect()
            pinging = asyncio.create_task(self._ping())
            await self._ended.wait()
        except OSError as why:
            self.was_away = True
            self._why = f"the server isn't there: {why.strerror or 'no answer'}"
        finally:
            was_up = self.is_up
            if pinging is not None:
                pinging.cancel()
            self._close()
        if was_up:
            say("disconnected", why=self._why)
            self._owner.disconnected()
        else:
            self._rarely.say("not connected", why=self._why, server=f"{self._config.address}:{self._config.port}")
        return was_up

    async def _connect(self) -> None:
        self._ended.clear()
        end = socket.socket(socket.AF_INET6 if ":" in self._config.address else socket.AF_INET)
        self._socket = end
        end.setblocking(False)
        end.setsockopt(socket.IPPROTO_TCP, socket.TCP_NODELAY, 1)
        end.setsockopt(socket.SOL_SOCKET, socket.SO_KEEPALIVE, 1)
        await asyncio.wait_for(self._loop.sock_connect(end, (self._config.address, self._config.port)), 10)
        self._parser = StreamParser(self._stanza, self._opened, lambda: self._end(self._why or "the server closed the stream"))
        head = f"<?xml version='1.0'?><stream:stream xmlns='{COMPONENT}' xmlns:stream='{STREAMS}' to={attribute(self._config.host)}>"
        await self._loop.sock_sendall(end, head.encode())
        self.read_on(True)

    async def _ping(self) -> None:
        """Ends a session whose server takes no handshake, or answers nothing any more."""
        await asyncio.sleep(10)
        if not self.is_up:
            self._end("the server doesn't take the handshake")
        while True:
            self._answered = False
            ping = {"from": self._config.host, "to": self._config.hosts[0], "id": "adapter-ping", "type": "get"}
            self.send_tree(elem("iq", CLIENT, ping, elem("ping", PING)))
            self.flush()
            await asyncio.sleep(self._config.ping_seconds)
            if not self._answered:
                self._end("the server doesn't answer")

    def _close(self) -> None:
        if self._socket is not None:
            self.read_on(False)
            self._watch_writing(False)
            self._socket.close()
        self._socket, self.is_up, self._parser = None, False, None

    def goodbye(self) -> None:
        """Ends the stream in good order."""
        if self._socket is not None and self.is_up and not self._queue:
            try:
                self._socket.send(b"</stream:stream>")
            except OSError:
                pass
