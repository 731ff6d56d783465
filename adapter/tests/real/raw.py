"""A client with nothing in it: one connection, SASL PLAIN, and stanzas as trees. For loads, where a library's own work would be measured."""

from __future__ import annotations

import asyncio
import base64
import ssl
import sys
from pathlib import Path

sys.path.insert(0, str(Path(__file__).resolve().parent.parent.parent))

from pubsubd_xmpp.names import CLIENT, PUBSUB
from pubsubd_xmpp.trees import Elem
from pubsubd_xmpp.xmltext import StreamParser

STREAM = "<stream:stream xmlns='jabber:client' xmlns:stream='http://etherx.jabber.org/streams' version='1.0' to='{}'>"
# How long is waited for what has to come.
SECONDS = 120


class Raw:
    """One client."""

    def __init__(self, local: str, host: str, password: str, resource: str):
        self.local, self.host, self.password = local, host, password
        self.bare, self.full = f"{local}@{host}", f"{local}@{host}/{resource}"
        self.messages: list[Elem] = []
        self.on_message = self.messages.append
        self.closed = False
        self._answers: dict[str, asyncio.Future[Elem]] = {}
        self._other: asyncio.Queue[Elem] = asyncio.Queue()
        self._serial = 0
        self._reading: asyncio.Task | None = None

    def _restart(self):
        self._parser = StreamParser(self._take, lambda attrs: None, self._end)
        self._writer.write(STREAM.format(self.host).encode())

    def _end(self):
        self.closed = True

    def _take(self, stanza):
        if stanza.name == "iq" and stanza.get("type") in ("result", "error") and stanza.get("id") in self._answers:
            answer = self._answers.pop(stanza.get("id"))
            if not answer.done():
                answer.set_result(stanza)
        elif stanza.name == "iq" and stanza.get("type") == "get":
            self.asked(stanza)
        elif stanza.name == "message":
            self.on_message(stanza)
        elif stanza.name != "presence":
            self._other.put_nowait(stanza)

    def asked(self, stanza):
        """A question of another: none is answered here but pings."""
        self.send(f"<iq to='{stanza.get('from')}' id='{stanza.get('id')}' type='result'/>")

    async def _read(self, reader):
        try:
            while data := await reader.read(1 << 16):
                self._parser.feed(data)
        except (ConnectionError, asyncio.CancelledError):
            pass
        self.closed = True

    async def connect(self, port, register=False):
        self._reader, self._writer = await asyncio.open_connection("127.0.0.1", port)
        self._restart()
        self._reading = asyncio.create_task(self._read(self._reader))
        features = await self._next("features")
        if features.child("starttls") is not None and features.child("starttls").child("required") is not None:
            await self._encrypt()
        if register:
            fields = f"<username>{self.local}</username><password>{self.password}</password>"
            await self.iq("set", f"<query xmlns='jabber:iq:register'>{fields}</query>", self.host)
        token = base64.b64encode(f"\0{self.local}\0{self.password}".encode()).decode()
        self.send(f"<auth xmlns='urn:ietf:params:xml:ns:xmpp-sasl' mechanism='PLAIN'>{token}</auth>")
        await self._next("success")
        self._restart()
        await self._next("features")
        resource = self.full.partition("/")[2]
        await self.iq("set", f"<bind xmlns='urn:ietf:params:xml:ns:xmpp-bind'><resource>{resource}</resource></bind>")
        await self.iq("set", "<session xmlns='urn:ietf:params:xml:ns:xmpp-session'/>")
        return self

    async def _encrypt(self):
        """By whatever certificate the server has, since it is on this machine."""
        self.send("<starttls xmlns='urn:ietf:params:xml:ns:xmpp-tls'/>")
        await self._next("proceed")
        self._reading.cancel()
        context = ssl.create_default_context()
        context.check_hostname, context.verify_mode = False, ssl.CERT_NONE
        await self._writer.start_tls(context)
        self._restart()
        self._reading = asyncio.create_task(self._read(self._reader))
        await self._next("features")

    async def _next(self, name):
        found = await asyncio.wait_for(self._other.get(), SECONDS)
        if found.name != name:
            raise RuntimeError(f"{self.full}: {found}")
        return found

    def send(self, text):
        self._writer.write(text.encode())

    def ask(self, kind, payload, to=None):
        """Sends an iq; the future is its reply."""
        self._serial += 1
        name = f"r{self._serial}"
        answer = asyncio.get_running_loop().create_future()
        self._answers[name] = answer
        to = f" to='{to}'" if to else ""
        self.send(f"<iq id='{name}' type='{kind}'{to}>{payload}</iq>")
        return answer

    async def iq(self, kind, payload, to=None):
        return await asyncio.wait_for(self.ask(kind, payload, to), SECONDS)

    def publish(self, node, item, payload, to=None):
        return self.ask("set", f"<pubsub xmlns='{PUBSUB}'><publish node='{node}'><item id='{item}'>{payload}</item></publish></pubsub>", to)

    async def items(self, node, to=None):
        """The ids of the items that stand there."""
        reply = await self.iq("get", f"<pubsub xmlns='{PUBSUB}'><items node='{node}'/></pubsub>", to)
        found = reply.find("pubsub", "items")
        if found is None:
            raise RuntimeError(str(reply))
        return [one.get("id") for one in found.children("item")]

    async def come(self):
        """Is there, once the server has taken the presence."""
        self.send("<presence/>")
        await self.iq("get", "<ping xmlns='urn:xmpp:ping'/>", self.host)

    def close(self):
        if self._reading is not None:
            self._reading.cancel()
        self._writer.transport.abort()


async def register(port, *addresses, password):
    """Makes accounts."""
    for address in addresses:
        local, _, host = address.partition("@")
        client = await Raw(local, host, password, "new").connect(port, register=True)
        client.close()


def event_item(message):
    """Node and id of the item that an event tells, or None."""
    items = message.find("event", "items")
    if items is None or items.child("item") is None:
        return None
    return items.get("node"), items.child("item").get("id")


__all__ = ["CLIENT", "Raw", "event_item", "register"]
