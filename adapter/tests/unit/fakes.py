"""A stand-in for the server (the accepting side of XEP-0114), and an adapter between it and a stand-in for the service."""

from __future__ import annotations

import asyncio
import contextlib
import hashlib
import os
import pathlib
import signal
import sqlite3
import sys
import tempfile
import unittest

HERE = pathlib.Path(__file__).resolve().parent
ADAPTER = HERE.parent.parent
sys.path.insert(0, str(ADAPTER))

from pubsubd_xmpp.names import ROSTER
from pubsubd_xmpp.service import die_with
from pubsubd_xmpp.trees import Elem, elem
from pubsubd_xmpp.xmltext import StreamParser, to_xml

PUBSUB = "http://jabber.org/protocol/pubsub"
HOST = "a.example"
SERVICE = "pubsub.a.example"
SECRET = "not a secret"
# How long a test waits for what has to come: it goes on as soon as that is there.
SECONDS = 120


class FakeServer:
    """One component at a time. What it sends is kept in `got`; questions for rosters are answered from `rosters`."""

    def __init__(self):
        self.got: list[Elem] = []
        self.rosters: dict[str, list[Elem]] = {}
        self.answers_rosters = True
        self.secret = SECRET
        self.error = ""
        self.heads: list[str] = []
        self.ended = False
        self.on_connect = lambda: None
        self.roster_questions = 0
        self._changed = asyncio.Event()
        self._writer: asyncio.StreamWriter | None = None
        self._server: asyncio.Server | None = None
        self.port = 0

    async def start(self):
        self._server = await asyncio.start_server(self._take, "127.0.0.1", self.port)
        self.port = self._server.sockets[0].getsockname()[1]

    async def stop(self):
        if self._server is not None:
            self._server.close()
        self.drop()

    def drop(self):
        if self._writer is not None:
            self._writer.transport.abort()
            self._writer = None

    @property
    def is_up(self):
        return self._writer is not None

    async def _take(self, reader, writer):
        waiting = []
        parser = StreamParser(waiting.append, lambda attrs: self._open(attrs, writer), self._end)
        try:
            while data := await reader.read(1 << 16):
                parser.feed(data)
                while waiting:
                    self._stanza(waiting.pop(0), writer)
                self._changed.set()
        except ConnectionError:
            pass  # an adapter that is killed with bytes unread resets its connection
        if self._writer is writer:
            self._writer = None
            self._changed.set()

    def _open(self, attrs, writer):
        self.heads.append(attrs["to"])
        names = "xmlns='jabber:component:accept' xmlns:stream='http://etherx.jabber.org/streams'"
        writer.write(f"<stream:stream {names} from='{attrs['to']}' id='s1'>".encode())
        if self.error:
            self._refuse(writer, self.error)

    def _refuse(self, writer, name):
        writer.write(f"<stream:error><{name} xmlns='urn:ietf:params:xml:ns:xmpp-streams'/></stream:error></stream:stream>".encode())
        writer.close()

    def _end(self):
        self.ended = True

    def _stanza(self, stanza, writer):
        if stanza.name == "handshake":
            if stanza.text() != hashlib.sha1(("s1" + self.secret).encode()).hexdigest():
                self._refuse(writer, "not-authorized")
                return
            writer.write(b"<handshake/>")
            self._writer = writer
            self.on_connect()
        elif stanza.child("query", ROSTER) is not None:
            self.roster_questions += 1
            if self.answers_rosters:
                self.answer_roster(stanza)
        elif stanza.get("id") == "adapter-ping":
            self.send_tree(elem("iq", "jabber:client", {"from": HOST, "to": SERVICE, "id": "adapter-ping", "type": "result"}))
        else:
            self.got.append(stanza)

    def answer_roster(self, stanza):
        query = elem("query", ROSTER, None, *self.rosters.get(stanza.get("to"), []))
        self.send_tree(elem("iq", "jabber:client", {"from": stanza.get("to"), "to": SERVICE, "id": stanza.get("id"), "type": "result"}, query))

    def send(self, text):
        assert self._writer is not None, "no component is connected"
        self._writer.write(text.encode())

    def send_tree(self, tree):
        self.send(to_xml(tree))

    def grant(self, privilege=2, delegation=2, rights=("roster:get", "message:outgoing", "presence:managed_entity"), host=HOST):
        perms = "".join("<perm access='{}' type='{}'/>".format(*right.split(":")) for right in rights)
        self.send(f"<message from='{host}' to='{SERVICE}'><privilege xmlns='urn:xmpp:privilege:{privilege}'>{perms}</privilege></message>")
        names = "".join(f"<delegated namespace='{PUBSUB}{end}'/>" for end in ("", "#owner"))
        self.send(f"<message from='{host}' to='{SERVICE}'><delegation xmlns='urn:xmpp:delegation:{delegation}'>{names}</delegation></message>")

    async def until(self, true, what="what was waited for"):
        """Waits until the condition holds, and gives what it answered."""
        end = asyncio.get_running_loop().time() + SECONDS
        while not (found := true()):
            left = end - asyncio.get_running_loop().time()
            if left <= 0:
                raise AssertionError(f"{what} didn't come; came: {[to_xml(one) for one in self.got]}")
            self._changed.clear()
            try:
                await asyncio.wait_for(self._changed.wait(), min(left, 0.05))
            except TimeoutError:
                pass
        return found

    async def reply(self, name):
        """The iq with that id, taken out of what came."""

        def fits(one):
            return one.name == "iq" and one.get("id") == name and one.get("type") in ("result", "error")

        found = await self.until(lambda: next((one for one in self.got if fits(one)), None), f"the reply {name}")
        self.got.remove(found)
        return found

    async def message(self, **attrs):
        """The message with those attributes, taken out of what came."""

        def fits(one):
            return one.name == "message" and all(one.get(key) == value for key, value in attrs.items())

        found = await self.until(lambda: next((one for one in self.got if fits(one)), None), f"a message {attrs}")
        self.got.remove(found)
        return found


def contact(jid, subscription, *groups):
    return elem("item", ROSTER, {"jid": jid, "subscription": subscription}, *[elem("group", ROSTER, None, one) for one in groups])


def request(name, deed="x", sender=f"ann@{HOST}/1", to=SERVICE, kind="set"):
    """A request whose node tells the stand-in for the service what to do."""
    return f"<iq from='{sender}' to='{to}' id='{name}' type='{kind}'><pubsub xmlns='{PUBSUB}'><create node='{deed}'/></pubsub></iq>"


def delegated(name, inner, version=2, host=HOST):
    inner = inner.replace("<iq ", "<iq xmlns='jabber:client' ", 1)
    return (
        f"<iq from='{host}' to='{SERVICE}' id='{name}' type='set'><delegation xmlns='urn:xmpp:delegation:{version}'>"
        f"<forwarded xmlns='urn:xmpp:forward:0'>{inner}</forwarded></delegation></iq>"
    )


class AdapterCase(unittest.IsolatedAsyncioTestCase):
    """A test with a server, a service and an adapter of its own."""

    hosts = HOST
    of_server = ""
    settings = ""

    async def asyncSetUp(self):
        # The service of an adapter that was killed may still be writing when the folder goes.
        self.folder = tempfile.TemporaryDirectory(prefix="adapter-", ignore_cleanup_errors=True)
        self.root = pathlib.Path(self.folder.name)
        self.server = FakeServer()
        await self.server.start()
        self.adapter = None
        self.pings = 0
        self.log = self.root / "log"
        (self.root / "secret").write_text(SECRET)
        self.configure()
        self.server.on_connect = self.server.grant

    def configure(self, program=HERE / "fake_pubsubd.py"):
        text = f"[server]\nport = {self.server.port}\nsecret_file = {self.root}/secret\n{self.of_server}"
        text += f"[service]\nhost = {SERVICE}\nhosts = {self.hosts}\nprogram = {program}\nstate = {self.root}/state\nrun = {self.root}/run\n"
        (self.root / "conf").write_text(text + self.settings)
        (self.root / "state").mkdir(exist_ok=True)

    async def asyncTearDown(self):
        if self.adapter is not None and self.adapter.returncode is None:
            self.adapter.kill()
            await self.adapter.wait()
        await self.server.stop()
        self.folder.cleanup()

    @property
    def store(self):
        return self.root / "state" / "store"

    def told(self):
        """The lines that the service was told in its last run, without their host."""
        try:
            text = (self.root / "state" / "store.told").read_text(encoding="utf-8")
        except FileNotFoundError:
            return []
        return [line.partition(" ")[2] for line in text.split("start\n")[-1].splitlines()]

    def runs(self):
        try:
            return (self.root / "state" / "store.told").read_text(encoding="utf-8").count("start\n")
        except FileNotFoundError:
            return 0

    def said(self):
        return self.log.read_text(encoding="utf-8") if self.log.exists() else ""

    async def start(self, wait=True, words="service serves"):
        """Starts the adapter, and waits until it serves."""
        before = self.said().count(words)
        with open(self.log, "ab") as log:
            command = [sys.executable, str(ADAPTER / "pubsubd-xmpp"), "--config", str(self.root / "conf")]
            self.adapter = await asyncio.create_subprocess_exec(*command, stderr=log, stdout=log, preexec_fn=die_with(os.getpid()))
        if wait:
            await self.server.until(lambda: self.server.is_up, "the component")
            await self.until_said(words, before + 1)

    async def stop(self):
        self.adapter.send_signal(signal.SIGTERM)
        return await asyncio.wait_for(self.adapter.wait(), SECONDS)

    def is_all_given(self):
        """Whether the adapter noted that the server has all that the service wrote."""
        cells = (self.root / "run").glob("run-*/*.at")
        return all(int.from_bytes(cell.read_bytes(), "little") == cell.with_suffix(".out").stat().st_size for cell in cells)

    async def kill(self):
        """Kills the adapter, but not between a write and its note: what it was about to note would come again."""
        await self.server.until(self.is_all_given, "the note of what was given")
        self.adapter.kill()
        await self.adapter.wait()
        await self.server.until(lambda: not self.server.is_up, "the end of the component")

    async def ended(self):
        return await asyncio.wait_for(self.adapter.wait(), SECONDS)

    async def until_said(self, words, count=1):
        await self.server.until(lambda: self.said().count(words) >= count, words)

    async def until_told(self, words):
        return await self.server.until(lambda: next((line for line in self.told() if words in line), None), f"the line {words}")

    async def until_status(self, words):
        """Asks the adapter for its status until the line has those words."""

        def asked():
            self.adapter.send_signal(signal.SIGUSR1)
            lines = [line for line in self.said().splitlines() if " status " in line]
            return bool(lines) and words in lines[-1].split()

        await self.server.until(asked, f"the status {words}")

    async def until_kept(self, query, *rows):
        """Waits until what the adapter keeps on the disk answers the query so."""

        def asked():
            try:
                with contextlib.closing(sqlite3.connect(self.root / "state" / "adapter.sqlite", timeout=5)) as base:
                    return base.execute(query).fetchall() == list(rows)
            except sqlite3.Error:
                return False

        await self.server.until(asked, f"{query}: {rows}")

    async def until_taken(self):
        """Waits until the adapter has taken all that the server sent, and what it sent before that has come."""
        self.pings += 1
        self.server.send(f"<iq from='ann@{HOST}/ping' to='{SERVICE}' id='taken-{self.pings}' type='get'><ping xmlns='urn:xmpp:ping'/></iq>")
        await self.server.reply(f"taken-{self.pings}")

    def let_go(self):
        """From now on the service answers what it held."""
        (self.root / "state" / "go").write_text("")


def condition(reply):
    """The condition of an error, and its type."""
    said = reply.child("error")
    return (said.first().name, said.get("type")) if said is not None else None


def service_pid(case):
    found = [line for line in case.said().splitlines() if "service started" in line]
    return int(found[-1].split("pid=")[1].split()[0])


def kill_service(case):
    os.kill(service_pid(case), signal.SIGKILL)
