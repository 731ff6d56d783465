"""Where each stanza goes: from the server to a stream of the service, and from there to the server."""

from __future__ import annotations

import time
from collections import Counter, deque
from collections.abc import Callable

from . import errors
from .asked import Asked, Envelope, head_of
from .config import Config
from .forms import draw, mend
from .grants import Grants, asks_features, spoken_for, unwrap, wrap
from .kept import Kept
from .lines import NotALine, from_line, to_line
from .log import Rarely, say
from .names import CLIENT, DELEGATION, INFO, PING, bare_of, canonical, host_of, is_full
from .notices import Notice, Notices
from .presences import Presences
from .repeats import Repeats
from .rosters import Rosters
from .session import Session
from .stream import MANY_LINES, Stream
from .trees import Elem, elem
from .xmltext import to_xml


class Router:
    """Both ways. A request is counted as open from when it came until it was answered, wherever it waits meanwhile."""

    def __init__(self, config: Config, kept: Kept):
        self._config, self._kept = config, kept
        self.session: Session
        self.grants = Grants(config.hosts)
        self.presences = Presences(config.host, kept if config.keep_presences else None, self._tell_presence)
        self.rosters = Rosters(config, kept, self._to_server, self.put, self._may_ask)
        self.counts: Counter[str] = Counter()
        self.streams: dict[str, Stream | None] = dict.fromkeys(config.hosts)
        self.waiting: dict[str, deque[tuple[bytes, Asked | None]]] = {host: deque() for host in config.hosts}
        self.out_of_step = False  # a reply came that fits no request
        self.serves = False  # the service is there, and knows who is
        self.stopping = False
        self.features: list[Elem] | None = None
        self._features_wanted: list[Elem] = []
        self._notices = Notices()
        self._repeats = Repeats()
        self._rarely = Rarely()
        self._open = 0
        self._open_bytes = 0
        self._dirty: set[str] = set()

    @property
    def open(self) -> int:
        return self._open

    @property
    def is_flooded(self) -> bool:
        """Whether lines come faster than the service takes them."""
        return any(stream is not None and len(stream.out) > MANY_LINES for stream in self.streams.values())

    # To the service

    def put(self, host: str, line: bytes, asked: Asked | None) -> None:
        """A line for the service: at once if it serves. Without it, what a person asked waits, and the rest is told at the next start."""
        stream = self.streams[host]
        is_own = asked is not None and asked.then is not None
        if stream is not None and (self.serves or is_own):
            stream.put(line, asked)
            self._dirty.add(host)
        else:
            self.keep(host, line, asked)

    def keep(self, host: str, line: bytes, asked: Asked | None) -> None:
        """A line that waits for the next run, if it is a person's."""
        if asked is not None and asked.then is not None:
            asked.then(None)
        elif asked is not None:
            self.waiting[host].append((line, asked))
        elif asked is None and line.endswith(b'"n":"message"}\n') and len(self.waiting[host]) < MANY_LINES:
            self.waiting[host].append((line, None))

    def flush_streams(self) -> None:
        while self._dirty:
            stream = self.streams[self._dirty.pop()]
            if stream is not None:
                stream.flush()

    def begin(self, streams: list[Stream]) -> None:
        """A run began: the rows that aren't sure, and once they are answered who is there, and then the requests that wait."""
        self.out_of_step = False
        for stream in streams:
            self.streams[stream.host] = stream
        self._ask_features()
        self.rosters.start(lambda: self._let_through(streams))
        self.flush_streams()

    def _let_through(self, streams: list[Stream]) -> None:
        if any(self.streams[stream.host] is not stream for stream in streams):
            return
        for presence in self.presences.all():
            if not self.rosters.is_asking(bare_of(presence.get("from"))):
                self._tell_presence(presence)
        self.serves = True
        for stream in streams:
            for line, asked in self.waiting[stream.host]:
                stream.put(line, asked)
            self.waiting[stream.host].clear()
            self._dirty.add(stream.host)

    def pause(self) -> None:
        """From now on requests wait for the next run. What was put and not written waits too."""
        self.serves = False
        for host, stream in self.streams.items():
            self.streams[host] = None
            if stream is not None:
                stream.take_back(lambda line, asked, host=host: self.keep(host, line, asked))

    def _tell_presence(self, presence: Elem) -> None:
        stream = self.streams.get(host_of(presence.get("from")))
        if stream is not None:
            stream.put(to_line(presence), None)
            self._dirty.add(stream.host)

    def _ask_features(self) -> None:
        """Asks the service what it does for accounts, which the server then tells of them. So it has something to answer once it has read its store."""
        host = self._config.hosts[0]
        head = {"from": host, "to": f"account@{host}", "id": "features", "type": "get"}
        question = elem("iq", CLIENT, head, elem("query", INFO))

        def take(reply: Elem | None) -> None:
            query = reply.child("query", INFO) if reply is not None else None
            if query is not None:
                self.features = list(query.elements())
                self._tell_features()

        self.put(host, to_line(question), Asked(question, then=take))

    def _tell_features(self) -> None:
        if self.features is None:
            return
        for asked in self._features_wanted:
            query = asked.child("query", INFO)
            kids = self.features if query is not None and asks_features(query) else []
            node = {"node": query.get("node")} if query is not None else {}
            self._to_server(errors.result(asked, elem("query", INFO, node, *kids)))
        self._features_wanted.clear()

    # From the server

    def take(self, stanza: Elem) -> None:
        self.counts[f"{stanza.name} in"] += 1
        if stanza.name == "iq":
            self._take_iq(stanza)
        elif stanza.name == "presence":
            self._take_presence(stanza)
        elif stanza.get("type") == "error":
            self._bounced(stanza)
        elif not self.grants.take(stanza) and host_of(stanza.get("from")) in self._config.hosts and stanza.get("from").isascii():
            stanza.attrs["from"] = canonical(stanza.get("from"))
            self.put(host_of(stanza.get("from")), to_line(stanza), None)

    def _take_iq(self, stanza: Elem) -> None:
        kind, sender = stanza.get("type"), stanza.get("from")
        if kind in ("result", "error"):
            if not self.rosters.answered(stanza):
                self._take_answer(stanza)
            return
        if sender in self._config.hosts:
            query = stanza.child("query", INFO)
            if query is not None and query.get("node").startswith(DELEGATION):
                self._features_wanted.append(stanza)
                self._tell_features()
                return
            inside = unwrap(stanza)
            if inside is not None:
                self.request(*inside)
                return
        ping = stanza.child("ping", PING)
        if ping is not None and kind == "get" and stanza.get("to") == self._config.host:
            self._to_server(errors.result(stanza))
            return
        self.request(stanza, None)

    def _take_answer(self, stanza: Elem) -> None:
        """A resource's answer to a question for its capabilities, or to one whether it is still there."""
        sender = stanza.get("from")
        host = host_of(sender)
        if host not in self._config.hosts or not is_full(sender):
            return
        if stanza.get("id").startswith("there-"):
            self._found(sender, stanza.get("type") == "result")
        elif stanza.get("type") == "result" and stanza.get("id").startswith("n-") and stanza.child("query", INFO) is not None:
            stanza.attrs["from"] = canonical(sender)
            stream = self.streams[host]
            if stream is not None:
                stream.put(to_line(stanza), None)
                self._dirty.add(host)

    def _take_presence(self, stanza: Elem) -> None:
        sender, kind = canonical(stanza.get("from")), stanza.get("type")
        host = host_of(sender)
        if kind not in ("", "unavailable") or host not in self._config.hosts or not is_full(sender) or not sender.isascii():
            return
        account = bare_of(sender)
        if kind == "":
            if self.presences.take(sender, stanza):
                behind = self.rosters.before_presence if self._may_ask(account) else self.rosters.behind
                behind(account, lambda _: self.presences.tell_there(sender))
        elif self._remove(sender):
            self.rosters.behind(account, lambda _: self.presences.tell_gone(sender))

    def _bounced(self, stanza: Elem) -> None:
        """A message came back. Where it was for a resource that the server doesn't have, and presences are kept, it is gone."""
        self.counts["bounced"] += 1
        sender = canonical(stanza.get("from"))
        if self._config.keep_presences and is_full(sender) and self._remove(sender):
            self.presences.tell_gone(sender)

    def _found(self, address: str, there: bool) -> None:
        """Whether a resource of which the server didn't tell answered."""
        if there:
            self.presences.sure(address)
        elif self._remove(canonical(address)):
            self.presences.tell_gone(canonical(address))

    def ask_whether_there(self) -> None:
        """Asks those of whom the server tells nothing, since it doesn't tell who is there when the adapter comes."""
        for resource in self.presences.stale():
            head = {"from": self._config.host, "to": resource, "id": "there-1", "type": "get"}
            self._to_server(elem("iq", CLIENT, head, elem("query", INFO)))

    def sweep(self) -> None:
        """Whoever the server told before it went, and not again, is gone."""
        for resource in self.presences.stale():
            self._remove(resource)
            self.presences.tell_gone(resource)
        self.flush_streams()

    def _remove(self, resource: str) -> bool:
        """The resource isn't there any more. False where it wasn't."""
        self._repeats.gone(resource)
        return self.presences.remove(resource)

    # Requests

    def request(self, stanza: Elem, envelope: Envelope | None) -> None:
        """A request of a person, from one of the hosts, to the service or to an account."""
        host = host_of(stanza.get("from"))
        asked = Asked(head_of(stanza), envelope=envelope)
        refusal = self._refusal(stanza, host)
        if refusal is not None:
            self._answer(asked, errors.error(asked.head, *refusal, self._config.host))
            return
        asked.head = Elem(stanza.name, stanza.ns, dict(stanza.attrs))
        stanza.attrs["from"] = canonical(stanza.get("from"))
        line = to_line(stanza)
        if b"jabber:x:data" in line:
            mend(stanza)
            line = to_line(stanza)
        asked.size = 256 + 2 * len(line)
        self._open += 1
        self._open_bytes += asked.size
        account = bare_of(stanza.get("to") or stanza.get("from")).lower()
        if account == self._config.host:
            self.rosters.behind(bare_of(stanza.get("from")), lambda _: self._go(host, line, asked, True))
        else:
            behind = self.rosters.first if self._may_ask(account) else self.rosters.behind
            behind(account, lambda told: self._go(host, line, asked, told))

    def _refusal(self, stanza: Elem, host: str) -> tuple[str, str, str] | None:
        """Why the adapter itself refuses the request: the condition, its type and a text."""
        if host not in self._config.hosts:
            return "service-unavailable", "cancel", errors.FOREIGN
        if not stanza.get("from").isascii():
            return "not-acceptable", "modify", errors.BEYOND_ASCII
        if self.stopping:
            return "service-unavailable", "wait", errors.STOPPING
        if self._open >= self._config.open_requests or self._open_bytes >= self._config.open_bytes:
            self.counts["busy"] += 1
            self._rarely.say("more requests than may be open", open=self._config.open_requests)
            return "resource-constraint", "wait", errors.BUSY
        return None

    def _may_ask(self, account: str) -> bool:
        """Whether the server tells that account's contacts."""
        return "@" in account and account.isascii() and self.grants.has(host_of(account), "roster")

    def _go(self, host: str, line: bytes, asked: Asked, told: bool) -> None:
        if told:
            self.put(host, line, asked)
        elif self.session.is_up:
            self._close(asked, errors.error(asked.head, "remote-server-timeout", "wait", errors.NO_ROSTER, self._config.host))
        else:
            self._close(asked, None)

    def _close(self, asked: Asked, reply: Elem | None) -> None:
        """The request is open no more; the reply goes out, if there is one."""
        if asked.then is not None:
            asked.then(reply)
            return
        self._open -= 1
        self._open_bytes -= asked.size
        if reply is not None:
            self._answer(asked, reply)

    def _answer(self, asked: Asked, reply: Elem) -> None:
        self.counts["errors" if reply.get("type") == "error" else "results"] += 1
        if asked.envelope is not None:
            reply = wrap(reply, asked, self._config.host)
        self._to_server(reply)

    def _to_server(self, stanza: Elem) -> None:
        self.session.send(to_xml(stanza))

    # From the service

    def told(self, stream: Stream, line: bytes, end: int) -> None:
        """A line of the service. The spool's cell moves on once the server has what comes of it."""
        notice = self._notices.read(line)
        if notice is not None:
            self._notify(stream, notice, end)
            return
        try:
            tree = from_line(line)
        except NotALine as why:
            say("the service wrote no line", why=why)
        else:
            self._told_tree(stream, tree)
        self.session.pass_by(lambda: stream.spool.give(end))

    def _notify(self, stream: Stream, notice: Notice, end: int) -> None:
        if not self._kept.is_new(notice.bare, notice.number):
            self.counts["repeated"] += 1
            self.session.pass_by(lambda: stream.spool.give(end))
            return
        text = self._message(notice)
        if is_full(notice.to) and notice.sender != self._config.host and self._repeats.is_repeat(notice.to, notice.sender, notice.content):
            self.counts["last items again"] += 1
            text = None
        elif text is None:
            self.counts["not granted"] += 1

        def given() -> None:
            self._kept.delivered(notice.bare, notice.number)
            stream.spool.give(end)

        if text is None:
            self.session.pass_by(given)
        else:
            self.counts["notices"] += 1
            self.session.send(text, given)

    def _message(self, notice: Notice) -> str | None:
        """The notice as the server takes it; None where it gives no right to send it."""
        if notice.sender == self._config.host:
            return notice.xml("")
        host = notice.sender_host
        if not self.grants.has(host, "message"):
            return None
        before, behind = spoken_for(self.grants.of(host).privilege, self._config.host, host, f"n-{notice.number}")
        return before + notice.xml(CLIENT) + behind

    def _told_tree(self, stream: Stream, tree: Elem) -> None:
        if stream.inherited and tree.name in ("refused", "iq") and not tree.get("id").startswith("n-"):
            self._told_heir(tree)
        elif tree.name == "refused":
            self._told_refused(stream, tree)
        elif tree.name == "iq" and tree.get("type") in ("result", "error"):
            self._told_reply(stream, tree)
        elif tree.name == "iq" and tree.get("id").startswith("n-"):
            self._told_question(tree)
        elif tree.name == "message":
            errors.explain(tree)
            draw(tree)
            self._to_server(tree)

    def _told_refused(self, stream: Stream, tree: Elem) -> None:
        self.counts["refused"] += 1
        why = tree.get("why")
        asked = stream.refused(int(tree.get("line") or "0"))
        say("refused", host=stream.host, line=tree.get("line"), why=why, sender=asked.head.get("from") if asked else "")
        if asked is not None:
            refusal = errors.REFUSALS.get(why, ("bad-request", "modify", why))
            self._close(asked, errors.error(asked.head, *refusal, self._config.host))

    def _told_reply(self, stream: Stream, tree: Elem) -> None:
        asked = stream.answered(tree.get("id"))
        if asked is None:
            self.out_of_step = True
            say("a reply that belongs to no request", host=stream.host, id=tree.get("id"))
            return
        if asked.then is None:
            tree.attrs["to"] = asked.head.get("from")
            if tree.get("type") == "error":
                errors.explain(tree)
            else:
                draw(tree)
        self._close(asked, tree)

    def _told_heir(self, tree: Elem) -> None:
        """A reply to a request that an earlier adapter took. What came in an envelope can't be answered, since nobody knows it any more."""
        if tree.name == "iq" and tree.get("from") == self._config.host and is_full(tree.get("to")):
            errors.explain(tree)
            draw(tree)
            self._to_server(tree)

    def _told_question(self, tree: Elem) -> None:
        """A question for capabilities goes to the resource, once."""
        number = tree.get("id")[2:]
        bare = bare_of(tree.get("to"))
        if number.isdigit() and self._kept.is_new(bare, int(number)):
            self.counts["questions"] += 1
            self.session.send(to_xml(tree), lambda: self._kept.delivered(bare, int(number)))

    def ended(self, stream: Stream) -> None:
        """All that a run wrote was read: what it didn't answer may have taken effect or not."""
        lost = 0
        while stream.open:
            asked = stream.open.popleft()
            reply = None
            if asked.then is None:
                lost += 1
                reply = errors.error(asked.head, "internal-server-error", "wait", errors.ENDED, self._config.host)
            self._close(asked, reply)
        if lost:
            say("requests without a reply", host=stream.host, count=lost)
            self.counts["unanswered"] += lost

    def refuse_waiting(self) -> None:
        """The adapter stops: what still waits was never begun."""
        for waiting in self.waiting.values():
            while waiting:
                _, asked = waiting.popleft()
                if asked is not None:
                    self._close(asked, errors.error(asked.head, "service-unavailable", "wait", errors.STOPPING, self._config.host))

    def oldest(self) -> float:
        """How long the oldest request has waited in the service, in seconds."""
        since = [stream.open[0].since for stream in self.streams.values() if stream is not None and stream.open]
        return time.monotonic() - min(since) if since else 0.0

    def silence(self, served_at: float) -> float:
        """How long the service, which serves since then, has owed a reply and written nothing to that stream, in seconds."""
        since = [max(stream.open[0].since, stream.read_at, served_at) for stream in self.streams.values() if stream is not None and stream.open]
        return time.monotonic() - min(since) if since else 0.0
