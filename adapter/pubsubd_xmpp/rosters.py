"""Accounts' contacts: asked from the server, and told to the service as far as they changed.

The service has no request that reads or empties a roster, and neither server tells a component of changes. So an account's contacts are asked for before each request
to its nodes, and before each presence of its own. A request that comes while a question is open waits for that answer, which the server gives later than it sent the request.
Who comes is given last items of others at once. His own contacts tell whose presence he gets: where that isn't what the service was told, those others' contacts are asked for too.

An account's rows go on the stream of its own host, and a request on that of its sender's. Streams are served beside one another, so a request waits until the service
has answered the rows that came before it.
"""

from __future__ import annotations

import asyncio
from collections import deque
from collections.abc import Callable
from dataclasses import dataclass, field
from sqlite3 import Error as BaseError

from .asked import Asked
from .config import Config
from .kept import REMOVED, Kept, Row, Told
from .lines import to_line
from .log import Rarely
from .names import CLIENT, ROSTER, host_of
from .trees import Elem, elem

# Called with True once the service has been told, with False where the contacts couldn't be had.
Then = Callable[[bool], None]
Put = Callable[[str, bytes, Asked], None]


@dataclass
class _Question:
    account: str
    timer: asyncio.TimerHandle
    waiting: list[Then] = field(default_factory=list)
    sees: set[str] | None = None  # whose presence the account gets, where the server told
    told: bool | None = None  # the server's answer came, and could be told


@dataclass
class _Account:
    """The questions of one account, the oldest first, and its rows that the service has still to answer."""

    questions: deque[_Question] = field(default_factory=deque)
    telling: dict[str, tuple[Row, int]] = field(default_factory=dict)


class Rosters:
    """Questions that are open, and rows that were told."""

    def __init__(self, config: Config, kept: Kept, ask: Callable[[Elem], None], put: Put, may_ask: Callable[[str], bool]):
        self._config, self._kept, self._ask, self._put, self._may_ask = config, kept, ask, put, may_ask
        self._loop = asyncio.get_running_loop()
        self._by_id: dict[str, _Question] = {}
        self._accounts: dict[str, _Account] = {}
        self._serial = 0
        self._rarely = Rarely()

    # Who waits

    def first(self, account: str, then: Then) -> _Question:
        """Lets `then` go once the account's contacts were told as they are now."""
        questions = self._accounts.setdefault(account, _Account()).questions
        if not questions or questions[-1].told is not None:
            questions.append(self._question(account))
        questions[-1].waiting.append(then)
        return questions[-1]

    def before_presence(self, account: str, then: Then) -> None:
        """Lets `then` go once the account's contacts were told, and those of the owners whose last items it may be given as it comes."""
        question = self.first(account, lambda _: self._first_owners(account, question.sees, then))

    def _first_owners(self, account: str, sees: set[str] | None, then: Then) -> None:
        """Asks those who let the account see them and of whom that wasn't told, and those of whom it was told and who don't."""
        owners = [] if sees is None else [owner for owner in sees ^ self._kept.owners(account) if self._may_ask(owner)]
        left = len(owners)
        if not owners:
            then(True)

        def count(_: bool) -> None:
            nonlocal left
            left -= 1
            if left == 0:
                then(True)

        for owner in owners:
            self.first(owner, count)

    def behind(self, account: str, then: Then) -> None:
        """Lets `then` go behind what waits for that account's contacts, or at once."""
        known = self._accounts.get(account)
        if known is None or not known.questions:
            then(True)
        else:
            known.questions[-1].waiting.append(then)

    def is_asking(self, account: str) -> bool:
        known = self._accounts.get(account)
        return known is not None and bool(known.questions)

    def _advance(self, account: str) -> None:
        """Lets go whoever waits no longer, in the order in which they came."""
        known = self._accounts[account]
        while known.questions and known.questions[0].told is not None and not known.telling:
            question = known.questions.popleft()
            for then in question.waiting:
                then(bool(question.told))
        if not known.questions and not known.telling:
            self._accounts.pop(account, None)

    # What the server says

    def _question(self, account: str) -> _Question:
        self._serial += 1
        name = f"roster-{self._serial}"
        question = _Question(account, self._loop.call_later(self._config.roster_seconds, self._late, name))
        self._by_id[name] = question
        head = {"from": self._config.host, "to": account, "id": name, "type": "get"}
        self._ask(elem("iq", CLIENT, head, elem("query", ROSTER)))
        return question

    def _late(self, name: str) -> None:
        question = self._by_id.pop(name)
        self._rarely.say("no answer for a roster", account=question.account)
        question.told = False
        self._advance(question.account)

    def answered(self, stanza: Elem) -> bool:
        """Whether the stanza is the answer to a question; the rows that changed are then told."""
        question = self._by_id.get(stanza.get("id"))
        if question is None or stanza.get("from").lower() != question.account:
            return False
        del self._by_id[stanza.get("id")]
        question.timer.cancel()
        question.told = True
        query = stanza.child("query", ROSTER)
        if stanza.get("type") == "result" and query is not None:
            question.sees = {item.get("jid").lower() for item in query.children("item") if item.get("subscription") in ("to", "both")}
            question.told = self._tell(question.account, query)
        elif stanza.get("type") == "error":
            self._rarely.say("a roster is refused", account=question.account)
        self._advance(question.account)
        return True

    def forget(self) -> None:
        """The server is gone, and all that it was asked. What waits is let go: whoever asked is gone too."""
        for question in self._by_id.values():
            question.timer.cancel()
            question.told = False
        accounts = {question.account for question in self._by_id.values()}
        self._by_id.clear()
        for account in accounts:
            self._advance(account)

    # What the service is told

    def _rows(self, query: Elem) -> dict[str, Row]:
        """The contacts that may give a right: of a host that is served, and that get presence or stand in a group."""
        rows = {}
        for item in query.children("item"):
            contact = item.get("jid").lower()
            groups = tuple(sorted(group.text() for group in item.children("group")))
            state = item.get("subscription") or "none"
            if host_of(contact) in self._config.hosts and contact.isascii() and (state in ("from", "both") or groups):
                rows[contact] = Row(state, groups)
        return rows

    def _tell(self, account: str, query: Elem) -> bool:
        """Tells the rows that aren't as the service took them. False where they can't be kept."""
        now = self._rows(query)
        known = self._kept.roster(account)
        wanted = now | {contact: Row(REMOVED) for contact in known if contact not in now}
        unsure = [(contact, row) for contact, row in wanted.items() if known.get(contact) != Told(row, True)]
        changed = [(contact, row) for contact, row in unsure if not self._is_told(account, contact, row)]
        if not changed:
            return True
        try:
            self._kept.intend(account, changed)
        except BaseError as why:
            self._rarely.say("the state can't be written", why=why)
            return False
        for contact, row in changed:
            self._tell_row(account, contact, row)
        return True

    def _is_told(self, account: str, contact: str, row: Row) -> bool:
        """Whether just this row was told, and its reply is still to come."""
        return self._accounts[account].telling.get(contact, (None, 0))[0] == row

    def _tell_row(self, account: str, contact: str, row: Row, then: Callable[[Elem | None], None] = lambda _: None) -> None:
        groups = [elem("group", ROSTER, None, group) for group in row.groups]
        item = elem("item", ROSTER, {"jid": contact, "subscription": row.subscription}, *groups)
        head = {"from": account, "to": self._config.host, "id": "roster", "type": "set"}
        stanza = elem("iq", CLIENT, head, elem("query", ROSTER, None, item))
        self._serial += 1
        mine = (row, self._serial)
        self._accounts.setdefault(account, _Account()).telling[contact] = mine

        def settle(reply: Elem | None) -> None:
            self._settle(account, contact, mine, reply)
            then(reply)

        self._put(host_of(account), to_line(stanza), Asked(stanza, then=settle))

    def _settle(self, account: str, contact: str, mine: tuple[Row, int], reply: Elem | None) -> None:
        """The service answered a row; or (None) the run ended first, and the row is told again at the next start."""
        if reply is not None and reply.get("type") == "result":
            self._kept.settle(account, contact, mine[0])
        elif reply is not None:
            self._rarely.say("a contact is refused", account=account, contact=contact)
        known = self._accounts.get(account)
        if known is not None and known.telling.get(contact) == mine:
            del known.telling[contact]
            self._advance(account)

    def start(self, started: Callable[[], None]) -> None:
        """At the start of a run: the rows that an earlier one didn't answer are told, and once all of them are answered `started` is called."""
        unsure = [(account, contact, row) for account, contact, row in self._kept.unsure() if host_of(account) in self._config.hosts]
        left = len(unsure)

        def count(reply: Elem | None) -> None:
            nonlocal left
            left -= 1
            if left == 0 and reply is not None:
                started()

        for account, contact, row in unsure:
            self._tell_row(account, contact, row, count)
        if not unsure:
            started()
