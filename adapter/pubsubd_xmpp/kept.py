"""What outlives the adapter, in one SQLite file: the roster rows that the service was told, and the greatest notice number of each address."""

from __future__ import annotations

import contextlib
import json
import sqlite3
from collections.abc import Iterable
from dataclasses import dataclass
from pathlib import Path

_TABLES = """
CREATE TABLE IF NOT EXISTS roster (account TEXT, contact TEXT, subscription TEXT, groups TEXT, sure INTEGER, PRIMARY KEY (account, contact)) WITHOUT ROWID;
CREATE INDEX IF NOT EXISTS unsure ON roster (account) WHERE sure = 0;
CREATE INDEX IF NOT EXISTS contact ON roster (contact);
CREATE TABLE IF NOT EXISTS notice (address TEXT PRIMARY KEY, number INTEGER) WITHOUT ROWID;
CREATE TABLE IF NOT EXISTS presence (resource TEXT PRIMARY KEY, caps TEXT) WITHOUT ROWID;
CREATE TABLE IF NOT EXISTS fact (name TEXT PRIMARY KEY, value INTEGER) WITHOUT ROWID;
"""
REMOVED = "remove"


@dataclass(frozen=True)
class Row:
    """A contact as a roster has it. The subscription `remove` is one that is taken out."""

    subscription: str
    groups: tuple[str, ...] = ()


@dataclass(frozen=True)
class Told:
    """A row that the service was told; it is sure once the service answered it by a result."""

    row: Row
    sure: bool


class Kept:
    """The file. What isn't worth a sync of its own is gathered, and written by `flush`."""

    def __init__(self, path: Path):
        self._base = sqlite3.connect(path, isolation_level=None)
        self._base.execute("PRAGMA journal_mode = WAL")
        self._base.execute("PRAGMA synchronous = NORMAL")
        self._base.executescript(_TABLES)
        self._rosters: dict[str, dict[str, Told]] = {}
        self._seen: dict[str, int] = {}
        self._numbers: dict[str, int] = {}
        self._settled: dict[tuple[str, str], Row] = {}
        self._presences: dict[str, str | None] = {}
        self._facts: dict[str, int] = {}

    def close(self) -> None:
        """Writes what was gathered, if the disk takes it: without it notices may come twice, and rows are told again."""
        with contextlib.suppress(sqlite3.Error):
            self.flush()
        self._base.close()

    # Rosters

    def roster(self, account: str) -> dict[str, Told]:
        """What the service was told of that account."""
        known = self._rosters.get(account)
        if known is None:
            found = self._base.execute("SELECT contact, subscription, groups, sure FROM roster WHERE account = ?", (account,))
            known = {contact: Told(Row(state, tuple(json.loads(groups))), bool(sure)) for contact, state, groups, sure in found}
            self._rosters[account] = known
        return known

    def owners(self, contact: str) -> set[str]:
        """The accounts of which the service was told that this contact gets their presence. Where the disk doesn't tell, none."""
        query = "SELECT account FROM roster WHERE contact = ? AND subscription IN ('from', 'both')"
        try:
            return {account for (account,) in self._base.execute(query, (contact,))}
        except sqlite3.Error:
            return set()

    def intend(self, account: str, rows: Iterable[tuple[str, Row]]) -> None:
        """Keeps rows that are about to be told, on the disk before it returns: whoever forgets what he told can't take it back."""
        known = self.roster(account)
        rows = list(rows)
        self._base.execute("PRAGMA synchronous = FULL")
        try:
            with self._base:
                self._base.execute("BEGIN")
                self._base.executemany(
                    "INSERT OR REPLACE INTO roster VALUES (?, ?, ?, ?, 0)",
                    [(account, contact, row.subscription, json.dumps(row.groups)) for contact, row in rows],
                )
        finally:
            self._base.execute("PRAGMA synchronous = NORMAL")
        for contact, row in rows:
            known[contact] = Told(row, False)
            self._settled.pop((account, contact), None)

    def settle(self, account: str, contact: str, row: Row) -> None:
        """The service took the row."""
        known = self.roster(account)
        if contact not in known or known[contact].row != row:
            return
        if row.subscription == REMOVED:
            del known[contact]
        else:
            known[contact] = Told(row, True)
        self._settled[account, contact] = row

    def unsure(self) -> list[tuple[str, str, Row]]:
        """The rows that were told, and not answered. Where the disk takes nothing now, some that were answered are among them."""
        with contextlib.suppress(sqlite3.Error):
            self.flush()
        found = self._base.execute("SELECT account, contact, subscription, groups FROM roster WHERE sure = 0").fetchall()
        return [(account, contact, Row(state, tuple(json.loads(groups)))) for account, contact, state, groups in found]

    # Notices

    def is_new(self, address: str, number: int) -> bool:
        """Whether a notice of that number is above all that this address was given, and from now on counts as given."""
        last = self._seen.get(address)
        if last is None:
            last = max(self._number(address), self._numbers.get(address, 0))
        if number <= last:
            self._seen[address] = last
            return False
        self._seen[address] = number
        return True

    def _number(self, address: str) -> int:
        """The number that is kept. Where the disk doesn't tell, a notice may come twice, and is not lost."""
        try:
            found = self._base.execute("SELECT number FROM notice WHERE address = ?", (address,)).fetchone()
        except sqlite3.Error:
            return 0
        return found[0] if found else 0

    def delivered(self, address: str, number: int) -> None:
        """The notice is with the server."""
        self._numbers[address] = number

    def raise_to(self, address: str, number: int) -> None:
        """A notice that an earlier adapter delivered."""
        if self.is_new(address, number):
            self.delivered(address, number)

    # Presences

    def presences(self) -> list[tuple[str, str]]:
        return self._base.execute("SELECT resource, caps FROM presence").fetchall()

    def keep_presence(self, resource: str, caps: str | None) -> None:
        """The resource is there and shows this, or (None) isn't there any more."""
        self._presences[resource] = caps

    # Facts

    def fact(self, name: str) -> int | None:
        if name in self._facts:
            return self._facts[name]
        found = self._base.execute("SELECT value FROM fact WHERE name = ?", (name,)).fetchone()
        return found[0] if found else None

    def keep_fact(self, name: str, value: int) -> None:
        self._facts[name] = value

    def flush(self) -> None:
        """Writes all that was gathered, in one transaction."""
        if not (self._numbers or self._settled or self._presences or self._facts):
            return
        with self._base:
            self._base.execute("BEGIN")
            self._base.executemany("INSERT OR REPLACE INTO notice VALUES (?, ?)", list(self._numbers.items()))
            for (account, contact), row in self._settled.items():
                self._write_settled(account, contact, row)
            gone = [(resource,) for resource, caps in self._presences.items() if caps is None]
            there = [(resource, caps) for resource, caps in self._presences.items() if caps is not None]
            self._base.executemany("DELETE FROM presence WHERE resource = ?", gone)
            self._base.executemany("INSERT OR REPLACE INTO presence VALUES (?, ?)", there)
            self._base.executemany("INSERT OR REPLACE INTO fact VALUES (?, ?)", list(self._facts.items()))
        self._numbers.clear()
        self._settled.clear()
        self._presences.clear()
        self._facts.clear()

    def _write_settled(self, account: str, contact: str, row: Row) -> None:
        key = (account, contact, row.subscription)
        if row.subscription == REMOVED:
            self._base.execute("DELETE FROM roster WHERE account = ? AND contact = ? AND subscription = ?", key)
        else:
            self._base.execute("UPDATE roster SET sure = 1 WHERE account = ? AND contact = ? AND subscription = ?", key)
