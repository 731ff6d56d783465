"""The configuration: one file of sections and settings, read whole and judged before anything starts."""

from __future__ import annotations

import configparser
import os
import re
import shlex
from dataclasses import dataclass, fields
from pathlib import Path

_HOST = re.compile(r"[A-Za-z0-9_-]+(\.[A-Za-z0-9_-]+)*")
_DAYS = ("mon", "tue", "wed", "thu", "fri", "sat", "sun")
MAX_HOSTS = 16


class BadConfig(Exception):
    """What is wrong with the configuration, a sentence each."""

    def __init__(self, *faults: str):
        super().__init__("; ".join(faults))
        self.faults = faults


@dataclass(frozen=True)
class When:
    """A time of the day, each day or on one day of the week (0 is Monday)."""

    hour: int
    minute: int
    day: int | None = None


@dataclass(frozen=True)
class Config:
    """The settings. What a name means stands in adapter/examples/xmpp.conf."""

    host: str
    hosts: tuple[str, ...]
    secret: str
    program: tuple[str, ...]
    state: Path
    run: Path
    address: str = "127.0.0.1"
    port: int = 5347
    open_requests: int = 4096
    open_bytes: int = 67108864
    in_flight: int = 128
    answer_seconds: float = 60.0
    open_seconds: float = 900.0
    stop_seconds: float = 45.0
    ping_seconds: float = 60.0
    roster_seconds: float = 10.0
    presence_seconds: float = 5.0
    keep_presences: bool = False
    compact_at: When | None = None
    compact_ratio: int = 8
    compact_bytes: int = 16777216

    @property
    def store(self) -> Path:
        return self.state / "store"


# Section and setting, and the field that it gives.
_SETTINGS = {
    ("server", "address"): "address",
    ("server", "port"): "port",
    ("server", "ping_seconds"): "ping_seconds",
    ("server", "roster_seconds"): "roster_seconds",
    ("server", "presence_seconds"): "presence_seconds",
    ("server", "keep_presences"): "keep_presences",
    ("service", "answer_seconds"): "answer_seconds",
    ("service", "open_seconds"): "open_seconds",
    ("service", "stop_seconds"): "stop_seconds",
    ("limits", "open_requests"): "open_requests",
    ("limits", "open_bytes"): "open_bytes",
    ("limits", "in_flight"): "in_flight",
    ("compaction", "at"): "compact_at",
    ("compaction", "ratio"): "compact_ratio",
    ("compaction", "bytes"): "compact_bytes",
}
_OTHERS = {("server", "secret_file"), ("service", "host"), ("service", "hosts"), ("service", "program"), ("service", "state"), ("service", "run")}
_LEAST = {"port": 1, "open_requests": 1, "open_bytes": 262144, "in_flight": 1, "compact_ratio": 2, "compact_bytes": 0}
_MOST = {"port": 65535}


def read_when(text: str) -> When | None:
    """`never`, `04:30` or `sun 04:30`."""
    if text == "never":
        return None
    found = re.fullmatch(r"(?:([a-z]{3}) )?(\d{1,2}):(\d{2})", text.lower())
    if not found or (found[1] and found[1] not in _DAYS) or int(found[2]) > 23 or int(found[3]) > 59:
        raise ValueError("is never, HH:MM or DAY HH:MM, as sun 04:30")
    return When(int(found[2]), int(found[3]), _DAYS.index(found[1]) if found[1] else None)


def _read_bool(text: str) -> bool:
    if text not in ("yes", "no"):
        raise ValueError("is yes or no")
    return text == "yes"


def _read_value(field: str, text: str) -> object:
    kind = {one.name: str(one.type) for one in fields(Config)}[field]
    if kind == "str":
        return text
    if kind == "bool":
        return _read_bool(text)
    if kind == "When | None":
        return read_when(text)
    number = float(text) if kind == "float" else int(text)
    least = _LEAST.get(field, 1)
    if not least <= number <= _MOST.get(field, 2**60):
        raise ValueError(f"is from {least} on" + (f" to {_MOST[field]}" if field in _MOST else ""))
    return number


class _Reader:
    """Gathers settings and all that is wrong with them."""

    def __init__(self, parsed: configparser.ConfigParser):
        self.parsed = parsed
        self.faults: list[str] = []

    def need(self, section: str, name: str) -> str:
        text = self.parsed.get(section, name, fallback="").strip()
        if not text:
            self.faults.append(f"[{section}] {name} is missing")
        return text

    def unknown(self) -> None:
        for section in self.parsed.sections():
            for name in self.parsed.options(section):
                if (section, name) not in _SETTINGS and (section, name) not in _OTHERS:
                    self.faults.append(f"[{section}] {name} is no setting of this program")

    def values(self) -> dict[str, object]:
        made: dict[str, object] = {}
        for (section, name), field in _SETTINGS.items():
            text = self.parsed.get(section, name, fallback="").strip()
            if text:
                try:
                    made[field] = _read_value(field, text)
                except ValueError as why:
                    said = str(why) if str(why).startswith("is ") else "is a number"
                    self.faults.append(f"[{section}] {name} {said}, and not '{text}'")
        return made

    def hosts(self) -> tuple[str, tuple[str, ...]]:
        host = self.need("service", "host").lower()
        hosts = tuple(one.lower() for one in re.split(r"[,\s]+", self.need("service", "hosts")) if one)
        for one in (host, *hosts):
            if one and not _HOST.fullmatch(one):
                self.faults.append(f"'{one}' is no host: letters, digits, - and _, with dots between them")
        if len(set(hosts)) < len(hosts) or host in hosts:
            self.faults.append("[service] hosts and host are all different")
        if len(hosts) > MAX_HOSTS:
            self.faults.append(f"[service] hosts are {MAX_HOSTS} at most")
        return host, hosts

    def program(self) -> tuple[str, ...]:
        words = tuple(shlex.split(self.need("service", "program")))
        if words and not os.access(words[0], os.X_OK):
            self.faults.append(f"[service] program: {words[0]} isn't there or can't be run")
        return words

    def secret(self) -> str:
        """The secret's file: that which systemd hands over, or that of the configuration."""
        name = self.parsed.get("server", "secret_file", fallback="").strip()
        handed = os.path.join(os.environ.get("CREDENTIALS_DIRECTORY", ""), "secret")
        if os.environ.get("CREDENTIALS_DIRECTORY") and os.path.exists(handed):
            name = handed
        if not name:
            self.faults.append("[server] secret_file is missing")
            return ""
        try:
            text = Path(name).read_text(encoding="utf-8").strip()
        except (OSError, UnicodeDecodeError) as why:
            self.faults.append(f"the secret can't be read: {why}")
            return ""
        if not text:
            self.faults.append(f"the secret's file {name} is empty")
        return text


def read_config(path: str) -> Config:
    """The configuration of that file, or `BadConfig` with all that is wrong."""
    parsed = configparser.ConfigParser(interpolation=None, inline_comment_prefixes=("#",))
    try:
        with open(path, encoding="utf-8") as file:
            parsed.read_file(file)
    except (OSError, UnicodeDecodeError, configparser.Error) as why:
        raise BadConfig(f"the configuration can't be read: {why}") from why
    reader = _Reader(parsed)
    reader.unknown()
    host, hosts = reader.hosts()
    made = reader.values()
    made |= {"host": host, "hosts": hosts, "secret": reader.secret(), "program": reader.program()}
    made |= {"state": Path(reader.need("service", "state")), "run": Path(reader.need("service", "run"))}
    if reader.faults:
        raise BadConfig(*reader.faults)
    return Config(**made)  # type: ignore[arg-type]


def check_folders(config: Config) -> list[str]:
    """What is wrong with the folders, which are made where they are missing."""
    faults = []
    for folder in (config.state, config.run):
        try:
            folder.mkdir(parents=True, exist_ok=True)
            probe = folder / ".probe"
            probe.write_bytes(b"")
            probe.unlink()
        except OSError as why:
            faults.append(f"{folder} can't be written: {why.strerror}")
    return faults
