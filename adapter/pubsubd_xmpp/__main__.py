"""The command: `pubsubd-xmpp --config FILE`, `--check` beside it to judge the configuration alone, and `--setup` to write one."""

from __future__ import annotations

import argparse
import asyncio
import fcntl
import os
import sqlite3
import sys

from . import VERSION
from .adapter import Adapter
from .config import BadConfig, Config, check_folders, read_config
from .install import CantSetUp, set_up
from .kept import Kept
from .log import say
from .service import OPEN_FAULT, STORE_FAULT, STREAM_FAULT, USAGE


def words() -> argparse.Namespace:
    parser = argparse.ArgumentParser(prog="pubsubd-xmpp", description="Puts pubsubd behind an XMPP server, as a component of it.")
    parser.add_argument("--config", metavar="FILE", default="/etc/pubsubd/xmpp.conf", help="the configuration (default: %(default)s)")
    parser.add_argument("--check", action="store_true", help="judge the configuration, say what is wrong, and end")
    parser.add_argument("--setup", metavar="WORD", nargs="+", help="prosody or ejabberd, and the virtual hosts: write the configuration, a secret and the server's part")
    parser.add_argument("--version", action="version", version=f"pubsubd-xmpp {VERSION}")
    return parser.parse_args()


def lock(config: Config) -> int:
    """Holds the state folder, so that a second adapter over it is refused."""
    fd = os.open(config.state / "lock", os.O_RDWR | os.O_CREAT | os.O_CLOEXEC, 0o600)
    fcntl.flock(fd, fcntl.LOCK_EX | fcntl.LOCK_NB)
    return fd


async def serve(config: Config) -> int:
    try:
        kept = Kept(config.state / "adapter.sqlite")
    except sqlite3.Error as why:
        say("the state can't be opened", file=config.state / "adapter.sqlite", why=why)
        return OPEN_FAULT
    try:
        return await Adapter(config, kept).run()
    finally:
        kept.close()


def prepare(server: str, hosts: list[str]) -> int:
    try:
        set_up(server, hosts)
    except CantSetUp as why:
        say("not set up", why=why)
        return USAGE
    return 0


def main() -> int:
    told = words()
    if told.setup:
        return prepare(told.setup[0], told.setup[1:])
    try:
        config = read_config(told.config)
        faults = check_folders(config)
        if faults:
            raise BadConfig(*faults)
    except BadConfig as why:
        for fault in why.faults:
            say("configuration", fault=fault)
        return USAGE
    if told.check:
        say("configuration is good", host=config.host, hosts=" ".join(config.hosts), program=config.program[0])
        return 0
    try:
        held = lock(config)
    except OSError:
        say("a second adapter", why=f"another one holds {config.state / 'lock'}")
        return OPEN_FAULT
    try:
        return asyncio.run(serve(config))
    except sqlite3.Error as why:
        say("the state can't be used", file=config.state / "adapter.sqlite", why=why)
        return STORE_FAULT
    except OSError as why:
        say("the machine refuses what the adapter needs", why=why)
        return STREAM_FAULT
    finally:
        os.close(held)


if __name__ == "__main__":
    sys.exit(main())
