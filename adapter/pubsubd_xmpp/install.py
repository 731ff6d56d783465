"""`--setup SERVER HOST..`: writes the configuration, a secret and the server's part, for hosts that have no adapter yet."""

from __future__ import annotations

import os
import re
import secrets
import shutil
import subprocess
from pathlib import Path

EXAMPLES = (Path(__file__).resolve().parent.parent / "examples", Path("/usr/share/doc/pubsubd/examples"))
SERVERS = ("prosody", "ejabberd")
_OF_HOST = 'VirtualHost "example.org"'


class CantSetUp(Exception):
    """Why nothing, or no more, is written."""


def example(name: str) -> str:
    for folder in EXAMPLES:
        if (folder / name).exists():
            return (folder / name).read_text(encoding="utf-8")
    raise CantSetUp(f"the example {name} isn't in {' or '.join(map(str, EXAMPLES))}")


def _write(path: Path, text: str, group: str, mode: int) -> None:
    """Makes a file that its group may read, and never one that is there."""
    try:
        fd = os.open(path, os.O_WRONLY | os.O_CREAT | os.O_EXCL, mode)
    except FileExistsError as why:
        raise CantSetUp(f"{path} is there already: change it by hand, or remove it") from why
    except OSError as why:
        raise CantSetUp(f"{path} can't be written: {why.strerror}") from why
    with open(fd, "w", encoding="utf-8") as file:
        file.write(text)
    try:
        shutil.chown(path, group=group)
    except (LookupError, OSError) as why:
        raise CantSetUp(f"{path} can't be given to the group {group}: {why}") from why
    print("written:", path)


def configuration(service: str, hosts: list[str], server: str) -> str:
    text = re.sub(r"(?m)^host = .*$", f"host = {service}", example("xmpp.conf"))
    text = re.sub(r"(?m)^hosts = .*$", f"hosts = {' '.join(hosts)}", text)
    return text.replace("# keep_presences = no", f"keep_presences = {'yes' if server == 'ejabberd' else 'no'}")


def prosody_part(service: str, hosts: list[str], secret: str) -> str:
    """A block for each host, and one component."""
    head, _, rest = example("prosody.cfg.lua").partition(_OF_HOST)
    block, component, tail = rest.partition("Component ")
    del head
    blocks = "".join(f'VirtualHost "{host}"{block.replace("pubsub.example.org", service)}' for host in hosts)
    tail = tail.replace("pubsub.example.org", service).replace("the same as in /etc/pubsubd/secret", secret)
    return "-- Written by pubsubd-xmpp --setup. The secret is that of /etc/pubsubd/secret.\n\n" + blocks + component + tail


def ejabberd_part(service: str, secret: str) -> str:
    text = example("ejabberd.yml").replace("the same as in /etc/pubsubd/secret", secret)
    return text.replace("pubsub.example.org", service)


def _restart(*units: str) -> None:
    """Restarts them where systemd runs, and says so where it doesn't."""
    words = ["systemctl", "restart", *units]
    if not os.path.isdir("/run/systemd/system"):
        print("now restart:", *units)
    elif subprocess.run(words, check=False).returncode == 0:
        print("restarted:", *units)
    else:
        raise CantSetUp(f"'{' '.join(words)}' failed: look at journalctl -u {units[0]} -u {units[-1]}")


def set_up(server: str, hosts: list[str], etc: Path = Path("/etc")) -> None:
    """Writes all three, or nothing where one is there already. prosody reads its part by itself; ejabberd's is a file that its own includes."""
    if server not in SERVERS or not hosts:
        raise CantSetUp(f"say --setup and {' or '.join(SERVERS)}, then the virtual hosts")
    service, secret, ours = f"pubsub.{hosts[0]}", secrets.token_hex(24), etc / "pubsubd"
    if server == "prosody":
        theirs, part = etc / "prosody" / "conf.d" / "pubsubd.cfg.lua", prosody_part(service, hosts, secret)
    else:
        theirs, part = etc / "ejabberd" / "pubsubd.yml", ejabberd_part(service, secret)
    if not theirs.parent.is_dir():
        raise CantSetUp(f"{theirs.parent} isn't there: install {server} first")
    for path in (ours / "xmpp.conf", ours / "secret", theirs):
        if path.exists():
            raise CantSetUp(f"{path} is there already: change it by hand, or remove it")
    ours.mkdir(exist_ok=True)
    _write(ours / "xmpp.conf", configuration(service, hosts, server), "pubsubd", 0o640)
    _write(ours / "secret", secret + "\n", "pubsubd", 0o640)
    _write(theirs, part, server, 0o640)
    if server == "prosody":
        _restart("prosody", "pubsubd-xmpp")
    else:
        print(f"now: put the line 'include_config_file: {theirs}' into {theirs.parent}/ejabberd.yml, take mod_pubsub and mod_avatar out there,")
        print("and systemctl restart ejabberd pubsubd-xmpp")
