"""prosody and ejabberd as Debian packages them, each in a folder of its own, on ports of its own, with two virtual hosts and a component that is the adapter.

What they are told of the adapter are the example configurations, as `--setup` writes them.
"""

from __future__ import annotations

import os
import pathlib
import shutil
import signal
import socket
import subprocess
import sys
import time

sys.path.insert(0, str(pathlib.Path(__file__).resolve().parent.parent.parent))

from pubsubd_xmpp.install import ejabberd_part, prosody_part
from pubsubd_xmpp.service import die_with

SECRET = "only-for-tests"
HOSTS = ("a.localhost", "b.localhost")
SERVICE = "pubsub.localhost"
PASSWORD = "pass"


def free_port() -> int:
    with socket.socket() as end:
        end.bind(("127.0.0.1", 0))
        return end.getsockname()[1]


def wait_for_port(port: int, seconds: float, child: subprocess.Popen) -> None:
    until = time.monotonic() + seconds
    while time.monotonic() < until and child.poll() is None:
        with socket.socket() as end:
            end.settimeout(1)
            if end.connect_ex(("127.0.0.1", port)) == 0:
                return
        time.sleep(0.1)
    raise TimeoutError(f"nobody listens at {port}")


class Server:
    """What both have."""

    name = ""
    start_seconds = 120
    namespaces = 0  # how many of each host it delegates

    def __init__(self, folder: pathlib.Path):
        self.folder = folder / self.name
        self.folder.mkdir(parents=True)
        self.client_port, self.component_port = free_port(), free_port()
        self.child: subprocess.Popen | None = None
        self.write()

    def write(self) -> None:
        raise NotImplementedError

    def words(self) -> list[str]:
        raise NotImplementedError

    def environment(self) -> dict[str, str]:
        return dict(os.environ)

    def start(self) -> None:
        log = open(self.folder / "out", "ab")
        self.child = subprocess.Popen(
            self.words(), stdout=log, stderr=log, stdin=subprocess.DEVNULL, env=self.environment(), process_group=0, cwd=self.folder, preexec_fn=die_with(os.getpid())
        )
        wait_for_port(self.client_port, self.start_seconds, self.child)
        wait_for_port(self.component_port, self.start_seconds, self.child)

    def stop(self) -> None:
        if self.child is None:
            return
        if self.child.poll() is None:
            os.killpg(self.child.pid, signal.SIGTERM)
            try:
                self.child.wait(60)
            except subprocess.TimeoutExpired:
                pass
        try:
            os.killpg(self.child.pid, signal.SIGKILL)
        except ProcessLookupError:
            pass
        self.child.wait()
        self.child = None

    def restart(self) -> None:
        self.stop()
        self.start()

    def memory(self) -> int:
        """The resident memory of the server, in KiB."""
        assert self.child is not None
        total = 0
        for pid in filter(str.isdigit, os.listdir("/proc")):
            try:
                if os.getpgid(int(pid)) == self.child.pid:
                    text = pathlib.Path(f"/proc/{pid}/status").read_text()
                    total += int(text.split("VmRSS:")[1].split()[0])
            except (ProcessLookupError, FileNotFoundError, IndexError):
                continue
        return total


PROSODY = """
run_as_root = true
pidfile = "{folder}/prosody.pid"
data_path = "{folder}/data"
log = {{ info = "{folder}/log" }}
modules_enabled = {{ "roster"; "saslauth"; "disco"; "ping"; "register" }}
allow_registration = true
modules_disabled = {{ "s2s"; "tls"; "offline" }}
c2s_require_encryption = false
allow_unencrypted_plain_auth = true
c2s_ports = {{ {client} }}
component_ports = {{ {component} }}
interfaces = {{ "127.0.0.1" }}
authentication = "internal_plain"
storage = "internal"
"""
class Prosody(Server):
    name = "prosody"
    namespaces = 4
    own_pubsub = ""  # more components, for a comparison

    def write(self) -> None:
        (self.folder / "data").mkdir(exist_ok=True)
        text = PROSODY.format(folder=self.folder, client=self.client_port, component=self.component_port)
        self.config = self.folder / "prosody.cfg.lua"
        self.config.write_text(text + prosody_part(SERVICE, list(HOSTS), SECRET) + self.own_pubsub)

    def words(self) -> list[str]:
        return ["prosody", "--config", str(self.config), "-F"]


EJABBERD = """
loglevel: info
log_rotate_count: 0
hosts: [{hosts}]
auth_password_format: plain
auth_method: internal
registration_timeout: infinity
listen:
  -
    port: {client}
    ip: "127.0.0.1"
    module: ejabberd_c2s
    max_stanza_size: 262144
    starttls: false
    access: all
    shaper: none
modules:
  mod_disco: {{}}
  mod_caps: {{}}
  mod_roster: {{}}
  mod_ping: {{}}
  mod_register:
    ip_access: all
    access: all
include_config_file: {folder}/pubsubd.yml
"""


class Ejabberd(Server):
    name = "ejabberd"
    namespaces = 2
    start_seconds = 240

    def write(self) -> None:
        for part in ("db", "log"):
            (self.folder / part).mkdir(exist_ok=True)
        self.config = self.folder / "ejabberd.yml"
        names = ", ".join(f'"{host}"' for host in HOSTS)
        parts = ejabberd_part(SERVICE, SECRET).replace("port: 5347", f"port: {self.component_port}")
        (self.folder / "pubsubd.yml").write_text(parts)
        self.config.write_text(EJABBERD.format(hosts=names, client=self.client_port, folder=self.folder))

    def environment(self) -> dict[str, str]:
        return dict(os.environ) | {
            "EJABBERD_CONFIG_PATH": str(self.config),
            "EJABBERD_LOG_PATH": str(self.folder / "log" / "ejabberd.log"),
            "SPOOL_DIR": str(self.folder / "db"),
            "ERL_CRASH_DUMP_SECONDS": "0",
            "HOME": str(self.folder),
        }

    def words(self) -> list[str]:
        library = next(pathlib.Path("/usr/lib").glob("*/ejabberd-*/ebin"))
        return ["erl", "-noinput", "-pa", str(library), "-mnesia", "dir", f'"{self.folder}/db"', "-s", "ejabberd"]


SERVERS = {one.name: one for one in (Prosody, Ejabberd)}


def have(name: str) -> bool:
    return shutil.which({"prosody": "prosody", "ejabberd": "ejabberdctl"}[name]) is not None
