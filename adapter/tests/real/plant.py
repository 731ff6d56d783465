"""A server, the adapter and the service together, in a folder of their own."""

from __future__ import annotations

import contextlib
import os
import pathlib
import signal
import sqlite3
import subprocess
import sys
import tempfile
import time

from servers import HOSTS, SECRET, SERVERS, SERVICE, die_with

ADAPTER = pathlib.Path(__file__).resolve().parent.parent.parent
# How long is waited for what has to come.
SECONDS = 120
# A shell that starts a test in the background has it ignored, and then nothing would be taken down.
signal.signal(signal.SIGINT, signal.default_int_handler)


class Plant:
    """What a test works with. The adapter is killed and started as a test wants it."""

    python = [sys.executable]

    def __init__(self, server: str, program: str, settings: str = "", disk: str = ""):
        """`disk` is the size of a disk of its own for the state, where one can be mounted."""
        self._temporary = tempfile.TemporaryDirectory(prefix=f"plant-{server}-")
        self.folder = pathlib.Path(self._temporary.name)
        self.server = SERVERS[server](self.folder)
        self.adapter: subprocess.Popen | None = None
        self.log = self.folder / "adapter.log"
        (self.folder / "secret").write_text(SECRET)
        self.keeps = server == "ejabberd"
        self.disk = self.folder / "state" if disk and self._mount(disk) else None
        (self.folder / "conf").write_text(
            f"[server]\nport = {self.server.component_port}\nsecret_file = {self.folder}/secret\nkeep_presences = {'yes' if self.keeps else 'no'}\npresence_seconds = {SECONDS}\n"
            f"[service]\nhost = {SERVICE}\nhosts = {' '.join(HOSTS)}\nprogram = {program}\nstate = {self.folder}/state\nrun = {self.folder}/run\n{settings}"
        )

    def _mount(self, size: str) -> bool:
        (self.folder / "state").mkdir()
        words = ["mount", "-t", "tmpfs", "-o", f"size={size}", "tmpfs", str(self.folder / "state")]
        return os.geteuid() == 0 and subprocess.run(words, capture_output=True, check=False).returncode == 0

    def __enter__(self):
        self.server.start()
        self.start_adapter()
        return self

    def __exit__(self, *_):
        if self.adapter is not None and self.adapter.poll() is None:
            self.adapter.terminate()
            try:
                self.adapter.wait(SECONDS)
            except subprocess.TimeoutExpired:
                self.kill_service()
                self.adapter.kill()
                self.adapter.wait()
        self.server.stop()
        if self.disk is not None:
            subprocess.run(["umount", "-l", str(self.disk)], check=True)
        self._temporary.cleanup()

    def said(self) -> str:
        return self.log.read_text(errors="replace") if self.log.exists() else ""

    def start_adapter(self) -> None:
        """Starts the adapter, and waits until it serves and the server has granted."""
        words = ("service serves", self.granted, "granted by=")
        before = [self.said().count(one) for one in words]
        with open(self.log, "ab") as log:
            command = [*self.python, str(ADAPTER / "pubsubd-xmpp"), "--config", str(self.folder / "conf")]
            self.adapter = subprocess.Popen(command, stdout=log, stderr=log, stdin=subprocess.DEVNULL, preexec_fn=die_with(os.getpid()))
        for one, count, more in zip(words, before, (1, len(HOSTS), len(HOSTS)), strict=True):
            self.wait_said(one, count + more)

    @property
    def granted(self) -> str:
        """What is said of a host once all of its namespaces are delegated."""
        return f"namespaces={self.server.namespaces}\n"

    def wait_said(self, words: str, count: int, seconds: float = SECONDS) -> None:
        until = time.monotonic() + seconds
        while self.said().count(words) < count:
            if time.monotonic() > until or self.adapter.poll() is not None:
                raise TimeoutError(f"'{words}' wasn't said {count} times:\n{self.said()[-3000:]}")
            time.sleep(0.05)

    def wait_present(self, count: int) -> None:
        """Waits until the adapter knows of so many resources that they are there."""
        until, words = time.monotonic() + SECONDS, f" present={count} "
        while True:
            self.tell(signal.SIGUSR1)
            time.sleep(0.1)
            if words in "".join(line for line in self.said().splitlines()[-20:] if " status " in line):
                return
            if time.monotonic() > until:
                raise TimeoutError(f"never {count} are present:\n{self.said()[-3000:]}")

    def wait_kept(self, resource: str) -> None:
        """Waits until that presence is on the disk, where presences are kept."""
        until = time.monotonic() + SECONDS
        while self.keeps and not self._is_kept(resource):
            if time.monotonic() > until:
                raise TimeoutError(f"the presence of {resource} isn't kept")
            time.sleep(0.1)

    def _is_kept(self, resource: str) -> bool:
        with contextlib.closing(sqlite3.connect(self.folder / "state" / "adapter.sqlite", timeout=SECONDS)) as base:
            return bool(base.execute("SELECT 1 FROM presence WHERE resource = ?", (resource,)).fetchall())

    def service_pid(self) -> int:
        return int(self.said().split("service started pid=")[-1].split()[0])

    def kill_service(self) -> None:
        try:
            os.kill(self.service_pid(), signal.SIGKILL)
        except ProcessLookupError:
            pass

    def kill_adapter(self) -> None:
        self.adapter.kill()
        self.adapter.wait()

    def tell(self, number: int) -> None:
        self.adapter.send_signal(number)
