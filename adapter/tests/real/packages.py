"""Debian's packages that the tests with real servers need: which are missing, and how they come."""

from __future__ import annotations

import os
import pathlib
import shutil
import subprocess

CLIENTS = ("python3-slixmpp", "python3-aioxmpp")
OF_SERVER = {"prosody": ("prosody", "prosody-modules"), "ejabberd": ("ejabberd",)}
POLICY = pathlib.Path("/usr/sbin/policy-rc.d")
APT = ["apt-get", "-q", "-o", "Acquire::Retries=0", "-o", "Acquire::http::Timeout=10", "-o", "DPkg::Lock::Timeout=20"]


def wanted(servers) -> list[str]:
    return [*CLIENTS, *(name for server in servers for name in OF_SERVER[server])]


def missing(names) -> list[str]:
    if shutil.which("dpkg-query") is None:
        return list(names)

    def is_there(name):
        done = subprocess.run(["dpkg-query", "-W", "-f", "${Status}", name], capture_output=True, text=True, check=False)
        return done.stdout == "install ok installed"

    return [name for name in names if not is_there(name)]


def install(names, seconds: float) -> str:
    """Installs them without starting what they bring, in that time. What went wrong, or nothing."""
    if not names:
        return ""
    if os.geteuid() != 0 or shutil.which("apt-get") is None:
        return f"missing: {' '.join(names)}, and this isn't root on Debian"
    ours = not POLICY.exists()
    if ours:
        POLICY.write_text("#!/bin/sh\nexit 101\n")
        POLICY.chmod(0o755)
    try:
        environment = dict(os.environ) | {"DEBIAN_FRONTEND": "noninteractive"}
        for words in (["update"], ["install", "-y", "--no-install-recommends", *names]):
            done = subprocess.run(APT + words, env=environment, stdin=subprocess.DEVNULL, capture_output=True, text=True, timeout=seconds, check=False)
            if done.returncode != 0 and words != ["update"]:
                return f"apt-get can't have {' '.join(names)}"
    except subprocess.TimeoutExpired:
        return f"apt-get didn't get {' '.join(names)} within {seconds:g} s"
    finally:
        if ours:
            POLICY.unlink(missing_ok=True)
    still = missing(names)
    return f"missing: {' '.join(still)}" if still else ""
