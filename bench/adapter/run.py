#!/usr/bin/python3
"""Publishes and notices through prosody, the adapter and the service, beside prosody's own pubsub in the same server and run.

Usage: bench/adapter/run.py PROGRAM [SCALE [profile]]

Prosody's own is taken twice: over SQLite, which syncs (wants Debian's lua-dbi-sqlite3), and over its files, which it doesn't sync. SCALE (1 unless named) multiplies
the number of publishes. It tells the rates, ours beside each of prosody's own, the processor's time by process, and the memory. With `profile` only ours is taken, with
the adapter's functions that take most of its time (cProfile, with which it takes about twice as long).
"""

from __future__ import annotations

import asyncio
import os
import pathlib
import pstats
import statistics
import subprocess
import sys
import tempfile
import time

TOP = pathlib.Path(__file__).resolve().parents[2]
sys.path.insert(0, str(TOP / "adapter" / "tests" / "real"))

import packages
import servers
from plant import Plant
from raw import Raw, register

PUBSUB = "http://jabber.org/protocol/pubsub"
PAYLOAD = "<entry xmlns='http://www.w3.org/2005/Atom'><title>" + "words " * 25 + "</title></entry>"
OURS, SYNCED, FILES = servers.SERVICE, "synced.localhost", "files.localhost"
NAMES = {OURS: "adapter and pubsubd", SYNCED: "prosody, SQLite", FILES: "prosody, files"}
ACCOUNTS, RESOURCES = 10, 20
OWN = """
Component "synced.localhost" "pubsub"
  storage = "sql"
  sql = { driver = "SQLite3"; database = "pubsub.sqlite" }
  pubsub_max_items = 256
  autocreate_on_subscribe = false
  admins = { "ann@a.localhost" }
Component "files.localhost" "pubsub"
  storage = "internal"
  pubsub_max_items = 256
  admins = { "ann@a.localhost" }
"""


def seconds_of(pid: int) -> float:
    """The processor's time that a process took."""
    words = pathlib.Path(f"/proc/{pid}/stat").read_text().rpartition(")")[2].split()
    return (int(words[11]) + int(words[12])) / os.sysconf("SC_CLK_TCK")


def resident(pid: int) -> int:
    return int(pathlib.Path(f"/proc/{pid}/status").read_text().split("VmRSS:")[1].split()[0])


class Measure:
    """The rates of one run, by what was measured and where."""

    def __init__(self, plant: Plant, scale: float):
        self.plant, self.scale = plant, scale
        self.rates: dict[str, dict[str, float]] = {}
        self.processor: dict[tuple[str, str], dict[str, float]] = {}

    def pids(self):
        return {"prosody": self.plant.server.child.pid, "adapter": self.plant.adapter.pid, "pubsubd": self.plant.service_pid()}

    async def take(self, what, where, count, deed):
        before = {name: seconds_of(pid) for name, pid in self.pids().items()}
        began = time.perf_counter()
        await deed()
        took = time.perf_counter() - began
        self.rates.setdefault(what, {})[where] = count / took
        self.processor[what, where] = {name: (seconds_of(pid) - before[name]) / count for name, pid in self.pids().items()}


async def publish_one_at_a_time(ann, where, count):
    for at in range(count):
        reply = await ann.publish("one", f"i{at % 8}", PAYLOAD, where)
        assert reply.get("type") == "result", str(reply)


async def publish_many(ann, where, count, width):
    left = iter(range(count))

    async def work():
        for at in left:
            await ann.publish("many", f"i{at % 8}", PAYLOAD, where)

    await asyncio.gather(*[work() for _ in range(width)])


async def told(ann, readers, where, count):
    """Publishes, and waits until each subscriber heard of all."""
    heard, wanted, done = 0, count * len(readers), asyncio.get_running_loop().create_future()

    def hear(message):
        nonlocal heard
        if message.child("event") is not None:
            heard += 1
            if heard == wanted:
                done.set_result(True)

    for reader in readers:
        reader.on_message = hear
    for at in range(count):
        await ann.publish("told", f"i{at}", PAYLOAD, where)
    await asyncio.wait_for(done, 600)


async def prepare(ann, readers, where):
    for node in ("one", "many", "told"):
        reply = await ann.iq("set", f"<pubsub xmlns='{PUBSUB}'><create node='{node}'/></pubsub>", where)
        assert reply.get("type") == "result", f"{where}: {reply}"
    for reader in readers:
        reply = await reader.iq("set", f"<pubsub xmlns='{PUBSUB}'><subscribe node='told' jid='{reader.full}'/></pubsub>", where)
        assert reply.get("type") == "result", f"{where}: {reply}"


async def rounds(measure: Measure, places):
    port = measure.plant.server.client_port
    readers_of = [f"r{at}@b.localhost" for at in range(ACCOUNTS)]
    await register(port, "ann@a.localhost", *readers_of, password=servers.PASSWORD)
    ann = await Raw("ann", "a.localhost", servers.PASSWORD, "1").connect(port)
    readers = []
    for address in readers_of:
        for at in range(RESOURCES):
            readers.append(await Raw(address.partition("@")[0], "b.localhost", servers.PASSWORD, f"x{at}").connect(port))
    for client in (ann, *readers):
        client.send("<presence/>")
    ones, many, events = (max(4, int(measure.scale * number)) for number in (300, 1500, 15))
    for where in places:
        await prepare(ann, readers, where)
        await measure.take("publishes a second, one at a time", where, ones, lambda where=where: publish_one_at_a_time(ann, where, ones))
        await measure.take("publishes a second, 32 unanswered", where, many, lambda where=where: publish_many(ann, where, many, 32))
        count = events * len(readers)
        await measure.take(f"notices a second to {len(readers)} subscribers", where, count, lambda where=where: told(ann, readers, where, events))


def syncs(folder: pathlib.Path) -> float:
    """Milliseconds of one sync of this disk, the median of 50."""
    taken = []
    with open(folder / "sync", "wb") as file:
        for _ in range(50):
            file.write(b"x" * 200)
            file.flush()
            began = time.perf_counter()
            os.fsync(file.fileno())
            taken.append(time.perf_counter() - began)
    return 1000 * statistics.median(taken)


def show(measure: Measure, places):
    print(f"| | {' | '.join(NAMES[one] for one in places)} | ours beside each |")
    print("|---|" + "---|" * (len(places) + 1))
    for what, rates in measure.rates.items():
        beside = ", ".join(f"{rates[OURS] / rates[one]:.2f}" for one in places[1:])
        print(f"| {what} | {' | '.join(f'{rates[one]:,.0f}' for one in places)} | {beside} |")
    print("\nMilliseconds of the processor each:")
    for (what, where), taken in measure.processor.items():
        print(f"  {what}, {NAMES[where]}: " + ", ".join(f"{name} {1000 * seconds:.3f}" for name, seconds in taken.items()))
    print("\nResident, KiB: " + ", ".join(f"{name} {resident(pid):,}" for name, pid in measure.pids().items()))
    print(f"One sync of the disk: {syncs(measure.plant.folder):.2f} ms; load {os.getloadavg()[0]:.1f}")


def profiled(program, scale):
    """Ours alone, and where the adapter's time goes."""
    with tempfile.TemporaryDirectory() as folder:
        Plant.python = [sys.executable, "-m", "cProfile", "-o", f"{folder}/profile"]
        with Plant("prosody", program) as plant:
            measure = Measure(plant, scale)
            asyncio.run(rounds(measure, [OURS]))
            show(measure, [OURS])
        pstats.Stats(f"{folder}/profile").strip_dirs().sort_stats("tottime").print_stats(30)


def main():
    program, scale = sys.argv[1], float(sys.argv[2]) if len(sys.argv) > 2 else 1.0
    wrong = packages.install(packages.missing(["prosody", "prosody-modules"]), 300)
    if wrong:
        sys.exit(wrong)
    if sys.argv[3:] == ["profile"]:
        profiled(program, scale)
        return
    sql = not packages.install(packages.missing(["lua-dbi-sqlite3"]), 120)
    places = [OURS, *([SYNCED] if sql else []), FILES]
    servers.Prosody.own_pubsub = OWN if sql else OWN[OWN.index('Component "files') :]
    with Plant("prosody", program) as plant:
        subprocess.run(["sync"], check=True)
        measure = Measure(plant, scale)
        asyncio.run(rounds(measure, places))
        show(measure, places)


if __name__ == "__main__":
    if len(sys.argv) < 2:
        sys.exit(__doc__)
    main()
