#!/usr/bin/env python3
"""measure.py PROGRAM LIMIT STORE FAST: publishes a second over a file in the folder STORE beside the disk's limit, and what opening a store costs."""
import os
import pathlib
import statistics
import subprocess
import sys
import time

sys.path.insert(0, str(pathlib.Path(__file__).resolve().parents[2] / "tests" / "lines"))
import stanzas

program, limit, store, fast = sys.argv[1:5]
rounds = int(os.environ.get("ROUNDS", "3"))
publishes = int(os.environ.get("PUBLISHES", "2000"))
changes = [int(it) for it in os.environ.get("CHANGES", "10000 100000").split()]


def address(name):
    return f"{name}@a.example/1"


def create(number, name, node):
    return stanzas.create(address(name), number, node)


def publish(number):
    return stanzas.publish(address("ann"), number, "news", f"i{number}")


def publish_to(number, nodes):
    """An item at the nodes in turn."""
    node = number % nodes
    return stanzas.publish(address(f"maker{node % 100}"), number, f"node-{node}", f"i{number}")


def subscribe(number, nodes):
    return stanzas.subscribe(address(f"reader{number}"), number, f"node-{number % nodes}")


def made(number):
    return create(number, f"maker{number % 100}", f"node-{number}")


def run(room, lines):
    """Serves the lines over the store in the room; returns seconds, peak megabytes and seconds of the processor."""
    with open(f"{room}/in", "wb") as it:
        it.writelines(line + b"\n" for line in lines)
    words = [program, "serve", "--service", "pubsub.example", "--store", f"{room}/store", "a.example", f"{room}/in", f"{room}/out"]
    start = time.monotonic()
    started = subprocess.Popen(words)
    _, status, used = os.wait4(started.pid, 0)
    if status:
        sys.exit(f"the program ended with status {os.waitstatus_to_exitcode(status)}")
    return time.monotonic() - start, used.ru_maxrss / 1024, used.ru_utime + used.ru_stime


def clean(room):
    for name in os.listdir(room):
        os.remove(f"{room}/{name}")


def publishing():
    ours, limits = [], []
    for _ in range(rounds):
        clean(store)
        run(store, [create(0, "ann", "news")])
        idle, _, _ = run(store, [])
        before = os.path.getsize(f"{store}/store")
        took, _, _ = run(store, [publish(number) for number in range(publishes)])
        frame = (os.path.getsize(f"{store}/store") - before) // publishes
        ours.append(publishes / (took - idle))
        told = subprocess.run([limit, f"{store}/limit", str(frame), str(publishes)], stdout=subprocess.PIPE, text=True, check=True).stdout.split()
        limits.append(publishes * 1e9 / int(told[2]))
    ours, limits = statistics.median(ours), statistics.median(limits)
    print(f"publishes a second: {ours:.0f}, limit of the disk {limits:.0f}, ratio {ours / limits:.3f}")


def stores(count):
    """Stores of so many changes: of nodes, of items, of subscriptions, of items and of the notices that were handed."""
    nodes = [made(number) for number in range(100)]
    yield "nodes", [made(number) for number in range(count)]
    yield "publishes", nodes + [publish_to(number, 100) for number in range(count)]
    yield "subscriptions", nodes + [subscribe(number, 100) for number in range(count)]
    # A publish that ten hear is eleven entries, since each notice that was handed is one.
    readers = [subscribe(number, 1) for number in range(10)]
    yield "entries of publishes that ten hear", [made(0)] + readers + [publish_to(number, 1) for number in range(count // 11)]


def opening():
    seconds = {}
    for count in changes:
        for kind, lines in stores(count):
            clean(fast)
            making, _, _ = run(fast, lines)
            opened = [run(fast, []) for _ in range(rounds)]
            took, spent = (statistics.median(it[at] for it in opened) for at in (0, 2))
            seconds.setdefault(kind, []).append(spent)
            peak = max(it[1] for it in opened)
            size = os.path.getsize(f"{fast}/store") / 1e6
            print(f"{count} {kind} ({size:.1f} MB): made in {making:.1f} s, opened in {took:.2f} s, {spent:.2f} s of the processor, peak memory {peak:.0f} MB", flush=True)
    for kind, took in seconds.items():
        for k in range(1, len(changes)):
            print(f"opening {changes[k]} {kind} beside {changes[k - 1]}: {took[k] / took[k - 1]:.1f} times the processor's seconds")


publishing()
opening()
