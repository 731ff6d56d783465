#!/usr/bin/env python3
"""measure.py PROGRAM LIMIT STORE FAST [WHAT..]: the program over several streams at once. What each figure is stands in run.sh."""
import os
import pathlib
import statistics
import struct
import subprocess
import sys
import tempfile
import time

HERE = pathlib.Path(__file__).resolve().parent
sys.path.insert(0, str(HERE.parent.parent / "tests" / "streams"))
from serving import Service
from stanzas import create, publish, retrieve, subscribe

PROGRAM, LIMIT, STORE, FAST = sys.argv[1:5]


def numbers(name, default):
    return [int(word) for word in os.environ.get(name, default).split()]


STREAMS = numbers("STREAMS", "1 2 4 16")
AUDIENCE = numbers("AUDIENCE", "2000 65536")
SECONDS = numbers("SECONDS", "3")[0]
ROUNDS = numbers("ROUNDS", "3")[0]
ROWS = numbers("ROWS", "1")[0]
BUSY = "at work beside the measurement (load average)"


def median(values):
    return statistics.median(values)


def load():
    return os.getloadavg()[0]


def served(count, folder):
    return Service(PROGRAM, folder, [f"h{k}.example" for k in range(count)])


def ask(service, at, lines, answers=None, seconds=600):
    """Writes the lines to a stream, and waits for an answer to each, or for so many lines."""
    stream = service.streams[at]
    wanted = stream.count + (len(lines) if answers is None else answers)
    stream.send(*lines)
    service.pump(lambda: stream.count >= wanted, seconds)


def entries_of(body):
    """How many entries a frame has."""
    count, at = 0, 0
    while at < len(body):
        kind, length = body[at], struct.unpack_from(">H", body, at + 1)[0]
        at += 3 + length
        if kind == 4:
            at += 20 + struct.unpack_from(">I", body, at + 16)[0]
        elif kind not in (0, 2, 3):
            raise SystemExit(f"an entry of kind {kind}")
        count += 1
    return count


def frames_of(store, begin):
    """The number of entries of each frame from that place of the store on."""
    text, found, at = pathlib.Path(store).read_bytes(), [], 8
    while at < len(text) and text[at] == 1:
        length = struct.unpack_from(">I", text, at + 1)[0]
        if at >= begin:
            found.append(entries_of(text[at + 5 : at + 5 + length]))
        at += 5 + length
    return found


def answered(stream, make, until):
    """One line at a time until that moment: how many were answered. The stream's ends wait."""
    count = 0
    while time.monotonic() < until:
        os.write(stream.source, make(count) + b"\n")
        while not os.read(stream.sink, 65536).endswith(b"\n"):
            pass
        count += 1
    return count


def beside(streams, make):
    """The same on each stream in a process of its own: how many lines were answered, and in which time."""
    start = time.monotonic()
    pipes = []
    for at, stream in enumerate(streams):
        here, there = os.pipe()
        if os.fork() == 0:
            os.set_blocking(stream.source, True)
            os.set_blocking(stream.sink, True)
            os.write(there, b"%d" % answered(stream, lambda k: make(at, k), start + SECONDS))
            os._exit(0)
        os.close(there)
        pipes.append(here)
    counts = [int(os.read(here, 64)) for here in pipes]
    took = time.monotonic() - start
    for here in pipes:
        os.close(here)
    for _ in pipes:
        os.wait()
    return sum(counts), took


def publishing(count):
    """Publishes a second of so many streams, bytes of a publish, entries a frame, and syncs a publish: each frame has two."""
    with tempfile.TemporaryDirectory(dir=STORE) as folder, served(count, folder) as service:
        senders = [f"pub@h{k}.example/1" for k in range(count)]
        for at in range(count):
            ask(service, at, [create(senders[at], 0, f"node-{at}")])
        before = os.path.getsize(f"{folder}/store") - 1
        done, took = beside(service.streams, lambda at, k: publish(senders[at], k, f"node-{at}", f"i{k % 20}"))
        size = os.path.getsize(f"{folder}/store") - 1 - before
        frames = frames_of(f"{folder}/store", before)
        return done / took, size // max(done, 1), sum(frames) / max(len(frames), 1), 2 * len(frames) / max(done, 1)


def queued_on(count, each=2000):
    """The same where each stream has its lines at hand."""
    with tempfile.TemporaryDirectory(dir=STORE) as folder, served(count, folder) as service:
        senders = [f"pub@h{k}.example/1" for k in range(count)]
        for at in range(count):
            ask(service, at, [create(senders[at], 0, f"node-{at}")])
        lines = [[publish(senders[at], k, f"node-{at}", f"i{k % 20}") for k in range(each)] for at in range(count)]
        wanted = [stream.count + each for stream in service.streams]
        before, start = os.path.getsize(f"{folder}/store") - 1, time.monotonic()
        for stream, some in zip(service.streams, lines):
            stream.send(*some)
        service.pump(lambda: all(stream.count >= most for stream, most in zip(service.streams, wanted)), 300)
        took, done = time.monotonic() - start, each * count
        size = os.path.getsize(f"{folder}/store") - 1 - before
        frames = frames_of(f"{folder}/store", before)
        return done / took, size // done, sum(frames) / max(len(frames), 1), 2 * len(frames) / done


def limit(size, folder=STORE):
    """Appends a second of that many bytes, each with two syncs and nothing else."""
    told = subprocess.run([LIMIT, f"{folder}/limit", str(size), "1000"], stdout=subprocess.PIPE, text=True, check=True).stdout.split()
    return 1000 * 1e9 / int(told[2])


def publishes(run=publishing):
    print(f"{'streams':>8} {'publishes/s':>12} {'of one':>7} {'limit/s':>9} {'ratio':>6} {'entries a frame':>16} {'syncs a publish':>16}")
    first = None
    for count in STREAMS:
        runs = [run(count) for _ in range(ROUNDS)]
        rate, frame, syncs = (median(run[at] for run in runs) for at in (0, 2, 3))
        most = median(limit(runs[0][1]) for _ in range(ROUNDS))
        first = first or rate
        print(f"{count:8} {rate:12.0f} {rate / first:7.2f} {most:9.0f} {rate / most:6.2f} {frame:16.2f} {syncs:16.2f}", flush=True)


def queued():
    publishes(queued_on)


def audience(service, count):
    """Each subscribes itself, on the second stream."""
    ask(service, 0, [create("pub@h0.example/1", 0, "loud")])
    ask(service, 1, [subscribe(f"sub{k}@h1.example/1", k, "loud") for k in range(count)])


def told(count, folder):
    """The seconds from a publish's line to the last byte of the last notice."""
    with tempfile.TemporaryDirectory(dir=folder) as room, served(2, room) as service:
        audience(service, count)
        ask(service, 0, [publish("pub@h0.example/1", 1, "loud", "i0", "x" * 200)])
        service.pump(lambda: service.streams[1].count >= 2 * count, 900)
        start = time.monotonic()
        service.streams[0].send(publish("pub@h0.example/1", 2, "loud", "i1", "x" * 200))
        service.pump(lambda: service.streams[1].count >= 3 * count, 900)
        return time.monotonic() - start


def notices():
    print(f"{'subscribers':>12} {'store':>8} {'seconds':>9} {'notices/s':>10} {'limit/s':>9} {'ratio':>6}   the limit: the disk's two syncs, before and after")
    for count in AUDIENCE:
        for name, folder in (("memory", FAST), ("disk", STORE)):
            before = limit(32, folder)
            seconds = median(told(count, folder) for _ in range(ROUNDS if count < 10000 else 1))
            most = (before + limit(32, folder)) / 2
            beside = f"{most:9.0f} {count / seconds / most:6.2f}" if name == "disk" else ""
            print(f"{count:12} {name:>8} {seconds:9.3f} {count / seconds:10.0f} {beside}", flush=True)


def one_latency(streams, k):
    start = time.monotonic()
    os.write(streams[0].source, publish("pub@h0.example/1", k, "loud", f"i{k}") + b"\n")
    while not os.read(streams[1].sink, 65536).endswith(b"\n"):
        pass
    took = time.monotonic() - start
    while not os.read(streams[0].sink, 65536).endswith(b"\n"):
        pass
    return took


def latency():
    print(f"{'store':>8} {'median ms':>10} {'99th ms':>8}   from a publish's line to its notice's line, {BUSY} {load():.1f}")
    for name, folder in (("memory", FAST), ("disk", STORE)):
        with tempfile.TemporaryDirectory(dir=folder) as room, served(2, room) as service:
            audience(service, 1)
            for stream in service.streams:
                os.set_blocking(stream.source, True)
                os.set_blocking(stream.sink, True)
            took = sorted(one_latency(service.streams, k) for k in range(100))
            print(f"{name:>8} {1000 * took[50]:10.2f} {1000 * took[98]:8.2f}", flush=True)


def used(child):
    """The processor's microseconds of a program in its own code and in the system's, and how often one of its threads went to sleep."""
    stat = pathlib.Path(f"/proc/{child.pid}/stat").read_text().rpartition(")")[2].split()
    own, system = (int(word) * 1e6 / os.sysconf("SC_CLK_TCK") for word in stat[11:13])
    slept = 0
    for task in pathlib.Path(f"/proc/{child.pid}/task").iterdir():
        slept += sum(int(line.split()[1]) for line in (task / "status").read_text().splitlines() if line.startswith("voluntary"))
    return own, system, slept


def echoed(line):
    """Microseconds until `cat` has written the line again: what two wakes and this script take."""
    child = subprocess.Popen(["cat"], stdin=subprocess.PIPE, stdout=subprocess.PIPE, bufsize=0)
    start, count = time.monotonic(), 0
    while time.monotonic() < start + SECONDS:
        os.write(child.stdin.fileno(), line + b"\n")
        while not os.read(child.stdout.fileno(), 65536).endswith(b"\n"):
            pass
        count += 1
    took = time.monotonic() - start
    child.stdin.close()
    child.wait()
    return 1e6 * took / count


def trip():
    make = lambda k: publish("pub@h0.example/1", k, "quiet", f"i{k % 20}")
    print(f"{'where':>10} {'us a trip':>10} {'own code':>9} {'system':>7} {'sleeps':>7} {'two syncs':>10}   one publish at a time on one stream")
    print(f"{'cat':>10} {echoed(make(1)):10.0f}")
    for name, folder in (("memory", FAST), ("disk", STORE)):
        with tempfile.TemporaryDirectory(dir=folder) as room, served(1, room) as service:
            ask(service, 0, [create("pub@h0.example/1", 0, "quiet")])
            stream = service.streams[0]
            os.set_blocking(stream.source, True)
            os.set_blocking(stream.sink, True)
            size, before = os.path.getsize(f"{room}/store"), used(service.child)
            start = time.monotonic()
            count = answered(stream, make, start + SECONDS)
            took, now = time.monotonic() - start, used(service.child)
            each = [(b - a) / count for a, b in zip(before, now)]
            size = (os.path.getsize(f"{room}/store") - size) // count
        syncs = 1e6 / limit(size, folder)
        print(f"{name:>10} {1e6 * took / count:10.0f} {each[0]:9.0f} {each[1]:7.0f} {each[2]:7.1f} {syncs:10.0f}", flush=True)


def nothing():
    print(f"{'streams':>8} {'lines/s':>9} {'of one':>7}   that commit nothing")
    first = None
    for count in STREAMS:
        with tempfile.TemporaryDirectory(dir=FAST) as room, served(count, room) as service:
            ask(service, 0, [create("pub@h0.example/1", 0, "quiet")])
            each = 20000 // count
            lines = [[retrieve(f"who@h{at}.example/1", k, "quiet") for k in range(each)] for at in range(count)]
            wanted = [stream.count + each for stream in service.streams]
            start = time.monotonic()
            for stream, some in zip(service.streams, lines):
                stream.send(*some)
            service.pump(lambda: all(stream.count >= most for stream, most in zip(service.streams, wanted)), 300)
            rate = each * count / (time.monotonic() - start)
        first = first or rate
        print(f"{count:8} {rate:9.0f} {rate / first:7.2f}", flush=True)


def spent(child):
    """The processor's seconds of a program, of all its threads."""
    words = pathlib.Path(f"/proc/{child.pid}/stat").read_text().rpartition(")")[2].split()
    return (int(words[11]) + int(words[12])) / os.sysconf("SC_CLK_TCK")


def idle():
    print(f"{'streams':>8} {'processors':>11}   that a program keeps busy to which nothing is written")
    for count in STREAMS:
        with tempfile.TemporaryDirectory(dir=FAST) as room, served(count, room) as service:
            time.sleep(0.5)
            before, start = spent(service.child), time.monotonic()
            time.sleep(SECONDS)
            print(f"{count:8} {(spent(service.child) - before) / (time.monotonic() - start):11.2f}", flush=True)


def peak_of(service):
    status = pathlib.Path(f"/proc/{service.child.pid}/status").read_text()
    return next(int(line.split()[1]) / 1024 for line in status.splitlines() if line.startswith("VmHWM"))


def memory():
    nodes, subscriptions = 10000 // ROWS, 65536 // ROWS
    with tempfile.TemporaryDirectory(dir=FAST) as room, served(2, room) as service:
        owner = lambda k: f"own{k % 10}@h0.example/1"
        start = time.monotonic()
        ask(service, 0, [create(owner(k), k, f"node-{k}") for k in range(nodes)])
        peaks = [peak_of(service)]
        ask(service, 0, [publish(owner(k % nodes), k, f"node-{k % nodes}", f"i{k // nodes}") for k in range(10 * nodes)])
        peaks.append(peak_of(service))
        ask(service, 1, [subscribe(f"sub{k}@h1.example/1", k, "node-0") for k in range(subscriptions)])
        peaks.append(peak_of(service))
        took = time.monotonic() - start
        size = os.path.getsize(f"{room}/store") / 1e6
    print(f"peak memory (VmHWM), MB: {nodes} nodes {peaks[0]:.0f}, and {10 * nodes} items {peaks[1]:.0f}, and {subscriptions} subscriptions {peaks[2]:.0f}; {took:.1f} s, store {size:.0f} MB")


def main():
    known = {"publishes": publishes, "queued": queued, "notices": notices, "latency": latency, "trip": trip, "nothing": nothing, "idle": idle, "memory": memory}
    print(f"{os.cpu_count()} processors, {BUSY}: {load():.1f}")
    for name in sys.argv[5:] or known:
        known[name]()
    print(f"{BUSY} at the end: {load():.1f}")


main()
