#!/usr/bin/env python3
"""Stores that are longer than the pieces of 1 MiB in which they are read: they open with all that they hold, and damage is told where it stands.

    pieces.py PROGRAM
"""
import pathlib
import subprocess
import sys
import tempfile

HERE = pathlib.Path(__file__).resolve().parent
sys.path.insert(0, str(HERE.parent / "lines"))
from sizes import ANN, Room, Wrong, change, expect, frame
from notation import Element
from stanzas import SERVICE, create, entry, item, publish, result, retrieve

PIECE = 1 << 20
HEADER = b"PUBSUBJ2"
BOOT = b"\0" + len(SERVICE).to_bytes(2, "big") + SERVICE.encode()
CREATED = change(1, create(ANN, 1, "news"))
KEPT = 10


def published(number, size):
    """The entry of a publish with a text of so many letters."""
    return change(number, publish(ANN, number, "news", f"i{number}", "x" * size))


def store_of(frames):
    """The bytes of a store with these frames, and where the gate of each stands, the closed one last."""
    made, gates = bytearray(HEADER), []
    for entries in frames:
        gates.append(len(made))
        made += frame(b"".join(entries))
    return bytes(made) + b"\0", [*gates, len(made)]


def serves(room, made, sizes):
    """The store opens, and the node has its last items, each with as long a text as it was published with."""
    room.store.write_bytes(made)
    last = sorted(sizes)[-KEPT:]
    kept = [item(f"i{number}", entry("x" * sizes[number])) for number in last]
    expect("the items", room.run([retrieve(ANN, 1, "news")]), [result(ANN, 1, Element("items", None, {"node": "news"}, kept))])


def refuses(room, made, place):
    """The store is damaged at that place, and stays as it is."""
    room.store.write_bytes(made)
    source, sink = room.folder / "in", room.folder / "out"
    source.write_bytes(b"")
    words = [room.program, "serve", "--service", SERVICE, "--store", str(room.store), "a.example", str(source), str(sink)]
    done = subprocess.run(words, capture_output=True, timeout=room.seconds, check=False)
    expect("the status", (done.returncode, done.stdout), (5, f"store damaged at {place}\n".encode()))
    expect("the store", room.store.read_bytes() == made, True)


def with_byte(made, place, byte):
    return made[:place] + bytes([byte]) + made[place + 1 :]


def too_long(made, gate):
    """The frame at the gate says that it has more bytes than the store."""
    return made[: gate + 1] + b"\x7f\xff\xff\xff" + made[gate + 5 :]


def every_frame(room):
    """A store of four pieces, one frame a publish: damage in each frame's length, and at the first byte of each entry. It ends at a gate that is shut."""
    sizes = {number: 60_000 for number in range(2, 62)}
    made, gates = store_of([[BOOT], [CREATED], *([published(number, size)] for number, size in sizes.items())])
    expect("its length", len(made) > 3 * PIECE, True)
    serves(room, made, sizes)
    for gate in gates[:-1]:
        refuses(room, too_long(made, gate), gate)
        refuses(room, with_byte(made, gate + 5, 9), gate + 5)
    for number in (2, 20, 41, 61):
        serves(room, with_byte(made, gates[number], 0), {it: size for it, size in sizes.items() if it < number})


def an_edge(room):
    """A gate stands in the last bytes of the first piece, or right behind it."""
    for beside in range(-6, 3):
        edge = len(HEADER) + PIECE + beside
        filled = [[BOOT], [CREATED], *([published(number, 60_000)] for number in range(2, 19))]
        sizes = {number: 60_000 for number in range(2, 19)}
        begun = store_of(filled)[1][-1]
        text = edge - begun - len(frame(published(19, 0))) - len('"c":["",],')
        for size in range(max(0, text - 40), text + 40):
            made, gates = store_of([*filled, [published(19, size)], [published(20, 50)]])
            if gates[-2] == edge:
                break
        else:
            raise Wrong(f"no text leads to a gate at {edge}")
        serves(room, made, {**sizes, 19: size, 20: 50})
        refuses(room, too_long(made, edge), edge)
        refuses(room, with_byte(made, edge + 5, 9), edge + 5)
        refuses(room, made[: edge + 3], edge)


def a_long_frame(room):
    """One frame has several pieces, and another stands behind it."""
    sizes = {number: 60_000 for number in range(2, 62)}
    long = [CREATED, *(published(number, size) for number, size in sizes.items())]
    made, gates = store_of([[BOOT], long, [published(62, 10)]])
    expect("the frame's length", gates[2] - gates[1] > 3 * PIECE, True)
    serves(room, made, {**sizes, 62: 10})
    at = gates[1] + 5
    for number, one in enumerate(long):
        if number in (0, 1, 20, len(long) - 1):
            refuses(room, with_byte(made, at, 9), at)
        at += len(one)
    refuses(room, too_long(made, gates[1]), gates[1])
    refuses(room, too_long(made, gates[2]), gates[2])
    refuses(room, made[: gates[2]], gates[1])
    refuses(room, made[: gates[2] - 1], gates[1])
    refuses(room, made[: gates[1] + 4], gates[1])


CASES = {"damage at every frame": every_frame, "a gate at a piece's edge": an_edge, "a frame of several pieces": a_long_frame}


def main(words):
    program = str(pathlib.Path(words[0]).resolve())
    for name, case in CASES.items():
        with tempfile.TemporaryDirectory(prefix="pubsubd-pieces-") as folder:
            try:
                case(Room(program, folder, 60))
            except Wrong as wrong:
                print(f"FAIL {name}: {wrong}")
                return 1
        print(f"ok   {name}", flush=True)
    return 0


if __name__ == "__main__":
    if len(sys.argv) < 2:
        sys.exit(__doc__.strip())
    sys.exit(main(sys.argv[1:]))
