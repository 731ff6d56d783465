#!/usr/bin/env python3
"""Puts the entries of a store into a replicated log, again and again, while the store is served.

Usage: put.py PROGRAM STORE NAME PORT..

PROGRAM is pubsubd, NAME the log's, each PORT that of a node of the engine. Twice a second it copies the store, has `pubsubd feed` write the records behind
the last one that the log has, and puts them into the log, each message once the one before is confirmed. So the log has the records in order, and where it
was stopped at any moment, some of them twice.
"""
import os
import pathlib
import shutil
import subprocess
import sys
import tempfile
import time

import log
import records


def copy(store, to):
    """Copies the store as it stands. It is read from its front to its end, so what comes out is a front of it: a frame counts once the byte before it is set, which is written last."""
    with open(store, "rb") as it, open(to, "wb") as out:
        shutil.copyfileobj(it, out, 1 << 20)


def feed(program, store, start):
    """Returns the records of the store from that place on."""
    take, give = os.pipe()
    words = [program, "feed", store, str(start), f"/dev/fd/{give}"]
    with subprocess.Popen(words, pass_fds=[give], stdout=subprocess.PIPE) as made:
        os.close(give)
        with open(take, "rb") as it:
            data = it.read()
        report = made.stdout.read()
    if made.returncode != 0:
        sys.exit(f"put: {' '.join(words)}: status {made.returncode}, {report!r}")
    return data


def behind(channel, name):
    """Returns the place behind the last record that the log has, as far as its last messages tell."""
    place = 0
    for one in log.read(channel, name, "last", 1.0):
        if one is None:
            break
        place = max(place, records.whole(one[1])[2] + 1)
    channel.cancel()
    return place


def put_all(program, store, name, channel, room):
    place = behind(channel, name)
    while True:
        copy(store, f"{room}/copy")
        data = feed(program, f"{room}/copy", place)
        for piece in records.pieces(data):
            log.put(channel, name, piece)
            place = records.whole(piece)[2] + 1
        time.sleep(0.5)


def main():
    program, store, name, *ports = sys.argv[1:]
    program = str(pathlib.Path(program).resolve())
    with tempfile.TemporaryDirectory() as room:
        while True:
            link, channel = log.connect(ports, name)
            channel.confirm_delivery()
            try:
                put_all(program, store, name, channel, room)
            except log.LOST:
                # What wasn't confirmed is put again: by its place, whoever has it already passes over it.
                continue


if __name__ == "__main__":
    main()
