#!/usr/bin/env python3
"""Takes the records of a replicated log into a follower, which it starts.

Usage: take.py PROGRAM NAME HOST IN OUT PORT..

PROGRAM is pubsubd, NAME the log's, HOST the host of the follower's stream, IN and OUT its pipes, each PORT that of a node of the engine. The follower is given all that the log has, from
its begin; where the connection goes, the next one begins with the last message once more. It lasts as long as the follower: where one of the two is stopped, both are started again.

`pubsubd follow` makes one read of its feed before each line. So that a line needn't wait for the next entry, the shortest record comes again whenever the pipe is empty, which changes nothing.
"""
import array
import fcntl
import os
import queue
import subprocess
import sys
import tempfile
import termios
import threading

import log
import records


def unread(pipe):
    """Returns how many bytes of the pipe weren't read yet."""
    count = array.array("i", [0])
    fcntl.ioctl(pipe, termios.FIONREAD, count)
    return count[0]


def write_feed(feed, waiting):
    """Writes what waits to the follower's feed, and where the pipe is empty the shortest record so far."""
    shortest = None
    with open(feed, "wb", buffering=0) as pipe:
        while True:
            try:
                body = waiting.get(timeout=0.001)
            except queue.Empty:
                if shortest is not None and unread(pipe) == 0:
                    pipe.write(shortest)
                continue
            short = records.whole(body)[3]
            if shortest is None or len(short) < len(shortest):
                shortest = short
            rest = memoryview(body)
            while rest:
                rest = rest[pipe.write(rest):]


def read_log(name, ports, waiting):
    """Hands on each message of the log."""
    offset = "first"
    while True:
        link, channel = log.connect(ports, name)
        try:
            for one in log.read(channel, name, offset, 1.0):
                if one is not None:
                    offset, body = one
                    waiting.put(body)
        except log.LOST:
            continue


def main():
    program, name, host, source, sink, *ports = sys.argv[1:]
    with tempfile.TemporaryDirectory() as room:
        feed = f"{room}/feed"
        os.mkfifo(feed)
        follower = subprocess.Popen([program, "follow", host, feed, source, sink])
        waiting = queue.Queue(64)
        for work, given in [(write_feed, (feed, waiting)), (read_log, (name, ports, waiting))]:
            threading.Thread(target=work, args=given, daemon=True).start()
        try:
            status = follower.wait()
        finally:
            follower.kill()
    # The threads end with the process.
    os._exit(status if status >= 0 else 1)


if __name__ == "__main__":
    main()
