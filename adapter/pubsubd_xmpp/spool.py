"""What the service writes to one of its streams, read as it grows.

The sink of a stream is a file in the run folder, and not a pipe, since what lies in a pipe goes with its reader, and the service counts what it wrote as handed out.
Beside the file stands a cell of eight bytes: how far the server was given what it holds. So an adapter that was killed is followed by one that reads on there.
What was given is cut out of the file a piece at a time, so the file takes no more room than what is still to be read.
"""

from __future__ import annotations

import ctypes
import mmap
import os
import struct
from collections.abc import Callable
from pathlib import Path

_LIBC = ctypes.CDLL(None, use_errno=True)
_IN_MODIFY, _IN_CLOSE_WRITE = 0x2, 0x8
_PUNCH_AND_KEEP_SIZE = 0x03
_EVENT = struct.Struct("iIII")
_CELL = struct.Struct("<Q")
PIECE = 1 << 20
CHUNK = 1 << 16


class Watch:
    """Tells when one of several files was written to (inotify)."""

    def __init__(self) -> None:
        self.fd = _LIBC.inotify_init1(os.O_NONBLOCK | os.O_CLOEXEC)
        if self.fd < 0:
            raise OSError(ctypes.get_errno(), "inotify can't be had")
        self._calls: dict[int, Callable[[bool], None]] = {}

    def add(self, path: Path, call: Callable[[bool], None]) -> int:
        """Calls when the file was written to; with True when its writer closed it."""
        number = _LIBC.inotify_add_watch(self.fd, os.fsencode(path), _IN_MODIFY | _IN_CLOSE_WRITE)
        if number < 0:
            raise OSError(ctypes.get_errno(), f"{path} can't be watched")
        self._calls[number] = call
        return number

    def drop(self, number: int) -> None:
        if self._calls.pop(number, None) is not None:
            _LIBC.inotify_rm_watch(self.fd, number)

    def read(self) -> None:
        try:
            data = os.read(self.fd, 1 << 16)
        except BlockingIOError:
            return
        at, masks = 0, {}
        while at < len(data):
            number, mask, _, size = _EVENT.unpack_from(data, at)
            masks[number] = masks.get(number, 0) | mask
            at += _EVENT.size + size
        for number, mask in masks.items():
            call = self._calls.get(number)
            if call is not None:
                call(bool(mask & _IN_CLOSE_WRITE))


class Spool:
    """One such file and its cell."""

    def __init__(self, path: Path, before_cut: Callable[[], None] = lambda: None):
        self.path = path
        self._fd = os.open(path, os.O_RDWR | os.O_CREAT | os.O_CLOEXEC, 0o600)
        cell = os.open(path.with_suffix(".at"), os.O_RDWR | os.O_CREAT | os.O_CLOEXEC, 0o600)
        try:
            # Written, and not only made longer: a mapped page for which a full disk has no room would end the process.
            if os.fstat(cell).st_size < _CELL.size:
                os.pwrite(cell, bytes(_CELL.size), 0)
            self._cell = mmap.mmap(cell, _CELL.size)
        except OSError:
            os.close(self._fd)
            raise
        finally:
            os.close(cell)
        self._before_cut = before_cut
        self._cut = 0
        self._half = b""
        self.at = 0  # the end of the last line that was read
        self.can_cut = True

    @property
    def given(self) -> int:
        """How far the server was given what is here."""
        return _CELL.unpack_from(self._cell)[0]

    def give(self, at: int) -> None:
        _CELL.pack_into(self._cell, 0, at)
        if at - self._cut >= PIECE:
            self._cut_to(at - at % PIECE)

    def _cut_to(self, at: int) -> None:
        self._before_cut()
        offset, length = ctypes.c_long(self._cut), ctypes.c_long(at - self._cut)
        self._cut = at
        if self.can_cut and _LIBC.fallocate(self._fd, _PUNCH_AND_KEEP_SIZE, offset, length) != 0:
            self.can_cut = False

    def lines(self) -> list[tuple[bytes, int]]:
        """Whole lines that weren't read yet, some of them if there are many, each with the offset of its end."""
        found: list[tuple[bytes, int]] = []
        size = CHUNK
        while not found:
            piece = os.pread(self._fd, size, self.at + len(self._half))
            if not piece:
                break
            whole, newline, rest = piece.rpartition(b"\n")
            if not newline:
                self._half += piece
                size = min(2 * size, 1 << 24)
                continue
            for line in (self._half + whole).split(b"\n"):
                self.at += len(line) + 1
                found.append((line, self.at))
            self._half = rest
        return found

    @property
    def half(self) -> bool:
        """Whether something stands behind the last newline that was read: no line, where its writer is gone."""
        return bool(self._half)

    def forget_half(self) -> None:
        """`at` was set anew: what was read behind it is read again."""
        self._half = b""

    def skip_cut(self) -> None:
        """Begins behind what was cut out, with the first whole line there."""
        try:
            start = os.lseek(self._fd, 0, os.SEEK_DATA)
        except OSError:
            start = os.fstat(self._fd).st_size
        if start:
            piece = b""
            while b"\n" not in piece:
                more = os.pread(self._fd, CHUNK, start + len(piece))
                piece += more
                if not more:
                    break
            self.at = start + piece.find(b"\n") + 1 if b"\n" in piece else start + len(piece)

    @property
    def size(self) -> int:
        """The bytes that were written to it."""
        return os.fstat(self._fd).st_size

    @property
    def room(self) -> int:
        """The bytes that the file takes on the disk."""
        return os.fstat(self._fd).st_blocks * 512

    def close(self, remove: bool) -> None:
        os.close(self._fd)
        self._cell.close()
        if remove:
            self.path.unlink(missing_ok=True)
            self.path.with_suffix(".at").unlink(missing_ok=True)
