"""The adapter as a whole: it keeps the service running, stays with the server, and brings the two together."""

from __future__ import annotations

import asyncio
import datetime
import os
import shutil
import signal
import time
from collections import deque
from collections.abc import Callable
from sqlite3 import Error as BaseError

from .compaction import Compaction, next_time
from .config import Config
from .kept import Kept
from .leftovers import runs_in, take_over, wait_for_store
from .log import Rarely, notify, say
from .router import Router
from .service import DAMAGED, FOR_A_PERSON, OPEN_FAULT, STREAM_FAULT, Run, meaning
from .session import Session
from .spool import Watch
from .stream import Stream
from .trees import Elem

# How long a server has to grant rights before events go out without them, and before what is missing is said.
SETTLE = 3.0
COMPLAIN = 8.0


class Adapter:
    """One process, one server, one service."""

    def __init__(self, config: Config, kept: Kept):
        self._config, self._kept = config, kept
        self._loop = asyncio.get_running_loop()
        self._router = Router(config, kept)
        self._session = Session(config, self)
        self._router.session = self._session
        self._watch = Watch()
        self._compaction = Compaction(config, kept)
        self._reading: dict[str, deque[Stream]] = {host: deque() for host in config.hosts}
        self._settled = False
        self._timers: list[asyncio.TimerHandle] = []
        self._stopping = asyncio.Event()
        self._turning = asyncio.Event()
        self._turn_why = ""
        self._wants_compaction = False
        self._rarely = Rarely()
        self._run: Run | None = None
        self._starting: Run | None = None
        self._number = 0
        self._began_at = self._served_at = 0.0  # when the last run began, and when one last had its store
        self._connections = 0
        self._starts = 0
        self._began = time.monotonic()

    # What the session tells

    def take(self, stanza: Elem) -> None:
        try:
            self._router.take(stanza)
        except Exception as why:  # a fault of the adapter takes one stanza, and not the stream
            say("fault", of="the adapter", at=f"{stanza.name} from {stanza.get('from')}", why=repr(why))

    def taken(self) -> None:
        self._router.flush_streams()
        if self._router.is_flooded:
            self._session.read_on(False)

    def connected(self) -> None:
        notify("STATUS=connected")
        self._settled = False
        if self._session.was_away and self._connections:
            self._router.sweep()
        self._connections += 1
        self._later(0.05, self._settle_early)
        self._later(SETTLE, self._settle)
        self._later(COMPLAIN, self._router.grants.complain)
        self._later(self._config.presence_seconds, self._router.sweep)
        if self._config.keep_presences:
            self._router.ask_whether_there()

    def disconnected(self) -> None:
        notify("STATUS=waiting for the server")
        self._settled = False
        for timer in self._timers:
            timer.cancel()
        self._timers.clear()
        self._router.grants.forget()
        self._router.presences.doubt()
        self._router.rosters.forget()

    def drained(self) -> None:
        self.pump()

    def _later(self, seconds: float, call: Callable[[], None]) -> None:
        self._timers.append(self._loop.call_later(seconds, call))

    def _settle_early(self) -> None:
        """Events go out as soon as every host granted what they need."""
        if self._settled:
            return
        if self._router.grants.can_speak():
            self._settle()
        else:
            self._later(0.05, self._settle_early)

    def _settle(self) -> None:
        if not self._settled:
            self._settled = True
            self.pump()

    # What the service writes

    def _wake(self, stream: Stream, closed: bool) -> None:
        if self._is_opening and self._run is not None and stream in self._run.streams and stream.spool.size:
            self._opened()
        if closed and self._run is not None and stream in self._run.streams and stream.is_open:
            self._loop.call_later(2.0, self._check_closed, self._run)
        self._pump_host(stream.host)

    def _check_closed(self, run: Run) -> None:
        """A stream that ended alone doesn't come back in its run."""
        if run is self._run and run.process is not None and not run.process.ended.done():
            self._turn("a stream of the service ended alone")

    def pump(self) -> None:
        for host in self._config.hosts:
            self._pump_host(host)

    def _pump_host(self, host: str) -> None:
        """Reads a piece of what the service wrote to this host's stream, and comes again if there is more."""
        streams = self._reading[host]
        if not streams or not self._session.can_take or not self._settled:
            return
        stream = streams[0]
        was_over = stream.over
        lines = stream.spool.lines()
        if lines:
            stream.read_at = time.monotonic()
        for line, end in lines:
            try:
                self._router.told(stream, line, end)
            except Exception as why:  # likewise one line
                say("fault", of="the adapter", at=line[:100], why=repr(why))
        self._session.flush()
        self._router.flush_streams()
        if lines:
            self._loop.call_soon(self._pump_host, host)
        elif was_over:
            self._session.pass_by(lambda: self._loop.call_soon(self._finish, stream))
        if self._session.can_take and not self._router.is_flooded:
            self._session.read_on(True)

    def _finish(self, stream: Stream) -> None:
        """All that a run wrote to the stream is with the server."""
        streams = self._reading[stream.host]
        if not streams or streams[0] is not stream:
            return
        if stream.spool.half:
            say("half a line", host=stream.host, what="the service ended in the middle of a line, which counts as none")
        streams.popleft()
        self._router.ended(stream)
        self._session.flush()
        self._flush_kept()
        stream.spool.close(remove=True)
        folder = stream.spool.path.parent
        if not any(one.spool.path.parent == folder for others in self._reading.values() for one in others):
            shutil.rmtree(folder, ignore_errors=True)
        self._loop.call_soon(self._pump_host, stream.host)

    # Runs of the service

    async def run(self) -> int:
        """Serves until it is told to stop, or a person has to look. The status to end with."""
        for name in (signal.SIGTERM, signal.SIGINT):
            self._loop.add_signal_handler(name, self._stop)
        self._loop.add_signal_handler(signal.SIGUSR1, self.tell_status)
        self._loop.add_signal_handler(signal.SIGUSR2, self._ask_compaction)
        self._loop.set_exception_handler(lambda _, what: say("fault", of="the adapter", why=repr(what.get("exception") or what["message"])))
        self._loop.add_reader(self._watch.fd, self._watch.read)
        if not await self._take_over():
            return OPEN_FAULT
        tasks = [asyncio.create_task(self._session.run())]
        tasks += [asyncio.create_task(self._tend()), asyncio.create_task(self._schedule())]
        try:
            return await self._serve()
        finally:
            await self._end_session()
            for task in tasks:
                task.cancel()
            self._flush_kept()

    async def _take_over(self) -> bool:
        """What an adapter before this one left."""
        self._compaction.clean()
        self._router.presences.load()
        if not await wait_for_store(self._config.store, self._config.stop_seconds):
            say("the store is held", store=self._config.store, why="another program serves it")
            return False
        runs = runs_in(self._config.run)
        self._number = int(runs[-1].name[4:]) if runs else 0
        for stream in take_over(self._config.run, self._config.hosts, self._kept):
            self._reading[stream.host].append(stream)
        return True

    async def _serve(self) -> int:
        pause = 0.1
        self._wants_compaction = self._compaction.is_due()
        while not self._stopping.is_set():
            if self._wants_compaction:
                self._wants_compaction = False
                notify("STATUS=compacting")
                await self._compaction.compact()
                continue
            began = time.monotonic()
            status = await self._one_run()
            if self._stopping.is_set():
                return max(status, 0)
            if status == DAMAGED and self._compaction.refused():
                continue
            if status in FOR_A_PERSON:
                say("not started again", status=status, meaning=meaning(status))
                return status
            turned, self._turn_why = self._turn_why, ""
            self._wants_compaction = self._wants_compaction or self._compaction.is_due()
            if turned:
                pause = 0.1
                continue
            served = self._served_at > began
            pause = 0.1 if time.monotonic() - began > 10 else min(2 * pause, 1.0 if served else 30.0)
            await self._sleep(pause)
        return 0

    async def _one_run(self) -> int:
        """One run of the service, to its end."""
        self._number += 1
        run = Run(self._config, self._config.run / f"run-{self._number}", self._watch)
        self._turning.clear()
        try:
            run.make(self._wake, self._flush_kept, self._turning.set)
            self._starting = run
            opened = await run.start()
        except OSError as why:
            say("the run folder can't be used", why=why)
            return self._abandon(run, STREAM_FAULT)
        finally:
            self._starting = None
        if run.process is None:
            return self._abandon(run, OPEN_FAULT)
        self._starts += 1
        for stream in run.streams:
            self._reading[stream.host].append(stream)
        if opened:
            await self._attend(run)
        status = await run.end(self._config.stop_seconds)
        self._router.pause()
        self._run = None
        run.forget()
        say("service ended", status=status, meaning=meaning(status))
        self.pump()
        return status

    def _abandon(self, run: Run, status: int) -> int:
        """The run didn't come to a process."""
        run.forget()
        shutil.rmtree(self._config.run / f"run-{self._number}", ignore_errors=True)
        return status

    async def _attend(self, run: Run) -> None:
        """Lets requests through until the service ends, or it is to end.

        A service that says what failed goes on with the streams that didn't, and tells its status once all inputs have ended. So they are ended then.
        """
        self._run = run
        self._began_at = time.monotonic()
        self._router.begin(run.streams)
        assert run.process is not None
        waits = [asyncio.create_task(self._stopping.wait()), asyncio.create_task(self._turning.wait())]
        await asyncio.wait([run.process.ended, *waits], return_when=asyncio.FIRST_COMPLETED)
        for one in waits:
            one.cancel()
        self._router.pause()

    @property
    def _is_opening(self) -> bool:
        """Whether the service reads its store: it opens its streams before, and writes to none of them until it has."""
        return self._served_at <= self._began_at

    def _opened(self) -> None:
        """The service has read its store, and serves."""
        self._served_at = time.monotonic()
        self._compaction.opened()
        say("service serves", seconds=f"{self._served_at - self._began_at:.3f}")
        notify("READY=1", "STATUS=serving" if self._session.is_up else "STATUS=waiting for the server")

    def _turn(self, why: str) -> None:
        """Ends this run, for another to begin."""
        if self._run is not None and not self._turning.is_set():
            say("service is started anew", why=why)
            self._turn_why = why
            self._turning.set()

    def _ask_compaction(self) -> None:
        """At once if the service runs, and before it runs again in any case."""
        self._wants_compaction = True
        self._turn("compaction")

    def _stop(self) -> None:
        if self._stopping.is_set():
            say("stopped at once")
            os._exit(1)
        say("stopping")
        notify("STOPPING=1")
        self._router.stopping = True
        self._stopping.set()
        self._compaction.give_up()
        opening = self._starting if self._run is None else self._run if self._is_opening else None
        if opening is not None and opening.process is not None:
            opening.process.kill()  # a store that is being read is changed by nothing

    async def _end_session(self) -> None:
        """Gives the server what is still to be given, and ends the stream."""
        self._router.refuse_waiting()
        until = self._loop.time() + 10
        while self._session.is_up and self._loop.time() < until and (any(self._reading.values()) or self._session.waiting):
            self.pump()
            self._session.flush()
            await asyncio.sleep(0.01)
        self._session.goodbye()
        say("stopped")

    async def _sleep(self, seconds: float) -> None:
        """Sleeps, unless it is told to stop."""
        try:
            await asyncio.wait_for(self._stopping.wait(), seconds)
        except TimeoutError:
            pass

    # What is done beside

    async def _tend(self) -> None:
        """Each second: what was gathered is written, and a service that doesn't answer is started anew."""
        while True:
            await asyncio.sleep(1)
            self._flush_kept()
            if not (self._settled and self._session.can_take):
                self._excuse()
            elif not self._router.is_flooded:
                self._session.read_on(True)
            if self._run is not None and self._is_opening:
                if time.monotonic() - self._began_at > self._config.open_seconds:
                    self._turn("it doesn't come to the end of its store")
            elif self._router.silence(self._served_at) > self._config.answer_seconds:
                self._turn("it doesn't answer")
            elif self._router.out_of_step:
                self._turn("its replies fit no requests")
            elif any(stream.broken for stream in (self._run.streams if self._run else ())):
                self._turn("it doesn't read a stream")
            elif any(not one.spool.can_cut and one.spool.at > 1 << 28 for others in self._reading.values() for one in others):
                self._turn("the file of a stream can't be cut, and grows large")

    def _excuse(self) -> None:
        """While nothing is read, no reply is missed."""
        for stream in self._run.streams if self._run else ():
            stream.read_at = time.monotonic()

    async def _schedule(self) -> None:
        """Compacts at the times of the configuration."""
        if self._config.compact_at is None:
            return
        due = datetime.datetime.now()
        while True:
            due = next_time(self._config.compact_at, max(due, datetime.datetime.now()))
            await asyncio.sleep((due - datetime.datetime.now()).total_seconds())
            self._ask_compaction()

    def _flush_kept(self) -> None:
        try:
            self._kept.flush()
        except BaseError as why:
            self._rarely.say("the state can't be written", why=why)

    def tell_status(self) -> None:
        """One line of what there is."""
        router = self._router
        facts = {name.replace(" ", "_"): count for name, count in sorted(router.counts.items())}
        waiting = sum(map(len, router.waiting.values()))
        say(
            "status",
            server="connected" if self._session.is_up else "away",
            service="serving" if router.serves else "away",
            seconds=int(time.monotonic() - self._began),
            runs=self._starts,
            open=router.open,
            waiting=waiting,
            oldest=f"{router.oldest():.3f}",
            present=len(router.presences),
            store=self._compaction.size(),
            **facts,
        )
