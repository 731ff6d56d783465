"""What an operator meets: a server that goes, a wrong secret, a second adapter, an adapter that is killed, compaction, limits, signals, systemd."""

import asyncio
import os
import pathlib
import signal
import socket
import subprocess
import unittest

from .fakes import ADAPTER, HOST, SERVICE, AdapterCase, condition, contact, delegated, kill_service, request
from .test_duties import ANN, BOB, CAPS, presence

from pubsubd_xmpp.spool import Spool


class Server(AdapterCase):
    async def test_a_server_that_goes_is_connected_to_again(self):
        await self.start()
        await self.server.stop()
        await self.until_said("disconnected")
        await self.until_said("not connected")
        await self.server.start()
        await self.server.until(lambda: self.server.is_up)
        self.server.send(request("1"))
        self.assertEqual((await self.server.reply("1")).get("type"), "result")
        self.assertEqual(self.runs(), 1)

    async def test_who_comes_after_the_server_was_away_is_newly_there(self):
        await self.start()
        self.server.send(presence(f"{ANN}/1", CAPS))
        await self.until_told('"ver":"AAAA"')
        await self.server.stop()
        await self.until_said("not connected")
        self.server.on_connect = lambda: (self.server.grant(), self.server.send(presence(f"{ANN}/1", CAPS)))
        await self.server.start()
        await self.server.until(lambda: sum('"ver":"AAAA"' in line for line in self.told()) == 2)
        lines = [line for line in self.told() if '"n":"presence"' in line]
        self.assertEqual(["unavailable" in line for line in lines], [False, True, False])

    async def test_an_event_waits_for_the_server(self):
        await self.start()
        self.server.send(request("1", "held") + request("2", f"notice 1 {SERVICE}"))
        await self.until_told('"id":"1"')
        self.server.drop()
        await self.until_said("disconnected")
        self.let_go()
        await self.server.message(id="n-1")

    async def test_a_wrong_secret_is_said(self):
        """The service serves meanwhile."""
        self.server.secret = "another"
        await self.start(wait=False)
        await self.until_said("service serves")
        await self.until_said("the server refuses the secret")
        self.server.secret = "not a secret"
        await self.server.until(lambda: self.server.is_up)

    async def test_a_component_that_is_there_already_is_said(self):
        self.server.error = "conflict"
        await self.start(wait=False)
        await self.until_said("a second adapter runs")

    async def test_a_second_adapter_over_the_same_folder_is_refused(self):
        await self.start()
        words = [str(ADAPTER / "pubsubd-xmpp"), "--config", str(self.root / "conf")]
        second = await asyncio.create_subprocess_exec("python3", *words, stderr=asyncio.subprocess.PIPE)
        _, said = await second.communicate()
        self.assertEqual(second.returncode, 9)
        self.assertIn(b"a second adapter", said)
        self.server.send(request("1"))
        await self.server.reply("1")


class Killed(AdapterCase):
    async def test_what_a_killed_adapter_left_is_given_once(self):
        await self.start()
        self.server.send(request("1", f"notice 1 {SERVICE}"))
        await self.server.message(id="n-1")
        self.server.send(request("2", f"notice 2 {SERVICE}"))
        await self.server.message(id="n-2")
        await self.kill()
        left = next((self.root / "run").glob("run-*"))
        with open(left / "0.out", "ab") as file:
            for number in (2, 3, 4):
                file.write(f'{{"a":{{"from":"{SERVICE}","id":"n-{number}","to":"{ANN}"}},"c":["x"],"n":"message"}}\n'.encode())
            file.write(f'{{"a":{{"from":"{SERVICE}","id":"late","to":"{ANN}/1","type":"result"}},"n":"iq"}}\n'.encode())
            file.write(b'{"a":{"from":"half')
        await self.start()
        await self.server.reply("late")
        self.assertEqual([one.get("id") for one in self.server.got if one.name == "message"], ["n-3", "n-4"])
        self.server.send(request("5", f"notice 4 {SERVICE}") + request("6", f"notice 5 {SERVICE}"))
        await self.server.message(id="n-5")
        self.assertEqual([one.get("id") for one in self.server.got if one.name == "message"], ["n-3", "n-4"])
        await self.until_said("half a line")

    async def test_the_service_of_a_killed_adapter_ends_before_the_next_starts(self):
        await self.start()
        self.server.send(request("1", "held"))
        await self.until_told('"id":"1"')
        await self.kill()
        self.let_go()
        await self.start()
        self.server.send(request("2"))
        await self.server.reply("2")
        self.assertEqual(self.runs(), 2)


def is_alive(pid):
    words = pathlib.Path(f"/proc/{pid}/cmdline")
    return words.exists() and words.read_bytes() != b""


class KilledEarly(AdapterCase):
    def configure(self, *_):
        program = self.root / "sleeper"
        program.write_text("#!/bin/sh\nexec sleep 1000\n")
        program.chmod(0o755)
        super().configure(program=program)

    async def test_a_service_that_still_waits_for_its_pipes_goes_with_its_adapter(self):
        """It would hold the store, and no adapter could start another."""
        await self.start(wait=False)
        children = pathlib.Path(f"/proc/{self.adapter.pid}/task/{self.adapter.pid}/children")
        child = (await self.server.until(lambda: children.read_text().split()))[0]
        await self.server.until(lambda: pathlib.Path(f"/proc/{child}/cmdline").read_bytes() == b"sleep\x001000\0", "the program")
        self.adapter.kill()
        await self.adapter.wait()
        await self.server.until(lambda: not is_alive(child))

    async def test_an_adapter_that_stops_does_not_wait_for_a_store_that_is_still_being_read(self):
        await self.start(wait=False)
        children = pathlib.Path(f"/proc/{self.adapter.pid}/task/{self.adapter.pid}/children")
        child = (await self.server.until(lambda: children.read_text().split()))[0]
        await self.server.until(lambda: self.server.is_up)
        self.assertEqual(await self.stop(), 0)
        self.assertIn("killed by SIGKILL", self.said())
        self.assertFalse(is_alive(child))


class LongStores(AdapterCase):
    """The service opens its streams, reads its store, and then answers."""

    settings = "answer_seconds = 1\nopen_seconds = 600\n"

    async def test_a_store_that_takes_long_to_read_is_no_silence(self):
        (self.root / "state" / "store.long").write_text("4")
        await self.start()
        self.server.send(request("1"))
        self.assertEqual((await self.server.reply("1")).get("type"), "result")
        self.assertNotIn("it doesn't answer", self.said())
        self.assertEqual(self.runs(), 1)

    async def test_nobody_is_told_that_it_serves_before_and_a_stop_does_not_wait(self):
        (self.root / "state" / "store.long").write_text("1000")
        await self.start(words="service started")
        self.server.send(request("1"))
        await self.until_taken()
        self.assertNotIn("service serves", self.said())
        self.assertEqual(await self.stop(), 0)
        self.assertIn("killed by SIGKILL", self.said())
        self.assertNotIn("service killed", self.said())


class EndlessStores(AdapterCase):
    settings = "stop_seconds = 1\nopen_seconds = 1\n"

    async def test_a_service_that_never_comes_to_the_end_of_its_store_is_started_anew(self):
        (self.root / "state" / "store.long").write_text("1000")
        await self.start(words="service started")
        await self.until_said("it doesn't come to the end of its store")
        await self.until_said("service serves")


class Limits(AdapterCase):
    settings = "[limits]\nopen_requests = 5\n"

    async def test_more_requests_than_may_be_open_are_refused_for_now(self):
        await self.start()
        self.server.send(request("0", "held") + "".join(request(str(at)) for at in range(1, 9)))
        refused = [await self.server.reply(str(at)) for at in range(5, 9)]
        self.let_go()
        served = [await self.server.reply(str(at)) for at in range(5)]
        self.assertEqual([condition(one) for one in served + refused], [None] * 5 + [("resource-constraint", "wait")] * 4)
        self.server.send(request("9"))
        self.assertEqual((await self.server.reply("9")).get("type"), "result")

    async def test_who_cannot_be_served_is_told_why(self):
        await self.start()
        self.server.send(request("1", sender=f"{ANN}/t\u00e9l\u00e9phone") + request("2", sender="eve@other.example/1"))
        odd, foreign = await self.server.reply("1"), await self.server.reply("2")
        self.assertEqual(condition(odd), ("not-acceptable", "modify"))
        self.assertIn("resource", odd.find("error", "text").text())
        self.assertEqual(condition(foreign), ("service-unavailable", "cancel"))
        self.server.send(delegated("3", request("i", sender="eve@other.example/1", to=ANN)))
        wrapped = await self.server.reply("3")
        self.assertEqual(condition(wrapped.child("delegation").find("forwarded", "iq")), ("service-unavailable", "cancel"))
        self.assertFalse([line for line in self.told() if '"create"' in line])

    async def test_a_ping_and_capitals(self):
        await self.start()
        self.server.send(f"<iq from='{ANN}/1' to='{SERVICE}' id='p' type='get'><ping xmlns='urn:xmpp:ping'/></iq>" + request("2", sender="Ann@A.example/Res"))
        self.assertEqual((await self.server.reply("p")).get("type"), "result")
        self.assertEqual((await self.server.reply("2")).get("to"), "Ann@A.example/Res")
        self.assertIn('"from":"ann@a.example/Res"', "".join(self.told()))


class LargeRequests(AdapterCase):
    settings = "[limits]\nopen_bytes = 262144\n"

    async def test_more_bytes_than_may_be_open_are_refused_for_now(self):
        await self.start()
        large = "x" * 100000  # as a tree and as a line: twice these bytes
        self.server.send(request("0", "held") + request("1", large) + request("2", large) + request("3"))
        self.assertEqual(condition(await self.server.reply("3")), ("resource-constraint", "wait"))
        self.let_go()
        for name in ("0", "1", "2"):
            self.assertEqual((await self.server.reply(name)).get("type"), "result")
        self.server.send(request("4"))
        self.assertEqual((await self.server.reply("4")).get("type"), "result")


class Hosts(AdapterCase):
    hosts = "a.example, b.example"

    async def test_each_host_has_its_stream_and_a_contact_of_another_is_told_first(self):
        """A request on one stream waits until the row on the other is answered."""
        self.server.on_connect = lambda: (self.server.grant(), self.server.grant(host="b.example"))
        self.server.rosters[ANN] = [contact("dot@b.example", "from")]
        await self.start()
        self.server.send(request("1", "held"))
        self.server.send(delegated("d", request("2", sender="dot@b.example/1", to=ANN), host=HOST))
        await self.until_kept("SELECT contact, sure FROM roster", ("dot@b.example", 0))
        self.assertFalse([line for line in self.told() if '"id":"2"' in line])
        self.let_go()
        await self.server.reply("d")
        lines = (self.root / "state" / "store.told").read_text().splitlines()
        row = next(at for at, line in enumerate(lines) if "jabber:iq:roster" in line)
        asked = next(at for at, line in enumerate(lines) if '"id":"2"' in line)
        self.assertTrue(lines[row].startswith("a.example ") and lines[asked].startswith("b.example ") and row < asked)

    async def test_a_request_waits_over_a_start_until_the_rows_are_answered(self):
        self.server.on_connect = lambda: (self.server.grant(), self.server.grant(host="b.example"))
        self.server.rosters[ANN] = [contact("dot@b.example", "from")]
        await self.start()
        self.server.send(request("1", "held"))
        await self.until_told('"id":"1"')
        self.server.send(delegated("d", request("2", sender="dot@b.example/1", to=ANN), host=HOST))
        await self.until_kept("SELECT contact, sure FROM roster", ("dot@b.example", 0))
        kill_service(self)
        await self.server.reply("d")
        lines = (self.root / "state" / "store.told").read_text().split("start\n")[-1].splitlines()
        row = next(at for at, line in enumerate(lines) if "jabber:iq:roster" in line)
        asked = next(at for at, line in enumerate(lines) if '"id":"2"' in line)
        self.assertLess(row, asked)


class Sixteen(AdapterCase):
    hosts = " ".join(f"h{at}.example" for at in range(16))

    async def test_sixteen_hosts_are_served_by_a_stream_each(self):
        names = self.hosts.split()
        self.server.on_connect = lambda: [self.server.grant(host=name) for name in names]
        await self.start()
        for name in names:
            self.server.send(request(name, sender=f"ann@{name}/1"))
        for name in names:
            self.assertEqual((await self.server.reply(name)).get("to"), f"ann@{name}/1")
        lines = (self.root / "state" / "store.told").read_text().splitlines()
        self.assertEqual({line.split()[0] for line in lines if '"create"' in line}, set(names))


class FullDisk(AdapterCase):
    async def asyncSetUp(self):
        await super().asyncSetUp()
        self.disk = self.root / "state"
        words = ["mount", "-t", "tmpfs", "-o", "size=512k", "tmpfs", str(self.disk)]
        if os.geteuid() != 0 or subprocess.run(words, capture_output=True, check=False).returncode != 0:
            self.skipTest("no small disk can be mounted here")

    async def asyncTearDown(self):
        if self.adapter is not None and self.adapter.returncode is None:
            self.adapter.kill()
            await self.adapter.wait()
        if os.path.ismount(self.disk):
            subprocess.run(["umount", "-l", str(self.disk)], check=True)
        await super().asyncTearDown()

    async def test_what_cannot_be_kept_is_not_told_and_the_request_is_refused_for_now(self):
        await self.start()
        self.server.rosters[ANN] = [contact(BOB, "from")]
        with open(self.disk / "full", "wb") as file, self.assertRaises(OSError):
            while True:
                os.write(file.fileno(), b"x" * 512)
        self.server.send(delegated("d1", request("1", sender=f"{BOB}/1", to=ANN)))
        reply = await self.server.reply("d1")
        self.assertEqual(condition(reply.child("delegation").find("forwarded", "iq")), ("remote-server-timeout", "wait"))
        self.assertIn("the state can't be written", self.said())
        self.assertFalse([line for line in self.told() if "jabber:iq:roster" in line])
        with self.assertRaises(OSError):  # not a signal that ends the adapter
            Spool(self.disk / "0.out").give(1)
        self.server.send(request("n", f"notice 1 {SERVICE}"))  # its number can't be written
        await self.server.message(id="n-1")
        kill_service(self)
        await self.until_said("service started", 2)
        (self.disk / "full").unlink()
        self.server.send(delegated("d2", request("2", sender=f"{BOB}/1", to=ANN)))
        reply = await self.server.reply("d2")
        self.assertEqual(reply.child("delegation").find("forwarded", "iq").get("type"), "result")


class Compacting(AdapterCase):
    settings = "[compaction]\nbytes = 1000\nratio = 2\n"

    async def test_a_store_is_compacted_when_told_and_no_request_is_lost(self):
        await self.start()
        self.server.send(request("1", "held"))
        await self.until_told('"id":"1"')
        self.adapter.send_signal(signal.SIGUSR2)
        await self.until_said("service is started anew why=compaction")
        self.server.send("".join(request(str(at)) for at in range(2, 30)))
        await self.until_taken()
        self.let_go()
        for at in range(1, 30):
            self.assertEqual((await self.server.reply(str(at))).get("type"), "result")
        self.assertIn("compacted bytes_before=108 bytes_now=18", self.said())
        self.assertEqual((self.runs(), self.store.read_bytes()), (2, b"PUBSUBJ1 compacted"))
        self.assertEqual(sorted(one.name for one in self.store.parent.glob("store*")), ["store", "store.told"])

    async def test_a_store_that_grew_many_times_is_compacted_at_a_start(self):
        self.store.write_bytes(b"PUBSUBJ1" + b"x" * 2000)
        await self.start()
        self.assertIn("compacted bytes_before=2008", self.said())
        await self.stop()
        self.store.write_bytes(b"PUBSUBJ1" + b"x" * 1010)
        await self.start()
        self.assertEqual(self.said().count("compacted bytes_before"), 1)  # less than 1000 and twice the 18 of before
        await self.stop()
        self.store.write_bytes(b"PUBSUBJ1" + b"x" * 1040)
        await self.start()
        self.assertEqual(self.said().count("compacted bytes_before"), 2)

    async def test_where_it_fails_the_store_stands(self):
        (self.root / "state" / "store.fail").write_text("")
        await self.start()
        before = self.store.read_bytes()
        self.adapter.send_signal(signal.SIGUSR2)
        await self.until_said("not compacted why=\"status 7: had not enough memory\"")
        await self.until_said("service started", 2)
        self.assertEqual(self.store.read_bytes(), before)
        self.server.send(request("1"))
        await self.server.reply("1")

    async def test_where_it_failed_it_is_not_tried_at_each_start(self):
        (self.root / "state" / "store.fail").write_text("")
        self.store.write_bytes(b"PUBSUBJ1" + b"x" * 2000)
        await self.start()
        kill_service(self)
        await self.until_said("service started", 2)
        self.assertEqual(self.said().count("not compacted"), 1)

    async def test_told_while_no_service_runs_it_is_done_before_the_next(self):
        await self.start()
        (self.root / "state" / "store.exit").write_text("7")
        self.server.send(request("1", "exit 7"))
        await self.until_said("service ended", 2)
        self.adapter.send_signal(signal.SIGUSR2)
        await self.until_said("compacted bytes_before")
        await self.until_said("service started", 2)

    async def test_a_disk_that_refuses_the_new_store_is_said_and_the_old_one_serves(self):
        await self.start()
        (self.root / "state" / "store.before").mkdir()  # a place that can't be had
        self.adapter.send_signal(signal.SIGUSR2)
        await self.until_said("not compacted why=")
        (self.root / "state" / "store.before").rmdir()
        await self.until_said("service started", 2)
        self.server.send(request("1"))
        await self.server.reply("1")
        self.assertFalse((self.root / "state" / "store.new").exists())

    async def test_an_adapter_that_stops_does_not_wait_for_it(self):
        (self.root / "state" / "store.slow").write_text("")
        await self.start()
        before = self.store.read_bytes()
        self.adapter.send_signal(signal.SIGUSR2)
        await self.until_said("service ended")
        await self.server.until(lambda: (self.root / "state" / "store.new").exists())
        self.assertEqual(await self.stop(), 0)
        self.assertEqual((self.store.read_bytes(), (self.root / "state" / "store.new").exists(), self.runs()), (before, False, 1))

    async def test_a_new_store_that_is_found_damaged_is_put_back(self):
        await self.start()
        before = self.store.read_bytes()
        (self.root / "state" / "store.exit").write_text("5")
        self.adapter.send_signal(signal.SIGUSR2)
        await self.until_said("put back")
        await self.until_said("service started", 2)
        self.assertEqual(self.store.read_bytes(), before)


KEPT = "SELECT resource FROM presence ORDER BY resource"


class Kept(AdapterCase):
    of_server = "keep_presences = yes\npresence_seconds = 600\n"

    async def test_who_was_there_is_asked_where_the_server_does_not_tell(self):
        await self.start()
        self.server.send(presence(f"{ANN}/1", CAPS) + presence(f"{BOB}/1"))
        await self.until_kept(KEPT, (f"{ANN}/1",), (f"{BOB}/1",))
        await self.kill()
        await self.start()
        await self.until_told("bob@a.example/1")
        self.assertIn('"ver":"AAAA"', "".join(self.told()))
        await self.until_taken()
        asked = [one.get("to") for one in self.server.got if one.get("id").startswith("there-")]
        self.assertEqual(asked, [f"{ANN}/1", f"{BOB}/1"])
        self.server.send(f"<iq from='{ANN}/1' to='{SERVICE}' id='there-1' type='result'><query xmlns='http://jabber.org/protocol/disco#info'/></iq>")
        self.server.send(f"<iq from='{BOB}/1' to='{SERVICE}' id='there-1' type='error'><error type='cancel'/></iq>")
        gone = await self.until_told("unavailable")
        self.assertIn("bob@a.example/1", gone)
        self.server.send(request("1"))
        await self.server.reply("1")
        self.assertEqual(sum("unavailable" in line for line in self.told()), 1)
        await self.until_kept(KEPT, (f"{ANN}/1",))


class KeptSilent(AdapterCase):
    of_server = "keep_presences = yes\npresence_seconds = 1\n"

    async def test_who_was_there_and_does_not_answer_is_gone(self):
        await self.start()
        self.server.send(presence(f"{ANN}/1") + presence(f"{BOB}/1"))
        await self.until_kept(KEPT, (f"{ANN}/1",), (f"{BOB}/1",))
        await self.kill()
        await self.start()
        await self.until_kept(KEPT)
        self.server.send(request("1"))
        await self.server.reply("1")
        # Where the service began later than that, it is told of neither.
        last = {line.split('"from":"')[1].split('"')[0]: "unavailable" in line for line in self.told() if '"n":"presence"' in line}
        self.assertTrue(all(last.values()), last)


class Signals(AdapterCase):
    async def test_a_status_line(self):
        await self.start()
        self.server.send(request("1") + presence(f"{ANN}/1"))
        await self.server.reply("1")
        self.adapter.send_signal(signal.SIGUSR1)
        await self.until_said("status server=connected service=serving")
        line = next(one for one in self.said().splitlines() if " status " in one)
        for words in ("runs=1", "open=0", "present=1", "store=108", "results=1", "iq_in="):
            self.assertIn(words, line)

    async def test_systemd_is_told(self):
        with socket.socket(socket.AF_UNIX, socket.SOCK_DGRAM) as end:
            end.bind(str(self.root / "notify"))
            end.setblocking(False)
            os.environ["NOTIFY_SOCKET"] = str(self.root / "notify")
            try:
                await self.start()
                await self.stop()
            finally:
                del os.environ["NOTIFY_SOCKET"]
            told = []
            while True:
                try:
                    told.append(end.recv(4096).decode())
                except BlockingIOError:
                    break
        self.assertEqual([one.split("\n")[0] for one in told if one.startswith("READY")], ["READY=1"])
        self.assertEqual(told[-1], "STOPPING=1")

    async def test_a_configuration_is_judged(self):
        words = ["python3", str(ADAPTER / "pubsubd-xmpp"), "--check", "--config", str(self.root / "conf")]
        good = await asyncio.create_subprocess_exec(*words, stderr=asyncio.subprocess.PIPE)
        _, said = await good.communicate()
        self.assertEqual((good.returncode, b"configuration is good" in said), (0, True))
        (self.root / "secret").unlink()
        bad = await asyncio.create_subprocess_exec(*words, stderr=asyncio.subprocess.PIPE)
        _, said = await bad.communicate()
        self.assertEqual((bad.returncode, b"the secret can't be read" in said), (2, True))

    async def test_a_store_that_can_not_be_opened_is_for_the_service_to_say(self):
        self.store.mkdir()
        await self.start(wait=False)
        self.assertEqual(await self.ended(), 9)
        self.assertIn("not started again status=9 meaning=\"couldn't open a file", self.said())

    async def test_what_the_machine_refuses_is_said(self):
        (self.root / "state" / "adapter.sqlite").mkdir()
        await self.start(wait=False)
        self.assertEqual(await self.ended(), 9)
        self.assertIn("the state can't be opened", self.said())
        self.assertNotIn("Traceback", self.said())

    async def test_a_program_that_is_not_there_is_said(self):
        self.configure(program=self.root / "none")
        await self.start(wait=False)
        self.assertEqual(await self.ended(), 2)
        self.assertIn("isn't there or can't be run", self.said())


if __name__ == "__main__":
    unittest.main()
