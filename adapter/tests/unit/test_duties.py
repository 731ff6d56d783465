"""The duties of a router, each by a server and a service that are stand-ins, and an adapter that is a process of its own."""

import asyncio
import unittest

from .fakes import HOST, SERVICE, AdapterCase, condition, contact, delegated, kill_service, request

ANN, BOB = f"ann@{HOST}", f"bob@{HOST}"
CAPS = "<c xmlns='http://jabber.org/protocol/caps' hash='sha-1' node='http://c.example' ver='AAAA'/>"


def presence(sender, kids="", kind=""):
    return f"<presence from='{sender}' to='{SERVICE}'{kind and f' type={kind!r}'}>{kids}</presence>"


class Start(AdapterCase):
    """What is done at each start of the service."""

    async def test_a_service_that_ends_before_its_pipes_are_open_is_no_endless_wait(self):
        (self.root / "state" / "store.early").write_text("9")
        await self.start(wait=False)
        self.assertEqual(await self.ended(), 9)
        self.assertIn("not started again status=9", self.said())
        self.assertNotIn("service started", self.said())

    async def test_lines_are_counted_from_one_in_each_run(self):
        await self.start()
        for name in ("1", "2"):
            self.server.send(request(name))
            await self.server.reply(name)
        kill_service(self)
        await self.until_said("service started", 2)
        self.server.send(request("3", "silent") + request("4", "silent") + request("5", "refuse too-deep"))
        await self.until_said("refused host")
        self.assertEqual(len(self.told()), 4)  # the question for features, and these three
        self.assertIn("line=4", self.said())

    async def test_a_refused_line_answers_its_own_request(self):
        await self.start()
        self.server.send(request("1") + request("2", "refuse too-deep") + request("3"))
        self.assertEqual((await self.server.reply("1")).get("type"), "result")
        refused = await self.server.reply("2")
        self.assertEqual(condition(refused), ("not-acceptable", "modify"))
        self.assertIn("32 levels", refused.find("error", "text").text())
        self.assertEqual((await self.server.reply("3")).get("type"), "result")

    async def test_presences_with_their_capabilities_come_before_requests(self):
        await self.start()
        self.server.send(presence(f"{ANN}/1", CAPS + "<status>secret words</status>") + presence(f"{BOB}/2"))
        await self.until_told("bob@a.example/2")
        kill_service(self)
        await self.until_said("service ended")
        self.server.send(request("1"))
        await self.server.reply("1")
        lines = self.told()
        there = [at for at, line in enumerate(lines) if '"n":"presence"' in line]
        asked = next(at for at, line in enumerate(lines) if '"id":"1"' in line)
        self.assertEqual(len(there), 2)
        self.assertLess(max(there), asked)
        self.assertIn('"ver":"AAAA"', lines[there[0]])
        self.assertNotIn("secret words", "".join(lines))

    async def test_a_contact_that_went_while_the_adapter_was_away_is_taken_out(self):
        self.server.rosters[ANN] = [contact(BOB, "from"), contact(f"cid@{HOST}", "both", "Friends")]
        await self.start()
        self.server.send(presence(f"{ANN}/1"))
        await self.until_told(f'"from":"{ANN}/1"')
        rows = [line for line in self.told() if "jabber:iq:roster" in line]
        self.assertEqual(len(rows), 2)
        self.assertIn('"c":["Friends"],"n":"group"', "".join(rows))
        self.server.send(request("1"))
        await self.server.reply("1")
        await self.stop()
        self.server.rosters[ANN] = [contact(f"cid@{HOST}", "both", "Friends")]
        await self.start()
        self.server.send(presence(f"{ANN}/1"))
        await self.until_told(f'"from":"{ANN}/1"')
        rows = [line for line in self.told() if "jabber:iq:roster" in line]
        self.assertEqual(len(rows), 1)
        self.assertIn('"jid":"bob@a.example","subscription":"remove"', rows[0])

    async def test_rows_that_were_not_answered_are_told_again_first(self):
        self.server.rosters[ANN] = [contact(BOB, "from")]
        await self.start()
        self.server.send(request("1", "held") + presence(f"{ANN}/1"))
        await self.until_told('"id":"1"')
        await self.until_kept("SELECT contact, sure FROM roster", (BOB, 0))
        kill_service(self)
        self.assertEqual(condition(await self.server.reply("1")), ("internal-server-error", "wait"))
        await self.until_said("service started", 2)
        await self.until_told(f'"from":"{ANN}/1"')
        lines = self.told()
        row = next(at for at, line in enumerate(lines) if "jabber:iq:roster" in line)
        there = next(at for at, line in enumerate(lines) if '"n":"presence"' in line)
        self.assertLess(row, there)


class Serving(AdapterCase):
    """What is done while it runs."""

    async def test_replies_go_to_whom_they_belong_though_ids_are_the_same(self):
        await self.start()
        self.server.send(request("1", sender=f"{ANN}/1") + request("1", sender=f"{BOB}/1"))
        await self.server.until(lambda: len([one for one in self.server.got if one.get("id") == "1"]) == 2)
        self.assertEqual([one.get("to") for one in self.server.got if one.get("id") == "1"], [f"{ANN}/1", f"{BOB}/1"])

    async def test_a_message_that_is_denied_gets_an_error_of_its_own_name(self):
        await self.start()
        self.server.send(f"<message from='{ANN}/1' to='{SERVICE}'><x xmlns='jabber:x:data' type='submit'/></message>")
        back = await self.server.message(type="error")
        self.assertEqual((back.get("to"), condition(back)), (f"{ANN}/1", ("forbidden", "auth")))
        self.assertIn("affiliation", back.find("error", "text").text())

    async def test_more_requests_than_replies_may_wait_are_all_answered(self):
        await self.start()
        self.server.send("".join(request(str(at)) for at in range(500)))
        await self.server.until(lambda: len([one for one in self.server.got if one.get("type") == "result"]) == 500)
        self.assertEqual([one.get("id") for one in self.server.got if one.get("type") == "result"], [str(at) for at in range(500)])

    async def test_a_notice_that_comes_again_is_dropped_by_its_number(self):
        await self.start()
        for name, number in (("1", 1), ("2", 2), ("3", 2), ("4", 1), ("5", 3)):
            self.server.send(request(name, f"notice {number} {SERVICE}"))
            await self.server.reply(name)
        self.assertEqual([one.get("id") for one in self.server.got if one.name == "message"], ["n-1", "n-2", "n-3"])

    async def test_the_numbers_outlive_the_adapter(self):
        await self.start()
        self.server.send(request("1", f"notice 7 {SERVICE}"))
        await self.server.message(id="n-7")
        await self.kill()
        await self.start()
        self.server.send(request("2", f"notice 7 {SERVICE}") + request("3", f"notice 8 {SERVICE}"))
        await self.server.reply("3")
        self.assertEqual([one.get("id") for one in self.server.got if one.name == "message"], ["n-8"])

    async def test_a_question_for_capabilities_goes_to_the_resource_and_its_answer_back(self):
        await self.start()
        self.server.send(request("1", "question 4"))
        await self.server.reply("1")
        asked = await self.server.until(lambda: next((one for one in self.server.got if one.get("id") == "n-4"), None))
        self.assertEqual((asked.get("from"), asked.get("to"), asked.get("type")), (SERVICE, f"{ANN}/1", "get"))
        query = "<query xmlns='http://jabber.org/protocol/disco#info' node='c#v'><feature var='x+notify'/></query>"
        self.server.send(f"<iq from='{ANN}/1' to='{SERVICE}' id='n-4' type='result'>{query}</iq>")
        line = await self.until_told("x+notify")
        self.assertIn('"id":"n-4"', line)
        self.assertIn('"type":"result"', line)

    async def test_who_goes_is_told_of_behind_his_presence(self):
        await self.start()
        self.server.send(presence(f"{ANN}/1") + presence(f"{ANN}/1", kind="unavailable"))
        await self.until_told("unavailable")
        self.server.send(presence(f"{BOB}/1", kind="unavailable") + request("1"))  # who wasn't there doesn't go
        await self.server.reply("1")
        lines = [line for line in self.told() if '"n":"presence"' in line]
        self.assertEqual(["unavailable" in line for line in lines][-1], True)
        self.assertNotIn(BOB, "".join(lines))

    async def test_who_is_not_told_again_when_the_server_comes_back_is_gone(self):
        await self.start()
        self.server.send(presence(f"{ANN}/1") + presence(f"{BOB}/1"))
        await self.until_told("bob@a.example/1")
        self.server.on_connect = lambda: (self.server.grant(), self.server.send(presence(f"{ANN}/1")))
        self.server.drop()
        line = await self.until_told("unavailable")
        self.assertIn("bob@a.example/1", line)
        self.assertEqual(sum("unavailable" in line for line in self.told()), 1)


class End(AdapterCase):
    """What is done when the service ends."""

    settings = "[limits]\nin_flight = 4\n"

    async def test_what_was_answered_is_read_and_half_a_line_is_none(self):
        await self.start()
        self.server.send(request("1", "held") + request("2") + request("3", "die") + request("4"))
        await self.until_taken()
        self.let_go()
        self.assertEqual((await self.server.reply("1")).get("type"), "result")
        self.assertEqual((await self.server.reply("2")).get("type"), "result")
        self.assertEqual(condition(await self.server.reply("3")), ("internal-server-error", "wait"))
        await self.until_said("half a line")

    async def test_an_open_request_is_answered_and_an_unwritten_one_goes_to_the_next_run(self):
        await self.start()
        self.server.send("".join(request(name, deed) for name, deed in (("1", "silent"), ("2", "silent"), ("3", "silent"), ("4", "die"), ("5", "x"), ("6", "x"))))
        for name in ("1", "2", "3", "4"):
            reply = await self.server.reply(name)
            self.assertEqual(condition(reply), ("internal-server-error", "wait"))
            self.assertIn("try again", reply.find("error", "text").text())
        for name in ("5", "6"):
            self.assertEqual((await self.server.reply(name)).get("type"), "result")
        self.assertEqual(self.runs(), 2)

    async def test_nothing_unread_comes_to_the_next_run(self):
        await self.start()
        self.server.send(request("1", "held") + request("2", "old") + request("3", "old"))
        await self.until_told('"id":"1"')
        await self.until_taken()
        kill_service(self)
        for name in ("1", "2", "3"):
            self.assertEqual(condition(await self.server.reply(name)), ("internal-server-error", "wait"))
        await self.until_said("service started", 2)
        self.server.send(request("4"))
        await self.server.reply("4")
        self.assertNotIn('"node":"old"', "".join(self.told()))

    async def test_after_these_it_is_started_again(self):
        await self.start()
        for count, status in enumerate(("3", "4", "7", "8", "0"), 1):
            self.server.send(request(status, f"exit {status}"))
            self.assertEqual(condition(await self.server.reply(status)), ("internal-server-error", "wait"))
            await self.until_said("service started", count + 1)
            self.assertIn(f"service ended status={status}", self.said())
        self.assertIn("says=\"store fault\"", self.said())

    async def test_after_these_a_person_has_to_look(self):
        for status in ("2", "5", "6", "9", "10"):
            await self.start()
            self.server.send(request(status, f"exit {status}"))
            self.assertEqual(await self.ended(), int(status))
            self.assertIn(f"not started again status={status}", self.said())
            self.assertEqual(condition(await self.server.reply(status)), ("internal-server-error", "wait"))
            await self.server.until(lambda: not self.server.is_up)

    async def test_a_stream_that_ended_alone_is_served_again(self):
        await self.start()
        self.server.send(request("1", "close"))
        self.assertEqual(condition(await self.server.reply("1")), ("internal-server-error", "wait"))
        self.assertIn("a stream of the service ended alone", self.said())
        await self.until_said("service started", 2)
        self.server.send(request("2"))
        self.assertEqual((await self.server.reply("2")).get("type"), "result")

    async def test_a_service_that_says_what_failed_is_ended_and_tells_its_status(self):
        """It would go on with its other streams, and answer nothing on this one."""
        await self.start()
        self.server.send(request("1", "fault"))
        self.assertEqual(condition(await self.server.reply("1")), ("internal-server-error", "wait"))
        self.assertIn("service ended status=4", self.said())
        self.assertNotIn("it doesn't answer", self.said())
        await self.until_said("service started", 2)
        self.server.send(request("2"))
        self.assertEqual((await self.server.reply("2")).get("type"), "result")

    async def test_the_adapter_stops_in_good_order(self):
        await self.start()
        self.server.send(request("1", "held"))
        await self.until_told('"id":"1"')
        stopping = asyncio.create_task(self.stop())
        await self.until_said("stopping")
        self.let_go()
        self.assertEqual(await stopping, 0)
        self.assertEqual((await self.server.reply("1")).get("type"), "result")
        self.assertTrue(self.server.ended)
        self.assertIn("service ended status=0", self.said())
        self.assertEqual(list((self.root / "run").glob("run-*")), [])

    async def events(self, *told):
        """Which of these events of an account's node came: number and item each, with a stamp if it is a last item, to the sender's resource."""
        for one in told:
            self.server.send(request(f"e{one.split()[0]}", f"event {one.replace(' ', f' {BOB} ', 1)}"))
            await self.server.reply(f"e{one.split()[0]}")
        got = [one.get("id") for one in self.server.got if one.name == "message"]
        self.server.got.clear()
        return got

    async def test_a_last_item_that_comes_once_more_at_a_start_is_dropped(self):
        await self.start()
        self.server.send(presence(f"{ANN}/1"))
        self.assertEqual(await self.events("1 a", "2 b", "3 b"), ["n-1", "n-2", "n-3"])
        kill_service(self)
        await self.until_said("service started", 2)
        self.assertEqual(await self.events("4 b 2026-12-01T06:54:56Z", "5 b", "6 a"), ["n-5", "n-6"])

    async def test_who_came_again_and_what_changed_is_told(self):
        await self.start()
        self.server.send(presence(f"{ANN}/1"))
        self.assertEqual(await self.events("1 a"), ["n-1"])
        kill_service(self)
        await self.until_said("service started", 2)
        self.assertEqual(await self.events("2 b 2026-12-01T06:54:56Z", "3 b 2026-12-01T06:54:56Z"), ["n-2"])
        self.server.send(presence(f"{ANN}/1", kind="unavailable") + presence(f"{ANN}/1"))
        self.assertEqual(await self.events("4 b 2026-12-01T06:54:56Z"), ["n-4"])


class Silent(AdapterCase):
    settings = "answer_seconds = 1\n"

    async def test_a_service_that_does_not_answer_is_started_anew(self):
        await self.start()
        self.server.send(request("1", "silent"))
        self.assertEqual(condition(await self.server.reply("1")), ("internal-server-error", "wait"))
        self.assertIn("it doesn't answer", self.said())


class Personal(AdapterCase):
    """Delegation and privilege, in both versions."""

    async def test_a_delegated_request_and_its_reply_go_in_the_envelope(self):
        for version in (1, 2):
            self.server.on_connect = lambda version=version: self.server.grant(version, version)
            await self.start()
            inner = request("i1", sender=f"{ANN}/1", to=ANN).replace(f" to='{ANN}'", "")
            self.server.send(delegated(f"d{version}", inner, version))
            reply = await self.server.reply(f"d{version}")
            self.assertEqual((reply.get("from"), reply.get("to"), reply.get("type")), (SERVICE, HOST, "result"))
            wrapped = reply.child("delegation", f"urn:xmpp:delegation:{version}").find("forwarded", "iq")
            self.assertEqual(wrapped.ns, "jabber:client")
            self.assertEqual((wrapped.get("from"), wrapped.get("to"), wrapped.get("id"), wrapped.get("type")), (ANN, f"{ANN}/1", "i1", "result"))
            await self.stop()

    async def test_an_event_of_an_account_goes_by_the_privilege(self):
        for version in (1, 2):
            self.server.on_connect = lambda version=version: self.server.grant(version, version)
            await self.start()
            self.server.send(request("1", f"notice {version} {BOB}"))
            outer = await self.server.message(id=f"n-{version}")
            self.assertEqual((outer.get("from"), outer.get("to")), (SERVICE, HOST))
            inner = outer.child("privilege", f"urn:xmpp:privilege:{version}").find("forwarded", "message")
            self.assertEqual((inner.ns, inner.get("from"), inner.get("to"), inner.get("type")), ("jabber:client", BOB, ANN, "headline"))
            await self.stop()

    async def test_without_the_right_no_event_of_an_account_is_sent(self):
        self.server.on_connect = lambda: self.server.grant(rights=("roster:get",))
        await self.start()
        await self.until_said("not granted")
        self.server.send(request("1", f"notice 1 {BOB}") + request("2", f"notice 2 {SERVICE}"))
        await self.server.message(id="n-2")
        self.assertFalse([one for one in self.server.got if one.get("id") == "n-1"])
        self.assertIn("no message right", self.said())

    async def test_contacts_are_asked_before_each_request_and_told_as_they_changed(self):
        self.server.rosters[ANN] = [contact(BOB, "both"), contact("eve@other.example", "both"), contact(f"cid@{HOST}", "none")]
        await self.start()
        self.server.send(delegated("d1", request("1", sender=f"{BOB}/1", to=ANN)))
        await self.server.reply("d1")
        self.server.rosters[ANN] = []
        self.server.send(delegated("d2", request("2", sender=f"{BOB}/1", to=ANN)))
        await self.server.reply("d2")
        lines = [line for line in self.told() if "jabber:iq:roster" in line or f'"from":"{BOB}/1"' in line]
        self.assertEqual(["both" in lines[0], '"id":"1"' in lines[1], "remove" in lines[2], '"id":"2"' in lines[3]], [True] * 4)
        self.assertEqual(len(lines), 4)

    async def test_who_comes_is_told_of_behind_the_contacts_of_those_who_may_show_him_items(self):
        """Ann took bob out and let cid in, and said nothing since. Bob would be given her last items, and cid would not."""
        cid = f"cid@{HOST}"
        self.server.rosters = {ANN: [contact(BOB, "from")], BOB: [contact(ANN, "to")]}
        await self.start()
        self.server.send(presence(f"{ANN}/1"))
        await self.until_kept("SELECT contact, sure FROM roster", (BOB, 1))
        await self.stop()
        self.server.rosters = {ANN: [contact(cid, "from")], cid: [contact(ANN, "to")]}
        await self.start()
        self.server.send(presence(f"{BOB}/1"))
        await self.until_told(f'"from":"{BOB}/1"')
        asked = self.server.roster_questions
        self.server.send(presence(f"{cid}/1"))
        await self.until_told(f'"from":"{cid}/1"')
        self.assertEqual(self.server.roster_questions, asked + 1)  # of ann it was told that she lets cid see her
        lines = [line for line in self.told() if "jabber:iq:roster" in line or '"n":"presence"' in line]
        self.assertEqual(sorted("remove" in line for line in lines[:2]), [False, True])
        self.assertEqual([f'"from":"{BOB}/1"' in lines[2], f'"from":"{cid}/1"' in lines[3]], [True, True])

    async def test_requests_that_come_meanwhile_share_the_question(self):
        self.server.answers_rosters = False
        await self.start()
        self.server.send("".join(delegated(f"d{at}", request(str(at), sender=f"{BOB}/1", to=ANN)) for at in range(20)))
        await self.until_taken()
        self.assertEqual(self.server.roster_questions, 1)

    async def test_a_server_asks_for_the_features_of_accounts_and_is_told_those_of_the_service(self):
        await self.start()
        for name, node in (("q1", "urn:xmpp:delegation:2:bare:http://jabber.org/protocol/pubsub"), ("q2", "urn:xmpp:delegation:2::http://jabber.org/protocol/pubsub")):
            query = f"<query xmlns='http://jabber.org/protocol/disco#info' node='{node}'/>"
            self.server.send(f"<iq from='{HOST}' to='{SERVICE}' id='{name}' type='get'>{query}</iq>")
        bare, main = await self.server.reply("q1"), await self.server.reply("q2")
        self.assertEqual([one.get("var") for one in bare.child("query").elements()], ["http://jabber.org/protocol/pubsub#fake"])
        self.assertEqual(list(main.child("query").elements()), [])


class LateRosters(AdapterCase):
    of_server = "roster_seconds = 600\n"

    async def test_unavailable_is_told_behind_its_presence(self):
        self.server.answers_rosters = False
        await self.start()
        self.server.send(presence(f"{ANN}/1") + presence(f"{BOB}/1") + presence(f"{BOB}/1", kind="unavailable"))
        await self.until_taken()
        self.assertEqual(self.server.roster_questions, 2)
        self.server.answers_rosters = True
        self.server.send(presence(f"cid@{HOST}/1"))
        await self.until_told("cid@a.example/1")
        self.assertNotIn("bob@a.example/1", "".join(self.told()))


class SilentRosters(AdapterCase):
    of_server = "roster_seconds = 1\n"

    async def test_a_request_is_not_judged_by_contacts_that_could_not_be_had(self):
        self.server.answers_rosters = False
        await self.start()
        self.server.send(delegated("d1", request("1", sender=f"{BOB}/1", to=ANN)))
        reply = await self.server.reply("d1")
        inner = reply.child("delegation").find("forwarded", "iq")
        self.assertEqual(condition(inner), ("remote-server-timeout", "wait"))
        self.assertNotIn('"id":"1"', "".join(self.told()))


if __name__ == "__main__":
    unittest.main()
