"""What slixmpp's plugins do, through a server, the adapter and the service.

Usage: slix.py SERVER PROGRAM
"""

from __future__ import annotations

import asyncio
import logging
import sys

import slixmpp
from plant import Plant
from raw import register
from servers import HOSTS, PASSWORD, SERVICE
from slixmpp.exceptions import IqError
from slixmpp.xmlstream import ET
from slixmpp.xmlstream.handler import Callback
from slixmpp.xmlstream.matcher import MatchXPath

A, B = HOSTS
PUBSUB = "http://jabber.org/protocol/pubsub"
EVENT = "{http://jabber.org/protocol/pubsub#event}"
DATA = "{jabber:x:data}"
PLUGINS = "xep_0004 xep_0030 xep_0060 xep_0084 xep_0107 xep_0115 xep_0163 xep_0172 xep_0199".split()
# How long is waited for what has to come.
SECONDS = 120


class Wrong(AssertionError):
    """Something else came than is wanted."""


def want(true, what):
    if not true:
        raise Wrong(what)


class Person(slixmpp.ClientXMPP):
    """A client that keeps all that comes."""

    def __init__(self, address, *interests):
        super().__init__(address, PASSWORD)
        self.messages = []
        self.there = asyncio.get_running_loop().create_future()
        for name in PLUGINS:
            self.register_plugin(name)
        for one in interests:
            self["xep_0163"].add_interest(one)
        self.register_handler(Callback("all", MatchXPath("{jabber:client}message"), lambda one: self.messages.append(one.xml)))
        self.add_event_handler("session_start", self._start)

    async def _start(self, _):
        await self.get_roster()
        self.send_presence()
        self.there.set_result(True)

    async def come(self, port):
        self.connect(("127.0.0.1", port), force_starttls=False, disable_starttls=True)
        await asyncio.wait_for(asyncio.shield(self.there), SECONDS)
        return self

    async def go(self):
        done = self.disconnect(wait=1)
        if done is not None:
            await done

    async def hears(self, fits, what):
        """Waits for a message, and takes it."""
        until = asyncio.get_running_loop().time() + SECONDS
        while asyncio.get_running_loop().time() < until:
            for one in self.messages:
                if fits(one):
                    self.messages.remove(one)
                    return one
            await asyncio.sleep(0.05)
        raise Wrong(f"{self.boundjid} didn't hear {what}: {[ET.tostring(one).decode() for one in self.messages]}")

    async def hears_item(self, node, item, of=None):
        def fits(one):
            items = one.find(f"{EVENT}event/{EVENT}items")
            found = items is not None and items.get("node") == node and [kid.get("id") for kid in items.findall(f"{EVENT}item")] == [item]
            return found and of in (None, one.get("from"))

        return await self.hears(fits, f"item {item} of {node}")

    def heard(self, node):
        return [one for one in self.messages if one.find(f"{EVENT}event/{EVENT}items[@node='{node}']") is not None]

    @property
    def pubsub(self):
        return self["xep_0060"]

    def form(self, kind, **fields):
        form = self["xep_0004"].make_form("submit")
        form.add_field("FORM_TYPE", "hidden", value=f"{PUBSUB}#{kind}")
        for name, value in fields.items():
            form.add_field(f"pubsub#{name}", value=value)
        return form


def payload(text="words"):
    made = ET.Element("{urn:t}entry")
    made.text = text
    return made


async def denied(answer, condition, words=""):
    """The request is denied by that condition, with a text for people."""
    try:
        await answer
    except IqError as why:
        want(why.condition == condition, f"denied by {why.condition}, wanted {condition}")
        want(why.text and words in why.text, f"the text is {why.text!r}")
        return
    raise Wrong(f"not denied by {condition}")


# Each check is one function; `world` has the people.


class World:
    def __init__(self, plant):
        self.plant, self.port = plant, plant.server.client_port
        self.server = plant.server.name
        self.people = []

    async def person(self, address, *interests):
        one = await Person(address, *interests).come(self.port)
        self.people.append(one)
        return one


async def a_public_node(world):
    ann, bob = world.ann, world.bob
    await ann.pubsub.create_node(SERVICE, "news", config=ann.form("node_config", title="News", notify_retract="1", max_items="3"))
    await denied(ann.pubsub.create_node(SERVICE, "news"), "conflict", "another name")
    made = await bob.pubsub.subscribe(SERVICE, "news")
    want(made["pubsub"]["subscription"]["subscription"] == "subscribed", str(made))
    await ann.pubsub.publish(SERVICE, "news", id="one", payload=payload())
    heard = await bob.hears_item("news", "one", SERVICE)
    want(heard.find(f".//{{urn:t}}entry").text == "words", "the payload isn't the one that was published")
    for name in ("two", "three", "four"):
        await ann.pubsub.publish(SERVICE, "news", id=name, payload=payload())
    found = await bob.pubsub.get_items(SERVICE, "news")
    want([one["id"] for one in found["pubsub"]["items"]] == ["two", "three", "four"], str(found))
    await ann.pubsub.retract(SERVICE, "news", "two", notify=True)
    await bob.hears(lambda one: one.find(f"{EVENT}event/{EVENT}items/{EVENT}retract[@id='two']") is not None, "the retraction")
    await denied(ann.pubsub.retract(SERVICE, "news", "two"), "item-not-found")
    await ann.pubsub.purge(SERVICE, "news")
    await bob.hears(lambda one: one.find(f"{EVENT}event/{EVENT}purge") is not None, "the purge")
    await denied(bob.pubsub.publish(SERVICE, "news", id="mine", payload=payload()), "forbidden", "affiliation")
    await bob.pubsub.unsubscribe(SERVICE, "news")


async def a_configuration_by_form(world):
    ann = world.ann
    got = await ann.pubsub.get_node_config(SERVICE, "news")
    form = got["pubsub_owner"]["configure"]["form"]
    fields = form.get_fields()
    want(form["type"] == "form" and form["title"], "the form has no title")
    want(fields["pubsub#title"]["value"] == "News", str(got))
    want(all(one["label"] for var, one in fields.items() if var != "FORM_TYPE"), "a field without a label")
    models = {one["value"] for one in fields["pubsub#access_model"]["options"]}
    want(models == {"open", "presence", "roster", "authorize", "whitelist"}, "the options of the access model")
    want(fields["pubsub#collection"]["type"] == "text-multi", "the type of the collection's field")
    form["type"] = "submit"
    form.get_fields()["pubsub#title"]["value"] = "New title"
    await ann.pubsub.set_node_config(SERVICE, "news", form)
    again = await ann.pubsub.get_node_config(SERVICE, "news")
    want(again["pubsub_owner"]["configure"]["form"].get_fields()["pubsub#title"]["value"] == "New title", str(again))
    bad = ann.pubsub.set_node_config(SERVICE, "news", ann.form("node_config", access_model="nobody"))
    await denied(bad, "not-acceptable", "value")


async def affiliations(world):
    ann, bob = world.ann, world.bob
    await ann.pubsub.modify_affiliations(SERVICE, "news", affiliations=[(bob.boundjid.bare, "publisher")])
    await bob.pubsub.publish(SERVICE, "news", id="bobs", payload=payload())
    got = await ann.pubsub.get_node_affiliations(SERVICE, "news")
    rows = {str(one["jid"]): one["affiliation"] for one in got["pubsub_owner"]["affiliations"]}
    want(rows == {ann.boundjid.bare: "owner", bob.boundjid.bare: "publisher"}, str(got))
    await ann.pubsub.modify_affiliations(SERVICE, "news", affiliations=[(bob.boundjid.bare, "outcast")])
    await denied(bob.pubsub.get_items(SERVICE, "news"), "forbidden")
    await ann.pubsub.delete_node(SERVICE, "news")
    await denied(ann.pubsub.get_items(SERVICE, "news"), "item-not-found")


async def a_collection(world):
    ann, bob = world.ann, world.bob
    await ann.pubsub.create_node(SERVICE, "top", config=ann.form("node_config", node_type="collection"))
    await ann.pubsub.create_node(SERVICE, "leaf", config=ann.form("node_config", collection="top"))
    await bob.pubsub.subscribe(SERVICE, "top", options=bob.form("subscribe_options", subscription_type="items", subscription_depth="all"))
    await ann.pubsub.publish(SERVICE, "leaf", id="one", payload=payload())
    heard = await bob.hears_item("leaf", "one", SERVICE)
    header = heard.find("{http://jabber.org/protocol/shim}headers/{http://jabber.org/protocol/shim}header[@name='Collection']")
    want(header is not None and header.text == "top", "the collection isn't named")
    found = await bob["xep_0030"].get_items(SERVICE, node="top")
    want([one[1] for one in found["disco_items"]["items"]] == ["leaf"], str(found))
    await denied(ann.pubsub.publish(SERVICE, "top", id="x", payload=payload()), "feature-not-implemented", "collection")


async def an_approval(world):
    ann, bob = world.ann, world.bob
    await ann.pubsub.create_node(SERVICE, "club", config=ann.form("node_config", access_model="authorize"))
    made = await bob.pubsub.subscribe(SERVICE, "club")
    want(made["pubsub"]["subscription"]["subscription"] == "pending", str(made))
    asked = await ann.hears(lambda one: one.find(f"{DATA}x") is not None, "the request to approve")
    form = asked.find(f"{DATA}x")
    labels = [one.get("label") for one in form.findall(f"{DATA}field") if one.get("var") != "FORM_TYPE"]
    want(len(labels) == 3 and all(labels), "the form to approve has no labels")
    answer = ann.form("subscribe_authorization", node="club", subscriber_jid=bob.boundjid.bare, allow="true")
    message = ann.make_message(SERVICE)
    message.append(answer)
    message.send()
    state = await bob.hears(lambda one: one.find(f"{{{PUBSUB}}}pubsub/{{{PUBSUB}}}subscription") is not None, "the approval")
    want(state.find(f"{{{PUBSUB}}}pubsub/{{{PUBSUB}}}subscription").get("subscription") == "subscribed", "not subscribed")
    await ann.pubsub.publish(SERVICE, "club", id="one", payload=payload())
    await bob.hears_item("club", "one", SERVICE)


async def bookmarks(world):
    """XEP-0402: published by the desk, told to the phone, kept from others."""
    ann, phone, bob = world.ann, world.phone, world.bob
    made = ET.fromstring("<conference xmlns='urn:xmpp:bookmarks:1' name='Garden' autojoin='true'><nick>ann</nick></conference>")
    options = ann.form("publish-options", persist_items="true", max_items="max", send_last_published_item="never", access_model="whitelist")
    for room in ("garden@muc.example", "cellar@muc.example"):
        await ann.pubsub.publish(None, "urn:xmpp:bookmarks:1", id=room, payload=made, options=options)
        heard = await phone.hears_item("urn:xmpp:bookmarks:1", room, ann.boundjid.bare)
        want(heard.get("type") == "headline", "not a headline")
    found = await ann.pubsub.get_items(None, "urn:xmpp:bookmarks:1")
    want([one["id"] for one in found["pubsub"]["items"]] == ["garden@muc.example", "cellar@muc.example"], str(found))
    await denied(bob.pubsub.get_items(ann.boundjid.bare, "urn:xmpp:bookmarks:1"), "not-allowed", "list")
    await ann.pubsub.retract(None, "urn:xmpp:bookmarks:1", "cellar@muc.example", notify=True)
    gone = f"{EVENT}event/{EVENT}items/{EVENT}retract[@id='cellar@muc.example']"
    await phone.hears(lambda one: one.find(gone) is not None, "the retraction")


async def key_lists(world):
    """XEP-0384 as clients do it: a list that anyone may read, with options that the node has to meet."""
    ann, bob = world.ann, world.bob
    node = "eu.siacs.conversations.axolotl.devicelist"
    devices = ET.fromstring("<list xmlns='eu.siacs.conversations.axolotl'><device id='31415'/></list>")
    opened = ann.form("publish-options", access_model="open", persist_items="true")
    await ann.pubsub.publish(None, node, id="current", payload=devices, options=opened)
    found = await bob.pubsub.get_items(ann.boundjid.bare, node)
    want(found.xml.find(".//{eu.siacs.conversations.axolotl}device").get("id") == "31415", str(found))
    other = ann.form("publish-options", access_model="whitelist")
    await denied(ann.pubsub.publish(None, node, id="current", payload=devices, options=other), "conflict", "publish options")


async def moods_by_presence(world):
    """XEP-0107: a contact hears of it, who isn't one doesn't, and who was one doesn't any more."""
    ann, bob, eve = world.ann, world.bob, world.eve
    bob.send_presence_subscription(ann.boundjid.bare)
    await until(lambda: both(ann, bob) and both(bob, ann), "both are contacts")
    node = "http://jabber.org/protocol/mood"
    await ann["xep_0107"].publish_mood("happy", "at last")
    heard = await bob.hears(lambda one: one.get("from") == ann.boundjid.bare and "happy" in ET.tostring(one).decode(), "the mood")
    want(heard.find(f"{EVENT}event/{EVENT}items").get("node") == node, "another node")
    await denied(eve.pubsub.get_items(ann.boundjid.bare, node), "not-authorized", "presence")
    await bob.pubsub.get_items(ann.boundjid.bare, node)
    ann.auto_authorize = ann.auto_subscribe = bob.auto_subscribe = None
    await ann.update_roster(bob.boundjid.bare, subscription="remove")
    want(bob.boundjid.bare not in await contacts(ann), "bob isn't removed")
    await denied(bob.pubsub.get_items(ann.boundjid.bare, node), "not-authorized", "presence")
    bob.messages.clear()
    await ann["xep_0107"].publish_mood("sad")
    await ann.pubsub.get_items(None, node)
    await asyncio.sleep(1)
    want(not bob.heard(node), "who was removed hears of it")


async def who_was_removed_and_comes_anew(world):
    """The last mood of a contact is told to who comes, and to nobody who was taken out of the contacts meanwhile, though the account said nothing since."""
    ann, bob = world.ann, world.bob
    node = "http://jabber.org/protocol/mood"
    ann.auto_authorize = ann.auto_subscribe = bob.auto_subscribe = True
    bob.send_presence_subscription(ann.boundjid.bare)
    await until(lambda: both(ann, bob) and both(bob, ann), "both are contacts")
    await bob["xep_0107"].publish_mood("calm")
    third = await world.person(f"bob@{B}/third", node)
    await third.hears(lambda one: one.get("from") == ann.boundjid.bare and "sad" in ET.tostring(one).decode(), "the last mood")
    await third.go()
    ann.auto_authorize = ann.auto_subscribe = bob.auto_subscribe = None
    await ann.update_roster(bob.boundjid.bare, subscription="remove")
    want(bob.boundjid.bare not in await contacts(ann), "bob isn't removed")
    fourth = await world.person(f"bob@{B}/fourth", node)
    await fourth.hears(lambda one: one.get("from") == bob.boundjid.bare, "his own mood")
    await asyncio.sleep(1)
    want(not [one for one in fourth.heard(node) if one.get("from") == ann.boundjid.bare], "who was removed is told the last mood")
    await fourth.go()


async def contacts(person):
    """The contacts, as the server has them."""
    roster = await person.make_iq_get(queryxmlns="jabber:iq:roster").send()
    return [one.get("jid") for one in roster.xml.iter("{jabber:iq:roster}item")]


def both(one, other):
    bare = other.boundjid.bare
    return bare in one.client_roster and one.client_roster[bare]["subscription"] == "both"


async def until(true, what):
    end = asyncio.get_running_loop().time() + SECONDS
    while not true():
        if asyncio.get_running_loop().time() > end:
            raise Wrong(f"never: {what}")
        await asyncio.sleep(0.05)


async def groups(world):
    """The access model roster: those in the group read, others don't."""
    ann, bob = world.ann, world.bob
    ann.auto_authorize = ann.auto_subscribe = bob.auto_subscribe = True
    bob.send_presence_subscription(ann.boundjid.bare)
    await until(lambda: both(ann, bob) and both(bob, ann), "both are contacts")
    options = ann.form("publish-options", access_model="roster")
    options.add_field("pubsub#roster_groups_allowed", ftype="list-multi", value=["Friends"])
    await ann.pubsub.publish(None, "urn:for:friends", id="one", payload=payload(), options=options)
    await denied(bob.pubsub.get_items(ann.boundjid.bare, "urn:for:friends"), "not-authorized", "groups")
    await ann.update_roster(bob.boundjid.bare, name="Bob", groups=["Friends"])
    found = await bob.pubsub.get_items(ann.boundjid.bare, "urn:for:friends")
    want([one["id"] for one in found["pubsub"]["items"]] == ["one"], str(found))


async def avatars(world):
    """XEP-0084: the data, then what is told of it; a contact is told and fetches."""
    ann, bob = world.ann, world.bob
    picture = bytes(range(256)) * 40
    avatar = ann["xep_0084"]
    await avatar.publish_avatar(picture)
    name = avatar.generate_id(picture)
    await avatar.publish_avatar_metadata([{"id": name, "type": "image/png", "bytes": len(picture)}])
    heard = await bob.hears_item("urn:xmpp:avatar:metadata", name, ann.boundjid.bare)
    want(heard.find(".//{urn:xmpp:avatar:metadata}info").get("id") == name, "another picture")
    got = await bob["xep_0084"].retrieve_avatar(ann.boundjid.bare, name)
    want(got["pubsub"]["items"]["item"]["avatar_data"]["value"] == picture, "the picture isn't the same")
    big = ET.fromstring("<data xmlns='urn:xmpp:avatar:data'>" + "A" * 70000 + "</data>")
    await denied(ann.pubsub.publish(None, "urn:xmpp:avatar:data", id="big", payload=big), "not-acceptable", "max_payload_size")


async def last_items(world):
    """Who comes online hears of the last avatar of a contact, once."""
    bob = await world.person(f"bob@{B}/second", "urn:xmpp:avatar:metadata")
    await bob.hears(lambda one: one.find(f"{EVENT}event/{EVENT}items[@node='urn:xmpp:avatar:metadata']") is not None, "the last avatar")
    await asyncio.sleep(1)
    want(not bob.heard("urn:xmpp:avatar:metadata"), "the last avatar comes twice")
    starts = world.plant.said().count("service started")
    world.plant.kill_service()
    await asyncio.to_thread(world.plant.wait_said, "service started", starts + 1)
    await world.ann["xep_0084"].publish_avatar_metadata([{"id": "0" * 40, "type": "image/png", "bytes": 1}])
    await bob.hears_item("urn:xmpp:avatar:metadata", "0" * 40)
    want(not bob.heard("urn:xmpp:avatar:metadata"), "a start of the service tells of the last avatar again")
    await bob.go()


async def personal_events_outlive_the_adapter(world):
    """Nobody sends a presence again, and a contact hears of what is published afterwards."""
    ann, bob = world.ann, world.bob
    await asyncio.to_thread(world.plant.wait_kept, bob.boundjid.full)
    world.plant.kill_adapter()
    await asyncio.to_thread(world.plant.start_adapter)
    bob.messages.clear()
    await ann["xep_0084"].publish_avatar_metadata([{"id": "1" * 40, "type": "image/png", "bytes": 1}])
    await bob.hears_item("urn:xmpp:avatar:metadata", "1" * 40, ann.boundjid.bare)


async def vcards(world):
    """vCard4 over personal eventing (XEP-0292)."""
    ann, bob = world.ann, world.bob
    card = ET.fromstring("<vcard xmlns='urn:ietf:params:xml:ns:vcard-4.0'><fn><text>Ann</text></fn></vcard>")
    await ann.pubsub.publish(None, "urn:xmpp:vcard4", id="current", payload=card)
    found = await bob.pubsub.get_items(ann.boundjid.bare, "urn:xmpp:vcard4")
    want(found.xml.find(".//{urn:ietf:params:xml:ns:vcard-4.0}text").text == "Ann", str(found))


async def discovery(world):
    ann = world.ann
    info = await ann["xep_0030"].get_info(SERVICE)
    want(("pubsub", "service") in {one[:2] for one in info["disco_info"]["identities"]}, str(info))
    account = await ann["xep_0030"].get_info(ann.boundjid.bare)
    features = set(account["disco_info"]["features"])
    want({PUBSUB, f"{PUBSUB}#publish-options", f"{PUBSUB}#auto-create", f"{PUBSUB}#config-node-max"} <= features, str(account))
    want(("pubsub", "pep") in {one[:2] for one in account["disco_info"]["identities"]}, str(account))
    nodes = await ann["xep_0030"].get_items(SERVICE)
    want({"top", "club"} <= {one[1] for one in nodes["disco_items"]["items"]}, str(nodes))
    if world.server == "prosody":
        own = await ann["xep_0030"].get_items(ann.boundjid.bare)
        want("urn:xmpp:bookmarks:1" in {one[1] for one in own["disco_items"]["items"]}, str(own))
        node = await ann["xep_0030"].get_info(ann.boundjid.bare, node="urn:xmpp:bookmarks:1")
        want(("pubsub", "leaf") in {one[:2] for one in node["disco_info"]["identities"]}, str(node))


async def a_resource_beyond_ascii(world):
    odd = await world.person(f"bob@{B}/t\u00e9l\u00e9phone")
    await denied(odd.pubsub.get_items(SERVICE, "leaf"), "not-acceptable", "resource")
    await odd.go()


CHECKS = (
    a_public_node,
    a_configuration_by_form,
    affiliations,
    a_collection,
    an_approval,
    bookmarks,
    key_lists,
    moods_by_presence,
    who_was_removed_and_comes_anew,
    groups,
    avatars,
    last_items,
    personal_events_outlive_the_adapter,
    vcards,
    discovery,
    a_resource_beyond_ascii,
)


async def main(plant):
    world = World(plant)
    await register(world.port, f"ann@{A}", f"bob@{B}", f"eve@{B}", password=PASSWORD)
    world.ann = await world.person(f"ann@{A}/desk")
    world.phone = await world.person(f"ann@{A}/phone", "urn:xmpp:bookmarks:1")
    world.bob = await world.person(f"bob@{B}/1", "http://jabber.org/protocol/mood", "urn:xmpp:avatar:metadata")
    world.eve = await world.person(f"eve@{B}/1", "http://jabber.org/protocol/mood")
    await asyncio.to_thread(plant.wait_present, 4)
    for check in CHECKS:
        await asyncio.wait_for(check(world), 3 * SECONDS)
        print(f"ok   slixmpp, {plant.server.name}: {check.__name__.replace('_', ' ')}", flush=True)
    for one in world.people:
        await one.go()


if __name__ == "__main__":
    logging.disable(logging.ERROR)
    with Plant(sys.argv[1], sys.argv[2]) as here:
        try:
            asyncio.run(main(here))
        except BaseException:
            print(here.said()[-4000:], file=sys.stderr)
            raise
