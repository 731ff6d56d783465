"""What aioxmpp's services do, through a server, the adapter and the service.

Usage: aiox.py SERVER PROGRAM
"""

from __future__ import annotations

import asyncio
import logging
import ssl
import sys

import aioxmpp
import aioxmpp.avatar
import aioxmpp.avatar.xso
import aioxmpp.dispatcher
import aioxmpp.forms
import aioxmpp.pep
import aioxmpp.pubsub
import aioxmpp.pubsub.xso as pubsub_xso
import aioxmpp.security_layer as security
import aioxmpp.xso as xso
from aioxmpp.connector import STARTTLSConnector
from plant import Plant
from raw import register
from servers import HOSTS, PASSWORD, SERVICE

A, B = HOSTS
PUBSUB = "http://jabber.org/protocol/pubsub"
NODE = "urn:pubsubd:test"
BOOKMARKS = "urn:xmpp:bookmarks:1"
DEVICES, DEVICE_NODE = "eu.siacs.conversations.axolotl", "eu.siacs.conversations.axolotl.devicelist"
MOOD = "http://jabber.org/protocol/mood"
VCARD, VCARD_NODE = "urn:ietf:params:xml:ns:vcard-4.0", "urn:xmpp:vcard4"
# How long is waited for what has to come.
SECONDS = 120


class Wrong(AssertionError):
    """Something else came than is wanted."""


def want(true, what):
    if not true:
        raise Wrong(what)


@pubsub_xso.as_payload_class
class Entry(xso.XSO):
    """The payload of the tests; its namespace is that of the personal node."""

    TAG = NODE, "entry"
    text = xso.Text(default=None)

    def __init__(self, text=None):
        super().__init__()
        self.text = text


@pubsub_xso.as_payload_class
class Conference(xso.XSO):
    """A bookmark (XEP-0402)."""

    TAG = BOOKMARKS, "conference"
    name = xso.Attr("name", default=None)


class Device(xso.XSO):
    TAG = DEVICES, "device"
    id_ = xso.Attr("id")

    def __init__(self, id_=None):
        super().__init__()
        self.id_ = id_


@pubsub_xso.as_payload_class
class Devices(xso.XSO):
    """A list of devices (XEP-0384 as clients have it)."""

    TAG = DEVICES, "list"
    devices = xso.ChildList([Device])


@pubsub_xso.as_payload_class
class Mood(xso.XSO):
    """XEP-0107."""

    TAG = MOOD, "mood"
    value = xso.ChildTag([(MOOD, "happy"), (MOOD, "sad")], allow_none=True)
    text = xso.ChildText((MOOD, "text"), default=None)

    def __init__(self, value=None, text=None):
        super().__init__()
        if value is not None:
            self.value = MOOD, value
        self.text = text


class FullName(xso.XSO):
    TAG = VCARD, "fn"
    text = xso.ChildText((VCARD, "text"), default=None)


@pubsub_xso.as_payload_class
class Card(xso.XSO):
    """A vCard4 (XEP-0292)."""

    TAG = VCARD, "vcard"
    name = xso.Child([FullName])


def submitted(kind, **fields):
    """A form that is sent, its fields each a text or a list of them."""
    made = aioxmpp.forms.Data(aioxmpp.forms.DataType.SUBMIT)
    made.fields.append(aioxmpp.forms.Field(type_=aioxmpp.forms.FieldType.HIDDEN, var="FORM_TYPE", values=[f"{PUBSUB}#{kind}"]))
    for name, value in fields.items():
        made.fields.append(aioxmpp.forms.Field(var=f"pubsub#{name}", values=[value] if isinstance(value, str) else value))
    return made


def layer():
    """A password without TLS, as a server on this machine takes it."""

    async def password(*_):
        return PASSWORD

    return security.SecurityLayer(ssl.create_default_context, security.PKIXCertificateVerifier, False, [security.PasswordSASLProvider(password)])


class Person:
    """A client, and what it heard."""

    def __init__(self, address, port):
        self.jid = aioxmpp.JID.fromstr(address)
        peer = [("127.0.0.1", port, STARTTLSConnector())]
        self.client = aioxmpp.PresenceManagedClient(self.jid, layer(), override_peer=peer)
        self.pubsub = self.client.summon(aioxmpp.PubSubClient)
        self.pep = self.client.summon(aioxmpp.PEPClient)
        self.disco = self.client.summon(aioxmpp.DiscoClient)
        self.avatar = self.client.summon(aioxmpp.avatar.AvatarService)
        self.roster = self.client.summon(aioxmpp.RosterClient)
        self.caps = self.client.summon(aioxmpp.EntityCapsService)
        self.messages = self.client.summon(aioxmpp.dispatcher.SimpleMessageDispatcher)
        self.items, self.retracted, self.pep_items, self.claimed = [], [], [], []
        self.pubsub.on_item_published.connect(lambda jid, node, item, *, message=None: self.items.append((str(jid), node, item.id_)))
        self.pubsub.on_item_retracted.connect(lambda jid, node, name, *, message=None: self.retracted.append((str(jid), node, name)))

    def claim(self, *nodes):
        for node in nodes:
            claimed = self.pep.claim_pep_node(node, notify=True)
            claimed.on_item_publish.connect(lambda jid, at, item, *, message=None: self.pep_items.append((str(jid), at, item.registered_payload)))
            self.claimed.append(claimed)

    def heard(self, node, of):
        """The payloads of that account's node that came."""
        return [payload for jid, at, payload in self.pep_items if at == node and jid == str(of.jid.bare())]

    async def come(self):
        self.connection = self.client.connected()
        await asyncio.wait_for(self.connection.__aenter__(), SECONDS)
        return self

    async def go(self):
        await self.connection.__aexit__(None, None, None)


async def until(true, what):
    end = asyncio.get_running_loop().time() + SECONDS
    while not true():
        want(asyncio.get_running_loop().time() < end, f"never: {what}")
        await asyncio.sleep(0.05)


async def denied(answer, condition):
    try:
        await answer
    except aioxmpp.errors.XMPPError as why:
        want(why.condition == condition, f"denied by {why.condition}, wanted {condition}")
        want(bool(why.text), "no text says what to do")
        return
    raise Wrong(f"not denied by {condition}")


async def a_public_node(world):
    ann, bob, service = world.ann, world.bob, world.service
    await ann.pubsub.create(service, "news")
    await denied(ann.pubsub.create(service, "news"), aioxmpp.ErrorCondition.CONFLICT)
    made = await bob.pubsub.subscribe(service, "news")
    want(made.payload.subscription == "subscribed", str(made))
    for name in ("one", "two"):
        await ann.pubsub.publish(service, "news", Entry(name), id_=name)
        await until(lambda name=name: (SERVICE, "news", name) in bob.items, f"the event of {name}")
    got = await bob.pubsub.get_items(service, "news")
    want([(one.id_, one.registered_payload.text) for one in got.payload.items] == [("one", "one"), ("two", "two")], "other items")
    await ann.pubsub.retract(service, "news", "one", notify=True)
    await until(lambda: (SERVICE, "news", "one") in bob.retracted, "the retraction")
    nodes = await ann.pubsub.get_nodes(service)
    want("news" in [node for node, _ in nodes], str(nodes))
    await bob.pubsub.unsubscribe(service, "news")


async def a_configuration_by_form(world):
    """aioxmpp reads the form by the types of the registry, and sends every field back."""
    ann, service = world.ann, world.service
    data = await ann.pubsub.get_node_config(service, "news")
    form = pubsub_xso.NodeConfigForm.from_xso(data)
    want(form.max_items.value == "10", "the greatest number of items")
    want({str(key) for key in form.access_model.options} == {"open", "presence", "roster", "authorize", "whitelist"}, "the options of the access model")
    form.title.value = "News"
    form.max_items.value = "5"
    await ann.pubsub.set_node_config(service, form.render_reply(), "news")
    again = pubsub_xso.NodeConfigForm.from_xso(await ann.pubsub.get_node_config(service, "news"))
    want((again.title.value, again.max_items.value) == ("News", "5"), "the changes aren't there")


async def affiliations(world):
    ann, bob, service = world.ann, world.bob, world.service
    await ann.pubsub.change_node_affiliations(service, "news", [(bob.jid.bare(), "publisher")])
    await bob.pubsub.publish(service, "news", Entry("bobs"), id_="bobs")
    got = await ann.pubsub.get_node_affiliations(service, "news")
    rows = {str(one.jid): one.affiliation for one in got.payload.affiliations}
    want(rows == {str(ann.jid.bare()): "owner", str(bob.jid.bare()): "publisher"}, str(rows))
    await ann.pubsub.purge(service, "news")
    got = await ann.pubsub.get_items(service, "news")
    want(list(got.payload.items) == [], "items are left")
    await ann.pubsub.delete(service, "news")
    await denied(ann.pubsub.get_items(service, "news"), aioxmpp.ErrorCondition.ITEM_NOT_FOUND)


async def a_collection(world):
    ann, bob, service = world.ann, world.bob, world.service
    for name, fields in (("top", {"node_type": "collection"}), ("leaf", {"collection": "top"})):
        made = aioxmpp.IQ(to=service, type_=aioxmpp.IQType.SET, payload=pubsub_xso.Request(pubsub_xso.Create()))
        made.payload.payload.node = name
        made.payload.configure = pubsub_xso.Configure()
        made.payload.configure.data = submitted("node_config", **fields)
        await ann.client.send(made)
    options = submitted("subscribe_options", subscription_type="items", subscription_depth="all")
    await bob.pubsub.subscribe(service, "top", config=options)
    await ann.pubsub.publish(service, "leaf", Entry("one"), id_="one")
    await until(lambda: (SERVICE, "leaf", "one") in bob.items, "the event of a node in the collection")
    nodes = await bob.disco.query_items(service, node="top")
    want([one.node for one in nodes.items] == ["leaf"], "the collection's nodes")
    await denied(ann.pubsub.publish(service, "top", Entry("x")), aioxmpp.ErrorCondition.FEATURE_NOT_IMPLEMENTED)


async def an_approval(world):
    ann, bob, service = world.ann, world.bob, world.service
    await ann.pubsub.create(service, "club")
    await ann.pubsub.set_node_config(service, submitted("node_config", access_model="authorize"), "club")
    asked = []
    ann.messages.register_callback(aioxmpp.MessageType.NORMAL, service, asked.append)
    made = await bob.pubsub.subscribe(service, "club")
    want(made.payload.subscription == "pending", str(made))
    await until(lambda: asked, "the request to approve")
    want(asked[0].xep0004_data[0].get_form_type() == f"{PUBSUB}#subscribe_authorization", "another form")
    answer = aioxmpp.Message(type_=aioxmpp.MessageType.NORMAL, to=service)
    answer.xep0004_data.append(submitted("subscribe_authorization", node="club", subscriber_jid=str(bob.jid.bare()), allow="true"))
    await ann.client.send(answer)
    state = "pending"
    while state == "pending":  # aioxmpp passes no notice of an approval on
        got = await bob.pubsub.get_subscriptions(service, "club")
        (state,) = [one.subscription for one in got.subscriptions]
    want(state == "subscribed", state)
    await ann.pubsub.publish(service, "club", Entry("one"), id_="one")
    await until(lambda: (SERVICE, "club", "one") in bob.items, "the event")


async def contacts(world):
    """Two accounts become contacts."""
    ann, bob = world.ann, world.bob
    for one in (ann, bob):
        one.roster.on_subscribe.connect(lambda stanza, one=one: one.roster.approve(stanza.from_.bare()) and None)
    bob.roster.subscribe(ann.jid.bare())
    await until(lambda: bob.roster.items.get(ann.jid.bare()) is not None and bob.roster.items[ann.jid.bare()].subscription == "to", "bob gets ann's presence")


async def personal_events(world):
    ann, bob = world.ann, world.bob
    want(await ann.pep.available(), "the account has no personal eventing")
    await ann.pep.publish(NODE, Entry("hello"), id_="current")
    await until(lambda: bob.heard(NODE, ann), "the event")
    want([one.text for one in bob.heard(NODE, ann)] == ["hello"], str(bob.pep_items))
    await ann.pep.publish("urn:secret", Entry("x"), access_model="whitelist")
    await denied(bob.pubsub.get_items(ann.jid.bare(), "urn:secret"), aioxmpp.ErrorCondition.NOT_ALLOWED)


async def bookmarks(world):
    """XEP-0402: the desk publishes, the phone hears, others read nothing."""
    ann, bob, phone = world.ann, world.bob, world.phone
    made = Conference()
    made.name = "Garden"
    options = submitted("publish-options", persist_items="true", max_items="max", send_last_published_item="never", access_model="whitelist")
    await ann.pubsub.publish(ann.jid.bare(), BOOKMARKS, made, id_="garden@muc.example", publish_options=options)
    await until(lambda: [one.name for one in phone.heard(BOOKMARKS, ann)] == ["Garden"], "the bookmark")
    got = await phone.pubsub.get_items(ann.jid.bare(), BOOKMARKS)
    want([one.id_ for one in got.payload.items] == ["garden@muc.example"], "other bookmarks")
    await denied(bob.pubsub.get_items(ann.jid.bare(), BOOKMARKS), aioxmpp.ErrorCondition.NOT_ALLOWED)


async def key_lists(world):
    """XEP-0384 as clients have it: a list that anyone may read, with options that the node has to meet."""
    ann, eve = world.ann, world.eve
    made = Devices()
    made.devices.append(Device("31415"))
    opened = submitted("publish-options", access_model="open", persist_items="true")
    await ann.pubsub.publish(ann.jid.bare(), DEVICE_NODE, made, id_="current", publish_options=opened)
    got = await eve.pubsub.get_items(ann.jid.bare(), DEVICE_NODE)
    want([one.id_ for one in got.payload.items[0].registered_payload.devices] == ["31415"], "another list")
    other = submitted("publish-options", access_model="whitelist")
    await denied(ann.pubsub.publish(ann.jid.bare(), DEVICE_NODE, made, id_="current", publish_options=other), aioxmpp.ErrorCondition.CONFLICT)


async def moods_by_presence(world):
    ann, bob, eve = world.ann, world.bob, world.eve
    await ann.pubsub.publish(ann.jid.bare(), MOOD, Mood("happy", "at last"))
    await until(lambda: [one.text for one in bob.heard(MOOD, ann)] == ["at last"], "the mood")
    await denied(eve.pubsub.get_items(ann.jid.bare(), MOOD), aioxmpp.ErrorCondition.NOT_AUTHORIZED)


async def groups(world):
    """The access model roster: those in the group read, others don't."""
    ann, bob = world.ann, world.bob
    options = submitted("publish-options", access_model="roster", roster_groups_allowed=["Friends"])
    await ann.pubsub.publish(ann.jid.bare(), "urn:for:friends", Entry("x"), id_="one", publish_options=options)
    await denied(bob.pubsub.get_items(ann.jid.bare(), "urn:for:friends"), aioxmpp.ErrorCondition.NOT_AUTHORIZED)
    await ann.roster.set_entry(bob.jid.bare(), add_to_groups={"Friends"})
    got = await bob.pubsub.get_items(ann.jid.bare(), "urn:for:friends")
    want([one.id_ for one in got.payload.items] == ["one"], "other items")


async def vcards(world):
    ann, bob = world.ann, world.bob
    card = Card()
    card.name = FullName()
    card.name.text = "Ann"
    await ann.pubsub.publish(ann.jid.bare(), VCARD_NODE, card, id_="current")
    got = await bob.pubsub.get_items(ann.jid.bare(), VCARD_NODE)
    want(got.payload.items[0].registered_payload.name.text == "Ann", "another card")


async def avatars(world):
    ann, bob = world.ann, world.bob
    picture = b"\x89PNG\r\n\x1a\n" + bytes(range(256)) * 8
    chosen = aioxmpp.avatar.AvatarSet()
    chosen.add_avatar_image("image/png", image_bytes=picture)
    await ann.avatar.publish_avatar_set(chosen)
    found = await bob.avatar.get_avatar_metadata(ann.jid.bare(), require_fresh=True)
    want(len(found) == 1, f"{len(found)} avatars")
    want(await found[0].get_image_bytes() == picture, "another picture")


async def last_items(world):
    """Who comes online hears of the last item of a contact."""
    bob = Person(f"bob@{B}/second", world.port)
    bob.claim(NODE)
    await bob.come()
    await until(lambda: bob.pep_items, "the last item")
    await asyncio.sleep(1)
    want([payload.text for _, _, payload in bob.pep_items] == ["hello"], "the last item comes twice")
    await bob.go()


async def a_contact_is_removed(world):
    """He reads nothing any more, and who comes anew in his name is told nothing."""
    ann, bob = world.ann, world.bob
    await ann.roster.remove_entry(bob.jid.bare())
    await denied(bob.pubsub.get_items(ann.jid.bare(), MOOD), aioxmpp.ErrorCondition.NOT_AUTHORIZED)
    await bob.pubsub.publish(bob.jid.bare(), MOOD, Mood("sad", "alone"))
    late = Person(f"bob@{B}/third", world.port)
    late.claim(MOOD, NODE)
    await late.come()
    await until(lambda: late.heard(MOOD, bob), "his own mood")
    await asyncio.sleep(1)
    want(not late.heard(MOOD, ann) and not late.heard(NODE, ann), "who was removed is told last items")
    await late.go()


CHECKS = (
    a_public_node,
    a_configuration_by_form,
    affiliations,
    a_collection,
    an_approval,
    contacts,
    personal_events,
    bookmarks,
    key_lists,
    moods_by_presence,
    groups,
    vcards,
    avatars,
    last_items,
    a_contact_is_removed,
)


class World:
    """The people."""

    service = aioxmpp.JID.fromstr(SERVICE)


async def main(plant):
    world = World()
    world.port = plant.server.client_port
    await register(world.port, f"ann@{A}", f"bob@{B}", f"eve@{B}", password=PASSWORD)
    world.ann = Person(f"ann@{A}/desk", world.port)
    world.phone = Person(f"ann@{A}/phone", world.port)
    world.phone.claim(BOOKMARKS)
    world.bob = Person(f"bob@{B}/1", world.port)
    world.bob.claim(NODE, MOOD)
    world.eve = Person(f"eve@{B}/1", world.port)
    people = (world.ann, world.phone, world.bob, world.eve)
    for one in people:
        await one.come()
    await asyncio.to_thread(plant.wait_present, len(people))
    for check in CHECKS:
        await asyncio.wait_for(check(world), 3 * SECONDS)
        print(f"ok   aioxmpp, {plant.server.name}: {check.__name__.replace('_', ' ')}", flush=True)
    for one in people:
        await one.go()


if __name__ == "__main__":
    logging.disable(logging.CRITICAL)
    with Plant(sys.argv[1], sys.argv[2]) as here:
        try:
            asyncio.run(main(here))
        except BaseException:
            print(here.said()[-4000:], file=sys.stderr)
            raise
