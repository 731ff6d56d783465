-- For prosody 0.12 with prosody-modules, as /etc/prosody/conf.d/pubsubd.cfg.lua. `pubsubd-xmpp --setup prosody HOST` writes it with a secret.
-- A VirtualHost that is configured elsewhere keeps its settings, but for the lists that stand here too: put those together by hand.

VirtualHost "example.org"
  modules_enabled = { "delegation"; "privilege" }
  -- All that is or needs prosody's own personal eventing.
  modules_disabled = { "pep"; "bookmarks"; "vcard4"; "vcard_legacy" }
  delegations = {
    ["http://jabber.org/protocol/pubsub"] = { jid = "pubsub.example.org" };
    ["http://jabber.org/protocol/pubsub#owner"] = { jid = "pubsub.example.org" };
    ["urn:xmpp:delegation:2:bare:disco#info:*"] = { jid = "pubsub.example.org" };
    ["urn:xmpp:delegation:2:bare:disco#items:*"] = { jid = "pubsub.example.org" };
  }
  privileged_entities = { ["pubsub.example.org"] = { roster = "get"; message = "outgoing"; presence = "managed_entity" } }

Component "pubsub.example.org"
  modules_enabled = { "delegation"; "privilege" }
  component_secret = "the same as in /etc/pubsubd/secret"
