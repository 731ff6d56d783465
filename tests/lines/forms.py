"""The fields of the forms of configurations, of subscription options and of approvals (XEP-0060 §16.4), with the defaults of the service host."""

NODE_CONFIG = [
    ("title", "text-single", [""]),
    ("deliver_notifications", "boolean", ["1"]),
    ("deliver_payloads", "boolean", ["1"]),
    ("notify_config", "boolean", ["0"]),
    ("notify_delete", "boolean", ["0"]),
    ("notify_retract", "boolean", ["0"]),
    ("persist_items", "boolean", ["1"]),
    ("max_items", "text-single", ["10"]),
    ("access_model", "list-single", ["open"]),
    ("publish_model", "list-single", ["publishers"]),
    ("roster_groups_allowed", "list-multi", []),
    ("send_last_published_item", "list-single", ["never"]),
    ("presence_based_delivery", "boolean", ["0"]),
    ("notification_type", "list-single", ["headline"]),
    ("max_payload_size", "text-single", ["65536"]),
    ("node_type", "list-single", ["leaf"]),
    ("collection", "text-single", [""]),
]

SUBSCRIBE_OPTIONS = [
    ("subscription_type", "list-single", ["items"]),
    ("subscription_depth", "list-single", ["1"]),
]

SUBSCRIBE_AUTHORIZATION = [
    ("node", "text-single", [""]),
    ("subscriber_jid", "jid-single", [""]),
    ("allow", "boolean", ["0"]),
]

PRINTED = {"node_config": NODE_CONFIG, "subscribe_options": SUBSCRIBE_OPTIONS, "subscribe_authorization": SUBSCRIBE_AUTHORIZATION}


def values_of(text):
    """The values that a text names, between bars."""
    return [] if text == "[]" else text.split("|")


def given(attributes):
    """The fields of a submitted form."""
    return [(var, None, values_of(text)) for var, text in attributes.items()]


def printed(name, attributes):
    """All fields of a form that the service prints, the defaults but for those that are given."""
    rows = PRINTED[name]
    unknown = set(attributes) - {var for var, _, _ in rows}
    if unknown:
        raise ValueError("no such fields: " + ", ".join(sorted(unknown)))
    return [(var, kind, values_of(attributes[var]) if var in attributes else values) for var, kind, values in rows]
