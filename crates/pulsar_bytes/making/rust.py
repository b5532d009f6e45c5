"""How the Rust types show themselves: the derived Debug of each struct, by the fields of its message."""

import re

# Fields that have another name in Rust than the snake case of their name in the protocol.
RENAMED = {
    ("Schema", "type"): "kind",
    ("CommandConsumerStatsResponse", "type"): "kind",
}

ESCAPES = {"\0": "\\0", "\t": "\\t", "\n": "\\n", "\r": "\\r", '"': '\\"', "\\": "\\\\"}


def field_name(field):
    given = (field.containing_type.name, field.name)
    return RENAMED.get(given) or re.sub(r"(?<=[a-z0-9])(?=[A-Z])", "_", field.name).lower()


def text(s):
    """A text in quotes. Beyond ASCII only what can be printed stands in the data."""
    shown = ""
    for c in s:
        if c in ESCAPES:
            shown += ESCAPES[c]
        elif c < " " or c == "\x7f":
            shown += "\\u{%x}" % ord(c)
        else:
            assert c.isprintable(), c
            shown += c
    return f'"{shown}"'


def plain(value):
    """A message, a text, bytes, a flag or a number."""
    if hasattr(value, "DESCRIPTOR"):
        return message(value)
    if isinstance(value, str):
        return text(value)
    if isinstance(value, bytes):
        return listed(value)
    if isinstance(value, bool):
        return "true" if value else "false"
    return str(value)


def listed(values):
    return "[" + ", ".join(plain(v) for v in values) + "]"


def optional(shown):
    return "None" if shown is None else f"Some({shown})"


def struct(name, fields):
    """A struct with these names and texts, or with no field."""
    if not fields:
        return name
    return name + " { " + ", ".join(f"{n}: {v}" for n, v in fields) + " }"


def held(value, field):
    """What a struct holds of a field: a list, an Option, or the value itself. One that is missing is zero or empty."""
    if field.label == field.LABEL_REPEATED:
        return listed(getattr(value, field.name))
    if field.label == field.LABEL_OPTIONAL:
        return optional(plain(getattr(value, field.name)) if value.HasField(field.name) else None)
    return plain(getattr(value, field.name))


def message(value):
    """A message, its fields in the order of their numbers."""
    if value.DESCRIPTOR.name == "BaseCommand":
        return command(value)
    fields = sorted(value.DESCRIPTOR.fields, key=lambda f: f.number)
    return struct(value.DESCRIPTOR.name, [(field_name(f), held(value, f)) for f in fields])


def body_of(value):
    """The field of a command's body, if it has one."""
    for field, _ in value.ListFields():
        if field.number != 1:
            return field
    return None


def command(value):
    """A command: its body decides the kind."""
    body = body_of(value)
    if body is None:
        return struct("BaseCommand", [("kind", str(value.type)), ("body", "None")])
    variant = body.message_type.name.removeprefix("Command")
    held = f"{variant}({message(getattr(value, body.name))})"
    return struct("BaseCommand", [("kind", str(body.number)), ("body", optional(held))])


def payload(metadata, data):
    return struct("Payload", [("metadata", message(metadata)), ("bytes", listed(data))])


def frame(value, behind):
    """What a frame carries: a command, and behind it metadata and a payload, or nothing."""
    shown = None if behind is None else payload(*behind)
    return struct("Message", [("command", command(value)), ("payload", optional(shown))])


def entry(metadata, data):
    return struct("BatchedMessage", [("metadata", message(metadata)), ("payload", listed(data))])


def item(message_id, metadata, data):
    return f"({message(message_id)}, {payload(metadata, data)})"


BY_REQUEST = """
    subscribe producer unsubscribe success error close_producer partitionMetadata partitionMetadataResponse lookupTopic
    lookupTopicResponse consumerStats consumerStatsResponse seek getLastMessageId getLastMessageIdResponse
    getTopicsOfNamespace getTopicsOfNamespaceResponse getSchema getSchemaResponse
""".split()

BY_CONSUMER = """
    active_consumer_change message flow redeliverUnacknowledgedMessages reachedEndOfTopic ack
""".split()


def key(value):
    """The request key of a command."""
    field = body_of(value)
    if field is None:
        return "None"
    body = getattr(value, field.name)
    if field.name in BY_REQUEST or (field.name == "producer_success" and not_refused(body)):
        return f"Some(RequestId({body.request_id}))"
    if field.name in ("send", "send_receipt", "send_error"):
        named = [("producer_id", body.producer_id), ("sequence_id", body.sequence_id)]
        return optional(struct("ProducerSend", named))
    if field.name in BY_CONSUMER:
        return optional(struct("Consumer", [("consumer_id", body.consumer_id)]))
    if field.name == "close_consumer":
        named = [("consumer_id", body.consumer_id), ("request_id", body.request_id)]
        return optional(struct("CloseConsumer", named))
    return "Some(AuthChallenge)" if field.name == "authChallenge" else "None"


def not_refused(body):
    """Whether a producer is ready, as far as its answer says."""
    return not body.HasField("producer_ready") or body.producer_ready
