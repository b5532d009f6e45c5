"""The lines of the input, and beside them what they must print: values and bytes by Google's Protocol Buffers."""

import struct

import rules
import rust


class Sheet:
    def __init__(self, proto):
        self.proto = proto
        self.input, self.output = [], []
        self.parts = {name: getattr(proto, name) for name in PARTS}
        self.bodies = {
            rust.field_name(f): getattr(proto, f.message_type.name)
            for f in proto.BaseCommand.DESCRIPTOR.fields
            if f.number != 1
        }
        self.messages = {**self.bodies, **self.parts}

    def note(self, text):
        """A line that says what follows. It is printed as it is."""
        for lines in (self.input, self.output):
            lines.append(f"# {text}")

    def reads(self, kind, *data):
        """The bytes are read."""
        self.say(kind, data, self.answer(kind, *data))

    def reads_as(self, kind, data, same):
        """The bytes are read as other bytes are, by the rules alone."""
        rules.check(self.messages[kind].DESCRIPTOR, data)
        self.say(kind, [data], self.answer(kind, same))

    def refuses(self, kind, *data, reason="message"):
        """The bytes are refused, for this reason."""
        try:
            self.answer(kind, *data)
        except rules.Refused as refused:
            assert refused.reason == reason, (kind, data, refused.reason)
        else:
            raise AssertionError((kind, data))
        left = [f"left {digits(data[0])}"] if kind == "frame" else []
        self.say(kind, data, [f"refused {reason}"] + left)

    def say(self, kind, data, answer):
        words = [digits(d) if isinstance(d, bytes) else str(d) for d in data]
        self.input.append(" ".join([kind, *words]))
        self.output.extend(answer)

    def answer(self, kind, *data):
        if kind == "frame":
            return self.frame(*data)
        if kind == "stream":
            return self.stream(*data)
        if kind == "batch":
            return self.batch(*data)
        if kind == "items":
            return self.items(*data)
        if kind == "crc32c":
            return [f"sum {rules.checksum(*data):08x}"]
        if kind == "command":
            return self.command(*data)
        value = read(self.messages[kind], *data)
        return ["value " + rust.message(value), "bytes " + digits(written(value))]

    def command(self, data):
        value = read(self.proto.BaseCommand, data)
        lines = ["value " + rust.command(value), "bytes " + digits(written(value))]
        body = rust.body_of(value)
        if body is None:
            return lines
        alone = written(getattr(value, body.name))
        return lines + [f"{rust.field_name(body)} {digits(alone)}"]

    def frame(self, data):
        cut = self.cut(data)
        if cut is None:
            return ["none", f"left {digits(data)}"]
        command, behind, size = cut
        metadata = None if behind is None else (written(behind[0]), behind[1])
        return [
            "value " + rust.frame(command, behind),
            "key " + rust.key(command),
            "bytes " + digits(framed(written(command), metadata)),
            "left " + digits(data[size:]),
        ]

    def stream(self, *pieces):
        held, lines = b"", []
        for piece in pieces:
            held += piece
            try:
                while (cut := self.cut(held)) is not None:
                    command, behind, size = cut
                    lines.append("value " + rust.frame(command, behind))
                    held = held[size:]
                lines.append("none")
            except rules.Refused as refused:
                lines.append(f"refused {refused.reason}")
        return lines

    def cut(self, data):
        """The values of the frame in front, and its size."""
        base, metadata = self.proto.BaseCommand, self.proto.MessageMetadata
        cut = rules.cut_frame(data, base.DESCRIPTOR, metadata.DESCRIPTOR)
        if cut is None:
            return None
        said, behind, size = cut
        if behind is not None:
            behind = (read(metadata, behind[0]), behind[1])
        return read(base, said), behind, size

    def batch(self, count, data):
        found = rules.cut_batch(count, data, self.proto.SingleMessageMetadata)
        values = ["value " + rust.entry(said, part) for said, part in found]
        entries = b"".join(with_size(written(said)) + part for said, part in found)
        return values + ["bytes " + digits(entries)]

    def items(self, data):
        command, (metadata, payload), _ = self.cut(data)
        rules.require(metadata.HasField("num_messages_in_batch"), "batch")
        count = metadata.num_messages_in_batch
        rules.require(count >= 0, "batch")
        found = rules.cut_batch(count, payload, self.proto.SingleMessageMetadata)
        lines = []
        for index, (said, part) in enumerate(found):
            message_id = copied(command.message.message_id)
            message_id.batch_index = index
            lines.append("value " + rust.item(message_id, of_entry(metadata, said), part))
        return lines + ["none"]


# The messages that are no body of a command.
PARTS = [
    "AuthData",
    "MessageIdData",
    "KeyValue",
    "Schema",
    "EncryptionKeys",
    "MessageMetadata",
    "SingleMessageMetadata",
]


def digits(data):
    return data.hex() or "%"


def read(made, data):
    """The message that the bytes spell, by Google's parser, where the rules refuse nothing."""
    rules.check(made.DESCRIPTOR, data)
    value = made()
    value.MergeFromString(data)
    return value


def filled(value):
    """Sets each required field that is missing to zero or to nothing, and forgets what is unknown."""
    value.DiscardUnknownFields()
    for field in value.DESCRIPTOR.fields:
        if field.label == field.LABEL_REPEATED:
            for inner in getattr(value, field.name) if field.message_type else []:
                filled(inner)
        elif field.message_type:
            inner = getattr(value, field.name)
            if field.label == field.LABEL_REQUIRED:
                inner.SetInParent()
            if value.HasField(field.name):
                filled(inner)
        elif field.label == field.LABEL_REQUIRED and not value.HasField(field.name):
            setattr(value, field.name, field.default_value)
    return value


def written(value):
    """The bytes of a message, by Google's serializer. The body of a command is its type."""
    value = filled(copied(value))
    if value.DESCRIPTOR.name == "BaseCommand" and rust.body_of(value):
        value.type = rust.body_of(value).number
    return value.SerializeToString(deterministic=True)


def copied(value):
    copy = type(value)()
    copy.CopyFrom(value)
    return copy


def of_entry(metadata, said):
    """The metadata of a frame, with the properties, keys and event time of an entry."""
    value = copied(metadata)
    for name in ("properties", "partition_key", "event_time", "ordering_key"):
        value.ClearField(name)
    value.properties.MergeFrom(said.properties)
    for name in ("partition_key", "event_time", "ordering_key"):
        if said.HasField(name):
            setattr(value, name, getattr(said, name))
    return value


def with_size(data):
    return struct.pack(">I", len(data)) + data


def framed(command, behind=None):
    """A frame, of the bytes of a command, and where there is a payload of those of its metadata and its own."""
    tail = b""
    if behind is not None:
        covered = with_size(behind[0]) + behind[1]
        tail = b"\x0e\x01" + struct.pack(">I", rules.checksum(covered)) + covered
    return with_size(with_size(command) + tail)
