"""The rules by which bytes are refused, and how frames and batches are cut.

Google's parser allows more than these rules: groups, known fields with another wire type, a tenth byte above 1, two bodies of
a command, text that is not UTF-8."""

import struct

VARINT, EIGHT, DELIMITED, FOUR = 0, 1, 2, 5


class Refused(Exception):
    """Bytes are refused, for this reason."""

    def __init__(self, reason):
        super().__init__(reason)
        self.reason = reason


def require(holds, reason="message"):
    if not holds:
        raise Refused(reason)


def varint(data, at):
    """The number that stands there, and where it ends: seven bits a byte, the lowest first, in at most ten bytes."""
    number = 0
    for i in range(10):
        require(at + i < len(data))
        byte = data[at + i]
        require(i < 9 or byte < 2)
        number += (byte & 127) << (7 * i)
        if byte < 128:
            return number, at + i + 1
    raise AssertionError


def sized(data, at, size):
    require(at + size <= len(data))
    return data[at : at + size], at + size


def fields(data):
    """The fields: the number of each, its wire type, and its number or its bytes."""
    found, at = [], 0
    while at < len(data):
        key, at = varint(data, at)
        require(8 <= key < 2**32)
        wire = key % 8
        require(wire in (VARINT, EIGHT, DELIMITED, FOUR))
        if wire == VARINT:
            value, at = varint(data, at)
        elif wire == DELIMITED:
            size, at = varint(data, at)
            value, at = sized(data, at, size)
        else:
            value, at = sized(data, at, 8 if wire == EIGHT else 4)
        found.append((key // 8, wire, value))
    return found


def check_field(field, wire, value):
    """Refuses what may not stand in a field of the table."""
    if field.type == field.TYPE_MESSAGE:
        require(wire == DELIMITED)
        check(field.message_type, value)
    elif field.type == field.TYPE_STRING:
        require(wire == DELIMITED)
        try:
            value.decode("utf-8")
        except UnicodeDecodeError:
            raise Refused("message") from None
    elif field.type == field.TYPE_BYTES:
        require(wire == DELIMITED)
    elif field.name == "ack_set" and wire == DELIMITED:
        at = 0
        while at < len(value):
            _, at = varint(value, at)
    else:
        require(wire == VARINT)


def check(descriptor, data):
    """Refuses what is not this message."""
    found = fields(data)
    for number, wire, value in found:
        if number in descriptor.fields_by_number:
            check_field(descriptor.fields_by_number[number], wire, value)
    if descriptor.name == "BaseCommand":
        require(len({n for n, _, _ in found if 2 <= n <= 37}) < 2)


def check_for(reason, descriptor, data):
    try:
        check(descriptor, data)
    except Refused:
        raise Refused(reason) from None


def checksum(data):
    """The CRC-32C, one bit at a time."""
    state = 0xFFFFFFFF
    for byte in data:
        state ^= byte
        for _ in range(8):
            state = state >> 1 ^ (0x82F63B78 if state & 1 else 0)
    return state ^ 0xFFFFFFFF


def number_at(data, at):
    return struct.unpack_from(">I", data, at)[0]


def cut_frame(data, command, metadata):
    """The frame in front: its command, what stands behind it (None, or metadata and payload), and its size.

    None where no whole frame stands there."""
    if len(data) < 4 or len(data) < number_at(data, 0) + 4:
        return None
    total = number_at(data, 0)
    require(total >= 4, "frame")
    size = number_at(data, 4)
    require(4 + size <= total, "frame")
    said, tail = data[8 : 8 + size], data[8 + size : 4 + total]
    check_for("command", command, said)
    if not tail:
        return said, None, total + 4
    require(len(tail) >= 10, "payload")
    described = number_at(tail, 6)
    require(10 + described <= len(tail), "payload")
    require(tail[:2] == b"\x0e\x01", "magic")
    check_for("metadata", metadata, tail[10 : 10 + described])
    require(number_at(tail, 2) == checksum(tail[6:]), "checksum")
    return said, (tail[10 : 10 + described], tail[10 + described :]), total + 4


def cut_batch(count, data, metadata):
    """The entries of a batch: the metadata of each, and its payload."""
    found, at = [], 0
    for _ in range(count):
        require(at + 4 <= len(data), "batch")
        start = at + 4
        end = start + number_at(data, at)
        require(end <= len(data), "batch")
        check_for("batch", metadata.DESCRIPTOR, data[start:end])
        said = metadata()
        said.MergeFromString(data[start:end])
        require(0 <= said.payload_size <= len(data) - end, "batch")
        at = end + said.payload_size
        found.append((said, data[end:at]))
    return found
