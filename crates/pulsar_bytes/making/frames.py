"""The cases of frames, of streams of them, of batches, and of checksums."""

import struct

from sheet import framed, with_size, written

# The client's first frame, as the crate writes it in version 6.7.2 and wrote it in version 6.0.0.
CONNECT = bytes.fromhex("0000001c 00000018 08021214 0a10 70756c7361722d72732d76362e372e32 200c")
CONNECT_BEFORE = bytes.fromhex("00000022 0000001e 0802121a 0a10 70756c7361722d72732d76362e302e30 200c 2a046e6f6e65")

# A broker's answer to it, and what a broker and a client say about the topics of a namespace.
CONNECTED = bytes.fromhex("0000000a 00000006 08031a020a00")
TOPICS = bytes.fromhex("0000001d 00000019 0820820214 0800120e 7075626c69632f64656661756c74 1802")
REPLY = bytes.fromhex("0000000e 0000000a 08218a0205 0800120161")

# A message of a producer with the payload `hello-pulsar-8`, as the crate's own tests have it.
SEND = bytes.fromhex(
    "0000003d 00000008 0806320408001008 0e01 428354b5 00000019 0a0e7374616e64616c6f6e652d302d33 1008 18bec0fc84d22c"
    "68656c6c6f2d70756c7361722d38"
)

# Further frames, each a command alone.
COMMANDS = [
    "00000009 00000005 0812920100",
    "00000009 00000005 08139a0100",
    "00000012 0000000e 08073a0a 08001008 1a0408011002",
    "00000010 0000000c 08084208 08001008 1800 2200",
    "00000018 00000014 08042210 0a0174 120173 1801 2000 2800 5800 6800",
    "0000000a 00000006 080d6a020800",
    "0000000d 00000009 080b5a05 080010e807",
    "00000012 0000000e 080a520a 08001000 1a0408011002",
    "00000010 0000000c 0817ba0107 0a0174 1000 1800",
    "0000000f 0000000b 0818c20106 1802 2000 3006",
    "00000028 00000024 0818c2011f 0a17 70756c7361723a2f2f3132372e302e302e313a36363530 1801 2001 2801",
    "0000000f 0000000b 08052a07 0a0174 1000 1800",
    "0000000f 0000000b 08118a0106 0800 1200 3000",
    "0000000e 0000000a 08118a0105 0800 120170",
    "0000000d 00000009 0810820104 0805 1000",
    "0000000e 0000000a 080e7206 0800 100b 1a00",
    "0000000d 00000009 080b5a05 0800 10f503",
    "0000000d 00000009 080b5a05 0800 10cc10",
]

# Two entries, `hi` twice, and `ab` and `cde`, the second with a key and an event time.
TWICE_HI = bytes.fromhex("00000002 1802 6869 00000002 1802 6869")
TWO = bytes.fromhex("00000002 1802 6162 00000007 12016b 1803 2805 636465")

# Checksums that are published: of RFC 3720, B.4, and of texts.
SUMS = {
    b"": "00000000",
    b"123456789": "e3069283",
    bytes(32): "8a9136aa",
    b"\xff" * 32: "62a8ab43",
    bytes(range(32)): "46dd794e",
    bytes(reversed(range(32))): "113fdb5c",
    b"a": "c1d04330",
    b"abc": "364b3fb7",
    b"message digest": "02bd79d0",
    b"abcdefghijklmnopqrstuvwxyz": "9ee6ef25",
    b"1234567890" * 8: "477a6781",
}


def write_frames(sheet):
    write_good_frames(sheet)
    write_payloads(sheet)
    write_waiting(sheet)
    write_refused(sheet)
    write_order_of_refusals(sheet)
    write_streams(sheet)
    write_batches(sheet)
    write_items(sheet)
    write_sums(sheet)


def write_good_frames(sheet):
    sheet.note("frames: the older client's, this one's, a broker's answer; a request and its reply")
    for data in (CONNECT_BEFORE, CONNECT, CONNECTED, TOPICS, REPLY):
        sheet.reads("frame", data)
    sheet.note("frames: commands of clients and of brokers")
    for words in COMMANDS:
        sheet.reads("frame", bytes.fromhex(words))
    sheet.note("frames: each body with no field, for its key, and one whose producer is ready")
    for kind in sheet.bodies:
        sheet.reads("frame", framed(bare_command(sheet, kind)))
    sheet.reads("frame", framed(bytes.fromhex("0811 8a010708071201703001")))
    sheet.note("frames: the command is written anew: its type, and no fields that are not known")
    sheet.reads("frame", framed(bytes.fromhex("0863 1a020a00 8803 00")))
    sheet.note("frames: no command at all, and one of a type that is not known")
    sheet.reads("frame", framed(b""))
    sheet.reads("frame", framed(bytes.fromhex("0826 b2020100")))
    sheet.note("frames: what follows is left")
    sheet.reads("frame", CONNECTED + b"\x00\x00")
    sheet.reads("frame", SEND + REPLY)


def bare_command(sheet, kind):
    value = sheet.proto.BaseCommand()
    wanted = sheet.bodies[kind].DESCRIPTOR
    getattr(value, next(f.name for f in value.DESCRIPTOR.fields if f.message_type == wanted)).SetInParent()
    return written(value)


def write_payloads(sheet):
    proto = sheet.proto
    sheet.note("payloads: a message of a producer, and the same as it is delivered")
    sheet.reads("frame", SEND)
    delivered = bytes.fromhex("08094a08 0800 1204 08011002")
    sheet.reads("frame", with_size(with_size(delivered) + SEND[16:]))
    sheet.note("payloads: a batch as it is sent, a message with much said of it, one with nothing")
    metadata = proto.MessageMetadata(producer_name="orders-1", sequence_id=300, publish_time=1_700_000_000_000)
    metadata.properties.add(key="a", value="1")
    metadata.properties.add(key="b", value="ü")
    metadata.partition_key = "k"
    metadata.num_messages_in_batch = 2
    sent = proto.BaseCommand(type=6)
    sent.send.producer_id, sent.send.sequence_id, sent.send.num_messages = 7, 300, 2
    sheet.reads("frame", framed(written(sent), (written(metadata), TWICE_HI)))
    sheet.reads("frame", framed(*much(proto)))
    nothing = proto.BaseCommand(type=9)
    nothing.message.SetInParent()
    sheet.reads("frame", framed(written(nothing), (written(proto.MessageMetadata()), b"")))
    sheet.note("payloads: behind a command that has none by rights, with all bytes in it, and with no byte of metadata")
    sheet.reads("frame", framed(bytes.fromhex("0812920100"), (written(metadata), bytes(range(256)))))
    sheet.reads("frame", framed(bytes.fromhex("0812920100"), (b"", b"x")))
    sheet.reads("frame", framed(b"", (b"", b"")))


def much(proto):
    """A message with a negative partition and delivery time, and what is said of it."""
    command = proto.BaseCommand(type=9)
    command.message.consumer_id = 1
    command.message.message_id.ledgerId, command.message.message_id.entryId = 1, 2
    command.message.message_id.partition = -1
    command.message.redelivery_count = 3
    command.message.ack_set.append(-1)
    metadata = proto.MessageMetadata(producer_name="p", sequence_id=0, publish_time=1, replicated_from="eu")
    metadata.replicate_to.extend(["eu", "us"])
    metadata.compression = metadata.uncompressed_size = 0
    metadata.event_time = 2
    metadata.schema_version, metadata.ordering_key = b"\x00\xff", b"o"
    metadata.deliver_at_time = -5
    return written(command), (written(metadata), b"hello")


def write_waiting(sheet):
    sheet.note("frames: none where fewer bytes are there than are counted")
    for data in (b"", b"\x00", b"\x00\x00\x00", b"\xff\xff\xff\xff", b"\x00\x00\x00\x03\x00\x00", CONNECTED[:-1]):
        sheet.reads("frame", data)
    sheet.reads("frame", SEND[:-1])
    sheet.note("frames: none also where what is there would be refused")
    sheet.reads("frame", bytes.fromhex("00000010 00000020 08"))
    sheet.reads("frame", bytes.fromhex("00000010 00000001 ff"))


def behind(command, tail):
    """A frame with these bytes behind its command."""
    return with_size(with_size(command) + tail)


def write_refused(sheet):
    sheet.note("frames, refused: a total below 4, a command that passes the end")
    for words in ("00000000", "00000003 000000", "00000005 00000002 08", "00000004 00000001", "00000004 ffffffff"):
        sheet.refuses("frame", bytes.fromhex(words), reason="frame")
    sheet.note("frames, refused: what is no command")
    for command in ("08", "0802 1200 1a00", "0803 1a020a00 00", "08ffffffffffffffffff02"):
        sheet.refuses("frame", framed(bytes.fromhex(command)), reason="command")
    sheet.refuses("frame", framed(b"\x08", (b"", b"")), reason="command")
    sheet.note("frames, refused: fewer than ten bytes behind the command, metadata that passes the end")
    ping = bytes.fromhex("0812920100")
    for n in range(1, 10):
        sheet.refuses("frame", behind(ping, SEND[16 : 16 + n]), reason="payload")
    sheet.refuses("frame", behind(ping, SEND[16:26]), reason="payload")
    sheet.refuses("frame", behind(ping, SEND[16:50]), reason="payload")
    sheet.refuses("frame", behind(ping, bytes.fromhex("0e01 00000000 ffffffff") + SEND[26:]), reason="payload")
    sheet.note("frames, refused: another magic number, other metadata, another checksum")
    for magic in ("0e02", "0e00", "010e", "0000"):
        sheet.refuses("frame", behind(ping, bytes.fromhex(magic) + SEND[18:]), reason="magic")
    for metadata in (b"\x0a", b"\x0a\x01\xff", b"\x00\x00", b"\x08\x01", b"\x0b"):
        sheet.refuses("frame", framed(ping, (metadata, b"x")), reason="metadata")
    for sum in ("428354b4", "00000000", "b5548342", "bd7cab4a"):
        sheet.refuses("frame", behind(ping, SEND[16:18] + bytes.fromhex(sum) + SEND[22:]), reason="checksum")
    for at in (16 + 6, 16 + 10, len(SEND) - 1):
        wrong = bytearray(SEND)
        wrong[at] ^= 1 if at > 22 else 0
        wrong[-1] ^= 1 if at == 22 else 0
        sheet.refuses("frame", bytes(wrong), reason="metadata" if at == 26 else "checksum")
    sheet.refuses("frame", SEND[:-1] + b"9" + CONNECTED, reason="checksum")
    sheet.note("frames, refused: the same of a command that has a type alone")
    for words, reason in (
        ("00000007 00000002 0812 00", "payload"),
        ("0000000f 00000002 0812 0e02 428354b5 000000", "payload"),
        ("00000010 00000002 0812 0e01 428354b5 00000001", "payload"),
        ("00000011 00000002 0812 0e02 428354b5 00000001 0a", "magic"),
        ("00000011 00000002 0812 0e01 428354b5 00000001 0a", "metadata"),
        ("00000010 00000002 0812 0e01 428354b5 00000000", "checksum"),
    ):
        sheet.refuses("frame", bytes.fromhex(words), reason=reason)


def write_order_of_refusals(sheet):
    """Where two reasons hold, the first of their order is named."""
    ping, bad = bytes.fromhex("0812920100"), b"\x08"
    head, whole = SEND[16:26], SEND[16:]
    other_magic = b"\x0e\x02"
    sheet.note("frames, refused for the first of two reasons: frame before command and payload")
    sheet.refuses("frame", bytes.fromhex("00000006 00000003 0808"), reason="frame")
    sheet.note("frames, refused for the first of two reasons: command before payload, magic, metadata and checksum")
    for tail in (b"\x0e", head, other_magic + whole[2:], framed(b"", (b"\x0a", b""))[8:], whole[:-1]):
        sheet.refuses("frame", behind(bad, tail), reason="command")
    sheet.note("frames, refused for the first of two reasons: payload before magic, metadata and checksum")
    for tail in (other_magic, other_magic + head[2:], head + b"\x0a", bytes.fromhex("0e01 00000000 00000002 0a")):
        sheet.refuses("frame", behind(ping, tail), reason="payload")
    sheet.note("frames, refused for the first of two reasons: magic before metadata and checksum")
    for tail in (framed(b"", (b"\x0a", b""))[10:], whole[2:-1]):
        sheet.refuses("frame", behind(ping, other_magic + tail), reason="magic")
    sheet.note("frames, refused for the first of two reasons: metadata before checksum")
    sheet.refuses("frame", behind(ping, bytes.fromhex("0e01 428354b5 00000001 0a")), reason="metadata")
    sheet.refuses("frame", behind(ping, bytes.fromhex("0e01 428354b5 00000003 0a01ff 00")), reason="metadata")


def write_streams(sheet):
    sheet.note("streams: byte by byte, the frames in one piece, and pieces that end in the middle of one")
    sheet.reads("stream", *[bytes([b]) for b in REPLY + CONNECTED])
    sheet.reads("stream", CONNECTED + SEND + REPLY)
    sheet.reads("stream", SEND[:1], b"", SEND[1:40], SEND[40:] + TOPICS[:7], TOPICS[7:] + CONNECT)
    sheet.note("streams: behind a bad frame nothing is read, whatever comes")
    bad = {
        "frame": bytes.fromhex("00000003 000000"),
        "command": framed(b"\x08"),
        "payload": behind(b"", b"\x0e"),
        "magic": behind(b"", b"\x0e\x02" + SEND[18:]),
        "metadata": framed(b"", (b"\x0a", b"")),
        "checksum": SEND[:-1] + b"9",
    }
    for data in bad.values():
        sheet.reads("stream", REPLY + data, CONNECTED, b"")


def write_batches(sheet):
    sheet.note("batches: two entries, and what follows those that are counted")
    sheet.reads("batch", 2, TWICE_HI)
    sheet.reads("batch", 2, TWO)
    sheet.reads("batch", 2, TWO + b"\x00\x01")
    sheet.reads("batch", 1, TWO)
    sheet.reads("batch", 0, b"\x01")
    sheet.reads("batch", 0, b"")
    sheet.note("batches: an entry of nothing, and one of which much is said")
    sheet.reads("batch", 1, bytes.fromhex("00000000"))
    said = sheet.proto.SingleMessageMetadata(payload_size=300, event_time=2**64 - 1, ordering_key=b"\x00\xff")
    said.properties.add(key="k", value="v")
    said.properties.add(key="k", value="w")
    sheet.reads("batch", 1, with_size(written(said)) + bytes(300))
    sheet.note("batches, refused: too few entries, a negative size, what is cut, metadata that is none")
    for count, data in (
        (3, TWICE_HI),
        (1, b""),
        (2**31 - 1, b"\x00"),
        (2**32 - 1, TWICE_HI),
        (1, bytes.fromhex("0000000b 18ffffffffffffffffff01")),
        (1, bytes.fromhex("0000000b 1880808080f8ffffffff01")),
        (1, bytes.fromhex("00000003 1802")),
        (1, bytes.fromhex("00000002 1802 61")),
        (1, bytes.fromhex("00000001 18")),
        (2, bytes.fromhex("00000002 1802 6162 00000001 18")),
        (1, bytes.fromhex("ffffffff 1802")),
    ):
        sheet.refuses("batch", count, data, reason="batch")


def delivered(sheet, count, data):
    """The frame of a batch of so many entries, that says things of its own which the entries replace."""
    metadata = sheet.proto.MessageMetadata(producer_name="p", partition_key="own", event_time=9, ordering_key=b"own")
    metadata.properties.add(key="own", value="own")
    metadata.replicated_from, metadata.schema_version, metadata.deliver_at_time = "eu", b"\x01", -5
    if count is not None:
        metadata.num_messages_in_batch = count
    command = sheet.proto.BaseCommand(type=9)
    command.message.message_id.ledgerId, command.message.message_id.entryId = 1, 2
    command.message.message_id.partition, command.message.message_id.batch_index = -1, 7
    command.message.message_id.batch_size = 2
    return framed(written(command), (written(metadata), data))


def write_items(sheet):
    sheet.note("items: each entry has the frame's id with its index, and the frame's metadata with what it says itself")
    sheet.reads("items", delivered(sheet, 2, TWICE_HI))
    sheet.reads("items", delivered(sheet, 2, TWO))
    sheet.reads("items", delivered(sheet, 1, TWO))
    sheet.reads("items", delivered(sheet, 0, b"\x01"))
    sheet.note("items, refused: no count, a negative one, a greater one, an entry that is broken")
    for count in (None, -1, -(2**31), 3, 2**31 - 1):
        sheet.refuses("items", delivered(sheet, count, TWICE_HI), reason="batch")
    sheet.refuses("items", delivered(sheet, 2, TWICE_HI[:-1]), reason="batch")


def write_sums(sheet):
    sheet.note("checksums: those of RFC 3720, B.4, and of known texts")
    for data, wanted in SUMS.items():
        assert sheet.answer("crc32c", data) == [f"sum {wanted}"], data
        sheet.reads("crc32c", data)
    sheet.note("checksums: of every length up to 80, where blocks of 8, 16 and 64 begin and end, and of a longer text")
    noise, number = b"", 1
    for _ in range(3000):
        number = (number * 1_664_525 + 1_013_904_223) % 2**32
        noise += struct.pack(">I", number)[:1]
    for length in range(81):
        sheet.reads("crc32c", noise[length : 2 * length])
    for length in (127, 128, 129, 255, 256, 257, 1023, 1024, 1025, 3000):
        sheet.reads("crc32c", noise[:length])
