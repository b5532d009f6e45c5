"""The cases: which bytes are asked for."""

from frames import write_frames
from sheet import written

TEXT = "\0\t\n\"\\' ü€😀\x7f"

# What fields of each type hold, by how the message is filled and the number of the field.
ORDINARY = {
    "string": lambda field: field.name,
    "bytes": lambda field: bytes([0, field.number, 128, 255]),
    "uint32": lambda field: 70_000 + field.number,
    "uint64": lambda field: 300 + field.number,
    "int32": lambda field: 100 * field.number,
    "int64": lambda field: 5 + 1000 * field.number,
    "bool": lambda field: True,
}

GREATEST = {
    "string": lambda field: TEXT * 10,
    "bytes": lambda field: bytes([255]) * 130,
    "uint32": lambda field: 2**32 - 1,
    "uint64": lambda field: 2**64 - 1,
    "int32": lambda field: 2**31 - 1,
    "int64": lambda field: 2**63 - 1,
    "bool": lambda field: True,
}

LEAST = {
    "string": lambda field: "",
    "bytes": lambda field: b"",
    "uint32": lambda field: 0,
    "uint64": lambda field: 0,
    "int32": lambda field: -(2**31),
    "int64": lambda field: -(2**63),
    "bool": lambda field: False,
}

NEGATIVE = {
    **ORDINARY,
    "int32": lambda field: -field.number,
    "int64": lambda field: -(2**40) - field.number,
    "bool": lambda field: False,
}

# Fields of a number that no message has, one of each wire type that is skipped.
UNKNOWN = [
    bytes.fromhex("807d05"),
    bytes.fromhex("817d3132333435363738"),
    bytes.fromhex("827d026162"),
    bytes.fromhex("857d31323334"),
]

# A value of each wire type.
VALUES = {0: b"\x01", 1: b"\1\2\3\4\5\6\7\x08", 2: b"\x01\x00", 5: b"\1\2\3\4"}


def write_cases(sheet):
    for kind in sheet.messages:
        write_message(sheet, kind)
    write_numbers(sheet)
    write_keys(sheet)
    write_embedded(sheet)
    write_commands(sheet)
    write_refused_commands(sheet)
    write_frames(sheet)


def type_of(field):
    types = {"TYPE_STRING", "TYPE_BYTES", "TYPE_UINT32", "TYPE_UINT64", "TYPE_INT32", "TYPE_INT64", "TYPE_BOOL"}
    return next(t[5:].lower() for t in types if getattr(field, t) == field.type)


def fill(value, values, times=2):
    """Sets each field. A repeated one gets as many, the last of messages with zero or nothing in it."""
    for field in value.DESCRIPTOR.fields:
        if field.label == field.LABEL_REPEATED:
            for i in range(times):
                add(value, field, values, i + 1 == times)
        elif field.message_type:
            getattr(value, field.name).SetInParent()
            fill(getattr(value, field.name), values, times)
        else:
            setattr(value, field.name, values[type_of(field)](field))
    return value


def add(value, field, values, last):
    held = getattr(value, field.name)
    if field.message_type and last:
        held.add()
    elif field.message_type:
        fill(held.add(), values)
    else:
        held.append(NEGATIVE[type_of(field)](field) if last else values[type_of(field)](field))


def pieces(value):
    """The bytes of each field that stands there, in the order of the numbers. Each element of a repeated one is a piece."""
    found = []
    for field, held in value.ListFields():
        for part in held if field.label == field.LABEL_REPEATED else [held]:
            alone = type(value)()
            if field.label == field.LABEL_REPEATED:
                getattr(alone, field.name).append(part)
            elif field.message_type:
                getattr(alone, field.name).CopyFrom(part)
            else:
                setattr(alone, field.name, part)
            found.append(alone.SerializePartialToString())
    return found


def key(number, wire):
    """The key of a field."""
    key, out = 8 * number + wire, b""
    while key > 127:
        out += bytes([key & 127 | 128])
        key >>= 7
    return out + bytes([key])


def delimited(number, data):
    """A field of bytes, of fewer than 128."""
    assert len(data) < 128
    return key(number, 2) + bytes([len(data)]) + data


def write_message(sheet, kind):
    """The same cases for each message."""
    made = sheet.messages[kind]
    sheet.note(f"{kind}: no field, and those that are required, with zero or nothing in them")
    sheet.reads(kind, b"")
    sheet.reads(kind, written(made()))
    if not made.DESCRIPTOR.fields:
        sheet.note(f"{kind}: a field that is not known")
        sheet.reads(kind, UNKNOWN[0])
        return
    full = [fill(made(), values) for values in (ORDINARY, NEGATIVE, GREATEST)]
    full.append(fill(made(), LEAST, 1))
    sheet.note(f"{kind}: every field, then with negative, greatest and least values")
    for value in full:
        sheet.reads(kind, written(value))
    parts = pieces(full[0])
    among = [part + UNKNOWN[i % 4] for i, part in enumerate(parts)]
    sheet.note(f"{kind}: unknown fields between them; in another order; twice")
    sheet.reads(kind, UNKNOWN[3] + b"".join(among))
    sheet.reads(kind, b"".join(reversed(parts)))
    sheet.reads(kind, b"".join(pieces(full[1]) + parts))
    write_wrong_types(sheet, kind, made)


def write_wrong_types(sheet, kind, made):
    sheet.note(f"{kind}: each field with each other wire type, and text that is not UTF-8")
    for field in sorted(made.DESCRIPTOR.fields, key=lambda f: f.number):
        delimits = field.message_type or type_of(field) in ("string", "bytes")
        right = 2 if delimits else 0
        for wire, data in VALUES.items():
            if wire != right and not (field.name == "ack_set" and wire == 2):
                sheet.refuses(kind, key(field.number, wire) + data)
        if not field.message_type and type_of(field) == "string":
            sheet.refuses(kind, delimited(field.number, b"a\xff"))


def write_numbers(sheet):
    """How numbers are read."""
    sheet.note("numbers: the second entry of ledger 1, without a partition and with one that is negative")
    for digits in ("08011002", "0801100218" + "ff" * 9 + "01"):
        sheet.reads("MessageIdData", bytes.fromhex(digits))
    sheet.note("numbers: a long spelling, and ten bytes of which the last is 1")
    for digits in ("8800", "88808080808080808000", "88ffffffffffffffff01"):
        sheet.reads("MessageIdData", b"\x08" + bytes.fromhex(digits))
    sheet.note("numbers: an int32 and a uint32 take the low 32 bits, a flag is what is not zero")
    for digits in ("ffffffff0f", "ffffffff1f", "8080808010", "80808080f8ffffffff01"):
        sheet.reads("MessageIdData", b"\x18" + bytes.fromhex(digits))
        sheet.reads("flow", b"\x10" + bytes.fromhex(digits))
        sheet.reads("active_consumer_change", b"\x10" + bytes.fromhex(digits))
    for digits in ("02", "8000", "80808080808080808001"):
        sheet.reads("active_consumer_change", b"\x10" + bytes.fromhex(digits))
    sheet.note("numbers, refused: a tenth byte above 1, eleven bytes, and where the last is missing")
    for digits in ("ff" * 9 + "02", "80" * 9 + "02", "80" * 10 + "00", "80", "", "ff" * 9):
        sheet.refuses("MessageIdData", b"\x08" + bytes.fromhex(digits))
    sheet.note("numbers: a list of them, one by one, packed, both, packed with none, and packed with a long spelling")
    negative = "ff" * 9 + "01"
    for digits in (f"2805 28{negative}", f"2a0b05{negative}", f"2a0105 28{negative} 2a020607", "2a00", "2a0405800005"):
        sheet.reads("MessageIdData", bytes.fromhex("08011002" + digits))
        sheet.reads("message", bytes.fromhex(digits.replace("28", "20").replace("2a", "22")))
    sheet.note("numbers: packed, refused where the last is cut, has eleven bytes, or a tenth above 1")
    for digits in ("2a0205ff", "2a0180", "2a0b" + "80" * 10 + "00", "2a0a" + "ff" * 9 + "02"):
        sheet.refuses("MessageIdData", bytes.fromhex("08011002" + digits))


def write_keys(sheet):
    """How keys of fields, and lengths, are read."""
    sheet.note("keys: the last of several occurrences, where each can be read")
    sheet.reads("success", bytes.fromhex("0801 0802 0803"))
    sheet.reads("error", bytes.fromhex("1a0161 1a0162"))
    sheet.refuses("error", bytes.fromhex("1a01ff 1a0162"))
    sheet.refuses("success", bytes.fromhex("0a00 0802"))
    sheet.note("keys: a long spelling, and the greatest number")
    sheet.reads("success", bytes.fromhex("8800 07"))
    # Google's parser takes at most five bytes of a key, and ten of a number.
    sheet.reads_as("success", bytes.fromhex("88808080808080808000 07"), bytes.fromhex("08 07"))
    for wire, value in VALUES.items():
        sheet.reads("success", bytes([248 + wire]) + b"\xff\xff\xff\x0f" + value + b"\x08\x07")
    sheet.note("keys: refused are number 0, a key above 32 bits, and the wire types 3, 4, 6 and 7")
    for wire, value in VALUES.items():
        sheet.refuses("success", bytes([wire]) + value)
        sheet.refuses("success", bytes([128 + wire]) + b"\x80\x80\x80\x10" + value)
        sheet.refuses("success", bytes([136 + wire]) + b"\x80\x80\x80\x10" + value)
    for wire in (3, 4, 6, 7):
        sheet.refuses("success", key(1, wire))
        sheet.refuses("success", key(2000, wire))
    sheet.refuses("success", key(2000, 3) + key(2000, 4))
    sheet.note("lengths: a long spelling; refused are those past the end, up to the greatest")
    sheet.reads("get_schema", bytes.fromhex("12810061"))
    sheet.reads("get_schema", bytes.fromhex("1a80808000"))
    for digits in ("1202 61", "1a02 61", "1201", "12", "12ffffffff0f", "12" + "ff" * 9 + "01", "12" + "ff" * 9 + "02"):
        sheet.refuses("get_schema", bytes.fromhex(digits))
    for digits in ("817d 31323334353637", "857d 313233", "827d 02 61", "807d", "827d", "827d" + "ff" * 9 + "01"):
        sheet.refuses("get_schema", bytes.fromhex(digits))
    sheet.note("texts: what is UTF-8, and what is not: cut, too long, a surrogate, above the greatest")
    for digits in ("c3bc", "e282ac", "f09f9880", "00"):
        sheet.reads("get_schema", delimited(2, bytes.fromhex(digits)))
    for digits in ("c3", "e282", "f09f98", "80", "c080", "e08080", "eda080", "f4908080", "fe", "6162ff"):
        sheet.refuses("get_schema", delimited(2, bytes.fromhex(digits)))
        sheet.reads("get_schema", delimited(3, bytes.fromhex(digits)))


def write_embedded(sheet):
    """Messages in messages."""
    sheet.note("embedded: the occurrences of one message are joined, with unknown fields in it and around it")
    sheet.reads("message", bytes.fromhex("0805 12020801 a00601 12021002"))
    sheet.reads("message", bytes.fromhex("12020801 12042a020506 120408032807 1203a00601"))
    sheet.reads("send_receipt", bytes.fromhex("1a00 1a0408011002 1a021003"))
    sheet.reads("success", bytes.fromhex("12030a0161 12022a00 12052a030a016b"))
    sheet.reads("auth_challenge", bytes.fromhex("12030a016d 1203120164 12030a016e"))
    sheet.note("embedded: those of a repeated one are not joined")
    sheet.reads("ack", bytes.fromhex("1a020801 1a021002 1a00"))
    sheet.reads("subscribe", delimited(10, delimited(1, b"k")) + delimited(10, delimited(2, b"v")))
    sheet.note("embedded: each occurrence has to be one by itself: cut, with number 0, not UTF-8")
    for inner in ("08", "0001", "1b", "0a0108", "08ffffffffffffffffff02"):
        bad = delimited(2, bytes.fromhex(inner))
        good = bytes.fromhex("120408011002")
        sheet.refuses("message", bad)
        sheet.refuses("message", bad + good)
        sheet.refuses("message", good + bad)
    sheet.refuses("message", bytes.fromhex("120108 120101"))
    sheet.refuses("success", delimited(2, delimited(1, b"\xff")) + delimited(2, delimited(1, b"a")))
    sheet.refuses("success", delimited(2, delimited(5, delimited(1, b"\xff"))))
    sheet.refuses("success", delimited(2, delimited(5, b"\x0a\x02a")))
    sheet.refuses("ack", bytes.fromhex("1a020801 1a0110"))
    sheet.refuses("MessageMetadata", delimited(13, delimited(3, delimited(2, b"\xc3"))))
    sheet.note("cut: an id with all its fields, after each of its bytes")
    whole = written(fill(sheet.parts["MessageIdData"](), NEGATIVE))
    ends = {0}
    for part in pieces(fill(sheet.parts["MessageIdData"](), NEGATIVE)):
        ends.add(max(ends) + len(part))
    for end in range(len(whole)):
        if end in ends:
            sheet.reads("MessageIdData", whole[:end])
        else:
            sheet.refuses("MessageIdData", whole[:end])


def command(sheet, kind, values=None):
    """The command with this body, with every field or with none."""
    value = sheet.proto.BaseCommand()
    wanted = sheet.bodies[kind].DESCRIPTOR
    body = getattr(value, next(f.name for f in value.DESCRIPTOR.fields if f.message_type == wanted))
    body.SetInParent()
    if values is not None:
        fill(body, values)
    return written(value)


def write_commands(sheet):
    sheet.note("commands: each body with no field and with every field")
    for kind in sheet.bodies:
        sheet.reads("command", command(sheet, kind))
        sheet.reads("command", command(sheet, kind, ORDINARY))
    sheet.note("commands: the body decides the type, wherever the type stands, and where it does not stand")
    for digits in ("1200", "08031200", "12000803", "0802 0803 1200", "08ffffffffffffffffff01 1200", "0864 920100"):
        sheet.reads("command", bytes.fromhex(digits))
    sheet.note("commands: without a body the type is what stands there last")
    for digits in ("", "0802", "0826", "0802 0863", "08ffffffffffffffffff01", "08ffffffff07", "8803 00"):
        sheet.reads("command", bytes.fromhex(digits))
    sheet.note("commands: bodies that are not known are skipped, before and behind the one that is")
    for number in (38, 40, 63, 1000):
        unknown = delimited(number, b"\x08\x01")
        sheet.reads("command", b"\x08\x02" + unknown)
        sheet.reads("command", unknown + b"\x08\x02\x12\x00" + unknown)
    sheet.reads("command", bytes.fromhex("8803 00 0802 1200"))
    sheet.note("commands: the occurrences of one body are joined")
    sheet.reads("command", bytes.fromhex("0803 1a020a00 1a020a00"))
    sheet.reads("command", bytes.fromhex("0803 1a030a0161 1a020a00 1a021005"))
    sheet.reads("command", bytes.fromhex("4a020805 0809 4a0412020801 a00601 4a0412021002"))
    sheet.reads("command", bytes.fromhex("9a0100 9a0100"))
    sheet.note("commands: other clients: the crate's of version 6.0.0, and this one's")
    sheet.reads("command", bytes.fromhex("0802121a0a1070756c7361722d72732d76362e302e30200c2a046e6f6e65"))
    sheet.reads("command", bytes.fromhex("080212140a1070756c7361722d72732d76362e372e32200c"))


def write_refused_commands(sheet):
    sheet.note("commands, refused: two bodies, number 0, wire type 3, past the end, a great number, no UTF-8, a great key")
    for digits in (
        "0802 1200 1a00",
        "0803 1a020a00 00",
        "0803 1b",
        "0803 1a050a00",
        "08ffffffffffffffffff02",
        "0803 1a030a01ff",
        "0803 808080801000",
    ):
        sheet.refuses("command", bytes.fromhex(digits))
    sheet.note("commands, refused: two bodies with others between, and with one that is not known")
    for digits in ("920100 9a0100", "1200 1200 1a00", "1200 b2020100 aa0200", "aa0200 a00600 a20200"):
        sheet.refuses("command", bytes.fromhex(digits))
    sheet.note("commands, refused: each body with each other wire type, and the type too")
    for number in range(1, 38):
        for wire, value in VALUES.items():
            if wire != (0 if number == 1 else 2):
                sheet.refuses("command", key(number, wire) + value)
    sheet.note("commands, refused: a body that is none by itself, though another of its kind follows")
    for digits in ("12010a 120100", "1a030a01ff 1a020a00", "0803 1a0108 1a020a00", "4a0412020801 4a0312020800"):
        sheet.refuses("command", bytes.fromhex(digits))
