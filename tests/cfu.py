"""The formats that the tests in Python write and read, each stated once: packets, image, bundle, the records as bytes, and the frames of scripts.

Sizes and limits are read from include/cfu.h. Layouts and codes are document 01's; where the header has them too, the two are compared here.
A layout is a struct.Struct: its fields in the order of their bytes, numbers little-endian, `x` for a byte that is written as zero and not looked at. Beside it
stand the places of its fields by their names, with _AT.
"""
import os
import re
import struct
import sys
import types

HEADER = os.path.join(os.path.dirname(os.path.abspath(__file__)), "..", "include", "cfu.h")
with open(HEADER, encoding="utf-8") as file:
    HEADER_TEXT = file.read()
NUMBERS = {name: int(number, 0) for name, number in re.findall(r"^#define CFU_(\w+) +(\w+)", HEADER_TEXT, re.M)}

# Sizes of lent buffers, and limits
DEVICE_SIZE, LIST_SIZE, HOST_SIZE = NUMBERS["DEVICE_SIZE"], NUMBERS["LIST_SIZE"], NUMBERS["HOST_SIZE"]
SHORT_SIZE, LONG_SIZE, DATA_SIZE = NUMBERS["SHORT_SIZE"], NUMBERS["LONG_SIZE"], NUMBERS["DATA_SIZE"]
COMPONENTS_SIZE = NUMBERS["COMPONENTS_SIZE"]
STAGING_LIMIT, BUNDLE_LIMIT = NUMBERS["STAGING_LIMIT"], NUMBERS["BUNDLE_LIMIT"]
COMPONENT_LIMIT, OFFER_LIMIT, REGION_LEAST = NUMBERS["COMPONENT_LIMIT"], NUMBERS["OFFER_LIMIT"], NUMBERS["REGION_LEAST"]

# Codes
PROTOCOL = 2
SKIP, ACCEPT, REJECT, BUSY, READY, UNSUPPORTED = 0, 1, 2, 3, 4, 0xFF
OLD_FW, INV_COMPONENT, SWAP_PENDING, WRONG_PROTOCOL, WRONG_SEGMENT, WRONG_VARIANT = 0, 1, 2, 0xE0, 0xE1, 0xE2
FIRST, LAST = 0x80, 0x40
SUCCESS, ERROR_VERIFY, ERROR_CRC, ERROR_VERSION, ERROR_INVALID_ADDR, ERROR_NO_OFFER, ERROR_INVALID = 0, 0x04, 0x05, 0x07, 0x09, 0x0A, 0x0B
START_ENTIRE_TRANSACTION, START_OFFER_LIST, END_OFFER_LIST, NOTIFY_ON_READY = 0, 1, 2, 1
# Byte 2 of information and of extended; an offer has its component's id there.
INFORMATION, EXTENDED = 0xFF, 0xFE

# The platform of the bench device
PLATFORM = 0x0042


def places(layout, names):
    """Where each field of a layout stands; names has one for each field but the `x`, in the order of their bytes."""
    fields = re.findall(r"\d*[A-Za-z]", layout.format[1:])
    begins = [struct.calcsize(layout.format[0] + "".join(fields[:i])) for i in range(len(fields))]
    starts = [at for at, field in zip(begins, fields) if field[-1] != "x"]
    assert len(starts) == len(names.split()), f"{layout.format}: {names}"
    return types.SimpleNamespace(**dict(zip(names.split(), starts)))


# ---- Versions and images ----

def version(major, minor, variant=0):
    """A version's number; its four bytes are variant, minor (2), major."""
    return major << 24 | minor << 8 | variant


def version_parts(number):
    """major, minor, variant."""
    return number >> 24, number >> 8 & 0xFFFF, number & 0xFF


def crc(data, start=0):
    """CRC-16/XMODEM: polynomial 0x1021, from 0, no reflection, no final change."""
    value = start
    for byte in data:
        value ^= byte << 8
        for _ in range(8):
            value = (value << 1 ^ (0x1021 if value & 0x8000 else 0)) & 0xFFFF
    return value


def with_crc(data, start=0):
    """Bytes with their CRC after them, high byte first."""
    return bytes(data) + crc(data, start).to_bytes(2, "big")


def filling(start, end):
    """Bytes that depend on their place, for the places from start up to end."""
    return bytes((37 * i + 11) % 256 for i in range(start, end))


# Version, component; then free bytes, and the CRC.
IMAGE = struct.Struct("<IB")


def image(component, number, size=64, free=filling):
    return with_crc(IMAGE.pack(number, component) + free(IMAGE.size, size - 2))


# ---- Packets ----

# need: a component; least: the least version of it without its variant, 3 bytes
OFFER = struct.Struct("<BBBBIB3sBBH")
OFFER_AT = places(OFFER, "segment flags id token version need least protocol reserved platform")
FLAG_I, FLAG_V = 0x40, 0x80
# kind: INFORMATION or EXTENDED; rest: reserved too
SIGNAL = struct.Struct("<BBBB12s")
SIGNAL_AT = places(SIGNAL, "code reserved kind token rest")
OFFER_REPLY = struct.Struct("<3xB4xB3xB3x")
OFFER_REPLY_AT = places(OFFER_REPLY, "token reason status")
CONTENT = struct.Struct(f"<BBHI{DATA_SIZE}s")
CONTENT_AT = places(CONTENT, "flags length sequence address data")
CONTENT_REPLY = struct.Struct("<H2xB11x")
CONTENT_REPLY_AT = places(CONTENT_REPLY, "sequence status")
# Then for each component running version, id, platform
VERSION_REPLY = struct.Struct("<B2xB")
VERSION_REPLY_AT = places(VERSION_REPLY, "count protocol")
VERSION_REPLY_ENTRY = struct.Struct("<IxBH")


def offer(component, number, token=0, segment=0, flags=0, need=0, least=0, protocol=PROTOCOL, reserved=0, platform=PLATFORM):
    """least: a version's number without its variant."""
    return OFFER.pack(segment, flags, component, token, number, need, least.to_bytes(3, "little"), protocol, reserved, platform)


def information(code, token, rest=0):
    """rest: what the reserved bytes have."""
    return SIGNAL.pack(code, rest, INFORMATION, token, bytes([rest]) * 12)


def extended(code, token, rest=0):
    return SIGNAL.pack(code, rest, EXTENDED, token, bytes([rest]) * 12)


def offer_reply(token, status, reason=0):
    return OFFER_REPLY.pack(token, reason, status)


def content(flags, sequence, address, data=b"", length=None, pad=0):
    """length: the length field, where it is not the data's; pad: what unused data has."""
    data = bytes(data[:DATA_SIZE])
    return CONTENT.pack(flags, len(data) if length is None else length, sequence, address, data.ljust(DATA_SIZE, bytes([pad])))


def content_reply(sequence, status=SUCCESS):
    return CONTENT_REPLY.pack(sequence, status)


def version_reply(entries, protocol=PROTOCOL):
    """entries: (running version, id, platform)."""
    return (VERSION_REPLY.pack(len(entries), protocol) + b"".join(VERSION_REPLY_ENTRY.pack(*entry) for entry in entries)).ljust(LONG_SIZE, b"\0")


def blocks(data):
    """Where the blocks of an image begin, each with its flags and its data."""
    starts = range(0, len(data), DATA_SIZE)
    return [(at, (FIRST if at == 0 else 0) | (LAST if at == starts[-1] else 0), data[at:at + DATA_SIZE]) for at in starts]


# ---- The bundle ----

# How many offers, the format's number; then for each offer an entry; then the bodies
BUNDLE_HEAD = struct.Struct("<BB6x")
BUNDLE_HEAD_AT = places(BUNDLE_HEAD, "count format")
BUNDLE_FORMAT = 1
# offset, length: those of the body
ENTRY = struct.Struct(f"<{OFFER.size}sII")
ENTRY_AT = places(ENTRY, "offer offset length")
# Then the data
BODY_RECORD = struct.Struct("<IB")
BODY_RECORD_AT = places(BODY_RECORD, "address length")


def entry_start(place):
    """Where an entry stands in a bundle; places count from 0."""
    return BUNDLE_HEAD.size + ENTRY.size * place


def body_record(address, data):
    return BODY_RECORD.pack(address, len(data)) + data


def body(data, size=DATA_SIZE):
    """An image as records of at most so many bytes."""
    return b"".join(body_record(at, data[at:at + size]) for at in range(0, len(data), size))


# The shortest run of 0xFF that the bundle's writer leaves out (document 02, A3), and the bytes of the CRC
RUN_LEAST, CRC_SIZE = 52, 2


def written_records(data):
    """The records of an image as A3 has them: (address, data). Of the bytes before the CRC each longest run of 52 or more bytes 0xFF is left out, what is left is
    cut at 52 bytes, and the CRC is the last record."""
    end = len(data) - CRC_SIZE
    runs = [found.span() for found in re.finditer(rb"\xFF{%d,}" % RUN_LEAST, data[:end])]
    left = zip([0] + [after for _, after in runs], [before for before, _ in runs] + [end])
    cut = [(at, data[at:min(at + DATA_SIZE, after)]) for before, after in left for at in range(before, after, DATA_SIZE)]
    return cut + [(end, data[end:])]


def written_body(data):
    """The body that the bundle's writer makes of an image."""
    return b"".join(body_record(*record) for record in written_records(data))


def bundle(offers):
    """offers: (offer, body)."""
    table, bodies = b"", b""
    for packet, data in offers:
        table += ENTRY.pack(packet, entry_start(len(offers)) + len(bodies), len(data))
        bodies += data
    return BUNDLE_HEAD.pack(len(offers), BUNDLE_FORMAT) + table + bodies


def split(data):
    """The offers of a bundle, each with its body, as `bundle` takes them. Only what cutting needs is judged, and a ValueError has the words."""
    if len(data) < BUNDLE_HEAD.size:
        raise ValueError("the head runs past the end")
    count, number = BUNDLE_HEAD.unpack_from(data)
    if number != BUNDLE_FORMAT:
        raise ValueError(f"the format's number is {number}, not {BUNDLE_FORMAT}")
    if len(data) < entry_start(count):
        raise ValueError("the table runs past the end")
    offers = []
    for place in range(count):
        packet, offset, length = ENTRY.unpack_from(data, entry_start(place))
        if offset + length > len(data):
            raise ValueError(f"the body of entry {place + 1} runs past the end")
        offers.append((packet, data[offset:offset + length]))
    return offers


# ---- Records ----

# base, length: those of the region; floor: the lowest allowed version (document 02, A5)
LISTED = struct.Struct("<BIIII")
LISTED_AT = places(LISTED, "id running base length floor")
# 0 nothing, 1 pending; the staged version
STAGED = struct.Struct("<BI")
# Platform, staging length, count
DEVICE = struct.Struct("<HIB")
# 0 idle, 1 offered, 2 receiving; slot, token, next sequence
SESSION = struct.Struct("<BBBH")
IDLE, OFFERED, RECEIVING = 0, 1, 2
# 0 nothing, 1 owed; the token
OWED = struct.Struct("<BB")
# The content packet taken last (document 02, A4), a session's that receives
PREVIOUS = struct.Struct(f"<{LONG_SIZE}s")
# first, second: two numbers of the stage
HOST = struct.Struct("<BBIIIIIBBB")
HOST_AT = places(HOST, "token stage first second mask packets passes skipped landed passed")
HOST_FRESH, HOST_OPENING, HOST_LISTING, HOST_OFFERING, HOST_WAITING, HOST_SENDING, HOST_CLOSING, HOST_ENDED = range(8)
DONE, H1, H2, H3, H4 = range(5)

# A component of a version reply as it is lent
RUNNING = struct.Struct("<IBH")
RUNNING_AT = places(RUNNING, "version id platform")

NO_COMPONENT = (0, 0, 0, 0, 0)
NO_SESSION = (IDLE, 0, 0, 0)


def filled(components):
    """Components, and unused ones after them: as many as a list and a record have."""
    return (list(components) + [NO_COMPONENT] * COMPONENT_LIMIT)[:COMPONENT_LIMIT]


def listed(component, running, base, length, floor=0):
    """A component as set-up's list has it, and a record before what is staged."""
    return LISTED.pack(component, running, base, length, floor)


def setup_list(components):
    """Set-up's list. components: (id, running version, base, length), and perhaps the floor, which is 0 where it is left out."""
    return b"".join(listed(*component) for component in filled(components))


def device_record(components, staging, session=NO_SESSION, owed=None, staged=None, platform=PLATFORM, count=None, previous=b""):
    """components as in setup_list; owed: a token; staged: {slot: version}; previous: a content packet, with zeros after it where it is short."""
    assert len(previous) <= PREVIOUS.size
    staged = staged or {}
    out = DEVICE.pack(platform, staging, len(components) if count is None else count) + SESSION.pack(*session)
    out += OWED.pack(0, 0) if owed is None else OWED.pack(1, owed)
    out += PREVIOUS.pack(previous)
    for slot, component in enumerate(filled(components)):
        out += listed(*component) + (STAGED.pack(1, staged[slot]) if slot in staged else STAGED.pack(0, 0))
    return out


def host_record(token, stage, first=0, second=0, mask=0, packets=0, passes=0, skipped=0, landed=0, passed=0):
    return HOST.pack(token, stage, first, second, mask, packets, passes, skipped, landed, passed)


# ---- Scripts ----

# What run_packets builds a packet from. Offer: segment, I, V, id, token, version, need, least version of it, protocol, platform; content reply: sequence,
# status
OFFER_FIELDS = struct.Struct("<BBBBBIBIBH")
CONTENT_REPLY_FIELDS = struct.Struct("<HB")


class Script:
    """Frames for a program: kind (1 byte), the payload's length, the payload."""

    # One byte of length: what main_loop reads; two: what the programs that run a script read
    SHORT, LONG = "<cB", "<cH"

    def __init__(self, head):
        self.head = struct.Struct(head)
        self.bytes = bytearray()

    def frame(self, kind, payload=b""):
        self.bytes += self.head.pack(kind.encode(), len(payload)) + payload

    def text(self, text):
        """What the program prints as it stands."""
        self.frame("#", text.encode("ascii"))

    def case(self, text):
        self.text(f"# {text}\n")

    def write(self):
        sys.stdout.buffer.write(self.bytes)


# ---- What the header has too ----

def hold(name, number):
    assert NUMBERS[name] == number, f"CFU_{name}: include/cfu.h has {NUMBERS[name]:#x}, tests/cfu.py has {number:#x}"


def hold_comment(pattern, *numbers):
    """Places and sizes that a comment of the header gives."""
    found = re.search(pattern, HEADER_TEXT)
    assert found and tuple(map(int, found.groups())) == numbers, f"include/cfu.h, tests/cfu.py has {numbers} for: {pattern}"


assert crc(b"123456789") == 0x31C3 and crc(b"123456789", 0xFFFF) == 0x29B1
for layout in (OFFER, SIGNAL, OFFER_REPLY, CONTENT_REPLY):
    hold("SHORT_SIZE", layout.size)
hold("LONG_SIZE", CONTENT.size)
hold("DATA_AT", CONTENT_AT.data)
hold("LONG_SIZE", VERSION_REPLY.size + COMPONENT_LIMIT * VERSION_REPLY_ENTRY.size)
hold("LIST_SIZE", COMPONENT_LIMIT * LISTED.size)
DEVICE_HEAD_SIZE = DEVICE.size + SESSION.size + OWED.size + PREVIOUS.size
hold("DEVICE_SIZE", DEVICE_HEAD_SIZE + COMPONENT_LIMIT * (LISTED.size + STAGED.size))
hold("HOST_SIZE", HOST.size)
hold("COMPONENTS_SIZE", COMPONENT_LIMIT * RUNNING.size)
for name, number in dict(
        DEVICE_SESSION_AT=DEVICE.size, DEVICE_OWED_AT=DEVICE.size + SESSION.size,
        DEVICE_PREVIOUS_AT=DEVICE.size + SESSION.size + OWED.size, DEVICE_COMPONENTS_AT=DEVICE_HEAD_SIZE,
        COMPONENT_SIZE=LISTED.size + STAGED.size, COMPONENT_RUNNING_AT=LISTED_AT.running, COMPONENT_REGION_AT=LISTED_AT.base, COMPONENT_STAGED_AT=LISTED.size,
        LISTED_SIZE=LISTED.size, RUNNING_SIZE=RUNNING.size, RUNNING_ID_AT=RUNNING_AT.id, BUNDLE_HEAD_SIZE=BUNDLE_HEAD.size, BUNDLE_ENTRY_SIZE=ENTRY.size,
        HOST_STAGE_AT=HOST_AT.stage, HOST_FIRST_AT=HOST_AT.first, HOST_SECOND_AT=HOST_AT.second, HOST_MASK_AT=HOST_AT.mask, HOST_SKIPPED_AT=HOST_AT.skipped,
        HOST_LANDED_AT=HOST_AT.landed, HOST_PASSED_AT=HOST_AT.passed).items():
    hold(name, number)
hold_comment(r"\n \* +(\d+)  CFU_COMPONENT_LIMIT times (\d+) bytes: id \(1\), running version", DEVICE_HEAD_SIZE, LISTED.size + STAGED.size)
hold_comment(r"(\d+)  stage \(1\): 0 idle", DEVICE.size)
hold_comment(r"(\d+)  owed ready-reply", DEVICE.size + SESSION.size)
hold_comment(r"(\d+)  previous packet \(CFU_LONG_SIZE\)", DEVICE.size + SESSION.size + OWED.size)
hold_comment(r"a byte (\d+), (\d+) or (\d+) over 1,", HOST_AT.skipped, HOST_AT.landed, HOST_AT.passed)
hold_comment(r"(\d+)  mask of completed offers \(4\), (\d+) packets \(4\), (\d+) passes \(4\)", HOST_AT.mask, HOST_AT.packets, HOST_AT.passes)
hold_comment(r"the 16 bytes of the bundle at (\d+) \+ (\d+) i", BUNDLE_HEAD.size, ENTRY.size)
for code, number in dict(
        PROTOCOL=PROTOCOL, OFFER_SKIP=SKIP, OFFER_ACCEPT=ACCEPT, OFFER_REJECT=REJECT, OFFER_BUSY=BUSY, OFFER_READY=READY, OFFER_UNSUPPORTED=UNSUPPORTED,
        REJECT_OLD_FW=OLD_FW, REJECT_INV_COMPONENT=INV_COMPONENT, REJECT_SWAP_PENDING=SWAP_PENDING, REJECT_WRONG_PROTOCOL=WRONG_PROTOCOL,
        REJECT_WRONG_SEGMENT=WRONG_SEGMENT, REJECT_WRONG_VARIANT=WRONG_VARIANT, FLAG_FIRST_BLOCK=FIRST, FLAG_LAST_BLOCK=LAST, SUCCESS=SUCCESS, ERROR_VERIFY=ERROR_VERIFY, ERROR_CRC=ERROR_CRC,
        ERROR_VERSION=ERROR_VERSION, ERROR_INVALID_ADDR=ERROR_INVALID_ADDR, ERROR_NO_OFFER=ERROR_NO_OFFER, ERROR_INVALID=ERROR_INVALID,
        INFO_START_ENTIRE_TRANSACTION=START_ENTIRE_TRANSACTION, INFO_START_OFFER_LIST=START_OFFER_LIST, INFO_END_OFFER_LIST=END_OFFER_LIST,
        NOTIFY_ON_READY=NOTIFY_ON_READY).items():
    hold(code, number)
