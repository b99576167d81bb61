#!/usr/bin/env python3
"""Writes the script that run_packets reads: its cases, as frames.

Use: tests/packets/cases.py > crates/run_packets/stdin

A frame is kind (1 byte), length n (2 bytes), payload (n bytes). Kind '#' is text: the case's name, which the line begins with. A capital letter
builds a packet from its fields, in wire order and little-endian; a small letter reads a packet's bytes; 'x' takes the CRC of a message."""

import os
import sys

sys.path.append(os.path.join(os.path.dirname(os.path.abspath(__file__)), ".."))
import cfu  # noqa: E402

script = cfu.Script(cfu.Script.LONG)


def case(name, kind, payload):
    script.text(name + ":")
    script.frame(kind, payload)


# A version is its three parts: major, minor, variant. A component is version, id, platform.

def build_version_reply(what, count, protocol, components):
    assert len(components) == cfu.COMPONENT_LIMIT
    payload = bytes([count, protocol]) + b"".join(cfu.RUNNING.pack(cfu.version(*v), id, platform) for v, id, platform in components)
    case(f"version reply, build, {what}", "V", payload)


def build_offer(what, segment, i, v, id, token, offered, need, least, protocol, platform):
    case(f"offer, build, {what}", "O", cfu.OFFER_FIELDS.pack(segment, i, v, id, token, cfu.version(*offered), need, least, protocol, platform))


def build_information(what, code, token):
    case(f"information, build, {what}", "I", bytes([code, token]))


def build_extended(what, code, token):
    case(f"extended, build, {what}", "E", bytes([code, token]))


def build_offer_reply(what, token, reason, status):
    case(f"offer reply, build, {what}", "R", bytes([token, reason, status]))


def build_content(what, flags, length, sequence, address, data):
    assert len(data) == cfu.DATA_SIZE
    case(f"content, build, {what}", "C", cfu.CONTENT.pack(flags, length, sequence, address, data))


def build_content_reply(what, sequence, status):
    case(f"content reply, build, {what}", "S", cfu.CONTENT_REPLY_FIELDS.pack(sequence, status))


def read(kind, name):
    return lambda what, p: case(f"{name}, {what}", kind, p)


read_version_reply = read("v", "version reply, read")
read_offer_channel = read("o", "offer channel, read")
read_offer_reply = read("r", "offer reply, read")
read_content = read("c", "content, read")
read_content_reply = read("s", "content reply, read")
crc = read("x", "CRC")


# The cases.

NO_COMPONENT = ((0, 0, 0), 0, 0)
LARGEST = ((255, 65535, 255), 255, 65535)
COUNTING = bytes(range(cfu.LONG_SIZE))
MOST = cfu.COMPONENT_LIMIT


def with_bytes(p, at):
    p = bytearray(p)
    for place, b in at.items():
        p[place] = b
    return bytes(p)


def filled(b, count, protocol):
    return with_bytes([b] * cfu.LONG_SIZE, {cfu.VERSION_REPLY_AT.count: count, cfu.VERSION_REPLY_AT.protocol: protocol})


def counting(count, protocol):
    return with_bytes(COUNTING, {cfu.VERSION_REPLY_AT.count: count, cfu.VERSION_REPLY_AT.protocol: protocol})


def version_cases():
    bench = [((1, 2, 0), 1, cfu.PLATFORM), ((1, 1, 0), 2, cfu.PLATFORM)]
    bench += [NO_COMPONENT] * (MOST - len(bench))
    different = [((1 + 10 * i, 0x0203 + 0x1010 * i, 4 + 10 * i), 1 + i, 0x0506 + 0x1010 * i) for i in range(MOST)]
    build_version_reply("example E1", 2, 2, bench)
    build_version_reply("no component", 0, 2, [NO_COMPONENT] * MOST)
    build_version_reply("no component, the rest set", 0, 2, [LARGEST] * MOST)
    build_version_reply("one component, the rest set", 1, 2, [LARGEST] * MOST)
    build_version_reply("seven of the smallest", MOST, 2, [NO_COMPONENT] * MOST)
    build_version_reply("seven of the largest", MOST, 2, [LARGEST] * MOST)
    build_version_reply("seven different ones", MOST, 2, different)
    for count in (MOST + 1, 255):
        build_version_reply(f"count {count}", count, 2, [LARGEST] * MOST)
    for protocol, more in ((0, ""), (1, ""), (3, ""), (18, ", whose low four bits are 2"), (255, "")):
        build_version_reply(f"protocol {protocol}{more}", MOST, protocol, [LARGEST] * MOST)
    read_version_reply("example E1", bytes.fromhex("02000002 0002000100014200 0001000100024200").ljust(cfu.LONG_SIZE, b"\0"))
    read_version_reply("no component", filled(0, 0, 2))
    read_version_reply("no component, the rest set", filled(255, 0, 2))
    read_version_reply("one component, the rest set", counting(1, 2))
    read_version_reply("seven of the smallest", filled(0, MOST, 2))
    read_version_reply("seven of the largest, reserved bits set", filled(255, MOST, 0xF2))
    read_version_reply("seven different ones", counting(MOST, 2))
    read_version_reply("one reserved bit of byte 3", filled(0, MOST, 0x12))
    for count in (MOST + 1, 255):
        read_version_reply(f"count {count}", filled(255, count, 2))
    for protocol in (0, 1, 3):
        read_version_reply(f"protocol {protocol}", filled(255, MOST, protocol))
    read_version_reply("protocol 15, reserved bits set", filled(255, MOST, 255))
    read_version_reply("no bytes", b"")
    read_version_reply(f"{cfu.SHORT_SIZE} bytes", counting(MOST, 2)[:cfu.SHORT_SIZE])
    read_version_reply(f"{cfu.LONG_SIZE - 1} bytes", counting(MOST, 2)[:-1])
    read_version_reply(f"{cfu.LONG_SIZE + 1} bytes", filled(0, MOST, 2) + b"\0")
    read_version_reply(f"{cfu.LONG_SIZE - 1} bytes with count {MOST + 1} and protocol 3", counting(MOST + 1, 3)[:-1])


def offer_cases():
    top = (255, 65535, 255)
    build_offer("example E2", 0, 0, 0, 1, 0xA5, (1, 3, 0), 0, 0, 2, 0x0042)
    build_offer("all fields smallest", 0, 0, 0, 0, 0, (0, 0, 0), 0, 0, 0, 0)
    build_offer("all fields largest", 255, 1, 1, 0xFD, 255, top, 255, 0xFFFFFF, 15, 65535)
    build_offer("all fields different", 1, 0, 0, 2, 3, (7, 0x0605, 4), 8, 0x0B0A09, 12, 0x0F0E)
    build_offer("I alone", 0, 1, 0, 0, 0, (0, 0, 0), 0, 0, 0, 0)
    build_offer("V alone", 0, 0, 1, 0, 0, (0, 0, 0), 0, 0, 0, 0)
    build_offer("id over 0xFD", 255, 1, 1, 0xFE, 255, top, 255, 0xFFFFFF, 15, 65535)
    build_offer("largest id", 255, 1, 1, 0xFF, 255, top, 255, 0xFFFFFF, 15, 65535)
    build_offer("least version over 24 bits", 255, 1, 1, 0xFD, 255, top, 255, 0x1000000, 15, 65535)
    build_offer("largest least version", 255, 1, 1, 0xFD, 255, top, 255, 0xFFFFFFFF, 15, 65535)
    build_offer("protocol over four bits", 255, 1, 1, 0xFD, 255, top, 255, 0xFFFFFF, 16, 65535)
    build_offer("largest protocol", 255, 1, 1, 0xFD, 255, top, 255, 0xFFFFFF, 255, 65535)
    example = bytes.fromhex("000001A5 00030001 00000000 02004200")
    zeros, ones = bytes(cfu.OFFER.size), b"\xFF" * cfu.OFFER.size
    read_offer_channel("example E2", example)
    read_offer_channel("all fields different", bytes([1, 0, *range(2, 16)]))
    read_offer_channel("all fields smallest", zeros)
    at = cfu.OFFER_AT
    read_offer_channel("all fields largest, reserved bits set", with_bytes(ones, {at.id: 0xFD}))
    read_offer_channel("I alone", with_bytes(zeros, {at.flags: cfu.FLAG_I, at.id: 1, at.protocol: 2}))
    read_offer_channel("V alone", with_bytes(zeros, {at.flags: cfu.FLAG_V, at.id: 1, at.protocol: 2}))
    read_offer_channel(f"reserved bits of byte {at.flags}", with_bytes(zeros, {at.flags: 0xFF ^ cfu.FLAG_I ^ cfu.FLAG_V, at.id: 1, at.protocol: 2}))
    read_offer_channel(f"reserved bits of byte {at.protocol}, and byte {at.reserved}", with_bytes(zeros, {at.id: 1, at.protocol: 0xF2, at.reserved: 255}))
    read_offer_channel("protocol 1", with_bytes(zeros, {at.id: 1, at.protocol: 1}))
    read_offer_channel("protocol 15", with_bytes(zeros, {at.id: 1, at.protocol: 15}))
    read_offer_channel("id 0xFD, the last that an offer may have", with_bytes(zeros, {at.id: 0xFD, at.protocol: 2}))
    read_offer_channel("no bytes", b"")
    read_offer_channel("15 bytes", example[:15])
    read_offer_channel("17 bytes", example + b"\0")
    read_offer_channel("60 bytes", b"\xFF" * 60)


def signal_cases():
    build_information("start entire transaction", 0, 0)
    build_information("start offer list", 1, 1)
    build_information("end offer list", 2, 0xA5)
    build_information("another code", 3, 0xFE)
    build_information("largest code", 255, 255)
    build_extended("notify on ready", 1, 0xA5)
    build_extended("smallest code", 0, 0)
    build_extended("another code", 2, 0xFE)
    build_extended("largest code", 255, 255)
    for kind, name, codes in (
        (cfu.INFORMATION, "information",
         (("start entire transaction", 0, 0), ("start offer list", 1, 1), ("end offer list", 2, 0xA5), ("another information code", 3, 0xA5))),
        (cfu.EXTENDED, "extended", (("notify on ready", 1, 0xA5), ("smallest extended code", 0, 0), ("another extended code", 2, 0xA5))),
    ):
        for what, code, token in codes:
            read_offer_channel(what, with_bytes(bytes(cfu.SIGNAL.size), {cfu.SIGNAL_AT.code: code, cfu.SIGNAL_AT.kind: kind, cfu.SIGNAL_AT.token: token}))
        read_offer_channel(f"largest {name} code, reserved bytes set", with_bytes(b"\xFF" * cfu.SIGNAL.size, {cfu.SIGNAL_AT.kind: kind}))
    for kind, name in ((cfu.INFORMATION, "information"), (cfu.EXTENDED, "extended")):
        for n in (15, 17):
            read_offer_channel(f"{n} bytes of {name}", bytes([kind]) * n)


def offer_reply_cases():
    build_offer_reply("example E2", 0xA5, 0, 1)
    build_offer_reply("all fields smallest", 0, 0, 0)
    build_offer_reply("all fields largest", 255, 255, 255)
    build_offer_reply("reject", 0xA5, 0xE1, 2)
    build_offer_reply("a reason beside another status", 0xA5, 0xE0, 3)
    build_offer_reply("ready", 0xA5, 0, 4)
    read_offer_reply("example E2", bytes.fromhex("000000A5 00000000 00000000 01000000"))
    read_offer_reply("all fields smallest", bytes(cfu.SHORT_SIZE))
    read_offer_reply("all fields largest, reserved bytes set", b"\xFF" * cfu.SHORT_SIZE)
    read_offer_reply("every byte different", bytes(range(cfu.SHORT_SIZE)))
    read_offer_reply("reserved bytes alone set", with_bytes(b"\xFF" * cfu.OFFER_REPLY.size, dict.fromkeys(vars(cfu.OFFER_REPLY_AT).values(), 0)))
    for what, n in (("no", 0), ("15", 15), ("17", 17), ("60", 60)):
        read_offer_reply(f"{what} bytes", b"\xFF" * n)


def content_cases():
    at, both = cfu.CONTENT_AT, cfu.FIRST | cfu.LAST
    size, data, ones = cfu.DATA_SIZE, COUNTING[at.data:], b"\xFF" * cfu.DATA_SIZE
    build_content("all fields smallest", 0, 1, 0, 0, bytes(size))
    build_content("all fields largest", both, size, 65535, 0xFFFFFFFF, ones)
    build_content("all fields different", cfu.FIRST, size, 0x0302, 0x07060504, data)
    build_content("last block of 12 bytes, unused data set", cfu.LAST, 12, 0x0302, 0x07060504, data)
    build_content("one byte, unused data set", both, 1, 1, 2, ones)
    build_content(f"{size - 1} bytes, unused data set", 0, size - 1, 1, 2, ones)
    build_content("another flag, 0x01", 0x01, size, 1, 2, ones)
    build_content("another flag, 0x20", 0x20, size, 1, 2, ones)
    build_content("both flags and another", 0xC2, size, 1, 2, ones)
    build_content("all flags", 0xFF, size, 1, 2, ones)
    build_content("length 0", cfu.FIRST, 0, 1, 2, ones)
    build_content(f"length {size + 1}", cfu.FIRST, size + 1, 1, 2, ones)
    build_content("largest length", cfu.FIRST, 255, 1, 2, ones)
    all_ones = b"\xFF" * cfu.LONG_SIZE
    read_content("all bytes zero, so length 0", bytes(cfu.LONG_SIZE))
    read_content("length 0, unused data set", with_bytes(all_ones, {at.flags: both, at.length: 0}))
    read_content("one byte, unused data set", with_bytes(all_ones, {at.flags: cfu.FIRST, at.length: 1}))
    read_content("all fields different", with_bytes(COUNTING, {at.flags: cfu.FIRST, at.length: size}))
    read_content("last block of 12 bytes, unused data set", with_bytes(COUNTING, {at.flags: cfu.LAST, at.length: 12}))
    read_content(f"{size - 1} bytes, unused data set", with_bytes(COUNTING, {at.flags: 0, at.length: size - 1}))
    read_content(f"{size} bytes, all fields largest", with_bytes(all_ones, {at.flags: both, at.length: size}))
    read_content(f"length {size + 1}, as it stands", with_bytes(COUNTING, {at.flags: both, at.length: size + 1}))
    read_content("all bytes 0xFF: other flags and the largest length, as they stand", all_ones)
    for what, n in (("no", 0), ("16", 16), ("59", 59), ("61", 61)):
        read_content(f"{what} bytes", bytes([size]) * n)


def content_reply_cases():
    build_content_reply("example E7", 0x1234, 0x0A)
    build_content_reply("all fields smallest", 0, 0)
    build_content_reply("all fields largest", 65535, 255)
    read_content_reply("example E7", bytes.fromhex("341200000A").ljust(cfu.SHORT_SIZE, b"\0"))
    read_content_reply("all fields smallest", bytes(cfu.SHORT_SIZE))
    read_content_reply("all fields largest, reserved bytes set", b"\xFF" * cfu.SHORT_SIZE)
    read_content_reply("every byte different", bytes(range(cfu.SHORT_SIZE)))
    at = cfu.CONTENT_REPLY_AT
    read_content_reply("reserved bytes alone set", with_bytes(b"\xFF" * cfu.CONTENT_REPLY.size, {at.sequence: 0, at.sequence + 1: 0, at.status: 0}))
    for what, n in (("no", 0), ("15", 15), ("17", 17), ("60", 60)):
        read_content_reply(f"{what} bytes", b"\xFF" * n)


def crc_cases():
    crc("check value", b"123456789")
    crc("no byte", b"")
    crc("one byte, zero", b"\0")
    crc("one byte, 0xFF", b"\xFF")
    crc("one bit, the lowest", b"\x01")
    crc("one bit, the highest", b"\x80")
    crc("two bytes", b"\x12\x34")
    crc("the same in the other order", b"\x34\x12")
    crc("one byte, 0x2F", b"\x2F")
    crc("its halves exchanged", b"\xF2")
    # The CRC of a byte whose high half is zero is the table's entry for its low half (A2).
    for low in range(16):
        crc(f"table entry {low}", bytes([low]))


# At the end a cut frame, which ends the program.

def cut_frame():
    script.text("a cut frame comes next, and nothing of it is shown\n")
    script.bytes += b"x\x03\x00\x12\x34"


version_cases()
offer_cases()
signal_cases()
offer_reply_cases()
content_cases()
content_reply_cases()
crc_cases()
cut_frame()
script.write()
