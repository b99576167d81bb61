#!/usr/bin/env python3
"""Writes the lines that run_packets must write for a script, from document 01 ("Packets", rows P1 and P2) and the public definition of
CRC-16/XMODEM.

Use: tests/packets/expect.py < crates/run_packets/stdin > crates/run_packets/stdout

It shares nothing with the crates: layouts and the CRC are those of tests/cfu.py, refusals are written anew here. cases.py says what a frame is."""

import binascii
import os
import sys

sys.path.append(os.path.join(os.path.dirname(os.path.abspath(__file__)), ".."))
import cfu  # noqa: E402
from cfu import COMPONENT_LIMIT, DATA_SIZE, LONG_SIZE, PROTOCOL, SHORT_SIZE  # noqa: E402


def hexes(p):
    return "".join(f" {b:02x}" for b in p)


# A version is its three parts: major, minor, variant.

def version_text(v):
    return "%d.%d.%d" % v


# Version reply. P2 either way: count over COMPONENT_LIMIT or protocol not PROTOCOL. A component is (version, id, platform).

NO_COMPONENT = ((0, 0, 0), 0, 0)


def version_reply_text(count, protocol, components):
    text = f" count {count} protocol {protocol}"
    for v, id, platform in components:
        text += f"; version {version_text(v)} id {id:02x} platform {platform:04x}"
    return text


def build_version_reply(f):
    count, protocol = f[0], f[1]
    components = [(cfu.version_parts(number), id, platform) for number, id, platform in cfu.RUNNING.iter_unpack(f[2:])]
    if count > COMPONENT_LIMIT or protocol != PROTOCOL:
        came = " refused P2," + hexes(bytes(LONG_SIZE))
    else:
        came = hexes(cfu.version_reply([(cfu.version(*v), id, platform) for v, id, platform in components[:count]], protocol))
    return version_reply_text(count, protocol, components), came


def read_version_reply(p):
    zero = version_reply_text(0, 0, [NO_COMPONENT] * COMPONENT_LIMIT)
    if len(p) != LONG_SIZE:
        return " refused P1," + zero
    count, protocol = cfu.VERSION_REPLY.unpack_from(p)
    if count > COMPONENT_LIMIT or protocol & 15 != PROTOCOL:
        return " refused P2," + zero
    entries = list(cfu.VERSION_REPLY_ENTRY.iter_unpack(p[cfu.VERSION_REPLY.size :]))[:count]
    components = [(cfu.version_parts(number), id, platform) for number, id, platform in entries]
    return version_reply_text(count, protocol & 15, components + [NO_COMPONENT] * (COMPONENT_LIMIT - count))


# Offer. P2: a value too large for its field, or an id over 0xFD. Of the flags I and V are read, of the protocol's byte the low four bits.

def offer_text(segment, i, v, id, token, version, need, least, protocol, platform):
    return (
        f" segment {segment:02x} I {i} V {v} id {id:02x} token {token:02x} version {version_text(version)}"
        f" need {need:02x} least {least:06x} protocol {protocol} platform {platform:04x}"
    )


def build_offer(f):
    segment, i, v, id, token, number, need, least, protocol, platform = cfu.OFFER_FIELDS.unpack(f)
    i, v, version = int(i != 0), int(v != 0), cfu.version_parts(number)
    if id > 0xFD or least > 0xFFFFFF or protocol > 0xF:
        came = " refused P2," + hexes(bytes(SHORT_SIZE))
    else:
        flags = i * cfu.FLAG_I | v * cfu.FLAG_V
        came = hexes(cfu.offer(id, number, token, segment, flags, need, least, protocol, 0, platform))
    return offer_text(segment, i, v, id, token, version, need, least, protocol, platform), came


def signal_text(code, token):
    return f" code {code:02x} token {token:02x}"


def build_signal(build):
    return lambda f: (signal_text(*f), hexes(build(*f)))


def read_offer_channel(p):
    if len(p) != SHORT_SIZE:
        return " refused P1"
    code, _, kind, token, _ = cfu.SIGNAL.unpack(p)
    if kind == cfu.INFORMATION:
        return " information" + signal_text(code, token)
    if kind == cfu.EXTENDED:
        return " extended" + signal_text(code, token)
    segment, flags, id, token, version, need, least, protocol, _, platform = cfu.OFFER.unpack(p)
    least = int.from_bytes(least, "little")
    i, v = int(flags & cfu.FLAG_I != 0), int(flags & cfu.FLAG_V != 0)
    return " offer" + offer_text(segment, i, v, id, token, cfu.version_parts(version), need, least, protocol & 15, platform)


# Offer reply

def offer_reply_text(token, reason, status):
    return f" token {token:02x} reason {reason:02x} status {status:02x}"


def build_offer_reply(f):
    token, reason, status = f
    return offer_reply_text(*f), hexes(cfu.offer_reply(token, status, reason))


def read_offer_reply(p):
    return offer_reply_text(*cfu.OFFER_REPLY.unpack(p)) if len(p) == SHORT_SIZE else " refused P1," + offer_reply_text(0, 0, 0)


# Content, unused data zero. P2: other flags, length not 1-52.

def content_text(flags, length, sequence, address, data):
    return f" flags {flags:02x} length {length} sequence {sequence:04x} address {address:08x} data{hexes(data)}"


def used(length, data):
    return data[:length].ljust(DATA_SIZE, b"\0")


def build_content(f):
    flags, length, sequence, address, data = cfu.CONTENT.unpack(f)
    if flags & ~(cfu.FIRST | cfu.LAST) or not 1 <= length <= DATA_SIZE:
        came = " refused P2," + hexes(bytes(LONG_SIZE))
    else:
        came = hexes(cfu.content(flags, sequence, address, data[:length], length))
    return content_text(flags, length, sequence, address, data), came


def read_content(p):
    if len(p) != LONG_SIZE:
        return " refused P1," + content_text(0, 0, 0, 0, bytes(DATA_SIZE))
    flags, length, sequence, address, data = cfu.CONTENT.unpack(p)
    return content_text(flags, length, sequence, address, used(length, data))


# Content reply

def content_reply_text(sequence, status):
    return f" sequence {sequence:04x} status {status:02x}"


def build_content_reply(f):
    sequence, status = cfu.CONTENT_REPLY_FIELDS.unpack(f)
    return content_reply_text(sequence, status), hexes(cfu.content_reply(sequence, status))


def read_content_reply(p):
    return content_reply_text(*cfu.CONTENT_REPLY.unpack(p)) if len(p) == SHORT_SIZE else " refused P1," + content_reply_text(0, 0)


# Python's crc_hqx is the same CRC, written by others.

def crc(message):
    value = cfu.crc(message)
    assert value == binascii.crc_hqx(message, 0)
    return f" {value:04x}"


# What builds gives what was asked and what came; what reads gives what came of any bytes.

BUILDS = {
    "V": build_version_reply,
    "O": build_offer,
    "I": build_signal(cfu.information),
    "E": build_signal(cfu.extended),
    "R": build_offer_reply,
    "C": build_content,
    "S": build_content_reply,
}
READS = {"v": read_version_reply, "o": read_offer_channel, "r": read_offer_reply, "c": read_content, "s": read_content_reply, "x": crc}


def line(kind, payload):
    if kind in READS:
        return f"{hexes(payload)} ->{READS[kind](payload)}\n"
    asked, came = BUILDS[kind](payload)
    return f"{asked} ->{came}\n"


def main():
    script, head = sys.stdin.buffer.read(), cfu.Script(cfu.Script.LONG).head
    while len(script) >= head.size:
        kind, length = head.unpack_from(script)
        payload, script = script[head.size : head.size + length], script[head.size + length :]
        if len(payload) == length:
            sys.stdout.write(payload.decode() if kind == b"#" else line(kind.decode(), payload))


main()
