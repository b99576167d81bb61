#!/usr/bin/env python3
"""Frames for the main loop, and what it must print of each, from document 01 as document 02 amends it (bench examples E1 to E10,
A1's REJECT, A5's floor, then whole updates).

cases.py stdin     writes the frames to standard output
cases.py stdout    writes the lines that the program must print
"""
import os
import sys

sys.path.append(os.path.join(os.path.dirname(os.path.abspath(__file__)), ".."))
import cfu  # noqa: E402
from cfu import ACCEPT, BUSY, DATA_SIZE, FIRST, LAST, READY, REJECT, SKIP, UNSUPPORTED, content_reply  # noqa: E402

script = cfu.Script(cfu.Script.SHORT)
lines = ["set-up: served"]


def case(channel, packet, line):
    """A frame is a channel and a packet; its answer is one line."""
    script.frame(channel, packet)
    lines.append(line)


def spaced(data):
    return data.hex(" ")


# Packets, byte by byte as document 01 gives them

OFFER = bytes.fromhex("00 00 01 A5 00 03 00 01 00 00 00 00 02 00 42 00")  # E2
READY_TOKEN = 0x31


def changed(packet, field, new):
    """The offer with other bytes from a field on."""
    place, new = getattr(cfu.OFFER_AT, field), bytes.fromhex(new)
    return packet[:place] + new + packet[place + len(new):]


def information(code, token=0x11):
    return cfu.information(code, token)


def extended(code, token=READY_TOKEN):
    return cfu.extended(code, token)


def offer_reply(status, reason=0, token=0xA5):
    return cfu.offer_reply(token, status, reason)


def content(flags, length, sequence, address, data=b""):
    return cfu.content(flags, sequence, address, data, length)


def reply(*packets):
    return "reply " + ", then ".join(spaced(p) for p in packets)


def asks(packet, *expected):
    case("O", packet, reply(offer_reply(*expected)))


def sends(packet, status):
    case("C", packet, reply(content_reply(cfu.CONTENT.unpack(packet)[2], status)))


def sends_image(image, status):
    """An image in blocks, of which the last gets the status of its judgement."""
    for sequence, (address, flags, data) in enumerate(cfu.blocks(image)):
        sends(content(flags, len(data), sequence, address, data), status if flags & LAST else 0)


def versions(reply):
    """A version reply, with zeros after these bytes."""
    case("V", b"", "versions " + spaced(bytes.fromhex(reply).ljust(cfu.LONG_SIZE, b"\0")))


def offered():
    """Idle again, and an accepted offer for component 1."""
    asks(information(0), ACCEPT, 0, 0x11)
    asks(OFFER, ACCEPT)


# E1
versions("02 00 00 02 00 02 00 01 00 01 42 00 00 01 00 01 00 02 42 00")

# E7, before any offer
sends(content(FIRST, 1, 0x1234, 0), 0x0A)

# E3 to E5 leave the session idle
OLD = changed(OFFER, "version", "00 02 00 01")
asks(OLD, REJECT, 0)
asks(changed(OFFER, "protocol", "01"), REJECT, 0xE0)
asks(changed(OLD, "protocol", "01"), REJECT, 0xE0)
asks(changed(OFFER, "need", "02 02 00 01"), SKIP)

# document 02, A1: a debug build of the running number, and one of a newer release
asks(changed(OFFER, "version", "01 02 00 01"), REJECT, 0xE2)
asks(changed(OFFER, "version", "01 03 00 01"), REJECT, 0xE2)

# document 02, A5: component 2 runs 1.1.0 and has the floor 1.3.0. Below it a newer offer is rejected, too, after the check of the variant; at it one is accepted,
# and its image is judged by the version that it bears
SECOND = changed(OFFER, "id", "02")
BELOW = changed(SECOND, "version", "00 02 00 01")
asks(BELOW, REJECT, 0)
asks(changed(SECOND, "version", "01 02 00 01"), REJECT, 0xE2)
asks(SECOND, ACCEPT)
sends_image(cfu.image(2, cfu.version(1, 2)), 0x07)

# E6, then a second offer while the session is open; E2
asks(changed(OFFER, "need", "02 01 00 01"), ACCEPT)
asks(OFFER, BUSY)
asks(information(0), ACCEPT, 0, 0x11)
asks(OFFER, ACCEPT)

# E8 to E10
offered()
sends(content(FIRST, DATA_SIZE, 7, 12), 0)
offered()
sends(content(FIRST, DATA_SIZE, 7, 13), 0x09)
sends(content(FIRST, 1, 7, 0xFFFFFFFF), 0x09)
sends(content(FIRST, DATA_SIZE + 1, 7, 0), 0x0B)

# frames that are no packets of their channel: D3, with the reply zeroed; and a channel that there is not
REFUSED = "refused D3, " + spaced(bytes(cfu.SHORT_SIZE))
case("O", OFFER[:-1], REFUSED)
case("O", b"", REFUSED)
case("C", OFFER, REFUSED)
case("X", OFFER, "unknown channel")

# codes that are none
asks(information(3), UNSUPPORTED, 0, 0x11)
asks(extended(2), UNSUPPORTED, 0, READY_TOKEN)


# A whole update of component 1 to 1.3.0, with a ready-reply owed
IMAGE = cfu.image(1, cfu.version(1, 3), free=lambda start, end: bytes(range(start, end)))

asks(information(0), ACCEPT, 0, 0x11)
asks(extended(1), READY, 0, READY_TOKEN)
asks(information(1), ACCEPT, 0, 0x11)
asks(OFFER, ACCEPT)
case("O", extended(1), "no reply")
asks(extended(1), BUSY, 0, READY_TOKEN)
(_, _, HEAD), (AT, _, REST) = cfu.blocks(IMAGE)
sends(content(FIRST, len(HEAD), 0xFFFF, 0, HEAD), 0)
sends(content(LAST, len(REST), 1, AT, REST), 0x0B)
case("C", content(LAST, len(REST), 0, AT, REST), reply(content_reply(0, 0), offer_reply(READY, 0, READY_TOKEN)))
asks(information(2), ACCEPT, 0, 0x11)
asks(OFFER, REJECT, 2)
versions("02 00 00 02 00 02 00 01 00 01 42 00 00 01 00 01 00 02 42 00")
case("R", b"", "reset")
versions("02 00 00 02 00 03 00 01 00 01 42 00 00 01 00 01 00 02 42 00")
asks(OFFER, REJECT, 0)

# A reset keeps the floor; an update of component 2 to it, 1.3.0, and the same offer again
asks(BELOW, REJECT, 0)
asks(SECOND, ACCEPT)
sends_image(cfu.image(2, cfu.version(1, 3)), 0)
asks(SECOND, REJECT, 2)
case("R", b"", "reset")
versions("02 00 00 02 00 03 00 01 00 01 42 00 00 03 00 01 00 02 42 00")
asks(SECOND, REJECT, 0)

# the input ends inside a frame
script.frame("O", OFFER)
del script.bytes[-1]
lines.append("cut frame")

if sys.argv[1:] == ["stdin"]:
    script.write()
elif sys.argv[1:] == ["stdout"]:
    sys.stdout.write("".join(line + "\n" for line in lines))
else:
    sys.exit(__doc__)
