#!/usr/bin/env python3
"""Bundles and what `inspect` must print of each, from document 01's layout alone.

make.py DIR    writes DIR/NAME.bundle and DIR/NAME.expected for every case
make.py e12    writes the bundle of E12, in E13's first order, to standard output
"""
import os
import sys

sys.path.append(os.path.join(os.path.dirname(os.path.abspath(__file__)), ".."))
import cfu  # noqa: E402
from cfu import BODY_RECORD, BODY_RECORD_AT, BUNDLE_HEAD, BUNDLE_HEAD_AT, BUNDLE_LIMIT as LIMIT, DATA_SIZE, ENTRY_AT, OFFER_AT, OFFER_LIMIT  # noqa: E402
from cfu import body, body_record as record, bundle, image, offer, version  # noqa: E402


def little(value, size):
    return value.to_bytes(size, "little")


V130 = version(1, 3)
V120 = version(1, 2)
E12_OFFERS = [(offer(1, V130, need=2, least=V120 >> 8), body(image(1, V130))), (offer(2, V120), body(image(2, V120)))]
E12, E12_TABLE = bundle(E12_OFFERS), cfu.entry_start(len(E12_OFFERS))
assert len(E12) == 204 and E12[cfu.entry_start(0) + OFFER_AT.need:][:4] == bytes([2, 2, 0, 1])
for whole in (image(1, V130), image(2, V120)):
    assert whole[-2] != whole[-1], "a CRC that reads the same both ways shows nothing"


# Cases: a bundle, and the lines that are printed of it

cases = {}


def case(name, data, *lines):
    assert name not in cases, name
    cases[name] = (bytes(data), "".join(line + "\n" for line in lines))


def refused(name, data, row, entry):
    case(name, data, f"refused B{row} {entry}")


def edited(data, *edits):
    """The bundle with bytes put at places."""
    out = bytearray(data)
    for place, new in edits:
        new = bytes([new]) if isinstance(new, int) else new
        out[place:place + len(new)] = new
    return bytes(out)


def entry(i):
    """Where entry i of the table stands, from 1."""
    return cfu.entry_start(i - 1)


def offset_of(i):
    return entry(i) + ENTRY_AT.offset


def length_of(i):
    return entry(i) + ENTRY_AT.length


def body_of(data, i):
    """Where the body of entry i stands, from 1, and how long it is."""
    return cfu.ENTRY.unpack_from(data, entry(i))[1:]


def first_length(data, i):
    """Where the first record of a body has its length."""
    return body_of(data, i)[0] + BODY_RECORD_AT.length


def simple(count, first=1, size=1):
    """`count` offers of version 0.0.i, one record of `size` bytes each."""
    return [(offer(first + i, version(0, 0, first + i)), record(0, bytes([first + i]) * size)) for i in range(count)]


def simple_lines(count, first=1):
    return [f"offers {count}"] + [f"{first + i} 0.0.{first + i} records 1" for i in range(count)]


# accepted
case("e12", E12, "offers 2", "1 1.3.0 records 2", "2 1.2.0 records 2")
case("e12-other-order", bundle([(offer(2, V120), body(image(2, V120))), (offer(1, V130), body(image(1, V130)))]),
     "offers 2", "2 1.2.0 records 2", "1 1.3.0 records 2")
case("one-offer", bundle(simple(1)), *simple_lines(1))
case("seven-offers", bundle(simple(OFFER_LIMIT)), *simple_lines(OFFER_LIMIT))
case("ids-at-the-borders", bundle(simple(1) + simple(1, 0xDF)), "offers 2", "1 0.0.1 records 1", "223 0.0.223 records 1")
case("largest-version", bundle([(offer(9, 0xFFFFFFFF), record(0, b"x"))]), "offers 1", "9 255.65535.255 records 1")
case("records-of-1-and-52", bundle([(offer(3, 1), record(0, b"x") + record(0xFFFFFFFF, bytes(52)) + record(7, b"y"))]),
     "offers 1", "3 0.0.1 records 3")
case("platform-and-need-are-free", bundle([(offer(3, 1, need=0xFE, least=0xFFFFFF, platform=0xFFFF), record(0, b"x"))]),
     "offers 1", "3 0.0.1 records 1")


# the largest bundle: one body of 65,504 bytes, with as many records as a bundle can have
full = bundle([(offer(5, V130), record(0, b"z") * 10916 + record(0, b"end"))])
assert len(full) == LIMIT
case("65536-bytes", full, "offers 1", "5 1.3.0 records 10917")
last_length = LIMIT - len(record(0, b"end")) + BODY_RECORD_AT.length
refused("65536-bytes-last-record-cut", edited(full, (last_length, 4)), 8, 1)
refused("65536-bytes-last-record-short", edited(full, (last_length, 2)), 8, 1)
refused("65536-bytes-wrong-offset", edited(full, (offset_of(1), entry(2) + 1)), 7, 1)
refused("65536-zeros", bytes(LIMIT), 2, 0)

# B1
refused("empty", b"", 1, 0)
refused("one-byte", b"\x01", 1, 0)
refused("seven-bytes", E12[:BUNDLE_HEAD.size - 1], 1, 0)
refused("65537-bytes", full + b"\x00", 1, 0)
refused("65537-zeros", bytes(LIMIT + 1), 1, 0)
refused("200000-bytes", E12 * 981, 1, 0)
refused("eight-bytes-without-a-table", E12[:BUNDLE_HEAD.size], 4, 0)

# B2
refused("byte-1-zero", edited(E12, (BUNDLE_HEAD_AT.format, 0)), 2, 0)
refused("byte-1-two", edited(E12, (BUNDLE_HEAD_AT.format, 2)), 2, 0)
for place in range(2, BUNDLE_HEAD.size):
    refused(f"byte-{place}-not-zero", edited(E12, (place, 1 << (place - 1))), 2, 0)

# B3
refused("no-offers", edited(E12, (BUNDLE_HEAD_AT.count, 0)), 3, 0)
refused("eight-offers", bundle(simple(OFFER_LIMIT + 1)), 3, 0)
refused("255-offers", edited(E12, (BUNDLE_HEAD_AT.count, 255)), 3, 0)

# B4
refused("a-byte-short-of-the-table", E12[:E12_TABLE - 1], 4, 0)
refused("seven-offers-a-byte-short", bundle(simple(OFFER_LIMIT))[:entry(OFFER_LIMIT + 1) - 1], 4, 0)
refused("the-table-alone", E12[:E12_TABLE], 7, 2)

# B5, each clause at the first and at a later entry
clauses = {"byte-0": (OFFER_AT.segment, 1), "byte-1": (OFFER_AT.flags, cfu.FLAG_I), "byte-3": (OFFER_AT.token, 0xA5), "byte-13": (OFFER_AT.reserved, 0x80),
           "byte-12-one": (OFFER_AT.protocol, 1), "byte-12-0x12": (OFFER_AT.protocol, 0x12), "id-0": (OFFER_AT.id, 0), "id-0xe0": (OFFER_AT.id, 0xE0),
           "id-0xff": (OFFER_AT.id, 0xFF)}
for name, (place, value) in clauses.items():
    for i in (1, 2):
        refused(f"{name}-at-{i}", edited(E12, (entry(i) + place, value)), 5, i)
    refused(f"{name}-at-{OFFER_LIMIT}", edited(bundle(simple(OFFER_LIMIT)), (entry(OFFER_LIMIT) + place, value)), 5, OFFER_LIMIT)

# B6
refused("id-repeated-at-2", edited(E12, (entry(2) + OFFER_AT.id, 1)), 6, 2)
refused("ids-1-2-1-2", bundle(simple(2) + simple(2)), 6, 3)
refused(f"id-repeated-at-{OFFER_LIMIT}", edited(bundle(simple(OFFER_LIMIT)), (entry(OFFER_LIMIT) + OFFER_AT.id, 3)), 6, OFFER_LIMIT)

# B7
(start, length), (next_start, next_length) = body_of(E12, 1), body_of(E12, 2)
refused("offset-one-less-at-1", edited(E12, (offset_of(1), start - 1)), 7, 1)
refused("offset-one-more-at-1", edited(E12, (offset_of(1), start + 1)), 7, 1)
refused("offset-one-more-at-2", edited(E12, (offset_of(2), next_start + 1)), 7, 2)
refused("offset-zero-at-2", edited(E12, (offset_of(2), 0)), 7, 2)
refused("offset-far-at-1", edited(E12, (offset_of(1), little(0x80000000 + start, 4))), 7, 1)
refused("length-one-less-at-1", edited(E12, (length_of(1), length - 1)), 7, 2)
refused("length-one-more-at-2", edited(E12, (length_of(2), next_length + 1)), 7, 2)
refused("length-one-less-at-2", edited(E12, (length_of(2), next_length - 1)), 7, 2)
refused("a-byte-after-the-last-body", E12 + b"\x00", 7, 2)
refused("a-byte-short-of-the-last-body", E12[:-1], 7, 2)
refused("length-past-the-end-and-chained", edited(E12, (length_of(1), little(1000, 4)), (offset_of(2), little(start + 1000, 4))), 7, 2)
refused("length-far-at-1", edited(bundle(simple(1)), (length_of(1), little(0xFFFFFFFF, 4))), 7, 1)
wrapped = [(length_of(1), little(0xFFFFFFFF, 4)), (offset_of(2), little(start - 1, 4)), (length_of(2), little(len(E12) - (start - 1), 4))]
refused("ends-that-wrap-in-32-bits", edited(E12, *wrapped), 7, 2)

# B8, each clause at the first and at a later entry
good = record(0, b"x")
bad_bodies = {"empty-body": b"", "cut-in-the-head": good + bytes(BODY_RECORD.size - 1), "head-alone": good + record(0, b"12")[:BODY_RECORD.size],
              "cut-in-the-data": good + record(0, b"12")[:-1], "length-0": good + record(0, b""), "length-0-alone": record(0, b""),
              f"length-{DATA_SIZE + 1}": record(0, bytes(DATA_SIZE + 1)), "length-255": record(0, bytes(255))}
for name, blocks in bad_bodies.items():
    for i in (1, 2, OFFER_LIMIT):
        parts = simple(max(i, 2))
        parts[i - 1] = (parts[i - 1][0], blocks)
        refused(f"{name}-at-{i}", bundle(parts), 8, i)

# borders: several faults, and the row and entry that come first
BAD_BODY = (first_length(E12, 1), 0)
refused("b1-before-b2", edited(E12, (BUNDLE_HEAD_AT.format, 0))[:BUNDLE_HEAD.size - 1], 1, 0)
refused("b2-before-b3", edited(E12, (BUNDLE_HEAD_AT.format, 0), (BUNDLE_HEAD_AT.count, 0)), 2, 0)
refused("b3-before-b4", edited(E12, (BUNDLE_HEAD_AT.count, OFFER_LIMIT + 2))[:E12_TABLE], 3, 0)
refused("b4-before-b5", edited(E12, (entry(1) + OFFER_AT.segment, 1))[:E12_TABLE - 1], 4, 0)
refused("b5-at-2-before-b7-and-b8-at-1", edited(E12, (entry(2) + OFFER_AT.protocol, 3), (offset_of(1), 0), BAD_BODY), 5, 2)
refused(f"b5-at-{OFFER_LIMIT}-before-b6-at-2",
        edited(bundle(simple(OFFER_LIMIT)), (entry(2) + OFFER_AT.id, 1), (entry(OFFER_LIMIT) + OFFER_AT.reserved, 1)), 5, OFFER_LIMIT)
refused("b6-at-2-before-b7-at-1", edited(E12, (entry(2) + OFFER_AT.id, 1), (offset_of(1), 0)), 6, 2)
refused("b6-at-3-before-b8-at-1", edited(bundle(simple(3)), (entry(3) + OFFER_AT.id, 2), (first_length(bundle(simple(3)), 1), 0)), 6, 3)
refused("b7-at-2-before-b8-at-1", edited(E12, (offset_of(2), 0), BAD_BODY), 7, 2)
refused("b7-at-the-end-before-b8-at-1", edited(E12, BAD_BODY) + b"\x00", 7, 2)
refused("b8-at-1-and-2", edited(E12, BAD_BODY, (first_length(E12, 2), 0)), 8, 1)
refused("two-clauses-of-b5-in-two-entries", edited(E12, (entry(2) + OFFER_AT.segment, 1), (entry(1) + OFFER_AT.id, 0)), 5, 1)


def main():
    if len(sys.argv) != 2:
        sys.exit(__doc__)
    if sys.argv[1] == "e12":
        sys.stdout.buffer.write(E12)
        return
    os.makedirs(sys.argv[1], exist_ok=True)
    for name, (data, text) in cases.items():
        with open(os.path.join(sys.argv[1], name + ".bundle"), "wb") as out:
            out.write(data)
        with open(os.path.join(sys.argv[1], name + ".expected"), "w") as out:
            out.write(text)


if __name__ == "__main__":
    main()
