#!/usr/bin/env python3
"""A bundle for timing whole runs, from document 01's layout alone.

bundle.py RECORDS [BYTES]    writes a bundle to standard output: one offer, component 1 at 1.1.0, and so many records of BYTES bytes each (1 where not given)

The records go round the region of 64 bytes again and again. The last round writes the image, and every byte before it is a wrong one.
"""
import os
import sys

sys.path.append(os.path.join(os.path.dirname(os.path.abspath(__file__)), ".."))
import cfu  # noqa: E402

REGION = 64  # bytes of the component's region
NEW = cfu.version(1, 1)


def body(count, size):
    good = cfu.image(1, NEW, REGION)
    starts = range(0, REGION, size)
    memory = bytearray(REGION)
    records = b""
    for i in range(count):
        at = starts[i % len(starts)]
        data = good[at:at + size]
        if i < count - len(starts):
            data = bytes(byte ^ 0xFF for byte in data)
        memory[at:at + len(data)] = data
        records += cfu.body_record(at, data)
    assert memory == good, "too few records for the region"
    return records


def bundle(blocks):
    made = cfu.bundle([(cfu.offer(1, NEW), blocks)])
    assert len(made) <= cfu.BUNDLE_LIMIT, "too long for a bundle"
    return made


sys.stdout.buffer.write(bundle(body(int(sys.argv[1]), int(sys.argv[2]) if len(sys.argv) > 2 else 1)))
