#!/usr/bin/env python3
"""Writes the frames (README.md) of the host's cases to standard output.

Each case starts with a '#' line that names it and its row in document 01. The bundle is E12's: two offers, each body records of 52 and 12 bytes; those of A4
have bodies of four and three records.
"""
import os
import sys

sys.path.append(os.path.join(os.path.dirname(os.path.abspath(__file__)), ".."))
import cfu  # noqa: E402
from cfu import ACCEPT, BUSY, READY, REJECT, SKIP  # noqa: E402
from cfu import DONE, H1, H2, H3, H4  # noqa: E402
from cfu import HOST_CLOSING as CLOSING, HOST_ENDED as ENDED, HOST_FRESH as FRESH, HOST_LISTING as LISTING  # noqa: E402
from cfu import HOST_OFFERING as OFFERING, HOST_OPENING as OPENING, HOST_SENDING as SENDING, HOST_WAITING as WAITING  # noqa: E402
from cfu import OFFER_LIMIT, bundle, content_reply  # noqa: E402

TOKEN = 0xA5
script = cfu.Script(cfu.Script.LONG)
case = script.case


# ----------------------------------------------------------------- frames

def over(bundle):
    script.frame('B', bundle)


def fresh(token=TOKEN):
    script.frame('F', bytes([token]))


def record(stage, a=0, b=0, packets=9, passes=1, token=TOKEN, **fields):
    script.frame('K', cfu.host_record(token, stage, a, b, packets=packets, passes=passes, **fields))


def step(reply=b''):
    script.frame('R', reply)


# ---------------------------------------------------------------- replies

def offer_reply(status, token=TOKEN):
    return cfu.offer_reply(token, status)


def answer(*statuses):
    for status in statuses:
        step(offer_reply(status))


def blocks(*sequences):
    for sequence in sequences:
        step(content_reply(sequence))


# ---------------------------------------------------------------- bundles

def offer(component, *sizes):
    """An offer with a body of records of these sizes, one after the other."""
    ends = [sum(sizes[:i + 1]) for i in range(len(sizes))]
    records = (cfu.body_record(end - size, cfu.filling(end - size, end)) for size, end in zip(sizes, ends))
    return cfu.offer(component, cfu.version(1, 3)), b''.join(records)


TWO = bundle([offer(1, 52, 12), offer(2, 52, 12)])
FOUR = bundle([offer(1, 20, 20, 20, 4), offer(2, 22, 22, 20)])
MOST = bundle([offer(k, k) for k in range(1, OFFER_LIMIT + 1)])
LAST_ENTRY, ALL = OFFER_LIMIT - 1, (1 << OFFER_LIMIT) - 1
NONE = bundle([])
MORE = TWO + bytes(1)

STAGES = [('opening', OPENING), ('listing', LISTING), ('offering', OFFERING), ('waiting', WAITING), ('closing', CLOSING)]
STATUSES = [('SKIP', SKIP), ('ACCEPT', ACCEPT), ('REJECT', REJECT), ('BUSY', BUSY), ('READY', READY), ('status 5', 5)]


# -------------------------------------------------------------- the table

over(TWO)
for name, stage in STAGES:
    for word, status in STATUSES:
        case('the table: %s, %s' % (name, word))
        record(stage)
        answer(status)
for name, stage in STAGES:
    case('the table: %s, the last status byte: H3' % name)
    record(stage)
    answer(0xFF)
for word, status in STATUSES:
    case('the table: offering the last offer, after one BUSY, %s' % word)
    record(OFFERING, 1, 1)
    answer(status)
case('the table: waiting for the last offer, READY: the same offer, its BUSY kept')
record(WAITING, 1, 3)
answer(READY)
case('a reply decides by its token and status alone: all its other bytes 0xFF')
record(LISTING)
reply = bytearray(b'\xff' * cfu.OFFER_REPLY.size)
reply[cfu.OFFER_REPLY_AT.token], reply[cfu.OFFER_REPLY_AT.status] = TOKEN, ACCEPT
step(bytes(reply))

# --------------------------------------------------------- whole sessions

case('a fresh host sends code 0 whatever stands for a reply')
fresh()
step()
fresh(0)
step(offer_reply(READY))
fresh(0xFF)
step(bytes(60))

case('E13 with scripted replies: packets 13, passes 2')
fresh()
step()
answer(ACCEPT, ACCEPT, SKIP, ACCEPT)
blocks(0, 1)
answer(ACCEPT, ACCEPT, ACCEPT)
blocks(0, 1)
answer(REJECT, ACCEPT)

case('E13, the other order: packets 9, passes 1')
fresh()
step()
answer(ACCEPT, ACCEPT, ACCEPT)
blocks(0, 1)
answer(ACCEPT)
blocks(0, 1)
answer(ACCEPT)

case('both offers rejected: done in one pass, nothing completed')
fresh()
step()
answer(ACCEPT, ACCEPT, REJECT, REJECT, ACCEPT)

# ------------------------------------------------- the decision of closing

for skipped in (0, 1):
    for landed in (0, 1):
        for passes in (1, 2):
            case('code 2 accepted: skipped %d, landed %d, passes %d of 2' % (skipped, landed, passes))
            record(CLOSING, passes=passes, mask=landed, skipped=skipped, landed=landed)
            answer(ACCEPT)
case('listing accepted: the first offer, and what the pass had is kept')
record(LISTING, mask=1, skipped=1, landed=1)
answer(ACCEPT)

# -------------------------------------------------------------- the blocks

case('the bit of an offer is set by status 0 to its last block, not to an earlier one')
record(SENDING, 1, 0, mask=1)
blocks(0, 1)
case('one record: first and last flags in one block')
over(MOST)
record(OFFERING, LAST_ENTRY, 0, mask=ALL ^ 1 << LAST_ENTRY)
answer(ACCEPT)
blocks(0)
case('a bit that is set stays set')
record(SENDING, LAST_ENTRY, 0, mask=ALL)
blocks(0)
over(TWO)

# ----------------------------------------------------------------- the ends

for status in (1, 2, 4, 0x0B, 0xFF):
    case('H1: content status %d' % status)
    record(SENDING, 0, 0)
    step(content_reply(0, status))
case('H1: content status 9 to the last block: its bit stays clear')
record(SENDING, 1, 1, mask=1)
step(content_reply(1, 9))

for name, stage in STAGES + [('sending', SENDING)]:
    case('H2 by length: %s, replies of 0, 15, 17 and 60 bytes' % name)
    for length in (0, 15, 17, 60):
        record(stage)
        good = content_reply(0) if stage == SENDING else offer_reply(ACCEPT)
        step((good + bytes(44))[:length])
for name, stage in STAGES:
    case('H2 by token: %s, every bit of the token' % name)
    for bit in range(8):
        record(stage)
        step(offer_reply(ACCEPT, token=TOKEN ^ 1 << bit))
case('H2 by sequence: every bit of it but the lowest, which makes it the sequence before (A4)')
for bit in range(1, 16):
    record(SENDING, 0, 1)
    step(content_reply(1 ^ 1 << bit))
case('H2 by sequence after a reply was passed over: every bit of it')
for bit in range(16):
    record(SENDING, 0, 1, passed=1)
    step(content_reply(1 ^ 1 << bit))
case('H2 before H1: a sequence not ours, with status 9')
record(SENDING, 0, 1)
step(content_reply(0, 9))
case('H2 before H3: a token not ours, with status 5')
record(OFFERING)
step(offer_reply(5, token=TOKEN ^ 1))
case('a block is told by its sequence alone: its reply holds no token')
record(SENDING, 0, 1, token=0xFF)
blocks(1)

case('H4: eight BUSY, each survived with READY; the ninth ends')
fresh()
step()
answer(ACCEPT, ACCEPT)
for _ in range(8):
    answer(BUSY, READY)
answer(BUSY)
case('eight BUSY for one offer, then it is accepted; the next offer counts from 0')
record(OFFERING, 0, 7)
answer(BUSY, READY, ACCEPT)
blocks(0, 1)
answer(BUSY)
case('eight BUSY for an offer, then SKIP: the next counts from 0')
record(OFFERING, 0, 8)
answer(SKIP, BUSY)

# ------------------------------------- A4: a reply that equals the one taken

over(FOUR)
for entry, count in ((0, 4), (1, 3)):
    for block in range(1, count):
        case('A4: entry %d, block %d of %d: the reply before it again is passed over; its own is taken, and no more flag stands' % (entry, block, count))
        record(SENDING, entry, block)
        blocks(block - 1, block)
        case('A4: entry %d, block %d of %d: the reply before it twice again: H2' % (entry, block, count))
        record(SENDING, entry, block)
        blocks(block - 1, block - 1)
        case('A4: entry %d, block %d of %d: passed over, then H1, H2 by sequence and H2 by length' % (entry, block, count))
        for reply in (content_reply(block, 9), content_reply(block + 1), content_reply(block)[:15]):
            record(SENDING, entry, block)
            blocks(block - 1)
            step(reply)
case('A4: a record that has passed one over: its own reply, and the one before again')
record(SENDING, 0, 2, passed=1)
blocks(2)
record(SENDING, 0, 2, passed=1)
blocks(1)
case('A4: the flag is of one block: each later block has its own')
record(SENDING, 0, 1)
blocks(0, 1, 1, 2, 2, 3)
case('A4: a reply is passed over by its sequence and status alone: all its other bytes 0xFF')
record(SENDING, 0, 2)
reply = bytearray(b'\xff' * cfu.CONTENT_REPLY.size)
reply[:2], reply[cfu.CONTENT_REPLY_AT.status] = b'\x01\0', 0
step(bytes(reply))
step(bytes(reply))
for status in (1, 4, 9, 0x0A, 0x0B, 0xFF):
    case('A4: the sequence before with status %d is not passed over: H2' % status)
    record(SENDING, 0, 2)
    step(content_reply(1, status))
for sequence in (0, 3, 0x0101, 0x0100, 0x0201, 65535):
    case('A4: block 2 awaited, sequence %d: H2' % sequence)
    record(SENDING, 0, 2)
    blocks(sequence)
case('A4: the reply before in 0, 15, 17 and 60 bytes: H2 by length')
for length in (0, 15, 17, 60):
    record(SENDING, 0, 2)
    step((content_reply(1) + bytes(44))[:length])
for passed in (0, 1):
    case('A4: block 0 awaited, passed %d: no reply is passed over, not sequence 65535 and not 1; 0 is its own' % passed)
    for sequence in (65535, 1, 0):
        record(SENDING, 0, 0, passed=passed)
        blocks(sequence)
case('A4: block 0 taken, and its reply again once block 1 is sent')
record(SENDING, 0, 0)
blocks(0, 0, 1)
case('A4: block 0 of the second body: the last reply of the first body is not passed over')
record(SENDING, 0, 3)
blocks(3)
answer(ACCEPT)
blocks(3)
case('A4: the reply to a last block again, where an offer reply is awaited: H2 by its token 0')
record(SENDING, 0, 3)
blocks(3, 3)
case('A4: the reply to a last block again, the host\'s token 0: it reads as SKIP')
record(SENDING, 0, 3, token=0)
blocks(3, 3)
case('A4: a passed record keeps mask, packets, passes, skipped and landed')
record(SENDING, 1, 1, mask=1, packets=0x7FFFFFFF, passes=2, skipped=1, landed=1)
blocks(0, 1)
step(content_reply(1))
case('A4: N1 asks nothing of the flag, and stands before the reply')
for block in (3, 4):
    for passed in (0, 1):
        record(SENDING, 0, block, passed=passed)
        blocks(block - 1)
record(SENDING, 0, 1, mask=4, passed=1)
blocks(1)
case('A4: the flag is ignored where the host does not send')
for stage in (FRESH, OPENING, LISTING, OFFERING, WAITING, CLOSING, ENDED):
    record(stage, passed=1)
    answer(READY if stage == WAITING else ACCEPT)
case('A4: a host that passed one over, over a refused bundle: it is kept')
over(MORE)
record(SENDING, 0, 1, passed=1)
blocks(1)
record(SENDING, 0, 1)
blocks(0)
over(FOUR)
case('A4: E13 with scripted replies, the reply to every middle block twice: packets 16, passes 2')
fresh()
step()
answer(ACCEPT, ACCEPT, SKIP, ACCEPT)
blocks(0, 1, 1, 2)
answer(ACCEPT, ACCEPT, ACCEPT)
blocks(0, 1, 1, 2, 2, 3)
answer(REJECT, ACCEPT)
case('A4: the other order of passes: packets 12, passes 1')
fresh()
step()
answer(ACCEPT, ACCEPT, ACCEPT)
blocks(0, 1, 1, 2, 2, 3)
answer(ACCEPT)
blocks(0, 1, 1, 2)
answer(ACCEPT)
over(TWO)

# -------------------------------------------------------------------- ended

for name, end in [('done', DONE), ('H1', H1), ('H2', H2), ('H3', H3), ('H4', H4)]:
    case('an ended record stepped again: %s' % name)
    record(ENDED, end, 9 if end == H1 else 0, mask=3, passes=2, skipped=1)
    answer(ACCEPT)
    step()

# ----------------------------------------------------------------------- N1

def judged(bad, text):
    """A case of N1, or one at its border that still fits."""
    case(('N1: ' if bad else 'fits: ') + text)


for name, stage, status in [('offering', OFFERING, REJECT), ('waiting', WAITING, READY)]:
    for entry in (1, 2, 255):
        judged(entry > 1, '%s entry %d of 2, counted from 0' % (name, entry))
        record(stage, entry)
        answer(status)
    for busy in (8, 9, 255):
        judged(busy > 8, '%s, %d BUSY' % (name, busy))
        record(stage, 0, busy)
        answer(status)
for entry, block in [(1, 1), (2, 0), (OFFER_LIMIT, 0), (255, 0), (0, 2), (1, 2), (0, 0xFFFFFFFF)]:
    judged(entry > 1 or block > 1, 'sending entry %d, record %d, counted from 0, of 2 with 2 each' % (entry, block))
    record(SENDING, entry, block)
    blocks(block & 0xFFFF)
for name, stage in [('fresh', FRESH), ('listing', LISTING), ('closing', CLOSING), ('ended', ENDED)]:
    for passes in (2, 3, 0xFFFFFFFF):
        judged(passes > 2, '%s, %d passes of 2' % (name, passes))
        record(stage, passes=passes)
        answer(ACCEPT)
    for packets in (0x7FFFFFFF, 0x80000000, 0xFFFFFFFF):
        judged(packets >= 1 << 31, '%s, %d packets' % (name, packets))
        record(stage, packets=packets)
        answer(ACCEPT)
    for mask in (3, 4, 0x80000000):
        judged(mask > 3, '%s, mask %08x over 2 offers' % (name, mask))
        record(stage, mask=mask)
        answer(ACCEPT)
case('a pass more than the offers is counted by code 1, and the next step is N1')
record(OPENING, passes=2)
answer(ACCEPT, ACCEPT)
case('the packet that makes 2^31 is sent, and the next step is N1')
record(OPENING, packets=0x7FFFFFFF)
answer(ACCEPT, ACCEPT)
over(MOST)
for mask in (ALL, ALL + 1):
    judged(mask > ALL, 'mask %08x over %d offers' % (mask, OFFER_LIMIT))
    record(CLOSING, mask=mask)
    answer(ACCEPT)
for entry in (LAST_ENTRY, OFFER_LIMIT):
    judged(entry > LAST_ENTRY, 'offering entry %d of %d, counted from 0' % (entry, OFFER_LIMIT))
    record(OFFERING, entry)
    answer(REJECT)
over(TWO)
case('N1 before H2: a reply of no bytes')
record(OFFERING, 2)
step()

# --------------------------------------------------------- refused bundles

def with_one(data, at):
    """The bundle with 1 in one byte."""
    return data[:at] + b'\x01' + data[at + 1:]


HEAD, DATA = cfu.BUNDLE_HEAD.size, cfu.DATA_SIZE
for name, bad in [('B1', TWO[:HEAD - 1]), ('B2', with_one(TWO, HEAD - 1)), ('B3', NONE), ('B4', TWO[:cfu.entry_start(2) - 1]),
                  ('B5', with_one(TWO, cfu.entry_start(1) + cfu.OFFER_AT.token)), ('B6', bundle([offer(1, DATA), offer(1, DATA)])), ('B7', MORE),
                  ('B8', bundle([offer(1, DATA), offer(2, DATA + 1)]))]:
    case('a refused bundle: %s' % name)
    over(bad)
    fresh()
    step()
    record(OFFERING)
    answer(ACCEPT)
over(NONE)
case('B before N1: a record that no bundle fits')
record(OFFERING, 9, 9, mask=0xFFFFFFFF, packets=0xFFFFFFFF, passes=0xFFFFFFFF)
answer(ACCEPT)
case('B before H2: a reply of no bytes')
record(OFFERING)
step()
case('an end over a refused bundle')
record(ENDED, H1, 9, mask=1)
answer(ACCEPT)
record(ENDED, DONE, mask=3)
step()
case('the same record over a bundle that is served again')
over(TWO)
answer(ACCEPT)

script.write()
