#!/usr/bin/env python3
"""Writes the frames (README.md) of the cases of a whole run to standard output.

The devices: platform 0x0042, components 1 to n, each with a region of 64 bytes.
"""
import os
import sys

sys.path.append(os.path.join(os.path.dirname(os.path.abspath(__file__)), ".."))
import cfu  # noqa: E402
from cfu import body, bundle, image, version  # noqa: E402

TOKEN = 0xA5
FILL = 0x5C
script = cfu.Script(cfu.Script.LONG)
case = script.case


def offer(component, number, need=(0, 0), size=cfu.DATA_SIZE):
    """An offer with the body of its image, in records of at most so many bytes. need: (component, version)."""
    return cfu.offer(component, number, need=need[0], least=need[1] >> 8), body(image(component, number), size)


def record(components, floors=(), **fields):
    """components: (running version, pending version or None), ids 1 on; floors: those of the first components (A5), 0 for the others."""
    floors = (list(floors) + [0] * len(components))[:len(components)]
    listed = [(slot + 1, running, 64 * slot, 64, floor) for slot, ((running, _), floor) in enumerate(zip(components, floors))]
    staged = {slot: pending for slot, (_, pending) in enumerate(components) if pending is not None}
    return cfu.device_record(listed, 64 * len(components), staged=staged, **fields)


def run(device, what):
    script.frame('R', bytes([TOKEN, FILL]) + device + what)


def twice(device, what, numbers, token=TOKEN):
    """A run in which the packets of these numbers, from 0, arrive twice (A4); a pattern has no bit for those past 63."""
    pattern = sum(1 << number for number in numbers if number < 64)
    script.frame('T', bytes([token, FILL]) + pattern.to_bytes(8, 'little') + device + what)


def before(next_one):
    """A previous packet that D1 accepts (A4) where this sequence is next."""
    return cfu.content(0, (next_one - 1) % 65536, 0, b'\x01')


V10, V11, V12, V13, V14 = (version(1, minor) for minor in range(5))
BENCH = [(V12, None), (V11, None)]
ONE, TWO = offer(1, V13, (2, V12)), offer(2, V12)

case('E13: component 1 first, needing component 2 at its new version')
run(record(BENCH), bundle([ONE, TWO]))
case('E13, the other order')
run(record(BENCH), bundle([TWO, ONE]))

CHAIN = [offer(k, V11, (k + 1, V11) if k < cfu.OFFER_LIMIT else (0, 0)) for k in range(1, cfu.OFFER_LIMIT + 1)]
MOST = [(V10, None)] * cfu.COMPONENT_LIMIT
case('the chain of seven: each needs the next; one lands in a pass')
run(record(MOST), bundle(CHAIN))
case('the chain of seven, the other order')
run(record(MOST), bundle(CHAIN[::-1]))

case('a need cycle: 1 needs 2, 2 needs 1; none lands')
run(record(BENCH), bundle([ONE, offer(2, V12, (1, V13))]))
case('a self-need: 1 needs its own new version; it does not land, 2 does')
run(record(BENCH), bundle([offer(1, V13, (1, V13)), TWO]))
case('component 2 is pending at the start: 1 lands by it, 2 is rejected')
run(record([(V12, None), (V11, V12)]), bundle([ONE, TWO]))
case('a session is open at the start, with a READY owed: code 0 drops both')
run(record(BENCH, session=(cfu.RECEIVING, 0, 0x33, 7), owed=0x44, previous=before(7)), bundle([ONE, TWO]))
case('an offer for an absent component: rejected, the others land')
run(record(BENCH), bundle([offer(5, V13), ONE, TWO]))

# What the bundle of last year's fault does now: the offer is component 1's, the body is component 2's good image.
SWAPPED = (offer(1, V13)[0], body(image(2, V13)))
case("last year's fault: component 2's image in the body of component 1's offer: H1 with status 4, nothing pending")
run(record(BENCH), bundle([SWAPPED]))
case("last year's fault behind a good image: component 2 lands, and the fault ends the run before anything of component 1 is pending")
run(record(BENCH), bundle([TWO, SWAPPED]))

# The customer's case (document 02, A1): a debug build of the number that runs as a production build.
DEBUG = version(1, 2, 1)
case("the customer's case: a debug build of the running number: REJECT 0xE2, one pass, nothing changes")
run(record(BENCH), bundle([offer(1, DEBUG)]))
case("the customer's case beside a good offer: 2 lands, the debug build of 1 is rejected and no second pass is run")
run(record(BENCH), bundle([offer(1, DEBUG), TWO]))
case('a debug build of component 2 of the needed release: it is rejected, so that 1, which needs it, stays')
run(record(BENCH), bundle([ONE, offer(2, version(1, 2, 1))]))
case('debug builds where debug builds run: both land, in two passes')
run(record([(DEBUG, None), (version(1, 1, 1), None)]), bundle([offer(1, version(1, 3, 1), (2, V12)), offer(2, version(1, 2, 1))]))
case('an image of another variant under an offer of the running one: H1 with status 7, nothing pending')
run(record(BENCH), bundle([(offer(1, V13)[0], body(image(1, version(1, 3, 1))))]))

case('refused: B3, no offers')
run(record(BENCH), bundle([]))
case("refused: D1, the customer's debug build staged")
run(record([(V12, DEBUG), (V11, None)]), bundle([ONE, TWO]))
case('refused: D1, a READY owed while idle')
run(record(BENCH, owed=0x44), bundle([ONE, TWO]))

# ------------------------------------- A4: packets that arrive twice

case('A4: a session is open at the start whose previous packet is at 65535: code 0 blanks it')
run(record(BENCH, session=(cfu.RECEIVING, 0, 0x33, 0), previous=before(0)), bundle([ONE, TWO]))
case('A4: a previous packet that no session holds: code 0 blanks it')
run(record(BENCH, previous=bytes(range(60))), bundle([ONE, TWO]))
for sequence in (7, 5):
    case('A4: refused: D1, the next sequence is 7 and the previous packet at %d' % sequence)
    run(record(BENCH, session=(cfu.RECEIVING, 0, 0x33, 7), previous=before(sequence + 1)), bundle([ONE, TWO]))


def two(size):
    """The offers of E13 with bodies of more records."""
    return offer(1, V13, (2, V12), size), offer(2, V12, size=size)


def middles(*places):
    """The numbers of middle blocks. places: (number of a body's first block, its records)."""
    return [number for first, count in places for number in range(first + 1, first + count - 1)]


for size, count in ((22, 3), (16, 4), (10, 7)):
    one, other = two(size)
    case('A4: E13 with bodies of %d records, every middle block twice: packets %d, passes 2' % (count, 9 + 2 * count))
    twice(record(BENCH), bundle([one, other]), middles((4, count), (7 + count, count)))
    case('A4: the other order, every middle block twice: packets %d, passes 1' % (5 + 2 * count))
    twice(record(BENCH), bundle([other, one]), middles((3, count), (4 + count, count)))

ONE_OF_4, TWO_OF_4 = two(16)
case('A4: nothing twice: as a run')
twice(record(BENCH), bundle([TWO_OF_4, ONE_OF_4]), [])
for number, words in enumerate(['code 0', 'code 1', 'the first offer', 'its first block: H2', 'its second block', 'its third block', 'its last block: H2',
                                'the second offer', 'its first block: H2', 'its second block', 'its third block', 'its last block: H2', 'code 2', 'none']):
    case('A4: packet %d twice: %s' % (number, words))
    twice(record(BENCH), bundle([TWO_OF_4, ONE_OF_4]), [number])
for number, words in ((3, 'the first block of the first offer'), (5, 'a middle block'), (6, 'the last block of the first offer'),
                      (7, 'the second offer'), (11, 'the last block of all')):
    case('A4: packet %d twice, with token 0: %s' % (number, words))
    twice(record(BENCH), bundle([TWO_OF_4, ONE_OF_4]), [number], token=0)
case('A4: code 0 twice where the first offer is skipped: its body meets an idle device')
twice(record(BENCH), bundle([ONE_OF_4, TWO_OF_4]), [0])
for token in (TOKEN, 0):
    case('A4: every packet twice, token %02x' % token)
    twice(record(BENCH), bundle([TWO_OF_4, ONE_OF_4]), range(64), token=token)
    case('A4: every content packet twice, token %02x' % token)
    twice(record(BENCH), bundle([TWO_OF_4, ONE_OF_4]), [*range(3, 7), *range(8, 12)], token=token)
case('A4: bodies of one record, which is first and last: twice')
twice(record(BENCH[:1]), bundle([(offer(1, V13)[0], cfu.body_record(0, image(1, V13)[:52]))]), [3])
case('A4: bodies of two records have no middle block: the first twice')
twice(record(BENCH), bundle([TWO, ONE]), [3])
case('A4: every middle block twice, component 2 pending at the start: 1 lands by it')
twice(record([(V12, None), (V11, V12)]), bundle([ONE_OF_4, TWO_OF_4]), middles((3, 4)))
case('A4: every middle block twice, a session open at the start')
twice(record(BENCH, session=(cfu.RECEIVING, 1, 0x33, 1), owed=0x44, previous=before(1)), bundle([TWO_OF_4, ONE_OF_4]), middles((3, 4), (8, 4)))
case('A4: every middle block twice, the image of another component: H1 with status 4')
twice(record(BENCH), bundle([(offer(1, V13)[0], body(image(2, V13), 16))]), middles((3, 4)))

CHAIN_OF_3 = [offer(k, V11, (k + 1, V11) if k < cfu.OFFER_LIMIT else (0, 0), 22) for k in range(1, cfu.OFFER_LIMIT + 1)]
PASS = cfu.OFFER_LIMIT + 2 + 3
case('A4: the chain of seven, bodies of three records, every middle block up to packet 63 twice')
twice(record(MOST), bundle(CHAIN_OF_3), middles(*((1 + PASS * p + 1 + cfu.OFFER_LIMIT - p, 3) for p in range(cfu.OFFER_LIMIT))))
case('A4: the chain of seven, the other order, every middle block twice')
twice(record(MOST), bundle(CHAIN_OF_3[::-1]), middles(*((3 + 4 * k, 3) for k in range(cfu.OFFER_LIMIT))))

# ------------------------------------------ A5: the lowest allowed version


def both(words, device, one, other):
    """Two offers in both orders; what is left must not depend on it."""
    case('A5: %s' % words)
    run(device, bundle([one, other]))
    case('A5: %s: the other order' % words)
    run(device, bundle([other, one]))


both('E13, the floor of each met exactly by its offer: both land', record(BENCH, [V13, V12]), ONE, TWO)
both('E13, floors at what runs and below it: both land', record(BENCH, [V12, V10]), ONE, TWO)
both('E13, the floor of 2 above its offer, which is newer than what runs: 2 is rejected, so that 1, which needs it, is skipped', record(BENCH, [0, V13]), ONE, TWO)
both('E13, the floor of 1 above its offer: it is rejected, 2 lands and one pass is run', record(BENCH, [V14]), ONE, TWO)
both('E13, both floors above their offers: none lands, none is skipped', record(BENCH, [V14, V13]), ONE, TWO)
both('the needed component runs below its floor: what runs meets the need, so that 1 lands; 2, offered below its floor, is rejected',
     record(BENCH, [0, V13]), offer(1, V13, (2, V11)), TWO)
both('the needed component runs below its floor, which meets no need: 1 is skipped; 2 is not offered, but 3 is rejected as absent',
     record(BENCH, [0, V12]), ONE, offer(3, V12))
both('the needed component is pending at its floor: 1 lands by it, 2 is rejected', record([(V12, None), (V11, V12)], [0, V12]), ONE, TWO)
both('floors count by release: debug builds at their floors where debug builds run: both land',
     record([(DEBUG, None), (version(1, 1, 1), None)], [V13, V12]), offer(1, version(1, 3, 1), (2, V12)), offer(2, version(1, 2, 1)))
both('a debug build below the floor of component 2: REJECT 0xE2, 1 is skipped', record(BENCH, [0, V13]), ONE, offer(2, version(1, 2, 1)))
both('a need cycle through an offer below its floor: none lands', record(BENCH, [0, V13]), ONE, offer(2, V12, (1, V12)))

case('A5: the chain of seven, the floor of each met exactly by its offer: one lands in a pass')
run(record(MOST, [V11] * cfu.COMPONENT_LIMIT), bundle(CHAIN))
case('A5: the chain of seven, the other order, the floor of each met exactly by its offer')
run(record(MOST, [V11] * cfu.COMPONENT_LIMIT), bundle(CHAIN[::-1]))
BROKEN = [V12 if slot == 3 else V11 for slot in range(cfu.COMPONENT_LIMIT)]
case('A5: the chain of seven, the floor of 4 above its offer: 5 to 7 land in a pass each, 1 to 3 are skipped, a fourth pass lands nothing')
run(record(MOST, BROKEN), bundle(CHAIN))
case('A5: the chain of seven, the other order, the floor of 4 above its offer: 5 to 7 land, 1 to 3 are skipped, a second pass lands nothing')
run(record(MOST, BROKEN), bundle(CHAIN[::-1]))

# The offer is at the floor or above it, the image is older.
for number, words in ((V12, 'at what runs'), (V13, 'newer than what runs')):
    case('A5: an image %s and below the floor in the body of an offer at the floor: H1 with status 7, nothing pending' % words)
    run(record(BENCH, [V14]), bundle([(offer(1, V14)[0], body(image(1, number)))]))
case('A5: an image at the floor in the body of an offer above it: it lands under its own version')
run(record(BENCH, [V13]), bundle([(offer(1, V14)[0], body(image(1, V13)))]))
case('A5: an image below the floor behind a good image: 2 lands, and the run ends before anything of component 1 is pending')
run(record(BENCH, [V14]), bundle([TWO, (offer(1, V14)[0], body(image(1, V13)))]))
case('A5: a session is open at the start on a component below its floor, with a READY owed: code 0 drops both, and it lands at its floor')
run(record(BENCH, [V13, V12], session=(cfu.RECEIVING, 0, 0x33, 7), owed=0x44, previous=before(7)), bundle([ONE, TWO]))
case('A5: refused: D1, a staged version below its floor')
run(record([(V12, None), (V11, V12)], [0, V13]), bundle([ONE, TWO]))
case('A5: refused: D1, a floor with a variant')
run(record(BENCH, [0, version(1, 1, 1)]), bundle([ONE, TWO]))
case('A5: refused: B3 before D1, no offers and a floor with a variant')
run(record(BENCH, [1]), bundle([]))

case('A5: every middle block twice, the floor of each met exactly by its offer: both land')
twice(record(BENCH, [V13, V12]), bundle([TWO_OF_4, ONE_OF_4]), middles((3, 4), (8, 4)))
case('A5: every middle block twice, the floor of 1 above its offer: 2 lands, 1 is rejected')
twice(record(BENCH, [V14]), bundle([TWO_OF_4, ONE_OF_4]), middles((3, 4)))
case('A5: every middle block twice, an image below the floor: H1 with status 7')
twice(record(BENCH, [V14]), bundle([(offer(1, V14)[0], body(image(1, V13), 16))]), middles((3, 4)))

script.write()
