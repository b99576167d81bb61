"""What `cfu` must print and write, worked out from docs/COMMAND.md, include/words.txt, document 01 and requests A1 and A3 to A5 of document 02.

The formats are those of tests/cfu.py; nothing here comes from a run of the program.
"""
import functools
import json
import os
import re
from collections import namedtuple

from common import TOP
import cfu
from cfu import OFFER, STAGING_LIMIT, version, version_parts
from make import cases as inspected


# ---- Words ----

def table():
    """Sentences and advice of include/words.txt by the names of their macros."""
    sentences, advice = {}, {}
    with open(os.path.join(TOP, "include", "words.txt"), encoding="utf-8") as file:
        for line in map(str.strip, file):
            if line and line[0] not in "#[":
                macro, *words = [re.sub(r"\{(\w+)\}", lambda found: f"{cfu.NUMBERS[found.group(1)]:,}", part.strip()) for part in line.split("|")]
                sentences[macro] = words[0]
                advice[macro] = words[1] if words[1:] else ""
    return sentences, advice


SENTENCE, ADVICE = table()


def counted(number, what):
    """`1 byte`, `2 bytes`."""
    return f"{number} {what}" if number == 1 else f"{number} {what}s"


def version_words(number):
    return "{}.{}.{}".format(*version_parts(number))


def least_words(least):
    """A least version, which has no variant: major.minor."""
    return "{}.{}".format(*version_parts(least << 8)[:2])


def refusal(row, entry=0):
    return f"refused {row}{f', entry {entry}' if entry else ''}: {SENTENCE[row]}"


def on_page(pattern):
    """What docs/COMMAND.md has for the group of a pattern, each time that it stands there."""
    with open(os.path.join(TOP, "docs", "COMMAND.md"), encoding="utf-8") as file:
        return re.findall(pattern, file.read(), re.M | re.S)


def page_block(start):
    """The example of docs/COMMAND.md whose first line starts so."""
    found = [block for block in on_page(r"^```\w*\n(.*?)^```$") if block.startswith(start)]
    assert len(found) == 1, f"docs/COMMAND.md: {len(found)} examples start with {start!r}"
    return found[0]


# ---- Offers, and bundles with their answers ----

Offer = namedtuple("Offer", "component version need least platform")


def read_offer(packet):
    _, _, component, _, number, need, least, _, _, platform = OFFER.unpack(packet)
    return Offer(component, number, need, int.from_bytes(least, "little"), platform)


def offer_line(entry, packet):
    """The line of an offer, for `inspect` and `make`."""
    it = read_offer(packet)
    needs = f"needs component {it.need} at {least_words(it.least)} or later" if it.need else "needs nothing"
    return f"offer {entry}: component {it.component}, version {version_words(it.version)}, {needs}, platform 0x{it.platform:04X}\n"


def known_answer(name):
    """What the check answers for a bundle of tests/inspect: row and entry, or None for an accepted one."""
    found = re.fullmatch(r"refused (B\d) (\d+)\n", inspected[name][1])
    return (found.group(1), int(found.group(2))) if found else None


ACCEPTED = [name for name in inspected if known_answer(name) is None]
REFUSED = [name for name in inspected if known_answer(name)]


# ---- Images ----

def records(body):
    """The records of a body: (address, data)."""
    out, at = [], 0
    while at < len(body):
        address, length = cfu.BODY_RECORD.unpack_from(body, at)
        at += cfu.BODY_RECORD.size + length
        out.append((address, body[at - length:at]))
    return out


crc = functools.lru_cache(maxsize=None)(cfu.crc)

# word: good, or the judgement's word of the page. length: that of the region, or the highest end. stands: the CRC in the image; gives: that of its bytes.
Judgement = namedtuple("Judgement", "word length records stands gives component version", defaults=[None] * 4)


def judged(packet, body):
    """An image against its offer."""
    laid = records(body)
    end = max(address + len(data) for address, data in laid)
    if end > STAGING_LIMIT:
        return Judgement("long", end, len(laid))
    if end < cfu.REGION_LEAST:
        return Judgement("short", end, len(laid))
    region = bytearray(b"\xFF" * end)
    for address, data in laid:
        region[address:address + len(data)] = data
    number, component = cfu.IMAGE.unpack_from(region)
    before, stands = bytes(region[:-cfu.CRC_SIZE]), int.from_bytes(region[-cfu.CRC_SIZE:], "big")
    it, gives = read_offer(packet), crc(before)
    word = "crc" if stands != gives else "component" if component != it.component else "version" if number != it.version else "good"
    return Judgement(word, end, len(laid), stands, gives, component, number)


def image_line(image):
    told = {"good": "good", "short": f"bad, under {cfu.REGION_LEAST} bytes",
            "long": f"bad, its records end at {image.length}, past the largest region of {STAGING_LIMIT} bytes"}.get(image.word)
    if image.word == "crc":
        told = f"bad, its CRC is 0x{image.stands:04X} where its bytes give 0x{image.gives:04X}"
    elif image.word == "component":
        told = f"bad, it is component {image.component}'s"
    elif image.word == "version":
        told = f"bad, it bears version {version_words(image.version)}"
    length = "" if image.word == "long" else f", {counted(image.length, 'byte')}"
    return f"  image: {told}{length}, {counted(image.records, 'record')}\n"


# ---- inspect ----

def inspect_text(name, data, answer=None):
    """Status and lines. answer: row and entry, for a bundle that the check refuses."""
    if answer:
        return 1, f"{name}: {refusal(*answer)}\n"
    offers = cfu.split(data)
    images = [judged(*offer) for offer in offers]
    lines = [f"{name}: {counted(len(data), 'byte')}, {counted(len(offers), 'offer')}\n"]
    for entry, ((packet, _), image) in enumerate(zip(offers, images), 1):
        lines += [offer_line(entry, packet), image_line(image)]
    bad = sum(image.word != "good" for image in images)
    if bad:
        lines.append(f"{bad} of {len(images)} images {'is' if bad == 1 else 'are'} bad\n")
    return (1 if bad else 0), "".join(lines)


def inspect_json(name, data, answer=None):
    """Status, and the pairs of the object in their order. No more than one byte past the limit is read of a file."""
    head = [("file", name), ("bytes", min(len(data), cfu.BUNDLE_LIMIT + 1)), ("accepted", not answer)]
    if answer:
        row, entry = answer
        return 1, head + [("row", row), ("entry", entry), ("words", SENTENCE[row]), ("offers", [])]
    listed, status = [], 0
    for place, (packet, body) in enumerate(cfu.split(data)):
        it, image = read_offer(packet), judged(packet, body)
        _, offset, length = cfu.ENTRY.unpack_from(data, cfu.entry_start(place))
        status = status if image.word == "good" else 1
        listed.append([("entry", place + 1), ("component", it.component), ("version", version_words(it.version)),
                       ("need", [("component", it.need), ("least", least_words(it.least))] if it.need else None), ("platform", it.platform),
                       ("offset", offset), ("length", length), ("records", image.records),
                       ("image", [("verdict", image.word), ("bytes", image.length), ("crc", image.stands), ("right", image.gives), ("component", image.component),
                                  ("version", None if image.version is None else version_words(image.version))])])
    return status, head + [("offers", listed)]


def read_json(text):
    """The object of a text that is one line, as pairs in their order; otherwise words that are no object."""
    if not text.endswith("\n") or text.count("\n") != 1:
        return f"not one line: {text!r}"
    try:
        return json.loads(text, object_pairs_hook=list)
    except ValueError as error:
        return f"{error}: {text!r}"


# ---- make ----

# name: the image's file, as it is looked for. data: the file's bytes. size, stamp: as asked for.
Part = namedtuple("Part", "component version name data need least platform size stamp", defaults=[0, 0, 0, None, False])


def free(data):
    """Bytes that a stamp may go into."""
    return data in (bytes(len(data)), b"\xFF" * len(data))


@functools.lru_cache(maxsize=None)
def filled_and_stamped(part):
    """The image as the writer gets it, filled up to the size and then stamped; or None, and what stands where the stamp should go. Under 8 bytes it is the file. A
    file that bears its offer's version and id is judged by its own last two bytes before it is filled."""
    data = part.data
    if len(data) < cfu.REGION_LEAST:
        return data, None
    head, stands = cfu.IMAGE.pack(part.version, part.component), data[:cfu.IMAGE.size]
    if part.stamp and stands == head and len(data) <= STAGING_LIMIT:
        own = data[-cfu.CRC_SIZE:]
        if own != cfu.with_crc(data[:-cfu.CRC_SIZE])[-cfu.CRC_SIZE:] and not free(own):
            return None, f"has a wrong CRC, 0x{int.from_bytes(own, 'big'):04X}, in its last two bytes"
    data = data if part.size is None else data.ljust(part.size, b"\xFF")
    if not part.stamp:
        return data, None
    if stands != head and not free(stands):
        number, component = cfu.IMAGE.unpack(stands)
        return None, f"bears component {component}, version {version_words(number)}, in bytes 0 to 4"
    whole, last = cfu.with_crc(head + data[cfu.IMAGE.size:-cfu.CRC_SIZE]), data[-cfu.CRC_SIZE:]
    if last != whole[-cfu.CRC_SIZE:] and not free(last):
        return None, f"has a wrong CRC, 0x{int.from_bytes(last, 'big'):04X}, in its last two bytes"
    return whole, None


def made_image(part):
    image, fault = filled_and_stamped(part)
    assert fault is None, f"{part.name} {fault}"
    return image


def entry_refusal(parts):
    """The message for the first entry that is refused before the writer, or None: in an entry first the size, then the same bytes, then the stamp."""
    for entry, part in enumerate(parts, 1):
        twins = [earlier for earlier, it in enumerate(parts[:entry - 1], 1) if part.stamp and it.stamp and it.data == part.data]
        fault = filled_and_stamped(part)[1]
        words = None
        if part.size is not None and len(part.data) > part.size and len(part.data) <= STAGING_LIMIT:
            words = f"has {counted(len(part.data), 'byte')}, over the size of {part.size}"
        elif part.size is not None and len(part.data) > STAGING_LIMIT >= part.size:  # no more is read
            words = f"has over {STAGING_LIMIT} bytes, over the size of {part.size}"
        elif twins:
            words = f"has the same bytes as the image of entry {twins[0]}"
        elif fault:
            words = f"{fault}: the stamp goes only into free bytes"
        if words:
            return f"cfu make: entry {entry}: {part.name} {words}\n"
    return None


def made_offer(part):
    return cfu.offer(part.component, part.version, need=part.need, least=part.least, platform=part.platform)


def made_bundle(parts):
    return cfu.bundle([(made_offer(part), cfu.written_body(made_image(part))) for part in parts])


def make_text(out, parts, dry=False):
    """The lines of a bundle that was made."""
    lines = []
    for entry, part in enumerate(parts, 1):
        data = made_image(part)
        stamped = ", stamped" if part.stamp else ""
        lines += [offer_line(entry, made_offer(part)),
                  f"  image: {part.name}, {counted(len(data), 'byte')}{stamped}, CRC 0x{int.from_bytes(data[-2:], 'big'):04X}\n"]
    return "".join(lines) + f"{out}: {counted(len(made_bundle(parts)), 'byte')}{', not written' if dry else ''}\n"


def borne(part):
    """What an image bears that W5 or W6 refuses: always all four."""
    data = made_image(part)
    number, component = cfu.IMAGE.unpack_from(data)
    stands, gives = int.from_bytes(data[-cfu.CRC_SIZE:], "big"), crc(data[:-cfu.CRC_SIZE])
    return f"{part.name} bears component {component}, version {version_words(number)}, CRC 0x{stands:04X} where its bytes give 0x{gives:04X}"


def make_refusal(row, entry=0, part=None):
    """The writer's refusal. part: that of the entry, which W5 and W6 tell about."""
    assert (part is not None) == (row in ("W5", "W6"))
    lines = [refusal(row, entry), *([borne(part)] if part else []), f"what to do: {ADVICE[row]}"]
    return "".join(f"cfu make: {line}\n" for line in lines)


# ---- split ----

def swapped(packet):
    """An offer with the halves of byte 12 exchanged."""
    at = cfu.OFFER_AT.protocol
    return packet[:at] + bytes([packet[at] >> 4 | (packet[at] & 0xF) << 4]) + packet[at + 1:]


def split_files(offers, swap=False):
    """The files of a cut bundle, in the order in which they are told."""
    out = {}
    for packet, body in offers:
        component = read_offer(packet).component
        out[f"{component}.offer.bin"] = swapped(packet) if swap else packet
        out[f"{component}.payload.bin"] = body
    return out


# ---- update ----

# A component of the simulated device: its region is base and length; a floor of 0 is none (A5).
Component = namedtuple("Component", "id running base length floor", defaults=[0])
BENCH = (Component(1, version(1, 2), 0, 64), Component(2, version(1, 1), 64, 64))
TOKEN = 0xA5
OFFER_STATUS = {cfu.SKIP: "SKIP", cfu.ACCEPT: "ACCEPT", cfu.REJECT: "REJECT"}


def codes(prefix):
    """The sentences of the codes with this prefix by their numbers."""
    return {cfu.NUMBERS[macro]: words for macro, words in SENTENCE.items() if macro.startswith(prefix)}


REASON, CONTENT_STATUS, INFORMATION = codes("REJECT_"), {**codes("SUCCESS"), **codes("ERROR_")}, codes("INFO_")


def needed_staging(components):
    return min(max(it.base + it.length for it in components), STAGING_LIMIT)


def set_up_row(components, staging):
    """S1 to S5, in checking order; None for a device that is set up."""
    ids = [it.id for it in components]
    if staging > STAGING_LIMIT:
        return "S1"
    if not 1 <= len(components) <= cfu.COMPONENT_LIMIT:
        return "S2"
    if len(set(ids)) < len(ids) or not all(1 <= it <= cfu.NUMBERS["ID_LIMIT"] for it in ids):
        return "S3"
    ordered = sorted(components, key=lambda it: it.base)
    if (any(it.length < cfu.REGION_LEAST or it.base + it.length > staging for it in components)
            or any(it.base + it.length > after.base for it, after in zip(ordered, ordered[1:]))):
        return "S4"
    if any(it.floor & 0xFF != 0 for it in components):
        return "S5"
    return None


class Device:
    """The device after set-up, between this host's packets: nobody else speaks to it."""

    def __init__(self, components, platform):
        self.components, self.platform, self.pending = {it.id: it for it in components}, platform, {}
        self.region = {}

    def effective(self, component):
        return self.pending.get(component, self.components[component].running)

    def offered(self, it):
        """Checks 3 to 9 with A1 and A5: status and reason. The bundle's check leaves no other protocol and no segment."""
        if it.component not in self.components or it.platform != self.platform:
            return cfu.REJECT, cfu.INV_COMPONENT
        its = self.components[it.component]
        if it.component in self.pending:
            return cfu.REJECT, cfu.SWAP_PENDING
        if it.version & 0xFF != its.running & 0xFF:
            return cfu.REJECT, cfu.WRONG_VARIANT
        if it.version >> 8 <= its.running >> 8 or it.version >> 8 < its.floor >> 8:
            return cfu.REJECT, cfu.OLD_FW
        if it.need and (it.need not in self.components or self.effective(it.need) >> 8 < it.least):
            return cfu.SKIP, 0
        return cfu.ACCEPT, 0

    def content(self, component, address, data, first, last):
        """Checks 5 and 6: the status."""
        its = self.components[component]
        if address + len(data) > its.length:
            return cfu.ERROR_INVALID_ADDR
        if first:
            self.region[component] = bytearray(b"\xFF" * its.length)
        region = self.region[component]
        region[address:address + len(data)] = data
        if not last:
            return cfu.SUCCESS
        number, bears = cfu.IMAGE.unpack_from(region)
        if crc(bytes(region[:-2])) != int.from_bytes(region[-2:], "big"):
            return cfu.ERROR_CRC
        if bears != component:
            return cfu.ERROR_VERIFY
        if number & 0xFF != its.running & 0xFF or number >> 8 < its.running >> 8 or number >> 8 < its.floor >> 8:
            return cfu.ERROR_VERSION
        self.pending[component] = number
        return cfu.SUCCESS

    def reset(self):
        self.components = {it.id: it._replace(running=self.effective(it.id)) for it in self.components.values()}
        self.pending = {}

    def lines(self):
        return [f"  component {it.id} runs {version_words(it.running)}" + (f", floor {version_words(it.floor)}" if it.floor else "")
                + (f", pending {version_words(self.pending[it.id])}" if it.id in self.pending else "") + "\n" for it in self.components.values()]


class Session:
    """A whole run of a fresh host against a device: its lines."""

    def __init__(self, device, offers, token, packets, twice, over_one_line):
        self.device, self.offers, self.token, self.shows, self.twice, self.over_one_line = device, offers, token, packets, twice, over_one_line
        self.lines, self.sent, self.passes, self.completed, self.ended = [], 0, 0, 0, None

    def show(self, mark, data, words):
        if self.shows:
            self.lines.append(f"{mark} {data.hex(' ').upper()}  {words}\n")

    def exchange(self, packet, what, reply, answer):
        self.sent += 1
        self.show("->", packet, what)
        self.show("<-", reply, answer)

    def information(self, code):
        self.exchange(cfu.information(code, self.token), f"information: {INFORMATION[code]}", cfu.offer_reply(self.token, cfu.ACCEPT), "ACCEPT")

    def offer(self, entry, packet, body):
        """SKIP, ACCEPT or REJECT, with its images' blocks after ACCEPT."""
        status, reason = self.device.offered(read_offer(packet))
        sent = packet[:cfu.OFFER_AT.token] + bytes([self.token]) + packet[cfu.OFFER_AT.token + 1:]
        component = read_offer(packet).component
        self.exchange(sent, f"offer for component {component}", cfu.offer_reply(self.token, status, reason), OFFER_STATUS[status])
        words = {cfu.SKIP: f": {SENTENCE['OFFER_SKIP']}", cfu.REJECT: f": {REASON.get(reason)}"}.get(status, "")
        self.lines.append(f"  offer {entry}: {OFFER_STATUS[status]}{words}\n")
        if status == cfu.ACCEPT:
            self.blocks(entry, component, records(body))
        return status

    def blocks(self, entry, component, laid):
        """late: the block whose second reply the host gets before that to the one that it has just sent (A4). It passes over it, and nothing counts it."""
        count, line_is_open, late = len(laid), "", None
        for sequence, (address, data) in enumerate(laid):
            first, last = sequence == 0, sequence == count - 1
            status = self.device.content(component, address, data, first, last)
            flags = (cfu.FIRST if first else 0) | (cfu.LAST if last else 0)
            packet, where = cfu.content(flags, sequence, address, data), f"bytes {len(data)} at address {address}"
            self.sent += 1
            self.show("->", packet, f"content: block {sequence + 1}, {where}")
            doubled = self.twice and not first and not last
            if doubled:
                self.show("->", packet, f"content: block {sequence + 1} again, {where}")
            if late is not None:
                self.show("<-", cfu.content_reply(late), f"{CONTENT_STATUS[cfu.SUCCESS]}: block {late + 1} again, passed over")
            self.show("<-", cfu.content_reply(sequence, status), CONTENT_STATUS[status])
            late = sequence if doubled else None
            if self.over_one_line and not self.shows:
                self.lines.append(f"\r  offer {entry}: block {sequence + 1} of {count}, {100 * (sequence + 1) // count} %")
                line_is_open = "\n"
            if status != cfu.SUCCESS:
                self.ended = status
                break
        self.lines.append(line_is_open)
        if self.ended is None:
            self.completed += 1
            self.lines.append(f"  offer {entry}: completed, blocks {count}\n")

    def run(self):
        self.information(cfu.START_ENTIRE_TRANSACTION)
        while self.a_pass():
            pass
        if self.ended is None:
            self.lines.append("done\n")
        else:
            self.lines.append(f"ended H1: {SENTENCE['H1']} with status 0x{self.ended:02X}: {CONTENT_STATUS[self.ended]}\n")
        self.lines.append(f"report: completed {self.completed} of {len(self.offers)}, packets {self.sent}, passes {self.passes}\n")

    def a_pass(self):
        """Whether another one follows."""
        self.passes += 1
        before, skipped = self.completed, False
        self.lines.append(f"pass {self.passes}\n")
        self.information(cfu.START_OFFER_LIST)
        for entry, (packet, body) in enumerate(self.offers, 1):
            skipped |= self.offer(entry, packet, body) == cfu.SKIP
            if self.ended is not None:
                return False
        self.information(cfu.END_OFFER_LIST)
        return skipped and self.completed > before and self.passes < len(self.offers)


def update_text(name, data, answer=None, components=BENCH, staging=None, platform=cfu.PLATFORM, token=TOKEN, packets=False, twice=False, over_one_line=False):
    """Status and lines. answer: as in inspect_text."""
    if answer:
        return 1, f"{refusal(*answer)}\n"
    offers = cfu.split(data)
    lines = [f"bundle {name}: bytes {len(data)}, offers {len(offers)}\n"]
    for entry, (packet, body) in enumerate(offers, 1):
        it = read_offer(packet)
        needs = f", needs component {it.need} at {least_words(it.least)}" if it.need else ""
        lines.append(f"  offer {entry}: component {it.component} to {version_words(it.version)}{needs}, platform 0x{it.platform:04X}, records {len(records(body))}\n")
    staging = needed_staging(components) if staging is None else staging
    row = set_up_row(components, staging)
    if row:
        return 1, "".join(lines) + f"{refusal(row)}\n"
    device = Device(components, platform)
    lines += [f"device: platform 0x{platform:04X}, staging {staging}\n"] + device.lines()
    session = Session(device, offers, token, packets, twice, over_one_line)
    session.run()
    lines += session.lines + ["device:\n"] + device.lines()
    device.reset()
    lines += ["device after the reset:\n"] + device.lines()
    return (0 if session.ended is None and session.completed == len(offers) else 1), "".join(lines)
