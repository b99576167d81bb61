#!/usr/bin/env python3
"""Random packets between the library and fwupd: what the one builds the other reads, field by field.

packets.py LIBRARY [--count N] [--seed N]    LIBRARY has the functions of include/cfu.h, as tools/c_library makes it

fwupd is called in its own libraries, those that fwupdtool is linked with: the classes FuCfuOffer and FuCfuPayload, and the structs of its plugins cfu and
hpi-cfu (HP's; there a HID report id stands before the packet). Which of them read, which build, and what fwupd has no reader or builder for is said in the
output. The first disagreement is printed with the packet's bytes and both sides' fields, and the status is 1. Where fwupd is not installed, says so.

A body is built by us as cfu_bundle_write does it, from an image, and read by us as the host does it, which sends each record as a content packet.

An offer's protocol is in the low four bits of byte 12 by CFU's text, and in the high four by FuCfuOffer. Each offer of that class is therefore read twice: as
it stands, where the other side must find protocol 0 and every other field equal, and with the two halves of byte 12 exchanged, where the protocol is equal too.
"""
import argparse
import collections
import ctypes
import os
import random
import re
import shutil
import subprocess
import sys

sys.path.append(os.path.join(os.path.dirname(os.path.abspath(__file__)), ".."))
import cfu  # noqa: E402
from cfu import COMPONENT_LIMIT, DATA_SIZE, LONG_SIZE, NUMBERS, PROTOCOL, SHORT_SIZE  # noqa: E402

U8, U16, U32, U64, SIZE, INT = ctypes.c_uint8, ctypes.c_uint16, ctypes.c_uint32, ctypes.c_uint64, ctypes.c_size_t, ctypes.c_int
ADDRESS = ctypes.c_void_p


class Missing(Exception):
    """fwupd is not installed, or has no function that is used here."""


class Refused(Exception):
    """A side that builds or reads nothing, in its words."""


class Disagreement(Exception):
    """The packet, and the fields that were expected and found."""


# ---- The library ----

class Library:
    """The functions of include/cfu.h by their names. A lent buffer is one argument: its length goes with it."""

    def __init__(self, path):
        self.types = dict(uint8_t=U8, uint16_t=U16, uint32_t=U32, size_t=SIZE)
        for name, fields in re.findall(r"^typedef struct (\w+) \{(.*?)^\}", cfu.HEADER_TEXT, re.M | re.S):
            found = [(field, self.types[kind]) for kind, field in re.findall(r"^    (\w+) (\w+);", fields, re.M)]
            self.types[name] = type(name, (ctypes.Structure,), {"_fields_": found})
        file = ctypes.CDLL(os.path.abspath(path))
        for answer, name, parameters in re.findall(r"^(\w+) (cfu_\w+)\(([^)]*)\);", cfu.HEADER_TEXT, re.M):
            if hasattr(file, name):
                setattr(self, name, self.function(file[name], answer, [parameter.split() for parameter in parameters.split(",")]))

    def function(self, called, answer, parameters):
        lent = [words[-1].startswith("*") for words in parameters]
        called.restype = self.types[answer]
        called.argtypes = [ADDRESS if is_lent else self.types[words[0]] for is_lent, words in zip(lent, parameters)]

        def call(*arguments):
            given = []
            for argument in arguments:
                is_buffer = lent[len(given)]
                given += [ctypes.cast(argument, ADDRESS), len(argument)] if is_buffer else [argument]
            return called(*given)
        return call

    def built(self, name, size, *fields):
        """The packet of that size that a function builds."""
        packet = (U8 * size)(*[0xA5] * size)
        number = getattr(self, name)(*fields, packet)
        if number != NUMBERS["SERVED"]:
            raise Refused(f"{name} returns {number:#x}")
        return bytes(packet)

    def offer(self, fields):
        version = self.types["cfu_version"](**fields["version"])
        return self.built("cfu_build_offer", SHORT_SIZE, self.types["cfu_offer"](**{**fields, "version": version}))

    def content(self, flags, length, sequence, address, data):
        return self.built("cfu_build_content", LONG_SIZE, flags, length, sequence, address, data)

    def read_content(self, packet):
        data = (U8 * DATA_SIZE)(*[0xA5] * DATA_SIZE)
        return {**plain(self.cfu_read_content(packet, data)), "data": bytes(data)}


def plain(value):
    """The fields of a struct by their names."""
    return {name: plain(getattr(value, name)) for name, _ in value._fields_} if isinstance(value, ctypes.Structure) else value


# ---- fwupd ----

class GError(ctypes.Structure):
    _fields_ = [("domain", U32), ("code", INT), ("message", ctypes.c_char_p)]


# Bytes, and how many
class GByteArray(ctypes.Structure):
    _fields_ = [("data", ADDRESS), ("len", ctypes.c_uint)]


# Addresses, and how many
class GPtrArray(ctypes.Structure):
    _fields_ = [("pdata", ctypes.POINTER(ADDRESS)), ("len", ctypes.c_uint)]


# The first member of each struct that fwupd generates
class FuStruct(ctypes.Structure):
    _fields_ = [("buf", ctypes.POINTER(GByteArray))]


# GLib's log level of a call that breaks what a function requires
CRITICAL = 1 << 3


class Fwupd:
    """fwupd's libraries, found at run time: what fwupdtool is linked with."""

    def __init__(self):
        tool = shutil.which("fwupdtool")
        if tool is None:
            raise Missing
        listed = subprocess.run(["ldd", tool], stdout=subprocess.PIPE, text=True, check=False, timeout=60).stdout
        linked = dict(re.findall(r"(\S+) => (/\S+)", listed))
        if "libfwupdengine.so" not in linked:
            raise Missing("fwupdtool is there, but is not linked with libfwupdengine.so")
        # With it the libraries that it is linked with: libfwupdplugin.so, libfwupd.so, GLib
        self.file = ctypes.CDLL(linked["libfwupdengine.so"])
        self.version = self.function("fwupd_version_string", ctypes.c_char_p)().decode()
        # Such a call ends the run.
        self.function("g_log_set_always_fatal", INT, INT)(CRITICAL)
        self.unref = self.function("g_object_unref", None, ADDRESS)
        self.free_error = self.function("g_error_free", None, ctypes.POINTER(GError))
        self.bytes_new = self.function("g_bytes_new", ADDRESS, ctypes.c_char_p, SIZE)
        self.bytes_data = self.function("g_bytes_get_data", ADDRESS, ADDRESS, ctypes.POINTER(SIZE))
        self.bytes_unref = self.function("g_bytes_unref", None, ADDRESS)

    def function(self, name, answer, *parameters):
        if not hasattr(self.file, name):
            raise Missing(f"fwupdtool is there, but its libraries have no {name}")
        found = self.file[name]
        found.restype, found.argtypes = answer, parameters
        return found

    def fallible(self, name, answer, *parameters):
        """A function whose last parameter is a GError."""
        called = self.function(name, answer, *parameters, ctypes.POINTER(ctypes.POINTER(GError)))

        def call(*arguments):
            error = ctypes.POINTER(GError)()
            found = called(*arguments, ctypes.byref(error))
            if error:
                message = error.contents.message.decode()
                self.free_error(error)
                raise Refused(f"{name}: {message}")
            return found
        return call


class Struct:
    """A packet, or a part of one, in a struct that fwupd generates."""

    def __init__(self, fwupd, name, reads=True, builds=True, **fields):
        """fields: their types, `bytes` for an array."""
        self.fwupd, self.name = fwupd, name
        self.unref = fwupd.function(f"{name}_unref", None, ADDRESS)
        self.parse = None
        if reads and hasattr(fwupd.file, f"{name}_parse"):
            self.parse = fwupd.fallible(f"{name}_parse", ADDRESS, ctypes.c_char_p, SIZE, SIZE)
        if builds or not self.parse:
            self.new = fwupd.function(f"{name}_new", ADDRESS)
        self.getters = {field: self.getter(field, kind) for field, kind in fields.items() if reads}
        self.setters = {field: self.setter(field, kind) for field, kind in fields.items() if builds}

    def getter(self, field, kind):
        if kind is not bytes:
            return self.fwupd.function(f"{self.name}_get_{field}", kind, ADDRESS)
        called = self.fwupd.function(f"{self.name}_get_{field}", ADDRESS, ADDRESS, ctypes.POINTER(SIZE))

        def get(struct):
            size = SIZE()
            data = called(struct, ctypes.byref(size))
            return ctypes.string_at(data, size.value)
        return get

    def setter(self, field, kind):
        if kind is not bytes:
            return self.fwupd.function(f"{self.name}_set_{field}", None, ADDRESS, kind)
        called = self.fwupd.fallible(f"{self.name}_set_{field}", INT, ADDRESS, ctypes.c_char_p, SIZE)
        return lambda struct, value: called(struct, value, len(value))

    def read(self, packet, at=0):
        """The fields of the struct at a place of the packet. Where fwupd has no parser the bytes go into a new struct, as its hpi-cfu does with an offer."""
        if self.parse:
            struct = self.parse(packet, len(packet), at)
        else:
            struct = self.new()
            array = FuStruct.from_address(struct).buf.contents
            if at + array.len > len(packet):
                raise Refused(f"{self.name} has {array.len} bytes, the packet {len(packet)} from {at}")
            ctypes.memmove(array.data, packet[at:], array.len)
        found = {field: get(struct) for field, get in self.getters.items()}
        self.unref(struct)
        return found

    def build(self, **values):
        """The bytes of a new struct with these fields."""
        struct = self.new()
        for field, value in values.items():
            self.setters[field](struct, value)
        array = FuStruct.from_address(struct).buf.contents
        found = ctypes.string_at(array.data, array.len)
        self.unref(struct)
        return found


class Firmware:
    """An object of a class that fwupd parses from bytes and writes as bytes."""

    def __init__(self, fwupd, name):
        self.fwupd = fwupd
        self.new = fwupd.function(f"{name}_new", ADDRESS)
        self.parse_bytes = fwupd.fallible("fu_firmware_parse_bytes", INT, ADDRESS, ADDRESS, SIZE, INT)
        self.write = fwupd.fallible("fu_firmware_write", ADDRESS, ADDRESS)

    def parsed(self, data):
        firmware, lent = self.new(), self.fwupd.bytes_new(data, len(data))
        self.parse_bytes(firmware, lent, 0, 0)
        self.fwupd.bytes_unref(lent)
        return firmware

    def written(self, firmware):
        """Its bytes; the object goes."""
        out, size = self.write(firmware), SIZE()
        found = ctypes.string_at(self.fwupd.bytes_data(out, ctypes.byref(size)), size.value)
        self.fwupd.bytes_unref(out)
        self.fwupd.unref(firmware)
        return found


class Offer(Firmware):
    """FuCfuOffer"""

    FIELDS = dict(segment_number=U8, force_immediate_reset=INT, force_ignore_version=INT, component_id=U8, token=U8, hw_variant=U32, protocol_revision=U8,
                  bank=U8, milestone=U8, product_id=U16)

    def __init__(self, fwupd):
        super().__init__(fwupd, "fu_cfu_offer")
        self.getters = {field: fwupd.function(f"fu_cfu_offer_get_{field}", kind, ADDRESS) for field, kind in self.FIELDS.items()}
        self.setters = {field: fwupd.function(f"fu_cfu_offer_set_{field}", None, ADDRESS, kind) for field, kind in self.FIELDS.items()}
        self.getters["version_raw"] = fwupd.function("fu_firmware_get_version_raw", U64, ADDRESS)
        self.setters["version_raw"] = fwupd.function("fu_firmware_set_version_raw", None, ADDRESS, U64)

    def read(self, packet):
        firmware = self.parsed(packet)
        found = {field: get(firmware) for field, get in self.getters.items()}
        self.fwupd.unref(firmware)
        return found

    def build(self, values):
        firmware = self.new()
        for field, value in values.items():
            self.setters[field](firmware, value)
        return self.written(firmware)


class Payload(Firmware):
    """FuCfuPayload: a chunk for each record of a body"""

    def __init__(self, fwupd):
        super().__init__(fwupd, "fu_cfu_payload")
        self.chunks = fwupd.fallible("fu_firmware_get_chunks", ctypes.POINTER(GPtrArray), ADDRESS)
        self.chunks_unref = fwupd.function("g_ptr_array_unref", None, ctypes.POINTER(GPtrArray))
        self.add_chunk = fwupd.function("fu_firmware_add_chunk", None, ADDRESS, ADDRESS)
        self.chunk_new = fwupd.function("fu_chunk_bytes_new", ADDRESS, ADDRESS)
        self.set_address = fwupd.function("fu_chunk_set_address", None, ADDRESS, SIZE)
        self.address = fwupd.function("fu_chunk_get_address", SIZE, ADDRESS)
        self.data = fwupd.function("fu_chunk_get_data", ADDRESS, ADDRESS)
        self.data_size = fwupd.function("fu_chunk_get_data_sz", SIZE, ADDRESS)

    def read(self, body):
        """The records: (address, data)."""
        firmware = self.parsed(body)
        chunks = self.chunks(firmware)
        found = [(self.address(chunk), ctypes.string_at(self.data(chunk), self.data_size(chunk)))
                 for chunk in chunks.contents.pdata[:chunks.contents.len]]
        self.chunks_unref(chunks)
        self.fwupd.unref(firmware)
        return found

    def build(self, records):
        firmware = self.new()
        for address, data in records:
            lent = self.fwupd.bytes_new(data, len(data))
            chunk = self.chunk_new(lent)
            self.set_address(chunk, address)
            self.add_chunk(firmware, chunk)
            self.fwupd.unref(chunk)
            self.fwupd.bytes_unref(lent)
        return self.written(firmware)


# ---- Random fields ----

class Chance(random.Random):
    """Random numbers, and random fields of them."""

    def number(self, most, least=0):
        """A number of a range, its ends more often than others."""
        return self.choice((least, most) + (self.randint(least, most),) * 6)

    def version(self):
        return dict(major=self.number(0xFF), minor=self.number(0xFFFF), variant=self.number(0xFF))

    def offer(self):
        """The fields of an offer that P2 does not refuse."""
        return dict(segment=self.number(0xFF), force_immediate_reset=self.number(1), force_ignore_version=self.number(1), id=self.number(0xFD),
                    token=self.number(0xFF), version=self.version(), need=self.number(0xFF), least=self.number(0xFFFFFF), protocol=self.number(15),
                    platform=self.number(0xFFFF))

    def carried(self):
        """The fields of an offer that a bundle can have (B5)."""
        return {**self.offer(), "segment": 0, "force_immediate_reset": 0, "force_ignore_version": 0, "token": 0, "protocol": PROTOCOL,
                "id": self.number(NUMBERS["ID_LIMIT"], 1)}

    def free(self, start, end):
        """Free bytes of an image, with runs of 0xFF in half of the images."""
        data = bytearray(self.randbytes(end))
        for _ in range(self.choice((0, 0, 1, 3))):
            at = self.randrange(end)
            after = min(end, at + self.number(4 * DATA_SIZE))
            data[at:after] = b"\xFF" * (after - at)
        return bytes(data[start:])


# ---- Kinds ----

# Of what the library returns: served, and the part of an offer packet that is not of its kind
SERVED = dict(number=NUMBERS["SERVED"])
NO_OFFER = dict(segment=0, force_immediate_reset=0, force_ignore_version=0, id=0, token=0, version=dict(major=0, minor=0, variant=0), need=0, least=0,
                protocol=0, platform=0)
NO_SIGNAL = dict(code=0, token=0)
# What fwupd's information packets have for a token
FWUPD_TOKEN = 0xDE
# A HID report id
REPORT = b"\x20"


def same(packet, expected, found):
    """The fields of a packet that are found are those that are expected."""
    if expected != found:
        raise Disagreement(packet, expected, found)


def exchanged(packet):
    """An offer with the two halves of byte 12 exchanged."""
    at = cfu.OFFER_AT.protocol
    return packet[:at] + bytes([packet[at] >> 4 | packet[at] << 4 & 0xF0]) + packet[at + 1:]


def as_fwupd_offer(offer, protocol, bank):
    """An offer's fields by FuCfuOffer's names, which has need and least as one number. Byte 13, the milestone, is reserved here."""
    return dict(segment_number=offer["segment"], force_immediate_reset=offer["force_immediate_reset"], force_ignore_version=offer["force_ignore_version"],
                component_id=offer["id"], token=offer["token"], hw_variant=offer["need"] | offer["least"] << 8, protocol_revision=protocol, bank=bank,
                milestone=0, product_id=offer["platform"], version_raw=cfu.version(**offer["version"]))


def as_hp_offer(offer):
    """An offer's fields by the names of hpi-cfu, which has both flags as one byte."""
    version = offer["version"]
    return dict(report_id=REPORT[0], segment_number=offer["segment"], component_id=offer["id"], token=offer["token"], variant=version["variant"],
                minor_version=version["minor"], major_version=version["major"], vendor_specific=offer["need"] | offer["least"] << 8,
                protocol_version=offer["protocol"], product_specific=offer["platform"],
                flags=offer["force_immediate_reset"] * cfu.FLAG_I | offer["force_ignore_version"] * cfu.FLAG_V)


class Kinds:
    """For each kind of packet a function that has the library build and fwupd read one, and one the other way around."""

    def __init__(self, library, fwupd, chance):
        self.ours, self.chance = library, chance
        self.offer = Offer(fwupd)
        self.payload = Payload(fwupd)
        self.hp_offer = Struct(fwupd, "fu_struct_hpi_cfu_offer_cmd", report_id=U8, segment_number=U8, flags=U8, component_id=U8, token=U8, variant=U8,
                               minor_version=U16, major_version=U8, vendor_specific=U32, protocol_version=U8, product_specific=U16)
        self.information = Struct(fwupd, "fu_struct_cfu_offer_info_req", reads=False, code=U8)
        self.offer_reply = Struct(fwupd, "fu_struct_cfu_offer_rsp", builds=False, token=U8, rr_code=U8, status=U8)
        self.content = Struct(fwupd, "fu_struct_cfu_content_req", flags=U8, data_length=U8, seq_number=U16, address=U32)
        self.hp_content = Struct(fwupd, "fu_struct_hpi_cfu_payload_cmd", report_id=U8, flags=U8, length=U8, seq_number=U16, address=U32, data=bytes)
        self.content_reply = Struct(fwupd, "fu_struct_cfu_content_rsp", builds=False, seq_number=U16, status=U8)
        self.version_reply = Struct(fwupd, "fu_struct_cfu_get_version_rsp", component_cnt=U8, flags=U8)
        self.component = Struct(fwupd, "fu_struct_cfu_get_version_rsp_component", fw_version=U32, flags=U8, component_id=U8)

    # Offers

    def read_offer(self, packet):
        return plain(self.ours.cfu_read_offer(packet))

    def offer_read(self):
        offer = self.chance.offer()
        packet = self.ours.offer(offer)
        # Bits 2 and 3 are FuCfuOffer's bank.
        same(packet, as_fwupd_offer(offer, protocol=0, bank=offer["protocol"] >> 2), self.offer.read(packet))
        packet = exchanged(packet)
        same(packet, as_fwupd_offer(offer, protocol=offer["protocol"], bank=0), self.offer.read(packet))

    def offer_built(self):
        offer = self.chance.offer()
        packet = self.offer.build(as_fwupd_offer(offer, protocol=offer["protocol"], bank=0))
        expected = dict(SERVED, kind=NUMBERS["KIND_OFFER"], signal=NO_SIGNAL)
        same(packet, {**expected, "offer": {**offer, "protocol": 0}}, self.read_offer(packet))
        packet = exchanged(packet)
        same(packet, {**expected, "offer": offer}, self.read_offer(packet))

    def hp_offer_read(self):
        offer = self.chance.offer()
        packet = REPORT + self.ours.offer(offer)
        same(packet, as_hp_offer(offer), self.hp_offer.read(packet))

    def hp_offer_built(self):
        offer = self.chance.offer()
        packet = self.hp_offer.build(**as_hp_offer(offer))
        same(packet, dict(SERVED, kind=NUMBERS["KIND_OFFER"], offer=offer, signal=NO_SIGNAL), self.read_offer(packet[1:]))

    def information_built(self):
        code = self.chance.number(0xFF)
        packet = self.information.build(code=code)
        expected = dict(SERVED, kind=NUMBERS["KIND_INFORMATION"], offer=NO_OFFER, signal=dict(code=code, token=FWUPD_TOKEN))
        same(packet, expected, self.read_offer(packet))

    def offer_reply_read(self):
        token, reason, status = (self.chance.number(0xFF) for _ in range(3))
        packet = self.ours.built("cfu_build_offer_reply", SHORT_SIZE, token, reason, status)
        same(packet, dict(token=token, rr_code=reason, status=status), self.offer_reply.read(packet))

    # Content

    def block(self):
        """sequence, address, length, and 52 bytes of which so many are sent."""
        chance = self.chance
        return chance.number(0xFFFF), chance.number(0xFFFFFFFF), chance.number(DATA_SIZE, 1), chance.randbytes(DATA_SIZE)

    def content_built_by_us(self):
        """The packet, and what it has: its flags are those that P2 does not refuse."""
        sequence, address, length, data = self.block()
        flags = self.chance.choice((0, cfu.FIRST, cfu.LAST, cfu.FIRST | cfu.LAST))
        return self.ours.content(flags, length, sequence, address, data), flags, sequence, address, length, data[:length].ljust(DATA_SIZE, b"\0")

    def content_read(self):
        packet, flags, sequence, address, length, data = self.content_built_by_us()
        same(packet, dict(flags=flags, data_length=length, seq_number=sequence, address=address), self.content.read(packet))
        # fwupd's struct ends before the data.
        same(packet, dict(data=data), dict(data=packet[cfu.CONTENT_AT.data:]))

    def content_built(self):
        sequence, address, length, data = self.block()
        flags = self.chance.number(0xFF)
        head = self.content.build(flags=flags, data_length=length, seq_number=sequence, address=address)
        packet = (head + data[:length]).ljust(LONG_SIZE, b"\0")
        same(packet, dict(SERVED, flags=flags, length=length, sequence=sequence, address=address, data=data[:length].ljust(DATA_SIZE, b"\0")),
             self.ours.read_content(packet))

    def hp_content_read(self):
        packet, flags, sequence, address, length, data = self.content_built_by_us()
        packet = REPORT + packet
        same(packet, dict(report_id=REPORT[0], flags=flags, length=length, seq_number=sequence, address=address, data=data), self.hp_content.read(packet))

    def hp_content_built(self):
        sequence, address, length, data = self.block()
        flags = self.chance.number(0xFF)
        packet = self.hp_content.build(report_id=REPORT[0], flags=flags, length=length, seq_number=sequence, address=address, data=data)
        same(packet, dict(SERVED, flags=flags, length=length, sequence=sequence, address=address, data=data[:length].ljust(DATA_SIZE, b"\0")),
             self.ours.read_content(packet[1:]))

    def content_reply_read(self):
        sequence, status = self.chance.number(0xFFFF), self.chance.number(0xFF)
        packet = self.ours.built("cfu_build_content_reply", SHORT_SIZE, sequence, status)
        same(packet, dict(seq_number=sequence, status=status), self.content_reply.read(packet))

    # Version replies

    def components(self, platform):
        """As many components as a version reply can have, and how many of them it has: (version, id, platform)."""
        chance = self.chance
        all_of_them = [(chance.number(0xFFFFFFFF), chance.number(0xFF), chance.number(platform)) for _ in range(COMPONENT_LIMIT)]
        return all_of_them, chance.number(COMPONENT_LIMIT)

    def version_reply_read(self):
        components, count = self.components(0xFFFF)
        packet = self.ours.built("cfu_build_version_reply", LONG_SIZE, count, PROTOCOL, b"".join(cfu.RUNNING.pack(*each) for each in components))
        same(packet, dict(component_cnt=count, flags=PROTOCOL), self.version_reply.read(packet))
        for place, (version, component, _) in enumerate(components[:count]):
            same(packet, dict(fw_version=version, flags=0, component_id=component),
                 self.component.read(packet, cfu.VERSION_REPLY.size + place * cfu.VERSION_REPLY_ENTRY.size))

    def version_reply_built(self):
        """With bits where CFU has extension, bank and vendor bits, which the library does not look at."""
        components, count = self.components(0)
        packet = self.version_reply.build(component_cnt=count, flags=PROTOCOL | self.chance.number(15) << 4)
        for version, component, _ in components[:count]:
            packet += self.component.build(fw_version=version, flags=self.chance.number(0xFF), component_id=component)
        packet = packet.ljust(LONG_SIZE, b"\0")
        lent = (U8 * cfu.COMPONENTS_SIZE)(*[0xA5] * cfu.COMPONENTS_SIZE)
        found = {**plain(self.ours.cfu_read_version_reply(packet, lent)), "components": list(cfu.RUNNING.iter_unpack(bytes(lent)))}
        same(packet, dict(SERVED, count=count, protocol=PROTOCOL, components=(components[:count] + [(0, 0, 0)] * COMPONENT_LIMIT)[:COMPONENT_LIMIT]), found)

    # Bodies

    def body_read(self):
        """The body that the library writes into a bundle. Its records are those that A3 has for the image."""
        offer = self.chance.carried()
        size = self.chance.number(self.chance.choice((100, 1000, 2000)), NUMBERS["REGION_LEAST"])
        image = cfu.image(offer["id"], cfu.version(**offer["version"]), size, self.chance.free)
        out = (U8 * cfu.BUNDLE_LIMIT)()
        written = self.ours.cfu_bundle_write(cfu.ENTRY.pack(self.ours.offer(offer), 0, len(image)), image, out)
        if written.number != NUMBERS["SERVED"]:
            raise Refused(f"cfu_bundle_write returns {written.number:#x}")
        (_, body), = cfu.split(bytes(out[:written.length]))
        same(body, dict(records=cfu.written_records(image)), dict(records=self.payload.read(body)))

    def body_built(self):
        """The content packets that the library's host sends from fwupd's body, in a bundle."""
        chance = self.chance
        records = [(chance.number(0xFFFFFFFF), chance.randbytes(chance.number(DATA_SIZE, 1))) for _ in range(chance.number(16, 1))]
        body = self.payload.build(records)
        expected = [dict(SERVED, flags=(place == 0) * cfu.FIRST | (place == len(records) - 1) * cfu.LAST, length=len(data), sequence=place, address=address,
                         data=data.ljust(DATA_SIZE, b"\0")) for place, (address, data) in enumerate(records)]
        same(body, dict(ending=NUMBERS["DONE"], records=expected), self.sent(cfu.bundle([(self.ours.offer(chance.carried()), body)])))

    def sent(self, bundle):
        """How the host ends with a device that accepts everything, and the content packets that it sends. Some replies to blocks that are neither first nor last
        come twice in a row: the host passes over the second (A4)."""
        ours, token = self.ours, self.chance.number(0xFF)
        contents, host, packet = ((U8 * NUMBERS[size])() for size in ("CONTENTS_SIZE", "HOST_SIZE", "LONG_SIZE"))
        check = ours.cfu_bundle_check(bundle, contents)
        if check.number != NUMBERS["SERVED"]:
            raise Refused(f"cfu_bundle_check returns {check.number:#x}, entry {check.entry}")
        ours.cfu_host_fresh(host, token)
        accept = ours.built("cfu_build_offer_reply", SHORT_SIZE, token, 0, cfu.ACCEPT)
        replies, found = collections.deque([b""]), []
        while True:
            step = ours.cfu_host_step_checked(host, contents, bundle, replies.popleft() if replies else b"", packet)
            if step.number != NUMBERS["SERVED"]:
                raise Refused(f"cfu_host_step_checked returns {step.number:#x}")
            if step.length == 0:
                ending = ours.cfu_host_report(host).ending
                if ending == NUMBERS["RUNNING"]:
                    continue
                return dict(ending=ending, records=found)
            if step.length == LONG_SIZE:
                found.append(ours.read_content(packet))
                times = 1 if found[-1]["flags"] else self.chance.number(2, 1)
                replies.extend([ours.built("cfu_build_content_reply", SHORT_SIZE, found[-1]["sequence"], cfu.SUCCESS)] * times)
            else:
                replies.append(accept)

    def all(self):
        """Kind, fwupd's name for it, built by us and read by fwupd, built by fwupd and read by us."""
        return [
            ("offer", "FuCfuOffer", self.offer_read, self.offer_built),
            ("offer", "FuStructHpiCfuOfferCmd", self.hp_offer_read, self.hp_offer_built),
            ("information", "FuStructCfuOfferInfoReq", None, self.information_built),
            ("extended", "nothing", None, None),
            ("offer reply", "FuStructCfuOfferRsp", self.offer_reply_read, None),
            ("content", "FuStructCfuContentReq", self.content_read, self.content_built),
            ("content", "FuStructHpiCfuPayloadCmd", self.hp_content_read, self.hp_content_built),
            ("content reply", "FuStructCfuContentRsp", self.content_reply_read, None),
            ("version reply", "FuStructCfuGetVersionRsp", self.version_reply_read, self.version_reply_built),
            ("body", "FuCfuPayload", self.body_read, self.body_built),
        ]


# ---- The run ----

def flat(value, name=""):
    """A value's parts, each with its name."""
    if isinstance(value, dict):
        return {key: part for field, each in value.items() for key, part in flat(each, f"{name}.{field}" if name else field).items()}
    if isinstance(value, (list, tuple)):
        return {key: part for place, each in enumerate(value) for key, part in flat(each, f"{name}[{place}]").items()}
    return {name: value.hex(" ") if isinstance(value, bytes) else f"{value:#x}"}


def shown(where, problem):
    """The first disagreement: the packet's bytes, and each field as it was put in and as it was read."""
    print(f"DISAGREE: {where}")
    if isinstance(problem, Refused):
        print(f"  {problem}")
        return
    packet, expected, found = problem.args
    print(f"  bytes: {packet.hex(' ')}")
    expected, found = flat(expected), flat(found)
    for field in [*expected, *(field for field in found if field not in expected)]:
        put, read = expected.get(field, "nothing"), found.get(field, "nothing")
        print(f"  {field}: {read}" if put == read else f"  {field}: expected {put}, read {read}  <-")


BY_US, BY_FWUPD = "built by us, read by fwupd", "built by fwupd, read by us"


def run(kinds, count, seed):
    """Runs each kind's share, and ends with status 1 at the first disagreement. Returns how many packets agreed, by fwupd's name and the direction."""
    ways = [(kind, theirs, way, made) for kind, theirs, *both in kinds for way, made in zip((BY_US, BY_FWUPD), both) if made]
    agreed = collections.Counter()
    for place, (kind, theirs, way, made) in enumerate(ways):
        share = count // len(ways) + (place < count % len(ways))
        for number in range(share):
            try:
                made()
            except (Disagreement, Refused) as problem:
                shown(f"{kind} ({theirs}), {way}, packet {number + 1} of {share}, seed {seed}", problem)
                sys.exit(1)
            agreed[theirs, way] += 1
    return agreed


def told(kinds, agreed):
    print(f"{'kind':<15}{'in fwupd':<27}{BY_US:<28}{BY_FWUPD}")
    for kind, theirs, *both in kinds:
        columns = [f"{agreed[theirs, way]:,} equal" if made else none for way, made, none in zip((BY_US, BY_FWUPD), both, ("no reader", "no builder"))]
        print(f"{kind:<15}{theirs:<27}{columns[0]:<28}{columns[1]}")
    totals = [sum(number for (_, way), number in agreed.items() if way == each) for each in (BY_US, BY_FWUPD)]
    print(f"{'total':<42}{totals[0]:<28,}{totals[1]:,}")
    offers = [agreed["FuCfuOffer", way] for way in (BY_US, BY_FWUPD)]
    print(f"""{sum(totals):,} packets, field by field equal but for this:
  offer, FuCfuOffer: the protocol is in the low four bits of byte 12 by CFU's text, and in the high four by fwupd. As they stand, the {offers[0]:,} offers that
  we built have protocol 0 for fwupd (and in its bank, bits 2 and 3, the upper half of ours), the {offers[1]:,} that fwupd built have protocol 0 for us, and
  every other field is equal. With the halves of byte 12 exchanged the protocol is equal too. FuStructHpiCfuOfferCmd has the protocol as we do.
What fwupd has no function for, and so was not compared:
  extended: neither reader nor builder. Information: no reader, and its builder takes no token, which is always {FWUPD_TOKEN:#x}. (FuStructHpiCfuBuf, a code
  and 15 bytes without names, could hold either and was left out.)
  offer reply, content reply: readers alone. FuStructCfuContentReq ends before the data, which the script puts behind it as fwupd's plugin does.
  version reply: the platform of a component, which from us is random and not read, and from fwupd is 0.""")


def main():
    parser = argparse.ArgumentParser(description=__doc__.split("\n")[0])
    parser.add_argument("library", metavar="LIBRARY", help="the shared library with the functions of include/cfu.h")
    parser.add_argument("--count", type=int, default=6000, help="how many packets (6000)")
    parser.add_argument("--seed", type=int, default=1, help="where the random numbers start (1)")
    given = parser.parse_args()
    if given.count < 1:
        parser.error("--count is under 1")
    try:
        fwupd = Fwupd()
        kinds = Kinds(Library(given.library), fwupd, Chance(given.seed)).all()
    except Missing as missing:
        print("fwupd is not installed: its readers and builders were not run", *missing.args, sep="\n")
        return
    except OSError as error:
        sys.exit(f"tests/fwupd/packets.py: {error}")
    print(f"fwupd {fwupd.version}, {given.count:,} packets, seed {given.seed}")
    told(kinds, run(kinds, given.count, given.seed))


main()
