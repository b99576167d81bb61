#!/usr/bin/env python3
"""Runs the C example on good and damaged bundles, on devices that refuse, on devices with floors and over a bus that delivers blocks twice, and checks its lines
and its status against document 01 and document 02, A1, A4 and A5.

cases.py [--few] COMMAND..    COMMAND runs the example: its path, with a checker before it where there is one; --few takes the cases that lend every buffer once

Bundles come from tests/inspect/make.py: its own cases, with the row and the entry that document 01 gives them, and E13's here.
"""
import os
import pty
import re
import subprocess
import sys
import tempfile

HERE = os.path.dirname(os.path.abspath(__file__))
sys.path += [os.path.join(HERE, ".."), os.path.join(HERE, "..", "inspect")]
import cfu  # noqa: E402
from cfu import body, body_record, bundle, image, offer, version  # noqa: E402
from make import E12, V120, V130, cases as inspected  # noqa: E402

ALL, NOT_ALL, COMMAND_LINE, NO_FILE, BUNDLE, SET_UP, ENDED, CALL, LOST = range(9)
failures = []
passed = 0


# Bundles

OFFER_1 = offer(1, V130, need=2, least=V120 >> 8)
OFFER_2 = offer(2, V120)
BODY_1 = body(image(1, V130))
BODY_2 = body(image(2, V120))
OTHER_ORDER = bundle([(OFFER_2, BODY_2), (OFFER_1, BODY_1)])


def one(component, number, data, **fields):
    return bundle([(offer(component, number, **fields), data)])


def with_bad_crc(component, number):
    data = bytearray(image(component, number))
    data[20] ^= 1
    return body(bytes(data))


# Packets and replies of E13 by document 01's layout, with the example's token

def line(mark, data, words):
    return f"{mark} {data.hex(' ').upper()}  {words}"


TOKEN = 0xA5


def asked(packet, status, words, answer, reason=0):
    return [line("->", packet, words), line("<-", cfu.offer_reply(TOKEN, status, reason), answer)]


def information(code, words):
    return asked(cfu.information(code, TOKEN), cfu.ACCEPT, f"information: {words}", "ACCEPT")


def sent_blocks(records, twice=False, refused=None):
    """The lines of a body's blocks. records: (address, data). twice: those that are neither first nor last come twice, and of the two replies the second comes to
    the host in place of the next block's. refused: the first block that the device refuses, by its place from 0, with the status and its words."""
    lines, late = [], None
    for sequence, (address, data) in enumerate(records):
        flags = (cfu.FIRST if sequence == 0 else 0) | (cfu.LAST if sequence == len(records) - 1 else 0)
        doubled = twice and flags == 0
        for again in ("", " again")[:2 if doubled else 1]:
            lines.append(line("->", cfu.content(flags, sequence, address, data), f"content: block {sequence + 1}{again}, bytes {len(data)} at address {address}"))
        if late is not None:
            lines.append(line("<-", cfu.content_reply(late), f"taken: block {late + 1} again, passed over"))
        if refused and refused[0] == sequence:
            return lines + [line("<-", cfu.content_reply(sequence, refused[1]), refused[2])]
        lines.append(line("<-", cfu.content_reply(sequence), "taken"))
        late = sequence if doubled else None
    return lines


def contents(data):
    return sent_blocks([(address, block) for address, _, block in cfu.blocks(data)])


SENT_1 = offer(1, V130, token=TOKEN, need=2, least=V120 >> 8)
SENT_2 = offer(2, V120, token=TOKEN)
START = information(cfu.START_ENTIRE_TRANSACTION, "start entire transaction")
LIST = information(cfu.START_OFFER_LIST, "start offer list")
END = information(cfu.END_OFFER_LIST, "end offer list")
SKIPPED = asked(SENT_1, cfu.SKIP, "offer for component 1", "SKIP") + ["  offer 1: SKIP: its need is not met"]
E13_PACKETS = (
    START
    + ["pass 1"] + LIST + SKIPPED
    + asked(SENT_2, cfu.ACCEPT, "offer for component 2", "ACCEPT") + ["  offer 2: ACCEPT"] + contents(image(2, V120)) + ["  offer 2: completed, blocks 2"]
    + END
    + ["pass 2"] + LIST
    + asked(SENT_1, cfu.ACCEPT, "offer for component 1", "ACCEPT") + ["  offer 1: ACCEPT"] + contents(image(1, V130)) + ["  offer 1: completed, blocks 2"]
    + asked(SENT_2, cfu.REJECT, "offer for component 2", "REJECT", cfu.SWAP_PENDING) + ["  offer 2: REJECT: the component awaits a reset"]
    + END)
assert sum(text.startswith("->") for text in E13_PACKETS) == 13

# A4: images that the writer cuts into 52, 10 and 2 bytes, in E13's order; and one of 200 bytes, in four blocks, of which two in a row come twice
THREE_1, THREE_2, FOUR = image(1, V130), image(2, V120), image(2, V120, 200)
THREES = bundle([(OFFER_1, cfu.written_body(THREE_1)), (OFFER_2, cfu.written_body(THREE_2))])
FOURS = one(2, V120, body(FOUR))
FOURS_DEVICE = ["--component", "2:1.1.0:0:200"]


def cut_in_three(data):
    return [(0, data[:52]), (52, data[52:62]), (62, data[62:])]


def threes_packets(twice):
    """E13's packets with a block more in each body."""
    return (START
            + ["pass 1"] + LIST + SKIPPED
            + asked(SENT_2, cfu.ACCEPT, "offer for component 2", "ACCEPT") + ["  offer 2: ACCEPT"] + sent_blocks(cut_in_three(THREE_2), twice)
            + ["  offer 2: completed, blocks 3"] + END
            + ["pass 2"] + LIST
            + asked(SENT_1, cfu.ACCEPT, "offer for component 1", "ACCEPT") + ["  offer 1: ACCEPT"] + sent_blocks(cut_in_three(THREE_1), twice)
            + ["  offer 1: completed, blocks 3"]
            + asked(SENT_2, cfu.REJECT, "offer for component 2", "REJECT", cfu.SWAP_PENDING) + ["  offer 2: REJECT: the component awaits a reset"]
            + END)


def one_offer(blocks):
    """Component 2's offer alone, and its blocks, up to the last of them."""
    return START + ["pass 1"] + LIST + asked(SENT_2, cfu.ACCEPT, "offer for component 2", "ACCEPT") + ["  offer 1: ACCEPT"] + blocks


FOUR_BLOCKS = [(address, block) for address, _, block in cfu.blocks(FOUR)]
assert [len(data) for _, data in FOUR_BLOCKS] == [52, 52, 52, 44]
# Of 15 packets two are copied: the copies and the replies that are passed over are further lines.
assert [sum(text.startswith(mark) for text in threes_packets(twice)) for twice in (False, True) for mark in ("->", "<-")] == [15, 15, 17, 17]
assert [text.split("  ")[1] for text in sent_blocks(FOUR_BLOCKS, twice=True)] == [
    "content: block 1, bytes 52 at address 0", "taken",
    "content: block 2, bytes 52 at address 52", "content: block 2 again, bytes 52 at address 52", "taken",
    "content: block 3, bytes 52 at address 104", "content: block 3 again, bytes 52 at address 104", "taken: block 2 again, passed over", "taken",
    "content: block 4, bytes 44 at address 156", "taken: block 3 again, passed over", "taken"]

TOO_LOW = "not newer than what runs, or below the floor"
OLD_IMAGE = "ended H1: the device refused a block or its image with status 0x07: the image is of another variant than what runs, older than that, or below the floor"
AFTER = ["device after the reset:"]
BOTH_NEW = ["device:", "  component 1 runs 1.2.0, pending 1.3.0", "  component 2 runs 1.1.0, pending 1.2.0"] + AFTER + [
    "  component 1 runs 1.3.0", "  component 2 runs 1.2.0"]
BOTH_OLD = ["device:", "  component 1 runs 1.2.0", "  component 2 runs 1.1.0"] + AFTER + ["  component 1 runs 1.2.0", "  component 2 runs 1.1.0"]


# Running

def checked(name, fine, said):
    global passed
    if fine:
        passed += 1
    else:
        failures.append(name)
        print(f"WRONG {name}: {said}")


def ran(command, args):
    done = subprocess.run(command + args, stdout=subprocess.PIPE, stderr=subprocess.PIPE, timeout=300)
    return done.returncode, done.stdout.decode(), done.stderr.decode()


def holds(command, name, args, status, lines, begins=False):
    """The status, and the last lines (or, for a refusal, how the one line begins)."""
    got, out, err = ran(command, args)
    printed = out.splitlines()
    if begins:
        same = len(printed) == 1 and printed[0].startswith(lines) and len(printed[0]) > len(lines)
    else:
        same = printed[len(printed) - len(lines):] == lines
    checked(name, got == status and same and err == "", f"status {got}, not {status}; {err}{out}")


def rows(command, work, name, data, text):
    """A bundle of tests/inspect: the row and the entry, or what it contains."""
    path = os.path.join(work, "bundle")
    with open(path, "wb") as file:
        file.write(data)
    refused = re.fullmatch(r"refused (B\d) (\d)\n", text)
    if refused:
        row, entry = refused.groups()
        holds(command, name, [path], BUNDLE, f"refused {row}: " if entry == "0" else f"refused {row}, entry {entry}: ", begins=True)
        return
    got, out, err = ran(command, [path])
    printed = out.splitlines()
    expected = text.splitlines()
    head = printed[:1] and printed[0].endswith(expected[0])
    offers = [re.sub(r"^  offer \d: component (\d+) to (\S+?),.* (records \d+)$", r"\1 \2 \3", item) for item in printed[1:len(expected)]]
    checked(name, got in (ALL, NOT_ALL, ENDED) and head and offers == expected[1:] and err == "", f"status {got}; {err}{out}")


def on_a_terminal(command, name, args, wanted):
    """The progress line: written over by a carriage return, ended by a line end."""
    ours, theirs = pty.openpty()
    done = subprocess.Popen(command + args, stdout=theirs, stderr=theirs)
    os.close(theirs)
    out = b""
    while True:
        try:
            part = os.read(ours, 4096)
        except OSError:
            break
        if not part:
            break
        out += part
    status = done.wait()
    checked(f"a progress line on a terminal, {name}", status == ALL and out.count(wanted) == 1, out)


def main():
    few = sys.argv[1:2] == ["--few"]
    command = sys.argv[2 if few else 1:]
    if not command:
        sys.exit(__doc__)
    with tempfile.TemporaryDirectory() as work:
        def case(name, data, status, *lines, args=()):
            path = os.path.join(work, name.replace(" ", "-"))
            with open(path, "wb") as file:
                file.write(data)
            holds(command, name, list(args) + [path], status, list(lines))

        def refusal(name, data, status, begin, args=()):
            path = os.path.join(work, name.replace(" ", "-"))
            with open(path, "wb") as file:
                file.write(data)
            got, out, err = ran(command, list(args) + [path])
            last = out.splitlines()[-1:]
            checked(name, got == status and err == "" and last and last[0].startswith(begin + ": ") and len(last[0]) > len(begin) + 2, f"status {got}, not {status}; {err}{out}")

        def report(completed, offers, packets, passes):
            return f"report: completed {completed} of {offers}, packets {packets}, passes {passes}"

        # E13, in both orders
        case("E13", E12, ALL, "pass 1", "  offer 1: SKIP: its need is not met", "  offer 2: ACCEPT", "  offer 2: completed, blocks 2",
             "pass 2", "  offer 1: ACCEPT", "  offer 1: completed, blocks 2", "  offer 2: REJECT: the component awaits a reset",
             "done", report(2, 2, 13, 2), *BOTH_NEW)
        case("E13 in the other order", OTHER_ORDER, ALL, "pass 1", "  offer 1: ACCEPT", "  offer 1: completed, blocks 2", "  offer 2: ACCEPT",
             "  offer 2: completed, blocks 2", "done", report(2, 2, 9, 1), *BOTH_NEW)
        case("E13 packet by packet", E12, ALL, *E13_PACKETS, "done", report(2, 2, 13, 2), *BOTH_NEW, args=["--packets"])
        case("blocks twice, packet by packet", THREES, ALL, *threes_packets(True), "done", report(2, 2, 15, 2), *BOTH_NEW, args=["--twice", "--packets"])
        case("a wrong CRC", one(2, V120, with_bad_crc(2, V120)), ENDED,
             "ended H1: the device refused a block or its image with status 0x05: the image's CRC is wrong", report(0, 1, 5, 1), *BOTH_OLD)
        if not few:
            further(command, work, case, refusal, report)
    print(f"{passed} passed, {len(failures)} failed: {' '.join(command)}")
    sys.exit(1 if failures or not passed else 0)


def further(command, work, case, refusal, report):
    # devices that refuse
    case("another platform", E12, NOT_ALL, "pass 1", "  offer 1: REJECT: no such component on this platform", "  offer 2: REJECT: no such component on this platform",
         "done", report(0, 2, 5, 1), *BOTH_OLD, args=["--platform", "0x0043"])
    case("an old version", E12, NOT_ALL, "pass 1", f"  offer 1: REJECT: {TOO_LOW}", f"  offer 2: REJECT: {TOO_LOW}",
         "done", report(0, 2, 5, 1), "device:", "  component 1 runs 1.3.0", "  component 2 runs 1.2.0", *AFTER, "  component 1 runs 1.3.0", "  component 2 runs 1.2.0",
         args=["--component", "1:1.3.0:0:64", "--component", "2:1.2.0:64:64"])
    case("the customer's case, a debug build of the running number", one(1, version(1, 2, 1), body(image(1, version(1, 2, 1)))), NOT_ALL, "pass 1",
         "  offer 1: REJECT: another variant runs", "done", report(0, 1, 4, 1), *BOTH_OLD)
    case("another variant that is older, too", one(1, version(1, 1, 1), body(image(1, version(1, 1, 1)))), NOT_ALL, "pass 1",
         "  offer 1: REJECT: another variant runs", "done", report(0, 1, 4, 1), *BOTH_OLD)
    case("a debug build where a debug build runs", one(1, version(1, 3, 1), body(image(1, version(1, 3, 1)))), ALL, "pass 1", "  offer 1: ACCEPT",
         "  offer 1: completed, blocks 2", "done", report(1, 1, 6, 1), "device:", "  component 1 runs 1.2.1, pending 1.3.1", *AFTER, "  component 1 runs 1.3.1",
         args=["--component", "1:1.2.1:0:64"])
    case("a need that nothing meets", one(1, V130, BODY_1, need=2, least=V120 >> 8), NOT_ALL, "pass 1", "  offer 1: SKIP: its need is not met",
         "done", report(0, 1, 4, 1), *BOTH_OLD)
    case("a component that the device lacks", E12, NOT_ALL, "pass 1", "  offer 1: REJECT: no such component on this platform", "  offer 2: ACCEPT",
         "  offer 2: completed, blocks 2", "done", report(1, 2, 7, 1), "device:", "  component 2 runs 1.1.0, pending 1.2.0", *AFTER, "  component 2 runs 1.2.0",
         args=["--component", "2:1.1.0:0:64"])

    # images that the device refuses, by judgement and by content check 5
    case("an image for another component", one(2, V120, body(image(1, V120))), ENDED,
         "ended H1: the device refused a block or its image with status 0x04: the image is for another component", report(0, 1, 5, 1), *BOTH_OLD)
    case("an older image", one(2, V120, body(image(2, version(1, 0, 0)))), ENDED, OLD_IMAGE, report(0, 1, 5, 1), *BOTH_OLD)
    case("an image of another variant", one(2, V120, body(image(2, version(1, 2, 1)))), ENDED, OLD_IMAGE, report(0, 1, 5, 1), *BOTH_OLD)
    case("a block past the region", one(2, V120, body_record(13, bytes(52))), ENDED,
         "ended H1: the device refused a block or its image with status 0x09: the block reaches past the region", report(0, 1, 4, 1), *BOTH_OLD)

    doubled(case, report)
    floors(case, report)

    # devices that set-up refuses
    refusal("S1", E12, SET_UP, "refused S1", args=["--staging", "65537"])
    refusal("S3 for id 0", E12, SET_UP, "refused S3", args=["--component", "0:1.0.0:0:64"])
    refusal("S3 for id 0xE0", E12, SET_UP, "refused S3", args=["--component", "0xE0:1.0.0:0:64"])
    refusal("S3 for an id twice", E12, SET_UP, "refused S3", args=["--component", "1:1.0.0:0:64", "--component", "1:1.0.0:64:64"])
    refusal("S4 for a region under 8 bytes", E12, SET_UP, "refused S4", args=["--component", "1:1.0.0:0:7"])
    refusal("S4 for a region past the buffer", E12, SET_UP, "refused S4", args=["--component", "1:1.0.0:0:64", "--staging", "63"])
    refusal("S4 for a region far past the buffer", E12, SET_UP, "refused S4", args=["--component", "1:1.0.0:0xFFFFFFFF:64"])
    refusal("S4 for two regions that overlap", E12, SET_UP, "refused S4", args=["--component", "1:1.0.0:0:64", "--component", "2:1.0.0:63:64"])
    refusal("S4 before S5", E12, SET_UP, "refused S4", args=["--component", "1:1.0.0:0:64:1.3.1", "--component", "2:1.0.0:63:64"])
    for floor in ("1.3.1", "0.0.1", "0.0.255"):
        case(f"S5 for the floor {floor}", E12, SET_UP, "refused S5: a floor has a variant other than 0, where only major and minor count",
             args=["--component", "1:1.2.0:0:64", "--component", f"2:1.1.1:64:64:{floor}"])

    # files that cannot be read, and one that has no end
    for name, path in (("a file that is not there", os.path.join(work, "none")), ("a directory", work)):
        got, out, err = ran(command, [path])
        checked(name, got == NO_FILE and out == "" and err.startswith(f"update: {path}: "), f"status {got}; {err}{out}")
    holds(command, "a file without end", ["/dev/zero"], BUNDLE, "refused B1: ", begins=True)

    # command lines
    path = os.path.join(work, "E13")
    for args in ([], ["--packets"], ["--twice"], [path, "--twice=1"], [path, path], [path, "--token"], [path, "--colour", "1"], [path, "--token", "256"], [path, "--token", "x"], [path, "--token", ""],
                 [path, "--token", "-1"], [path, "--platform", "0x10000"], [path, "--platform", "0x"], [path, "--staging", "0x1000000"], [path, "--component", "1:1.2:0:64"],
                 [path, "--component", "1:1.2.0:0:64:"], [path, "--component", "1:1.2.0:0:4294967296"], [path, "--component", "1:256.2.0:0:64"],
                 *([path, "--component", f"1:1.2.0:0:64:{floor}"] for floor in ("x", "1", "1.3", "1.3.", "1..0", "1.3.x", "256.3.0", "1.65536.0", "1.3.256", "-1.3.0", "1.3.0.0",
                                                                               "1.3.0:", "1.3.0:1.3.0", " 1.3.0", "1.3.0 ", ":1.3.0")),
                 [path, "--component", "1:1.2.0:0:4294967296:1.3.0"], [path, "--component", "1:1.2.0:0::1.3.0"],
                 [path] + (cfu.COMPONENT_LIMIT + 1) * ["--component", "1:1.2.0:0:64"]):
        got, out, err = ran(command, args)
        checked(f"the command line {args}", got == COMMAND_LINE and out == "" and err.startswith("update: ") and err.endswith("(update --help)\n"), f"status {got}; {err}{out}")
    got, out, err = ran(command, ["--help"])
    checked("--help", got == 0 and all(f"\n  {status}  " in out for status in range(LOST + 1)) and "\n  --twice " in out and "LENGTH[:FLOOR]\n" in out and err == "", out)

    # output that is lost
    for args in ([path], ["--help"], [os.path.join(work, "E13-in-the-other-order"), "--packets"]):
        for name, redirected in (("full", ">/dev/full"), ("closed", ">&-")):
            done = subprocess.run(["sh", "-c", f'"$@" {redirected}', "sh", *command, *args], stdout=subprocess.PIPE, stderr=subprocess.PIPE, timeout=300)
            err = done.stderr.decode()
            checked(f"output {name}, {args}", done.returncode == LOST and err.startswith("update: standard output: "), f"status {done.returncode}; {err}")
    case("another token", E12, ALL, "done", report(2, 2, 13, 2), *BOTH_NEW, args=["--token", "7"])

    # every bundle of tests/inspect
    for name, (data, text) in inspected.items():
        rows(command, work, f"tests/inspect, {name}", data, text)
    if "valgrind" not in command[0]:
        on_a_terminal(command, "E13", [path], b"\r  offer 2: block 1 of 2, 50 %\r  offer 2: block 2 of 2, 100 %\r\n  offer 2: completed, blocks 2\r\n")
        blocks = b"".join(b"\r  offer 1: block %d of 4, %d %%" % (block, 25 * block) for block in range(1, 5))
        on_a_terminal(command, "blocks twice", [os.path.join(work, "two-blocks-in-a-row-twice"), "--twice", *FOURS_DEVICE],
                      b"  offer 1: ACCEPT\r\n" + blocks + b"\r\n  offer 1: completed, blocks 4\r\n")


def doubled(case, report):
    """A4: over a bus that delivers blocks twice the host passes over the second replies; nothing is counted, and without --packets no line tells of it."""
    for name, args in (("once", []), ("twice", ["--twice"])):
        case(f"blocks of three, {name}", THREES, ALL, "pass 1", "  offer 1: SKIP: its need is not met", "  offer 2: ACCEPT", "  offer 2: completed, blocks 3",
             "pass 2", "  offer 1: ACCEPT", "  offer 1: completed, blocks 3", "  offer 2: REJECT: the component awaits a reset",
             "done", report(2, 2, 15, 2), *BOTH_NEW, args=args)
    case("blocks of three, once, packet by packet", THREES, ALL, *threes_packets(False), "done", report(2, 2, 15, 2), *BOTH_NEW, args=["--packets"])
    case("two blocks in a row twice", FOURS, ALL, *one_offer(sent_blocks(FOUR_BLOCKS, twice=True)), "  offer 1: completed, blocks 4", *END, "done", report(1, 1, 8, 1),
         "device:", "  component 2 runs 1.1.0, pending 1.2.0", *AFTER, "  component 2 runs 1.2.0", args=["--twice", "--packets", *FOURS_DEVICE])
    # bodies of one and of two blocks have none that is neither first nor last
    case("E13 over a bus that doubles", E12, ALL, *E13_PACKETS, "done", report(2, 2, 13, 2), *BOTH_NEW, args=["--twice", "--packets"])
    case("one block over a bus that doubles", one(2, V120, body(image(2, V120, 52))), ALL,
         *one_offer(sent_blocks([(0, image(2, V120, 52))], twice=True)), "  offer 1: completed, blocks 1", *END, "done", report(1, 1, 5, 1),
         "device:", "  component 2 runs 1.1.0, pending 1.2.0", *AFTER, "  component 2 runs 1.2.0", args=["--twice", "--packets", "--component", "2:1.1.0:0:52"])
    # a doubled block that the device refuses, the first of them and the one after it: the first of the two replies ends the host, the second does not reach it
    past = "the block reaches past the region"
    for name, records, block in (("the first", [(0, bytes(52)), (60, bytes(10)), (62, bytes(2))], 1),
                                 ("the second", [(0, bytes(52)), (52, bytes(10)), (60, bytes(10)), (62, bytes(2))], 2)):
        case(f"{name} doubled block past the region", one(2, V120, b"".join(body_record(*each) for each in records)), ENDED,
             *one_offer(sent_blocks(records, twice=True, refused=(block, cfu.ERROR_INVALID_ADDR, past))),
             f"ended H1: the device refused a block or its image with status 0x09: {past}", report(0, 1, 4 + block, 1), *BOTH_OLD, args=["--twice", "--packets"])
    # a wrong CRC is found at the last block, whose reply comes after the one that is passed over
    bad = bytearray(image(2, V120))
    bad[20] ^= 1
    case("a wrong CRC behind a doubled block", one(2, V120, cfu.written_body(bytes(bad))), ENDED,
         *one_offer(sent_blocks(cut_in_three(bytes(bad)), twice=True, refused=(2, cfu.ERROR_CRC, "the image's CRC is wrong"))),
         "ended H1: the device refused a block or its image with status 0x05: the image's CRC is wrong", report(0, 1, 6, 1), *BOTH_OLD, args=["--twice", "--packets"])


def floors(case, report):
    """A5: what a component takes is not below its floor by major and minor, whatever runs; a floor of 0 is none, and no line tells of it."""
    def device(floor):
        return ["--component", "1:1.2.0:0:64", "--component", f"2:1.1.0:64:64:{floor}"]

    def listed(*components):
        return ["device: platform 0x0042, staging 128", *components]

    first, second = "  component 1 runs 1.2.0", "  component 2 runs 1.1.0, floor "
    case("an offer below the floor, which stands above what runs", E12, NOT_ALL, *listed(first, f"{second}1.3.0"), "pass 1", "  offer 1: SKIP: its need is not met",
         f"  offer 2: REJECT: {TOO_LOW}", "done", report(0, 2, 5, 1), "device:", first, f"{second}1.3.0", *AFTER, first, f"{second}1.3.0", args=device("1.3.0"))
    for floor in ("1.2.0", "0.1.0", "1.0.0"):
        case(f"E13 with the floor {floor}", E12, ALL, *listed(first, f"{second}{floor}"), "pass 1", "  offer 1: SKIP: its need is not met", "  offer 2: ACCEPT",
             "  offer 2: completed, blocks 2", "pass 2", "  offer 1: ACCEPT", "  offer 1: completed, blocks 2", "  offer 2: REJECT: the component awaits a reset",
             "done", report(2, 2, 13, 2), "device:", f"{first}, pending 1.3.0", f"{second}{floor}, pending 1.2.0", *AFTER,
             "  component 1 runs 1.3.0", f"  component 2 runs 1.2.0, floor {floor}", args=device(floor))
    case("E13 with the floor 0", E12, ALL, *listed(first, "  component 2 runs 1.1.0"), "pass 1", "  offer 1: SKIP: its need is not met", "  offer 2: ACCEPT",
         "  offer 2: completed, blocks 2", "pass 2", "  offer 1: ACCEPT", "  offer 1: completed, blocks 2", "  offer 2: REJECT: the component awaits a reset",
         "done", report(2, 2, 13, 2), *BOTH_NEW, args=device("0.0.0"))
    # by major before minor: 2.0 is above 1.65535
    case("an offer below a floor of another major", E12, NOT_ALL, "pass 1", "  offer 1: SKIP: its need is not met", f"  offer 2: REJECT: {TOO_LOW}", "done",
         report(0, 2, 5, 1), "device:", first, f"{second}2.0.0", *AFTER, first, f"{second}2.0.0", args=device("2.0.0"))
    top = version(1, 65535)
    case("an offer at the floor", one(2, top, body(image(2, top))), ALL, "pass 1", "  offer 1: ACCEPT", "  offer 1: completed, blocks 2", "done", report(1, 1, 6, 1),
         "device:", first, f"{second}1.65535.0, pending 1.65535.0", *AFTER, first, "  component 2 runs 1.65535.0, floor 1.65535.0", args=device("1.65535.0"))
    # the variant does not count for the floor, and another one than the running is rejected before the floor is looked at
    debug = version(1, 3, 7)
    case("an offer at the floor, with a variant", one(1, debug, body(image(1, debug))), ALL, "pass 1", "  offer 1: ACCEPT", "  offer 1: completed, blocks 2", "done",
         report(1, 1, 6, 1), "device:", "  component 1 runs 1.2.7, floor 1.3.0, pending 1.3.7", *AFTER, "  component 1 runs 1.3.7, floor 1.3.0",
         args=["--component", "1:1.2.7:0:64:1.3.0"])
    case("another variant below the floor", one(2, version(1, 2, 1), body(image(2, version(1, 2, 1)))), NOT_ALL, "pass 1", "  offer 1: REJECT: another variant runs", "done",
         report(0, 1, 4, 1), "device:", first, f"{second}1.3.0", *AFTER, first, f"{second}1.3.0", args=device("1.3.0"))
    # the image is judged by the version that it bears, not by its offer's
    case("an image below the floor", one(2, V130, body(image(2, V120))), ENDED, "pass 1", "  offer 1: ACCEPT", OLD_IMAGE, report(0, 1, 5, 1), "device:", first,
         f"{second}1.3.0", *AFTER, first, f"{second}1.3.0", args=device("1.3.0"))
    case("an image of the running version below the floor", one(2, V130, body(image(2, version(1, 1)))), ENDED, OLD_IMAGE, report(0, 1, 5, 1), "device:", first,
         f"{second}1.3.0", *AFTER, first, f"{second}1.3.0", args=device("1.3.0"))
    case("an image at the floor, of an offer above it", one(2, version(1, 4), body(image(2, V130))), ALL, "  offer 1: completed, blocks 2", "done", report(1, 1, 6, 1),
         "device:", first, f"{second}1.3.0, pending 1.3.0", *AFTER, first, "  component 2 runs 1.3.0, floor 1.3.0", args=device("1.3.0"))
    # a need is met by what runs or is staged, and not by a floor
    case("a need that only a floor would meet", one(1, V130, BODY_1, need=2, least=V120 >> 8), NOT_ALL, "pass 1", "  offer 1: SKIP: its need is not met", "done",
         report(0, 1, 4, 1), "device:", first, f"{second}1.2.0", *AFTER, first, f"{second}1.2.0", args=device("1.2.0"))


main()
