#!/usr/bin/env python3
"""Runs the C example that makes bundles on good and on bad files, and checks its lines, its status and its bundles against documents 01 and 02 (A3).

maker.py [--few] COMMAND..    COMMAND runs the example: its path, with a checker before it where there is one; --few takes few cases

Each bundle is that of tests/cfu.py, which cuts images by A3's words and not by the proved code. The proved program `inspect`, where it is built, says what the
bundle contains, and the example `update` updates a device with regions of the images' lengths from it.
"""
import os
import subprocess
import sys
import tempfile

HERE = os.path.dirname(os.path.abspath(__file__))
TOP = os.path.normpath(os.path.join(HERE, "..", ".."))
sys.path.append(os.path.join(HERE, ".."))
import cfu  # noqa: E402
from cfu import BUNDLE_LIMIT, OFFER_AT, OFFER_LIMIT, STAGING_LIMIT, image, offer, version, version_parts  # noqa: E402

UPDATE = os.path.join(TOP, "target", "c", "update")
INSPECT = os.path.join(TOP, "crates", "inspect", "out", "inspect")
WRITTEN, REFUSED, COMMAND_LINE, NO_FILE = 0, 1, 2, 3
failures = []
passed = 0


# Offers and images

V110, V120, V130 = version(1, 1), version(1, 2), version(1, 3)


def with_runs(*runs):
    """Free bytes of an image, without 0xFF but for these runs: (place, length)."""
    def free(start, end):
        data = bytearray(byte & 0x7F for byte in cfu.filling(0, end))
        for at, length in runs:
            data[at:at + length] = b"\xFF" * length
        return bytes(data[start:])
    return free


def part(component, size=64, number=V120, free=with_runs(), **fields):
    """An offer and the image of its whole region."""
    return offer(component, number, **fields), image(component, number, size, free)


def edited(data, place, byte):
    return data[:place] + bytes([byte]) + data[place + 1:]


# What the bench device runs, and E13: component 1 needs component 2's new version
BENCH = {1: V120, 2: V110}
ONE, TWO = part(1, number=V130, need=2, least=V120 >> 8), part(2)
RUNS = [part(1, 4096, free=with_runs((5, 52), (58, 51), (110, 53), (1000, 2000), (4042, 52))), part(2, 8), part(3, 60, free=with_runs((5, 53)))]


# Running

def checked(name, fine, said):
    global passed
    if fine:
        passed += 1
    else:
        failures.append(name)
        print(f"WRONG {name}: {said}")


def ran(command, args, given=None):
    done = subprocess.run(command + args, input=given, stdout=subprocess.PIPE, stderr=subprocess.PIPE, timeout=300)
    return done.returncode, done.stdout.decode(), done.stderr.decode()


def save(path, data):
    with open(path, "wb") as file:
        file.write(data)
    return path


def load(path):
    """A file's bytes, or None where it is not there."""
    if not os.path.exists(path):
        return None
    with open(path, "rb") as file:
        return file.read()


def saved(work, parts):
    """The files of offers and images, in order."""
    return [save(os.path.join(work, f"{kind}-{i}"), data) for i, both in enumerate(parts) for kind, data in zip(("offer", "image"), both)]


# What is expected

def words(number):
    return "{}.{}.{}".format(*version_parts(number))


def versions(parts):
    return [(packet[OFFER_AT.id], cfu.OFFER.unpack(packet)[4]) for packet, _ in parts]


def contents(parts):
    """What `inspect` prints."""
    lines = [f"offers {len(parts)}"]
    lines += [f"{component} {words(number)} records {len(cfu.written_records(data))}" for (component, number), (_, data) in zip(versions(parts), parts)]
    return "".join(line + "\n" for line in lines)


def device(parts):
    """Options for a device whose components run 1.1.0, with regions of the images' lengths, one behind the other by rising id."""
    out, base = [], 0
    for packet, data in sorted(parts, key=lambda both: both[0][OFFER_AT.id]):
        out += ["--component", f"{packet[OFFER_AT.id]}:{words(V110)}:{base}:{len(data)}"]
        base += len(data)
    return out


def updated(parts, running, passes):
    """The end of what `update` prints where every offer lands; each pass sends them all. running: {component: version}, 1.1.0 where it is not there."""
    packets = 1 + (2 + len(parts)) * passes + sum(len(cfu.written_records(data)) for _, data in parts)
    lines = ["done", f"report: completed {len(parts)} of {len(parts)}, packets {packets}, passes {passes}", "device:"]
    lines += [f"  component {component} runs {words(running.get(component, V110))}, pending {words(number)}" for component, number in sorted(versions(parts))]
    return lines + ["device after the reset:"] + [f"  component {component} runs {words(number)}" for component, number in sorted(versions(parts))]


# Cases

def good(command, work, name, parts, bench=False, passes=1):
    """The bundle is written, byte for byte; `inspect` reads it and `update` installs it, on the bench device of document 01 or on one that fits it."""
    out = os.path.join(work, "out.bundle")
    expected = cfu.bundle([(packet, cfu.written_body(data)) for packet, data in parts])
    save(out, bytes(BUNDLE_LIMIT + 1))  # a longer file is written anew
    got = ran(command, [out] + saved(work, parts))
    checked(name, got == (WRITTEN, f"written {len(expected)} bytes\n", ""), got)
    checked(f"{name}: the bundle", load(out) == expected, f"{len(load(out))} bytes, not the {len(expected)} expected ones")
    if os.path.exists(INSPECT):
        got = ran([INSPECT], [], load(out))
        checked(f"{name}: inspect", got == (0, contents(parts), ""), got)
    status, printed, err = ran([UPDATE], ([] if bench else device(parts)) + [out])
    lines = updated(parts, BENCH if bench else {}, passes)
    checked(f"{name}: update", status == 0 and err == "" and printed.splitlines()[-len(lines):] == lines, f"status {status}; {err}{printed}")


def bad(command, work, name, parts, row, entry):
    """The row refuses, with words; no file is made, and one that stands there stays."""
    out, old = os.path.join(work, "none.bundle"), save(os.path.join(work, "old.bundle"), b"what stood there")
    files = saved(work, parts)
    begin = f"bundle: entry {entry}: " if entry else "bundle: "
    for path in (out, old):
        status, printed, err = ran(command, [path] + files)
        told = err.startswith(begin) and err.count("\n") == 1 and len(err) > len(begin) + 10
        checked(name, status == REFUSED and printed == f"refused W{row} {entry}\n" and told, f"status {status}; {err}{printed}")
    checked(f"{name}: nothing is written", load(out) is None and load(old) == b"what stood there", "something is written")


def no_file(command, name, args, at):
    """A file cannot be read or written; it is named, and nothing is printed."""
    status, printed, err = ran(command, args)
    checked(name, status == NO_FILE and printed == "" and err.startswith(f"bundle: {args[at]}: ") and err.count("\n") == 1, f"status {status}; {err}{printed}")


def few_cases(command, work):
    # E13's passes, with three blocks for an image: 15 packets
    good(command, work, "E13", [ONE, TWO], bench=True, passes=2)
    good(command, work, "runs of 0xFF", RUNS)
    good(command, work, "65,536 bytes with a run", [part(1, STAGING_LIMIT, free=with_runs((1000, 60000)))])
    bad(command, work, "a wrong CRC", [ONE, (TWO[0], edited(TWO[1], 20, 0))], 5, 2)


def further(command, work):
    good(command, work, "E13 in the other order", [TWO, ONE], bench=True)
    good(command, work, "seven offers", [part(i) for i in range(1, OFFER_LIMIT + 1)])
    good(command, work, "59,750 bytes without a run", [part(1, 59750)])
    good(command, work, "the highest id and the largest version", [part(0xDF, number=version(255, 65535))])
    for crc in (0xFFFF, 0xFF00):
        good(command, work, f"a run before the CRC {crc:04X}", [with_crc(crc)])

    # each row; W8 cannot be met, since the output is as long as a bundle can be
    bad(command, work, "eight offers", [part(i) for i in range(1, OFFER_LIMIT + 2)], 1, 0)
    bad(command, work, "nine offers", [part(i) for i in range(1, OFFER_LIMIT + 3)], 1, 0)
    for place, byte in ((0, 1), (1, 0x80), (3, 0xA5), (12, 1), (13, 1), (2, 0), (2, 0xE0)):
        bad(command, work, f"an offer with byte {place} = {byte}", [ONE, (edited(TWO[0], place, byte), TWO[1])], 2, 2)
    bad(command, work, "an id twice", [ONE, TWO, ONE], 3, 3)
    bad(command, work, "an image of 7 bytes", [(ONE[0], cfu.with_crc(ONE[1][:5])), TWO], 4, 1)
    bad(command, work, "an empty image", [ONE, (TWO[0], b"")], 4, 2)
    bad(command, work, "an image of 65,537 bytes", [ONE, part(2, STAGING_LIMIT + 1, free=with_runs((1000, 60000)))], 4, 2)
    bad(command, work, "an image of 200,000 bytes", [ONE, part(2, 200000)], 4, 2)
    bad(command, work, "an image of another version", [ONE, (TWO[0], image(2, V130))], 6, 2)
    bad(command, work, "an image for another component", [(ONE[0], TWO[1]), TWO], 6, 1)
    bad(command, work, "59,751 bytes without a run", [part(1, 59751)], 7, 0)
    bad(command, work, "three images that are too long together", [part(i, 20000) for i in (1, 2, 3)], 7, 0)

    files(command, work)
    command_lines(command, work)


def with_crc(wanted):
    """A part with this CRC after a run of 51 bytes 0xFF, which stays. Two filling bytes are chosen: the CRC with both is the sum, bit by bit, of those with the
    one, with the other and with none."""
    def made(first, second):
        return cfu.with_crc(cfu.IMAGE.pack(V120, 1) + bytes([first, second, 0, 0, 0, 0]) + b"\xFF" * 51)

    def crc_of(first, second):
        return int.from_bytes(made(first, second)[-2:], "big")
    firsts = {crc_of(first, 0) ^ crc_of(0, 0): first for first in range(256)}
    chosen = next(made(firsts[wanted ^ crc_of(0, second)], second) for second in range(256) if wanted ^ crc_of(0, second) in firsts)
    assert chosen.endswith(wanted.to_bytes(2, "big")) and len(chosen) == 64
    return offer(1, V120), chosen


def files(command, work):
    """Files that are not there, cannot be read, have no end or cannot be written, and offers that have not 16 bytes."""
    out, none = os.path.join(work, "none.bundle"), os.path.join(work, "no-such-file")
    one = saved(work, [ONE])
    for path in (none, work):
        no_file(command, f"an offer in {path}", [out, path, one[1]], 1)
        no_file(command, f"an image in {path}", [out, one[0], path], 2)
        no_file(command, f"a second image in {path}", [out, *one, one[0], path], 4)
    for length in (0, 15, 17):
        path = save(os.path.join(work, "offer"), bytes(length))
        no_file(command, f"an offer of {length} bytes", [out, path, one[1]], 1)
    no_file(command, "an offer without end", [out, "/dev/zero", one[1]], 1)
    got = ran(command, [out, one[0], "/dev/zero"])
    checked("an image without end", got[:2] == (REFUSED, "refused W4 1\n"), got)
    checked("nothing is written for them", load(out) is None, "something is written")
    for path in (work, os.path.join(none, "out"), "/dev/full"):
        no_file(command, f"a bundle to {path}", [path, *one], 0)
    for redirected in (">/dev/full", ">&-"):
        done = subprocess.run(["sh", "-c", f'"$@" {redirected}', "sh", *command, os.path.join(work, "lost.bundle"), *one], stdout=subprocess.PIPE, stderr=subprocess.PIPE, timeout=60)
        checked(f"output {redirected}", done.returncode == NO_FILE and done.stderr.startswith(b"bundle: standard output: "), done)


def command_lines(command, work):
    out = os.path.join(work, "none.bundle")
    one = saved(work, [ONE])
    for args in ([], [out], [out, one[0]], [out, *one, one[0]], [out, *one, one[0], "--colour"], ["--colour", *one]):
        status, printed, err = ran(command, args)
        fine = status == COMMAND_LINE and printed == "" and err.startswith("bundle: ") and err.endswith("(bundle --help)\n")
        checked(f"the command line {args}", fine and load(out) is None, f"status {status}; {err}{printed}")
    status, printed, err = ran(command, ["--help"])
    checked("--help", status == 0 and all(f"\n  {number}  " in printed for number in range(4)) and err == "", printed)


def main():
    few = sys.argv[1:2] == ["--few"]
    command = sys.argv[2 if few else 1:]
    if not command:
        sys.exit(__doc__)
    with tempfile.TemporaryDirectory() as work:
        few_cases(command, work)
        if not few:
            further(command, work)
    if not os.path.exists(INSPECT):
        print("crates/inspect/out/inspect is not built: it was not run")
    print(f"{passed} passed, {len(failures)} failed: {' '.join(command)}")
    sys.exit(1 if failures or not passed else 0)


if __name__ == "__main__":
    main()
