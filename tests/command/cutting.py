"""`cfu split` and `cfu join`: the files of a cut bundle, bundles of such files, and the two orders of byte 12."""
import errno
import os

from common import OneOf, case, check, files, fresh, load, no_file, save, wrong_line
from model import ACCEPTED, REFUSED, counted, inspected, known_answer, refusal, split_files, swapped
import cfu
from cfu import OFFER_AT, OFFER_LIMIT, body_record as record, bundle, offer
from make import E12, E12_OFFERS, bad_bodies, edited, simple

OUT, OLD = "out.bundle", b"what stood there"
FWUPDS_ORDER = "cfu join: byte 12 has fwupd's order of the protocol's four bits: --swap-protocol\n"
CFUS_ORDER = "cfu join: byte 12 had CFU's order already: without --swap-protocol\n"


def split_text(place, its):
    """The lines of files that were written to a folder."""
    return "".join(f"{place}/{name}: {counted(len(data), 'byte')}\n" for name, data in its.items())


def join_text(out, offers):
    return f"{out}: {counted(len(bundle(offers)), 'byte')}, {counted(len(offers), 'offer')}\n"


# ---- split ----

def split(folder, name, data, place, words=(), swap=False, **how):
    """A bundle is cut into these files, and there is no other."""
    expected = split_files(cfu.split(data), swap)
    case(f"split, {name}", ["split", *words, place], 0, split_text(place, expected), cwd=folder, **how)
    check(f"split, {name}: the files", files=(expected, files(os.path.join(folder, place))))


def splits(work):
    folder = fresh(work, "split")
    save(folder, "e12", E12)
    split(folder, "E12", E12, "new", ["e12"])
    split(folder, "E12 again, over the files of before", E12, "new", ["e12"])
    split(folder, "into a folder that is made with those above it", E12, "a/b/c", ["e12"])
    split(folder, "from standard input", E12, "from-input", ["-"], given=E12)
    split(folder, "--swap-protocol", E12, "swapped", ["--swap-protocol", "e12"], swap=True)
    split(folder, "--swap-protocol twice is once", E12, "swapped-twice", ["--swap-protocol", "e12", "--swap-protocol"], swap=True)
    split(folder, "into a folder ./-", E12, "./-", ["e12"])
    check("split, --swap-protocol gives 0x20", byte=(0x20, (load(folder, "swapped/1.offer.bin") or bytes(16))[OFFER_AT.protocol]))
    check("split, without it 0x02", byte=(0x02, (load(folder, "new/1.offer.bin") or bytes(16))[OFFER_AT.protocol]))
    whole = os.path.join(folder, "whole")
    split(folder, "into a folder by its whole path", E12, whole, ["e12"])
    save(folder, "older/1.offer.bin", OLD)
    save(folder, "older/other", OLD)
    case("split, into a folder with files", ["split", "e12", "older"], 0, split_text("older", split_files(E12_OFFERS)), cwd=folder)
    check("split, into a folder with files: they are replaced, others stay", files=({**split_files(E12_OFFERS), "other": OLD}, files(os.path.join(folder, "older"))))
    case("split, options behind the arguments", ["split", "e12", "behind", "--swap-protocol"], 0, split_text("behind", split_files(E12_OFFERS, True)), cwd=folder)

    for name in REFUSED:
        save(folder, name, inspected[name][0])
        case(f"split, {name}", ["split", name, "none/below"], 1, "", f"cfu split: {name}: {refusal(*known_answer(name))}\n", cwd=folder)
    case("split, a refused bundle from standard input", ["split", "-", "none"], 1, "", f"cfu split: standard input: {refusal('B7', 2)}\n", cwd=folder, given=E12[:-1])
    case("split, an endless bundle", ["split", "/dev/zero", "none"], 1, "", f"cfu split: /dev/zero: {refusal('B1')}\n", cwd=folder)
    check("split, a refused bundle makes no folder", there=(False, os.path.exists(os.path.join(folder, "none"))))
    case("split, a refused bundle into a folder with files", ["split", REFUSED[0], "older"], 1, "", None, cwd=folder)
    check("split, a refused bundle leaves files", files=({**split_files(E12_OFFERS), "other": OLD}, files(os.path.join(folder, "older"))))

    case("split, no bundle", ["split", "none.bundle", "none"], 3, "", no_file("split", "none.bundle"), cwd=folder)
    case("split, a directory as bundle", ["split", ".", "none"], 3, "", no_file("split", ".", errno.EISDIR), cwd=folder)
    check("split, what cannot be read makes no folder", there=(False, os.path.exists(os.path.join(folder, "none"))))
    status_of_no_folder(folder)


def status_of_no_folder(folder):
    """A file where the folder should be, and a folder where a file should be."""
    save(folder, "file", OLD)
    for place in ("file", "file/below"):
        case(f"split, into {place}, which is no folder", ["split", "e12", place], 3, "", unnamed("split", place), cwd=folder)
    check("split, the file stays", file=(OLD, load(folder, "file")))
    os.makedirs(os.path.join(folder, "taken", "1.offer.bin"))
    case("split, a folder stands where a file should", ["split", "e12", "taken"], 3, None, no_file("split", "taken/1.offer.bin", errno.EISDIR), cwd=folder)
    check("split, no other file is left", files=([], [name for name in files(os.path.join(folder, "taken")) if name not in split_files(E12_OFFERS)]))
    own = split_files(E12_OFFERS)
    for name in own:
        place = fresh(folder, "own")
        save(place, name, E12)
        # The bundle is one of the files that would be written.
        case(f"split, the bundle is own/{name}", ["split", f"own/{name}", "own"], 2, "", wrong_line("split"), cwd=folder)
        check(f"split, the bundle own/{name} stays, alone", files=({name: E12}, files(place)))


def unnamed(verb, place):
    """The system's words for a folder that cannot be made depend on how it is asked; and whether the folder is named or its first file is not said."""
    return OneOf(no_file(verb, name, number) for number in (errno.EEXIST, errno.ENOTDIR) for name in (place, f"{place}/1.offer.bin"))


# ---- join ----

def pairs(folder, offers):
    """The files of offers and bodies, in order."""
    return [save(folder, f"{kind}-{i}", data) for i, both in enumerate(offers) for kind, data in zip(("offer", "payload"), both)]


def join(work, name, offers, words=(), expected=None):
    """A bundle of such files; expected: its offers, where they are others."""
    folder = fresh(work, "join")
    its = pairs(folder, offers)
    before = files(folder)
    case(f"join, {name}", ["join", *words, OUT, *its], 0, join_text(OUT, expected or offers), cwd=folder)
    check(f"join, {name}: the bundle", files=({**before, OUT: bundle(expected or offers)}, files(folder)))


def not_joined(work, name, offers, err, words=(), status=1):
    """Nothing is written, and an older bundle stays."""
    for older in (False, True):
        folder = fresh(work, "not")
        its = pairs(folder, offers)
        if older:
            save(folder, OUT, OLD)
        before = files(folder)
        case(f"join, {name}", ["join", OUT, *its, *words], status, "", err, cwd=folder)
        check(f"join, {name}: {'an older bundle stays' if older else 'nothing is written'}", files=(before, files(folder)))


def refused(work, name, offers, row, entry=0, second="", words=()):
    not_joined(work, name, offers, f"cfu join: {refusal(row, entry)}\n{second}", words)


def joins(work):
    join(work, "E12", E12_OFFERS)
    join(work, "E12 in the other order", E12_OFFERS[::-1])
    join(work, "one offer", E12_OFFERS[:1])
    join(work, "seven offers", simple(OFFER_LIMIT))
    join(work, "an image that is not judged", [(offer(1, 1), record(0xFFFFFFFF, b"x"))])
    join(work, "--swap-protocol", [(swapped(packet), body) for packet, body in E12_OFFERS], ["--swap-protocol"], E12_OFFERS)
    largest = [(offer(5, 1), record(0, b"z") * 10916 + record(0, b"end"))]
    assert len(bundle(largest)) == cfu.BUNDLE_LIMIT
    join(work, "65,536 bytes", largest)
    refused(work, "65,542 bytes", [(largest[0][0], largest[0][1] + record(0, b"z"))], "B1")

    at = OFFER_AT.protocol
    fwupds = [(swapped(packet), body) for packet, body in E12_OFFERS]
    refused(work, "offers that fwupd built", fwupds, "B5", 1, FWUPDS_ORDER)
    refused(work, "the second offer is one that fwupd built", [E12_OFFERS[0], fwupds[1]], "B5", 2, FWUPDS_ORDER)
    # With the exchange, byte 12 of the entry is 0x20 where the file has 0x02.
    swap = ["--swap-protocol"]
    refused(work, "--swap-protocol on offers of CFU's order", E12_OFFERS, "B5", 1, CFUS_ORDER, swap)
    refused(work, "--swap-protocol, the second offer has CFU's order", [fwupds[0], E12_OFFERS[1]], "B5", 2, CFUS_ORDER, swap)
    refused(work, "--swap-protocol, the first offer has CFU's order", [E12_OFFERS[0], fwupds[1]], "B5", 1, CFUS_ORDER, swap)
    for hint, words, (packet, body) in ((FWUPDS_ORDER, [], fwupds[0]), (CFUS_ORDER, swap, E12_OFFERS[0])):
        refused(work, f"byte 12 and the token are wrong {words}", [(edited(packet, (OFFER_AT.token, 1)), body)], "B5", 1, hint, words)
    for words, (packet, body) in (([], E12_OFFERS[0]), (swap, fwupds[0])):
        refused(work, f"only the token is wrong {words}", [(edited(packet, (OFFER_AT.token, 1)), body)], "B5", 1, "", words)
    refused(work, "--swap-protocol, an id twice", fwupds + fwupds[:1], "B6", 3, "", swap)
    refused(work, "byte 12 of fwupd's order in eight offers", [(swapped(packet), body) for packet, body in simple(OFFER_LIMIT + 1)], "B3")
    join(work, "--swap-protocol twice is once", fwupds, swap * 2, E12_OFFERS)
    for byte in (0x00, 0x12, 0x21, 0x22, 0x30):
        refused(work, f"byte 12 is 0x{byte:02X}", [(edited(E12_OFFERS[0][0], (at, byte)), E12_OFFERS[0][1])], "B5", 1)
    for byte in (0x21, 0x12):
        refused(work, f"--swap-protocol, byte 12 is 0x{byte:02X}", [(edited(E12_OFFERS[0][0], (at, byte)), E12_OFFERS[0][1])], "B5", 1, words=["--swap-protocol"])
    refused(work, "byte 12 is 0x20 behind an entry that B5 names for its token", [(edited(E12_OFFERS[0][0], (OFFER_AT.token, 1)), E12_OFFERS[0][1]), fwupds[1]], "B5", 1)
    refused(work, "byte 0 is 1", [E12_OFFERS[0], (edited(E12_OFFERS[1][0], (OFFER_AT.segment, 1)), E12_OFFERS[1][1])], "B5", 2)
    refused(work, "the id 0", [(edited(E12_OFFERS[0][0], (OFFER_AT.id, 0)), E12_OFFERS[0][1])], "B5", 1)
    refused(work, "an id twice", E12_OFFERS + E12_OFFERS[:1], "B6", 3)
    refused(work, "eight offers", simple(OFFER_LIMIT + 1), "B3")
    for name, body in bad_bodies.items():
        refused(work, f"a payload with {name}", [E12_OFFERS[0], (E12_OFFERS[1][0], body)], "B8", 2)


def offer_files(work):
    for length in (0, 15, 17, 32):
        folder = fresh(work, "lengths")
        its = pairs(folder, E12_OFFERS)
        for name in (its[0], its[2]):
            pairs(folder, E12_OFFERS)
            save(folder, name, E12_OFFERS[0][0].ljust(length, b"\0")[:length])
            for words in ([], ["--swap-protocol"]):
                case(f"join, an offer of {length} bytes in {name} {words}", ["join", OUT, *its, *words], 1, "", f"cfu join: {name}: an offer has 16 bytes\n", cwd=folder)
        check(f"join, an offer of {length} bytes: nothing is written", bundle=(None, load(folder, OUT)))
    folder = fresh(work, "files")
    its = pairs(folder, E12_OFFERS)
    before = files(folder)
    case("join, an endless offer", ["join", OUT, "/dev/zero", its[1]], 1, "", "cfu join: /dev/zero: an offer has 16 bytes\n", cwd=folder)
    case("join, an endless payload", ["join", OUT, its[0], "/dev/zero"], 1, "", f"cfu join: {refusal('B1')}\n", cwd=folder)
    for name, number in (("none", errno.ENOENT), (".", errno.EISDIR)):
        for at in range(4):
            words = its[:at] + [name] + its[at + 1:]
            case(f"join, {name} as file {at + 1}", ["join", OUT, *words], 3, "", no_file("join", name, number), cwd=folder)
    case("join, no file of the name -", ["join", OUT, "-", its[1]], 3, "", no_file("join", "-"), cwd=folder, given=E12_OFFERS[0][0])
    check("join, nothing is written for them", files=(before, files(folder)))
    save(folder, "-", E12_OFFERS[0][1])
    case("join, a file of the name -", ["join", OUT, its[0], "-"], 0, join_text(OUT, E12_OFFERS[:1]), cwd=folder)


def there_and_back(work):
    """join(split(bundle)) is the bundle, with CFU's byte 12 and with fwupd's."""
    for name in ACCEPTED:
        data = inspected[name][0]
        for words in ([], ["--swap-protocol"]):
            folder = fresh(work, "back")
            save(folder, "bundle", data)
            expected = split_files(cfu.split(data), bool(words))
            case(f"split, {name} {words}", ["split", "bundle", "cut", *words], 0, split_text("cut", expected), cwd=folder)
            check(f"split, {name} {words}: the files", files=(expected, files(os.path.join(folder, "cut"))))
            case(f"join, {name} {words}", ["join", OUT, *(f"cut/{file}" for file in expected), *words], 0, join_text(OUT, cfu.split(data)), cwd=folder)
            check(f"join, {name} {words}: the bundle of before", bundle=(data, load(folder, OUT)))


def cases(work):
    splits(work)
    joins(work)
    offer_files(work)
    there_and_back(work)
