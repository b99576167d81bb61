"""`cfu make`: bundles from manifests and from options, the stamp and the size, every row of the writer, and every fault of a manifest."""
import errno
import os
import re

from common import OneOf, case, check, files, fresh, load, no_file, one_message, remove, run, save, standing
from model import Part, counted, entry_refusal, least_words, made_bundle, make_refusal, make_text, page_block, version_words
import cfu
from cfu import OFFER_LIMIT, image, version

V110, V120, V130 = version(1, 1), version(1, 2), version(1, 3)
OUT, OLD = "out.bundle", b"what stood there"


def plain(start, end):
    """Free bytes of an image without a byte 0xFF."""
    return bytes(byte & 0x7F for byte in cfu.filling(start, end))


def part(component, number=V120, data=None, **fields):
    """An offer with its finished image, or with other bytes."""
    return Part(component, number, f"image-{component}.bin", image(component, number) if data is None else data, **fields)


E12 = [Part(1, V130, "main.bin", image(1, V130), need=2, least=V120 >> 8, platform=0x0042), Part(2, V120, "module.bin", image(2, V120), platform=0x0042)]
CODE = plain(0, 62) + b"\x12\x34"  # an image whose build leaves no room for the stamp
ONLY_FREE = "the stamp goes only into free bytes"


def raw(start=0, size=64, first=b"\xFF", last=b"\xFF"):
    """An image that is free for the stamp: bytes 0 to 4, and the last two; start: what is between them."""
    return first * cfu.IMAGE.size + plain(start + cfu.IMAGE.size, start + size - 2) + last * 2


RAW = raw()
assert cfu.crc(RAW) != 0 and cfu.crc(CODE) != 0


# ---- The two ways to ask ----

def offered(it):
    """The value of --offer."""
    need = f":{it.need}@{least_words(it.least)}" if it.need else ""
    return f"{it.component}:{version_words(it.version)}{need}={it.name}"


def options(parts):
    """The options for offers that have platform, size and stamp in common, or None."""
    shared = {(it.platform, it.size, it.stamp) for it in parts}
    if len(shared) != 1:
        return None
    (platform, size, stamp), = shared
    words = [word for it in parts for word in ("--offer", offered(it))]
    words += ["--platform", f"0x{platform:04X}"] if platform else []
    words += ["--size", str(size)] if size is not None else []
    return words + (["--stamp"] if stamp else [])


def manifest(parts):
    """The manifest for offers, with every key in the offer itself."""
    lines = []
    for it in parts:
        lines += ["[offer]", f"component = {it.component}", f"version = {version_words(it.version)}", f"image = {it.name}", f"platform = {it.platform}"]
        lines += [f"need = {it.need}@{least_words(it.least)}"] if it.need else []
        lines += [f"size = {it.size}"] if it.size is not None else []
        lines += ["stamp = yes"] if it.stamp else []
    return "".join(line + "\n" for line in lines)


def asked(folder, parts):
    """The ways to ask for these offers, by name; their files stand in the folder afterwards."""
    for it in parts:
        if it.data is not None:
            save(folder, it.name, it.data)
    save(folder, "manifest", manifest(parts).encode())
    ways = {"manifest": ["--manifest", "manifest"], "options": options(parts)}
    return {way: words for way, words in ways.items() if words}


def made(work, name, parts):
    """The bundle is made, byte for byte, and twice the same; --dry-run writes nothing."""
    expected = made_bundle(parts)
    for way in asked(fresh(work, "made"), parts):
        folder = fresh(work, "made")
        words = asked(folder, parts)[way]
        before = files(folder)
        case(f"make, {name}, {way}, --dry-run", ["make", "--dry-run", OUT, *words], 0, make_text(OUT, parts, dry=True), cwd=folder)
        check(f"make, {name}, {way}, --dry-run writes nothing", files=(before, files(folder)))
        for again in ("", ", again"):
            case(f"make, {name}, {way}{again}", ["make", OUT, *words], 0, make_text(OUT, parts), cwd=folder)
            check(f"make, {name}, {way}{again}: the bundle", files=({**before, OUT: expected}, files(folder)))


def not_made(work, name, parts, err, status=1):
    """Nothing is printed or written, and an older bundle stays."""
    for way in asked(fresh(work, "not"), parts):
        for older in (False, True):
            folder = fresh(work, "not")
            words = asked(folder, parts)[way]
            if older:
                save(folder, OUT, OLD)
            before = files(folder)
            for more in ([], ["--dry-run"]):
                case(f"make, {name}, {way} {more}", ["make", OUT, *words, *more], status, "", err, cwd=folder)
            check(f"make, {name}, {way}, {'an older bundle stays' if older else 'nothing is written'}", files=(before, files(folder)))


def refused(work, name, parts, row, entry=0):
    """By the writer: no entry is refused before it."""
    assert entry_refusal(parts) is None, f"{name}: {entry_refusal(parts)}"
    not_made(work, name, parts, make_refusal(row, entry, parts[entry - 1] if row in ("W5", "W6") else None))


def refused_before(work, name, parts, entry, words):
    """By what is asked for an entry, before the writer."""
    err = f"cfu make: entry {entry}: {parts[entry - 1].name} {words}\n"
    assert entry_refusal(parts) == err, f"{name}: the model has {entry_refusal(parts)!r}, not {err!r}"
    not_made(work, name, parts, err)


# ---- Cases ----

def page(work):
    """The page's examples."""
    def without_numbers(text):
        return re.sub(r"CRC 0x[0-9A-F]{4}|: \d+ bytes$", "", text, flags=re.M)

    parts = [E12[0]._replace(data=RAW[:50], size=64, stamp=True), E12[1]]
    check("the model has the lines of the page's example of make", lines=(without_numbers(page_block("offer 1: component 1")), without_numbers(make_text(OUT, parts))))
    # Between the two lines stands what the image bears, with other numbers.
    ours = make_refusal("W5", 2, part(2, data=CODE)).splitlines()
    bears = re.compile(r"cfu make: \S+ bears component \d+, version \d+\.\d+\.\d+, CRC 0x[0-9A-F]{4} where its bytes give 0x[0-9A-F]{4}")
    check("the model has the page's refusal", first_and_last=([line for line in page_block("cfu make: refused W5, entry 2").splitlines() if not bears.fullmatch(line)], ours[::2]),
          between=(bears, ours[1]))
    folder = fresh(work, "page")
    asked(folder, parts)
    save(folder, "analyser", page_block("# analyser 1.3").encode())
    case("make, the page's manifest", ["make", OUT, "--manifest", "analyser"], 0, make_text(OUT, parts), cwd=folder)
    check("make, the page's manifest: the bundle", bundle=(made_bundle(parts), load(folder, OUT)))


def bundles(work):
    made(work, "E12", E12)
    made(work, "E12 in the other order", E12[::-1])
    made(work, "one offer", [part(1)])
    made(work, "seven offers", [part(i) for i in range(1, OFFER_LIMIT + 1)])
    made(work, "the highest id, version and platform", [part(0xDF, version(255, 65535, 255), platform=0xFFFF, need=223, least=0xFFFFFF)])
    made(work, "platforms that differ", [part(1, platform=0x0102), part(2, platform=0)])
    made(work, "an image of 8 bytes", [part(1, data=image(1, V120, 8))])
    made(work, "an image of 65,536 bytes", [part(1, data=image(1, V120, 65536, lambda start, end: plain(start, 1000) + b"\xFF" * 60000 + plain(61000, end)))])
    made(work, "the longest image without a run", [part(1, data=image(1, V120, 59750, plain))])

    folder = fresh(work, "forms")
    asked(folder, E12)
    expected = made_bundle(E12)
    one, two = map(offered, E12)
    for name, words in (("options before the file", ["--platform", "66", "--offer", one, "--offer", two, OUT]),
                        ("options with =", [OUT, f"--offer={one}", f"--offer={two}", "--platform=0x42"]),
                        ("options around the file", ["--offer", one, OUT, "--platform", "0x0042", "--offer", two]),
                        ("-- before the file", [f"--offer={one}", "--offer", two, "--platform", "66", "--", OUT]),
                        ("a manifest with =", ["--manifest=manifest", OUT]),
                        ("an id and a need in hexadecimal", [OUT, "--offer", "0x1:1.3.0:0x2@1.2=main.bin", "--offer", two, "--platform", "0x42"])):
        case(f"make, {name}", ["make", *words], 0, make_text(OUT, E12), cwd=folder)
        check(f"make, {name}: the bundle", bundle=(expected, load(folder, OUT)))
        remove(folder, OUT)
    odd = [part(1)._replace(name="a=b:c@d.bin")]
    made(work, "an image whose name has the marks of --offer", odd)

    folder = fresh(work, "after")
    asked(folder, E12)
    case("make, a bundle whose name starts with --", ["make", "--manifest", "manifest", "--", "--out"], 0, make_text("--out", E12), cwd=folder)
    check("make, a bundle whose name starts with --: the bundle", bundle=(expected, load(folder, "--out")))
    case("make, --dry-run needs no folder for the bundle", ["make", "--dry-run", "none/out", "--manifest", "manifest"], 0, make_text("none/out", E12, dry=True), cwd=folder)
    check("make, --dry-run makes no folder", there=(False, os.path.exists(os.path.join(folder, "none"))))


def manifests(work):
    """What a manifest may say."""
    folder = fresh(work, "elsewhere")
    for it in E12:
        save(folder, f"sub/{it.name}", it.data)
    save(folder, "sub/manifest", manifest(E12).encode())
    # The page leaves open whether an image is told with the manifest's folder.
    told = OneOf(make_text(OUT, [it._replace(name=prefix + it.name) for it in E12]) for prefix in ("", "sub/"))
    case("make, images stand in the manifest's folder", ["make", OUT, "--manifest", "sub/manifest"], 0, told, cwd=folder)
    check("make, images stand in the manifest's folder: the bundle", bundle=(made_bundle(E12), load(folder, OUT)))
    case("make, a manifest by its whole path", ["make", OUT, "--manifest", os.path.join(folder, "sub", "manifest")], 0, None, cwd="/".join([folder, "sub"]))
    check("make, a manifest by its whole path: the bundle", bundle=(made_bundle(E12), load(folder, "sub/" + OUT)))

    parts = [part(1, data=RAW[:40], platform=0x1234, size=64, stamp=True), part(2, data=raw(2)[:40], platform=0x5678, size=80, stamp=True), part(3, platform=0x1234, size=64)]
    head = ["platform = 0x1234", "size = 64", "stamp = yes"]
    lines = head + ["[offer]", "component = 1", "version = 1.2.0", "image = image-1.bin",
                    "[offer]", "component = 2", "version = 1.2.0", "image = image-2.bin", "platform = 0x5678", "size = 0x50",
                    "[offer]", "component = 3", "version = 1.2.0", "image = image-3.bin", "stamp = no"]
    spaced = ["", "   ", "  # a comment", "#"] + [f"  {line.replace(' = ', '   =   ')}  " for line in lines] + ["# [offer]", ""]
    tight = [line.replace(" = ", "=") for line in lines]
    for name, its in (("keys of every offer, and an offer's own", lines), ("spaces, comments and empty lines", spaced), ("no spaces", tight), ("stamp = no for all", None)):
        chosen = parts
        if its is None:
            its, chosen = ["stamp = no", "[offer]", "stamp = no"] + manifest([E12[1]]).splitlines()[1:], [E12[1]]
        folder = fresh(work, "keys")
        asked(folder, chosen)
        for end in ("\n", ""):
            save(folder, "manifest", ("\n".join(its) + end).encode())
            case(f"make, a manifest, {name}, end {end!r}", ["make", OUT, "--manifest", "manifest"], 0, make_text(OUT, chosen), cwd=folder)
            check(f"make, a manifest, {name}, end {end!r}: the bundle", bundle=(made_bundle(chosen), load(folder, OUT)))

    folder = fresh(work, "long")
    asked(folder, E12)
    text = manifest(E12).encode()
    save(folder, "manifest", text + b"#".ljust(65536 - len(text), b"x"))
    case("make, a manifest of 65,536 bytes", ["make", OUT, "--manifest", "manifest"], 0, make_text(OUT, E12), cwd=folder)
    tabs = SAMPLE.replace(" = ", "\t=\t").replace("\n", "\t\n\t")
    mark = "\ufeff"
    for name, its in (("letters past ASCII", "# é€\n" + text.decode()), ("a byte order mark", mark + text.decode()), ("a byte order mark before a comment", mark + SAMPLE),
                      ("a byte order mark before an empty line", f"{mark}\n{SAMPLE}"), ("CRLF", SAMPLE.replace("\n", "\r\n")),
                      ("CRLF but for the last line", SAMPLE[:-1].replace("\n", "\r\n")),
                      ("a byte order mark and CRLF", mark + SAMPLE.replace("\n", "\r\n")), ("tabs", tabs), ("tabs and CRLF", tabs.replace("\n", "\r\n"))):
        remove(folder, OUT)
        save(folder, "manifest", its.encode())
        case(f"make, a manifest with {name}", ["make", OUT, "--manifest", "manifest"], 0, make_text(OUT, E12), cwd=folder)
        check(f"make, a manifest with {name}: the bundle", bundle=(made_bundle(E12), load(folder, OUT)))
    save(folder, "manifest", mark.encode() + text + b"#".ljust(65533 - len(text), b"x"))
    case("make, a manifest of 65,536 bytes with its byte order mark", ["make", OUT, "--manifest", "manifest"], 0, make_text(OUT, E12), cwd=folder)


SAMPLE = """\
# analyser 1.3
platform = 0x0042

[offer]
component = 1
version = 1.3.0
need = 2@1.2
image = main.bin

[offer]
component = 2
version = 1.2.0
image = module.bin
"""
# At each line what may not stand there; the fault is told for this line.
FAULTS = {
    1: ["analyser", "= 1", "; analyser", "[offer"],
    2: ["platform", "platform =", "platform = 65536", "platform = 0x10000", "platform = -1", "platform = +1", "platform = 0x", "platform = 12x", "platform = 1 2",
        "plattform = 1", "Platform = 1", "component = 1", "version = 1.2.0", "image = main.bin", "need = 2@1.2", "[offers]", "[Offer]", "[offer] 1", "offer"],
    3: ["platform = 0x0042", "[platform]"],
    5: ["component =", "component = 256", "component = x", "component = 1.0", "component = +1", "component = -1", "component = 1 # main", "component : 1", "id = 1"],
    6: ["version =", "version = 1", "version = 1.3", "version = 1.3.0.0", "version = 256.0.0", "version = 1.65536.0", "version = 1.0.256", "version = v1.3.0",
        "version = 1..0", "version = 1.3.+0", "version = 1,3,0"],
    7: ["need =", "need = 2", "need = 2@1", "need = 2@1.2.0", "need = 2@256.0", "need = 2@0.65536", "need = @1.2", "need = 256@1.2", "need = 2@", "need = 2:1.2", "need = 0@1.2",
        "need = 0x0@1.2", "need = 0@0.0"],
    9: ["component = 1", "version = 1.3.0", "need = 2@1.2", "image = main.bin", "size = x", "size =", "size = -1", "stamp = maybe", "stamp = 1", "stamp =", "stamp",
        "colour = red", "[image]", "\0"],
    14: ["image = module.bin", "nothing"],
}
# A key that an offer lacks is told for the line of its [offer].
LACKING = {5: 4, 6: 4, 8: 4, 11: 10, 12: 10, 13: 10}


def faulty_manifests(work):
    folder = fresh(work, "faults")
    asked(folder, E12)
    save(folder, OUT, OLD)
    lines = SAMPLE.splitlines()

    def fault(name, text, at):
        save(folder, "manifest", text if isinstance(text, bytes) else text.encode())
        before = files(folder)
        start = f"cfu make: manifest:{at}: " if at else "cfu make: manifest:"
        for more in ([], ["--dry-run"]):
            case(f"make, a manifest, {name} {more}", ["make", OUT, "--manifest", "manifest", *more], 1, "", one_message(start), cwd=folder)
        check(f"make, a manifest, {name}: nothing is written", files=(before, files(folder)))

    save(folder, "manifest", SAMPLE.encode())
    case("make, the sample of the faults is good", ["make", "--dry-run", OUT, "--manifest", "manifest"], 0, make_text(OUT, E12, dry=True), cwd=folder)
    for at, those in FAULTS.items():
        for line in those:
            fault(f"line {at}: {line!r}", "\n".join(lines[:at - 1] + [line] + lines[at:]) + "\n", at)
    for at, told in LACKING.items():
        fault(f"line {at} is missing", "\n".join(lines[:at - 1] + [""] + lines[at:]) + "\n", told)
    fault("an empty offer at the end", SAMPLE + "[offer]\n", 14)
    fault("an empty offer before another", SAMPLE.replace("[offer]\n", "[offer]\n[offer]\n", 1), 4)
    for key in ("size = 64", "stamp = yes"):
        fault(f"{key} twice before the offers", f"{key}\n{key}\n{SAMPLE}", 2)
        fault(f"{key} twice in an offer", f"{SAMPLE}{key}\n{key}\n", 15)
    mark = "\ufeff"
    fault("a byte order mark before a fault", f"{mark}analyser\n{SAMPLE}", 1)
    fault("a byte order mark, then a fault", f"{mark}{SAMPLE}nothing\n", 14)
    fault("a byte order mark in the second line", f"\n{mark}{SAMPLE}", 2)
    fault("CRLF, then a fault", (SAMPLE + "nothing\n").replace("\n", "\r\n"), 14)
    fault("CRLF, a key that is missing", SAMPLE.replace("version = 1.2.0\n", "").replace("\n", "\r\n"), 10)
    fault("65,537 bytes with its byte order mark", mark.encode() + SAMPLE.encode() + b"#".ljust(65534 - len(SAMPLE), b"x"), None)
    # The page gives no line and no words for these two.
    fault("no UTF-8", b"# \xff\n" + SAMPLE.encode(), None)
    fault("65,537 bytes", SAMPLE.encode() + b"#".ljust(65537 - len(SAMPLE), b"x"), None)

    for name, text in (("empty", ""), ("of comments alone", "# nothing\n\n"), ("without an offer", "platform = 0x0042\nstamp = yes\n"),
                       ("of a byte order mark", mark)):
        save(folder, "manifest", text.encode())
        case(f"make, a manifest {name}", ["make", OUT, "--manifest", "manifest"], 1, "", make_refusal("W1"), cwd=folder)
    case("make, an endless manifest", ["make", OUT, "--manifest", "/dev/zero"], 1, "", one_message("cfu make: /dev/zero:"), cwd=folder)
    case("make, no manifest", ["make", OUT, "--manifest", "none"], 3, "", no_file("make", "none"), cwd=folder)
    case("make, a directory as manifest", ["make", OUT, "--manifest", "."], 3, "", no_file("make", ".", errno.EISDIR), cwd=folder)
    check("make, an older bundle stays", bundle=(OLD, load(folder, OUT)))


def rows(work):
    """W1 to W7. W8 cannot be met: the output is as long as a bundle can be."""
    good = part(1)
    refused(work, "W1, eight offers", [part(i) for i in range(1, OFFER_LIMIT + 2)], "W1")
    refused(work, "W1, twenty offers", [part(i) for i in range(1, 21)], "W1")
    for component in (0, 224, 253, 254, 255):
        refused(work, f"W2, the id {component}", [good, part(component)], "W2", 2)
        refused(work, f"W2, the id {component} alone", [part(component)], "W2", 1)
    refused(work, "W3, an id twice", [good, part(2), good], "W3", 3)
    refused(work, "W4, an image of 7 bytes", [part(1, data=cfu.with_crc(bytes(5))), part(2)], "W4", 1)
    refused(work, "W4, an empty image", [good, part(2, data=b"")], "W4", 2)
    refused(work, "W4, an image of 65,537 bytes", [good, part(2, data=image(2, V120, 65537, lambda start, end: b"\xFF" * (end - start)))], "W4", 2)
    refused(work, "W4, an image of 200,000 bytes", [part(1, data=bytes(200000))], "W4", 1)
    refused(work, "W5, a wrong CRC", [good, part(2, data=image(2, V120)[:-1] + b"\0")], "W5", 2)
    refused(work, "W5, raw bytes without the stamp", [part(1, data=RAW)], "W5", 1)
    refused(work, "W6, another version", [good, part(2, data=image(2, V130))], "W6", 2)
    refused(work, "W6, another variant", [part(1, data=image(1, version(1, 2, 1)))], "W6", 1)
    refused(work, "W6, another module's image", [part(1, data=image(3, V120)), part(2)], "W6", 1)
    refused(work, "W6, the highest version", [part(1, data=image(0xDF, version(255, 65535, 255)))], "W6", 1)
    refused(work, "W5 and W6 in one image", [part(1, data=image(3, V130)[:-2] + b"\x0A\xBC")], "W5", 1)
    refused(work, "W6, then W5", [part(1, data=image(3, V120)), part(2, data=image(2, V120)[:-2] + b"\0\1")], "W5", 2)
    refused(work, "W5, an image that is filled", [part(1, data=image(1, V120)[:50], size=64)], "W5", 1)
    refused(work, "W7, one image too long by a byte", [part(1, data=image(1, V120, 59751, plain))], "W7")
    refused(work, "W7, three images that are too long together", [part(i, data=image(i, V120, 20000, plain)) for i in (1, 2, 3)], "W7")


def stamps(work):
    """Into free bytes, and into no others."""
    made(work, "stamp, a raw image, free bytes 0xFF", [part(1, data=RAW, stamp=True)])
    for first in (b"\0", b"\xFF"):
        for last in (b"\0", b"\xFF"):
            made(work, f"stamp, bytes 0 to 4 are {first!r}, the last two {last!r}", [part(1, data=raw(0, 64, first, last), stamp=True)])
    made(work, "stamp, an image of zeros, whose CRC is right", [part(1, data=bytes(64), stamp=True)])
    made(work, "stamp, an image of 0xFF", [part(1, data=b"\xFF" * 64, stamp=True)])
    made(work, "stamp, two raw images", [part(1, V130, data=RAW, stamp=True, need=2, least=V120 >> 8), part(2, data=bytes(100), stamp=True)])
    made(work, "stamp, 8 bytes", [part(1, data=bytes(8), stamp=True)])
    made(work, "stamp, seven raw images", [part(i, data=raw(i), stamp=True) for i in range(1, OFFER_LIMIT + 1)])
    made(work, "stamp, a finished image of this component and version", [part(1, stamp=True)])
    made(work, "stamp, two finished images", [part(1, stamp=True), part(2, stamp=True)])
    for last in (b"\0\0", b"\xFF\xFF"):
        made(work, f"stamp, this component and version, the last two bytes {last!r}", [part(1, data=image(1, V120)[:-2] + last, stamp=True)])
    labelled = cfu.IMAGE.pack(V120, 1) + RAW[5:-2]
    made(work, "stamp, free bytes 0 to 4, and the CRC that is right behind the stamp", [part(1, data=b"\xFF" * 5 + cfu.with_crc(labelled)[5:], stamp=True)])
    made(work, "stamp, the highest id and version", [part(0xDF, version(255, 65535, 255), data=RAW, stamp=True)])

    def bytes_0_to_4(name, data, component, number, offer=part(1)):
        refused_before(work, f"stamp, {name}", [offer._replace(data=data, stamp=True)], 1, f"bears component {component}, version {number}, in bytes 0 to 4: {ONLY_FREE}")

    def last_two(name, data, stands):
        refused_before(work, f"stamp, {name}", [part(1, data=data, stamp=True)], 1, f"has a wrong CRC, 0x{stands}, in its last two bytes: {ONLY_FREE}")

    for number, words in ((V110, "1.1.0"), (V130, "1.3.0"), (version(1, 2, 1), "1.2.1"), (version(255, 65535, 254), "255.65535.254")):
        bytes_0_to_4(f"a finished image of this component, version {words}", image(1, number), 1, words)
    for component in (0, 2, 223, 224, 255):
        bytes_0_to_4(f"a finished image of component {component}", image(component, V120), component, "1.2.0")
        bytes_0_to_4(f"an image of component {component} with a free CRC", image(component, V120)[:-2] + b"\xFF\xFF", component, "1.2.0")
        bytes_0_to_4(f"an image of component {component} with a wrong CRC", image(component, V120)[:-2] + b"\x12\x34", component, "1.2.0")
    # The four bytes of the version are variant, minor (low byte first), major.
    bytes_0_to_4("code at bytes 0 to 4", bytes.fromhex("0120034005") + RAW[5:], 5, "64.800.1")
    bytes_0_to_4("code at bytes 0 to 4, 8 bytes", bytes(range(1, 9)), 5, "4.770.1")
    for place in range(5):
        for byte, other in ((0x00, 0x01), (0xFF, 0xFE), (0x00, 0xFF)):
            head = bytearray([byte] * 5)
            head[place] = other
            number, component = cfu.IMAGE.unpack(bytes(head))
            bytes_0_to_4(f"bytes 0 to 4 are 0x{byte:02X} but for byte {place}, 0x{other:02X}", bytes(head) + RAW[5:], component, version_words(number))
    for place in range(5):
        head = bytearray(cfu.IMAGE.pack(V120, 1))
        head[place] ^= 0x80
        number, component = cfu.IMAGE.unpack(bytes(head))
        bytes_0_to_4(f"this version and id but for one bit of byte {place}", bytes(head) + RAW[5:], component, version_words(number))

    last_two("this component and version, a wrong CRC", image(1, V120)[:-2] + b"\x12\x34", "1234")
    last_two("this component and version, a CRC with its low byte first", image(1, V120)[:-2] + image(1, V120)[:-3:-1], image(1, V120)[:-3:-1].hex().upper())
    last_two("raw, with code in the last two bytes", RAW[:-2] + b"\xAB\xCD", "ABCD")
    for last in ("00FF", "FF00", "0001", "FFFE", "0100"):
        last_two(f"raw, the last two bytes 0x{last}", RAW[:-2] + bytes.fromhex(last), last)
    # Right for the bytes of the file, but not for those with the stamp.
    without = cfu.with_crc(RAW[:-2])
    last_two("free bytes 0 to 4, and the CRC that is right before the stamp", without, without[-2:].hex().upper())

    other = part(2, data=CODE, stamp=True)
    one = part(1, data=RAW, stamp=True)
    number, component = cfu.IMAGE.unpack_from(CODE)
    refused_before(work, "stamp, the second has code", [one, other], 2, f"bears component {component}, version {version_words(number)}, in bytes 0 to 4: {ONLY_FREE}")
    exchanged = [part(1, data=image(2, V120), stamp=True), part(2, data=image(1, V120), stamp=True)]
    refused_before(work, "stamp, two modules' finished images exchanged", exchanged, 1, f"bears component 2, version 1.2.0, in bytes 0 to 4: {ONLY_FREE}")
    # Every entry is looked at before the writer looks at any.
    wrong = part(2, data=image(3, V120), stamp=True)
    its = f"bears component 3, version 1.2.0, in bytes 0 to 4: {ONLY_FREE}"
    for row, first in (("W2", part(0)), ("W3", part(2)), ("W4", part(1, data=b"")), ("W5", part(1, data=CODE)), ("W6", part(1, data=image(1, V110)))):
        refused_before(work, f"stamp, entry 1 has {row}, entry 2 no room", [first._replace(name="first.bin"), wrong], 2, its)
    refused_before(work, "stamp, the eighth of eight has no room", [part(i, data=raw(i), stamp=True) for i in range(1, 2 + OFFER_LIMIT) if i != 2] + [wrong], 8, its)
    refused(work, "stamp, 7 bytes", [part(1, data=bytes(7), stamp=True)], "W4", 1)
    refused(work, "stamp, 7 bytes of code", [part(1, data=CODE[:7], stamp=True)], "W4", 1)
    refused(work, "stamp, no bytes", [part(1, data=b"", stamp=True)], "W4", 1)
    for component in (0, 224, 254, 255):
        refused(work, f"stamp, the id {component}", [part(component, data=RAW, stamp=True)], "W2", 1)


def same_bytes(work):
    """Two stamped offers with files of the same bytes."""
    def same(name, parts, entry, earlier):
        refused_before(work, f"same bytes, {name}", parts, entry, f"has the same bytes as the image of entry {earlier}")

    one, two, three = (part(i, data=RAW, stamp=True) for i in (1, 2, 3))
    same("two raw files", [one, two], 2, 1)
    same("one file for two offers", [one, two._replace(name=one.name)], 2, 1)
    same("the third and the first", [one, two._replace(data=raw(1)), three], 3, 1)
    same("the third and the second", [one._replace(data=raw(1)), two, three], 3, 2)
    same("three: the second is told", [one, two, three], 2, 1)
    same("an id twice", [one, one._replace(name="other.bin")], 2, 1)
    same("files of zeros", [one._replace(data=bytes(64)), two._replace(data=bytes(64))], 2, 1)
    same("filled", [it._replace(data=RAW[:40], size=64) for it in (one, two)], 2, 1)
    same("filled to other sizes", [one._replace(data=RAW[:40], size=64), two._replace(data=RAW[:40], size=80)], 2, 1)
    # In an entry the size is first, then the same bytes, then the stamp.
    same("a finished image of the first", [part(1, stamp=True), part(2, data=image(1, V120), stamp=True)], 2, 1)
    refused_before(work, "same bytes, over the size", [one, two._replace(size=32)], 2, "has 64 bytes, over the size of 32")
    refused_before(work, "same bytes, the first has no room for the stamp", [it._replace(data=image(3, V120)) for it in (one, two)], 1,
                   f"bears component 3, version 1.2.0, in bytes 0 to 4: {ONLY_FREE}")
    made(work, "same bytes but for the last", [one, two._replace(data=RAW[:-3] + b"\x55" + RAW[-2:])])
    made(work, "one file is the start of the other", [one._replace(size=128), two._replace(data=RAW + b"\0", size=128)])
    # The files are compared, not what they are filled to.
    made(work, "files that are the same only when they are filled", [one._replace(data=RAW[:40], size=64), two._replace(data=RAW[:40] + b"\xFF", size=64)])
    refused(work, "same bytes, the second offer is not stamped", [one, two._replace(stamp=False)], "W5", 2)
    refused(work, "same bytes, no offer is stamped", [part(1), part(2, data=image(1, V120))], "W6", 2)
    # Whether a file that is too short to be stamped counts as that of a stamped offer is not said.
    few = [it._replace(data=bytes(7)) for it in (one, two)]
    not_made(work, "same bytes, 7 of them", few, OneOf([entry_refusal(few), make_refusal("W4", 1)]))


def sizes(work):
    made(work, "size, a raw image is filled and stamped", [part(1, data=RAW[:40], size=64, stamp=True)])
    made(work, "size, filled by a run", [part(1, data=RAW, size=65536, stamp=True)])
    made(work, "size, 8 bytes are filled and stamped", [part(1, data=bytes(8), size=64, stamp=True)])
    made(work, "size, filled by one byte behind 0xFF", [part(1, data=RAW[:-1], size=64, stamp=True)])
    made(work, "size, the image's own", [part(1, size=64), part(2, size=64)])
    made(work, "size, a finished image of this component and version is filled and stamped", [part(1, size=128, stamp=True)])
    for last in (b"\0\0", b"\xFF\xFF"):
        made(work, f"size, this component and version, its own last two bytes {last!r}", [part(1, data=image(1, V120)[:-2] + last, size=128, stamp=True)])
    # What the build finished and was then cut or damaged is not stamped: its own last two bytes count, not those that filling puts there.
    whole = image(1, V120)
    for name, data in (("cut to 40 bytes", whole[:40]), ("its CRC cut off", whole[:-2]), ("a byte cut off", whole[:-1]), ("a byte more", whole + b"\n"),
                       ("one bit other", whole[:20] + bytes([whole[20] ^ 1]) + whole[21:])):
        assert len(set(data[-2:])) == 2 or data[-1] not in (0, 0xFF), name
        refused_before(work, f"size and stamp, a finished image of this component and version, {name}", [part(1, data=data, size=128, stamp=True)], 1,
                       f"has a wrong CRC, 0x{data[-2:].hex().upper()}, in its last two bytes: {ONLY_FREE}")
    for number, words in ((V110, "1.1.0"), (V130, "1.3.0")):
        refused_before(work, f"size, a finished image of version {words} is filled and not stamped", [part(1, data=image(1, number), size=128, stamp=True)], 1,
                       f"bears component 1, version {words}, in bytes 0 to 4: {ONLY_FREE}")
    refused_before(work, "size and stamp, a finished image of another component is not relabelled", [part(1, data=image(3, V120), size=128, stamp=True)], 1,
                   f"bears component 3, version 1.2.0, in bytes 0 to 4: {ONLY_FREE}")
    refused_before(work, "size, filled by one byte behind code", [part(1, data=RAW[:-2] + b"\x12", size=64, stamp=True)], 1,
                   f"has a wrong CRC, 0x12FF, in its last two bytes: {ONLY_FREE}")
    refused(work, "size, a finished image is filled and not stamped", [part(1, size=65)], "W5", 1)
    for length in (0, 1, 7):
        for stamp in (False, True):
            refused(work, f"size, {counted(length, 'byte')}: neither filled nor stamped, stamp {stamp}", [part(1, data=b"\xFF" * length, size=64, stamp=stamp)], "W4", 1)
    refused(work, "size, filled past 65,536 bytes", [part(1, data=RAW, size=65537, stamp=True)], "W4", 1)
    refused(work, "size 0 for no bytes", [part(1, data=b"", size=0)], "W4", 1)
    it = part(1, data=RAW + bytes(6), size=64)
    for stamp in (False, True):
        refused_before(work, f"size, 70 bytes over 64, stamp {stamp}", [it._replace(stamp=stamp)], 1, "has 70 bytes, over the size of 64")
    refused_before(work, "size, the second is longer by one byte", [part(1, size=64), part(2, data=bytes(65), size=64)], 2, "has 65 bytes, over the size of 64")
    refused_before(work, "size, over 0", [part(1, size=0)], 1, "has 64 bytes, over the size of 0")
    refused_before(work, "size, 7 bytes over 4", [part(1, data=bytes(7), size=4, stamp=True)], 1, "has 7 bytes, over the size of 4")
    refused_before(work, "size, no room for the stamp, and too long", [part(1, data=CODE + bytes(6), size=64, stamp=True)], 1, "has 70 bytes, over the size of 64")
    refused_before(work, "size, 65,536 bytes over 65,535", [part(1, data=bytes(65536), size=65535)], 1, "has 65536 bytes, over the size of 65535")
    for length in (65537, 200000):
        for size in (64, 65536):
            refused_before(work, f"size, {length} bytes over {size}", [part(2), part(1, data=bytes(length), size=size)], 2, f"has over 65536 bytes, over the size of {size}")
    refused(work, "size, 65,537 bytes of 70,000", [part(1, data=bytes(65537), size=70000)], "W4", 1)


def image_files(work):
    folder = fresh(work, "images")
    asked(folder, [part(1), part(2)])
    os.symlink("/dev/zero", os.path.join(folder, "endless"))
    os.mkdir(os.path.join(folder, "folder"))
    before = files(folder)
    for name, number in (("none", errno.ENOENT), ("folder", errno.EISDIR)):
        for entry, words in ((1, ["--offer", f"1:1.2.0={name}"]), (2, ["--offer", offered(part(1)), "--offer", f"2:1.2.0={name}"])):
            for more in ([], ["--stamp"], ["--size", "64"], ["--dry-run"]):
                case(f"make, {name} as image {entry} {more}", ["make", OUT, *words, *more], 3, "", no_file("make", name, number), cwd=folder)
    for more in ([], ["--stamp"]):
        case(f"make, an endless image {more}", ["make", OUT, "--offer", "1:1.2.0=endless", *more], 1, "", make_refusal("W4", 1), cwd=folder)
    told = "cfu make: entry 2: endless has over 65536 bytes, over the size of 64\n"
    case("make, an endless image with a size", ["make", OUT, "--offer", offered(part(1)), "--offer", "2:1.2.0=endless", "--size", "64"], 1, "", told, cwd=folder)
    check("make, nothing is written for them", files=(before, files(folder)))
    for name, number in (("none", errno.ENOENT), ("folder", errno.EISDIR)):
        save(folder, "manifest", manifest([part(1)._replace(name=name)]).encode())
        case(f"make, {name} as image of a manifest", ["make", OUT, "--manifest", "manifest"], 3, "", no_file("make", name, number), cwd=folder)
    save(folder, "manifest", manifest([part(1)._replace(name="endless")]).encode())
    case("make, an endless image of a manifest", ["make", OUT, "--manifest", "manifest"], 1, "", make_refusal("W4", 1), cwd=folder)
    # Every file is read before the writer looks at any; of two entries the first that is refused is told.
    late = ["--offer", "1:1.2.0=none", "--offer", f"2:1.2.0={part(1).name}"]
    case("make, the first cannot be read, the second is over the size", ["make", OUT, *late, "--size", "8"], 3, "", no_file("make", "none"), cwd=folder)
    case("make, the first is over the size, the second cannot be read", ["make", OUT, *late[2:], *late[:2], "--size", "8"], 1, "",
         "cfu make: entry 1: image-1.bin has 64 bytes, over the size of 8\n", cwd=folder)
    case("make, the first has W6, the second cannot be read", ["make", OUT, *late[2:], *late[:2]], 3, "", no_file("make", "none"), cwd=folder)
    eight = [word for i in range(1, OFFER_LIMIT + 1) for word in ("--offer", f"{i}:1.2.0={part(1).name}")]
    case("make, the eighth of eight cannot be read", ["make", OUT, *eight, "--offer", "8:1.2.0=none"], 3, "", no_file("make", "none"), cwd=folder)
    # `-` is a file like others here.
    case("make, no file of the name -", ["make", OUT, "--offer", "1:1.2.0=-"], 3, "", no_file("make", "-"), cwd=folder, given=part(1).data)
    check("make, no bundle for them", bundle=(None, load(folder, OUT)))
    dash = [part(1)._replace(name="-")]
    made(work, "a file of the name -", dash)


def paths(work):
    """A message about an image of a manifest has its path as it is looked for."""
    for place, prefix in (("sub/manifest", "sub/"), ("./manifest", "./"), ("sub/deep/manifest", "sub/deep/"), ("sub/../manifest", "sub/../"), ("manifest", "")):
        folder = fresh(work, "paths")
        os.makedirs(os.path.join(folder, "sub"))

        def told(name, parts, status, err):
            for it in parts:
                if it.data is not None:
                    save(folder, prefix + it.name, it.data)
            save(folder, place, manifest(parts).encode())
            case(f"make, {place}, {name}", ["make", OUT, "--manifest", place], status, "", err, cwd=folder)

        def at(parts):
            return [it._replace(name=prefix + it.name) for it in parts]

        told("no image", [part(1)._replace(name="none", data=None)], 3, no_file("make", f"{prefix}none"))
        told("no image below", [part(1), part(2)._replace(name="below/none", data=None)], 3, no_file("make", f"{prefix}below/none"))
        long = [part(1), part(2, data=bytes(70), size=64)]
        told("an image over the size", long, 1, entry_refusal(at(long)))
        code = [part(1), part(2, data=image(3, V120), stamp=True)]
        told("no room for the stamp", code, 1, entry_refusal(at(code)))
        wrong = [part(1), part(2, data=RAW[:-2] + b"\1\2", stamp=True)]
        told("a wrong CRC under the stamp", wrong, 1, entry_refusal(at(wrong)))
        twins = [part(i, data=RAW, stamp=True) for i in (1, 2)]
        told("the same bytes", twins, 1, entry_refusal(at(twins)))
        assert all(f"entry 2: {prefix}image-2.bin " in entry_refusal(at(parts)) for parts in (long, code, wrong, twins))
        for row, its in (("W5", part(2, data=CODE)), ("W6", part(2, data=image(3, V130)))):
            told(row, [part(1), its], 1, make_refusal(row, 2, at([its])[0]))
        check(f"make, {place}: nothing is written", bundle=(None, load(folder, OUT)))

    folder = fresh(work, "whole")
    other = fresh(work, "whole-images")
    parts = [it._replace(name=os.path.join(other, it.name)) for it in E12]
    for it in parts:
        save(folder, it.name, it.data)
    save(folder, "sub/manifest", manifest(parts).encode())
    case("make, images by their whole paths", ["make", OUT, "--manifest", "sub/manifest"], 0, make_text(OUT, parts), cwd=folder)
    check("make, images by their whole paths: the bundle", bundle=(made_bundle(E12), load(folder, OUT)))
    none = os.path.join(other, "none")
    save(folder, "sub/manifest", manifest([parts[0]._replace(name=none)]).encode())
    case("make, no image at a whole path", ["make", OUT, "--manifest", "sub/manifest"], 3, "", no_file("make", none), cwd=folder)
    wrong = parts[1]._replace(component=1)
    save(folder, "sub/manifest", manifest([wrong]).encode())
    case("make, W6 for an image at a whole path", ["make", OUT, "--manifest", "sub/manifest"], 1, "", make_refusal("W6", 1, wrong), cwd=folder)
    case("make, W6 for an image at a whole path, --offer", ["make", OUT, "--offer", offered(wrong)], 1, "", make_refusal("W6", 1, wrong), cwd=folder)


def other_outputs(work):
    """A bundle that goes to what is no regular file."""
    folder = fresh(work, "outputs")
    words = asked(folder, E12)["manifest"]
    before = files(folder)
    case("make, to /dev/null", ["make", "/dev/null", *words], 0, make_text("/dev/null", E12), cwd=folder)
    pipe = os.path.join(folder, "pipe")
    os.mkfifo(pipe)
    end = os.open(pipe, os.O_RDONLY | os.O_NONBLOCK)
    case("make, to a named pipe", ["make", "pipe", *words], 0, make_text("pipe", E12), cwd=folder)
    try:
        came = os.read(end, 65536)
    except BlockingIOError:
        came = b""
    os.close(end)
    check("make, to a named pipe: the bundle", bundle=(made_bundle(E12), came))
    os.remove(pipe)
    check("make, no file beside them", files=(before, files(folder)))
    links(work)
    status, out, err = run(["make", OUT, *words], cwd=folder)
    check("make, an older bundle is replaced", status=(0, status), bundle=(made_bundle(E12), load(folder, OUT)))


def links(work):
    """A symbolic link as bundle. Whether it is replaced or what it leads to is written is not said; the bundle stands there by its name, and no third file."""
    for name, older in (("that leads nowhere", None), ("to a file", OLD)):
        folder = fresh(work, "links")
        words = asked(folder, E12)["manifest"]
        os.symlink("target", os.path.join(folder, OUT))
        if older:
            save(folder, "target", older)
        before = standing(folder)
        case(f"make, to a link {name}", ["make", OUT, *words], 0, make_text(OUT, E12), cwd=folder)
        after = standing(folder)
        replaced = {**before, OUT: made_bundle(E12)}
        check(f"make, to a link {name}: the bundle", bundle=(made_bundle(E12), load(folder, OUT)), one_way=(True, after in (replaced, {**before, "target": made_bundle(E12)})))


def cases(work):
    for part_of_it in (page, bundles, manifests, faulty_manifests, rows, stamps, same_bytes, sizes, image_files, paths, other_outputs):
        part_of_it(work)
