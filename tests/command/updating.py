"""`cfu update`: E13, devices and images that refuse, floors, blocks that come twice, bundles that are refused, and the progress line of a terminal."""
import errno
import re

from common import COLOUR, OneOf, TOP, as_told, case, check, fresh, no_file, on_terminal, save, terminal, wrong_line
from model import BENCH, Component, SENTENCE, inspected, known_answer, on_page, page_block, refusal, update_text, version_words
import cfu
from cfu import COMPONENT_LIMIT, body, body_record, bundle, image, offer, version, written_body
from make import E12, E12_OFFERS

V100, V110, V120, V130 = version(1, 0), version(1, 1), version(1, 2), version(1, 3)
OTHER_ORDER = bundle(E12_OFFERS[::-1])


def one(component, number, data, **fields):
    return bundle([(offer(component, number, **fields), data)])


def wrong_crc(component, number):
    """An image with a byte that its CRC does not fit."""
    data = bytearray(image(component, number))
    data[20] ^= 1
    return bytes(data)


def bad_crc(component, number):
    return body(wrong_crc(component, number))


def words_of(components=None, staging=None, platform=None, token=None, packets=False, twice=False):
    """The options for a device and a host."""
    words = []
    for it in components or ():
        words += ["--component", f"{it.id}:{version_words(it.running)}:{it.base}:{it.length}" + (f":{version_words(it.floor)}" if it.floor else "")]
    for name, value in (("--staging", staging), ("--platform", platform), ("--token", token)):
        words += [] if value is None else [name, str(value)]
    return words + (["--packets"] if packets else []) + (["--twice"] if twice else [])


def update(folder, name, data, end=None, answer=None, **how):
    """All lines and the status. end: a line that must be among them, of which the page or document 01 speaks."""
    file = save(folder, re.sub(r"\W+", "-", name), data)
    status, text = update_text(file, data, answer, **{key: value for key, value in how.items() if value is not None})
    assert end is None or f"{end}\n" in text, f"{name}: the model has not {end!r}:\n{text}"
    case(f"update, {name}", ["update", *words_of(**how), file], status, text, cwd=folder)
    return status


def regions(*components):
    """Components with regions one behind the other: (id, running version, length), and perhaps the floor."""
    out, base = [], 0
    for component, running, length, *floor in components:
        out.append(Component(component, running, base, length, *floor))
        base += length
    return tuple(out)


def runs(folder):
    for packets in (False, True):
        shown = ", packet by packet" if packets else ""
        update(folder, f"E13{shown}", E12, "report: completed 2 of 2, packets 13, passes 2", packets=packets)
        update(folder, f"E13 in the other order{shown}", OTHER_ORDER, "report: completed 2 of 2, packets 9, passes 1", packets=packets)
        update(folder, f"a wrong CRC{shown}", one(2, V120, bad_crc(2, V120)), f"ended H1: {SENTENCE['H1']} with status 0x05: {SENTENCE['ERROR_CRC']}", packets=packets)
    update(folder, "another token", E12, token=7, packets=True)
    update(folder, "another platform", E12, f"  offer 2: REJECT: {SENTENCE['REJECT_INV_COMPONENT']}", platform=0x0043)
    update(folder, "another platform for both", one(1, V130, body(image(1, V130)), platform=0xBEEF), "done", platform=0xBEEF)
    update(folder, "an old version", E12, f"  offer 1: REJECT: {SENTENCE['REJECT_OLD_FW']}", components=regions((1, V130, 64), (2, V120, 64)))
    update(folder, "a debug build of the running number", one(1, version(1, 2, 1), body(image(1, version(1, 2, 1)))), f"  offer 1: REJECT: {SENTENCE['REJECT_WRONG_VARIANT']}")
    update(folder, "a debug build where one runs", one(1, version(1, 3, 1), body(image(1, version(1, 3, 1)))), "  component 1 runs 1.3.1",
           components=regions((1, version(1, 2, 1), 64)))
    update(folder, "a need that nothing meets", one(1, V130, body(image(1, V130)), need=2, least=V120 >> 8), f"  offer 1: SKIP: {SENTENCE['OFFER_SKIP']}")
    never = [(offer(1, V130, need=2, least=version(9, 9) >> 8), body(image(1, V130))), (offer(2, V120, need=1, least=version(9, 9) >> 8), body(image(2, V120)))]
    update(folder, "two needs that nothing meets: no second pass", bundle(never), "report: completed 0 of 2, packets 5, passes 1")
    update(folder, "a need that nothing meets, and an image that lands: a second pass", bundle([never[0], E12_OFFERS[1]]), "report: completed 1 of 2, packets 11, passes 2")
    update(folder, "a component that the device lacks", E12, "report: completed 1 of 2, packets 7, passes 1", components=regions((2, V110, 64)))
    update(folder, "A3's records", bundle([(offer(1, V130), written_body(image(1, V130)))]), "  offer 1: completed, blocks 3")
    chain = [(offer(i, V110, need=i + 1 if i < 7 else 0, least=V110 >> 8 if i < 7 else 0), body(image(i, V110))) for i in range(1, 8)]
    seven = regions(*((i, V100, 64) for i in range(1, 8)))
    update(folder, "seven offers, each needs the next", bundle(chain), "report: completed 7 of 7, packets 78, passes 7", components=seven, staging=65536)
    update(folder, "seven offers, each needs the one before", bundle(chain[::-1]), components=seven)

    # images that the device refuses
    update(folder, "an image for another component", one(2, V120, body(image(1, V120))), f"ended H1: {SENTENCE['H1']} with status 0x04: {SENTENCE['ERROR_VERIFY']}")
    for name, number in (("an older image", V100), ("an image of another variant", version(1, 2, 1))):
        update(folder, name, one(2, V120, body(image(2, number))), f"ended H1: {SENTENCE['H1']} with status 0x07: {SENTENCE['ERROR_VERSION']}")
    update(folder, "a block past the region", one(2, V120, body_record(13, bytes(52))), f"ended H1: {SENTENCE['H1']} with status 0x09: {SENTENCE['ERROR_INVALID_ADDR']}")
    update(folder, "a second block past the region", one(2, V120, body(image(2, V120, 65))), "report: completed 0 of 1, packets 5, passes 1", packets=True)
    update(folder, "the first offer is completed, the second ended", bundle([(offer(1, V130), body(image(1, V130))), (offer(2, V120), bad_crc(2, V120))]),
           "report: completed 1 of 2, packets 8, passes 1")


def set_ups(folder):
    def device(name, row, components=None, staging=None):
        update(folder, f"{row} for {name}", E12, refusal(row), components=components, staging=staging)

    device("staging over 65,536 bytes", "S1", staging=65537)
    device("the id 0", "S3", regions((0, V100, 64)))
    device("the id 0xE0", "S3", regions((0xE0, V100, 64)))
    device("an id twice", "S3", regions((1, V100, 64), (1, V100, 64)))
    device("a region under 8 bytes", "S4", regions((1, V100, 7)))
    device("a region past the buffer", "S4", regions((1, V100, 64)), 63)
    device("a region far past the buffer", "S4", (Component(1, V100, 0xFFFFFFFF, 64),))
    device("two regions that overlap", "S4", (Component(1, V100, 0, 64), Component(2, V100, 63, 64)))
    device("staging of 0 bytes", "S4", staging=0)
    for floor in (version(1, 3, 1), version(0, 0, 1), version(0, 0, 255), version(255, 65535, 255)):
        device(f"the floor {version_words(floor)}", "S5", regions((1, V120, 64), (2, version(1, 1, 1), 64, floor)))
    device("a floor with a variant, and an id twice", "S3", regions((1, V100, 64, version(1, 3, 1)), (1, V100, 64)))
    device("a floor with a variant, and a region past the buffer", "S4", regions((1, V100, 64, version(1, 3, 1))), 63)
    case("update, the options of the bench device are those that are taken without them", ["update", "E13", *words_of(BENCH, 128, "0x42", "0xA5")], 0,
         update_text("E13", E12)[1], cwd=folder)
    case("update, options with =", ["update", *(f"{name}={value}" for name, value in zip(*[iter(words_of(BENCH, 128, 66, 165))] * 2)), "E13"], 0,
         update_text("E13", E12)[1], cwd=folder)


def second(floor):
    """The bench device, whose component 2 has a floor."""
    return {"components": (BENCH[0], BENCH[1]._replace(floor=floor))}


def alone(number, bears=None):
    """One offer, for component 2, and its image, which may bear another version."""
    return one(2, number, body(image(2, number if bears is None else bears)))


def floors(folder):
    """A5: what is below the floor by major and minor is not taken, whatever runs."""
    words, = on_page("With `(--component [^`]*:1\\.3\\.0)`")
    status, text = update_text("examples/e12.bundle", E12, **second(V130))
    check("the model gives the page's example of a floor", status=(1, status), device=(page_block("device: platform"), text[text.index("device:"):]))
    case("update, the page's example of a floor", ["update", *words.split(), "examples/e12.bundle"], status, text, cwd=TOP)

    too_low, refused = f"REJECT: {SENTENCE['REJECT_OLD_FW']}", f"ended H1: {SENTENCE['H1']} with status 0x07: {SENTENCE['ERROR_VERSION']}"
    # below the floor, at it and above it, by minor and by major, up to the highest; the floor above what runs, the same and below it
    for packets in (False, True):
        update(folder, f"an offer below the floor, packets {packets}", E12, f"  offer 2: {too_low}", packets=packets, **second(V130))
        update(folder, f"a floor that is met, packets {packets}", E12, "  component 2 runs 1.1.0, floor 1.2.0, pending 1.2.0", packets=packets, **second(V120))
    for name, floor, number, line in (
            ("the offer at the floor", V130, V130, "  component 2 runs 1.3.0, floor 1.3.0"),
            ("the offer above the floor", V130, version(1, 4), "  component 2 runs 1.4.0, floor 1.3.0"),
            ("the offer below the floor by its minor", version(1, 65535), version(1, 65534), f"  offer 1: {too_low}"),
            ("the offer at a floor with the highest minor", version(1, 65535), version(1, 65535), "  component 2 runs 1.65535.0, floor 1.65535.0"),
            ("the offer below the floor by its major", version(2, 0), version(1, 65535), f"  offer 1: {too_low}"),
            ("the offer above the floor by its major, with a lower minor", version(1, 65535), version(2, 0), "  component 2 runs 2.0.0, floor 1.65535.0"),
            ("the highest floor", version(255, 65535), version(255, 65534), f"  offer 1: {too_low}"),
            ("the highest floor, met", version(255, 65535), version(255, 65535), "  component 2 runs 255.65535.0, floor 255.65535.0"),
            ("a floor below what runs, and an older offer above it", version(0, 1), V100, f"  offer 1: {too_low}"),
            ("a floor that is what runs", V110, V110, f"  offer 1: {too_low}"),
            ("a floor that is what runs, and a later offer", V110, V120, "  component 2 runs 1.2.0, floor 1.1.0"),
            ("a floor below what runs", version(0, 1), V120, "  component 2 runs 1.2.0, floor 0.1.0")):
        update(folder, name, alone(number), line, **second(floor))
    # the variant: not counted for the floor, and tested before it
    debug = regions((2, version(1, 1, 7), 64, V130))
    update(folder, "an offer at the floor with the running variant", alone(version(1, 3, 7)), "  component 2 runs 1.3.7, floor 1.3.0", components=debug)
    update(folder, "an offer below the floor with the running variant", alone(version(1, 2, 7)), f"  offer 1: {too_low}", components=debug)
    for number in (V120, V130):
        update(folder, f"another variant than the running one, {version_words(number)}", alone(number), f"  offer 1: REJECT: {SENTENCE['REJECT_WRONG_VARIANT']}", components=debug)
    # the image is judged by the version that it bears
    for name, bears in (("newer than what runs", V120), ("what runs", V110), ("older than what runs", V100)):
        update(folder, f"an image below the floor, {name}", alone(V130, bears), refused, packets=True, **second(V130))
    update(folder, "an image at the floor of an offer above it", alone(version(1, 4), V130), "  component 2 runs 1.3.0, floor 1.3.0", **second(V130))
    # a need is met by what runs or is staged, and by no floor; a floor of each component
    update(folder, "a need that only a floor would meet", bundle(E12_OFFERS[:1]), f"  offer 1: SKIP: {SENTENCE['OFFER_SKIP']}", **second(V120))
    update(folder, "floors of both, met", E12, "report: completed 2 of 2, packets 13, passes 2", components=regions((1, V120, 64, V130), (2, V110, 64, V120)))
    update(folder, "floors of both, one met", E12, f"  offer 1: {too_low}", components=regions((1, V120, 64, version(1, 4)), (2, V110, 64, V120)))
    # a floor of 0 is none; numbers in hexadecimal
    for floor, how in (("0.0.0", {}), ("0x0.0X0.00", {}), ("0x1.0x3.0x0", second(V130))):
        case(f"update, the floor {floor}", ["update", "--component", "1:1.2.0:0:64", f"--component=2:1.1.0:64:64:{floor}", "E13"], *update_text("E13", E12, **how), cwd=folder)


# A4: E13's offers with bodies that the writer cuts, into 52, 10 and 2 bytes; a body of four blocks, of which two in a row come twice
THREES = bundle([(packet, written_body(image(component, number))) for (packet, _), (component, number) in zip(E12_OFFERS, ((1, V130), (2, V120)))])
FOUR = image(2, V120, 200)
FOURS, FOURS_DEVICE = one(2, V120, body(FOUR)), regions((2, V110, 200))


def without_bytes(text):
    """Lines of packets with `..` for their bytes, as the page has them."""
    return re.sub(r"^(->|<-)(?: [0-9A-F]{2})+  ", r"\1 ..  ", text, flags=re.M)


def doubled(folder):
    """A4: over a bus that delivers blocks twice."""
    shown = without_bytes(update_text("threes", THREES, packets=True, twice=True)[1])
    check("the model gives the page's example of blocks that come twice", count=(2, shown.count(page_block("-> ..  content: block 2"))))
    # Two bodies of three blocks: a packet more each than E13's 13, and none for a copy.
    report = "report: completed 2 of 2, packets 15, passes 2"
    for packets in (False, True):
        for twice in (False, True):
            name = f"blocks {'twice' if twice else 'once'}, packets {packets}"
            update(folder, name, THREES, report, packets=packets, twice=twice)
            update(folder, f"{name}, two in a row", FOURS, "report: completed 1 of 1, packets 8, passes 1", components=FOURS_DEVICE, packets=packets, twice=twice)
    check("two blocks in a row twice: the replies in their order", text=(
        [("content: block 1", "taken"), ("content: block 2", "content: block 2 again", "taken"),
         ("content: block 3", "content: block 3 again", "taken: block 2 again, passed over", "taken"), ("content: block 4", "taken: block 3 again, passed over", "taken")],
        told_blocks(update_text("fours", FOURS, components=FOURS_DEVICE, packets=True, twice=True)[1])))
    # Without --packets the lines and the status are those of a run without --twice, whatever comes: every bundle that the check accepts, and bodies that are refused.
    refused = {"the first doubled block past the region": [(0, bytes(52)), (60, bytes(10)), (62, bytes(2))],
               "the second doubled block past the region": [(0, bytes(52)), (52, bytes(10)), (60, bytes(10)), (62, bytes(2))],
               "the last block past the region": [(0, bytes(52)), (52, bytes(10)), (63, bytes(2))]}
    for name, records in refused.items():
        data = one(2, V120, b"".join(body_record(*record) for record in records))
        for packets in (False, True):
            update(folder, f"{name}, twice, packets {packets}", data, f"ended H1: {SENTENCE['H1']} with status 0x09: {SENTENCE['ERROR_INVALID_ADDR']}", packets=packets, twice=True)
    for packets in (False, True):
        update(folder, f"a wrong CRC behind a doubled block, packets {packets}", one(2, V120, written_body(wrong_crc(2, V120))),
               f"ended H1: {SENTENCE['H1']} with status 0x05: {SENTENCE['ERROR_CRC']}", packets=packets, twice=True)
        update(folder, f"E13 over a bus that doubles, packets {packets}", E12, "report: completed 2 of 2, packets 13, passes 2", packets=packets, twice=True)
        update(folder, f"one block over a bus that doubles, packets {packets}", one(2, V120, body(image(2, V120, 52))), "report: completed 1 of 1, packets 5, passes 1",
               components=regions((2, V110, 52)), packets=packets, twice=True)
    for name, (data, _) in inspected.items():
        if known_answer(name) is None:
            file = save(folder, "either", data)
            status, text = update_text(file, data)
            case(f"update --twice, tests/inspect, {name}", ["update", "--twice", file], status, text, cwd=folder)
    # On a terminal the progress is that of the blocks, once each.
    for name, data, how in (("threes", THREES, {}), ("fours", FOURS, {"components": FOURS_DEVICE})):
        status, text = update_text(save(folder, name, data), data, over_one_line=True, twice=True, **how)
        got, out, err = terminal(["update", name, "--twice", *words_of(**how)], cwd=folder)
        check(f"update, {name} on a terminal, blocks twice", status=(status, got), output=(on_terminal(text), COLOUR.sub("", out)), messages=("", err))


def told_blocks(text):
    """The words of the lines of blocks and of their replies, without places, from one block of the host's to the next."""
    out = []
    for mark, words in re.findall(r"^(->|<-) \.\.  (content: block[^,\n]*|taken[^\n]*)", without_bytes(text), re.M):
        if mark == "->" and "again" not in words:
            out.append(())
        out[-1] += (words,)
    return out


def command_lines(folder):
    for words in ([], ["--packets"], ["E13", "E13"], ["E13", "--token"], ["E13", "--colour", "1"], ["E13", "--colour"], ["E13", "--token", "256"], ["E13", "--token", "x"],
                  ["E13", "--token", ""], ["E13", "--token", "-1"], ["E13", "--token", "+1"], ["E13", "--token", " 1"], ["E13", "--token", "1_0"], ["E13", "--token", "0x+1"],
                  ["E13", "--token=256"], ["E13", "--token="], ["E13", "--platform", "0x10000"], ["E13", "--platform", "0x"], ["E13", "--platform"],
                  ["E13", "--staging", "0x1000000"], ["E13", "--staging", "x"], ["E13", "--staging"], ["E13", "--component"], ["E13", "--component", "1:1.2:0:64"],
                  ["E13", "--component", "1:1.2.0:0:64:"], ["E13", "--component", "1:1.2.0:0:4294967296"], ["E13", "--component", "1:1.2.0:4294967296:64"],
                  ["E13", "--component", "1:256.2.0:0:64"], ["E13", "--component", "1:1.65536.0:0:64"], ["E13", "--component", "1:1.2.256:0:64"],
                  ["E13", "--component", "256:1.2.0:0:64"], ["E13", "--component", "1:1.2.0:0"], ["E13", "--component", "1:1.2.0::64"],
                  *(["E13", "--component", f"1:1.2.0:0:64:{floor}"] for floor in (
                      "x", "1", "1.3", "1.3.", ".3.0", "1..0", "1.3.x", "1.3.0.0", "256.3.0", "1.65536.0", "1.3.256", "-1.3.0", "+1.3.0", " 1.3.0", "1.3.0 ", "1,3,0", "1.3@0",
                      "1.3.0:", ":1.3.0", "1.3.0:1.3.0", "1.3.0:x", "::")),
                  ["E13", "--component=1:1.2.0:0:64:"], ["E13", "--component=1:1.2.0:0:64:1.3"], ["E13", "--component", "1:1.2.0:0:1.3.0"],
                  ["E13", "--component", "1:1.2.0:0:4294967296:1.3.0"], ["E13", "--component", "1:1.2.0:0::1.3.0"], ["E13", "--component", "1:1.2.0:64:1.3.0"],
                  ["E13"] + (COMPONENT_LIMIT + 1) * ["--component", "1:1.2.0:0:64"], ["E13", "--json"], ["E13", "--swap-protocol"], ["E13", "--packets=1"],
                  ["E13", "--packets="], ["--packets=yes", "E13"], ["--twice"], ["E13", "--twice="], ["E13", "--twice=2"], ["E13", "--twice", "2"]):
        case(f"update, the command line {words}", ["update", *words], 2, "", wrong_line("update"), cwd=folder)


def terminals(folder):
    """The progress line is written over by a carriage return and ended by a line end; nothing of it comes through a pipe or with --packets."""
    wanted = "\r  offer 2: block 1 of 2, 50 %\r  offer 2: block 2 of 2, 100 %\n  offer 2: completed, blocks 2\n"
    assert update_text("E13", E12, over_one_line=True)[1].count(wanted) == 1
    for name in ("E13", "E13-in-the-other-order", "a-wrong-CRC", "a-second-block-past-the-region", "A3-s-records"):
        with open(f"{folder}/{name}", "rb") as file:
            data = file.read()
        for packets in (False, True):
            status, text = update_text(name, data, over_one_line=True, packets=packets)
            got, out, err = terminal(["update", name, *words_of(packets=packets)], cwd=folder)
            check(f"update, {name} on a terminal, packets {packets}", status=(status, got), output=(on_terminal(text), COLOUR.sub("", out)), messages=("", err))


def twice(folder):
    """Of an option that stands twice the last holds; --component may stand more than once."""
    for name, words, how in (("--token", ["--token", "1", "--token", "0x07"], {"token": 7}), ("--platform", ["--platform=0x42", "--platform", "67"], {"platform": 67}),
                             ("--platform, the usual last", ["--platform", "67", "--platform=0x42"], {}), ("--staging", ["--staging", "1", "--staging", "256"], {"staging": 256}),
                             ("--staging, too little last", ["--staging", "256", "--staging", "64"], {"staging": 64})):
        status, text = update_text("E13", E12, packets=True, **how)
        case(f"update, {name} twice", ["update", *words, "E13", "--packets", "--packets"], status, text, cwd=folder)


def cases(work):
    check("the model gives the page's example of update", text=(page_block("bundle examples/e12.bundle"), update_text("examples/e12.bundle", E12)[1]))
    case("update, the page's example", ["update", "examples/e12.bundle"], *update_text("examples/e12.bundle", E12), cwd=TOP)
    folder = fresh(work, "update")
    runs(folder)
    set_ups(folder)
    floors(folder)
    doubled(folder)
    command_lines(folder)
    terminals(folder)
    for name, (data, _) in inspected.items():
        update(folder, f"tests/inspect, {name}", data, answer=known_answer(name))
    case("update, from standard input", ["update", "-"], 0, update_text("standard input", E12)[1], cwd=folder, given=E12)
    save(folder, b"p\xffq", E12)
    # Whether the bytes of a name that is no UTF-8 stand in a line, or U+FFFD, is not said.
    case("update, a name that is no UTF-8", ["update", b"p\xffq"], 0, OneOf(update_text(told, E12)[1] for told in as_told(b"p\xffq")), cwd=folder)
    twice(folder)
    case("update, a refused bundle from standard input", ["update", "-"], 1, f"{refusal('B7', 2)}\n", cwd=folder, given=E12[:-1])
    case("update, an endless file", ["update", "/dev/zero"], 1, f"{refusal('B1')}\n", cwd=folder)
    case("update, no file", ["update", "none"], 3, "", no_file("update", "none"), cwd=folder)
    case("update, a directory", ["update", "."], 3, "", no_file("update", ".", errno.EISDIR), cwd=folder)
    assert cfu.PLATFORM == 0x0042
