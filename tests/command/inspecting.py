"""`cfu inspect`: every bundle of tests/inspect, a bundle for each judgement of an image, and --json of them all."""
import os
import re

from common import OneOf, TOP, as_told, case, check, no_file, run, save
from model import ACCEPTED, Judgement, REFUSED, image_line, inspect_json, inspect_text, inspected, judged, known_answer, page_block, read_json
import cfu
from cfu import body, body_record as record, bundle, image, offer, version, written_body
from make import E12, E12_OFFERS

V110, V120, V130 = version(1, 1), version(1, 2), version(1, 3)
GOOD_1, GOOD_2 = E12_OFFERS


def flipped(data, place=20):
    """An image with one bit wrong."""
    return data[:place] + bytes([data[place] ^ 1]) + data[place + 1:]


def head_and_crc(component, number, size):
    """The body of an image of so many bytes, all 0xFF but for version, id and CRC: two records."""
    whole = cfu.with_crc(cfu.IMAGE.pack(number, component).ljust(size - 2, b"\xFF"))
    return record(0, whole[:cfu.IMAGE.size]) + record(size - 2, whole[-2:])


def with_run(component, number):
    """An image with a run of 60 bytes 0xFF, which A3's writer leaves out."""
    return image(component, number, 128, lambda start, end: cfu.filling(start, 40) + b"\xFF" * 60 + cfu.filling(100, end))


ONE, OTHER = image(1, V130), image(3, V120)
SHORTEST = cfu.with_crc(cfu.IMAGE.pack(V120, 2) + b"\x77")
UNWRITTEN = cfu.with_crc(b"\xFF" * 4 + bytes([9, 0x21]))  # version 255.65535.255, from bytes that no record writes
BACKWARDS = b"".join(record(*item) for item in reversed(cfu.written_records(ONE)))
FAULTY = (offer(2, V120), body(flipped(image(2, V120))))

# Each with the words of the judgements that are expected of its images.
JUDGED = {
    "a good image of A3's records": ([(offer(1, V130), written_body(ONE))], "good"),
    "a good image whose run of 0xFF is left out": ([(offer(1, V130), written_body(with_run(1, V130)))], "good"),
    "records out of order": ([(offer(1, V130), BACKWARDS)], "good"),
    "records that overlap: the later wins and is right": ([(offer(1, V130), record(10, b"\xA5" * 40) + body(ONE))], "good"),
    "records that overlap: the later wins and is wrong": ([(offer(1, V130), body(ONE) + record(10, b"\xA5" * 40))], "crc"),
    "one record, one offer": ([(offer(2, V120), record(0, SHORTEST))], "good"),
    "8 bytes of which 4 are not written": ([(offer(9, 0xFFFFFFFF), record(4, UNWRITTEN[4:]))], "good"),
    "a wrong CRC": ([(offer(1, V130), body(flipped(ONE)))], "crc"),
    "a CRC with its low byte first": ([(offer(1, V130), body(ONE[:-2] + ONE[:-3:-1]))], "crc"),
    "a CRC that starts at 0xFFFF": ([(offer(1, V130), body(cfu.with_crc(ONE[:-2], 0xFFFF)))], "crc"),
    "a byte behind the CRC": ([(offer(1, V130), body(ONE) + record(len(ONE), b"\xFF"))], "crc"),
    "another module's image under an offer": ([GOOD_1, (offer(2, V120), body(OTHER))], "good component"),
    "two modules' images exchanged": ([(offer(1, V120), body(image(2, V120))), (offer(2, V120), body(image(1, V120)))], "component component"),
    "an image with the id 0": ([(offer(1, V120), body(image(0, V120)))], "component"),
    "an image with the id 255": ([(offer(1, V120), body(image(255, V120)))], "component"),
    "another version": ([(offer(1, V130), body(image(1, V120)))], "version"),
    "a later version": ([(offer(1, V120), body(image(1, version(255, 65535, 255))))], "version"),
    "another variant only": ([(offer(1, V130), body(image(1, version(1, 3, 1))))], "version"),
    "CRC and id wrong": ([(offer(1, V120), body(flipped(OTHER)))], "crc"),
    "CRC and version wrong": ([(offer(1, V110), body(flipped(ONE)))], "crc"),
    "id and version wrong": ([(offer(1, V110), body(OTHER))], "component"),
    "7 bytes": ([(offer(1, V120), record(0, bytes(7)))], "short"),
    "7 bytes of which 3 are not written": ([(offer(1, V120), record(3, bytes(4)))], "short"),
    "1 byte": ([(offer(1, V120), record(0, b"\0"))], "short"),
    "an end at 65,536, good": ([(offer(1, V120), head_and_crc(1, V120, 65536))], "good"),
    "an end at 65,536, with a wrong CRC": ([(offer(1, V120), head_and_crc(1, V120, 65536) + record(9, b"\0"))], "crc"),
    "an end at 65,537": ([(offer(1, V120), head_and_crc(1, V120, 65537))], "long"),
    "an end at 65,537 of an earlier record": ([(offer(1, V120), record(65536, b"x") + body(image(1, V120)))], "long"),
    "an end past 32 bits": ([(offer(1, V120), record(0xFFFFFFFF, b"x"))], "long"),
    "an end far past 32 bits": ([(offer(1, V120), body(image(1, V120)) + record(0xFFFFFFFF, bytes(52)))], "long"),
    "one bad of two, the first": ([(offer(1, V130), body(flipped(ONE))), GOOD_2], "crc good"),
    "one bad of two, the second": ([GOOD_1, FAULTY], "good crc"),
    "two bad of two": ([(offer(1, V110), body(ONE)), FAULTY], "version crc"),
    "each judgement in seven": ([GOOD_1, FAULTY, (offer(3, V120), body(image(4, V120))), (offer(4, V120), body(image(4, V130))), (offer(5, V120), record(0, b"x")),
                                 (offer(6, V120), record(70000, b"x")), (offer(7, V120, platform=0xBEEF), body(image(7, V120)))],
                                "good crc component version short long good"),
    "a need of 255.65535 and the platform 0": ([(offer(1, V120, need=0xFF, least=0xFFFFFF, platform=0), body(image(1, V120)))], "good"),
    "a least version without a need": ([(offer(1, V120, least=0x010203), body(image(1, V120)))], "good"),
}


def both(folder, name, data, answer=None):
    """A bundle in words and as JSON."""
    file = save(folder, re.sub(r"\W+", "-", name) + ".bundle", data)
    status, text = inspect_text(file, data, answer)
    case(f"inspect, {name}", ["inspect", file], status, text, cwd=folder)
    json_case(folder, f"inspect --json, {name}", ["inspect", "--json", file], inspect_json(file, data, answer))


def json_case(folder, name, args, expected, **how):
    status, pairs = expected
    got, out, err = run(args, cwd=folder, **how)
    check(name, status=(status, got), messages=("", err), object=(pairs, read_json(out)))


def names(folder):
    """Names that JSON must escape."""
    for what, name, escaped in (
            ("a quote", b'a"b', r'a\"b'), ("a backslash", rb"a\b", r"a\\b"), ("a line end", b"a\nb", r"a\u000ab"), ("a tab", b"a\tb", r"a\u0009b"),
            ("the control character 0x1F", b"a\x1fb", r"a\u001fb"), ("the control character 0x01", b"a\x01b", r"a\u0001b"),
            ("letters past ASCII", "é€😀".encode(), None), ("bytes that are no UTF-8", b"a\xffb\xfec", None), ("a cut UTF-8 letter", b"a\xe2\x82", None)):
        save(folder, name, E12)
        # Of a letter that is cut, whether each byte becomes U+FFFD or all together is not said.
        told = {name.decode("utf-8", "replace"), "".join("\ufffd" if 0xDC80 <= ord(letter) <= 0xDCFF else letter for letter in os.fsdecode(name))}
        got, out, err = run(["inspect", "--json", name], cwd=folder)
        text = os.fsencode(out).decode("utf-8", "surrogateescape")
        check(f"inspect --json, a name with {what}", status=(0, got), messages=("", err), object=(OneOf(inspect_json(file, E12)[1] for file in told), read_json(text)))
        if escaped:
            check(f"inspect --json, {what} is escaped as the page says", found=(True, f'"file":"{escaped}"' in re.sub(r"\\u00[0-9A-F]{2}", lambda found: found.group().lower(), text)))
    save(folder, b"a\xffb", E12[:-1])
    json_case(folder, "inspect --json, a refused bundle whose name is no UTF-8", ["inspect", "--json", b"a\xffb"],
              inspect_json("a\ufffdb", E12[:-1], ("B7", 2)))


def plain_names(folder):
    """Names that are no UTF-8, in lines and messages: whether their bytes stand there or U+FFFD is not said."""
    for name in (b"p\xffq", b"p\xe2\x82"):
        save(folder, name, E12)
        save(folder, name + b".cut", E12[:-1])
        case(f"inspect, the name {name}", ["inspect", name], 0, OneOf(inspect_text(told, E12)[1] for told in as_told(name)), cwd=folder)
        case(f"inspect, a refused bundle of the name {name}", ["inspect", name + b".cut"], 1,
             OneOf(inspect_text(told, E12[:-1], ("B7", 2))[1] for told in as_told(name + b".cut")), cwd=folder)
        case(f"inspect, no file of the name {name}", ["inspect", name + b".none"], 3, "", OneOf(no_file("inspect", told) for told in as_told(name + b".none")), cwd=folder)


def standard_input(folder):
    for name, data, answer in (("an accepted bundle", E12, None), ("a refused bundle", E12[:-1], ("B7", 2)), ("no bytes", b"", ("B1", 0))):
        status, text = inspect_text("standard input", data, answer)
        case(f"inspect -, {name}", ["inspect", "-"], status, text, cwd=folder, given=data)
        json_case(folder, f"inspect - --json, {name}", ["inspect", "-", "--json"], inspect_json("-", data, answer), given=data)
    json_case(folder, "inspect - --json, 70,000 bytes: no more than 65,537 are read", ["inspect", "--json", "-"], inspect_json("-", bytes(70000), ("B1", 0)), given=bytes(70000))


def page_lines():
    """The lines of the page's table, with N for the numbers of bytes and records, are those of the model."""
    with open(os.path.join(TOP, "docs", "COMMAND.md"), encoding="utf-8") as file:
        rows = dict(re.findall(r"^\| `(\w+)` \| `(  image: bad, .*)` \|$", file.read(), re.M))
    ours = {"long": Judgement("long", 65537, 5), "short": Judgement("short", 5, 5), "crc": Judgement("crc", 64, 5, 0x1234, 0x5678, 1, V120),
            "component": Judgement("component", 64, 5, 0, 0, 3, V120), "version": Judgement("version", 64, 5, 0, 0, 1, V120)}
    lines = {word: re.sub(r"(?:, \d+ bytes)?, \d+ records$", lambda found: re.sub(r"\d+", "N", found.group()), image_line(it)[:-1]) for word, it in ours.items()}
    check("the model has the lines of the page's table", lines=(rows, lines))


def cases(folder):
    page_lines()
    status, text = inspect_text("examples/e12.bundle", E12)
    check("the model gives the page's example of inspect", text=(page_block("examples/e12.bundle"), text))
    case("inspect, the page's example", ["inspect", "examples/e12.bundle"], status, text, cwd=TOP)
    for name in ACCEPTED + REFUSED:
        both(folder, name, inspected[name][0], known_answer(name))
    for name, (offers, words) in JUDGED.items():
        assert [judged(*one).word for one in offers] == words.split(), f"{name}: {[judged(*one).word for one in offers]}"
        both(folder, name, bundle(offers))
    names(folder)
    plain_names(folder)
    standard_input(folder)
    for length in (65536, 65537, 65538, 200000):
        data = bytes(length)
        both(folder, f"{length} bytes", data, ("B2", 0) if length == 65536 else ("B1", 0))
    json_case(folder, "inspect --json, an endless file", ["inspect", "--json", "/dev/zero"], inspect_json("/dev/zero", bytes(65537), ("B1", 0)))
    assert inspect_text("x", bundle([FAULTY]))[1].endswith("\n1 of 1 images is bad\n")
    both(folder, "one bad of one", bundle([FAULTY]))
