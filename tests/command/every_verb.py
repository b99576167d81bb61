"""What every verb has in common: --help, wrong command lines, input that cannot be read, and output that is lost."""
import errno
import os
import re
import resource
import signal
import stat
import subprocess

from common import OneOf, TOP, as_told, case, check, files, fresh, load, no_file, one_message, remove, run, save, standing, wrong_line
from model import inspect_text, made_bundle, make_text, page_block, refusal, split_files
import cfu
from make import E12
from cutting import join_text, split_text
from making import E12 as PARTS, OLD, asked, offered

COLUMNS = 100
OFFERS = [word for part in PARTS for word in ("--offer", offered(part))]


def sections():
    """The part of docs/COMMAND.md about each verb."""
    with open(os.path.join(TOP, "docs", "COMMAND.md"), encoding="utf-8") as file:
        parts = re.split(r"^## (?=`cfu (\w+))", file.read(), flags=re.M)
    return dict(zip(parts[1::2], parts[2::2]))


VERBS = {verb: sorted(set(re.findall(r"--[a-z][a-z-]*", text))) for verb, text in sections().items()}
assert VERBS == {"inspect": ["--json"], "make": ["--dry-run", "--manifest", "--offer", "--platform", "--size", "--stamp"], "split": ["--swap-protocol"],
                 "join": ["--swap-protocol"], "update": ["--component", "--packets", "--platform", "--staging", "--token", "--twice"]}, VERBS


def desk(work, name):
    """A folder with a bundle, its files, a manifest and images."""
    folder = fresh(work, name)
    asked(folder, PARTS)
    save(folder, "bundle", E12)
    for (packet, body), place in zip(cfu.split(E12), (1, 2)):
        save(folder, f"offer-{place}", packet)
        save(folder, f"payload-{place}", body)
    return folder


# A good command line of each verb, in such a folder
PAIRS = ["offer-1", "payload-1", "offer-2", "payload-2"]
GOOD = {"inspect": ["bundle"], "make": ["out", *OFFERS], "split": ["bundle", "cut"], "join": ["out", *PAIRS], "update": ["bundle"]}


# ---- Help ----

def helps(folder):
    def helped(name, args, words):
        status, out, err = run(args, cwd=folder)
        check(name, status=(0, status), messages=("", err), lacking=([], [word for word in words if not re.search(rf"(?<![\w-]){re.escape(word)}(?![\w-])", out)]),
              lines_over_100_columns=([], [line for line in out.splitlines() if len(line) > COLUMNS]), ends=(True, out.endswith("\n")))

    for verb, options in VERBS.items():
        helped(f"cfu {verb} --help", [verb, "--help"], [f"cfu {verb}", *options])
        helped(f"cfu {verb} .. --help", [verb, *GOOD[verb], "--help"], [f"cfu {verb}", *options])
        helped(f"cfu {verb} -h", [verb, "-h"], [f"cfu {verb}", *options])
        for words in (["-h"], [*GOOD[verb], "-h"], ["-h", *GOOD[verb]]):
            case(f"cfu {' '.join([verb, *words])} is as with --help", [verb, *words], 0, run([verb, "--help"], cwd=folder)[1], cwd=folder)
    helped("cfu --help", ["--help"], ["cfu", *VERBS])
    case("cfu -h is cfu --help", ["-h"], 0, run(["--help"], cwd=folder)[1], cwd=folder)
    for name in ("-h", "--help"):
        case(f"inspect, after -- {name} is a file", ["inspect", "--", name], 3, "", no_file("inspect", name), cwd=folder)
    check("--help writes nothing", files=([], [name for name in ("out", "cut") if os.path.exists(os.path.join(folder, name))]))
    # The page has no words for the version.
    case("cfu --version", ["--version"], 0, re.compile(r"[^\n]*\d[^\n]*\n"), cwd=folder)


# ---- Command lines ----

WRONG = {
    "inspect": [[], ["--json"], ["bundle", "bundle"], ["--"], ["--colour", "bundle"], ["bundle", "--colour"], ["bundle", "--swap-protocol"], ["bundle", "--colour=1"],
                ["bundle", "--json=1"], ["--json=", "bundle"], ["--json=yes", "bundle"], ["--json", "--json=1", "bundle"]],
    "split": [[], ["bundle"], ["bundle", "cut", "cut"], ["--swap-protocol"], ["bundle", "--swap-protocol"], ["--colour", "bundle", "cut"], ["bundle", "cut", "--json"],
              ["bundle", "cut", "--swap-protocol=1"], ["--swap-protocol=", "bundle", "cut"], ["bundle", "-"], ["-", "-"], ["bundle", "--", "-"]],
    "join": [[], ["out"], ["out", *PAIRS[:1]], ["out", *PAIRS[:3]], ["out", "--swap-protocol"], ["out", *PAIRS, "--colour"], ["out", *PAIRS, "--json"],
             ["out", *PAIRS, "--swap-protocol=1"], ["--swap-protocol=", "out", *PAIRS], ["-", *PAIRS], ["--", "-", *PAIRS], ["-", *PAIRS, "--swap-protocol"]],
    "make": [[], ["out"], OFFERS, ["--manifest", "manifest"], ["out", "out", *OFFERS], ["out", "out", "--manifest", "manifest"], ["out", "--colour", *OFFERS],
             ["out", *OFFERS, "--colour"], ["out", "--offer"], ["out", "--manifest"], ["out", *OFFERS, "--platform"], ["out", *OFFERS, "--size"],
             ["out", "--stamp"], ["out", "--platform", "1"], ["out", "--dry-run"],
             ["out", "--manifest", "manifest", *OFFERS], ["out", "--manifest", "manifest", "--platform", "1"], ["out", "--manifest", "manifest", "--stamp"],
             ["out", "--manifest", "manifest", "--size", "64"], ["-", *OFFERS], ["-", "--manifest", "manifest"], [*OFFERS, "--", "-"], ["--dry-run", "-", *OFFERS],
             ["out", *OFFERS, "--dry-run=1"], ["out", *OFFERS, "--dry-run="], ["out", *OFFERS, "--stamp=yes"], ["out", *OFFERS, "--stamp="],
             ["out", "--manifest", "manifest", "--dry-run=no"],
             *(["out", *OFFERS, "--platform", value] for value in ("0x10000", "65536", "-1", "+1", "x", "", "0x", "1 ")),
             *(["out", *OFFERS, f"--platform={value}"] for value in ("0x10000", "")),
             *(["out", *OFFERS, "--size", value] for value in ("-1", "+1", "x", "", "0x", "18446744073709551616", "4294967296000000000000")),
             *(["out", "--offer", value] for value in (
                 "", "main.bin", "=main.bin", "1=main.bin", "1:=main.bin", ":1.3.0=main.bin", "1:1.3=main.bin", "1:1.3.0", "1:1.3.0.0=main.bin", "1:256.0.0=main.bin",
                 "1:0.65536.0=main.bin", "1:0.0.256=main.bin", "256:1.3.0=main.bin", "-1:1.3.0=main.bin", "+1:1.3.0=main.bin", "x:1.3.0=main.bin",
                 "1:1.3.0:=main.bin", "1:1.3.0:2=main.bin", "1:1.3.0:2@=main.bin", "1:1.3.0:2@1=main.bin", "1:1.3.0:2@1.2.0=main.bin", "1:1.3.0:2@256.0=main.bin",
                 "1:1.3.0:2@0.65536=main.bin", "1:1.3.0:256@1.2=main.bin", "1:1.3.0:@1.2=main.bin", "1:1.3.0:2@1.2:=main.bin", "1:1.3.0:2:1.2=main.bin",
                 "1:1.3.0:0@1.2=main.bin", "1:1.3.0:0x0@1.2=main.bin", "1:1.3.0:0@0.0=main.bin"))],
}


def command_lines(folder):
    before = files(folder)
    for verb, lines in WRONG.items():
        for words in lines:
            case(f"the command line {[verb, *words]}", [verb, *words], 2, "", wrong_line(verb), cwd=folder)
    for words in ([], ["nonsense"], ["Inspect", "bundle"], ["--nonsense"], ["--json", "inspect", "bundle"], ["bundle"], [""]):
        case(f"the command line {words}", words, 2, "", wrong_line(), cwd=folder)
    check("a wrong command line writes nothing", files=(before, files(folder)))
    save(folder, "--json", E12)
    case("inspect, after -- a file's name may start with --", ["inspect", "--", "--json"], *inspect_text("--json", E12), cwd=folder)
    case("inspect, an option behind the file", ["inspect", "bundle", "--json"], 0, run(["inspect", "--json", "bundle"], cwd=folder)[1], cwd=folder)
    save(folder, "--bundle", E12)
    case("update, after -- a file's name may start with --", ["update", "--", "--bundle"], 0, page_block("bundle examples/e12.bundle").replace("examples/e12.bundle", "--bundle"),
         cwd=folder)
    os.remove(os.path.join(folder, "--json"))
    os.remove(os.path.join(folder, "--bundle"))


# ---- Input ----

def inputs(folder):
    """inspect; making.py, cutting.py and updating.py have those of the other verbs."""
    save(folder, "empty", b"")
    for more in ([], ["--json"]):
        case(f"inspect, no file {more}", ["inspect", "none", *more], 3, "", no_file("inspect", "none"), cwd=folder)
        case(f"inspect, a file below a file {more}", ["inspect", "bundle/none", *more], 3, "", no_file("inspect", "bundle/none", errno.ENOTDIR), cwd=folder)
        case(f"inspect, a directory {more}", ["inspect", ".", *more], 3, "", no_file("inspect", ".", errno.EISDIR), cwd=folder)
    case("inspect, an empty file", ["inspect", "empty"], 1, f"empty: {refusal('B1')}\n", cwd=folder)
    case("split, an empty file", ["split", "empty", "cut"], 1, "", f"cfu split: empty: {refusal('B1')}\n", cwd=folder)
    case("update, an empty file", ["update", "empty"], 1, f"{refusal('B1')}\n", cwd=folder)
    case("inspect, an endless file", ["inspect", "/dev/zero"], 1, f"/dev/zero: {refusal('B1')}\n", cwd=folder)
    for verb, words, out, err in (("inspect", ["-"], f"standard input: {refusal('B1')}\n", ""), ("update", ["-"], f"{refusal('B1')}\n", ""),
                                  ("split", ["-", "cut"], "", f"cfu split: standard input: {refusal('B1')}\n")):
        with open("/dev/zero", "rb") as endless:
            case(f"{verb}, endless standard input", [verb, *words], 1, out, err, cwd=folder, stdin=endless)
        place = os.open(folder, os.O_RDONLY)
        case(f"{verb}, a directory as standard input", [verb, *words], 3, "", no_file(verb, "standard input", errno.EISDIR), cwd=folder, stdin=place)
        os.close(place)
    check("input that is refused makes no folder", there=(False, os.path.exists(os.path.join(folder, "cut"))))


# ---- Output ----

def lost(verb):
    """The message for lost output."""
    return one_message(f"cfu {verb}: standard output: " if verb else "cfu: standard output: ")


def closed_pipe():
    """A pipe that nobody reads."""
    ours, theirs = os.pipe()
    os.close(ours)
    return theirs


def lost_outputs(work):
    lines = [(verb, [verb, *words]) for verb, words in GOOD.items()] + [(verb, [verb, "--help"]) for verb in VERBS]
    lines += [("inspect", ["inspect", "--json", "bundle"]), ("inspect", ["inspect", "cut-short"]), ("inspect", ["inspect", "--json", "cut-short"]),
              ("make", ["make", "--dry-run", "out", *OFFERS]), ("make", ["make", "out", "--manifest", "manifest"]), ("update", ["update", "--packets", "bundle"]),
              ("update", ["update", "cut-short"]), ("update", ["update", "bundle", "--staging", "1"]), (None, ["--help"]), (None, ["--version"])]
    for verb, args in lines:
        folder = desk(work, "lost")
        save(folder, "cut-short", E12[:-1])
        known = {*files(folder), "out", *(f"cut/{name}" for name in split_files(cfu.split(E12)))}

        def told(how, number, **more):
            status, _, err = run(args, cwd=folder, **more)
            words = lost(verb) if number is None else f"cfu{' ' + verb if verb else ''}: standard output: {os.strerror(number)}\n"
            left = [name for name in files(folder) if name not in known]
            check(f"{' '.join(args)}: {how}", status=(3, status), messages=(words, err), files_left=([], left))

        told("standard output is closed", None, stdout=subprocess.DEVNULL, preexec_fn=lambda: os.close(1))
        with open("/dev/full", "wb") as full:
            told("standard output is full", errno.ENOSPC, stdout=full)
        pipe = closed_pipe()
        told("standard output is a pipe that nobody reads", errno.EPIPE, stdout=pipe)
        os.close(pipe)
        # Output that is thrown away is written in full.
        expected = 1 if "cut-short" in args or "--staging" in args else 0
        for how in (os.O_WRONLY, os.O_RDWR):
            nowhere = os.open("/dev/null", how)
            status, _, err = run(args, cwd=folder, stdout=nowhere)
            os.close(nowhere)
            check(f"{' '.join(args)}: standard output is /dev/null, opened with {how}", status=(expected, status), messages=("", err))


def output_files(work):
    """Bundles that cannot be written."""
    for verb, words in (("make", OFFERS), ("make", ["--manifest", "manifest"]), ("join", PAIRS)):
        folder = desk(work, "outputs")
        os.mkdir(os.path.join(folder, "folder"))
        save(folder, "older", OLD)
        before = files(folder)
        for out, number in (("none/out", errno.ENOENT), ("older/out", errno.ENOTDIR), ("folder", errno.EISDIR), ("/dev/full", errno.ENOSPC)):
            status, told, err = run([verb, out, *words], cwd=folder)
            # Whether the lines before the last are printed by then is not said; the last would be wrong.
            check(f"{verb} {words[0]}, {out} cannot be written", status=(3, status), messages=(no_file(verb, out, number), err), last_line=(False, f"{out}: " in told))
        check(f"{verb} {words[0]}, nothing is left", files=(before, files(folder)), folder=([], os.listdir(os.path.join(folder, "folder"))))
    folder = desk(work, "failing")
    save(folder, "out", OLD)
    case("join, a failed one leaves an older bundle", ["join", "out", *PAIRS[:3], "none"], 3, "", no_file("join", "none"), cwd=folder)
    case("make, a failed one leaves an older bundle", ["make", "out", "--offer", "1:1.3.0=none"], 3, "", no_file("make", "none"), cwd=folder)
    check("the older bundle", bundle=(OLD, load(folder, "out")))
    case("make, then", ["make", "out", "--manifest", "manifest"], 0, make_text("out", PARTS), cwd=folder)
    check("no other file is left", files=({**files(desk(work, "as-before")), "out": made_bundle(PARTS)}, files(folder)))


# Of each verb that writes: a command line, the lines, the first of its files, and all of them
CUT = split_files(cfu.split(E12))
WRITERS = {
    "make": (["make", "out", "--manifest", "manifest"], make_text("out", PARTS), "out", {"out": made_bundle(PARTS)}),
    "join": (["join", "out", *PAIRS], join_text("out", cfu.split(E12)), "out", {"out": E12}),
    "split": (["split", "bundle", "cut"], split_text("cut", CUT), "cut/1.offer.bin", {f"cut/{name}": data for name, data in CUT.items()}),
}


def replaced_files(work):
    """A written file comes by a name of its own in its folder: nothing else there is touched or left, and the older one's permissions stay."""
    def beside(folder, out, kind):
        name = os.path.join(folder, f"{out}.new")
        os.makedirs(os.path.dirname(name), exist_ok=True)
        if kind == "a directory":
            os.mkdir(name)
        elif kind == "a directory with a file":
            save(folder, f"{out}.new/file", OLD)
        elif kind == "a named pipe":
            os.mkfifo(name)
        elif kind == "a link to a file":
            save(folder, "user", OLD)
            os.symlink(os.path.join(folder, "user"), name)
        elif kind == "a link that leads nowhere":
            os.symlink("nowhere", name)
        elif kind == "a link to the file itself":
            os.symlink(os.path.basename(out), name)
        elif kind:
            save(folder, f"{out}.new", OLD)

    for verb, (args, lines, out, written) in WRITERS.items():
        for kind in (None, "a file", "a link to a file", "a link that leads nowhere", "a link to the file itself", "a directory", "a directory with a file", "a named pipe"):
            for older in (False, True):
                folder = desk(work, "replaced")
                os.makedirs(os.path.join(folder, "cut"))
                beside(folder, out, kind)
                if older:
                    save(folder, out, OLD)
                before = standing(folder)
                case(f"{verb}, beside {kind} of the name {out}.new, older {older}", args, 0, lines, cwd=folder)
                check(f"{verb}, beside {kind} of the name {out}.new, older {older}: it stays, and no other file is left", files=({**before, **written}, standing(folder)))
                # What fails: the file is longer than this process may write.
                folder = desk(work, "replaced")
                os.makedirs(os.path.join(folder, "cut"))
                beside(folder, out, kind)
                if older:
                    save(folder, out, OLD)
                before = standing(folder)
                case(f"{verb}, the file grows too long, beside {kind}, older {older}", args, 3, None, no_file(verb, out, errno.EFBIG), cwd=folder, preexec_fn=short_files)
                check(f"{verb}, the file grows too long, beside {kind}, older {older}: all is as before", files=(before, standing(folder)))
        for mode in (0o600, 0o644, 0o640, 0o400, 0o664, 0o777):
            for mask in (0o022, 0o077, 0o000):
                folder = desk(work, "permissions")
                save(folder, out, OLD)
                os.chmod(os.path.join(folder, out), mode)
                case(f"{verb}, over a file of {mode:04o}, mask {mask:03o}", args, 0, lines, cwd=folder, preexec_fn=lambda: os.umask(mask))
                check(f"{verb}, over a file of {mode:04o}, mask {mask:03o}: its permissions stay", file=(written[out], load(folder, out)),
                      permissions=(f"{mode:04o}", f"{stat.S_IMODE(os.stat(os.path.join(folder, out)).st_mode):04o}"))
        folder = desk(work, "names")
        before = files(folder)
        place = b"p\xffq"
        told = OneOf(lines.replace("out:", f"{name}:").replace("cut/", f"{name}/") for name in as_told(place))
        case(f"{verb}, to a name that is no UTF-8", [place if word in ("out", "cut") else word for word in args], 0, told, cwd=folder)
        check(f"{verb}, to a name that is no UTF-8: the files",
              files=({**before, **{re.sub("^(out|cut)", os.fsdecode(place), name): data for name, data in written.items()}}, files(folder)))
    for verb in ("make", "join"):
        args, lines, out, written = WRITERS[verb]
        folder = desk(work, "names")
        for name in ("x" * 255, "./-", " ", "é"):
            case(f"{verb}, to {name[:20]!r}", [name if word == out else word for word in args], 0, lines.replace("out:", f"{name}:"), cwd=folder)
            check(f"{verb}, to {name[:20]!r}: the bundle", bundle=(written[out], load(folder, name)))
    folder = desk(work, "names")
    save(folder, b"i\xffj.bin", PARTS[0].data)
    word = offered(PARTS[0]).encode().replace(b"main.bin", b"i\xffj.bin")
    told = OneOf(make_text("out", [PARTS[0]._replace(name=name)]) for name in as_told(b"i\xffj.bin"))
    case("make, an image whose name is no UTF-8", ["make", "out", "--platform", "0x42", "--offer", word], 0, told, cwd=folder)
    check("make, an image whose name is no UTF-8: the bundle", bundle=(made_bundle(PARTS[:1]), load(folder, "out")))


def short_files():
    """In the program: no file may grow past 4 bytes, and no signal says so."""
    signal.signal(signal.SIGXFSZ, signal.SIG_IGN)
    resource.setrlimit(resource.RLIMIT_FSIZE, (4, 4))


def read_and_written(work):
    """A file that is read may not be the one that is written, by whichever path."""
    platform = ["--platform", "0x42"]
    lines = [["make", image, *OFFERS, *platform] for image in ("main.bin", "module.bin")] + [["make", image, "--manifest", "manifest"] for image in ("main.bin", "module.bin")]
    lines += [["make", "manifest", "--manifest", "manifest"], ["make", "manifest", "--manifest", "./manifest"], ["make", "main.bin", "--offer", "1:1.3.0:2@1.2=./main.bin"],
              ["make", "main.bin", "--offer", "1:1.3.0:2@1.2=link"], ["make", "main.bin", "--manifest", "folder/../manifest"], ["make", "main.bin", "--stamp", *OFFERS]]
    lines += [["join", file, *PAIRS] for file in PAIRS] + [["join", "payload-2", *PAIRS[:3], "./payload-2"], ["join", "offer-1", "--swap-protocol", *PAIRS]]
    others = []
    for verb, out, *words in lines:
        others += [[verb, f"./{out}", *words], [verb, f"folder/../{out}", *words], [verb, f"WORK/{out}", *words], [verb, f"link-to-{out}", *words], [verb, f".//{out}", *words]]
    folder = desk(work, "both")
    os.mkdir(os.path.join(folder, "folder"))
    os.symlink("main.bin", os.path.join(folder, "link"))
    for name in ("main.bin", "module.bin", "manifest", *PAIRS):
        os.symlink(name, os.path.join(folder, f"link-to-{name}"))
    before = standing(folder)
    for args in lines + others:
        case(f"read and written: {' '.join(args)}", [word.replace("WORK", folder) for word in args], 2, "", wrong_line(args[0]), cwd=folder)
        after = standing(folder)
        check(f"read and written: {' '.join(args)}: the files stay", files=(before, after))
        if after != before:  # for the next ones
            for name, data in before.items():
                if isinstance(data, bytes):
                    save(folder, name, data)
    # Another file of the same bytes, or of the same name elsewhere, is another file.
    save(folder, "folder/main.bin", PARTS[0].data)
    save(folder, "copy", PARTS[0].data)
    for out in ("folder/main.bin", "copy"):
        case(f"make, {out} is another file", ["make", out, "--manifest", "manifest"], 0, make_text(out, PARTS), cwd=folder)
    save(folder, "copy", cfu.split(E12)[0][0])
    case("join, a copy is another file", ["join", "copy", *PAIRS], 0, join_text("copy", cfu.split(E12)), cwd=folder)


def twice(work):
    """Of an option that may stand once and stands twice the last holds."""
    folder = desk(work, "twice")
    platform = ["--platform", "0x42"]
    save(folder, "faulty", b"nothing\n")
    stamped = [part._replace(stamp=True) for part in PARTS]
    sized = [part._replace(size=64) for part in PARTS]
    for name, words, parts in (("--platform", [*OFFERS, "--platform", "1", "--platform=66"], PARTS), ("--size", [*OFFERS, *platform, "--size=8", "--size", "64"], sized),
                               ("--manifest, the first is not there", ["--manifest", "none", "--manifest", "manifest"], PARTS),
                               ("--manifest, the first is faulty", ["--manifest", "faulty", "--manifest=manifest"], PARTS),
                               ("--stamp", ["--stamp", *OFFERS, *platform, "--stamp"], stamped)):
        case(f"make, {name} twice", ["make", "out", *words], 0, make_text("out", parts), cwd=folder)
        check(f"make, {name} twice: the bundle", bundle=(made_bundle(parts), load(folder, "out")))
        remove(folder, "out")
    case("make, --manifest twice, the last is faulty", ["make", "out", "--manifest", "manifest", "--manifest", "faulty"], 1, "", one_message("cfu make: faulty:1: "), cwd=folder)
    case("make, --size twice, the last is too little", ["make", "out", *OFFERS, "--size", "64", "--size", "8"], 1, "",
         "cfu make: entry 1: main.bin has 64 bytes, over the size of 8\n", cwd=folder)
    case("make, --dry-run twice", ["make", "--dry-run", "out", "--dry-run", *OFFERS, *platform], 0, make_text("out", PARTS, dry=True), cwd=folder)
    check("make, --dry-run twice: nothing is written", bundle=(None, load(folder, "out")))
    case("inspect, --json twice", ["inspect", "--json", "bundle", "--json"], 0, run(["inspect", "--json", "bundle"], cwd=folder)[1], cwd=folder)


def cases(work):
    folder = desk(work, "desk")
    helps(folder)
    command_lines(folder)
    inputs(folder)
    lost_outputs(work)
    output_files(work)
    replaced_files(work)
    read_and_written(work)
    twice(work)
