"""Colours: on a terminal, and nowhere else."""
import re

from common import COLOUR, OneOf, check, fresh, on_terminal, run, save, terminal
from model import BENCH, Part, inspect_text, make_refusal, make_text, page_block, split_files, update_text
import cfu
from cfu import body, bundle, image, offer
from cutting import split_text
from inspecting import FAULTY, GOOD_1
from make import E12
from making import E12 as PARTS, asked, offered
from updating import bad_crc, one, V120, V130

GREEN, RED = "32|92", "31|91"
# Where the words of the page stand first in their lines. They stand in sentences, too: whether they are coloured there is not said.
FIRST = [("image: ", "good", GREEN), ("image: ", "bad", RED), (r"offer \d: ", "completed", GREEN), ("(?:^|\n)", "ended", RED), ("(?:^|\n|: )", "refused", RED)]
# These are green where every offer was completed, and red where not.
OF_THE_WHOLE = [("(?:^|\n)", "done"), ("\nreport: ", "completed")]


def missing(coloured, plain, status):
    """Of each word how often it should be coloured, and how often it is; empty where they agree."""
    out = []
    for before, word, colour in FIRST + [(*one, RED if status else GREEN) for one in OF_THE_WHOLE]:
        due = len(re.findall(before + word + (r"(?= [BS]\d)" if word == "refused" else r"\b"), plain))
        came = len(re.findall(rf"{before}\x1b\[(?:\d+;)*(?:{colour})m{word}\x1b\[[0-9;]*m", coloured))
        if due != came:
            out.append(f"{word}: {due} times due, {came} times coloured")
    return out


def cases(work):
    folder = fresh(work, "colours")
    asked(folder, PARTS)
    one_of_two = bundle([GOOD_1, FAULTY])
    crc = one(2, V120, bad_crc(2, V120))
    first_lands = bundle([(offer(1, V130), body(image(1, V130))), (offer(2, V120), bad_crc(2, V120))])
    skipped = bundle([GOOD_1])
    for name, data in (("e12", E12), ("one-of-two", one_of_two), ("cut-short", E12[:-1]), ("crc", crc), ("first-lands", first_lands), ("skipped", skipped)):
        save(folder, name, data)
    foreign = update_text("e12", E12, platform=0x43)
    lacking = dict(components=BENCH[1:])
    half = update_text("e12", E12, **lacking)
    # `done` and the report's `completed` are of one colour, whichever it is; here are all four ways.
    assert [text.count("\ndone\n") for _, text in (update_text("e12", E12), foreign, half, update_text("crc", crc))] == [1, 1, 1, 0]
    assert "report: completed 0 of 2" in foreign[1] and "report: completed 1 of 2" in half[1] and "offer 2: completed" in half[1]
    runs = [
        (["inspect", "e12"], *inspect_text("e12", E12), None),
        (["inspect", "one-of-two"], *inspect_text("one-of-two", one_of_two), None),
        (["inspect", "cut-short"], *inspect_text("cut-short", E12[:-1], ("B7", 2)), None),
        (["update", "e12"], *update_text("e12", E12), update_text("e12", E12, over_one_line=True)[1]),
        (["update", "crc"], *update_text("crc", crc), update_text("crc", crc, over_one_line=True)[1]),
        (["update", "first-lands"], *update_text("first-lands", first_lands), update_text("first-lands", first_lands, over_one_line=True)[1]),
        (["update", "skipped"], *update_text("skipped", skipped), update_text("skipped", skipped, over_one_line=True)[1]),
        (["update", "e12", "--platform", "0x43"], *foreign, None),
        (["update", "e12", "--component", "2:1.1.0:64:64"], *half, update_text("e12", E12, over_one_line=True, **lacking)[1]),
        (["update", "e12", "--packets"], *update_text("e12", E12, packets=True), None),
        (["update", "e12", "--staging", "1"], *update_text("e12", E12, staging=1), None),
        (["update", "cut-short"], *update_text("cut-short", E12[:-1], ("B7", 2)), None),
        (["make", "out", *(word for part in PARTS for word in ("--offer", offered(part))), "--platform", "0x42"], 0, make_text("out", PARTS), None),
        (["split", "e12", "cut"], 0, split_text("cut", split_files(cfu.split(E12))), None),
    ]
    for args, status, text, over_one_line in runs:
        name = " ".join(args[:4])
        for how, variables in (("TERM=xterm", {}), ("NO_COLOR set to nothing", {"NO_COLOR": ""})):
            got, out, err = terminal(args, cwd=folder, **variables)
            check(f"colours, {name}, {how}", status=(status, got), messages=("", err), without_colours=(on_terminal(over_one_line or text), COLOUR.sub("", out)),
                  colours=([], missing(out.replace("\r\n", "\n"), text, status)))
        for how, variables in (("NO_COLOR=1", {"NO_COLOR": "1"}), ("TERM=dumb", {"TERM": "dumb"}), ("NO_COLOR=0", {"NO_COLOR": "0"})):
            got, out, err = terminal(args, cwd=folder, **variables)
            # Whether plain lines have the progress line of a terminal is not said.
            allowed = OneOf(on_terminal(it) for it in (text, over_one_line) if it)
            check(f"colours, {name}, {how}: plain", status=(status, got), messages=("", err), output=(allowed, out))
        got, out, err = run(args, cwd=folder)
        check(f"colours, {name}, through a pipe: plain", status=(status, got), messages=("", err), output=(text, out))
    for name in ("e12", "one-of-two", "cut-short"):
        args = ["inspect", "--json", name]
        status, out, _ = run(args, cwd=folder)
        check(f"colours, --json of {name} on a terminal: none", run=((status, on_terminal(out)), terminal(args, cwd=folder)[:2]))
    for args in (["--help"], ["inspect", "--help"], ["--version"]):
        status, out, _ = run(args, cwd=folder)
        got, came, _ = terminal(args, cwd=folder)
        check(f"colours, {' '.join(args)} has the same words on a terminal", run=((status, on_terminal(out)), (got, COLOUR.sub("", came))))
    check("the model gives the page's example", text=(page_block("bundle examples/e12.bundle").replace("examples/", "").replace(".bundle", ""), update_text("e12", E12)[1]))
    messages(folder)


def messages(folder):
    """Standard output is a pipe, and standard error is a terminal: plain."""
    save(folder, "faulty", bytes(64) + b"\1")
    faulty = Part(1, V120, "faulty", bytes(64) + b"\1")
    status, err, out = terminal(["make", "none", "--offer", "1:1.2.0=faulty"], cwd=folder, stream="stderr")
    check("colours, messages to a terminal where standard output is a pipe: plain", status=(1, status), output=("", out),
          messages=(on_terminal(make_refusal("W5", 1, faulty)), err))
