#!/usr/bin/env python3
"""The words: include/cfu_words.h is what include/words.txt gives; its functions answer each line of the table, read here by itself, and `unknown` for every
other number; and tools/words.py refuses a table that does not fit the header.

table.py    prints one line, and ends with status 1 where something differs
"""
import os
import re
import subprocess
import sys
import tempfile

TOP = os.path.join(os.path.dirname(os.path.abspath(__file__)), "..", "..")
sys.path.append(os.path.join(TOP, "tools"))
import words  # noqa: E402

# Every name, sentence and advice that the functions give to the numbers of 16 bits, for each kind and for one that there is not.
DUMP = """#include "cfu_words.h"
#include <stdio.h>
#include <string.h>
int main(void)
{
    for (uint32_t kind = 0; kind < 9; kind++)
        for (uint32_t number = 0; number < 0x10000; number++)
            if (strcmp(cfu_name(kind, number), "unknown") != 0 || strcmp(cfu_sentence(kind, number), "unknown") != 0 || *cfu_advice(kind, number) != 0)
                printf("%u %u|%s|%s|%s\\n", (unsigned)kind, (unsigned)number, cfu_name(kind, number), cfu_sentence(kind, number), cfu_advice(kind, number));
    return 0;
}
"""


def fail(text):
    sys.exit(f"tests/header/table.py: WRONG {text}")


def table():
    """The lines that the functions must give, from the table and the header."""
    with open(os.path.join(TOP, "include", "cfu.h"), encoding="utf-8") as file:
        numbers = dict(re.findall(r"^#define CFU_(\w+) +(\w+)", file.read(), re.M))
    out, kind, prefix = [], -1, ""
    with open(os.path.join(TOP, "include", "words.txt"), encoding="utf-8") as file:
        for line in file:
            if line.startswith("["):
                kind, prefix = kind + 1, (line.strip("[]\n").split() + [""])[1]
            elif line.strip() and not line.startswith("#"):
                name, *words = [part.strip() for part in line.split("|")]
                sentence, advice = (re.sub(r"\{(\w+)\}", lambda found: f"{int(numbers[found.group(1)], 0):,}", text) for text in (words + [""])[:2])
                out.append(f"{kind} {int(numbers[name], 0)}|{name[len(prefix):]}|{sentence}|{advice}")
    return out


def dumped(work):
    source, program = os.path.join(work, "dump.c"), os.path.join(work, "dump")
    with open(source, "w", encoding="utf-8") as file:
        file.write(DUMP)
    subprocess.run(["gcc", "-std=c99", "-Wall", "-Wextra", "-Wpedantic", "-Werror", "-O1", "-I", os.path.join(TOP, "include"), "-o", program, source], check=True)
    return subprocess.run([program], check=True, stdout=subprocess.PIPE, text=True, timeout=60).stdout.splitlines()


def refused(work, name, path, edit, expected):
    """The table or the header with an edit, which tools/words.py must refuse with these words."""
    kept = getattr(words, path)
    with open(kept, encoding="utf-8") as file:
        text = file.read()
    edited = edit(text)
    if edited == text:
        fail(f"{name}: the edit changes nothing")
    setattr(words, path, os.path.join(work, os.path.basename(kept)))
    with open(getattr(words, path), "w", encoding="utf-8") as file:
        file.write(edited)
    try:
        words.kinds()
        fail(f"{name}: goes unseen")
    except words.Wrong as error:
        if expected not in str(error):
            fail(f"{name}: {error}")
    setattr(words, path, kept)


SLIPS = (
    ("a row without words", "HEADER", lambda text: text.replace("#define CFU_B8 0x4208", "#define CFU_B8 0x4208\n#define CFU_B9 0x4209"), "no words for B9"),
    ("words without a row", "TABLE", lambda text: text.replace("B8 |", "B8 | it is bad\nB9 |", 1), "the header has no CFU_B9"),
    ("a line left out", "TABLE", lambda text: re.sub(r"^W5 .*\n", "", text, flags=re.M), "no words for W5"),
    ("a line twice", "TABLE", lambda text: text.replace("H4 |", "H3 | again\nH4 |", 1), "words twice for H3"),
    ("a limit that there is not", "TABLE", lambda text: text.replace("{OFFER_LIMIT}", "{OFFERS_LIMIT}", 1), "the header has no CFU_OFFERS_LIMIT"),
    ("a line without a sentence", "TABLE", lambda text: re.sub(r"^H2 .*$", "H2", text, flags=re.M), "no line of the form"),
)

if words.main(['--check']) != 0:
    sys.exit(1)
with tempfile.TemporaryDirectory() as place:
    expected, given = sorted(table()), sorted(dumped(place))
    if expected != given:
        fail(f"only in the table: {sorted(set(expected) - set(given))}; only in the functions: {sorted(set(given) - set(expected))}")
    for slip in SLIPS:
        refused(place, *slip)
print(f"{len(expected)} numbers have their words, {len(SLIPS)} slips of the table seen")
