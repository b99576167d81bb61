#!/usr/bin/env python3
"""fwupd's parsers for CFU read the files that `cfu split` cuts from bundles of `cfu make`. Where fwupdtool is not installed, says so.

fwupd.py CFU    CFU is the program
"""
import os
import shutil
import subprocess
import sys

import common
from common import check, files, fresh, run
from making import E12, asked, part, plain
from cfu import image, version

# The files of `cfu split`, and fwupd's name of the parser for each
PARSERS = {".offer.bin": "cfu-offer", ".payload.bin": "cfu-payload"}
V120 = version(1, 2)
LONG = image(1, V120, 4096, lambda start, end: plain(start, 1000) + b"\xFF" * 2000 + plain(3000, end))
BUNDLES = {"E12": E12, "a run of 0xFF, and the shortest image": [part(1, data=LONG), part(2, data=image(2, V120, 8))]}


def parsed(tool, folder, name):
    """The parser reads the file, and has something to say of it."""
    kind = next(kind for end, kind in PARSERS.items() if name.endswith(end))
    done = subprocess.run([tool, "firmware-parse", name, kind], cwd=folder, stdin=subprocess.DEVNULL, stdout=subprocess.PIPE, stderr=subprocess.PIPE, timeout=60)
    check(f"fwupd, {name} as {kind}", status=(0, done.returncode), says_something=(True, bool(done.stdout.strip())), messages=(None, os.fsdecode(done.stderr)))


def cases(tool):
    def all_of_them(work):
        for name, parts in BUNDLES.items():
            folder = fresh(work, "desk")
            words = asked(folder, parts)["manifest"]
            check(f"fwupd, {name}: made", status=(0, run(["make", "out", *words], cwd=folder)[0]))
            for more in ([], ["--swap-protocol"]):
                place = f"cut{len(more)}"
                check(f"fwupd, {name}: cut {more}", status=(0, run(["split", "out", place, *more], cwd=folder)[0]))
                cut = sorted(files(os.path.join(folder, place)))
                check(f"fwupd, {name}: two files for each offer {more}", files=(2 * len(parts), len(cut)))
                for file in cut:
                    parsed(tool, folder, os.path.join(place, file))
    return all_of_them


def main():
    tool = shutil.which("fwupdtool")
    if tool is None and sys.argv[1:]:
        print("fwupdtool is not installed: its parsers were not run")
        return
    common.main("tests/command/fwupd.py", __doc__, [cases(tool)])


main()
