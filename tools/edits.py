"""The wrong programs of each crate, and the function that each changes.

They stand in edit files: crates/NAME/must-fail/*.edit, which `rt ci` tries, and tests/wrong/NAME/*.edit, which tools/wrong tries beside those. A file holds one
wrong program or several. Each is a comment with its words, then `file:`, `old:` and `new:` of one line: it changes one place. Several stand together where they
change different functions, whether or not one calls the other: each is refused at a fact of its own function, and one check of the crate tries them all
(docs/DECISIONS.md, Q147)."""
import glob
import os
import re
import sys
from collections import namedtuple

sys.path.insert(0, os.path.dirname(os.path.abspath(__file__)))
from crates import TOP, crates

ITEM = re.compile(r'^\s*(?:pub(?:\([a-z]+\))? )?(?:extern "C" )?(fn|const) (\w+)', re.M)
DEFINITION = re.compile(r"^\s*(?:unfoldable |abbrev )?(?:pub )?([\w'«»-]+) :", re.M)

# One wrong program. path: its edit file; kind: 'fn' or 'const' of the code, or 'definition'; item: its name; text: the file that it changes; further: nothing,
# since it changes one place (tools/pack asks for it).
Wrong = namedtuple('Wrong', 'crate path label words file old new kind item text further', defaults=[()])


def read(path):
    return open(path, encoding='utf-8').read()


def changed(text, file, old):
    """What an edit changes: the last item that begins at or before its line."""
    at = text.find('\n', text.find(old))
    if file.startswith('specs/'):
        return 'definition', [m for m in DEFINITION.finditer(text) if m.start() <= at][-1].group(1)
    return [m for m in ITEM.finditer(text) if m.start() <= at][-1].group(1, 2)


def paths(crate, kind):
    """The edit files of a crate: kind 'must-fail' or 'wrong', or both where none is named."""
    folders = {'must-fail': f'{TOP}/crates/{crate}/must-fail', 'wrong': f'{TOP}/tests/wrong/{crate}'}
    return [p for k, folder in folders.items() if kind in (None, k) for p in sorted(glob.glob(f'{folder}/*.edit'))]


def wrong_programs(kind=None, asked=()):
    """Every wrong program, or those of the crates that are asked for, in the order of the crates."""
    for crate in crates():
        if asked and crate not in asked:
            continue
        for path in paths(crate, kind):
            label, words, file, old = os.path.basename(path)[:-len('.edit')], '', '', ''
            for line in read(path).split('\n'):
                if line.startswith('--'):
                    words = line[2:].strip()
                elif line.startswith('file: '):
                    file = line[len('file: '):]
                elif line.startswith('old: '):
                    old = line[len('old: '):]
                elif line.startswith('new:'):
                    text = read(f'{TOP}/crates/{crate}/{file}')
                    if text.count(old) != 1:
                        raise SystemExit(f'{os.path.relpath(path, TOP)}: its old text stands {text.count(old)} times in {file}: {old}')
                    new = line[len('new:'):].removeprefix(' ')
                    yield Wrong(crate, path, label, words, file, old, new, *changed(text, file, old), text)
                    words = ''


def edited(programs):
    """The files that the wrong programs of one edit change, by their names in the crate, or None where one hides the old text of another."""
    files = {}
    for p in programs:
        text = files.setdefault(p.file, p.text)
        if text.count(p.old) != 1:
            return None
        files[p.file] = text.replace(p.old, p.new)
    return files
