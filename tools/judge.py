"""What a check of a crate with wrong programs in it says of each.

A wrong program counts only where a fact fails in the very function that it changes: a goal that `search` did not prove, or an answer of its proof file that no
longer proves its goal. One that stands alone may fail anywhere in its crate. A name that a proof file no longer finds shows nothing: the goals of a function are
named after its conditions and calls, so an edit can rename them. Such a proof file is first made to fit, by `fitted`, and checked again."""
import difflib
import os
import re

import edits

# A proof file names what is not there: it does not fit the code.
MISFIT = re.compile(r'has no `[^`]*` that can be named|has no field `|is not in scope|has no `Need-')
FOLLOWS = re.compile(r'(which|that) was (not admitted|rejected)')  # an error that only follows from another
ERROR = re.compile(r'^(?:\./)?((?:proofs|src|specs)/\S+?):(\d+):(\d+): error: (.*)')
UNCLOSED = re.compile(r'^fn (\S+): (?:no proof|not proved)\b.*?(`search` did not prove [^;]*)')
NOTE = re.compile(r'^note: (src/\S+?):(\d+):(\d+): (it is not proved that .*)')


def owner(text, line):
    """The function of a source file that has a line; that of an attribute is the one below it."""
    rows = text.split('\n')
    while line < len(rows) and rows[line - 1].lstrip().startswith('#['):
        line += 1
    items = [m for m in edits.ITEM.finditer(text) if m.group(1) == 'fn' and text.count('\n', 0, m.end()) < line]
    return items[-1].group(2) if items else ''


def facts(said, sources):
    """The facts that fail in what a check said: the place of each, the function that it is of, its words, and whether it is a fact. sources: the texts that were
    checked, by their paths in the crate."""
    for line in said.splitlines():
        found = ERROR.match(line)
        if found and not FOLLOWS.search(found.group(4)):
            place, told = found.group(1), found.group(4)
            item = os.path.basename(os.path.dirname(place)) if place.startswith('proofs/') else owner(sources.get(place, ''), int(found.group(2)))
            yield place, item, f'{place}:{found.group(2)} {told[:110]}', not MISFIT.search(told)
            continue
        found = UNCLOSED.match(line)
        if found:
            yield found.group(1), found.group(1).split('::')[-1], f'{found.group(1)}: {found.group(2)}', True
            continue
        found = NOTE.match(line)
        if found:
            place, told = found.group(1), found.group(4)
            yield place, owner(sources.get(place, ''), int(found.group(2))), f'{place}:{found.group(2)} {told[:110]}', True


def is_of(fact, program):
    """Whether a fact is of the function that a wrong program changes: one of its name in the module of its file, or of a type that has an `impl` in that file."""
    place, item = fact[:2]
    if item != program.item:
        return False
    if place.startswith('src/'):
        return place == program.file
    path = place.split('/')[1:-2] if place.startswith('proofs/') else place.split('::')[1:-1]
    if path and path[-1][0].isupper():
        return bool(re.search(rf'^impl\b[^{{]*\b{re.escape(path[-1])}\b', program.text, re.M))
    module = re.sub(r'^src/|/mod$', '', program.file[:-len('.rt')])
    return path == ([] if module in ('lib', 'main') else module.split('/'))


def shown(program, alone, said, sources):
    """What a check says of a wrong program, and whether that is a fact."""
    if not program.words:
        return 'no words say which wrong program it is', False
    found = list(facts(said, sources))
    own = found if alone and program.kind != 'fn' else [f for f in found if is_of(f, program)]
    misfit = [f for f in own if not f[3]]
    real = [f for f in (own or alone and found or []) if f[3]]
    named = misfit or real
    return named[0][2:] if named else ('no fact is named', False)


def line(program, told, good):
    return f"{'refused' if good else 'SHOWS NOTHING'}  {program.crate}/{program.label}: {program.words}\n    {told}"


# Proof files that name what is not there -----------------------------------------------------------------------------------------------------------------------

OWN = ('Answers.antt', 'Invariants.antt', 'Proof.antt')  # the files of a function's own proof
TOKEN = r"(?<![\w'-]){}(?![\w'-])"
LACKING = re.compile(r'has no (?:field )?`([^`]+)`')
NEAR = re.compile(r'\((?:did you mean|nearest:|names in it that begin alike:) ([^)]*)\)')
NAME = re.compile(r"[`.]([\w'-]+)")
ASKED = re.compile(r'^help: `\w+` has no `([^`]+)`; rattle asks for ([^;]*)')
BLOCK = re.compile(r"^pub ([\w'-]+) :.*\n(?:(?!pub |use |--).*\n?)*", re.M)


def nearest(name, choices):
    """The one of these names that is most like a name, if any is."""
    like = {each: difflib.SequenceMatcher(None, name, each).ratio() for each in choices}
    best = max(like, key=like.get, default=None)
    return best if best and like[best] > 0.6 else None


def fitted(said, proofs):
    """The files of proofs/ that an edit's check found not to fit, made to fit: a name that is gone is that which rattle puts in its place, and an answer to a goal
    that is not asked, or that still names what is gone, goes, which leaves its goal to `search`. None where nothing more can be done. proofs: their texts by path."""
    asked = {}
    for each in said.splitlines():
        found = ASKED.match(each)
        if found:
            asked.setdefault(found.group(1), re.findall(r'`([^`]+)`', found.group(2)))
    renames, drops, lost = {}, {}, {}
    for each in said.splitlines():
        found = ERROR.match(each)
        if not found or not MISFIT.search(found.group(4)) or os.path.basename(found.group(1)) not in OWN:
            continue
        place, row, told = found.group(1), int(found.group(2)), found.group(4)
        old = LACKING.search(told)
        if not old:
            drops.setdefault(place, set()).add(row)
            continue
        known = renames.setdefault(place, {})
        if old.group(1) in known:
            continue
        near = NEAR.search(told)
        choices = [*asked.get(old.group(1), []), *(NAME.findall(near.group(1)) if near else [])]
        new = nearest(old.group(1), [it for it in choices if it not in known.values() and not re.search(TOKEN.format(re.escape(it)), proofs[place])])
        if new:
            known[old.group(1)] = new
        else:
            drops.setdefault(place, set()).add(row)
            lost.setdefault(place, set()).add(old.group(1))  # where an import brings it
    made = {}
    for place in {*renames, *drops}:
        text = proofs[place]
        if drops.get(place):
            if os.path.basename(place) != 'Answers.antt':
                continue
            for block in BLOCK.finditer(proofs[place]):
                first = proofs[place].count('\n', 0, block.start()) + 1
                if any(first <= row < first + block.group().count('\n') for row in drops[place]):
                    text = text.replace(block.group(), '', 1)
            for name in lost.get(place, ()):
                text = re.sub(rf'(?<=[{{ ]){re.escape(name)}(?:, |(?=\}}))', '', text)
        for old, new in renames.get(place, {}).items():
            text = re.sub(TOKEN.format(re.escape(old)), lambda _: new, text)
        if text != proofs[place]:
            made[place] = text
    return made or None
