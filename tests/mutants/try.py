#!/usr/bin/env python3
"""Writes each mutant as a changed definition, and names the statement that it breaks.

usage: tests/mutants/try.py [NAME ..]

A mutant is a wrong device or host written into the definitions themselves, so that no contract can refuse it: only a statement about the definitions
can. A copy of the repository is made with the definitions, the declared types and the statements that compute (E1 to E10, the cases of A1, A4 and A5, E13 in both
orders, the chain of seven, the mixed case, the need cycle, a run with floors), and no function. Each file NAME.mutant changes one line of a definition; the line `breaks:` says
which proof must fail, or `nothing` where no statement that computes fails and docs/WRONG_PROGRAMS.md says what does. Status 1 where the outcome differs."""
import glob
import os
import re
import shutil
import sys
import tempfile
from concurrent.futures import ThreadPoolExecutor

HERE = os.path.dirname(os.path.abspath(__file__))
TOP = os.path.dirname(os.path.dirname(HERE))
sys.path.insert(0, f'{TOP}/tools')
import crates as listed  # noqa: E402
import kit  # noqa: E402

CRATES = ['wire', 'wire_offer', 'wire_content', 'wire_version', 'crc16', 'image', 'device_component', 'device_slots', 'device_session', 'device_offering',
          'device_receiving', 'device', 'device_rules', 'bundle_records', 'bundle_layout', 'bundle', 'host_record', 'host_table', 'host_decide', 'host_packet', 'host',
          'update_passes', 'update']
# the crate that is checked; the others are handed to the same check as source
CHECKED = 'update'
# the statements that compute, and what they stand on
PROOFS = {'wire': ['Tests', 'Bounds'], 'device_component': ['record/Fits', 'record/Ranges'], 'device_session': ['effect/Laws', 'effect/Ranges'], 'device': ['Bench'],
          'device_rules': ['Examples'], 'update': ['Fitting', 'Goodness', 'Bench', 'Cases']}


def types_only(text):
    """A source file without its functions: modules, types and constants stay, and of the names that a `use` brings those of types and constants."""
    kept, held, lines, i = [], [], text.split('\n'), 0
    while i < len(lines):
        line = lines[i]
        if re.match(r'#\[', line):
            held.append(line)  # an attribute goes with the item below it
        elif re.match(r'(pub(\(crate\))? )?fn |impl\b', line):
            held = []
            while not lines[i].startswith('}') and not lines[i].endswith('{}'):
                i += 1
        elif re.match(r'(ghost )?use |pub use ', line):
            start = i
            while not lines[i].rstrip().endswith(';'):
                i += 1
            if not line.startswith('ghost'):
                kept += brought(' '.join(lines[start:i + 1]))
        else:
            kept += held + [line]
            held = []
        i += 1
    return '\n'.join(kept)


def brought(use):
    """A `use` item without the functions and modules that it brings."""
    path, names = re.fullmatch(r'\s*(?:pub )?use (.*?)::(\{.*\}|\w+);\s*', use).groups()
    left = [name for name in re.findall(r'\w+', names) if name[0].isupper()]
    return [f'use {path}::{{{", ".join(left)}}};'] if left else []


def definitions(folder):
    """The repository without its functions and their proofs."""
    for crate in CRATES:
        source, target = os.path.join(TOP, 'crates', crate), os.path.join(folder, 'crates', crate)
        shutil.copytree(os.path.join(source, 'specs'), os.path.join(target, 'specs'))
        for path in glob.glob(os.path.join(source, 'src', '**', '*.rt'), recursive=True):
            to = os.path.join(target, os.path.relpath(path, source))
            os.makedirs(os.path.dirname(to), exist_ok=True)
            with open(to, 'w', encoding='utf-8') as out:
                out.write(types_only(open(path, encoding='utf-8').read()))
        if crate in PROOFS:
            proofs = os.path.join(target, 'proofs')
            for name in PROOFS[crate]:
                os.makedirs(os.path.dirname(os.path.join(proofs, name)), exist_ok=True)
                shutil.copy(os.path.join(source, 'proofs', name + '.antt'), os.path.join(proofs, name + '.antt'))
                if '/' in name:  # of a module of the code, which names its own
                    shutil.copy(os.path.join(source, 'proofs', os.path.dirname(name) + '.antt'), proofs)
            own = [name for name in PROOFS[crate] if '/' not in name]
            if own:
                with open(os.path.join(proofs, 'Lib.antt'), 'w', encoding='utf-8') as out:
                    out.write(''.join(f'pub mod {name}\n' for name in own))


def check(folder):
    """One check of all the definitions in a folder, over what an earlier one left there."""
    known, others = listed.crates(), ['--extern', f'core={kit.kit()}/rlibs/core.rlib']
    for crate in CRATES:
        if crate != CHECKED:
            uses = ','.join(['core', 'std'] + [below for below in known[crate].below if below in CRATES])
            others += ['--lib', f'{crate}:{uses}={folder}/crates/{crate}/src/lib.rt']
    own = f'{folder}/crates/{CHECKED}'
    return kit.rattle('check', *kit.words(CHECKED, own), *others, '--incremental', f'{folder}/kept', folder=own)


def tried(name, whole):
    """Whether a mutant breaks what its file says, and the words for it. It is written into a copy of the proved definitions, so that only what it touches is
    checked again."""
    lines = open(os.path.join(HERE, name + '.mutant'), encoding='utf-8').read().split('\n')
    field = {l.split(': ', 1)[0]: l.split(': ', 1)[1] for l in lines if ': ' in l and not l.startswith('--')}
    folder = os.path.join(os.path.dirname(whole), name)
    kit.linked(whole, folder)
    path = os.path.join(folder, field['file'])
    before = open(path, encoding='utf-8').read()
    assert before.count(field['old']) == 1, (name, before.count(field['old']))
    with open(path, 'w', encoding='utf-8') as out:
        out.write(before.replace(field['old'], field['new']))
    status, said = check(folder)
    errors = re.findall(r": error: `([\w'-]+)`: ", said)
    first = errors[0] if errors else 'nothing'
    good = (status != 0) == (field['breaks'] != 'nothing') and first == field['breaks']
    shutil.rmtree(folder)
    return good, f"{'as said' if good else 'NOT AS SAID'}  {name}: {lines[0][3:]}\n    breaks {first}" + ('' if good else f", not {field['breaks']}")


def main():
    bad = 0
    with tempfile.TemporaryDirectory() as folder:
        whole = os.path.join(folder, 'definitions')
        os.makedirs(f'{whole}/kept')
        definitions(whole)
        status, said = check(whole)
        if status != 0:
            print('the definitions themselves do not pass:\n' + said[-2000:])
            return 1
        wanted = sys.argv[1:] or sorted(os.path.basename(p)[:-len('.mutant')] for p in glob.glob(os.path.join(HERE, '*.mutant')))
        with ThreadPoolExecutor(len(os.sched_getaffinity(0))) as pool:
            for good, told in pool.map(lambda name: tried(name, whole), wanted):
                bad += not good
                print(told, flush=True)
    return 1 if bad else 0


if __name__ == '__main__':
    sys.exit(main())
