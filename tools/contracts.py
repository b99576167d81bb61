#!/usr/bin/env python3
"""What the functions of the repository promise, read off the source.

usage: tools/contracts.py            a line for each crate: lines of code, of what must be believed and of proof, public functions
       tools/contracts.py --check    status 1 where a public function of the updater asks something of its caller, has no contract, or puts a hypothesis
                                     in the place of its equation

Believed are the lines of specs/ and of contracts. Blank lines and comments do not count. The updater's crates are all but programs, what they print with (run_*),
and what is only measured (speed_*). One contract may carry a claim with a premise of document 00 beside its equation, and
names it: `update::run`, `DemandOf`."""
import glob
import os
import re
import sys
from collections import namedtuple

sys.path.insert(0, os.path.dirname(os.path.abspath(__file__)))
import crates as listed

TOP = listed.TOP
FUNCTION = re.compile(r'^[ \t]*(?P<pub>pub(?:\([a-z]+\))? )?(?:extern "C" )?fn (?P<name>\w+)', re.M)
CLAUSE = re.compile(r'\b(requires|ensures|ghost)\b[^{]*\{')
# One function: its crate, its name, whether other crates may call it, and the texts of its clauses.
Function = namedtuple('Function', 'crate name public requires ensures')


def read(path):
    return open(path, encoding='utf-8').read()


def crates():
    """Each crate with whether it belongs to the updater, in the order of crates.txt."""
    for name, crate in listed.crates().items():
        yield name, listed.is_updater(crate)


def texts(folder, ending):
    for path in sorted(glob.glob(f'{folder}/**/*{ending}', recursive=True)):
        yield read(path)


def clause_end(text, at):
    """The place after the clause whose text begins after its opening brace at `at`."""
    depth = 1
    while depth:
        depth += {'{': 1, '}': -1}.get(text[at], 0)
        at += 1
    return at


def functions(crate):
    for text in texts(f'{TOP}/crates/{crate}/src', '.rt'):
        text = re.sub(r'//[^\n]*', '', text)
        for found in FUNCTION.finditer(text):
            # The signature ends at the first brace; what stands between it and the body is clauses.
            at = found.end()
            clauses = {'requires': [], 'ensures': [], 'ghost': []}
            while True:
                brace = text.index('{', at)
                clause = CLAUSE.search(text, at, brace + 1)
                if not clause:
                    break
                end = clause_end(text, clause.end())
                clauses[clause.group(1)].append(text[clause.end():end - 1])
                at = end
            yield Function(crate, found['name'], found['pub'] == 'pub ', clauses['requires'], clauses['ensures'])


def lines(text, comment):
    return sum(1 for line in text.splitlines() if line.strip() and not line.strip().startswith(comment))


def measure(crate):
    """Lines of code, of what must be believed, and of proof; how many public functions."""
    home = f'{TOP}/crates/{crate}'
    all_lines = sum(lines(t, '//') for t in texts(f'{home}/src', '.rt'))
    ghost = sum(len(re.findall(r'^\s*ghost use', t, re.M)) for t in texts(f'{home}/src', '.rt'))
    found = list(functions(crate))
    clauses = sum(text.count('\n') + 1 for f in found for text in f.requires + f.ensures)
    believed = sum(lines(t, '--') for t in texts(f'{home}/specs', '.antt')) + clauses + ghost
    proof = sum(lines(t, '--') for t in texts(f'{home}/proofs', '.antt'))
    return all_lines - clauses - ghost, believed, proof, sum(f.public for f in found)


def faults():
    for crate, updater in crates():
        for f in functions(crate):
            name = f'{crate}::{f.name}'
            if not f.public or not updater:
                continue
            if f.requires:
                yield f'{name} asks something of its caller'
            if not f.ensures:
                yield f'{name} has no contract'
            if any('→' in text for text in f.ensures):
                yield f'{name} has a hypothesis in its contract'


def main():
    if '--check' in sys.argv[1:]:
        found = list(faults())
        for fault in found:
            print(f'tools/contracts.py: {fault}')
        public = sum(f.public for crate, updater in crates() if updater for f in functions(crate))
        print(f'tools/contracts.py: {public} public functions of the updater, each with a contract; {len(found)} that ask something, promise nothing or assume something')
        return 1 if found else 0
    print(f'{"crate":16} {"code":>6} {"believed":>9} {"proof":>7} {"public":>7}')
    total = [0] * 4
    for crate, _ in crates():
        row = measure(crate)
        total = [a + b for a, b in zip(total, row)]
        print(f'{crate:16} {row[0]:6} {row[1]:9} {row[2]:7} {row[3]:7}')
    print(f'{"all":16} {total[0]:6} {total[1]:9} {total[2]:7} {total[3]:7}')
    return 0


if __name__ == '__main__':
    sys.exit(main())
