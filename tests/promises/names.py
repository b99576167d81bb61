#!/usr/bin/env python3
"""Every promise that docs/PROMISES.md names is there: each statement in a specs/ folder, each proof in a proofs/ folder, each file where it is said to be."""
import glob
import os
import re
import sys

TOP = os.path.dirname(os.path.dirname(os.path.dirname(os.path.abspath(__file__))))


def texts(part):
    return ''.join(open(p, encoding='utf-8').read() for p in glob.glob(f'{TOP}/crates/*/{part}/**/*.antt', recursive=True))


def main():
    page = open(f'{TOP}/docs/PROMISES.md', encoding='utf-8').read()
    specs, proofs, bad, count = texts('specs'), texts('proofs'), [], 0
    for name in sorted(set(re.findall(r'`([^`]+)`', '\n'.join(l for l in page.split('\n') if l.startswith('|'))))):
        count += 1
        if '/' in name:
            fine = os.path.exists(f'{TOP}/crates/{name}') or os.path.exists(f'{TOP}/{name}')
        elif name.endswith('.antt'):
            fine = bool(glob.glob(f'{TOP}/crates/*/**/{name}', recursive=True))
        elif name[0].isupper():
            fine = bool(re.search(rf'\bpub (record )?{re.escape(name)}\b', specs))
        else:
            fine = bool(re.search(rf'(?m)^pub {re.escape(name)} :', proofs))
        if not fine:
            bad.append(name)
    for name in bad:
        print(f'docs/PROMISES.md names {name}, which is not there')
    print(f'tests/promises: {count} names, {len(bad)} missing')
    return 1 if bad else 0


if __name__ == '__main__':
    sys.exit(main())
