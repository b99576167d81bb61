"""The crates of crates.txt, read in one place.

What a crate is for shows in its name and its files: programs (src/main.rt) and what they print with (run_*), what is only measured (speed_*), a static library
(`NAME staticlib: ..`), and the updater's own: all others."""
import os
from collections import namedtuple

TOP = os.path.dirname(os.path.dirname(os.path.abspath(__file__)))
PRINTING, MEASURED = 'run_', 'speed_'

# below: the crates on its line. is_static: it is built as a static library, and no crate can use it.
Crate = namedtuple('Crate', 'name below is_static is_program')


class Wrong(Exception):
    """A line of crates.txt that cannot be read, with its place."""


def crates(top=TOP):
    """Each crate by its name, in the order of crates.txt."""
    found = {}
    with open(f'{top}/crates.txt', encoding='utf-8') as lines:
        for at, line in enumerate(lines, 1):
            line = line.split('#')[0].strip()
            if not line:
                continue
            words, colon, below = line.partition(':')
            name, *kind = words.split()
            if not colon or kind not in ([], ['staticlib']) or not name.isidentifier():
                raise Wrong(f'crates.txt:{at}: no line of the form `crate: crates below it`: {line}')
            roots = [root for root in ('lib.rt', 'main.rt') if os.path.exists(f'{top}/crates/{name}/src/{root}')]
            if not roots:
                raise Wrong(f'crates.txt:{at}: crates/{name}/src has neither lib.rt nor main.rt')
            found[name] = Crate(name, below.split(), bool(kind), roots == ['main.rt'])
    return found


def is_program_part(crate):
    """A program, or what only programs use."""
    return crate.is_program or crate.name.startswith(PRINTING)


def is_measured(crate):
    return crate.name.startswith(MEASURED)


def is_updater(crate):
    """The updater's own: neither of programs nor only measured."""
    return not is_program_part(crate) and not is_measured(crate)


def all_below(name, known):
    """The crates that a crate stands on, the lowest first."""
    out = []
    for below in known[name].below:
        if below in known:
            out += [each for each in [*all_below(below, known), below] if each not in out]
    return out
