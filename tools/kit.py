#!/usr/bin/env python3
"""The kit's checker over the libraries that `rt ci` or `rt check` left in crates/NAME/out.

usage: tools/kit.py passed             notes that `rt ci` has just passed on these files (.ci/run does): its libraries then serve as they are
       tools/kit.py library CRATE      builds a static library and prints where it is

`rt ci` leaves the rlib of each library, and no other command of `rt` takes one from there: each would prove all again. So what follows it in the gate calls
`rattle` over these rlibs, with the words that `rt` itself gives it. Where `rt ci` has not passed on the files as they are, `rt check` and `rt lib` are called,
which prove first what has changed."""
import functools
import glob
import hashlib
import os
import shutil
import subprocess
import sys

sys.path.insert(0, os.path.dirname(os.path.abspath(__file__)))
from crates import TOP, all_below, crates

PARTS = ('src', 'specs', 'proofs')
PASSED = f'{TOP}/target/passed'


class Failed(Exception):
    """A command that failed, with what it said."""


@functools.lru_cache(maxsize=None)
def kit():
    """The kit's folder."""
    return os.path.dirname(subprocess.run(['rt', 'doc'], capture_output=True, text=True, check=True).stdout.strip())


def root(folder):
    """The root file of the crate in a folder, by its path there."""
    return 'src/main.rt' if os.path.exists(f'{folder}/src/main.rt') else 'src/lib.rt'


def words(name, folder):
    """What `rattle` is told of the crate whose text is in a folder, as of the logic and of the kit's own libraries."""
    return ['--crate-name', name, root(folder), '--extern', f'std={kit()}/rlibs/std.rlib', '-L', f'dependency={kit()}/rlibs',
            '--antt-project', f'{kit()}/rattle/logic/antt-project.json', '--logic-built', f'{kit()}/logic_built', '--jobs', '1']


def over_libraries(name, known):
    """What it is told of the crates below it, built, and of the crate's own kind."""
    out = []
    for below in known[name].below:
        where = f'{TOP}/crates/{below}/out/rlib/{below}.rlib' if below in known else f'{kit()}/rlibs/{below}.rlib'
        out += ['--extern', f'{below}={where}']
    for below in all_below(name, known):
        out += ['-L', f'dependency={TOP}/crates/{below}/out/rlib']
    return out + ['--links', f'{name}='] + ['--crate-type', 'staticlib'] * known[name].is_static


def rattle(*arguments, folder):
    """One run of `rattle` in a folder: its status, and all that it said. One that is killed, most likely for memory, runs once more."""
    for _ in range(2):
        done = subprocess.run([f'{kit()}/bin/rattle', *arguments], cwd=folder, stdin=subprocess.DEVNULL, stdout=subprocess.PIPE, stderr=subprocess.STDOUT,
                              text=True, errors='replace')
        if done.returncode >= 0:
            break
    return done.returncode, done.stdout


def rt(*arguments, folder='.'):
    """One run of `rt` in a folder of the repository."""
    done = subprocess.run(['rt', *arguments], cwd=f'{TOP}/{folder}', stdin=subprocess.DEVNULL, stdout=subprocess.PIPE, stderr=subprocess.STDOUT, text=True,
                          errors='replace')
    if done.returncode != 0:
        raise Failed(f'rt {" ".join(arguments)} in {folder}: status {done.returncode}\n{done.stdout[-3000:]}')


def sum_of_files():
    """A sum of the kit and of each file that a proof reads."""
    total = hashlib.sha256(subprocess.run(['rt', 'version'], capture_output=True, check=True).stdout)
    paths = [f'{TOP}/crates.txt', f'{TOP}/HANDLES'] + [p for part in PARTS for p in glob.glob(f'{TOP}/crates/*/{part}/**/*', recursive=True)]
    for path in sorted(p for p in paths if os.path.isfile(p)):
        with open(path, 'rb') as file:
            total.update(repr((os.path.relpath(path, TOP), file.read())).encode())
    return total.hexdigest()


def note_passed():
    os.makedirs(os.path.dirname(PASSED), exist_ok=True)
    with open(PASSED, 'w', encoding='utf-8') as out:
        out.write(sum_of_files())


@functools.lru_cache(maxsize=None)
def has_passed():
    """Whether the rlibs in crates/NAME/out are those of an `rt ci` that passed on these files. Beside a stamp an rlib is that of an earlier `rt check`."""
    if not os.path.exists(PASSED):
        return False
    rlibs = [f'{TOP}/crates/{each.name}/out/rlib' for each in crates().values() if not each.is_program and not each.is_static]
    if not all(os.path.isdir(f'{it}/{it.split("/")[-3]}.rlib') and not os.path.exists(f'{it}/stamp') for it in rlibs):
        return False
    with open(PASSED, encoding='utf-8') as noted:
        return noted.read() == sum_of_files()


def library(name):
    """Builds a static library, and says where."""
    made, known = f'{TOP}/crates/{name}/out/lib{name}.a', crates()
    if not has_passed():
        rt('lib', folder=f'crates/{name}')
        return made
    folder = f'{TOP}/crates/{name}'
    os.makedirs(f'{folder}/out', exist_ok=True)
    status, said = rattle('build', *words(name, folder), *over_libraries(name, known), '--toolchain', f'{kit()}/toolchain', '--backend', 'llvm', '-o', made,
                          folder=folder)
    if status != 0:
        raise Failed(f'rattle build of {name}: status {status}\n{said[-3000:]}')
    return made


def linked(folder, to):
    """A copy of a folder of checked modules. A check replaces such a file and changes none, so a second name serves."""
    def copy(one, other):
        if one.endswith('.oantt'):
            try:
                return os.link(one, other)
            except OSError:
                pass
        return shutil.copy2(one, other)
    shutil.copytree(folder, to, copy_function=copy)


def main(arguments):
    try:
        if arguments == ['passed']:
            note_passed()
        elif len(arguments) == 2 and arguments[0] == 'library':
            print(library(arguments[1]))
        else:
            print(__doc__.split('\n\n')[1])
            return 2
    except (Failed, OSError, subprocess.SubprocessError) as error:
        print(f'tools/kit.py: {error}', file=sys.stderr)
        return 1
    return 0


if __name__ == '__main__':
    sys.exit(main(sys.argv[1:]))
