"""Runs of the command `cfu`, and the count of the cases: shared by the files of this folder."""
import errno
import os
import pty
import re
import select
import shutil
import stat
import subprocess
import sys
import tempfile
import time

HERE = os.path.dirname(os.path.abspath(__file__))
TOP = os.path.normpath(os.path.join(HERE, "..", ".."))
sys.path += [os.path.join(TOP, "tests"), os.path.join(TOP, "tests", "inspect")]

# Status (docs/COMMAND.md)
DONE, NO, WRONG_LINE, NO_FILE = 0, 1, 2, 3
# An endless input must end within so many seconds.
LIMIT = 20
ESCAPE = b"\x1b"
# CSI .. m: the colour of what follows
COLOUR = re.compile(r"\x1b\[[0-9;]*m")

command = None  # the path of the program, set by the script that runs
failures = []
passed = 0


# ---- Cases ----

class OneOf(tuple):
    """Texts of which one must come: a point that docs/COMMAND.md leaves open."""


def fits(expected, came):
    """expected: a text, OneOf texts, a pattern for the whole, or None for what is not looked at."""
    if expected is None:
        return True
    if isinstance(expected, OneOf):
        return any(fits(one, came) for one in expected)
    if isinstance(expected, re.Pattern):
        return expected.fullmatch(came) is not None
    return came == expected and (isinstance(came, dict) or repr(came) == repr(expected))  # repr: True is not 1


def shown(value):
    if isinstance(value, OneOf):
        return " or ".join(map(shown, value))
    if isinstance(value, re.Pattern):
        return f"the pattern {value.pattern!r}"
    if isinstance(value, bytes) and len(value) > 300:
        return f"{len(value)} bytes, {value[:100].hex(' ')} .. {value[-20:].hex(' ')}"
    text = repr(value)
    return text if len(text) < 3000 else f"{text[:1500]} .. {text[-1500:]}"


def apart(expected, came):
    """Of two sets of files those that differ."""
    if isinstance(expected, dict) and isinstance(came, dict):
        names = [name for name in {**expected, **came} if expected.get(name) != came.get(name)]
        return [{name: shown(its[name]) if name in its else "no such file" for name in names} for its in (expected, came)]
    return expected, came


def check(name, **fields):
    """A case: of each field what is expected, and what came."""
    global passed
    differing = [what for what, (expected, came) in fields.items() if not fits(expected, came)]
    if not differing:
        passed += 1
        return
    failures.append(name)
    print(f"WRONG {name}")
    for what in differing:
        expected, came = apart(*fields[what])
        print(f"  {what}, expected: {shown(expected)}\n  {what}, came:     {shown(came)}")


def summary(script):
    for name in failures:
        print(f"failed: {name}")
    print(f"{script}: {passed + len(failures)} cases, {passed} passed, {len(failures)} failed: {command}")
    return 1 if failures or not passed else 0


# ---- Runs ----

def environment(**variables):
    """The variables of a run: a terminal with colours, messages in English."""
    out = {name: value for name, value in os.environ.items() if name not in ("NO_COLOR", "LANGUAGE")}
    return {**out, "TERM": "xterm", "LC_ALL": "C", **variables}


def run(args, cwd=None, given=b"", **how):
    """Status, standard output and standard error of a run with pipes. No colour may come through a pipe. how: what subprocess takes."""
    how.setdefault("stdout", subprocess.PIPE)
    if "stdin" not in how:
        how["input"] = given
    try:
        done = subprocess.run([command, *args], cwd=cwd, env=environment(), stderr=subprocess.PIPE, timeout=LIMIT, **how)
    except subprocess.TimeoutExpired:
        return f"no end within {LIMIT} seconds", "", ""
    out, err = done.stdout or b"", done.stderr
    if ESCAPE in out + err:
        check(f"no colour through a pipe: {args}", output=("no byte 0x1B", out + err))
    return done.returncode, os.fsdecode(out), os.fsdecode(err)


def case(name, args, status, out, err="", **how):
    """A run with its status, its standard output and its standard error; see `fits`."""
    got_status, got_out, got_err = run(args, **how)
    check(name, status=(status, got_status), output=(out, got_out), messages=(err, got_err))


def terminal(args, cwd=None, stream="stdout", **variables):
    """Status, what comes to a terminal that is standard output (or `stderr`), and what comes through a pipe from the other one."""
    ours, theirs = pty.openpty()
    other = "stderr" if stream == "stdout" else "stdout"
    done = subprocess.Popen([command, *args], cwd=cwd, env=environment(**variables), stdin=subprocess.DEVNULL, **{stream: theirs, other: subprocess.PIPE})
    os.close(theirs)
    out, ends = b"", time.monotonic() + LIMIT
    while select.select([ours], [], [], max(0, ends - time.monotonic()))[0]:
        try:
            part = os.read(ours, 65536)
        except OSError:  # nobody holds the other end any more
            break
        out += part
    else:
        done.kill()
    os.close(ours)
    rest = b"".join(part or b"" for part in done.communicate(timeout=LIMIT))
    return done.returncode, os.fsdecode(out), os.fsdecode(rest)


def on_terminal(text):
    """What a terminal gets of a text."""
    return text.replace("\n", "\r\n")


# ---- Messages ----

def one_message(start, end=""):
    """One line of standard error with words between its start and its end."""
    return re.compile(re.escape(start) + r"[^\n]+" + re.escape(end) + r"\n")


def wrong_line(verb=None):
    """The message for a wrong command line."""
    return one_message(f"cfu {verb}: " if verb else "cfu: ", f" (cfu {verb} --help)" if verb else " (cfu --help)")


def as_told(name):
    """The forms in which a name that is no UTF-8 may stand in a line: its bytes, or U+FFFD for those that are none, each or together."""
    raw = os.fsdecode(name)
    return OneOf([raw, name.decode("utf-8", "replace"), "".join("\ufffd" if 0xDC80 <= ord(letter) <= 0xDCFF else letter for letter in raw)])


def no_file(verb, name, number=errno.ENOENT):
    """The message for a file that cannot be read or written: the file as named, the system's words."""
    return f"cfu {verb}: {name}: {os.strerror(number)}\n"


# ---- Files ----

def save(folder, name, data):
    """A file, made with its folders; its name again."""
    path = os.path.join(os.fsencode(folder), os.fsencode(name))
    os.makedirs(os.path.dirname(path), exist_ok=True)
    with open(path, "wb") as file:
        file.write(data)
    return name


def load(folder, name):
    """A file's bytes, or None where there is none."""
    path = os.path.join(folder, name)
    if not os.path.isfile(path):
        return None
    with open(path, "rb") as file:
        return file.read()


def files(folder):
    """Every file below a folder by its name from there."""
    out = {}
    for place, _, names in os.walk(folder):
        for name in names:
            path = os.path.join(place, name)
            out[os.path.relpath(path, folder)] = load(place, name)
    return out


def standing(folder):
    """Everything below a folder by its name from there: a file's bytes, where a link leads, or what else it is."""
    out = {}
    for place, folders, names in os.walk(folder):
        for name in folders + names:
            path = os.path.join(place, name)
            mode = os.lstat(path).st_mode
            out[os.path.relpath(path, folder)] = (f"a link to {os.readlink(path)}" if stat.S_ISLNK(mode) else load(place, name) if stat.S_ISREG(mode) else
                                                  f"no regular file: {stat.S_IFMT(mode):o}")
    return out


def fresh(work, name):
    """An empty folder."""
    path = os.path.join(work, name)
    shutil.rmtree(path, ignore_errors=True)
    os.makedirs(path)
    return path


def remove(folder, name):
    """A file goes, where it is there."""
    if os.path.isfile(os.path.join(folder, name)):
        os.remove(os.path.join(folder, name))


def main(script, usage, parts):
    """Runs parts, functions that take a folder for their files, on the program that the command line names."""
    global command
    chosen = sys.argv[2:]
    if len(sys.argv) < 2 or sys.argv[1].startswith("-") or set(chosen) - {part.__module__ for part in parts}:
        sys.exit(usage)
    command = os.path.abspath(sys.argv[1])
    if not os.access(command, os.X_OK):
        sys.exit(f"{script}: {sys.argv[1]} is no program")
    for part in [part for part in parts if not chosen or part.__module__ in chosen]:
        before = passed + len(failures)
        with tempfile.TemporaryDirectory() as work:
            part(work)
        print(f"{part.__module__}: {passed + len(failures) - before} cases")
    sys.exit(summary(script))
