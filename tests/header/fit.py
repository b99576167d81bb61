#!/usr/bin/env python3
"""Checks include/cfu.h against what is proved: each function against crates/cfu/src, each struct against crates/c_types/src, each number against the constants
of specs/ and src/; and against the wrappers for C that tools/rust_crate makes, whose structs are those of its crate.

fit.py [--made CRATE] [HEADER]    HEADER is include/cfu.h unless it is given; CRATE is a crate of tools/rust_crate

Prints each misfit and ends with status 1; ends with status 0 and one line where everything fits. What the header declares and this test does not
expect is a misfit too, so nothing in it stands unchecked.
"""
import glob
import itertools
import os
import re
import sys

TOP = os.path.join(os.path.dirname(os.path.abspath(__file__)), "..", "..")
misfits = []


def misfit(text):
    misfits.append(text)


def files(*patterns):
    """The text of all files that a pattern names, below crates/."""
    names = sorted(name for pattern in patterns for name in glob.glob(os.path.join(TOP, "crates", pattern)))
    return "\n".join(open(name, encoding="utf-8").read() for name in names)


def evaluated(expression, value):
    """The number of an expression over numbers, + and *, and names with a value."""
    total = 0
    for term in expression.split("+"):
        product = 1
        for factor in map(str.strip, term.split("*")):
            product *= int(factor.replace("_", ""), 0) if factor[:1].isdigit() else value(factor)
        total += product
    return total


def values(pairs, below=None):
    """Names with expressions over one another, and over names that stand below with their numbers, as names with numbers."""
    known = {}

    def value(name):
        if name not in pairs:
            return below[name]
        if name not in known:
            known[name] = evaluated(pairs[name], value)
        return known[name]

    return {name: value(name) for name in pairs}


# What is proved

# The constants of specs/ whose names are other than those of src/ in small letters: the two would stand for something else there.
NAMED = {"block_offset": "BLOCK_AT", "body_part_size": "BODY_SIZE", "done_number": "DONE", "entry_offset": "ENTRY_AT", "entry_size": "ENTRY",
         "head_size": "HEAD", "id_offset": "ID_AT", "next_offset": "NEXT_AT", "packet_data_size": "DATA_SIZE", "passed_offset": "PASSED_AT",
         "protocol_number": "PROTOCOL", "records_offset": "RECORDS_IN", "row_offset": "ROW_AT", "running_number": "RUNNING", "served_number": "SERVED",
         "success_status": "SUCCESS"}


def named(name):
    """The name in src/ of a constant of specs/."""
    return NAMED.get(name, name.upper())


def spec_pairs(crate):
    """The constants that specs/ declares, by their names in src/, each with its expression."""
    pairs = {}
    for name, expression in re.findall(r"^abbrev pub ([a-z][a-z0-9_]*) : ℕ\n\1 = ([^\n]+)$", files(f"{crate}/specs/*.antt"), re.M):
        if re.fullmatch(r"[a-z0-9A-Fx_+* ]+", expression):
            pairs[named(name)] = re.sub(r"\b[a-z]\w*", lambda each: named(each.group()), expression)
    return pairs


def source_pairs(crate):
    found = re.findall(r"^(?:pub(?:\(crate\))? )?const ([A-Z0-9_]+): \w+ = ([0-9A-Za-z_+* ]+);$", files(f"{crate}/src/*.rt"), re.M)
    return {name: re.sub(r" as \w+", "", expression) for name, expression in found}


PLACES = {"specs": spec_pairs, "src": source_pairs}
# The crates whose constants others name, each after those that it names.
BELOW = ("wire", "device_component", "device_component_bytes", "device_session_bytes", "bundle_layout")


def constants(place, *patterns):
    """The numbers that crates declare at a place, each with names of its own, over those of the crates that others name."""
    pairs = PLACES[place]
    below = {}
    for crate in BELOW:
        below.update(values(pairs(crate), below))
    out = {}
    for crate in sorted(os.path.basename(path) for pattern in patterns for path in glob.glob(os.path.join(TOP, "crates", pattern))):
        out.update(values(pairs(crate), below))
    return out


def variants(name):
    """The rows that an enum of some crate names."""
    found = re.findall(r"^pub enum " + name + r" \{\n(.*?)^\}", files("*/src/*.rt"), re.M | re.S)
    if len(found) != 1:
        misfit(f"enum {name}: declared {len(found)} times")
        return []
    return re.findall(r"^    ([A-Z]\d+)(?: = \d+)?,", found[0], re.M)


# The crates that say what a lent buffer holds.
LENT = ("c_*", "*_bytes")

# The header's names of places and parts, and the crates' own.
PARTS = (
    ("device*_bytes", {"DEVICE_SESSION_AT": "SESSION_START", "DEVICE_OWED_AT": "SESSION_START + OWED_AT",
                       "DEVICE_PREVIOUS_AT": "SESSION_START + PREVIOUS_AT", "DEVICE_COMPONENTS_AT": "COMPONENTS_START",
                       "COMPONENT_SIZE": "COMPONENT_SIZE", "COMPONENT_RUNNING_AT": "RUNNING_AT", "COMPONENT_REGION_AT": "REGION_AT",
                       "COMPONENT_FLOOR_AT": "FLOOR_AT", "COMPONENT_STAGED_AT": "STAGED_AT", "LISTED_SIZE": "LISTED_SIZE"}),
    ("c_version", {"RUNNING_SIZE": "RUNNING_SIZE", "RUNNING_ID_AT": "ID_AT"}),
    ("bundle_layout", {"BUNDLE_HEAD_SIZE": "HEAD", "BUNDLE_ENTRY_SIZE": "ENTRY"}),
    ("host_bytes", {"CONTENTS_BODIES_AT": "BODIES_START", "BODY_SIZE": "BODY_SIZE", "BODY_RECORDS_AT": "RECORDS_IN", "CONTENTS_HAND_AT": "HAND_START",
                    "CONTENTS_CURSOR_AT": "CURSOR_START", "HOST_STAGE_AT": "STAGE_START", "HOST_FIRST_AT": "FIRST_AT", "HOST_SECOND_AT": "SECOND_AT",
                    "HOST_MASK_AT": "MASK_AT", "HOST_SKIPPED_AT": "SKIPPED_AT", "HOST_LANDED_AT": "LANDED_AT", "HOST_PASSED_AT": "PASSED_AT"}),
)

NUMBERS = files("c_types/specs/Numbers.antt", "c_device/specs/Numbers.antt", "c_host/specs/Numbers.antt", "c_host/specs/Check.antt",
                "c_writer/specs/Write.antt")


def found(pattern, text):
    match = re.search(pattern, text, re.M)
    if match is None:
        misfit(f"no line of the specifications fits: {pattern}")
        return 0
    return int(match.group(1), 0)


def letter_of(function, letter, entry):
    """The letter of a row's number: the definition adds it to the row's own number."""
    line = re.search(rf"^{function} \((?:\w+\.)?row_{letter} k{entry}\) = (letter_\w) \+ k$", NUMBERS, re.M)
    if line is None:
        misfit(f"specs/Numbers.antt: {function} of row_{letter} is no letter and a number")
        return 0
    return found(rf"^{line.group(1)} = (0x[0-9A-F]+)$", NUMBERS)


def row_numbers():
    """The rows, each with its letter by specs/Numbers.antt and its number by its own name."""
    out = {}
    for enum, function, letter, entry in (("PacketRefusal", "packet_number", "p", ""), ("SetupRow", "setup_number", "s", ""), ("Refusal", "device_number", "d", ""),
                                          ("BundleRow", "bundle_number", "b", " entry"), ("WriteRow", "write_number", "w", " entry"),
                                          ("StepRefusal", "step_number", "n", "")):
        base = letter_of(function, letter, entry)
        rows = variants(enum)
        if not rows:
            misfit(f"enum {enum} names no row")
        for row in rows:
            out[row] = base + int(row[1:])
    if letter_of("step_number", "b", " entry") != out["B1"] - 1:
        misfit("specs/Numbers.antt: the step gives a bundle's rows other numbers than the check does")
    for row, number in re.findall(r"^number_of \(?row_(h\d)[^=\n]* = (\d+)$", files("host_record/specs/Record.antt"), re.M):
        out[row.upper()] = found(r"^letter_h = (0x[0-9A-F]+)$", NUMBERS) + int(number)
    return out


def expected_numbers():
    """Every number of the header by name, with the places that say what it is."""
    out = {}

    def say(name, place, number):
        out.setdefault(name, []).append((place, number))

    lent = constants("specs", *LENT)
    for name in ("DEVICE_SIZE", "LIST_SIZE", "HOST_SIZE", "CONTENTS_SIZE", "REPLIES_SIZE", "COMPONENTS_SIZE", "SERVED"):
        say(name, "specs", lent[name])
    own = {"C1": "WRONG_RECORD", "C2": "WRONG_LIST", "C3": "WRONG_OUTPUT", "C4": "WRONG_PLACE"}
    for name, theirs in own.items():
        say(name, f"specs, {theirs}", lent[theirs])
    for name, number in row_numbers().items():
        say(name, "specs/Numbers.antt", number)
    for name in ("RUNNING", "DONE", "KIND_NONE", "KIND_OFFER", "KIND_INFORMATION", "KIND_EXTENDED"):
        say(name, "specs", lent[name])
    for place, pairs in PLACES.items():
        for crates, names in PARTS:
            known = constants(place, crates)
            for name, theirs in names.items():
                say(name, f"{crates}, {place}, {theirs}", evaluated(theirs, known.__getitem__))
        limits = constants(place, *BELOW)
        for name in ("STAGING_LIMIT", "BUNDLE_LIMIT", "COMPONENT_LIMIT", "OFFER_LIMIT", "REGION_LEAST"):
            say(name, place, limits[name])
        for name, number in values(pairs("wire")).items():
            if not name.startswith("KIND_") and not name.endswith("BITS"):
                say(name, f"wire, {place}", number)
    aliases = {theirs: name for name, theirs in own.items()}
    for name, number in constants("src", *LENT).items():
        name = aliases.get(name, name)
        letter = re.fullmatch(r"ROW_([A-Z])", name)
        if letter:
            say(letter.group(1) + "1", "src, the letter's number", number + 1)
        elif name in out:
            say(name, "src", number)
    return out


# Places and sizes that the header's comments give, with the crate and the constants that they are. Of the fields of a component and of an entry of the writer's
# list the comments give the widths: each field ends where the sum of the widths says.

FIELDS = r"id \((\d)\), running version \((\d)\), region base[ *\n]+\((\d)\), region length \((\d)\), floor \((\d)\), "
LAYOUTS = (
    (r"the list that set-up takes: CFU_COMPONENT_LIMIT times (\d+) ", "device_component_bytes", ["LISTED_SIZE"]),
    (r"(\d+)  platform \(2\)", "device_bytes", ["PLATFORM_AT"]),
    (r"(\d+)  staging length at set-up \(4\)", "device_bytes", ["STAGING_LEN_AT"]),
    (r"(\d+)  count of components \(1\)", "device_bytes", ["COUNT_AT"]),
    (r"(\d+)  stage \(1\): 0 idle", "device_bytes", ["SESSION_START"]),
    (r"(\d+)  slot \(1\): .*; (\d+) token \(1\), (\d+) next sequence \(2\)", "device_bytes",
     ["SESSION_START + SLOT_AT", "SESSION_START + TOKEN_AT", "SESSION_START + NEXT_AT"]),
    (r"(\d+)  owed ready-reply \(1\): .*; (\d+) its token \(1\)", "device_bytes", ["SESSION_START + OWED_AT", "SESSION_START + OWED_TOKEN_AT"]),
    (r"(\d+)  previous packet \(CFU_LONG_SIZE\)", "device_bytes", ["SESSION_START + PREVIOUS_AT"]),
    (r"(\d+)  CFU_COMPONENT_LIMIT times (\d+) bytes: id \(1\), running version", "device_bytes", ["COMPONENTS_START", "COMPONENT_SIZE"]),
    (r"the components of a version reply: CFU_COMPONENT_LIMIT times (\d+) ", "c_version", ["RUNNING_SIZE"]),
    (r"the 16 bytes of the bundle at (\d+) \+ (\d+) i", "bundle_layout", ["HEAD", "ENTRY"]),
    (r"at (\d+) where its image[ *\n]+starts in `images` \(4\), at (\d+) how long it is", "bundle_layout", ["SHORT_SIZE", "SHORT_SIZE + 4"]),
    (r"(\d+)  row \(1\): .*; (\d+) the entry that it names \(1\)", "host_bytes", ["ROW_AT", "ENTRY_AT"]),
    (r"(\d+)  count of offers \(1\)", "host_bytes", ["COUNT_AT"]),
    (r"(\d+)  CFU_OFFER_LIMIT times (\d+) bytes: body offset \(4\)", "host_bytes", ["BODIES_START", "BODY_SIZE"]),
    (r"(\d+)  the block that the cursor is kept for: its entry \(4\), and (\d+) its number", "host_bytes", ["HAND_START", "BLOCK_AT"]),
    (r"(\d+)  the host's cursor \(8\)", "host_bytes", ["CURSOR_START"]),
    (r"(\d+)  token \(1\)\n \* +(\d+)  stage \(1\): 0 fresh", "host_bytes", ["TOKEN_AT", "STAGE_START"]),
    (r"(\d+)  \(4\) and (\d+) \(4\): entry and its BUSY replies", "host_bytes", ["FIRST_AT", "SECOND_AT"]),
    (r"(\d+)  mask of completed offers \(4\), (\d+) packets \(4\), (\d+) passes \(4\)", "host_bytes", ["MASK_AT", "PACKETS_AT", "PASSES_AT"]),
    (r"(\d+)  this pass had a SKIP \(1\), (\d+) a completed image \(1\)", "host_bytes", ["SKIPPED_AT", "LANDED_AT"]),
    (r"(\d+)  a reply was passed over since the block in hand was sent \(1\)", "host_bytes", ["PASSED_AT"]),
    (r"a byte (\d+), (\d+) or (\d+) over 1,", "host_bytes", ["SKIPPED_AT", "LANDED_AT", "PASSED_AT"]),
    (r"the list has (\d+) bytes in place of 91, of which a component takes (\d+) in place of 13; the record has (\d+) in[ *\n]+place of 200, of which a "
     r"component takes (\d+) in place of 18, with what is staged at (\d+) in place of 13", "device*_bytes",
     ["LIST_SIZE", "LISTED_SIZE", "DEVICE_SIZE", "COMPONENT_SIZE", "STAGED_AT"]),
    (r"a device's record has (\d+) bytes in place of 140, with its components at (\d+) in place of 14, a host's record (\d+) in place of 24", "*_bytes",
     ["DEVICE_SIZE", "COMPONENTS_START", "HOST_SIZE"]),
)
WIDTHS_OF = (
    (r"bytes: " + FIELDS + r"staged \((\d)\): .*;[ *\n]+staged version \((\d)\)", "device_component_bytes",
     ["RUNNING_AT", "REGION_AT", "REGION_LEN_AT", "FLOOR_AT", "STAGED_AT", "STAGED_VERSION_AT", "COMPONENT_SIZE"]),
    (r"CFU_BUNDLE_ENTRY_SIZE bytes: the offer \((\d+)\), at \d+ where its image[ *\n]+starts in `images` \((\d)\), at \d+ how long it is \((\d)\)", "bundle_layout",
     ["SHORT_SIZE", "SHORT_SIZE + 4", "ENTRY"]),
    (r"list: CFU_COMPONENT_LIMIT times " + FIELDS + "CFU_LIST_SIZE", "device_component_bytes",
     ["RUNNING_AT", "REGION_AT", "REGION_LEN_AT", "FLOOR_AT", "LISTED_SIZE"]),
)


def hold_layouts(text):
    layouts = [(layout, list) for layout in LAYOUTS] + [(layout, lambda widths: list(itertools.accumulate(widths))) for layout in WIDTHS_OF]
    for (pattern, crate, names), places in layouts:
        matches = list(re.finditer(pattern, text))
        given = places(map(int, matches[0].groups())) if len(matches) == 1 else None
        for place in PLACES:
            known = {**constants(place, *BELOW), **constants(place, crate)}
            expected = [evaluated(name, known.__getitem__) for name in names]
            if given != expected:
                misfit(f"{', '.join(names)}: the header's comment has {given}, {place} of {crate} has {expected}")


# What the header declares, and what crates/cfu/src exports with the structs of crates/c_types/src, in C's words

WIDTHS = {"u8": "uint8_t", "u16": "uint16_t", "u32": "uint32_t", "u64": "uint64_t", "usize": "size_t"}


def c_type(text):
    """A number or a struct of types.rt, as C has it: COfferPacket is cfu_offer_packet."""
    if text in WIDTHS:
        return WIDTHS[text]
    if re.fullmatch(r"C[A-Z]\w*", text):
        return "cfu" + re.sub(r"([A-Z])", lambda m: "_" + m.group(1).lower(), text[1:])
    misfit(f"crates/cfu/src: the type {text} has no place in C")
    return text


def c_parameter(text):
    name, kind = (part.strip() for part in text.split(":", 1))
    if kind in ("&[u8]", "&mut [u8]"):
        return [("const uint8_t *" if kind == "&[u8]" else "uint8_t *", name), ("size_t", name + "_len")]
    return [(c_type(kind), name)]


def structs_in(text):
    """The structs that cross, as C has them."""
    structs = {}
    text = re.sub(r"//[^\n]*|#\[derive\([^)]*\)\]", "", text)
    for c_layout, name, fields in re.findall(r"(#\[repr\(C\)\]\s+)?pub struct (C\w+) \{(.*?)\}", text, re.S):
        if not c_layout:
            misfit(f"{name}: crosses without repr(C)")
        structs[c_type(name)] = [(c_type(kind), field) for field, kind in re.findall(r"pub (\w+): (\w+)", fields)]
        if len(structs[c_type(name)]) != fields.count(":"):
            misfit(f"{name}: a field that this test does not read")
    return structs


def exported():
    text = re.sub(r"//[^\n]*", "", files("cfu/src/*.rt"))
    functions = {}
    for mangle, name, parameters, result in re.findall(r'(#\[unsafe\(no_mangle\)\]\s+)?pub extern "C" fn (\w+)\s*\((.*?)\)\s*->\s*(\w+)', text, re.S):
        if not mangle:
            misfit(f"{name}: exported without no_mangle")
        functions[name] = (c_type(result), [p for part in parameters.split(",") if part.strip() for p in c_parameter(part)])
    if len(functions) != len(re.findall(r'extern "C"', text)):
        misfit("crates/cfu/src: an exported function that this test does not read")
    return functions, structs_in(files("c_types/src/types.rt"))


POINTERS = {"*const u8": "const uint8_t *", "*mut u8": "uint8_t *"}


def wrapped(crate):
    """The wrappers for C of a made crate, and its structs."""
    def read(*path):
        with open(os.path.join(crate, *path), encoding="utf-8") as file:
            return file.read()

    text, functions = re.sub(r"//[^\n]*", "", read("c", "src", "lib.rs")), {}
    for mangle, name, parameters, result in re.findall(r'(#\[no_mangle\]\s+)?pub unsafe extern "C" fn (\w+)\((.*?)\) -> ([\w:]+)', text):
        if not mangle:
            misfit(f"{name}: wrapped without no_mangle")
        pairs = [part.strip().split(": ", 1) for part in parameters.split(",")]
        functions[name] = (c_type(result.split("::")[-1]), [(POINTERS.get(kind) or c_type(kind.split("::")[-1]), each) for each, kind in pairs])
    if len(functions) != len(re.findall(r'extern "C"', text)):
        misfit("the made wrappers: a function that this test does not read")
    if len(re.findall(r"from_raw_parts", text)) != 2:
        misfit("the made wrappers: slices of pointers are not made in the one place")
    return functions, structs_in(read("src", "c_types", "types.rs"))


# Macros with parameters, which tests/c/calls.c tries; and the header's own numbers, which the made crate bears as its version.
MACROS = {"VERSION", "VERSION_MAJOR", "VERSION_MINOR", "VERSION_VARIANT", "LEAST", "LEAST_MAJOR", "LEAST_MINOR"}
OWN = {"INTERFACE_MAJOR", "INTERFACE_MINOR"}


def declared(text):
    text = re.sub(r"/\*.*?\*/", " ", text, flags=re.S)
    macros = re.findall(r"^#define CFU_(\w+)\([\w, ]*\) .*$", text, re.M)
    if sorted(macros) != sorted(MACROS):
        misfit(f"the macros with parameters are {sorted(macros)}")
    text = re.sub(r"^#define CFU_\w+\(.*$", "", text, flags=re.M)
    numbers = {}
    for name, number in re.findall(r"^#define CFU_(\w+) +(\S+)\s*$", text, re.M):
        if name in numbers:
            misfit(f"CFU_{name} is defined twice")
        numbers[name] = int(number, 0)
    for line in re.findall(r"^#.*$", text, re.M):
        if not re.fullmatch(r"#define CFU_\w+ +\S+\s*|#define CFU_H|#ifndef CFU_H|#ifdef __cplusplus|#endif|#include <std(def|int)\.h>|#if defined\(SIZE_MAX\) && SIZE_MAX < 0xF{8}|#error \".*\"", line.strip()):
            misfit(f"a line that this test does not know: {line}")
    text = re.sub(r"^#.*$", "", text, flags=re.M)
    structs = {}

    def take_struct(match):
        if match.group(1) != match.group(3):
            misfit(f"struct {match.group(1)} is named {match.group(3)}")
        structs[match.group(1)] = [tuple(field.split()) for field in match.group(2).split(";") if field.strip()]
        return ""

    text = re.sub(r"typedef struct (\w+) \{(.*?)\} (\w+);", take_struct, text, flags=re.S)
    functions = {}

    def take_function(match):
        parameters = []
        for part in match.group(3).split(","):
            kind, name = re.fullmatch(r"\s*((?:const )?\w+ \*?)\s*(\w+)\s*", part).groups()
            parameters.append((kind if kind.endswith("*") else kind.strip(), name))
        functions[match.group(2)] = (match.group(1), parameters)
        return ""

    text = re.sub(r"(\w+) (cfu_\w+)\(([^)]*)\);", take_function, text)
    rest = re.sub(r'extern "C" \{|\}', "", text).split()
    if rest:
        misfit(f"a declaration that this test does not know: {' '.join(rest)}")
    return numbers, structs, functions


def hold(what, ours, theirs):
    """The header's against the proved ones: the same names, each the same."""
    for name in theirs:
        if name not in ours:
            misfit(f"{what} {name}: not in the header")
        elif ours[name] != theirs[name]:
            misfit(f"{what} {name}: the header has {ours[name]}, the source has {theirs[name]}")
    for name in ours:
        if name not in theirs:
            misfit(f"{what} {name}: only in the header")


def main():
    words = sys.argv[1:]
    made = words[1] if words[:1] == ["--made"] else None
    words = words[2:] if made else words
    header = words[0] if words else os.path.join(TOP, "include", "cfu.h")
    text = open(header, encoding="utf-8").read()
    numbers, structs, functions = declared(text)
    hold_layouts(text)
    their_functions, their_structs = exported()
    hold("function", functions, their_functions)
    hold("struct", structs, their_structs)
    if list(structs) != list(their_structs):
        misfit("the structs stand in another order than in crates/c_types/src/types.rt")
    if made:
        made_functions, made_structs = wrapped(made)
        hold("made function", functions, made_functions)
        hold("made struct", structs, made_structs)
    expected = expected_numbers()
    for name, places in expected.items():
        for place, number in places:
            if name not in numbers:
                misfit(f"CFU_{name}: not in the header ({place} has {number:#x})")
            elif numbers[name] != number:
                misfit(f"CFU_{name}: the header has {numbers[name]:#x}, {place} has {number:#x}")
    for name in numbers:
        if name not in expected and name not in OWN:
            misfit(f"CFU_{name}: only in the header")
    for text in misfits:
        print(f"misfit: {text}")
    if not misfits:
        print(f"{len(functions)} functions, {len(structs)} structs and {len(numbers)} numbers fit")
    sys.exit(1 if misfits else 0)


main()
