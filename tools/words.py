#!/usr/bin/env python3
"""Makes include/cfu_words.h from include/words.txt: for C, the name and the sentence of each number of include/cfu.h that is an answer or a code, and advice.

usage: tools/words.py [--check]        --check writes nothing, and ends with status 1 where the header is not what the table gives

tools/rust_crate takes the same table from here for the module `words` of the crate that it makes. A number of the header that should have words and has none,
and a line of the table whose number the header lacks, are errors."""
import os
import re
import sys
from collections import namedtuple

TOP = os.path.dirname(os.path.dirname(os.path.abspath(__file__)))
TABLE = os.path.join(TOP, 'include', 'words.txt')
HEADER = os.path.join(TOP, 'include', 'cfu.h')
OUT = os.path.join(TOP, 'include', 'cfu_words.h')

# kind: a word such as CALL. lines: one for each number.
Kind = namedtuple('Kind', 'name lines')
# macro: without CFU_. name, sentence, advice: for people; no advice is an empty one.
Line = namedtuple('Line', 'macro number name sentence advice')

# The macros of the header that have words, by their form.
WITH_WORDS = re.compile(r'[A-Z]\d+|SERVED|RUNNING|DONE|OFFER_(?!LIMIT)\w+|REJECT_\w+|SUCCESS|ERROR_\w+|INFO_\w+|NOTIFY_\w+')
UNKNOWN = 'unknown'


class Wrong(Exception):
    """A table that does not fit the header, with its line."""


def numbers():
    """The numbers of the header by the names of their macros, without CFU_."""
    with open(HEADER, encoding='utf-8') as file:
        return {name: int(number, 0) for name, number in re.findall(r'^#define CFU_(\w+) +(0x[0-9A-Fa-f]+|\d+)', file.read(), re.M)}


def kinds():
    """The kinds of the table, in its order."""
    known, out, prefix = numbers(), [], ''

    def filled(text, place):
        def number(found):
            if found.group(1) not in known:
                raise Wrong(f'{place}: the header has no CFU_{found.group(1)}')
            return f'{known[found.group(1)]:,}'
        return re.sub(r'\{(\w+)\}', number, text)

    with open(TABLE, encoding='utf-8') as file:
        for at, line in enumerate(file, 1):
            place = f'{os.path.relpath(TABLE, TOP)}:{at}'
            line = line.strip()
            if not line or line.startswith('#'):
                continue
            kind = re.fullmatch(r'\[([A-Z_]+)(?: ([A-Z_]+))?\]', line)
            if kind:
                prefix = kind.group(2) or ''
                out.append(Kind(kind.group(1), []))
                continue
            macro, *words = [part.strip() for part in line.split('|')]
            if not out or len(words) not in (1, 2) or not all(words) or '"' in line or '\\' in line:
                raise Wrong(f'{place}: no line of the form NAME | sentence | what to do')
            if macro not in known or not macro.startswith(prefix):
                raise Wrong(f'{place}: the header has no CFU_{macro} of this kind')
            sentence, advice = (filled(text, place) for text in (words + [''])[:2])
            out[-1].lines.append(Line(macro, known[macro], macro[len(prefix):], sentence, advice))
    listed = [line.macro for kind in out for line in kind.lines]
    lacking = [name for name in known if WITH_WORDS.fullmatch(name) and name not in listed]
    twice = [name for name in listed if listed.count(name) > 1]
    if lacking or twice:
        raise Wrong(f"{os.path.relpath(TABLE, TOP)}: no words for {' '.join(lacking) or 'none'}, words twice for {' '.join(twice) or 'none'}")
    return out


def c_function(name, what, of, other=UNKNOWN):
    """A function of the header: the words that `of` takes from a line, and those for every other number."""
    out = [f'/* {what} */', f'static inline const char *{name}(uint32_t kind, uint32_t number)', '{', '    switch (kind) {']
    for kind in kinds():
        lines = [each for each in kind.lines if of(each)]
        if not lines:
            continue
        out += [f'    case CFU_OF_{kind.name}:', '        switch (number) {']
        out += [line for each in lines for line in (f'        case CFU_{each.macro}:', f'            return "{of(each)}";')]
        out += ['        }', '        break;']
    return out + ['    }', f'    return "{other}";', '}']


def c_header():
    """include/cfu_words.h."""
    out = ['/*',
           ' * cfu_words.h: words for the numbers of cfu.h, for people. Made by tools/words.py from include/words.txt: change that table, not this.',
           ' *',
           ' * Plain C, not proved: nothing here judges or changes anything. C99, also C++; nothing is linked, and what is not called takes no memory.',
           ' */',
           '#ifndef CFU_WORDS_H', '#define CFU_WORDS_H', '', '#include "cfu.h"', '',
           '/* What a number is: what a call returned (cfu_step.number and its like), how far a host is (cfu_report.ending), the status of an offer reply, the',
           ' * reason of a REJECT, the status of a content reply, the code of an information or of an extended packet. */']
    out += [f'#define CFU_OF_{kind.name} {at}' for at, kind in enumerate(kinds())]
    out.append('')
    out += c_function('cfu_name', f'The name of a number of a kind, as "B7" or "SKIP"; "{UNKNOWN}" for a number or a kind that cfu.h has not.',
                      lambda line: line.name)
    out.append('')
    out += c_function('cfu_sentence', f'What a number of a kind says, as a part of a sentence without its capital and its full stop; "{UNKNOWN}" as above.',
                      lambda line: line.sentence)
    out.append('')
    out += c_function('cfu_advice', 'What a person can do about it; an empty text where the table has nothing.', lambda line: line.advice, '')
    return '\n'.join(out + ['', '#endif', ''])


def camel(name):
    return ''.join(word.capitalize() for word in name.split('_'))


def rust_function(name, what, of):
    out = [f'/// {what}', f'pub fn {name}(kind: Kind, number: u32) -> &\'static str {{', '    match (kind, number) {']
    for kind in kinds():
        out += [f'        (Kind::{camel(kind.name)}, {line.number:#x}) => "{of(line)}",' for line in kind.lines if of(line)]
    return out + [f'        _ => {UNKNOWN.upper()},' if name != 'advice' else '        _ => "",', '    }', '}']


def rust_module():
    """The module `words` of the made crate."""
    out = ['//! Words for the numbers that cross to C and stand in packets, for people. They are no part of what was proved.', '',
           f'const {UNKNOWN.upper()}: &str = "{UNKNOWN}";', '',
           '/// What a number is: what a call of the modules `c_*` returned, how far a host is, the status of an offer reply, the reason of a REJECT, the',
           '/// status of a content reply, the code of an information or of an extended packet.',
           '#[derive(Clone, Copy, Debug, PartialEq, Eq)]', 'pub enum Kind {']
    out += [f'    {camel(kind.name)},' for kind in kinds()]
    out += ['}', '']
    out += rust_function('name', f'The name of a number of a kind, as `B7` or `SKIP`; `{UNKNOWN}` for a number that the kind has not.', lambda line: line.name)
    out.append('')
    out += rust_function('sentence', f'What a number of a kind says, as a part of a sentence; `{UNKNOWN}` as above.', lambda line: line.sentence)
    out.append('')
    out += rust_function('advice', 'What a person can do about it; empty where the table has nothing.', lambda line: line.advice)
    return '\n'.join(out) + '\n'


def main(arguments):
    check = arguments == ['--check']
    if arguments and not check:
        print(__doc__.split('\n\n')[1])
        return 2
    try:
        made = c_header()
    except Wrong as error:
        print(f'tools/words.py: {error}', file=sys.stderr)
        return 1
    if check:
        with open(OUT, encoding='utf-8') as file:
            if file.read() != made:
                print('include/cfu_words.h is not what include/words.txt gives: run tools/words.py', file=sys.stderr)
                return 1
        print(f'{sum(len(kind.lines) for kind in kinds())} numbers have words')
        return 0
    with open(OUT, 'w', encoding='utf-8') as file:
        file.write(made)
    return 0


if __name__ == '__main__':
    sys.exit(main(sys.argv[1:]))
