#!/usr/bin/env python3
"""Tries tools/rust_crate on forms that few crates have: two small crates, beside a program, what it prints with and what is only measured, made into a crate
that rustc compiles without a warning; the same with what is measured in it; then each thing that the script does not support, which it must name with its
file and line. Status 1 where one goes otherwise."""
import os
import shutil
import subprocess
import sys
import tempfile

TOP = os.path.join(os.path.dirname(os.path.abspath(__file__)), '..', '..')
# The script, and what it takes beside the crates.
NEEDED = ('tools/rust_crate', 'tools/crates.py', 'tools/words.py', 'include/words.txt', 'include/cfu.h')

CRATES = '''# crates
low:
high: low

# programs, and what they print with
run_print:
tool: run_print high low

# for C
low_c staticlib: low

# measured
speed_low staticlib: low
'''
LOW = '''// The low crate: [brackets] and <signs> in words, `a[0]` as code.
#![tactic(auto)]

ghost use Rattle.std.specs.Prelude.{◌≡◌};
ghost use Rattle.std.specs.Prelude.{length,
    take};
pub mod part; // part.rt: a module

pub use part::{lent, next};

// A pair.
#[derive(Clone, Copy)]
#[repr(C)]
pub struct Pair {
    // The left one.
    pub left: u16,
    pub right: u16,
}

// A lent number.
#[derive(Drop)]
pub struct Lent<'a>(pub &'a mut u8);

// What was found.
pub enum Found {
    // Nothing.
    Nothing,
    At { place: usize },
}

// A level, from the lowest up.
#[derive(Clone, Copy, Default, PartialEq, PartialOrd)]
pub enum Level {
    #[default]
    Low,
    High,
}

// A number with a name.
pub trait Named {
    // The number
    // of each.
    ghost name_of: { Self → ℕ };

    // Its number.
    fn name(&self) -> u8
        ensures { result ≡ name_of self.now };
}

impl Named for Level {
    ghost name_of = { λ l. number_of l };

    fn name(&self) -> u8 {
        if *self < Level::High { 0 } else { 1 }
    }
}

// A number below a limit.
#[derive(Clone, Copy)]
pub struct Small<const N: usize> {
    pub number: usize,
    ghost small: { number < N },
}

impl<const N: usize> From<[u8; N]> for Small<N> {
    ghost from_gives = { λ a r. r.number ≡ N };

    fn from(a: [u8; N]) -> Small<N> {
        Small { number: a.len() }
    }
}

// The first byte that passes a test, by its place.
pub fn place_of<F: Fn(u8) -> bool>(xs: &[u8], passes: F) -> Option<usize>
    requires callable { F.IsAlwaysCallable passes }
{
    xs.iter().position(|x| passes(*x))
}

pub fn lesser(a: u8, b: u8) -> u8 {
    std::cmp::min(a, b)
}

pub fn is_pair(xs: &mut [u8]) -> bool {
    let pair: Option<&mut [u8; 2]> = xs.as_mut_array();
    pair.is_some()
}

pub fn alike(a: &[u8], b: &[u8]) -> bool {
    a == b
}

pub fn wide(n: usize) -> [u8; 8] {
    usize::to_le_bytes(n)
}

pub fn is_low(x: Option<u8>) -> bool {
    x.is_some_and(|k| (k == 0) | (k == 1))
}

pub fn place_in(f: Found) -> usize {
    let Found::At { place } = f else {
        return 0;
    };
    let n = if place < 2 { 1 } else { place };
    n
}

pub fn sum_of(pair: Option<(u8, u16)>) -> u16 {
    let Some((a, b)) = pair else {
        return 0;
    };
    a as u16 ^ b
}
'''
PART = '''// A module whose name the high crate has too.
use crate::Found;
use crate::Pair;
use std::num::{wrapping_add_u8, wrapping_sub_u8};

// With bytes and a struct.
pub fn lent(read: &[u8], p: Pair, written: &mut [u8]) -> Pair {
    if read.len() == 0 {
        return p;
    }
    written[0] = read[0];
    Pair { left: 1, right: p.left }
}

// The next one.
#[inline(always)]
#[tactic(auto, using(crate::proofs::Next::next_wraps))]
pub fn next(a: u16) -> u16
    ensures wraps { result ≡ (record { value = a } .value + 1) % 2 ^ 16 }
    // about the clause below
    ensures other { T {result} }
{
    prove!(a < 65536);
    std::num::wrapping_add_u16(a, 1)
}

pub(crate) fn before(a: u8) -> u8
    ghost g: { ℕ }
    requires* same { ⌜ a ≡ g ⌝ }
{
    wrapping_sub_u8(wrapping_add_u8(a, 0), b'\\x01')
}

impl Pair {
    // The left one, whatever b is.
    pub fn left_of(self, b: u8) -> u16
        ensures { result ≡ left_of self b }
    {
        self.left
    }
}

pub fn first(p: Pair, xs: [u8; 2]) -> Found {
    let words = b"{ requires }";
    // Not documentation.
    if before(xs[0]) == words[0] && p.left < 3 {
        return Found::At { place: xs.len() };
    }
    Found::Nothing
}
'''
LOW_C = '''// For C.
#![tactic(auto)]

use low::{Found, Pair};

#[unsafe(no_mangle)]
pub extern "C" fn lent(read: &[u8], p: Pair, written: &mut [u8]) -> Pair {
    low::lent(read, p, written)
}

#[unsafe(no_mangle)]
pub extern "C" fn next(a: u16) -> u16
    ensures { result ≡ (a + 1) % 2 ^ 16 }
{
    low::next(a)
}
'''
HIGH = '''use low::Pair;
use low::part as below;

mod part;

pub fn both(p: Pair) -> u16 {
    let left = low::part::next(p.left);
    part::kept(left) + below::next(p.right)
}
'''
KEPT = '''// A private module may ask something of its callers.
pub fn kept(a: u16) -> u16
    requires { a ≤ 7 }
{
    a
}
'''
SOURCES = {
    'crates.txt': CRATES,
    'crates/low/src/lib.rt': LOW,
    'crates/low/src/part.rt': PART,
    'crates/high/src/lib.rt': HIGH,
    'crates/high/src/part.rt': KEPT,
    'crates/low_c/src/lib.rt': LOW_C,
    'crates/run_print/src/lib.rt': 'pub fn line(out: &mut impl std::io::Write, s: &[u8]) {\n    out.write_all(s);\n}\n',
    'crates/tool/src/main.rt': 'fn main() {\n    run_print::line(b"x");\n}\n',
    'crates/speed_low/src/lib.rt': '#[unsafe(no_mangle)]\npub extern "C" fn twice(a: u16) -> u16 {\n    low::part::next(low::part::next(a))\n}\n',
}

# What must stand in the made crate.
MADE = {
    'src/lib.rs': ['pub mod low;\npub mod high;\npub mod words;\n'],
    'src/words.rs': ['(Kind::OfferStatus, 0x2) => "REJECT",', '(Kind::Call, 0x4206) => "an earlier entry offers the same component",'],
    'c/src/lib.rs': ['fn next(a: u16) -> u16 {\n    cfu_updater::low::next(a)\n}',
                     'pub unsafe extern "C" fn lent(read: *const u8, read_len: usize, p: cfu_updater::low::Pair, written: *mut u8, written_len: usize) -> '
                     'cfu_updater::low::Pair {\n    cfu_updater::low::lent(lent::read(read, read_len), p, lent::write(written, written_len))\n}'],
    'src/low/mod.rs': ['//! The low crate: \\[brackets\\] and \\<signs\\> in words, `a[0]` as code.\npub mod part; // part.rt: a module\n',
                       '/// A pair.\n#[repr(C)]\n#[derive(Clone, Copy, Debug, PartialEq, Eq)]\npub struct Pair {\n    /// The left one.\n',
                       '#[derive(Debug, PartialEq, Eq)]\npub struct Lent', '    /// Nothing.\n    Nothing,\n',
                       '#[derive(Clone, Copy, Debug, PartialEq, Eq, Default, PartialOrd)]\npub enum Level {\n    #[default]\n    Low,\n',
                       'pub trait Named {\n    // Its number.\n    fn name(&self) -> u8;\n}\n\nimpl Named for Level {\n    #[inline]\n    fn name(&self) -> u8 {\n',
                       'pub struct Small<const N: usize> {\n    pub number: usize,\n}\n',
                       'impl<const N: usize> From<[u8; N]> for Small<N> {\n    #[inline]\n    fn from(', '    core::cmp::min(a, b)\n',
                       ' = xs.try_into().ok();\n', '    u64::to_le_bytes(n as u64)\n',
                       '    a.len() == b.len() && a.iter().zip(b).all(|(x, y)| x == y)\n',
                       '    x.map_or(false, |k| (k == 0) | (k == 1))\n',
                       '    let place = match f { Found::At { place } => place, _ => {\n        return 0;\n    } };\n    let n = if place < 2 { 1 } else { place };\n',
                       '    let (a, b) = match pair { Some((a, b)) => (a, b), _ => {\n        return 0;\n    } };\n'],
    'src/low/part.rs': ['/// The next one.\n#[inline]\npub fn next(a: u16) -> u16 {\n    u16::wrapping_add(a, 1)\n}\n',
                        '#[inline]\npub(in crate::low) fn before(a: u8) -> u8 {\n    u8::wrapping_sub(u8::wrapping_add(a, 0), b', '    // Not documentation.\n',
                        '    /// The left one, whatever b is.\n    #[inline]\n    #[allow(unused_variables)] // only the contract names b\n    pub fn left_of(self, b'],
    'src/high/mod.rs': ['use crate::low::Pair;\nuse crate::low::part as below;\n', '= crate::low::part::next(p.left);\n    part::kept(left) + below::next('],
}

# And what must stand there beside it where what is measured is asked for.
MEASURED = {
    'src/lib.rs': ['pub mod low;\npub mod high;\npub mod speed_low;\npub mod words;\n'],
    'src/speed_low/mod.rs': ['pub fn twice(a: u16) -> u16 {\n    crate::low::part::next(crate::low::part::next(a))\n'],
}

# A text of KEPT, what it becomes, and what the script must say then.
UNKNOWN = [
    ('{\n    a', '{\n    io::a', 'crates/high/src/part.rt:5: `io::`'),
    ('{\n    a', '{\n    crc::a', 'crates/high/src/part.rt:5: `crc::`'),
    ('{\n    a', '{\n    std::mem::a', 'crates/high/src/part.rt:5: `std::mem`'),
    ('{\n    a', '{\n    usize::to_be_bytes(a)', 'crates/high/src/part.rt:5: the bytes of a usize'),
    ('pub fn', 'use std::io::Write;\npub fn', 'crates/high/src/part.rt:2: `use std::io::Write`'),
    ('{\n    a', '{\n    std::num::truncating_f64_to_u64(a)', 'crates/high/src/part.rt:5: `std::num::truncating_f64_to_u64`'),
    ('{\n    a', '{\n    let a = prove!(a < 1);', 'crates/high/src/part.rt:5: `prove!` that is no statement'),
    ('{\n    a', '{\n    a ≡ 1', "crates/high/src/part.rt:5: a character that is not known outside a contract: '≡'"),
    ('pub fn', 'use io::print;\npub fn', 'crates/high/src/part.rt:2: `use io`'),
    ('pub fn', '#[cold]\npub fn', 'crates/high/src/part.rt:2: an attribute'),
    ('pub fn', 'extern "C" {}\npub fn', 'crates/high/src/part.rt:2: a function of C'),
    ('pub fn', '#[unsafe(no_mangle)]\npub extern "C" fn c(a: u8) -> u8 {\n    a\n}\n\npub fn', 'crates/high/src/part.rt:2: a function for C outside of'),
    ('pub fn', 'ghost let x = 1;\npub fn', 'crates/high/src/part.rt:2: `ghost`'),
    ('≤ 7 }', '≤ 7', 'crates/high/src/part.rt:3: a clause whose brace is not closed'),
    ('a: u16', 'a: f32', 'crates/high/src/part.rt:2: a float'),
]


def run(files, top, *options):
    """What the script says of these files, and its status; the crate goes to top/out."""
    shutil.rmtree(top, ignore_errors=True)
    for part, text in files.items():
        os.makedirs(os.path.dirname(os.path.join(top, part)), exist_ok=True)
        open(os.path.join(top, part), 'w', encoding='utf-8').write(text)
    for part in NEEDED:
        os.makedirs(os.path.dirname(os.path.join(top, part)), exist_ok=True)
        shutil.copy(os.path.join(TOP, part), os.path.join(top, part))
    done = subprocess.run([sys.executable, 'tools/rust_crate', *options, 'out'], cwd=top, capture_output=True, text=True)
    return done.stdout + done.stderr, done.returncode


def lacks(top, expected):
    """The first file of the made crate that is without what it must say, in words; or nothing."""
    for part, texts in expected.items():
        made = open(os.path.join(top, 'out', part), encoding='utf-8').read()
        for text in texts:
            if text not in made:
                return f'{part} is without\n{text}\nand says\n{made}'
    return None


def main():
    with tempfile.TemporaryDirectory() as place:
        top = os.path.join(place, 'top')
        told, status = run(SOURCES, top, '--measured')
        fault = f'no crate is made: {told}' if status != 0 else lacks(top, {**MADE, **MEASURED})
        if not fault:
            told, status = run(SOURCES, top)
            fault = f'no crate is made: {told}' if status != 0 else lacks(top, MADE)
        if not fault and (os.path.exists(os.path.join(top, 'out', 'src', 'speed_low')) or not told.endswith('left out run_print tool speed_low\n')):
            fault = f'what is only measured is not left out: {told}'
        if fault:
            print(f'forms: {fault}')
            return 1
        for folder in ('out', 'out/c'):
            built = subprocess.run(['cargo', 'build', '--offline', '--quiet'], cwd=os.path.join(top, folder),
                                   env=dict(os.environ, RUSTFLAGS='-D warnings', CARGO_TARGET_DIR=os.path.join(top, 'build')))
            if built.returncode != 0:
                print(f'forms: the crate {folder} does not build')
                return 1
        others = [('crates/high/src/lib.rt', 'mod part;', 'pub mod part;', 'crates/high/src/part.rt:3: a `requires` on a public function'),
                  ('crates/low_c/src/lib.rt', 'p: Pair, written', 'p: Other, written', 'crates/low_c/src/lib.rt:7: `Other` in a function for C'),
                  ('crates/low_c/src/lib.rt', 'next(a: u16) -> u16', 'next(a: u16)', 'crates/low_c/src/lib.rt:12: a function for C whose signature'),
                  ('crates/low_c/src/lib.rt', 'low::next(a)', 'low::first(a)', 'crates/low_c/src/lib.rt:12: a function for C that is no call'),
                  ('crates/low_c/src/lib.rt', 'low::lent(read, p, written)', 'low::lent(p, read, written)', 'crates/low_c/src/lib.rt:7: a function for C that is no call'),
                  ('crates/low_c/src/lib.rt', '#[unsafe(no_mangle)]\npub extern "C" fn next', 'pub fn next', 'crates/low_c/src/lib.rt:11: a function that is not for C')]
        for path, old, new, expected in [('crates/high/src/part.rt', *case) for case in UNKNOWN] + others:
            told, status = run({**SOURCES, path: SOURCES[path].replace(old, new)}, top)
            if status != 1 or not told.startswith(f'tools/rust_crate: {expected}') or os.path.exists(os.path.join(top, 'out')):
                print(f'forms: expected {expected}\nand came {told}')
                return 1
    print(f'forms: a crate of {len(MADE)} files as expected, {len(UNKNOWN) + len(others)} unknown things named')
    return 0


if __name__ == '__main__':
    sys.exit(main())
