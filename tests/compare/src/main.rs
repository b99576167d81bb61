//! Runs the comparison.
//!
//! usage: compare [--seed S] [--long N | --small] [--kind NAME [--case K]]
//!
//! Without an option the gate's counts with the gate's seed. --long N does N times as many; --small few, for a run under a checker of memory.
//! --kind does one kind alone, and with --case its case K alone. Ends with status 1 on a difference, or where something that has to be met was not.

use std::io::{IsTerminal, Write};
use std::panic::{catch_unwind, AssertUnwindSafe};
use std::sync::atomic::{AtomicBool, AtomicU64, AtomicUsize, Ordering};
use std::time::Instant;

use compare::case::{shrink, Case, Outcome, Run};
use compare::random::Random;
use compare::tally::{Tally, REQUIRED};
use compare::{bundles, devices, floors, hosts, lengths, packets, parts, runs, writers};

/// The gate's seed.
const SEED: u64 = 20_190_711;

struct Kind {
    name: &'static str,
    make: fn(&mut Random) -> Case,
    run: Run,
    /// What its cases are counted by, and how many the gate runs.
    unit: &'static str,
    gate: u64,
}

const KINDS: [Kind; 13] = [
    Kind { name: "set-up", make: devices::make_setup, run: devices::run_setup, unit: "calls: set-up", gate: 100_000 },
    Kind { name: "packets", make: devices::make_script, run: devices::run_script, unit: "packets to the device", gate: 3_000_000 },
    Kind { name: "build", make: packets::make_build, run: packets::run_build, unit: "packets built", gate: 100_000 },
    Kind { name: "read", make: packets::make_read, run: packets::run_read, unit: "packets read", gate: 100_000 },
    Kind { name: "bundles", make: bundles::make_check, run: bundles::run_check, unit: "bundles checked", gate: 600_000 },
    Kind { name: "hosts", make: hosts::make_host, run: hosts::run_host, unit: "host steps", gate: 1_000_000 },
    Kind { name: "contents", make: hosts::make_contents, run: hosts::run_contents, unit: "steps over any contents", gate: 300_000 },
    Kind { name: "lengths", make: lengths::make, run: lengths::run, unit: "calls with buffers of any length", gate: 60_000 },
    Kind { name: "runs", make: runs::make_run, run: runs::run_run, unit: "whole runs", gate: 60_000 },
    Kind { name: "write", make: writers::make_write, run: writers::run_write, unit: "calls: write", gate: 200_000 },
    Kind { name: "list_put", make: parts::make_list, run: parts::run_list, unit: "calls: list_put", gate: 200_000 },
    Kind { name: "device_component", make: parts::make_component, run: parts::run_component, unit: "calls: device_component", gate: 400_000 },
    Kind { name: "contents_entry", make: parts::make_entry, run: parts::run_entry, unit: "calls: contents_entry", gate: 400_000 },
];

struct Options {
    seed: u64,
    /// How many times the gate's counts; 0 for the small run.
    times: u64,
    kind: Option<String>,
    case: Option<u64>,
}

fn options() -> Result<Options, String> {
    let mut out = Options { seed: SEED, times: 1, kind: None, case: None };
    let mut words = std::env::args().skip(1);
    while let Some(word) = words.next() {
        let mut number = |name: &str| -> Result<u64, String> {
            let value = words.next().ok_or(format!("{name} wants a number"))?;
            value.parse().map_err(|_| format!("{name} wants a number, not {value}"))
        };
        match word.as_str() {
            "--seed" => out.seed = number("--seed")?,
            "--long" => out.times = number("--long")?.max(1),
            "--small" => out.times = 0,
            "--case" => out.case = Some(number("--case")?),
            "--kind" => out.kind = words.next(),
            _ => return Err(format!("unknown option {word}")),
        }
    }
    match &out.kind {
        Some(name) if KINDS.iter().all(|kind| kind.name != name) => Err(format!("there is no kind {name}")),
        _ => Ok(out),
    }
}

/// A case is being run: the message of an implementation's panic is not printed.
static QUIET: AtomicBool = AtomicBool::new(false);

/// The case that is being run, for a signal.
static SEED_NOW: AtomicU64 = AtomicU64::new(0);
static KIND_NOW: AtomicUsize = AtomicUsize::new(0);
static CASE_NOW: AtomicU64 = AtomicU64::new(0);

extern "C" {
    /// The C library's own: a handler for a signal.
    fn signal(number: i32, handler: extern "C" fn(i32)) -> usize;
}

/// Illegal instruction, abort, bus error, floating point, segmentation fault.
const SIGNALS: [i32; 5] = [4, 6, 7, 8, 11];

/// The library stopped the program: the case is named all the same.
extern "C" fn stopped(number: i32) {
    let (seed, kind, case) = (SEED_NOW.load(Ordering::Relaxed), KINDS[KIND_NOW.load(Ordering::Relaxed)].name, CASE_NOW.load(Ordering::Relaxed));
    println!("compare: FAILED: seed {seed}, kind {kind}, case {case}: signal {number}");
    std::process::exit(1);
}

/// A case is run; where an implementation panics, that is a difference too.
fn tried(run: Run, case: &Case, tally: &mut Tally) -> Outcome {
    QUIET.store(true, Ordering::Relaxed);
    let caught = catch_unwind(AssertUnwindSafe(|| run(case, tally)));
    QUIET.store(false, Ordering::Relaxed);
    match caught {
        Ok(outcome) => outcome,
        Err(_) => Err("an implementation panicked".to_string()),
    }
}

/// The kinds' own runs, with a panic as a difference: for the shrinker, which takes a plain function.
fn run_by<const K: usize>(case: &Case, tally: &mut Tally) -> Outcome {
    tried(KINDS[K].run, case, tally)
}

const CAUGHT: [Run; 13] = [
    run_by::<0>,
    run_by::<1>,
    run_by::<2>,
    run_by::<3>,
    run_by::<4>,
    run_by::<5>,
    run_by::<6>,
    run_by::<7>,
    run_by::<8>,
    run_by::<9>,
    run_by::<10>,
    run_by::<11>,
    run_by::<12>,
];

fn one_kind(place: usize, options: &Options, tally: &mut Tally) -> Result<(), String> {
    let kind = &KINDS[place];
    KIND_NOW.store(place, Ordering::Relaxed);
    let wanted = if options.times == 0 { (kind.gate / 2000).max(40) } else { kind.gate * options.times };
    let terminal = std::io::stderr().is_terminal();
    let begun = Instant::now();
    let mut case = options.case.unwrap_or(0);
    let mut own = Tally::default();
    while own.of(kind.unit) < wanted {
        CASE_NOW.store(case, Ordering::Relaxed);
        let made = (kind.make)(&mut Random::of_case(options.seed, place as u64, case));
        if let Err(what) = CAUGHT[place](&made, &mut own) {
            let (small, words) = shrink(&made, CAUGHT[place], what.clone());
            return Err(format!(
                "seed {}, kind {}, case {case}: {}\n  the case, made smaller:\n{}  there: {words}",
                options.seed,
                kind.name,
                what.lines().next().unwrap_or(""),
                small.text()
            ));
        }
        case += 1;
        if options.case.is_some() {
            break;
        }
        if terminal && case % 512 == 0 {
            eprint!("\r{}: {} of {wanted} {}  ", kind.name, own.of(kind.unit), kind.unit);
        }
    }
    if terminal {
        eprint!("\r{:70}\r", "");
    }
    println!("{}: {case} cases, {} {}, {:.1} s", kind.name, own.of(kind.unit), kind.unit, begun.elapsed().as_secs_f64());
    let _ = std::io::stdout().flush();
    tally.join(&own);
    Ok(())
}

/// What was not met, or not so often, although it has to be.
fn unmet(tally: &Tally) -> Vec<&'static str> {
    let all = REQUIRED
        .iter()
        .chain(&devices::BROKEN)
        .chain(&devices::PASSED)
        .chain(&devices::LEFT)
        .chain(&devices::REPEATS)
        .chain(&devices::SETUP)
        .chain(&devices::LENGTHS);
    let all = all.chain(&hosts::BROKEN).chain(&hosts::PASSED).chain(&hosts::REPEATS).chain(&runs::RUNS).chain(&writers::WRITTEN);
    let least = floors::FLOORS.iter().copied();
    let all = all.copied().chain(lengths::required()).chain(parts::required()).map(|name| (name, 1)).chain(least);
    all.filter(|(name, least)| tally.of(name) < *least).map(|(name, _)| name).collect()
}

fn main() {
    let options = match options() {
        Ok(options) => options,
        Err(what) => {
            eprintln!("compare: {what}");
            std::process::exit(2);
        }
    };
    println!("seed {}", options.seed);
    SEED_NOW.store(options.seed, Ordering::Relaxed);
    for number in SIGNALS {
        // The handler prints and ends the program, so nothing goes on in a broken state.
        unsafe { signal(number, stopped) };
    }
    let said = std::panic::take_hook();
    std::panic::set_hook(Box::new(move |what| {
        if !QUIET.load(Ordering::Relaxed) {
            said(what);
        }
    }));
    let mut tally = Tally::default();
    for place in 0..KINDS.len() {
        if options.kind.as_deref().is_some_and(|name| name != KINDS[place].name) {
            continue;
        }
        if let Err(what) = one_kind(place, &options, &mut tally) {
            println!("compare: FAILED: {what}");
            std::process::exit(1);
        }
    }
    if options.times > 0 {
        for (name, times) in tally.lines() {
            println!("{times:>12}  {name}");
        }
    }
    let missed = unmet(&tally);
    if options.times > 0 && options.kind.is_none() && !missed.is_empty() {
        println!("compare: FAILED: not met often enough: {}", missed.join("; "));
        std::process::exit(1);
    }
    println!("no difference");
}
