//! The differential test: the library against the original, with document 01's stand-ins put into
//! the latter, bit by bit. `cargo run --release -- run` from this folder; `bench` measures speed, and
//! `stack` the stack that edits take.

mod anchors;
mod angles;
mod bench;
mod bends;
mod branches;
mod cache;
mod caches;
mod call;
mod case;
mod compare;
mod comparisons;
mod corners;
mod cubics;
mod curves;
mod cuts;
mod damage;
mod drawings;
mod edits;
mod family;
mod ffi;
mod guard;
mod hits;
mod jobs;
mod joins;
mod kept;
mod lents;
mod numerals;
mod original;
mod outlines;
mod parameters;
mod paths;
mod prints;
mod radii;
mod random;
mod refusal;
mod replays;
mod report;
mod root;
mod samples;
mod selftest;
mod sessions;
mod shapes;
mod sizes;
mod stand_ins;
mod text;
mod values;
mod writings;

use comparisons::Comparison;
use random::Random;
use report::Tally;
use std::process::ExitCode;
use std::time::Instant;

const USAGE: &str = "usage: differential run [--seed N] [--cases N] | selftest | bench | stack";

/// Cases of each call, where none are given.
const CASES: u64 = 1_000_000;
/// Patterns of each kind that `root` is given, for each case of another call: it is quick, and every
/// length rests on it.
const ROOTS: u64 = 2;

/// Numbers that are written, for each case of another call.
const NUMERALS: u64 = 10;

/// Drawings and paths, each of which has up to thousands of numbers.
fn drawings(cases: u64) -> u64 {
    (cases / 25).max(20_000)
}

/// Paths whose corners are listed.
fn corner_paths(cases: u64) -> u64 {
    (cases / 20).max(50_000)
}

/// Edits of paths, which take less than a cut.
fn edits(cases: u64) -> u64 {
    (cases / 5).max(50_000)
}

/// Jobs, each read, or read, cut and written; seven in eight are damaged.
fn prints(cases: u64) -> u64 {
    (cases / 8).max(50_000)
}

/// Hits and boxes.
fn hits(cases: u64) -> u64 {
    (cases / 10).max(50_000)
}

/// Calls in lists on caches.
fn session_calls(cases: u64) -> u64 {
    (cases / 5).max(50_000)
}

/// Calls of the one long list.
const LONG_LIST: u64 = 1_000_000;

fn main() -> ExitCode {
    let arguments: Vec<String> = std::env::args().skip(1).collect();
    let arguments: Vec<&str> = arguments.iter().map(String::as_str).collect();
    match arguments[..] {
        ["run", ref options @ ..] => match parse(options) {
            Some((seed, cases)) => run(seed, cases),
            None => usage(),
        },
        ["selftest"] => {
            selftest::run(&mut Random::new(1));
            println!("selftest passed");
            ExitCode::SUCCESS
        }
        ["bench"] => {
            bench::run(&mut Random::new(1));
            ExitCode::SUCCESS
        }
        ["stack"] => {
            bench::stack::run(&mut Random::new(1));
            ExitCode::SUCCESS
        }
        _ => usage(),
    }
}

fn parse(mut options: &[&str]) -> Option<(u64, u64)> {
    let (mut seed, mut cases) = (1, CASES);
    while let [name, value, rest @ ..] = options {
        match *name {
            "--seed" => seed = value.parse().ok()?,
            "--cases" => cases = value.parse().ok()?,
            _ => return None,
        }
        options = rest;
    }
    options.is_empty().then_some((seed, cases))
}

fn usage() -> ExitCode {
    eprintln!("{USAGE}");
    ExitCode::FAILURE
}

fn run(seed: u64, cases: u64) -> ExitCode {
    let start = Instant::now();
    let mut random = Random::new(seed);
    selftest::run(&mut random);
    let mut passed = true;
    comparisons::run(all(cases), &mut random, |tally| {
        tally.print();
        passed &= tally.passed();
    });
    let seconds = start.elapsed().as_secs_f64();
    let verdict = if passed { "passed" } else { "FAILED" };
    println!("{verdict}: seed {seed}, {cases} cases of each call, {seconds:.1} seconds");
    if passed {
        ExitCode::SUCCESS
    } else {
        ExitCode::FAILURE
    }
}

/// Every call's comparison, with its number of cases.
fn all(cases: u64) -> Vec<Comparison> {
    fn of(cases: u64, compare: fn(u64, &mut Random) -> Tally) -> Comparison {
        Box::new(move |random| compare(cases, random))
    }
    let mut all = vec![of(ROOTS * cases, root::run)];
    for call in cubics::CALLS {
        all.push(Box::new(move |random| call.run(cases, random)));
    }
    for shape in shapes::SHAPES {
        all.push(Box::new(move |random| {
            shapes::run(&shape, edits(cases), random)
        }));
    }
    all.extend([
        of(edits(cases), bends::transform),
        of(edits(cases), bends::auto_smooth),
        of(edits(cases), bends::bend_segment),
        of(drawings(cases), cuts::run),
        of(drawings(cases), cache::build),
        of(drawings(cases), cache::assemble),
        of(corner_paths(cases), corners::run),
        of(NUMERALS * cases, text::write_num),
        of(drawings(cases), text::to_svg_d),
        of(edits(cases), edits::split),
        of(edits(cases), edits::reversed),
        of(edits(cases), joins::join),
        of(edits(cases), edits::delete),
        of(hits(cases), hits::hit_anchor),
        of(hits(cases), hits::hit_segment),
        of(hits(cases), hits::bounds),
        of(prints(cases), jobs::run),
        of(prints(cases), prints::run),
        of(drawings(cases), sessions::edits),
        of(session_calls(cases), sessions::lists),
        of(drawings(cases), replays::run),
        of(LONG_LIST.min(cases), sessions::long),
    ]);
    all
}
