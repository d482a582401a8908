//! Compares texture_packer 0.30.0 with the proved library. README.md says what is compared and how.

mod bench;
mod case;
mod compact;
mod compare;
mod expect;
mod files;
mod formulas;
mod generate;
mod library;
mod options;
mod ours;
mod packer;
mod random;
mod script;
mod shown;
mod shrink;
mod sketch;
mod wrong;

use case::{Case, Step};
use compare::{compared, Counts};
use generate::{exhaustive_case, exhaustive_stores, random_case, EXHAUSTIVE, KINDS};
use options::Options;
use std::time::Instant;
use wrong::{Reading, WRONG};

/// A case that differs is made smaller; only so many, since one cause differs often.
const SHRUNK: usize = 12;

#[derive(Default)]
struct Found {
    cases: u64,
    smallest: Option<Case>,
    shrunk: usize,
}

impl Found {
    fn take(&mut self, case: &Case, reading: Reading) {
        self.cases += 1;
        if self.shrunk < SHRUNK {
            self.shrunk += 1;
            let small = shrink::smallest(case, reading);
            if self.smallest.as_ref().is_none_or(|s| small.size() < s.size()) {
                self.smallest = Some(small);
            }
        }
    }

    fn print(&self, reading: Reading) {
        if let Some(case) = &self.smallest {
            println!("the smallest differing input:");
            print!("{}", case.text());
            if let Some(d) = compared(case, reading, &mut Counts::default()) {
                println!("  differs in {}", d.text);
            }
        }
    }
}

/// The random cases; the number of those that differ.
fn random_cases(options: &Options) -> u64 {
    let start = Instant::now();
    let mut counts = vec![Counts::default(); KINDS.len()];
    let mut found = Found::default();
    for number in options.first..options.first + options.cases {
        let (kind, case) = random_case(options.seed, number);
        if let Some(d) = compared(&case, Reading::Right, &mut counts[kind]) {
            if found.cases < 3 {
                println!("case {number} of seed {} ({}) differs in {}", options.seed, KINDS[kind], d.text);
            }
            found.take(&case, Reading::Right);
        }
        let done = number + 1 - options.first;
        if done.is_multiple_of(10_000) {
            eprintln!("{done} cases, {} differ", found.cases);
        }
    }
    let mut all = Counts::default();
    for (kind, c) in KINDS.iter().zip(&counts) {
        println!("{kind}: {c}");
        all.join(c);
    }
    println!("all random, without a difference: {all}");
    found.print(Reading::Right);
    println!("random: {} cases of seed {}, {} differ, {:.1} s", options.cases, options.seed, found.cases, start.elapsed().as_secs_f32());
    found.cases
}

/// The exhaustive small cases; the number of those that differ.
fn exhaustive_cases() -> u64 {
    let start = Instant::now();
    let stores = exhaustive_stores();
    let mut counts = Counts::default();
    let mut found = Found::default();
    for number in 0..EXHAUSTIVE {
        let case = exhaustive_case(number, &stores);
        if compared(&case, Reading::Right, &mut counts).is_some() {
            found.take(&case, Reading::Right);
        }
    }
    println!("exhaustive, without a difference: {counts}");
    found.print(Reading::Right);
    println!(
        "exhaustive: every triple of sizes up to 4x4 on maxima up to 5x6, rotation off and on: {EXHAUSTIVE} cases, {} differ, {:.1} s",
        found.cases,
        start.elapsed().as_secs_f32()
    );
    found.cases
}

/// A random case as a wrong reading is tried on it.
fn tried_case(options: &Options, number: u64, reading: Reading) -> Case {
    let (_, mut case) = random_case(options.seed, number);
    if reading.of_offers() {
        case.steps.retain(|s| matches!(s, Step::Offer(_) | Step::Withdraw));
    }
    case
}

/// Each wrong reading has to be found; the number of those that are not. The sketch in the right order must agree in every case.
fn shown_to_see(options: &Options) -> u64 {
    let numbers = options.first..options.first + options.cases;
    let agrees = |n: &u64| compared(&tried_case(options, *n, Reading::SketchRight), Reading::SketchRight, &mut Counts::default()).is_none();
    let agreeing = numbers.clone().filter(agrees).count() as u64;
    println!("the sketch in the right order: {agreeing} of {} cases agree", options.cases);
    let mut unseen = u64::from(agreeing < options.cases);
    for (reading, name) in WRONG {
        let found = numbers.clone().find(|&n| compared(&tried_case(options, n, reading), reading, &mut Counts::default()).is_some());
        let Some(number) = found else {
            unseen += 1;
            println!("NOT FOUND in {} cases: {name}", options.cases);
            continue;
        };
        println!("found in case {number}: {name}");
        if options.verbose {
            let small = shrink::smallest(&tried_case(options, number, reading), reading);
            print!("{}", small.text());
            if let Some(d) = compared(&small, reading, &mut Counts::default()) {
                println!("  differs in {}", d.text);
            }
        }
    }
    println!("wrong readings: {} switched on, {unseen} failed", WRONG.len());
    unseen
}

/// What is timed, counted or written instead of being compared; whether there was such a thing.
fn other_work(options: &Options) -> bool {
    if let Some(words) = &options.trims {
        bench::alone(words);
    } else if options.bench {
        bench::all();
    } else if options.instructions {
        bench::instructions();
    } else if let Some(folder) = &options.write {
        if let Err(error) = files::write_cases(folder.as_ref(), options) {
            eprintln!("{error}");
            std::process::exit(1);
        }
    } else {
        return false;
    }
    true
}

/// The number of failures.
fn comparison(options: &Options) -> u64 {
    if options.show_that_it_sees {
        return shown_to_see(options);
    }
    let small = if options.exhaustive { exhaustive_cases() } else { 0 };
    small + random_cases(options)
}

fn main() {
    let options = match Options::read(std::env::args().skip(1)) {
        Ok(options) => options,
        Err(text) => {
            eprintln!("{text}");
            std::process::exit(2);
        }
    };
    if other_work(&options) {
        return;
    }
    if options.cases == 0 && (options.show_that_it_sees || !options.exhaustive) {
        eprintln!("nothing to compare");
        std::process::exit(2);
    }
    // a panic of the crate is reported as a difference
    std::panic::set_hook(Box::new(|_| {}));
    let failures = comparison(&options);
    let good = if options.show_that_it_sees { "every wrong reading is found" } else { "no difference" };
    println!("{}", if failures == 0 { good } else { "FAILED" });
    std::process::exit(i32::from(failures > 0));
}
