//! Cases with the crate's answers as one file, for a replay where neither the crate nor this harness is.

use crate::case::{Case, Config, Detail, Step};
use crate::compact::{paged_case, vast_case};
use crate::compare::{scripted, Counts};
use crate::generate::{random_case, random_kind, KINDS};
use crate::options::Options;
use crate::ours;
use crate::script::Script;
use crate::wrong::Reading;
use std::fmt::Write;
use std::fs;
use std::io;
use std::path::Path;

/// Each kind has its turn: those of random cases that can be small, looked at in every row and pixel and then in few; those with several pages, and those on
/// a vast canvas.
const TURNS: [(Kind, Detail); 12] = [
    (Kind::Random(0), Detail::Every),
    (Kind::Random(1), Detail::Every),
    (Kind::Paged, Detail::Few),
    (Kind::Random(3), Detail::Every),
    (Kind::Random(4), Detail::Every),
    (Kind::Vast, Detail::Few),
    (Kind::Random(0), Detail::Few),
    (Kind::Random(1), Detail::Few),
    (Kind::Paged, Detail::Few),
    (Kind::Random(3), Detail::Few),
    (Kind::Random(4), Detail::Few),
    (Kind::Vast, Detail::Few),
];

#[derive(Clone, Copy)]
enum Kind {
    Random(usize),
    Paged,
    Vast,
}

/// A case with several pages may be so many times as long as another, and so may one on a vast canvas.
const PAGED_TIMES: usize = 2;
const VAST_TIMES: usize = 12;
/// No part may be longer: the buffers of `replay`.
const LONGEST_PART: usize = 65_536;

#[derive(Default)]
struct List {
    cases: u32,
    bytes: Vec<u8>,
    text: String,
    counts: Counts,
    /// how many cases have each of `features`
    having: [u64; FEATURES.len()],
}

const FEATURES: [&str; 13] = [
    "rotation",
    "trim",
    "padding",
    "border",
    "extrusion",
    "outlines",
    "forced size",
    "a withdrawal",
    "several pages",
    "a threshold",
    "a discard switch with a threshold",
    "a canvas of 1024 or more on a side",
    "a canvas of 4096 on a side",
];

/// Which features a case has.
fn features(case: &Case, several_pages: bool) -> [bool; FEATURES.len()] {
    let c: &Config = &case.config;
    let withdrawn = case.steps.contains(&Step::Withdraw);
    let looks = || case.steps.iter().filter_map(|s| if let Step::Look(l) = s { Some(l.background) } else { None });
    let threshold = looks().any(|g| g.threshold.is_some());
    let discard = looks().any(|g| g.threshold.is_some() && g.discard);
    let side = c.width.max(c.height);
    let lengths = [c.padding > 0, c.border > 0, c.extrusion > 0, c.outlines, c.forced];
    let [padding, border, extrusion, outlines, forced] = lengths;
    [c.rotation, c.trim, padding, border, extrusion, outlines, forced, withdrawn, several_pages, threshold, discard, side >= 1024, side == 4096]
}

impl List {
    /// A case, if it has no more bytes than `largest`; whether it was taken.
    fn takes(&mut self, script: &Script, symbols: &[u8], wording: &[u8], largest: usize, name: &str) -> bool {
        let parts = [&script.bytes, symbols, wording, &script.expected];
        let length: usize = parts.iter().map(|bytes| bytes.len()).sum();
        if length > largest || parts.iter().any(|bytes| bytes.len() > LONGEST_PART) {
            return false;
        }
        for bytes in parts {
            self.bytes.extend_from_slice(&(bytes.len() as u32).to_le_bytes());
        }
        for bytes in parts {
            self.bytes.extend_from_slice(bytes);
        }
        let _ = writeln!(self.text, "{} is {name}, {} answers", self.cases, script.answers.len());
        self.cases += 1;
        true
    }

    /// A case with the crate's answers.
    fn takes_crates(&mut self, case: &Case, largest: usize, name: &str) -> io::Result<()> {
        let script = scripted(case, Reading::Right, &mut |_| {}).map_err(|d| io::Error::other(d.text))?;
        if self.takes(&script, &case.symbols, &case.wording, largest, name) {
            let later = self.counts.later_pages;
            self.counts.add(case, &script);
            for (count, has) in self.having.iter_mut().zip(features(case, self.counts.later_pages > later)) {
                *count += u64::from(has);
            }
        }
        Ok(())
    }
}

/// The case with this number, if it is of the kind whose turn it is; with its name, and how long it may be.
fn of_turn(turn: (Kind, Detail), number: u64, options: &Options) -> Option<(Case, String, usize)> {
    let name = |kind: &str| format!("case {number} of seed {}, {kind}", options.seed);
    match turn.0 {
        Kind::Paged => Some((paged_case(options.seed, number), name("several pages"), PAGED_TIMES * options.largest)),
        Kind::Vast => Some((vast_case(options.seed, number), name("vast"), VAST_TIMES * options.largest)),
        Kind::Random(kind) if random_kind(options.seed, number) == kind => {
            let case = random_case(options.seed, number).1.looked_at(turn.1);
            let few = if turn.1 == Detail::Few { ", few rows" } else { "" };
            Some((case, name(KINDS[kind]) + few, options.largest))
        }
        Kind::Random(_) => None,
    }
}

/// Writes `count` cases, each of no more than `largest` bytes, and those of our own. Nothing that the library answers is in them.
pub fn write_cases(folder: &Path, options: &Options) -> io::Result<()> {
    fs::create_dir_all(folder)?;
    let mut list = List::default();
    for number in options.first..options.first + 1000 * options.count {
        if u64::from(list.cases) == options.count {
            break;
        }
        let turn = TURNS[list.cases as usize % TURNS.len()];
        if let Some((case, name, largest)) = of_turn(turn, number, options) {
            list.takes_crates(&case, largest, &name)?;
        }
    }
    if u64::from(list.cases) < options.count {
        return Err(io::Error::other("too few cases are small enough"));
    }
    for own in ours::cases() {
        list.takes(&own.script, &own.symbols, &[], usize::MAX, &format!("ours: {}", own.name));
    }
    let mut all = list.cases.to_le_bytes().to_vec();
    all.extend_from_slice(&list.bytes);
    fs::write(folder.join("cases.bin"), &all)?;
    fs::write(folder.join("cases.txt"), &list.text)?;
    println!("{} cases, {} bytes; with the crate's answers {}", list.cases, all.len(), list.counts);
    for (count, feature) in list.having.iter().zip(FEATURES) {
        println!("{count} have {feature}");
    }
    Ok(())
}
