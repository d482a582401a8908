//! One case on both sides, and the first answer in which they differ.

use crate::case::Case;
use crate::expect::{expect, Aside};
use crate::library;
use crate::script::{About, Script};
use crate::wrong::Reading;
use std::fmt::{Display, Formatter, Result as Written};
use std::panic::{catch_unwind, AssertUnwindSafe};

/// What was compared and was the same.
#[derive(Clone, Default)]
pub struct Counts {
    pub cases: u64,
    pub placed: u64,
    pub turned: u64,
    pub trimmed: u64,
    pub clear: u64,
    pub too_large: u64,
    pub limits: u64,
    pub asks: u64,
    pub withdrawals: u64,
    pub page_sizes: u64,
    pub pixels: u64,
    pub composed_rows: u64,
    pub composed_pixels: u64,
    pub checks: u64,
    pub image_rows: u64,
    pub coordinates: u64,
    pub sources: u64,
    pub later_pages: u64,
}

impl Counts {
    pub fn add(&mut self, case: &Case, script: &Script) {
        self.cases += 1;
        for (number, (start, about)) in script.answers.iter().enumerate() {
            let word = |n: usize| {
                let at = start + 4 * n;
                script.expected.get(at..at + 4).map_or(0, |b| u32::from_le_bytes([b[0], b[1], b[2], b[3]]))
            };
            match about {
                About::Open | About::TrimmedMarks | About::End => {}
                About::Ask { .. } => self.asks += 1,
                About::Offer { .. } => self.offer([word(1), word(2), word(7)], case),
                About::Withdraw => self.withdrawals += 1,
                About::PageSize { .. } => self.page_sizes += 1,
                About::Pixel { .. } => self.pixels += 1,
                About::Rows { rows, .. } => self.rows(*rows, script.answer(number, &script.expected)),
                About::Check { .. } => self.checks += 1,
                About::ImageRow { .. } => self.image_rows += 1,
                About::Coordinates { .. } => self.coordinates += 1,
                About::Source { .. } => self.sources += 1,
            }
        }
    }

    fn rows(&mut self, rows: u32, answer: &[u8]) {
        self.composed_rows += u64::from(rows);
        self.composed_pixels += (answer.len() as u64 - 8) / 4;
    }

    /// What is new in a script of its own: the offers in it were counted before.
    fn add_aside(&mut self, script: &Script) {
        for (number, (_, about)) in script.answers.iter().enumerate() {
            match about {
                About::Rows { rows, .. } => self.rows(*rows, script.answer(number, &script.expected)),
                About::Check { .. } => self.checks += 1,
                _ => {}
            }
        }
    }

    fn offer(&mut self, [answer, page, turn]: [u32; 3], case: &Case) {
        match answer {
            0 => {
                self.placed += 1;
                self.turned += u64::from(turn == 1);
                self.trimmed += u64::from(case.config.trim);
                self.later_pages += u64::from(page > 0);
            }
            7 => self.clear += 1,
            8 => self.too_large += 1,
            _ => self.limits += 1,
        }
    }

    pub fn join(&mut self, o: &Counts) {
        let pairs = [
            (&mut self.cases, o.cases),
            (&mut self.placed, o.placed),
            (&mut self.turned, o.turned),
            (&mut self.trimmed, o.trimmed),
            (&mut self.clear, o.clear),
            (&mut self.too_large, o.too_large),
            (&mut self.limits, o.limits),
            (&mut self.asks, o.asks),
            (&mut self.withdrawals, o.withdrawals),
            (&mut self.page_sizes, o.page_sizes),
            (&mut self.pixels, o.pixels),
            (&mut self.composed_rows, o.composed_rows),
            (&mut self.composed_pixels, o.composed_pixels),
            (&mut self.checks, o.checks),
            (&mut self.image_rows, o.image_rows),
            (&mut self.coordinates, o.coordinates),
            (&mut self.sources, o.sources),
            (&mut self.later_pages, o.later_pages),
        ];
        for (mine, its) in pairs {
            *mine += its;
        }
    }
}

impl Display for Counts {
    fn fmt(&self, f: &mut Formatter) -> Written {
        write!(
            f,
            "{} cases: {} offers placed ({} turned, {} with trim on, {} on a later page), {} all clear (7), {} too large (8), {} at a limit (9, 10); \
             {} asks, {} withdrawals, {} page sizes, {} pixels, {} composed rows of {} pixels, {} checks of exported rows, {} image rows, {} coordinates, {} source corners",
            self.cases,
            self.placed,
            self.turned,
            self.trimmed,
            self.later_pages,
            self.clear,
            self.too_large,
            self.limits,
            self.asks,
            self.withdrawals,
            self.page_sizes,
            self.pixels,
            self.composed_rows,
            self.composed_pixels,
            self.checks,
            self.image_rows,
            self.coordinates,
            self.sources
        )
    }
}

pub struct Difference {
    pub text: String,
}

fn words(bytes: &[u8]) -> String {
    let mut words: Vec<u32> = bytes.chunks_exact(4).map(|b| u32::from_le_bytes([b[0], b[1], b[2], b[3]])).collect();
    let more = words.len().saturating_sub(24);
    words.truncate(24);
    if more > 0 {
        format!("{words:?} and {more} words more")
    } else {
        format!("{words:?}")
    }
}

fn named(script: &Script, answers: &[u8]) -> Difference {
    let differing = (0..script.answers.len()).find(|&n| script.answer(n, &script.expected) != script.answer(n, answers));
    match differing {
        None => Difference { text: "the library writes more than was asked for".to_string() },
        Some(n) => {
            let about = script.answers[n].1;
            let crates = script.answer(n, &script.expected);
            let ours = whole_answer(&answers[script.answers[n].0.min(answers.len())..]);
            let first = crates.iter().zip(ours).take_while(|(a, b)| a == b).count();
            let text = format!("{about:?}\n    by the crate    {}\n    by the library  {}\n    from byte {first} of the answer", words(crates), words(ours));
            Difference { text }
        }
    }
}

/// The answer at the start of what was written, by the length that it gives itself.
fn whole_answer(written: &[u8]) -> &[u8] {
    let length = written.get(..4).map_or(0, |b| u32::from_le_bytes([b[0], b[1], b[2], b[3]]) as usize);
    &written[..(4 + 4 * length).min(written.len())]
}

fn panicked(what: Box<dyn std::any::Any + Send>) -> String {
    let text = what.downcast_ref::<String>().cloned().or_else(|| what.downcast_ref::<&str>().map(|s| s.to_string()));
    text.unwrap_or_default()
}

/// The script of a case, or how the crate fails at it.
pub fn scripted(case: &Case, reading: Reading, aside: Aside) -> Result<Script, Difference> {
    catch_unwind(AssertUnwindSafe(|| expect(case, reading, aside))).map_err(|p| Difference { text: format!("the crate panics: {}", panicked(p)) })
}

/// Where the library's answers to a script are not those expected, if they are not.
fn differing(case: &Case, script: &Script) -> Option<Difference> {
    match library::run(&script.bytes, &case.symbols, &case.wording, script.expected.len() + 64) {
        None => Some(Difference { text: "the library touches bytes past its answers".to_string() }),
        Some(answers) if answers == script.expected => None,
        Some(answers) => Some(named(script, &answers)),
    }
}

/// Where the two sides differ, if they do.
pub fn compared(case: &Case, reading: Reading, counts: &mut Counts) -> Option<Difference> {
    let mut own = Counts::default();
    let mut found = None;
    let mut aside = |script: Script| {
        if found.is_none() {
            found = differing(case, &script);
            own.add_aside(&script);
        }
    };
    let script = match scripted(case, reading, &mut aside) {
        Ok(script) => script,
        Err(difference) => return Some(difference),
    };
    found = differing(case, &script).or(found);
    if found.is_none() {
        own.add(case, &script);
        counts.join(&own);
    }
    found
}
