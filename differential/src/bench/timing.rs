//! Scripts for the library that are timed, and times.

use crate::case::{Config, Image};
use crate::library::run_into;
use std::hint::black_box;
use std::time::Instant;

/// Of everything but trimming and the crate's exporter.
pub const TURNS: usize = 25;

/// A script for the library, with room for its answers.
#[derive(Clone)]
pub struct Calls {
    words: Vec<u32>,
    room: usize,
}

impl Calls {
    pub fn open(c: &Config) -> Calls {
        let switches = [c.rotation, c.trim, c.outlines, c.forced].map(u32::from);
        let mut words = vec![0, c.width, c.height, c.padding, c.border, c.extrusion, c.pages, c.images];
        words.extend(switches);
        Calls { words, room: 64 }
    }

    /// Open, and each image offered.
    pub fn offering(c: &Config, images: &[Image]) -> Calls {
        let mut calls = Calls::open(c);
        images.iter().for_each(|i| calls.offer(i));
        calls
    }

    pub fn push(&mut self, words: &[u32], answer: usize) {
        self.words.extend_from_slice(words);
        self.room += answer;
    }

    pub fn offer(&mut self, i: &Image) {
        self.push(&[2, i.key, 0, i.offset, i.w, i.h], 32);
    }

    /// All rows of page 0, without a background.
    pub fn compose(&mut self, w: u32, h: u32) {
        self.push(&[6, 0, 0, 0, 256, 0, 0, h, 4 * w * h], 8 + 4 * w as usize * h as usize);
    }

    pub fn bytes(&self) -> Vec<u8> {
        self.words.iter().flat_map(|w| w.to_le_bytes()).collect()
    }

    /// Microseconds of one run, and what it answers.
    pub fn time(&self, store: &[u8], answers: &mut Vec<u8>) -> f64 {
        let script = self.bytes();
        answers.resize(self.room, 0);
        let start = Instant::now();
        let written = run_into(&script, store, &[], answers);
        let time = micros(start);
        answers.truncate(written);
        time
    }
}

pub fn micros(start: Instant) -> f64 {
    start.elapsed().as_nanos() as f64 / 1000.0
}

/// Microseconds of something.
pub fn timed<T>(thing: impl FnOnce() -> T) -> f64 {
    let start = Instant::now();
    black_box(thing());
    micros(start)
}

/// Several things timed in turns; the least of each: what else the machine does can only add to a time. A difference is taken of two such, since the
/// least of differences would be too small.
pub fn least_of<const N: usize>(turns: usize, mut things: [&mut dyn FnMut() -> f64; N]) -> [f64; N] {
    let mut least = [f64::INFINITY; N];
    for _ in 0..turns {
        for (thing, its) in things.iter_mut().zip(&mut least) {
            *its = its.min(thing());
        }
    }
    least
}
