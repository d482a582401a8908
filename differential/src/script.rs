//! A script for the library under comparison, with the answers that the crate makes us expect, byte for byte.

use crate::case::{Background, Config, Image};

/// What an answer is about, to count it and to name it where it differs.
#[derive(Clone, Copy, Debug, PartialEq)]
pub enum About {
    Open,
    Ask { page: u32, w: u32, h: u32 },
    Offer { key: u32 },
    Withdraw,
    PageSize { page: u32 },
    Pixel { page: u32, x: u32, y: u32 },
    Rows { page: u32, first: u32, rows: u32, background: Option<Background> },
    Check { page: u32, first: u32, rows: u32 },
    ImageRow { key: u32, row: u32 },
    Coordinates { key: u32, request: u32 },
    Source { key: u32, x: u32, y: u32 },
    TrimmedMarks,
    End,
}

/// A pixel of a page that shows a pixel of the source of the image with this key.
pub struct Corner {
    pub key: u32,
    pub page: u32,
    pub x: u32,
    pub y: u32,
    pub seen: Option<[u8; 4]>,
}

pub struct Script {
    pub bytes: Vec<u8>,
    pub expected: Vec<u8>,
    /// For each answer, where it starts in `expected`.
    pub answers: Vec<(usize, About)>,
}

fn push(to: &mut Vec<u8>, words: &[u32]) {
    for w in words {
        to.extend_from_slice(&w.to_le_bytes());
    }
}

impl Script {
    pub fn new() -> Script {
        Script { bytes: Vec::new(), expected: Vec::new(), answers: Vec::new() }
    }

    fn expect(&mut self, about: About, words: &[u32]) {
        self.answers.push((self.expected.len(), about));
        push(&mut self.expected, &[words.len() as u32]);
        push(&mut self.expected, words);
    }

    /// A 0, then bytes that are whole words.
    fn expect_bytes(&mut self, about: About, bytes: &[u8]) {
        self.answers.push((self.expected.len(), about));
        push(&mut self.expected, &[1 + bytes.len() as u32 / 4, 0]);
        self.expected.extend_from_slice(bytes);
    }

    pub fn open(&mut self, c: &Config, answer: &[u32]) {
        let switches = [c.rotation, c.trim, c.outlines, c.forced].map(u32::from);
        push(&mut self.bytes, &[0, c.width, c.height, c.padding, c.border, c.extrusion, c.pages, c.images]);
        push(&mut self.bytes, &switches);
        self.expect(About::Open, answer);
    }

    pub fn ask(&mut self, page: u32, w: u32, h: u32, answer: &[u32]) {
        push(&mut self.bytes, &[1, page, w, h]);
        self.expect(About::Ask { page, w, h }, answer);
    }

    pub fn offer(&mut self, i: &Image, answer: &[u32]) {
        push(&mut self.bytes, &[2, i.key, u32::from(i.wording), i.offset, i.w, i.h]);
        self.expect(About::Offer { key: i.key }, answer);
    }

    pub fn withdraw(&mut self, answer: &[u32]) {
        push(&mut self.bytes, &[3]);
        self.expect(About::Withdraw, answer);
    }

    pub fn page_size(&mut self, page: u32, answer: &[u32]) {
        push(&mut self.bytes, &[4, page]);
        self.expect(About::PageSize { page }, answer);
    }

    pub fn pixel(&mut self, page: u32, x: u32, y: u32, seen: Option<[u8; 4]>) {
        push(&mut self.bytes, &[5, page, x, y]);
        self.expect_pixel(About::Pixel { page, x, y }, seen);
    }

    fn expect_pixel(&mut self, about: About, seen: Option<[u8; 4]>) {
        match seen {
            None => self.expect(about, &[0, 0]),
            Some(p) => self.expect(about, &[0, 1, u32::from(p[0]), u32::from(p[1]), u32::from(p[2]), u32::from(p[3])]),
        }
    }

    fn background(&mut self, background: Option<Background>) {
        match background {
            // without a background the other words are not looked at
            None => push(&mut self.bytes, &[0, 0x01020304, 7, 1]),
            Some(g) => {
                let color = u32::from_le_bytes(g.color);
                push(&mut self.bytes, &[1, color, g.threshold.map_or(256, u32::from), u32::from(g.discard)]);
            }
        }
    }

    /// Composes rows; where their bytes start in the answers.
    pub fn rows(&mut self, page: u32, background: Option<Background>, first: u32, rows: u32, composed: &[u8]) -> usize {
        push(&mut self.bytes, &[6, page]);
        self.background(background);
        push(&mut self.bytes, &[first, rows, composed.len() as u32]);
        self.expect_bytes(About::Rows { page, first, rows, background }, composed);
        self.expected.len() - composed.len()
    }

    /// Rows that stand in the script itself are checked.
    pub fn check(&mut self, page: u32, background: Option<Background>, first: u32, rows: u32, composed: &[u8], answer: &[u32]) {
        push(&mut self.bytes, &[11, composed.len() as u32 / 4]);
        let start = self.bytes.len() as u32;
        self.bytes.extend_from_slice(composed);
        push(&mut self.bytes, &[7, page]);
        self.background(background);
        push(&mut self.bytes, &[first, rows, 0, start, composed.len() as u32]);
        self.expect(About::Check { page, first, rows }, answer);
    }

    /// Rows that stand in the answers are checked: where their bytes start, and how many there are.
    pub fn check_answered(&mut self, page: u32, background: Option<Background>, (first, rows): (u32, u32), (start, length): (usize, usize), answer: &[u32]) {
        push(&mut self.bytes, &[7, page]);
        self.background(background);
        push(&mut self.bytes, &[first, rows, 1, start as u32, length as u32]);
        self.expect(About::Check { page, first, rows }, answer);
    }

    pub fn image_row(&mut self, key: u32, row: u32, bytes: Option<&[u8]>) {
        push(&mut self.bytes, &[8, key, row]);
        let about = About::ImageRow { key, row };
        match bytes {
            Some(b) => self.expect_bytes(about, b),
            None => self.expect(about, &[13]),
        }
    }

    pub fn coordinates(&mut self, key: u32, request: u32, inset: f32, answer: &[u32]) {
        push(&mut self.bytes, &[9, key, request, inset.to_bits()]);
        self.expect(About::Coordinates { key, request }, answer);
    }

    /// Extrusion and outlines are off for the corners' pixels, so that a frame shows its source and nothing else.
    pub fn sources(&mut self, c: &Config, corners: &[Corner]) {
        push(&mut self.bytes, &[10, 4, 0, 0, 10, 9, 0, 0]);
        for &Corner { key, page, x, y, seen } in corners {
            push(&mut self.bytes, &[5, page, x, y]);
            self.expect_pixel(About::Source { key, x, y }, seen);
        }
        push(&mut self.bytes, &[10, 4, 0, c.extrusion, 10, 9, 0, u32::from(c.outlines)]);
    }

    /// With the trim switch set the other way no record has the mark that it wants, so the layout is not well-formed for a moment.
    pub fn trimmed_marks(&mut self, c: &Config) {
        push(&mut self.bytes, &[10, 8, 0, u32::from(!c.trim), 4, 0]);
        self.expect(About::TrimmedMarks, &[2]);
        push(&mut self.bytes, &[10, 8, 0, u32::from(c.trim)]);
    }

    pub fn end(&mut self) {
        let length = self.bytes.len() as u32;
        self.expect(About::End, &[0, length]);
    }

    /// The bytes of the answer with this number, in what was expected or in what was written.
    pub fn answer<'b>(&self, number: usize, from: &'b [u8]) -> &'b [u8] {
        let start = self.answers[number].0.min(from.len());
        let end = self.answers.get(number + 1).map_or(self.expected.len(), |a| a.0).min(from.len());
        &from[start..end]
    }
}
