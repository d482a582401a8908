//! What a page of the crate shows: pixels one by one, and all its rows by the crate's exporter.

use crate::case::{Background, Detail, Look};
use crate::expect::Run;
use crate::packer::{Rows, Window};
use crate::random::Random;
use crate::script::Script;
use crate::wrong::Reading;
use image::{DynamicImage, Rgba};
use texture_packer::exporter::{BackgroundColorSettings, ImageExporter};
use texture_packer::texture::Texture;

/// On a page of more points than this `pixel` is asked for some; every row is composed all the same.
const EVERY_POINT: u64 = 10_000;
/// A page of no more pixels than this is composed whole in the case's own script; a larger one has scripts of its own, some rows in each.
const IN_ONE_SCRIPT: u64 = 40_000;
/// The pixels of such rows.
const IN_ONE_STRIP: u32 = 1 << 20;

/// The same bytes with one changed.
fn other(bytes: &[u8], place: usize) -> Vec<u8> {
    let mut b = bytes.to_vec();
    b[place] ^= 0x40;
    b
}

/// What a check of `bytes` against `wanted` answers: same, or the first pixel that differs.
fn first_other(bytes: &[u8], wanted: &[u8], w: u32, first: u32) -> Vec<u32> {
    match bytes.chunks(4).zip(wanted.chunks(4)).position(|(a, b)| a != b) {
        None => vec![0],
        Some(at) => vec![0, at as u32 % w, first + at as u32 / w],
    }
}

fn bytes_of(image: Result<DynamicImage, String>) -> Vec<u8> {
    match image.expect("the crate exports a page that has rows") {
        DynamicImage::ImageRgba8(i) => i.into_raw(),
        _ => panic!("the crate exports another form"),
    }
}

impl Run<'_, '_> {
    fn window(&self, page: u32, size: (u32, u32), first: u32, rows: u32) -> Window<'_> {
        let c = &self.case.config;
        Window { page: &self.packer.pages()[page as usize], size, first, rows, extrusion: c.extrusion, outlines: c.outlines, reading: self.reading }
    }

    /// Every pixel of a small page and of some columns and rows past its edge; of a large one pixels about the frames' edges and anywhere.
    pub fn pixels(&mut self, page: u32, (w, h): (u32, u32), look: &Look, random: &mut Random) {
        let past = self.case.config.extrusion + 1;
        let all = look.detail == Detail::Every && u64::from(w + past) * u64::from(h + past) <= EVERY_POINT;
        let points: Vec<(u32, u32)> =
            if all { (0..h + past).flat_map(|y| (0..w + past).map(move |x| (x, y))).collect() } else { self.some_points(page, (w, h), look.detail, random) };
        let window = self.window(page, (w, h), 0, h);
        let seen: Vec<_> = points.iter().map(|&(x, y)| (x, y, window.seen(x, y))).collect();
        for (x, y, p) in seen {
            self.script.pixel(page, x, y, p);
        }
        self.script.pixel(page, u32::MAX, u32::MAX, None);
    }

    fn some_points(&self, page: u32, (w, h): (u32, u32), detail: Detail, random: &mut Random) -> Vec<(u32, u32)> {
        let past = self.case.config.extrusion + 1;
        let (anywhere, frames, each) = if detail == Detail::Few { (3, 4, 2) } else { (64, 24, 8) };
        let mut points: Vec<_> = (0..anywhere).map(|_| (random.within(0, w + past), random.within(0, h + past))).collect();
        for s in self.standing.iter().filter(|s| s.page == page).take(frames) {
            let f = s.frame.frame;
            let reach = 2 * past;
            for _ in 0..each {
                let x = (f.x + random.within(0, f.w + reach)).saturating_sub(past);
                let y = (f.y + random.within(0, f.h + reach)).saturating_sub(past);
                points.push((x, y));
            }
        }
        points
    }

    /// Every row of the page by the crate's exporter, without a background and with the look's.
    pub fn composed(&mut self, page: u32, size: (u32, u32), look: &Look, random: &mut Random) {
        let whole = u64::from(size.0) * u64::from(size.1) <= IN_ONE_SCRIPT;
        match look.detail {
            Detail::Few => self.few_rows(page, size, look, random),
            _ if whole => self.whole_page(page, size, look, random),
            _ => self.strips(page, size, look),
        }
    }

    fn whole_page(&mut self, page: u32, (w, h): (u32, u32), look: &Look, random: &mut Random) {
        for background in [None, Some(look.background)] {
            let bytes = self.exported(page, (w, h), background);
            self.script.rows(page, background, 0, h, &bytes);
            if bytes.len() > 4000 {
                continue;
            }
            if h > 1 {
                let start = random.within(0, h - 1);
                let count = random.within(1, h - start);
                let line = 4 * w as usize;
                self.script.rows(page, background, start, count, &bytes[start as usize * line..(start + count) as usize * line]);
            }
            self.script.check(page, background, 0, h, &bytes, &[0]);
            let changed = other(&bytes, random.within(0, bytes.len() as u32 - 1) as usize);
            self.script.check(page, background, 0, h, &changed, &first_other(&changed, &bytes, w, 0));
        }
    }

    /// Some rows of a page of any size, and a check of them where they are short.
    fn few_rows(&mut self, page: u32, (w, h): (u32, u32), look: &Look, random: &mut Random) {
        let background = if random.once_in(3) { None } else { Some(look.background) };
        let first = self.row_of_interest(page, h, random);
        let rows = if w > 64 { 1 } else { random.within(1, (h - first).min(3)) };
        // a page of 4096 columns has rows of 16384 bytes
        if w > 256 && !random.once_in(10) {
            return;
        }
        let shown = Rows::of(&self.window(page, (w, h), first, rows));
        let bytes = self.shown_by(&shown, background);
        self.script.rows(page, background, first, rows, &bytes);
        if w > 64 {
            return;
        }
        if random.once_in(2) {
            self.script.check(page, background, first, rows, &bytes, &[0]);
        } else {
            let changed = other(&bytes, random.within(0, bytes.len() as u32 - 1) as usize);
            self.script.check(page, background, first, rows, &changed, &first_other(&changed, &bytes, w, first));
        }
    }

    /// A row of some frame, or any.
    fn row_of_interest(&self, page: u32, h: u32, random: &mut Random) -> u32 {
        let frames: Vec<_> = self.standing.iter().filter(|s| s.page == page).map(|s| s.frame.frame).collect();
        if frames.is_empty() || random.once_in(8) {
            return random.within(0, h - 1);
        }
        let f = random.pick(&frames);
        random.within(f.y, f.y + f.h - 1).min(h - 1)
    }

    /// The page's rows from above to below, each strip in a script of its own, so that no answer is larger than a strip.
    fn strips(&mut self, page: u32, (w, h): (u32, u32), look: &Look) {
        let step = (IN_ONE_STRIP / w).max(1);
        for first in (0..h).step_by(step as usize) {
            let rows = step.min(h - first);
            let shown = Rows::of(&self.window(page, (w, h), first, rows));
            let (bare, over) = (self.shown_by(&shown, None), self.shown_by(&shown, Some(look.background)));
            let mut script = self.standing_again();
            let start = script.rows(page, None, first, rows, &bare);
            script.check_answered(page, None, (first, rows), (start, bare.len()), &[0]);
            script.check_answered(page, Some(look.background), (first, rows), (start, bare.len()), &first_other(&bare, &over, w, first));
            script.rows(page, Some(look.background), first, rows, &over);
            script.end();
            (self.aside)(script);
        }
    }

    /// Open, and what stands offered in its order.
    fn standing_again(&self) -> Script {
        let mut script = Script::new();
        script.open(&self.case.config, &[0]);
        for s in &self.standing {
            script.offer(&s.image, &self.placed(s.page, &s.frame));
        }
        script
    }

    fn exported(&self, page: u32, size: (u32, u32), background: Option<Background>) -> Vec<u8> {
        if self.reading == Reading::Right {
            return bytes_of(ImageExporter::export(&self.packer.pages()[page as usize], background.map(|g| self.settings(g))));
        }
        self.shown_by(&Rows::of(&self.window(page, size, 0, size.1)), background)
    }

    fn shown_by(&self, rows: &Rows, background: Option<Background>) -> Vec<u8> {
        let mut bytes = bytes_of(ImageExporter::export(rows, background.map(|g| self.settings(g))));
        if self.reading == Reading::HoleWithoutBackground && background.is_some() {
            empty_holes(&mut bytes, rows);
        }
        bytes
    }

    fn settings(&self, g: Background) -> BackgroundColorSettings {
        let threshold = match (self.reading, g.threshold) {
            (Reading::ThresholdStrict, Some(t)) => Some(t.saturating_sub(1)),
            (Reading::DiscardWithoutThreshold, None) if g.discard => Some(0),
            (_, t) => t,
        };
        BackgroundColorSettings { color: Rgba(g.color), region_transparency_threshold: threshold, discard_own_alpha_on_threshold_test: g.discard }
    }
}

fn empty_holes(bytes: &mut [u8], rows: &Rows) {
    for (place, pixel) in bytes.chunks_mut(4).enumerate() {
        let (x, y) = (place as u32 % rows.width(), place as u32 / rows.width());
        if rows.get(x, y).is_none() {
            pixel.fill(0);
        }
    }
}
