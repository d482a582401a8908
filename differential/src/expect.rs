//! A case run on the crate: the script for the library, and the answers that the crate's make us expect.

use crate::case::{Art, Case, Detail, Image, Look, Step};
use crate::formulas::{edges, fits_alone};
use crate::packer::{read_as, Packed, Packer, Standing};
use crate::random::Random;
use crate::script::{Corner, Script};
use crate::wrong::Reading;
use texture_packer::texture::Texture;
use texture_packer::Frame;

/// Takes a script of its own for a part of a page that is too large to stand in the case's one.
pub type Aside<'s> = &'s mut dyn FnMut(Script);

pub struct Run<'c, 's> {
    pub case: &'c Case,
    pub reading: Reading,
    pub packer: Packer<'c>,
    pub standing: Vec<Standing<'c>>,
    /// the crate holds more than what stands
    stale: bool,
    pub script: Script,
    pub aside: Aside<'s>,
}

/// What the crate does with a case.
pub fn expect(case: &Case, reading: Reading, aside: Aside) -> Script {
    let offered = |step: &Step| match step {
        Step::Offer(image) => Some(read_as(case, image, reading)),
        _ => None,
    };
    let arts: Vec<Option<Art>> = case.steps.iter().map(offered).collect();
    let packer = Packer::new(&case.config, reading);
    let mut run = Run { case, reading, packer, standing: Vec::new(), stale: false, script: Script::new(), aside };
    run.script.open(&case.config, &[0]);
    for (step, art) in case.steps.iter().zip(&arts) {
        match (step, art) {
            (Step::Offer(image), Some(art)) => run.offer(image, art),
            (Step::Ask(page, w, h), _) => run.ask(*page, *w, *h),
            (Step::Withdraw, _) => run.withdraw(),
            (Step::Look(look), _) => run.look(look),
            (Step::Offer(_), None) => unreachable!("an offer has art"),
        }
    }
    run.script.end();
    run.script
}

fn turn_of(frame: &Frame<u32>) -> u32 {
    u32::from(frame.rotated)
}

impl<'c> Run<'c, '_> {
    /// The crate over exactly what stands.
    fn refresh(&mut self) {
        if self.stale {
            self.packer = Packer::fresh(&self.case.config, &self.standing, self.reading);
            self.stale = false;
        }
    }

    fn offer(&mut self, image: &Image, art: &'c Art) {
        self.refresh();
        let config = &self.case.config;
        let answer = match self.packer.pack(image, art) {
            Packed::Empty if self.reading == Reading::TooLargeBeforeClear && !fits_alone(self.case, image) => vec![8],
            Packed::Empty => vec![7],
            Packed::TooLarge => vec![8],
            Packed::Placed(page, frame) => {
                let limit = config.pages + u32::from(self.reading == Reading::PageLimitOneMore);
                let images = config.images + u32::from(self.reading == Reading::ImageLimitOneMore);
                // the crate has no limits, so it holds an image too many after these two
                if self.standing.len() as u32 == images {
                    self.stale = true;
                    vec![9]
                } else if page >= limit {
                    self.stale = true;
                    vec![10]
                } else {
                    let answer = self.placed(page, &frame);
                    self.standing.push(Standing { image: *image, art, page, frame });
                    answer
                }
            }
        };
        self.script.offer(image, &answer);
    }

    /// The offer's answer for a frame.
    pub fn placed(&self, page: u32, frame: &Frame<u32>) -> Vec<u32> {
        let mut f = frame.frame;
        let mut turn = turn_of(frame);
        match self.reading {
            Reading::FrameMovedByExtrusion => {
                f.x += self.case.config.extrusion;
                f.y += self.case.config.extrusion;
            }
            Reading::SquareTurned if self.case.config.rotation && f.w == f.h => turn = 1,
            Reading::TurnNotReported => turn = 0,
            Reading::SizeNotSwapped if frame.rotated => std::mem::swap(&mut f.w, &mut f.h),
            _ => {}
        }
        vec![0, page, f.x, f.y, f.w, f.h, turn]
    }

    fn ask(&mut self, page: u32, w: u32, h: u32) {
        self.refresh();
        let answer = match self.packer.pages().get(page as usize) {
            None => vec![11],
            Some(p) => vec![0, u32::from(p.can_pack(&Art::bare(w, h)))],
        };
        self.script.ask(page, w, h, &answer);
    }

    fn withdraw(&mut self) {
        let gone = match self.reading {
            Reading::FirstWithdrawn if !self.standing.is_empty() => Some(self.standing.remove(0)),
            _ => self.standing.pop(),
        };
        self.stale |= gone.is_some() && self.reading != Reading::RoomKeptAfterWithdrawal;
        match gone {
            Some(s) => self.script.withdraw(&[0, s.image.key]),
            None => self.script.withdraw(&[18]),
        }
    }

    fn look(&mut self, look: &Look) {
        self.refresh();
        let mut random = Random::new(look.seed, 0);
        let pages = self.packer.pages().len() as u32;
        for page in 0..pages {
            let (w, h) = self.size_of(page);
            self.script.page_size(page, &[0, w, h]);
            if self.case.config.pixels_compared() {
                self.pixels(page, (w, h), look, &mut random);
                self.composed(page, (w, h), look, &mut random);
            }
        }
        self.script.page_size(pages, &[11]);
        self.records(look.detail, &mut random);
    }

    fn size_of(&self, page: u32) -> (u32, u32) {
        let c = &self.case.config;
        let p = &self.packer.pages()[page as usize];
        let (w, h) = (p.width(), p.height());
        match self.reading {
            _ if c.forced => (w, h),
            Reading::PageSizeWithoutBorder => (w - c.border, h - c.border),
            Reading::PageSizeWithExtrusion => (w + c.extrusion, h + c.extrusion),
            _ => (w, h),
        }
    }

    /// For each standing image (or a few of them) its whole rows, its coordinates, and what its frame's corners show of its source.
    fn records(&mut self, detail: Detail, random: &mut Random) {
        let mut corners = Vec::new();
        let few = detail == Detail::Few;
        let step = if few { self.standing.len().div_ceil(5).max(1) } else { 1 };
        for s in self.standing.iter().step_by(step) {
            let art = self.case.art(&s.image);
            let key = s.image.key;
            let source = s.frame.source;
            let rows = [0, source.h - 1, random.within(0, source.h - 1)];
            for row in rows.into_iter().filter(|_| !few || source.w <= 32) {
                let start = art.offset + 4 * (row * source.w) as usize;
                self.script.image_row(key, row, Some(&art.store[start..start + 4 * source.w as usize]));
            }
            self.script.image_row(key, source.h, None);
            let f = s.frame.frame;
            self.script.coordinates(key, 0, 0.0, &[0, 0, f.x, f.y, f.w, f.h]);
            let size = self.size_of(s.page);
            for (request, inset) in [(1, 0.0), (2, random.within(0, 512) as f32 / 1024.0)] {
                self.script.coordinates(key, request, inset, &edges(f.x, f.y, f.w, f.h, size, inset));
            }
            let corner = if self.reading == Reading::TrimCornerForgotten { (0, 0) } else { (source.x, source.y) };
            // a turned frame shows the box's lower left pixel at its upper left
            let (first, last) = match s.frame.rotated {
                false => ((0, 0), (f.w - 1, f.h - 1)),
                true => ((0, f.w - 1), (f.h - 1, 0)),
            };
            let shown = |place: (u32, u32)| art.at(corner.0 + place.0, corner.1 + place.1);
            corners.push(Corner { key, page: s.page, x: f.x, y: f.y, seen: shown(first) });
            corners.push(Corner { key, page: s.page, x: f.x + f.w - 1, y: f.y + f.h - 1, seen: shown(last) });
        }
        self.script.sources(&self.case.config, &corners);
        if !self.standing.is_empty() {
            assert!(self.standing.iter().all(|s| s.frame.trimmed == self.case.config.trim), "a trimmed mark is not the switch");
            self.script.trimmed_marks(&self.case.config);
        }
    }
}
