//! Placing by columns, in a few lines, in wrong orders. The crate's own order cannot be switched, so these readings have a packer of their own;
//! in the right order it is compared as well, so that it is the order alone that is found.

use crate::case::{Art, Config, Image};
use crate::packer::Packed;
use crate::wrong::Reading;
use texture_packer::{Frame, Rect};

pub struct Sketch {
    config: Config,
    reading: Reading,
    /// for each page the height of each column
    pages: Vec<Vec<u32>>,
}

#[derive(Clone, Copy)]
struct Spot {
    x: u32,
    y: u32,
    w: u32,
    h: u32,
    segment: u32,
    turned: bool,
}

impl Sketch {
    pub fn new(config: Config, reading: Reading) -> Sketch {
        Sketch { config, reading, pages: Vec::new() }
    }

    /// What is least is best.
    fn rank(&self, s: &Spot) -> [u32; 4] {
        let bottom = s.y + s.h - 1;
        let turned = u32::from(s.turned);
        match self.reading {
            Reading::UprightBeforeStart => [bottom, s.segment, turned, s.x],
            Reading::UprightBeforeSegment => [bottom, turned, s.segment, s.x],
            Reading::UprightFirst => [turned, bottom, s.segment, s.x],
            Reading::WiderSegment => [bottom, u32::MAX - s.segment, s.x, turned],
            Reading::SegmentNotAsked => [bottom, s.x, turned, 0],
            Reading::LaterStart => [bottom, s.segment, u32::MAX - s.x, turned],
            Reading::TopForBottom => [s.y, s.segment, s.x, turned],
            Reading::TurnedBeforeUpright => [bottom, s.segment, s.x, 1 - turned],
            _ => [bottom, s.segment, s.x, turned],
        }
    }

    fn spot(&self, page: &[u32], start: usize, w: u32, h: u32, turned: bool) -> Option<Spot> {
        let (w, h) = if turned { (h, w) } else { (w, h) };
        let end = start + w as usize;
        let y = *page.get(start..end)?.iter().max()?;
        let next = (start + 1..page.len()).find(|&c| page[c] != page[start]).unwrap_or(page.len());
        (y + h < self.config.height).then_some(Spot { x: start as u32, y, w, h, segment: (next - start) as u32, turned })
    }

    fn best(&self, page: &[u32], w: u32, h: u32) -> Option<Spot> {
        let turns: &[bool] = if self.config.rotation && w != h { &[false, true] } else { &[false] };
        let starts = (0..page.len()).filter(|&c| c == 0 || page[c] != page[c - 1]);
        starts.flat_map(|s| turns.iter().filter_map(move |&t| self.spot(page, s, w, h, t))).min_by_key(|s| self.rank(s))
    }

    /// The place of an image of a whole and a trimmed size, which then stands.
    fn place(&mut self, whole: (u32, u32), trimmed: (u32, u32)) -> Option<(u32, Spot)> {
        let around = self.config.padding + 2 * self.config.extrusion;
        let cell = |size: (u32, u32)| (size.0 + around, size.1 + around);
        let blank = vec![0; self.config.width as usize];
        let refused = cell(if self.reading == Reading::TooLargeByWholeSize { whole } else { trimmed });
        self.best(&blank, refused.0, refused.1)?;
        let asked = cell(if self.reading == Reading::PageByTrimmedSize { trimmed } else { whole });
        let tried = if self.reading == Reading::OnlyLastPageTried { self.pages.len().saturating_sub(1) } else { 0 };
        let found = (tried..self.pages.len()).find(|&p| self.best(&self.pages[p], asked.0, asked.1).is_some());
        let page = found.unwrap_or(self.pages.len());
        if page == self.pages.len() {
            self.pages.push(blank);
        }
        let (w, h) = cell(trimmed);
        let large = cell(whole);
        let spot = match self.best(&self.pages[page], large.0, large.1) {
            Some(s) if self.reading == Reading::WholeCellPlaced => s,
            _ => self.best(&self.pages[page], w, h)?,
        };
        self.pages[page][spot.x as usize..(spot.x + spot.w) as usize].fill(spot.y + spot.h);
        Some((page as u32, spot))
    }

    pub fn pack(&mut self, image: &Image, art: &Art) -> Packed {
        let whole = Rect::new(0, 0, image.w, image.h);
        let least = if self.reading == Reading::VisibleMeansOpaque { 255 } else { 1 };
        let Some(seen) = (if self.config.trim { visible_box(art, least) } else { Some(whole) }) else { return Packed::Empty };
        let Some((page, spot)) = self.place((image.w, image.h), (seen.w, seen.h)) else { return Packed::TooLarge };
        let (w, h) = if spot.turned { (seen.h, seen.w) } else { (seen.w, seen.h) };
        let frame = Rect::new(spot.x + self.config.border, spot.y + self.config.border, w, h);
        let source = Rect::new(seen.x, seen.y, image.w, image.h);
        Packed::Placed(page, Frame { key: image.key, frame, rotated: spot.turned, trimmed: self.config.trim, source })
    }
}

fn visible_box(art: &Art, least: u8) -> Option<Rect> {
    let seen = |x: u32, y: u32| art.at(x, y).is_some_and(|p| p[3] >= least);
    let rows: Vec<u32> = (0..art.h).filter(|&y| (0..art.w).any(|x| seen(x, y))).collect();
    let columns: Vec<u32> = (0..art.w).filter(|&x| (0..art.h).any(|y| seen(x, y))).collect();
    Some(Rect::new_with_points(*columns.first()?, *rows.first()?, *columns.last()?, *rows.last()?))
}
