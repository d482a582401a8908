//! The crate, driven as its users drive it.

use crate::case::{Art, Case, Config, Image};
use crate::sketch::Sketch;
use crate::wrong::Reading;
use image::Rgba;
use texture_packer::texture::Texture;
use texture_packer::{Frame, MultiTexturePacker, TexturePacker, TexturePackerConfig};

pub type Page<'a> = TexturePacker<'a, Art, u32>;

/// A standing image, what the crate reads of it, its page, and its frame as the crate tells it.
pub struct Standing<'a> {
    pub image: Image,
    pub art: &'a Art,
    pub page: u32,
    pub frame: Frame<u32>,
}

pub enum Packed {
    Placed(u32, Frame<u32>),
    Empty,
    TooLarge,
}

/// The crate's packer; a wrong order of placing has one of its own.
enum Pages<'a> {
    Multi(MultiTexturePacker<'a, Art, u32>),
    Sketch(Sketch),
}

pub struct Packer<'a> {
    pages: Pages<'a>,
}

/// The configuration that the crate is given; a wrong reading may be one of another configuration.
fn configured(c: &Config, reading: Reading) -> TexturePackerConfig {
    let mut k = c.for_crate();
    match reading {
        Reading::PaddingDroppedAtRightEdge => k.max_width += c.padding,
        Reading::ExtrusionOnOneSide => k.texture_extrusion = c.extrusion / 2,
        Reading::LastRowUsed => k.max_height += 1,
        Reading::ForcedSizeIgnored => k.force_max_dimensions = false,
        Reading::CanvasLessBorder => {
            k.max_width = c.width.saturating_sub(2 * c.border).max(1);
            k.max_height = c.height.saturating_sub(2 * c.border).max(1);
        }
        _ => {}
    }
    k
}

impl<'a> Packer<'a> {
    pub fn new(c: &Config, reading: Reading) -> Packer<'a> {
        let pages = match reading.sketched() {
            true => Pages::Sketch(Sketch::new(*c, reading)),
            false => Pages::Multi(MultiTexturePacker::new_skyline(configured(c, reading))),
        };
        Packer { pages }
    }

    /// A fresh run over what stands.
    pub fn fresh(c: &Config, standing: &[Standing<'a>], reading: Reading) -> Packer<'a> {
        let mut packer = Packer::new(c, reading);
        for s in standing {
            packer.pack(&s.image, s.art);
        }
        packer
    }

    pub fn pages(&self) -> &[Page<'a>] {
        match &self.pages {
            Pages::Multi(m) => m.get_pages(),
            Pages::Sketch(_) => &[],
        }
    }

    pub fn pack(&mut self, image: &Image, art: &'a Art) -> Packed {
        match &mut self.pages {
            Pages::Multi(m) => packed(m, image.key, art),
            Pages::Sketch(s) => s.pack(image, art),
        }
    }
}

/// Even keys own their image, odd ones borrow it.
fn packed<'a>(multi: &mut MultiTexturePacker<'a, Art, u32>, key: u32, art: &'a Art) -> Packed {
    let result = if key.is_multiple_of(2) { multi.pack_own(key, art.clone()) } else { multi.pack_ref(key, art) };
    // the crate does not export the type of its errors, only their names can be read
    match result.map_err(|e| format!("{e:?}")).err().as_deref() {
        None => {
            let found = multi.get_pages().iter().enumerate().find_map(|(n, p)| p.get_frame(&key).map(|f| (n as u32, f.clone())));
            let (page, frame) = found.expect("the crate packs an image and has no frame of it");
            Packed::Placed(page, frame)
        }
        Some("TextureEmpty") => Packed::Empty,
        Some("TextureTooLargeToFitIntoAtlas") => Packed::TooLarge,
        Some(other) => panic!("the crate answers {other}"),
    }
}

/// The image that the crate is given.
pub fn read_as(case: &Case, image: &Image, reading: Reading) -> Art {
    if reading == Reading::StoresSwapped {
        let other = case.art(&Image { wording: !image.wording, ..*image });
        if other.at(image.w - 1, image.h - 1).is_some() {
            return other;
        }
    }
    case.art(image)
}

/// Some rows of a page of the crate.
pub struct Window<'p> {
    pub page: &'p Page<'p>,
    pub size: (u32, u32),
    pub first: u32,
    pub rows: u32,
    pub extrusion: u32,
    pub outlines: bool,
    pub reading: Reading,
}

impl Window<'_> {
    /// What the page shows at a point; a wrong reading changes the point or the answer.
    pub fn seen(&self, x: u32, y: u32) -> Option<[u8; 4]> {
        let right = |x, y| self.page.get(x, y).map(|p: Rgba<u8>| p.0);
        if self.reading == Reading::Right {
            return right(x, y);
        }
        let e = self.extrusion;
        let holds = |f: &&Frame<u32>| {
            let (left, top) = (f.frame.x.saturating_sub(e), f.frame.y.saturating_sub(e));
            left <= x && x < left + f.frame.w + 2 * e && top <= y && y < top + f.frame.h + 2 * e
        };
        let Some(frame) = self.page.get_frames().values().find(holds) else { return right(x, y) };
        let f = frame.frame;
        let inside = f.contains_point(x, y);
        match self.reading {
            Reading::TurnedMirrored if frame.rotated && inside => right(f.right() - (x - f.x), y),
            Reading::TurnedTheOtherWay if frame.rotated && inside => right(f.right() - (x - f.x), f.bottom() - (y - f.y)),
            Reading::ZoneCutOnTheLeft if x >= f.x + f.w + e || y >= f.y + f.h + e => None,
            Reading::NoExtrusion if !inside => None,
            Reading::OutlineOnlyInFrame if self.outlines && !inside => None,
            Reading::OutlineOfZone if self.outlines && f.is_outline(x, y) && inside && e > 0 => right(f.x - f.x.min(e), f.y - f.y.min(e)),
            _ => right(x, y),
        }
    }
}

/// The rows of a window, read once from the page's `get`, as a texture of their own, so that the crate's exporter composes them.
pub struct Rows {
    width: u32,
    height: u32,
    pixels: Vec<Option<Rgba<u8>>>,
}

impl Rows {
    pub fn of(window: &Window) -> Rows {
        let (width, height) = (window.size.0, window.rows);
        let points = (0..height).flat_map(|y| (0..width).map(move |x| (x, y)));
        let pixels = points.map(|(x, y)| window.seen(x, window.first + y).map(Rgba)).collect();
        Rows { width, height, pixels }
    }
}

impl Texture for Rows {
    type Pixel = Rgba<u8>;

    fn width(&self) -> u32 {
        self.width
    }

    fn height(&self) -> u32 {
        self.height
    }

    fn get(&self, x: u32, y: u32) -> Option<Rgba<u8>> {
        self.pixels[y as usize * self.width as usize + x as usize]
    }

    fn set(&mut self, _x: u32, _y: u32, _val: Rgba<u8>) {
        unreachable!("a page is only read")
    }
}
