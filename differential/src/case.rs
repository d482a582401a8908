//! One case: a configuration, two stores, and what is done one after the other.

use image::Rgba;
use std::fmt::Write;
use std::rc::Rc;
use texture_packer::texture::Texture;
use texture_packer::TexturePackerConfig;

#[derive(Clone, Copy, Debug, PartialEq)]
pub struct Config {
    pub width: u32,
    pub height: u32,
    pub padding: u32,
    pub border: u32,
    pub extrusion: u32,
    pub pages: u32,
    pub images: u32,
    pub rotation: bool,
    pub trim: bool,
    pub outlines: bool,
    pub forced: bool,
}

impl Config {
    /// All switches off and all distances 0.
    pub fn plain(width: u32, height: u32) -> Config {
        Config { width, height, padding: 0, border: 0, extrusion: 0, pages: 8, images: 256, rotation: false, trim: false, outlines: false, forced: false }
    }

    /// The crate has no limit of pages or images.
    pub fn for_crate(&self) -> TexturePackerConfig {
        TexturePackerConfig {
            max_width: self.width,
            max_height: self.height,
            allow_rotation: self.rotation,
            force_max_dimensions: self.forced,
            border_padding: self.border,
            texture_padding: self.padding,
            texture_extrusion: self.extrusion,
            trim: self.trim,
            texture_outlines: self.outlines,
        }
    }

    /// Zones of one page share no pixel; beyond this the crate's answer hangs on hash order.
    pub fn pixels_compared(&self) -> bool {
        self.extrusion <= self.border + self.padding
    }
}

#[derive(Clone, Copy, Debug, PartialEq)]
pub struct Image {
    pub key: u32,
    pub wording: bool,
    pub offset: u32,
    pub w: u32,
    pub h: u32,
}

#[derive(Clone, Copy, Debug, PartialEq)]
pub struct Background {
    pub color: [u8; 4],
    pub threshold: Option<u8>,
    pub discard: bool,
}

/// How much of a page a look goes through: every row, or only a few, in cases that have to be kept small.
#[derive(Clone, Copy, Debug, PartialEq)]
pub enum Detail {
    Few,
    Every,
}

/// What a look goes through; `seed` picks pixels and rows where not all are asked.
#[derive(Clone, Copy, Debug, PartialEq)]
pub struct Look {
    pub background: Background,
    pub seed: u64,
    pub detail: Detail,
}

#[derive(Clone, Copy, Debug, PartialEq)]
pub enum Step {
    Offer(Image),
    Ask(u32, u32, u32),
    Withdraw,
    Look(Look),
}

#[derive(Clone)]
pub struct Case {
    pub config: Config,
    pub symbols: Rc<Vec<u8>>,
    pub wording: Rc<Vec<u8>>,
    pub steps: Vec<Step>,
}

impl Case {
    pub fn store(&self, image: &Image) -> &Rc<Vec<u8>> {
        if image.wording {
            &self.wording
        } else {
            &self.symbols
        }
    }

    pub fn art(&self, image: &Image) -> Art {
        Art { store: self.store(image).clone(), offset: image.offset as usize, w: image.w, h: image.h }
    }

    /// The same case with every look of this detail.
    pub fn looked_at(mut self, detail: Detail) -> Case {
        for step in &mut self.steps {
            if let Step::Look(look) = step {
                look.detail = detail;
            }
        }
        self
    }

    pub fn inside_stores(&self) -> bool {
        self.steps.iter().all(|s| match s {
            Step::Offer(i) => u64::from(i.offset) + 4 * u64::from(i.w) * u64::from(i.h) <= self.store(i).len() as u64,
            _ => true,
        })
    }

    /// How large a case is to one who has to read it.
    pub fn size(&self) -> u64 {
        let c = &self.config;
        let switches = [c.rotation, c.trim, c.outlines, c.forced].iter().filter(|b| **b).count() as u64;
        let steps: u64 = self.steps.iter().map(step_size).sum();
        let distances = u64::from(c.padding + c.border + c.extrusion);
        steps + 20 * switches + 10 * distances + u64::from(c.width + c.height + c.pages + c.images)
    }

    pub fn text(&self) -> String {
        let mut t = String::new();
        let c = &self.config;
        let _ = writeln!(
            t,
            "  maxima {}x{}, padding {}, border {}, extrusion {}, pages {}, images {}, rotation {}, trim {}, outlines {}, forced {}",
            c.width, c.height, c.padding, c.border, c.extrusion, c.pages, c.images, c.rotation, c.trim, c.outlines, c.forced
        );
        for step in &self.steps {
            let _ = match step {
                Step::Offer(i) => {
                    let store = if i.wording { "wording" } else { "symbols" };
                    let _ = write!(t, "  offer key {} {}x{} from {} at {}", i.key, i.w, i.h, store, i.offset);
                    let start = i.offset as usize;
                    match self.store(i).get(start..start + (4 * i.w * i.h) as usize) {
                        Some(b) if b.len() <= 256 => writeln!(t, ", bytes {b:?}"),
                        _ => writeln!(t),
                    }
                }
                Step::Ask(page, w, h) => writeln!(t, "  ask page {page} for {w}x{h}"),
                Step::Withdraw => writeln!(t, "  withdraw the latest"),
                Step::Look(l) => writeln!(t, "  look at everything, with {:?}", l.background),
            };
        }
        t
    }
}

fn step_size(step: &Step) -> u64 {
    match step {
        Step::Offer(i) => 100 + u64::from(i.w) * u64::from(i.h),
        _ => 50,
    }
}

/// An image in its store, as the crate reads it.
#[derive(Clone)]
pub struct Art {
    pub store: Rc<Vec<u8>>,
    pub offset: usize,
    pub w: u32,
    pub h: u32,
}

impl Art {
    /// An image that only has a size, for a question.
    pub fn bare(w: u32, h: u32) -> Art {
        Art { store: Rc::new(Vec::new()), offset: 0, w, h }
    }

    pub fn at(&self, x: u32, y: u32) -> Option<[u8; 4]> {
        if x >= self.w || y >= self.h {
            return None;
        }
        let place = self.offset + 4 * (y as usize * self.w as usize + x as usize);
        self.store.get(place..place + 4).map(|b| [b[0], b[1], b[2], b[3]])
    }
}

impl Texture for Art {
    type Pixel = Rgba<u8>;

    fn width(&self) -> u32 {
        self.w
    }

    fn height(&self) -> u32 {
        self.h
    }

    fn get(&self, x: u32, y: u32) -> Option<Rgba<u8>> {
        self.at(x, y).map(Rgba)
    }

    fn set(&mut self, _x: u32, _y: u32, _val: Rgba<u8>) {
        unreachable!("art is only read")
    }
}
