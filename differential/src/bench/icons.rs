//! The art that is timed.

use crate::case::{Art, Config, Image};
use crate::random::Random;
use std::rc::Rc;

/// How the alpha lies: everywhere 255, 0 on a quarter of each side and 255 within, or random.
#[derive(Clone, Copy)]
pub enum Alpha {
    Opaque,
    Margins,
    Random,
}

pub const ALPHAS: [(Alpha, &str); 3] = [(Alpha::Opaque, "opaque"), (Alpha::Margins, "clear margins"), (Alpha::Random, "random alpha")];

/// Icons one after the other in the symbol store.
pub struct Icons {
    pub store: Rc<Vec<u8>>,
    pub images: Vec<Image>,
    pub arts: Vec<Art>,
}

fn alpha_at(alpha: Alpha, random: &mut Random, w: u32, h: u32, x: u32, y: u32) -> u8 {
    let inside = |at: u32, side: u32| side / 4 <= at && at < side - side / 4;
    match alpha {
        Alpha::Opaque => 255,
        Alpha::Margins => 255 * u8::from(inside(x, w) && inside(y, h)),
        Alpha::Random => random.byte(),
    }
}

impl Icons {
    /// 256 icons of 16 to 64 pixels a side.
    pub fn new(alpha: Alpha) -> Icons {
        Icons::of_sides(alpha, 256, 16, 64)
    }

    pub fn of_sides(alpha: Alpha, count: u32, least: u32, most: u32) -> Icons {
        let mut random = Random::new(14, alpha as u64);
        let mut bytes = Vec::new();
        let mut images = Vec::new();
        for key in 0..count {
            let (w, h) = (random.within(least, most), random.within(least, most));
            images.push(Image { key, wording: false, offset: bytes.len() as u32, w, h });
            for y in 0..h {
                for x in 0..w {
                    let a = alpha_at(alpha, &mut random, w, h, x, y);
                    bytes.extend_from_slice(&[random.byte(), x as u8, y as u8, a]);
                }
            }
        }
        let store = Rc::new(bytes);
        let arts = images.iter().map(|i| Art { store: store.clone(), offset: i.offset as usize, w: i.w, h: i.h }).collect();
        Icons { store, images, arts }
    }
}

/// Padding 2, trim and rotation on.
pub fn config(side: u32) -> Config {
    Config { padding: 2, trim: true, rotation: true, ..Config::plain(side, side) }
}
