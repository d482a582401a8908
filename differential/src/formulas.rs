//! What the crate has no answer for, by document 01.

use crate::case::{Case, Image};

/// Whether the whole image, untrimmed, fits an empty page; a wrong reading asks that.
pub fn fits_alone(case: &Case, image: &Image) -> bool {
    let c = &case.config;
    let around = c.padding + 2 * c.extrusion;
    let (w, h) = (image.w + around, image.h + around);
    let fits = |w: u32, h: u32| w <= c.width && h < c.height;
    fits(w, h) || c.rotation && fits(h, w)
}

/// The coordinates of a frame on a page; the crate has none, its frame and page size are what is compared here.
pub fn edges(x: u32, y: u32, w: u32, h: u32, size: (u32, u32), inset: f32) -> Vec<u32> {
    if x + w > size.0 || y + h > size.1 {
        return vec![16];
    }
    let low = |at: u32, side: u32| ((at as f32 + inset) / side as f32).to_bits();
    let high = |at: u32, side: u32| ((at as f32 - inset) / side as f32).to_bits();
    vec![0, 1, low(x, size.0), low(y, size.1), high(x + w, size.0), high(y + h, size.1)]
}
