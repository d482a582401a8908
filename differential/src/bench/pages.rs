//! A page composed whole, checked whole, exported by the crate, and copied.

use super::icons::{config, Icons};
use super::offers::packed;
use super::timing::{least_of, timed, Calls, TURNS};
use crate::case::Config;
use std::hint::black_box;
use texture_packer::exporter::ImageExporter;

/// So many pixels are composed, and checked, in one script beside the first page.
const PIXELS: u32 = 1 << 23;

/// A page's scripts: composed once; composed and checked so many times more; and its bytes.
struct Page {
    first: Calls,
    compose: Calls,
    check: Calls,
    bytes: Vec<u8>,
}

impl Page {
    fn new(c: &Config, side: u32, again: u32, icons: &Icons) -> Page {
        let mut first = Calls::offering(c, &icons.images);
        first.compose(side, side);
        let mut answers = Vec::new();
        first.time(&icons.store, &mut answers);
        let size = 4 * side as usize * side as usize;
        let start = answers.len() - 12 - size;
        let mut compose = first.clone();
        (0..again).for_each(|_| compose.compose(side, side));
        let mut check = first.clone();
        (0..again).for_each(|_| check.push(&[7, 0, 0, 0, 256, 0, 0, side, 1, start as u32, size as u32], 16));
        Page { first, compose, check, bytes: answers[start..start + size].to_vec() }
    }
}

pub fn composing(side: u32, icons: &Icons) {
    let c = Config { forced: true, ..config(side) };
    let again = PIXELS / (side * side);
    let page = Page::new(&c, side, again, icons);
    let packer = packed(&c, icons, icons.images.len());
    let export = || ImageExporter::export(&packer.get_pages()[0], None).expect("a page is exported");
    assert!(export().as_bytes() == page.bytes, "the composed page is not the exported one");
    let mut copy = vec![0u8; page.bytes.len()];
    let [base, composed, checked, copied] = least_of(
        TURNS,
        [
            &mut || page.first.time(&icons.store, &mut Vec::new()),
            &mut || page.compose.time(&icons.store, &mut Vec::new()),
            &mut || page.check.time(&icons.store, &mut Vec::new()),
            &mut || {
                timed(|| {
                    copy.copy_from_slice(black_box(&page.bytes));
                    black_box(&copy);
                })
            },
        ],
    );
    let [exporter] = least_of(3, [&mut || timed(export)]);
    let pixels = f64::from(side * side) / 1000.0;
    let each = pixels * f64::from(again);
    let (ours, checking, copying, theirs) = ((composed - base) / each, (checked - base) / each, copied / pixels, exporter / pixels);
    println!("| {side}x{side} | {ours:.2} | {checking:.2} | {copying:.2} | {theirs:.1} | {:.0} | {:.2} |", theirs / ours, checking / ours);
}
