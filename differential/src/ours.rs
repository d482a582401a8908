//! Cases of our own: examples of document 01 that the crate has no answer for. Each answer is written down from the paper; neither side is asked.

use crate::case::{Config, Image};
use crate::script::Script;

pub struct Ours {
    pub name: &'static str,
    pub symbols: Vec<u8>,
    pub script: Script,
}

pub fn cases() -> Vec<Ours> {
    vec![example_10(), example_11_nothing_stands(), example_11_sides(), example_11_all_clear()]
}

fn symbol(key: u32, w: u32, h: u32) -> Image {
    Image { key, wording: false, offset: 0, w, h }
}

/// Frame x=3, w=5, page width 8: 0.375 and 1; inset 0.5: 0.4375 and 0.9375.
fn example_10() -> Ours {
    let mut s = Script::new();
    s.open(&Config::plain(8, 9), &[0]);
    s.offer(&symbol(1, 3, 1), &[0, 0, 0, 0, 3, 1, 0]);
    s.offer(&symbol(2, 5, 1), &[0, 0, 3, 0, 5, 1, 0]);
    s.page_size(0, &[0, 8, 1]);
    // the bits of 0.375 and 1, and of 0.4375, 0.5 and 0.9375
    s.coordinates(2, 1, 0.0, &[0, 1, 0x3ec0_0000, 0, 0x3f80_0000, 0x3f80_0000]);
    s.coordinates(2, 2, 0.0, &[0, 1, 0x3ec0_0000, 0, 0x3f80_0000, 0x3f80_0000]);
    s.coordinates(2, 2, 0.5, &[0, 1, 0x3ee0_0000, 0x3f00_0000, 0x3f70_0000, 0x3f00_0000]);
    s.coordinates(2, 0, 0.0, &[0, 0, 3, 0, 5, 1]);
    s.end();
    Ours { name: "example 10", symbols: vec![255; 20], script: s }
}

/// 0 images: withdraw 18; page size 11.
fn example_11_nothing_stands() -> Ours {
    let mut s = Script::new();
    s.open(&Config::plain(8, 9), &[0]);
    s.withdraw(&[18]);
    s.page_size(0, &[11]);
    s.end();
    Ours { name: "example 11, nothing stands", symbols: Vec::new(), script: s }
}

/// Sides 0 and 2049 answer 4; 1 and 2048 pass. Asking has the same check, in front of 11.
fn example_11_sides() -> Ours {
    let mut s = Script::new();
    s.open(&Config::plain(4096, 4096), &[0]);
    for (w, h) in [(0, 1), (1, 0), (0, 0), (2049, 1), (1, 2049), (2049, 0)] {
        s.offer(&symbol(1, w, h), &[4]);
        s.ask(0, w, h, &[4]);
    }
    s.page_size(0, &[11]);
    for (w, h) in [(1, 1), (2048, 1), (1, 2048)] {
        s.ask(0, w, h, &[11]);
    }
    s.offer(&symbol(1, 1, 1), &[0, 0, 0, 0, 1, 1, 0]);
    s.offer(&symbol(2, 2048, 1), &[0, 0, 1, 0, 2048, 1, 0]);
    s.offer(&symbol(3, 1, 2048), &[0, 0, 2049, 0, 1, 2048, 0]);
    for (w, h) in [(1, 1), (2048, 1), (1, 2048), (2048, 2048)] {
        s.ask(0, w, h, &[0, 1]);
    }
    s.page_size(0, &[0, 2050, 2048]);
    s.end();
    Ours { name: "example 11, sides", symbols: vec![255; 4 * 2048], script: s }
}

/// All clear with trim: 7, no page opened; nor a further one where images stand.
fn example_11_all_clear() -> Ours {
    let config = Config { trim: true, ..Config::plain(8, 9) };
    let clear = |key, w, h| Image { key, wording: false, offset: 4, w, h };
    let mut s = Script::new();
    s.open(&config, &[0]);
    s.offer(&clear(1, 2, 2), &[7]);
    s.page_size(0, &[11]);
    s.withdraw(&[18]);
    s.offer(&symbol(1, 1, 1), &[0, 0, 0, 0, 1, 1, 0]);
    s.offer(&clear(2, 2, 2), &[7]);
    s.page_size(0, &[0, 1, 1]);
    s.page_size(1, &[11]);
    s.end();
    // one visible pixel, then four whose alpha is 0
    let mut symbols = vec![1, 2, 3, 4];
    symbols.extend([9, 8, 7, 0].repeat(4));
    Ours { name: "example 11, all clear", symbols, script: s }
}
