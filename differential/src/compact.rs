//! Cases that stay small as files: the stores are short, and many images lie in the same bytes. Some are on canvases up to 4096 a side, others
//! have many images on several pages.

use crate::case::{Case, Config, Detail, Image, Step};
use crate::generate::{between, distances, limits, look, random_alpha, switches};
use crate::random::Random;
use std::rc::Rc;

/// The bytes of one store, and how many pixels of it images share.
struct Store {
    bytes: Vec<u8>,
    lead: u32,
    pixels: u32,
}

/// On a canvas of more than 1023 columns or rows.
pub fn vast_case(seed: u64, number: u64) -> Case {
    let mut random = Random::new(seed, number);
    let config = vast_config(&mut random);
    let lengths = [100, 200, 300, 400, 500, 700, 1000];
    let first = if random.once_in(24) { 2048 } else { random.pick(&lengths) };
    let stores = [store(first, &mut random), store(random.pick(&[24, 24, 60, 60, 100]), &mut random)];
    let images = if random.once_in(24) { 256 } else { random.within(4, 30) };
    filled(config, stores, images, 2048, &mut random)
}

/// On a small canvas, with several pages as a rule.
pub fn paged_case(seed: u64, number: u64) -> Case {
    let mut random = Random::new(seed, number);
    let mut config = Config::plain(random.within(6, 30), random.within(6, 30));
    switches(&mut config, &mut random);
    if random.once_in(2) {
        distances(&mut config, &mut random);
    }
    limits(&mut config, &mut random);
    let stores = [store(random.pick(&[9, 16, 30, 60]), &mut random), store(random.pick(&[16, 40, 100]), &mut random)];
    let images = random.within(12, 40);
    let side = config.width.max(config.height) * 2 / 3;
    filled(config, stores, images, side, &mut random)
}

/// Images no longer than `side`, some of them withdrawn, and one or two looks.
fn filled(config: Config, stores: [Store; 2], images: u32, side: u32, random: &mut Random) -> Case {
    let along = if config.width.max(config.height) < 1024 { None } else { Some(config.width > config.height) };
    let sizes: Vec<(u32, u32)> = (0..random.within(2, 5)).map(|_| size(&stores, side, along, random)).collect();
    let mut steps = Vec::new();
    for key in 0..images {
        steps.push(offer(key, &stores, &sizes, random));
        between(side, 200, &mut steps, random);
    }
    steps.push(look(random, Detail::Few));
    if random.once_in(3) {
        steps.extend((0..random.within(1, 4)).map(|_| Step::Withdraw));
        steps.extend((0..random.within(0, 3)).map(|n| offer(images + n, &stores, &sizes, random)));
        steps.push(look(random, Detail::Few));
    }
    let [symbols, wording] = stores.map(|s| Rc::new(s.bytes));
    Case { config, symbols, wording, steps }.looked_at(Detail::Few)
}

/// One side is long; the other is long too, or has room for a few images beside each other, so that pages grow tall or wide.
fn vast_config(random: &mut Random) -> Config {
    let mut c = Config::plain(0, 0);
    switches(&mut c, random);
    limits(&mut c, random);
    c.padding = if !random.once_in(3) { random.within(0, 64) } else { random.within(0, 3) };
    c.border = if random.once_in(2) { random.within(0, 64) } else { random.within(0, 3) };
    let most = if random.once_in(8) { 16 } else { (c.border + c.padding).min(16) };
    c.extrusion = random.within(0, most);
    let long = |random: &mut Random| if random.once_in(2) { 4096 } else { random.within(1024, 4096) };
    let few = c.padding + 2 * c.extrusion + 2;
    let (one, other) = (long(random), if random.once_in(3) { long(random) } else { random.within(few, 3 * few) });
    (c.width, c.height) = if random.once_in(2) { (one, other) } else { (other, one) };
    c
}

/// Pixels that differ from each other, opaque, of any alpha, or clear but for a stretch in the middle.
fn store(pixels: u32, random: &mut Random) -> Store {
    let lead = random.within(0, 5);
    let form = random.within(0, 2);
    let mut bytes: Vec<u8> = (0..lead).map(|_| random.byte()).collect();
    for place in 0..pixels {
        let bits = random.next();
        let alpha = match form {
            0 => 255,
            1 => random_alpha(bits),
            _ if pixels / 3 <= place && place < pixels - pixels / 3 => random_alpha(bits).max(1),
            _ => 0,
        };
        bytes.extend_from_slice(&[place as u8, (place >> 8) as u8, (bits >> 32) as u8, alpha]);
    }
    Store { bytes, lead, pixels }
}

/// A size that lies in one of the stores, of no longer side than this; half of them are as long as the store allows. On a vast canvas most lie along its
/// longer side, so that a few reach far.
fn size(stores: &[Store; 2], side: u32, wide: Option<bool>, random: &mut Random) -> (u32, u32) {
    let first = wide.is_some() && !random.once_in(4);
    let area = if first { stores[0].pixels } else { random.pick(&[stores[0].pixels, stores[1].pixels]) };
    let most = if first || random.once_in(2) { 2 } else { area / 4 };
    let thin = random.within(1, most.min(side));
    let longest = (area / thin).min(side);
    let other = if first || random.once_in(2) { longest } else { random.within(1, longest) };
    let across = match wide {
        Some(wide) if first => wide,
        _ => random.once_in(2),
    };
    if across {
        (other, thin)
    } else {
        (thin, other)
    }
}

fn offer(number: u32, stores: &[Store; 2], sizes: &[(u32, u32)], random: &mut Random) -> Step {
    let (w, h) = random.pick(sizes);
    let fitting = |s: &Store| w * h <= s.pixels;
    let wording = if fitting(&stores[0]) && fitting(&stores[1]) { random.once_in(2) } else { fitting(&stores[1]) };
    let store = &stores[usize::from(wording)];
    let offset = store.lead + 4 * random.within(0, store.pixels - w * h);
    Step::Offer(Image { key: number.wrapping_mul(0x85ebca6b), wording, offset, w, h })
}
