//! The cases: random ones of several kinds, each from a seed and a number, and the exhaustive small ones.

use crate::case::{Background, Case, Config, Detail, Image, Look, Step};
use crate::random::Random;
use std::rc::Rc;

pub const KINDS: [&str; 6] = ["random", "tie-rich", "crowded", "trimmed", "zones", "large"];

/// How a kind draws its art's alpha.
#[derive(Clone, Copy)]
enum Alpha {
    Opaque,
    Any,
    Sparse,
    Margins,
}

struct Shape {
    config: Config,
    images: u32,
    sides: (u32, u32),
    alpha: Alpha,
    looks: u64,
}

/// The kind of a case: most are small, since ties and edges are found there.
fn kind_of(random: &mut Random) -> usize {
    match random.within(0, 99) {
        0..=24 => 0,
        25..=54 => 1,
        55..=62 => 2,
        63..=80 => 3,
        81..=97 => 4,
        _ => 5,
    }
}

pub fn random_kind(seed: u64, number: u64) -> usize {
    kind_of(&mut Random::new(seed, number))
}

pub fn random_case(seed: u64, number: u64) -> (usize, Case) {
    let mut random = Random::new(seed, number);
    let kind = kind_of(&mut random);
    let shape = shape_of(kind, &mut random);
    (kind, filled(&shape, &mut random))
}

pub fn switches(c: &mut Config, random: &mut Random) {
    c.rotation = random.once_in(2);
    c.trim = random.once_in(2);
    c.outlines = random.once_in(4);
    c.forced = random.once_in(4);
}

/// Distances that are mostly small, some at their greatest.
pub fn distances(c: &mut Config, random: &mut Random) {
    let small = [0, 0, 0, 1, 1, 2, 3, 5];
    c.padding = if random.once_in(40) { random.within(0, 64) } else { random.pick(&small) };
    c.border = if random.once_in(40) { random.within(0, 64) } else { random.pick(&small) };
    c.extrusion = if random.once_in(40) { random.within(0, 16) } else { random.pick(&small[..7]) };
}

pub fn limits(c: &mut Config, random: &mut Random) {
    c.pages = random.within(1, 8);
    c.images = if random.once_in(6) { random.within(1, 12) } else { 256 };
}

const ALPHAS: [Alpha; 4] = [Alpha::Opaque, Alpha::Any, Alpha::Sparse, Alpha::Margins];

fn shape_of(kind: usize, random: &mut Random) -> Shape {
    let mut config = Config::plain(random.within(1, 48), random.within(1, 48));
    limits(&mut config, random);
    switches(&mut config, random);
    distances(&mut config, random);
    match kind {
        0 => Shape { config, images: random.within(1, 16), sides: (1, 24), alpha: random.pick(&ALPHAS), looks: 24 },
        1 => tie_rich(config, random),
        2 => crowded(config, random),
        3 => trimmed(config, random),
        4 => zones(config, random),
        _ => large(config, random),
    }
}

fn tie_rich(mut config: Config, random: &mut Random) -> Shape {
    config.width = random.within(1, 9);
    config.height = random.within(1, 10);
    config.rotation = !random.once_in(3);
    config.padding = u32::from(random.once_in(6));
    config.extrusion = 0;
    config.border = u32::from(random.once_in(6));
    config.trim = random.once_in(4);
    Shape { config, images: random.within(2, 16), sides: (1, random.within(2, 4)), alpha: random.pick(&ALPHAS), looks: 40 }
}

fn crowded(mut config: Config, random: &mut Random) -> Shape {
    config.width = random.within(8, 40);
    config.height = random.within(8, 40);
    config.images = random.pick(&[256, 256, 40, 20]);
    config.padding = random.within(0, 1);
    config.extrusion = 0;
    let images = if random.once_in(8) { random.within(100, 270) } else { random.within(20, 70) };
    Shape { config, images, sides: (1, random.within(3, 12)), alpha: random.pick(&ALPHAS), looks: 80 }
}

fn trimmed(mut config: Config, random: &mut Random) -> Shape {
    config.width = random.within(4, 32);
    config.height = random.within(4, 32);
    config.trim = true;
    let alpha = random.pick(&[Alpha::Sparse, Alpha::Margins]);
    Shape { config, images: random.within(1, 14), sides: (1, 20), alpha, looks: 24 }
}

fn zones(mut config: Config, random: &mut Random) -> Shape {
    config.width = random.within(4, 30);
    config.height = random.within(4, 30);
    config.border = random.within(0, 4);
    config.padding = random.within(0, 4);
    config.extrusion = random.within(0, config.border + config.padding);
    config.outlines = random.once_in(3);
    Shape { config, images: random.within(1, 8), sides: (1, 7), alpha: random.pick(&ALPHAS), looks: 12 }
}

fn large(mut config: Config, random: &mut Random) -> Shape {
    let top = random.pick(&[300, 1024, 4096]);
    config.width = random.within(top / 4, top);
    config.height = random.within(top / 4, top);
    if random.once_in(8) {
        config.width = 4096;
        config.height = 4096;
    }
    if random.once_in(2) {
        config.padding = random.within(0, 64);
        config.border = random.within(0, 64);
        config.extrusion = random.within(0, 16);
    }
    let alpha = random.pick(&[Alpha::Opaque, Alpha::Any, Alpha::Margins]);
    let sides = (1, random.pick(&[64, 200, 2048]));
    Shape { config, images: random.within(1, if sides.1 == 2048 { 6 } else { 40 }), sides, alpha, looks: 60 }
}

/// The stores as they are filled.
struct Stores {
    symbols: Vec<u8>,
    wording: Vec<u8>,
    images: u32,
}

fn filled(shape: &Shape, random: &mut Random) -> Case {
    let mut stores = Stores { symbols: Vec::new(), wording: Vec::new(), images: 0 };
    let mut steps = Vec::new();
    let mut offered = 0;
    while offered < shape.images {
        steps.push(offer(shape, &mut stores, random));
        offered += 1;
        between(shape.sides.1, shape.looks, &mut steps, random);
    }
    steps.push(look(random, Detail::Every));
    // what is taken back, and what comes after it
    if random.once_in(2) {
        for _ in 0..random.within(1, shape.images.min(12) + 1) {
            steps.push(Step::Withdraw);
        }
        steps.push(look(random, Detail::Every));
        for _ in 0..random.within(0, 4) {
            steps.push(offer(shape, &mut stores, random));
        }
        steps.push(look(random, Detail::Every));
    }
    Case { config: shape.config, symbols: Rc::new(stores.symbols), wording: Rc::new(stores.wording), steps }
}

/// What happens between two offers: questions of sides up to `side`, withdrawals, and looks once in `looks` times.
pub fn between(side: u32, looks: u64, steps: &mut Vec<Step>, random: &mut Random) {
    if random.once_in(6) {
        let side = side.max(2);
        steps.push(Step::Ask(random.within(0, 3), random.within(1, side), random.within(1, side)));
    }
    if random.once_in(12) {
        steps.push(Step::Withdraw);
    }
    if random.once_in(looks) {
        steps.push(look(random, Detail::Every));
    }
}

pub fn look(random: &mut Random, detail: Detail) -> Step {
    let threshold = random.pick(&[None, Some(0), Some(1), Some(127), Some(254), Some(255), Some(2), Some(3)]);
    let color = [random.byte(), random.byte(), random.byte(), random.byte()];
    Step::Look(Look { background: Background { color, threshold, discard: random.once_in(2) }, seed: random.next(), detail })
}

/// A side; most are no longer than the maxima leave room for.
fn side(shape: &Shape, random: &mut Random) -> u32 {
    let c = &shape.config;
    let (low, mut high) = shape.sides;
    let room = c.width.min(c.height).saturating_sub(1 + c.padding + 2 * c.extrusion).max(1);
    if !random.once_in(12) {
        high = high.min(room);
    }
    // half of the large sides are small ones
    if high > 64 && random.once_in(2) {
        random.within(low, 64)
    } else {
        random.within(low, high)
    }
}

fn offer(shape: &Shape, stores: &mut Stores, random: &mut Random) -> Step {
    let (mut w, mut h) = (side(shape, random), side(shape, random));
    // an image of 2048x2048 is 16 million bytes: one side gives way
    if w * h > 1 << 17 {
        let thin = random.within(1, (1 << 17) / w.max(h));
        if random.once_in(2) {
            w = w.max(h);
            h = thin;
        } else {
            h = w.max(h);
            w = thin;
        }
    }
    let wording = random.once_in(3);
    let key = stores.images.wrapping_mul(0x9e3779b1);
    stores.images += 1;
    let store = if wording { &mut stores.wording } else { &mut stores.symbols };
    for _ in 0..random.within(0, 5) {
        store.push(random.byte());
    }
    let offset = store.len() as u32;
    draw(store, w, h, shape.alpha, random);
    Step::Offer(Image { key, wording, offset, w, h })
}

/// Pixels that say where they are, so that a misplaced one shows.
fn draw(store: &mut Vec<u8>, w: u32, h: u32, alpha: Alpha, random: &mut Random) {
    let (red, green) = (random.byte(), random.byte());
    let clear = random.once_in(12);
    let (left, top) = (random.within(0, w - 1), random.within(0, h - 1));
    let (right, bottom) = (random.within(left, w - 1), random.within(top, h - 1));
    for y in 0..h {
        for x in 0..w {
            let bits = random.next();
            let some = random_alpha(bits);
            let a = match alpha {
                Alpha::Opaque => 255,
                _ if clear => 0,
                Alpha::Any => some,
                Alpha::Sparse if bits & 0xf00 == 0 => some,
                Alpha::Margins if left <= x && x <= right && top <= y && y <= bottom => some.max((bits >> 60) as u8 & 1),
                _ => 0,
            };
            store.extend_from_slice(&[red.wrapping_add(x as u8), green.wrapping_add(y as u8), (bits >> 32) as u8, a]);
        }
    }
}

/// Alpha near the thresholds more often than elsewhere.
pub fn random_alpha(bits: u64) -> u8 {
    match bits & 7 {
        0 => 0,
        1 => 1,
        2 => 255,
        3 => 254,
        4 => 127 + (bits >> 8 & 1) as u8,
        5 => 2 + (bits >> 8 & 1) as u8,
        _ => (bits >> 16) as u8,
    }
}

/// Every triple of sizes up to 4x4, on maxima up to 5x6 (canvases up to 5x5), rotation off and on.
pub const EXHAUSTIVE: u64 = 16 * 16 * 16 * 5 * 6 * 2;

pub fn exhaustive_case(number: u64, stores: &(Rc<Vec<u8>>, Rc<Vec<u8>>)) -> Case {
    let mut n = number;
    let mut take = |of: u64| {
        let digit = (n % of) as u32;
        n /= of;
        digit
    };
    let mut config = Config::plain(1 + take(5), 1 + take(6));
    config.rotation = take(2) == 1;
    config.pages = 3;
    config.images = 3;
    let mut steps: Vec<Step> = (0..3)
        .map(|key| {
            let (w, h) = (1 + take(4), 1 + take(4));
            Step::Offer(Image { key, wording: key == 1, offset: 64 * (key / 2), w, h })
        })
        .collect();
    let background = Background { color: [9, 9, 9, 9], threshold: None, discard: false };
    steps.push(Step::Look(Look { background, seed: number, detail: Detail::Every }));
    Case { config, symbols: stores.0.clone(), wording: stores.1.clone(), steps }
}

/// 256 different pixels in each store, none of them clear.
pub fn exhaustive_stores() -> (Rc<Vec<u8>>, Rc<Vec<u8>>) {
    let bytes = |first: u8| Rc::new((0..64).flat_map(|i| [first, i, 255 - i, 255]).collect::<Vec<u8>>());
    (bytes(1), bytes(2))
}
