//! Trimming by itself: what offers cost with the trim switch on, less what they cost with it off, on both sides, in time and in instructions.

use super::icons::{Alpha, Icons, ALPHAS};
use super::timing::{least_of, micros, Calls};
use crate::case::Config;
use std::hint::black_box;
use std::process::Command;
use std::time::Instant;
use texture_packer::texture::MemoryRGBA8Texture;
use texture_packer::MultiTexturePacker;

/// The sides of the images, and how many different ones there are.
struct Size {
    name: &'static str,
    least: u32,
    most: u32,
    images: u32,
}

const SIZES: [Size; 3] = [
    Size { name: "16 to 64", least: 16, most: 64, images: 8 },
    Size { name: "256", least: 256, most: 256, images: 4 },
    Size { name: "1024", least: 1024, most: 1024, images: 1 },
];

/// How often each image is offered in one script, and how many turns are timed: eight offers, or fewer where a trim takes long. A short script is often
/// run through without a break, so that the least of many turns is what it takes.
fn effort(alpha: Alpha, size: &Size) -> (usize, usize) {
    match (alpha, size.most) {
        (Alpha::Margins, 1024) => (1, 60),
        (Alpha::Margins, 256) => (1, 1000),
        (Alpha::Margins, _) => (1, 5000),
        _ => (8 / size.images as usize, 20_000),
    }
}

/// The same images for both sides. With maxima of 1 by 1 every offer is too large, which is asked after trimming, so that nothing ever stands.
struct Trims {
    icons: Icons,
    textures: Vec<MemoryRGBA8Texture>,
    times: usize,
}

fn switched(trim: bool) -> Config {
    Config { trim, ..Config::plain(1, 1) }
}

impl Trims {
    fn new(alpha: Alpha, size: &Size) -> Trims {
        let icons = Icons::of_sides(alpha, size.images, size.least, size.most);
        let texture = |w: u32, h: u32, start: usize| MemoryRGBA8Texture::from_memory(&icons.store[start..start + 4 * (w * h) as usize], w, h);
        let textures = icons.images.iter().map(|i| texture(i.w, i.h, i.offset as usize)).collect();
        Trims { icons, textures, times: effort(alpha, size).0 }
    }

    fn offers(&self) -> f64 {
        (self.times * self.textures.len()) as f64
    }

    fn ours(&self, trim: bool) -> Calls {
        Calls::offering(&switched(trim), &self.icons.images.repeat(self.times))
    }

    /// Microseconds of the crate for the same offers, over its own texture type.
    fn theirs(&self, trim: bool) -> f64 {
        let config = switched(trim).for_crate();
        let start = Instant::now();
        let mut packer = MultiTexturePacker::new_skyline(config);
        for _ in 0..self.times {
            for (key, texture) in self.textures.iter().enumerate() {
                let _ = black_box(packer.pack_ref(key as u32, black_box(texture)));
            }
        }
        micros(start)
    }
}

/// Of two differences below this, which of them is greater cannot be told.
const TOLD: f64 = 0.02;

fn ratio(ours: f64, theirs: f64) -> String {
    if ours < TOLD || theirs < TOLD {
        return "not told".to_string();
    }
    format!("{:.2}", theirs / ours)
}

/// One image's trimming in microseconds, on both sides.
pub fn timed() {
    println!("| art | sides | ours | the crate | crate / ours |\n|---|---|---|---|---|");
    for (alpha, name) in ALPHAS {
        for size in &SIZES {
            let trims = Trims::new(alpha, size);
            let (with, without) = (trims.ours(true), trims.ours(false));
            let [a, b, c, d] = least_of(
                effort(alpha, size).1,
                [
                    &mut || with.time(&trims.icons.store, &mut Vec::new()),
                    &mut || without.time(&trims.icons.store, &mut Vec::new()),
                    &mut || trims.theirs(true),
                    &mut || trims.theirs(false),
                ],
            );
            let (ours, theirs) = ((a - b) / trims.offers(), (c - d) / trims.offers());
            println!("| {name} | {} | {ours:.3} | {theirs:.3} | {} |", size.name, ratio(ours, theirs));
        }
    }
}

/// The offers of one side alone, for a tool that counts instructions. The words are the side, the art, the size and the switch, as `instructions` writes them.
pub fn alone(words: &str) {
    let numbers: Vec<usize> = words.split(',').filter_map(|w| w.parse().ok()).collect();
    let [side, art, size, switch] = numbers[..] else { panic!("four numbers are wanted") };
    let trims = Trims::new(ALPHAS[art].0, &SIZES[size]);
    let calls = trims.ours(switch == 1);
    if side == 0 {
        black_box(calls.time(&trims.icons.store, &mut Vec::new()));
    } else {
        black_box(trims.theirs(switch == 1));
    }
}

/// Instructions of a run of `alone`, as callgrind counts them.
fn counted(words: &str) -> f64 {
    let this = std::env::current_exe().expect("the program's own path");
    let output = Command::new("valgrind").args(["--tool=callgrind", "--callgrind-out-file=/dev/null"]).arg(this).args(["--trims", words]).output();
    let said = String::from_utf8_lossy(&output.expect("valgrind cannot be started").stderr).to_string();
    let line = said.lines().find_map(|l| l.split_once("Collected : "));
    line.and_then(|(_, n)| n.trim().parse().ok()).unwrap_or_else(|| panic!("valgrind counts nothing: {said}"))
}

/// One image's trimming in instructions, on both sides; the same whatever else the machine does.
pub fn instructions() {
    println!("| art | sides | ours | the crate | crate / ours |\n|---|---|---|---|---|");
    for (art, (alpha, name)) in ALPHAS.iter().enumerate() {
        for (at, size) in SIZES.iter().enumerate() {
            let offers = f64::from(size.images) * effort(*alpha, size).0 as f64;
            let of = |side: u32| (counted(&format!("{side},{art},{at},1")) - counted(&format!("{side},{art},{at},0"))) / offers;
            let (ours, theirs) = (of(0), of(1));
            println!("| {name} | {} | {ours:.1} | {theirs:.1} | {:.2} |", size.name, theirs / ours);
        }
    }
}
