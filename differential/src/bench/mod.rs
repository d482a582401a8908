//! The proved library and the crate, timed in turns in one process, as the tables of docs/PERFORMANCE.md. README.md says what each number is.

mod icons;
mod offers;
mod pages;
mod timing;
mod trims;

pub use trims::{alone, instructions};

use icons::{Alpha, Icons, ALPHAS};

const SIDES: [u32; 3] = [512, 1024, 4096];

pub fn all() {
    println!("Pages, nanoseconds a pixel\n");
    println!("| page | composing | checking | copying the bytes | the crate's exporter | exporter / composing | checking / composing |\n|---|---|---|---|---|---|---|");
    let opaque = Icons::new(Alpha::Opaque);
    pages::composing(512, &opaque);
    pages::composing(1024, &opaque);
    println!("\nTrimming, microseconds an image\n");
    trims::timed();
    println!("\nThe faithful test, microseconds\n");
    println!("| art | maxima | records | ours | plain replay | replay / ours | the crate packs the whole sizes |\n|---|---|---|---|---|---|---|");
    for (alpha, name) in ALPHAS {
        let icons = Icons::new(alpha);
        SIDES.iter().for_each(|&side| offers::faithful_test(side, &icons, name));
    }
    println!("\nOffers, microseconds\n");
    println!("| what | art | maxima | ours | the crate | crate / ours |\n|---|---|---|---|---|---|");
    for (alpha, name) in ALPHAS {
        let icons = Icons::new(alpha);
        SIDES.iter().for_each(|&side| offers::offers(side, &icons, name));
    }
}
