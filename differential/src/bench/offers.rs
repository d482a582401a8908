//! Offers, and the faithful test beside a plain replay.

use super::icons::{config, Icons};
use super::timing::{least_of, timed, Calls, TURNS};
use crate::case::{Art, Config};
use std::hint::black_box;
use texture_packer::MultiTexturePacker;
use texture_packer_inside::packer::{Packer, SkylinePacker};
use texture_packer_inside::rect::Rect;
use texture_packer_inside::texture_packer_config::TexturePackerConfig;

/// So many questions, or offers and withdrawals, stand in one script beside the 256 offers, so that they take no less than these.
const AGAIN: usize = 200;

pub fn packed<'a>(c: &Config, icons: &'a Icons, count: usize) -> MultiTexturePacker<'a, Art, u32> {
    let mut packer = MultiTexturePacker::new_skyline(c.for_crate());
    for (image, art) in icons.images.iter().zip(&icons.arts).take(count) {
        let _ = black_box(packer.pack_ref(image.key, art));
    }
    packer
}

/// All icons offered one by one, and one more with 255 standing.
pub fn offers(side: u32, icons: &Icons, name: &str) {
    let c = config(side);
    let all = icons.images.len();
    let every = Calls::offering(&c, &icons.images);
    let [ours, theirs] = least_of(TURNS, [&mut || every.time(&icons.store, &mut Vec::new()), &mut || timed(|| packed(&c, icons, all).get_pages().len())]);
    println!("| 256 offers one by one | {name} | {side} | {ours:.0} | {theirs:.1} | {:.2} |", theirs / ours);

    // with 255 standing, an offer and its withdrawal again and again: half of what is added is one of the two
    let most = Calls::offering(&c, &icons.images[..all - 1]);
    let mut again = Calls::offering(&c, &icons.images[..all - 1]);
    for _ in 0..AGAIN / 2 {
        again.offer(&icons.images[all - 1]);
        again.push(&[3], 16);
    }
    let [longer, shorter, theirs] = least_of(
        TURNS,
        [&mut || again.time(&icons.store, &mut Vec::new()), &mut || most.time(&icons.store, &mut Vec::new()), &mut || {
            let mut packer = packed(&c, icons, all - 1);
            timed(|| packer.pack_ref(icons.images.len() as u32, &icons.arts[all - 1]))
        }],
    );
    let ours = (longer - shorter) / AGAIN as f64;
    println!("| one offer or withdrawal with 255 standing | {name} | {side} | {ours:.0} | {theirs:.1} | {:.2} |", theirs / ours);
}

/// What the replay has to give again for a record.
struct Record {
    page: usize,
    place: (u32, u32),
    turned: bool,
    whole: Rect,
    trimmed: Rect,
}

fn records(c: &Config, icons: &Icons) -> Vec<Record> {
    let packer = packed(c, icons, icons.images.len());
    let record = |key: &u32| {
        let (page, f) = packer.get_pages().iter().enumerate().find_map(|(n, p)| p.get_frame(key).map(|f| (n, f)))?;
        let (w, h) = if f.rotated { (f.frame.h, f.frame.w) } else { (f.frame.w, f.frame.h) };
        Some(Record {
            page,
            place: (f.frame.x - c.border, f.frame.y - c.border),
            turned: f.rotated,
            whole: Rect::new(0, 0, f.source.w, f.source.h),
            trimmed: Rect::new(0, 0, w, h),
        })
    };
    icons.images.iter().filter_map(|i| record(&i.key)).collect()
}

/// The placing rule over the records in order, on the crate's own skylines and nothing else: the first page that fits the whole size, or a new one,
/// takes the trimmed cell. Whether each record's page, place and turn come out again.
fn replayed(c: &TexturePackerConfig, records: &[Record]) -> bool {
    let mut pages: Vec<SkylinePacker> = Vec::new();
    records.iter().all(|r| {
        let page = pages.iter().position(|p| Packer::<()>::can_pack(p, &r.whole)).unwrap_or_else(|| {
            pages.push(SkylinePacker::new(*c));
            pages.len() - 1
        });
        let placed = pages[page].pack((), &r.trimmed);
        page == r.page && placed.is_some_and(|f| (f.frame.x, f.frame.y) == r.place && f.rotated == r.turned)
    })
}

/// The configuration as the crate's inner package has it.
fn inside(c: &Config) -> TexturePackerConfig {
    let k = c.for_crate();
    TexturePackerConfig {
        max_width: k.max_width,
        max_height: k.max_height,
        allow_rotation: k.allow_rotation,
        force_max_dimensions: k.force_max_dimensions,
        border_padding: k.border_padding,
        texture_padding: k.texture_padding,
        texture_extrusion: k.texture_extrusion,
        trim: k.trim,
        texture_outlines: k.texture_outlines,
    }
}

/// A question of a full layout is the faithful test of its records and one search; beside it the plain replay, and the crate packing the icons afresh, without trimming.
pub fn faithful_test(side: u32, icons: &Icons, name: &str) {
    let c = config(side);
    let full = Calls::offering(&c, &icons.images);
    let mut asked = Calls::offering(&c, &icons.images);
    (0..AGAIN).for_each(|_| asked.push(&[1, 0, 8, 8], 16));
    let standing = records(&c, icons);
    let skyline = inside(&c);
    assert!(replayed(&skyline, &standing), "the replay does not give the records again");
    let bare: Vec<Art> = icons.arts.iter().map(|a| Art::bare(a.w, a.h)).collect();
    let plain = Config { trim: false, ..c };
    let afresh = || {
        let mut packer = MultiTexturePacker::new_skyline(plain.for_crate());
        for (key, art) in bare.iter().enumerate() {
            let _ = black_box(packer.pack_ref(key as u32, art));
        }
        packer.get_pages().len()
    };
    let [longer, shorter, replay, pack] = least_of(
        TURNS,
        [
            &mut || asked.time(&icons.store, &mut Vec::new()),
            &mut || full.time(&icons.store, &mut Vec::new()),
            &mut || timed(|| replayed(&skyline, black_box(&standing))),
            &mut || timed(afresh),
        ],
    );
    let ours = (longer - shorter) / AGAIN as f64;
    println!("| {name} | {side} | {} | {ours:.0} | {replay:.0} | {:.2} | {pack:.0} |", standing.len(), replay / ours);
}
