//! Stands for the crate's adapter to `image`, which was not supplied. The exporter wants textures of `Rgba<u8>` pixels, so these are
//! said to be pixels here, with the meaning that the crate gives its own RGBA8.
use crate::texture::{memory_rgba8_texture::RGBA8, Pixel};
use image::Rgba;

fn own(p: &Rgba<u8>) -> RGBA8 {
    let [r, g, b, a] = p.0;
    RGBA8 { r, g, b, a }
}

fn shown(p: RGBA8) -> Rgba<u8> {
    Rgba([p.r, p.g, p.b, p.a])
}

impl Pixel for Rgba<u8> {
    fn is_transparent(&self) -> bool {
        own(self).is_transparent()
    }

    fn transparency() -> Option<Self> {
        RGBA8::transparency().map(shown)
    }

    fn outline() -> Self {
        shown(RGBA8::outline())
    }
}
