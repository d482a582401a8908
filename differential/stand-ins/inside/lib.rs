//! The crate's skyline by itself, for the benchmark: its own files, unchanged, under a root that makes public what the crate keeps to itself.
pub mod frame;
pub mod packer;
pub mod rect;
pub mod texture;
pub mod texture_packer_config;
