//! Stands for the crate's `importer`, which was not supplied and which nothing of the comparison uses.
