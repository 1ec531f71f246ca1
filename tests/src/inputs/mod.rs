//! Readers of the archive, of preferences and of the status file: each public call, each refused growth, and sources that fail; and what
//! steps leave of a status file. What a command line shows of such texts stands in the folder `scenarios`.
mod devices;
mod index_packages;
mod index_sources;
mod preferences;
mod status_files;
mod status_memory;
mod stores;

pub(crate) use devices::{Broken, Few};
