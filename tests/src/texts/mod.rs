//! Text: stanzas, versions, relations, requests, plans and refutations. Each public call of their readers and writers, and each refused
//! growth. What a command line shows of such texts stands in the folder `scenarios`.
mod codes;
mod fields;
mod packages;
mod plans;
mod refutations;
mod requests;
mod shown;
mod stanzas;
mod tables;
mod versions;

pub(crate) use shown::{Shown, all_hold, columns, is_printed};
