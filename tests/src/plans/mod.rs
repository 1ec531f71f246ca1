//! The universe, its candidates and providers, second readings of indices, and the judge of plans: each public call with a sample, and
//! sources that fail. What plans and candidates show stands in the folder `scenarios`.
mod ends;
mod fetched;
mod fetching;
mod groups;
mod lookups;
mod offered;
mod provided;
mod records;
mod steps;
mod universes;
mod versions;
