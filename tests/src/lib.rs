//! Tests that aren't proved: what refused memory, failing devices and crashes leave, bytes of a journal, the examples of the crates'
//! READMEs, and clauses and states worked by hand. A module for each layer of crates.txt; `tests/README.md` says what runs them.
#![tactic(auto)]

#[cfg(test)]
mod engine;
#[cfg(test)]
mod inputs;
#[cfg(test)]
mod journal;
#[cfg(test)]
mod plans;
#[cfg(test)]
mod program;
#[cfg(test)]
mod solving;
#[cfg(test)]
mod texts;
