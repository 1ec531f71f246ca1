//! The program over files in memory.
mod applying;
mod comparing;
mod judging;
mod memory;
mod opening;
mod scenario;
mod streams;
mod words;
