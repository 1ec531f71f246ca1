//! The engine over texts in memory.
mod answers;
mod applied;
mod printed;
mod watched;
