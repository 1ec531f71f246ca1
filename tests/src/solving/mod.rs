//! Clauses, the search, and what is made of what it finds.
mod answers;
mod calls;
mod holders;
mod orders;
mod puzzles;
mod replay;
mod settled;
mod texts;
