//! Files in memory and of the machine, journals, and plans that a journal takes.
mod disk_crashes;
mod disk_failures;
mod disk_files;
mod fuses;
mod journal_crashes;
mod journal_files;
mod plans;
