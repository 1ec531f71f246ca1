//! Tables of rows, and values as they are printed.
use std::alloc::{AllocError, Global};
use std::fmt::Display;
use std::test::Fail;

/// Fails with the first row that doesn't hold. A table is a text with a row a line, in which `$` stands for a newline.
pub(crate) fn all_hold(
    alloc: Global,
    table: &str,
    holds: impl Fn(Global, &str) -> Result<bool, Fail>,
) -> Result<(), Fail> {
    for row in table.lines() {
        let spelled = row.replace(alloc, "$", "\n")?;
        if !holds(alloc, spelled.as_str())? {
            return Err(Fail::new(row));
        }
    }
    Ok(())
}

/// The columns of a row before and behind its first arrow.
pub(crate) fn columns(row: &str) -> (&str, &str) {
    row.split_once('→').unwrap_or((row, ""))
}

/// Whether the value is printed so.
pub(crate) fn is_printed<T: Display>(
    alloc: Global,
    value: &T,
    wanted: &str,
) -> Result<bool, AllocError> {
    Ok(format!(in alloc; "{value}")?.as_str() == wanted)
}

/// Fails where the value isn't printed so.
pub(crate) fn assert_printed<T: Display>(
    alloc: Global,
    value: &T,
    wanted: &str,
) -> Result<(), Fail> {
    if is_printed(alloc, value, wanted)? {
        Ok(())
    } else {
        Err(Fail::new(wanted))
    }
}

/// A text to which values are added as they are printed.
#[derive(Drop)]
pub(crate) struct Shown {
    alloc: Global,
    text: Vec<u8>,
}

impl Shown {
    pub(crate) fn new(alloc: Global) -> Shown {
        Shown {
            alloc,
            text: Vec::new(alloc),
        }
    }

    pub(crate) fn add<T: Display + Drop>(&mut self, value: T) -> Result<(), AllocError> {
        let printed = format!(in self.alloc; "{value}")?;
        self.text.extend_from_slice(printed.as_bytes())
    }

    pub(crate) fn add_behind(&mut self, word: &str, bytes: &[u8]) -> Result<(), AllocError> {
        self.add_bytes(word.as_bytes())?;
        self.add_bytes(bytes)
    }

    pub(crate) fn add_bytes(&mut self, bytes: &[u8]) -> Result<(), AllocError> {
        self.text.extend_from_slice(bytes)
    }

    pub(crate) fn is(&self, wanted: &str) -> bool {
        self.text.as_slice() == wanted.as_bytes()
    }
}
