//! Texts in memory that are watched: which indices are opened, in their order, and each index may have another text when it
//! is opened again.
use inputs::{Progress, ReadError, Shelf, WholeText};
use std::alloc::{AllocError, Global};

/// Texts of two indices, a request to install one package, and its plan.
#[derive(Drop)]
pub struct Watched<'a> {
    /// The texts of the indices, of the first opening.
    pub first: [&'a [u8]; 2],
    /// The texts of the second opening.
    pub second: [&'a [u8]; 2],
    /// The request.
    pub request: &'a [u8],
    /// The plan.
    pub plan: &'a [u8],
    /// The numbers of the indices that were opened.
    pub opened: Vec<usize>,
}

fn copied(alloc: Global, bytes: &[u8]) -> Result<Vec<u8>, ReadError> {
    match bytes.to_vec(alloc) {
        Ok(text) => Ok(text),
        Err(AllocError) => Err(ReadError::OutOfMemory),
    }
}

impl<'a> Watched<'a> {
    // Whether the index of this number was opened before.
    fn was_opened(&self, number: usize) -> bool {
        self.opened.iter().any(|opened| *opened == number)
    }
}

impl<'a> Shelf for Watched<'a> {
    type Text = &'a [u8];

    ghost faults = { λ _. 0 };

    fn failures(&self) -> u64 {
        0
    }

    fn read(&mut self, alloc: Global, part: WholeText) -> Result<Vec<u8>, ReadError> {
        match part {
            WholeText::Status => copied(alloc, b""),
            WholeText::Sources => copied(alloc, b"File: one\n\nFile: two\n"),
            WholeText::Request => copied(alloc, self.request),
            WholeText::Judged => copied(alloc, self.plan),
        }
    }

    fn read_preferences(&mut self, _alloc: Global) -> Result<Option<Vec<u8>>, ReadError> {
        Ok(None)
    }

    fn open(&mut self, _alloc: Global, number: usize, _file: &[u8]) -> Result<&'a [u8], ReadError> {
        let texts = if self.was_opened(number) {
            self.second
        } else {
            self.first
        };
        match self.opened.push(number) {
            Ok(()) => {}
            Err(_) => return Err(ReadError::OutOfMemory),
        }
        if number == 1 {
            Ok(texts[0])
        } else {
            Ok(texts[1])
        }
    }

    fn close(&mut self, _text: &'a [u8]) {}

    fn show(&mut self, _progress: Progress) {}

    ghost holds_still = { λ _. tt };

    ghost holds_on = { λ _ _ _ _ _. tt };
}
