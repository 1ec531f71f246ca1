//! Sources that give few bytes at a time, or none.
use stanza::{ReadFailed, Source};

/// Bytes of which no reading gives more than so many.
#[derive(Drop)]
pub(crate) struct Few<'a> {
    pub(crate) bytes: &'a [u8],
    pub(crate) most: usize,
}

impl Source for Few<'_> {
    ghost faults = { λ _. 0 };

    fn failures(&self) -> u64 {
        0
    }

    fn read(&mut self, block: &mut [u8]) -> Result<usize, ReadFailed> {
        let room = block.len().min(self.most.max(1));
        self.bytes.read(block.split_at_mut(room).0)
    }
}

/// A device that fails.
#[derive(Drop)]
pub(crate) struct Broken {
    pub(crate) failures: u64,
}

impl Source for Broken {
    ghost faults = { λ broken. broken.failures };

    fn failures(&self) -> u64 {
        self.failures
    }

    fn read(&mut self, _block: &mut [u8]) -> Result<usize, ReadFailed> {
        self.failures = self.failures.saturating_add(1);
        Err(ReadFailed)
    }
}
