//! A host in memory, and runs of the program over it.
use cli::{Host, PutError, ReadError, ReadFailed, Source, Stream, Turn, run};
use disk::{Fuse, MemoryDisk};
use std::alloc::{AllocError, Global};
use std::test::Fail;

/// The text with a newline for each `$`.
pub(crate) fn spelled(alloc: Global, text: &str) -> Result<Vec<u8>, AllocError> {
    Ok(text.replace(alloc, "$", "\n")?.into_bytes())
}

#[derive(Drop)]
struct File<'a> {
    path: &'a str,
    text: Vec<u8>,
}

/// Files by their paths, the paths that were opened, in order, each followed by a space, and how many of them weren't there; how
/// the file of a journal fails, which is empty at first; and what was put in the place of a file last, unless it can't be.
#[derive(Drop)]
pub(crate) struct Memory<'a> {
    files: Vec<File<'a>>,
    opened: Vec<u8>,
    failures: u64,
    /// Which calls of a journal's file fail.
    pub(crate) fuse: Option<Fuse>,
    /// Whether nothing can be put in the place of a file.
    pub(crate) is_full: bool,
    put: Option<Vec<u8>>,
}

impl<'a> Memory<'a> {
    pub(crate) fn new(alloc: Global) -> Memory<'a> {
        Memory {
            files: Vec::new(alloc),
            opened: Vec::new(alloc),
            failures: 0,
            fuse: None,
            is_full: false,
            put: None,
        }
    }

    /// Adds a file, in whose text `$` stands for a newline.
    pub(crate) fn add(&mut self, alloc: Global, path: &'a str, text: &str) -> Result<(), Fail> {
        let text = spelled(alloc, text)?;
        self.files.push(File { path, text })?;
        Ok(())
    }

    pub(crate) fn opened(&self) -> &[u8] {
        self.opened.as_slice()
    }

    /// What was put in the place of a file.
    pub(crate) fn put_text(&self) -> Option<&[u8]> {
        match &self.put {
            Some(text) => Some(text.as_slice()),
            None => None,
        }
    }

    fn note(&mut self, path: &[u8]) -> Result<(), AllocError> {
        self.opened.extend_from_slice(path)?;
        self.opened.push(b' ')?;
        Ok(())
    }

    // The text at the path, if there is one.
    fn text_at(&self, path: &[u8]) -> Option<&[u8]> {
        for file in &self.files {
            if file.path.as_bytes() == path {
                return Some(file.text.as_slice());
            }
        }
        None
    }

    // A copy of the text at the path.
    fn copy_at(&mut self, alloc: Global, path: &[u8]) -> Result<Vec<u8>, ReadError> {
        match self.text_at(path) {
            Some(text) => copied(alloc, text),
            None => {
                self.failures = self.failures.saturating_add(1);
                Err(ReadError::Unreadable)
            }
        }
    }
}

/// The text, copied.
pub(crate) fn copied(alloc: Global, text: &[u8]) -> Result<Vec<u8>, ReadError> {
    match text.to_vec(alloc) {
        Ok(text) => Ok(text),
        Err(AllocError) => Err(ReadError::OutOfMemory),
    }
}

/// The text of a file that was opened, of which no reading gives more than seven bytes.
#[derive(Drop)]
pub(crate) struct Opened {
    text: Vec<u8>,
    taken: usize,
}

impl Source for Opened {
    ghost faults = { λ _. 0 };

    fn failures(&self) -> u64 {
        0
    }

    fn read(&mut self, block: &mut [u8]) -> Result<usize, ReadFailed> {
        let Some(left) = self.text.as_slice().get(self.taken..) else {
            return Ok(0);
        };
        let count = left.len().min(block.len()).min(7);
        block
            .split_at_mut(count)
            .0
            .copy_from_slice(left.split_at(count).0);
        self.taken += count;
        Ok(count)
    }
}

impl Host for Memory<'_> {
    type Text = Opened;

    type Journal = MemoryDisk;

    ghost faults = { λ host. host.failures };

    fn failures(&self) -> u64 {
        self.failures
    }

    fn read(&mut self, alloc: Global, path: &[u8], _turn: Turn) -> Result<Vec<u8>, ReadError> {
        match self.note(path) {
            Ok(()) => self.copy_at(alloc, path),
            Err(AllocError) => Err(ReadError::OutOfMemory),
        }
    }

    fn open(&mut self, alloc: Global, path: &[u8], turn: Turn) -> Result<Opened, ReadError> {
        let text = self.read(alloc, path, turn)?;
        Ok(Opened { text, taken: 0 })
    }

    fn close(&mut self, text: Opened) {
        self.failures = self.failures.saturating_add(text.failures());
    }

    fn journal(&mut self, alloc: Global, _path: &[u8]) -> Result<MemoryDisk, AllocError> {
        Ok(match self.fuse {
            Some(fuse) => MemoryDisk::with_fuse(alloc, Vec::new(alloc), fuse),
            None => MemoryDisk::new(alloc, Vec::new(alloc)),
        })
    }

    fn give_back(&mut self, _path: &[u8], _journal: MemoryDisk) {}

    fn finish(
        &mut self,
        alloc: Global,
        _at: &[u8],
        _journal: MemoryDisk,
        path: &[u8],
        text: &[u8],
    ) -> Result<(), PutError> {
        self.put(alloc, path, text)
    }

    fn is_same_file(&self, left: &[u8], right: &[u8]) -> bool {
        left == right
    }

    fn put(&mut self, alloc: Global, _path: &[u8], text: &[u8]) -> Result<(), PutError> {
        if self.is_full {
            return Err(PutError::Unwritten);
        }
        match text.to_vec(alloc) {
            Ok(text) => {
                self.put = Some(text);
                Ok(())
            }
            Err(AllocError) => Err(PutError::OutOfMemory),
        }
    }

    fn put_named(&mut self, alloc: Global, path: &[u8], text: &[u8]) -> Result<(), PutError> {
        self.put(alloc, path, text)
    }
}

/// The words of a line, which spaces part.
pub(crate) fn words_in(alloc: Global, line: &str) -> Result<Vec<Vec<u8>>, AllocError> {
    let mut all = Vec::new(alloc);
    for word in line.split(' ') {
        all.push(word.as_bytes().to_vec(alloc)?)?;
    }
    Ok(all)
}

/// What a run wrote, and its exit status.
#[derive(Drop)]
pub(crate) struct Printed {
    pub(crate) out: Vec<u8>,
    pub(crate) err: Vec<u8>,
    pub(crate) status: u8,
}

impl Printed {
    /// Whether this was printed: the exit status, standard output, a bar, and standard error.
    pub(crate) fn is(&self, alloc: Global, wanted: &str) -> Result<bool, AllocError> {
        let wanted = spelled(alloc, wanted)?;
        Ok(self.is_spelled(wanted.as_slice()))
    }

    // An exit status has one digit.
    fn is_spelled(&self, wanted: &[u8]) -> bool {
        let [digit, b' ', written @ ..] = wanted else {
            return false;
        };
        match written.strip_prefix(self.out.as_slice()) {
            Some([b'|', refused @ ..]) => {
                self.status.checked_add(b'0') == Some(*digit) && refused == self.err.as_slice()
            }
            _ => false,
        }
    }
}

/// A run of the program on these words over this host.
pub(crate) fn run_on(
    alloc: Global,
    words: &[Vec<u8>],
    host: &mut Memory<'_>,
) -> Result<Printed, AllocError> {
    let mut out = Stream::new(Vec::new(alloc));
    let mut err = Stream::new(Vec::new(alloc));
    let status = run(alloc, words, host, &mut out, &mut err);
    Ok(Printed {
        out: out.into_writer(),
        err: err.into_writer(),
        status,
    })
}

/// A run on the words of this line over this host.
pub(crate) fn run_line(
    alloc: Global,
    line: &str,
    host: &mut Memory<'_>,
) -> Result<Printed, AllocError> {
    run_on(alloc, words_in(alloc, line)?.as_slice(), host)
}
