//! Failures to write, and failures to read, of a file and for want of memory.
use super::memory::{Memory, copied, words_in};
use super::scenario::{CHECK_PLAN, add_plan};
use cli::{Host, PutError, ReadError, ReadFailed, Source, Stream, Turn, refuse_for_memory, run};
use disk::MemoryDisk;
use std::alloc::{AllocError, Global};
use std::io;
use std::io::{ErrorKind, Write};
use std::test::Fail;

/// A writer that takes so many bytes, and then fails.
#[derive(Drop)]
struct Narrow {
    room: usize,
}

impl Write for Narrow {
    fn write(&mut self, text: &[u8]) -> io::Result<usize> {
        let taken = self.room.min(text.len());
        if taken == 0 {
            return Err(io::Error::from(ErrorKind::Other));
        }
        self.room -= taken;
        Ok(taken)
    }

    fn flush(&mut self) -> io::Result<()> {
        Ok(())
    }
}

/// A writer that keeps what it is given until it is flushed, and fails then.
#[derive(Drop)]
struct Unflushed;

impl Write for Unflushed {
    fn write(&mut self, text: &[u8]) -> io::Result<usize> {
        Ok(text.len())
    }

    fn flush(&mut self) -> io::Result<()> {
        Err(io::Error::from(ErrorKind::Other))
    }
}

fn status_on<O: Write, E: Write>(
    alloc: Global,
    words: &[Vec<u8>],
    plan: &str,
    out: &mut Stream<O>,
    err: &mut Stream<E>,
) -> Result<u8, Fail> {
    let mut host = Memory::new(alloc);
    add_plan(alloc, &mut host, plan)?;
    Ok(run(alloc, words, &mut host, out, err))
}

// The exit status of a run with this plan over these writers.
fn status_of<O: Write, E: Write>(
    alloc: Global,
    plan: &str,
    out: &mut Stream<O>,
    err: &mut Stream<E>,
) -> Result<u8, Fail> {
    let words = words_in(alloc, CHECK_PLAN)?;
    status_on(alloc, words.as_slice(), plan, out, err)
}

#[test]
fn an_answer_that_cannot_be_written_is_a_failure_of_the_device(
    rt: HostRuntime,
) -> Result<(), Fail> {
    for room in [0, 3] {
        assert!(rt; is_failure(rt.alloc(), Narrow { room })?, "{room}");
    }
    assert!(rt; is_failure(rt.alloc(), Unflushed)?);
    Ok(())
}

// Whether the answer `yes` to this writer ends with the status of a device, and with the refusal of it.
fn is_failure<O: Write + Drop>(alloc: Global, out: O) -> Result<bool, Fail> {
    let mut out = Stream::new(out);
    let mut err = Stream::new(Vec::new(alloc));
    let status = status_of(alloc, "plan 1$", &mut out, &mut err)?;
    let said = err.writer().as_slice() == b"debplan: output: E26 Write\n".as_slice();
    Ok(status == 5 && out.has_failed() && said && !err.has_failed())
}

#[test]
fn an_answer_that_fits_is_written(rt: HostRuntime) -> Result<(), Fail> {
    let mut out = Stream::new(Narrow { room: 4 });
    let mut err = Stream::new(Vec::new(rt.alloc()));
    let status = status_of(rt.alloc(), "plan 1$", &mut out, &mut err)?;
    assert!(rt; status == 0 && !out.has_failed() && err.writer().is_empty());
    Ok(())
}

#[test]
fn a_refusal_that_cannot_be_written_keeps_its_status(rt: HostRuntime) -> Result<(), Fail> {
    let alloc = rt.alloc();
    let mut out = Stream::new(Vec::new(alloc));
    let mut narrow = Stream::new(Narrow { room: 5 });
    assert!(rt; status_of(alloc, "x$", &mut out, &mut narrow)? == 3);
    assert!(rt; narrow.has_failed());
    let mut narrow = Stream::new(Narrow { room: 5 });
    assert!(rt; status_of(alloc, "plan 1$", &mut out, &mut narrow)? == 0);
    let mut shut = Stream::new(Narrow { room: 0 });
    let mut mute = Stream::new(Narrow { room: 0 });
    assert!(rt; status_of(alloc, "plan 1$", &mut shut, &mut mute)? == 5);
    Ok(())
}

const EXPLAINED: &str =
    "debplan check-plan --explain --arch amd64 --status status --sources sources --request request plan";

// The writer fails in the line of the refusal, or in the sentences behind it.
#[test]
fn a_sentence_that_cannot_be_written_changes_no_status(rt: HostRuntime) -> Result<(), Fail> {
    let alloc = rt.alloc();
    let words = words_in(alloc, EXPLAINED)?;
    for room in [0, 40] {
        let mut out = Stream::new(Vec::new(alloc));
        let mut err = Stream::new(Narrow { room });
        let status = status_on(alloc, words.as_slice(), "x$", &mut out, &mut err)?;
        assert!(rt; status == 3 && out.writer().is_empty(), "{room}");
    }
    Ok(())
}

/// A host whose machine has no memory left for a file.
#[derive(Drop)]
struct Exhausted;

impl Host for Exhausted {
    type Text = &'static [u8];

    type Journal = MemoryDisk;

    ghost faults = { λ _. 0 };

    fn failures(&self) -> u64 {
        0
    }

    fn read(&mut self, _alloc: Global, _path: &[u8], _turn: Turn) -> Result<Vec<u8>, ReadError> {
        Err(ReadError::OutOfMemory)
    }

    fn open(
        &mut self,
        _alloc: Global,
        _path: &[u8],
        _turn: Turn,
    ) -> Result<&'static [u8], ReadError> {
        Err(ReadError::OutOfMemory)
    }

    fn close(&mut self, _text: &'static [u8]) {}

    fn journal(&mut self, _alloc: Global, _path: &[u8]) -> Result<MemoryDisk, AllocError> {
        Err(AllocError)
    }

    fn give_back(&mut self, _path: &[u8], _journal: MemoryDisk) {}

    fn finish(
        &mut self,
        alloc: Global,
        _at: &[u8],
        _journal: MemoryDisk,
        path: &[u8],
        text: &[u8],
    ) -> Result<(), PutError> {
        self.put(alloc, path, text)
    }

    fn is_same_file(&self, left: &[u8], right: &[u8]) -> bool {
        left == right
    }

    fn put(&mut self, _alloc: Global, _path: &[u8], _text: &[u8]) -> Result<(), PutError> {
        Err(PutError::OutOfMemory)
    }

    fn put_named(&mut self, _alloc: Global, _path: &[u8], _text: &[u8]) -> Result<(), PutError> {
        Err(PutError::OutOfMemory)
    }
}

#[test]
fn want_of_memory_is_refused_as_such(rt: HostRuntime) -> Result<(), Fail> {
    let alloc = rt.alloc();
    let words = words_in(alloc, CHECK_PLAN)?;
    let refusal = b"debplan: memory: E1 OutOfMemory\n".as_slice();
    let mut out = Stream::new(Vec::new(alloc));
    let mut err = Stream::new(Vec::new(alloc));
    let status = run(alloc, words.as_slice(), &mut Exhausted, &mut out, &mut err);
    assert!(rt; status == 5 && out.writer().is_empty());
    assert!(rt; err.writer().as_slice() == refusal);
    let mut err = Stream::new(Vec::new(alloc));
    assert!(rt; refuse_for_memory(&mut err) == 5);
    assert!(rt; err.writer().as_slice() == refusal);
    Ok(())
}

/// The text of a file that can be opened and not read.
#[derive(Drop)]
struct Broken {
    failures: u64,
}

impl Source for Broken {
    ghost faults = { λ broken. broken.failures };

    fn failures(&self) -> u64 {
        self.failures
    }

    fn read(&mut self, _block: &mut [u8]) -> Result<usize, ReadFailed> {
        self.failures = self.failures.saturating_add(1);
        Err(ReadFailed)
    }
}

/// A host whose sources name an index that can't be read; its other files are empty.
#[derive(Drop)]
struct Worn {
    failures: u64,
}

impl Host for Worn {
    type Text = Broken;

    type Journal = MemoryDisk;

    ghost faults = { λ host. host.failures };

    fn failures(&self) -> u64 {
        self.failures
    }

    fn read(&mut self, alloc: Global, path: &[u8], _turn: Turn) -> Result<Vec<u8>, ReadError> {
        if path == b"sources".as_slice() {
            copied(alloc, b"File: index\n")
        } else {
            copied(alloc, b"")
        }
    }

    fn open(&mut self, _alloc: Global, _path: &[u8], _turn: Turn) -> Result<Broken, ReadError> {
        Ok(Broken { failures: 0 })
    }

    fn close(&mut self, text: Broken) {
        self.failures = self.failures.saturating_add(text.failures());
    }

    fn journal(&mut self, alloc: Global, _path: &[u8]) -> Result<MemoryDisk, AllocError> {
        Ok(MemoryDisk::new(alloc, Vec::new(alloc)))
    }

    fn give_back(&mut self, _path: &[u8], _journal: MemoryDisk) {}

    fn finish(
        &mut self,
        alloc: Global,
        _at: &[u8],
        _journal: MemoryDisk,
        path: &[u8],
        text: &[u8],
    ) -> Result<(), PutError> {
        self.put(alloc, path, text)
    }

    fn is_same_file(&self, left: &[u8], right: &[u8]) -> bool {
        left == right
    }

    fn put(&mut self, _alloc: Global, _path: &[u8], _text: &[u8]) -> Result<(), PutError> {
        Err(PutError::Unwritten)
    }

    fn put_named(&mut self, _alloc: Global, _path: &[u8], _text: &[u8]) -> Result<(), PutError> {
        Err(PutError::Unwritten)
    }
}

#[test]
fn an_index_that_cannot_be_read_is_refused_at_its_place_and_counted(
    rt: HostRuntime,
) -> Result<(), Fail> {
    let alloc = rt.alloc();
    let words = words_in(alloc, CHECK_PLAN)?;
    let mut host = Worn { failures: 0 };
    let mut out = Stream::new(Vec::new(alloc));
    let mut err = Stream::new(Vec::new(alloc));
    let status = run(alloc, words.as_slice(), &mut host, &mut out, &mut err);
    assert!(rt; status == 5 && out.writer().is_empty() && host.failures == 1);
    assert!(rt; err.writer().as_slice() == b"debplan: index 1: E5 Read\n".as_slice());
    Ok(())
}
