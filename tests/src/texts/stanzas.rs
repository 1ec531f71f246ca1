//! Control texts, each with its stanzas and its fault, after Debian Policy 5.1 and by hand: whole, and in three pieces, which give the
//! same.
use super::shown::{Shown, all_hold, columns};
use stanza::{Form, ReadFailed, ReadStanza, Reader, Source, Stanza, StanzaError, Stanzas};
use std::alloc::{AllocError, Global};
use std::test::Fail;

// A text that is given in three pieces.
#[derive(Drop)]
struct Pieces<'a> {
    first: &'a [u8],
    second: &'a [u8],
    third: &'a [u8],
}

impl<'a> Pieces<'a> {
    // The text with its second and third piece beginning at these offsets.
    fn new(text: &'a [u8], second: usize, third: usize) -> Pieces<'a> {
        let (front, last) = text.split_at(third.min(text.len()));
        let (first, middle) = front.split_at(second.min(front.len()));
        Pieces {
            first,
            second: middle,
            third: last,
        }
    }
}

impl Source for Pieces<'_> {
    ghost faults = { λ _. 0 };

    fn failures(&self) -> u64 {
        0
    }

    fn read(&mut self, block: &mut [u8]) -> Result<usize, ReadFailed> {
        if !self.first.is_empty() {
            return self.first.read(block);
        }
        if !self.second.is_empty() {
            return self.second.read(block);
        }
        self.third.read(block)
    }
}

// A stanza as `LINE<BYTES>`, and each of its fields as `NAME=VALUE@LINE;`.
fn write_stanza(shown: &mut Shown, stanza: &ReadStanza<'_>) -> Result<(), AllocError> {
    shown.add(stanza.line())?;
    shown.add_behind("<", stanza.raw())?;
    shown.add(">")?;
    for field in stanza.fields() {
        shown.add_bytes(field.name())?;
        shown.add_behind("=", field.value())?;
        shown.add("@")?;
        shown.add(field.line())?;
        shown.add(";")?;
    }
    Ok(())
}

fn reader_of(alloc: Global, form: Form, most: usize) -> Result<Reader, AllocError> {
    match form {
        Form::Plain => Reader::new(alloc, most),
        Form::Commented => Reader::with_comments(alloc, most),
    }
}

// What a reader answers of a source.
fn read_from<S: Source>(
    alloc: Global,
    source: &mut S,
    form: Form,
    most: usize,
) -> Result<Shown, AllocError> {
    let mut reader = reader_of(alloc, form, most)?;
    let mut shown = Shown::new(alloc);
    // No text has so many stanzas.
    for _ in 0..10_000 {
        if let Err(fault) = reader.advance(source) {
            shown.add(fault)?;
            break;
        }
        match reader.stanza() {
            Some(stanza) => write_stanza(&mut shown, &stanza)?,
            None => break,
        }
    }
    Ok(shown)
}

// How many bytes the second of three pieces has: a reader takes long to make, so not all cuttings are tried.
const BETWEEN: [usize; 3] = [0, 1, 5];

// The text before the arrow is shown as is said behind it, wherever it is cut.
fn is_shown(alloc: Global, form: Form, most: usize, row: &str) -> Result<bool, Fail> {
    let (text, wanted) = columns(row);
    for second in 0..text.len() + 1 {
        for between in BETWEEN {
            let mut source = Pieces::new(text.as_bytes(), second, second + between);
            if !read_from(alloc, &mut source, form, most)?.is(wanted) {
                return Ok(false);
            }
        }
    }
    Ok(true)
}

const PLAIN: &str = "\
$ $\t\t$→
A: 1$ \t$B: 2$C:$ /d 0$X: é→1<A: 1$>A=1@1;3<B: 2$C:$ /d 0$X: é>B=2@3;C=$ /d 0@4;X=é@6;
A:\t 1 \t$→1<A:\t 1 \t$>A=1@1;
A: 1\r$→1<A: 1\r$>A=1\r@1;
A:$ .$\t b $B: 2$→1<A:$ .$\t b $B: 2$>A=$ .$\t b@1;B=2@4;
";

#[test]
fn stanzas_are_the_lines_between_separators(rt: HostRuntime) -> Result<(), Fail> {
    all_hold(
        rt.alloc(),
        PLAIN,
        |alloc, row| is_shown(alloc, Form::Plain, 1000, row),
    )
}

// Of the last row, the names share a slot of the table by which most names are known to be new.
const FAULTS: &str = "\
 x$Package: a$→E2 BadLine 1
-a: 1$→E3 BadFieldName 1
A: 1$A: 2$B$→E4 DuplicateField 2
A:1$$x$$B:1$→1<A:1$>A=1@1;E2 BadLine 3
A: 1$$a: 2→1<A: 1$>A=1@1;3<a: 2>a=2@3;
Conflicts: a$Conffiles: b$CONFLICTS: c$→E4 DuplicateField 3
";

#[test]
fn the_first_bad_line_is_told_and_nothing_follows(rt: HostRuntime) -> Result<(), Fail> {
    all_hold(
        rt.alloc(),
        FAULTS,
        |alloc, row| is_shown(alloc, Form::Plain, 1000, row),
    )
}

const COMMENTED: &str = "\
A: 1$#x$B: 2$→1<A: 1$#x$B: 2$>A=1@1;B=2@3;
A: 1$#x$ y$→E2 BadLine 3
A: 1$ y$#x$#z$$B: 2$#→1<A: 1$ y$>A=1$ y@1;6<B: 2$>B=2@6;
Explanation: a$explanation: b$→1<Explanation: a$explanation: b$>Explanation=a@1;explanation=b@2;
";

#[test]
fn comments_end_a_field_and_are_in_none(rt: HostRuntime) -> Result<(), Fail> {
    all_hold(
        rt.alloc(),
        COMMENTED,
        |alloc, row| is_shown(alloc, Form::Commented, 1000, row),
    )
}

const LIMITED: &str = "\
A: 1$$B: 2$→1<A: 1$>A=1@1;E10 TooLarge
A: 1$ $B: 2$→1<A: 1$>A=1@1;E10 TooLarge
A: 1$B: 2 and more$→E10 TooLarge
A: 1$B$C: 3$→E2 BadLine 2
A: 1$B: 2→E10 TooLarge
A: 1$b:→1<A: 1$b:>A=1@1;b=@2;
$$$$$$$$→E10 TooLarge
";

#[test]
fn no_more_is_read_than_may_be(rt: HostRuntime) -> Result<(), Fail> {
    all_hold(
        rt.alloc(),
        LIMITED,
        |alloc, row| is_shown(alloc, Form::Plain, 7, row),
    )
}

// A stanza of the fields `n0` to `n99`, and behind them these lines.
fn with_many_fields(alloc: Global, lines: &str) -> Result<String, AllocError> {
    let mut text = String::new(alloc);
    for number in 0..100usize {
        text.push_str(format!(in alloc; "n{number}: x\n")?.as_str())?;
    }
    text.push_str(lines)?;
    Ok(text)
}

// Whether a stanza of many fields, with these lines behind them, is refused as is said behind the arrow, or not at all.
fn is_refused_among_many(alloc: Global, form: Form, row: &str) -> Result<bool, Fail> {
    let (lines, wanted) = columns(row);
    let text = with_many_fields(alloc, lines)?;
    let mut source = text.as_bytes();
    let mut shown = Shown::new(alloc);
    if let Err(fault) = reader_of(alloc, form, 10_000)?.advance(&mut source) {
        shown.add(fault)?;
    }
    Ok(shown.is(wanted))
}

const AMONG_MANY: &str = "\
n100: y→
n0: y→E4 DuplicateField 101
N63: y→E4 DuplicateField 101
A: y$N99: y→E4 DuplicateField 102
A: y$B: y$a: y→E4 DuplicateField 103
Explanation: y$A: y$explanation: y→E4 DuplicateField 103
";

const AMONG_MANY_COMMENTED: &str = "\
Explanation: y$A: y$explanation: y→
Explanation: y$explanation: y$#x$N64: y→E4 DuplicateField 104
";

// Fields are gone over while they are few, and of many there is a table.
#[test]
fn a_field_is_repeated_among_many(rt: HostRuntime) -> Result<(), Fail> {
    all_hold(rt.alloc(), AMONG_MANY, |alloc, row| {
        is_refused_among_many(alloc, Form::Plain, row)
    })?;
    all_hold(rt.alloc(), AMONG_MANY_COMMENTED, |alloc, row| {
        is_refused_among_many(alloc, Form::Commented, row)
    })
}

#[test]
fn the_readme_example_of_stanza(rt: HostRuntime) -> Result<(), Fail> {
    for item in Stanzas::new(b"Package: hello\nDepends: libc6\n\nPackage: world\n") {
        assert!(rt; item?.get(b"package").is_some());
    }
    Ok(())
}

// Whether the fields are those of the stanza, in the order of their lines.
fn has_its_fields(alloc: Global, stanza: &Stanza<'_>) -> Result<bool, AllocError> {
    let mut shown = Shown::new(alloc);
    for field in stanza.fields() {
        shown.add_bytes(field.name())?;
        shown.add_behind("=", field.value())?;
        shown.add("@")?;
        shown.add(field.line())?;
        shown.add(";")?;
    }
    Ok(shown.is("A=1\n x@3;B=2@5;"))
}

#[test]
fn a_whole_text_has_its_stanzas_up_to_its_fault(rt: HostRuntime) -> Result<(), Fail> {
    let mut stanzas = Stanzas::new(b"\n \t\nA: 1\n x\nB: 2\n\nA: 1\na: 2\n\nC: 3\n");
    let Some(Ok(first)) = stanzas.next() else {
        return Err(Fail::new("no stanza"));
    };
    assert!(rt; has_its_fields(rt.alloc(), &first)?);
    let fault = StanzaError::DuplicateField(8);
    assert!(rt; matches!(stanzas.next(), Some(Err(found)) if found == fault));
    assert!(rt; stanzas.next().is_none());
    Ok(())
}

#[test]
fn a_name_is_found_in_any_case_and_the_first_counts(rt: HostRuntime) -> Result<(), Fail> {
    let text = b"Package: a\nExplanation: b\n# c\nexplanation: d\nX: \xff\xfe\n";
    let Some(Ok(stanza)) = Stanzas::with_comments(text).next() else {
        return Err(Fail::new("no stanza"));
    };
    assert!(rt; stanza.get(b"PACKAGE") == Some(b"a".as_slice()));
    assert!(rt; stanza.get(b"Explanation") == Some(b"b".as_slice()));
    assert!(rt; stanza.get(b"x") == Some(b"\xff\xfe".as_slice()));
    assert!(rt; stanza.get(b"Version").is_none() && stanza.get(b"").is_none());
    assert!(rt; stanza.again().raw() == stanza.raw());
    Ok(())
}
