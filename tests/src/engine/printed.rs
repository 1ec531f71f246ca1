//! The lines of documents, by hand as RFC 8259 has them: the members of an object stand in the order of the bytes of their keys.
use json_answers::{
    Archives, Members, candidate_value, document, no_candidate_value, put_bad_line, put_steps,
    put_text_lines, put_undecided, put_verdict, read_archives,
};
use plantext::{PlanError, read_plan};
use rules::{Reason, Rule, Text, Verdict};
use stanza::ReaderError;
use std::alloc::{AllocError, Global};

/// Why a document wasn't made.
#[derive(Drop)]
enum Failed {
    Plan,
    Index,
    Memory,
}

impl From<AllocError> for Failed {
    fn from(_e: AllocError) -> Failed {
        Failed::Memory
    }
}

impl From<PlanError> for Failed {
    fn from(_e: PlanError) -> Failed {
        Failed::Plan
    }
}

impl From<ReaderError> for Failed {
    fn from(_e: ReaderError) -> Failed {
        Failed::Index
    }
}

const PLAN: &[u8] = b"plan 1
unpack foo 1.0
configure bar foo
";

// The first stanza is of another architecture, the second of another version, the third and the fourth spell the version otherwise.
const INDEX: &[u8] = b"Package: foo
Version: 1.0
Architecture: i386
Filename: pool/1

Package: foo
Version: 1.1
Architecture: amd64
Filename: pool/2

Package: foo
Version: 0:1.0
Architecture: all
Filename: pool/\xff3
Size: 12
SHA256: abc

Package: foo
Version: 1.0
Architecture: amd64
Filename: pool/4
";

// The document of the text `x` with the steps of the plan, and what the index says of them.
fn document_of_plan(alloc: Global, index: &[u8]) -> Result<Vec<u8>, Failed> {
    let steps = read_plan(alloc, PLAN)?;
    let mut archives = Archives::of_steps(alloc, steps.as_slice())?;
    let mut source = index;
    read_archives(alloc, &mut source, b"amd64", &mut archives)?;
    let mut members = Members::new(alloc);
    put_steps(alloc, &mut members, &archives)?;
    Ok(document(alloc, members, b"x")?)
}

const OF_PLAN: &[u8] =
    b"{\"counts\":{\"configure\":1,\"deconfigure\":0,\"purge\":0,\"remove\":0,\"unpack\":1},\
\"steps\":[{\"action\":\"unpack\",\"filename\":\"pool/\xef\xbf\xbd3\",\"name\":\"foo\",\"sha256\":\"abc\",\"size\":12,\"version\":\"1.0\"},\
{\"action\":\"configure\",\"names\":[\"bar\",\"foo\"]}],\"text\":\"x\"}\n";

#[test]
fn a_plan_has_its_steps_and_the_archives_of_the_first_stanzas(rt: HostRuntime) {
    let printed = document_of_plan(rt.alloc(), INDEX);
    assert!(rt; matches!(&printed, Ok(line) if line.as_slice() == OF_PLAN));
}

// The document of the plan, where the index has this size.
fn document_of_size(alloc: Global, size: &[u8]) -> Result<Vec<u8>, Failed> {
    let mut index = Vec::from_slice(
        alloc,
        b"Package: foo\nVersion: 1.0\nArchitecture: all\nSize: ",
    )?;
    index.extend_from_slice(size)?;
    document_of_plan(alloc, index.as_slice())
}

// The same document, where the step has this size.
fn document_with_size(alloc: Global, size: &[u8]) -> Result<Vec<u8>, Failed> {
    let mut line = Vec::from_slice(
        alloc,
        b"{\"counts\":{\"configure\":1,\"deconfigure\":0,\"purge\":0,\"remove\":0,\"unpack\":1},\
\"steps\":[{\"action\":\"unpack\",\"filename\":null,\"name\":\"foo\",\"sha256\":null,\"size\":",
    )?;
    line.extend_from_slice(size)?;
    line.extend_from_slice(
        b",\"version\":\"1.0\"},{\"action\":\"configure\",\"names\":[\"bar\",\"foo\"]}],\"text\":\"x\"}\n",
    )?;
    Ok(line)
}

// Whether a size is printed as the row says.
fn is_printed(alloc: Global, row: &str) -> Result<bool, Failed> {
    let mut words = row.split(' ');
    let size = words.next().unwrap_or("");
    let wanted = words.next().unwrap_or("");
    let printed = document_of_size(alloc, size.as_bytes())?;
    let line = document_with_size(alloc, wanted.as_bytes())?;
    Ok(printed.as_slice() == line.as_slice())
}

// A size as it stands in the index, and in the document.
const SIZES: &str = "\
0 0
0012 12
+12 null
12b null
18446744073709551615 18446744073709551615
18446744073709551616 null
";

#[test]
fn a_size_is_digits_alone_of_64_bits(rt: HostRuntime) {
    for row in SIZES.lines() {
        assert!(rt; matches!(is_printed(rt.alloc(), row), Ok(true)), "{row}");
    }
}

// The document of a text with a verdict.
fn document_of_verdict(
    alloc: Global,
    text: &[u8],
    verdict: &Verdict,
) -> Result<Vec<u8>, AllocError> {
    let mut members = Members::new(alloc);
    put_verdict(alloc, &mut members, verdict)?;
    document(alloc, members, text)
}

fn document_of_reason(alloc: Global, name: &[u8]) -> Result<Vec<u8>, AllocError> {
    let reason = Reason::Unfinished(Text::copied_from(alloc, name)?);
    document_of_verdict(alloc, b"a", &Verdict::End(reason))
}

#[test]
fn a_verdict_has_its_place_and_its_rule(rt: HostRuntime) {
    let alloc = rt.alloc();
    let yes = document_of_verdict(alloc, b"yes\n", &Verdict::Yes);
    assert!(rt;
        matches!(&yes, Ok(line) if line.as_slice() == b"{\"answer\":\"yes\",\"text\":\"yes\\n\"}\n".as_slice())
    );
    let step = document_of_verdict(alloc, b"\"\\\x01\xff", &Verdict::Step(3, Rule::Depends));
    assert!(rt;
        matches!(&step, Ok(line) if line.as_slice() == b"{\"answer\":\"no\",\"place\":\"step\",\"rule\":{\"code\":\"F4\",\"name\":\"Depends\"},\"step\":3,\"text\":\"\\\"\\\\\\u0001\xef\xbf\xbd\"}\n".as_slice())
    );
    let end = document_of_reason(alloc, b"foo");
    assert!(rt;
        matches!(&end, Ok(line) if line.as_slice() == b"{\"answer\":\"no\",\"place\":\"end\",\"reason\":{\"kind\":\"Unfinished\",\"name\":\"foo\"},\"rule\":{\"code\":\"F11\",\"name\":\"End\"},\"text\":\"a\"}\n".as_slice())
    );
}

// The document of the answers that have a word or a number alone, and of a candidate and sentences.
fn document_of_words(alloc: Global) -> Result<Vec<u8>, AllocError> {
    let mut members = Members::new(alloc);
    put_undecided(alloc, &mut members, "limit")?;
    put_bad_line(alloc, &mut members, Some(7))?;
    members.put(
        alloc,
        "candidates",
        candidate_value(alloc, b"foo", b"1.0", -1)?,
    )?;
    members.put(alloc, "none", no_candidate_value(alloc, b"bar")?)?;
    put_text_lines(alloc, &mut members, "reasons", b"One.\nTwo.\n")?;
    document(alloc, members, b"")
}

const OF_WORDS: &[u8] =
    b"{\"answer\":\"no\",\"candidates\":{\"name\":\"foo\",\"priority\":-1,\"version\":\"1.0\"},\"line\":7,\
\"none\":{\"name\":\"bar\",\"priority\":null,\"version\":null},\"reasons\":[\"One.\",\"Two.\"],\"text\":\"\",\"why\":\"limit\"}\n";

#[test]
fn words_candidates_and_sentences_are_members(rt: HostRuntime) {
    let printed = document_of_words(rt.alloc());
    assert!(rt; matches!(&printed, Ok(line) if line.as_slice() == OF_WORDS));
}
