//! Texts of refutations, of numbered pairs and of named ones: those that are read are written as they were, and others are refused at a
//! line; and refutations cut down to the lines that the last one needs. The format is this project's own; most of what is refused
//! is shown by the scenarios. Lines were counted, and hints followed, by hand.
use super::shown::{Shown, all_hold, columns};
use named_refutation::{read_named_refutation, write_named_refutation};
use refutation_text::{RefutationError, RefutationFault, read_refutation, write_refutation};
use std::alloc::{AllocError, Global};
use std::test::Fail;
use trim::needed_lines;

fn is_shown(
    alloc: Global,
    written: Result<Vec<u8>, RefutationError>,
    wanted: &str,
) -> Result<bool, Fail> {
    let mut shown = Shown::new(alloc);
    match written {
        Ok(text) => shown.add_bytes(text.as_slice())?,
        Err(error) => shown.add(error)?,
    }
    Ok(shown.is(wanted))
}

fn again(alloc: Global, text: &str) -> Result<Vec<u8>, RefutationError> {
    Ok(write_refutation(alloc, &read_refutation(alloc, text.as_bytes())?)?)
}

fn named_again(alloc: Global, text: &str) -> Result<Vec<u8>, RefutationError> {
    Ok(write_named_refutation(alloc, &read_named_refutation(alloc, text.as_bytes())?)?)
}

// The text before the arrow is refused as is said behind it, or is read and written again where nothing is said.
fn is_read(alloc: Global, row: &str) -> Result<bool, Fail> {
    let (text, fault) = columns(row);
    let wanted = if fault.is_empty() { text } else { fault };
    if text.starts_with("refutation 2") {
        is_shown(alloc, named_again(alloc, text), wanted)
    } else {
        is_shown(alloc, again(alloc, text), wanted)
    }
}

const TEXTS: &str = "\
refutation 1$→
refutation 1$same 1 2$predepends 2147483647 4294967295$depends 1 1$breaks 2 1$goal 3 4$hold 5$essential base$keep a+b$→
refutation 1$goal 1$derive -2 : 3 4$derive 1 -1 2147483647 : 4294967295$→
refutation 1$goal 1→E19 BadRefutation 2
refutation 1$derive 2 -1 3 -1 : 1$→E19 BadRefutation 2
refutation 1$goal 1$same 01 2$→E19 BadRefutation 3
";

#[test]
fn texts_are_read_and_written_again_or_refused_at_a_line(rt: HostRuntime) -> Result<(), Fail> {
    all_hold(rt.alloc(), TEXTS, is_read)
}

const NAMED_TEXTS: &str = "\
refutation 2$end 0$→
refutation 2$index 0123456789abcdef0123456789abcdef0123456789abcdef0123456789abcdef lists/a b$goal 1$end 1$→
refutation 2$same a 1 a 2$predepends b 1:2-3~ 4294967295$depends b 1 1$conflicts a 1 b 1$breaks b+ 1 a- 1$goal 3$goal 3 a 1$hold a 1$essential base$keep a+b$end 10$→
refutation 2$goal 1$derive -a 1 a 1 a 1.0 : 3 4$derive : 1$end 3$→
refutation 2→E19 BadRefutation 1
refutation 2$→E19 BadRefutation 2
refutation 2$end 1$→E19 BadRefutation 2
refutation 2$end 0→E19 BadRefutation 2
refutation 2$end 0$end 0$→E19 BadRefutation 3
refutation 2$end 0$goal 1→E19 BadRefutation 3
refutation 2$goal 1$→E19 BadRefutation 3
refutation 2$goal 1$index 0123456789abcdef0123456789abcdef0123456789abcdef0123456789abcdef a$end 1$→E19 BadRefutation 3
refutation 2$index 0123456789abcdef0123456789abcdef0123456789abcdef0123456789abcdef a$goal$end 1$→E19 BadRefutation 3
refutation 2$index 0123456789abcdef0123456789abcdef0123456789abcdef0123456789abcdef $end 0$→E19 BadRefutation 2
refutation 2$index 0123456789abcdef0123456789abcdef0123456789abcdef0123456789abcdeF a$end 0$→E19 BadRefutation 2
refutation 2$derive -a 1 b 1 -a 1 : 1$end 1$→E19 BadRefutation 2
refutation 2$derive a 1 :$end 1$→E19 BadRefutation 2
refutation 2$derive a : 1$end 1$→E19 BadRefutation 2
refutation 2$hold a 1_2$end 1$→E19 BadRefutation 2
refutation 2$same a 1 a$end 1$→E19 BadRefutation 2
";

#[test]
fn named_texts_are_read_and_written_again_or_refused_at_a_line(
    rt: HostRuntime,
) -> Result<(), Fail> {
    all_hold(rt.alloc(), NAMED_TEXTS, is_read)?;
    let numbered = read_named_refutation(rt.alloc(), b"refutation 1\nend 0\n");
    let refused = RefutationError::Refused(RefutationFault::BadRefutation(1));
    assert!(rt; matches!(numbered, Err(error) if error == refused));
    Ok(())
}

#[test]
fn the_readme_example_of_named_refutation(rt: HostRuntime) -> Result<(), RefutationError> {
    let alloc = rt.alloc();
    let text = b"refutation 2\ngoal 1\nhold a 1.0\nderive -a 1.0 : 1\nend 3\n";
    let refutation = read_named_refutation(alloc, text)?;
    assert_eq!(rt; refutation.lines.as_slice().len(), 3);
    assert!(rt; read_named_refutation(alloc, b"refutation 2\ngoal 1\nend 2\n").is_err());
    assert!(rt; write_named_refutation(alloc, &refutation)?.as_slice() == text.as_slice());
    Ok(())
}

// Of the text before the arrow the lines behind it are needed.
fn is_needed(alloc: Global, row: &str) -> Result<bool, Fail> {
    let (text, wanted) = columns(row);
    let refutation = read_refutation(alloc, text.as_bytes())?;
    let needed = needed_lines(alloc, &refutation)?;
    Ok(write_refutation(alloc, &needed)?.as_slice() == wanted.as_bytes())
}

// Two goals whose pairs conflict: with a hold that nothing needs, which is the example of the README, also with a derived line that
// nothing needs, and needed whole. A goal that no pair meets, behind a clause that nothing needs. A line that two others name, one of them by two
// hints. Names are kept. No lines.
const NEEDED: &str = "\
refutation 1$goal 1$hold 3$goal 2$conflicts 1 2$derive : 1 3 4$→refutation 1$goal 1$goal 2$conflicts 1 2$derive : 1 2 3$
refutation 1$goal 1$hold 3$goal 2$conflicts 1 2$derive -1 : 3 4$derive -2 : 1 4$derive : 5 1$→refutation 1$goal 1$goal 2$conflicts 1 2$derive -1 : 2 3$derive : 4 1$
refutation 1$goal 1$goal 2$conflicts 1 2$derive : 1 2 3$→refutation 1$goal 1$goal 2$conflicts 1 2$derive : 1 2 3$
refutation 1$depends 1 1$goal 1$→refutation 1$goal 1$
refutation 1$same 1 2$breaks 1 3$goal 1$derive 2 : 3 3$derive -1 : 2 3$derive : 4 5 3$→refutation 1$breaks 1 3$goal 1$derive 2 : 2 2$derive -1 : 1 2$derive : 3 4 2$
refutation 1$essential dpkg$keep a+b$predepends 7 2$goal 2 7$derive : 3 2 4$→refutation 1$keep a+b$predepends 7 2$goal 2 7$derive : 2 1 3$
refutation 1$→refutation 1$";

#[test]
fn lines_that_the_last_one_needs_are_left(rt: HostRuntime) -> Result<(), Fail> {
    all_hold(rt.alloc(), NEEDED, is_needed)
}
