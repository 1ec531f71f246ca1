//! Numbers, stanzas and clauses as rows spell them. Literals are parted by spaces, clauses by commas. A row has in its first column the clauses
//! without an owner, in its second those by which numbers depend on others, each with its owner's negation in front and
//! the owners ascending, in its third the further clauses, and in its fourth the wishes.
use clauses::Clauses;
use std::alloc::{AllocError, Global};

// The greatest number that a row may name.
const NUMBERS: u32 = 300;

fn literal_in(word: &str) -> i32 {
    word.parse::<i32>().unwrap_or(0)
}

fn number_in(word: &str) -> u32 {
    word.parse::<u32>().unwrap_or(0)
}

/// Adds the clause that a text spells: no literal where it is `-`.
pub(crate) fn add_clause(given: &mut Clauses, text: &str) -> Result<(), AllocError> {
    for word in text.split_whitespace() {
        if word != "-" {
            given.push(literal_in(word))?;
        }
    }
    given.end_clause()
}

fn add_clauses(given: &mut Clauses, texts: &str) -> Result<(), AllocError> {
    for text in texts.split(',') {
        if !text.trim().is_empty() {
            add_clause(given, text)?;
        }
    }
    Ok(())
}

// Whether the clause that a text spells has this owner.
fn is_owned(text: &str, owner: u32) -> bool {
    match text.split_whitespace().next() {
        Some(word) => word != "-" && literal_in(word).unsigned_abs() == owner,
        None => false,
    }
}

fn add_owned(given: &mut Clauses, texts: &str, owner: u32) -> Result<(), AllocError> {
    let from = given.len();
    for text in texts.split(',') {
        if is_owned(text, owner) {
            add_clause(given, text)?;
        }
    }
    given.end_depends(from)
}

fn add_depends(given: &mut Clauses, texts: &str) -> Result<(), AllocError> {
    for owner in 1..NUMBERS + 1 {
        add_owned(given, texts, owner)?;
    }
    Ok(())
}

fn add_wish(given: &mut Clauses, text: &str) -> Result<(), AllocError> {
    for word in text.split_whitespace() {
        given.push_wish(number_in(word))?;
    }
    given.end_wish()
}

fn add_wishes(given: &mut Clauses, texts: &str) -> Result<(), AllocError> {
    for text in texts.split(',') {
        if !text.trim().is_empty() {
            add_wish(given, text)?;
        }
    }
    Ok(())
}

/// The clauses and wishes of the first four columns of a row.
pub(crate) fn clauses_in(alloc: Global, row: &str) -> Result<Clauses, AllocError> {
    let mut columns = row.split('→');
    let mut given = Clauses::new(alloc, NUMBERS);
    add_clauses(&mut given, columns.next().unwrap_or(""))?;
    given.end_unowned();
    add_depends(&mut given, columns.next().unwrap_or(""))?;
    add_clauses(&mut given, columns.next().unwrap_or(""))?;
    add_wishes(&mut given, columns.next().unwrap_or(""))?;
    Ok(given)
}

/// Whether a list of numbers is the one that the words spell.
pub(crate) fn are_numbers(numbers: &[u32], words: &str) -> bool {
    let mut left = numbers.iter();
    for word in words.split_whitespace() {
        if left.next().copied() != word.parse::<u32>().ok() {
            return false;
        }
    }
    left.next().is_none()
}

/// The numbers that words spell.
pub(crate) fn numbers_in(alloc: Global, words: &str) -> Result<Vec<u32>, AllocError> {
    words.split_whitespace().map(number_in).collect(alloc)
}

// The fields of a stanza of version 1 that words begin: a name, or a state and a name.
fn head_in(alloc: Global, words: &str) -> Result<String, AllocError> {
    match words.split_once(' ') {
        Some((state, name)) => format!(in alloc;
            "Package: {name}\nStatus: install ok {state}\nVersion: 1\nArchitecture: all\n"
        ),
        None => format!(in alloc; "Package: {words}\nVersion: 1\nArchitecture: all\n"),
    }
}

/// The stanzas that a text spells, parted by commas: `foo` or `installed foo`, with further fields behind semicolons.
pub(crate) fn stanzas_in(alloc: Global, text: &str) -> Result<String, AllocError> {
    let mut stanzas = String::new(alloc);
    for words in text.split(", ") {
        let mut parts = words.split("; ");
        stanzas.push_str(head_in(alloc, parts.next().unwrap_or(""))?.as_str())?;
        for field in parts {
            stanzas.push_str(field)?;
            stanzas.push_str("\n")?;
        }
        stanzas.push_str("\n")?;
    }
    Ok(stanzas)
}
