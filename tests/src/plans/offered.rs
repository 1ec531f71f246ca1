//! Rows that say a status file, and behind the first arrow small indices, preferences and what is asked of them, parted by `;`.
use super::lookups::INDEX;
use super::records::ARCH;
use crate::texts::columns;
use index::{Index, KeptIndex};
use pins::Prefs;
use rules::{Release, Text};
use status_text::{StatusFile, StatusRecord};
use std::alloc::{AllocError, Global};
use std::test::Fail;

fn release_of(alloc: Global, hyphens: usize) -> Result<Release, AllocError> {
    Ok(Release {
        not_automatic: hyphens > 0,
        but_automatic_upgrades: hyphens > 1,
        ..Release::without_keys(Text::copied_from(alloc, b"")?)
    })
}

fn text_of(word: &str) -> &'static [u8] {
    match word.trim_end_matches('-') {
        "one" => b"Package: a\nVersion: 1.0\nArchitecture: all\n",
        "equal" => b"Package: a\nVersion: 1.00\nArchitecture: all\n",
        "two" => {
            b"Package: b\nVersion: 3\nArchitecture: amd64\n\nPackage: a\nVersion: 2\nArchitecture: all\n"
        }
        "asked" => INDEX,
        "stable" => {
            b"Package: foo\nVersion: 1\nArchitecture: all\nDepends: libx (<< 2)\n\nPackage: libx\nVersion: 1\nArchitecture: all\n"
        }
        "testing" => b"Package: libx\nVersion: 2\nArchitecture: all\n",
        _ => b"",
    }
}

/// What is kept of the indices that the words name.
pub(crate) fn kept_indices(alloc: Global, words: &str) -> Result<Vec<KeptIndex>, Fail> {
    let mut kept = Vec::new(alloc);
    for word in words.split_whitespace() {
        let mut text = text_of(word);
        let number = kept.len() + 1;
        kept.push(KeptIndex::read_from(alloc, &mut text, ARCH, number, 0)?)?;
    }
    Ok(kept)
}

/// These indices, as the words name them: behind a hyphen one is NotAutomatic, and behind two ButAutomaticUpgrades too.
pub(crate) fn lent_indices<'a>(
    alloc: Global,
    kept: &'a [KeptIndex],
    words: &str,
) -> Result<Vec<Index<'a>>, AllocError> {
    let mut indices = Vec::new(alloc);
    for (index, word) in kept.iter().zip(words.split_whitespace()) {
        let release = release_of(alloc, word.len() - word.trim_end_matches('-').len())?;
        indices.push(Index::of(alloc, index, release)?)?;
    }
    Ok(indices)
}

/// What a row offers: records, indices and preferences.
#[derive(Drop)]
pub(crate) struct Offered<'o, 'a> {
    pub(crate) records: &'o [&'o StatusRecord<'a>],
    pub(crate) indices: &'o [Index<'a>],
    pub(crate) prefs: &'o Prefs,
}

/// Whether what the row offers has the answer that is wanted behind its second arrow.
pub(crate) fn answer(
    alloc: Global,
    row: &str,
    asks: impl Fn(Global, &Offered<'_, '_>, &str, &str) -> Result<bool, Fail>,
) -> Result<bool, Fail> {
    let (status, rest) = columns(row);
    let (words, wanted) = columns(rest);
    let (names, rest) = words.split_once(';').unwrap_or((words, ""));
    let (prefs, asked) = rest.split_once(';').unwrap_or((rest, ""));
    let file = StatusFile::read(alloc, status.as_bytes(), ARCH)?;
    let records = file.records(alloc)?;
    let prefs = Prefs::read(alloc, prefs.as_bytes(), None)?;
    let kept = kept_indices(alloc, names)?;
    let indices = lent_indices(alloc, kept.as_slice(), names)?;
    let offered = Offered {
        records: records.as_slice(),
        indices: indices.as_slice(),
        prefs: &prefs,
    };
    asks(alloc, &offered, asked, wanted)
}
