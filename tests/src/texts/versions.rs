//! How versions are read and compared (Policy 5.6.12). The rules of the order, what each operator takes, and most of what is refused
//! are shown by `compare` in the scenarios.
use debversion::{BadVersion, Op, Version};
use std::cmp::Ordering;
use std::test::Fail;

// Whether each operator says of the versions what their order does.
fn operators_agree(a: &Version<'_>, wanted: Ordering, b: &Version<'_>) -> bool {
    a.satisfies(Op::StrictlyEarlier, b) == wanted.is_lt()
        && a.satisfies(Op::EarlierOrEqual, b) == wanted.is_le()
        && a.satisfies(Op::ExactlyEqual, b) == wanted.is_eq()
        && a.satisfies(Op::LaterOrEqual, b) == wanted.is_ge()
        && a.satisfies(Op::StrictlyLater, b) == wanted.is_gt()
}

// Whether every way of comparing says this of two versions, either way round.
fn compares(left: &str, wanted: Ordering, right: &str) -> Result<bool, BadVersion> {
    let a = Version::parse(left.as_bytes())?;
    let b = Version::parse(right.as_bytes())?;
    Ok(
        a.cmp(&b) == wanted
            && b.cmp(&a) == wanted.reverse()
            && (a == b) == wanted.is_eq()
            && a.partial_cmp(&b) == Some(wanted)
            && operators_agree(&a, wanted, &b),
    )
}

#[test]
fn versions_are_ordered(rt: HostRuntime) -> Result<(), Fail> {
    assert!(rt; compares("1.0~rc1-1", Ordering::Less, "1.0-1")?);
    assert!(rt; compares("1.0", Ordering::Equal, "0:1.00-0")?);
    assert!(rt; compares("1:0.1", Ordering::Greater, "9.9")?);
    Ok(())
}

#[test]
fn the_readme_example_of_debversion(rt: HostRuntime) -> Result<(), BadVersion> {
    let installed = Version::parse(b"2.4.1+ds-4")?;
    let wanted = Version::parse(b"2.4.1")?;
    assert!(rt; installed.satisfies(Op::LaterOrEqual, &wanted));
    Ok(())
}

// No word of a command line has white space in it.
#[test]
fn white_space_is_refused(rt: HostRuntime) {
    assert!(rt; Version::parse(b"1.0 ").err() == Some(BadVersion::BadByte));
    assert!(rt; Version::parse(b"1.0\n").err() == Some(BadVersion::BadByte));
}

#[test]
fn accepted_texts_are_kept(rt: HostRuntime) -> Result<(), BadVersion> {
    for text in "2147483647:1-2-3 ~ 0:0 1:1:1-1 1.0+dfsg-1~bpo12+1".split_whitespace() {
        let version = Version::parse(text.as_bytes())?;
        assert!(rt;
            version.text() == text.as_bytes() && version.again() == version,
            "{text}"
        );
    }
    Ok(())
}
