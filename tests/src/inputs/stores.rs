//! What steps leave of a status file, the refusals of steps as they are printed, and the look-ups of records. The texts and what
//! actions leave were worked out by hand from dpkg(1) and Debian Policy 5; the architecture is amd64.
use crate::texts::{all_hold, columns, is_printed};
use plantext::read_step;
use status::{ApplyError, Database};
use std::alloc::{AllocError, Global};
use std::test::Fail;

const ARCH: &[u8] = b"amd64";

fn given(stanza: &str) -> Option<&[u8]> {
    if stanza.is_empty() {
        None
    } else {
        Some(stanza.as_bytes())
    }
}

// Whether the text is the database's, as is that of its copy.
fn has_text(alloc: Global, db: &Database, wanted: &str) -> Result<bool, AllocError> {
    let copy = db.try_copy(alloc)?;
    Ok(
        db.text(alloc)?.as_slice() == wanted.as_bytes()
            && copy.text(alloc)?.as_slice() == wanted.as_bytes(),
    )
}

// Whether the steps leave this text, which reads again as the same, or the first refusal is printed so.
fn leave(alloc: Global, row: &str) -> Result<bool, Fail> {
    let (status, rest) = columns(row);
    let (wanted, steps) = columns(rest);
    let mut db = Database::read(alloc, status.as_bytes(), ARCH)?;
    let mut parts = steps.split('→');
    while let (Some(line), Some(stanza)) = (parts.next(), parts.next()) {
        let step = read_step(alloc, line.as_bytes())?;
        if let Err(refused) = db.apply(alloc, &step, given(stanza)) {
            return Ok(is_printed(alloc, &refused, wanted)?);
        }
    }
    let again = Database::read(alloc, wanted.as_bytes(), ARCH)?;
    Ok(has_text(alloc, &db, wanted)? && has_text(alloc, &again, wanted)?)
}

// The status file, the text or the refusal that is wanted, and the steps, each with what is handed in.
const LEFT: &str = "\
Status: hold ok installed$Version:1$package: q$Architecture: all→package: q$Status: hold ok half-configured$Version: 1$Config-Version: 1$Architecture: all$$→deconfigure q$→
Package: q$Status: install ok half-configured$Config-Version: 0$Version: 1$Architecture: all$Tag:$ a$→Package: q$Status: install ok installed$Version: 1$Architecture: all$Tag:$ a$$→configure q$→
Package: q$Status: install ok triggers-awaited$Version: 1$Triggers-Awaited: z$Architecture: all$→Package: q$Status: install ok half-configured$Version: 1$Config-Version: 1$Architecture: all$$→configure q$→→deconfigure q$→
Package: q$Status: install ok installed$Version: 1$Triggers-Awaited: z$Architecture: all$→Package: q$Status: deinstall ok config-files$Version: 1$Config-Version: 1$Triggers-Awaited: z$Architecture: all$$→remove q$→
Package: q$Status: hold reinstreq installed$Architecture: all$Version: 1$Essential: yes$→Package: q$Status: hold reinstreq half-configured$Architecture: all$Version: 1$Config-Version: 1$Essential: yes$$→deconfigure q$→
Package: q$Status: purge ok unpacked$Architecture: all$Version: 1$Config-Version: 0$→Package: q$Status: purge ok installed$Architecture: all$Version: 1$$→configure q$→
→Package: foo$Status: install ok unpacked$Version: 1.0$Architecture: all$Depends: bar$Description: x$ y$$→unpack foo 1.0$→Package: foo$Version: 1.0$Architecture: all$Depends: bar$Filename: pool/foo.deb$Size: 10$Description: x$ y$
Package: q$Status: install ok installed$Architecture: all$Version: 1$Conffiles:$ /etc/q 0$$Package: z$Status: install ok installed$Version:   1$Architecture: all$$→Package: q$Status: install ok half-configured$Architecture: all$Version: 1$Config-Version: 1$Conffiles:$ /etc/q 0$$Package: z$Status: install ok installed$Version:   1$Architecture: all$$→deconfigure q$→
Package: q$Status: install ok installed$Architecture: all$Version: 1$Conffiles:$ /etc/q 0$$Package: z$Status: install ok installed$Version:   1$Architecture: all$$→Package: q$Status: install ok unpacked$Architecture: all$Version: 2$Config-Version: 1$Conffiles:$ /etc/q 0$$Package: z$Status: install ok installed$Version:   1$Architecture: all$$→deconfigure q$→→unpack q 2$→Package: q$Architecture: all$Version: 2$
Package: q$Status: install ok installed$Architecture: all$Version: 1$Conffiles:$ /etc/q 0$$Package: z$Status: install ok installed$Version:   1$Architecture: all$$→Package: q$Status: install ok installed$Architecture: all$Version: 2$Conffiles:$ /etc/q 0$$Package: z$Status: install ok installed$Version:   1$Architecture: all$$→deconfigure q$→→unpack q 2$→Package: q$Architecture: all$Version: 2$→configure q$→
→Package: foo$Status: deinstall ok config-files$Version: 1.0$Architecture: all$Depends: bar$Description: x$ y$$→unpack foo 1.0$→Package: foo$Version: 1.0$Architecture: all$Depends: bar$Filename: pool/foo.deb$Size: 10$Description: x$ y$→remove foo$→
→→unpack foo 1.0$→Package: foo$Version: 1.0$Architecture: all$→remove foo$→→purge foo$→
Package: a$Status: install ok triggers-pending$Architecture: all$Version:   1$Config-Version: 0$Triggers-Pending: ldconfig→Package: a$Status: install ok triggers-pending$Architecture: all$Version:   1$Config-Version: 0$Triggers-Pending: ldconfig$$→
Package: a$Status: install ok triggers-pending$Architecture: all$Version: 1$Triggers-Pending: ldconfig$→Package: a$Status: install ok installed$Architecture: all$Version: 1$$→configure a$→
Package: a$Status: install ok triggers-pending$Architecture: all$Version: 1$Triggers-Pending: ldconfig$→Package: a$Status: deinstall ok config-files$Architecture: all$Version: 1$Config-Version: 1$$→remove a$→
Package: q$Status: install ok triggers-awaited$Architecture: all$Triggers-Awaited: z$Version: 1$Conffiles:$ /etc/q 0$$Package: z$Status: install ok triggers-pending$Version:   1$Architecture: all$Triggers-Pending: q$$→Package: q$Status: install ok unpacked$Architecture: all$Version: 2$Config-Version: 1$Conffiles:$ /etc/q 0$$Package: z$Status: install ok triggers-pending$Version:   1$Architecture: all$Triggers-Pending: q$$→unpack q 2$→Package: q$Architecture: all$Version: 2$
Package: q$Status: install ok triggers-pending$Architecture: all$Triggers-Pending: q$Version: 1$Config-Version: 0$Conffiles:$ /etc/q 0$$→Package: q$Status: install ok installed$Architecture: all$Version: 2$Triggers-Pending: q$Conffiles:$ /etc/q 0$$→unpack q 2$→Package: q$Architecture: all$Version: 2$Triggers-Pending: q$→configure q$→
Package: q$Status: install ok triggers-awaited$Architecture: all$Version: 1$Triggers-Awaited: z$$→Package: q$Status: install ok half-configured$Architecture: all$Version: 1$Config-Version: 1$$→configure q$→→deconfigure q$→
Package: q$Status: install ok triggers-awaited$Architecture: all$Version: 1$$→→remove q$→→purge q$→
Package: a$Status: install ok triggers-pending$Architecture: all$Version: 1$→E24 NotApplicable a→deconfigure a$→
Package: a$Status: install ok triggers-awaited$Architecture: all$Version: 1$→E24 NotApplicable a→deconfigure a$→
Package: a$Status: install ok triggers-pending$Architecture: all$Version: 1$→E24 NotApplicable a→purge a$→
Package: a$Status: install reinstreq triggers-awaited$Architecture: all$Version: 1$→E24 NotApplicable a→configure a$→
Package: h$Status: hold ok not-installed$→Package: h$Status: hold ok not-installed$$Package: a$Status: install ok unpacked$Version: 1$Architecture: amd64$$→unpack a 1$→Package: a$Version: 1$Architecture: amd64$
Package: a$Status: deinstall ok config-files$$$$Package: x$Status: unknown ok not-installed$Architecture: i386$$Package: b$Status: purge ok config-files→Package: x$Status: unknown ok not-installed$Architecture: i386$$Package: b$Status: purge ok config-files$$→purge a$→
Package: h$Status: hold ok not-installed$→Package: h$Status: install ok unpacked$Architecture: all$Version: 1.0$$→unpack h 0:1.00-0$→$Package: h$Architecture: all$Version: 1.0$$
→E24 NotApplicable a→unpack a 1$→
→E24 NotApplicable a→unpack a 1$→Package: a$Architecture: i386$Version: 1$
→E24 NotApplicable a→unpack a 1$→Package: b$Architecture: all$Version: 1$
→E24 NotApplicable a→unpack a 1$→Package: a$Architecture: all$Version: 2$
→E24 NotApplicable a→unpack a 1$→Package: a$Architecture: all$Version: 1$$Package: b$Architecture: all$Version: 1$
→E24 NotApplicable a→purge a$→
Package: a$Status: install reinstreq installed$Architecture: all$Version: 1$→E24 NotApplicable a→remove a$→
Package: a$Status: install reinstreq unpacked$Architecture: all$Version: 1$→E24 NotApplicable a→configure a$→
Package: a$Status: install reinstreq half-installed$Config-Version: 0$Version: 1$Architecture: all$→E24 NotApplicable a→configure a$→
Package: a$Status: install ok installed$Architecture: all$Version: 1$→E24 NotApplicable a→configure a$→
Package: a$Status: install ok unpacked$Architecture: all$Version: 1$→E24 NotApplicable a→deconfigure a$→
Package: a$Status: install ok installed$Architecture: all$Version: 1$→E24 NotApplicable a→purge a$→
";

#[test]
fn steps_leave_these_texts_which_are_read_again(rt: HostRuntime) -> Result<(), Fail> {
    all_hold(rt.alloc(), LEFT, leave)
}

// The same of plans that dpkg carried out (`bench/dpkg_sequences.py`), with each kind of step on each kind of record from
// which a scenario takes it. The states, versions and config versions are those that dpkg left; where a step isn't
// applicable, dpkg left all as it was.
const LEFT_BY_DPKG: &str = "\
Package: a$Status: install ok unpacked$Version: 1$Architecture: all$$→Package: a$Status: install ok unpacked$Version: 2$Architecture: all$$→unpack a 2$→Package: a$Version: 2$Architecture: all$
Package: a$Status: install ok unpacked$Version: 2$Architecture: all$Config-Version: 1$$→Package: a$Status: install ok unpacked$Version: 3$Config-Version: 1$Architecture: all$$→unpack a 3$→Package: a$Version: 3$Architecture: all$
Package: a$Status: install ok half-installed$Version: 1$Architecture: all$$→Package: a$Status: install ok unpacked$Version: 1$Architecture: all$$→unpack a 1$→Package: a$Version: 1$Architecture: all$
Package: a$Status: install reinstreq installed$Version: 1$Architecture: all$$→Package: a$Status: install ok installed$Version: 1$Architecture: all$$→unpack a 1$→Package: a$Version: 1$Architecture: all$→configure a$→
Package: a$Status: install reinstreq half-installed$Version: 1$Architecture: all$$→Package: a$Status: install ok installed$Version: 1$Architecture: all$$→unpack a 1$→Package: a$Version: 1$Architecture: all$→configure a$→
Package: a$Status: deinstall ok config-files$Version: 1$Architecture: all$Config-Version: 1$Conffiles:$ /etc/a 0$→Package: a$Status: install ok installed$Version: 2$Architecture: all$Conffiles:$ /etc/a 0$$→unpack a 2$→Package: a$Version: 2$Architecture: all$→configure a$→
Package: a$Status: install ok half-installed$Version: 2$Architecture: all$Config-Version: 1$$→Package: a$Status: install ok unpacked$Version: 3$Architecture: all$$→unpack a 3$→Package: a$Version: 3$Architecture: all$
Package: a$Status: hold ok installed$Version: 1$Architecture: all$$→Package: a$Status: install ok unpacked$Version: 2$Config-Version: 1$Architecture: all$$→unpack a 2$→Package: a$Version: 2$Architecture: all$
Package: a$Status: hold ok not-installed$Version: 1$Architecture: all$$→Package: a$Status: install ok unpacked$Version: 1$Architecture: all$$→unpack a 1$→Package: a$Version: 1$Architecture: all$
Package: a$Status: hold ok unpacked$Version: 1$Architecture: all$$→Package: a$Status: install ok unpacked$Version: 1$Architecture: all$$→unpack a 1$→Package: a$Version: 1$Architecture: all$
Package: a$Status: install ok half-configured$Version: 1$Architecture: all$Config-Version: 0$$→Package: a$Status: install ok installed$Version: 1$Architecture: all$$→configure a$→
Package: a$Status: hold ok unpacked$Version: 1$Architecture: all$$→Package: a$Status: hold ok installed$Version: 1$Architecture: all$$→configure a$→
Package: a$Status: deinstall ok unpacked$Version: 1$Architecture: all$$→Package: a$Status: deinstall ok installed$Version: 1$Architecture: all$$→configure a$→
Package: p$Status: install ok installed$Version: 1$Architecture: all$$Package: q$Status: install ok installed$Version: 1$Architecture: all$$→Package: p$Status: install ok installed$Version: 2$Architecture: all$Breaks: q (<< 2)$$Package: q$Status: install ok installed$Version: 2$Architecture: all$$→deconfigure q$→→unpack p 2$→Package: p$Version: 2$Architecture: all$Breaks: q (<< 2)$→unpack q 2$→Package: q$Version: 2$Architecture: all$→configure p$→→configure q$→
Package: p$Status: install ok installed$Version: 1$Architecture: all$$Package: q$Status: hold ok installed$Version: 1$Architecture: all$$→Package: p$Status: install ok unpacked$Version: 2$Config-Version: 1$Architecture: all$Breaks: q (<< 2)$$Package: q$Status: hold ok half-configured$Version: 1$Config-Version: 1$Architecture: all$$→deconfigure q$→→unpack p 2$→Package: p$Version: 2$Architecture: all$Breaks: q (<< 2)$
Package: p$Status: install ok installed$Version: 1$Architecture: all$$Package: q$Status: install ok installed$Version: 1$Architecture: all$Essential: yes$$→Package: p$Status: install ok installed$Version: 2$Architecture: all$Breaks: q (<< 2)$$Package: q$Status: install ok installed$Version: 2$Architecture: all$$→deconfigure q$→→unpack p 2$→Package: p$Version: 2$Architecture: all$Breaks: q (<< 2)$→unpack q 2$→Package: q$Version: 2$Architecture: all$→configure p$→→configure q$→
→Package: b$Status: install ok unpacked$Version: 1$Architecture: all$$Package: a$Status: install ok unpacked$Version: 1$Architecture: all$Pre-Depends: b$$→unpack b 1$→Package: b$Version: 1$Architecture: all$Conffiles:$ /etc/b 0$→configure b$→→remove b$→→unpack b 1$→Package: b$Version: 1$Architecture: all$Conffiles:$ /etc/b 0$→unpack a 1$→Package: a$Version: 1$Architecture: all$Pre-Depends: b$
→Package: a$Status: install ok installed$Version: 1$Architecture: all$Depends: b$$Package: b$Status: install ok installed$Version: 1$Architecture: all$Depends: c$$Package: c$Status: install ok installed$Version: 1$Architecture: all$Depends: a$$→unpack a 1$→Package: a$Version: 1$Architecture: all$Depends: b$→unpack b 1$→Package: b$Version: 1$Architecture: all$Depends: c$→unpack c 1$→Package: c$Version: 1$Architecture: all$Depends: a$→configure a b c$→
Package: a$Status: install ok installed$Version: 1$Architecture: all$$Package: b$Status: install ok installed$Version: 1$Architecture: all$$→Package: a$Status: install ok installed$Version: 2$Architecture: all$Pre-Depends: b (>= 1)$$Package: b$Status: install ok installed$Version: 2$Architecture: all$Depends: a (>= 2)$$→unpack b 2$→Package: b$Version: 2$Architecture: all$Depends: a (>= 2)$→unpack a 2$→Package: a$Version: 2$Architecture: all$Pre-Depends: b (>= 1)$→configure a b$→
Package: a$Status: install ok unpacked$Version: 1$Architecture: all$Pre-Depends: b$$Package: b$Status: install ok half-configured$Version: 1$Architecture: all$Config-Version: 1$$→Package: a$Status: install ok installed$Version: 1$Architecture: all$Pre-Depends: b$$Package: b$Status: install ok installed$Version: 1$Architecture: all$$→configure a b$→
Package: a$Status: install ok installed$Version: 1$Architecture: all$Conffiles:$ /etc/a 0$→Package: a$Status: deinstall ok config-files$Version: 1$Config-Version: 1$Architecture: all$Conffiles:$ /etc/a 0$$→remove a$→
Package: a$Status: install ok unpacked$Version: 1$Architecture: all$Conffiles:$ /etc/a 0$→Package: a$Status: deinstall ok config-files$Version: 1$Architecture: all$Conffiles:$ /etc/a 0$$→remove a$→
Package: a$Status: install ok unpacked$Version: 2$Architecture: all$Config-Version: 1$Conffiles:$ /etc/a 0$→Package: a$Status: deinstall ok config-files$Version: 2$Config-Version: 1$Architecture: all$Conffiles:$ /etc/a 0$$→remove a$→
Package: a$Status: install ok half-configured$Version: 2$Architecture: all$Config-Version: 1$Conffiles:$ /etc/a 0$→Package: a$Status: deinstall ok config-files$Version: 2$Config-Version: 1$Architecture: all$Conffiles:$ /etc/a 0$$→remove a$→
Package: a$Status: install ok half-installed$Version: 1$Architecture: all$Conffiles:$ /etc/a 0$→Package: a$Status: deinstall ok config-files$Version: 1$Architecture: all$Conffiles:$ /etc/a 0$$→remove a$→
Package: a$Status: install ok half-installed$Version: 1$Architecture: all$Config-Version: 0$Conffiles:$ /etc/a 0$→Package: a$Status: deinstall ok config-files$Version: 1$Config-Version: 0$Architecture: all$Conffiles:$ /etc/a 0$$→remove a$→
Package: a$Status: hold ok installed$Version: 1$Architecture: all$Conffiles:$ /etc/a 0$→Package: a$Status: deinstall ok config-files$Version: 1$Config-Version: 1$Architecture: all$Conffiles:$ /etc/a 0$$→remove a$→
→→unpack a 1$→Package: a$Version: 1$Architecture: all$Conffiles:$ /etc/a 0$→configure a$→→remove a$→→purge a$→
Package: a$Status: deinstall ok config-files$Version: 1$Architecture: all$Config-Version: 1$Conffiles:$ /etc/a 0$→→purge a$→
Package: a$Status: deinstall ok config-files$Version: 1$Architecture: all$Essential: yes$Conffiles:$ /etc/a 0$→→purge a$→
Package: a$Status: deinstall ok config-files$Version: 1$Architecture: all$Protected: yes$Conffiles:$ /etc/a 0$→→purge a$→
Package: a$Status: hold ok config-files$Version: 1$Architecture: all$Config-Version: 1$Conffiles:$ /etc/a 0$→→purge a$→
Package: a$Status: deinstall ok config-files$Version: 1$Architecture: all$Config-Version: 1$Conffiles:$ /etc/a 0$→E24 NotApplicable a→remove a$→
→E24 NotApplicable a→remove a$→
Package: p$Status: install ok installed$Version: 1$Architecture: all$$Package: q$Status: install ok installed$Version: 1$Architecture: all$$→Package: p$Status: install ok installed$Version: 1$Architecture: all$$Package: q$Status: install ok installed$Version: 1$Architecture: all$$→
";

#[test]
fn steps_leave_the_states_that_dpkg_leaves(rt: HostRuntime) -> Result<(), Fail> {
    all_hold(rt.alloc(), LEFT_BY_DPKG, leave)
}

// Names that are recorded, and one of another architecture.
const NAMED: &[u8] =
    b"Package: b\nStatus: install ok installed\nArchitecture: all\nVersion: 1\n\nPackage: x\nStatus: unknown ok not-installed\nArchitecture: i386\n\nPackage: a\nStatus: hold ok not-installed\n";

const A: &[u8] = b"a";

const B: &[u8] = b"b";

#[test]
fn names_are_those_of_records_which_are_found_by_them(rt: HostRuntime) -> Result<(), Fail> {
    let db = Database::read(rt.alloc(), NAMED, ARCH)?;
    let names = db.names();
    assert!(rt; names.len() == 2 && names[0].as_slice() == B && names[1].as_slice() == A);
    let records = db.records(rt.alloc())?;
    assert!(rt; records.len() == 2 && records[0].name() == B && records[1].name() == A);
    assert!(rt; db.arch() == ARCH && db.record(b"x").is_none());
    assert!(rt; matches!(db.record(A), Some(a) if a.is_held() && !a.is_present()));
    Ok(())
}

#[test]
fn the_name_of_a_refusal_is_lent(rt: HostRuntime) -> Result<(), Fail> {
    let step = read_step(rt.alloc(), b"remove a\n")?;
    let mut db = Database::read(rt.alloc(), b"", ARCH)?;
    match db.apply(rt.alloc(), &step, None) {
        Err(ApplyError::NotApplicable(name)) => assert!(rt; name.as_bytes() == b"a".as_slice()),
        _ => return Err(Fail::new("not refused")),
    }
    Ok(())
}

const UNPACKED: &[u8] = b"Package: x\nVersion: 2\nArchitecture: all\nDepends: y, z\n";

// The calls of the README's example.
#[test]
fn an_unpacked_record_has_its_package(rt: HostRuntime) -> Result<(), Fail> {
    let mut db = Database::read(rt.alloc(), b"", ARCH)?;
    let step = read_step(rt.alloc(), b"unpack x 2\n")?;
    db.apply(rt.alloc(), &step, Some(UNPACKED))?;
    let Some(record) = db.record(b"x") else {
        return Err(Fail::new("no record"));
    };
    assert!(rt; record.is_present() && record.stands() && !record.is_installed());
    assert!(rt; !record.is_held() && !record.is_essential() && record.name() == b"x".as_slice());
    assert!(rt; record.version().is_some() && record.config_version().is_none());
    assert_eq!(rt; record.pkg(rt.alloc())?.depends().len(), 2);
    Ok(())
}
