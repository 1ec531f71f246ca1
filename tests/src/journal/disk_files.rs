//! A file of the machine as a disk.
use disk::{Disk, FileDisk};
use std::fs::{self, OpenOptions};
use std::test::Fail;

const PATH: &str = "disk_file";

#[test]
fn a_file_of_the_machine(rt: HostRuntime) -> Result<(), Fail> {
    let file = OpenOptions::new()
        .read(true)
        .write(true)
        .create(true)
        .truncate(true)
        .open(&rt, PATH)?;
    let mut disk = FileDisk::new(file);
    let mut buffer = [0u8; 3];
    assert!(rt; disk.len().is_ok_and(|len| len == 0));
    assert!(rt; disk.write_at(0, b"abcdef").is_ok());
    assert!(rt; disk.write_at(4, b"WXYZ").is_ok());
    assert!(rt; disk.sync().is_ok());
    assert!(rt; disk.cut(7).is_ok());
    assert!(rt; disk.len().is_ok_and(|len| len == 7));
    assert!(rt; disk.read(4, &mut buffer).is_ok());
    assert_eq!(rt; buffer.as_slice(), b"WXY".as_slice());
    assert_eq!(rt; disk.failures(), 0);
    // Behind the end there is nothing to read.
    assert!(rt; disk.read(5, &mut buffer).is_err());
    assert_eq!(rt; disk.failures(), 1);
    assert_eq!(rt; fs::read(&rt, PATH)?.as_slice(), b"abcdWXY".as_slice());
    fs::remove_file(&rt, PATH)?;
    Ok(())
}

#[test]
fn a_file_that_is_only_read(rt: HostRuntime) -> Result<(), Fail> {
    const READ_ONLY: &str = "read_only_file";
    fs::write(&rt, READ_ONLY, b"abc".as_slice())?;
    let mut disk = FileDisk::new(fs::open(&rt, READ_ONLY)?);
    assert!(rt; disk.write_at(0, b"x").is_err());
    assert!(rt; disk.cut(1).is_err());
    assert_eq!(rt; disk.failures(), 2);
    assert!(rt; disk.len().is_ok_and(|len| len == 3));
    assert_eq!(rt; disk.failures(), 2);
    fs::remove_file(&rt, READ_ONLY)?;
    Ok(())
}
