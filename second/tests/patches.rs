//! The patch reader and writer.

mod common;
use common::*;
use second::{Edit, Patch, Position};

fn reads(text: &str) -> bool {
    let bytes = hex(text);
    match Patch::read(&bytes) {
        Some((patch, used)) => {
            assert_eq!(patch.write().as_deref(), Some(&bytes[..used]));
            used == bytes.len()
        }
        None => false,
    }
}

#[test]
fn a_typed_patch() {
    let bytes = hex("02 03 00000001 01 01 00000001 01 000101 04 00000001 FF");
    let wanted = patch(3, 1, &[(1, 1)], &[(1, 1)], Edit::Delete(1));
    assert_eq!(Patch::read(&bytes), Some((wanted, 21)));
}

#[test]
fn heads() {
    assert!(reads("01 01 00000001 00 01 000101 00"));
    for bad in ["00", "02", "03", "FF"] {
        assert!(!reads(&format!("{bad} 01 00000001 00 01 000101 00")));
    }
    assert!(!reads("01 00 00000001 00 01 000100 00"));
    assert!(!reads("01 11 00000001 00 01 000111 00"));
    assert!(reads("01 10 00000001 00 01 000110 00"));
    assert!(!reads("01 01 00000000 00 01 000101 00"));
    assert!(reads("01 01 000F4240 01 01 000F423F 01 000101 00"));
    assert!(!reads("01 01 000F4241 01 01 000F4240 01 000101 00"));
}

#[test]
fn before() {
    let reads_before = |before: &str| reads(&format!("01 02 00000002 {before} 01 000102 00"));
    assert!(reads_before("01 02 00000001"));
    assert!(reads_before("02 01 000F4240 02 00000001"));
    assert!(reads_before("02 02 00000001 10 00000001"));
    // The own entry: absent, wrong.
    assert!(!reads_before("00"));
    assert!(!reads_before("01 01 00000001"));
    assert!(!reads_before("01 02 00000002"));
    // Not rising, repeated, no site, zero, above 1,000,000.
    assert!(!reads_before("02 02 00000001 01 00000001"));
    assert!(!reads_before("02 02 00000001 02 00000001"));
    assert!(!reads_before("02 00 00000001 02 00000001"));
    assert!(!reads_before("02 02 00000001 11 00000001"));
    assert!(!reads_before("02 01 00000000 02 00000001"));
    assert!(!reads_before("02 01 000F4241 02 00000001"));
    // Number 1 has no own entry.
    assert!(!reads("01 02 00000001 01 02 00000000 01 000102 00"));
    assert!(!reads("01 02 00000001 01 02 00000001 01 000102 00"));
    // Seventeen entries.
    let entries: String = (1..=17)
        .map(|site| format!("{site:02X} 00000001 "))
        .collect();
    assert!(!reads_before(&format!("11 {entries}")));
}

#[test]
fn places() {
    let reads_place = |place: &str| reads(&format!("01 02 00000001 00 {place} 00"));
    assert!(reads_place("02 000000 FFFF02"));
    assert!(reads_place("01 FFFE02"));
    assert!(!reads_place("01 FFFF02"));
    assert!(!reads_place("02 FFFF01 000102"));
    assert!(!reads_place("00"));
    // Ends in a pad, in another site, holds half a pad or no site.
    assert!(!reads_place("01 000000"));
    assert!(!reads_place("02 000102 000000"));
    assert!(!reads_place("01 000101"));
    assert!(!reads_place("02 000001 000102"));
    assert!(!reads_place("02 000100 000102"));
    assert!(!reads_place("02 000111 000102"));
    let eight = "000102".repeat(8);
    assert!(reads_place(&format!("08 {eight}")));
    assert!(!reads_place(&format!("09 {eight} 000102")));
}

#[test]
fn edits() {
    assert!(reads(&format!(
        "01 02 00000001 00 01 000102 30 {}",
        "00".repeat(48)
    )));
    assert!(!reads(&format!(
        "01 02 00000001 00 01 000102 31 {}",
        "00".repeat(49)
    )));
    let reads_strike =
        |line: &str| reads(&format!("02 02 00000001 01 03 00000005 01 000103 {line}"));
    assert!(reads_strike("04 00000001"));
    assert!(reads_strike("04 00000005"));
    assert!(!reads_strike("04 00000006"));
    assert!(!reads_strike("04 00000000"));
    assert!(!reads_strike("03 000001"));
    assert!(!reads_strike("05 0000000001"));
    assert!(!reads_strike("04 000001"));
    // No entry for the place's last site.
    assert!(!reads(
        "02 02 00000001 01 03 00000005 01 000104 04 00000001"
    ));
    // An own line.
    assert!(reads("02 02 00000002 01 02 00000001 01 000102 04 00000001"));
    assert!(!reads(
        "02 02 00000002 01 02 00000001 01 000102 04 00000002"
    ));
}

#[test]
fn every_cut_is_malformed() {
    let whole = hex("02 02 00000002 02 02 00000001 10 00000003 01 000702 04 00000001");
    for length in 0..whole.len() {
        assert_eq!(Patch::read(&whole[..length]), None);
    }
}

#[test]
fn the_writer_refuses_what_no_bytes_read_as() {
    let good = patch(2, 1, &[(3, 5)], &[(1, 2)], put(b"go"));
    assert!(good.write().is_some());
    let refused = |change: fn(&mut Patch)| {
        let mut patch = good.clone();
        change(&mut patch);
        patch.write().is_none()
    };
    assert!(refused(|patch| patch.author = 3));
    assert!(refused(|patch| patch.number = 0));
    assert!(refused(|patch| patch.number = 2));
    assert!(refused(|patch| patch.edit = Edit::Insert(vec![0; 49])));
    assert!(refused(|patch| patch.edit = Edit::Delete(1)));
    assert!(refused(|patch| patch.place = Position::begin()));
    assert!(refused(|patch| patch.place = Position::end()));
    assert!(refused(|patch| patch.before.extend([(0, 1)])));
    assert!(refused(|patch| patch.before.extend([(17, 1)])));
    assert!(refused(|patch| patch.before.extend([(3, 0)])));
    assert!(refused(|patch| patch.before.extend([(2, 1)])));
}
