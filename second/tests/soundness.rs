//! When record and table are sound.

mod common;
use common::*;

/// Two rows, (0,0).(4,2) number 1 and (4,2) number 2, in a replica of site 1.
fn two_rows() -> Held {
    let mut replica = Held::start(1).replica();
    replica.lines = vec![
        line(&[(0, 0), (4, 2)], 1, b"ab"),
        line(&[(4, 2)], 2, &[0; 48]),
    ];
    let mut held = Held::of(&replica);
    held.set_count(2, 2);
    held
}

/// Whether the two rows are sound after one byte is set.
fn sound_with(in_record: bool, at: usize, byte: u8) -> bool {
    let mut held = two_rows();
    let bytes = if in_record {
        &mut held.record
    } else {
        &mut held.table
    };
    bytes[at] = byte;
    held.is_sound()
}

fn record_with(at: usize, byte: u8) -> bool {
    sound_with(true, at, byte)
}

fn table_with(at: usize, byte: u8) -> bool {
    sound_with(false, at, byte)
}

#[test]
fn the_layout() {
    let held = two_rows();
    assert!(held.is_sound());
    assert_eq!(held.record[..11], hex("01 0002 00000000 00000002"));
    let row = "02 000000 000402 000000000000000000000000000000000000 00000001 02 6162 00";
    assert_eq!(held.table[..33], hex(row));
    let row = "01 000402 000000000000000000000000000000000000000000 00000002 30";
    assert_eq!(held.table[78..108], hex(row));
}

#[test]
fn the_record() {
    assert!(record_with(0, 16));
    assert!(!record_with(0, 0));
    assert!(!record_with(0, 17));
    // Rows: one fewer leaves a row that must be zero, one more reads a zero row.
    assert!(!record_with(2, 1));
    assert!(!record_with(2, 3));
    assert!(!record_with(1, 2));
    assert!(!record_with(1, 255));
    let mut held = two_rows();
    held.set_count(16, 1_000_000);
    assert!(held.is_sound());
    held.set_count(16, 1_000_001);
    assert!(!held.is_sound());
}

#[test]
fn more_than_512_rows() {
    let mut held = full();
    assert!(held.is_sound());
    held.record[2] = 1;
    assert!(!held.is_sound());
}

#[test]
fn identifiers() {
    // One identifier used where two stand, none, nine, 255.
    for used in [0, 1, 9, 255] {
        assert!(!table_with(0, used));
    }
    // Three used: the position ends in a pad.
    assert!(!table_with(0, 3));
    // Site without integer, integer without site, site 17.
    assert!(!table_with(3, 1));
    assert!(!table_with(2, 1));
    assert!(!table_with(6, 17));
    assert!(!table_with(5, 0));
    assert!(table_with(5, 9));
    // Unused identifiers.
    assert!(!table_with(24, 1));
}

#[test]
fn the_first_integer() {
    let mut held = two_rows();
    held.table[79..81].copy_from_slice(&[255, 254]);
    assert!(held.is_sound());
    held.table[80] = 255;
    assert!(!held.is_sound());
    // A later integer may be 65,535.
    let mut held = two_rows();
    held.table[4..6].copy_from_slice(&[255, 255]);
    assert!(held.is_sound());
}

#[test]
fn numbers() {
    // 0, one above the count of the author, and the count of the author.
    assert!(!table_with(28, 0));
    assert!(!table_with(28, 3));
    assert!(table_with(28, 2));
    assert!(!table_with(25, 1));
    // Another author, of whom nothing is received.
    assert!(!table_with(6, 3));
}

#[test]
fn text() {
    assert!(table_with(29, 48));
    assert!(!table_with(29, 49));
    assert!(!table_with(29, 1));
    assert!(table_with(30, 255));
    assert!(!table_with(32, 1));
    assert!(!table_with(77, 1));
}

#[test]
fn after_the_last_row() {
    assert!(!table_with(156, 1));
    assert!(!table_with(39_935, 1));
}

#[test]
fn rows_rise_strictly() {
    let replica = two_rows().replica();
    let mut turned = replica.clone();
    turned.lines.reverse();
    assert!(!Held::of(&turned).is_sound());
    let mut twice = replica;
    twice.lines[0] = line(&[(4, 2)], 1, b"");
    assert!(!Held::of(&twice).is_sound());
}
