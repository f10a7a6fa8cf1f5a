//! Each answer number, and the orders of checks.

mod common;
use common::*;
use second::limits::{LARGEST_NUMBER, RECORD_BYTES, TABLE_BYTES};
use second::Edit;

#[test]
fn start_checks_14_then_1() {
    for site in [0, 17, 256, 257, u32::MAX] {
        assert_eq!(second::start(&mut [], &mut [], site), 14);
    }
    let mut record = vec![7; RECORD_BYTES];
    let mut table = vec![7; TABLE_BYTES];
    assert_eq!(second::start(&mut record[1..], &mut table, 1), 1);
    assert_eq!(second::start(&mut record, &mut table[1..], 1), 1);
    assert_eq!(second::start(&mut record, &mut table, 17), 14);
    assert!(record.iter().chain(&table).all(|&byte| byte == 7));
    assert_eq!(second::start(&mut record, &mut table, 16), 0);
    assert_eq!(record[0], 16);
    assert!(record[1..].iter().chain(&table).all(|&byte| byte == 0));
}

#[test]
fn wrong_lengths_answer_1() {
    let mut held = Held::start(1);
    held.table.push(0);
    let none = (1, vec![]);
    assert_eq!(held.insert(9, &[0; 99], 0), none);
    assert_eq!(held.delete(9), none);
    assert_eq!(held.receive(b""), 1);
    assert_eq!(second::row_text(&held.record, &held.table, 9), (1, 0..0));
    assert_eq!(second::insert(&mut [], &mut [], 0, b"", 0, &mut []), (1, 0));
    assert_eq!(second::delete(&mut [], &mut [], 0, &mut []), (1, 0));
    assert_eq!(second::receive(&mut [], &mut [], &[]), 1);
    assert_eq!(second::row_text(&[], &[], 0), (1, 0..0));
}

#[test]
fn insert_checks_in_order() {
    let mut held = full();
    held.set_count(1, LARGEST_NUMBER);
    let (record, table) = (&mut held.record.clone(), &mut held.table.clone());
    let mut short = [5; 160];
    let long = [0; 49];
    assert_eq!(
        second::insert(record, table, 513, &long, 0, &mut short),
        (10, 0)
    );
    assert_eq!(short, [5; 160]);
    assert_eq!(held.insert(513, &long, 0).0, 8);
    assert_eq!(held.insert(usize::MAX, &long, 0).0, 8);
    assert_eq!(held.insert(512, &long, 0).0, 9);
    assert_eq!(held.insert(512, b"", 0).0, 7);
    let mut fewer = held.replica();
    fewer.lines.pop();
    assert_eq!(Held::of(&fewer).insert(511, b"", 0).0, 11);
    // A buffer of exactly 161 bytes is enough.
    let mut held = Held::start(1);
    let mut buffer = [5; 161];
    let written = second::insert(&mut held.record, &mut held.table, 0, b"", 0, &mut buffer);
    assert_eq!(written, (0, 12));
}

#[test]
fn insert_11_then_12() {
    let mut list = vec![(5, 3)];
    list.extend([(65_535, 9); 7]);
    let mut replica = Held::start(2).replica();
    replica.lines = vec![line(&list, 1, b""), line(&[(5, 4), (9, 3)], 1, b"")];
    let mut held = Held::of(&replica);
    held.set_count(9, 1);
    held.set_count(3, 1);
    assert_eq!(held.insert(1, b"", 0).0, 12);
    held.set_count(2, LARGEST_NUMBER);
    assert_eq!(held.insert(1, b"", 0).0, 11);
    held.set_count(2, LARGEST_NUMBER - 1);
    assert_eq!(held.insert(1, b"", 0).0, 12);
    let (answer, bytes) = held.insert(0, b"", 0);
    assert_eq!(
        (answer, &bytes[2..6]),
        (0, &LARGEST_NUMBER.to_be_bytes()[..])
    );
    assert_eq!(held.insert(0, b"", 0).0, 11);
}

#[test]
fn delete_checks_in_order() {
    let mut held = full();
    held.set_count(1, LARGEST_NUMBER);
    let (record, table) = (&mut held.record.clone(), &mut held.table.clone());
    assert_eq!(second::delete(record, table, 512, &mut [0; 160]), (10, 0));
    assert_eq!(held.delete(512).0, 8);
    assert_eq!(held.delete(usize::MAX).0, 8);
    assert_eq!(held.delete(511).0, 11);
}

#[test]
fn receive_checks_in_order() {
    let mut held = full();
    assert_eq!(held.receive(b""), 2);
    // 3 before 5, 4 before 5.
    let own = |number| patch(1, number, &[(1, number - 1), (2, 9)], &[(1, 1)], put(b""));
    assert_eq!(held.receive(&bytes(&own(513))), 3);
    assert_eq!(held.receive(&bytes(&own(999))), 3);
    assert_eq!(held.receive(&bytes(&own(512))), 4);
    held.set_count(2, 5);
    let before = |number: u32| [(2, number - 1), (3, 1)];
    let theirs = |number| bytes(&patch(2, number, &before(number), &[(3, 2)], put(b"")));
    assert_eq!(held.receive(&theirs(5)), 4);
    assert_eq!(held.receive(&theirs(6)), 5);
    held.set_count(3, 1);
    assert_eq!(held.receive(&theirs(7)), 5);
    assert_eq!(held.receive(&theirs(6)), 7);
    // A delete needs no room.
    let strike = patch(2, 6, &[(1, 512), (2, 5)], &[(3, 1)], Edit::Delete(3));
    assert_eq!(held.receive(&bytes(&strike)), 0);
    assert_eq!(held.receive(&theirs(6)), 4);
}

#[test]
fn receive_6_before_7() {
    let mut replica = full().replica();
    replica.lines.pop();
    replica.lines.insert(0, line(&[(0, 0), (7, 2)], 1, b""));
    let mut held = Held::of(&replica);
    held.set_count(2, 1);
    let again = patch(2, 2, &[(2, 1)], &[(0, 0), (7, 2)], put(b""));
    assert_eq!(held.receive(&bytes(&again)), 6);
    let other = patch(2, 2, &[(2, 1)], &[(0, 0), (8, 2)], put(b""));
    assert_eq!(held.receive(&bytes(&other)), 7);
}

#[test]
fn a_byte_left_over_is_malformed() {
    let mut held = Held::start(4);
    let mut insert = bytes(&patch(1, 1, &[], &[(1, 1)], put(b"go")));
    insert.push(0);
    assert_eq!(held.receive(&insert), 2);
    assert_eq!(second::first_patch(&insert), (0, 14));
    insert.pop();
    assert_eq!(held.receive(&insert), 0);
    assert_eq!(second::first_patch(&insert[..13]), (2, 0));
    assert_eq!(second::first_patch(b""), (2, 0));
}

#[test]
fn row_text_is_a_part_of_the_table() {
    let mut held = Held::start(4);
    held.insert(0, b"", 0);
    held.insert(1, b"hold", 0);
    let part = |row| second::row_text(&held.record, &held.table, row);
    assert_eq!(part(0), (0, 30..30));
    assert_eq!(part(1), (0, 108..112));
    assert_eq!(part(2), (8, 0..0));
    assert_eq!(part(usize::MAX), (8, 0..0));
}

#[test]
fn a_local_edit_writes_its_patch() {
    let mut held = Held::start(2);
    held.set_count(16, 3);
    let (_, insert) = held.insert(0, b"go", 65_534 + 6);
    assert_eq!(
        insert,
        hex("01 02 00000001 01 10 00000003 01 000702 02 676F")
    );
    let (_, delete) = held.delete(0);
    let wanted = "02 02 00000002 02 02 00000001 10 00000003 01 000702 04 00000001";
    assert_eq!(delete, hex(wanted));
    assert_eq!(counts_of(&held.replica())[1], 2);
    assert!(held.table.iter().all(|&byte| byte == 0));
}

#[test]
fn the_longest_patch_has_161_bytes() {
    let before: Vec<(u8, u32)> = (1..=16).map(|site| (site, 9)).collect();
    let longest = patch(7, 10, &before, &[(1, 7); 8], put(&[255; 48]));
    assert_eq!(bytes(&longest).len(), 161);
}

#[test]
fn comparing_counts() {
    let mut one = [0u8; 64];
    let mut two = [0u8; 64];
    one[3] = 5;
    two[3] = 2;
    two[60..].copy_from_slice(&LARGEST_NUMBER.to_be_bytes());
    one[7] = 8;
    two[7] = 8;
    let mut result = [9; 144];
    assert_eq!(second::compare(&one, &two, &mut result), 0);
    assert_eq!(
        result[..18],
        hex("01 00000003 00000005 00 00000000 00000000")
    );
    assert_eq!(result[135..], hex("02 00000001 000F4240"));
    assert!(result[9..135].iter().all(|&byte| byte == 0));
    let old = result;
    two[63] += 1;
    assert_eq!(second::compare(&one, &two, &mut result), 1);
    assert_eq!(second::compare(&two, &one, &mut result), 1);
    assert_eq!(second::compare(&one[1..], &one, &mut result), 1);
    assert_eq!(second::compare(&one, &[], &mut result), 1);
    assert_eq!(second::compare(&one, &one, &mut result[1..]), 1);
    assert_eq!(result, old);
}
