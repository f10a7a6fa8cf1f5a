//! Every example of the document.

mod common;
use common::*;
use second::{candidates, listing, new_place, Edit, Position};

/// The run of candidates: the front, and the least and greatest x.
fn run(p: &Position, q: &Position, site: u8) -> Option<(Vec<second::Identifier>, u32, u32)> {
    candidates(p, q, site).map(|c| (c.front, c.lowest, c.highest))
}

#[test]
fn p1_p2_order() {
    assert!(at(&[(2, 4), (9, 9)]) < at(&[(2, 5)]));
    assert!(at(&[(2, 4)]) < at(&[(2, 4), (1, 1)]));
}

#[test]
fn p3_between_the_ends() {
    let found = run(&Position::begin(), &Position::end(), 3);
    assert_eq!(found, Some((vec![], 1, 65_534)));
}

#[test]
fn p4_p5_sites_break_ties() {
    let (p, q) = (at(&[(2, 4)]), at(&[(10, 5)]));
    assert_eq!(run(&p, &q, 4), Some((vec![], 3, 10)));
    assert_eq!(new_place(&p, &q, 4, 9), Some(at(&[(4, 4)])));
    assert_eq!(run(&p, &q, 5), Some((vec![], 2, 9)));
}

#[test]
fn p6_p7_p8_longer_places() {
    let p = at(&[(5, 1), (1, 6), (10, 2)]);
    let q = at(&[(5, 1), (2, 1), (15, 2)]);
    assert_eq!(run(&p, &q, 7), Some((ids(&[(5, 1)]), 1, 1)));
    assert_eq!(run(&p, &q, 1), Some((ids(&[(5, 1)]), 2, 2)));
    assert_eq!(run(&p, &q, 6), Some((ids(&[(5, 1), (1, 6)]), 10, 65_535)));
}

#[test]
fn p9_p10_pads() {
    let (p, q) = (at(&[(2, 4)]), at(&[(2, 4), (1, 3)]));
    assert_eq!(run(&p, &q, 2), Some((ids(&[(2, 4)]), 1, 1)));
    assert_eq!(run(&p, &q, 5), Some((ids(&[(2, 4), (0, 0)]), 1, 65_535)));
}

#[test]
fn p11_no_place() {
    let mut list = vec![(5, 3)];
    list.extend([(65_535, 9); 7]);
    assert_eq!(run(&at(&list), &at(&[(5, 4), (9, 3)]), 2), None);
}

#[test]
fn text_of_48_and_49_bytes() {
    let mut held = Held::start(3);
    assert_eq!(held.insert(0, &[b'x'; 48], 0).0, 0);
    assert_eq!(held.insert(0, &[b'x'; 49], 0).0, 9);
    assert_eq!(held.row_text(0), (0, &[b'x'; 48][..]));
}

#[test]
fn rows_512() {
    let mut held = Held::start(3);
    for row in 0..512 {
        assert_eq!(held.insert(row, b"line", 0).0, 0);
    }
    assert_eq!(held.insert(7, b"more", 0).0, 7);
    assert_eq!(held.delete(7).0, 0);
    assert_eq!(held.insert(7, b"more", 0).0, 0);
    assert_eq!(held.row_text(7), (0, &b"more"[..]));
}

const LISTED: &str = "02 03 00000001 01 01 00000001 01 000101 04 00000001
    01 01 00000001 00 01 000101 02 676F
    01 02 00000001 00 01 000102 04 686F6C64";

#[test]
fn the_listing() {
    let wanted = "1 5\n2 0\n3 0\nrows 2\n1 1.1 1 go\n2 1.2 1 hold\n";
    assert_eq!(listing(&hex(LISTED)), wanted.as_bytes());
}

#[test]
fn the_listing_of_other_inputs() {
    assert_eq!(listing(b""), b"rows 0\n");
    assert_eq!(listing(b"?"), b"1 2\nrows 0\n");
    assert_eq!(listing(&vec![0; 65_536]), b"1 2\nrows 0\n");
    assert_eq!(listing(&vec![0; 65_537]), b"too long\n");
    // The feeding stops at the first answer 2; the rows are listed all the same.
    let empty = bytes(&patch(2, 1, &[], &[(0, 0), (9, 2)], put(b"")));
    let mut input = [&empty[..], &empty[..], &[3]].concat();
    input.extend_from_slice(&hex(LISTED));
    assert_eq!(listing(&input), b"1 0\n2 4\n3 2\nrows 1\n1 0.0,9.2 1 \n");
    // The listing's own site is 16.
    let own = bytes(&patch(16, 1, &[], &[(9, 16)], put(b"")));
    assert_eq!(listing(&own), b"1 3\nrows 0\n");
}

/// Errors that look right: striking by position alone.
#[test]
fn a_line_written_again_at_a_struck_place_stays() {
    let mut one = Held::start(1);
    let mut two = Held::start(2);
    let mut three = Held::start(3);
    let (_, first) = one.insert(0, b"old", 0);
    assert_eq!((two.receive(&first), three.receive(&first)), (0, 0));
    let (_, by_two) = two.delete(0);
    let (_, by_three) = three.delete(0);
    assert_eq!(one.receive(&by_two), 0);
    let (_, second) = one.insert(0, b"new", 0);
    assert_eq!(one.replica().lines, [line(&[(1, 1)], 2, b"new")]);
    assert_eq!(one.receive(&by_three), 15);
    assert_eq!(one.replica().lines, [line(&[(1, 1)], 2, b"new")]);
    // The others arrive at the same rows.
    assert_eq!((two.receive(&by_three), two.receive(&second)), (15, 0));
    assert_eq!((three.receive(&by_two), three.receive(&second)), (15, 0));
    assert!(one.table == two.table && two.table == three.table);
}

/// Errors that look right: dropping a late delete without counting it.
#[test]
fn a_late_delete_is_counted() {
    let mut held = Held::start(4);
    let insert = bytes(&patch(1, 1, &[], &[(1, 1)], put(b"go")));
    let strike = |author| bytes(&patch(author, 1, &[(1, 1)], &[(1, 1)], Edit::Delete(1)));
    assert_eq!(held.receive(&insert), 0);
    assert_eq!(held.receive(&strike(2)), 0);
    assert_eq!(held.receive(&strike(3)), 15);
    assert_eq!(held.receive(&strike(3)), 4);
    let next = patch(3, 2, &[(1, 1), (3, 1)], &[(1, 3)], put(b"next"));
    assert_eq!(held.receive(&bytes(&next)), 0);
    assert_eq!(counts_of(&held.replica())[..4], [1, 1, 2, 0]);
}

/// Errors that look right: whole integers first and sites only at the end.
#[test]
fn a_site_counts_before_the_next_integer() {
    assert!(at(&[(2, 4), (9, 1)]) < at(&[(2, 5), (1, 1)]));
    assert!(at(&[(2, 5), (1, 1)]) < at(&[(3, 1)]));
}

/// Errors that look right: taking a repeated insert after its line was struck.
#[test]
fn a_repeated_insert_is_refused() {
    let mut held = Held::start(2);
    let insert = bytes(&patch(1, 1, &[], &[(1, 1)], put(b"go")));
    assert_eq!(held.receive(&insert), 0);
    assert_eq!(held.delete(0).0, 0);
    assert_eq!(held.receive(&insert), 4);
    assert!(held.replica().lines.is_empty());
}
