//! Checks over many made-up inputs: places against their definition, replicas
//! that arrive at the same table, and bytes of any content.

mod common;
use common::*;
use second::{candidates, listing, Identifier, Patch, Position};

/// A position with small parts, so that neighbours are often close.
fn some_position(draws: &mut Draws) -> Position {
    loop {
        let length = 1 + draws.below(8);
        let identifiers = (0..length).map(|_| some_identifier(draws)).collect();
        if let Some(position) = Position::of_line(identifiers) {
            return position;
        }
    }
}

fn some_identifier(draws: &mut Draws) -> Identifier {
    let integers = [1, 1, 2, 3, 65_534, 65_535];
    match draws.below(4) {
        0 => Identifier::PAD,
        _ => Identifier {
            integer: integers[draws.below(6)],
            site: 1 + draws.below(3) as u8,
        },
    }
}

/// A Q near P: P cut, changed at its end, or made longer.
fn near(p: &Position, draws: &mut Draws) -> Position {
    loop {
        let mut list = p.identifiers().to_vec();
        list.truncate(draws.below(list.len() + 1));
        for _ in 0..draws.below(4) {
            list.push(some_identifier(draws));
        }
        if let Some(position) = Position::of_line(list) {
            return position;
        }
    }
}

/// All x of one length, straight from the definition.
fn by_definition(p: &Position, q: &Position, site: u8, length: usize) -> Vec<u32> {
    let mut list = p.identifiers().to_vec();
    list.resize(length, Identifier::PAD);
    let between = |&x: &u32| {
        let mut candidate = list.clone();
        let integer = x as u16;
        candidate[length - 1] = Identifier { integer, site };
        p.identifiers() < &candidate[..] && &candidate[..] < q.identifiers()
    };
    (1..=65_535).filter(between).collect()
}

#[test]
fn places_are_those_of_the_definition() {
    let mut draws = Draws(1);
    for _ in 0..60 {
        let one = some_position(&mut draws);
        let two = match draws.below(6) {
            0 => Position::begin(),
            1 => Position::end(),
            2 => some_position(&mut draws),
            _ => near(&one, &mut draws),
        };
        let (p, q) = if one < two { (one, two) } else { (two, one) };
        let site = 1 + draws.below(4) as u8;
        let mut runs = (1..=8).map(|length| by_definition(&p, &q, site, length));
        let wanted = runs.find(|run| !run.is_empty());
        let found = candidates(&p, &q, site);
        let found = found.map(|c| (c.lowest..=c.highest).collect::<Vec<u32>>());
        assert_eq!(found, wanted, "{p:?} {q:?} {site}");
    }
}

#[test]
fn replicas_arrive_at_the_same_table() {
    for seed in 0..12 {
        let mut draws = Draws(seed);
        let mut held: Vec<Held> = (1..=4).map(Held::start).collect();
        let mut patches: Vec<Vec<u8>> = Vec::new();
        for _ in 0..120 {
            let who = draws.below(4);
            let rows = held[who].replica().lines.len();
            let narrow = draws.next() % 2;
            let (answer, patch) = match draws.below(4) {
                0 if rows > 0 => held[who].delete(draws.below(rows)),
                1 if rows > 0 => held[who].insert(rows / 2, b"middle", narrow),
                _ => held[who].insert(draws.below(rows + 1), b"any", narrow),
            };
            assert!(answer == 0 || answer == 12);
            if answer == 0 {
                patches.push(patch);
            }
            let offered = draws.below(patches.len());
            let answer = held[draws.below(4)].receive(&patches[offered]);
            assert!(matches!(answer, 0 | 4 | 5 | 15));
        }
        for replica in held.iter_mut() {
            for patch in &patches {
                assert!(matches!(replica.receive(patch), 0 | 4 | 15));
            }
        }
        assert!(held.windows(2).all(|pair| pair[0].table == pair[1].table));
        // The listing program does what a replica of site 16 does.
        let mut sixteen = Held::start(16);
        for patch in &patches {
            assert!(matches!(sixteen.receive(patch), 0 | 15));
        }
        assert!(sixteen.table == held[0].table);
        let rows = format!("rows {}\n", sixteen.replica().lines.len());
        let listed = String::from_utf8(listing(&patches.concat())).unwrap();
        assert!(listed.contains(&rows));
    }
}

#[test]
fn what_is_read_is_what_is_written() {
    let mut draws = Draws(7);
    let good = hex("02 02 00000002 02 02 00000001 10 00000003 02 000000 000702 04 00000001");
    for _ in 0..200_000 {
        let mut bytes = good.clone();
        for _ in 0..1 + draws.below(3) {
            let at = draws.below(bytes.len());
            bytes[at] = [0, 1, 2, 3, 4, 15, 16, 17, 255][draws.below(9)];
        }
        bytes.truncate(good.len() - draws.below(3));
        if let Some((patch, used)) = Patch::read(&bytes) {
            assert_eq!(patch.write().as_deref(), Some(&bytes[..used]));
        }
    }
}

#[test]
fn any_bytes_are_answered() {
    let mut draws = Draws(9);
    for _ in 0..3_000 {
        let mut held = full();
        for _ in 0..draws.below(3) {
            let at = draws.below(67);
            held.record[at] = draws.next() as u8;
            let at = draws.below(39_936);
            held.table[at] = draws.next() as u8;
        }
        let row = [0, 5, 511, 512, 513, usize::MAX][draws.below(6)];
        let noise: Vec<u8> = (0..draws.below(60)).map(|_| draws.next() as u8).collect();
        held.insert(row, &noise, draws.next());
        held.delete(row);
        held.receive(&noise);
        held.row_text(row);
        let _ = listing(&noise);
        if held.is_sound() {
            assert!(Held::of(&held.replica()) == held);
        }
    }
}
