//! Document 02, request 5: how long a sluice rests, with numbers worked out by hand.
use super::rests::Rests;
use super::survey::{list, moves_along, size};

/// A sluice's first move, its moves in all and the changes that they are.
type Said<'a> = (Option<u64>, u64, &'a [u64]);

const LOCKED: Said = (None, 0, &[]);

/// What is said of each sluice, sluice 1 first. The moves of all add up.
fn assert_said(counts: &[u8], sluices: &[Said]) {
    assert_eq!(counts.len(), sluices.len());
    for (k, &(first, in_all, changes)) in (1..).zip(sluices) {
        let said = Rests::of(counts, k);
        assert_eq!(
            (said.first_move(), said.moves_in_all(), &said.changes()[..]),
            (first, in_all, changes),
            "sluice {k} of {counts:?}"
        );
    }
    let in_all: u64 = sluices.iter().map(|said| said.1).sum();
    assert_eq!(size(counts), Ok(in_all + 1));
}

/// How long a sluice rests where it goes on, and where it turns.
fn rests(counts: &[u8], k: usize) -> [u64; 2] {
    [false, true].map(|turns| Rests::of(counts, k).rest(turns))
}

/// Sluice 1 of the survey 3 2 4: three moves one way, then a change that is not its own.
const OF_FOUR: [u64; 18] = [1, 2, 3, 5, 6, 7, 9, 10, 11, 13, 14, 15, 17, 18, 19, 21, 22, 23];

/// The second has two notches and turns at each move; the third goes up alone. Locked ones among them shift their numbers.
#[test]
fn three_sluices() {
    let [four, two, three]: [Said; 3] = [(Some(1), 18, &OF_FOUR), (Some(4), 3, &[4, 12, 20]), (Some(8), 2, &[8, 16])];
    assert_said(&[3, 2, 4], &[four, two, three]);
    assert_said(&[3, 1, 2, 4], &[four, two, LOCKED, three]);
    assert_said(&[3, 2, 4, 1], &[LOCKED, four, two, three]);
    assert_said(&[1, 3, 2, 1, 1, 4], &[four, LOCKED, LOCKED, two, three, LOCKED]);
    assert_eq!([1, 2, 3].map(|k| rests(&[3, 2, 4], k)), [[1, 2], [4, 8], [8, 16]]);
    assert_eq!([1, 2, 4].map(|k| rests(&[3, 1, 2, 4], k)), [[1, 2], [4, 8], [8, 16]]);
}

#[test]
fn one_sluice_or_two() {
    assert_said(&[1], &[LOCKED]);
    assert_said(&[2], &[(Some(1), 1, &[1])]);
    assert_said(&[5], &[(Some(1), 4, &[1, 2, 3, 4])]);
    assert_said(&[2, 3], &[(Some(1), 4, &[1, 2, 4, 5]), (Some(3), 1, &[3])]);
    assert_said(&[3, 2], &[(Some(1), 3, &[1, 3, 5]), (Some(2), 2, &[2, 4])]);
}

/// N = 2^62: 31 sluices of four notches, and a locked one on either side.
#[test]
fn most_settings() {
    let counts = [&[1][..], &[4; 31], &[1]].concat();
    for (k, first, in_all) in [
        (1, None, 0),
        (2, Some(1), 3 << 60),
        (3, Some(4), 3 << 58),
        (32, Some(1 << 60), 3),
        (33, None, 0),
    ] {
        let said = Rests::of(&counts, k);
        assert_eq!((said.first_move(), said.moves_in_all()), (first, in_all), "sluice {k}");
    }
    assert_eq!(rests(&counts, 32), [1 << 60, 1 << 61]);
    let slowest = Rests::of(&counts, 32);
    assert!([1 << 60, 2 << 60, 3 << 60].iter().all(|&j| slowest.moves_at(j)));
    assert!(![1, 1 << 59, (1 << 60) + 1, 3 << 59, (1 << 62) - 1]
        .iter()
        .any(|&j| slowest.moves_at(j)));
}

/// Each change of the list is a move of its sluice and of no other, and between two of them the sluice rests as is said.
#[test]
fn changes_of_the_list() {
    for counts in [
        &[3, 2, 4][..],
        &[3, 1, 2, 4],
        &[2; 6],
        &[1, 5, 1, 3, 3, 1],
        &[4, 4, 4],
        &[2, 255],
        &[255, 2],
        &[1, 1],
    ] {
        let bytes = moves_along(&list(counts));
        for k in 1..=counts.len() {
            let said = Rests::of(counts, k);
            let own = (1..).zip(&bytes).filter(|(_, &byte)| usize::from(byte & 0x7f) == k);
            let (changes, moves): (Vec<u64>, Vec<u8>) = own.unzip();
            assert_eq!(said.changes(), changes, "sluice {k} of {counts:?}");
            for (change, moved) in changes.windows(2).zip(moves.windows(2)) {
                let turns = moved[0] != moved[1];
                assert_eq!(said.rest(turns), change[1] - change[0], "sluice {k} of {counts:?}");
            }
        }
    }
}
