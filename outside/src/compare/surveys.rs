//! Surveys by chance, large and small, with locked sluices in about half of them. All can be opened but those of `over`.
use crate::chance::Chance;
use crate::second::survey::{self, MOST_SLUICES};
use std::ops::RangeInclusive;

/// The most settings.
const LIMIT: u64 = 1 << 62;

/// The smallest product over 2^62 that counts up to 255 can make: 2^62 + 1,243,840.
pub const SMALLEST_OVER: [u8; 10] = [64, 49, 31, 43, 53, 97, 103, 103, 113, 179];

/// Locked sluices among these, which move: none, or some, or as many as bring n up to `most`.
fn with_locked(chance: &mut Chance, mut counts: Vec<u8>, most: usize) -> Vec<u8> {
    let room = most - counts.len();
    let some = chance.between(0, room);
    for _ in 0..chance.pick(&[0, 0, some, room]) {
        counts.insert(chance.between(0, counts.len()), 1);
    }
    counts
}

/// The same, but once in a while all are locked.
fn mixed(chance: &mut Chance, counts: Vec<u8>, most: usize) -> Vec<u8> {
    let mut counts = with_locked(chance, counts, most);
    if chance.once_in(15) {
        counts.fill(1);
    }
    counts
}

/// Up to `most` sluices, counts up to `highest`.
pub fn small(chance: &mut Chance, most: usize, highest: u8) -> Vec<u8> {
    let moving = chance.between(1, most);
    let counts = chance.bytes(moving, 2, highest);
    mixed(chance, counts, most)
}

/// One locked sluice or more among these, which move.
pub fn with_some_locked(chance: &mut Chance, counts: Vec<u8>) -> Vec<u8> {
    let place = chance.between(0, counts.len());
    let mut counts = with_locked(chance, counts, MOST_SLUICES - 1);
    counts.insert(place, 1);
    counts
}

/// N within these bounds.
pub fn of_size(chance: &mut Chance, sizes: RangeInclusive<u64>) -> Vec<u8> {
    loop {
        let (small, few, equal) = (small(chance, 13, 9), few_moving(chance), for_disks(chance, 13, 9));
        let counts = chance.pick(&[small, few, equal]);
        if survey::size(&counts).is_ok_and(|size| sizes.contains(&size)) {
            return counts;
        }
    }
}

/// Up to 5 sluices that move, and up to 48 in all.
pub fn few_moving(chance: &mut Chance) -> Vec<u8> {
    let moving = chance.between(1, 5);
    let counts = chance.bytes(moving, 2, 9);
    mixed(chance, counts, MOST_SLUICES)
}

/// Any length up to 48; counts as high as the sluices that are still to come leave room for, or lower.
pub fn any(chance: &mut Chance) -> Vec<u8> {
    let n = chance.between(1, MOST_SLUICES);
    let mut room = LIMIT;
    let mut counts: Vec<u8> = (1..=n)
        .map(|i| {
            let highest = (room >> (n - i)).min(255) as u8;
            let m = chance.byte(2, highest);
            room /= u64::from(m);
            if chance.once_in(2) {
                m
            } else {
                2
            }
        })
        .collect();
    chance.shuffle(&mut counts);
    mixed(chance, counts, MOST_SLUICES)
}

/// Counts up to `highest` until one more can fill up the product; that one is `last` of what is left to be filled.
fn filled(chance: &mut Chance, highest: u8, last: impl Fn(u64) -> u64) -> Vec<u8> {
    let mut counts = vec![];
    let mut room = LIMIT;
    while room > 255 {
        let m = chance.byte(2, highest.min((room / 2).min(255) as u8));
        counts.push(m);
        room = LIMIT / product(&counts);
    }
    counts.push(last(room).clamp(2, 255) as u8);
    chance.shuffle(&mut counts);
    counts
}

fn product(counts: &[u8]) -> u64 {
    counts.iter().map(|&m| u64::from(m)).product()
}

/// N at most 2^62, and so near that the last count cannot be larger.
pub fn just_below(chance: &mut Chance) -> Vec<u8> {
    let highest = chance.pick(&[3, 4, 6, 20, 255]);
    let counts = filled(chance, highest, |room| room);
    if survey::size(&counts).is_ok() {
        with_locked(chance, counts, MOST_SLUICES)
    } else {
        exact(chance)
    }
}

/// N over 2^62 because one count is larger by one than it could be.
pub fn over(chance: &mut Chance) -> Vec<u8> {
    let highest = chance.pick(&[3, 4, 6, 20, 254]);
    let mut counts = filled(chance, highest, |room| room + 1);
    if survey::size(&counts) != Err(4) {
        counts = SMALLEST_OVER.to_vec();
        chance.shuffle(&mut counts);
    }
    with_locked(chance, counts, MOST_SLUICES)
}

/// N = 2^62 itself: powers of 2.
pub fn exact(chance: &mut Chance) -> Vec<u8> {
    let mut powers = vec![1_u8; chance.between(9, 48)];
    let mut missing = 62 - powers.len();
    while missing > 0 {
        let x = chance.between(0, powers.len() - 1);
        if powers[x] < 7 {
            powers[x] += 1;
            missing -= 1;
        }
    }
    let counts = powers.iter().map(|power| 1 << power).collect();
    with_locked(chance, counts, MOST_SLUICES)
}

/// Counts that the disk engine takes: the moving ones all odd, or all even and equal.
pub fn for_disks(chance: &mut Chance, most: usize, highest: u8) -> Vec<u8> {
    let n = chance.between(1, most);
    let even = 2 * chance.byte(1, highest / 2);
    let odd = chance.once_in(2);
    let mut counts = vec![];
    for _ in 0..n {
        let m = if odd {
            1 + 2 * chance.byte(1, (highest - 1) / 2)
        } else {
            even
        };
        counts.push(m);
        if survey::size(&counts).is_err() {
            counts.pop();
            break;
        }
    }
    mixed(chance, counts, most)
}
