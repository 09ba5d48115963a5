//! Bytes by chance as surveys, settings and logs; logs with a fault in them.
use super::both::{self, Engine};
use super::{surveys, Group};
use crate::chance::Chance;
use crate::second::{log, survey};

pub fn compare(g: &mut Group, chance: &mut Chance) {
    for _ in 0..20_000 {
        let counts = survey_bytes(chance);
        every_call(g, chance, &counts);
        both::log_read(g, &log_bytes(chance));
    }
    for _ in 0..40 {
        let log = small_log(chance);
        every_other_byte(g, &log);
        cut_and_longer(g, chance, &log);
    }
    for _ in 0..3000 {
        let log = some_log(chance);
        both::log_read(g, &damaged(chance, log));
    }
}

/// Any bytes, or bytes that are nearly a survey: too long, a count of 0 among them, or N over 2^62.
pub fn survey_bytes(chance: &mut Chance) -> Vec<u8> {
    let length = chance.between(0, 60);
    match chance.below(10) {
        0 => chance.bytes(length, 0, 255),
        1 => chance.bytes(length / 6, 0, 255),
        2 => chance.bytes(length, 2, 3),
        3 => chance.bytes(length / 4, 0, 9),
        4 => chance.bytes(length / 7, 2, 255),
        5 => chance.bytes(length, 1, 2),
        6 => chance.bytes(length / 4, 1, 9),
        7 => vec![1; length],
        8 => nearly(chance),
        _ => surveys::any(chance),
    }
}

/// A survey with locked sluices and one count that is 0.
fn nearly(chance: &mut Chance) -> Vec<u8> {
    let mut counts = surveys::few_moving(chance);
    let place = chance.between(0, counts.len() - 1);
    counts[place] = 0;
    counts
}

/// Every writer with numbers and room by chance, the room often one byte short of what is needed.
fn every_call(g: &mut Group, chance: &mut Chance, counts: &[u8]) {
    let n = counts.len();
    let size = survey::size(counts).unwrap_or(100);
    both::size(g, counts);
    let setting = setting_bytes(chance, counts);
    both::rank(g, counts, &setting);
    let rank = near(chance, size);
    let lent = room(chance, n);
    both::word(g, counts, rank, lent);
    let count = chance.pick(&[0, 1, 2, 5, size.saturating_sub(rank).min(30), u64::MAX - rank, u64::MAX]);
    let lent = room(chance, n * count.min(50) as usize);
    both::list(g, counts, rank, count, lent);
    let capacity = chance.between(0, 35);
    for engine in [Engine::Buffered(capacity), Engine::Disks] {
        let (few, any) = (chance.below(60), near(chance, size));
        let t = chance.pick(&[few, few, few, (size - 1).min(60), size.min(60), any]);
        let lent = room(chance, t.min(60) as usize);
        both::run(g, engine, counts, t, lent);
    }
    let any = near(chance, size);
    let t = chance.pick(&[0, 1, size - 1, size, any]);
    let end = if t == size - 1 { 9 } else { 0 };
    let lent = room(chance, 3 + 3 * n + 2 * t.min(50) as usize + end);
    both::log_write(g, counts, capacity, t, lent);
}

/// A length: the one that is needed, or one byte off, or any.
pub fn room(chance: &mut Chance, needed: usize) -> usize {
    let any = chance.between(0, 2 * needed + 3);
    chance.pick(&[needed, needed.saturating_sub(1), needed + 1, any])
}

/// A number on either side of N, or any.
fn near(chance: &mut Chance, size: u64) -> u64 {
    let (inside, any) = (chance.below(size), chance.number());
    chance.pick(&[inside, inside, inside, size - 1, size, size + 1, any, u64::MAX])
}

/// Any bytes, or a setting with at most one fault.
pub fn setting_bytes(chance: &mut Chance, counts: &[u8]) -> Vec<u8> {
    let mut setting: Vec<u8> = counts.iter().map(|&m| chance.byte(0, m.saturating_sub(1))).collect();
    let place = chance.between(0, counts.len());
    match chance.below(6) {
        0 => setting.insert(place, 0),
        1 if place < counts.len() => _ = setting.remove(place),
        2 if place < counts.len() => setting[place] = counts[place],
        3 => setting = chance.bytes(counts.len(), 0, 255),
        _ => {}
    }
    setting
}

/// Any bytes, or records in any order.
fn log_bytes(chance: &mut Chance) -> Vec<u8> {
    let length = chance.between(0, 40);
    if chance.once_in(3) {
        return chance.bytes(length, 0, 255);
    }
    if chance.once_in(3) {
        return chance.bytes(length, 0, 5);
    }
    let n = chance.byte(0, 4);
    let mut log = vec![1, n, chance.byte(0, 34)];
    let (lowest, highest) = chance.pick(&[(0, 4), (1, 4), (1, 2), (1, 1)]);
    for number in 1..=n {
        log.extend([2, number, chance.byte(lowest, highest)]);
    }
    let most = if highest == 1 { 1 } else { 8 };
    for _ in 0..chance.between(0, most) {
        log.extend([3, chance.byte(1, 4)]);
    }
    if chance.once_in(3) {
        log.extend([4, 0, 0, 0, 0, 0, 0, 0, chance.byte(0, 2 * most as u8 + 4)]);
    }
    log
}

/// A log of a survey, of a number of moves that is often the last.
fn log_of(chance: &mut Chance, counts: &[u8], most: u64) -> Vec<u8> {
    let last = survey::size(counts).expect("the survey can be opened") - 1;
    let t = if chance.once_in(2) {
        last.min(most)
    } else {
        chance.below(last.min(most) + 1)
    };
    log::write(counts, chance.between(1, 32), t, usize::MAX).expect("t is at most N - 1")
}

fn small_log(chance: &mut Chance) -> Vec<u8> {
    let counts = surveys::small(chance, 4, 3);
    log_of(chance, &counts, 60)
}

fn some_log(chance: &mut Chance) -> Vec<u8> {
    let small = surveys::small(chance, 5, 5);
    let (few, any) = (surveys::few_moving(chance), surveys::any(chance));
    let counts = chance.pick(&[small, few, any]);
    log_of(chance, &counts, 1500)
}

/// Each byte of a log changed to every other value.
fn every_other_byte(g: &mut Group, log: &[u8]) {
    for place in 0..log.len() {
        for value in (0..=255).filter(|&value| value != log[place]) {
            let mut other = log.to_vec();
            other[place] = value;
            both::log_read(g, &other);
        }
    }
}

/// A log cut at every length, and with a byte more at its end or anywhere.
fn cut_and_longer(g: &mut Group, chance: &mut Chance, log: &[u8]) {
    for length in 0..=log.len() {
        both::log_read(g, &log[..length]);
        let mut longer = log.to_vec();
        longer.insert(length, chance.byte(0, 255));
        both::log_read(g, &longer);
    }
    for value in 0..=255 {
        both::log_read(g, &[log, &[value]].concat());
    }
}

/// One fault: a byte changed, left out or added, a bit turned, a record repeated, or the end cut off.
fn damaged(chance: &mut Chance, mut log: Vec<u8>) -> Vec<u8> {
    let place = chance.between(0, log.len() - 1);
    match chance.below(6) {
        0 => log[place] = chance.byte(0, 255),
        1 => _ = log.remove(place),
        2 => log.insert(place, chance.byte(0, 255)),
        3 => log[place] ^= 1 << chance.below(8),
        4 => log.extend_from_within(place..),
        _ => log.truncate(place),
    }
    log
}
