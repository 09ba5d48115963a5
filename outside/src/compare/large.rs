//! Surveys by chance of up to 48 sluices, N up to 2^62 and over it.
use super::both::{self, Engine};
use super::{surveys, Group};
use crate::chance::Chance;
use crate::second::{log, survey};

/// How many moves and log records are compared from the start of a walk.
const FIRST: usize = 3000;
/// Settings in a window of the list.
const WINDOW: u64 = 40;

pub fn compare(g: &mut Group, chance: &mut Chance) {
    for _ in 0..150 {
        let surveys = [
            surveys::just_below(chance),
            surveys::exact(chance),
            surveys::any(chance),
            surveys::few_moving(chance),
            surveys::for_disks(chance, 48, 255),
            surveys::for_disks(chance, 48, 5),
        ];
        for counts in surveys {
            accepted(g, chance, &counts);
        }
        let over = surveys::over(chance);
        refused(g, chance, &over);
    }
}

fn accepted(g: &mut Group, chance: &mut Chance, counts: &[u8]) {
    let size = survey::size(counts).expect("the survey can be opened");
    both::size(g, counts);
    for rank in ranks(chance, size) {
        both_ways(g, counts, rank);
    }
    for from in ranks(chance, size) {
        window(g, chance, counts, from, size);
    }
    first_moves(g, chance, counts, size);
}

/// Ranks at the start, at the end and at places by chance.
fn ranks(chance: &mut Chance, size: u64) -> Vec<u64> {
    let mut ranks = vec![0, 1.min(size - 1), size / 2, size.saturating_sub(2), size - 1];
    ranks.extend((0..10).map(|_| chance.below(size)));
    ranks
}

/// A rank's setting, and the rank of that.
fn both_ways(g: &mut Group, counts: &[u8], rank: u64) {
    both::word(g, counts, rank, counts.len());
    let setting = survey::setting(counts, rank);
    both::rank(g, counts, &setting).is(g, || format!("rank {rank} there and back in {counts:?}"), Ok(rank));
}

/// Settings from a rank on, or all that are left; the neighbours past the end are refused.
fn window(g: &mut Group, chance: &mut Chance, counts: &[u8], from: u64, size: u64) {
    let count = (size - from).min(chance.below(WINDOW));
    let room = counts.len() * count as usize;
    both::list(g, counts, from, count, room);
    both::list(g, counts, from, count, room + chance.between(1, 50));
    both::list(g, counts, from, count + 1, room);
    both::list(g, counts, from, size - from + 1, room);
}

fn first_moves(g: &mut Group, chance: &mut Chance, counts: &[u8], size: u64) {
    let capacity = chance.between(1, 32);
    for engine in [Engine::Buffered(capacity), Engine::Disks] {
        both::run(g, engine, counts, FIRST as u64, FIRST);
    }
    let t = chance.below(FIRST as u64).min(size - 1);
    let room = 3 + 3 * counts.len() + 2 * t as usize + chance.between(0, 20);
    both::log_write(g, counts, capacity, t, room);
    both::log_write(g, counts, capacity, size - 1 + chance.below(2), room);
    if let Ok(log) = log::write(counts, capacity, t, room) {
        both::log_read(g, &log);
    }
}

/// Every call on a survey that cannot be opened.
fn refused(g: &mut Group, chance: &mut Chance, counts: &[u8]) {
    both::size(g, counts).is(g, || format!("size of {counts:?}"), Err(4));
    let number = chance.number();
    both::rank(g, counts, &vec![0; counts.len()]);
    both::word(g, counts, number, counts.len());
    both::list(g, counts, number, 0, counts.len());
    for engine in [Engine::Buffered(chance.between(0, 40)), Engine::Disks] {
        both::run(g, engine, counts, number, 10);
        both::run(g, engine, counts, 10, 10);
    }
    both::log_write(g, counts, chance.between(0, 40), number, 1000);
}
