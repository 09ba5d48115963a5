//! How long a sluice rests, counted from the bytes that the engines write for whole surveys: document 02, request 5.
//!
//! Sluices of two notches, which turn at each move and so always rest 2P, the fastest, whose P is 1, the slowest and locked
//! ones at every place come along by themselves.
use super::both::Engine;
use super::runs::enough;
use super::{small, surveys, Group};
use crate::chance::Chance;
use crate::run::Run;
use crate::second::buffered::MOST_CAPACITY;
use crate::second::disks::Disks;
use crate::second::rests::Rests;
use crate::second::survey;
use std::ops::RangeInclusive;

/// Settings of a survey by chance.
const SIZES: RangeInclusive<u64> = 900..=20_000;

pub fn compare(g: &mut Group, chance: &mut Chance) {
    for counts in small::surveys() {
        every_engine(g, &counts);
    }
    for counts in known_surveys() {
        with_others_locked(g, chance, &counts);
    }
    for _ in 0..100 {
        let counts = surveys::of_size(chance, SIZES);
        with_others_locked(g, chance, &counts);
        let counts = for_disks(chance);
        every_engine(g, &counts);
    }
}

/// Equal counts and odd ones, which are for disks too, and high counts below and above low ones.
fn known_surveys() -> [Vec<u8>; 12] {
    [
        vec![2; 17],
        vec![3; 11],
        vec![4; 8],
        vec![10; 5],
        vec![64; 2],
        vec![11, 3, 7, 5, 9],
        vec![77, 255],
        vec![255, 77],
        vec![2, 2, 2, 255, 3, 3],
        vec![254, 2, 3, 2],
        vec![2, 3, 2, 254],
        vec![5, 2, 4, 3, 2, 4, 3, 2, 2],
    ]
}

/// By chance, but one that the disk engine opens.
fn for_disks(chance: &mut Chance) -> Vec<u8> {
    loop {
        let counts = surveys::of_size(chance, SIZES);
        if Disks::open(&counts).is_ok() {
            return counts;
        }
    }
}

/// A survey, and its moving sluices with locked ones at other places.
fn with_others_locked(g: &mut Group, chance: &mut Chance, counts: &[u8]) {
    every_engine(g, counts);
    let moving = counts.iter().copied().filter(|&m| m > 1).collect();
    every_engine(g, &surveys::with_some_locked(chance, moving));
}

/// The buffered engine with as much buffer as it needs and with the most, and the disk engine where it opens the survey.
fn every_engine(g: &mut Group, counts: &[u8]) {
    let sluices: Vec<Sluice> = (1..=counts.len()).map(|k| Sluice::of(counts, k)).collect();
    let in_all: u64 = sluices.iter().map(|sluice| sluice.said.moves_in_all()).sum();
    let name = || format!("the second program's moves of all sluices of {counts:?}");
    g.same(name, &survey::size(counts), &Ok(in_all + 1));
    let disks = Disks::open(counts).map(|_| Engine::Disks);
    for engine in [enough(counts), MOST_CAPACITY].map(Engine::Buffered).into_iter().chain(disks) {
        whole_survey(g, engine, counts, &sluices);
    }
}

/// A run up to the end. Its bytes are counted sluice by sluice, and what is counted adds up to all the moves.
fn whole_survey(g: &mut Group, engine: Engine, counts: &[u8], sluices: &[Sluice]) {
    let size = survey::size(counts).expect("the survey can be opened");
    let mut bytes = vec![0; size as usize];
    let outcome = engine.library(counts, size, &mut bytes);
    let name = |what: &str| format!("{what} in a whole run of {counts:?}, {engine:?}");
    g.same(|| name("moves"), &Run::Ended(size - 1), &outcome);
    bytes.truncate(outcome.moves() as usize);
    let mut in_all = 0;
    for sluice in sluices {
        let moves = moves_of(&bytes, sluice.number);
        let name = |what: &str| name(&format!("{what} of sluice {}", sluice.number));
        sluice.moves_are(g, name, &moves);
        sluice.rests_are(g, name, &moves);
        in_all += moves.len() as u64;
    }
    g.same(|| name("moves of all sluices"), &(size - 1), &in_all);
}

/// A move of one sluice: the call that makes it, from 1, the direction and the notch reached.
#[derive(Clone, Copy, Debug, PartialEq, Eq)]
struct Moved {
    call: u64,
    down: bool,
    notch: i64,
}

/// The moves of one sluice, which begins shut, in the bytes of a run. Wrong bytes may lead it past its notches.
fn moves_of(bytes: &[u8], number: u8) -> Vec<Moved> {
    let mut notch = 0;
    let own = (1..).zip(bytes).filter(|(_, &byte)| byte & 0x7f == number);
    own.map(|(call, &byte)| {
        let down = byte >= 0x80;
        notch += if down { -1 } else { 1 };
        Moved { call, down, notch }
    })
    .collect()
}

/// A sluice, what document 02 says of it, and the calls that should move it.
struct Sluice {
    number: u8,
    count: u8,
    said: Rests,
    calls: Vec<u64>,
}

impl Sluice {
    fn of(counts: &[u8], k: usize) -> Sluice {
        let said = Rests::of(counts, k);
        Sluice {
            number: k as u8,
            count: counts[counts.len() - k],
            said,
            calls: said.changes(),
        }
    }

    /// The first, which can only be up; how many they are; and the call of each.
    fn moves_are(&self, g: &mut Group, name: impl Fn(&str) -> String, moves: &[Moved]) {
        let first = self.said.first_move().map(|call| Moved {
            call,
            down: false,
            notch: 1,
        });
        g.same(|| name("first move"), &first, &moves.first().copied());
        g.same(|| name("number of moves"), &self.said.moves_in_all(), &(moves.len() as u64));
        let calls: Vec<u64> = moves.iter().map(|moved| moved.call).collect();
        g.same(|| name("calls that are moves"), &self.calls, &calls);
    }

    /// From each move to the next. The sluice turns where their directions differ, and that is where the first of them has
    /// brought it to its first notch or its last.
    fn rests_are(&self, g: &mut Group, name: impl Fn(&str) -> String, moves: &[Moved]) {
        let pairs = || moves.windows(2);
        let turns: Vec<bool> = pairs().map(|pair| pair[0].down != pair[1].down).collect();
        let rests: Vec<u64> = turns.iter().map(|&turns| self.said.rest(turns)).collect();
        let counted: Vec<u64> = pairs().map(|pair| pair[1].call - pair[0].call).collect();
        g.same(|| name("rests"), &rests, &counted);
        let ends = [0, i64::from(self.count) - 1];
        let at_ends: Vec<bool> = pairs().map(|pair| ends.contains(&pair[0].notch)).collect();
        g.same(|| name("turns by notch and by direction"), &at_ends, &turns);
    }
}
