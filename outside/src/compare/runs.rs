//! Runs of moves from the start, longer than those of `small` and `large`: thousands of moves, at lengths on either side of
//! those at which a run might be done in parts, and past the end of surveys that end there.
use super::both::{self, Engine};
use super::{surveys, Group};
use crate::chance::Chance;
use crate::run::Run;
use crate::second::survey;

/// Lengths on either side of its multiples are tried, up to `LONG`.
const PART: u64 = 1024;
/// More than 8,192 moves.
const LONG: u64 = 9 * PART + 40;
/// The longest runs, which are few.
const LONGEST: u64 = (1 << 17) + 40;

pub fn compare(g: &mut Group, chance: &mut Chance) {
    for counts in surveys_of_parts() {
        every_engine(g, chance, &counts);
        let locked = surveys::with_some_locked(chance, counts);
        every_engine(g, chance, &locked);
    }
    for _ in 0..40 {
        let ending = surveys::of_size(chance, 900..=LONG);
        every_engine(g, chance, &ending);
        for counts in [
            surveys::just_below(chance),
            surveys::any(chance),
            surveys::for_disks(chance, 48, 5),
        ] {
            every_engine(g, chance, &counts);
        }
    }
    for counts in [
        vec![2; 48],
        vec![3; 39],
        vec![10; 6],
        [[1, 2, 2]; 16].concat(),
        [[2, 1]; 17].concat(),
    ] {
        longest(g, chance, &counts);
    }
}

/// Surveys whose N is a multiple of a part, or next to one.
fn surveys_of_parts() -> [Vec<u8>; 14] {
    [
        vec![3, 11, 31],
        vec![2; 10],
        vec![4; 5],
        vec![5, 5, 41],
        vec![23, 89],
        vec![2; 11],
        vec![37, 83],
        vec![3, 3, 5, 7, 13],
        vec![2; 12],
        vec![64; 2],
        vec![17, 241],
        vec![67, 107],
        vec![2; 13],
        vec![5, 19, 97],
    ]
}

/// The least capacity that never runs dry.
pub fn enough(counts: &[u8]) -> usize {
    survey::moving(counts).len().div_ceil(2).max(1)
}

/// The second program's longest run of a survey, from which every shorter one follows: it makes the first of these moves, or
/// all of them and stops as this does.
pub struct Longest<'a> {
    engine: Engine<'a>,
    counts: &'a [u8],
    pub outcome: Run,
    pub moves: Vec<u8>,
}

impl<'a> Longest<'a> {
    pub fn of(engine: Engine<'a>, counts: &'a [u8], t: u64) -> Longest<'a> {
        let (outcome, moves) = engine.run(counts, t, t as usize);
        Longest {
            engine,
            counts,
            outcome,
            moves,
        }
    }

    /// The run of t moves.
    fn first(&self, t: u64) -> (Run, &[u8]) {
        match (self.outcome, self.moves.get(..t as usize)) {
            (Run::Refused(_), _) | (_, None) => (self.outcome, &self.moves),
            (_, Some(moves)) => (Run::Made(t), moves),
        }
    }

    /// The run of t moves where there is no room for them: what refuses the opening comes first.
    fn without_room(&self) -> Run {
        match self.outcome {
            Run::Refused(number) => Run::Refused(number),
            _ => Run::Refused(9),
        }
    }

    /// Whether its moves are the list's, and all of them where it ends.
    fn is_of_list(&self, g: &mut Group) {
        let (counts, made) = (self.counts, self.moves.len() as u64);
        let name = || format!("the second program's run of {made} moves of {counts:?}, {:?}", self.engine);
        g.same(name, &survey::move_bytes(counts, made), &self.moves);
        if let Run::Ended(made) = self.outcome {
            g.same(name, &survey::size(counts), &Ok(made + 1));
        }
    }

    /// The second program's own run of t moves is what is said of it here.
    pub fn second(&self, g: &mut Group, t: u64) {
        let name = || format!("the second program's run of {t} moves of {:?}, {:?}", self.counts, self.engine);
        let (outcome, moves) = self.first(t);
        g.same(name, &(outcome, moves.to_vec()), &self.engine.run(self.counts, t, t as usize));
    }

    /// The run of t moves with just enough room, one byte too little and more.
    pub fn library(&self, g: &mut Group, chance: &mut Chance, t: u64) {
        let (room, more) = (t as usize, chance.between(1, 9));
        both::run_is(g, self.engine, self.counts, t, room, self.first(t));
        both::run_is(g, self.engine, self.counts, t, room + more, self.first(t));
        if t > 0 {
            both::run_is(g, self.engine, self.counts, t, room - 1, (self.without_room(), &[]));
        }
    }
}

/// The buffered engine with as much buffer as it needs, with more and with less, and the disk engine.
fn every_engine(g: &mut Group, chance: &mut Chance, counts: &[u8]) {
    let enough = enough(counts);
    for capacity in [enough, chance.between(enough, 32), chance.between(1, enough)] {
        lengths_of_parts(g, chance, Engine::Buffered(capacity), counts);
    }
    lengths_of_parts(g, chance, Engine::Disks, counts);
}

/// Lengths on either side of each multiple of a part and of the last move, and some by chance.
fn lengths_of_parts(g: &mut Group, chance: &mut Chance, engine: Engine, counts: &[u8]) {
    let longest = Longest::of(engine, counts, LONG);
    longest.is_of_list(g);
    let made = longest.moves.len() as u64;
    let parts = (1..=LONG / PART).map(|k| k * PART);
    for middle in parts.chain([made, chance.between(1, LONG as usize - 1) as u64]) {
        for t in middle.saturating_sub(1)..=(middle + 1).min(LONG) {
            longest.library(g, chance, t);
        }
    }
}

/// The longest runs, and some on either side of powers of 2.
fn longest(g: &mut Group, chance: &mut Chance, counts: &[u8]) {
    let enough = enough(counts);
    for engine in [Engine::Buffered(enough), Engine::Buffered(32), Engine::Disks] {
        let longest = Longest::of(engine, counts, LONGEST);
        longest.is_of_list(g);
        for t in [LONGEST, 1 << 17, (1 << 16) + 1, 1 << 16, (1 << 16) - 1, 100_000] {
            longest.library(g, chance, t);
        }
    }
}
