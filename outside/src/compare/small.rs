//! Every survey of at most 5 sluices, counts 1 to 5 and at most 1,000 settings, held to the list as it is defined.
use super::both::{self, Engine};
use super::runs::{enough, Longest};
use super::Group;
use crate::capi;
use crate::chance::Chance;
use crate::run::Run;
use crate::second::{log, survey};

const MOST_SLUICES: usize = 5;
const MOST_SETTINGS: u64 = 1000;
const CAPACITIES: std::ops::RangeInclusive<usize> = 1..=32;
/// Up to so many settings the second program makes each run anew.
const MOST_ANEW: u64 = 40;

/// A survey with its list and the move bytes of all its changes.
pub struct Known {
    pub counts: Vec<u8>,
    pub list: Vec<Vec<u8>>,
    pub moves: Vec<u8>,
}

impl Known {
    pub fn of(counts: Vec<u8>) -> Known {
        let list = survey::list(&counts);
        let moves = survey::moves_along(&list);
        Known { counts, list, moves }
    }

    pub fn size(&self) -> u64 {
        self.list.len() as u64
    }

    /// More moves than there are, as a walk may be wrong by not ending.
    fn past_end(&self) -> u64 {
        self.size() + 2
    }

    fn log(&self, capacity: usize, t: u64) -> Vec<u8> {
        log::compose(&self.counts, self.size(), capacity as u8, &self.moves[..t as usize])
    }
}

pub fn compare(g: &mut Group, chance: &mut Chance) {
    for counts in surveys() {
        let known = Known::of(counts);
        both::size(g, &known.counts).is(g, || format!("size of {:?}", known.counts), Ok(known.size()));
        settings(g, chance, &known);
        ranks(g, &known);
        buffered_runs(g, chance, &known);
        disk_runs(g, chance, &known);
        logs_of_all_lengths(g, chance, &known);
        logs_of_all_capacities(g, chance, &known);
    }
}

pub fn surveys() -> Vec<Vec<u8>> {
    let mut all = vec![];
    let mut shorter = vec![vec![]];
    for _ in 0..MOST_SLUICES {
        shorter = shorter
            .iter()
            .flat_map(|counts: &Vec<u8>| (1..=5).map(|m| [&counts[..], &[m]].concat()))
            .collect();
        all.extend(
            shorter
                .iter()
                .filter(|counts| survey::size(counts).is_ok_and(|size| size <= MOST_SETTINGS))
                .cloned(),
        );
    }
    all
}

/// The whole list, and windows of it with just enough room, too little and more.
fn settings(g: &mut Group, chance: &mut Chance, known: &Known) {
    let n = known.counts.len();
    let whole = known.list.concat();
    both::list_is(g, &known.counts, 0, known.size(), whole.len(), Ok(&whole));
    for _ in 0..20 {
        let from = chance.between(0, known.list.len());
        let to = chance.between(from, known.list.len());
        let (start, window) = (from as u64, &whole[n * from..n * to]);
        let count = (to - from) as u64;
        both::list_is(g, &known.counts, start, count, window.len(), Ok(window));
        both::list_is(
            g,
            &known.counts,
            start,
            count,
            window.len() + chance.between(1, 9),
            Ok(window),
        );
        if count > 0 {
            both::list_is(g, &known.counts, start, count, window.len() - 1, Err(9));
        }
        both::list_is(g, &known.counts, start, known.size() - start + 1, whole.len() + n, Err(8));
    }
}

/// Every rank both ways; the second program is held to the list too.
fn ranks(g: &mut Group, known: &Known) {
    let n = known.counts.len();
    for (rank, setting) in (0..).zip(&known.list) {
        both::rank(g, &known.counts, setting).is(g, || format!("rank of {setting:?} in {:?}", known.counts), Ok(rank));
        let second = survey::setting(&known.counts, rank);
        g.same(|| format!("the second program's setting of rank {rank} in {:?}", known.counts), setting, &second);
        both::word_is(g, &known.counts, rank, n, Ok(setting));
    }
    both::word_is(g, &known.counts, known.size(), n, Err(8));
}

/// Every capacity, and so walks that run dry: they make as many moves as the second program does, all of them the list's. None
/// runs dry if the capacity is half of the moving sluices or more. At the least such capacity and the one below it, runs have
/// every length.
fn buffered_runs(g: &mut Group, chance: &mut Chance, known: &Known) {
    let counts = &known.counts;
    let enough = enough(counts);
    for capacity in CAPACITIES {
        let longest = Longest::of(Engine::Buffered(capacity), counts, known.past_end());
        let least = if capacity >= enough { known.moves.len() } else { 0 };
        let name = || format!("the second program's buffered moves of {counts:?}, capacity {capacity}");
        let listed = longest.moves.len().clamp(least, known.moves.len());
        g.same(name, &known.moves[..listed], &longest.moves[..]);
        if capacity == enough || capacity + 1 == enough {
            runs_of_all_lengths(g, chance, known, &longest);
        } else {
            runs_of_some_lengths(g, chance, known, &longest);
        }
    }
    for capacity in [0, 33] {
        let longest = Longest::of(Engine::Buffered(capacity), counts, known.past_end());
        runs_of_some_lengths(g, chance, known, &longest);
    }
}

/// The disk engine's moves are the list's; or its runs of all lengths get refusal 6.
fn disk_runs(g: &mut Group, chance: &mut Chance, known: &Known) {
    let longest = Longest::of(Engine::Disks, &known.counts, known.past_end());
    if longest.outcome == Run::Refused(6) {
        return runs_of_some_lengths(g, chance, known, &longest);
    }
    g.same(
        || format!("the second program's disk moves of {:?}", known.counts),
        &known.moves,
        &longest.moves,
    );
    runs_of_all_lengths(g, chance, known, &longest);
}

/// Every t from none to past the end.
fn runs_of_all_lengths(g: &mut Group, chance: &mut Chance, known: &Known, longest: &Longest) {
    for t in 0..=known.past_end() {
        longest.library(g, chance, t);
        if known.size() <= MOST_ANEW {
            longest.second(g, t);
        }
    }
}

fn runs_of_some_lengths(g: &mut Group, chance: &mut Chance, known: &Known, longest: &Longest) {
    let last = known.moves.len() as u64;
    for t in [0, chance.below(known.size()), last, last + 1] {
        longest.library(g, chance, t);
    }
}

/// Logs of every t at one capacity: with just enough room, one byte too little, and read back.
fn logs_of_all_lengths(g: &mut Group, chance: &mut Chance, known: &Known) {
    let capacity = chance.between(1, 32);
    for t in 0..known.size() {
        let log = known.log(capacity, t);
        both::log_is(g, &known.counts, capacity, t, log.len(), Ok(&log));
        both::log_is(g, &known.counts, capacity, t, log.len() - 1, Err(9));
        g.same(|| format!("reading of the log {log:?}"), &Ok(t), &capi::log_read(&log));
    }
    let room = known.log(capacity, known.size() - 1).len() + 2;
    both::log_is(g, &known.counts, capacity, known.size(), room, Err(8));
}

/// Logs of every capacity at a few t, the second program's written and read as well.
fn logs_of_all_capacities(g: &mut Group, chance: &mut Chance, known: &Known) {
    for capacity in CAPACITIES {
        for t in [0, chance.below(known.size()), known.size() - 1] {
            let log = known.log(capacity, t);
            both::log_write(g, &known.counts, capacity, t, log.len());
            both::log_read(g, &log).is(g, || format!("reading of the log {log:?}"), Ok(t));
        }
    }
}
