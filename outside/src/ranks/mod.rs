//! The rank of many settings, one in four of them wrong, in two passes and in one: every answer of both ways is held to what is
//! known of the setting, and both ways are timed. It prints Markdown, for docs/BENCHMARKS.md.
//!
//! In each round the same settings are made anew, batch by batch, and both ways are timed on each batch, one after the other.
//! So a way meets a setting again only after all others: on a batch that is repeated at once the processor learns which ones
//! are wrong. The time of a way is that of its best round. The ratio is taken round by round, of the times of all batches
//! together; the middle one stands first, then the least and the greatest in brackets.
mod settings;

#[cfg(test)]
mod tests;

use crate::capi::{self, Answer};
use crate::clock::time;
use crate::tables::{best, ratio, Survey};
use crate::two_pass;
use settings::{Maker, Setting, ONE_IN};
use std::hint::black_box;
use std::time::Duration;

const SURVEYS: usize = 11;
/// The least number of settings: with fewer a survey has none.
pub const LEAST: usize = SURVEYS * ONE_IN;
/// Settings of a batch: so few that they stay in the caches of a core, so many that reading the clock hardly counts.
const BATCH: usize = 512 * ONE_IN;
const ROUNDS: usize = 9;
/// How many differences of a survey are printed.
const SHOWN: u64 = 3;

/// Short and long ones, of small radices and of large ones.
fn surveys() -> [Survey; SURVEYS] {
    [
        Survey::equal(6, 10),
        Survey::equal(6, 255),
        Survey::mixed("6 mixed, 2 to 255", &[3, 200, 17, 2, 96, 255]),
        Survey::equal(20, 3),
        Survey::equal(20, 8),
        Survey::twenty_mixed(),
        Survey::equal(39, 3),
        Survey::mixed("39 mixed, 2 to 4", &[3, 2, 4].repeat(13)),
        Survey::equal(48, 2),
        Survey::locked(7, 200, 41),
        Survey::mixed("48 mixed, 1 to 3", &[2, 3, 1].repeat(16)),
    ]
}

/// What is counted of a survey, or of all.
#[derive(Default)]
struct Tally {
    ranked: u64,
    wrong: u64,
    /// By the one pass.
    refused: u64,
    differ: u64,
    /// The times of each way, two passes first, by round.
    taken: [[Duration; ROUNDS]; 2],
}

impl Tally {
    fn add(mut self, other: &Tally) -> Tally {
        self.ranked += other.ranked;
        self.wrong += other.wrong;
        self.refused += other.refused;
        self.differ += other.differ;
        for (way, rounds) in other.taken.iter().enumerate() {
            for (round, &taken) in rounds.iter().enumerate() {
                self.taken[way][round] += taken;
            }
        }
        self
    }

    fn print(&self, name: &str) {
        let ns = |taken: Duration| taken.as_nanos() as f64 / self.ranked as f64;
        let [two, one] = self.taken.map(|rounds| rounds.map(ns));
        println!(
            "| {name} | {} | {} | {:.1} | {:.1} | {} |",
            self.ranked,
            self.refused,
            best(&two),
            best(&one),
            ratio(&one, &two)
        );
    }
}

/// A row of the table: a survey, and how many of the settings are of it.
struct Row {
    survey: Survey,
    share: usize,
    tally: Tally,
}

/// The settings are dealt by fours, so that one in four is wrong in each survey. Where the fours do not come out even the first
/// surveys have one more; where the settings do not, the last survey has those that are left, up to three.
fn rows(count: usize) -> Vec<Row> {
    let fours = count / ONE_IN;
    let row = |(number, survey)| Row {
        survey,
        share: ONE_IN * (fours / SURVEYS + usize::from(number < fours % SURVEYS)),
        tally: Tally::default(),
    };
    let mut rows: Vec<Row> = surveys().into_iter().enumerate().map(row).collect();
    rows[SURVEYS - 1].share += count % ONE_IN;
    rows
}

/// All settings, batch by batch: each time the same.
fn each_batch(rows: &mut [Row], mut work: impl FnMut(&mut Row, &[Setting])) {
    let mut maker = Maker::new();
    for row in rows {
        let mut left = row.share;
        while left > 0 {
            let settings = maker.settings(&row.survey, left.min(BATCH));
            left -= settings.len();
            work(row, &settings);
        }
    }
}

/// One pass over a batch. The way is inlined, so that nothing stands between this and the library's call.
fn pass(rank: impl Fn(&[u8], &[u8]) -> Answer, radices: &[u8], settings: &[Setting]) {
    for setting in settings {
        let _ = black_box(rank(black_box(radices), black_box(&setting.word)));
    }
}

impl Row {
    fn compare(&mut self, settings: &[Setting]) {
        settings.iter().for_each(|setting| self.compare_one(setting));
    }

    /// Both ways have to answer what is known. A rank is known from plain Rust, which has made the word of it.
    fn compare_one(&mut self, setting: &Setting) {
        let (radices, word, known) = (&self.survey.radices, &setting.word, setting.answer());
        let (two, one) = (two_pass::rank(radices, word), capi::rank(radices, word));
        let tally = &mut self.tally;
        tally.ranked += 1;
        tally.wrong += u64::from(setting.wrong);
        tally.refused += u64::from(one.is_err());
        if (two, one) == (known, known) {
            return;
        }
        tally.differ += 1;
        if tally.differ <= SHOWN {
            println!("differs: rank of {word:?} in {radices:?}");
            println!("  two passes: {two:?}\n  one pass:   {one:?}\n  known:      {known:?}");
        }
    }

    /// Both ways on the same batch, in the other order from turn to turn.
    fn time(&mut self, round: usize, turn: usize, settings: &[Setting]) {
        let radices = &self.survey.radices;
        let two: &mut dyn FnMut() = &mut || pass(two_pass::rank, radices, settings);
        let one: &mut dyn FnMut() = &mut || pass(capi::rank, radices, settings);
        let ways = [two, one];
        for way in [turn % 2, 1 - turn % 2] {
            self.tally.taken[way][round] += time(1, ways[way]);
        }
    }
}

/// Each batch in another order of the ways than in the round before.
fn time_round(rows: &mut [Row], round: usize) {
    let mut turn = round;
    each_batch(rows, |row, settings| {
        row.time(round, turn, settings);
        turn += 1;
    });
}

fn print_table(rows: &[Row], all: &Tally) {
    println!("| survey | settings | refused | two passes, ns a setting | one pass, ns a setting | one / two |");
    println!("|---|---|---|---|---|---|");
    rows.iter().for_each(|row| row.tally.print(&row.survey.name));
    all.print("all");
}

/// Ranks so many settings, at least `LEAST`; whether no answer differs.
pub fn run(count: usize) -> bool {
    let mut rows = rows(count);
    each_batch(&mut rows, Row::compare);
    (0..ROUNDS).for_each(|round| time_round(&mut rows, round));
    let all = rows.iter().fold(Tally::default(), |all, row| all.add(&row.tally));
    print_table(&rows, &all);
    println!(
        "\nranks: {} settings, {} of them wrong, {} answers differ",
        all.ranked, all.wrong, all.differ
    );
    all.differ == 0
}
