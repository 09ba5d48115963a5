//! The range rules of small states, on either side of each bound: every moving field beside every setting of one or two sluices
//! and beside the fresh states of up to three, and every other field of these.
use super::script::Script;
use super::{cases, Group};
use crate::second::buffered::Walk;
use crate::second::disks::Disks;
use crate::second::sluices::Sluices;
use crate::second::survey;

/// What is done with each state.
#[derive(Clone, Copy)]
pub enum Call {
    Step,
    /// Of one move, with room for it.
    Run,
}

pub fn compare(g: &mut Group, script: &mut Script, call: Call) {
    for sluices in small_settings() {
        cases::add(g, script, |script| every_moving_field(script, call, &sluices));
    }
    for counts in small_surveys() {
        for case in [moving_of_walk, fields_of_walk, moving_of_disks, fields_of_disks] {
            cases::add(g, script, |script| case(script, call, &counts));
        }
    }
}

/// Counts, notches and directions of one or two sluices, in range or not: notches up to the count itself.
fn small_settings() -> Vec<Sluices> {
    let one: Vec<(u8, u8, bool)> = (0..=3)
        .flat_map(|m| (0..=m).flat_map(move |a| [(m, a, false), (m, a, true)]))
        .collect();
    let alone = one.iter().map(|&sluice| sluices(&[sluice]));
    let pairs = one
        .iter()
        .flat_map(|&sluice| one.iter().map(move |&other| sluices(&[sluice, other])));
    alone.chain(pairs).collect()
}

/// Sluices of these counts, notches and directions, sluice 1 first.
fn sluices(settings: &[(u8, u8, bool)]) -> Sluices {
    let mut sluices = Sluices::closed();
    sluices.n = settings.len();
    for (x, &(m, a, down)) in settings.iter().enumerate() {
        (sluices.radix[x], sluices.digit[x], sluices.down[x]) = (m, a, down);
    }
    sluices
}

/// Every survey of up to three sluices with counts up to 3.
fn small_surveys() -> Vec<Vec<u8>> {
    (1..=3).flat_map(|n| numbers(n, 1, 3)).collect()
}

/// All rows of so many numbers from `low` to `high`.
fn numbers(length: usize, low: u8, high: u8) -> Vec<Vec<u8>> {
    (0..length).fold(vec![vec![]], |rows, _| {
        let longer = rows
            .iter()
            .flat_map(|row| (low..=high).map(|last| [&row[..], &[last]].concat()));
        longer.collect()
    })
}

/// Moving fields for up to n sluices: all of up to n numbers, from 0 to one past n, and some of one number more.
fn moving_fields(n: u8) -> Vec<Vec<u8>> {
    let all = (0..=n.into()).flat_map(|length| numbers(length, 0, n + 1));
    let longer = [0, n, n + 1].map(|last| (1..=n).chain([last]).collect());
    all.chain(longer).collect()
}

/// Both engines on up to two sluices, all else as at the start.
fn every_moving_field(script: &mut Script, call: Call, sluices: &Sluices) {
    script.open_walk(&[2], 1);
    script.open_disks(&[2]);
    let (mut walk, mut disks) = (Walk::closed(), Disks::closed());
    (walk.capacity, walk.sluices, disks.sluices) = (1, sluices.clone(), sluices.clone());
    for numbers in moving_fields(2) {
        walk.sluices.set_moving(&numbers);
        disks.sluices.set_moving(&numbers);
        call_walk(script, call, &walk);
        call_disks(script, call, &disks);
    }
}

fn call_walk(script: &mut Script, call: Call, walk: &Walk) {
    script.make_walk(walk);
    match call {
        Call::Step => script.step_walk(),
        Call::Run => script.run_walk(1, 1),
    }
}

fn call_disks(script: &mut Script, call: Call, disks: &Disks) {
    script.make_disks(disks);
    match call {
        Call::Step => script.step_disks(),
        Call::Run => script.run_disks(1, 1),
    }
}

/// Every moving field of a fresh walk on up to three sluices.
fn moving_of_walk(script: &mut Script, call: Call, counts: &[u8]) {
    let mut walk = open_walk(script, counts);
    for numbers in moving_fields(3) {
        walk.sluices.set_moving(&numbers);
        call_walk(script, call, &walk);
    }
}

/// The same of the disks, where they can be opened.
fn moving_of_disks(script: &mut Script, call: Call, counts: &[u8]) {
    let Some(mut disks) = open_disks(script, counts) else { return };
    for numbers in moving_fields(3) {
        disks.sluices.set_moving(&numbers);
        call_disks(script, call, &disks);
    }
}

fn open_walk(script: &mut Script, counts: &[u8]) -> Walk {
    script.open_walk(counts, 2);
    Walk::open(counts, 2).expect("the survey can be opened")
}

fn open_disks(script: &mut Script, counts: &[u8]) -> Option<Disks> {
    script.open_disks(counts);
    Disks::open(counts).ok()
}

/// Each field of the buffered engine's own, over all that it may be and beyond.
fn fields_of_walk(script: &mut Script, call: Call, counts: &[u8]) {
    let fresh = open_walk(script, counts);
    let last = survey::size(counts).expect("the survey can be opened") - 1;
    let mut with = |change: &dyn Fn(&mut Walk)| {
        let mut walk = fresh.clone();
        change(&mut walk);
        call_walk(script, call, &walk);
    };
    for value in 0..=5 {
        with(&|walk| walk.place = value.into());
        with(&|walk| (walk.queued, walk.entry[0]) = (1, value));
        with(&|walk| (walk.queued, walk.entry[0], walk.entry[1]) = (2, 1, value));
        with(&|walk| (walk.steps, walk.ended) = (value.into(), true));
        for x in 0..4 {
            with(&|walk| walk.counter[x] = value);
            with(&|walk| (walk.counter[x], walk.place) = (value, x + 1));
        }
    }
    for moves in [last, last + 1] {
        with(&|walk| (walk.moves, walk.queued, walk.entry[0]) = (moves, 1, 1));
    }
}

/// Each field of the disk engine's own.
fn fields_of_disks(script: &mut Script, call: Call, counts: &[u8]) {
    let Some(fresh) = open_disks(script, counts) else { return };
    for value in 0..=5 {
        let mut disks = fresh.clone();
        disks.turn = value.into();
        call_disks(script, call, &disks);
        for x in 0..4 {
            let mut disks = fresh.clone();
            disks.peg[x] = value;
            call_disks(script, call, &disks);
        }
    }
}
