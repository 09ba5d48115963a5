//! States of walks picked up at a setting, and what follows from them, through the program `cases`: document 02, request 6.
use super::cases::{self, add, add_all, Case};
use super::pickups::ranks_near_carries;
use super::runs::enough;
use super::script::{Script, MOST_LENT};
use super::{damage, faults, small, surveys, Group};
use crate::chance::Chance;
use crate::second::buffered::MOST_CAPACITY;
use crate::second::survey;

/// Up to so many settings a walk is picked up at each of them with each of these capacities, and stepped past its end.
const MOST_STEPPED: usize = 12;
const CAPACITIES: [usize; 5] = [1, 2, 3, 4, 32];
/// Up to so many it is picked up at each with some capacity, and a run goes past its end.
const MOST_RUN: usize = 24;

pub fn compare(g: &mut Group, chance: &mut Chance) {
    let mut script = Script::new();
    refused_before_any(&mut script);
    for counts in small::surveys() {
        small_survey(g, &mut script, chance, &counts);
    }
    let cases: [(usize, Case); 4] = [
        (300, large),
        (300, refused_on_walk),
        (300, refused_on_made_up),
        (600, damaged),
    ];
    add_all(g, &mut script, chance, &cases);
    cases::finish(g, script);
}

/// Refused where no walk has been opened yet.
fn refused_before_any(script: &mut Script) {
    for (counts, capacity, setting) in [
        (&[][..], 1, &[][..]),
        (&[2, 3], 0, &[0, 0]),
        (&[2, 3], 1, &[]),
        (&[2, 3], 1, &[0, 3]),
    ] {
        script.resume_walk(counts, capacity, setting);
    }
    script.step_walk();
    script.resume_walk(&[2, 3], 1, &[0, 2]);
}

/// Every setting of the smallest ones, and one by chance of the others.
fn small_survey(g: &mut Group, script: &mut Script, chance: &mut Chance, counts: &[u8]) {
    let list = survey::list(counts);
    let any = chance.pick(&list);
    match list.len() {
        size if size <= MOST_STEPPED && counts.len() <= 3 => stepped_from_all(g, script, counts, &list),
        size if size <= MOST_RUN => run_from_all(g, script, chance, counts, &list),
        _ => run_from_all(g, script, chance, counts, &[any]),
    }
}

/// From each setting past the end, or past a dry call. Where all that is left fits the buffer, steps come round to the last
/// place of the counter.
fn stepped_from_all(g: &mut Group, script: &mut Script, counts: &[u8], list: &[Vec<u8>]) {
    for (rank, setting) in list.iter().enumerate() {
        for capacity in CAPACITIES {
            add(g, script, |script| {
                script.resume_walk(counts, capacity, setting);
                (rank..list.len() + 1).for_each(|_| script.step_walk());
            });
        }
    }
}

fn run_from_all(g: &mut Group, script: &mut Script, chance: &mut Chance, counts: &[u8], settings: &[Vec<u8>]) {
    for setting in settings {
        add(g, script, |script| run_from(script, chance, counts, setting));
    }
}

/// From a setting in two runs, past the end or up to a dry call, if that is not too far.
fn run_from(script: &mut Script, chance: &mut Chance, counts: &[u8], setting: &[u8]) {
    let enough = enough(counts);
    script.resume_walk(counts, chance.pick(&[1, enough, enough, enough + 1, 32]), setting);
    let t = chance.between(0, 9);
    script.run_walk(t as u64, t);
    let size = survey::size(counts).expect("the survey can be opened");
    script.run_walk(size.min(MOST_LENT as u64), MOST_LENT.min(size as usize));
}

/// Steps and runs from a setting of a large survey near a change that carries far, or near the end.
fn large(script: &mut Script, chance: &mut Chance) {
    let counts = large_counts(chance);
    let enough = enough(&counts);
    let (more, fewer) = (chance.between(enough, MOST_CAPACITY), chance.between(1, enough));
    let capacity = chance.pick(&[enough, enough, more, fewer]);
    let ranks = ranks_near_carries(chance, &counts, 6);
    let setting = survey::setting(&counts, chance.pick(&ranks));
    script.resume_walk(&counts, capacity, &setting);
    for _ in 0..chance.between(1, 3) {
        script.step_walk();
    }
    let t = chance.between(1, MOST_LENT);
    script.run_walk(t as u64, t);
    script.step_walk();
}

fn large_counts(chance: &mut Chance) -> Vec<u8> {
    match chance.below(6) {
        0 => vec![2; 48],
        1 => vec![3; 39],
        2 => surveys::just_below(chance),
        3 => surveys::exact(chance),
        4 => surveys::with_some_locked(chance, vec![2; 40]),
        _ => surveys::any(chance),
    }
}

/// A survey, a capacity and a setting with one fault or more.
fn faulty(chance: &mut Chance) -> (Vec<u8>, usize, Vec<u8>) {
    let mut counts = surveys::small(chance, 5, 4);
    let mut setting = vec![0; counts.len()];
    let mut capacity = chance.between(1, 3);
    let faults = chance.between(1, 31);
    let place = chance.between(0, counts.len() - 1);
    if faults & 1 > 0 {
        setting[place] = chance.pick(&[counts[place], 255]);
    }
    if faults & 2 > 0 {
        let length = chance.pick(&[0, setting.len() - 1, setting.len() + 1]);
        setting.resize(length, 0);
    }
    if faults & 4 > 0 {
        capacity = chance.pick(&[0, 33, 255]);
    }
    if faults & 24 == 8 {
        counts[place] = 0;
    }
    if faults & 24 == 16 {
        counts = chance.pick(&[vec![], vec![2; 49], vec![255; 8]]);
    }
    if faults & 24 == 24 {
        counts = surveys::over(chance); // mostly longer than the setting
    }
    (counts, capacity, setting)
}

/// On a walk that was opened or picked up, and has made moves, ended or run dry: it stays and goes on.
fn refused_on_walk(script: &mut Script, chance: &mut Chance) {
    let counts = surveys::small(chance, 5, 4);
    let capacity = chance.between(1, 3);
    if chance.once_in(2) {
        script.open_walk(&counts, capacity);
    } else {
        let rank = chance.below(survey::size(&counts).expect("the survey can be opened"));
        script.resume_walk(&counts, capacity, &survey::setting(&counts, rank));
    }
    let t = chance.between(0, 40);
    script.run_walk(t as u64, t);
    for _ in 0..chance.between(1, 3) {
        let (counts, capacity, setting) = faulty(chance);
        script.resume_walk(&counts, capacity, &setting);
        script.step_walk();
    }
}

/// On a made-up state, in range or not: all its places stay.
fn refused_on_made_up(script: &mut Script, chance: &mut Chance) {
    let counts = cases::some_counts(chance);
    let mut walk = cases::walk_in_range(chance, &counts);
    script.open_walk(&counts, walk.capacity);
    if chance.once_in(2) {
        walk = faults::walk(chance, walk);
    }
    script.make_walk(&walk);
    let (counts, capacity, setting) = faulty(chance);
    script.resume_walk(&counts, capacity, &setting);
    script.lay_open_walk();
}

/// Bytes by chance as a survey, and as a setting with at most one fault.
fn damaged(script: &mut Script, chance: &mut Chance) {
    let mut counts = damage::survey_bytes(chance);
    counts.truncate(49);
    let mut setting = damage::setting_bytes(chance, &counts);
    setting.truncate(49);
    script.resume_walk(&counts, chance.pick(&[0, 1, 2, 7, 32, 33, 255]), &setting);
    script.step_walk();
}
