//! States of both engines, fresh and made up, through the program `cases`: it keeps a state of each engine from line to line,
//! changes it on demand and prints all of it after each step or run.
use super::ranges::{self, Call};
use super::{faults, in_repository, process, script::Script, surveys, Group};
use crate::chance::Chance;
use crate::second::buffered::{Walk, MOST_CAPACITY};
use crate::second::disks::Disks;
use crate::second::sluices::Sluices;
use crate::second::survey;

/// The most bytes that the program reads.
const MOST_INPUT: usize = 32_768;
/// Where a script is ended; the longest case fits in what this leaves.
const INPUT: usize = 20_000;

/// Adds the lines of one case to a script.
pub type Case = fn(&mut Script, &mut Chance);

pub fn compare(g: &mut Group, chance: &mut Chance) {
    let mut script = Script::new();
    script.step_walk();
    script.step_disks();
    let cases: [(usize, Case); 5] = [
        (300, fresh_walk),
        (2500, made_up_walk),
        (300, fresh_disks),
        (2000, made_up_disks),
        (400, openings),
    ];
    add_all(g, &mut script, chance, &cases);
    ranges::compare(g, &mut script, Call::Step);
    finish(g, script);
}

/// Each case so many times.
pub fn add_all(g: &mut Group, script: &mut Script, chance: &mut Chance, cases: &[(usize, Case)]) {
    for &(times, case) in cases {
        for _ in 0..times {
            add(g, script, |script| case(script, chance));
        }
    }
}

/// One case more, and a script that has become long enough is run.
pub fn add(g: &mut Group, script: &mut Script, case: impl FnOnce(&mut Script)) {
    case(script);
    if script.input().len() > INPUT {
        finish(g, std::mem::take(script));
    }
}

/// Runs a script and compares what each of its lines printed.
pub fn finish(g: &mut Group, script: Script) {
    assert!(script.input().len() <= MOST_INPUT, "a case is too long");
    let printed = match process::output(&in_repository("target/bin/cases"), script.input().as_bytes()) {
        Ok(bytes) => String::from_utf8_lossy(&bytes).into_owned(),
        Err(error) => error,
    };
    let mut lines = printed.lines();
    for record in script.records() {
        let library: Vec<String> = lines.by_ref().take(record.expected.len()).map(String::from).collect();
        g.same(
            || format!("cases, the last line of\n{}", script.case_of(record)),
            &record.expected,
            &library,
        );
    }
    g.same(|| "cases, lines after the last".into(), &None, &lines.next());
}

/// Openings that are accepted or refused; a refused one leaves the state as it was.
fn openings(script: &mut Script, chance: &mut Chance) {
    let (length, lowest) = (chance.pick(&[0, 1, 2, 48, 49]), chance.byte(0, 2));
    let (low, any) = (chance.bytes(length, lowest, 2), surveys::any(chance));
    let (below, over) = (surveys::just_below(chance), surveys::over(chance));
    let counts = chance.pick(&[vec![1; length], low.clone(), low, any, below, over]);
    script.open_walk(&counts, chance.pick(&[0, 1, 32, 33, 255]));
    script.step_walk();
    let disks = surveys::for_disks(chance, 48, 255);
    script.open_disks(&chance.pick(&[counts, disks]));
    script.step_disks();
}

/// From the start past the end, or past the first dry call, if that is not too far.
fn fresh_walk(script: &mut Script, chance: &mut Chance) {
    let (small, any) = (surveys::small(chance, 6, 4), surveys::any(chance));
    let counts = chance.pick(&[small.clone(), small, any]);
    let capacity = if chance.once_in(3) {
        chance.between(1, MOST_CAPACITY)
    } else {
        chance.between(1, 2)
    };
    script.open_walk(&counts, capacity);
    for _ in 0..steps(&counts, 40) {
        script.step_walk();
    }
}

/// Past the end, but at most so many steps, and fewer where what is printed is long.
fn steps(counts: &[u8], most: u64) -> u64 {
    let most = if counts.len() > 8 { 8 } else { most };
    most.min(survey::size(counts).expect("the survey can be opened") + 2)
}

/// A state in range, stepped; then the same with one change, mostly a fault, with which it is refused and stays.
fn made_up_walk(script: &mut Script, chance: &mut Chance) {
    let counts = some_counts(chance);
    let walk = walk_in_range(chance, &counts);
    script.open_walk(&counts, walk.capacity);
    script.make_walk(&walk);
    for _ in 0..chance.between(1, 4) {
        script.step_walk();
    }
    if chance.once_in(3) {
        script.lay_open_walk();
    }
    script.make_walk(&faults::walk(chance, walk));
    script.step_walk();
    script.step_walk();
}

pub fn some_counts(chance: &mut Chance) -> Vec<u8> {
    match chance.below(14) {
        0 => surveys::any(chance),
        1 => surveys::just_below(chance),
        2 => surveys::exact(chance),
        3 => surveys::small(chance, 3, 255),
        4 => surveys::few_moving(chance),
        _ => surveys::small(chance, 5, 4),
    }
}

/// One of the ends, or something between.
pub fn often_the_ends(chance: &mut Chance, low: u64, high: u64) -> u64 {
    let between = low + chance.below(high - low + 1);
    chance.pick(&[low, high, between])
}

/// Any setting, with directions that it allows.
fn set_notches(chance: &mut Chance, sluices: &mut Sluices) {
    for x in 0..sluices.n {
        let last = sluices.radix[x] - 1;
        let a = often_the_ends(chance, 0, last.into()) as u8;
        sluices.digit[x] = a;
        sluices.down[x] = a > 0 && (a == last || chance.once_in(2));
    }
}

/// Places of an array past what counts may hold anything.
fn litter(chance: &mut Chance, past: &mut [u8]) {
    if past.is_empty() || chance.once_in(2) {
        return;
    }
    for _ in 0..chance.between(1, 3) {
        past[often_the_ends(chance, 0, past.len() as u64 - 1) as usize] = chance.byte(0, 255);
    }
}

fn litter_sluices(chance: &mut Chance, sluices: &mut Sluices) {
    let n = sluices.n;
    litter(chance, &mut sluices.radix[n..]);
    litter(chance, &mut sluices.digit[n..]);
    litter(chance, &mut sluices.number[sluices.moving..]);
    if let Some(down) = sluices.down.get_mut(n) {
        *down = chance.once_in(2);
    }
}

pub fn walk_in_range(chance: &mut Chance, counts: &[u8]) -> Walk {
    let capacity = often_the_ends(chance, 1, highest_capacity(counts)) as usize;
    let mut walk = Walk::open(counts, capacity).expect("the survey and the capacity can be opened");
    let last_place = walk.last_place();
    set_notches(chance, &mut walk.sluices);
    for i in 1..=last_place {
        walk.counter[i - 1] = often_the_ends(chance, 0, u64::from(walk.count(i)) - 1) as u8;
    }
    walk.place = often_the_ends(chance, 1, last_place as u64) as usize;
    walk.queued = often_the_ends(chance, 0, capacity as u64) as usize;
    for entry in &mut walk.entry[..walk.queued] {
        *entry = often_the_ends(chance, 1, last_place as u64) as u8;
    }
    walk.moves = often_the_ends(chance, 0, survey::size(counts).expect("the survey can be opened") - 1);
    walk.ended = chance.once_in(8);
    walk.steps = often_the_ends(chance, 0, faults::most_steps(&walk));
    litter_sluices(chance, &mut walk.sluices);
    litter(chance, &mut walk.counter[last_place..]);
    walk
}

/// Small surveys get small queues, so that a script holds more cases.
fn highest_capacity(counts: &[u8]) -> u64 {
    if counts.len() <= 2 {
        4
    } else {
        MOST_CAPACITY as u64
    }
}

/// From the start past the end, if that is not too far.
fn fresh_disks(script: &mut Script, chance: &mut Chance) {
    let (small, any) = (surveys::for_disks(chance, 6, 5), surveys::for_disks(chance, 48, 255));
    let counts = chance.pick(&[small.clone(), small, any]);
    script.open_disks(&counts);
    for _ in 0..steps(&counts, 60) {
        script.step_disks();
    }
}

/// A state in range, moved; then the same with one change, mostly a fault.
fn made_up_disks(script: &mut Script, chance: &mut Chance) {
    let counts = some_disk_counts(chance);
    let disks = disks_in_range(chance, &counts);
    script.open_disks(&counts);
    script.make_disks(&disks);
    for _ in 0..chance.between(1, 4) {
        script.step_disks();
    }
    if chance.once_in(3) {
        script.lay_open_disks();
    }
    script.make_disks(&faults::disks(chance, disks));
    script.step_disks();
    script.step_disks();
}

pub fn some_disk_counts(chance: &mut Chance) -> Vec<u8> {
    match chance.below(8) {
        0 => surveys::for_disks(chance, 48, 255),
        1 => surveys::for_disks(chance, 48, 5),
        _ => surveys::for_disks(chance, 6, 6),
    }
}

/// The first disks are often on one peg, so that a later one or none is chosen; pegs of odd counts may be anything.
pub fn disks_in_range(chance: &mut Chance, counts: &[u8]) -> Disks {
    let mut disks = Disks::open(counts).expect("disks can be put on the survey");
    let moving = disks.sluices.moving;
    set_notches(chance, &mut disks.sluices);
    disks.turn = often_the_ends(chance, 0, faults::turns(&disks) as u64 - 1) as usize;
    let highest = faults::ring(&disks).unwrap_or(255);
    let (together, peg) = (chance.between(0, moving), chance.byte(0, highest));
    for x in 0..moving {
        disks.peg[x] = if x < together {
            peg
        } else {
            often_the_ends(chance, 0, highest.into()) as u8
        };
    }
    if chance.once_in(2) {
        put_on_one_peg(chance, &mut disks.sluices, together);
    }
    litter_sluices(chance, &mut disks.sluices);
    litter(chance, &mut disks.peg[moving..]);
    disks
}

/// The first disks at their first notch, or at their last: the left and the right peg of odd counts.
fn put_on_one_peg(chance: &mut Chance, sluices: &mut Sluices, together: usize) {
    let right = chance.once_in(2);
    for disk in 1..=together {
        let x = sluices.sluice(disk) - 1;
        sluices.digit[x] = if right { sluices.radix[x] - 1 } else { 0 };
        sluices.down[x] = right;
    }
}
