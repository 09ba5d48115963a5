//! Runs of moves from states of both engines, fresh and made up, through the program `cases`: how they come out, each lent byte
//! and the state that they hand back. The second program makes single calls.
use super::cases::{self, add_all, often_the_ends, Case};
use super::ranges::{self, Call};
use super::script::{Script, MOST_LENT};
use super::{faults, surveys, Group};
use crate::chance::Chance;
use crate::second::buffered::{Walk, MOST_CAPACITY};
use crate::second::survey;

pub fn compare(g: &mut Group, chance: &mut Chance) {
    let mut script = Script::new();
    for (t, lent) in [(0, 0), (1, 1), (1, 0)] {
        script.run_walk(t, lent);
        script.run_disks(t, lent);
    }
    let cases: [(usize, Case); 7] = [
        (400, cut_walk),
        (2000, made_up_walk),
        (400, late_walk),
        (400, dry_walk),
        (200, ended_walk),
        (400, cut_disks),
        (1500, made_up_disks),
    ];
    add_all(g, &mut script, chance, &cases);
    ranges::compare(g, &mut script, Call::Run);
    cases::finish(g, script);
}

/// A number of moves, mostly up to `most`, and of bytes lent for them: often just enough, now and then one too few. No more are
/// lent than the program can, so that a run of more moves has no room.
fn lengths(chance: &mut Chance, most: usize) -> (u64, usize) {
    let t = chance.between(0, most);
    let (more, any) = (chance.between(1, 5), chance.between(0, MOST_LENT));
    let lent = chance.pick(&[t, t, t, t, t + more, t + more, t.saturating_sub(1), any]);
    let wanted = if chance.once_in(40) {
        chance.pick(&[MOST_LENT as u64 + 1, 1 << 32, u64::MAX])
    } else {
        t as u64
    };
    (wanted, lent.min(MOST_LENT))
}

/// A walk from the start in runs of any lengths, with a step between them now and then: past the end or the first dry call, if
/// that is not too far.
fn cut_walk(script: &mut Script, chance: &mut Chance) {
    let (small, any) = (surveys::small(chance, 6, 4), surveys::any(chance));
    let counts = chance.pick(&[small.clone(), small, any]);
    let capacity = chance.pick(&[1, 1, 2, 3, 32]);
    script.open_walk(&counts, capacity);
    for (t, lent) in cuts(chance, &counts) {
        script.run_walk(t, lent);
        if chance.once_in(4) {
            script.step_walk();
        }
    }
}

/// Lengths of runs which together go past the end, but there are at most 12 of them.
fn cuts(chance: &mut Chance, counts: &[u8]) -> Vec<(u64, usize)> {
    let size = survey::size(counts).expect("the survey can be opened");
    let most = chance.pick(&[3, 20, MOST_LENT]);
    let mut left = size + 2;
    let mut cuts = vec![];
    while left > 0 && cuts.len() < 12 {
        let (t, lent) = lengths(chance, most);
        left = left.saturating_sub(t);
        cuts.push((t, lent));
    }
    cuts
}

/// Lengths of one run or more from a made-up state.
fn some_lengths(chance: &mut Chance) -> Vec<(u64, usize)> {
    let most = chance.pick(&[2, 8, 40, MOST_LENT]);
    (0..chance.between(1, 3)).map(|_| lengths(chance, most)).collect()
}

/// One run or more from a state, then one of the same state with one change, mostly a fault: then it is refused and stays.
fn runs_of_walk(script: &mut Script, chance: &mut Chance, walk: Walk) {
    script.open_walk(&walk.sluices.counts(), walk.capacity);
    script.make_walk(&walk);
    for (t, lent) in some_lengths(chance) {
        script.run_walk(t, lent);
    }
    if chance.once_in(3) {
        script.lay_open_walk();
    }
    script.make_walk(&faults::walk(chance, walk));
    let (t, lent) = lengths(chance, 3);
    script.run_walk(t, lent);
    script.run_walk(0, 0);
}

fn made_up_walk(script: &mut Script, chance: &mut Chance) {
    let counts = cases::some_counts(chance);
    let walk = cases::walk_in_range(chance, &counts);
    runs_of_walk(script, chance, walk);
}

/// A state in range in which a sluice can move.
fn walk_that_moves(chance: &mut Chance) -> Walk {
    loop {
        let counts = cases::some_counts(chance);
        let walk = cases::walk_in_range(chance, &counts);
        if walk.sluices.moving > 0 {
            return Walk {
                ended: false,
                steps: 0,
                ..walk
            };
        }
    }
}

/// So many entries, none of them the end.
fn fill_queue(chance: &mut Chance, walk: &mut Walk, queued: usize) {
    walk.queued = queued;
    for entry in &mut walk.entry[..queued] {
        *entry = often_the_ends(chance, 1, walk.sluices.moving as u64) as u8;
    }
}

/// A queue full of moves at the list's end: with N moves made the state is out of range, and the next call stops the run.
fn late_walk(script: &mut Script, chance: &mut Chance) {
    let mut walk = walk_that_moves(chance);
    walk.capacity = chance.between(4, MOST_CAPACITY);
    let capacity = walk.capacity;
    fill_queue(chance, &mut walk, capacity);
    let last = survey::size(&walk.sluices.counts()).expect("the survey can be opened") - 1;
    walk.moves = last - last.min(chance.below(capacity as u64 + 1));
    runs_of_walk(script, chance, walk);
}

/// A counter that is about to carry through all its places, two in a call: if the queue holds fewer entries than that takes
/// calls, it runs dry after them.
fn dry_walk(script: &mut Script, chance: &mut Chance) {
    let mut walk = walk_that_moves(chance);
    let moving = walk.sluices.moving;
    for i in 1..=moving {
        walk.counter[i - 1] = walk.count(i) - 1;
    }
    (walk.place, walk.moves) = (1, 0);
    let most = walk.capacity.min(moving / 2);
    let queued = chance.between(0, most);
    fill_queue(chance, &mut walk, queued);
    runs_of_walk(script, chance, walk);
}

fn ended_walk(script: &mut Script, chance: &mut Chance) {
    let mut walk = walk_that_moves(chance);
    walk.ended = true;
    runs_of_walk(script, chance, walk);
}

/// The disks from the start in runs of any lengths: past the end, if that is not too far.
fn cut_disks(script: &mut Script, chance: &mut Chance) {
    let (small, any) = (surveys::for_disks(chance, 6, 5), surveys::for_disks(chance, 48, 255));
    let counts = chance.pick(&[small.clone(), small, any]);
    script.open_disks(&counts);
    for (t, lent) in cuts(chance, &counts) {
        script.run_disks(t, lent);
        if chance.once_in(4) {
            script.step_disks();
        }
    }
}

/// Runs from a state in range; then from the same with one change, mostly a fault.
fn made_up_disks(script: &mut Script, chance: &mut Chance) {
    let counts = cases::some_disk_counts(chance);
    let disks = cases::disks_in_range(chance, &counts);
    script.open_disks(&counts);
    script.make_disks(&disks);
    for (t, lent) in some_lengths(chance) {
        script.run_disks(t, lent);
    }
    if chance.once_in(3) {
        script.lay_open_disks();
    }
    script.make_disks(&faults::disks(chance, disks));
    let (t, lent) = lengths(chance, 3);
    script.run_disks(t, lent);
    script.run_disks(0, 0);
}
