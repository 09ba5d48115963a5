//! Every call of the library on two kinds of surveys with locked sluices, at its bounds: some locked, and all.
use super::both::{self, Engine};
use super::bounds::{opening, read};
use super::Group;
use crate::run::Run;

/// Three sluices, of which the second moves alone: one change, sluice 2 up.
const BETWEEN: [u8; 3] = [1, 2, 1];
const END_OF_ONE: [u8; 9] = [4, 0, 0, 0, 0, 0, 0, 0, 1];
/// The end record where all are locked.
pub const END_OF_NONE: [u8; 9] = [4, 0, 0, 0, 0, 0, 0, 0, 0];

pub fn compare(g: &mut Group) {
    settings(g);
    moves(g);
    logs(g);
    for n in [1, 2, 48] {
        settings_of_locked(g, n);
        walks_of_locked(g, n);
        logs_of_locked(g, n);
    }
}

/// Two settings: a locked sluice has notch 0 alone.
fn settings(g: &mut Group) {
    for (setting, expected) in [
        (&[0_u8, 0, 0][..], Ok(0)),
        (&[0, 1, 0], Ok(1)),
        (&[0, 2, 0], Err(8)),
        (&[0, 1, 1], Err(8)),
        (&[1, 1, 0], Err(8)),
        (&[255, 0, 0], Err(8)),
        (&[1], Err(8)),
        (&[0, 0], Err(8)),
        (&[0, 0, 0, 0], Err(8)),
    ] {
        both::rank(g, &BETWEEN, setting).is(g, || format!("rank of {setting:?} in {BETWEEN:?}"), expected);
    }
    both::word_is(g, &BETWEEN, 1, 3, Ok(&[0, 1, 0]));
    both::word_is(g, &BETWEEN, 2, 3, Err(8));
    both::word_is(g, &BETWEEN, 1, 2, Err(9));
    both::list_is(g, &BETWEEN, 0, 2, 6, Ok(&[0, 0, 0, 0, 1, 0]));
    both::list_is(g, &BETWEEN, 0, 2, 5, Err(9));
    both::list_is(g, &BETWEEN, 0, 3, 9, Err(8));
    both::list_is(g, &BETWEEN, 2, 0, 0, Ok(&[]));
}

/// Both engines name the sluice, not its place among those that move.
fn moves(g: &mut Group) {
    for (counts, moves) in [
        (&BETWEEN[..], &[2][..]),
        (&[2, 1, 2, 1], &[2, 4, 0x82]),
        (&[2, 2, 1], &[2, 3, 0x82]),
        (&[3, 1, 3, 1], &[2, 2, 4, 0x82, 0x82, 4, 2, 2]),
        (&[1, 4, 1], &[2, 2, 2]),
    ] {
        let last = moves.len() as u64;
        for engine in [Engine::Buffered(1), Engine::Disks] {
            both::run_is(g, engine, counts, 9, 9, (Run::Ended(last), moves));
            both::run_is(g, engine, counts, last, 9, (Run::Made(last), moves));
            both::run_is(g, engine, counts, 9, 8, (Run::Refused(9), &[]));
        }
    }
    // Half of the moving sluices is enough, however many are locked.
    let twelve_of_48 = [[1, 2, 1, 1]; 12].concat();
    for (t, expected) in [(5000, Run::Ended(4095)), (4096, Run::Ended(4095)), (4095, Run::Made(4095))] {
        let name = || format!("{t} moves, twelve moving of 48, capacity 6");
        both::run(g, Engine::Buffered(6), &twelve_of_48, t, 5000).is(g, name, expected);
    }
}

fn logs(g: &mut Group) {
    let start = opening(&BETWEEN, 1);
    let whole = [&start[..], &[3, 2], &END_OF_ONE].concat();
    both::log_is(g, &BETWEEN, 1, 1, 23, Ok(&whole));
    both::log_is(g, &BETWEEN, 1, 1, 22, Err(9));
    both::log_is(g, &BETWEEN, 1, 2, 99, Err(8));
    both::log_is(g, &BETWEEN, 1, 0, 12, Ok(&start));
    for (rest, expected) in [
        (&[&[3_u8, 2][..], &END_OF_ONE][..], Ok(1)),
        (&[], Ok(0)),
        (&[&[3, 2]], Err(11)),
        (&[&[3, 2], &END_OF_NONE], Err(11)),
        (&[&END_OF_NONE], Err(11)),
        (&[&[3, 1], &END_OF_ONE], Err(11)),
        (&[&[3, 3], &END_OF_ONE], Err(11)),
        (&[&[3, 0x82], &END_OF_ONE], Err(11)),
    ] {
        let rest = rest.concat();
        read(g, &format!("a log of {BETWEEN:?} and {rest:?}"), expected, &[&start, &rest]);
    }
}

/// One setting, shut.
fn settings_of_locked(g: &mut Group, n: usize) {
    let (counts, shut) = (vec![1; n], vec![0; n]);
    let mut open = shut.clone();
    open[n - 1] = 1;
    both::rank(g, &counts, &shut).is(g, || format!("rank of the setting of {n} locked"), Ok(0));
    both::rank(g, &counts, &open).is(g, || format!("rank of a wrong setting of {n} locked"), Err(8));
    both::word_is(g, &counts, 0, n, Ok(&shut));
    both::word_is(g, &counts, 0, n - 1, Err(9));
    both::word_is(g, &counts, 1, n, Err(8));
    both::list_is(g, &counts, 0, 1, n, Ok(&shut));
    both::list_is(g, &counts, 0, 0, 0, Ok(&[]));
    both::list_is(g, &counts, 1, 0, 0, Ok(&[]));
    both::list_is(g, &counts, 1, 1, n, Err(8));
    both::list_is(g, &counts, 0, 2, 2 * n, Err(8));
}

/// No move; any capacity from 1 is enough.
fn walks_of_locked(g: &mut Group, n: usize) {
    for engine in [1, 2, 24, 32].map(Engine::Buffered).into_iter().chain([Engine::Disks]) {
        for (t, room, expected) in [
            (0, 0, Run::Made(0)),
            (0, 3, Run::Made(0)),
            (1, 1, Run::Ended(0)),
            (3, 3, Run::Ended(0)),
            (1, 0, Run::Refused(9)),
            (3, 2, Run::Refused(9)),
        ] {
            both::run_is(g, engine, &vec![1; n], t, room, (expected, &[]));
        }
    }
}

/// t = 0 is N - 1, so the log of no moves has its end record.
fn logs_of_locked(g: &mut Group, n: usize) {
    let counts = vec![1; n];
    let start = opening(&counts, 32);
    let whole = [&start[..], &END_OF_NONE].concat();
    both::log_is(g, &counts, 32, 0, whole.len(), Ok(&whole));
    both::log_is(g, &counts, 32, 0, whole.len() - 1, Err(9));
    both::log_is(g, &counts, 32, 0, start.len(), Err(9));
    both::log_is(g, &counts, 32, 1, whole.len() + 2, Err(8));
    for (rest, expected) in [
        (&[&END_OF_NONE[..]][..], Ok(0)),
        (&[], Err(11)),
        (&[&END_OF_ONE], Err(11)),
        (&[&[3, 1]], Err(11)),
        (&[&[3, 1], &END_OF_NONE], Err(11)),
        (&[&[3, 1], &END_OF_ONE], Err(11)),
        (&[&END_OF_NONE, &END_OF_NONE], Err(1)),
    ] {
        let rest = rest.concat();
        read(g, &format!("a log of {n} locked and {rest:?}"), expected, &[&start, &rest]);
    }
}
