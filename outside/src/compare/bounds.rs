//! Every refusal that a call of the library can give, at its bound, beside the accepted neighbour. What is expected is written
//! here as documents 01 and 02 have it, and both sides are held to it. (7 needs an engine's state: see `cases`.)
use super::both::{self, Engine};
use super::locked::{self, END_OF_NONE};
use super::{surveys, Group};
use crate::capi::Answer;
use crate::chance::Chance;
use crate::run::Run;
use crate::second::survey::MOST_SLUICES;

/// Two sluices: m2 = 2, m1 = 3, six settings.
const TWO: [u8; 2] = [2, 3];
/// Its log of five moves, capacity 1: all of it.
const START: [u8; 3] = [1, 2, 1];
const SLUICES: [u8; 6] = [2, 1, 3, 2, 2, 2];
const MOVES: [u8; 10] = [3, 1, 3, 1, 3, 2, 3, 0x81, 3, 0x81];
const END: [u8; 9] = [4, 0, 0, 0, 0, 0, 0, 0, 5];

const SETTINGS_AT_LIMIT: u64 = 1 << 62;

pub fn compare(g: &mut Group, _: &mut Chance) {
    log_shapes(g);
    sluice_numbers(g);
    notch_counts(g);
    sizes(g);
    equal_counts(g);
    capacities(g);
    disk_counts(g);
    wanted_too_much(g);
    rooms(g);
    rooms_of_runs(g);
    dry_runs(g);
    other_logs(g);
    combinations(g);
    combinations_in_logs(g);
    locked::compare(g);
}

/// How a run of t moves from the start comes out, where there is room for it and enough buffer. N is known, or what refuses the
/// opening.
fn run_of(t: u64, settings: Answer) -> Run {
    match settings {
        Ok(size) if t < size => Run::Made(t),
        Ok(size) => Run::Ended(size - 1),
        Err(number) => Run::Refused(number),
    }
}

/// A log made of parts, read.
pub fn read(g: &mut Group, name: &str, expected: Answer, parts: &[&[u8]]) {
    both::log_read(g, &parts.concat()).is(g, || name.into(), expected);
}

/// A start and the sluice records of these counts, sluice 1 first.
pub fn opening(counts: &[u8], capacity: u8) -> Vec<u8> {
    let records = (1..).zip(counts).flat_map(|(number, &m)| [2, number, m]);
    [1, counts.len() as u8, capacity].into_iter().chain(records).collect()
}

/// Refusal 1, every clause.
fn log_shapes(g: &mut Group) {
    read(g, "a whole log", Ok(5), &[&START, &SLUICES, &MOVES, &END]);
    read(g, "a log of four moves", Ok(4), &[&START, &SLUICES, &MOVES[..8]]);
    read(g, "a log of no moves", Ok(0), &[&START, &SLUICES]);
    read(g, "nothing", Err(1), &[]);
    read(g, "no start", Err(1), &[&SLUICES, &MOVES, &END]);
    read(g, "kind 0 first", Err(1), &[&[0], &START[1..], &SLUICES, &MOVES, &END]);
    read(g, "an end first", Err(1), &[&END]);
    read(g, "the start cut to one byte", Err(1), &[&START[..1]]);
    read(g, "the start cut to two bytes", Err(1), &[&START[..2]]);
    read(g, "two starts", Err(1), &[&START, &START, &SLUICES]);
    read(g, "no sluice record", Err(1), &[&START]);
    read(g, "a sluice record too few", Err(1), &[&START, &SLUICES[..3]]);
    read(
        g,
        "a sluice record too few before moves",
        Err(1),
        &[&START, &SLUICES[..3], &MOVES],
    );
    read(g, "a sluice record too many", Err(1), &[&START, &SLUICES, &[2, 3, 2], &MOVES]);
    read(g, "the last sluice record cut to one byte", Err(1), &[&START, &SLUICES[..4]]);
    read(g, "the last sluice record cut to two bytes", Err(1), &[&START, &SLUICES[..5]]);
    read(g, "numbered from 0", Err(1), &[&START, &[2, 0, 3, 2, 1, 2]]);
    read(g, "numbered from 2", Err(1), &[&START, &[2, 2, 3, 2, 3, 2]]);
    read(g, "numbered downward", Err(1), &[&START, &[2, 2, 2, 2, 1, 3]]);
    read(g, "numbered 1 twice", Err(1), &[&START, &[2, 1, 3, 2, 1, 2]]);
    read(g, "a move cut to one byte", Err(1), &[&START, &SLUICES, &MOVES[..7]]);
    read(g, "kind 5 for a move", Err(1), &[&START, &SLUICES, &[5, 1]]);
    read(g, "kind 0 for a move", Err(1), &[&START, &SLUICES, &[0, 1]]);
    read(g, "a start after moves", Err(1), &[&START, &SLUICES, &MOVES[..2], &START]);
    read(
        g,
        "a sluice record after moves",
        Err(1),
        &[&START, &SLUICES, &MOVES[..2], &SLUICES[3..]],
    );
    read(g, "the end cut to one byte", Err(1), &[&START, &SLUICES, &MOVES, &END[..1]]);
    read(g, "the end cut by one byte", Err(1), &[&START, &SLUICES, &MOVES, &END[..8]]);
    read(g, "a byte after the end", Err(1), &[&START, &SLUICES, &MOVES, &END, &[0]]);
    read(
        g,
        "a move after the end",
        Err(1),
        &[&START, &SLUICES, &MOVES[..8], &END, &MOVES[8..]],
    );
    read(g, "two ends", Err(1), &[&START, &SLUICES, &MOVES, &END, &END]);
}

/// Refusal 2.
fn sluice_numbers(g: &mut Group) {
    for (n, expected) in [(0, Err(2)), (1, Ok(2)), (48, Ok(1 << 48)), (49, Err(2)), (1000, Err(2))] {
        both::size(g, &vec![2; n]).is(g, || format!("{n} sluices"), expected);
        both::size(g, &vec![1; n]).is(g, || format!("{n} locked sluices"), expected.map(|_| 1));
    }
    for (n, expected) in [(0, Err(2)), (1, Ok(0)), (48, Ok(0)), (49, Err(2)), (255, Err(2))] {
        read(g, &format!("a log of {n} sluices"), expected, &[&opening(&vec![2; n], 1)]);
        read(
            g,
            &format!("a log of {n} locked sluices"),
            expected,
            &[&opening(&vec![1; n], 1), &END_OF_NONE],
        );
    }
    // Locked sluices count too.
    for (moving, locked, expected) in [
        (2, 46, Ok(4)),
        (2, 47, Err(2)),
        (47, 1, Ok(1 << 47)),
        (48, 1, Err(2)),
        (1, 48, Err(2)),
    ] {
        let counts = [vec![2; moving], vec![1; locked]].concat();
        both::size(g, &counts).is(g, || format!("{moving} moving, {locked} locked sluices"), expected);
        for engine in [Engine::Buffered(32), Engine::Disks] {
            both::run(g, engine, &counts, 4, 4).is(
                g,
                || format!("{engine:?} on {moving} moving, {locked} locked sluices"),
                run_of(4, expected),
            );
        }
    }
}

/// Refusal 3, at every place of a survey.
fn notch_counts(g: &mut Group) {
    for n in [1, 2, 5] {
        for place in 0..n {
            for (m, expected) in [(0, Err(3)), (1, Ok(1)), (2, Ok(2)), (255, Ok(255))] {
                let mut counts = vec![2; n];
                counts[place] = m;
                let settings = expected.map(|m: u64| m << (n - 1));
                both::size(g, &counts).is(g, || format!("count {m} at place {place} of {n}"), settings);
                let end = if settings == Ok(1) { &END_OF_NONE[..] } else { &[] };
                read(
                    g,
                    &format!("a log with count {m} at place {place} of {n}"),
                    expected.map(|_| 0),
                    &[&opening(&counts, 1), end],
                );
            }
        }
    }
}

/// Refusal 4.
fn sizes(g: &mut Group) {
    let cases = [
        ("2^62 from fours", vec![4; 31], Ok(SETTINGS_AT_LIMIT)),
        (
            "2^62 from 48 counts",
            [vec![4; 14], vec![2; 34]].concat(),
            Ok(SETTINGS_AT_LIMIT),
        ),
        (
            "2^62 from few counts",
            [vec![128; 8], vec![64]].concat(),
            Ok(SETTINGS_AT_LIMIT),
        ),
        (
            "2^62 from fours and 17 locked",
            [vec![1; 9], vec![4; 31], vec![1; 8]].concat(),
            Ok(SETTINGS_AT_LIMIT),
        ),
        (
            "2^62 from few counts and 39 locked",
            [vec![64], vec![1; 39], vec![128; 8]].concat(),
            Ok(SETTINGS_AT_LIMIT),
        ),
        ("2^63", [vec![4; 31], vec![2]].concat(), Err(4)),
        ("2^63 with 16 locked", [vec![4; 31], vec![1; 16], vec![2]].concat(), Err(4)),
        (
            "the smallest product over 2^62 with 38 locked",
            [&[1; 20], &surveys::SMALLEST_OVER[..], &[1; 18]].concat(),
            Err(4),
        ),
        ("2^62 and a half of it", [vec![4; 30], vec![6]].concat(), Err(4)),
        ("the smallest product over 2^62", surveys::SMALLEST_OVER.to_vec(), Err(4)),
        ("7 counts of 255", vec![255; 7], Ok(255_u64.pow(7))),
        ("8 counts of 255", vec![255; 8], Err(4)),
        ("2^64", vec![4; 32], Err(4)),
        ("2^64 by 16 and 2 more", [vec![16; 16], vec![2; 2]].concat(), Err(4)),
        ("2^128", vec![16; 32], Err(4)),
        ("48 counts of 255", vec![255; 48], Err(4)),
    ];
    for (name, counts, expected) in cases {
        both::size(g, &counts).is(g, || name.into(), expected);
        read(g, &format!("a log of {name}"), expected.map(|_| 0), &[&opening(&counts, 1)]);
    }
    let product: u128 = surveys::SMALLEST_OVER.iter().map(|&m| u128::from(m)).product();
    g.same(
        || "the product said to be the smallest over 2^62".into(),
        &((1 << 62) + 1_243_840),
        &product,
    );
}

/// Refusals 3 and 4 at every number of sluices: the same count everywhere, alone and with a 0 at each place, which goes first
/// even where the others make more than 2^62.
fn equal_counts(g: &mut Group) {
    for n in 1..=MOST_SLUICES {
        for m in 1..=255 {
            both::size(g, &vec![m; n]);
        }
        for (place, m) in (0..n).flat_map(|place| [(place, 2), (place, 255)]) {
            let mut counts = vec![m; n];
            counts[place] = 0;
            both::size(g, &counts).is(g, || format!("0 at place {place} of {n} counts of {m}"), Err(3));
        }
    }
}

/// Refusal 5.
fn capacities(g: &mut Group) {
    for (capacity, fits) in [
        (0, false),
        (1, true),
        (32, true),
        (33, false),
        (256, false),
        (257, false),
        (usize::MAX, false),
    ] {
        for (counts, size) in [(TWO, 6), ([1, 1], 1)] {
            both::run(g, Engine::Buffered(capacity), &counts, 9, 9).is(
                g,
                || format!("a walk on {counts:?}, capacity {capacity}"),
                run_of(9, if fits { Ok(size) } else { Err(5) }),
            );
        }
        both::log_write(g, &TWO, capacity, 4, 17).is(
            g,
            || format!("a log, capacity {capacity}"),
            if fits { Ok(17) } else { Err(5) },
        );
    }
    for (capacity, expected) in [(0, Err(5)), (1, Ok(0)), (32, Ok(0)), (33, Err(5)), (255, Err(5))] {
        read(
            g,
            &format!("a log of capacity {capacity}"),
            expected,
            &[&opening(&TWO, capacity)],
        );
    }
}

/// Refusal 6, beside N where the disk engine can be opened.
fn disk_counts(g: &mut Group) {
    let cases: [(&[u8], Answer); 28] = [
        (&[3, 5], Ok(15)),
        (&[5, 3, 7], Ok(105)),
        (&[3], Ok(3)),
        (&[2], Ok(2)),
        (&[4, 4], Ok(16)),
        (&[254], Ok(254)),
        (&[255, 253], Ok(64_515)),
        (&[2, 4], Err(6)),
        (&[4, 2], Err(6)),
        (&[2, 3], Err(6)),
        (&[3, 3, 2], Err(6)),
        (&[4, 4, 4, 6], Err(6)),
        (&[1], Ok(1)),
        (&[1, 1, 1], Ok(1)),
        (&[1; 48], Ok(1)),
        (&[1, 2], Ok(2)),
        (&[2, 1], Ok(2)),
        (&[1, 2, 2], Ok(4)),
        (&[2, 1, 2], Ok(4)),
        (&[2, 2, 1], Ok(4)),
        (&[4, 1, 1, 4, 1], Ok(16)),
        (&[3, 1, 5], Ok(15)),
        (&[1, 255, 1], Ok(255)),
        (&[1, 2, 4], Err(6)),
        (&[4, 2, 1], Err(6)),
        (&[2, 1, 3], Err(6)),
        (&[3, 1, 2], Err(6)),
        (&[1, 4, 4, 1, 6], Err(6)),
    ];
    for (counts, expected) in cases {
        both::run(g, Engine::Disks, counts, 50, 50).is(g, || format!("disks on {counts:?}"), run_of(50, expected));
    }
}

/// Refusal 8.
fn wanted_too_much(g: &mut Group) {
    for (setting, expected) in [
        (&[1_u8, 0][..], Ok(5)),
        (&[1, 2], Ok(3)),
        (&[1, 3], Err(8)),
        (&[2, 0], Err(8)),
        (&[255, 0], Err(8)),
        (&[1], Err(8)),
        (&[], Err(8)),
        (&[0, 0, 0], Err(8)),
    ] {
        both::rank(g, &TWO, setting).is(g, || format!("rank of {setting:?}"), expected);
    }
    for (rank, expected) in [(0, Ok(2)), (5, Ok(2)), (6, Err(8)), (u64::MAX, Err(8))] {
        both::word(g, &TWO, rank, 2).is(g, || format!("setting of rank {rank}"), expected);
    }
    for (from, count, expected) in [
        (0, 6, Ok(12)),
        (0, 7, Err(8)),
        (5, 1, Ok(2)),
        (5, 2, Err(8)),
        (6, 0, Ok(0)),
        (6, 1, Err(8)),
        (7, 0, Err(8)),
        (u64::MAX, 0, Err(8)),
        (0, u64::MAX, Err(8)),
        (1, u64::MAX, Err(8)),
        (7, u64::MAX, Err(8)),
        (u64::MAX, u64::MAX, Err(8)),
    ] {
        both::list(g, &TWO, from, count, 20).is(g, || format!("{count} settings from rank {from}"), expected);
    }
    for (t, expected) in [
        (0, Ok(9)),
        (4, Ok(17)),
        (5, Ok(28)),
        (6, Err(8)),
        (1 << 63, Err(8)),
        (u64::MAX, Err(8)),
    ] {
        both::log_write(g, &TWO, 1, t, 40).is(g, || format!("a log of {t} moves"), expected);
    }
    let full = [4; 31];
    for (rank, expected) in [(SETTINGS_AT_LIMIT - 1, Ok(31)), (SETTINGS_AT_LIMIT, Err(8))] {
        both::word(g, &full, rank, 31).is(g, || format!("setting of rank {rank} where N is 2^62"), expected);
    }
}

/// Refusal 9.
fn rooms(g: &mut Group) {
    for (room, expected) in [(0, Err(9)), (1, Err(9)), (2, Ok(2)), (3, Ok(2))] {
        both::word(g, &TWO, 3, room).is(g, || format!("a setting in {room} bytes"), expected);
    }
    for (from, count, room, expected) in [
        (0, 6, 12, Ok(12)),
        (0, 6, 11, Err(9)),
        (2, 1, 1, Err(9)),
        (2, 1, 2, Ok(2)),
        (2, 1, 0, Err(9)),
        (2, 0, 0, Ok(0)),
        (6, 0, 0, Ok(0)),
    ] {
        both::list(g, &TWO, from, count, room).is(g, || format!("{count} settings from rank {from} in {room} bytes"), expected);
    }
    for (t, room, expected) in [
        (0, 9, Ok(9)),
        (0, 8, Err(9)),
        (0, 0, Err(9)),
        (4, 17, Ok(17)),
        (4, 16, Err(9)),
        (5, 28, Ok(28)),
        (5, 27, Err(9)),
        (5, 19, Err(9)),
    ] {
        both::log_write(g, &TWO, 1, t, room).is(g, || format!("a log of {t} moves in {room} bytes"), expected);
    }
    // The bytes to be written may be more than any number of 64 bits says.
    both::list(g, &[4; 31], 0, SETTINGS_AT_LIMIT, 100).is(g, || "2^62 settings in 100 bytes".into(), Err(9));
    both::list(g, &[[4; 14].as_slice(), &[2; 34]].concat(), 0, SETTINGS_AT_LIMIT, 100).is(
        g,
        || "2^62 settings of 48 bytes in 100 bytes".into(),
        Err(9),
    );
    both::log_write(g, &[4; 31], 1, SETTINGS_AT_LIMIT - 1, 100).is(g, || "a log of 2^62 - 1 moves in 100 bytes".into(), Err(9));
}

/// Refusal 9 of runs: t bytes are wanted, even where the walk ends sooner. Exactly the last move is no end yet.
fn rooms_of_runs(g: &mut Group) {
    let both_engines = [(Engine::Buffered(1), &TWO[..], 6), (Engine::Disks, &[1, 3, 3], 9)];
    for (engine, counts, size) in both_engines {
        for t in [0, 1, size - 2, size - 1, size, size + 1, 2 * size] {
            for room in [t, t + 1, t + 9] {
                let name = || format!("{engine:?}, {t} moves of {counts:?} in {room} bytes");
                both::run(g, engine, counts, t, room as usize).is(g, name, run_of(t, Ok(size)));
            }
        }
        for (t, room) in [(1, 0), (size - 1, size - 2), (size, size - 1), (2 * size, size), (size, 0)] {
            let name = || format!("{engine:?}, {t} moves of {counts:?} in {room} bytes");
            both::run(g, engine, counts, t, room as usize).is(g, name, Run::Refused(9));
        }
        for t in [255, 256, 1 << 16, 1 << 32, (1 << 32) + 3, 1 << 62, 1 << 63, u64::MAX] {
            let name = || format!("{engine:?}, {t} moves of {counts:?} in 20 bytes");
            both::run(g, engine, counts, t, 20).is(g, name, Run::Refused(9));
        }
    }
}

/// Refusal 10: the moves before it stand. Three two-notch sluices make seven with too small a buffer, and then run dry.
fn dry_runs(g: &mut Group) {
    for counts in [&[2, 2, 2][..], &[1, 2, 2, 1, 2], &[2, 1, 2, 2, 1, 1]] {
        for (t, capacity, room, expected) in [
            (6, 1, 6, Run::Made(6)),
            (7, 1, 7, Run::Made(7)),
            (8, 1, 8, Run::Stopped(7, 10)),
            (9, 1, 20, Run::Stopped(7, 10)),
            (8, 1, 7, Run::Refused(9)),
            (8, 2, 8, Run::Ended(7)),
            (8, 2, 7, Run::Refused(9)),
            (7, 2, 7, Run::Made(7)),
        ] {
            let name = || format!("a walk on {counts:?}, capacity {capacity}, {t} moves in {room} bytes");
            both::run(g, Engine::Buffered(capacity), counts, t, room).is(g, name, expected);
        }
    }
}

/// Refusal 11. The accepted neighbours are in `log_shapes`.
fn other_logs(g: &mut Group) {
    let mut wrong_end = END;
    wrong_end[8] = 6;
    let mut high_end = END;
    high_end[1] = 1;
    read(g, "the end is missing", Err(11), &[&START, &SLUICES, &MOVES]);
    read(g, "an end too early", Err(11), &[&START, &SLUICES, &MOVES[..8], &END]);
    read(g, "an end with no moves", Err(11), &[&START, &SLUICES, &END]);
    read(
        g,
        "an end with another number",
        Err(11),
        &[&START, &SLUICES, &MOVES, &wrong_end],
    );
    read(
        g,
        "an end with another high byte",
        Err(11),
        &[&START, &SLUICES, &MOVES, &high_end],
    );
    read(g, "a move too many", Err(11), &[&START, &SLUICES, &MOVES, &[3, 2]]);
    read(
        g,
        "a move too many and an end",
        Err(11),
        &[&START, &SLUICES, &MOVES, &[3, 2], &END],
    );
    read(g, "a wrong first move", Err(11), &[&START, &SLUICES, &[3, 2]]);
    read(g, "a wrong direction", Err(11), &[&START, &SLUICES, &[3, 0x81]]);
    read(
        g,
        "a wrong last move",
        Err(11),
        &[&START, &SLUICES, &MOVES[..8], &[3, 1], &END],
    );
    read(g, "move of sluice 0", Err(11), &[&START, &SLUICES, &[3, 0]]);
    read(g, "move of sluice n + 1", Err(11), &[&START, &SLUICES, &MOVES, &[3, 3]]);
    read(
        g,
        "moves beside another count",
        Err(11),
        &[&START, &[2, 1, 2, 2, 2, 3], &MOVES],
    );
}

/// Two or more apply: the lowest is given. Runs come with room for their moves and without, so that 9 applies besides.
fn combinations(g: &mut Group) {
    let over = [4; 32];
    let over_with_zero = [&over[..], &[0]].concat();
    for (name, counts, expected) in [
        ("2 with 3", vec![0; 49], 2),
        ("2 with 4", vec![2; 63], 2),
        ("2 with 3 and 4", [vec![255; 60], vec![0]].concat(), 2),
        ("2 with 3 and a locked one", [vec![1; 48], vec![0]].concat(), 2),
        ("3 with 4", over_with_zero.clone(), 3),
        ("3 with 4, the 0 first", [vec![0], vec![255; 20]].concat(), 3),
        ("3 among locked ones", [vec![1; 20], vec![0], vec![1; 27]].concat(), 3),
    ] {
        both::size(g, &counts).is(g, || name.into(), Err(expected));
    }
    for (name, counts, capacity, expected) in [
        ("2 with 5 in a walk", &[][..], 0, 2),
        ("3 with 5 in a walk", &[2, 0], 33, 3),
        ("4 with 5 in a walk", &over, 0, 4),
        ("5 with no room in a walk", &TWO, 0, 5),
        ("5 with no room in a walk, capacity 33", &TWO, 33, 5),
    ] {
        for room in [4, 3] {
            both::run(g, Engine::Buffered(capacity), counts, 4, room).is(g, || name.into(), Run::Refused(expected));
        }
    }
    for (name, counts, expected) in [
        ("2 with 6", &[[3; 40], [2; 40]].concat()[..], 2),
        ("3 with 6", &[3, 0, 4], 3),
        ("3, where all others are odd", &[3, 0, 5], 3),
        ("3, where all are even and equal", &[0, 0], 3),
        ("3, where all others are locked", &[1, 0, 1], 3),
        ("4 with 6", &[[200; 10], [3; 10]].concat(), 4),
        ("4, where all are odd", &[201; 20], 4),
        ("6 with no room", &TWO, 6),
    ] {
        for room in [4, 3] {
            both::run(g, Engine::Disks, counts, 4, room).is(g, || name.into(), Run::Refused(expected));
        }
    }
    for (name, counts, setting, expected) in [
        ("2 with 8 in a rank", &[][..], &[1_u8][..], 2),
        ("2 alone in a rank of the empty setting", &[], &[], 2),
        ("3 with 8 in a rank", &[0, 3], &[1, 3], 3),
        ("4 with 8 in a rank", &over, &[4], 4),
    ] {
        both::rank(g, counts, setting).is(g, || name.into(), Err(expected));
    }
    for (name, counts, rank, room, expected) in [
        ("2 with 8 and 9 in a setting", &[][..], 1, 0, 2),
        ("3 with 8 and 9 in a setting", &[0, 3], 9, 0, 3),
        ("4 with 8 and 9 in a setting", &over, u64::MAX, 0, 4),
        ("8 with 9 in a setting", &TWO, 6, 1, 8),
    ] {
        both::word(g, counts, rank, room).is(g, || name.into(), Err(expected));
        both::list(g, counts, rank, 1, room).is(g, || format!("{name}, as a list of one"), Err(expected));
    }
    for (name, counts, capacity, t, room, expected) in [
        ("2 with 5, 8 and 9 in a log", &[][..], 0, 9, 0, 2),
        ("3 with 5, 8 and 9 in a log", &[2, 0], 33, 9, 0, 3),
        ("4 with 5, 8 and 9 in a log", &over, 0, u64::MAX, 0, 4),
        ("4 with 8 and 9 in a log", &over, 1, u64::MAX, 0, 4),
        ("5 with 8 and 9 in a log", &TWO, 33, 6, 0, 5),
        ("5 with 8 in a log", &TWO, 0, 6, 99, 5),
        ("5 with 9 in a log", &TWO, 0, 5, 27, 5),
        ("8 with 9 in a log", &TWO, 1, 6, 0, 8),
    ] {
        both::log_write(g, counts, capacity, t, room).is(g, || name.into(), Err(expected));
    }
}

fn combinations_in_logs(g: &mut Group) {
    let wrong_move = [3, 0];
    read(g, "1 with 2: no sluice, yet a record", Err(1), &[&[1, 0, 1, 2, 1, 3]]);
    read(g, "1 with 2: 49 sluices said, no record", Err(1), &[&[1, 49, 1]]);
    read(
        g,
        "1 with 2: 49 sluices and half a move",
        Err(1),
        &[&opening(&[2; 49], 1), &[3]],
    );
    read(g, "1 with 3", Err(1), &[&opening(&[0, 2], 1), &[3]]);
    read(g, "1 with 4", Err(1), &[&opening(&[255; 9], 1), &[9]]);
    read(g, "1 with 5", Err(1), &[&opening(&TWO, 0), &[3]]);
    read(g, "1 with 11", Err(1), &[&START, &SLUICES, &wrong_move, &[7]]);
    read(g, "2 with 3", Err(2), &[&opening(&[0; 49], 1)]);
    read(g, "2 with 5", Err(2), &[&opening(&[], 0)]);
    read(g, "2 with 11", Err(2), &[&opening(&[], 1), &wrong_move]);
    read(g, "3 with 4", Err(3), &[&opening(&[[255; 9].as_slice(), &[0]].concat(), 1)]);
    read(g, "3 with 5", Err(3), &[&opening(&[0, 2], 0)]);
    read(g, "3 with 11", Err(3), &[&opening(&[0, 2], 1), &wrong_move]);
    read(
        g,
        "3 with 5 and 11, the others locked",
        Err(3),
        &[&opening(&[1, 0, 1], 0), &wrong_move],
    );
    read(g, "4 with 5", Err(4), &[&opening(&[255; 9], 33)]);
    read(g, "4 with 11", Err(4), &[&opening(&[255; 9], 1), &wrong_move]);
    read(g, "5 with 11", Err(5), &[&opening(&TWO, 33), &wrong_move]);
}
