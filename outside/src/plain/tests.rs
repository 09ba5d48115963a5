//! The plain calls answer what the library answers, refusals too. Single calls, which the library does not offer to C,
//! Algorithm H and the tides are held to the second program.
use super::engine::Digits;
use super::{algorithm_h, disks, list, log, tides, walk, words, Step};
use crate::capi::{self, Answer};
use crate::chance::Chance;
use crate::compare::tides::{damaged, some_tides, text};
use crate::run::Run;
use crate::second::{self, buffered, survey};
use crate::two_pass;
use std::fmt::Debug;

/// Surveys short enough to be walked, some of them faulty, half of them with locked digits, some with no others.
fn survey(chance: &mut Chance) -> Vec<u8> {
    let n = chance.pick(&[0, 1, 2, 3, 4, 5, 6, 20, 48, 49]);
    let (low, high) = chance.pick(&[(0, 255), (2, 2), (2, 4), (3, 3), (2, 255), (4, 4), (1, 1), (0, 3), (1, 3)]);
    let mut radices = chance.bytes(n, low, high);
    if chance.once_in(8) {
        radices.iter_mut().for_each(|m| *m |= 1);
    }
    if chance.once_in(2) {
        let times = chance.pick(&[2, 4, 12]);
        radices.iter_mut().filter(|_| chance.once_in(times)).for_each(|m| *m = 1);
    }
    radices
}

/// The least capacity that never runs dry.
fn enough(radices: &[u8]) -> usize {
    let moving = radices.iter().filter(|&&m| m > 1).count();
    moving.div_ceil(2).max(1)
}

/// Both calls on memory that holds the same bytes: the same answers and bytes.
fn alike<A: PartialEq + Debug>(room: usize, ours: impl Fn(&mut [u8]) -> A, plain: impl Fn(&mut [u8]) -> A) -> Vec<u8> {
    let (mut a, mut b) = (vec![0xaa; room], vec![0xaa; room]);
    assert_eq!((ours(&mut a), &a), (plain(&mut b), &b));
    a
}

/// A run of either engine from the start against the library's.
fn engines_alike(radices: &[u8], capacity: usize, t: u64, room: usize) {
    alike(
        room,
        |out| capi::moves(radices, capacity, t, out),
        |out| walk::run(radices, capacity, t, out),
    );
    alike(room, |out| capi::towers(radices, t, out), |out| disks::run(radices, t, out));
}

#[test]
fn words_are_alike() {
    let mut chance = Chance::new(1);
    for _ in 0..20_000 {
        let radices = survey(&mut chance);
        assert_eq!(capi::size(&radices), words::size(&radices));
        let rank = chance.below(capi::size(&radices).unwrap_or(9) + 2);
        let room = radices.len() + chance.between(0, 2) - chance.between(0, 1).min(radices.len());
        let mut word = alike(
            room,
            |out| capi::word(&radices, rank, out),
            |out| words::word(&radices, rank, out),
        );
        if chance.once_in(4) && !word.is_empty() {
            let place = chance.between(0, word.len() - 1);
            word[place] = chance.byte(0, 255);
        }
        for rank in [capi::rank, two_pass::rank] {
            assert_eq!(rank(&radices, &word), words::rank(&radices, &word));
        }
    }
}

#[test]
fn lists_are_alike() {
    let mut chance = Chance::new(2);
    for _ in 0..4_000 {
        let radices = survey(&mut chance);
        let from = chance.below(capi::size(&radices).unwrap_or(9) + 2);
        let count = chance.below(300);
        let room = (count as usize * radices.len() + 1).saturating_sub(chance.between(0, 2));
        alike(
            room,
            |out| capi::list(&radices, from, count, out),
            |out| list::list(&radices, from, count, out),
        );
    }
}

#[test]
fn engines_are_alike() {
    let mut chance = Chance::new(3);
    for _ in 0..2_500 {
        let radices = survey(&mut chance);
        let t = chance.between(0, 1_500);
        let room = (t + chance.pick(&[0, 0, 1, 2, 9])).saturating_sub(chance.between(0, 1));
        let capacity = enough(&radices) + chance.between(0, 2) - 1 + 40 * usize::from(chance.once_in(20));
        engines_alike(&radices, capacity, t as u64, room);
    }
}

/// The second program's answer to a single call, as the plain ones give it.
fn step(answer: second::Answer) -> Step {
    match answer {
        second::Answer::Moved(change, notch) => Step::Moved(change.byte(), notch),
        second::Answer::End => Step::End,
        second::Answer::Refused(number) => Step::Refused(number),
    }
}

/// Two engines opened on one survey: refused alike, or 300 calls of each answer the same.
fn steps_alike<P, S>(
    (plain, other): (Result<P, u8>, Result<S, u8>),
    plain_step: impl Fn(&mut P) -> Step,
    other_step: impl Fn(&mut S) -> second::Answer,
) {
    match (plain, other) {
        (Ok(mut plain), Ok(mut other)) => {
            (0..300).for_each(|_| assert_eq!(plain_step(&mut plain), step(other_step(&mut other))));
        }
        (plain, other) => assert_eq!(plain.err(), other.err()),
    }
}

/// Single calls name the sluice, the direction and the notch; some walks run dry, some come to their end.
#[test]
fn single_calls_are_alike() {
    let mut chance = Chance::new(10);
    for _ in 0..1_000 {
        let radices = survey(&mut chance);
        let capacity = (enough(&radices) + chance.between(0, 1) - 1).clamp(1, 32);
        let walks = (walk::Walk::open(&radices, capacity), buffered::Walk::open(&radices, capacity));
        steps_alike(walks, walk::Walk::step, buffered::Walk::step);
        let games = (disks::Disks::open(&radices), second::disks::Disks::open(&radices));
        steps_alike(games, disks::Disks::step, second::disks::Disks::step);
    }
}

/// A walk cut into runs makes the moves of one run, and comes out as that does.
#[test]
fn runs_go_on_where_the_last_one_stopped() {
    let mut chance = Chance::new(7);
    for _ in 0..1_000 {
        let radices = survey(&mut chance);
        let capacity = (enough(&radices) + chance.between(0, 1) - 1).clamp(1, 32);
        let Ok(mut walk) = walk::Walk::open(&radices, capacity) else {
            continue;
        };
        let (mut whole, mut cut) = ([0xaa; 900], [0xaa; 900]);
        let outcome = walk::run(&radices, capacity, 900, &mut whole);
        let mut made = 0;
        let last = loop {
            let t = chance.between(0, 300).min(900 - made);
            let run = walk.run(t as u64, &mut cut[made..]);
            made += run.moves() as usize;
            if made == 900 || !matches!(run, Run::Made(_)) {
                break run;
            }
        };
        assert_eq!((made as u64, cut), (outcome.moves(), whole), "{radices:?}");
        match (last, outcome) {
            (Run::Made(_), Run::Made(_)) | (Run::Ended(_), Run::Ended(_)) => (),
            (Run::Stopped(_, 10), Run::Stopped(_, 10)) => (),
            other => panic!("{radices:?}: {other:?}"),
        }
    }
}

/// A word of the survey, near its end or anywhere; now and then one that is too long, too short, or has too high a digit.
fn some_word(chance: &mut Chance, radices: &[u8]) -> Vec<u8> {
    let mut word = vec![0; radices.len()];
    if let Ok(size) = survey::size(radices) {
        let (late, any) = (size - 1 - chance.below(size.min(300)), chance.below(size));
        word = survey::setting(radices, chance.pick(&[late, any]));
    }
    let place = chance.between(0, radices.len());
    match chance.below(12) {
        0 => word.insert(place, 0),
        1 if place < word.len() => _ = word.remove(place),
        2 if place < word.len() => word[place] = chance.pick(&[radices[place], 255]),
        _ => (),
    }
    word
}

/// Runs from a word come out as the library's and the second program's do.
#[test]
fn resumed_runs_are_alike() {
    let mut chance = Chance::new(9);
    for _ in 0..4_000 {
        let radices = survey(&mut chance);
        let word = some_word(&mut chance, &radices);
        let t = chance.between(0, 400);
        let room = (t + chance.pick(&[0, 0, 1, 2, 9])).saturating_sub(chance.between(0, 1));
        let capacity = enough(&radices) + chance.between(0, 2) - 1 + 40 * usize::from(chance.once_in(20));
        let plain = |out: &mut [u8]| walk::resumed_run(&radices, capacity, &word, t as u64, out);
        alike(
            room,
            |out| capi::resume_moves(&radices, capacity, &word, t as u64, out),
            plain,
        );
        let (outcome, bytes) = buffered::resumed_moves(&radices, capacity, &word, t as u64, room);
        let mut out = vec![0xaa; room];
        assert_eq!((plain(&mut out), &out[..bytes.len()]), (outcome, &bytes[..]), "{radices:?}");
    }
}

/// From every word of 2 3: its moves are those of the whole run that are left.
#[test]
fn resumed_runs_end_the_list() {
    let moves = [1, 1, 2, 0x81, 0x81];
    for (rank, word) in [[0, 0], [0, 1], [0, 2], [1, 2], [1, 1], [1, 0]].iter().enumerate() {
        for capacity in [1, 2, 32] {
            let mut out = [0; 6];
            let run = walk::resumed_run(&[2, 3], capacity, word, 6, &mut out);
            assert_eq!((run, &out[..5 - rank]), (Run::Ended(5 - rank as u64), &moves[rank..]));
        }
    }
}

/// A state that comes to N moves, one more than the list has, makes no other.
#[test]
fn runs_stop_at_n_moves() {
    let late = || {
        let mut walk = walk::Walk::open(&[2, 3], 1).expect("a survey that is accepted");
        walk.set_moves(4);
        walk
    };
    assert_eq!(late().run(2, &mut [0; 2]), Run::Made(2));
    let mut walk = late();
    assert_eq!(walk.run(3, &mut [0; 3]), Run::Stopped(2, 7));
    assert_eq!(walk.run(0, &mut []), Run::Refused(7));
    walk.set_moves(6);
    assert_eq!(walk.run(1, &mut []), Run::Refused(7));
}

/// Both forms by both compilers, at t on either side of the end.
#[test]
fn algorithm_h_lists_the_moves() {
    let mut chance = Chance::new(8);
    for _ in 0..1_000 {
        let radices = survey(&mut chance);
        let Ok(size) = survey::size(&radices) else { continue };
        let moves = survey::move_bytes(&radices, (size - 1).min(300));
        let last = moves.len() + if size <= 300 { 3 } else { 0 };
        for t in [0, 1, 2, chance.between(0, last), last.saturating_sub(4), last].map(|t| t.min(last)) {
            for h in [algorithm_h::LITERAL, algorithm_h::TUNED].iter().flatten() {
                let mut out = [0xaa; 400];
                let made = h.run(&radices, t as u64, &mut out) as usize;
                assert_eq!((made, &out[..made]), (t.min(moves.len()), &moves[..made]), "{radices:?}");
                assert!(out[made..].iter().all(|&byte| byte == 0xaa), "{radices:?}");
            }
        }
    }
}

/// A call that finds the queue empty leaves the state as it was: the next one does too.
#[test]
fn dry_walks_stay_dry() {
    let mut chance = Chance::new(6);
    let mut dry = 0;
    for _ in 0..2_000 {
        let radices = survey(&mut chance);
        let Ok(mut walk) = walk::Walk::open(&radices, 1) else {
            continue;
        };
        if matches!(walk.run(1_000, &mut [0; 1_000]), Run::Stopped(..)) {
            assert!((0..3).all(|_| walk.run(2, &mut [0; 2]) == Run::Stopped(0, 10)), "{radices:?}");
            dry += 1;
        }
    }
    assert!(dry > 200);
}

#[test]
fn logs_are_alike() {
    let mut chance = Chance::new(4);
    for _ in 0..10_000 {
        let radices = survey(&mut chance);
        let capacity = chance.between(0, 33);
        let most = capi::size(&radices).unwrap_or(9).min(300);
        let moves = if chance.once_in(2) { most - 1 } else { chance.below(most + 2) };
        let room = 3 + 3 * radices.len() + 2 * moves as usize + chance.between(0, 20);
        let ours = |out: &mut [u8]| capi::log_write(&radices, capacity, moves, out);
        let written = alike(room, ours, |out| log::write(&radices, capacity, moves, out));
        let length = ours(&mut written.clone()).map_or(room, |length| length as usize);
        let mut bytes = written[..length.saturating_sub(chance.pick(&[0, 0, 1, 2, 9]))].to_vec();
        if chance.once_in(2) && !bytes.is_empty() {
            let place = chance.between(0, bytes.len() - 1);
            bytes[place] = chance.byte(0, 5);
        }
        assert_eq!(capi::log_read(&bytes), log::read(&bytes), "{bytes:?}");
    }
}

/// Of every length at any capacity: one setting, no move, and a log that is whole with none.
#[test]
fn all_locked() {
    for n in 1..=48 {
        let radices = vec![1; n];
        assert_eq!((words::size(&radices), words::rank(&radices, &vec![0; n])), (Ok(1), Ok(0)));
        alike(
            n + 1,
            |out| capi::list(&radices, 0, 1, out),
            |out| list::list(&radices, 0, 1, out),
        );
        assert!(!refused(&radices, 2, |_| ()) && refused(&radices, 0, |digits| digits.n = 0));
        for capacity in [1, 2, 32] {
            engines_alike(&radices, capacity, 3, 3);
            assert_eq!(walk::run(&radices, capacity, 3, &mut [0; 3]), Run::Ended(0));
            let room = 3 + 3 * n + 9;
            let ours = |out: &mut [u8]| capi::log_write(&radices, capacity, 0, out);
            let log = alike(room, ours, |out| log::write(&radices, capacity, 0, out));
            assert_eq!((capi::log_read(&log), log::read(&log)), (Ok(0), Ok(0)));
            let cut = &log[..room - 9];
            assert_eq!((capi::log_read(cut), log::read(cut)), (Err(11), Err(11)));
        }
    }
}

/// The ends of what refusals 2 to 6 leave, with the answers as document 01 has them.
#[test]
fn refused_at_the_bounds() {
    let mut largest = [2; 48];
    largest[..14].fill(4);
    let sizes: [(&[u8], Answer); 10] = [
        (&[], Err(2)),
        (&[1; 48], Ok(1)),
        (&[1; 49], Err(2)),
        (&[0; 49], Err(2)),
        (&[0], Err(3)),
        (&[1], Ok(1)),
        (&[1, 0, 255], Err(3)),
        (&[255, 1, 2], Ok(510)),
        (&largest, Ok(1 << 62)),
        (&[64, 49, 31, 43, 1, 53, 97, 103, 103, 113, 179], Err(4)),
    ];
    for (radices, size) in sizes {
        assert_eq!((capi::size(radices), words::size(radices)), (size, size), "{radices:?}");
        for capacity in [0, 1, 32, 33] {
            engines_alike(radices, capacity, 100, 100);
            let opened = if capacity % 33 == 0 { size.and(Err(5)) } else { size };
            assert_eq!(walk::Walk::open(radices, capacity).err(), opened.err(), "{radices:?}");
        }
    }
    let games: [(&[u8], Option<u8>); 6] = [
        (&[2, 1, 4], Some(6)),
        (&[2, 1, 3], Some(6)),
        (&[4, 1, 4], None),
        (&[1, 2], None),
        (&[3, 1, 5], None),
        (&[1, 1], None),
    ];
    for (radices, refusal) in games {
        assert_eq!(disks::Disks::open(radices).err(), refusal, "{radices:?}");
        engines_alike(radices, 2, 100, 99);
    }
}

/// A change by which a state leaves its range, given the index of a digit.
type Spoiling = fn(&mut Digits, usize);

/// Of a survey in which two digits move at the least, whatever the digit; of a digit that moves; of one that is locked.
const OF_ANY: [Spoiling; 8] = [
    |digits, _| digits.n = 0,
    |digits, _| digits.n = 49,
    |digits, _| digits.moving.count += 1,
    |digits, _| digits.moving.count -= 1,
    |digits, _| digits.moving.indices[0] ^= 1,
    |digits, _| digits.moving.indices[1] = digits.moving.indices[0],
    |digits, _| digits.moving.indices.swap(0, 1),
    // The last that moves, left behind past digit n.
    |digits, _| {
        digits.moving.count -= 1;
        digits.n = digits.at_place(digits.moving.count);
    },
];
const OF_MOVING: [Spoiling; 6] = [
    |digits, moving| digits.n = moving,
    |digits, moving| digits.radices[moving] = 0,
    |digits, moving| digits.radices[moving] = 1,
    |digits, moving| digits.word[moving] = digits.radices[moving],
    |digits, moving| (digits.word[moving], digits.downs[moving]) = (0, true),
    |digits, moving| (digits.word[moving], digits.downs[moving]) = (digits.radices[moving] - 1, false),
];
const OF_LOCKED: [Spoiling; 5] = [
    |digits, locked| digits.moving.indices[1] = locked as u8,
    |digits, locked| digits.radices[locked] = 0,
    |digits, locked| digits.radices[locked] = 3,
    |digits, locked| digits.word[locked] = 1,
    |digits, locked| digits.downs[locked] = true,
];

/// Whether both engines refuse their states, changed after some moves; panics where one alone does.
fn refused(radices: &[u8], moves: usize, change: impl Fn(&mut Digits)) -> bool {
    let mut walk = walk::Walk::open(radices, enough(radices)).expect("a survey that is accepted");
    let mut disks = disks::Disks::open(radices).expect("a survey that is accepted");
    let mut out = vec![0; moves];
    for run in [walk.run(moves as u64, &mut out), disks.run(moves as u64, &mut out)] {
        assert!(matches!(run, Run::Made(_) | Run::Ended(_)));
    }
    change(walk.digits());
    change(disks.digits());
    let refusals = [walk.run(0, &mut []), disks.run(0, &mut [])].map(|run| run == Run::Refused(7));
    assert!(refusals[0] == refusals[1], "{radices:?}");
    refusals[0]
}

fn refused_spoilt(radices: &[u8], moves: usize, spoilings: &[Spoiling], digit: usize) {
    for spoil in spoilings {
        assert!(refused(radices, moves, |digits| spoil(digits, digit)), "{radices:?}");
    }
}

#[test]
fn spoilt_states_are_refused() {
    let mut chance = Chance::new(5);
    for _ in 0..1_000 {
        let n = chance.between(3, 39);
        let moves = chance.between(0, 50);
        let mut places: Vec<usize> = (0..n).collect();
        chance.shuffle(&mut places);
        let [locked, moving, other] = [places[0], places[1], places[2]];
        let mut some = chance.bytes(n, 0, 1);
        some[locked] = 0;
        some[moving] = 1;
        some[other] = 1;
        // All that move have two notches, or all three: so both engines can be opened.
        for more in [1, 2] {
            let radices: Vec<u8> = some.iter().map(|&moves| 1 + more * moves).collect();
            refused_spoilt(&radices, moves, &OF_ANY, 0);
            refused_spoilt(&radices, moves, &OF_MOVING, n - 1 - moving);
            refused_spoilt(&radices, moves, &OF_LOCKED, n - 1 - locked);
            let all = vec![1 + more; n];
            refused_spoilt(&all, moves, &OF_ANY, 0);
            refused_spoilt(&all, moves, &OF_MOVING, n - 1 - moving);
            // What stands after the digits that move is nothing.
            for radices in [radices, all] {
                let unused = |digits: &mut Digits| digits.moving.indices[digits.moving.count..].fill(0xff);
                assert!(!refused(&radices, moves, unused));
            }
        }
    }
}

/// N of a state, on both sides of its limit and where 64 bits do not hold it.
#[test]
fn states_have_sizes() {
    let changed_to = |m: u8| move |digits: &mut Digits| digits.radices[..digits.n].fill(m);
    assert!(!refused(&[2; 31], 0, changed_to(4)));
    assert!(!refused(&[2; 39], 0, changed_to(3)));
    assert!(refused(&[2; 40], 0, changed_to(3)));
    assert!(refused(&[2; 48], 0, changed_to(3)));
    assert!(refused(&[2; 32], 0, changed_to(4)));
}

/// Every way to count, on places that held the same, and to ask for a minute: lines read byte by byte, and on words.
fn tides_alike(file: &[u8], room: usize, minute: u64) {
    let mut expected = vec![0xaaaa_aaaa; room];
    let answer = second::tides::counts(file, room).map(|counts| {
        expected[..counts.len()].copy_from_slice(&counts);
        counts.len() as u64
    });
    for counts in [tides::counts, tides::counts_in_two_passes, tides::counts_on_words] {
        let mut out = vec![0xaaaa_aaaa; room];
        assert_eq!(
            (counts(file, &mut out), out),
            (answer, expected.clone()),
            "{}",
            file.escape_ascii()
        );
    }
    let begins = second::tides::may_begin(file, minute);
    for may_begin in [tides::may_begin, tides::may_begin_on_words] {
        assert_eq!(may_begin(file, minute), begins, "{}, at {minute}", file.escape_ascii());
    }
}

/// Good files and faulty ones, at minutes near the end of a window and past all.
#[test]
fn tides_are_alike() {
    let mut chance = Chance::new(11);
    for _ in 0..20_000 {
        let mut file = text(&some_tides(&mut chance, 20));
        if chance.once_in(2) {
            file = damaged(&mut chance, file);
        }
        let windows = second::tides::windows(&file).unwrap_or_default();
        let room = (windows.len() + chance.between(0, 2)).saturating_sub(1);
        let far = chance.pick(&[0, 60, 1 << 32, u64::MAX - 4, u64::MAX - 3, u64::MAX]);
        tides_alike(&file, room, far);
        for window in windows {
            let minute = chance.pick(&[
                window.from,
                window.from - 1,
                window.to.saturating_sub(4),
                window.to - 1,
                window.to,
            ]);
            tides_alike(&file, room, minute + chance.pick(&[0, 0, 0, 1, 1 << 32]));
        }
    }
}

/// Each date of the century, and each text like one that is none.
#[test]
fn dates_are_alike() {
    let mut minute = 60;
    for year in 1999..=2100 {
        for (month, day) in (0..=13).flat_map(|month| (0..=32).map(move |day| (month, day))) {
            let file = format!("{year}-{month:02}-{day:02},00:00,H\n{year}-{month:02}-{day:02},01:04,L\n");
            tides_alike(file.as_bytes(), 1, minute);
            minute += if tides::may_begin(file.as_bytes(), minute) == Ok(true) {
                1440
            } else {
                0
            };
        }
    }
    assert_eq!(minute, 60 + 36_525 * 1440);
}

/// Each minute of a day, and each text like one that is none.
#[test]
fn times_are_alike() {
    for (hour, minute) in (0..100).flat_map(|hour| (0..100).map(move |minute| (hour, minute))) {
        let file = format!("2031-04-07,{hour:02}:{minute:02},H\n2031-04-09,00:00,L\n");
        tides_alike(file.as_bytes(), 1, 16_443_420 + 60 * hour + minute);
    }
}

/// Each byte of a line changed to each other value.
#[test]
fn lines_are_alike() {
    let good = b"2031-04-07,05:12,H\n2031-04-07,11:12,L\n2031-04-07,17:30,H\n";
    for place in 0..good.len() {
        let mut file = *good;
        for value in 0..=255 {
            file[place] = value;
            tides_alike(&file, 1, 16_443_732);
        }
        tides_alike(&good[..place], 1, 16_443_732);
        tides_alike(&good[place..], 1, 16_443_732);
    }
}
