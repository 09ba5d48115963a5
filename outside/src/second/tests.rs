//! Document 01's cases, and those of document 02, requests 3, 4, 6 and 8.
use super::buffered::{self, Walk};
use super::disks::Disks;
use super::sluices::Sluices;
use super::survey::{list, moving, rank, run, setting, size, Change};
use super::{disks, log, text, Answer};
use crate::run::Run;

/// A setting or a survey of one-digit numbers.
fn digits(text: &str) -> Vec<u8> {
    text.bytes().map(|digit| digit - b'0').collect()
}

/// Sluices removed and s after each call until it does not move: n + 1 stands for the end, 0 for dry.
fn removals(counts: &[u8], capacity: usize) -> Vec<(usize, u64)> {
    let mut walk = Walk::open(counts, capacity).unwrap();
    let mut all = vec![];
    loop {
        match walk.step() {
            Answer::Moved(change, _) => all.push((change.sluice.into(), walk.steps)),
            Answer::End => return [all, vec![(counts.len() + 1, walk.steps)]].concat(),
            Answer::Refused(number) => {
                assert_eq!(number, 10);
                return [all, vec![(0, walk.steps)]].concat();
            }
        }
    }
}

#[test]
fn lists() {
    assert_eq!(list(&[2, 3]), ["00", "01", "02", "12", "11", "10"].map(digits));
    assert_eq!(rank(&[3; 4], &digits("0122")), Ok(9));
    assert_eq!(rank(&[2; 6], &digits("110011")), Ok(34));
    assert_eq!(rank(&[2; 6], &digits("110010")), Ok(35));
    let from = rank(&[3; 6], &digits("211102")).unwrap();
    assert_eq!(
        [1, 2, 3].map(|k| setting(&[3; 6], from + k)),
        ["211101", "211100", "211200"].map(digits)
    );
    for (r, word) in list(&[3, 2, 5, 4]).iter().enumerate() {
        assert_eq!(
            (rank(&[3, 2, 5, 4], word), &setting(&[3, 2, 5, 4], r as u64)),
            (Ok(r as u64), word)
        );
    }
    assert_eq!((run(&[2, 3], 6, 0, 0), run(&[2, 3], 6, 1, 2)), (Ok(vec![]), Err(8)));
}

#[test]
fn buffered_walks() {
    assert_eq!(removals(&[2, 3], 1), [(1, 1), (1, 3), (2, 4), (1, 5), (1, 7), (3, 9)]);
    let whole = removals(&[2; 3], 2);
    assert_eq!((whole.len(), whole[7]), (8, (4, 16)));
    let dry = removals(&[2; 3], 1);
    assert_eq!((dry.len(), dry[7].0), (8, 0));
}

#[test]
fn openings() {
    assert_eq!(
        [0, 1, 48, 49].map(|n| size(&vec![2; n]).err()),
        [Some(2), None, None, Some(2)]
    );
    assert_eq!([0, 1, 2, 255].map(|m| size(&[m]).err()), [Some(3), None, None, None]);
    assert_eq!([32, 33].map(|c| Walk::open(&[2], c).err()), [None, Some(5)]);
    assert_eq!([[2, 4], [3, 5]].map(|counts| Disks::open(&counts).err()), [Some(6), None]);
}

#[test]
fn openings_with_locked_sluices() {
    assert_eq!(
        [[1, 2, 2], [1, 2, 4], [2, 1, 3], [3, 1, 5], [1, 1, 1]].map(|counts| Disks::open(&counts).err()),
        [None, Some(6), Some(6), None, None]
    );
    assert_eq!([[1, 1], [1, 0], [0, 1]].map(|counts| size(&counts)), [Ok(1), Err(3), Err(3)]);
    assert_eq!([48, 49].map(|n| size(&vec![1; n])), [Ok(1), Err(2)]);
    assert_eq!(
        [0, 1, 32, 33].map(|c| Walk::open(&[1], c).err()),
        [Some(5), None, None, Some(5)]
    );
    assert_eq!(moving(&[2, 1, 3]), [1, 3]);
    let fresh = Walk::open(&[2, 1, 3], 1).unwrap().sluices;
    assert_eq!((fresh.n, fresh.moving, &fresh.number[..3]), (3, 2, &[1, 3, 0][..]));
}

/// A sluice that moves up to notch 1.
fn up(sluice: u8) -> Answer {
    Answer::Moved(Change { sluice, down: false }, 1)
}

#[test]
fn one_moves_between_two_locked() {
    assert_eq!(list(&[1, 2, 1]), ["000", "010"].map(digits));
    let (mut walk, mut disks) = (Walk::open(&[1, 2, 1], 1).unwrap(), Disks::open(&[1, 2, 1]).unwrap());
    assert_eq!((walk.step(), disks.step()), (up(2), up(2)));
    assert_eq!(
        (walk.sluices.digit[..3].to_vec(), walk.sluices.down[1]),
        (vec![0, 1, 0], true)
    );
    assert_eq!(disks.sluices, walk.sluices);
    // One disk, clockwise on a ring of three pegs, though its sluice's number is even.
    assert_eq!((disks.peg[0], disks.turn), (1, 1));
    assert_eq!((walk.step(), disks.step()), (Answer::End, Answer::End));
    assert_eq!((walk.moves, walk.ended), (1, true));
}

/// The first call is the end: one useful step makes its entry, the next is idle at the counter's last place.
#[test]
fn all_locked() {
    for n in [1, 2, 48] {
        let mut walk = Walk::open(&vec![1; n], 1).unwrap();
        assert_eq!((walk.step(), walk.steps, walk.counter[0], walk.place), (Answer::End, 1, 1, 1));
        let ended = walk.clone();
        assert_eq!((walk.step(), walk), (Answer::End, ended));
        let mut disks = Disks::open(&vec![1; n]).unwrap();
        let fresh = disks.clone();
        assert_eq!((disks.step(), &disks), (Answer::End, &fresh));
        disks.turn = 1;
        assert_eq!(disks.step(), Answer::End);
        disks.turn = 2;
        assert_eq!(disks.step(), Answer::Refused(7));
    }
}

/// Three two-notch sluices as in document 01, two locked ones among them.
#[test]
fn the_buffer_counts_moving_sluices() {
    let counts = [2, 1, 2, 1, 2];
    let whole = removals(&counts, 2);
    assert_eq!((whole.len(), whole[3], whole[7].1), (8, (5, 8), 16));
    let dry = removals(&counts, 1);
    assert_eq!((dry.len(), dry[7].0), (8, 0));
}

/// Whether a walk's and the disks' state on counts 2 1 2 are in range once these sluices have been changed.
fn in_range(change: impl Fn(&mut Sluices)) -> [bool; 2] {
    let (mut walk, mut disks) = (Walk::open(&[2, 1, 2], 1).unwrap(), Disks::open(&[2, 1, 2]).unwrap());
    change(&mut walk.sluices);
    change(&mut disks.sluices);
    [walk.step(), disks.step()].map(|answer| answer != Answer::Refused(7))
}

#[test]
fn ranges_with_locked_sluices() {
    assert_eq!(in_range(|_| ()), [true; 2]);
    assert_eq!(in_range(|sluices| sluices.number[2] = 255), [true; 2]);
    for wrong in [
        &[][..],
        &[1],
        &[3],
        &[3, 1],
        &[1, 2],
        &[2, 3],
        &[1, 1],
        &[1, 4],
        &[1, 2, 3],
        &[1, 3, 0],
        &[1, 3, 4],
    ] {
        assert_eq!(in_range(|sluices| sluices.set_moving(wrong)), [false; 2]);
    }
    for moving in [0, 1, 3, 48, 49, 255] {
        assert_eq!(in_range(|sluices| sluices.moving = moving), [false; 2]);
    }
    assert_eq!(in_range(|sluices| sluices.down[1] = true), [false; 2]);
    assert_eq!(in_range(|sluices| sluices.digit[1] = 1), [false; 2]);
    assert_eq!(in_range(|sluices| sluices.radix[1] = 2), [false; 2]);
    assert_eq!(in_range(|sluices| sluices.radix[2] = 1), [false; 2]);
    let unlocked = |sluices: &mut Sluices| {
        sluices.radix[1] = 2;
        sluices.set_moving(&[1, 2, 3]);
    };
    let locked = |sluices: &mut Sluices| {
        sluices.radix[2] = 1;
        sluices.set_moving(&[1]);
    };
    assert_eq!((in_range(unlocked), in_range(locked)), ([true; 2], [true; 2]));
}

#[test]
fn disks_follow_the_list() {
    let without_locked = [&[3, 5, 3][..], &[4, 4, 4], &[2; 7], &[6, 6], &[7]];
    let with_locked = [
        &[1, 3, 1, 5, 3][..],
        &[4, 1, 4, 4, 1],
        &[2, 2, 1, 2, 1, 1, 2],
        &[6, 1, 6],
        &[7, 1],
        &[1, 1],
    ];
    for counts in without_locked.iter().chain(&with_locked) {
        let size = size(counts).unwrap();
        let whole = (Run::Ended(size - 1), super::survey::move_bytes(counts, size - 1));
        assert_eq!(disks::moves(counts, size, size as usize), whole);
        assert_eq!(buffered::moves(counts, 32, size, size as usize), whole);
    }
}

/// Along the whole list each move of either engine names its sluice's entry in the setting that it reaches; an end names none.
#[test]
fn moves_name_their_notch() {
    for counts in [&[2, 1, 3][..], &[4, 1, 4, 4], &[3, 5, 1, 3], &[255, 2], &[1, 2, 2, 2], &[1, 1]] {
        let (mut walk, mut disks) = (Walk::open(counts, 32).unwrap(), Disks::open(counts));
        for setting in &list(counts)[1..] {
            let answer = walk.step();
            let Answer::Moved(change, notch) = answer else {
                panic!("{counts:?}: {answer:?}")
            };
            assert_eq!(notch, setting[counts.len() - usize::from(change.sluice)]);
            assert!(disks.iter_mut().all(|disks| disks.step() == answer));
        }
        assert_eq!(walk.step(), Answer::End);
        assert!(disks.iter_mut().all(|disks| disks.step() == Answer::End));
    }
}

/// The move bytes of the survey 2 3.
const MOVES_OF_TWO: [u8; 5] = [1, 1, 2, 0x81, 0x81];

/// Exactly the last move is no end yet; room for t bytes is wanted even past it.
#[test]
fn runs_from_the_start() {
    for (t, room, outcome) in [
        (0, 0, Run::Made(0)),
        (3, 3, Run::Made(3)),
        (5, 9, Run::Made(5)),
        (6, 6, Run::Ended(5)),
        (6, 5, Run::Refused(9)),
        (1, 0, Run::Refused(9)),
        (u64::MAX, 9, Run::Refused(9)),
    ] {
        let bytes = MOVES_OF_TWO[..outcome.moves() as usize].to_vec();
        assert_eq!(buffered::moves(&[2, 3], 1, t, room), (outcome, bytes));
    }
    assert_eq!(disks::moves(&[1, 3], 3, 3), (Run::Ended(2), vec![1, 1]));
    assert_eq!(disks::moves(&[1, 1], 0, 0), (Run::Made(0), vec![]));
    assert_eq!(buffered::moves(&[1, 1], 1, 1, 1), (Run::Ended(0), vec![]));
    assert_eq!(buffered::moves(&[2, 2, 2], 1, 9, 9).0, Run::Stopped(7, 10));
}

#[test]
fn refused_runs_from_the_start() {
    for (counts, capacity, number) in [
        (&[][..], 0, 2),
        (&[2, 0], 0, 3),
        (&[255; 9], 0, 4),
        (&[2], 0, 5),
        (&[2], 1, 9),
    ] {
        assert_eq!(buffered::moves(counts, capacity, 1, 0), (Run::Refused(number), vec![]));
    }
    for (counts, number) in [(&[][..], 2), (&[2, 0], 3), (&[254; 9], 4), (&[2, 3], 6), (&[3], 9)] {
        assert_eq!(disks::moves(counts, 1, 0), (Run::Refused(number), vec![]));
    }
}

/// The state after a run, and how it came out, where it begins with this one.
fn after_run(mut walk: Walk, t: u64, room: usize) -> (Run, Walk) {
    (walk.run(t, room).0, walk)
}

/// A dry call and a state that comes to j = N stop a run after its moves; what is refused as a whole changes nothing.
#[test]
fn runs_that_stop() {
    let mut dry = Walk::open(&[2, 2, 2], 1).unwrap();
    (0..7).for_each(|_| _ = dry.step());
    let fresh = Walk::open(&[2, 2, 2], 1).unwrap();
    assert_eq!(after_run(fresh, 8, 8), (Run::Stopped(7, 10), dry.clone()));
    assert_eq!(after_run(dry.clone(), 8, 8), (Run::Stopped(0, 10), dry.clone()));
    assert_eq!(after_run(dry.clone(), 0, 0), (Run::Made(0), dry));
    let mut late = Walk::open(&[2, 3], 1).unwrap();
    late.moves = 4;
    let (outcome, past) = after_run(late.clone(), 3, 3);
    assert_eq!((outcome, past.moves, past.sluices.digit[0]), (Run::Stopped(2, 7), 6, 2));
    assert_eq!(after_run(late, 2, 2), (Run::Made(2), past.clone()));
    for (t, room) in [(0, 0), (1, 1), (1, 0)] {
        assert_eq!(after_run(past.clone(), t, room), (Run::Refused(7), past.clone()));
    }
}

/// The ending call's state is handed back; an ended walk makes no move, and none is what it may be asked for.
#[test]
fn runs_to_the_end() {
    let mut ended = Walk::open(&[2, 3], 1).unwrap();
    (0..6).for_each(|_| _ = ended.step());
    let fresh = Walk::open(&[2, 3], 1).unwrap();
    assert_eq!(after_run(fresh, 9, 9), (Run::Ended(5), ended.clone()));
    for (t, room, outcome) in [(0, 0, Run::Made(0)), (4, 4, Run::Ended(0)), (4, 3, Run::Refused(9))] {
        assert_eq!(after_run(ended.clone(), t, room), (outcome, ended.clone()));
    }
}

/// Queue and counter of a picked-up walk, the counter's first place first.
type Ahead<'a> = (&'a [u8], [u8; 3]);

/// Every setting of 2 3, worked by hand: queue and counter after the filling, for three capacities.
#[test]
fn picked_up_states() {
    let states: [(&str, u64, [bool; 2], [Ahead; 3]); 6] = [
        (
            "00",
            0,
            [false, false],
            [(&[1], [1, 0, 0]), (&[1, 1], [2, 0, 0]), (&[1, 1, 2, 1, 1, 3], [0, 0, 1])],
        ),
        (
            "01",
            1,
            [false, false],
            [(&[1], [2, 0, 0]), (&[1, 2], [0, 1, 0]), (&[1, 2, 1, 1, 3], [0, 0, 1])],
        ),
        (
            "02",
            2,
            [true, false],
            [(&[2], [0, 1, 0]), (&[2, 1], [1, 1, 0]), (&[2, 1, 1, 3], [0, 0, 1])],
        ),
        (
            "12",
            3,
            [true, true],
            [(&[1], [1, 1, 0]), (&[1, 1], [2, 1, 0]), (&[1, 1, 3], [0, 0, 1])],
        ),
        (
            "11",
            4,
            [true, true],
            [(&[1], [2, 1, 0]), (&[1, 3], [0, 0, 1]), (&[1, 3], [0, 0, 1])],
        ),
        (
            "10",
            5,
            [false, true],
            [(&[3], [0, 0, 1]), (&[3], [0, 0, 1]), (&[3], [0, 0, 1])],
        ),
    ];
    for (setting, rank, down, filled) in states {
        for (capacity, (queue, counter)) in [1, 2, 32].into_iter().zip(filled) {
            let walk = Walk::resume(&[2, 3], capacity, &digits(setting)).unwrap();
            assert_eq!(
                (walk.capacity, &walk.entry[..walk.queued], &walk.counter[..3]),
                (capacity, queue, &counter[..])
            );
            assert_eq!((walk.place, walk.steps, walk.moves, walk.ended), (1, 0, rank, false));
            let [first, second] = [walk.sluices.digit[0], walk.sluices.digit[1]];
            assert_eq!((vec![second, first], &walk.sluices.down[..2]), (digits(setting), &down[..]));
        }
    }
}

/// At every setting sluices and number of moves are those of the walk from the start, and so is every later answer.
#[test]
fn picked_up_walks_go_on() {
    for counts in [
        &[2, 3][..],
        &[3, 2, 4],
        &[2, 1, 3],
        &[1, 2, 2, 1, 5],
        &[2; 5],
        &[5, 3],
        &[4],
        &[1, 1],
        &[255, 2],
    ] {
        let enough = moving(counts).len().div_ceil(2).max(1);
        for capacity in [enough, enough + 1, 32] {
            let mut start = Walk::open(counts, capacity).unwrap();
            for word in list(counts) {
                let picked_up = Walk::resume(counts, capacity, &word).unwrap();
                assert_eq!((&picked_up.sluices, picked_up.moves), (&start.sluices, start.moves));
                go_on_alike(start.clone(), picked_up);
                start.step();
            }
            assert!(start.ended);
        }
    }
}

/// Up to the end, and one call past it.
fn go_on_alike(mut start: Walk, mut picked_up: Walk) {
    while !start.ended {
        assert_eq!((picked_up.step(), &picked_up.sluices), (start.step(), &start.sluices));
    }
    let ended = picked_up.clone();
    assert_eq!((picked_up.step(), picked_up), (Answer::End, ended));
}

/// At the last setting the next call is the end; with all locked the only setting is the last.
#[test]
fn picked_up_at_the_last_setting() {
    for (counts, last) in [
        (&[2, 3][..], &[1, 0][..]),
        (&[3, 3], &[2, 2]),
        (&[1, 2, 1], &[0, 1, 0]),
        (&[1], &[0]),
        (&[1; 48], &[0; 48]),
    ] {
        for capacity in [1, 2, 32] {
            let mut walk = Walk::resume(counts, capacity, last).unwrap();
            let before = (walk.sluices.clone(), walk.moves);
            assert_eq!((walk.queued, walk.step()), (1, Answer::End));
            assert_eq!((walk.sluices, walk.moves), before);
            assert_eq!(buffered::resumed_moves(counts, capacity, last, 1, 1), (Run::Ended(0), vec![]));
        }
    }
}

/// One sluice of two notches: the filling makes both entries, so that with room for a third the work steps of the two calls
/// come round to the counter's last place and are idle there. Without it they are idle in the first call.
#[test]
fn picked_up_steps_idle_at_the_last_place() {
    for (capacity, steps) in [(2, [0, 2]), (3, [2, 2]), (32, [2, 2])] {
        let mut walk = Walk::resume(&[2], capacity, &[0]).unwrap();
        assert_eq!((walk.step(), walk.steps), (up(1), steps[0]));
        assert_eq!((walk.step(), walk.steps), (Answer::End, steps[1]));
        assert_eq!((walk.place, &walk.counter[..2]), (2, &[0, 1][..]));
    }
}

/// Three two-notch sluices with too small a buffer: it runs dry before the end entry, which takes four steps, unless that is
/// the first entry or the second.
#[test]
fn picked_up_walks_run_dry() {
    let counts = [2; 3];
    for (rank, word) in (0..).zip(list(&counts)) {
        let moves = [1, 2, 0x81, 3, 1, 0x82, 0x81][rank as usize..].to_vec();
        let ended = Run::Ended(7 - rank);
        let small = if rank < 6 { Run::Stopped(7 - rank, 10) } else { ended };
        assert_eq!(buffered::resumed_moves(&counts, 1, &word, 9, 9), (small, moves.clone()));
        assert_eq!(buffered::resumed_moves(&counts, 2, &word, 9, 9), (ended, moves));
    }
}

/// 2 to 5, then 8, then 9 of a run.
#[test]
fn refused_pick_ups() {
    let over = [255; 9];
    for (counts, capacity, setting, number) in [
        (&[][..], 0, &[7][..], 2),
        (&[2, 0], 0, &[7], 3),
        (&over, 33, &[], 4),
        (&[2, 3], 0, &[7], 5),
        (&[2, 3], 33, &[1, 3], 5),
        (&[2, 3], 1, &[], 8),
        (&[2, 3], 1, &[1], 8),
        (&[2, 3], 1, &[1, 2, 0], 8),
        (&[2, 3], 1, &[1, 3], 8),
        (&[2, 3], 1, &[2, 0], 8),
        (&[2, 1], 1, &[0, 1], 8),
    ] {
        assert_eq!(Walk::resume(counts, capacity, setting).err(), Some(number));
        assert_eq!(
            buffered::resumed_moves(counts, capacity, setting, 1, 0),
            (Run::Refused(number), vec![])
        );
    }
    for (t, room, outcome) in [
        (0, 0, Run::Made(0)),
        (2, 2, Run::Made(2)),
        (3, 3, Run::Ended(2)),
        (3, 2, Run::Refused(9)),
    ] {
        let bytes = MOVES_OF_TWO[3..3 + outcome.moves() as usize].to_vec();
        assert_eq!(buffered::resumed_moves(&[2, 3], 1, &[1, 2], t, room), (outcome, bytes));
    }
}

#[test]
fn logs() {
    let mut bytes = vec![
        1, 2, 1, 2, 1, 3, 2, 2, 2, 3, 1, 3, 1, 3, 2, 3, 0x81, 3, 0x81, 4, 0, 0, 0, 0, 0, 0, 0, 5,
    ];
    assert_eq!(log::write(&[2, 3], 1, 5, 28), Ok(bytes.clone()));
    assert_eq!(log::write(&[2, 3], 1, 5, 27), Err(9));
    assert_eq!(log::read(&bytes), Ok(5));
    bytes.truncate(19);
    assert_eq!(log::read(&bytes), Err(11));
}

/// With all locked no move is the last one, so that its log ends.
#[test]
fn logs_with_locked_sluices() {
    let bytes = vec![1, 2, 1, 2, 1, 1, 2, 2, 1, 4, 0, 0, 0, 0, 0, 0, 0, 0];
    assert_eq!(log::write(&[1, 1], 1, 0, 18), Ok(bytes.clone()));
    assert_eq!(log::write(&[1, 1], 1, 1, 99), Err(8));
    assert_eq!((log::read(&bytes), log::read(&bytes[..9])), (Ok(0), Err(11)));
    let bytes = vec![1, 3, 1, 2, 1, 1, 2, 2, 2, 2, 3, 1, 3, 2, 4, 0, 0, 0, 0, 0, 0, 0, 1];
    assert_eq!(log::write(&[1, 2, 1], 1, 1, 23), Ok(bytes.clone()));
    assert_eq!((log::read(&bytes), log::read(&bytes[..12])), (Ok(1), Ok(0)));
}

#[test]
fn texts() {
    let whole = "sluices 2 settings 6\n0 0.0 start\n1 0.1 1 up\n2 0.2 1 up\n3 1.2 2 up\n4 1.1 1 down\n5 1.0 1 down\nend 5\n";
    assert_eq!(text::output(b"2 3\nmore"), whole);
    assert_eq!(text::output(b"\n"), "refused 2\n");
    assert_eq!(text::output(b"2 3"), "unread\n");
    assert_eq!(text::output(b"17 241\n"), "long\n");
}

#[test]
fn texts_with_locked_sluices() {
    assert_eq!(text::output(b"1\n"), "sluices 1 settings 1\n0 0 start\nend 0\n");
    assert_eq!(text::output(b"1 1\n"), "sluices 2 settings 1\n0 0.0 start\nend 0\n");
    assert_eq!(
        text::output(b"1 2 1\n"),
        "sluices 3 settings 2\n0 0.0.0 start\n1 0.1.0 2 up\nend 1\n"
    );
    assert_eq!([&b"0\n"[..], b"1 0\n"].map(text::output), ["refused 3\n"; 2]);
}
