//! Walks picked up at a setting, one run of each, through the library: document 02, request 6. Their states are in
//! `pickup_cases`.
use super::both::{self, Engine};
use super::runs::{enough, Longest};
use super::small::{self, Known};
use super::{damage, surveys, Group};
use crate::chance::Chance;
use crate::run::Run;
use crate::second::buffered::{Walk, MOST_CAPACITY};
use crate::second::survey;

/// Up to so many settings, a walk is picked up at each of them with each of these capacities, and the second program makes each
/// run.
const MOST_AT_ALL: u64 = 48;
const CAPACITIES: [usize; 8] = [1, 2, 3, 4, 5, 9, 31, 32];
/// Moves of a run on a large survey: more than the largest buffer holds, and the longest carry takes.
const LONG: u64 = 150;

pub fn compare(g: &mut Group, chance: &mut Chance) {
    for counts in small::surveys() {
        let known = Known::of(counts);
        sluices_at_all(g, &known);
        ends_from_all(g, &known);
        if known.size() <= MOST_AT_ALL {
            all_capacities_at_all(g, chance, &known);
        } else {
            some_capacities_at_some(g, chance, &known);
        }
    }
    for counts in large_surveys(chance) {
        near_carries(g, chance, &counts);
    }
    known_runs(g);
    dry_runs(g);
    wrong_lengths(g);
    wrong_notches(g);
    capacities(g);
    combinations(g);
    for _ in 0..20_000 {
        damaged(g, chance);
    }
}

/// Setting and directions that the second program picks up are those of its own walk from the start, at each rank.
fn sluices_at_all(g: &mut Group, known: &Known) {
    let counts = &known.counts;
    let capacity = enough(counts);
    let mut start = Walk::open(counts, capacity).expect("the survey can be opened");
    for setting in &known.list {
        let picked_up = Walk::resume(counts, capacity, setting).map(|walk| (walk.sluices, walk.moves));
        let name = || format!("the second program's sluices at {setting:?} of {counts:?}");
        g.same(name, &Ok((start.sluices.clone(), start.moves)), &picked_up);
        start.step();
    }
}

/// From each setting to the end, with just enough buffer: the list's moves.
fn ends_from_all(g: &mut Group, known: &Known) {
    for (rank, setting) in known.list.iter().enumerate() {
        let left = &known.moves[rank..];
        let (made, t) = (left.len() as u64, left.len() + 1);
        let engine = Engine::PickedUp(enough(&known.counts), setting);
        both::run_is(g, engine, &known.counts, t as u64, t, (Run::Ended(made), left));
    }
}

fn all_capacities_at_all(g: &mut Group, chance: &mut Chance, known: &Known) {
    for (rank, setting) in known.list.iter().enumerate() {
        for capacity in CAPACITIES {
            let left = &known.moves[rank..];
            runs_from(g, chance, &known.counts, Engine::PickedUp(capacity, setting), left);
        }
    }
}

/// Too small a buffer where there is one, and any.
fn some_capacities_at_some(g: &mut Group, chance: &mut Chance, known: &Known) {
    let fewer = (enough(&known.counts) - 1).max(1);
    for _ in 0..3 {
        let rank = chance.between(0, known.moves.len());
        for capacity in [fewer, chance.between(1, MOST_CAPACITY)] {
            let (setting, left) = (&known.list[rank], &known.moves[rank..]);
            runs_from(g, chance, &known.counts, Engine::PickedUp(capacity, setting), left);
        }
    }
}

/// Runs of several lengths, past the end too, where all that is left of the list is known.
fn runs_from(g: &mut Group, chance: &mut Chance, counts: &[u8], engine: Engine, left: &[u8]) {
    let last = left.len() as u64;
    let longest = Longest::of(engine, counts, last + 2);
    let whole = (Run::Ended(last), left);
    is_of_list(g, counts, engine, &longest, whole);
    for t in [0, chance.below(last + 1), last, last + 1, last + 2] {
        longest.library(g, chance, t);
    }
}

/// The second program's run is this one, which makes the list's moves, or with too small a buffer the first of them and then
/// runs dry.
fn is_of_list(g: &mut Group, counts: &[u8], engine: Engine, longest: &Longest, whole: (Run, &[u8])) {
    let made = longest.moves.len() as u64;
    let may_be_dry = matches!(engine, Engine::PickedUp(capacity, _) if capacity < enough(counts));
    let expected = if may_be_dry && longest.outcome == Run::Stopped(made, 10) {
        (longest.outcome, &whole.1[..longest.moves.len().min(whole.1.len())])
    } else {
        whole
    };
    let name = || format!("the second program's run of {counts:?}, {engine:?}");
    g.same(name, &expected, &(longest.outcome, &longest.moves[..]));
}

/// Some that are always the same, and some by chance.
fn large_surveys(chance: &mut Chance) -> Vec<Vec<u8>> {
    let full = [vec![2; 34], vec![4; 14]].concat();
    let locked = [[1, 2, 2].repeat(16), [2, 1].repeat(17), [3, 1].repeat(24)];
    let equal = [vec![2; 48], vec![2; 47], vec![3; 39], vec![4; 31], vec![255; 7]];
    let mut all: Vec<Vec<u8>> = equal.into_iter().chain([full]).chain(locked).collect();
    for _ in 0..40 {
        let below = surveys::just_below(chance);
        all.push(surveys::with_some_locked(chance, vec![2; 40]));
        all.extend([
            below,
            surveys::exact(chance),
            surveys::any(chance),
            surveys::few_moving(chance),
        ]);
    }
    all
}

/// The first setting, the last, their neighbours, and some before and after changes that carry far.
pub fn ranks_near_carries(chance: &mut Chance, counts: &[u8], how_many: usize) -> Vec<u64> {
    let last = survey::size(counts).expect("the survey can be opened") - 1;
    let mut ranks = vec![
        0,
        1.min(last),
        last - 1.min(last),
        last,
        last - chance.below(last.min(40) + 1),
    ];
    ranks.extend((0..how_many).map(|_| near_carry(chance, counts).min(last)));
    ranks
}

/// A rank next to a multiple of P, the product of the counts below a sluice: at such a change all of these carry. It is far
/// enough before it, at times, for the carry to come when the buffer has been filled.
fn near_carry(chance: &mut Chance, counts: &[u8]) -> u64 {
    let highest = counts.len() - 1;
    let place = chance.between(0, highest).min(chance.between(0, highest));
    let below: u64 = counts[place + 1..].iter().map(|&m| u64::from(m)).product();
    let above: u64 = counts[..=place].iter().map(|&m| u64::from(m)).product();
    let multiple = below * chance.below(above);
    let far = chance.below(70);
    let before = chance.pick(&[0, 1, 2, 3, far, far]);
    multiple.saturating_sub(before) + chance.pick(&[0, 0, 0, 1, 2])
}

/// With just enough buffer, with more and with less.
fn near_carries(g: &mut Group, chance: &mut Chance, counts: &[u8]) {
    let size = survey::size(counts).expect("the survey can be opened");
    let enough = enough(counts);
    for rank in ranks_near_carries(chance, counts, 8) {
        let setting = survey::setting(counts, rank);
        let left = size - 1 - rank;
        let moves = survey::move_bytes_from(counts, rank, left.min(LONG));
        let outcome = if left < LONG { Run::Ended(left) } else { Run::Made(LONG) };
        for capacity in [enough, chance.between(enough, MOST_CAPACITY), chance.between(1, enough)] {
            let engine = Engine::PickedUp(capacity, &setting);
            let longest = Longest::of(engine, counts, LONG);
            is_of_list(g, counts, engine, &longest, (outcome, &moves));
            for t in [0, 1, chance.below(LONG), LONG] {
                longest.library(g, chance, t);
            }
        }
    }
}

/// Every setting of m2 = 2, m1 = 3. At the last one the walk ends at once.
fn known_runs(g: &mut Group) {
    let moves = [1, 1, 2, 0x81, 0x81];
    for (rank, setting) in [[0, 0], [0, 1], [0, 2], [1, 2], [1, 1], [1, 0]].iter().enumerate() {
        let left = &moves[rank..];
        let last = left.len();
        for engine in [1, 2, 6, 32].map(|capacity| Engine::PickedUp(capacity, setting)) {
            let made = Run::Made(last as u64);
            both::run_is(g, engine, &[2, 3], last as u64, last, (made, left));
            both::run_is(g, engine, &[2, 3], last as u64 + 1, last + 1, (Run::Ended(last as u64), left));
            both::run_is(g, engine, &[2, 3], last as u64 + 1, last, (Run::Refused(9), &[]));
            both::run_is(g, engine, &[2, 3], 0, 0, (Run::Made(0), &[]));
            both::run_is(g, engine, &[2, 3], u64::MAX, 9, (Run::Refused(9), &[]));
        }
    }
    for n in [1, 2, 48] {
        for engine in [1, 24, 32].map(|capacity| Engine::PickedUp(capacity, &[0; 48][..n])) {
            for (t, room, outcome) in [
                (0, 0, Run::Made(0)),
                (1, 1, Run::Ended(0)),
                (3, 3, Run::Ended(0)),
                (1, 0, Run::Refused(9)),
            ] {
                both::run_is(g, engine, &vec![1; n], t, room, (outcome, &[]));
            }
        }
    }
}

/// Three two-notch sluices with too small a buffer: it runs dry before the end entry, which takes four steps, unless that is
/// the first entry or the second. Locked sluices make no difference.
fn dry_runs(g: &mut Group) {
    for counts in [&[2, 2, 2][..], &[1, 2, 2, 1, 2], &[2, 1, 2, 2, 1, 1]] {
        for (rank, setting) in (0..).zip(survey::list(counts)) {
            let left = 7 - rank;
            let dry = if rank < 6 { Run::Stopped(left, 10) } else { Run::Ended(left) };
            for (t, capacity, room, expected) in [
                (left, 1, left, Run::Made(left)),
                (left + 1, 1, left + 1, dry),
                (left + 2, 1, 20, dry),
                (left + 1, 1, left, Run::Refused(9)),
                (left + 1, 2, left + 1, Run::Ended(left)),
            ] {
                let engine = Engine::PickedUp(capacity, &setting);
                let name = || format!("{t} moves of {counts:?}, {engine:?}");
                both::run(g, engine, counts, t, room as usize).is(g, name, expected);
            }
        }
    }
}

/// A run of one move from a setting, with room for it and without: refused with this number, or accepted.
fn one_move(g: &mut Group, name: &str, counts: &[u8], capacity: usize, setting: &[u8], refused: Option<u8>) {
    let engine = Engine::PickedUp(capacity, setting);
    for (t, room) in [(0, 0), (1, 1), (1, 0), (2, 9)] {
        let library = both::run(g, engine, counts, t, room);
        match refused {
            Some(number) => library.is(g, || name.into(), Run::Refused(number)),
            None if (room as u64) < t => library.is(g, || name.into(), Run::Refused(9)),
            None => (),
        }
    }
}

/// Refusal 8: the setting's length is not n, though its first notches, or its last, would do.
fn wrong_lengths(g: &mut Group) {
    for counts in [vec![2], vec![2, 3], vec![1, 2, 1], vec![2; 47], vec![2; 48], vec![1; 48]] {
        let n = counts.len();
        for length in [0, 1, n - 1, n, n + 1, 2 * n, 48, 49, 255, 256, 256 + n, (1 << 16) + n] {
            let name = format!("a setting of {length} notches for {n} sluices");
            let refused = (length != n).then_some(8);
            one_move(g, &name, &counts, 1, &vec![0; length], refused);
        }
    }
}

/// Refusal 8: at each place a notch that is not below its count, beside the last one that is.
fn wrong_notches(g: &mut Group) {
    for counts in [
        vec![2_u8, 3],
        vec![3, 1, 2],
        vec![255, 2],
        vec![2; 48],
        vec![3; 39],
        vec![1; 48],
        [2, 1, 3].repeat(16),
    ] {
        for (place, &m) in counts.iter().enumerate() {
            for (notch, refused) in [(m - 1, None), (m, Some(8)), (m.saturating_add(1), Some(8)), (255, Some(8))] {
                let mut setting = vec![0; counts.len()];
                setting[place] = notch;
                let name = format!("notch {notch} of {m}");
                one_move(g, &name, &counts, 1, &setting, refused);
            }
        }
    }
}

/// Refusal 5, at its bounds, with a setting that is right and with one that is not.
fn capacities(g: &mut Group) {
    for (capacity, refused) in [
        (0, Some(5)),
        (1, None),
        (32, None),
        (33, Some(5)),
        (255, Some(5)),
        (256, Some(5)),
        (257, Some(5)),
        ((1 << 32) + 1, Some(5)),
        (usize::MAX, Some(5)),
    ] {
        let name = format!("capacity {capacity}");
        for (counts, right, wrong) in [([2, 3], [1, 2], [1, 3]), ([1, 1], [0, 0], [1, 0])] {
            one_move(g, &name, &counts, capacity, &right, refused);
            one_move(g, &name, &counts, capacity, &wrong, refused.or(Some(8)));
            one_move(g, &name, &counts, capacity, &right[..1], refused.or(Some(8)));
        }
    }
}

/// Two or more apply: the lowest is given. Each comes with room and without, so that 9 applies besides.
fn combinations(g: &mut Group) {
    let over = [4; 32];
    for (name, counts, capacity, setting, number) in [
        ("2 alone", &[][..], 1, &[][..], 2),
        ("2 with 8", &[], 1, &[0], 2),
        ("2 with 5", &[], 0, &[], 2),
        ("2 with 5 and 8", &[], 33, &[1], 2),
        ("2 with 3, 5 and 8", &[0; 49], 0, &[], 2),
        ("2 with 4, 5 and 8", &[255; 49], 0, &[255; 49], 2),
        ("2 alone, 49 locked", &[1; 49], 1, &[0; 49], 2),
        ("3 with 8, its notch", &[2, 0], 1, &[0, 0], 3),
        ("3 with 5", &[2, 0, 3], 33, &[0, 0, 0], 3),
        ("3 with 4, 5 and 8", &[[0; 1].as_slice(), &over].concat(), 0, &[9], 3),
        ("4 alone", &over, 1, &[0; 32], 4),
        ("4 with 5", &over, 0, &[0; 32], 4),
        ("4 with 8, a notch", &over, 1, &[4; 32], 4),
        ("4 with 8, the length", &over, 1, &[0; 31], 4),
        ("4 with 5 and 8", &surveys::SMALLEST_OVER, 33, &[], 4),
        ("5 with 8, a notch", &[2, 3], 0, &[2, 0], 5),
        ("5 with 8, the length", &[2, 3], 33, &[0], 5),
        ("5 with 8, both", &[2, 3], 33, &[2, 3, 0], 5),
        ("8, both", &[2, 3], 1, &[2], 8),
        ("8, both, too long", &[2, 3], 1, &[2, 3, 0], 8),
        ("8, a locked sluice", &[2, 1, 3], 2, &[1, 1, 0], 8),
    ] {
        one_move(g, name, counts, capacity, setting, Some(number));
    }
    for (t, room) in [(1, 0), (u64::MAX, 9), (1 << 32, 9), ((1 << 32) + 3, 9), (256, 255)] {
        let right = Engine::PickedUp(1, &[1, 2]);
        both::run(g, right, &[2, 3], t, room).is(g, || format!("{t} moves in {room} bytes"), Run::Refused(9));
        let wrong = Engine::PickedUp(1, &[1, 3]);
        both::run(g, wrong, &[2, 3], t, room).is(g, || format!("8 with 9, {t} moves in {room} bytes"), Run::Refused(8));
    }
}

/// Bytes by chance as a survey, and as a setting with at most one fault.
fn damaged(g: &mut Group, chance: &mut Chance) {
    let counts = damage::survey_bytes(chance);
    let setting = damage::setting_bytes(chance, &counts);
    let capacity = chance.between(0, 35);
    let t = chance.below(60);
    let room = damage::room(chance, t as usize);
    both::run(g, Engine::PickedUp(capacity, &setting), &counts, t, room);
}
