//! Each call made on both sides, and the library's answer handed back.
//!
//! Lent memory stands between guards and comes filled. After the call all of it must be as the second program says: guards, the
//! places past an accepted output and each place after a refusal as they came.
use super::Group;
use crate::capi::{self, Answer};
use crate::run::Run;
use crate::second::run::Ran;
use crate::second::{buffered, disks, log, survey, tides};
use std::fmt::{Debug, Display};

/// What a writer of the second program hands back, or the refusal.
type Written<'a, P> = Result<&'a [P], u8>;
type Bytes<'a> = Written<'a, u8>;

/// The proved library's answer, for those who know it from another source too.
pub struct Library<A = Answer>(A);

impl<A: PartialEq + Debug> Library<A> {
    /// One comparison more, with an answer that is known.
    pub fn is(self, g: &mut Group, inputs: impl FnOnce() -> String, expected: A) {
        g.same(inputs, &expected, &self.0);
    }
}

const GUARD: usize = 16;

/// A place of lent memory: a byte, or a count of moves.
trait Place: Copy + PartialEq + Display {
    /// What place x holds at first: another pattern for each salt, so that what is written by mistake is seldom what was there.
    fn filled(x: usize, salt: u64) -> Self;
}

impl Place for u8 {
    fn filled(x: usize, salt: u64) -> u8 {
        (x as u8).wrapping_mul(167).wrapping_add(salt as u8).rotate_left(3)
    }
}

/// Seldom a number that fits in two bytes, or in three.
impl Place for u32 {
    fn filled(x: usize, salt: u64) -> u32 {
        (x as u32)
            .wrapping_mul(0x9e37_79b9)
            .wrapping_add(salt as u32)
            .wrapping_mul(0x85eb_ca6b)
    }
}

/// A call with `room` places lent to it: its answer, and what it writes at the start of them.
fn lend<A: PartialEq + Debug, P: Place>(
    g: &mut Group,
    inputs: impl FnOnce() -> String,
    room: usize,
    second: (A, &[P]),
    call: impl FnOnce(&mut [P]) -> A,
) -> Library<A> {
    let ((answer, written), salt) = (second, g.made);
    let mut expected: Vec<P> = (0..room + 2 * GUARD).map(|x| P::filled(x, salt)).collect();
    let mut memory = expected.clone();
    let library = call(&mut memory[GUARD..GUARD + room]);
    expected[GUARD..GUARD + written.len()].copy_from_slice(written);
    let wrong = (expected != memory).then(|| first_wrong(&expected, &memory));
    let library = (library, wrong);
    g.same(|| format!("{}, room {room}", inputs()), &(answer, None), &library);
    Library(library.0)
}

/// The first place that is not as it should be, counted from the start of what was lent.
fn first_wrong<P: Place>(expected: &[P], memory: &[P]) -> String {
    let mut pairs = expected.iter().zip(memory);
    let x = pairs.position(|(wanted, found)| wanted != found).expect("they differ");
    format!("place {} is {}, not {}", x as isize - GUARD as isize, memory[x], expected[x])
}

/// A call of a writer, which answers how many places it has written.
fn lend_writer<P: Place>(
    g: &mut Group,
    inputs: impl FnOnce() -> String,
    room: usize,
    second: Written<P>,
    call: impl FnOnce(&mut [P]) -> Answer,
) -> Library {
    let answer = second.map(|written| written.len() as u64);
    lend(g, inputs, room, (answer, second.unwrap_or(&[])), call)
}

pub fn size(g: &mut Group, counts: &[u8]) -> Library {
    let library = capi::size(counts);
    g.same(|| format!("size of {counts:?}"), &survey::size(counts), &library);
    Library(library)
}

pub fn rank(g: &mut Group, counts: &[u8], setting: &[u8]) -> Library {
    let library = capi::rank(counts, setting);
    g.same(
        || format!("rank of {setting:?} in {counts:?}"),
        &survey::rank(counts, setting),
        &library,
    );
    Library(library)
}

/// The setting of a rank held to bytes that are known.
pub fn word_is(g: &mut Group, counts: &[u8], rank: u64, room: usize, second: Bytes) -> Library {
    let inputs = || format!("setting of rank {rank} in {counts:?}");
    lend_writer(g, inputs, room, second, |out| capi::word(counts, rank, out))
}

pub fn word(g: &mut Group, counts: &[u8], rank: u64, room: usize) -> Library {
    let second = survey::word(counts, rank, room);
    word_is(g, counts, rank, room, second.as_deref().map_err(|&k| k))
}

/// A run of settings held to bytes that are known.
pub fn list_is(g: &mut Group, counts: &[u8], from: u64, count: u64, room: usize, second: Bytes) -> Library {
    let inputs = || format!("{count} settings from rank {from} in {counts:?}");
    lend_writer(g, inputs, room, second, |out| capi::list(counts, from, count, out))
}

pub fn list(g: &mut Group, counts: &[u8], from: u64, count: u64, room: usize) -> Library {
    let second = survey::run(counts, from, count, room);
    list_is(g, counts, from, count, room, second.as_deref().map_err(|&k| k))
}

/// The engine of a run, with its capacity where it has one, and with the setting where it does not begin at the start.
#[derive(Clone, Copy, Debug)]
pub enum Engine<'a> {
    Buffered(usize),
    PickedUp(usize, &'a [u8]),
    Disks,
}

impl Engine<'_> {
    /// The second program's run of at most t moves from the start, or from the setting.
    pub fn run(self, counts: &[u8], t: u64, room: usize) -> Ran {
        match self {
            Engine::Buffered(capacity) => buffered::moves(counts, capacity, t, room),
            Engine::PickedUp(capacity, setting) => buffered::resumed_moves(counts, capacity, setting, t, room),
            Engine::Disks => disks::moves(counts, t, room),
        }
    }

    /// The proved library's run, the bytes of its moves at the start of `out`.
    pub fn library(self, counts: &[u8], t: u64, out: &mut [u8]) -> Run {
        match self {
            Engine::Buffered(capacity) => capi::moves(counts, capacity, t, out),
            Engine::PickedUp(capacity, setting) => capi::resume_moves(counts, capacity, setting, t, out),
            Engine::Disks => capi::towers(counts, t, out),
        }
    }
}

/// A run held to one that is known: how it comes out, and the bytes of its moves.
pub fn run_is(g: &mut Group, engine: Engine, counts: &[u8], t: u64, room: usize, second: (Run, &[u8])) -> Library<Run> {
    let inputs = || format!("run of {t} moves of {counts:?}, {engine:?}");
    lend(g, inputs, room, second, |out| engine.library(counts, t, out))
}

pub fn run(g: &mut Group, engine: Engine, counts: &[u8], t: u64, room: usize) -> Library<Run> {
    let (outcome, bytes) = engine.run(counts, t, room);
    run_is(g, engine, counts, t, room, (outcome, &bytes))
}

/// A log held to bytes that are known.
pub fn log_is(g: &mut Group, counts: &[u8], capacity: usize, t: u64, room: usize, second: Bytes) -> Library {
    let inputs = || format!("log of {t} moves of {counts:?}, capacity {capacity}");
    lend_writer(g, inputs, room, second, |out| capi::log_write(counts, capacity, t, out))
}

pub fn log_write(g: &mut Group, counts: &[u8], capacity: usize, t: u64, room: usize) -> Library {
    let second = log::write(counts, capacity, t, room);
    log_is(g, counts, capacity, t, room, second.as_deref().map_err(|&k| k))
}

pub fn log_read(g: &mut Group, bytes: &[u8]) -> Library {
    let library = capi::log_read(bytes);
    g.same(|| format!("reading of the log {bytes:?}"), &log::read(bytes), &library);
    Library(library)
}

/// Whether a move may begin, as either side says it.
pub type Begins = Result<bool, u8>;

/// As much of a file of tides as is worth printing.
fn shown(file: &[u8]) -> String {
    const MOST: usize = 400;
    let start = file[..file.len().min(MOST)].escape_ascii();
    format!(
        "\"{start}\"{} ({} bytes)",
        if file.len() > MOST { " .." } else { "" },
        file.len()
    )
}

/// The counts of a file of tides held to what is known.
pub fn tide_counts_are(g: &mut Group, file: &[u8], room: usize, second: Written<u32>) -> Library {
    let inputs = || format!("counts of {}", shown(file));
    lend_writer(g, inputs, room, second, |counts| capi::tide_counts(file, counts))
}

pub fn tide_counts(g: &mut Group, file: &[u8], room: usize) -> Library {
    let second = tides::counts(file, room);
    tide_counts_are(g, file, room, second.as_deref().map_err(|&k| k))
}

/// Whether a move may begin held to what is known.
pub fn tide_may_begin_is(g: &mut Group, file: &[u8], minute: u64, second: Begins) -> Library<Begins> {
    let library = capi::tide_may_begin(file, minute);
    g.same(|| format!("a move at minute {minute} by {}", shown(file)), &second, &library);
    Library(library)
}

pub fn tide_may_begin(g: &mut Group, file: &[u8], minute: u64) -> Library<Begins> {
    tide_may_begin_is(g, file, minute, tides::may_begin(file, minute))
}
