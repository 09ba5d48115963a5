//! The proved library's calls (include/gray.h), safe: slices in, a value or the number of a refusal out.
use crate::run::Run;

mod c {
    extern "C" {
        pub fn gray_size(radices: *const u8, n: usize) -> i64;
        pub fn gray_rank(radices: *const u8, n: usize, word: *const u8, len: usize) -> i64;
        pub fn gray_word(radices: *const u8, n: usize, rank: u64, out: *mut u8, len: usize) -> i64;
        pub fn gray_list(radices: *const u8, n: usize, from: u64, count: u64, out: *mut u8, len: usize) -> i64;
        pub fn gray_moves(
            radices: *const u8,
            n: usize,
            capacity: usize,
            t: u64,
            out: *mut u8,
            len: usize,
            made: *mut u64,
        ) -> i64;
        pub fn gray_resume_moves(
            radices: *const u8,
            n: usize,
            capacity: usize,
            word: *const u8,
            len: usize,
            t: u64,
            out: *mut u8,
            out_len: usize,
            made: *mut u64,
        ) -> i64;
        pub fn gray_towers(radices: *const u8, n: usize, t: u64, out: *mut u8, len: usize, made: *mut u64) -> i64;
        pub fn gray_log_write(radices: *const u8, n: usize, capacity: usize, moves: u64, out: *mut u8, len: usize) -> i64;
        pub fn gray_log_read(log: *const u8, len: usize) -> i64;
        pub fn gray_tide_counts(file: *const u8, len: usize, counts: *mut u32, room: usize) -> i64;
        pub fn gray_tide_may_begin(file: *const u8, len: usize, minute: u64) -> i64;
    }
}

/// A value, or the number of a refusal.
pub type Answer = Result<u64, u8>;

/// The number of a refusal. One that does not fit a byte is no refusal's, and neither is 255.
#[inline]
fn refusal(x: i64) -> u8 {
    x.unsigned_abs().try_into().unwrap_or(u8::MAX)
}

/// No value is over 2^62, so a negative number is a refusal's.
#[inline]
pub(crate) fn answer(x: i64) -> Answer {
    if x < 0 {
        Err(refusal(x))
    } else {
        Ok(x as u64)
    }
}

/// A dry removal: of the refusals that a run can give, the one that leaves moves standing, be it none.
const DRY: i64 = -10;
/// What stands where the moves made are to be told. No run makes so many, so a call that leaves it is found out.
const UNTOLD: u64 = u64::MAX;

/// What a call answers that makes a run and tells how many moves it made. A run that is refused as a whole tells 0; one that
/// tells anything else has not been, and so is taken for one that was stopped.
#[inline]
fn run(call: impl FnOnce(*mut u64) -> i64) -> Run {
    let mut made = UNTOLD;
    match call(&mut made) {
        0 => Run::Made(made),
        1 => Run::Ended(made),
        DRY => Run::Stopped(made, refusal(DRY)),
        x if x < 0 && made == 0 => Run::Refused(refusal(x)),
        x if x < 0 => Run::Stopped(made, refusal(x)),
        x => panic!("no run has the value {x}"),
    }
}

// In each call below the pointers and lengths come from slices, so the memory is there for as long as the call runs, and a
// `&mut` slice overlaps with no other: all that the library asks. They are inlined: on small surveys a second call costs as
// much as the work.

/// N, the number of settings.
#[inline]
pub fn size(radices: &[u8]) -> Answer {
    answer(unsafe { c::gray_size(radices.as_ptr(), radices.len()) })
}

/// The rank of a setting.
#[inline]
pub fn rank(radices: &[u8], word: &[u8]) -> Answer {
    answer(unsafe { c::gray_rank(radices.as_ptr(), radices.len(), word.as_ptr(), word.len()) })
}

/// The setting of a rank at the start of `out`; the bytes written.
#[inline]
pub fn word(radices: &[u8], rank: u64, out: &mut [u8]) -> Answer {
    answer(unsafe { c::gray_word(radices.as_ptr(), radices.len(), rank, out.as_mut_ptr(), out.len()) })
}

/// `count` settings from rank `from` on at the start of `out`; the bytes written.
#[inline]
pub fn list(radices: &[u8], from: u64, count: u64, out: &mut [u8]) -> Answer {
    answer(unsafe { c::gray_list(radices.as_ptr(), radices.len(), from, count, out.as_mut_ptr(), out.len()) })
}

/// A fresh walk of the buffered engine and a run of at most `t` moves, their bytes at the start of `out`.
#[inline]
pub fn moves(radices: &[u8], capacity: usize, t: u64, out: &mut [u8]) -> Run {
    let (n, len) = (radices.len(), out.len());
    run(|made| unsafe { c::gray_moves(radices.as_ptr(), n, capacity, t, out.as_mut_ptr(), len, made) })
}

/// A walk of the buffered engine picked up at a setting, and a run of at most `t` moves, their bytes at the start of `out`.
#[inline]
pub fn resume_moves(radices: &[u8], capacity: usize, word: &[u8], t: u64, out: &mut [u8]) -> Run {
    let (n, len, out_len) = (radices.len(), word.len(), out.len());
    let (radices, word, out) = (radices.as_ptr(), word.as_ptr(), out.as_mut_ptr());
    run(|made| unsafe { c::gray_resume_moves(radices, n, capacity, word, len, t, out, out_len, made) })
}

/// A run of the disk engine from the start.
#[inline]
pub fn towers(radices: &[u8], t: u64, out: &mut [u8]) -> Run {
    run(|made| unsafe { c::gray_towers(radices.as_ptr(), radices.len(), t, out.as_mut_ptr(), out.len(), made) })
}

/// The log of the first `moves` moves at the start of `out`; the bytes written.
#[inline]
pub fn log_write(radices: &[u8], capacity: usize, moves: u64, out: &mut [u8]) -> Answer {
    answer(unsafe { c::gray_log_write(radices.as_ptr(), radices.len(), capacity, moves, out.as_mut_ptr(), out.len()) })
}

/// The number of moves of a log.
#[inline]
pub fn log_read(log: &[u8]) -> Answer {
    answer(unsafe { c::gray_log_read(log.as_ptr(), log.len()) })
}

/// How many moves fit in each window of a file of tides, at the start of `counts`; the number of windows.
#[inline]
pub fn tide_counts(file: &[u8], counts: &mut [u32]) -> Answer {
    answer(unsafe { c::gray_tide_counts(file.as_ptr(), file.len(), counts.as_mut_ptr(), counts.len()) })
}

/// Whether a move may begin at a minute, by a file of tides.
#[inline]
pub fn tide_may_begin(file: &[u8], minute: u64) -> Result<bool, u8> {
    match answer(unsafe { c::gray_tide_may_begin(file.as_ptr(), file.len(), minute) })? {
        0 => Ok(false),
        1 => Ok(true),
        x => panic!("no minute has the value {x}"),
    }
}
