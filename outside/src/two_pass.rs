//! The rank of a setting in two passes, of which the first tests it: a proved library of its own (crate two_pass_c), to
//! which the one pass of `capi` is held, and against which it is timed. It serves for that alone, so include/gray.h does not
//! declare it.
use crate::capi::{answer, Answer};

extern "C" {
    fn gray_rank_in_two_passes(radices: *const u8, n: usize, word: *const u8, len: usize) -> i64;
}

/// The rank of a setting. It is inlined as `capi::rank` is, so that both cost the same before the library is reached.
#[inline]
pub fn rank(radices: &[u8], word: &[u8]) -> Answer {
    // The pointers and lengths come from slices: all that the library asks.
    answer(unsafe { gray_rank_in_two_passes(radices.as_ptr(), radices.len(), word.as_ptr(), word.len()) })
}
