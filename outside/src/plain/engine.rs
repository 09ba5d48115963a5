//! What both engines share.
use super::words::{counted, MOST_DIGITS, MOST_WORDS};
use crate::run::Run;

/// What a call of an engine answers: a move as a byte and the notch that its digit has come to, the end, or a refusal.
#[derive(Clone, Copy, Debug, PartialEq, Eq)]
pub enum Step {
    Moved(u8, u8),
    End,
    Refused(u8),
}

/// Every index of an array. Which of them are below a bound is asked of these bytes, sixteen at once; where it is asked of a
/// loop's own index the compiler does it on 64 bits, two at once.
pub const INDICES: [u8; MOST_DIGITS] = {
    let mut indices = [0; MOST_DIGITS];
    let mut i = 0;
    while i < MOST_DIGITS {
        indices[i] = i as u8;
        i += 1;
    }
    indices
};

/// The indices of the digits that move, in rising order: those whose radix is over 1. There are `count` of them; what stands
/// after them is nothing.
pub struct Moving {
    pub indices: [u8; MOST_DIGITS],
    pub count: usize,
}

impl Moving {
    /// Of radices with digit 1 first. Each index is written, and the next one over it if its digit is locked: no branch to
    /// guess.
    #[inline]
    fn of(radices: &[u8]) -> Moving {
        let mut indices = [0; MOST_DIGITS];
        let mut count = 0;
        for (i, &m) in radices.iter().enumerate() {
            indices[count] = i as u8;
            count += usize::from(m > 1);
        }
        Moving { indices, count }
    }

    #[inline]
    fn are(&self, indices: &[u8; MOST_DIGITS], count: usize) -> bool {
        self.count == count && all(|i| (self.indices[i] == indices[i]) | (INDICES[i] >= count as u8))
    }
}

/// What the states of both engines hold: a survey, which of its digits move, a word and directions. Arrays have digit 1 first,
/// and go on past digit n as if with locked ones. So the range rule looks at whole arrays: loops of a length that the compiler
/// knows run on vectors and leave no rest.
pub struct Digits {
    pub radices: [u8; MOST_DIGITS],
    pub n: usize,
    pub moving: Moving,
    pub word: [u8; MOST_DIGITS],
    pub downs: [bool; MOST_DIGITS],
}

impl Digits {
    /// At the word of rank 0: refusals 2 to 4.
    pub fn open(radices: &[u8]) -> Result<Digits, u8> {
        counted(radices)?;
        let n = radices.len();
        let radices = reversed(radices);
        Ok(Digits {
            radices,
            n,
            moving: Moving::of(&radices[..n]),
            word: [0; MOST_DIGITS],
            downs: [false; MOST_DIGITS],
        })
    }

    /// The index of the digit that has a place among those that move.
    #[inline]
    pub fn at_place(&self, place: usize) -> usize {
        self.moving.indices[place].into()
    }

    /// The range rule for all but the word, and where it holds N.
    #[inline]
    pub fn size_in_range(&self) -> Option<u64> {
        let fits = (1..=MOST_DIGITS).contains(&self.n);
        if fits && self.moving_in_range() {
            self.size()
        } else {
            None
        }
    }

    /// Exactly the digits that move, and none past digit n. Where all of them do, these are all indices, and nothing is
    /// searched.
    #[inline]
    fn moving_in_range(&self) -> bool {
        let is_digit = |i: usize| INDICES[i] < self.n as u8;
        if self.moving.count == self.n {
            return all(|i| (self.radices[i] > 1) == is_digit(i)) & self.moving.are(&INDICES, self.n);
        }
        let Moving { indices, count } = Moving::of(&self.radices[..self.n]);
        all(|i| (self.radices[i] == 1) | is_digit(i)) & self.moving.are(&indices, count)
    }

    /// The product within its limit. Eight radices fit 64 bits, so overflow is looked for after eight, and the next eight are
    /// not kept waiting for these.
    #[inline]
    fn size(&self) -> Option<u64> {
        let eights = self.radices.chunks_exact(8).take(self.n.div_ceil(8));
        let mut products = eights.map(|eight| eight.iter().map(|&m| u64::from(m)).product());
        products
            .try_fold(1, |p: u64, eight| p.checked_mul(eight))
            .filter(|&p| p <= MOST_WORDS)
    }

    /// The range rule for the word and its directions, and that no radix is 0. A locked digit goes up, like any other at 0.
    #[inline]
    pub fn word_in_range(&self) -> bool {
        all(|i| {
            let (m, a, down) = (self.radices[i], self.word[i], self.downs[i]);
            let last = (a == m.wrapping_sub(1)) & (a != 0);
            (a < m) & !((a == 0) & down) & !(last & !down)
        })
    }

    /// A digit moves one notch in its direction, which turns at either end. The answer: the move as a byte, which is the digit
    /// with the top bit set for down, and the digit's notch then.
    #[inline]
    pub fn advance(&mut self, i: usize) -> Step {
        let (m, digit, down) = (self.radices[i], &mut self.word[i], &mut self.downs[i]);
        let byte = (i as u8 + 1) | (u8::from(*down) << 7);
        *digit = if *down { *digit - 1 } else { *digit + 1 };
        *down ^= (*digit == 0) | (*digit == m - 1);
        Step::Moved(byte, *digit)
    }
}

/// Whether a test holds at each index of an array: with no way out in between, so it runs on vectors.
#[inline]
pub fn all(test: impl Fn(usize) -> bool) -> bool {
    (0..MOST_DIGITS).fold(true, |ok, i| ok & test(i))
}

/// Lent radices as an array: digit 1 first, and past the last one as if locked.
pub fn reversed(radices: &[u8]) -> [u8; MOST_DIGITS] {
    let mut array = [1; MOST_DIGITS];
    for (to, &from) in array.iter_mut().zip(radices.iter().rev()) {
        *to = from;
    }
    array
}

/// The part of lent memory for t moves, where there is so much of it.
#[inline]
pub fn room_for(t: u64, out: &mut [u8]) -> Option<&mut [u8]> {
    out.get_mut(..usize::try_from(t).ok()?)
}

/// Calls `step` until `out` is full or it does not move: one byte a move.
#[inline]
pub fn put_moves(out: &mut [u8], mut step: impl FnMut() -> Step) -> Run {
    let mut moves = 0;
    for byte in out {
        match step() {
            Step::Moved(next, _) => *byte = next,
            Step::End => return Run::Ended(moves),
            Step::Refused(number) => return Run::Stopped(moves, number),
        }
        moves += 1;
    }
    Run::Made(moves)
}
