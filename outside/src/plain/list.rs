//! The writer of words: each is the one before it with one byte changed, found by document 004's loopless algorithm.
use super::words::{counted, put_word, MOST_DIGITS};
use crate::capi::Answer;

/// The focus pointers of the digits that move, numbered from 0 among these, the fastest first; past the last one stands the
/// end. Of each also its place in a word, and whether it goes down.
struct Focus {
    pointers: [usize; MOST_DIGITS + 1],
    places: [usize; MOST_DIGITS],
    downs: [bool; MOST_DIGITS],
}

impl Focus {
    /// As it is at a rank. A digit at the end of its sweep has turned already and rests until a slower one moves; the first of
    /// a block of resting digits points past the block, every other digit to itself.
    fn at(radices: &[u8], rank: u64) -> Focus {
        let mut focus = Focus {
            pointers: std::array::from_fn(|i| i),
            places: [0; MOST_DIGITS],
            downs: [false; MOST_DIGITS],
        };
        let mut slower = rank;
        let mut block = 0;
        let moving = radices.iter().enumerate().rev().filter(|(_, &m)| m > 1);
        for (i, (place, &m)) in moving.enumerate() {
            let m = u64::from(m);
            let rests = slower % m == m - 1;
            slower /= m;
            focus.places[i] = place;
            focus.downs[i] = (slower % 2 == 1) != rests;
            if rests {
                focus.pointers[block] = i + 1;
            } else {
                block = i + 1;
            }
        }
        focus
    }

    /// The number of the digit that moves next.
    #[inline]
    fn next(&mut self) -> usize {
        let i = self.pointers[0];
        self.pointers[0] = 0;
        i
    }

    /// The digit of that number has come to either end: it turns, and rests.
    #[inline]
    fn rest(&mut self, i: usize) {
        self.downs[i] = !self.downs[i];
        self.pointers[i] = self.pointers[i + 1];
        self.pointers[i + 1] = i + 1;
    }
}

/// `count` words from rank `from` on, one after another, at the start of `out`: refusals 2, 3, 4, 8 and 9.
#[inline(never)]
pub fn list(radices: &[u8], from: u64, count: u64, out: &mut [u8]) -> Answer {
    let total = counted(radices)?;
    if from > total || count > total - from {
        return Err(8);
    }
    let n = radices.len();
    if count > (out.len() / n) as u64 {
        return Err(9);
    }
    let bytes = count as usize * n;
    if count > 0 {
        put_words(radices, from, &mut out[..bytes]);
    }
    Ok(bytes as u64)
}

/// Fills `out`, which has room for one word or more.
fn put_words(radices: &[u8], from: u64, out: &mut [u8]) {
    let n = radices.len();
    let mut focus = Focus::at(radices, from);
    let (mut word, mut rest) = out.split_at_mut(n);
    put_word(radices, from, word);
    while !rest.is_empty() {
        let (next, after) = rest.split_at_mut(n);
        next.copy_from_slice(word);
        let i = focus.next();
        let place = focus.places[i];
        let digit = if focus.downs[i] { next[place] - 1 } else { next[place] + 1 };
        next[place] = digit;
        if digit == 0 || digit == radices[place] - 1 {
            focus.rest(i);
        }
        (word, rest) = (next, after);
    }
}
