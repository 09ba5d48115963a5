//! Sizes, ranks and words.
use crate::capi::Answer;

pub const MOST_DIGITS: usize = 48;
pub const MOST_WORDS: u64 = 1 << 62;

/// N, the number of words: refusals 2, 3 and 4.
#[inline(never)]
pub fn size(radices: &[u8]) -> Answer {
    counted(radices)
}

/// What `size` answers, for calls that begin with it.
#[inline]
pub fn counted(radices: &[u8]) -> Answer {
    if radices.is_empty() || radices.len() > MOST_DIGITS {
        return Err(2);
    }
    if radices.contains(&0) {
        return Err(3);
    }
    product(radices).ok_or(4)
}

/// No radix is 0, so a product that is over the limit stays there, and one test at the end will do.
#[inline]
fn product(radices: &[u8]) -> Option<u64> {
    radices
        .iter()
        .try_fold(1u64, |p, &m| p.checked_mul(m.into()))
        .filter(|&p| p <= MOST_WORDS)
}

/// A digit as it is after an even rank of the slower ones, from the other end after an odd one.
#[inline]
pub fn reflected(m: u8, slower: u64, digit: u8) -> u8 {
    if slower % 2 == 0 {
        digit
    } else {
        m - 1 - digit
    }
}

/// The rank of a word: refusals 2, 3, 4 and 8.
#[inline(never)]
pub fn rank(radices: &[u8], word: &[u8]) -> Answer {
    counted(radices)?;
    if word.len() != radices.len() {
        return Err(8);
    }
    let mut p = 0;
    for (&m, &a) in radices.iter().zip(word) {
        if a >= m {
            return Err(8);
        }
        p = p * u64::from(m) + u64::from(reflected(m, p, a));
    }
    Ok(p)
}

/// The word of a rank at the start of `out`: refusals 2, 3, 4, 8 and 9.
#[inline(never)]
pub fn word(radices: &[u8], rank: u64, out: &mut [u8]) -> Answer {
    if rank >= counted(radices)? {
        return Err(8);
    }
    let word = out.get_mut(..radices.len()).ok_or(9)?;
    put_word(radices, rank, word);
    Ok(radices.len() as u64)
}

/// The digits from the fastest on: each is a remainder, and the quotient is the rank of the slower ones.
#[inline]
pub fn put_word(radices: &[u8], rank: u64, word: &mut [u8]) {
    let mut q = rank;
    for (&m, a) in radices.iter().zip(word).rev() {
        let b = (q % u64::from(m)) as u8;
        q /= u64::from(m);
        *a = reflected(m, q, b);
    }
}
