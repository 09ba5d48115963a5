//! What both engines keep: the survey, its moving sluices, the setting and the directions, sluice 1 first.
use super::survey::{self, Change, MOST_SLUICES};
use super::Answer;

/// n and `moving` may be anything in a made-up state, so they are not the arrays' lengths. `number` holds the moving sluices in
/// rising order, and `moving` says how many they are.
#[derive(Clone, Debug, PartialEq, Eq)]
pub struct Sluices {
    pub n: usize,
    pub radix: [u8; MOST_SLUICES],
    pub moving: usize,
    pub number: [u8; MOST_SLUICES],
    pub digit: [u8; MOST_SLUICES],
    pub down: [bool; MOST_SLUICES],
}

impl Sluices {
    /// No survey, all else as at the start.
    pub fn closed() -> Sluices {
        Sluices {
            n: 0,
            radix: [0; MOST_SLUICES],
            moving: 0,
            number: [0; MOST_SLUICES],
            digit: [0; MOST_SLUICES],
            down: [false; MOST_SLUICES],
        }
    }

    /// The start of a survey that passed its checks: all shut, all upward.
    pub fn fresh(counts: &[u8]) -> Sluices {
        let mut sluices = Sluices::closed();
        sluices.n = counts.len();
        for (radix, &m) in sluices.radix.iter_mut().zip(counts.iter().rev()) {
            *radix = m;
        }
        sluices.set_moving(&survey::moving(counts));
        sluices
    }

    /// At the setting of a rank, with the directions that the walk from the start has there. That walk has made as many changes
    /// as the rank says. Change j is a sluice's where P divides j and Q does not: P is the product of the counts below it, and
    /// Q has its own besides.
    pub fn at(counts: &[u8], setting: &[u8], rank: u64) -> Sluices {
        let mut sluices = Sluices::fresh(counts);
        let mut p = 1;
        for (x, &a) in setting.iter().rev().enumerate() {
            let m = sluices.radix[x];
            let q = p * u64::from(m);
            (sluices.digit[x], sluices.down[x]) = (a, goes_down(m, rank / p - rank / q));
            p = q;
        }
        sluices
    }

    /// The moving sluices are these; places past them stay as they are.
    pub fn set_moving(&mut self, numbers: &[u8]) {
        self.moving = numbers.len();
        self.number[..numbers.len()].copy_from_slice(numbers);
    }

    /// The notch counts in the order in which they are handed in, sluice n first; none where n is over 48.
    pub fn counts(&self) -> Vec<u8> {
        self.radix
            .get(..self.n)
            .map_or(vec![], |radix| radix.iter().rev().copied().collect())
    }

    /// N, if the survey could be opened.
    pub fn size(&self) -> Option<u64> {
        survey::size(self.radix.get(..self.n)?).ok()
    }

    /// The moving sluices are those of the survey with a count over 1, in rising order.
    pub fn moving_in_range(&self) -> bool {
        let moving = (1..=self.n).filter(|&i| self.radix[i - 1] > 1);
        let numbers = self.number.get(..self.moving);
        numbers.is_some_and(|numbers| numbers.iter().map(|&k| usize::from(k)).eq(moving))
    }

    /// Each notch below its count; the direction up at 0 and down at the last notch. For a locked sluice that is notch 0 and
    /// direction up, as nothing is asked of it at its last notch.
    pub fn setting_in_range(&self) -> bool {
        (0..self.n).all(|x| {
            let (a, m, down) = (self.digit[x], self.radix[x], self.down[x]);
            let locked = m == 1;
            a < m && !(a == 0 && down) && (locked || !(a == m - 1 && !down))
        })
    }

    /// The sluice that is the i-th of the moving ones, from 1.
    pub fn sluice(&self, i: usize) -> usize {
        self.number[i - 1].into()
    }

    /// The notch counts of the moving sluices, in rising order.
    pub fn moving_counts(&self) -> Vec<u8> {
        (1..=self.moving).map(|i| self.radix[self.sluice(i) - 1]).collect()
    }

    /// Sluice k moves one notch in its direction, which turns at either end. The answer has its entry in the new setting.
    pub fn move_sluice(&mut self, k: usize) -> Answer {
        let x = k - 1;
        let down = self.down[x];
        self.digit[x] = if down { self.digit[x] - 1 } else { self.digit[x] + 1 };
        if self.digit[x] == 0 || self.digit[x] == self.radix[x] - 1 {
            self.down[x] = !down;
        }
        Answer::Moved(Change { sluice: k as u8, down }, self.digit[x])
    }
}

/// Whether a sluice goes down after so many moves of its own: it begins upward, and every m - 1 of them bring it to an end,
/// where it turns. A locked one has none and stays upward.
fn goes_down(m: u8, moves: u64) -> bool {
    m > 1 && moves / u64::from(m - 1) % 2 == 1
}
