//! How long a sluice rests: document 02, request 5. All is worked out from the notch counts alone; no walk is followed.
use super::survey;

/// What a survey's counts say of one of its sluices: N, and P and Q as document 02 calls them.
#[derive(Clone, Copy, Debug, PartialEq, Eq)]
pub struct Rests {
    size: u64,
    p: u64,
    q: u64,
}

impl Rests {
    /// Sluice k, from 1, of a survey that can be opened.
    pub fn of(counts: &[u8], k: usize) -> Rests {
        let p = product_below(counts, k);
        Rests {
            size: survey::size(counts).expect("the survey can be opened"),
            p,
            q: p * u64::from(counts[counts.len() - k]),
        }
    }

    /// The change that is its first move. A locked sluice, for which Q is P, has none.
    pub fn first_move(&self) -> Option<u64> {
        (self.q > self.p).then_some(self.p)
    }

    /// How many changes apart two of its moves in succession are: P, or 2P where it turns.
    pub fn rest(&self, turns: bool) -> u64 {
        if turns {
            2 * self.p
        } else {
            self.p
        }
    }

    /// How often it moves over a whole survey; a locked one never.
    pub fn moves_in_all(&self) -> u64 {
        self.size / self.p - self.size / self.q
    }

    /// Whether change j, from 1 to N - 1, is a move of it: P divides j and Q does not. First move and rests come to this, as it
    /// turns after every m - 1 moves and skips a multiple of P there, which is one of Q.
    pub fn moves_at(&self, j: u64) -> bool {
        j.is_multiple_of(self.p) && !j.is_multiple_of(self.q)
    }

    /// All changes that are moves of it, for surveys that are small enough to be written down.
    pub fn changes(&self) -> Vec<u64> {
        (1..self.size).filter(|&j| self.moves_at(j)).collect()
    }
}

/// The product of the counts of the moving sluices below sluice k.
fn product_below(counts: &[u8], k: usize) -> u64 {
    let below = counts.iter().rev().take(k - 1);
    below.filter(|&&m| m > 1).map(|&m| u64::from(m)).product()
}
