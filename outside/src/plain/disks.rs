//! The disk engine on a state by reference: single calls, and runs of moves, each of which tests the range rule once.
use super::engine::{all, put_moves, room_for, Digits, Step, INDICES};
use super::words::MOST_DIGITS;
use crate::run::Run;

/// The state. For odd radices the turn is the pair of pegs, and pegs follow from digits; for even ones it counts disk 1's
/// sweep. The disks are the digits that move, and each has a peg.
pub struct Disks {
    digits: Digits,
    pegs: [u8; MOST_DIGITS],
    turn: u8,
}

/// The radix of disk 1, or 1 where there is no disk.
#[inline]
fn first_radix(digits: &Digits) -> u8 {
    if digits.moving.count == 0 {
        1
    } else {
        digits.radices[digits.at_place(0)]
    }
}

/// Whether the game is played with these radices, of which the first disk's is given. A locked digit's is 1, so odd, and equal
/// to any. Looked at without a way out in between.
#[inline]
fn playable(radices: &[u8; MOST_DIGITS], first: u8) -> bool {
    let odd = radices.iter().fold(true, |ok, &m| ok & (m % 2 == 1));
    let equal = radices.iter().fold(true, |ok, &m| ok & ((m == first) | (m == 1)));
    odd | (equal & (first % 2 == 0))
}

impl Disks {
    /// Refusals 2, 3, 4 and 6.
    pub fn open(radices: &[u8]) -> Result<Disks, u8> {
        let digits = Digits::open(radices)?;
        if !playable(&digits.radices, first_radix(&digits)) {
            return Err(6);
        }
        Ok(Disks {
            digits,
            pegs: [0; MOST_DIGITS],
            turn: 0,
        })
    }

    /// The range rule: the radix of disk 1 where all is in range.
    #[inline]
    fn radix_in_range(&self) -> Option<u8> {
        self.digits.size_in_range()?;
        let m = first_radix(&self.digits);
        let turned = if m % 2 == 1 {
            self.turn < 2
        } else {
            self.turn < m && self.pegs_in_range(m)
        };
        let ok = turned && playable(&self.digits.radices, m) && self.digits.word_in_range();
        ok.then_some(m)
    }

    #[inline]
    fn pegs_in_range(&self, m: u8) -> bool {
        let disks = self.digits.moving.count as u8;
        all(|i| (self.pegs[i] <= m) | (INDICES[i] >= disks))
    }

    /// What a call does with a state in range, given the radix of disk 1.
    #[inline(always)]
    fn call(&mut self, m: u8) -> Step {
        let i = if m % 2 == 1 {
            self.move_on_pair()
        } else {
            self.move_on_ring(m)
        };
        match i {
            Some(i) => self.digits.advance(i),
            None => Step::End,
        }
    }

    /// Odd radices: the index of the digit of the smallest disk on the pair, where there is one; then it is the other pair's
    /// turn. The search goes by indices, as does the next one: made from iterators over the arrays they run on vectors where
    /// there are 32 disks or more, have to wait for the byte that the call before has stored, and take several times as long.
    #[inline]
    fn move_on_pair(&mut self) -> Option<usize> {
        let i = (0..self.digits.n).find(|&i| self.on_pair(i))?;
        self.turn = 1 - self.turn;
        Some(i)
    }

    /// Odd radices: the left pair has no disk at its last notch, the right one none at notch 0. A locked digit is at both, so
    /// it is passed over.
    #[inline]
    fn on_pair(&self, i: usize) -> bool {
        let absent = if self.turn == 0 { self.digits.radices[i] - 1 } else { 0 };
        self.digits.word[i] != absent
    }

    /// Even radices: the index of the digit whose disk moves, where one can: disk 1, and after its sweep the smallest that is
    /// on another peg. The disk goes one peg on, odd ones clockwise and even ones the other way.
    #[inline]
    fn move_on_ring(&mut self, m: u8) -> Option<usize> {
        let sweeps = self.turn < m - 1;
        let disk = if sweeps { 0 } else { self.smallest_elsewhere()? };
        let peg = self.pegs[disk];
        self.pegs[disk] = match (disk % 2 == 0, peg) {
            (true, peg) if peg == m => 0,
            (true, peg) => peg + 1,
            (false, 0) => m,
            (false, peg) => peg - 1,
        };
        self.turn = if sweeps { self.turn + 1 } else { 0 };
        Some(self.digits.at_place(disk))
    }

    #[inline]
    fn smallest_elsewhere(&self) -> Option<usize> {
        (1..self.digits.moving.count).find(|&disk| self.pegs[disk] != self.pegs[0])
    }

    /// For tests of the range rule.
    #[cfg(test)]
    pub fn digits(&mut self) -> &mut Digits {
        &mut self.digits
    }

    /// One call: refusal 7.
    #[inline(never)]
    pub fn step(&mut self) -> Step {
        match self.radix_in_range() {
            Some(m) => self.call(m),
            None => Step::Refused(7),
        }
    }

    /// A run of at most t moves at the start of `out`: refusals 7 and 9.
    #[inline(never)]
    pub fn run(&mut self, t: u64, out: &mut [u8]) -> Run {
        let Some(m) = self.radix_in_range() else {
            return Run::Refused(7);
        };
        match room_for(t, out) {
            Some(out) => put_moves(out, || self.call(m)),
            None => Run::Refused(9),
        }
    }
}

/// A run from the start: refusals 2, 3, 4, 6 and 9.
#[inline(never)]
pub fn run(radices: &[u8], t: u64, out: &mut [u8]) -> Run {
    match Disks::open(radices) {
        Ok(mut disks) => disks.run(t, out),
        Err(number) => Run::Refused(number),
    }
}
