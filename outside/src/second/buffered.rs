//! The buffered engine: document 01, "The buffered engine", document 02, requests 3, 4, 6 and 8, and document 004, section 10.
//!
//! Work steps, counter and queue run over the moving sluices alone: place i is the i-th of them, which is sluice i only if none
//! before it is locked.
use super::run::{self, Ran};
use super::sluices::Sluices;
use super::survey::{self, MOST_SLUICES};
use super::{Answer, Refusal};

pub const MOST_CAPACITY: usize = 32;

/// `queued` and `place` may be anything in a made-up state. The oldest entry is the first.
#[derive(Clone, Debug, PartialEq, Eq)]
pub struct Walk {
    pub sluices: Sluices,
    pub capacity: usize,
    pub counter: [u8; MOST_SLUICES + 1],
    pub place: usize,
    pub queued: usize,
    pub entry: [u8; MOST_CAPACITY],
    pub steps: u64,
    pub moves: u64,
    pub ended: bool,
}

/// Refusal 5.
pub fn check_capacity(capacity: usize) -> Result<(), Refusal> {
    if capacity == 0 || capacity > MOST_CAPACITY {
        return Err(5);
    }
    Ok(())
}

impl Walk {
    fn fresh(sluices: Sluices, capacity: usize) -> Walk {
        Walk {
            sluices,
            capacity,
            counter: [0; MOST_SLUICES + 1],
            place: 1,
            queued: 0,
            entry: [0; MOST_CAPACITY],
            steps: 0,
            moves: 0,
            ended: false,
        }
    }

    /// The state before any opening.
    pub fn closed() -> Walk {
        Walk::fresh(Sluices::closed(), 0)
    }

    /// A fresh walk.
    pub fn open(counts: &[u8], capacity: usize) -> Result<Walk, Refusal> {
        survey::size(counts)?;
        check_capacity(capacity)?;
        Ok(Walk::fresh(Sluices::fresh(counts), capacity))
    }

    /// A walk picked up at a setting: j is its rank, and the buffer is filled ahead.
    pub fn resume(counts: &[u8], capacity: usize, setting: &[u8]) -> Result<Walk, Refusal> {
        let mut walk = Walk::open(counts, capacity)?;
        walk.moves = survey::rank(counts, setting)?;
        walk.sluices = Sluices::at(counts, setting, walk.moves);
        walk.count_to(walk.moves);
        walk.fill();
        Ok(walk)
    }

    /// The counter holds the mixed-radix digits of a rank, which is below N: so its last place stays 0.
    fn count_to(&mut self, rank: u64) {
        let mut left = rank;
        for i in 1..self.last_place() {
            let m = u64::from(self.count(i));
            self.counter[i - 1] = (left % m) as u8;
            left /= m;
        }
    }

    /// Work steps until the queue is full or holds the end entry. They are not counted.
    fn fill(&mut self) {
        while self.queued < self.capacity && !self.holds_end() {
            self.work();
        }
        self.steps = 0;
    }

    fn holds_end(&self) -> bool {
        let end = self.last_place() as u8;
        self.entry[..self.queued].contains(&end)
    }

    /// The counter's last place, one more than the moving sluices. Its entry is the end.
    pub fn last_place(&self) -> usize {
        self.sluices.moving + 1
    }

    /// The notch count of the i-th moving sluice; at the last place 2.
    pub fn count(&self, i: usize) -> u8 {
        if i == self.last_place() {
            2
        } else {
            self.sluices.radix[self.sluices.sluice(i) - 1]
        }
    }

    /// Whether a handed-in state is in range.
    fn in_range(&self) -> bool {
        let Some(size) = self.sluices.size() else { return false };
        let places = 1..=self.last_place();
        let most_steps = 2 * u128::from(self.moves) + if self.ended { 2 } else { 0 };
        check_capacity(self.capacity).is_ok()
            && self.sluices.moving_in_range()
            && self.sluices.setting_in_range()
            && places.clone().all(|i| self.counter[i - 1] < self.count(i))
            && places.contains(&self.place)
            && self.queued <= self.capacity
            && self.entry[..self.queued].iter().all(|&k| places.contains(&k.into()))
            && self.moves <= size - 1
            && u128::from(self.steps) <= most_steps
    }

    /// One work step.
    fn work(&mut self) {
        let i = self.place;
        let b = self.counter[i - 1];
        if i == self.last_place() && b == 1 {
            return; // idle, no carry past the last place
        }
        if b == self.count(i) - 1 {
            self.counter[i - 1] = 0;
            self.place += 1;
        } else if self.queued < self.capacity {
            self.counter[i - 1] += 1;
            self.entry[self.queued] = i as u8;
            self.queued += 1;
            self.place = 1;
        } else {
            return; // idle, the queue is full
        }
        self.steps += 1;
    }

    /// The oldest entry, if there is one.
    fn remove(&mut self) -> Option<usize> {
        if self.queued == 0 {
            return None;
        }
        let oldest = self.entry[0];
        self.entry.rotate_left(1);
        self.queued -= 1;
        Some(oldest.into())
    }

    /// One call.
    pub fn step(&mut self) -> Answer {
        if !self.in_range() {
            return Answer::Refused(7);
        }
        if self.ended {
            return Answer::End;
        }
        let mut next = self.clone();
        next.work();
        next.work();
        let Some(k) = next.remove() else { return Answer::Refused(10) };
        let answer = if k == next.last_place() {
            next.ended = true;
            Answer::End
        } else {
            let sluice = next.sluices.sluice(k);
            next.moves += 1;
            next.sluices.move_sluice(sluice)
        };
        *self = next;
        answer
    }

    /// A run of at most t moves, their bytes put into `room`.
    pub fn run(&mut self, t: u64, room: usize) -> Ran {
        run::single_calls(self.in_range(), || self.step(), t, room)
    }
}

/// A run of a fresh walk.
pub fn moves(counts: &[u8], capacity: usize, t: u64, room: usize) -> Ran {
    run::of_opened(Walk::open(counts, capacity), |walk| walk.run(t, room))
}

/// A run of a walk picked up at a setting.
pub fn resumed_moves(counts: &[u8], capacity: usize, setting: &[u8], t: u64, room: usize) -> Ran {
    run::of_opened(Walk::resume(counts, capacity, setting), |walk| walk.run(t, room))
}
