//! The buffered engine on a state by reference: single calls, and runs of moves, each of which tests the range rule once.
use super::engine::{all, put_moves, room_for, Digits, Step, INDICES};
use super::words::{reflected, MOST_DIGITS};
use crate::run::Run;

const MOST_ENTRIES: usize = 32;

/// The queue of a state: its oldest entry stands first, so that equal queues are equal bytes. (Its length is a byte because it
/// is compared with those of `INDICES`.)
struct Queue {
    entries: [u8; MOST_ENTRIES],
    len: u8,
}

impl Queue {
    /// Whether the entries lie in 1 to `most`.
    #[inline]
    fn in_range(&self, most: u8) -> bool {
        let places = self.entries.iter().zip(&INDICES);
        places.fold(true, |ok, (&k, &i)| ok & ((1 <= k) & (k <= most) | (i >= self.len)))
    }
}

/// The queue of a run: nothing is shifted. Places are counted on and taken modulo the length, a power of 2.
struct Ring {
    entries: [u8; MOST_ENTRIES],
    first: usize,
    end: usize,
}

impl Ring {
    fn of(queue: &Queue) -> Ring {
        Ring {
            entries: queue.entries,
            first: 0,
            end: queue.len.into(),
        }
    }

    #[inline]
    fn len(&self) -> usize {
        self.end.wrapping_sub(self.first)
    }

    #[inline]
    fn push(&mut self, entry: u8) {
        self.entries[self.end % MOST_ENTRIES] = entry;
        self.end = self.end.wrapping_add(1);
    }

    #[inline]
    fn pop(&mut self) -> u8 {
        let oldest = self.entries[self.first % MOST_ENTRIES];
        self.first = self.first.wrapping_add(1);
        oldest
    }

    fn shifted(mut self) -> Queue {
        let len = self.len() as u8;
        self.entries.rotate_left(self.first % MOST_ENTRIES);
        Queue {
            entries: self.entries,
            len,
        }
    }
}

/// The state but for its queue. The place, like the entries, counts the digits that move alone. The counter has a number for
/// every digit, 0 where it is locked; its last place, after them, is `last`.
struct Core {
    digits: Digits,
    capacity: usize,
    counter: [u8; MOST_DIGITS],
    last: bool,
    place: usize,
    moves: u64,
    steps: u64,
    ended: bool,
}

pub struct Walk {
    core: Core,
    queue: Queue,
}

impl Core {
    /// A work step. The place counts from 0 here; entries count from 1.
    #[inline]
    fn work(&mut self, queue: &mut Ring) {
        if self.place == self.digits.moving.count {
            return self.work_at_last(queue);
        }
        let i = self.digits.at_place(self.place);
        let b = self.counter[i];
        if b == self.digits.radices[i] - 1 {
            self.counter[i] = 0;
            self.place += 1;
        } else if queue.len() < self.capacity {
            self.counter[i] = b + 1;
            self.append(queue);
        } else {
            return;
        }
        self.steps += 1;
    }

    /// A work step at the counter's last place, which counts to 1 and never carries.
    fn work_at_last(&mut self, queue: &mut Ring) {
        if !self.last && queue.len() < self.capacity {
            self.last = true;
            self.append(queue);
            self.steps += 1;
        }
    }

    #[inline]
    fn append(&mut self, queue: &mut Ring) {
        queue.push(self.place as u8 + 1);
        self.place = 0;
    }

    /// The word, as long as the radices, with the rank, its digits in the counter and the directions, all from one pass with
    /// the slowest digit first. A digit at the end of its sweep has turned already. Whether each digit is below its radix.
    #[inline]
    fn put_word(&mut self, word: &[u8]) -> bool {
        let digits = &mut self.digits;
        let mut slower = 0;
        for (i, &a) in (0..digits.n).rev().zip(word) {
            let m = digits.radices[i];
            if a >= m {
                return false;
            }
            let b = reflected(m, slower, a);
            digits.word[i] = a;
            digits.downs[i] = (m > 1) & ((slower % 2 == 1) != (b == m - 1));
            self.counter[i] = b;
            slower = slower * u64::from(m) + u64::from(b);
        }
        self.moves = slower;
        true
    }

    /// The carries since a place, undone.
    fn undo(&mut self, place: usize) {
        self.steps -= (self.place - place) as u64;
        for carried in place..self.place {
            let i = self.digits.at_place(carried);
            self.counter[i] = self.digits.radices[i] - 1;
        }
        self.place = place;
    }

    /// What a call does with a state in range that has not ended.
    #[inline]
    fn call(&mut self, queue: &mut Ring) -> Step {
        let place = self.place;
        self.work(queue);
        self.work(queue);
        if queue.len() == 0 {
            self.undo(place);
            return Step::Refused(10);
        }
        let removed = usize::from(queue.pop()) - 1;
        if removed == self.digits.moving.count {
            self.ended = true;
            return Step::End;
        }
        self.moves += 1;
        self.digits.advance(self.digits.at_place(removed))
    }

    /// The counter, the place that it has come to and the numbers of moves and steps.
    #[inline]
    fn counts_in_range(&self, total: u64) -> bool {
        let counted = all(|i| self.counter[i] < self.digits.radices[i]);
        let placed = self.place <= self.digits.moving.count;
        counted && placed && self.moves < total && self.steps <= 2 * (self.moves + u64::from(self.ended))
    }
}

impl Walk {
    /// Refusals 2 to 5.
    pub fn open(radices: &[u8], capacity: usize) -> Result<Walk, u8> {
        let digits = Digits::open(radices)?;
        if capacity == 0 || capacity > MOST_ENTRIES {
            return Err(5);
        }
        Ok(Walk {
            core: Core {
                digits,
                capacity,
                counter: [0; MOST_DIGITS],
                last: false,
                place: 0,
                moves: 0,
                steps: 0,
                ended: false,
            },
            queue: Queue {
                entries: [0; MOST_ENTRIES],
                len: 0,
            },
        })
    }

    /// Picked up at a word: refusals 2 to 5 and 8.
    pub fn resume(radices: &[u8], capacity: usize, word: &[u8]) -> Result<Walk, u8> {
        let mut walk = Walk::open(radices, capacity)?;
        if word.len() != radices.len() || !walk.core.put_word(word) {
            return Err(8);
        }
        walk.fill();
        Ok(walk)
    }

    /// Work steps until the queue is full or the end is in it; they do not count.
    #[inline]
    fn fill(&mut self) {
        let mut ring = Ring::of(&self.queue);
        while ring.len() < self.core.capacity && !self.core.last {
            self.core.work(&mut ring);
        }
        self.queue = ring.shifted();
        self.core.steps = 0;
    }

    /// The range rule, and where it holds N.
    #[inline]
    fn size_in_range(&self) -> Option<u64> {
        let Walk { core, queue } = self;
        if core.capacity == 0 || core.capacity > MOST_ENTRIES || usize::from(queue.len) > core.capacity {
            return None;
        }
        let total = core.digits.size_in_range()?;
        let most = core.digits.moving.count as u8 + 1;
        let ok = queue.in_range(most) && core.counts_in_range(total) && core.digits.word_in_range();
        ok.then_some(total)
    }

    /// For tests of the range rule.
    #[cfg(test)]
    pub fn digits(&mut self) -> &mut Digits {
        &mut self.core.digits
    }

    /// For tests of made-up states.
    #[cfg(test)]
    pub fn set_moves(&mut self, moves: u64) {
        self.core.moves = moves;
    }

    /// One call: refusals 7 and 10.
    #[inline(never)]
    pub fn step(&mut self) -> Step {
        if self.size_in_range().is_none() {
            return Step::Refused(7);
        }
        if self.core.ended {
            return Step::End;
        }
        let mut ring = Ring::of(&self.queue);
        let step = self.core.call(&mut ring);
        self.queue = ring.shifted();
        step
    }

    /// A run of at most t moves at the start of `out`: refusals 7 and 9, and 10 after the moves before a dry call.
    #[inline(never)]
    pub fn run(&mut self, t: u64, out: &mut [u8]) -> Run {
        let Some(total) = self.size_in_range() else {
            return Run::Refused(7);
        };
        match room_for(t, out) {
            Some(out) if self.core.ended => put_moves(out, || Step::End),
            Some(out) => self.make(out, total),
            None => Run::Refused(9),
        }
    }

    /// A run of a walk in range that has not ended; N is `total`. With move N a made-up state leaves its range, so that a call
    /// after it is refused.
    #[inline]
    fn make(&mut self, out: &mut [u8], total: u64) -> Run {
        let wanted = out.len() as u64;
        let calls = wanted.min(total - self.core.moves);
        let mut ring = Ring::of(&self.queue);
        let run = put_moves(&mut out[..calls as usize], || self.core.call(&mut ring));
        self.queue = ring.shifted();
        match run {
            Run::Made(moves) if moves < wanted => Run::Stopped(moves, 7),
            run => run,
        }
    }
}

/// A run from the start: refusals 2 to 5 and 9, and 10 as above.
#[inline(never)]
pub fn run(radices: &[u8], capacity: usize, t: u64, out: &mut [u8]) -> Run {
    match Walk::open(radices, capacity) {
        Ok(mut walk) => walk.run(t, out),
        Err(number) => Run::Refused(number),
    }
}

/// A run from a word: refusals 2 to 5, 8 and 9, and 10 as above.
#[inline(never)]
pub fn resumed_run(radices: &[u8], capacity: usize, word: &[u8], t: u64, out: &mut [u8]) -> Run {
    match Walk::resume(radices, capacity, word) {
        Ok(mut walk) => walk.run(t, out),
        Err(number) => Run::Refused(number),
    }
}
