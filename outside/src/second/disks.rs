//! The disk engine: document 01, "The disk engine", document 02, requests 3, 4 and 8, and document 004, sections 7 and 8.
//!
//! Disk i is the i-th of the moving sluices; a locked one is no disk.
use super::run::{self, Ran};
use super::sluices::Sluices;
use super::survey::{self, MOST_SLUICES};
use super::{Answer, Refusal};

/// `turn` and the pegs may be anything in a made-up state. The pegs count for even counts only, one for each disk.
#[derive(Clone, Debug, PartialEq, Eq)]
pub struct Disks {
    pub sluices: Sluices,
    pub turn: usize,
    pub peg: [u8; MOST_SLUICES],
}

/// The two forms of the engine.
#[derive(Clone, Copy, Debug, PartialEq, Eq)]
enum Form {
    /// Three pegs.
    Odd,
    /// A ring of m + 1 pegs.
    Even(u8),
}

/// The form for the moving sluices' counts, or refusal 6. With none it is the odd one.
fn form(counts: &[u8]) -> Result<Form, Refusal> {
    if counts.iter().all(|m| m % 2 == 1) {
        return Ok(Form::Odd);
    }
    let m = counts[0];
    if m % 2 == 0 && counts.iter().all(|&other| other == m) {
        Ok(Form::Even(m))
    } else {
        Err(6)
    }
}

impl Disks {
    fn fresh(sluices: Sluices) -> Disks {
        Disks {
            sluices,
            turn: 0,
            peg: [0; MOST_SLUICES],
        }
    }

    /// The state before any opening.
    pub fn closed() -> Disks {
        Disks::fresh(Sluices::closed())
    }

    /// A fresh walk.
    pub fn open(counts: &[u8]) -> Result<Disks, Refusal> {
        survey::size(counts)?;
        let sluices = Sluices::fresh(counts);
        form(&sluices.moving_counts())?;
        Ok(Disks::fresh(sluices))
    }

    /// The form, if a handed-in state is in range.
    fn form_in_range(&self) -> Option<Form> {
        self.sluices.size()?;
        if !self.sluices.moving_in_range() {
            return None;
        }
        let form = form(&self.sluices.moving_counts()).ok()?;
        let within = match form {
            Form::Odd => self.turn <= 1,
            Form::Even(m) => self.turn < m.into() && self.peg[..self.sluices.moving].iter().all(|&peg| peg <= m),
        };
        (within && self.sluices.setting_in_range()).then_some(form)
    }

    /// Odd counts: left pair on turn 0, right pair on turn 1. A disk is off the left pair where it is on the right peg.
    fn choose_odd(&self) -> Option<usize> {
        let s = &self.sluices;
        (1..=s.moving).find(|&disk| {
            let x = s.sluice(disk) - 1;
            let off = if self.turn == 0 { s.radix[x] - 1 } else { 0 };
            s.digit[x] != off
        })
    }

    /// Even counts: disk 1 in its sweep, then the smallest disk that is not on its peg.
    fn choose_even(&self, m: u8) -> Option<usize> {
        if self.turn < usize::from(m) - 1 {
            return Some(1);
        }
        (1..=self.sluices.moving).find(|&disk| self.peg[disk - 1] != self.peg[0])
    }

    /// A disk goes one peg round the ring of m + 1: clockwise if its number among the disks is odd, else the other way.
    fn go_round(&mut self, disk: usize, m: u8) {
        let pegs = u16::from(m) + 1;
        let onward = if disk % 2 == 1 { 1 } else { pegs - 1 };
        self.peg[disk - 1] = ((u16::from(self.peg[disk - 1]) + onward) % pegs) as u8;
    }

    /// One call.
    pub fn step(&mut self) -> Answer {
        let Some(form) = self.form_in_range() else {
            return Answer::Refused(7);
        };
        let chosen = match form {
            Form::Odd => self.choose_odd(),
            Form::Even(m) => self.choose_even(m),
        };
        let Some(disk) = chosen else { return Answer::End };
        match form {
            Form::Odd => self.turn = 1 - self.turn,
            Form::Even(m) => {
                self.turn = (self.turn + 1) % usize::from(m);
                self.go_round(disk, m);
            }
        }
        let sluice = self.sluices.sluice(disk);
        self.sluices.move_sluice(sluice)
    }

    /// A run of at most t moves, their bytes put into `room`.
    pub fn run(&mut self, t: u64, room: usize) -> Ran {
        run::single_calls(self.form_in_range().is_some(), || self.step(), t, room)
    }
}

/// A run of a fresh walk.
pub fn moves(counts: &[u8], t: u64, room: usize) -> Ran {
    run::of_opened(Disks::open(counts), |disks| disks.run(t, room))
}
