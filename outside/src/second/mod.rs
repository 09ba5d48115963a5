//! The survey walk a second time: written from documents 01, 02 and 004, it shares nothing with the crates.
//!
//! It is plain before it is fast: each function says a sentence of document 01, or of document 02 where that has changed it. As
//! there, counts and settings as bytes have sluice n first; the arrays of an engine's state have sluice 1 first.
pub mod buffered;
pub mod disks;
pub mod log;
pub mod rests;
pub mod run;
pub mod sluices;
pub mod survey;
pub mod text;
pub mod tides;

#[cfg(test)]
mod rest_tests;
#[cfg(test)]
mod tests;
#[cfg(test)]
mod tide_tests;

/// A refusal is its number in document 01, "Turned down, in checking order", or in the request of document 02 that adds it.
pub type Refusal = u8;

/// What a call of an engine answers. A move names the notch that its sluice has come to: document 02, request 8.
#[derive(Clone, Copy, Debug, PartialEq, Eq)]
pub enum Answer {
    Moved(survey::Change, u8),
    End,
    Refused(Refusal),
}

/// Refusal 9: the lent output is shorter than the bytes, or the counts of request 1, to be written.
fn check_room(wanted: u128, room: usize) -> Result<(), Refusal> {
    if wanted > room as u128 {
        return Err(9);
    }
    Ok(())
}
