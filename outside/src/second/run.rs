//! A run of moves in one call: document 02, request 3.
use super::{check_room, Answer, Refusal};
use crate::run::Run;

/// How a run comes out, and the bytes of the moves that it made.
pub type Ran = (Run, Vec<u8>);

fn refused(number: Refusal) -> Ran {
    (Run::Refused(number), vec![])
}

/// A run of at most t moves into `room` bytes: as many single calls, up to the first that does not move. Whether the state
/// handed in is in range is asked beforehand, as a run of no moves has no call that would tell.
pub fn single_calls(in_range: bool, mut step: impl FnMut() -> Answer, t: u64, room: usize) -> Ran {
    if !in_range {
        return refused(7);
    }
    if let Err(number) = check_room(t.into(), room) {
        return refused(number);
    }
    let mut bytes = vec![];
    for made in 0..t {
        match step() {
            Answer::Moved(change, _) => bytes.push(change.byte()),
            Answer::End => return (Run::Ended(made), bytes),
            Answer::Refused(number) => return (Run::Stopped(made, number), bytes),
        }
    }
    (Run::Made(t), bytes)
}

/// A run of a state that was just opened or picked up, unless that was refused.
pub fn of_opened<State>(opened: Result<State, Refusal>, run: impl FnOnce(&mut State) -> Ran) -> Ran {
    match opened {
        Ok(mut state) => run(&mut state),
        Err(number) => refused(number),
    }
}
