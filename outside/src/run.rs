//! How a run of moves comes out. Every side says it in these words, so that they can be compared.

/// The first number is that of the moves made, whose bytes stand.
#[derive(Clone, Copy, Debug, PartialEq, Eq)]
pub enum Run {
    /// All that were wanted.
    Made(u64),
    /// Fewer: then the walk ended.
    Ended(u64),
    /// Fewer: then a call was refused, with this number.
    Stopped(u64, u8),
    /// None: the run was refused as a whole, with this number, and nothing was written.
    Refused(u8),
}

impl Run {
    /// The moves made.
    pub fn moves(self) -> u64 {
        match self {
            Run::Made(moves) | Run::Ended(moves) | Run::Stopped(moves, _) => moves,
            Run::Refused(_) => 0,
        }
    }
}
