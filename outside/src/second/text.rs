//! The text of the program `walk`.
use super::buffered::Walk;
use super::survey::{self, Change};
use super::Answer;

const MOST_LINES: u64 = 4096;

/// All that the program prints for its input.
pub fn output(input: &[u8]) -> String {
    let Some(counts) = read_line(input) else {
        return "unread\n".into();
    };
    match survey::size(&counts) {
        Err(number) => format!("refused {number}\n"),
        Ok(size) if size > MOST_LINES => "long\n".into(),
        Ok(size) => walk_text(&counts, size),
    }
}

/// The counts of the first line; what follows the newline is ignored.
fn read_line(input: &[u8]) -> Option<Vec<u8>> {
    let newline = input.iter().position(|&byte| byte == b'\n')?;
    if newline == 0 {
        return Some(vec![]);
    }
    input[..newline].split(|&byte| byte == b' ').map(read_count).collect()
}

/// One to three digits, up to 255.
fn read_count(digits: &[u8]) -> Option<u8> {
    if !(1..=3).contains(&digits.len()) || !digits.iter().all(u8::is_ascii_digit) {
        return None;
    }
    let value = digits.iter().fold(0, |value, digit| 10 * value + u16::from(digit - b'0'));
    value.try_into().ok()
}

/// Half of the moving sluices, rounded up: enough for a walk not to run dry. 1 where none moves.
fn capacity(counts: &[u8]) -> usize {
    survey::moving(counts).len().div_ceil(2).max(1)
}

/// The walk of the buffered engine.
fn walk_text(counts: &[u8], size: u64) -> String {
    let mut walk = Walk::open(counts, capacity(counts)).expect("the survey was checked");
    let mut text = format!("sluices {} settings {size}\n0 {} start\n", counts.len(), setting_text(&walk));
    loop {
        match walk.step() {
            Answer::Moved(change, _) => text += &move_text(&walk, change),
            Answer::End => return text + &format!("end {}\n", size - 1),
            Answer::Refused(number) => panic!("refusal {number} in the walk of {counts:?}, though the capacity is enough"),
        }
    }
}

/// A line: rank, setting, sluice moved, direction.
fn move_text(walk: &Walk, change: Change) -> String {
    let direction = if change.down { "down" } else { "up" };
    format!("{} {} {} {direction}\n", walk.moves, setting_text(walk), change.sluice)
}

/// The notches, sluice n first, joined by points.
fn setting_text(walk: &Walk) -> String {
    let notches: Vec<String> = walk.sluices.digit[..walk.sluices.n].iter().rev().map(u8::to_string).collect();
    notches.join(".")
}
