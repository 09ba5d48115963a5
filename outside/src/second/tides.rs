//! Tide windows from the harbour file: document 02, request 1. Minutes are counted from 2000-01-01 00:00.
//!
//! No date is worked out: a table that is made once has the text of each date and of each minute of a day as the file must have
//! them, so a date that does not exist or is written otherwise is one that is not there.
use super::{check_room, Refusal};
use std::collections::HashMap;
use std::sync::OnceLock;

/// Minutes from a high water to the start of its window.
const WAIT: u64 = 60;
/// Minutes that a move takes.
const MOVE: u64 = 4;
const HOURS: u64 = 24;
const MINUTES_OF_HOUR: u64 = 60;
const MINUTES_OF_DAY: u64 = HOURS * MINUTES_OF_HOUR;

#[derive(Clone, Copy, Debug, PartialEq, Eq)]
pub enum Water {
    High,
    Low,
}

#[derive(Clone, Copy, Debug, PartialEq, Eq)]
pub struct Tide {
    pub minute: u64,
    pub water: Water,
}

/// A sluice may move from a minute up to, but not including, another. It is empty where that is not later.
#[derive(Clone, Copy, Debug, PartialEq, Eq)]
pub struct Window {
    pub from: u64,
    pub to: u64,
}

impl Window {
    /// Whether a move that begins here has all its minutes in the window.
    pub fn admits(&self, minute: u64) -> bool {
        minute >= self.from && u128::from(minute) + u128::from(MOVE) <= u128::from(self.to)
    }

    /// How many moves fit: they are put one after another for as long as one more does.
    fn moves(&self) -> u32 {
        let mut moves = 0;
        let mut begin = self.from;
        while self.admits(begin) {
            moves += 1;
            begin += MOVE;
        }
        moves
    }
}

/// Gregorian: every fourth year, of the full centuries every fourth.
fn is_leap(year: u64) -> bool {
    year % 4 == 0 && (year % 100 != 0 || year % 400 == 0)
}

fn days_of_month(year: u64, month: u64) -> u64 {
    match month {
        2 if is_leap(year) => 29,
        2 => 28,
        4 | 6 | 9 | 11 => 30,
        _ => 31,
    }
}

/// The texts of a century's dates and of a day's minutes, in order, and the place of each.
struct Calendar {
    dates: Vec<String>,
    times: Vec<String>,
    days: HashMap<Vec<u8>, u64>,
    minutes: HashMap<Vec<u8>, u64>,
}

/// The place of each of these texts.
fn places(texts: &[String]) -> HashMap<Vec<u8>, u64> {
    texts.iter().map(|text| text.clone().into_bytes()).zip(0..).collect()
}

fn calendar() -> &'static Calendar {
    static MADE: OnceLock<Calendar> = OnceLock::new();
    MADE.get_or_init(|| {
        let mut dates = vec![];
        for year in 2000..=2099 {
            for month in 1..=12 {
                dates.extend((1..=days_of_month(year, month)).map(|day| format!("{year}-{month:02}-{day:02}")));
            }
        }
        let mut times = vec![];
        for hour in 0..HOURS {
            times.extend((0..MINUTES_OF_HOUR).map(|minute| format!("{hour:02}:{minute:02}")));
        }
        Calendar {
            days: places(&dates),
            minutes: places(&times),
            dates,
            times,
        }
    })
}

/// How many minutes there are to the end of 2099.
pub fn minutes_of_century() -> u64 {
    calendar().dates.len() as u64 * MINUTES_OF_DAY
}

/// The lines without their newlines. What follows the last newline is nothing, or else a line without one.
fn lines(file: &[u8]) -> Option<Vec<&[u8]>> {
    let mut parts: Vec<&[u8]> = file.split(|&byte| byte == b'\n').collect();
    let rest = parts.pop()?;
    rest.is_empty().then_some(parts)
}

/// A date, a minute of the day and a letter.
fn read_line(line: &[u8]) -> Option<Tide> {
    let fields: Vec<&[u8]> = line.split(|&byte| byte == b',').collect();
    let [date, time, letter] = fields[..] else { return None };
    let water = match letter {
        b"H" => Water::High,
        b"L" => Water::Low,
        _ => return None,
    };
    let (day, minute) = (calendar().days.get(date)?, calendar().minutes.get(time)?);
    Some(Tide {
        minute: day * MINUTES_OF_DAY + minute,
        water,
    })
}

/// The line of a tide of the century, with its newline.
pub fn line(tide: Tide) -> String {
    let date = &calendar().dates[(tide.minute / MINUTES_OF_DAY) as usize];
    let time = &calendar().times[(tide.minute % MINUTES_OF_DAY) as usize];
    let letter = if tide.water == Water::High { 'H' } else { 'L' };
    format!("{date},{time},{letter}\n")
}

/// The tides of a file: refusal 12 for any line, and only then 13.
fn read(file: &[u8]) -> Result<Vec<Tide>, Refusal> {
    let lines = lines(file).ok_or(12)?;
    let tides: Option<Vec<Tide>> = lines.into_iter().map(read_line).collect();
    let tides = tides.ok_or(12)?;
    let in_order = |pair: &[Tide]| pair[0].minute < pair[1].minute && pair[0].water != pair[1].water;
    if !tides.windows(2).all(in_order) {
        return Err(13);
    }
    Ok(tides)
}

/// The windows in file order: one for each high water with a low water after it, which is then the next tide.
pub fn windows(file: &[u8]) -> Result<Vec<Window>, Refusal> {
    let tides = read(file)?;
    let falls = tides.windows(2).filter(|pair| pair[0].water == Water::High);
    let window = |pair: &[Tide]| Window {
        from: pair[0].minute + WAIT,
        to: pair[1].minute,
    };
    Ok(falls.map(window).collect())
}

/// How many moves fit in each window, written into `room` places.
pub fn counts(file: &[u8], room: usize) -> Result<Vec<u32>, Refusal> {
    let windows = windows(file)?;
    check_room(windows.len() as u128, room)?;
    Ok(windows.iter().map(Window::moves).collect())
}

/// Whether a move may begin at a minute.
pub fn may_begin(file: &[u8], minute: u64) -> Result<bool, Refusal> {
    Ok(windows(file)?.iter().any(|window| window.admits(minute)))
}
