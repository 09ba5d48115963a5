//! Tide windows, line by line. Each line is read in the ordinary way, byte by byte, and for comparison on words of eight bytes
//! too (tide_words.rs).
use super::tide_words;
use crate::capi::Answer;

/// `2031-04-07,05:12,H` and a newline.
pub(super) const LINE: usize = 19;
const WAIT: u32 = 60;
const MOVE: u32 = 4;
const MINUTES_OF_DAY: u32 = 1440;

/// In a common year and in a leap year, by month, of which 1 to 12 are there: the days before it, and its own.
const MONTHS: [[(u16, u16); 13]; 2] = [months(28), months(29)];

const fn months(february: u16) -> [(u16, u16); 13] {
    let lengths = [0, 31, february, 31, 30, 31, 30, 31, 31, 30, 31, 30, 31];
    let mut months = [(0, 0); 13];
    let (mut before, mut month) = (0, 1);
    while month <= 12 {
        months[month] = (before, lengths[month]);
        before += lengths[month];
        month += 1;
    }
    months
}

/// The minute from 2000-01-01 00:00 on, if there is such a date and time. In these hundred years every fourth is a leap year.
#[inline]
pub(super) fn minute_from_2000(year: u32, month: u32, day: u32, hour: u32, minute: u32) -> Option<u32> {
    let (before, length) = *MONTHS[usize::from(year % 4 == 0)].get(month as usize)?;
    // Month 0 has no day.
    if day < 1 || day > length.into() || hour > 23 || minute > 59 {
        return None;
    }
    let days = 365 * year + year.div_ceil(4) + u32::from(before) + day - 1;
    Some(days * MINUTES_OF_DAY + 60 * hour + minute)
}

/// Whether a letter says high water, if it is one of the two.
#[inline]
pub(super) fn is_high(letter: u8) -> Option<bool> {
    match letter {
        b'H' => Some(true),
        b'L' => Some(false),
        _ => None,
    }
}

/// The number of two digits. Both characters 0 come off at once: that takes less time.
#[inline]
fn two(tens: u8, ones: u8) -> Option<u32> {
    if !tens.is_ascii_digit() || !ones.is_ascii_digit() {
        return None;
    }
    Some(10 * u32::from(tens) + u32::from(ones) - 11 * u32::from(b'0'))
}

/// The minute of a line, and whether it is a high water. The years are 2000 to 2099, so the first two digits are fixed.
#[inline]
fn tide(line: &[u8; LINE]) -> Option<(u32, bool)> {
    let [b'2', b'0', y, y1, b'-', m, m1, b'-', d, d1, b',', h, h1, b':', n, n1, b',', letter, b'\n'] = *line else {
        return None;
    };
    let minute = minute_from_2000(two(y, y1)?, two(m, m1)?, two(d, d1)?, two(h, h1)?, two(n, n1)?)?;
    Some((minute, is_high(letter)?))
}

/// Each high water with its low water, in file order, by a reader of lines: refusals 12 and 13. A 12 may come after what is a
/// 13, so only it ends the pass.
#[inline]
fn falls(file: &[u8], read: impl Fn(&[u8; LINE]) -> Option<(u32, bool)>, mut each: impl FnMut(u32, u32)) -> Result<(), u8> {
    let lines = file.chunks_exact(LINE);
    if !lines.remainder().is_empty() {
        return Err(12);
    }
    let mut tides = lines.map(|line| read(line.try_into().expect("a chunk is as long")).ok_or(12));
    let Some(first) = tides.next() else { return Ok(()) };
    let (mut before, mut was_high) = first?;
    let mut ordered = true;
    for tide in tides {
        let (minute, high) = tide?;
        ordered &= before < minute && was_high != high;
        if was_high {
            each(before, minute);
        }
        (before, was_high) = (minute, high);
    }
    if ordered {
        Ok(())
    } else {
        Err(13)
    }
}

/// How many moves fit. (In a file that will be refused the low water may be the earlier.)
#[inline]
fn moves(high: u32, low: u32) -> u32 {
    low.saturating_sub(high + WAIT) / MOVE
}

#[inline]
fn counts_by(file: &[u8], read: impl Fn(&[u8; LINE]) -> Option<(u32, bool)>, counts: &mut [u32]) -> Answer {
    let mut gathered = Vec::with_capacity(file.len() / (2 * LINE) + 1);
    falls(file, read, |high, low| gathered.push(moves(high, low)))?;
    counts.get_mut(..gathered.len()).ok_or(9)?.copy_from_slice(&gathered);
    Ok(gathered.len() as u64)
}

#[inline]
fn may_begin_by(file: &[u8], read: impl Fn(&[u8; LINE]) -> Option<(u32, bool)>, minute: u64) -> Result<bool, u8> {
    // Where the sum would be past the last number there is it stays at that, and no window ends so late.
    let end = minute.saturating_add(MOVE.into());
    let mut found = false;
    falls(file, read, |high, low| {
        found |= u64::from(high + WAIT) <= minute && end <= low.into()
    })?;
    Ok(found)
}

/// How many moves fit in each window, at the start of `counts`; the number of windows: refusals 12, 13 and 9. Gathered in one
/// pass and copied out when nothing is refused.
#[inline(never)]
pub fn counts(file: &[u8], counts: &mut [u32]) -> Answer {
    counts_by(file, tide, counts)
}

/// The same without memory of its own: the first pass finds what is to be refused, the second writes.
#[inline(never)]
pub fn counts_in_two_passes(file: &[u8], counts: &mut [u32]) -> Answer {
    let mut windows = 0;
    falls(file, tide, |_, _| windows += 1)?;
    let mut places = counts.get_mut(..windows).ok_or(9)?.iter_mut();
    falls(file, tide, |high, low| {
        if let Some(place) = places.next() {
            *place = moves(high, low);
        }
    })?;
    Ok(windows as u64)
}

/// `counts` with lines read on words of eight bytes.
#[inline(never)]
pub fn counts_on_words(file: &[u8], counts: &mut [u32]) -> Answer {
    counts_by(file, tide_words::tide, counts)
}

/// Whether a move may begin at a minute: refusals 12 and 13.
#[inline(never)]
pub fn may_begin(file: &[u8], minute: u64) -> Result<bool, u8> {
    may_begin_by(file, tide, minute)
}

/// `may_begin` with lines read on words of eight bytes.
#[inline(never)]
pub fn may_begin_on_words(file: &[u8], minute: u64) -> Result<bool, u8> {
    may_begin_by(file, tide_words::tide, minute)
}
