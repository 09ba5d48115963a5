//! A line of tides read on two words of eight bytes, all digits of a word at once.
use super::tides::{is_high, minute_from_2000, LINE};

/// The first sixteen bytes of a line with each digit 0: the years are 2000 to 2099, so only ten digits are free. Then where
/// these are: a byte that holds no digit must be as it is here, one that holds a digit must differ by no more than 9.
const DATE: u64 = u64::from_le_bytes(*b"2000-00-");
const TIME: u64 = u64::from_le_bytes(*b"00,00:00");
const DATE_DIGITS: u64 = u64::from_le_bytes([0, 0, 1, 1, 0, 1, 1, 0]);
const TIME_DIGITS: u64 = u64::from_le_bytes([1, 1, 0, 1, 1, 0, 1, 1]);

/// Digits in place of a word's characters, or none where one is wrong. A carry comes only from a byte that is wrong itself.
#[inline]
fn digits(word: u64, zeros: u64, places: u64) -> Option<u64> {
    let digits = word ^ zeros;
    let wrong = (digits | digits.wrapping_add(6 * places)) & !(0x0f * places);
    (wrong == 0).then_some(digits)
}

/// In the place of each digit the number of two digits that begins there.
#[inline]
fn twos(digits: u64) -> u64 {
    10 * digits + (digits >> 8)
}

#[inline]
fn byte(word: u64, place: u32) -> u32 {
    (word >> (8 * place)) as u8 as u32
}

/// The minute of a line, and whether it is a high water.
#[inline]
pub(super) fn tide(line: &[u8; LINE]) -> Option<(u32, bool)> {
    let date = u64::from_le_bytes(line[..8].try_into().expect("eight bytes"));
    let time = u64::from_le_bytes(line[8..16].try_into().expect("eight bytes"));
    let [.., b',', letter, b'\n'] = *line else { return None };
    let date = twos(digits(date, DATE, DATE_DIGITS)?);
    let time = twos(digits(time, TIME, TIME_DIGITS)?);
    let minute = minute_from_2000(byte(date, 2), byte(date, 5), byte(time, 0), byte(time, 3), byte(time, 6))?;
    Some((minute, is_high(letter)?))
}
