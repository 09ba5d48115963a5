//! A survey's checks, its list, ranks and changes. `counts` are the notch counts, sluice n first.
use super::{check_room, Refusal};

pub const MOST_SLUICES: usize = 48;
const MOST_SETTINGS: u64 = 1 << 62;

/// N, or refusal 2, 3 or 4.
pub fn size(counts: &[u8]) -> Result<u64, Refusal> {
    if counts.is_empty() || counts.len() > MOST_SLUICES {
        return Err(2);
    }
    if counts.contains(&0) {
        return Err(3);
    }
    let mut product = 1;
    for &m in counts {
        // No count is 0, so what is too much stays too much; stopping here keeps the product small.
        product *= u128::from(m);
        if product > u128::from(MOST_SETTINGS) {
            return Err(4);
        }
    }
    Ok(product as u64)
}

/// The numbers of the moving sluices in rising order; a count of 1 is a locked sluice's.
pub fn moving(counts: &[u8]) -> Vec<u8> {
    let numbered = (1..).zip(counts.iter().rev());
    numbered.filter(|(_, &m)| m > 1).map(|(number, _)| number).collect()
}

/// The list as document 01 builds it, for surveys that are small enough to be written down.
pub fn list(counts: &[u8]) -> Vec<Vec<u8>> {
    let mut list = vec![vec![]];
    for &m in counts {
        let mut longer = vec![];
        for (rank, setting) in list.iter().enumerate() {
            let upward = 0..m;
            let notches: Vec<u8> = if rank % 2 == 0 {
                upward.collect()
            } else {
                upward.rev().collect()
            };
            for notch in notches {
                longer.push([&setting[..], &[notch]].concat());
            }
        }
        list = longer;
    }
    list
}

/// The rank of a setting.
pub fn rank(counts: &[u8], setting: &[u8]) -> Result<u64, Refusal> {
    size(counts)?;
    if setting.len() != counts.len() || setting.iter().zip(counts).any(|(a, m)| a >= m) {
        return Err(8);
    }
    let mut p = 0;
    for (&a, &m) in setting.iter().zip(counts) {
        let b = if p % 2 == 0 { a } else { m - 1 - a };
        p = p * u64::from(m) + u64::from(b);
    }
    Ok(p)
}

/// The setting of a rank below N: the loop of `rank` undone, last sluice first.
pub fn setting(counts: &[u8], rank: u64) -> Vec<u8> {
    let mut setting = vec![0; counts.len()];
    let mut p = rank;
    for (a, &m) in setting.iter_mut().zip(counts).rev() {
        let b = (p % u64::from(m)) as u8;
        p /= u64::from(m);
        *a = if p % 2 == 0 { b } else { m - 1 - b };
    }
    setting
}

/// The setting of a rank, written into `room` bytes.
pub fn word(counts: &[u8], rank: u64, room: usize) -> Result<Vec<u8>, Refusal> {
    if rank >= size(counts)? {
        return Err(8);
    }
    check_room(counts.len() as u128, room)?;
    Ok(setting(counts, rank))
}

/// A run of `count` settings from rank `from`, written into `room` bytes.
pub fn run(counts: &[u8], from: u64, count: u64, room: usize) -> Result<Vec<u8>, Refusal> {
    let size = size(counts)?;
    if u128::from(from) + u128::from(count) > u128::from(size) {
        return Err(8);
    }
    check_room(counts.len() as u128 * u128::from(count), room)?;
    Ok((from..from + count).flat_map(|rank| setting(counts, rank)).collect())
}

/// A sluice and the direction in which it moves.
#[derive(Clone, Copy, Debug, PartialEq, Eq)]
pub struct Change {
    pub sluice: u8,
    pub down: bool,
}

impl Change {
    /// The number in the low seven bits, the top bit set for down.
    pub fn byte(self) -> u8 {
        self.sluice + if self.down { 0x80 } else { 0 }
    }
}

/// The sluice in which two neighbours of the list differ, and its direction.
pub fn difference(before: &[u8], after: &[u8]) -> Change {
    let place = (0..before.len())
        .find(|&place| before[place] != after[place])
        .expect("neighbours differ");
    Change {
        sluice: (before.len() - place) as u8,
        down: after[place] < before[place],
    }
}

/// The move bytes from each setting of a list to the next.
pub fn moves_along(list: &[Vec<u8>]) -> Vec<u8> {
    list.windows(2).map(|pair| difference(&pair[0], &pair[1]).byte()).collect()
}

/// Change j, for j from 1 to N - 1.
pub fn change(counts: &[u8], j: u64) -> Change {
    difference(&setting(counts, j - 1), &setting(counts, j))
}

/// The move bytes of changes 1 to t.
pub fn move_bytes(counts: &[u8], t: u64) -> Vec<u8> {
    move_bytes_from(counts, 0, t)
}

/// The move bytes of the t changes after the setting of a rank.
pub fn move_bytes_from(counts: &[u8], rank: u64, t: u64) -> Vec<u8> {
    (rank + 1..=rank + t).map(|j| change(counts, j).byte()).collect()
}
