//! What tables of times are made of: surveys with the names of their rows, and how the times of some rounds are told.
use crate::capi;
use crate::chance::Chance;

/// A row's survey.
pub struct Survey {
    pub name: String,
    pub radices: Vec<u8>,
}

impl Survey {
    pub fn equal(n: usize, m: u8) -> Survey {
        Survey {
            name: format!("{n} of {m}"),
            radices: vec![m; n],
        }
    }

    /// So many that move, and locked ones spread evenly among them.
    pub fn locked(n: usize, m: u8, locked: usize) -> Survey {
        let all = n + locked;
        let radix = |i| if i * locked % all < locked { 1 } else { m };
        Survey {
            name: format!("{n} of {m} and {locked} locked"),
            radices: (1..=all).map(radix).collect(),
        }
    }

    pub fn mixed(name: &str, radices: &[u8]) -> Survey {
        Survey {
            name: name.into(),
            radices: radices.into(),
        }
    }

    pub fn twenty_mixed() -> Survey {
        let radices = [7, 2, 12, 5, 3, 9, 2, 10, 4, 6, 8, 3, 11, 5, 4, 7, 6, 10, 9, 8];
        Survey::mixed("20 mixed, 2 to 12", &radices)
    }

    pub fn size(&self) -> u64 {
        capi::size(&self.radices).expect("a survey that is accepted")
    }

    /// The least capacity with which the buffered engine never runs dry: locked sluices need none of it.
    pub fn capacity(&self) -> usize {
        let moving = self.radices.iter().filter(|&&m| m > 1).count();
        moving.div_ceil(2).max(1)
    }

    /// Ranks from 0 to `most`, the same in every run of the program.
    pub fn ranks(&self, count: usize, most: u64) -> Vec<u64> {
        let mut chance = Chance::new(count as u64);
        (0..count).map(|_| chance.below(most + 1)).collect()
    }
}

/// The best round.
pub fn best(ns: &[f64]) -> f64 {
    ns.iter().copied().fold(f64::MAX, f64::min)
}

/// The ratio of each round: the middle one, with the least and the greatest.
pub fn ratio(ours: &[f64], plain: &[f64]) -> String {
    let mut ratios: Vec<f64> = ours.iter().zip(plain).map(|(ours, plain)| ours / plain).collect();
    ratios.sort_by(f64::total_cmp);
    let (least, greatest) = (ratios[0], ratios[ratios.len() - 1]);
    format!("{:.2} ({least:.2} to {greatest:.2})", ratios[ratios.len() / 2])
}
