//! Settings by chance, some of them wrong.
use crate::capi::Answer;
use crate::chance::Chance;
use crate::plain::words;
use crate::tables::Survey;

/// One in so many is wrong.
pub const ONE_IN: usize = 4;

/// A setting, and what is known of it before it is ranked.
pub struct Setting {
    pub word: Vec<u8>,
    /// The rank of the word; of a wrong one, the rank that it had before it was spoilt.
    pub rank: u64,
    pub wrong: bool,
}

impl Setting {
    /// The word of a rank.
    fn right(radices: &[u8], rank: u64) -> Setting {
        let mut word = vec![0; radices.len()];
        words::put_word(radices, rank, &mut word);
        Setting {
            word,
            rank,
            wrong: false,
        }
    }

    /// What every way has to answer.
    pub fn answer(&self) -> Answer {
        if self.wrong {
            Err(8)
        } else {
            Ok(self.rank)
        }
    }
}

/// Makes the same settings in every run of the program.
pub struct Maker {
    chance: Chance,
    spoilt: usize,
}

impl Maker {
    pub fn new() -> Maker {
        Maker {
            chance: Chance::new(8),
            spoilt: 0,
        }
    }

    /// Settings of a survey: of each four in a row one is wrong, any of them by chance. Where the last are fewer than four they
    /// are right.
    pub fn settings(&mut self, survey: &Survey, count: usize) -> Vec<Setting> {
        let (radices, size) = (&survey.radices, survey.size());
        let right = |_| Setting::right(radices, self.chance.below(size));
        let mut settings: Vec<Setting> = (0..count).map(right).collect();
        for four in settings.chunks_exact_mut(ONE_IN) {
            let setting = &mut four[self.chance.between(0, ONE_IN - 1)];
            self.spoil(radices, &mut setting.word);
            setting.wrong = true;
        }
        settings
    }

    /// The four faults in turn: each in the first place, then each in the last, then each in a place by chance. A digit that is
    /// added is 0, which no radix forbids, and its last place is behind all others.
    fn spoil(&mut self, radices: &[u8], word: &mut Vec<u8>) {
        let (fault, turn) = (self.spoilt % 4, self.spoilt / 4 % 3);
        self.spoilt += 1;
        let last = if fault == 1 { word.len() } else { word.len() - 1 };
        let place = match turn {
            0 => 0,
            1 => last,
            _ => self.chance.between(0, last),
        };
        match fault {
            0 => _ = word.remove(place),
            1 => word.insert(place, 0),
            2 => word[place] = radices[place],
            _ => word[place] = 255,
        }
    }
}
