//! What settings are made. Of these, plain Rust answers what is known.
use super::settings::{Maker, ONE_IN};
use super::{each_batch, rows, LEAST};
use crate::plain::words;
use crate::tables::Survey;

#[test]
fn one_in_four_is_wrong() {
    for count in [LEAST, 50_000, 100_003] {
        let (mut made, mut wrong) = (0, [0; ONE_IN]);
        each_batch(&mut rows(count), |_, settings| {
            made += settings.len();
            for four in settings.chunks(ONE_IN) {
                let places: Vec<usize> = (0..four.len()).filter(|&place| four[place].wrong).collect();
                assert_eq!(places.len(), four.len() / ONE_IN);
                places.iter().for_each(|&place| wrong[place] += 1);
            }
        });
        assert_eq!((made, wrong.iter().sum()), (count, count / ONE_IN));
        assert!(wrong.iter().all(|&times| times > 0), "by chance: {wrong:?}");
    }
}

#[test]
fn shares_are_even() {
    for count in [LEAST, 50_000, 100_003] {
        let rows = rows(count);
        let fours = || rows.iter().map(|row| row.share / ONE_IN);
        assert!(fours().max() <= fours().min().map(|least| least + 1));
    }
}

#[test]
fn plain_rust_answers_what_is_known() {
    each_batch(&mut rows(100_003), |row, settings| {
        for setting in settings {
            assert_eq!(words::rank(&row.survey.radices, &setting.word), setting.answer());
        }
    });
}

/// A word with a digit left out, 0 added, a digit at its radix, or 255 in its place.
fn spoilt(radices: &[u8], word: &[u8], fault: usize, place: usize) -> Vec<u8> {
    let (before, after) = word.split_at(place);
    match fault {
        0 => [before, &after[1..]].concat(),
        1 => [before, &[0], after].concat(),
        2 => [before, &[radices[place]], &after[1..]].concat(),
        _ => [before, &[255], &after[1..]].concat(),
    }
}

/// A third of each fault in the first place and a third in the last, and others in each place between.
#[test]
fn every_fault_is_in_every_place() {
    const THIRD: usize = 300;
    let survey = Survey::twenty_mixed();
    let n = survey.radices.len();
    let mut made = [n, n + 1, n, n].map(|places| vec![0; places]);
    for setting in Maker::new().settings(&survey, ONE_IN * 4 * 3 * THIRD) {
        let mut word = vec![0; n];
        words::word(&survey.radices, setting.rank, &mut word).expect("a rank of the list");
        for (fault, places) in made.iter_mut().enumerate() {
            for (place, times) in places.iter_mut().enumerate() {
                *times += usize::from(setting.wrong && setting.word == spoilt(&survey.radices, &word, fault, place));
            }
        }
    }
    for places in made {
        assert!(places[0] >= THIRD && places[places.len() - 1] >= THIRD, "{places:?}");
        assert!(places.iter().all(|&times| times > 0), "{places:?}");
    }
}

#[test]
fn locked_ones_are_spread_evenly() {
    assert_eq!(Survey::locked(4, 9, 2).radices, [9, 9, 1, 9, 9, 1]);
    assert_eq!(Survey::locked(2, 9, 4).radices, [9, 1, 1, 9, 1, 1]);
}
