//! Both lists of document 004, figure 1, and the same with locked sluices among their own.
//!
//! The figure prints each list in columns: the first column is read from top to bottom, then the second, and so on; the last
//! columns are shorter. The rows below are the rows of the figure.
use super::both::{self, Engine};
use super::Group;
use crate::chance::Chance;
use crate::run::Run;
use crate::second::survey;

/// (a) The binary Gray code for 6-tuples: 13 rows, 5 columns, the last of 12.
const BINARY: [&str; 13] = [
    "000000 001011 010111 110100 101110",
    "000001 001001 010110 111100 101111",
    "000011 001000 010010 111101 101101",
    "000010 011000 010011 111111 101100",
    "000110 011001 010001 111110 100100",
    "000111 011011 010000 111010 100101",
    "000101 011010 110000 111011 100111",
    "000100 011110 110001 111001 100110",
    "001100 011111 110011 111000 100010",
    "001101 011101 110010 101000 100011",
    "001111 011100 110110 101001 100001",
    "001110 010100 110111 101011 100000",
    "001010 010101 110101 101010",
];

/// (b) The ternary Gray code for 4-tuples: 13 rows, 7 columns, the last of 3.
const TERNARY: [&str; 13] = [
    "0000 0111 0222 1112 1001 2120 2220",
    "0001 0112 1222 1111 1000 2110 2221",
    "0002 0102 1221 1110 2000 2111 2222",
    "0012 0101 1220 1120 2001 2112",
    "0011 0100 1210 1121 2002 2102",
    "0010 0200 1211 1122 2012 2101",
    "0020 0201 1212 1022 2011 2100",
    "0021 0202 1202 1021 2010 2200",
    "0022 0212 1201 1020 2020 2201",
    "0122 0211 1200 1010 2021 2202",
    "0121 0210 1100 1011 2022 2212",
    "0120 0220 1101 1012 2122 2211",
    "0110 0221 1102 1002 2121 2210",
];

/// The settings of a figure in the order in which it is read.
fn settings(rows: &[&str]) -> Vec<Vec<u8>> {
    let rows: Vec<Vec<&str>> = rows.iter().map(|row| row.split(' ').collect()).collect();
    let columns = 0..rows[0].len();
    let words = columns.flat_map(|column| rows.iter().filter_map(move |row| row.get(column)));
    words.map(|word| word.bytes().map(|digit| digit - b'0').collect()).collect()
}

pub fn compare(g: &mut Group, _: &mut Chance) {
    for (counts, rows) in [(vec![2; 6], BINARY), (vec![3; 4], TERNARY)] {
        let (n, settings) = (counts.len(), settings(&rows));
        let capacity = n.div_ceil(2);
        figure(g, &counts, capacity, &settings);
        for place in 0..=n {
            for locked in [1, 2, 48 - n] {
                let longer: Vec<Vec<u8>> = settings.iter().map(|setting| put(setting, place, &vec![0; locked])).collect();
                figure(g, &put(&counts, place, &vec![1; locked]), capacity, &longer);
            }
        }
    }
}

/// Bytes with others put in before the one at a place.
fn put(bytes: &[u8], place: usize, others: &[u8]) -> Vec<u8> {
    [&bytes[..place], others, &bytes[place..]].concat()
}

/// A figure of these counts; the capacity is half of the moving sluices.
fn figure(g: &mut Group, counts: &[u8], capacity: usize, figure: &[Vec<u8>]) {
    let size = figure.len() as u64;
    both::size(g, counts).is(g, || format!("length of the figure for {counts:?}"), Ok(size));
    g.same(
        || format!("figure and the second program's list for {counts:?}"),
        figure,
        &survey::list(counts)[..],
    );
    let whole = figure.concat();
    both::list_is(g, counts, 0, size, whole.len(), Ok(&whole));
    for (rank, setting) in (0..).zip(figure) {
        both::rank(g, counts, setting).is(g, || format!("rank of {setting:?} in the figure"), Ok(rank));
        both::list_is(g, counts, rank, 1, setting.len(), Ok(setting));
        both::word_is(g, counts, rank, setting.len(), Ok(setting));
    }
    let moves = survey::moves_along(figure);
    let last = moves.len() as u64;
    for engine in [Engine::Buffered(capacity), Engine::Disks] {
        for (t, outcome) in [(last, Run::Made(last)), (size, Run::Ended(last))] {
            both::run_is(g, engine, counts, t, figure.len(), (outcome, &moves));
        }
    }
}
