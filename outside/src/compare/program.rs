//! The program `walk`: all that it prints, for good lines and bad ones.
use super::{in_repository, process, surveys, Group};
use crate::chance::Chance;
use crate::second::text;
use std::path::Path;

const MILLION: usize = 1_000_000;

pub fn compare(g: &mut Group, chance: &mut Chance) {
    let (script, program) = (in_repository("bin/walk"), in_repository("crates/walk/out/walk"));
    // The script comes first: it makes the program where that is missing or old.
    for line in [&b"2 3\n"[..], b"\n", b"2 3", b"17 241\n", b"4 0\n", b"1\n", b"3 1 3\n"] {
        print(g, &script, line);
    }
    for line in named_lines() {
        print(g, &program, &line);
    }
    for _ in 0..1500 {
        let line = good_line(chance);
        print(g, &program, line.as_bytes());
        print(g, &program, &faulty_line(chance, line));
        print(g, &program, &any_line(chance));
    }
}

/// The whole output of a program for an input.
fn print(g: &mut Group, program: &Path, input: &[u8]) {
    let library = process::output(program, input).map(|bytes| String::from_utf8_lossy(&bytes).into_owned());
    let start = &input[..input.len().min(200)];
    g.same(
        || format!("walk on {} bytes, {:?}", input.len(), start.escape_ascii().to_string()),
        &Ok(text::output(input)),
        &library,
    );
}

/// Lines at bounds, in the order of document 01's sentence.
fn named_lines() -> Vec<Vec<u8>> {
    let texts = [
        "",
        "\n",
        "\n\n",
        "2\n",
        "1\n",
        "0\n",
        "2 1\n",
        "1 2\n",
        "1 1\n",
        "1 2 1\n",
        "2 1 2\n",
        "3 1 3\n",
        "1 0\n",
        "0 1\n",
        "1 1 0 1\n",
        "2 1 0\n",
        "1 \n",
        " 1\n",
        "1",
        "01\n",
        "001\n",
        "0001\n",
        "1 001 01\n",
        "1 255\n",
        "255 1\n",
        "1 256\n",
        "1\n1\n",
        "255\n",
        "256\n",
        "300\n",
        "999\n",
        "1000\n",
        "0002\n",
        "002\n",
        "007 02\n",
        "000\n",
        "0 0\n",
        "2 3",
        "2 3\r\n",
        "2  3\n",
        " 2 3\n",
        "2 3 \n",
        " \n",
        "  \n",
        "\t\n",
        "2\t3\n",
        "\t2\n",
        "+2\n",
        "-2\n",
        "2,3\n",
        "2.3\n",
        "2x\n",
        "x\n",
        "0x2\n",
        "2e1\n",
        "\0\n",
        "2\0\n",
        "2 \u{a0}3\n",
        "\u{663}\n",
        "2 3\nmore",
        "2 3\n2 3\n",
        "2 3\n\0",
        "x\n2 3\n",
        "\n2 3\n",
        "64 64\n",
        "16 16 16\n",
        "4 4 4 4 4 4\n",
        "2 2 2 2 2 2 2 2 2 2 2 2\n",
        "8 8 64\n",
        "1 64 1 64 1\n",
        "17 241\n",
        "17 1 241\n",
        "1 1 17 241\n",
        "2 2 2 2 2 2 2 2 2 2 2 2 2\n",
        "65 63\n",
        "16 255\n",
        "17 255\n",
        "255 255 255 255 255 255 255\n",
        "255 255 255 255 255 255 255 255\n",
        "255 255 255 255 255 255 255 1\n",
        "255 255 255 255 255 255 255 0\n",
        "255 255 255 255 1 255 255 255 255\n",
        "255 255 255 255 255 255 255 255 0\n",
        "255 255 255 255 255 255 255 255 1 0\n",
        "255 255 255 255 255 255 255 255 256\n",
    ];
    let mut lines: Vec<Vec<u8>> = texts.iter().map(|text| text.as_bytes().to_vec()).collect();
    for n in [47, 48, 49, 50, 60, 255, 256, 257, 1000] {
        lines.push(line_of(&vec![2; n]));
        lines.push(line_of(&vec![1; n]));
        lines.push(line_of(&[vec![0], vec![1; n - 1]].concat()));
        lines.push(line_of(&[vec![3], vec![1; n - 2], vec![4]].concat()));
    }
    lines.push(line_of(&[4; 31]));
    lines.push(line_of(&[vec![1; 17], vec![4; 31]].concat()));
    lines.push(line_of(&surveys::SMALLEST_OVER));
    lines.push(line_of(&[&surveys::SMALLEST_OVER[..], &[1; 38]].concat()));
    // The longest lines that are printed, as many as there can be.
    lines.push(line_of(&[[1, 2, 1, 1]; 12].concat()));
    lines.push(line_of(&[vec![16], vec![1; 46], vec![255]].concat()));
    lines.push(vec![0xff, b'\n']);
    lines.extend(long_lines());
    lines
}

fn line_of(counts: &[u8]) -> Vec<u8> {
    text_of(counts, |m| m.to_string()).into_bytes()
}

fn text_of(counts: &[u8], mut write: impl FnMut(u8) -> String) -> String {
    counts.iter().map(|&m| write(m)).collect::<Vec<String>>().join(" ") + "\n"
}

/// A million bytes and more: good all along, without a newline, bad at the very end, bad all along, and good before all of it.
fn long_lines() -> Vec<Vec<u8>> {
    let counts = line_of(&vec![2; MILLION / 2]);
    let without_newline = counts[..counts.len() - 1].to_vec();
    let bad_at_the_end = [&without_newline, &b" x\n"[..]].concat();
    let too_much_at_the_end = [&without_newline, &b" 256\n"[..]].concat();
    let digits = [vec![b'2'; MILLION], vec![b'\n']].concat();
    let spaces = [vec![b' '; MILLION], vec![b'\n']].concat();
    let newlines = vec![b'\n'; MILLION];
    let good_before = [&b"2 3\n"[..], &counts].concat();
    vec![
        counts,
        without_newline,
        bad_at_the_end,
        too_much_at_the_end,
        digits,
        spaces,
        newlines,
        good_before,
    ]
}

/// A survey, mostly of few settings; some counts with zeros before them.
fn good_line(chance: &mut Chance) -> String {
    let counts = match chance.below(20) {
        0 => surveys::any(chance),
        1 => surveys::over(chance),
        2 => surveys::small(chance, 2, 100),
        3 => surveys::small(chance, 6, 5),
        4 => surveys::few_moving(chance),
        _ => surveys::small(chance, 5, 4),
    };
    text_of(&counts, |m| if chance.once_in(9) { format!("{m:03}") } else { m.to_string() })
}

/// A line with a byte changed, added or left out, or two lines in one.
fn faulty_line(chance: &mut Chance, line: String) -> Vec<u8> {
    let mut line = line.into_bytes();
    let place = chance.between(0, line.len() - 1);
    let byte = chance.pick(b"0123456789   \t\r\n+-,.x");
    match chance.below(5) {
        0 => line[place] = byte,
        1 => line.insert(place, byte),
        2 => _ = line.remove(place),
        3 => line.extend_from_within(place..),
        _ => line[place] = chance.byte(0, 255),
    }
    line
}

/// Bytes that are often digits and spaces.
fn any_line(chance: &mut Chance) -> Vec<u8> {
    let length = chance.between(0, 12);
    let often: &[u8] = b"01122345 \n";
    let seldom: &[u8] = b"6789 \t\r\n+-x";
    (0..length)
        .map(|_| {
            if chance.once_in(8) {
                chance.pick(seldom)
            } else {
                chance.pick(often)
            }
        })
        .collect()
}
