//! Tide windows: both calls on files of the harbour office, good ones and such as have a fault. What the document says in
//! numbers is written here, and both sides are held to it.
use super::both;
use super::damage::room;
use super::Group;
use crate::chance::Chance;
use crate::second::tides::{self, Tide, Water, Window};

/// A good line, and a low water that comes after any line but itself.
const LINE: &str = "2031-04-07,05:12,H\n";
const LAST_LOW: &str = "2099-12-31,23:59,L\n";
const OVER: u64 = 1 << 32;
/// The first minutes and the last ones of the century, and numbers past it of which fewer bits than 64 would lose a part.
const FAR: [u64; 17] = [
    0,
    1,
    59,
    60,
    61,
    52_595_996,
    52_595_999,
    52_596_000,
    OVER - 1,
    OVER,
    (1 << 63) - 4,
    1 << 63,
    u64::MAX - 4,
    u64::MAX - 3,
    u64::MAX - 2,
    u64::MAX - 1,
    u64::MAX,
];

pub fn compare(g: &mut Group, chance: &mut Chance) {
    known_windows(g);
    known_files(g);
    unreadable(g);
    unordered(g);
    every_date(g, chance);
    every_time(g, chance);
    two_bytes(g);
    for _ in 0..3000 {
        let most = chance.pick(&[2, 6, 60]);
        let file = text(&some_tides(chance, most));
        closely(g, chance, &file);
    }
    for _ in 0..8 {
        let tides = some_tides(chance, 4);
        every_other_byte(g, chance, &text(&tides));
    }
    for _ in 0..60 {
        let tides = some_tides(chance, 12);
        cut_and_longer(g, chance, &text(&tides));
        out_of_order(g, chance, &tides);
    }
    for _ in 0..10_000 {
        let file = text(&some_tides(chance, 40));
        let file = damaged(chance, file);
        alike(g, chance, &file);
    }
    for first in [Water::High, Water::Low] {
        century(g, chance, first);
    }
}

/// The minutes at either end of a window, on either side of it, and the same in numbers of more than 32 bits.
fn ends(window: &Window) -> impl Iterator<Item = u64> {
    let (from, to) = (window.from, window.to);
    let near = (from - 2..=from + 2).chain(to.saturating_sub(6)..=to + 2);
    near.chain([
        OVER + from,
        (1 << 63) + from,
        OVER * from + from,
        from + (to - from.min(to)) / 2,
    ])
}

/// These minutes, with the windows read but once.
fn minutes(g: &mut Group, file: &[u8], windows: &Result<Vec<Window>, u8>, minutes: impl IntoIterator<Item = u64>) {
    for minute in minutes {
        let second = windows
            .as_ref()
            .map(|windows| windows.iter().any(|window| window.admits(minute)));
        both::tide_may_begin_is(g, file, minute, second.map_err(|&number| number));
    }
}

/// The first windows, the last and some by chance.
fn some_windows(chance: &mut Chance, windows: &[Window], count: usize) -> Vec<Window> {
    let last = windows.len().saturating_sub(1);
    let places = [0, 1, last].into_iter().chain((0..count).map(|_| chance.between(0, last)));
    places.filter_map(|place| windows.get(place).copied()).collect()
}

/// Both calls on a file, with some room and at two or three minutes.
fn alike(g: &mut Group, chance: &mut Chance, file: &[u8]) {
    let windows = tides::windows(file);
    let found = windows.as_deref().unwrap_or(&[]);
    let lent = room(chance, found.len());
    both::tide_counts(g, file, lent);
    let far = chance.pick(&FAR);
    let window = (!found.is_empty()).then(|| chance.pick(found));
    let near = window.map(|window| chance.pick(&ends(&window).collect::<Vec<u64>>()));
    let from = window.map(|window| window.from);
    minutes(g, file, &windows, [Some(far), near, from].into_iter().flatten());
}

/// Both calls on a file, with room of several lengths and at many minutes.
fn closely(g: &mut Group, chance: &mut Chance, file: &[u8]) {
    let windows = tides::windows(file);
    let found = windows.as_deref().unwrap_or(&[]);
    let needed = found.len();
    for lent in [
        needed,
        needed.saturating_sub(1),
        needed + 1,
        0,
        needed + chance.between(2, 40),
    ] {
        both::tide_counts(g, file, lent);
    }
    let near: Vec<u64> = some_windows(chance, found, 4).iter().flat_map(ends).collect();
    minutes(g, file, &windows, near.into_iter().chain(FAR));
}

/// A file of tides.
pub fn text(tides: &[Tide]) -> Vec<u8> {
    tides.iter().flat_map(|&tide| tides::line(tide).into_bytes()).collect()
}

/// Minutes between two tides: by turns as at sea, just about what a first move or two need, mostly within the hour, in close
/// succession, and of up to a year.
fn gap(chance: &mut Chance, shape: u64) -> u64 {
    let (low, high) = [(330, 410), (58, 70), (1, 130), (1, 3), (1, 3000), (1, 1 << 19)][shape as usize];
    chance.between(low, high) as u64
}

/// Any minute, or one shortly before a day at which a calendar may go wrong; at times the last minutes of all.
fn start(chance: &mut Chance) -> u64 {
    let century = tides::minutes_of_century();
    let year = chance.below(100);
    let first_of_january = 365 * year + year.div_ceil(4);
    let day = first_of_january + chance.pick(&[0, 30, 58, 59, 60, 90, 120, 364, 365]);
    let before = chance.below(3000);
    let late = century - 1 - chance.below(3000);
    let any = chance.below(century);
    chance
        .pick(&[day * 1440, (day * 1440).saturating_sub(before), any, late, before])
        .min(century - 1)
}

/// At most so many tides, from either water on.
pub fn some_tides(chance: &mut Chance, most: usize) -> Vec<Tide> {
    let shape = chance.below(6);
    let mut minute = start(chance);
    let mut water = chance.pick(&[Water::High, Water::Low]);
    let mut tides = vec![];
    for _ in 0..chance.between(0, most) {
        if minute >= tides::minutes_of_century() {
            break;
        }
        tides.push(Tide { minute, water });
        minute += gap(chance, shape);
        water = other(water);
    }
    tides
}

fn other(water: Water) -> Water {
    match water {
        Water::High => Water::Low,
        Water::Low => Water::High,
    }
}

/// Counts that are known: the library's are held to them, and to the second program's.
fn counts(g: &mut Group, file: &[u8], room: usize, expected: Result<&[u32], u8>) {
    both::tide_counts_are(g, file, room, expected);
    both::tide_counts(g, file, room);
}

/// So many minutes from a high water to its low water: the moves that fit, and each minute at which one may begin.
fn known_windows(g: &mut Group) {
    for between in (1..=150).chain([372, 1440, 100_000, 262_143 * 4, 300_000 * 4 + 63]) {
        let high = 1_000_000;
        let low = high + between;
        let file = text(&[(high, Water::High), (low, Water::Low)].map(|(minute, water)| Tide { minute, water }));
        let moves = between.saturating_sub(60) as u32 / 4;
        counts(g, &file, 2, Ok(&[moves]));
        for minute in (high - 3..high + 150).chain(low - 10..low + 3) {
            let inside = high + 60 <= minute && minute + 4 <= low;
            both::tide_may_begin(g, &file, minute).is(g, || format!("{between} minutes, at {minute}"), Ok(inside));
        }
        for minute in FAR {
            both::tide_may_begin(g, &file, minute).is(g, || format!("{between} minutes, at {minute}"), Ok(false));
        }
    }
}

/// Files with their counts.
fn known_files(g: &mut Group) {
    for (lines, expected) in [
        (&[][..], &[][..]),
        (&["2031-04-07,05:12,H"], &[]),
        (&["2031-04-07,05:12,L"], &[]),
        (&["2031-04-07,05:12,L", "2031-04-07,11:12,H"], &[]),
        (&["2031-04-07,05:12,H", "2031-04-07,11:12,L"], &[75]),
        (&["2031-04-07,05:12,L", "2031-04-07,11:12,H", "2031-04-07,17:12,L"], &[75]),
        (&["2031-04-07,05:12,H", "2031-04-07,11:12,L", "2031-04-07,17:12,H"], &[75]),
        (
            &[
                "2031-04-07,05:12,H",
                "2031-04-07,11:12,L",
                "2031-04-07,17:12,H",
                "2031-04-07,18:16,L",
            ],
            &[75, 1],
        ),
        (
            &[
                "2031-12-31,23:00,H",
                "2031-12-31,23:01,L",
                "2031-12-31,23:02,H",
                "2032-01-01,00:05,L",
                "2032-01-01,00:06,H",
            ],
            &[0, 0],
        ),
        (&["2000-01-01,00:00,H", "2099-12-31,23:59,L"], &[13_148_984]),
        (&["2000-02-28,12:00,H", "2000-03-01,12:00,L"], &[705]),
        (&["2001-02-28,12:00,H", "2001-03-01,12:00,L"], &[345]),
        (&["2096-02-28,12:00,H", "2096-03-01,12:00,L"], &[705]),
        (&["2099-02-28,12:00,H", "2099-03-01,12:00,L"], &[345]),
    ] {
        let file: String = lines.iter().flat_map(|line| [line, "\n"]).collect();
        let needed = expected.len();
        for room in needed..needed + 3 {
            counts(g, file.as_bytes(), room, Ok(expected));
        }
        for room in 0..needed {
            counts(g, file.as_bytes(), room, Err(9));
        }
    }
}

/// A refusal of both calls, whatever room there is.
fn refused(g: &mut Group, name: &str, file: &[u8], number: u8) {
    for room in [0, 1, 9] {
        both::tide_counts(g, file, room).is(g, || name.into(), Err(number));
    }
    for minute in FAR {
        both::tide_may_begin(g, file, minute).is(g, || name.into(), Err(number));
    }
}

/// Texts that are no line, or not one alone.
const NO_LINES: [&str; 48] = [
    "\n",
    "\r\n",
    " \n",
    "2031-04-07,05:12,H\r\n",
    "2031-04-07,05:12,\r\n",
    "\r2031-04-07,05:12,H\n",
    "2031-04-07,05:12,H \n",
    " 2031-04-07,05:12,H\n",
    "2031-04-07,05:12,h\n",
    "2031-04-07,05:12,l\n",
    "2031-04-07,05:12,HL\n",
    "2031-04-07,05:12,D\n",
    "2031-04-07,05:12,\n",
    "2031-04-07,05:12\n",
    "2031-04-07,05:12,H,\n",
    "2031-04-07,24:00,H\n",
    "2031-04-07,23:60,H\n",
    "2031-04-31,05:12,H\n",
    "2031-06-31,05:12,H\n",
    "2031-09-31,05:12,H\n",
    "2031-11-31,05:12,H\n",
    "2031-02-29,05:12,H\n",
    "2032-02-30,05:12,H\n",
    "2031-04-00,05:12,H\n",
    "2031-01-32,05:12,H\n",
    "2031-00-07,05:12,H\n",
    "2031-13-07,05:12,H\n",
    "1999-12-31,05:12,H\n",
    "2100-01-01,05:12,H\n",
    "3031-04-07,05:12,H\n",
    "2131-04-07,05:12,H\n",
    "31-04-07,05:12,H\n",
    "2031-4-07,05:12,H\n",
    "2031-04-7,05:12,H\n",
    "2031-04-07,5:12,H\n",
    "2031-04-07,05:2,H\n",
    "2031/04/07,05:12,H\n",
    "2031-04-07;05:12;H\n",
    "2031-04-07,05.12,H\n",
    "2031-04-07 05:12 H\n",
    "2031-04-07T05:12,H\n",
    "2031-04-0a,05:12,H\n",
    "+031-04-07,05:12,H\n",
    "2031--4-07,05:12,H\n",
    "2031-04-07,+5:12,H\n",
    "2031-04-07,05:12,H\0",
    "2031-04-07,05:12,H\u{b}",
    "\u{feff}2031-04-07,05:12,H\n",
];

/// Refusal 12: texts that are no line, alone and beside good lines, and where 13 applies too.
fn unreadable(g: &mut Group) {
    for bad in NO_LINES {
        let first = "2030-04-07,05:12,L\n";
        let again = [first, first].concat();
        for parts in [
            [bad, "", ""],
            [first, bad, ""],
            [bad, first, ""],
            [&again, bad, ""],
            [bad, &again, ""],
            [first, bad, LAST_LOW],
        ] {
            refused(g, "a line that cannot be read", parts.concat().as_bytes(), 12);
        }
    }
    for (name, file) in [
        ("a line without its newline", &LINE[..18]),
        ("a line and a part of one", "2031-04-07,05:12,H\n2031-04-07,11:12,L"),
        ("a byte after the last newline", "2031-04-07,05:12,H\n2"),
        ("a newline for a comma", "2031-04-07,05:12\nH\n"),
        ("a blank line between", "2031-04-07,05:12,H\n\n2031-04-07,11:12,L\n"),
        ("a blank line last", "2031-04-07,05:12,H\n\n"),
        ("a 13, then a blank line", "2031-04-07,05:12,H\n2031-04-07,05:12,H\n\n"),
        ("a 13, then no newline", "2031-04-07,05:12,H\n2031-04-07,05:12,H"),
    ] {
        refused(g, name, file.as_bytes(), 12);
    }
}

/// Refusal 13: times that do not rise and letters that do not alternate, where every line can be read.
fn unordered(g: &mut Group) {
    for (name, lines) in [
        ("equal times", &["2031-04-07,05:12,H", "2031-04-07,05:12,L"][..]),
        (
            "equal times, a low water first",
            &["2031-04-07,05:12,L", "2031-04-07,05:12,H"],
        ),
        ("a minute back", &["2031-04-07,05:12,H", "2031-04-07,05:11,L"]),
        ("a day back", &["2031-04-07,05:12,H", "2031-04-06,11:12,L"]),
        ("a month back", &["2031-04-07,05:12,H", "2031-03-31,23:59,L"]),
        ("a year back", &["2031-04-07,05:12,H", "2030-12-31,23:59,L"]),
        ("two high waters", &["2031-04-07,05:12,H", "2031-04-07,11:12,H"]),
        ("two low waters", &["2031-04-07,05:12,L", "2031-04-07,11:12,L"]),
        ("the same line", &["2031-04-07,05:12,H", "2031-04-07,05:12,H"]),
        (
            "two high waters last",
            &["2031-04-07,05:12,L", "2031-04-07,11:12,H", "2031-04-07,11:13,H"],
        ),
        (
            "two low waters last",
            &["2031-04-07,05:12,H", "2031-04-07,11:12,L", "2031-04-07,11:13,L"],
        ),
        (
            "equal times last",
            &["2031-04-07,05:12,H", "2031-04-07,11:12,L", "2031-04-07,11:12,H"],
        ),
    ] {
        let file: String = lines.iter().flat_map(|line| [line, "\n"]).collect();
        refused(g, name, file.as_bytes(), 13);
        let more = [file.as_bytes(), b"2031-04-08,00:00,H\n2031-04-08,07:00,L\n"].concat();
        refused(g, name, &more, 13);
        let less = [b"2000-01-01,00:00,H\n2000-01-01,07:00,L\n", file.as_bytes()].concat();
        refused(g, name, &less, 13);
    }
}

/// Every text of a date that has the right form, from 1999 to 2100: where it exists, its number shows in a window of its own.
fn every_date(g: &mut Group, chance: &mut Chance) {
    let mut days = 0;
    for year in 1999..=2100 {
        for (month, day) in (0..=13).flat_map(|month| (0..=32).map(move |day| (month, day))) {
            let file = format!("{year}-{month:02}-{day:02},00:00,H\n{year}-{month:02}-{day:02},10:00,L\n");
            let windows = tides::windows(file.as_bytes());
            both::tide_counts(g, file.as_bytes(), 1);
            let midnight = days * 1440;
            minutes(
                g,
                file.as_bytes(),
                &windows,
                [59, 60, 596, 597].map(|minute| midnight + minute),
            );
            days += u64::from(windows.is_ok());
        }
    }
    g.same(|| "days of the century".into(), &36_525, &days);
    for number in 0..=9999 {
        for date in ["01-01", "02-29", "12-31"] {
            alike(g, chance, format!("{number:04}-{date},05:12,H\n{LAST_LOW}").as_bytes());
        }
        let (month, day) = (number / 100, number % 100);
        alike(g, chance, format!("2096-{month:02}-{day:02},05:12,H\n{LAST_LOW}").as_bytes());
    }
}

/// Every text of a minute that has the right form.
fn every_time(g: &mut Group, chance: &mut Chance) {
    for (hour, minute) in (0..=99).flat_map(|hour| (0..=99).map(move |minute| (hour, minute))) {
        let file = format!("2031-04-07,{hour:02}:{minute:02},H\n2031-04-08,{hour:02}:{minute:02},L\n");
        alike(g, chance, file.as_bytes());
    }
}

/// Any two bytes next to each other in a line.
fn two_bytes(g: &mut Group) {
    let good = [LINE, LAST_LOW].concat().into_bytes();
    for place in 0..LINE.len() {
        let mut file = good.clone();
        for (one, two) in (0..=255).flat_map(|one| (0..=255).map(move |two| (one, two))) {
            (file[place], file[place + 1]) = (one, two);
            let windows = tides::windows(&file);
            let from = windows
                .as_deref()
                .map_or(0, |windows| windows.first().map_or(0, |window| window.from));
            minutes(g, &file, &windows, [from]);
        }
    }
}

/// Each byte of a file changed to every other value.
fn every_other_byte(g: &mut Group, chance: &mut Chance, file: &[u8]) {
    for place in 0..file.len() {
        let mut changed = file.to_vec();
        for value in (0..=255).filter(|&value| value != file[place]) {
            changed[place] = value;
            alike(g, chance, &changed);
        }
    }
}

/// A file cut at every length at either end, the rest still there in memory; and with a byte or a line more anywhere.
fn cut_and_longer(g: &mut Group, chance: &mut Chance, file: &[u8]) {
    for place in 0..=file.len() {
        alike(g, chance, &file[..place]);
        alike(g, chance, &file[place..]);
        for more in [
            &[chance.byte(0, 255)],
            &b"\n"[..],
            b"\r",
            b"0",
            LINE.as_bytes(),
            &LINE.as_bytes()[..18],
        ] {
            alike(g, chance, &[&file[..place], more, &file[place..]].concat());
        }
    }
}

/// A change by which two neighbours come out of order, or of the alternation, or both: mostly.
type Disorder = fn(&mut Vec<Tide>, usize);

const DISORDERS: [Disorder; 9] = [
    |tides, at| tides.swap(at, at + 1),
    |tides, at| tides.insert(at, tides[at]),
    |tides, at| _ = tides.remove(at),
    |tides, at| tides[at].water = other(tides[at].water),
    |tides, at| tides[at + 1].minute = tides[at].minute,
    |tides, at| tides[at].minute = tides[at + 1].minute,
    |tides, at| tides[at + 1].minute = tides[at].minute.saturating_sub(1),
    |tides, at| (tides[at].minute, tides[at + 1].minute) = (tides[at + 1].minute, tides[at].minute),
    |tides, at| (tides[at].water, tides[at + 1].water) = (tides[at + 1].water, tides[at].water),
];

/// Each of them at any place, and then a line besides that cannot be read, before it or after it.
fn out_of_order(g: &mut Group, chance: &mut Chance, tides: &[Tide]) {
    for at in 0..tides.len().saturating_sub(1) {
        for disorder in DISORDERS {
            let mut changed = tides.to_vec();
            disorder(&mut changed, at);
            let mut file = text(&changed);
            alike(g, chance, &file);
            let place = chance.between(0, file.len() - 1);
            file[place] = chance.pick(b"x\r\n:/-, 9\xff");
            alike(g, chance, &file);
            file.push(b'\n');
            alike(g, chance, &file);
        }
    }
}

/// One fault or two: a byte changed, left out or added, a bit turned, a line left out or repeated, or the end cut off.
pub fn damaged(chance: &mut Chance, mut file: Vec<u8>) -> Vec<u8> {
    for _ in 0..chance.between(1, 2) {
        if file.is_empty() {
            return chance.pick(&[&b"\n"[..], b"H", LINE.as_bytes()]).into();
        }
        let place = chance.between(0, file.len() - 1);
        let line = place - place % LINE.len();
        let after = file.len().min(line + LINE.len());
        match chance.below(8) {
            0 => file[place] = chance.byte(0, 255),
            1 => file[place] = chance.pick(b"0123456789-,:HL\n"),
            2 => _ = file.remove(place),
            3 => file.insert(place, chance.byte(0, 255)),
            4 => file[place] ^= 1 << chance.below(8),
            5 => _ = file.drain(line..after),
            6 => file.extend_from_within(line..after),
            _ => file.truncate(place),
        }
    }
    file
}

/// The tides of a century, as at sea; then with two lines in each other's place, near the start or at the end.
fn century(g: &mut Group, chance: &mut Chance, first: Water) {
    let mut tides = vec![];
    let (mut minute, mut water) = (chance.below(800), first);
    while minute < tides::minutes_of_century() {
        tides.push(Tide { minute, water });
        minute += gap(chance, 0);
        water = other(water);
    }
    let file = text(&tides);
    closely(g, chance, &file);
    both::tide_counts(g, &file, tides.len());
    for at in [0, tides.len() - 2] {
        let mut swapped = tides.clone();
        swapped.swap(at, at + 1);
        unordered_century(g, text(&swapped));
    }
}

/// Refused with 13; a line that cannot be read goes before that, wherever it stands.
fn unordered_century(g: &mut Group, mut file: Vec<u8>) {
    let (length, line) = (file.len(), LINE.len());
    refused_once(g, &file, 13);
    refused_once(g, &file[..length - 1], 12);
    for place in [0, line, length / 2, length - 1 - line, length - 2, length - 1] {
        let byte = std::mem::replace(&mut file[place], b'x');
        refused_once(g, &file, 12);
        file[place] = byte;
    }
}

/// A refusal of both calls, on a file that takes the second program a while.
fn refused_once(g: &mut Group, file: &[u8], number: u8) {
    both::tide_counts(g, file, 9).is(g, || "a century with a fault".into(), Err(number));
    both::tide_may_begin_is(g, file, 60, Err(number));
}
