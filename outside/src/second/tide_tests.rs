//! Document 02, request 1: the calendar, the windows and the refusals, with numbers worked out by hand.
use super::tides::{counts, line, may_begin, minutes_of_century, windows, Tide, Water, Window};

/// A file of these lines.
fn file(lines: &[&str]) -> Vec<u8> {
    lines.iter().flat_map(|line| [line, "\n"]).collect::<String>().into_bytes()
}

/// The minute of a date and time, seen by the window that a high water then would open.
fn minute(date: &str, time: &str) -> Result<u64, u8> {
    let high = format!("{date},{time},H");
    match windows(&file(&[&high, "2099-12-31,23:59,L"])) {
        Ok(found) => Ok(found[0].from - 60),
        // Unreadable, or the last minute of all.
        Err(number) => windows(&file(&["2000-01-01,00:00,H", &format!("{date},{time},L")]))
            .map(|found| found[0].to)
            .map_err(|_| number),
    }
}

/// The day of a date.
fn day(date: &str) -> Result<u64, u8> {
    Ok(minute(date, "00:00")? / 1440)
}

#[test]
fn days_are_numbered() {
    for (date, number) in [
        ("2000-01-01", 0),
        ("2000-01-31", 30),
        ("2000-02-01", 31),
        ("2000-02-28", 58),
        ("2000-02-29", 59),
        ("2000-03-01", 60),
        ("2000-12-31", 365),
        ("2001-01-01", 366),
        ("2001-03-01", 425),
        ("2004-02-29", 1520),
        ("2038-01-19", 13_898),
        ("2096-02-29", 35_123),
        ("2099-12-31", 36_524),
    ] {
        assert_eq!(day(date), Ok(number), "{date}");
    }
    assert_eq!(minutes_of_century(), 36_525 * 1440);
}

#[test]
fn minutes_are_numbered() {
    assert_eq!(minute("2000-01-01", "00:00"), Ok(0));
    assert_eq!(minute("2000-01-01", "00:59"), Ok(59));
    assert_eq!(minute("2000-01-01", "01:00"), Ok(60));
    assert_eq!(minute("2000-01-02", "00:00"), Ok(1440));
    assert_eq!(minute("2031-04-07", "05:12"), Ok(11_419 * 1440 + 312));
    assert_eq!(minute("2099-12-31", "23:58"), Ok(52_595_998));
    assert_eq!(minute("2099-12-31", "23:59"), Ok(52_595_999));
}

#[test]
fn dates_that_do_not_exist() {
    for date in [
        "1999-12-31",
        "2100-01-01",
        "2100-02-29",
        "0000-01-01",
        "2000-00-01",
        "2000-13-01",
        "2000-01-00",
        "2000-01-32",
        "2000-02-30",
        "2001-02-29",
        "2002-02-29",
        "2003-02-29",
        "2098-02-29",
        "2099-02-29",
        "2000-04-31",
        "2000-06-31",
        "2000-09-31",
        "2000-11-31",
        "2000-12-32",
        "2000-1-01",
        "2000-01-1",
        "02000-01-01",
        "2000-01-001",
        "2000/01/01",
        "+200-01-01",
        "2000- 1-01",
    ] {
        assert_eq!(minute(date, "05:12"), Err(12), "{date}");
    }
    for time in [
        "24:00", "23:60", "00:60", "5:12", "05:1", "05.12", "005:12", "05:012", "-5:12", "", "0512",
    ] {
        assert_eq!(minute("2031-04-07", time), Err(12), "{time}");
    }
}

/// A line is as long as document 02 has it, and is read as it is written.
#[test]
fn lines_there_and_back() {
    let tide = Tide {
        minute: 11_419 * 1440 + 312,
        water: Water::High,
    };
    assert_eq!(line(tide), "2031-04-07,05:12,H\n");
    for minute in (0..minutes_of_century()).step_by(1439) {
        let [high, low] = [(minute, Water::High), (minute + 1, Water::Low)].map(|(minute, water)| line(Tide { minute, water }));
        assert_eq!((high.len(), low.len()), (19, 19));
        let window = Window {
            from: minute + 60,
            to: minute + 1,
        };
        assert_eq!(windows([high, low].concat().as_bytes()), Ok(vec![window]));
    }
}

#[test]
fn unreadable_files() {
    let good = "2031-04-07,05:12,H\n";
    assert_eq!(counts(good.as_bytes(), 0), Ok(vec![]));
    for bad in [
        "\n",
        "2031-04-07,05:12,H",
        "2031-04-07,05:12,H\r\n",
        "2031-04-07,05:12,H\n\n",
        "\n2031-04-07,05:12,H\n",
        "2031-04-07,05:12,H\n ",
        "2031-04-07,05:12,h\n",
        "2031-04-07,05:12,M\n",
        "2031-04-07,05:12,\n",
        "2031-04-07,05:12\n",
        "2031-04-07,05:12,HL\n",
        "2031-04-07,05:12,H,\n",
        "2031-04-07 05:12,H\n",
        " 2031-04-07,05:12,H\n",
        "2031-04-07,05:12,H \n",
    ] {
        for file in [bad.into(), format!("{good}{bad}"), format!("{bad}{good}")] {
            // The good line before one that is cut does not mend it, and the one after it does not either.
            assert_eq!(counts(file.as_bytes(), 9), Err(12), "{file:?}");
            assert_eq!(may_begin(file.as_bytes(), 0), Err(12), "{file:?}");
        }
    }
}

/// So many minutes from a high water to its low water: how many moves fit.
#[test]
fn moves_of_a_window() {
    for (minutes, moves) in [
        (1, 0),
        (59, 0),
        (60, 0),
        (61, 0),
        (63, 0),
        (64, 1),
        (67, 1),
        (68, 2),
        (71, 2),
        (72, 3),
        (372, 78),
        (1440, 345),
    ] {
        let [high, low] = [(777, Water::High), (777 + minutes, Water::Low)].map(|(minute, water)| line(Tide { minute, water }));
        let file = [high, low].concat();
        assert_eq!(counts(file.as_bytes(), 1), Ok(vec![moves]), "{minutes} minutes");
        let begins: Vec<u64> = (0..3000)
            .filter(|&minute| may_begin(file.as_bytes(), minute).unwrap())
            .collect();
        let expected: Vec<u64> = (777 + 60..=(777 + minutes).saturating_sub(4)).collect();
        assert_eq!(begins, expected, "{minutes} minutes");
    }
}

#[test]
fn windows_of_a_file() {
    let [low, high, next_low, last_high] = [
        "2000-01-01,00:00,L",
        "2000-01-01,05:00,H",
        "2000-01-01,11:00,L",
        "2000-01-01,17:00,H",
    ];
    let window = Window { from: 360, to: 660 };
    assert_eq!(windows(&[]), Ok(vec![]));
    assert_eq!(windows(&file(&[low])), Ok(vec![]));
    assert_eq!(windows(&file(&[high])), Ok(vec![]));
    assert_eq!(windows(&file(&[low, high])), Ok(vec![]));
    assert_eq!(windows(&file(&[high, next_low])), Ok(vec![window]));
    assert_eq!(windows(&file(&[low, high, next_low, last_high])), Ok(vec![window]));
    let two = file(&[high, next_low, last_high, "2000-01-01,17:30,L"]);
    assert_eq!(counts(&two, 2), Ok(vec![75, 0]));
    assert_eq!((counts(&two, 1), counts(&two, 0)), (Err(9), Err(9)));
    assert_eq!(
        [359, 360, 656, 657].map(|minute| may_begin(&two, minute)),
        [Ok(false), Ok(true), Ok(true), Ok(false)]
    );
    assert_eq!(
        [u64::MAX - 4, u64::MAX - 3, u64::MAX].map(|minute| may_begin(&two, minute)),
        [Ok(false); 3]
    );
}

#[test]
fn files_out_of_order() {
    let [first, second, third] = ["2000-01-01,05:00,H", "2000-01-01,11:00,L", "2000-01-01,17:00,H"];
    for lines in [
        [first, first, second],
        [second, first, third],
        [first, third, second],
        [first, "2000-01-01,05:00,L", third],
        [first, second, "2000-01-01,11:00,H"],
        [first, second, "2000-01-01,17:00,L"],
        [first, "2000-01-01,11:00,H", third],
        ["2000-01-02,05:00,H", "2000-01-01,11:00,L", "2000-01-02,17:00,H"],
    ] {
        let mut bytes = file(&lines);
        assert_eq!((counts(&bytes, 0), may_begin(&bytes, 360)), (Err(13), Err(13)), "{lines:?}");
        // A line that cannot be read goes before, wherever it stands.
        bytes.push(b'\n');
        assert_eq!((counts(&bytes, 0), may_begin(&bytes, 360)), (Err(12), Err(12)), "{lines:?}");
    }
}

/// One window over the century, and one for each two days of it.
#[test]
fn centuries() {
    let whole = file(&["2000-01-01,00:00,H", "2099-12-31,23:59,L"]);
    assert_eq!(counts(&whole, 1), Ok(vec![(52_595_999 - 60) / 4]));
    let water = |day: u64| if day % 2 == 0 { Water::High } else { Water::Low };
    let daily: String = (0..36_525)
        .map(|day| {
            line(Tide {
                minute: day * 1440,
                water: water(day),
            })
        })
        .collect();
    assert_eq!(counts(daily.as_bytes(), 18_262), Ok(vec![345; 18_262]));
    assert_eq!(counts(daily.as_bytes(), 18_261), Err(9));
}
