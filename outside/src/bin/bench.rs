//! The proved library against plain Rust (src/plain) for the same jobs, in one process: `bench [--quick] [TABLE ..]`. It prints
//! Markdown, for docs/BENCHMARKS.md, which says how to read it.
//!
//! Of the engines a run of moves is measured, from the start, and one move from a setting in mid-list. The columns of their
//! tables:
//!
//! - ours: the library's call, which tests what it is given, opens a walk, makes the run and lets the walk go.
//! - Algorithm H: Knuth's loopless algorithm in C at -O3, step by step as he describes it (The Art of Computer Programming,
//!   7.2.1.1), for runs of the buffered engine. It lists the same moves with no test and no buffer: less than ours does.
//! - tuned Algorithm H: the same in C, but not as he describes it: changed for speed (src/plain/algorithm_h.c says how). For
//!   long runs alone, since in short ones opening is most of the time.
//! - plain Rust: does the same as ours, with the same tests and the same engine.
//!
//! Of each form of Algorithm H there are two programs, by cc and by clang, and in each row the better one counts.
//!
//! Of ranks there is a second proved library, which tests a setting in one pass and ranks it in another: two passes.
//!
//! Of tides there are several plain programs, and each row names its own: lines are read byte by byte, in the ordinary way, or
//! on words of eight bytes; counts are gathered in memory of its own and copied out, or written in a second pass.
use outside::capi::{self, Answer};
use outside::chance::Chance;
use outside::clock::time;
use outside::plain::algorithm_h::{AlgorithmH, Form, LITERAL, TUNED};
use outside::plain::{disks, list, log, tides, walk, words};
use outside::run::Run;
use outside::second::tides::{line, minutes_of_century, Tide, Water};
use outside::tables::{best, ratio, Survey};
use outside::two_pass;
use std::hint::black_box;
use std::process::{Command, ExitCode};
use std::time::Duration;

/// Calls of each batch of `size`, `rank` and `word`, each on its own rank.
const CALLS: usize = 1024;
/// Bytes of a window of the list.
const WINDOW: usize = 1 << 20;
/// Windows of each batch, each from its own rank.
const WINDOWS: usize = 16;
/// Moves of a log: with their kinds, about 1 MiB.
const LOGGED: u64 = 524_000;
/// Moves of the short runs.
const SHORT: [u64; 7] = [1, 2, 4, 16, 64, 256, 1024];
/// Calls of a batch of short runs.
const SHORT_CALLS: usize = 64;
/// Bytes of a line of tides.
const LINE: usize = 19;

/// Twenty odd counts, for the disk engine.
const MIXED_ODD: [u8; 20] = [7, 3, 11, 5, 9, 3, 7, 11, 9, 5, 5, 11, 3, 9, 7, 9, 7, 3, 5, 11];

/// Surveys of equal counts, and one of mixed ones.
fn with_mixed(mixed: Survey) -> Vec<Survey> {
    let equal = [(6, 10), (6, 255), (20, 3), (20, 8), (39, 3), (48, 2)];
    let mut surveys: Vec<Survey> = equal.map(|(n, m)| Survey::equal(n, m)).into();
    surveys.insert(4, mixed);
    surveys
}

fn all_surveys() -> Vec<Survey> {
    with_mixed(Survey::twenty_mixed())
}

/// For the buffered engine, one of them with locked sluices.
fn buffered_surveys() -> Vec<Survey> {
    let equal = [(6, 10), (20, 3), (39, 3), (48, 2), (20, 8)];
    let locked = Survey::locked(44, 2, 4);
    equal.map(|(n, m)| Survey::equal(n, m)).into_iter().chain([locked]).collect()
}

/// For the disk engine, which plays with counts that are all odd, or all even and equal, but for locked sluices. These change
/// its work: so the same with and without them beside each other.
fn disk_surveys() -> Vec<Survey> {
    let mut surveys = with_mixed(Survey::mixed("20 mixed, odd, 3 to 11", &MIXED_ODD));
    surveys.extend([
        Survey::equal(10, 4),
        Survey::locked(20, 3, 10),
        Survey::equal(44, 2),
        Survey::locked(44, 2, 4),
    ]);
    surveys
}

/// For short runs.
fn two_surveys() -> Vec<Survey> {
    vec![Survey::equal(6, 10), Survey::equal(48, 2)]
}

/// For walks that are picked up, one of them with locked sluices.
fn resumed_surveys() -> Vec<Survey> {
    let equal = [(6, 10), (20, 3), (48, 2)];
    let locked = Survey::locked(44, 2, 4);
    equal.map(|(n, m)| Survey::equal(n, m)).into_iter().chain([locked]).collect()
}

/// In what a job is counted, and how a time of so many ns for one is shown.
struct Unit {
    name: &'static str,
    show: fn(f64) -> String,
}

const NS_A_CALL: Unit = Unit {
    name: "ns a call",
    show: |ns| format!("{ns:.1}"),
};
const NS_A_MOVE: Unit = Unit {
    name: "ns a move",
    show: |ns| format!("{ns:.2}"),
};
const NS_A_LINE: Unit = Unit {
    name: "ns a line",
    show: |ns| format!("{ns:.2}"),
};
const BYTES: Unit = Unit {
    name: "GB/s",
    show: |ns| format!("{:.2}", 1.0 / ns),
};
const MOVES: Unit = Unit {
    name: "million moves/s",
    show: |ns| format!("{:.0}", 1e3 / ns),
};

/// How long to measure.
struct Bench {
    rounds: usize,
    /// Of each side in each round.
    least: Duration,
    /// Moves of a run by an engine; a survey may end before.
    walked: usize,
}

const WHOLE: Bench = Bench {
    rounds: 15,
    least: Duration::from_millis(25),
    walked: 1 << 20,
};
const QUICK: Bench = Bench {
    rounds: 3,
    least: Duration::from_millis(3),
    walked: 1 << 17,
};

/// A batch of work of one side.
type Work<'a> = &'a mut dyn FnMut();

/// Writes into lent memory, as a side does it.
type Writer<'a> = &'a dyn Fn(&mut [u8]) -> Answer;

impl Bench {
    /// How often a batch has to be repeated for a round. This also warms caches up.
    fn times(&self, work: &mut dyn FnMut()) -> u32 {
        let mut times = 1;
        while time(times, work) < self.least {
            times *= 2;
        }
        times
    }

    /// Every side in each round, the first one last in every other round; the ns that one unit took, by side and round.
    fn rounds(&self, units: u64, sides: &mut [Work]) -> Vec<Vec<f64>> {
        let times: Vec<u32> = sides.iter_mut().map(|work| self.times(work)).collect();
        let mut taken = vec![vec![0.0; self.rounds]; sides.len()];
        for round in 0..self.rounds {
            for turn in 0..sides.len() {
                let side = if round % 2 == 0 { turn } else { sides.len() - 1 - turn };
                let units = u64::from(times[side]) * units;
                taken[side][round] = time(times[side], sides[side]).as_nanos() as f64 / units as f64;
            }
        }
        taken
    }

    /// A row of a table: our side comes first.
    fn row(&self, survey: &Survey, unit: &Unit, units: u64, sides: &mut [Work]) {
        print_row(&survey.name, unit, &self.rounds(units, sides));
    }
}

/// Of each column the side with the best round.
fn better(columns: &[Vec<Writer>], taken: Vec<Vec<f64>>) -> Vec<Vec<f64>> {
    let mut taken = taken.into_iter();
    let one = |sides: &Vec<Writer>| taken.by_ref().take(sides.len()).min_by(|a, b| best(a).total_cmp(&best(b)));
    columns.iter().map(one).map(|side| side.expect("a side")).collect()
}

/// Of each side the best round, then the first one's time over that of each other side.
fn print_row(name: &str, unit: &Unit, taken: &[Vec<f64>]) {
    let times = taken.iter().map(|ns| (unit.show)(best(ns)));
    let ratios = taken[1..].iter().map(|plain| ratio(&taken[0], plain));
    let cells: Vec<String> = times.chain(ratios).collect();
    println!("| {name} | {} |", cells.join(" | "));
}

/// The head of a table: a column for what its rows are of, for each side and for each ratio.
fn head(title: &str, rows: &str, unit: &Unit, others: &[&str]) {
    let sides = others.iter().map(|other| format!("{other}, {}", unit.name));
    let ratios = others.iter().map(|other| format!("ours / {other}"));
    let columns: Vec<String> = sides.chain(ratios).collect();
    println!("\n### {title}\n\n| {rows} | ours, {} | {} |", unit.name, columns.join(" | "));
    println!("|---|---|{}", "---|".repeat(columns.len()));
}

/// The bytes that all sides write, and their answer: memory of `room` bytes that was the same for each. Panics where one
/// differs.
fn alike(room: usize, sides: &[Writer]) -> (Vec<u8>, u64) {
    let mut written = sides.iter().map(|write| {
        let mut out = vec![0xaa; room];
        let answer = write(&mut out);
        (out, answer)
    });
    let (out, answer) = written.next().expect("a side");
    for other in written {
        assert!(other == (out.clone(), answer), "the sides differ: {answer:?}, {:?}", other.1);
    }
    (out, answer.expect("an accepted call"))
}

fn size_row(bench: &Bench, survey: &Survey) {
    fn batch(size: impl Fn(&[u8]) -> Answer, radices: &[u8]) {
        for _ in 0..CALLS {
            let _ = black_box(size(black_box(radices)));
        }
    }
    let radices = &survey.radices;
    assert_eq!(capi::size(radices), words::size(radices));
    let sides: &mut [Work] = &mut [&mut || batch(capi::size, radices), &mut || batch(words::size, radices)];
    bench.row(survey, &NS_A_CALL, CALLS as u64, sides);
}

fn rank_row(bench: &Bench, survey: &Survey) {
    fn batch(rank: impl Fn(&[u8], &[u8]) -> Answer, radices: &[u8], settings: &[u8]) {
        for setting in settings.chunks_exact(radices.len()) {
            let _ = black_box(rank(black_box(radices), black_box(setting)));
        }
    }
    let radices = &survey.radices;
    let n = radices.len();
    let ranks = survey.ranks(CALLS, survey.size() - 1);
    let mut settings = vec![0; CALLS * n];
    for (setting, &rank) in settings.chunks_exact_mut(n).zip(&ranks) {
        words::word(radices, rank, setting).expect("a rank of the list");
        for answer in [capi::rank, two_pass::rank, words::rank].map(|side| side(radices, setting)) {
            assert_eq!(answer, Ok(rank));
        }
    }
    let ours = &mut || batch(capi::rank, radices, &settings);
    let two_pass = &mut || batch(two_pass::rank, radices, &settings);
    let plain = &mut || batch(words::rank, radices, &settings);
    bench.row(survey, &NS_A_CALL, CALLS as u64, &mut [ours, two_pass, plain]);
}

fn word_row(bench: &Bench, survey: &Survey) {
    fn batch(word: impl Fn(&[u8], u64, &mut [u8]) -> Answer, radices: &[u8], ranks: &[u64], out: &mut [u8]) {
        for &rank in ranks {
            let _ = black_box(word(black_box(radices), black_box(rank), black_box(&mut *out)));
        }
    }
    let radices = &survey.radices;
    let ranks = survey.ranks(CALLS, survey.size() - 1);
    for &rank in &ranks {
        alike(
            50,
            &[&|out| capi::word(radices, rank, out), &|out| words::word(radices, rank, out)],
        );
    }
    let (mut a, mut b) = ([0; 48], [0; 48]);
    let ours = &mut || batch(capi::word, radices, &ranks, &mut a);
    let plain = &mut || batch(words::word, radices, &ranks, &mut b);
    bench.row(survey, &NS_A_CALL, CALLS as u64, &mut [ours, plain]);
}

fn list_row(bench: &Bench, survey: &Survey) {
    fn batch(write: impl Fn(&[u8], u64, u64, &mut [u8]) -> Answer, radices: &[u8], ranks: &[u64], count: u64, out: &mut [u8]) {
        for &rank in ranks {
            let _ = black_box(write(
                black_box(radices),
                black_box(rank),
                black_box(count),
                black_box(&mut *out),
            ));
        }
    }
    let radices = &survey.radices;
    let count = survey.size().min((WINDOW / radices.len()) as u64);
    let ranks = survey.ranks(WINDOWS, survey.size() - count);
    for &rank in &ranks {
        alike(
            WINDOW,
            &[&|out| capi::list(radices, rank, count, out), &|out| {
                list::list(radices, rank, count, out)
            }],
        );
    }
    let (mut a, mut b) = (vec![0; WINDOW], vec![0; WINDOW]);
    let ours = &mut || batch(capi::list, radices, &ranks, count, &mut a);
    let plain = &mut || batch(list::list, radices, &ranks, count, &mut b);
    let bytes = count * (radices.len() * WINDOWS) as u64;
    bench.row(survey, &BYTES, bytes, &mut [ours, plain]);
}

/// A log of the survey, the same from both writers.
fn logged(survey: &Survey) -> (u64, Vec<u8>) {
    let (radices, capacity) = (&survey.radices, survey.capacity());
    let moves = LOGGED.min(survey.size() - 1);
    let ours: Writer = &|out| capi::log_write(radices, capacity, moves, out);
    let (mut bytes, length) = alike(WINDOW + 1000, &[ours, &|out| log::write(radices, capacity, moves, out)]);
    bytes.truncate(length as usize);
    (moves, bytes)
}

fn log_write_row(bench: &Bench, survey: &Survey) {
    fn batch(write: impl Fn(&[u8], usize, u64, &mut [u8]) -> Answer, survey: &Survey, moves: u64, out: &mut [u8]) {
        let (radices, capacity) = (black_box(&survey.radices[..]), black_box(survey.capacity()));
        let _ = black_box(write(radices, capacity, black_box(moves), black_box(out)));
    }
    let (moves, mut a) = logged(survey);
    let mut b = a.clone();
    let ours = &mut || batch(capi::log_write, survey, moves, &mut a);
    let plain = &mut || batch(log::write, survey, moves, &mut b);
    bench.row(survey, &MOVES, moves, &mut [ours, plain]);
}

fn log_read_row(bench: &Bench, survey: &Survey) {
    fn batch(read: impl Fn(&[u8]) -> Answer, log: &[u8]) {
        let _ = black_box(read(black_box(log)));
    }
    let (moves, bytes) = logged(survey);
    assert_eq!((capi::log_read(&bytes), log::read(&bytes)), (Ok(moves), Ok(moves)));
    let sides: &mut [Work] = &mut [&mut || batch(capi::log_read, &bytes), &mut || batch(log::read, &bytes)];
    bench.row(survey, &MOVES, moves, sides);
}

/// The moves made by a run that is accepted.
fn made(run: Run) -> Answer {
    match run {
        Run::Made(moves) | Run::Ended(moves) => Ok(moves),
        Run::Stopped(_, number) | Run::Refused(number) => Err(number),
    }
}

/// So many calls on memory of their own. What is lent is as long as the run.
fn calls<'a>(times: usize, room: usize, write: Writer<'a>) -> impl FnMut() + 'a {
    let mut out = vec![0; room];
    move || {
        for _ in 0..times {
            let _ = black_box(write(black_box(&mut out)));
        }
    }
}

/// What a table of runs counts: how many calls a batch has, and how many units where each of them makes so many moves. Then
/// what forms of Algorithm H it has.
struct Counted {
    unit: Unit,
    calls: usize,
    units: fn(u64) -> u64,
    forms: &'static [Form],
}

const MOVES_OF_A_RUN: Counted = Counted {
    unit: NS_A_MOVE,
    calls: 1,
    units: |moves| moves,
    forms: &[LITERAL, TUNED],
};
const SHORT_RUNS: Counted = Counted {
    unit: NS_A_CALL,
    calls: SHORT_CALLS,
    units: |_| SHORT_CALLS as u64,
    forms: &[LITERAL],
};

/// A row of runs of t moves by the buffered engine: ours, the forms of Algorithm H and plain Rust.
fn runs_row(bench: &Bench, survey: &Survey, t: u64, counted: &Counted, name: &str) {
    let (radices, capacity, t) = (black_box(&survey.radices[..]), black_box(survey.capacity()), black_box(t));
    let ours: Writer = &|out| made(capi::moves(radices, capacity, t, out));
    let plain: Writer = &|out| made(walk::run(radices, capacity, t, out));
    let listed = |h: &'static AlgorithmH| move |out: &mut [u8]| Ok(h.run(radices, t, out));
    let forms: Vec<_> = counted.forms.iter().map(|form| form.each_ref().map(listed)).collect();

    let mut columns = vec![vec![ours]];
    columns.extend(forms.iter().map(|[by_cc, by_clang]| vec![by_cc as Writer, by_clang]));
    columns.push(vec![plain]);
    let sides = columns.concat();
    let (_, moves) = alike(t as usize, &sides);
    let mut batches: Vec<_> = sides.iter().map(|write| calls(counted.calls, t as usize, write)).collect();
    let mut works: Vec<Work> = batches.iter_mut().map(|batch| batch as Work).collect();
    let taken = bench.rounds((counted.units)(moves), &mut works);
    print_row(name, &counted.unit, &better(&columns, taken));
}

fn walk_row(bench: &Bench, survey: &Survey) {
    runs_row(bench, survey, bench.walked as u64, &MOVES_OF_A_RUN, &survey.name);
}

/// A row for each length: a call opens the walk too, and where few moves are made that is most of it.
fn short_rows(bench: &Bench, survey: &Survey) {
    for t in SHORT {
        runs_row(bench, survey, t, &SHORT_RUNS, &format!("{}, t = {t}", survey.name));
    }
}

/// Settings of the list's middle half, one after another.
fn settings_in_mid_list(survey: &Survey) -> Vec<u8> {
    let (n, size) = (survey.radices.len(), survey.size());
    let mut settings = vec![0; CALLS * n];
    for (setting, rank) in settings.chunks_exact_mut(n).zip(survey.ranks(CALLS, size / 2)) {
        words::word(&survey.radices, size / 4 + rank, setting).expect("a rank of the list");
    }
    settings
}

/// One move from each of these settings: a call picks the walk up, which is most of it.
fn resumed_row(bench: &Bench, survey: &Survey) {
    fn batch(resume: impl Fn(&[u8], usize, &[u8], u64, &mut [u8]) -> Run, survey: &Survey, settings: &[u8], out: &mut [u8]) {
        let (radices, capacity) = (&survey.radices, survey.capacity());
        for setting in settings.chunks_exact(radices.len()) {
            let _ = black_box(resume(
                black_box(radices),
                black_box(capacity),
                black_box(setting),
                black_box(1),
                black_box(&mut *out),
            ));
        }
    }
    let (radices, capacity) = (&survey.radices, survey.capacity());
    let settings = settings_in_mid_list(survey);
    for setting in settings.chunks_exact(radices.len()) {
        let ours: Writer = &|out| made(capi::resume_moves(radices, capacity, setting, 1, out));
        alike(2, &[ours, &|out| made(walk::resumed_run(radices, capacity, setting, 1, out))]);
    }
    let (mut a, mut b) = ([0], [0]);
    let ours = &mut || batch(capi::resume_moves, survey, &settings, &mut a);
    let plain = &mut || batch(walk::resumed_run, survey, &settings, &mut b);
    bench.row(survey, &NS_A_CALL, CALLS as u64, &mut [ours, plain]);
}

fn disk_row(bench: &Bench, survey: &Survey) {
    let (radices, t) = (black_box(&survey.radices[..]), bench.walked);
    let sides: [Writer; 2] = [&|out| made(capi::towers(radices, t as u64, out)), &|out| {
        made(disks::run(radices, t as u64, out))
    }];
    let (_, moves) = alike(t, &sides);
    let [mut ours, mut plain] = sides.map(|write| calls(1, t, write));
    bench.row(survey, &NS_A_MOVE, moves, &mut [&mut ours, &mut plain]);
}

/// A century of tides as at sea: a high water every 745 minutes or so, a low water in between.
fn century() -> Vec<u8> {
    let mut chance = Chance::new(745);
    let mut file = vec![];
    let mut water = Water::High;
    for half in 0.. {
        let minute = 745 * half / 2 + chance.below(41);
        if minute >= minutes_of_century() {
            break;
        }
        file.extend(line(Tide { minute, water }).into_bytes());
        water = if water == Water::High { Water::Low } else { Water::High };
    }
    file
}

/// The same with its first two lines in each other's place.
fn out_of_order(mut file: Vec<u8>) -> Vec<u8> {
    file[..2 * LINE].rotate_left(LINE);
    file
}

/// A row of one way to count, into just enough room.
fn tide_counts_row(bench: &Bench, name: &str, file: &[u8], plain: fn(&[u8], &mut [u32]) -> Answer) {
    let (file, lines) = (black_box(file), file.len() / LINE);
    let (mut a, mut b) = (vec![0xaaaa_aaaa; lines / 2], vec![0xaaaa_aaaa; lines / 2]);
    let answers = (capi::tide_counts(file, &mut a), plain(file, &mut b));
    assert!(answers.0 == answers.1 && a == b, "the sides differ: {answers:?}");
    let ours = &mut || _ = black_box(capi::tide_counts(file, black_box(&mut a)));
    let plain = &mut || _ = black_box(plain(file, black_box(&mut b)));
    print_row(name, &NS_A_LINE, &bench.rounds(lines as u64, &mut [ours, plain]));
}

/// A row of one way to ask for a minute, in the century's middle.
fn tide_may_begin_row(bench: &Bench, name: &str, file: &[u8], plain: fn(&[u8], u64) -> Result<bool, u8>) {
    let (file, minute) = (black_box(file), black_box(minutes_of_century() / 2));
    let answers = (capi::tide_may_begin(file, minute), plain(file, minute));
    assert!(answers.0 == answers.1, "the sides differ: {answers:?}");
    let ours = &mut || _ = black_box(capi::tide_may_begin(file, minute));
    let plain = &mut || _ = black_box(plain(file, minute));
    print_row(
        name,
        &NS_A_LINE,
        &bench.rounds((file.len() / LINE) as u64, &mut [ours, plain]),
    );
}

/// The library against each plain program; then both on a file that is refused only when all lines have been read.
fn tide_rows(bench: &Bench) {
    let file = century();
    let counts = |name, plain| tide_counts_row(bench, name, &file, plain);
    counts("counts; plain: byte by byte, gathering", tides::counts);
    counts("counts; plain: byte by byte, in two passes", tides::counts_in_two_passes);
    counts("counts; plain: on words of eight bytes, gathering", tides::counts_on_words);
    let may_begin = |name, plain| tide_may_begin_row(bench, name, &file, plain);
    may_begin("may_begin; plain: byte by byte", tides::may_begin);
    may_begin("may_begin; plain: on words of eight bytes", tides::may_begin_on_words);
    // The first of two passes refuses it, and gathers nothing in vain.
    let refused = out_of_order(file.clone());
    let name = "counts, refused with 13 at line 2; plain: byte by byte, in two passes";
    tide_counts_row(bench, name, &refused, tides::counts_in_two_passes);
    let name = "may_begin, refused with 13 at line 2; plain: byte by byte";
    tide_may_begin_row(bench, name, &refused, tides::may_begin);
}

/// What a compiler says of itself first.
fn version(compiler: &str) -> String {
    let output = Command::new(compiler).arg("--version").output();
    let said = output.map_or(String::new(), |output| String::from_utf8_lossy(&output.stdout).into_owned());
    let first = said.lines().next().map(String::from);
    first.unwrap_or(format!("no {compiler}"))
}

/// The processor, its cores and the compilers of the other sides.
fn machine() {
    let info = std::fs::read_to_string("/proc/cpuinfo").unwrap_or_default();
    let model = info
        .lines()
        .find_map(|line| line.strip_prefix("model name"))
        .map(|rest| rest.trim_start_matches([' ', '\t', ':']));
    let cores = std::thread::available_parallelism().map_or(0, |cores| cores.get());
    println!("Machine: {}, {cores} cores.", model.unwrap_or("unknown processor"));
    println!("Plain Rust by {}.", version("rustc"));
    println!(
        "Algorithm H, as Knuth describes it and tuned, by {} and {}, in each row the better.",
        version("cc"),
        version("clang")
    );
}

/// A table: what it is called, what its sides are counted in, what ours is held to, and its rows.
struct Table {
    name: &'static str,
    unit: Unit,
    others: &'static [&'static str],
    rows: Rows,
}

enum Rows {
    /// Of each of these surveys.
    OfSurveys(fn() -> Vec<Survey>, fn(&Bench, &Survey)),
    /// Of calls on files of tides.
    OfTides(fn(&Bench)),
}

const PLAIN: &[&str] = &["plain Rust"];
/// The proved rank in two passes, of which the first tests the word: ours does both at once.
const RANKS: &[&str] = &["two passes", "plain Rust"];
/// Algorithm H as Knuth describes it, and for long runs the tuned form too.
const RUNS: &[&str] = &["Algorithm H", "tuned Algorithm H", "plain Rust"];
const SHORT_ONES: &[&str] = &["Algorithm H", "plain Rust"];

const TABLES: [Table; 11] = [
    Table {
        name: "size",
        unit: NS_A_CALL,
        others: PLAIN,
        rows: Rows::OfSurveys(all_surveys, size_row),
    },
    Table {
        name: "rank",
        unit: NS_A_CALL,
        others: RANKS,
        rows: Rows::OfSurveys(all_surveys, rank_row),
    },
    Table {
        name: "word",
        unit: NS_A_CALL,
        others: PLAIN,
        rows: Rows::OfSurveys(all_surveys, word_row),
    },
    Table {
        name: "list",
        unit: BYTES,
        others: PLAIN,
        rows: Rows::OfSurveys(all_surveys, list_row),
    },
    Table {
        name: "log_write",
        unit: MOVES,
        others: PLAIN,
        rows: Rows::OfSurveys(all_surveys, log_write_row),
    },
    Table {
        name: "log_read",
        unit: MOVES,
        others: PLAIN,
        rows: Rows::OfSurveys(all_surveys, log_read_row),
    },
    Table {
        name: "moves",
        unit: NS_A_MOVE,
        others: RUNS,
        rows: Rows::OfSurveys(buffered_surveys, walk_row),
    },
    Table {
        name: "short",
        unit: NS_A_CALL,
        others: SHORT_ONES,
        rows: Rows::OfSurveys(two_surveys, short_rows),
    },
    Table {
        name: "resume",
        unit: NS_A_CALL,
        others: PLAIN,
        rows: Rows::OfSurveys(resumed_surveys, resumed_row),
    },
    Table {
        name: "towers",
        unit: NS_A_MOVE,
        others: PLAIN,
        rows: Rows::OfSurveys(disk_surveys, disk_row),
    },
    Table {
        name: "tides",
        unit: NS_A_LINE,
        others: PLAIN,
        rows: Rows::OfTides(tide_rows),
    },
];

impl Table {
    fn print(&self, bench: &Bench) {
        let head = |rows| head(self.name, rows, &self.unit, self.others);
        match self.rows {
            Rows::OfSurveys(surveys, rows) => {
                head("radices");
                surveys().iter().for_each(|survey| rows(bench, survey));
            }
            Rows::OfTides(rows) => {
                head("call");
                rows(bench);
            }
        }
    }
}

fn main() -> ExitCode {
    let mut bench = WHOLE;
    let mut wanted = vec![];
    for arg in std::env::args().skip(1) {
        if arg == "--quick" {
            bench = QUICK;
        } else if TABLES.iter().any(|table| table.name == arg) {
            wanted.push(arg);
        } else {
            eprintln!(
                "usage: bench [--quick] [TABLE ..]; the tables: {}",
                TABLES.map(|table| table.name).join(" ")
            );
            return ExitCode::FAILURE;
        }
    }
    machine();
    println!(
        "\n{} rounds, in each of them every side for {} ms or more.",
        bench.rounds,
        bench.least.as_millis()
    );
    let chosen = |table: &&Table| wanted.is_empty() || wanted.iter().any(|name| name == table.name);
    TABLES.iter().filter(chosen).for_each(|table| table.print(&bench));
    ExitCode::SUCCESS
}
